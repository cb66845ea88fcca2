"""Judges the schemas of a git repository against those of an earlier commit, as modules; `build.py` joins them into the
one file `avro-breaking`."""

"""Tests of the modules: `python3 -m unittest discover -s breaking -t .`, from the folder above them."""

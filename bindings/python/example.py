#!/usr/bin/env python3
"""Judges the schemas of two files, and explains a no.

    example.py WRITER READER

It ends with the status of `avro judge`.
"""

from __future__ import annotations

import json
import pathlib
import sys

import avrojudge


def main() -> int:
    if len(sys.argv) != 3:
        print(__doc__, file=sys.stderr)
        return 64
    writer, reader = (pathlib.Path(word).read_bytes() for word in sys.argv[1:])
    try:
        verdict = avrojudge.judge(writer, reader)
    except avrojudge.Refused as refused:
        print(refused, file=sys.stderr)
        return 3
    print(verdict.answer.name.lower())
    if verdict.cause:
        print(f"the limit that is passed: {verdict.cause}")
    if verdict.fault:
        print(f"a least datum that fails: {json.dumps(verdict.datum)}")
        for fault in avrojudge.explain(writer, reader).faults:
            print(f"{fault.reader}: {fault.what}")
    return int(verdict.answer)


if __name__ == "__main__":
    sys.exit(main())

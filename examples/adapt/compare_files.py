#!/usr/bin/env python3
"""Compares the measurements of make_files.py with those of the file that they were migrated to, datum by datum.

    compare_files.py OLD NEW

Both are files of codec null. A float or double is compared by its bytes. Prints 'N data are equal' with status 0, or
the first datum that differs with status 1.
"""

from __future__ import annotations

import io
import json
import struct
import sys
from typing import Any, BinaryIO, Iterator

from filters import read_bytes, read_header, read_long, take


def decoded(schema: Any, source: BinaryIO) -> Any:
    """A datum, with its floats and doubles as bytes."""
    word = schema["type"] if isinstance(schema, dict) else schema
    if isinstance(word, list):
        branch = word[read_long(source)]
        return decoded(branch, source)
    if word in ("float", "double"):
        return take(source, 4 if word == "float" else 8)
    if word == "record":
        return {field["name"]: decoded(field["type"], source) for field in schema["fields"]}
    if word == "array":
        return [decoded(schema["items"], source) for _ in parts(source)]
    if word == "map":
        return {read_bytes(source): decoded(schema["values"], source) for _ in parts(source)}
    return {"null": lambda _: None, "long": read_long, "string": read_bytes}[word](source)


def parts(source: BinaryIO) -> Iterator[int]:
    """Once for each item, or entry; blocks with a size are not in these files."""
    while count := read_long(source):
        yield from range(count)


def data_of(path: str) -> Iterator[dict]:
    with open(path, "rb") as source:
        header = read_header(source)
        schema = json.loads(header.metadata[b"avro.schema"])
        schema = schema if isinstance(schema, dict) else {"type": schema}
        while first := source.read(1):
            count = read_long(source, first)
            block = io.BytesIO(read_bytes(source))
            for _ in range(count):
                yield decoded(schema, block)
            if block.read(1) or take(source, 16) != header.marker:
                sys.exit(f"{path}: a block is not as its head says")


def migrated(datum: dict) -> dict:
    """What the new schema makes of a measurement, whose values stand for themselves."""
    return {
        "series": datum["series"],
        "result": datum["value"],
        "id": datum["id"],
        "error": datum["error"],
        "factor": struct.pack("<d", 0.1),
        "limits": [None, struct.pack("<f", 2), struct.pack("<f", -1e3)],
        "by_name": datum["by_name"],
    }


def main(words: list[str]) -> int:
    if len(words) != 2:
        print(__doc__, end="", file=sys.stderr)
        return 64
    wanted, found = list(map(migrated, data_of(words[0]))), list(data_of(words[1]))
    for number, (one, other) in enumerate(zip(wanted, found)):
        if one != other:
            print(f"datum {number}: {other}, and not {one}")
            return 1
    if len(wanted) != len(found):
        print(f"{len(found)} data, and not {len(wanted)}")
        return 1
    print(f"{len(found)} data are equal")
    return 0


if __name__ == "__main__":
    sys.exit(main(sys.argv[1:]))

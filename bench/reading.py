#!/usr/bin/env python3
"""Measures how the program walks over large data, and how it reads large schemas.

    reading.py walks PROGRAM     `PROGRAM check` of files of 100 MB in which each block is one large datum, and `c/walk.c` over the
                                 same data without a container, except for keys
    reading.py drafts PROGRAM    `PROGRAM schema` of texts with many small definitions, long lists, and many nested types

A row has the least processor time of five runs, including reading the file, and the result.
"""

import json
import os
import random
import resource
import subprocess
import sys
import tempfile

HERE = os.path.dirname(os.path.abspath(__file__))
sys.path[:0] = [os.path.join(HERE, "gen"), os.path.join(HERE, "c")]

from building import build_program
from container_schemas import WRITERS
from generate import ITEMS, datum_of, number

RUNS = 5
MEGABYTES = 100
SYNC = bytes(range(16))
SCHEMAS = {
    "records": {"type": "array", "items": json.loads(WRITERS["narrow"])},
    "strings": {"type": "array", "items": "string"},
    "keys": {"type": "map", "values": "null"},
}
DOC = "One of many small definitions, of which each has symbols, an alias and a default. It is here for its length only"


def once(words):
    """Seconds of the processor, and what a run printed."""
    before = resource.getrusage(resource.RUSAGE_CHILDREN)
    said = subprocess.run(words, stdout=subprocess.PIPE, check=True).stdout.decode().strip()
    after = resource.getrusage(resource.RUSAGE_CHILDREN)
    return after.ru_utime + after.ru_stime - before.ru_utime - before.ru_stime, said


def row(name, words):
    """Prints the least of some runs."""
    seconds, said = min(once(words) for _ in range(RUNS))
    print(f"| {name} | {seconds:.3f} | {said} |", flush=True)


def write_walks(kind, data, container):
    """Writes the same data one after another, and in a container, a block each."""
    datum = datum_of(random.Random(1), kind)
    schema = json.dumps(SCHEMAS[kind]).encode()
    entry = number(11) + b"avro.schema" + number(len(schema)) + schema
    with open(data, "wb") as raw, open(container, "wb") as framed:
        framed.write(b"Obj\x01" + number(1) + entry + number(0) + SYNC)
        for _ in range(MEGABYTES * 1_000_000 // len(datum) + 1):
            raw.write(datum)
            framed.write(number(1) + number(len(datum)) + datum + SYNC)


def walks(program, folder):
    """Walks over the data of each kind."""
    walker = build_program("walk", folder)
    print("| Data and walker | seconds | found |\n|---|---|---|")
    for kind in ITEMS:
        data, container = (os.path.join(folder, kind + end) for end in ("", ".avro"))
        write_walks(kind, data, container)
        if kind != "keys":
            row(f"{kind}, c/walk.c", [walker, data, kind])
        row(f"{kind}, check", [program, "check", container])


def enumeration(index, symbols):
    """An enum with some symbols, an alias and a default."""
    return {"type": "enum", "name": f"org.example.E{index}", "aliases": [f"A{index}"], "doc": DOC,
            "symbols": [f"SYMBOL_{k}" for k in range(symbols)], "default": "SYMBOL_0"}


def record_of(types):
    """A record with a field of each type."""
    return {"type": "record", "name": "org.example.Large", "fields": [{"name": f"field_{k}", "type": t} for k, t in enumerate(types)]}


def arrays(depth):
    """Arrays in one another around an int."""
    schema = "int"
    for _ in range(depth):
        schema = {"type": "array", "items": schema}
    return schema


def texts():
    """Each schema by its name."""
    for count in (450, 900, 1_800, 3_600):
        yield f"{count} definitions", record_of(enumeration(k, 4) for k in range(count))
    for symbols in (4_096, 8_192, 16_384, 32_768):
        yield f"{symbols} symbols", enumeration(0, symbols)
    for count in (8, 16, 32, 64):
        yield f"{count} fields of 60 arrays", record_of(arrays(60) for _ in range(count))


def drafts(program, folder):
    """Reads each text."""
    file = os.path.join(folder, "text.avsc")
    print("| Schema | seconds | nodes |\n|---|---|---|")
    for name, schema in texts():
        with open(file, "w", encoding="ascii") as out:
            json.dump(schema, out, separators=(",", ":"))
        row(f"{name}, {os.path.getsize(file)} bytes", [program, "schema", file])


def main(words):
    measures = {"walks": walks, "drafts": drafts}
    if len(words) != 2 or words[0] not in measures:
        sys.exit(__doc__)
    with tempfile.TemporaryDirectory() as folder:
        measures[words[0]](words[1], folder)


if __name__ == "__main__":
    main(sys.argv[1:])

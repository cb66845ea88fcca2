#!/usr/bin/env python3
"""Writes inputs with far more output, faults, data or pairs than their length, and measures a program on them.

    hostile_answers.py PROGRAM [ROW..]         all rows, or those whose names begin with one of the words
    hostile_answers.py write FOLDER [ROW..]    their files, at their greatest lengths

Rows, runs and columns are like those of `hostile_files.py`; the greatest lengths are those at which a run ends within its
limits, less than what a text may have.
"""

import os
import sys

sys.path.insert(0, os.path.join(os.path.dirname(os.path.abspath(__file__)), "gen"))

import hostile_files
from generate import number
from hostile_files import JUDGE, SHOW, Row, block, container
from hostile_pairs import fixed, record, short_names, written


def enum(name, symbols, **more):
    return {"type": "enum", "name": name, "symbols": symbols, **more}


def array(items):
    return {"type": "array", "items": items}


# Data that are shown or copied at many times their length


def default_in_items(share):
    """One datum, an array of records without fields, and a reader's record, which has a text as a default."""
    count = 500_000 // share
    field = {"name": "d", "type": "string", "default": "x" * 1_000}
    reader = {"type": "record", "name": "W", "fields": [field]}
    return {"file": container(array(record("W", [])), block(1, number(count) + number(0))), "reader": written(array(reader))}


def named_items(share):
    """One datum, an array of records of one field of a long name."""
    count = 500_000 // share
    items = record("R", [("n" * 2_000, "null")])
    return {"file": container(array(items), block(1, number(count) + number(0)))}


def small_objects(share):
    """One datum, an array of as many records of one field as its limit on nodes allows."""
    count = 524_000 // share
    return {"file": container(array(record("R", [("a", "null")])), block(1, number(count) + number(0)))}


# Least data that are long


def beside(fields, last):
    """A record of fields, of which the last one differs."""
    return written(record("W", [*fields, ("z", last)]))


def large_fixeds(share):
    """A record of fields of a fixed of 1 MiB, and a last field that is read as no int."""
    fields = [("f0", fixed("F", 1_048_576))] + [(f"f{k}", "F") for k in range(1, 128 // share)]
    return {"writer": beside(fields, "string"), "reader": beside(fields, "int")}


def named_parts(share):
    """A record of 1,000 records of one field of a long name, and a last field that is read as no int."""
    inner = record("R", [("n" * (400_000 // share), "null")])
    fields = [("f0", inner)] + [(f"f{k}", "R") for k in range(1, 1_000)]
    return {"writer": beside(fields, "string"), "reader": beside(fields, "int")}


def long_space(share):
    """A fixed in a long namespace, and references to it; a reader's int."""
    fields = [("f", fixed("F", 0))] + [(f"a{k:x}", "F") for k in range(4_000 // share)]
    return {"writer": written(record("R", fields, namespace="n" * (250_000 // share))), "reader": written("int")}


# Faults


def many_symbols(share):
    """Fields of one enum, against as many enums of one other symbol."""
    symbols, fields = 16_000 // share, short_names(500)
    writer = [(fields[0], enum("E", short_names(symbols)))] + [(name, "E") for name in fields[1:]]
    reader = [(name, enum("E", ["_none"], namespace=f"n{k}")) for k, name in enumerate(fields)]
    return {"writer": written(record("R", writer)), "reader": written(record("R", reader))}


def links(count, own, more=()):
    """A ring of records of one simple name, of which each has a field of the one before and fields more."""
    first = ["null", "t.A"] if own == "d" else "t.A"
    parts = [first, *(f"n{k}.A" for k in range(count - 2))]
    ring = [record("A", [("s", part), *more], namespace=f"n{k}") for k, part in enumerate(parts)]
    head = {"name": own, "type": ["null", *ring], "default": None}
    rest = [{"name": name, "type": type} for name, type in [("s", f"n{count - 2}.A"), *more]]
    return {"type": "record", "name": "A", "namespace": "t", "fields": [head, *rest]}


def faulty_rings(share):
    """Rings of records, which meet in turn, and of which the reader's have a field that the writer's have not."""
    count = {1: 96, 8: 12}[share]
    return {"writer": written(links(count, "d")), "reader": written(links(count + 1, "e", [("m", "null")]))}


# Pairs


def met_rings(share):
    """A null of a union of null and a ring of records, and a reader of another ring: each record meets each."""
    count = 2_000 // share
    writer, reader = (["null", links(count + k, own)] for k, own in enumerate("de"))
    file = container(writer, block(1, number(0)))
    return {"file": file, "writer": written(writer), "reader": written(reader)}


def same_enums(share):
    """Enums of the same symbols, of which each of the writer's meets each of the reader's."""
    count = {1: 700, 8: 87}[share]
    symbols, names = short_names(100), short_names(count)
    both = [enum("E", symbols, namespace=f"n{k}") for k in range(count)]
    union = record("V", [("u", both)])
    writer = [(names[0], union)] + [(name, "V") for name in names[1:]]
    reader = [(name, record("V", [("u", each)], namespace=f"m{k}")) for k, (name, each) in enumerate(zip(names, both))]
    return {"writer": written(["null", record("R", writer)]), "reader": written(["null", record("R", reader)])}


EXPLAIN, FOR_READER = ["explain", "writer", "reader"], ["--reader", "reader"]

ROWS = [
    Row("a default in each item", default_in_items, ["copy", "file", "{out}", *FOR_READER], [*SHOW, *FOR_READER]),
    Row("a long name in each item", named_items, SHOW),
    Row("small objects", small_objects, SHOW),
    Row("large fixeds in the least datum", large_fixeds, JUDGE, [*JUDGE, "--json"], ["history", "writer", "reader"]),
    Row("a long name in the least datum", named_parts, JUDGE),
    Row("a long namespace", long_space, ["schema", "writer", "--canonical"], [*JUDGE, "--refutation", "{out}"]),
    Row("a fault for each symbol", many_symbols, EXPLAIN, [*EXPLAIN, "--json"]),
    Row("a fault for each pair of two rings", faulty_rings, EXPLAIN),
    Row("two rings that meet", met_rings, JUDGE, [*SHOW, *FOR_READER]),
    Row("enums of the same symbols", same_enums, JUDGE, EXPLAIN),
]


if __name__ == "__main__":
    if len(sys.argv) < 2:
        sys.exit(__doc__)
    hostile_files.ROWS = ROWS
    if sys.argv[1] == "write":
        hostile_files.write_all(*sys.argv[2:])
    else:
        hostile_files.measure(*sys.argv[1:])

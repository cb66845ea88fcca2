#!/usr/bin/env python3
"""Writes small container files of orders, of which one is cut and one is of another schema.

    make_files.py FOLDER [COUNT]

FOLDER gets `whole/` with COUNT files (300 without the word) named 001.avro and so on, each of examples/order-1.avsc and with data of its own;
`in/` with the same files but for two; `spoiled`, a line for each of the two: its name and its fault; and `list`, the names of all. The same
words write the same bytes.
"""

import hashlib
import os
import random
import shutil
import sys
from collections.abc import Iterator

HERE = os.path.dirname(os.path.abspath(__file__))
sys.path.insert(0, os.path.dirname(HERE))

from orders import FOLDER as EXAMPLES, STATES, content, number, order

NAMES = ["Ada", "Émile", "Grace", "Kurt", "Sofja"]
ARTICLES = ["tea", "cup", "tray", "sugar", "spoon"]
OTHER_SCHEMA = b'{"type":"record","name":"Visit","fields":[{"name":"page","type":"string"}]}'


def header(schema: bytes, sync: bytes) -> bytes:
    """What stands before the blocks."""
    return b"Obj\x01" + number(1) + content("avro.schema") + content(schema) + number(0) + sync


def block(data: list[bytes], sync: bytes) -> bytes:
    """A block, with the marker behind it."""
    return number(len(data)) + content(b"".join(data)) + sync


def rows(choose: random.Random, first: int) -> Iterator[tuple]:
    """Some orders, numbered from `first` on."""
    for at in range(choose.randrange(1, 9)):
        lines = [(choose.choice(ARTICLES), choose.randrange(1, 100)) for _ in range(choose.randrange(4))]
        yield first + at, choose.choice(NAMES), choose.choice(STATES), lines


def orders_file(at: int) -> bytes:
    """A file of two to five blocks of orders."""
    choose = random.Random(at)
    sync = hashlib.sha256(b"orders %d" % at).digest()[:16]
    file = header((EXAMPLES / "order-1.avsc").read_bytes(), sync)
    for part in range(choose.randrange(2, 6)):
        file += block([order(row, choose.random() < 0.5) for row in rows(choose, 1000 * at + 10 * part)], sync)
    return file


def visits_file(at: int) -> bytes:
    """A file of another schema."""
    sync = hashlib.sha256(b"orders %d" % at).digest()[:16]
    return header(OTHER_SCHEMA, sync) + block([content("/tea"), content("/cup")], sync)


def write(path: str, data: bytes) -> None:
    with open(path, "wb") as out:
        out.write(data)


def main(folder: str, count: int = 300) -> None:
    for name in ("whole", "in"):
        os.makedirs(os.path.join(folder, name))
    names = [f"{at:03}.avro" for at in range(1, count + 1)]
    for at, name in enumerate(names, 1):
        write(os.path.join(folder, "whole", name), orders_file(at))
        shutil.copy(os.path.join(folder, "whole", name), os.path.join(folder, "in", name))
    cut, other = count // 3, 2 * count // 3
    whole = orders_file(cut)
    # The end of its last block is missing.
    write(os.path.join(folder, "in", names[cut - 1]), whole[:-20])
    write(os.path.join(folder, "in", names[other - 1]), visits_file(other))
    write(os.path.join(folder, "spoiled"), f"{names[cut - 1]} cut\n{names[other - 1]} of another schema\n".encode())
    write(os.path.join(folder, "list"), "".join(name + "\n" for name in names).encode())


if __name__ == "__main__":
    if len(sys.argv) not in (2, 3):
        sys.exit(__doc__)
    main(sys.argv[1], *map(int, sys.argv[2:]))

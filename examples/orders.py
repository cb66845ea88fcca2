#!/usr/bin/env python3
"""Writes examples/orders.avro: five orders of examples/order-1.avsc, in two blocks.

The lines of the orders in the second block stand in sized blocks, as some writers put them.
"""

import hashlib
import pathlib

FOLDER = pathlib.Path(__file__).resolve().parent

STATES = ["OPEN", "PAID", "SENT"]

FIRST = [
    (1, "Ada", "SENT", [("tea", 2)]),
    (2, "Émile", "PAID", [("cup", 6), ("tray", 1)]),
    (3, "Ada", "OPEN", []),
]

SECOND = [
    (4, "Grace", "PAID", [("tea", 12), ("sugar", 3)]),
    (5, "Kurt", "OPEN", [("spoon", 64)]),
]


def number(value):
    """A number in its shortest spelling."""
    value = value << 1 if value >= 0 else (-value << 1) - 1
    spelling = bytearray()
    while value > 127:
        spelling.append(value & 127 | 128)
        value >>= 7
    spelling.append(value)
    return bytes(spelling)


def content(text):
    """A length and the bytes of a text."""
    data = text.encode() if isinstance(text, str) else text
    return number(len(data)) + data


def lines(items, is_sized):
    """An array of lines in one block, with or without its size."""
    data = b"".join(content(article) + number(count) for article, count in items)
    if not items:
        return number(0)
    if is_sized:
        return number(-len(items)) + number(len(data)) + data + number(0)
    return number(len(items)) + data + number(0)


def order(row, is_sized):
    """The encoding of an order."""
    identity, customer, state, items = row
    return number(identity) + content(customer) + number(STATES.index(state)) + lines(items, is_sized)


def main():
    schema = (FOLDER / "order-1.avsc").read_bytes()
    sync = hashlib.sha256(schema).digest()[:16]
    file = bytearray(b"Obj\x01")
    file += number(2) + content("avro.schema") + content(schema)
    file += content("avro.codec") + content("null") + number(0) + sync
    for rows, is_sized in ((FIRST, False), (SECOND, True)):
        data = b"".join(order(row, is_sized) for row in rows)
        file += number(len(rows)) + content(data) + sync
    (FOLDER / "orders.avro").write_bytes(file)


if __name__ == "__main__":
    main()

"""Certificates written by hand, of which each turns one rule, and the answers to them, for `confirm.py`."""

from __future__ import annotations

from typing import Iterator, TypeAlias

# The status, the output and the errors.
Answer: TypeAlias = tuple[int, str, str]
# A rule, the schemas of writer and reader, a certificate, and the answer to it.
Row: TypeAlias = tuple[str, object, object, bytes, Answer]

YES: Answer = (0, "confirmed\n", "")
NO: Answer = (1, "not confirmed\n", "")
G1: Answer = (3, "", "avro: a.cert: G1\n")
G2: Answer = (3, "", "avro: a.cert: G2\n")

# The most bytes of a certificate.
MOST_BYTES = 268_435_456


def record(name: str, *fields: object, **more: object) -> dict:
    return {"type": "record", "name": name, "fields": list(fields), **more}


def field(name: str, type: object, **more: object) -> dict:
    return {"name": name, "type": type, **more}


def array(items: object) -> dict:
    return {"type": "array", "items": items}


def enum(*symbols: str, **more: object) -> dict:
    return {"type": "enum", "name": "E", "symbols": list(symbols), **more}


def fixed(size: int) -> dict:
    return {"type": "fixed", "name": "F", "size": size}


def lines(*body: str) -> bytes:
    """The text of a certificate with these lines."""
    return "".join(f"{line}\n" for line in ("approval 1", *body, "end")).encode("ascii")


MAP = {"type": "map", "values": "int"}
ENDLESS = record("D", field("d", "D"))
TWO = record("R", field("a", "int"), field("b", "string"))
INTS = record("R", field("a", "int"), field("b", "int"))
B_OR_A = record("R", field("b", "int", aliases=["a"]))
C_OR_B_OR_A = record("R", field("c", "int", aliases=["b", "a"]))
INNER = record("S", field("z", "F"))
SPACED = record("n.R", field("x", fixed(1)), field("y", INNER))

ROWS: tuple[Row, ...] = (
    ("the roots", "int", "long", lines("pair 0 0"), YES),
    ("the roots are missing", "int", "long", lines(), NO),
    ("long to int", "long", "int", lines("pair 0 0"), NO),
    ("string to bytes", "string", "bytes", lines("pair 0 0"), YES),
    ("bytes to string", "bytes", "string", lines("pair 0 0"), NO),
    ("a node that the writer lacks", "int", "int", lines("pair 0 0", "pair 1 0"), NO),
    ("a node that the reader lacks", "int", "int", lines("pair 0 0", "pair 0 1"), NO),
    ("such a node beside a dead one", ENDLESS, "int", lines("dead 0", "pair 0 1"), NO),
    ("items", array("int"), array("int"), lines("pair 0 0", "pair 1 1"), YES),
    ("items are missing", array("int"), array("int"), lines("pair 0 0"), NO),
    ("values are missing", MAP, MAP, lines("pair 0 0"), NO),
    ("an array is no map", array("int"), MAP, lines("pair 0 0", "pair 1 1"), NO),
    ("arrays match by their items", array(ENDLESS), array("int"), lines("dead 1", "pair 0 0"), NO),
    ("each branch of a writer", ["int", "null"], ["null", "int"], lines("pair 0 0", "pair 1 0", "pair 1 2"), NO),
    ("the first branch of a reader", "string", ["bytes", "string"], lines("pair 0 0", "pair 0 1"), YES),
    ("another branch of a reader", "string", ["bytes", "string"], lines("pair 0 0", "pair 0 2"), NO),
    ("no branch of a reader", "boolean", ["int", "null"], lines("pair 0 0"), NO),
    ("symbols", enum("A"), enum("B", "A"), lines("pair 0 0"), YES),
    ("a symbol that the reader lacks", enum("A", "B"), enum("A"), lines("pair 0 0"), NO),
    ("a default for symbols", enum("A", "B"), enum("A", default="A"), lines("pair 0 0"), YES),
    ("a default of the writer's", enum("A", "B", default="A"), enum("A"), lines("pair 0 0"), NO),
    ("the size of a fixed", fixed(1), fixed(2), lines("pair 0 0"), NO),
    ("a field that the reader lacks", TWO, record("R"), lines("pair 0 0"), YES),
    ("a field without source", record("R"), record("R", field("a", "int")), lines("pair 0 0"), NO),
    ("a default of a field", record("R"), record("R", field("a", "null", default=None)), lines("pair 0 0"), YES),
    ("an alias of a field", record("R", field("a", "int")), B_OR_A, lines("pair 0 0", "pair 1 1"), YES),
    ("a field of the name goes first", INTS, B_OR_A, lines("pair 0 0", "pair 1 1"), NO),
    ("the first alias that names one", INTS, C_OR_B_OR_A, lines("pair 0 0", "pair 1 1"), NO),
    ("simple names", record("a.R"), record("b.R"), lines("pair 0 0"), YES),
    ("other names", record("R"), record("S"), lines("pair 0 0"), NO),
    ("an alias in the namespace", record("n.R"), record("n.S", aliases=["R"]), lines("pair 0 0"), YES),
    ("an alias in another namespace", record("n.R"), record("S", aliases=["R"]), lines("pair 0 0"), NO),
    ("an alias of the writer's", record("R", aliases=["S"]), record("S"), lines("pair 0 0"), NO),
    ("a reference in its namespace", SPACED, SPACED, lines("pair 0 0", "pair 1 1", "pair 2 2"), YES),
    ("a namespace", record("R", namespace="n"), record("S", aliases=["n.R"]), lines("pair 0 0"), YES),
    ("a namespace beside a dot", record("m.R", namespace="n"), record("S", aliases=["n.R"]), lines("pair 0 0"), NO),
    ("a dead record", ENDLESS, "int", lines("dead 0"), YES),
    ("a dead union", [ENDLESS], "int", lines("dead 0", "dead 1"), YES),
    ("a union with a live branch", ["null", ENDLESS], "int", lines("dead 0", "dead 2"), NO),
    ("a record without a dead field", TWO, "int", lines("dead 0"), NO),
    ("a dead branch", ["int", ENDLESS], "int", lines("dead 2", "pair 0 0", "pair 1 0"), YES),
    ("the pair of a dead branch", ["int", ENDLESS], "int", lines("dead 2", "pair 0 0", "pair 1 0", "pair 2 0"), YES),
    ("a primitive is never dead", "int", "string", lines("dead 0"), NO),
    ("an array is never dead", array(ENDLESS), array(ENDLESS), lines("dead 0", "dead 1"), NO),
    ("a dead node that the writer lacks", "int", "int", lines("dead 9", "pair 0 0"), NO),
    ("the greatest number", "int", "int", lines("pair 0 0", "pair 0 4095"), NO),
    ("a number over it", "int", "int", lines("pair 0 0", "pair 0 4096"), G2),
    ("a dead number over it", "int", "int", lines("dead 4096", "pair 0 0"), G2),
    ("a number of many digits", "int", "int", lines("pair 0 0", "pair 1" + "0" * 5_000 + " 0"), G2),
    ("a leading zero", "int", "int", lines("pair 00 0"), G1),
    ("no digits", "int", "int", lines("pair  0"), G1),
    ("a pair twice", "int", "int", lines("pair 0 0", "pair 0 0"), G1),
    ("pairs that fall", "int", "int", lines("pair 0 1", "pair 0 0"), G1),
    ("dead nodes that fall", ENDLESS, "int", lines("dead 1", "dead 0"), G1),
    ("a dead node after a pair", ENDLESS, "int", lines("pair 0 0", "dead 0"), G1),
    ("a carriage return", "int", "int", lines("pair 0 0\r"), G1),
    ("two blanks", "int", "int", lines("pair 0  0"), G1),
    ("another version", "int", "int", lines("pair 0 0").replace(b"1", b"2"), G1),
    ("bytes after the end", "int", "int", lines("pair 0 0") + b"\n", G1),
    ("no last line feed", "int", "int", lines("pair 0 0")[:-1], G1),
    ("no text", "int", "int", b"", G1),
)


def long_rows() -> Iterator[Row]:
    """Certificates that are as long as one may be and one byte longer; `room.py` asks the program about such."""
    zeros = MOST_BYTES - len(lines("dead 1"))
    yield "as many bytes as there may be", "int", "int", lines("dead 1" + "0" * zeros), G2
    yield "one byte more", "int", "int", lines("dead 1" + "0" * (zeros + 1)), G1

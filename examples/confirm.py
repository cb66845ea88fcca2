#!/usr/bin/env python3
"""Rechecks a certificate of `avro judge` without that program: an example, and a second opinion.

    examples/confirm.py WRITER READER CERTIFICATE

Prints what `avro confirm` prints, with the same exit status: `confirmed` (0) if the sets of the certificate are closed
over the two schemas, so that no datum of WRITER's fails under READER; `not confirmed` (1) if they are not; a line on
standard error if the certificate is malformed (G1) or has a number over 4,095 (G2), or if a file cannot be read.

It takes both schemas as valid: `avro schema FILE` says whether they are. Nothing here is proved. It needs Python 3.10
and its standard library alone, and shares nothing with the program but the definitions, which are those of
`crates/avro_certificate/specs/Closed.antt` and `crates/avro_compare/specs/{Match,Source}.antt`.
"""

from __future__ import annotations

import json
import re
import sys
from dataclasses import dataclass, field
from itertools import pairwise
from typing import Any, NoReturn, TypeAlias

PRIMITIVES = ("null", "boolean", "int", "long", "bytes", "string")
PROMOTIONS = {("int", "long"), ("string", "bytes"), ("bytes", "string")}
MOST_BYTES = 268_435_456
MOST_NUMBER = 4_095
DEAD_LINE = re.compile(rb"dead (0|[1-9][0-9]*)")
PAIR_LINE = re.compile(rb"pair (0|[1-9][0-9]*) (0|[1-9][0-9]*)")


@dataclass
class Container:
    kind: str  # array or map
    part: int = 0  # the number of the node of its items or values


@dataclass
class Union:
    branches: list[int] = field(default_factory=list)


@dataclass
class Named:
    name: str  # a fullname, as are the aliases
    aliases: list[str]


@dataclass
class Field:
    name: str
    aliases: list[str]
    node: int
    has_default: bool


@dataclass
class Record(Named):
    fields: list[Field] = field(default_factory=list)


@dataclass
class Enum(Named):
    symbols: list[str]
    has_default: bool


@dataclass
class Fixed(Named):
    size: int


# The word of a primitive type, or one of the classes.
Node: TypeAlias = str | Container | Union | Record | Enum | Fixed
Pair: TypeAlias = tuple[int, int]


def fullname(text: str, space: str) -> str:
    """A name with a dot is a fullname; one without stands in the enclosing namespace."""
    return f"{space}.{text}" if space and "." not in text else text


class SchemaReader:
    """Numbers definitions, arrays, maps, unions and uses of primitives in pre-order; a reference makes no node."""

    def __init__(self) -> None:
        self.nodes: list[Node] = []
        self.known: dict[str, int] = {}

    def add(self, node: Node) -> int:
        """Gives a node the next number; from now on one with a name can be referred to."""
        self.nodes.append(node)
        if isinstance(node, Named):
            self.known[node.name] = len(self.nodes) - 1
        return len(self.nodes) - 1

    def read(self, tree: Any, space: str) -> int:
        """The number of the node that a JSON tree means inside a namespace."""
        if isinstance(tree, str):
            return self.add(tree) if tree in PRIMITIVES else self.known[fullname(tree, space)]
        if isinstance(tree, list):
            number = self.add(union := Union())
            union.branches = [self.read(branch, space) for branch in tree]
            return number
        kind = tree["type"]
        if kind in ("array", "map"):
            number = self.add(container := Container(kind))
            container.part = self.read(tree["items" if kind == "array" else "values"], space)
            return number
        return self.read_definition(tree, space) if kind in ("record", "enum", "fixed") else self.read(kind, space)

    def read_definition(self, tree: dict[str, Any], enclosing: str) -> int:
        """A record, an enum or a fixed; the fields of a record stand in its own namespace."""
        name = fullname(tree["name"], tree.get("namespace", enclosing))
        space = name.rpartition(".")[0]
        aliases = [fullname(alias, space) for alias in tree.get("aliases", [])]
        if tree["type"] == "enum":
            return self.add(Enum(name, aliases, tree["symbols"], "default" in tree))
        if tree["type"] == "fixed":
            return self.add(Fixed(name, aliases, tree["size"]))
        number = self.add(record := Record(name, aliases))
        for each in tree["fields"]:
            node = self.read(each["type"], space)
            record.fields.append(Field(each["name"], each.get("aliases", []), node, "default" in each))
        return number


def read_lines(form: re.Pattern[bytes], lines: list[bytes]) -> list[tuple[int, ...]] | None:
    """The numbers of lines of one form, or None; a number that is too great, however long, is read as 4,096."""
    found = [form.fullmatch(line) for line in lines]
    if not all(found):
        return None
    return [tuple(min(int(numeral[:5]), MOST_NUMBER + 1) for numeral in it.groups()) for it in found if it]


def read_certificate(word: str, text: bytes) -> tuple[set[int], set[Pair]]:
    """The dead nodes and the pairs of a certificate: two lists of lines, each of which rises."""
    lines = text.split(b"\n")
    if len(text) > MOST_BYTES or lines[0] != b"approval 1" or lines[-2:] != [b"end", b""]:
        refuse(word, "G1")
    body = lines[1:-2]
    count = sum(line.startswith(b"dead ") for line in body)
    dead, pairs = read_lines(DEAD_LINE, body[:count]), read_lines(PAIR_LINE, body[count:])
    if dead is None or pairs is None:
        refuse(word, "G1")
    if any(number > MOST_NUMBER for numbers in dead + pairs for number in numbers):
        refuse(word, "G2")
    if any(a >= b for rising in (dead, pairs) for a, b in pairwise(rising)):
        refuse(word, "G1")
    return {node for (node,) in dead}, {(w, r) for w, r in pairs}


@dataclass
class Check:
    """Whether a set of the writer's nodes and a set of pairs of nodes show that the schemas are compatible."""

    writer: list[Node]
    reader: list[Node]
    dead: set[int]
    pairs: set[Pair]

    def is_closed(self) -> bool:
        """The nodes of the one set have no datum, the roots stand, and each pair of the other set is closed."""
        return all(map(self.is_dead, self.dead)) and self.stands((0, 0)) and all(map(self.is_closed_at, self.pairs))

    def stands(self, pair: Pair) -> bool:
        """Whether a pair is in the set, or its writer's node has no datum."""
        return pair[0] in self.dead or pair in self.pairs

    def is_dead(self, number: int) -> bool:
        """A record with a field in the set, or a union with all of its branches in the set."""
        match self.writer[number] if number < len(self.writer) else None:
            case Record(fields=fields):
                return any(each.node in self.dead for each in fields)
            case Union(branches):
                return all(branch in self.dead for branch in branches)
        return False

    def is_closed_at(self, pair: Pair) -> bool:
        """Nodes of the schemas; unless the writer's is dead, nothing fails at them, and what they ask for stands."""
        if pair[0] >= len(self.writer) or pair[1] >= len(self.reader):
            return False
        if pair[0] in self.dead:
            return True
        asked = self.asked_by(*pair)
        return asked is not None and all(map(self.stands, asked))

    def asked_by(self, writer: int, reader: int) -> list[Pair] | None:
        """The pairs that a pair asks for; None if some datum fails at the pair itself."""
        w, r = self.writer[writer], self.reader[reader]
        match w, r:
            case Union(branches), _:
                return [(branch, reader) for branch in branches]
            case _, Union(branches):
                first = next((branch for branch in branches if self.matches(w, self.reader[branch])), None)
                return None if first is None else [(writer, first)]
            case _ if not self.matches(w, r):
                return None
            case "bytes", "string":
                return None
            case Enum(), Enum():
                return [] if r.has_default or set(w.symbols) <= set(r.symbols) else None
            case Record(), Record():
                return self.asked_by_fields(w.fields, r.fields)
            case Container(), Container():
                return [(w.part, r.part)]
        return []

    def asked_by_fields(self, fields: list[Field], theirs: list[Field]) -> list[Pair] | None:
        """A reader's field takes the writer's field of its name, or else of its first alias that names one."""
        nodes = {each.name: each.node for each in fields}
        asked = []
        for each in theirs:
            source = next((name for name in (each.name, *each.aliases) if name in nodes), None)
            if source is not None:
                asked.append((nodes[source], each.node))
            elif not each.has_default:
                return None
        return asked

    def matches(self, w: Node, r: Node) -> bool:
        """Whether nodes match: what a union or a record is made of is not looked at."""
        match w, r:
            case (Union(), _) | (_, Union()):
                return True
            case str(), str():
                return w == r or (w, r) in PROMOTIONS
            case Container(), Container():
                return w.kind == r.kind and self.matches(self.writer[w.part], self.reader[r.part])
            case (Record(), Record()) | (Enum(), Enum()):
                return are_alike(w, r)
            case Fixed(), Fixed():
                return are_alike(w, r) and w.size == r.size
        return False


def are_alike(w: Named, r: Named) -> bool:
    """Equal simple names, or the writer's fullname is an alias of the reader's."""
    return w.name.rpartition(".")[2] == r.name.rpartition(".")[2] or w.name in r.aliases


def refuse(word: str, what: str, status: int = 3) -> NoReturn:
    """Ends without an answer, as the program does."""
    print(f"avro: {word}: {what}", file=sys.stderr)
    sys.exit(status)


def read_file(word: str, most: int = -1) -> bytes:
    try:
        with open(word, "rb") as file:
            return file.read(most)
    except OSError:
        refuse(word, "cannot read", 4)


def read_schema(word: str) -> list[Node]:
    """The nodes of a schema's text, which is taken as valid."""
    reader = SchemaReader()
    try:
        reader.read(json.loads(read_file(word).decode("utf-8")), "")
    except (ValueError, LookupError, TypeError, AttributeError, RecursionError):
        refuse(word, "not a valid schema")
    return reader.nodes


def main(words: list[str]) -> int:
    if len(words) != 3:
        print(__doc__, file=sys.stderr)
        return 64
    writer, reader = read_schema(words[0]), read_schema(words[1])
    dead, pairs = read_certificate(words[2], read_file(words[2], MOST_BYTES + 1))
    is_closed = Check(writer, reader, dead, pairs).is_closed()
    print("confirmed" if is_closed else "not confirmed")
    return 0 if is_closed else 1


if __name__ == "__main__":
    sys.exit(main(sys.argv[1:]))

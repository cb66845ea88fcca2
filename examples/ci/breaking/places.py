"""Places in schemas: what `avro explain` calls them, their JSON pointers, and their lines."""

from __future__ import annotations

import json
import re
from dataclasses import dataclass, field
from typing import Any, Iterable, Iterator

PRIMITIVES = {"null", "boolean", "int", "long", "float", "double", "bytes", "string"}
RECORDS = {"record", "error"}
NAMED = RECORDS | {"enum", "fixed"}
KINDS = NAMED | {"array", "map"}
STEP = r"\.\w+|\[\]|\{\}|<\w+(?:\.\w+)*>"
FAULT = re.compile(rf"(?P<reader>\$(?:{STEP})*): \w+: .* \(writer's (?P<writer>\$(?:{STEP})*)\)", re.ASCII)
TOKEN = re.compile(r'[{}\[\]:,]|"(?:[^"\\]|\\.)*"|[^\s{}\[\]:,"]+', re.DOTALL)


# A namespace, which all names in it share, and the last part; the word of a type without a name is in none.
Name = tuple[str, str]


class Unreadable(Exception):
    """A text is no schema, as far as one has to look."""


def bounded_number(digits: str) -> Any:
    """A number of JSON; of a very long one the digits."""
    return int(digits) if len(digits) < 40 else digits


@dataclass(frozen=True)
class Place:
    """A type in a text: its JSON pointer, its JSON, and the namespace around it."""

    pointer: str
    schema: Any
    space: str

    @property
    def kind(self) -> str:
        """The word of a primitive or of a definition, `union` or `reference`; a text is never the word of a definition."""
        if isinstance(self.schema, list):
            return "union"
        word = self.schema["type"] if isinstance(self.schema, dict) else self.schema
        is_word = word in PRIMITIVES or (word in KINDS and isinstance(self.schema, dict))
        return word if is_word else "reference"

    @property
    def name(self) -> Name:
        """The fullname of a definition or a reference, or the word of another type."""
        kind, space = self.kind, self.space
        if kind not in NAMED and kind != "reference":
            return "", kind
        name = self.schema
        if kind == "reference":
            name = name["type"] if isinstance(name, dict) else name
        else:
            name, own = self.schema["name"], self.schema.get("namespace")
            space = own if isinstance(own, str) else space
        return name_of(name) if "." in name else (space, name)

    def at(self, step: str, schema: Any, space: str) -> Place:
        while isinstance(schema, dict) and isinstance(schema["type"], (dict, list)):
            step, schema = step + "/type", schema["type"]
        return Place(self.pointer + step, schema, space)

    def parts(self) -> Iterator[tuple[str | Name, Place]]:
        """The types right below, each with the step to it that `avro explain` prints; of a branch its name."""
        kind = self.kind
        if kind == "union":
            for index, branch in enumerate(self.schema):
                part = self.at(f"/{index}", branch, self.space)
                yield part.name, part
        elif kind == "array":
            yield "[]", self.at("/items", self.schema["items"], self.space)
        elif kind == "map":
            yield "{}", self.at("/values", self.schema["values"], self.space)
        elif kind in RECORDS:
            for index, part in enumerate(self.schema["fields"]):
                yield f".{part['name']}", self.at(f"/fields/{index}/type", part["type"], self.name[0])

    def below(self) -> Iterator[Place]:
        left = [self]
        while left:
            place = left.pop()
            yield place
            left.extend(part for _, part in place.parts())


def name_of(text: str) -> Name:
    space, _, last = text.rpartition(".")
    return space, last


def root(text: bytes) -> Place:
    try:
        schema = json.loads(text, parse_int=bounded_number, parse_float=str)
        return Place("", None, "").at("", schema, "")
    except (ValueError, RecursionError, KeyError):
        raise Unreadable from None


def root_name(text: bytes) -> str | None:
    """The fullname of the type that a text defines, if it is one with a name."""
    try:
        place = root(text)
        return ".".join(filter(None, place.name)) if place.kind in NAMED else None
    except (Unreadable, KeyError, TypeError):
        return None


def of_field(pointer: str) -> str:
    """The pointer of a field for that of its type."""
    while pointer.endswith("/type"):
        pointer = pointer.removesuffix("/type")
    return pointer


class Schema:
    """A text that was read once, in which places are found."""

    def __init__(self, text: bytes) -> None:
        self.root = root(text)
        self.types = {place.name: place for place in self.root.below() if place.kind in NAMED}
        self.known: dict[str, dict[str | Name, Place]] = {}

    def parts(self, place: Place) -> dict[str | Name, Place]:
        place = self.types.get(place.name, place)
        if place.pointer not in self.known:
            self.known[place.pointer] = dict(place.parts())
        return self.known[place.pointer]

    def pointer(self, at: str) -> str | None:
        """The JSON pointer of a place that `avro explain` prints; of a field, without '/type'."""
        place = self.root
        for step in re.findall(STEP, at, re.ASCII):
            place = self.parts(place).get(name_of(step[1:-1]) if step[0] == "<" else step)
            if place is None:
                return None
        return of_field(place.pointer)


def pointer_of(fault: str, side: str, schema: Schema | None) -> str | None:
    """Where the fault of a line lies in the schema of a side, if it can be said."""
    found = FAULT.fullmatch(fault) if schema else None
    return schema.pointer(found[side]) if found else None


@dataclass
class Wanted:
    """A place whose line is wanted, or is above such places; the line is 0 until it is found."""

    line: int = 0
    below: dict[str, Wanted] = field(default_factory=dict)

    def add(self, pointer: str) -> None:
        place = self
        for step in steps_of(pointer):
            place = place.below.setdefault(step, Wanted())

    def line_at(self, pointer: str) -> int:
        """The line of a place, or of the last above it that was found."""
        place, line = self, self.line
        for step in steps_of(pointer):
            place = place.below[step]
            line = place.line or line
        return line


def steps_of(pointer: str) -> list[str]:
    return pointer.split("/")[1:]


def lines_of(text: bytes, pointers: Iterable[str]) -> dict[str, int]:
    """The lines, counted from 1, where what some pointers lead to begins, or the last above it that the text has."""
    wanted, found, decoded = Wanted(), list(pointers), text.decode(errors="replace")
    for pointer in found:
        wanted.add(pointer)
    line, end = 1, 0
    for place, start in values(decoded, wanted):
        if place is not None:
            line, end = line + decoded.count("\n", end, start), start
            place.line = line
    return {pointer: wanted.line_at(pointer) for pointer in found}


def values(text: str, root: Wanted) -> Iterator[tuple[Wanted | None, int]]:
    """Each value of a JSON text: the place that is wanted of it, if any, and where it begins."""
    around: list[Wanted | None] = []
    steps: list[str | int] = []
    is_key = False
    for token in TOKEN.finditer(text):
        word = token[0]
        if word in ("]", "}"):
            around.pop()
            steps.pop()
        elif word == ",":
            is_key = isinstance(steps[-1], str)
            steps[-1] = "" if is_key else steps[-1] + 1
        elif word == ":":
            is_key = False
        elif is_key:
            steps[-1] = word[1:-1]
        else:
            place = root if not around else around[-1] and around[-1].below.get(str(steps[-1]))
            yield place, token.start()
            if word in ("{", "["):
                is_key = word == "{"
                around.append(place)
                steps.append("" if is_key else 0)

#!/usr/bin/env python3
"""Rewrites a schema with float or double as one that `avro` takes, and the header of a container file, and back:

    avro judge <(tame.py < old.avsc) <(tame.py < new.avsc)
    tame.py --file < in.avro | avro check /dev/stdin
    tame.py --file < in.avro | avro pipe --reader <(tame.py < new.avsc) | tame.py --back > out.avro

A double becomes the fixed `ieee.Double64` of 8 bytes and a float the fixed `ieee.Float32` of 4, which are the bytes
that Avro writes for them: the data of a file stay as they are, byte for byte. A yes is a yes. A number that is read as
a float or double of another type is a no ("long cannot be read as ieee.Double64(8)"), which may be too careful: for verdicts
alone there is lattice.py.

What else `avro` does not take is left out: attributes that mean nothing to Avro and hold a number with a fraction or of
more than 64 bits, those of a float or double, and a namespace, aliases, doc or order that is null; a type whose "type"
is an object or an array is written as that. With --back floats and doubles return, and what was left out does not.

Exit status: 0; 3 a text or a file is refused; 4 standard input cannot be read, or standard output cannot be written; 64
usage.
"""

from __future__ import annotations

import math
import struct
import sys
from typing import Any, BinaryIO, NamedTuple

from bundle import NAMED, PRIMITIVES, fullname, is_definition, parsed, printed, qualified
from filters import Refused, put_header, read, read_header, run, send, send_rest, usage

MOST_TEXT = 16_777_216
# Calls within one another: `avro` takes texts that are nested 127 deep, and each level takes some calls.
DEPTH = 4_000


class Wide(NamedTuple):
    """A type of floating point, and the fixed that stands for it."""

    word: str
    namespace: str
    name: str
    size: int
    layout: str

    @property
    def fullname(self) -> str:
        return f"{self.namespace}.{self.name}"


WIDES = (Wide("float", "ieee", "Float32", 4, "<f"), Wide("double", "ieee", "Double64", 8, "<d"))
BY_WORD = {wide.word: wide for wide in WIDES}
BY_FULLNAME = {wide.fullname: wide for wide in WIDES}
RESERVED = {wide.name for wide in WIDES}

# The attributes that have a meaning, for each kind and for a field, in the order in which they are written.
NAMES = ("name", "namespace", "aliases", "doc")
ATTRIBUTES = {
    "record": (*NAMES, "fields"),
    "error": (*NAMES, "fields"),
    "enum": (*NAMES, "symbols", "default"),
    "fixed": (*NAMES, "size"),
    "array": ("items",),
    "map": ("values",),
}
OF_FIELD = ("name", "aliases", "doc", "order", "type", "default")
# Those that are left out if they are null.
OPTIONAL = ("namespace", "aliases", "doc", "order")

# A type as it is known by its name: what declares it, and the namespace of the names in it.
Names = dict[str, tuple[dict, str]]


class Unfit(Exception):
    """A value is no datum of a type."""


def is_taken(value: Any) -> bool:
    """Whether `avro` takes the numbers of an attribute that it does not look at."""
    if isinstance(value, dict):
        return all(map(is_taken, value.values()))
    if isinstance(value, list):
        return all(map(is_taken, value))
    return not isinstance(value, float) and (not isinstance(value, int) or -(2**63) <= value < 2**63)


def bare(schema: Any) -> Any:
    """A type without the objects around it that only say its type."""
    while isinstance(schema, dict) and isinstance(schema.get("type"), (dict, list)):
        schema = schema["type"]
    return schema


def word_of(schema: Any) -> Any:
    """The word of a type: a primitive, a kind, or a name; of a union there is none."""
    return schema.get("type") if isinstance(schema, dict) else schema


class Defaults:
    """Reads defaults as `avro` does, by the first branch of a union that they fit, and turns numbers of floating point
    into the text of a fixed, and such a text into a number."""

    def __init__(self) -> None:
        self.names: Names = {}
        # What was read of a default: without it, branches within branches are read again and again.
        self.known: dict[tuple[int, int, str], tuple[Any, list[int]] | None] = {}

    def declare(self, schema: dict, namespace: str) -> None:
        name, namespace = fullname(schema, namespace)
        if name is not None:
            self.names[name] = (schema, namespace)

    def read_default(self, value: Any, schema: Any, namespace: str) -> tuple[Any, list[int]]:
        """The turned value, and the branches that were taken, in order."""
        self.known.clear()
        return self.read(value, schema, namespace)

    def read(self, value: Any, schema: Any, namespace: str) -> tuple[Any, list[int]]:
        key = (id(value), id(schema), namespace)
        if key not in self.known:
            try:
                self.known[key] = self.read_first(value, schema, namespace)
            except Unfit:
                self.known[key] = None
        known = self.known[key]
        if known is None:
            raise Unfit
        return known

    def read_first(self, value: Any, schema: Any, namespace: str) -> tuple[Any, list[int]]:
        schema = bare(schema)
        if isinstance(schema, list):
            return self.read_branch(value, schema, namespace)
        word = word_of(schema)
        # A string is a primitive or a reference, and never a kind: a type may be called `record`.
        if isinstance(word, str) and word not in PRIMITIVES and (isinstance(schema, str) or word not in ATTRIBUTES):
            schema, namespace = self.named(qualified(word, namespace))
            word = schema["type"]
        if word in ("array", "map", "record", "error"):
            return self.read_parts(value, word, schema, namespace)
        return self.read_leaf(value, word, schema, namespace), []

    @staticmethod
    def read_leaf(value: Any, word: Any, schema: Any, namespace: str) -> Any:
        return read_leaf(value, word, schema, namespace)

    def named(self, name: str) -> tuple[dict, str]:
        if name not in self.names:
            raise Unfit
        return self.names[name]

    def read_branch(self, value: Any, branches: list, namespace: str) -> tuple[Any, list[int]]:
        for index, branch in enumerate(branches):
            try:
                turned, below = self.read(value, branch, namespace)
            except Unfit:
                continue
            return turned, [index, *below]
        raise Unfit

    def read_parts(self, value: Any, word: str, schema: dict, namespace: str) -> tuple[Any, list[int]]:
        """Of an array its items, of a map its values, of a record its fields."""
        if not isinstance(value, list if word == "array" else dict):
            raise Unfit
        keys = range(len(value)) if word == "array" else list(value)
        types = self.types_of_parts(keys, word, schema)
        namespace = fullname(schema, namespace)[1] if word in NAMED else namespace
        parts = [self.read(value[key], part, namespace) for key, part in types]
        branches = [branch for _, below in parts for branch in below]
        turned = [part for part, _ in parts]
        return (turned if word == "array" else dict(zip((key for key, _ in types), turned))), branches

    @staticmethod
    def types_of_parts(keys: Any, word: str, schema: dict) -> list[tuple[Any, Any]]:
        if word in ("array", "map"):
            part = schema.get("items" if word == "array" else "values")
            return [(key, part) for key in keys]
        fields = schema.get("fields")
        if not isinstance(fields, list) or not all(map(is_named, fields)):
            raise Unfit
        types = {field["name"]: field.get("type") for field in fields}
        if set(types) != set(keys):
            raise Unfit
        return [(key, types[key]) for key in types]


def is_named(field: Any) -> bool:
    return isinstance(field, dict) and isinstance(field.get("name"), str)


def read_leaf(value: Any, word: Any, schema: Any, namespace: str) -> Any:
    """The value of a type without parts, turned if it is of floating point."""
    if word in BY_WORD:
        return packed_number(value, BY_WORD[word])
    if word == "fixed":
        return read_fixed(value, schema, namespace)
    is_whole = isinstance(value, int) and not isinstance(value, bool)
    fits = (
        (word == "null" and value is None)
        or (word == "boolean" and isinstance(value, bool))
        or (word == "int" and is_whole and -(2**31) <= value < 2**31)
        or (word == "long" and is_whole and -(2**63) <= value < 2**63)
        or (word == "string" and isinstance(value, str))
        or (word == "bytes" and is_bytes(value))
        or (word == "enum" and isinstance(value, str) and is_symbol(value, schema.get("symbols")))
    )
    if not fits:
        raise Unfit
    return value


def is_symbol(value: str, symbols: Any) -> bool:
    return isinstance(symbols, list) and value in symbols


def is_bytes(value: Any) -> bool:
    return isinstance(value, str) and all(ord(letter) < 256 for letter in value)


def read_fixed(value: Any, schema: dict, namespace: str) -> Any:
    if not is_bytes(value) or len(value) != schema.get("size"):
        raise Unfit
    wide = BY_FULLNAME.get(fullname(schema, namespace)[0])
    return value if wide is None else struct.unpack(wide.layout, value.encode("latin-1"))[0]


def packed_number(value: Any, wide: Wide) -> str:
    if not isinstance(value, (int, float)) or isinstance(value, bool):
        raise Unfit
    try:
        packed = struct.pack(wide.layout, value)
    except (OverflowError, struct.error):
        raise Refused(f"a default is out of the range of {wide.word}") from None
    if not math.isfinite(struct.unpack(wide.layout, packed)[0]):
        raise Refused(f"a default is out of the range of {wide.word}")
    return packed.decode("latin-1")


class Rewriting:
    """Rewrites a schema: floats and doubles as fixeds or, with `is_back`, these as floats and doubles."""

    # The last parts of names that would be taken for those of the fixeds, and what these stand for.
    reserved, stood_for = RESERVED, "a float or double"

    def __init__(self, is_back: bool) -> None:
        self.is_back = is_back
        self.written: set[str] = set()
        # The types as they are given, and as they are made.
        self.given, self.made = Defaults(), Defaults()

    def type(self, schema: Any, namespace: str, place: str) -> Any:
        schema = bare(schema)
        if isinstance(schema, list):
            return [self.type(branch, namespace, f"{place}/{index}") for index, branch in enumerate(schema)]
        word = word_of(schema)
        other = self.turned_back(schema, namespace, place) if self.is_back else self.turned(word)
        if other is not None:
            return other
        self.check_names(schema, place)
        if not isinstance(schema, dict) or not isinstance(word, str):
            return schema
        if word in NAMED:
            self.given.declare(schema, namespace)
        looked_at = ("type", *ATTRIBUTES.get(word, ()))
        copy = kept(schema, looked_at)
        if word in NAMED:
            self.made.declare(copy, namespace)
            namespace = fullname(schema, namespace)[1]
        self.rewrite_parts(copy, namespace, place)
        return copy

    def rewrite_parts(self, copy: dict, namespace: str, place: str) -> None:
        for key in ("items", "values"):
            if key in ATTRIBUTES.get(copy["type"], ()) and key in copy:
                copy[key] = self.type(copy[key], namespace, f"{place}/{key}")
        if copy["type"] in ("record", "error") and isinstance(copy.get("fields"), list):
            fields, copy["fields"] = copy["fields"], []
            for index, field in enumerate(fields):
                copy["fields"].append(self.field(field, namespace, f"{place}/fields/{index}"))

    def field(self, field: Any, namespace: str, place: str) -> Any:
        if not isinstance(field, dict) or "type" not in field:
            return field
        copy = kept(field, OF_FIELD)
        copy["type"] = self.type(field["type"], namespace, f"{place}/type")
        if "default" in field:
            try:
                copy["default"] = self.default(field["default"], field["type"], copy["type"], namespace)
            except Refused as fault:
                raise Refused(f"{place}/default: {fault}") from None
        return copy

    def default(self, value: Any, given: Any, made: Any, namespace: str) -> Any:
        """The default for the type that is made. What fits neither type stays, for `avro` to refuse."""
        try:
            turned, branches = self.given.read_default(value, given, namespace)
        except Unfit:
            turned, branches = value, None
        try:
            again = self.made.read_default(turned, made, namespace)[1]
        except Unfit:
            again = None
        if again != branches:
            raise Refused("it would be a default of another branch" if branches else "it is not a datum of its type")
        return turned

    def turned(self, word: Any) -> Any:
        """The fixed for a float or double: its definition where it is first."""
        wide = BY_WORD.get(word) if isinstance(word, str) else None
        if wide is None:
            return None
        if wide.fullname in self.written:
            return wide.fullname
        self.written.add(wide.fullname)
        fixed = {"type": "fixed", "name": wide.name, "namespace": wide.namespace, "size": wide.size}
        self.made.declare(fixed, "")
        return fixed

    def turned_back(self, schema: Any, namespace: str, place: str) -> Any:
        """The float or double for a fixed that stands for it, or for its name."""
        word = word_of(schema)
        if not is_definition(schema):
            name = qualified(word, namespace) if isinstance(word, str) else None
            return BY_FULLNAME[name].word if name in BY_FULLNAME else None
        wide = BY_FULLNAME.get(fullname(schema, namespace)[0])
        if wide is None:
            return None
        if word != "fixed" or schema.get("size") != wide.size:
            raise Refused(f"{place or '/'}: {wide.fullname} is not a fixed of {wide.size} bytes")
        self.given.declare(schema, namespace)
        return wide.word

    def check_names(self, schema: Any, place: str) -> None:
        """Refuses names that would stand for a number, also by the part after the last dot."""
        names = [word_of(schema)]
        if isinstance(schema, dict):
            aliases = schema.get("aliases")
            names += [schema.get("name"), *(aliases if isinstance(aliases, list) else ())]
        for name in names:
            if not self.is_back and isinstance(name, str) and name.rpartition(".")[2] in self.reserved:
                raise Refused(f"{place or '/'}: {name} has the name that stands for {self.stood_for}")


def kept(schema: dict, looked_at: tuple[str, ...]) -> dict:
    """A copy of an object with the attributes that `avro` takes."""
    copy = {key: schema[key] for key in looked_at if key in schema}
    copy.update((key, value) for key, value in schema.items() if key not in looked_at and is_taken(value))
    return {key: value for key, value in copy.items() if value is not None or key not in OPTIONAL}


def rewritten(text: bytes, rewriting: Rewriting) -> bytes:
    try:
        return printed(rewriting.type(parsed(text), "", ""))
    except ValueError as fault:
        raise Refused(str(fault)) from None
    except RecursionError:
        raise Refused("this is nested too deeply") from None


def rewrite_text(source: BinaryIO, sink: BinaryIO, rewriting: Rewriting) -> None:
    text = read(source, MOST_TEXT + 1)
    if len(text) > MOST_TEXT:
        raise Refused(f"it has more than {MOST_TEXT} bytes")
    send(sink, rewritten(text, rewriting))


def rewrite_file(source: BinaryIO, sink: BinaryIO, is_back: bool) -> None:
    header = read_header(source)
    if b"avro.schema" not in header.metadata:
        raise Refused("it names no schema")
    schema = rewritten(header.metadata[b"avro.schema"], Rewriting(is_back)).rstrip(b"\n")
    send(sink, put_header({**header.metadata, b"avro.schema": schema}, header.marker))
    send_rest(source, sink)


def main(words: list[str]) -> int:
    sys.setrecursionlimit(DEPTH)
    if words == []:
        return run("tame", lambda source, sink: rewrite_text(source, sink, Rewriting(is_back=False)))
    if words in (["--file"], ["--back"]):
        return run("tame", lambda source, sink: rewrite_file(source, sink, words == ["--back"]))
    return usage(__doc__)


if __name__ == "__main__":
    sys.exit(main(sys.argv[1:]))

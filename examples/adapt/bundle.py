#!/usr/bin/env python3
"""Prints a schema whose types are in several files as one text, for `avro`, which takes one file for each schema:

    bundle.py SCHEMA [OTHER..] > bundle.avsc
    bundle.py --tree FOLDER OUT [FILE..]
    avro judge <(bundle.py v1/order.avsc v1/types/*.avsc) <(bundle.py order.avsc types/*.avsc)

Of the other files only those types are taken that SCHEMA needs and does not define, wherever they are in them and in
whatever order. Each is written where it is used first, with its namespace. Each file is read as if it stood alone, in
no namespace; an other file that is not JSON defines nothing. A schema that defines all its types is printed as it is.
Definitions of a type in two files may differ in "doc" alone.

With --tree the other files are all *.avsc below FOLDER, and the text of each FILE of it, or of all, goes to OUT/FILE. OUT
is not FOLDER and not in it. A file that is refused is told, and the others are written.

Exit status: 0; 3 a text is refused, with the place as a JSON pointer; 4 a file cannot be read or written; 64 usage, or
a FILE or OUT that would be written over a source.
"""

from __future__ import annotations

import json
import sys
from collections import ChainMap
from pathlib import Path
from typing import Any, Callable, Iterable, NamedTuple

# How deep `avro` lets a text be nested.
MOST_LEVELS = 127
PRIMITIVES = {"null", "boolean", "int", "long", "float", "double", "bytes", "string"}
NAMED = {"record", "error", "enum", "fixed"}
KINDS = PRIMITIVES | NAMED | {"array", "map"}


class Refused(Exception):
    """A text is refused: status 3."""


class Failed(Exception):
    """A file cannot be read or written: status 4."""


class Misplaced(Exception):
    """A file would be written outside of OUT, or over a source: status 64."""


class Scope(NamedTuple):
    """Where a type is read, and the namespace around the place where it is written."""

    file: str
    place: str
    namespace: str
    around: str

    def at(self, step: str) -> Scope:
        return self._replace(place=self.place + step)

    def __str__(self) -> str:
        return f"{self.file}: {self.place or '/'}"


class Definition(NamedTuple):
    file: str
    place: str
    namespace: str
    schema: dict


def refuse_constant(word: str) -> None:
    raise ValueError(f"{word} is not a number of JSON")


def parsed(text: bytes) -> Any:
    """The JSON of a text; a ValueError has words for what is wrong."""
    try:
        return json.loads(text.decode(), parse_constant=refuse_constant)
    except UnicodeDecodeError:
        raise ValueError("the bytes are not UTF-8") from None
    except json.JSONDecodeError as fault:
        raise ValueError(f"this is not JSON, at line {fault.lineno}, column {fault.colno}") from None
    except RecursionError:
        raise ValueError("this is nested too deeply") from None


def printed(schema: Any, indent: int | None = None) -> bytes:
    """The text of a schema; a ValueError has words for what has none."""
    try:
        return (json.dumps(schema, indent=indent, ensure_ascii=False, allow_nan=False) + "\n").encode()
    except UnicodeEncodeError:
        raise ValueError("a text has half of a surrogate pair") from None
    except RecursionError:
        raise ValueError("this is nested too deeply") from None


def fullname(schema: dict, namespace: str) -> tuple[str | None, str]:
    """The fullname that a definition gives, and the namespace of the names in it."""
    name, own = schema.get("name"), schema.get("namespace")
    if not isinstance(name, str):
        return None, namespace
    if "." in name:
        return name, name.rpartition(".")[0]
    if isinstance(own, str):
        namespace = own
    return qualified(name, namespace), namespace


def qualified(name: str, namespace: str) -> str:
    return name if "." in name or not namespace else f"{namespace}.{name}"


def is_definition(schema: Any) -> bool:
    return isinstance(schema, dict) and isinstance(schema.get("type"), str) and schema["type"] in NAMED


def with_parts(schema: dict, change: Callable[[Any, str], Any]) -> dict:
    """A copy of an object, in which each type is what `change` makes of it and of the step that leads to it."""
    copy = dict(schema)
    for key in ("items", "values"):
        if key in schema:
            copy[key] = change(schema[key], f"/{key}")
    if isinstance(schema.get("type"), (dict, list)):
        copy["type"] = change(schema["type"], "/type")
    if isinstance(schema.get("fields"), list):
        copy["fields"] = [
            {**field, "type": change(field["type"], f"/fields/{index}/type")} if has_type(field) else field
            for index, field in enumerate(schema["fields"])
        ]
    return copy


def has_type(field: Any) -> bool:
    return isinstance(field, dict) and "type" in field


# The definitions of each name, in the order of the files.
Found = dict[str, list[Definition]]


def find_definitions(schema: Any, scope: Scope, found: Found) -> None:
    """Adds the definitions in a text to those found."""
    if isinstance(schema, list):
        for index, branch in enumerate(schema):
            find_definitions(branch, scope.at(f"/{index}"), found)
    if not isinstance(schema, dict):
        return
    if is_definition(schema):
        name, namespace = fullname(schema, scope.namespace)
        scope = scope._replace(namespace=namespace)
        if name is not None:
            found.setdefault(name, []).append(Definition(*scope[:3], schema))
    with_parts(schema, lambda part, step: find_definitions(part, scope.at(step), found))


def outline(schema: Any, namespace: str) -> Any:
    """A type by which definitions are compared: by fullnames, and without the definitions in it."""
    if isinstance(schema, list):
        return [outline(branch, namespace) for branch in schema]
    if isinstance(schema, str):
        return schema if schema in PRIMITIVES else qualified(schema, namespace)
    if not isinstance(schema, dict):
        return schema
    if is_definition(schema):
        return fullname(schema, namespace)[0]
    word = schema.get("type")
    if isinstance(word, str) and word not in KINDS:
        return qualified(word, namespace)
    return with_parts(schema, lambda part, _: outline(part, namespace))


def outline_of(definition: Definition) -> dict:
    copy = with_parts(definition.schema, lambda part, _: outline(part, definition.namespace))
    if isinstance(copy.get("fields"), list):
        copy["fields"] = [without(field, "doc") if has_type(field) else field for field in copy["fields"]]
    return without(copy, "name", "namespace", "doc")


def without(schema: dict, *keys: str) -> dict:
    return {key: schema[key] for key in schema if key not in keys}


def compare(name: str, one: Definition, other: Definition, scope: Scope) -> None:
    """Refuses two definitions of a name, unless they are one, or are alike in two files."""
    if one.file == other.file and one.place != other.place:
        raise Refused(f"{other.file}: {other.place or '/'}: {name} is defined before, at {one.place or '/'}")
    if one.file != other.file and outline_of(one) != outline_of(other):
        raise Refused(f"{scope}: {name} is defined in {one.file} and in {other.file}")


def check_levels(made: Any, left: int, name: str) -> None:
    """A ValueError names the type in which a text is nested too deeply for `avro`."""
    if not isinstance(made, (dict, list)):
        return
    if left == 0:
        raise ValueError(f"with its types this is nested more than {MOST_LEVELS} levels deep, at {name}")
    if is_definition(made):
        name = fullname(made, "")[0] or name
    for part in made.values() if isinstance(made, dict) else made:
        check_levels(part, left - 1, name)


class Bundle:
    """The definitions of all files, and those of them that are written already."""

    def __init__(self, own: tuple[str, Any], others: Found) -> None:
        mine: Found = {}
        find_definitions(own[1], Scope(own[0], "", "", ""), mine)
        # Those of a file go before all that others have of the same names.
        self.found = ChainMap(mine, others)
        self.written: dict[str, Definition] = {}
        self.is_changed = False

    def type(self, schema: Any, scope: Scope) -> Any:
        if isinstance(schema, list):
            return [self.type(branch, scope.at(f"/{index}")) for index, branch in enumerate(schema)]
        if isinstance(schema, str):
            return schema if schema in PRIMITIVES else self.reference(schema, scope)
        if not isinstance(schema, dict):
            return schema
        if is_definition(schema):
            return self.definition(schema, scope)
        word = schema.get("type")
        if isinstance(word, str) and word not in KINDS:
            return self.reference(word, scope.at("/type"))
        return with_parts(schema, lambda part, step: self.type(part, scope.at(step)))

    def reference(self, word: str, scope: Scope) -> Any:
        name = qualified(word, scope.namespace)
        if name in self.written:
            return self.named(name, scope)
        if name not in self.found:
            raise Refused(f"{scope}: no type {name}")
        first = self.found[name][0]
        self.compare_all(name, first, scope)
        self.is_changed = True
        return self.definition(first.schema, Scope(*first[:3], scope.around))

    def definition(self, schema: dict, scope: Scope) -> Any:
        name, namespace = fullname(schema, scope.namespace)
        if name is None:
            return schema
        this = Definition(scope.file, scope.place, namespace, schema)
        if name in self.written:
            compare(name, self.written[name], this, scope)
            return self.named(name, scope)
        self.compare_all(name, this, scope)
        self.written[name] = this
        inner = scope._replace(namespace=namespace, around=namespace)
        copy = with_parts(schema, lambda part, step: self.type(part, inner.at(step)))
        return {**copy, "name": name.rpartition(".")[2], "namespace": namespace}

    def compare_all(self, name: str, one: Definition, scope: Scope) -> None:
        for other in self.found[name]:
            compare(name, one, other, scope)

    def named(self, name: str, scope: Scope) -> str:
        if "." not in name and scope.around:
            raise Refused(f"{scope}: {name} has no namespace, and cannot be named within {scope.around}")
        return name


def definitions(texts: Iterable[tuple[str, bytes]]) -> Found:
    """What the files define; one that is not JSON defines nothing."""
    found: Found = {}
    for file, text in texts:
        try:
            find_definitions(parsed(text), Scope(file, "", "", ""), found)
        except (ValueError, RecursionError):
            continue
    return found


def bundled(file: str, text: bytes, others: Found) -> bytes:
    """The text of a file, with the types of others that it needs."""
    try:
        schema = parsed(text)
        bundle = Bundle((file, schema), others)
        made = bundle.type(schema, Scope(file, "", "", ""))
        if not bundle.is_changed:
            return text
        check_levels(made, MOST_LEVELS, "/")
        return printed(made, indent=2)
    except ValueError as fault:
        raise Refused(f"{file}: {fault}") from None
    except RecursionError:
        raise Refused(f"{file}: this is nested too deeply") from None


def read(path: Path | str) -> bytes:
    try:
        return Path(path).read_bytes()
    except OSError:
        raise Failed(f"{path}: cannot read") from None


def print_bundle(files: list[str]) -> int:
    texts = [(file, read(file)) for file in files]
    text = bundled(*texts[0], definitions(texts[1:]))
    try:
        with open(1, "wb", closefd=False) as output:
            output.write(text)
    except OSError:
        raise Failed("output: cannot write") from None
    return 0


def check_places(folder: Path, out: Path, files: list[str]) -> None:
    """Each file lies in the folder, and OUT does not, by whatever names."""
    top = folder.resolve()
    if out.resolve() == top or top in out.resolve().parents:
        raise Misplaced(f"{out}: is in {folder}")
    for file in files:
        if top not in (folder / file).resolve().parents or ".." in Path(file).parts or Path(file).is_absolute():
            raise Misplaced(f"{file}: is not in {folder}")


def write_tree(folder: Path, out: Path, files: list[str]) -> int:
    """Bundles the files one by one, each with all others of the folder."""
    check_places(folder, out, files)
    names = sorted(str(path.relative_to(folder)) for path in folder.rglob("*.avsc") if path.is_file())
    texts = {name: read(folder / name) for name in {*names, *files}}
    others = definitions(sorted(texts.items()))
    status = 0
    for file in files or names:
        try:
            write(out / file, bundled(file, texts[file], others))
        except Refused as fault:
            status = fail(str(fault), 3)
    return status


def write(path: Path, text: bytes) -> None:
    try:
        path.parent.mkdir(parents=True, exist_ok=True)
        path.write_bytes(text)
    except OSError:
        raise Failed(f"{path}: cannot write") from None


def fail(words: str, status: int) -> int:
    print(f"bundle: {words}", file=sys.stderr)
    return status


def main(words: list[str]) -> int:
    is_tree = words[:1] == ["--tree"]
    if len(words) < (3 if is_tree else 1) or (words[0].startswith("-") and not is_tree):
        print(__doc__, end="", file=sys.stderr)
        return 64
    try:
        return write_tree(Path(words[1]), Path(words[2]), words[3:]) if is_tree else print_bundle(words)
    except Refused as fault:
        return fail(str(fault), 3)
    except Failed as fault:
        return fail(str(fault), 4)
    except Misplaced as fault:
        return fail(str(fault), 64)


if __name__ == "__main__":
    sys.exit(main(sys.argv[1:]))

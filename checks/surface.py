#!/usr/bin/env python3
"""Compares the public items of the crates, and the libraries that they stand on, with the tables of `surface_rows.py`.

usage: checks/surface.py [--print | --places]

Each item of SURFACE is found by its path, over the re-exports, and has to have the signature that stands there; names of
parameters are free. Some source of the tests has to name it by this path. Of each library what it is there for stands in
NEEDED: the calls that a file has to make, over imports that may give other names. What is done by hand is found by `by_hand.py`;
what stands so nonetheless is in EXCEPTIONS, with its reason and with how often: one more is a finding, and so is one that is gone.
Each public error is found by itself, and has to derive the trait of `thiserror`.

Each finding has a line, and the exit status is 1 if there is one. With --print the items are printed as the sources have
them, with --places the exceptions as they would have to be; nothing is compared.
"""

from __future__ import annotations

import re
import sys
from collections import Counter, defaultdict
from functools import lru_cache
from typing import Iterator, NamedTuple

from by_hand import RULES, Place, places, plain_type, shown
from sources import (
    CRATES,
    PATH,
    QUALIFIED,
    TESTS,
    USE,
    Module,
    body,
    definition,
    enclosed,
    head,
    imports,
    listed,
    modules,
    resolved,
    split,
    texts,
    tidy,
)
from surface_rows import EXCEPTIONS, NEEDED, SURFACE

IMPL = re.compile(r"^impl\b([^{;]*)\{", re.MULTILINE)
# The traits of std whose functions stand in SURFACE as those of a type.
TRAITS = {"eq": "PartialEq", "cmp": "Ord", "hash": "Hash", "default": "Default"}
CALL = re.compile(r"\.(\w+)(?:::<[^>]*>)?\(")


def signature(text: str) -> str:
    """The signature of a function from behind its name on: the types alone of its parameters."""
    whole = head(text)
    at = whole.index("(")
    if whole.startswith("<"):
        at = whole.index("(", len(enclosed(whole, 0)))
    inner = enclosed(whole, at)
    types = [re.sub(r"^mut self", "self", re.sub(r"^(?:mut )?\w+: ", "", tidy(it))) for it in split(inner)]
    return f"{tidy(whole[:at])}({', '.join(types)}) {tidy(whole[at + len(inner) + 2 :])}".strip()


def shape(text: str, kind: str) -> str:
    """A type from behind its name on: its generics, and its variants or its public fields."""
    at = re.search(r"[{;(]", text)
    if at is None or at[0] == ";":
        return tidy(text[: at.start()] if at else text)
    front, inner = tidy(text[: at.start()]), enclosed(text, at.start())
    parts = [tidy(it) for it in split(inner)]
    if kind == "enum":
        parts = [re.sub(r",? }$", " }", it) for it in parts]
    else:
        parts = [it[4:] for it in parts if it.startswith("pub ")]
    if not parts:
        return front
    return f"{front}({', '.join(parts)})" if at[0] == "(" else f"{front} {{ {', '.join(parts)} }}"


@lru_cache(maxsize=None)
def impls(text: str) -> list[tuple[str, str, str]]:
    """What a text implements: the trait, the type, and the functions."""
    found = []
    for it in IMPL.finditer(text):
        header = it[1].strip()
        if header.startswith("<"):
            header = header[len(enclosed(header, 0)) + 2 :].strip()
        of_trait, _, kind = header.rpartition(" for ")
        found.append((of_trait.split("::")[-1], kind, enclosed(text, it.end() - 1)))
    return found


def method(crate: str, module: Module, owner: str, name: str) -> str | None:
    """The signature of a function of a type or a trait, or of a trait that a type has."""
    trait = re.search(rf"^pub trait {owner}\b[^{{]*\{{", modules(crate)[module], re.MULTILINE)
    if trait:
        inner = enclosed(trait.string, trait.end() - 1)
        found = re.search(rf"^ *(fn|type) {name}\b", inner, re.MULTILINE)
        if found and found[1] == "type":
            return tidy(re.split("[;=]", inner[found.end() :])[0]).replace(" :", ":")
        return signature(inner[found.end() :]) if found else None
    for text in modules(crate).values():
        for of_trait, kind, inner in impls(text):
            if of_trait in ("", TRAITS.get(name)) and re.match(rf"{owner}\b", kind):
                found = re.search(rf"^ *{'fn' if of_trait else 'pub fn'} {name}\b", inner, re.MULTILINE)
                if found:
                    return signature(inner[found.end() :])
    return None


class Item(NamedTuple):
    """An item: what it is, its path, and its signature."""

    kind: str
    path: str
    signature: str

    def line(self) -> str:
        return f"{self.kind} {self.path}{self.signature}"


def found_at(kind: str, path: str) -> str | None:
    """The signature of the item at a path."""
    crate, *inner = path.split("::")
    if kind == "fn" and inner[-2:-1] and inner[-2][0].isupper() or kind == "type":
        owner = definition(crate, tuple(inner[:-2]), inner[-2])
        return method(*owner, inner[-1]) if owner else None
    place = definition(crate, tuple(inner[:-1]), inner[-1])
    public = [rf"^pub mod {name};" for name in inner[:-1]]
    if place is None or any(not re.search(it, modules(crate)[()], re.MULTILINE) for it in public):
        return None
    text = modules(place[0])[place[1]]
    at = re.search(rf"^pub {kind} {place[2]}\b", text, re.MULTILINE)
    if at is None:
        return None
    if kind == "trait":
        return ""
    return signature(text[at.end() :]) if kind == "fn" else shape(text[at.end() :], kind)


@lru_cache(maxsize=None)
def items() -> list[Item]:
    """The items of the table."""
    found = []
    for line in SURFACE.splitlines():
        it = re.match(r"(fn|type|struct|enum|trait) ([\w:]*\w)(.*)", line.strip())
        if it:
            found.append(Item(*it.groups()))
    return found


class Source(NamedTuple):
    """A source of the tests: what each name that it imports stands for, the paths in it, and the calls on values."""

    imports: dict[str, Module]
    paths: set[Module]
    calls: set[str]


def source_in(text: str) -> Source:
    """A source of the tests."""
    rest = body(text)
    paths = {tuple(it.split("::")) for it in set(PATH.findall(rest))}
    starts = {path[:count] for path in paths for count in range(1, len(path) + 1)}
    return Source(imports(text), starts, set(CALL.findall(rest)))


def names(source: Source, item: Item) -> bool:
    """Whether a source names an item by its path."""
    whole = tuple(item.path.split("::"))
    of_value = item.kind == "fn" and re.match(r"(?:<[^(]*>)?\((?:&(?:'\w+ )?(?:mut )?)?self\b", item.signature)
    for own, path in [*source.imports.items(), (whole[0], whole[:1])]:
        if whole[: len(path)] == path:
            rest = whole[len(path) :]
            # a trait is imported for its calls
            if (own, *rest) in source.paths or (not rest and item.kind == "trait"):
                return True
            if of_value and len(rest) == 1 and rest[0] in source.calls:
                return True
    return False


@lru_cache(maxsize=None)
def named_in(text: str) -> frozenset[Item]:
    """The items that a source of the tests names."""
    source = source_in(text)
    return frozenset(item for item in items() if names(source, item))


def of_surface() -> Iterator[str]:
    """What is wrong with the public items."""
    named = frozenset().union(*(named_in(text) for crate in TESTS for text in modules(crate).values()))
    for item in items():
        found = found_at(item.kind, item.path)
        if found is None:
            yield f"{item.path}: there is no public {item.kind} by this path"
            continue
        if found != item.signature:
            yield f"{item.path}: the signature is {item.path.split('::')[-1]}{found}, and not {item.path.split('::')[-1]}{item.signature}"
        if item.kind != "type" and item not in named:
            yield f"{item.path}: no source of the tests names it by this path"


@lru_cache(maxsize=None)
def called_in(crate: str, text: str) -> frozenset[str]:
    """The paths in the code of a text, over its imports: each with its beginnings, types with their first parameter, and calls on values."""
    rest = body(text)
    found = {f".{name}" for name in CALL.findall(rest)}
    for it in PATH.finditer(rest):
        path = resolved(text, it[0])
        found |= {"::".join(path[:count]) for count in range(1, len(path) + 1)}
        if rest[it.end() : it.end() + 1] == "<":
            key = split(enclosed(rest, it.end()))[:1]
            found |= {f"{'::'.join(path)}<{plain_type(crate, text, shown(part))}>" for part in key}
    found |= {"::".join((*resolved(text, it[1]), it[2])) for it in QUALIFIED.finditer(rest)}
    return frozenset(found)


@lru_cache(maxsize=None)
def modules_in(text: str) -> frozenset[str]:
    """The modules that a text names as its own."""
    return frozenset(re.findall(r"^(?:pub(?:\([^)]*\))? )?mod (\w+)", text, re.MULTILINE))


def rows() -> list[tuple[str, str, str]]:
    """The rows of NEEDED: a library, a file and a path, or some paths of which one has to be there."""
    lines = (it.strip() for it in NEEDED.splitlines())
    return [(*it.split(" ", 2),) for it in lines if it and not it.startswith("#")]


def of_needed() -> Iterator[str]:
    """The calls of libraries that are not there."""
    for library, file, path in rows():
        crate, _, inner = file.partition("/src/")
        text = texts(crate).get(tuple(inner.removesuffix(".rt").split("/")))
        if text is None:
            yield f"crates/{file}: there is no such file, where {library} is needed for {path}"
        elif not called_in(crate, text.plain) & set(path.split(" or ")):
            yield f"crates/{file}: {path} is not there, for which {library} is"
        elif library != crate and library not in listed().get(crate, []):
            yield f"crates.txt: {crate} does not list {library}"
        elif any(library in modules_in(it) for it in modules(crate).values()):
            yield f"crates/{crate}: a module has the name of the library {library}"


Counts = dict[tuple[str, str], dict[str, list[Place]]]


def counted() -> Counts:
    """The places of each rule and file, by what stands there."""
    found: Counts = defaultdict(lambda: defaultdict(list))
    for place in places():
        found[place.rule, place.file][place.what].append(place)
    return found


def of_exceptions() -> Iterator[str]:
    """What is done by hand, and the exceptions that nothing needs."""
    excepted = {(rule, file): Counter(counts) for rule, file, _, counts in EXCEPTIONS}
    if len(excepted) != len(EXCEPTIONS):
        yield "EXCEPTIONS: two are for one rule and one file"
    found = counted()
    for (rule, file), there in sorted(found.items()):
        for what, at in sorted(there.items()):
            most = excepted.get((rule, file), Counter())[what]
            if len(at) > most:
                lines = ", ".join(str(place.line) for place in at)
                told = f"{len(at)} times, and {most} excepted" if most else f"line {lines}"
                yield f"crates/{file}: {what!r} ({told}): {RULES[rule]}"
    for (rule, file), counts in sorted(excepted.items()):
        for what, most in sorted(counts.items()):
            count = len(found.get((rule, file), {}).get(what, []))
            if count < most:
                yield f"crates/{file}: {what!r} is there {count} times, and excepted {most} times from {rule}"


def findings() -> list[str]:
    """All that is wrong."""
    return [*of_surface(), *of_needed(), *of_exceptions()]


def main(words: list[str]) -> int:
    """Prints the items or the places, or compares all."""
    if words == ["--print"]:
        for item in items():
            print(Item(item.kind, item.path, found_at(item.kind, item.path) or "").line())
        return 0
    if words == ["--places"]:
        for (rule, file), there in sorted(counted().items()):
            print(f"{rule}: {file}: { {what: len(at) for what, at in there.items()} }")
        return 0
    if words:
        print(__doc__, file=sys.stderr)
        return 64
    found = findings()
    for finding in found:
        print(finding)
    return 1 if found else 0


if __name__ == "__main__":
    sys.exit(main(sys.argv[1:]))

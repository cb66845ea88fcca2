"""Logical types, which no verdict looks at: what of them has changed."""

from __future__ import annotations

from dataclasses import astuple, dataclass, fields
from typing import Any, Callable, Iterator

from .places import NAMED, RECORDS, Place, Schema

LEAVES = {"boolean", "int", "long", "float", "double", "bytes", "string", "enum", "fixed", "array", "map"}


@dataclass(frozen=True)
class Logical:
    """What Avro ignores of a type."""

    logicalType: Any = None
    precision: Any = None
    scale: Any = None


# The types of a field by the steps to them, such as of its items, and then by kind.
Steps = dict[str, dict[str, Logical]]
# Those of each field of a definition by its name; one without fields has them under no name.
Fields = dict[str, Steps]


def brief(value: Any) -> Any:
    """A value as it is told; of a long one the beginning and the end."""
    if value is None or isinstance(value, int):
        return value
    words = str(value)
    return words if len(words) <= 200 else f"{words[:100]}...{words[-100:]}"


def logical(schema: Any) -> Logical:
    attributes = schema if isinstance(schema, dict) else {}
    if attributes.get("logicalType") == "decimal":
        return Logical("decimal", brief(attributes.get("precision")), brief(attributes.get("scale", 0)))
    return Logical(brief(attributes.get("logicalType")))


def last_names(schema: dict) -> list[str]:
    """The name and the aliases of a definition or a field, without namespaces."""
    return [name.rpartition(".")[2] for name in (schema["name"], *(schema.get("aliases") or ()))]


def names_of_fields(place: Place) -> list[list[str]]:
    return [last_names(field) for field in place.schema["fields"]] if place.kind in RECORDS else [[""]]


@dataclass(frozen=True)
class Leaf:
    """A type that is no record: where its field is, the steps from there, and what is known of the field."""

    place: Place
    field: str
    steps: str
    known: Steps


def leaves(root: Place, enter: Callable[[Place], list[Steps]], outer: Steps) -> Iterator[Leaf]:
    """All leaves of a schema; `enter` says of a definition what is known of each field, `outer` is known without one."""
    left = [Leaf(root, "", "", outer)]
    while left:
        leaf = left.pop()
        place, kind = leaf.place, leaf.place.kind
        inner = enter(place) if kind in NAMED else []
        if inner and kind not in RECORDS:
            leaf = Leaf(place, leaf.field, "", inner[0])
        if kind in LEAVES:
            yield leaf
        below = []
        for index, (step, part) in enumerate(place.parts()):
            if kind in RECORDS:
                below.append(Leaf(part, f"{place.pointer}/fields/{index}", "", inner[index]))
            else:
                below.append(Leaf(part, leaf.field, leaf.steps if kind == "union" else leaf.steps + step, leaf.known))
        left.extend(reversed(below))


def known_definitions(old: Place) -> dict[str, Fields]:
    """What the old schema has, by the last names of its definitions; outside of them, by none."""
    known: dict[str, Fields] = {"": {"": {}}}

    def enter(place: Place) -> list[Steps]:
        own = known.setdefault(last_names(place.schema)[0], {})
        return [own.setdefault(names[0], {}) for names in names_of_fields(place)]

    for leaf in leaves(old, enter, known[""][""]):
        leaf.known.setdefault(leaf.steps, {})[leaf.place.kind] = logical(leaf.place.schema)
    return known


def former(known: dict[str, Fields], place: Place) -> list[Steps]:
    """What is known of each field of a definition of the new schema, under any name that it and the field have or had."""
    found = [known[name] for name in dict.fromkeys(last_names(place.schema)) if name in known]
    merged = found[0] if found else {}
    if len(found) > 1:
        merged = {}
        for each in reversed(found):
            merged.update(each)
    return [next((merged[name] for name in names if name in merged), {}) for names in names_of_fields(place)]


def notes(old: Schema, new: Schema) -> Iterator[tuple[str, str]]:
    """What has changed of logical types: the pointer of the field, and words."""
    known = known_definitions(old.root)
    for leaf in leaves(new.root, lambda place: former(known, place), known[""][""]):
        now = logical(leaf.place.schema)
        kinds = leaf.known.get(leaf.steps, {})
        was = kinds.get(leaf.place.kind, next(iter(kinds.values())) if len(kinds) == 1 else now)
        yield from ((leaf.field, words) for words in differences(now, was))


def differences(now: Logical, was: Logical) -> Iterator[str]:
    if now.logicalType != was.logicalType:
        yield f"logicalType {now.logicalType or 'none'}, was {was.logicalType or 'none'}"
        return
    for each, one, other in zip(fields(Logical), astuple(now), astuple(was)):
        if one != other:
            yield f"{now.logicalType} {each.name} {one}, was {other}"

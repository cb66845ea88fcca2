#!/usr/bin/env python3
"""Writes schema texts that are made to cost more than their length.

    hostile.py KIND SIZE FILE     writes the text of a kind, at most SIZE bytes long
    hostile.py measure PROGRAM    prints the time and the peak memory of `PROGRAM schema FILE` for each kind and size
"""
import json
import os
import random
import resource
import subprocess
import sys
import tempfile
import time

import hostile_sets

SIZES = [131072, 262144, 524288, 1048576]
SECONDS = 60
MEMORY = 4 << 30


def fixed(name, space=None):
    text = {"type": "fixed", "name": name, "size": 1}
    if space is not None:
        text["namespace"] = space
    return text


def written(schema):
    return json.dumps(schema, separators=(",", ":"))


def aliases(size):
    """One record in a long namespace, and the alias "a" as often as it fits."""
    space = "n" * (size // 2)
    record = {"type": "record", "name": "R", "namespace": space, "aliases": [], "fields": []}
    count = (size - len(written(record))) // len('"a",')
    record["aliases"] = ["a"] * count
    return written(record)


def definitions(size):
    """Fixeds in a union, all in one long namespace: of a record around them."""
    def text(space, count):
        branches = [fixed("F%d" % k) for k in range(count)]
        field = {"name": "f", "type": branches}
        return written({"type": "record", "name": "R", "namespace": "n" * space, "fields": [field]})
    count = min(4094, (size * 3 // 4) // len('{"type":"fixed","name":"F1234","size":1},'))
    return text(size - len(text(0, count)), count)


def references(size):
    """A thousand fixeds, and a union of as many references to them as fit; a branch stands twice, which is refused."""
    names = ["F%d" % k for k in range(1000)]
    def text(count):
        fields = [{"name": "x%d" % k, "type": fixed(name)} for k, name in enumerate(names)]
        fields.append({"name": "y", "type": [names[k % 1000] for k in range(count)]})
        return written({"type": "record", "name": "R", "fields": fields})
    return text(longest(size, text))


def long_references(size):
    """The same with a long namespace around it."""
    names = ["F%d" % k for k in range(1000)]
    space = "n" * (size // 4)
    def text(count):
        fields = [{"name": "x%d" % k, "type": fixed(name)} for k, name in enumerate(names)]
        fields.append({"name": "y", "type": [names[k % 1000] for k in range(count)]})
        return written({"type": "record", "name": "R", "namespace": space, "fields": fields})
    return text(longest(size, text))


def unions(size):
    """A thousand fixeds, and many unions of a thousand references each, shuffled, under a long namespace."""
    names = ["F%d" % k for k in range(1000)]
    space = "n" * (size // 4)
    def text(count):
        fields = [{"name": "x%d" % k, "type": fixed(name)} for k, name in enumerate(names)]
        chance = random.Random(7)
        for k in range(count):
            shuffled = list(names)
            chance.shuffle(shuffled)
            fields.append({"name": "y%d" % k, "type": shuffled})
        return written({"type": "record", "name": "R", "namespace": space, "fields": fields})
    return text(longest(size, text))


def repeated(size):
    """One definition, and a union of references to it, as many as fit, under a long namespace: it is refused."""
    space = "n" * (size // 2)
    def text(count):
        fields = [{"name": "x", "type": fixed("B")}, {"name": "y", "type": ["B"] * count}]
        return written({"type": "record", "name": "R", "namespace": space, "fields": fields})
    return text(longest(size, text))


def fields(size):
    """Fields of one type under a long namespace."""
    space = "n" * (size // 2)
    def text(count):
        of_one = [{"name": "x", "type": fixed("B")}]
        of_one += [{"name": "y%d" % k, "type": "B"} for k in range(count)]
        return written({"type": "record", "name": "R", "namespace": space, "fields": of_one})
    return text(longest(size, text))


def qualified(size):
    """Fixeds of one simple name in long namespaces that differ at their ends, and fields of them."""
    count = 64
    space = "n" * (size // (3 * count))
    of_all = [{"name": "x%d" % k, "type": fixed("F", space + str(k))} for k in range(count)]
    of_all += [{"name": "y%d" % k, "type": space + str(k) + ".F"} for k in range(count)]
    return written({"type": "record", "name": "R", "fields": of_all})


def plain(size):
    """Enums of their own in the fields of a record, and nothing unusual."""
    def text(count):
        of_all = [{"name": "f%d" % k, "doc": "A field.", "type": {"type": "enum", "name": "E%d" % k, "symbols": ["a", "b"],
                   "doc": "d" * (size // 4096)}} for k in range(count)]
        return written({"type": "record", "name": "R", "fields": of_all})
    return text(min(4000, longest(size, text)))


def twins(size):
    """Fixeds of the same simple names in two long namespaces that differ at their ends."""
    count = min(2040, (size // 4) // (2 * len('{"type":"fixed","name":"F1234","size":1},')))
    branches = [fixed("F%d" % k) for k in range(count)]
    def inner(name, space):
        return {"type": "record", "name": name, "namespace": space, "fields": [{"name": "f", "type": branches}]}
    def text(space):
        both = [{"name": name, "type": inner(name, "n" * space + name)} for name in ["a", "b"]]
        return written({"type": "record", "name": "R", "fields": both})
    return text((size - len(text(0))) // 2)


def nested(depth):
    """Objects in one another, this many, as a default: two records and the empty one are tried for each."""
    def text(size):
        default = "{}"
        for _ in range(depth):
            default = '{"a":' + default + "}"
        empty = {"type": "record", "name": "E", "fields": []}
        second = {"type": "record", "name": "B", "fields": [{"name": "a", "type": ["A", "B", empty]}]}
        first = {"type": "record", "name": "A", "fields": [{"name": "a", "type": ["A", second, "E"]}]}
        whole = {"type": "record", "name": "R", "fields": [{"name": "f", "type": [first], "default": 0}]}
        return written(whole).replace('"default":0', '"default":' + default)
    return text


def deep(size):
    """Arrays of unions in one another, 60 of them, with as many numbers in the innermost as fit, as a default."""
    items = ["null", "int"]
    for _ in range(60):
        items = ["null", {"type": "array", "items": items}]
    schema = {"type": "record", "name": "R", "fields": [{"name": "f", "type": [items[1]], "default": 0}]}
    count = (size - len(written(schema)) - 2 * 60) // 2
    return written(schema).replace('"default":0', '"default":' + "[" * 60 + ",".join(["7"] * count) + "]" * 60)


def branches(count):
    """An array of numbers, of a union of this many fixeds and int."""
    def text(size):
        of_all = [fixed("F%d" % k) for k in range(count)] + ["int"]
        field = {"name": "f", "type": {"type": "array", "items": of_all}, "default": []}
        schema = {"type": "record", "name": "R", "fields": [field]}
        field["default"] = [7] * ((size - len(written(schema))) // 2)
        return written(schema)
    return text


def texts(count):
    """An array of texts of two characters, of a union of this many fixeds of one byte and string."""
    def text(size):
        of_all = [fixed("F%d" % k) for k in range(count)] + ["string"]
        field = {"name": "f", "type": {"type": "array", "items": of_all}, "default": []}
        schema = {"type": "record", "name": "R", "fields": [field]}
        field["default"] = ["ab"] * ((size - len(written(schema))) // len('"ab",'))
        return written(schema)
    return text


def records(count):
    """An array of objects, of a union of this many records, of which the last is theirs."""
    def text(size):
        of_all = [{"type": "record", "name": "F%d" % k, "fields": [{"name": "a", "type": "null"}]} for k in range(count - 1)]
        of_all.append({"type": "record", "name": "L", "fields": [{"name": "a", "type": "int"}]})
        field = {"name": "f", "type": {"type": "array", "items": of_all}, "default": []}
        schema = {"type": "record", "name": "R", "fields": [field]}
        field["default"] = [{"a": 7}] * ((size - len(written(schema))) // len('{"a":7},'))
        return written(schema)
    return text


def choices(size):
    """An array of items that are of the last branch of a union, as many as fit."""
    branches = ["null", "boolean", "bytes", "int"]
    field = {"name": "f", "type": {"type": "array", "items": branches}, "default": []}
    schema = {"type": "record", "name": "R", "fields": [field]}
    field["default"] = [7] * ((size - len(written(schema))) // 2)
    return written(schema)


def symbols(size):
    """An enum of many symbols, and an array of its last symbol as its default."""
    names = ["S%04x" % k for k in range(size * 7 // 100)] + ["z"]
    enum = {"type": "enum", "name": "E", "symbols": names}
    field = {"name": "f", "type": {"type": "array", "items": enum}, "default": []}
    schema = {"type": "record", "name": "R", "fields": [field]}
    field["default"] = ["z"] * ((size - len(written(schema))) // len('"z",'))
    return written(schema)


def tries(size):
    """An array of numbers, of a union of one fixed again and again, and int, which is refused before they are tried."""
    of_all = [fixed("B")] + ["B"] * (size // 8) + ["int"]
    field = {"name": "f", "type": {"type": "array", "items": of_all}, "default": []}
    schema = {"type": "record", "name": "R", "fields": [field]}
    field["default"] = [7] * ((size - len(written(schema))) // 2)
    return written(schema)


def look_alikes(count, around):
    """A default that two records want that differ in nothing but their names, each an array of a union of this many fixeds and
    int, with as many objects of a union of two such records around it."""
    def text(size):
        first = [fixed("F%d" % k) for k in range(count)] + ["int"]
        others = ["F%d" % k for k in range(count)] + ["int"]
        def record(name, of_field):
            return {"type": "record", "name": name, "fields": [{"name": "a", "type": of_field}]}
        inner = [record("A", {"type": "array", "items": first}), record("B", {"type": "array", "items": others})]
        names = ["A", "B"]
        for k in range(around):
            inner = [record("A%d" % k, inner), record("B%d" % k, names)]
            names = ["A%d" % k, "B%d" % k]
        schema = written({"type": "record", "name": "R", "fields": [{"name": "f", "type": inner, "default": 0}]})
        start, end = '{"a":' * (around + 1), "}" * (around + 1)
        items = (size - len(schema) - len(start) - len(end)) // 2
        return schema.replace('"default":0', '"default":' + start + "[" + ",".join(["7"] * items) + "]" + end)
    return text


def next_to(item):
    """Another value of the same kind, if there is one of the same branch or of the branch before: of an item that is the one before
    again, no default is looked for again."""
    if isinstance(item, list):
        return [next_to(part) for part in item]
    if isinstance(item, dict):
        return {key: next_to(part) for key, part in item.items()}
    if isinstance(item, int):
        return item + 1
    return {"s0": "s1", "": "x"}.get(item, item)


def of_union(branches, item):
    """An array of one value and the next to it by turns, of a union of these branches, as its default."""
    def text(size):
        field = {"name": "f", "type": {"type": "array", "items": branches}, "default": []}
        schema = {"type": "record", "name": "R", "fields": [field]}
        two = [item, next_to(item)]
        field["default"] = two * ((size - len(written(schema))) // (len(written(two)) - 1))
        return written(schema)
    return text


def enums(count, item):
    """The same of a union of this many enums of a symbol each and the item, of which it is of the last."""
    return of_union([{"type": "enum", "name": "E%d" % k, "symbols": ["a%d" % k]} for k in range(count)], item)


def empties(count):
    """The same of empty objects, and this many records of a field each and one without."""
    of_all = [{"type": "record", "name": "F%d" % k, "fields": [{"name": "a", "type": "int"}]} for k in range(count)]
    return of_union(of_all + [{"type": "record", "name": "L", "fields": []}], {})


def alike(count, item, field):
    """The same of objects, of at most this many records that differ in a fixed of their own each, and one with int in its place."""
    def record(k, leaf):
        return {"type": "record", "name": "R%d" % k, "fields": field(k, leaf)}
    def text(size):
        most = min(count, size // 400)
        return of_union([record(k, fixed("F%d" % k)) for k in range(most)] + [record(most, "int")], item)(size)
    return text


def same_kinds(count, field, item):
    """The same of records whose fields are of one kind of JSON. A field is made of its record's index and of how many records follow."""
    def record(k, left):
        return {"type": "record", "name": "R%d" % k, "fields": [{"name": "a", "type": field(k, left)}]}
    def text(size):
        most = min(count, size // 400)
        return of_union([record(k, most - 1 - k) for k in range(most)], item)(size)
    return text


def one_symbol(k, left):
    """An enum of one symbol, that of how many records follow."""
    return {"type": "enum", "name": "E%d" % k, "symbols": ["s%d" % left]}


def symbols_of_four(k, left):
    """An enum of four symbols, the last of which is that of how many records follow."""
    return {"type": "enum", "name": "E%d" % k, "symbols": ["a%d" % k, "b%d" % k, "c%d" % k, "s%d" % left]}


def symbols_of_two(k, left):
    """An enum of two symbols, the last of which is that of how many records follow."""
    return {"type": "enum", "name": "E%d" % k, "symbols": ["first", "s%d" % left]}


def two_sizes(k, left):
    """Two fixeds, one of which has as many bytes as records follow."""
    return [dict(fixed("F%d" % k), size=left), dict(fixed("G%d" % k), size=left + 1)]


def long_array(count):
    """One object with a long array of one symbol and another, of a union of this many records, of which the last has both."""
    def text(size):
        most = min(count, size // 400)
        records = [{"type": "record", "name": "R%d" % k, "fields": [{"name": "a", "type": in_array(k, symbols_of_two(k, most - 1 - k))}]} for k in range(most)]
        def schema(items):
            field = {"name": "f", "type": records, "default": {"a": ["first"] * items + ["s0"]}}
            return written({"type": "record", "name": "R", "fields": [field]})
        return schema((size - len(schema(0))) // len('"first",'))
    return text


def wide_below(size):
    """A union of records of one field, all of a record of 20 fields of a record of very many, and an object that fits the last branch."""
    # A schema has 4,096 nodes at most, and each field of int is one.
    size = min(size, 131_072)
    def text(count):
        inner = {"type": "record", "name": "L", "fields": [{"name": "f%d" % k, "type": "int"} for k in range(count)]}
        middle = {"type": "record", "name": "M", "fields": [{"name": "m%d" % k, "type": "L" if k else inner} for k in range(20)]}
        records = [{"type": "record", "name": "R%d" % k, "fields": [{"name": "f", "type": "M" if k else middle}]} for k in range(size // 400)]
        records.append({"type": "record", "name": "Z", "fields": [{"name": "z", "type": "int"}]})
        return written({"type": "record", "name": "R", "fields": [{"name": "f", "type": records, "default": {"z": 1}}]})
    return text(longest(size, text))


def recursive(count, leaf):
    """Unions of this many records that have the union again, and a default of objects within one another, which differ where the leaf is int."""
    def text(size):
        names = ["R%d" % k for k in range(count)]
        def record(k):
            others = [record(j) for j in range(1, count)] if k == 0 else names[:k + 1]
            return {"type": "record", "name": names[k], "fields": [{"name": "n", "type": [leaf, *others]}]}
        records = [record(0), *names[1:]]
        within = '{"n":' * 100 + "%s" + "}" * 100
        field = {"name": "f", "type": {"type": "array", "items": records}, "default": 0}
        schema = written({"type": "record", "name": "R", "fields": [field]})
        items = max(1, (size - len(schema) - 2) // (len(within) + 6))
        leaves = [str(k) if leaf == "int" else "null" for k in range(items)]
        return schema.replace('"default":0', '"default":[' + ",".join(within % it for it in leaves) + "]")
    return text


def refused_by_one(size):
    """Records that have unions of at most 15 of them, and one that has a union of all. A default of objects within one another fits
    none of them. Both the length of the text and that of the unions are small: what is tried again at each level shows."""
    names = ["R%d" % k for k in range(17)]
    def record(k):
        return {"type": "record", "name": names[k], "fields": [{"name": "n", "type": ["null", *names[max(0, k - 14):k + 1]]}]}
    first = {"type": "record", "name": "R0", "fields": [{"name": "n", "type": ["null", "R0", *map(record, range(1, 17))]}]}
    fields = [{"name": "first", "type": first}, {"name": "f", "type": ["null", *names[:15]], "default": 0}]
    within = '{"n":' * 60 + "true" + "}" * 60
    return written({"type": "record", "name": "R", "fields": fields}).replace('"default":0', '"default":' + within)


def fields_twice(size):
    """The same of records that have a field twice, which is refused in the end, and of objects that have another member."""
    names = ["R%d" % k for k in range(7)]
    def record(k):
        first = ["R0", *map(record, range(1, 7))] if k == 0 else names[:k + 1]
        second = ["R0"] if k == 0 else names[:k + 1]
        return {"type": "record", "name": names[k], "fields": [{"name": "n", "type": ["null", "X", *it]} for it in (first, second)]}
    other = {"type": "record", "name": "X", "fields": [{"name": "x", "type": "int"}, {"name": "y", "type": "int"}]}
    within = '{"x":0,"n":' * 60 + "null" + "}" * 60
    fields = [{"name": "other", "type": other}, {"name": "first", "type": record(0)}, {"name": "f", "type": ["null", "X", *names], "default": 0}]
    return written({"type": "record", "name": "R", "fields": fields}).replace('"default":0', '"default":' + within)


def skipped(count):
    """An array of objects, of records that have the same union of this many records, none of which an item may be of."""
    def text(size):
        names = ["E%d" % k for k in range(count)]
        empty = [{"type": "record", "name": name, "fields": []} for name in names]
        records = [{"type": "record", "name": "R%d" % k, "fields": [{"name": "n", "type": names if k else empty}]} for k in range(14)]
        last = {"type": "record", "name": "L", "fields": [{"name": "n", "type": {"type": "array", "items": "int"}}]}
        field = {"name": "f", "type": {"type": "array", "items": [*records, last]}, "default": 0}
        schema = written({"type": "record", "name": "R", "fields": [field]})
        items = ",".join('{"n":[%d]}' % k for k in range(max(1, (size - len(schema)) // 14)))
        return schema.replace('"default":0', '"default":[' + items + "]")
    return text


def maps_by_turns(size):
    """An object of maps, of many records that have maps of one record or of another by turns."""
    empty = [{"name": name.lower(), "type": {"type": "record", "name": name, "fields": []}} for name in "AB"]
    records = [{"type": "record", "name": "R%d" % k, "fields": [{"name": "n", "type": [{"type": "map", "values": "AB"[k % 2]}]}]} for k in range(1300)]
    field = {"name": "f", "type": records, "default": 0}
    schema = written({"type": "record", "name": "R", "fields": [*empty, field]})
    members = ",".join('"%x":{}' % k for k in range(1, max(2, (size - len(schema)) // 11)))
    return schema.replace('"default":0', '"default":{"n":{"0":{"q":{}},' + members + "}}")


def behind_unions(size):
    """Recursive records of numbers, behind 900 fields of unions of eight of them, each with a default."""
    names = ["R%d" % k for k in range(60)]
    def record(k):
        others = [record(j) for j in range(1, 60)] if k == 0 else names[:k + 1]
        return {"type": "record", "name": names[k], "fields": [{"name": "n", "type": ["int", *others]}]}
    chance = random.Random(3)
    first = [{"name": "g%d" % k, "type": chance.sample(names[:20], 8), "default": {"n": {"n": 1}}} for k in range(900)]
    last = {"name": "f", "type": {"type": "array", "items": names}, "default": 0}
    schema = written({"type": "record", "name": "R", "fields": [{"name": "first", "type": record(0)}, *first, last]})
    whole = '{"n":' * 100 + "%d" + "}" * 100
    items = max(1, (size - len(schema) - 2) // (len(whole) + 6))
    return schema.replace('"default":0', '"default":[' + ",".join(whole % k for k in range(items)) + "]")


def record_of(name, **types):
    """A record of fields of these types."""
    return {"type": "record", "name": name, "fields": [{"name": key, "type": of} for key, of in types.items()]}


def tried_again(end):
    """Two records that have a union of themselves, and what only their arrays tell apart: whoever does not know which fits tries both at
    each level. The names of the types end alike."""
    mixed = in_array(0, [record_of("M" + end, x="int", y="string"), record_of("N" + end, x="string", y="int")])
    second = record_of("S" + end, n=["null", "F" + end, "S" + end], s=in_array(0, record_of("I" + end, x="int", y="int")))
    return record_of("F" + end, n=["null", "F" + end, second], s=mixed)


def branches_around(end):
    """A record of such ones with an array that the JSON below does not fit, one that fits, and one that has a map."""
    first = record_of("A" + end, a=["null", tried_again(end), "S" + end], z=in_array(0, "int"))
    fits = record_of("X" + end, a=["null", record_of("W" + end, n=["null", "W" + end], s=in_array(0, "I" + end))], z=in_array(0, "string"))
    other = record_of("Y" + end, a=in_map(0, ["null", "int"]), z=in_array(0, "string"))
    return first, fits, other


def tried_value():
    """The JSON, 60 objects deep."""
    return '{"f":{"a":' + '{"n":' * 60 + "null" + ',"s":[{"x":1,"y":1}]}' * 60 + ',"z":["t"]},"g":{"x":1,"y":1}}'


def alike_beside(size):
    """A union of two records that are alike, of which its table leaves one out, within two records that fit by another field alone."""
    first, fits, other = branches_around("p")
    again = record_of("B", a=["null", "Fp", "Sp"], z=in_array(0, "int"))
    outer = [record_of("P", f=[first, other, again, fits], g=["Mp", "Np"]), record_of("Q", f=["Ap", "Yp", "B", "Xp"], g=["null", "Ip"])]
    schema = {"type": "record", "name": "R", "fields": [{"name": "last", "type": outer, "default": 0}]}
    return written(schema).replace('"default":0', '"default":' + tried_value())


def alike_reordered(size):
    """The same of two unions that are alike, with their branches in another order, in two such records."""
    groups = [record_of("G" + end, **dict(zip("axy", branches_around(end)))) for end in "pq"]
    outer = [record_of("P", f=["Ap", "Yp", "Xp"], g=["Mp", "Np"]), record_of("Q", f=["Yq", "Aq", "Xq"], g=["null", "Ip"])]
    fields = [{"name": "d%d" % k, "type": group} for k, group in enumerate(groups)] + [{"name": "last", "type": outer, "default": 0}]
    return written({"type": "record", "name": "R", "fields": fields}).replace('"default":0', '"default":' + tried_value())


def texts_below(size):
    """An array of texts below 15 unions within one another, of 16 records each, which only the items tell apart."""
    last = record_of("Z", n=["null", "Z", in_array(0, "int")])
    union = [in_array(0, "string")]
    for level in reversed(range(15)):
        others = [record_of("A%d_%d" % (level, k), n="Z" if k % 2 else ["null", "Z", in_array(0, "int")]) for k in range(15)]
        union = [*others, record_of("B%d" % level, n=union)]
    fields = [{"name": "z", "type": last}, {"name": "last", "type": union, "default": 0}]
    schema = written({"type": "record", "name": "R", "fields": fields})
    items = max(1, (size - len(schema) - 7 * 15) // len('"a","b",'))
    return schema.replace('"default":0', '"default":' + '{"n":' * 15 + "[" + ",".join(['"a","b"'] * items) + "]" + "}" * 15)


def chain_of_records(size):
    """A chain of 1,000 records, of which each is told apart from all others one step later, and a default that has an object."""
    records = [{"name": "c%d" % k, "type": record_of("C%d" % k, a=["null", "C%d" % (k + 1)] if k < 999 else ["null"])} for k in reversed(range(1000))]
    last = {"name": "last", "type": [record_of("D", a="null"), "C0"], "default": {"a": None}}
    return written({"type": "record", "name": "R", "fields": [*records, last]})


def of_themselves(size):
    """Records that have arrays of themselves, which nothing but their names tells apart, and objects of which the first fits no record."""
    records = [{"type": "record", "name": "R%d" % k, "fields": [{"name": "n", "type": [{"type": "array", "items": "R%d" % k}]}]}
               for k in range(1000)]
    schema = written({"type": "record", "name": "R", "fields": [{"name": "f", "type": records, "default": 0}]})
    before, after = '{"n":[' * 20 + "5,", "]}" * 20
    items = max(1, (size - len(schema) - 200) // len('{"n":[]},{"n":[{"n":[]}]},'))
    return schema.replace('"default":0', '"default":' + before + ",".join(['{"n":[]},{"n":[{"n":[]}]}'] * items) + after)


def two_records(k, left):
    """Two records of an enum, one of which has the symbol of how many records follow."""
    return [in_record(k, [{"name": "a", "type": one_symbol(k, left)}]),
            {"type": "record", "name": "J%d" % k, "fields": [{"name": "a", "type": {"type": "enum", "name": "D%d" % k, "symbols": ["t%d" % left]}}]}]


def nested_record(k, inner):
    """A record of a record of a type."""
    within = {"type": "record", "name": "M%d" % k, "fields": [{"name": "a", "type": inner}]}
    return {"type": "record", "name": "L%d" % k, "fields": [{"name": "a", "type": within}]}


def chain(k, depth, inner):
    """Records in one another, this many, around a type."""
    for step in range(depth):
        inner = {"type": "record", "name": "C%d_%d" % (k, step), "fields": [{"name": "a", "type": inner}]}
    return inner


def within(depth, leaf):
    """Objects in one another, this many, around a value."""
    for _ in range(depth):
        leaf = {"a": leaf}
    return leaf


def chains(count, depth):
    """The same of records in one another, this many for each branch, that differ in the symbol of the innermost."""
    return same_kinds(count, lambda k, left: chain(k, depth, one_symbol(k, left)), {"a": within(depth, "s0")})


def by_turns(count):
    """The same of objects of two members: the first of these records differs in one of the two, the next in the other, and so on."""
    def text(size):
        most = min(count, size // 400)
        def fields(k):
            types = ["int", "int"] if k == most - 1 else ["int", fixed("F%d" % k)] if k % 2 else [fixed("F%d" % k), "int"]
            return [{"name": name, "type": of_field} for name, of_field in zip("ab", types)]
        return of_union([{"type": "record", "name": "R%d" % k, "fields": fields(k)} for k in range(most)], {"a": 1, "b": 2})(size)
    return text


def plain_fields(names):
    """Fields of int, the last of another type."""
    return lambda k, leaf: [{"name": name, "type": leaf if name == names[-1] else "int"} for name in names]


def inside(field, around):
    """A field `a` of what is around another."""
    return lambda k, leaf: [{"name": "a", "type": around(k, field(k, leaf))}]


def leaf_of(k, leaf):
    """A type itself."""
    return leaf


def in_array(k, inner):
    """An array of a type."""
    return {"type": "array", "items": inner}


def in_map(k, inner):
    """A map of a type."""
    return {"type": "map", "values": inner}


def in_record(k, fields):
    """A record of fields, of its own for each branch."""
    return {"type": "record", "name": "I%d" % k, "fields": fields}


def wide(count, item, last):
    """The same of this many fixeds of one byte and a last branch."""
    return of_union([fixed("F%d" % k) for k in range(count)] + [last], item)


def long_text(count):
    """One long text, of a union of this many fixeds and string."""
    def text(size):
        field = {"name": "f", "type": [fixed("F%d" % k) for k in range(count)] + ["string"], "default": ""}
        schema = {"type": "record", "name": "R", "fields": [field]}
        field["default"] = "x" * (size - len(written(schema)))
        return written(schema)
    return text


def longest(size, text):
    """The greatest count whose text fits, where each count more adds the same or more."""
    one, many = len(text(0)), len(text(16))
    low = max(0, (size - one) * 16 // max(1, many - one) - 8)
    while low > 0 and len(text(low)) > size:
        low = low * 15 // 16
    return low


KINDS = {
    "plain": plain, "aliases": aliases, "definitions": definitions, "references": references,
    "long references": long_references, "unions": unions, "repeated": repeated, "fields": fields, "qualified": qualified,
    "twins": twins, "nested 60": nested(60), "nested 120": nested(120), "deep": deep, "choices": choices, "symbols": symbols,
    "branches 100": branches(100), "branches 1000": branches(1000), "texts 1000": texts(1000), "records 100": records(100),
    "records 1000": records(1000), "tries": tries,
    "look-alikes 100": look_alikes(100, 0), "look-alikes 1000": look_alikes(1000, 0),
    "look-alikes 100 in 10": look_alikes(100, 10), "look-alikes 100 in 25": look_alikes(100, 25),
    "look-alikes 1000 in 25": look_alikes(1000, 25),
    "wide numbers": wide(2000, 7, "int"), "wide texts": wide(2000, "ab", "string"), "wide objects": empties(2000),
    "wide symbols": enums(2000, "a1999"), "one long text": long_text(1000),
    "alike": alike(1000, {"a": 1, "b": 2}, plain_fields("ab")),
    "alike in two": alike(1000, {"a": 1, "b": 2, "c": 3}, plain_fields("abc")),
    "alike arrays": alike(1000, {"a": [7]}, inside(leaf_of, in_array)),
    "alike maps": alike(1000, {"a": {"k": 7}}, inside(leaf_of, in_map)),
    "alike in a record": alike(1000, {"a": {"a": 1, "b": 2}}, inside(plain_fields("ab"), in_record)),
    "alike arrays in a record": alike(1000, {"a": {"a": [7]}}, inside(inside(leaf_of, in_array), in_record)),
    "alike sizes": same_kinds(1000, lambda k, left: dict(fixed("F%d" % k), size=left), {"a": ""}),
    "alike unions": same_kinds(1000, lambda k, left: ["null", "boolean" if left else "int"], {"a": 1}),
    "alike symbols": same_kinds(1000, one_symbol, {"a": "s0"}),
    "alike symbols of four": same_kinds(1000, symbols_of_four, {"a": "s0"}),
    "alike symbols in unions": same_kinds(1000, lambda k, left: ["null", one_symbol(k, left)], {"a": "s0"}),
    "alike symbols in records": same_kinds(1000, lambda k, left: in_record(k, [{"name": "a", "type": one_symbol(k, left)}]), {"a": {"a": "s0"}}),
    "alike symbols in arrays": same_kinds(1000, lambda k, left: in_array(k, one_symbol(k, left)), {"a": ["s0"]}),
    "alike numbers": same_kinds(1000, lambda k, left: "int" if left else "long", {"a": 3_000_000_000}),
    "alike by turns": by_turns(1000),
    "alike symbols in maps": same_kinds(1000, lambda k, left: {"type": "map", "values": one_symbol(k, left)}, {"a": {"k": "s0"}}),
    "alike symbols behind others": same_kinds(1000, lambda k, left: in_array(k, symbols_of_two(k, left)), {"a": ["first", "s0"]}),
    "alike symbols far down": same_kinds(600, lambda k, left: in_record(k, [{"name": "a", "type": in_array(k, nested_record(k, one_symbol(k, left)))}]),
                                         {"a": {"a": [{"a": {"a": "s0"}}]}}),
    "alike sizes in records": same_kinds(1000, lambda k, left: in_record(k, [{"name": "a", "type": dict(fixed("F%d" % k), size=left)}]), {"a": {"a": ""}}),
    "alike unions in records": same_kinds(700, lambda k, left: in_record(k, [{"name": "a", "type": ["null", "boolean" if left else "int"]}]), {"a": {"a": 1}}),
    "alike numbers in arrays": same_kinds(1000, lambda k, left: in_array(k, "int" if left else "long"), {"a": [1, 3_000_000_000]}),
    "alike sizes of two": same_kinds(1000, two_sizes, {"a": ""}),
    "wide below": wide_below, "recursive 20": recursive(20, "null"), "recursive 200": recursive(200, "null"),
    "recursive numbers 20": recursive(20, "int"), "recursive numbers 200": recursive(200, "int"),
    "refused by one": refused_by_one, "fields twice": fields_twice, "skipped 3000": skipped(3000), "maps by turns": maps_by_turns,
    "recursive behind unions": behind_unions, "of themselves": of_themselves,
    "alike beside": alike_beside, "alike in another order": alike_reordered, "texts below unions": texts_below, "chain of records": chain_of_records,
    "alike symbols 12 down": chains(200, 11), "alike symbols 21 down": chains(60, 20),
    "alike texts behind many": long_array(1000),
    "alike records of two": same_kinds(600, two_records, {"a": {"a": "s0"}}),
    "alike in an array": alike(800, {"a": [{"a": 1, "b": 2}]}, inside(lambda k, leaf: in_record(k, plain_fields("ab")(k, leaf)), in_array)),
    **hostile_sets.KINDS,
}


def run(program, path):
    """The seconds, the peak of memory in MB, and the answer of one run."""
    began = time.monotonic()
    def limits():
        resource.setrlimit(resource.RLIMIT_CPU, (SECONDS, SECONDS))
        resource.setrlimit(resource.RLIMIT_AS, (MEMORY, MEMORY))
    child = subprocess.Popen([program, "schema", path], stdout=subprocess.PIPE, stderr=subprocess.STDOUT, preexec_fn=limits)
    answer = child.stdout.read().decode(errors="replace").strip()
    _, _, usage = os.wait4(child.pid, 0)
    return usage.ru_utime + usage.ru_stime, time.monotonic() - began, usage.ru_maxrss // 1024, answer[-16:]


def main():
    if len(sys.argv) != (3 if sys.argv[1:2] == ["measure"] else 4):
        sys.exit(__doc__)
    if sys.argv[1] != "measure":
        with open(sys.argv[3], "w") as out:
            out.write(KINDS[sys.argv[1]](int(sys.argv[2])))
        return
    print("| Text | bytes | seconds | by the clock | MB | answer |")
    print("|---|---|---|---|---|---|")
    with tempfile.TemporaryDirectory() as folder:
        for kind, text in KINDS.items():
            for size in SIZES:
                path = os.path.join(folder, "schema.avsc")
                with open(path, "w") as out:
                    out.write(text(size))
                length = os.path.getsize(path)
                processor, clock, peak, answer = run(sys.argv[2], path)
                print("| %s | %d | %.2f | %.2f | %d | %s |" % (kind, length, processor, clock, peak, answer), flush=True)
                if processor > SECONDS - 5:
                    break


if __name__ == "__main__":
    main()

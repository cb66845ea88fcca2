"""Kinds of `hostile.py`: schemas whose defaults lead to many sets of nodes, or very different ones."""
import json
import random

LETTERS = "ABCDEFGHIJKLMNOPQRSTUVWXYZabcdefghijklmnopqrstuvwxyz_"
WORDS = [first + second for first in LETTERS for second in LETTERS + "0123456789"]
SYMBOLS = 170


def written(schema):
    return json.dumps(schema, separators=(",", ":"))


def record(name, **fields):
    return {"type": "record", "name": name, "fields": [{"name": key, "type": kind} for key, kind in fields.items()]}


def some_enums(choice, count, symbols, share):
    """Fields of enums _0 to _(count - 1), each of which has about this share of the symbols."""
    enums = ({"type": "enum", "name": f"_{k}", "symbols": [s for s in symbols if choice.random() < share] or symbols[:1]} for k in range(count))
    return [{"name": f"e{k}", "type": enum} for k, enum in enumerate(enums)]


def filled(fields, kind, size, item):
    """The text of a record with these fields and a last one, an array of the kind, whose default has as many items as fit."""
    last = {"name": "last", "type": {"type": "array", "items": kind}, "default": 0}
    text = written({"type": "record", "name": "Root", "fields": [*fields, last]})
    items, left = [], size - len(text) - 10
    while left > len(made := item()):
        items.append(made)
        left -= len(made) + 1
    return text.replace('"default":0', '"default":[' + ",".join(items) + "]")


def crossing(count, unions, branches, enums):
    """Records of two enums each, arrays of unions of many of them, and a default of arrays of an object each that all differ:
    for each the parents of many records are looked at."""
    def text(size):
        choice = random.Random(1)
        symbols = WORDS[:SYMBOLS]
        names = WORDS[:count]
        fields = some_enums(choice, enums, symbols, 0.9)
        fields += [{"name": f"r{k}", "type": record(name, a=f"_{k // enums % enums}", b=f"_{k % enums}")} for k, name in enumerate(names)]
        fields += [{"name": f"p{k}", "type": {"type": "array", "items": choice.sample(names, branches)}} for k in range(unions)]
        pair = lambda: '[{"a":"%s","b":"%s"}]' % (choice.choice(symbols), choice.choice(symbols))
        return filled(fields, {"type": "array", "items": names}, size, pair)
    return text


def array_chains(count, depth, enums):
    """Chains of arrays around records of two enums, and a default as deep, with another set at each step."""
    def text(size):
        choice = random.Random(1)
        symbols = WORDS[:120]
        tops = []
        for k in range(count):
            kind = record(WORDS[k], a=f"_{k * 7 // enums % enums}", b=f"_{k % enums}")
            for _ in range(depth):
                kind = {"type": "array", "items": kind}
            tops.append(record(f"T{k}", v=kind))
        item = lambda: '{"v":%s{"a":"%s","b":"%s"}%s}' % ("[" * depth, choice.choice(symbols), choice.choice(symbols), "]" * depth)
        return filled(some_enums(choice, enums, symbols, 0.8), tops, size, item)
    return text


def classes(count, number, symbols, depth=100):
    """Records in classes, each with a union of all before it of the class before its own, and a default of objects within one
    another: the set of each is the one below it, moved on to the next classes."""
    def text(size):
        choice = random.Random(1)
        names, words = WORDS[:count], WORDS[:symbols]
        fields = some_enums(choice, number, words, 0.5)
        kinds = [record(names[k], n=[names[m] for m in range((k - 1) % number, k, number)] + [f"_{k % number}"]) for k in range(count)]
        turns = iter(range(size))
        item = lambda: '{"n":' * depth + '"%s"' % words[next(turns) % symbols] + "}" * depth
        return filled([*fields, {"name": "root", "type": kinds}], names, size, item)
    return text


def members(count, number):
    """Records of the same fields of enums, and objects that differ: each member leaves another set."""
    def text(size):
        choice = random.Random(1)
        symbols, keys = WORDS[:SYMBOLS], LETTERS[:number]
        kinds = [record(WORDS[k], **{key: f"_{choice.randrange(40)}" for key in keys}) for k in range(count)]
        item = lambda: "{" + ",".join('"%s":"%s"' % (key, choice.choice(symbols)) for key in keys) + "}"
        return filled(some_enums(choice, 40, symbols, 0.95), kinds, size, item)
    return text


def many_defaults(size, branches=60):
    """Records without fields, records of a union of many of these, and as many short defaults of the last of them as fit."""
    choice = random.Random(1)
    names = WORDS[:max(size // 1049, branches)]
    unions = max(size // 1398, 1)
    fields = [{"name": f"r{k}", "type": record(name)} for k, name in enumerate(names)]
    fields += [{"name": f"p{k}", "type": record(f"Of{k}", a=choice.sample(names, branches))} for k in range(unions)]
    left = size - len(written({"type": "record", "name": "Root", "fields": fields}))
    while left > 80:
        fields.append({"name": f"d{len(fields)}", "type": f"Of{unions - 1}", "default": {"a": {}}})
        left -= len(written(fields[-1])) + 1
    return written({"type": "record", "name": "Root", "fields": fields})


def symbols_twice(size, number=60):
    """As many symbols as fit, each in two of some enums, and a default of half of them; 3,900 other nodes make the sets long."""
    choice = random.Random(2)
    enums = [[] for _ in range(number)]
    for k in range((size - 3900 * 27) // 22):
        for enum in choice.sample(range(number), 2):
            enums[enum].append(WORDS[k % len(WORDS)] + (str(k // len(WORDS)) if k >= len(WORDS) else ""))
    fields = [{"name": f"z{k}", "type": "int"} for k in range(3900)]
    kinds = [{"type": "enum", "name": f"E{k}", "symbols": symbols} for k, symbols in enumerate(enums)]
    names = iter(sorted({symbol for symbols in enums for symbol in symbols}))
    return filled(fields, kinds, size, lambda: '"%s"' % next(names, "x" * size))


def one_set(records, maps, holders, labels):
    """Records without fields, some in maps and some in records of one field, and short defaults of members that are all of the one
    large set of these records: each default asks for its parents under each label."""
    def text(size):
        fields = [{"name": "s", "type": {"type": "enum", "name": "S", "symbols": list(LETTERS[:labels])}}]
        fields += [{"name": f"r{k}", "type": record(f"R{k}")} for k in range(records)]
        fields += [{"name": f"m{k}", "type": {"type": "map", "values": f"R{k}"}} for k in range(maps)]
        fields += [{"name": f"h{k}", "type": record(f"H{k}", A=f"R{k}")} for k in range(holders)]
        return asked("R0", fields, labels, size)
    return text


def one_set_held(records, labels):
    """The same of records that a last one may all have under each label."""
    def text(size):
        names = WORDS[:records]
        fields = [{"name": f"r{k}", "type": record(name)} for k, name in enumerate(names)]
        fields.append({"name": "all", "type": record("All", **{label: names for label in LETTERS[:labels]})})
        return asked(names[0], fields, labels, size)
    return text


def asked(name, fields, labels, size):
    """The text of a record with these fields and as many defaults as fit: maps of a member of the record of this name for each label."""
    fields.append({"name": "of", "type": record("_Of", m={"type": "map", "values": name})})
    left = size - len(written({"type": "record", "name": "Root", "fields": fields}))
    while True:
        last = {"name": f"d{len(fields)}", "type": "_Of", "default": {"m": {label: {} for label in LETTERS[:labels]}}}
        left -= len(written(last)) + 1
        if left < 0:
            return written({"type": "record", "name": "Root", "fields": fields})
        fields.append(last)


KINDS = {
    "crossing 1000 x 750 x 100": crossing(1000, 750, 100, 32), "crossing 1600 x 1100 x 60": crossing(1600, 1100, 60, 40),
    "crossing 1700 x 1100 x 40": crossing(1700, 1100, 40, 60), "crossing 2000 x 900 x 30": crossing(2000, 900, 30, 60),
    "array chains 40 x 93": array_chains(40, 93, 40), "array chains 60 x 60": array_chains(60, 60, 50),
    "array chains 128 x 28": array_chains(128, 28, 60), "array chains 256 x 13": array_chains(256, 13, 60),
    "classes 500 by 20": classes(500, 20, 900), "classes 1300 by 20": classes(1300, 20, 900), "classes 1700 by 20": classes(1700, 20, 900),
    "classes 1900 by 30": classes(1900, 30, 600), "classes 1500 by 60": classes(1500, 60, 500), "classes 1000 by 100": classes(1000, 100, 300),
    "members 2000 x 2": members(2000, 2), "members 1000 x 6": members(1000, 6), "members 300 x 20": members(300, 20),
    "symbols twice": symbols_twice, "many defaults": many_defaults,
    "one set, 53 labels": one_set(3900, 0, 0, 53), "one set, a label": one_set(1300, 0, 1300, 1), "one set in maps": one_set(1900, 1900, 0, 1),
    "one set held under 20 labels": one_set_held(2000, 20),
}

"""Random texts of schemas and pairs of them, for `compare.py`: defaults in unions, unions of many types, aliases under namespaces, and texts
that are spoiled."""

import json

from random_files import text_of
from random_schemas import ENDLESS, NAMED, PLAIN, Defaults, Field, Maker, Type, all_types, evolved, is_same_branch, schema, set_heights, spelled

SPACES = ("", "n", "n.m", "nn", "n" * 300, "n" * 299 + "m")
ALIASES = [f"{space}.{letter}" if space else letter for space in SPACES for letter in "ABCDEFXYZ"]
# What a spoiled tree has in the place of a part.
WRONG = (
    None, True, 0, 1, -1, 2**31, 2**63, 2**64, 1.0, 1.5, 1e3, "", "int", "Foo", "n.A", "1a", "a.", "float", "ü", [], {}, ["null"], {"type": "int"},
)
# What a misfit has in the place of a part.
UNFIT = (
    None, True, 7, 2**31, -(2**31) - 1, 2**63, 1.0, 0.5, "", "ab", "ab1", "\u0100", "é", "😀", "a😀", [], {}, [7], {"a": 7}, {"z": 0},
)


def written(choose, tree):
    """The text of a tree."""
    indent = choose.choice((None, None, None, 1))
    return json.dumps(tree, ensure_ascii=choose.randrange(2) == 0, indent=indent).encode()


def look_alikes(choose, count):
    """Records that differ in little but their names."""
    inner = Maker(choose, most=6).type(3)
    made = []
    for k in range(count):
        fields = [Field("a", inner)]
        if choose.randrange(3) == 0:
            fields.append(Field("b", Type(choose.choice(PLAIN)), [None] if choose.randrange(2) else None))
        if choose.randrange(6) == 0:
            fields.append(Field("c", Type("array", of=made[-1] if made else Type("int"))))
        made.append(Type("record", name=f"L{k}", fields=fields))
    return made


def many_named(choose, count):
    """Types with names for a union: fixeds of few sizes, enums of few symbols, records of few fields."""
    kind, made = choose.choice((*NAMED, "mixed")), []
    for k in range(count):
        type = Type(choose.choice(NAMED) if kind == "mixed" else kind, name=f"T{k}")
        if type.kind == "fixed":
            type.size = choose.randrange(5)
        elif type.kind == "enum":
            type.symbols = [f"ab{it}" for it in choose.sample(range(8), choose.randrange(1, 5))]
            type.symbol = None
        else:
            names = choose.sample("abcd", choose.randrange(4))
            type.fields = [Field(name, Type(choose.choice(("null", "int", "string")))) for name in names]
            for field in type.fields:
                if choose.randrange(4) == 0:
                    field.default = [Defaults(choose).of(field.type)]
        made.append(type)
    return made


def union_of(choose, branches):
    """A union of these types, and of some without names."""
    branches = list(branches)
    for kind in choose.sample(PLAIN, choose.randrange(4)):
        branches.append(Type(kind))
    if choose.randrange(3) == 0:
        branches.append(Type("map", of=Type(choose.choice(PLAIN))))
    if choose.randrange(3) == 0:
        item = choose.choice(branches)
        branches.append(Type("array", of=item if item.kind == "null" else Type("union", branches=[Type("null"), item])))
    kept = []
    for branch in branches:
        if not any(is_same_branch(branch, it) for it in kept) and branch.kind != "union":
            kept.append(branch)
    choose.shuffle(kept)
    return Type("union", branches=kept)


def around(choose, type):
    """A type around another one."""
    for _ in range(choose.choice((0, 0, 1, 1, 2, 5))):
        if type.kind != "union" and choose.randrange(2):
            type = Type("union", branches=choose.sample([Type("null"), type], 2))
        else:
            type = Type(choose.choice(("array", "map")), of=type)
    return type


def misfit(choose, tree):
    """A default that is likely not one, since a part of it was changed."""
    if isinstance(tree, list) and tree and choose.randrange(3):
        at = choose.randrange(len(tree))
        return [*tree[:at], misfit(choose, tree[at]), *tree[at + 1:]]
    if isinstance(tree, dict) and tree and choose.randrange(3):
        key = choose.choice(list(tree))
        if choose.randrange(4) == 0:
            return {it: part for it, part in tree.items() if it != key}
        return {**tree, key: misfit(choose, tree[key])}
    return choose.choice(UNFIT)


def defaults(choose):
    """A record whose fields have defaults of unions."""
    made = look_alikes(choose, choose.randrange(1, 5)) if choose.randrange(2) else many_named(choose, choose.choice((1, 3, 10, 60)))
    first = around(choose, union_of(choose, made))
    fields = [Field("f", first)]
    if choose.randrange(3) == 0:
        fields.append(Field("g", schema(choose)))
    root = Type("record", name="Root", fields=fields)
    set_heights(root)
    for field in fields:
        if field.type.height < ENDLESS:
            tree = Defaults(choose, choose.choice((5, 60, 400))).of(field.type)
            field.default = [misfit(choose, tree) if choose.randrange(3) == 0 else tree]
    return root


def long_default(choose):
    """A default of many values, of a union of many types."""
    made = many_named(choose, choose.choice((2, 20, 120)))
    root = Type("record", name="Root", fields=[Field("f", Type(choose.choice(("array", "map")), of=union_of(choose, made)))])
    set_heights(root)
    parts = [Defaults(choose, 8).of(root.fields[0].type.of) for _ in range(choose.choice((3, 30, 200)))]
    if choose.randrange(4) == 0:
        parts[choose.randrange(len(parts))] = misfit(choose, parts[0])
    root.fields[0].default = [parts if root.fields[0].type.kind == "array" else {f"k{k}": it for k, it in enumerate(parts)}]
    return root


def text_type(choose, name):
    """A type of a field that likely takes some texts and not others: an enum of few symbols, unions with enums, or another."""
    def enum(name):
        return Type("enum", name=name, symbols=[f"s{it}" for it in choose.sample(range(8), choose.randrange(1, 4))], symbol=None)
    made = choose.choice(("enum", "enum", "enum", "null", "two", "fixed", "string", "bytes", "int"))
    if made == "null":
        return Type("union", branches=choose.sample([Type("null"), enum(name)], 2))
    if made == "two":
        return Type("union", branches=[enum(name), Type(choose.choice(("int", "null", "bytes"))), enum(f"{name}x")])
    if made == "fixed":
        return Type("fixed", name=name, size=choose.randrange(4))
    return enum(name) if made == "enum" else Type(made)


def records_of_texts(choose):
    """A default of many objects, of a union of records that differ in which texts their fields take."""
    names, records = "ab"[:choose.choice((1, 1, 2))], []
    for k in range(choose.choice((3, 15, 16, 17, 40, 90))):
        fields = [Field(name, text_type(choose, f"T{name}{k}")) for name in names if choose.randrange(12)]
        records.append(Type("record", name=f"R{k}", fields=fields))
    root = Type("record", name="Root", fields=[Field("f", Type("array", of=Type("union", branches=records)))])
    set_heights(root)
    takes = [Defaults(choose, 8).of(root.fields[0].type.of) for _ in range(choose.choice((3, 30)))]
    others = [{name: choose.choice(("", "ab", None, 7, *(f"s{it}" for it in range(9)))) for name in names} for _ in range(choose.choice((0, 1, 1, 6)))]
    parts = takes + others
    choose.shuffle(parts)
    root.fields[0].default = [parts]
    return root


def part_type(choose, name, depth):
    """A type of a field that likely takes some JSON and not other, with so many types within one another."""
    made = choose.choice(("text", "text", "number", "array", "map", "record", "two") if depth else ("text", "text", "number"))
    if made == "text":
        return text_type(choose, f"T{name}")
    if made == "number":
        return Type(choose.choice(("int", "int", "long")))
    if made == "record":
        names = choose.choice(("a", "a", "b", "ab", ""))
        return Type("record", name=f"P{name}", fields=[Field(it, part_type(choose, name + it, depth - 1)) for it in names])
    if made == "two":
        return union_of(choose, [Type("boolean"), *(part_type(choose, f"{name}{it}", 0) for it in "xy")])
    return Type(made, of=part_type(choose, f"{name}i", depth - 1))


def records_of_parts(choose):
    """A default of many objects, of a union of records that differ in what the parts of their fields take."""
    names, records, depth = "ab"[:choose.choice((1, 1, 2))], [], choose.choice((1, 2, 4))
    same = choose.choice((None, None, "array", "map", "record"))
    for k in range(choose.choice((3, 16, 17, 40, 90))):
        fields = []
        for name in names:
            type = part_type(choose, f"{name}{k}", depth - 1)
            if same == "record":
                type = Type("record", name=f"Q{name}{k}", fields=[Field("a", type)])
            elif same is not None:
                type = Type(same, of=type)
            fields.append(Field(name, type))
        records.append(Type("record", name=f"R{k}", fields=fields))
    root = Type("record", name="Root", fields=[Field("f", Type("array", of=Type("union", branches=records)))])
    set_heights(root)
    parts = []
    for _ in range(choose.choice((3, 30, 90))):
        tree = Defaults(choose, 12).of(choose.choice(records))
        parts.append(misfit(choose, tree) if choose.randrange(40) == 0 else tree)
    root.fields[0].default = [parts]
    return root


def again(choose, tree):
    """The same default with some items once more behind themselves."""
    if isinstance(tree, list):
        parts = [again(choose, part) for part in tree]
        return [part for it in parts for part in [it] * choose.choice((1, 1, 2, 3))]
    if isinstance(tree, dict):
        return {key: again(choose, part) for key, part in tree.items()}
    return tree


def records_of_unions(choose):
    """A default of objects within one another, of a union of records that have unions of each other, some of them arrays."""
    records = [Type("record", name=f"R{k}", fields=[]) for k in range(choose.choice((2, 4, 9, 14, 20)))]
    for k, record in enumerate(records):
        for name in "nm"[:choose.choice((1, 1, 1, 2))]:
            leaf = Type(choose.choice(("null", "int", "long", "boolean", "string")))
            if choose.randrange(4) == 0:
                leaf = Type("enum", name=f"E{name}{k}", symbols=[f"s{it}" for it in choose.sample(range(6), 2)], symbol=None)
            union = Type("union", branches=[leaf, *choose.sample(records, choose.randrange(1, len(records) + 1))])
            record.fields.append(Field(name, Type("array", of=union) if choose.randrange(4) == 0 else union))
    root = Type("record", name="Root", fields=[Field("f", Type("array", of=Type("union", branches=records)))])
    set_heights(root)
    parts = []
    for _ in range(choose.choice((1, 3, 20))):
        tree = Defaults(choose, choose.choice((4, 30))).of(choose.choice(records))
        parts.append(misfit(choose, tree) if choose.randrange(20) == 0 else tree)
    root.fields[0].default = [again(choose, parts)]
    return root


def named_types(choose, count, aliases):
    """Types whose names and aliases meet again and again, under namespaces that may be long."""
    made, taken = [], set()
    spaces = choose.sample(SPACES, choose.choice((1, 2, 3)))
    if choose.randrange(2):
        spaces = [it for it in spaces if it] or ["n"]
    for _ in range(count):
        kind = choose.choice(NAMED)
        type = Type(kind, name=choose.choice("ABCDEF"), space=choose.choice(spaces), size=choose.choice((1, 1, 2)), symbol=None)
        type.symbols = choose.sample(("S", "T", "U", "V"), choose.randrange(1, 4))
        type.fields = [Field(name, Type(choose.choice(("int", "long", "int")))) for name in choose.sample("xyz", choose.randrange(3))]
        for field in type.fields:
            if choose.randrange(3) == 0:
                field.default = [5]
        for _ in range(choose.choice((0, 0, 1, 3, 7, 8, 9, 30)) if aliases else 0):
            space = choose.choice(spaces)
            type.aliases.append(choose.choice("ABCDEFX") if choose.randrange(2) or not space else f"{space}.{choose.choice('ABCDEF')}")
        if type.fullname() not in taken:
            taken.add(type.fullname())
            made.append(type)
    return made


def named(choose, aliases=True):
    """A record of such types and of unions of them."""
    made = named_types(choose, choose.choice((1, 3, 8)), aliases)
    fields = [Field(f"f{k}", it) for k, it in enumerate(made)]
    for k in range(choose.randrange(4)):
        fields.append(Field(f"u{k}", union_of(choose, choose.sample(made, choose.randrange(1, len(made) + 1)))))
    choose.shuffle(fields)
    return Type("record", name="Root", space=made[0].space, fields=fields[:8])


def long_lists(choose):
    """Enums and records with lists of very different lengths, which share some of their names."""
    fields = []
    for name in choose.sample("fghijk", choose.randrange(1, 4)):
        count = choose.choice((1, 2, 5, 60, 300))
        taken = choose.sample(range(2 * count if choose.randrange(2) else 400), min(count, 2 * count))
        if choose.randrange(2):
            type = Type("enum", name=f"E{name}", symbols=[f"S{k}" for k in taken], symbol=None)
            if choose.randrange(2):
                type.symbol = choose.choice(type.symbols)
        else:
            type = Type("record", name=f"R{name}", fields=[list_field(choose, k) for k in taken])
            free = {k for k in range(400)} - set(taken)
            for field in choose.sample(type.fields, min(len(type.fields), choose.choice((0, 1, 3)))):
                field.aliases = [f"f{k}" for k in choose.sample(sorted(free), min(len(free), choose.choice((1, 2, 20))))]
                free -= {int(it[1:]) for it in field.aliases}
        fields.append(Field(name, type))
        if choose.randrange(3) == 0:
            fields.append(Field(f"{name}2", Type("array", of=type)))
    return Type("record", name="Root", fields=fields)


def list_field(choose, number):
    """A field of a long record, most often with a default."""
    kind = choose.choice(("null", "int", "int", "long", "string"))
    default = {"null": None, "string": "d"}.get(kind, 3)
    return Field(f"f{number}", Type(kind), [default] if choose.randrange(8) else None)


def spoiled_tree(choose, tree):
    """A tree with a part of it taken out, replaced, doubled or moved."""
    parts = list(parts_of(tree))
    if not parts:
        return choose.choice(WRONG)
    whole, key = choose.choice(parts)
    how = choose.randrange(5)
    if how == 0:
        del whole[key]
    elif how == 1:
        whole[key] = choose.choice(WRONG)
    elif how == 2 and isinstance(whole, list):
        whole.append(whole[key])
    elif how == 2:
        whole[choose.choice(("name", "type", "default", "aliases", "size", "symbols", "fields", "namespace", "x"))] = whole[key]
    elif how == 3:
        other, place = choose.choice(parts)
        whole[key] = json.loads(json.dumps(other.get(place) if isinstance(other, dict) else other[place] if place < len(other) else 0))
    elif isinstance(whole[key], str):
        whole[key] = choose.choice((whole[key] + "1", "." + whole[key], whole[key] + ".", "n." + whole[key], whole[key] + "-", whole[key][1:], "É"))
    else:
        whole[key] = [whole[key]]
    return tree


def parts_of(tree):
    """Each list or object of a tree, with each key of it."""
    keys = list(tree) if isinstance(tree, dict) else list(range(len(tree))) if isinstance(tree, list) else []
    for key in keys:
        yield tree, key
        yield from parts_of(tree[key])


def spoiled_text(choose, text):
    """A text with characters changed, cut or added."""
    text = bytearray(text)
    for _ in range(choose.choice((1, 1, 2, 5))):
        at = choose.randrange(len(text) + 1)
        how = choose.randrange(7)
        if how == 0:
            del text[at:]
        elif how == 1:
            del text[at:at + choose.randrange(1, 5)]
        elif how == 2:
            text[at:at] = choose.choice((b",", b"]", b"}", b"[", b"{", b'"', b"\\", b" ", b"\x00", b"\xff", b"\xef\xbb\xbf", b"\\ud800", b"\\u0041"))
        elif how == 3:
            text[at:at] = choose.choice((b"0", b"-", b"1e3", b".0", b"E+2", b"-0", b"00", b"9" * 30, b"null", b"true"))
        elif how == 4 and text:
            start = choose.randrange(len(text))
            text[at:at] = text[start:start + choose.randrange(1, 60)]
        elif at < len(text):
            text[at] = choose.choice(b'{}[]",:0a\\ .-') if how == 5 else text[at] ^ (1 << choose.randrange(8))
    return bytes(text)


def any_root(choose):
    """A type of one of the kinds."""
    return choose.choice((schema, defaults, named, long_lists))(choose)


def spoiled(choose):
    """A text that is likely no schema."""
    tree = spelled(choose, any_root(choose))
    if choose.randrange(2):
        for _ in range(choose.choice((1, 1, 2))):
            tree = spoiled_tree(choose, json.loads(json.dumps(tree)))
        return written(choose, tree)
    return spoiled_text(choose, written(choose, tree))


def evolved_pair(choose):
    """A schema and one that it evolved into."""
    root = schema(choose, most=choose.choice((10, 40, 150)))
    return text_of(choose, root), text_of(choose, evolved(choose, root, choose.choice((0.05, 0.2, 0.5))))


def default_pair(choose):
    """Schemas with defaults of unions, of which the reader has more fields."""
    root = defaults(choose)
    return text_of(choose, evolved(choose, root, 0.4)), text_of(choose, root)


def alias_pair(choose):
    """Schemas whose names and aliases meet, or one with names and what it evolved into, with aliases added."""
    writer = named(choose, choose.randrange(3) == 0)
    if choose.randrange(3) == 0:
        return text_of(choose, writer), text_of(choose, named(choose))
    reader = evolved(choose, writer, choose.choice((0.1, 0.4, 0.8)))
    for type in all_types(reader):
        if type.kind in NAMED:
            type.aliases += choose.sample(ALIASES, choose.choice((0, 0, 3, 7, 8, 9, 20)))
            choose.shuffle(type.aliases)
    return text_of(choose, writer), text_of(choose, reader)


def list_pair(choose):
    """Schemas with long lists, or such a schema and what it evolved into."""
    root = long_lists(choose)
    other = long_lists(choose) if choose.randrange(2) else evolved(choose, root, choose.choice((0.1, 0.4)))
    return tuple(text_of(choose, it) for it in choose.sample((root, other), 2))


def least_pair(choose):
    """Records that hold earlier ones, and a reader that fails at one of them, so that the least datum that fails may be large or deep."""
    made = [Type("record", name="R0", fields=[Field("a", Type(choose.choice(("null", "int", "string"))))])]
    count = choose.choice((3, 8, 13, 16, 126, 130))
    for level in range(1, count):
        fields = [Field("a", made[-1])]
        for name in "bc"[:choose.choice((1, 1, 2)) if count < 100 else 0]:
            other = choose.choice(made[-2:])
            around = (other, other, other, Type("array", of=other), Type("union", branches=[other, Type("int")]))
            fields.append(Field(name, choose.choice(around)))
        made.append(Type("record", name=f"R{level}", fields=fields))
    made[-1].fields.append(Field("z", Type("int")))
    root = Type("union", branches=made)
    reader = evolved(choose, root, choose.choice((0, 0, 0.02)))
    fields = [field for it in all_types(reader) if it.kind == "record" for field in it.fields if field.default is None]
    last = [field for field in fields if field.name == "z"]
    choose.choice(last if last and choose.randrange(3) else fields).type = Type("boolean")
    return text_of(choose, root), text_of(choose, reader)


def spoiled_pair(choose):
    """Schemas of which one or both are likely refused."""
    root = any_root(choose)
    reader = text_of(choose, evolved(choose, root))
    texts = [text_of(choose, root), spoiled_text(choose, reader)]
    choose.shuffle(texts)
    return tuple(texts)


TEXTS = {
    "text: random": (lambda choose: text_of(choose, schema(choose)), 6), "text: defaults": (lambda choose: text_of(choose, defaults(choose)), 14),
    "text: long defaults": (lambda choose: text_of(choose, long_default(choose)), 8),
    "text: records of texts": (lambda choose: text_of(choose, records_of_texts(choose)), 8),
    "text: records of parts": (lambda choose: text_of(choose, records_of_parts(choose)), 12),
    "text: records of unions": (lambda choose: text_of(choose, records_of_unions(choose)), 8),
    "text: names": (lambda choose: text_of(choose, named(choose)), 6), "text: spoiled": (spoiled, 16),
}
PAIRS = {
    "pair: evolved": (evolved_pair, 18), "pair: defaults": (default_pair, 8), "pair: aliases": (alias_pair, 12), "pair: long lists": (list_pair, 8),
    "pair: least": (least_pair, 6),
    "pair: spoiled": (spoiled_pair, 4),
}
KINDS = {**TEXTS, **PAIRS}
# The texts whose defaults are written, as those of a record that the writer has without fields.
WRITTEN = ("text: records of parts", "text: records of unions")
# The command that makes a certificate.
CERTIFIED = "judge --certificate"


def case(choose, kind):
    """The files of a case, and its commands by their names."""
    made = KINDS[kind][0](choose)
    if kind in TEXTS:
        words = ["schema", "schema.avsc"]
        commands = [("schema", words), ("schema --canonical", [*words, "--canonical"]), ("schema --fingerprint", [*words, "--fingerprint"])]
        if kind in WRITTEN:
            commands.append(("copy --reader", ["copy", "in.avro", "out.avro", "--reader", "schema.avsc"]))
            commands.append(("show --reader", ["show", "in.avro", "--reader", "schema.avsc"]))
            return {"schema.avsc": made, "in.avro": file_of_one()}, commands
        return {"schema.avsc": made}, commands
    words = ["writer.avsc", "reader.avsc"]
    commands = [
        ("judge", ["judge", *words]), (CERTIFIED, ["judge", *words, "--certificate", "out.cert", "--refutation", "out.avro"]),
        ("confirm any", ["confirm", *words, "any.cert"]), ("confirm --json", ["confirm", *words, "any.cert", "--json"]),
        ("judge --json", ["judge", *words, "--json"]), ("judge --max-size", ["judge", *words, "--max-size", "3"]),
        ("explain", ["explain", *words]), ("explain --json", ["explain", *words, "--json"]),
        ("history --mode", ["history", *words, "writer.avsc", "--mode", "full", "--next"]),
        ("history --json", ["history", *words, "--json", "--mode", "full"]),
    ]
    if choose.randrange(4) == 0:
        commands.append(("history", ["history", *words, "writer.avsc", "reader.avsc", "--certificates", "out.cert"]))
    return {"writer.avsc": made[0], "reader.avsc": made[1], "any.cert": any_certificate(choose)}, commands


def file_of_one():
    """A container file of one record without fields."""
    text = b'{"type":"record","name":"Root","fields":[]}'
    return b"Obj\x01\x02\x16avro.schema" + bytes([2 * len(text)]) + text + b"\x00" + b"s" * 16 + b"\x02\x00" + b"s" * 16


def any_certificate(choose):
    """A certificate of few pairs, which seldom shows anything."""
    pairs = sorted({(choose.randrange(4), choose.randrange(4)) for _ in range(choose.randrange(5))})
    lines = ["approval 1", *(f"dead {k}" for k in range(choose.choice((0, 0, 1)))), "pair 0 0", *(f"pair {w} {r}" for w, r in pairs if w or r), "end"]
    return "".join(line + "\n" for line in lines).encode()


def changed_certificate(choose, certificate):
    """A certificate with a line left out, doubled, changed or moved."""
    lines = certificate.split(b"\n")
    at = choose.randrange(len(lines))
    how = choose.randrange(6)
    if how < 2:
        del lines[at]
    elif how == 2:
        lines.insert(at, lines[at])
    elif how == 3:
        lines[at] += choose.choice((b"1", b" ", b"\r", b"\xff"))
    elif how == 4:
        lines[at] = choose.choice((b"pair 0 1", b"pair 1 0", b"pair 7 7", b"dead 0", b"dead 3", b"end", b""))
    else:
        choose.shuffle(lines)
    return b"\n".join(lines)


def certified(choose, certificate):
    """What is asked of a certificate that was made for a pair: the files and the commands."""
    words = ["writer.avsc", "reader.avsc"]
    return {"found.cert": certificate, "changed.cert": changed_certificate(choose, certificate)}, [
        ("confirm", ["confirm", *words, "found.cert"]), ("confirm changed", ["confirm", *words, "changed.cert"]),
        ("confirm swapped", ["confirm", *reversed(words), "found.cert"]),
    ]

"""Random container files and readers' schemas, for `compare.py`: of all kinds of schemas, with faults in them, of records of leaves, with data
that have no bytes, and at the limits."""

import json

from generate import number
from random_schemas import EMPTY, ENDLESS, WIDE, Field, Type, all_types, evolved, schema, set_heights, spelled

SYNC = bytes(range(100, 116))
OTHER_SYNC = "00112233445566778899aabbccddeeff"
# The limits of a datum and of a block.
NODES = 1_048_576
DEPTH = 128
BLOCK = 16_777_216


def padded(value):
    """A number with a group more than it needs."""
    spelling = bytearray(number(value))
    spelling[-1] |= 128
    return bytes(spelling) + b"\x00" if len(spelling) < 9 else number(value)


class Encoder:
    """Encodes random data of types; each element is at fault with some chance."""

    def __init__(self, choose, faults=0.0, pads=0.0, most=200):
        self.choose, self.faults, self.pads, self.most, self.left = choose, faults, pads, most, most

    def spoils(self):
        return self.faults and self.choose.random() < self.faults

    def number(self, value, wrong=(-1,)):
        """A number, or a wrong one."""
        if self.spoils():
            return self.choose.choice([number(self.choose.choice(wrong)), b"\xff" * 9 + b"\x01", b"\xff" * 9 + b"\x02", b"\x80" * 11])
        return padded(value) if self.pads and self.choose.random() < self.pads else number(value)

    def content(self, data):
        """A length and bytes."""
        return self.number(len(data), (len(data) + 1, len(data) - 1, -1, 1 << 40, BLOCK + 1)) + data

    def text(self):
        """A text, which now and then is no UTF-8."""
        count = self.choose.choice((0, 1, 2, 5, 9, 30))
        letters = "abcdefgh \"\\\n\u0001" if self.choose.randrange(3) else WIDE + "abc"
        data = "".join(self.choose.choices(letters, k=count)).encode()
        return data + self.choose.choice((b"\xff", b"\xc3", b"\xed\xa0\x80", b"\xf4\x90\x80\x80")) if self.spoils() else data

    def datum(self, type):
        """The bytes of a datum."""
        self.left -= 1
        choose, kind = self.choose, type.kind
        if kind == "null":
            return b""
        if kind == "boolean":
            return bytes([choose.randrange(2)]) if not self.spoils() else b"\x02"
        if kind in ("int", "long"):
            bits = choose.choice((1, 5, 6, 7, 13, 14, 20, 31, 31 if kind == "int" else 63))
            return self.number(choose.getrandbits(bits) * choose.choice((1, 1, -1)), (1 << 31, -(1 << 31) - 1, (1 << 63) - 1))
        if kind == "string":
            return self.content(self.text())
        if kind == "bytes":
            return self.content(choose.randbytes(choose.choice((0, 1, 3, 10))) if choose.randrange(2) else self.text())
        if kind == "fixed":
            return choose.randbytes(type.size) if not self.spoils() else choose.randbytes(type.size // 2)
        if kind == "enum":
            return self.number(choose.randrange(len(type.symbols)), (len(type.symbols), -1))
        return self.parts(type)

    def parts(self, type):
        """The bytes of a datum that has parts."""
        if type.kind == "union":
            fitting = [k for k, it in enumerate(type.branches) if it.height < (type.height if self.left < 0 else ENDLESS)]
            branch = self.choose.choice(fitting)
            return self.number(branch, (len(type.branches), -1)) + self.datum(type.branches[branch])
        if type.kind == "record":
            return b"".join([self.datum(field.type) for field in type.fields])
        count = self.choose.choice((0, 0, 1, 1, 2, 3, 5, 8)) if self.left > 0 and type.of.height < ENDLESS else 0
        if count and self.choose.randrange(40) == 0 and is_empty(type.of) and type.kind == "array":
            count = self.choose.randrange(5_000)
        return self.blocks(type, count)

    def blocks(self, type, count):
        """The items of an array or of a map, in blocks."""
        keys = [f"k{k}" for k in range(count)] if type.kind == "map" else None
        if keys and self.spoils():
            keys[-1] = keys[0]
        parts, at = [], 0
        while at < count:
            until = self.choose.choice((count, self.choose.randrange(at, count) + 1))
            data = bytearray()
            for k in range(at, until):
                data += self.content(keys[k].encode()) if keys else b""
                data += self.datum(type.of)
            parts.append(self.head(until - at, len(data)) + data)
            at = until
        return b"".join(parts) + self.number(0, (1, -1))

    def head(self, count, length):
        """The count of a block, with its size or without."""
        if self.choose.randrange(3):
            return self.number(count, (count + 1, count - 1, 1 << 33))
        return self.number(-count, (-count - 1, -(1 << 63))) + self.number(length, (length + 1, length - 1, -1))


def is_empty(type, around=()):
    """Whether the data of a type have no bytes."""
    if type in around:
        return False
    if type.kind == "record":
        return all(is_empty(field.type, (*around, type)) for field in type.fields)
    return type.kind == "null" or (type.kind == "fixed" and type.size == 0)


def metadata(choose, encoder, entries):
    """The metadata of a header, in blocks."""
    encoded = [encoder.content(key) + encoder.content(value) for key, value in entries]
    parts = []
    while encoded:
        count = choose.choice((len(encoded), choose.randrange(len(encoded)) + 1))
        data = b"".join(encoded[:count])
        parts += [encoder.head(count, len(data)), data]
        encoded = encoded[count:]
    return b"".join(parts) + encoder.number(0)


def header(choose, text, faults=0.0, more=0):
    """A header of a schema's text."""
    entries = [(b"avro.schema", text), (b"avro.codec", b"null" if not faults or choose.randrange(40) else b"deflate")]
    if choose.randrange(4) == 0:
        entries.pop()
    if faults and choose.randrange(40) == 0:
        entries.pop(0)
    if choose.randrange(3) == 0:
        entries += [(b"key%d" % k, choose.randbytes(choose.randrange(9))) for k in range(choose.randrange(4))]
    # Few entries that are long, or many that are short.
    entries += [(b"more%d" % k, b"x" * choose.randrange(4 if more > 500 else 600)) for k in range(more)]
    if faults and choose.randrange(40) == 0:
        entries.append(choose.choice(entries or [(b"a", b"")]))
    choose.shuffle(entries)
    encoder = Encoder(choose, faults / 4, choose.choice((0, 0, 0.2)))
    magic = b"Obj\x01" if not faults or choose.randrange(60) else choose.choice((b"Obj\x02", b"Ob", b"Obj\x00"))
    return magic + metadata(choose, encoder, entries) + SYNC


def block(choose, count, data, faults=0.0):
    """A block of some data, with the marker after it."""
    length, marker = len(data), SYNC
    if faults and choose.randrange(12) == 0:
        wrong = choose.randrange(5)
        count += choose.choice((1, -1, -2 * count, 1 << 40)) if wrong < 2 else 0
        length += choose.choice((1, -1, -2 * length, 1 << 40)) if wrong in (2, 3) else 0
        marker = SYNC[:7] + b"!" + SYNC[8:] if wrong == 4 else SYNC
    spelled_number = padded if choose.randrange(12) == 0 else number
    return spelled_number(count) + spelled_number(length) + bytes(data) + marker


def changed(choose, file):
    """The bytes of a file with some of them changed, cut, moved or added."""
    file = bytearray(file)
    # Most changes are made after the schema, where the data are.
    start = max(0, file.find(SYNC) - 8) if choose.randrange(4) else 0
    for _ in range(choose.choice((1, 1, 1, 2, 4))):
        at = choose.randrange(min(start, len(file)), len(file) + 1)
        how = choose.randrange(6)
        if how == 0:
            del file[at:]
        elif how == 1:
            file[at:at] = choose.randbytes(choose.randrange(1, 4))
        elif how == 2:
            del file[at:at + choose.randrange(1, 4)]
        elif how == 3:
            file[at:at + 1] = choose.choice((b"\x00", b"\x01", b"\x02", b"\x7f", b"\x80", b"\xff"))
        elif how == 4:
            file[at:at] = file[start:start + choose.randrange(40)]
        elif at < len(file):
            file[at] ^= 1 << choose.randrange(8)
    return bytes(file)


def text_of(choose, root):
    """The text of a schema."""
    indent = 1 if choose.randrange(8) == 0 else None
    return json.dumps(spelled(choose, root), ensure_ascii=choose.randrange(2) == 0, indent=indent).encode()


def file_of(choose, root, faults=0.0):
    """A file of a schema with random data in some blocks."""
    pads = choose.choice((0, 0, 0, 0.1))
    parts = [header(choose, text_of(choose, root), faults)]
    for _ in range(choose.choice((0, 1, 1, 2, 3, 6))):
        encoder = Encoder(choose, faults, pads, choose.choice((5, 40, 200)))
        data = [encoder.datum(root) for _ in range(choose.choice((0, 1, 1, 2, 4, 12)))]
        parts.append(block(choose, len(data), b"".join(data), faults))
    return b"".join(parts)


def whole(choose):
    """A file without a fault."""
    root = schema(choose)
    return file_of(choose, root), evolved(choose, root)


def at_fault(choose):
    """A file with faults of its elements."""
    root = schema(choose)
    return file_of(choose, root, choose.choice((0.002, 0.01, 0.05))), evolved(choose, root)


def mutated(choose):
    """A file with bytes changed."""
    root = schema(choose)
    return changed(choose, file_of(choose, root)), evolved(choose, root)


LEAVES = ("null", "boolean", "int", "int", "long", "bytes", "string", "string", "fixed", "enum")


def leaf(choose, index):
    """A type without parts, which has a name of its own where it has one."""
    kind = choose.choice(LEAVES)
    if kind == "fixed":
        return Type(kind, name=f"F{index}", size=choose.randrange(4))
    if kind == "enum":
        return Type(kind, name=f"E{index}", symbols=["A", "B", "C"][:choose.randrange(1, 4)], symbol=None)
    return Type(kind)


def taken_leaf(choose, type):
    """What a reader takes a writer's leaf as: most often the same, or what an int or a string may be."""
    others = {"int": "long", "string": "bytes", "bytes": "string"}
    return Type(others[type.kind]) if type.kind in others and choose.randrange(3) == 0 else type


def of_leaves(choose):
    """Records of leaves, alone or in other types, and a reader's that takes some of them in another order, with defaults between them."""
    fields = [Field(f"f{k}", leaf(choose, k)) for k in range(choose.randrange(1, 12))]
    taken = [Field(field.name, taken_leaf(choose, field.type)) for field in fields if choose.randrange(4)]
    taken += [Field(f"d{k}", *choose.choice([(Type("int"), [7]), (Type("string"), ["no"]), (Type("null"), [None])])) for k in range(choose.randrange(3))]
    choose.shuffle(taken)
    write, read = Type("record", name="R", fields=fields), Type("record", name="R", fields=taken)
    around = choose.choice((lambda of: of, lambda of: of, lambda of: Type("array", of=of), lambda of: Type("map", of=of),
                            lambda of: Type("union", branches=[Type("null"), of]),
                            lambda of: Type("record", name="Outer", fields=[Field("a", of), Field("b", Type("long"))])))
    write, read = around(write), around(read)
    set_heights(write)
    set_heights(read)
    file = file_of(choose, write, choose.choice((0, 0, 0, 0.02)))
    return changed(choose, file) if choose.randrange(6) == 0 else file, read


def without_bytes(choose):
    """A file of data most of which have no bytes, and readers for which they have none or some."""
    root = schema(choose, EMPTY)
    parts = [header(choose, text_of(choose, root))]
    faults = choose.choice((0, 0, 0.05))
    for _ in range(choose.choice((1, 2, 5))):
        encoder = Encoder(choose, faults, 0.02, 40)
        count = choose.choice((0, 1, 3, 50, 2_000)) if is_empty(root) else choose.choice((0, 1, 2, 20))
        data = b"".join([encoder.datum(root) for _ in range(min(count, 50))])
        parts.append(block(choose, count, data, faults))
    file = b"".join(parts)
    return changed(choose, file) if choose.randrange(5) == 0 else file, evolved(choose, root, choose.choice((0.05, 0.2, 0.4)))


def tower(choose, widths, leaf):
    """Records in one another, each of which holds the next one many times."""
    made = leaf
    for level, width in enumerate(widths):
        fields = [Field(f"f{k}", made) for k in range(width)]
        if choose.randrange(4) == 0:
            fields.insert(choose.randrange(width + 1), Field("leaf", leaf))
        made = Type("record", name=f"R{level}", fields=fields)
    return made


def nodes_of(type):
    """How many nodes the datum of a type without bytes has."""
    known = {}
    def count(it):
        if id(it) not in known:
            known[id(it)] = 1 + sum(count(part) for part in it.parts())
        return known[id(it)]
    return count(type)


def lists_of_nodes(choose, nodes, per_item):
    """Counts of arrays in one datum, whose nodes with their items are about as many as these."""
    counts, left = [], nodes
    while left > 1 and len(counts) < 12:
        part = left if choose.randrange(2) else choose.randrange(left)
        counts.append(max(0, (part - 1) // per_item))
        left -= 1 + counts[-1] * per_item
    return counts


def at_node_limit(choose):
    """Arrays of data without bytes, with about as many nodes as a datum may have."""
    leaf = choose.choice([Type("null"), Type("fixed", name="F", size=0), Type("record", name="E", fields=[])])
    if choose.randrange(3) == 0:
        root = tower(choose, choose.choice(((31, 31, 31, 31), (32, 32, 32, 31), (1_023, 1_023), (101, 101, 101), (16, 16, 16, 16, 15))), leaf)
        return container(choose, root, choose.choice((1, 2, 3)), b""), changed_tower(choose, root)
    item = tower(choose, [choose.randrange(1, 9) for _ in range(choose.randrange(4))], leaf)
    items = Type("array", of=item)
    # A datum is a record of arrays; the record is a node, too.
    counts = lists_of_nodes(choose, NODES - 1 + choose.choice((-3, -1, 0, 0, 1, 2, 60)), nodes_of(item))
    root = Type("record", name="Root", fields=[Field(f"a{k}", items) for k in range(len(counts))])
    data = b"".join(number(count) + number(0) if count and choose.randrange(3) else
                    number(-count) + number(0) + number(0) if count else number(0) for count in counts)
    return container(choose, root, 1, data), changed_tower(choose, root)


def beside_a_byte(choose):
    """Data of one byte, with data without bytes beside it: about as deep as they may be, or of about as many nodes."""
    leaf = choose.choice([Type("null"), Type("fixed", name="F", size=0), Type("record", name="E", fields=[])])
    if choose.randrange(2):
        parts = [Type("record", name="C0", fields=[Field("a", leaf)])]
        for level in range(1, DEPTH - 2 + choose.choice((-30, -2, -1, 0, 0, 1, 2))):
            parts.append(Type("record", name=f"C{level}", fields=[Field("a", parts[-1])]))
        parts += [parts[-1]] * choose.choice((0, 0, 7, 8, 12))
    else:
        part = tower(choose, choose.choice(((2,) * 14, (31, 31, 31), (9, 9, 9), (3, 5))), leaf)
        parts = [part] * (choose.choice((1, 7, 8, 9)) if choose.randrange(3) else max(1, min(NODES // nodes_of(part) + choose.choice((-1, 0, 1)), 600)))
    fields = [Field(f"p{k}", part) for k, part in enumerate(parts)]
    fields.insert(choose.randrange(len(fields) + 1), Field("byte", Type("boolean")))
    root = Type("record", name="Root", fields=fields)
    data = bytes([choose.choice((0, 1, 1, 1, 1, 1, 1, 1, 1, 2)) for _ in range(choose.choice((1, 2, 5)))])
    file = container(choose, root, len(data), data)
    if choose.randrange(2):
        return file, Type("record", name="Root", fields=[Field("byte", Type("boolean"))])
    return file, changed_tower(choose, root)


def changed_tower(choose, root):
    """A reader for data without bytes: the same, one that adds a field without bytes or with some, or one that leaves some out."""
    set_heights(root)
    reader = evolved(choose, root, choose.choice((0, 0, 0.05)))
    records = [it for it in all_types(reader) if it.kind == "record"]
    if records and choose.randrange(2):
        more = choose.choice([(Type("null"), None), (Type("fixed", name="Added", size=0), ""), (Type("int"), 7), (Type("string"), "abc" * 5)])
        choose.choice(records).fields.append(Field("added", more[0], [more[1]]))
    return reader


def at_depth_limit(choose):
    """Data about as deep as they may be: arrays, maps, unions or records in one another, by a schema that holds itself."""
    depth = DEPTH + choose.choice((-40, -2, -1, 0, 0, 1, 2))
    kind = choose.choice(("array", "map", "union", "record", "schema"))
    if kind == "schema":
        chain = [Type("record", name="R0", fields=[])]
        for level in range(1, depth - 1):
            chain.append(Type("record", name=f"R{level}", fields=[Field("a", chain[-1]), Field("b", chain[-1])][:choose.choice((1, 1, 1, 2))]))
        root = Type("union", branches=chain)
        return container(choose, root, 2, number(depth - 2) * 2), changed_tower(choose, root)
    root = Type("record", name="R")
    link = Type("union", branches=[Type("null"), root])
    inner = {"array": Type("array", of=root), "map": Type("map", of=root), "union": link, "record": link}[kind]
    root.fields = [Field("a", inner), Field("b", Type("null" if kind == "union" else "int"))]
    end = b"" if kind == "union" else b"\x02"
    open_, close = {"array": (b"\x02", b"\x00"), "map": (b"\x02\x02k", b"\x00")}.get(kind, (b"\x02", b""))
    # Each level is two nodes deep: the record and what holds the next one.
    levels = depth // 2
    data = open_ * (levels - 1) + b"\x00" + end + (close + end) * (levels - 1)
    set_heights(root)
    return container(choose, root, 1, data), evolved(choose, root, 0.2)


def at_block_limit(choose):
    """Many data without bytes in a block, and a reader that adds some, so that the block is about as long as it may be."""
    count = choose.choice((NODES, NODES + 1, NODES - 1, 20_000, 4_096))
    root = Type("record", name="R", fields=[Field("a", Type("null"))] if choose.randrange(2) else [])
    reader = Type("record", name="R", fields=list(root.fields))
    if choose.randrange(3):
        length = BLOCK // count + choose.choice((-3, -2, -1, 0, 1))
        reader.fields.append(Field("b", Type("string"), ["x" * length]))
    return container(choose, root, count, b""), reader


def long_parts(choose):
    """A long header, long strings and long blocks, so that buffers must grow."""
    more = choose.choice((0, 300, 2_000))
    root = Type("record", name="R", fields=[Field("a", Type("string")), Field("b", Type("int")), Field("c", Type("array", of=Type("long")))])
    parts = [header(choose, text_of(choose, root), 0.0, more)]
    for _ in range(choose.choice((0, 1, 3))):
        data = bytearray()
        count = choose.choice((1, 30, 3_000))
        for _ in range(count):
            length = choose.choice((0, 3, 60, 60_000 if count < 40 else 60, 300_000 if count == 1 else 9))
            data += number(length) + b"y" * length + number(choose.randrange(1 << 20)) + number(2) + b"\x02\x7f" + number(0)
        parts.append(block(choose, count, data))
    set_heights(root)
    file = b"".join(parts)
    return changed(choose, file) if choose.randrange(4) == 0 else file, evolved(choose, root)


def container(choose, root, count, data):
    """A file of one block, and now and then of an empty one."""
    parts = [header(choose, text_of(choose, root)), block(choose, count, data)]
    if choose.randrange(4) == 0:
        parts.append(block(choose, 0, b""))
    return b"".join(parts)


# The kinds of files, and how often each is made; those at the limits take long.
KINDS = {
    "whole": (whole, 32), "at fault": (at_fault, 28), "mutated": (mutated, 18), "leaves": (of_leaves, 20), "without bytes": (without_bytes, 17),
    "node limit": (at_node_limit, 0.5), "depth limit": (at_depth_limit, 2), "block limit": (at_block_limit, 0.5), "long parts": (long_parts, 2),
    "beside a byte": (beside_a_byte, 1),
}


def case(choose, kind):
    """The files of a case, and its commands by their names."""
    file, reader = KINDS[kind][0](choose)
    files = {"file.avro": file, "reader.avsc": text_of(choose, reader)}
    by_reader = ["--reader", "reader.avsc"]
    commands = [
        ("check", ["check", "file.avro"]), ("show", ["show", "file.avro"]), ("show --reader", ["show", "file.avro", *by_reader]),
        ("copy", ["copy", "file.avro", "out.avro"]), ("copy --reader", ["copy", "file.avro", "out.avro", *by_reader]),
        ("copy --sync", ["copy", "file.avro", "out.avro", "--sync", OTHER_SYNC]),
        ("check --json", ["check", "file.avro", "--json"]), ("show --limit", ["show", "file.avro", "--limit", "2"]),
        ("header", ["header", "file.avro"]), ("header --metadata", ["header", "file.avro", "--metadata"]),
    ]
    return files, commands

#!/usr/bin/env python3
"""Writes container files, schema texts and pairs of them that are made to cost more than their length, and measures them.

    hostile_files.py PROGRAM [ROW..]         all rows, or those whose names begin with one of the words
    hostile_files.py write FOLDER [ROW..]    their files, at their greatest lengths

Each row is run at its greatest length and at about an eighth of it. It prints the command, the bytes read, the processor seconds
and the peak of memory in MB of both runs, the ratio of their times, and the answer. A run ends after 60 seconds of processor time
or 4 GB; if the eighth does, the greatest is not run. A peak of up to 40 MB may be that of the script, which starts the program.
"""

import itertools
import os
import resource
import string
import subprocess
import sys
import tempfile

sys.path.insert(0, os.path.join(os.path.dirname(os.path.abspath(__file__)), "gen"))

import hostile
from generate import number
from hostile_pairs import fixed, record, short_names, written

SECONDS = 60
MEMORY = 4 << 30
GREATEST = 1_048_576
# The limits of a header, of the data of a block and of a datum's nodes.
HEADER = 4_194_304
DATA = 1_048_576
SYNC = bytes(range(16))


class Row:
    """Files by their names, and the words of commands that read them; `{out}` stands for a file that is written."""

    def __init__(self, name, make, *commands):
        self.name, self.make, self.commands = name, make, commands


def container(schema, blocks, metadata=b""):
    """A container file."""
    text = written(schema).encode()
    entry = number(2) + number(11) + b"avro.schema" + number(len(text)) + text + number(10) + b"avro.codec" + number(4) + b"null"
    return b"Obj\x01" + entry + metadata + number(0) + SYNC + blocks


def block(count, data=b""):
    return number(count) + number(len(data)) + data + SYNC


# Headers


def entries(count):
    """Metadata entries of 8 bytes: a name of 6 digits, and no value."""
    return [b"\x0c%06x\x00" % k for k in range(count)]


def one_block(share):
    """As many entries as a header may have, in one block of the metadata."""
    count = (HEADER // share - 200) // 8
    return {"file": container("null", b"", number(count) + b"".join(entries(count)))}


def many_blocks(share):
    """The same in a block each."""
    count = (HEADER // share - 200) // 9
    return {"file": container("null", b"", b"".join(b"\x02" + entry for entry in entries(count)))}


# Data without bytes


def tower(width, depth, more=()):
    """Records in one another: each has so many fields of the next one, and the last ones are null; the first has fields more."""
    inner = "null"
    for level in range(depth):
        fields = [("f0", inner)] + [(f"f{k}", "null" if level == 0 else f"R{level - 1}") for k in range(1, width)]
        inner = record(f"R{level}", fields)
    inner["fields"] += more
    return inner


def towers(share):
    """One block of as many towers as one may have, of 954,305 nodes each; readers of the same, and of one field more."""
    added = {"name": "added", "type": "int", "default": 7}
    return {"file": container(tower(31, 4), block(DATA // share)), "same": written(tower(31, 4)), "more": written(tower(31, 4, [added]))}


def tower_blocks(share):
    """Many such blocks."""
    return {"file": container(tower(31, 4), block(DATA) * (50_000 // share)), "same": written(tower(31, 4))}


def null_blocks(share):
    """Many blocks of nulls, and a reader of a union."""
    return {"file": container("null", block(DATA) * (50_000 // share)), "same": written("null")}


def null_arrays(share):
    """Blocks of arrays of 1,000,000 nulls."""
    array = number(1_000_000) + number(0)
    return {"file": container({"type": "array", "items": "null"}, block(20_000 // share, array * (20_000 // share)))}


def tower_arrays(share):
    """A block of 800 arrays of one tower each, or of 100."""
    count = 800 // share
    return {"file": container({"type": "array", "items": tower(31, 4)}, block(count, (number(1) + number(0)) * count))}


def towers_beside(share):
    """A block of as many data of one byte as one may have, each with a tower beside its byte, and a reader of the byte alone."""
    byte = ("byte", "boolean")
    count = DATA // share
    return {"file": container(record("W", [("tower", tower(31, 4)), byte]), block(count, b"\x01" * count)), "byte": written(record("W", [byte]))}


def fields_beside(share):
    """The same of many fields beside the byte, whose type is a record without fields."""
    names = short_names(40_000 // share)
    fields = [("_byte", "boolean"), ("_none", record("E", []))] + [(name, "E") for name in names]
    count = DATA // share
    return {"file": container(record("W", fields), block(count, b"\x01" * count))}


def shown_arrays(share):
    """A block of 100 arrays of 1,000,000 nulls, or of 12."""
    count = 100 // share
    return {"file": container({"type": "array", "items": "null"}, block(count, (number(1_000_000) + number(0)) * count))}


def shown_towers(share):
    """A block of 16 towers, or of two."""
    return {"file": container(tower(31, 4), block(16 // share))}


# Defaults


def fixeds(count):
    """Fixeds of one byte under short names."""
    return [fixed(name) for name in short_names(count)]


def with_default(type, default):
    """A record of one field, whose default is this text of JSON."""
    whole = written({"type": "record", "name": "Root", "fields": [{"name": "f", "type": type, "default": 0}]})
    return whole.replace('"default":0', '"default":' + default)


def repeated(type, opening, item, closing, share):
    """The same, whose default has an item as often as the text may be long."""
    room = GREATEST // share - len(with_default(type, opening + closing))
    return {"text": with_default(type, opening + ",".join([item] * (room // (len(item) + 1))) + closing)}


def array_of(branches, item):
    """An array of a union of 4,000 types or of an eighth of them, whose default is one item again and again."""
    return lambda share: repeated({"type": "array", "items": branches(4_000 // share)}, "[", item, "]", share)


def look_alikes(count, depth):
    """Two records that differ in nothing but their names, each an array of a union of fixeds and int, some objects around them, and numbers."""
    alikes = [
        record("Left", [("x", {"type": "array", "items": [*fixeds(count), "int"]})]),
        record("Right", [("x", {"type": "array", "items": [*short_names(count), "int"]})]),
    ]
    around = [record("Outer", [("a", ["Outer", record("Other", [("a", ["Outer", "Other", *alikes])]), "Left", "Right"])])]
    return lambda share: repeated(around if depth else alikes, '{"a":' * depth + '{"x":[', "7", "]}" + "}" * depth, share)


def alike_records(count):
    """Records whose first fields are all ints, and whose second ones are a fixed each, an int at last."""
    return [*(record(f"R{n}", [("a", "int"), ("b", fixed(f"F{n}"))]) for n in range(count)), record("Last", [("a", "int"), ("b", "int")])]


def alike_arrays(count):
    """Records of one field, an array of a fixed each, of an int at last."""
    arrays = [*(fixed(f"F{n}") for n in range(count)), "int"]
    return [record(f"R{n}", [("a", {"type": "array", "items": items})]) for n, items in enumerate(arrays)]


def enums(count):
    """Enums of one symbol each, which is the same for all but the last."""
    names = short_names(count)
    return [{"type": "enum", "name": name, "symbols": ["last" if name is names[-1] else "S"]} for name in names]


def records(count, last):
    """Records of one field, and one with the fields of the last; the type of a field is a fixed without bytes."""
    return [fixed("Leaf", 0), *(record(name, [("a", "Leaf")]) for name in short_names(count)), record("Last", last)]


def long_text(share):
    """Fixeds of one byte and string, and one long text."""
    type = [*fixeds(4_000 // share), "string"]
    return {"text": with_default(type, '"' + "x" * (GREATEST // share - len(with_default(type, '""'))) + '"')}


# Names


def long_name(share):
    """A fixed in a namespace of half the text, and references to it."""
    return {"text": hostile.fields(GREATEST // share)}


def twin_aliases(share):
    """A fixed and one in a namespace that differs in its last character, which has an alias again and again, and unions of it."""
    space, count, unions = "n" * (450_000 // share), 110_000 // share, 4_000 // share
    names = short_names(unions)
    writer = record("R", [("other", fixed("x"))] + [(name, "x") for name in names], namespace=space + "a")
    reader = record("R", [("other", fixed("A", aliases=["x"] * count))] + [(name, ["A"]) for name in names], namespace=space + "b")
    return {"writer": written(writer), "reader": written(reader)}


def alias_grid(share):
    """Records that meet unions, each of which begins with a record of many aliases."""
    side = {1: 1_175, 8: 400}[share]
    names, letters = short_names(side), string.ascii_letters
    spelled = ("".join(it) for it in itertools.product(letters, repeat=3))
    # No alias is the word of a primitive type.
    aliases = list(itertools.islice((it for it in spelled if it != "int"), 130_000 // share))
    union = record("V", [("u", [record(f"W{k}", []) for k in range(side)])])
    writer = record("R", [(names[0], union), *((name, "V") for name in names[1:])])
    first = record("V", [("u", [record("k.K", [], aliases=aliases), "null"])], namespace="n0")
    heads = [first, *(record("V", [("u", ["k.K", "null"])], namespace=f"n{k}") for k in range(1, side))]
    return {"writer": written(writer), "reader": written(record("R", zip(names, heads)))}


def field_aliases(share):
    """Records without a common name, and one with a field of many aliases."""
    names = short_names(4_000 // share)
    bare = [record("A", [(name + "_", "q.F")], namespace=f"n{k}") for k, name in enumerate(names)]
    writer = record("R", [("other", fixed("q.F")), *zip(names, bare)])
    field = {"name": "y", "type": "int", "default": 7, "aliases": [f"x{k}" for k in range(100_000 // share)]}
    one = {"type": "record", "name": "A", "fields": [field]}
    reader = record("R", [("other", fixed("q.F")), (names[0], one), *((name, "A") for name in names[1:])])
    return {"writer": written(writer), "reader": written(reader)}


def crossed(share):
    """Records of 20 fields, each of the one before, on both sides, of which each meets each."""
    count = {1: 1_400, 8: 200}[share]
    names, spaces = short_names(2 * count), short_names(count)
    links = [record("A", [], namespace=spaces[0])]
    links += [record("A", [(name, f"{spaces[k - 1]}.A") for name in names[:20]], namespace=spaces[k]) for k in range(1, count)]
    last = f"{spaces[-1]}.A"
    each = [f"{space}.A" for space in spaces]
    def side(first, second):
        return written(record("R", [("__", record("T", zip(names, links))), *zip(names, first + second)]))
    return {"writer": side(each, [last] * count), "reader": side([last] * count, each)}


CHECK, COPY = ["check", "file"], ["copy", "file", "{out}"]
SAME, MORE, BYTE = ([*COPY, "--reader", name] for name in ("same", "more", "byte"))
SHOW = ["show", "file"]
TEXT, FINGERPRINT, JUDGE = ["schema", "text"], ["schema", "text", "--fingerprint"], ["judge", "writer", "reader"]
ONE_FIELD = [("b", "Leaf")]

ROWS = [
    Row("header, entries in one block", one_block, CHECK, COPY),
    Row("header, a block an entry", many_blocks, CHECK, COPY),
    Row("towers in one block", towers, CHECK, COPY, SAME, MORE),
    Row("towers in 50,000 blocks", tower_blocks, CHECK, COPY, SAME),
    Row("nulls in 50,000 blocks", null_blocks, CHECK, COPY, SAME),
    Row("arrays of nulls", null_arrays, CHECK, COPY),
    Row("arrays of one tower", tower_arrays, CHECK, COPY),
    Row("towers beside a byte", towers_beside, CHECK, COPY, BYTE),
    Row("fields beside a byte", fields_beside, CHECK, COPY),
    Row("arrays shown", shown_arrays, SHOW),
    Row("towers shown", shown_towers, SHOW),
    *(Row(f"look-alikes, {count} fixeds, {depth} around", look_alikes(count, depth), TEXT) for count in (100, 1_000) for depth in (0, 1, 10, 100)),
    Row("fixeds and numbers", array_of(lambda count: [*fixeds(count), "int"], "7"), TEXT),
    Row("fixeds and texts", array_of(lambda count: [*fixeds(count), "string"], '"ab"'), TEXT),
    Row("enums and numbers", array_of(lambda count: [*enums(count), "int"], "7"), TEXT),
    Row("enums and texts", array_of(lambda count: [*enums(count), "string"], '"ab"'), TEXT),
    Row("enums and the last symbol", array_of(enums, '"last"'), TEXT),
    Row("records and empty objects", array_of(lambda count: records(count, []), "{}"), TEXT),
    Row("records and objects of one member", array_of(lambda count: records(count, ONE_FIELD), '{"b":""}'), TEXT),
    Row("records whose first fields are alike", array_of(lambda count: alike_records(count // 4), '{"a":1,"b":2}'), TEXT),
    Row("records of arrays alike", array_of(lambda count: alike_arrays(count // 4), '{"a":[7]}'), TEXT),
    Row("fixeds and one long text", long_text, TEXT),
    Row("a long name", long_name, FINGERPRINT, ["schema", "text", "--canonical"]),
    Row("twin aliases", twin_aliases, JUDGE),
    Row("a grid of aliases", alias_grid, JUDGE),
    Row("a field of many aliases", field_aliases, JUDGE),
    Row("records of 20 fields crossed", crossed, JUDGE),
]


def limit():
    resource.setrlimit(resource.RLIMIT_CPU, (SECONDS, SECONDS))
    resource.setrlimit(resource.RLIMIT_AS, (MEMORY, MEMORY))


def run(words):
    """What a run takes: seconds of the processor, MB, and its first words."""
    reads, writes = os.pipe()
    process = subprocess.Popen(words, stdin=subprocess.DEVNULL, stdout=writes, stderr=subprocess.STDOUT, preexec_fn=limit)
    os.close(writes)
    said = b""
    with os.fdopen(reads, "rb", buffering=0) as out:
        while part := out.read(1 << 20):
            said = (said + part)[:60] if len(said) < 60 else said
    _, status, used = os.wait4(process.pid, 0)
    process.returncode = status
    first = said.decode("utf-8", "replace").split("\n")[0][:40] if os.WIFEXITED(status) else "ended"
    return used.ru_utime + used.ru_stime, used.ru_maxrss / 1024, first, os.WIFEXITED(status)


def write(folder, files):
    """Writes files, and answers their paths and how many bytes they have."""
    paths = {}
    for name, data in files.items():
        paths[name] = os.path.join(folder, name)
        with open(paths[name], "wb") as file:
            file.write(data if isinstance(data, bytes) else data.encode())
    return paths, {name: os.path.getsize(path) for name, path in paths.items()}


def measure_command(program, folder, row, command):
    """The line of a command: at an eighth, and at the greatest length."""
    found = []
    for share in (8, 1):
        paths, lengths = write(folder, row.make(share))
        out = os.path.join(folder, "out")
        words = [paths.get(word, out if word == "{out}" else word) for word in command]
        read = ", ".join(str(lengths[word]) for word in command if word in lengths)
        found.append((read, *run([program, *words])))
        if os.path.exists(out):
            os.remove(out)
        if not found[-1][4]:
            break
    cells = [f"{read} | {seconds:.2f} s, {peak:.0f} MB" for read, seconds, peak, _, _ in found]
    if len(found) == 1:
        cells.append("- | not run")
        times = "-"
    else:
        times = f"{found[1][1] / max(found[0][1], 0.01):.1f}"
    shown = " ".join(word for word in command if word not in ("{out}", "file", "text", "writer", "reader"))
    print(f"| {row.name} | {shown} | {cells[0]} | {cells[1]} | {times} | {found[-1][3]} |", flush=True)


def chosen(names):
    return [row for row in ROWS if not names or row.name.startswith(tuple(names))]


def measure(program, *names):
    print("| Input | command | bytes, an eighth | takes | bytes | takes | times | answer |")
    print("|---|---|---|---|---|---|---|---|")
    with tempfile.TemporaryDirectory() as folder:
        for row in chosen(names):
            for command in row.commands:
                measure_command(os.path.abspath(program), folder, row, command)


def write_all(folder, *names):
    for row in chosen(names):
        place = os.path.join(folder, row.name.replace(",", "").replace(" ", "_"))
        os.makedirs(place, exist_ok=True)
        write(place, row.make(1))


if __name__ == "__main__":
    if len(sys.argv) < 2:
        sys.exit(__doc__)
    if sys.argv[1] == "write":
        write_all(*sys.argv[2:])
    else:
        measure(*sys.argv[1:])

#!/usr/bin/env python3
"""Writes pairs of schemas that are made to cost more than their length, and measures a program that judges them.

    hostile_pairs.py write FOLDER
    hostile_pairs.py measure PROGRAM

`measure` runs `PROGRAM judge WRITER READER` on each pair, and `PROGRAM show FILE --reader READER` on files with the writer's
schema: one without a block, and one of 100,000 blocks of one null each. It prints the lengths of the two texts, the processor
seconds and the peak of memory in MB of each, and the answer of the first. A run ends after 60 seconds of processor time or 8 GB.
"""

import itertools
import json
import os
import resource
import string
import subprocess
import sys
import tempfile

SECONDS = 60
MEMORY = 8 << 30
SYNC = bytes(range(16))


def written(schema):
    return json.dumps(schema, separators=(",", ":"))


def record(name, fields, **more):
    return {"type": "record", "name": name, "fields": [{"name": f, "type": t} for f, t in fields], **more}


def fixed(name, size=1, **more):
    return {"type": "fixed", "name": name, "size": size, **more}


def aliased(unions):
    """A fixed with 100,000 aliases, and unions that name it among eight branches."""
    others = [f"B{i}" for i in range(7)]
    fields = [("a", fixed("A", aliases=[f"x{i}" for i in range(100_000)]))]
    fields += [(f"b{i}", fixed(name)) for i, name in enumerate(others)]
    fields += [(f"u{i}", ["A", *others]) for i in range(unions)]
    return ["null", record("R", fields)]


def same_alias(unions):
    """Eight fixeds with one alias of a long namespace, and unions of them."""
    names = [f"A{i}" for i in range(8)]
    fields = [(f"a{i}", fixed(name, aliases=["x"])) for i, name in enumerate(names)]
    fields += [(f"u{i}", names) for i in range(unions)]
    return ["null", record("R", fields, namespace="n" * 400_000)]


def short_names(count):
    """The shortest names, this many."""
    first = string.ascii_letters + "_"
    spelled = (
        "".join(letters)
        for length in itertools.count(1)
        for letters in itertools.product(first, *[first + string.digits] * (length - 1))
    )
    return list(itertools.islice(spelled, count))


def enum(symbols, **more):
    return {"type": "enum", "name": "E", "symbols": symbols, **more}


def enums(count, **more):
    """Fields of an enum of one symbol each, all of one simple name."""
    return ["null", record("R", [(f"f{i}", enum(["S0"], namespace=f"n{i}", **more)) for i in range(count)])]


def one_enum(count, symbols):
    """`count` fields of one enum of `symbols` symbols."""
    fields = [("f0", enum([f"S{i}" for i in range(symbols)]))]
    return ["null", record("R", fields + [(f"f{i}", "E") for i in range(1, count)])]


def many(types):
    """Fields of these types, under the shortest names."""
    return ["null", record("R", zip(short_names(len(types)), types))]


def wide(fields, of):
    """A record of many fields of one type, each a fixed without bytes, with what `of` says of each."""
    names = short_names(fields)
    first = {"name": names[0], "type": fixed("F", size=0), **of}
    return {"type": "record", "name": "E", "fields": [first] + [{"name": name, "type": "F", **of} for name in names[1:]]}


def bare(count):
    """Records without fields, all of one simple name."""
    return many([record("E", [], namespace=f"n{i}") for i in range(count)])


def single(count):
    """Records of one field of one type, all of one simple name."""
    of = fixed("F", size=0, namespace="n")
    return many([record("E", [("a", "n.F" if i else of)], namespace=f"n{i}") for i in range(count)])


def branches(count):
    """Fields of one union of records each, the records defined before."""
    names = [f"R{i}" for i in range(count)]
    fields = [(f"r{i}", record(name, [])) for i, name in enumerate(names)]
    fields += [(f"u{i}", ["null", *names]) for i in range(60)]
    return ["null", record("R", fields)]


def doubled(count, fields, last):
    """Records of which each later one has the one before twice, the first with some fields; and around them a last field."""
    inner = {"type": "record", "name": "R0", "fields": fields}
    for i in range(1, count):
        inner = record(f"R{i}", [("a", inner), ("b", f"R{i - 1}")])
    return ["null", record("W", [("f", inner), ("z", last)])]


def long_default(items):
    """A field whose default is an array of zeros."""
    return {"name": "d", "type": {"type": "array", "items": "int"}, "default": [0] * items}


def chain(count, fields):
    """Fields of one union of records, each of which but the first has a field of the one before."""
    links = [record("A", [], namespace="n0")]
    links += [record("A", [("f", f"n{i - 1}.A")], namespace=f"n{i}") for i in range(1, count)]
    head = record("V", [("u", links)])
    return ["null", record("R", [("f0", head)] + [(f"f{i}", "V") for i in range(1, fields)])]


def ring(number):
    """A record of a record that holds itself."""
    return record("V", [("u", record("A", [("f", "A")]))], namespace=f"n{number}")


def rings(count):
    """Fields of such records, each of a type of its own."""
    return ["null", record("R", [(f"f{i}", ring(i)) for i in range(count)])]


def ladder(count, fields):
    """Fields of one union of records, each of a link of a chain and of a pad, so that a later one has fewer nodes."""
    links = [record("A", [], namespace="n0")]
    links += [record("A", [("f", f"n{i - 1}.A")], namespace=f"n{i}") for i in range(1, count)]
    pads = [record("P0", [], namespace="p")]
    pads += [record(f"P{i}", [("x", f"P{i - 1}"), ("y", "P0")], namespace="p") for i in range(1, count)]
    steps = [record("A", [("f", f"n{i}.A"), ("p", f"p.P{count - 1 - i}")], namespace=f"w{i}") for i in range(count)]
    parts = record("T", [(f"l{i}", link) for i, link in enumerate(links)] + [(f"p{i}", pad) for i, pad in enumerate(pads)])
    head = record("V", [("u", steps)])
    return ["null", record("R", [("t", parts), ("f0", head)] + [(f"f{i}", "V") for i in range(1, fields)])]


def wide_chain(count, fields):
    """A union of records, each of which but the first has a field of the one before, and one of many fields of the last."""
    links = [record("A0", [])] + [record(f"A{i}", [("f", f"A{i - 1}")]) for i in range(1, count)]
    return links + [record("R", [(f"f{i}", f"A{count - 1}") for i in range(fields)])]


def pairs():
    """Each pair by its name: the writer's schema and the reader's."""
    yield "an alias table a union", ["null"], aliased(2_000)
    yield "the same against itself", aliased(2_000), aliased(2_000)
    yield "one alias eight times", ["null"], same_alias(3_000)
    yield "enums against one long enum", enums(2_000), one_enum(2_000, 60_000)
    yield "one long enum against enums", one_enum(500, 60_000), enums(500, default="S0")
    yield "unions of 1,000 records", branches(1_000), branches(1_000)
    yield "a long default a record", doubled(10, [], "int"), doubled(10, [long_default(100_000)], "string")
    yield "chains against the order", chain(1_000, 1_000), rings(1_000)
    yield "ladders against the order", ladder(1_000, 460), rings(460)
    yield "a long chain and many fields", wide_chain(4_000, 20_000), "int"
    yield "the longest enum against enums", many([enum(short_names(155_000))] + ["E"] * 3_999), many(
        [enum(["a"], namespace=f"n{i}", default="a") for i in range(4_000)]
    )
    yield "the longest record against records", many([wide(36_000, {})] + ["E"] * 3_999), bare(4_000)
    yield "the longest record against records of a field", many([wide(36_000, {})] + ["E"] * 3_999), single(4_000)
    yield "records against the longest record", bare(4_000), many([wide(24_000, {"default": ""})] + ["E"] * 3_999)


def number(n):
    """A number of the binary encoding."""
    n, out = 2 * n, b""
    while n >= 128:
        out += bytes([n % 128 + 128])
        n //= 128
    return out + bytes([n])


def container(text, blocks):
    """A container file of a schema, with blocks of one null each, which is the first branch."""
    entries = [(b"avro.schema", text.encode()), (b"avro.codec", b"null")]
    metadata = b"".join(number(len(it)) + it for entry in entries for it in entry)
    return b"Obj\x01" + number(len(entries)) + metadata + b"\x00" + SYNC + (number(1) + number(1) + b"\x00" + SYNC) * blocks


def limit():
    resource.setrlimit(resource.RLIMIT_CPU, (SECONDS, SECONDS))
    resource.setrlimit(resource.RLIMIT_AS, (MEMORY, MEMORY))


def run(words):
    """What a run takes: seconds of the processor, MB, and its first words."""
    with tempfile.TemporaryFile() as out:
        process = subprocess.Popen(words, stdout=out, stderr=subprocess.STDOUT, preexec_fn=limit)
        _, _, used = os.wait4(process.pid, 0)
        out.seek(0)
        said = out.read(60).decode("utf-8", "replace").strip().replace("\n", " ")
    return used.ru_utime + used.ru_stime, used.ru_maxrss / 1024, said


def texts():
    for name, writer, reader in pairs():
        yield name, written(writer), written(reader)


def write(folder):
    os.makedirs(folder, exist_ok=True)
    for name, writer, reader in texts():
        base = name.replace(" ", "_").replace(",", "")
        for part, text in (("writer", writer), ("reader", reader)):
            with open(f"{folder}/{base}_{part}.avsc", "w", encoding="utf-8") as file:
                file.write(text)


def measure(program):
    print("| Pair | bytes | judge | show, no block | show, 100,000 blocks | answer |")
    print("|---|---|---|---|---|---|")
    with tempfile.TemporaryDirectory() as folder:
        w, r, f = (f"{folder}/{it}" for it in ("writer.avsc", "reader.avsc", "file.avro"))
        for name, writer, reader in texts():
            for path, text in ((w, writer), (r, reader)):
                with open(path, "w", encoding="utf-8") as file:
                    file.write(text)
            told = [run([program, "judge", w, r])]
            for blocks in (0, 100_000):
                with open(f, "wb") as file:
                    file.write(container(writer, blocks))
                told.append(run([program, "show", f, "--reader", r]))
            cells = [f"{seconds:.2f} s, {room:.0f} MB" for seconds, room, _ in told]
            print(f"| {name} | {len(writer)}, {len(reader)} | {' | '.join(cells)} | {told[0][2]} |", flush=True)


def main(words):
    if len(words) == 2 and words[0] == "write":
        write(words[1])
    elif len(words) == 2 and words[0] == "measure":
        measure(words[1])
    else:
        sys.exit(__doc__)


if __name__ == "__main__":
    main(sys.argv[1:])

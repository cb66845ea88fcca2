#!/usr/bin/env python3
"""Announces counts and lengths that do not come, and looks at the room that a program makes for them.

    room.py PROGRAM [GROUP..]     all groups, or those that are named: header, block, data, encoded, schema, certificate

Each row is a file that is cut right behind a count or a length, at each limit and far past it. The program reads it within 64 MB
of address space. Its answer is the fault that the row says, or what a good row prints; running out of memory is
none. Bytes that are skipped are held beside a datum, so rows that skip as many as a datum may have are read within 128 MB. The
certificates and histories of `certificate` are as long as one may be, and one byte longer, and are read within 1 GB.
The table of what was wrong comes first, then a line for each group, and 'N rows, K wrong, at most X KB of heap': the most
bytes of allocations that stood at once in any run.
"""

import os
import resource
import subprocess
import sys
import tempfile

HERE = os.path.dirname(os.path.abspath(__file__))
sys.path[:0] = [os.path.join(HERE, "..", "bench", "gen"), os.path.join(HERE, "..", "bench", "c")]

from building import build_library
from generate import number
from refusal_rows import SYNC, block, header, text_bytes
from refusals import contents

SPACE = 64 << 20
CERTIFICATE = 268_435_456
SECONDS = 20
HEADER = 4_194_304
SIZE = 16_777_216
DATA = 1_048_576
NODES = 1_048_576
BLOB = 16_777_216
TEXT = 1_048_576
FAR = (2**31 - 1, 2**31, 2**32 - 1, 2**32, 2**62, 2**63 - 1)
LEAST = number(-(2**63))
# The tenth byte is too large.
TOO_LONG = b"\xff" * 9 + b"\x02"


def near(limit):
    """Numbers about a limit, and far past it."""
    return (1, 64, 65_535, 65_536, 65_537, limit - 1, limit, limit + 1, *FAR)


def header_rows():
    """Headers that end behind a count, a size or a length, and the texts of their faults."""
    magic = b"Obj\x01"
    for count in near(DATA):
        yield magic + number(count), "C16"
        yield magic + number(-count), "C16"
        for size in (0, 1, HEADER, *FAR):
            yield magic + number(-count) + number(size), "C16"
        at = 4 + len(number(-count))
        yield magic + number(-count) + number(-1), f"C2: B6 at {at}"
    yield magic + LEAST, "C2: B6 at 4"
    yield magic + TOO_LONG, "C2: B2 at 4"
    for front in (number(1), number(1) + text_bytes("a"), number(1) + text_bytes("avro.schema")):
        at = len(magic + front)
        most = HEADER - at - len(number(HEADER))
        for length in (most, most + 1, *near(HEADER)):
            end = at + len(number(length)) + length
            yield magic + front + number(length), "C9" if end > HEADER else "C16"
        yield magic + front + number(-1), f"C2: B6 at {at}"
        yield magic + front + LEAST, f"C2: B6 at {at}"


def block_rows():
    """What stands behind a header and ends behind a block's count or size, and the texts of its faults."""
    for count in near(DATA):
        yield number(count), "C16 block 0"
        yield number(-count), "C6 block 0: negative"
        for size in (0, *near(SIZE)):
            yield number(count) + number(size), "C16 block 0" if count <= DATA and size <= SIZE else "C9 block 0"
        yield number(count) + number(-1), "C6 block 0: negative"
        yield number(count) + TOO_LONG, "C6 block 0: Z3"
    yield LEAST, "C6 block 0: negative"
    yield TOO_LONG, "C6 block 0: Z3"


def lengths(front):
    """Lengths of contents behind some bytes."""
    for length in near(BLOB):
        end = len(front) + len(number(length))
        yield front + number(length), f"C10 block 0 datum 0: B1 at {end}" if length <= BLOB else "C9 block 0 datum 0"
    for negative in (number(-1), LEAST):
        yield front + negative, f"C10 block 0 datum 0: B6 at {len(front)}"


def counts(front, left):
    """Counts of items that take bytes, behind some bytes, where `left` nodes are left."""
    for count in near(left):
        end = len(front) + len(number(count))
        is_over = count > left
        yield front + number(count), "C9 block 0 datum 0" if is_over else f"C10 block 0 datum 0: B1 at {end}"
        end = len(front) + len(number(-count))
        yield front + number(-count), "C9 block 0 datum 0" if is_over else f"C10 block 0 datum 0: B1 at {end}"
        for size in (0, 1, SIZE, *FAR):
            behind = end + len(number(size))
            yield front + number(-count) + number(size), "C9 block 0 datum 0" if is_over else f"C10 block 0 datum 0: B1 at {behind}"
        yield front + number(-count) + number(-1), "C9 block 0 datum 0" if is_over else f"C10 block 0 datum 0: B6 at {end}"
    yield front + LEAST, f"C10 block 0 datum 0: B6 at {len(front)}"


INTS = '{"type":"array","items":"int"}'
DATA_ROWS = {
    '"string"': lambda: lengths(b""),
    '"bytes"': lambda: lengths(b""),
    INTS: lambda: counts(b"", NODES - 1),
    '{"type":"array","items":"string"}': lambda: lengths(number(1)),
    '{"type":"map","values":"int"}': lambda: [*counts(b"", NODES - 1), *lengths(number(1))],
    '{"type":"array","items":%s}' % INTS: lambda: counts(number(1000), NODES - 2),
    '{"type":"record","name":"R","fields":[{"name":"a","type":%s},{"name":"b","type":%s}]}' % (INTS, INTS):
        lambda: counts(bytes.fromhex("040202") + b"\0", NODES - 5),
    '["null","string"]': lambda: [*lengths(number(1)), (number(2**31 - 1), "C10 block 0 datum 0: B5 at 0")],
    '{"type":"enum","name":"E","symbols":["A"]}': lambda: [(number(2**31 - 1), "C10 block 0 datum 0: B5 at 0")],
}
READERS = {'"string"': '"bytes"', '"bytes"': '["null","bytes"]', INTS: '{"type":"array","items":"long"}'}


def fixed(size):
    """A fixed of a size."""
    return '{"type":"fixed","name":"F","size":%d}' % size


def data_rows():
    """Blocks whose data end behind a count or a length: the schema, the data, and the texts of their faults."""
    for schema, bodies in DATA_ROWS.items():
        for body, fault in bodies():
            yield schema, body, fault
    for size in (1, 65_536, DATA - 1, DATA):
        yield fixed(size), b"", "C10 block 0 datum 0: B1 at 0"
    for size in (DATA + 1, 2**24, *FAR, 2**63, 2**64 - 1):
        yield fixed(size), b"", "C4: S12"


class Row:
    """Words, files, the status, what is printed, the file that is made with its bytes, and the address space."""

    def __init__(self, words, files, status, out, err, made=None, space=SPACE):
        self.words, self.files, self.status = words.split(" "), files, status
        self.out, self.err, self.made, self.space = out.encode(), err.encode(), made, space


def container(file, fault, front):
    """Rows of all commands that read a container, of which the front is put before the fault."""
    err = f"avro: f.avro: {fault}\n"
    files = {"f.avro": file}
    for words in ("check f.avro", "show f.avro"):
        yield Row(words, files, 3, "", err)
    yield Row("copy f.avro o.avro", files, 3, "", err, ("o.avro", front))


def with_reader(schema, file, fault, reader):
    """Rows of the commands that take a reader."""
    err = f"avro: f.avro: {fault}\n"
    files = {"f.avro": file, "r.avsc": reader.encode()}
    yield Row("show f.avro --reader r.avsc", files, 3, "", err)
    yield Row("copy f.avro o.avro --reader r.avsc", files, 3, "", err, ("o.avro", header(reader)))


def of_header():
    for file, fault in header_rows():
        yield from container(file, fault, None)


def of_block():
    front = header('"int"')
    for rest, fault in block_rows():
        yield from container(front + rest, fault, front)
    # As many nulls as a block may have, of which no byte comes.
    front = header('"null"')
    yield from container(front + number(DATA) + number(0), "C16 block 0", front)


def of_data():
    for schema, body, fault in data_rows():
        front = header(schema)
        file = front + block(1, body)
        yield from container(file, fault, None if fault.startswith("C4") else front)
        if schema in READERS:
            yield from with_reader(schema, file, fault, READERS[schema])
    front = header('{"type":"array","items":"null"}')
    for count in (1, 65_536, NODES - 1):
        body = number(count)
        err = f"avro: f.avro: C10 block 0 datum 0: B1 at {len(body)}\n"
        yield Row("check f.avro", {"f.avro": front + block(1, body)}, 3, "", err)


def of_encoded():
    """The same data without a container, and data that are longer than one datum may be."""
    for schema, body, fault in data_rows():
        named = f"s.avsc: {fault[4:]}" if fault.startswith("C4") else "d: B9" if fault.startswith("C9") else f"d: {fault.rpartition(': ')[2]}"
        files = {"s.avsc": schema.encode(), "d": body}
        yield Row("read s.avsc d", files, 3, "", f"avro: {named}\n")
        if schema in READERS:
            yield Row("read s.avsc d --reader r.avsc", {**files, "r.avsc": READERS[schema].encode()}, 3, "", f"avro: {named}\n")
    ints, text = {"s.avsc": b'"int"'}, {"s.avsc": b'"bytes"'}
    for length in (SIZE, SIZE + 1, 2**30):
        yield Row("read s.avsc d", {**ints, "d": (b"\x0a", length)}, 0, "bytes 1\ndatum 5\n", "")
        yield Row(f"read s.avsc d --skip {SIZE}", {**ints, "d": (b"", SIZE + length)}, 0, "bytes 1\ndatum 0\n", "", space=2 * SPACE)
    # Of a datum that needs a byte more than it may have none is shown.
    front = number(SIZE - 4)
    yield Row("read s.avsc d", {**text, "d": (front, len(front) + SIZE - 5)}, 3, "", f"avro: d: B1 at {len(front)}\n")
    for longer in (BLOB - 3, BLOB):
        front = number(longer)
        yield Row("read s.avsc d", {**text, "d": (front, len(front) + longer)}, 3, "", "avro: d: B9\n")
        yield Row("read s.avsc d --skip 4", {**text, "d": (b"\0\0\0\0" + front, 4 + len(front) + longer)}, 3, "", "avro: d: B9\n")


def of_schema():
    ints = b'"int"'
    for length in (TEXT - 1, TEXT):
        yield Row("schema s.avsc", {"s.avsc": ints.ljust(length)}, 0, "ok 1\n", "")
        yield Row("judge s.avsc i.avsc", {"s.avsc": ints.ljust(length), "i.avsc": ints}, 0, "yes\n", "")
    file = header('"int"') + block(1, b"\x0a")
    for length in (TEXT + 1, 2**24, 2**30):
        text = ints.ljust(TEXT + 1)
        files = {"s.avsc": (text, length), "i.avsc": ints, "f.avro": file}
        for words in ("schema s.avsc", "judge s.avsc i.avsc", "judge i.avsc s.avsc", "show f.avro --reader s.avsc"):
            yield Row(words, files, 3, "", "avro: s.avsc: S12\n")
        yield Row("copy f.avro o.avro --reader s.avsc", files, 3, "", "avro: s.avsc: S12\n", ("o.avro", None))
    text = header(ints.ljust(TEXT).decode())
    yield Row("check f.avro", {"f.avro": text}, 0, "data 0 blocks 0\n", "")
    yield from container(header(ints.ljust(TEXT + 1).decode()), "C4: S12", None)
    for size in (0, 1, DATA):
        yield Row("schema s.avsc", {"s.avsc": fixed(size).encode()}, 0, "ok 1\n", "")
    for size in (DATA + 1, 2**24, *FAR, 2**63, 2**64 - 1):
        yield Row("schema s.avsc", {"s.avsc": fixed(size).encode()}, 3, "", "avro: s.avsc: S12\n")
    yield Row("schema s.avsc", {"s.avsc": fixed(2**64).encode()}, 3, "", "avro: s.avsc: S11\n")
    yield Row("schema s.avsc", {"s.avsc": fixed(-1).encode()}, 3, "", "avro: s.avsc: S5\n")


def of_certificate():
    """Texts of one number, of as many digits as fit."""
    schemas = {"i.avsc": b'"int"', "l.avsc": b'"long"'}
    forms = {
        "confirm i.avsc l.avsc c.txt": (b"approval 1\ndead ", b"\nend\n"),
        "history i.avsc l.avsc --confirm c.txt": (b"history 1\napproval 1\ndead ", b"\nend\nend\n"),
    }
    for words, (front, back) in forms.items():
        for length, code in ((CERTIFICATE, "G2"), (CERTIFICATE + 1, "G1")):
            digits = b"9" * (length - len(front) - len(back))
            yield Row(words, {**schemas, "c.txt": front + digits + back}, 3, "", f"avro: c.txt: {code}\n", space=1 << 30)


GROUPS = {"header": of_header, "block": of_block, "data": of_data, "encoded": of_encoded, "schema": of_schema, "certificate": of_certificate}


def write_files(row):
    """Writes a row's files; of a pair of bytes and a length, the file has that length and no more room on the disk than the bytes."""
    for file, data in row.files.items():
        data, length = data if isinstance(data, tuple) else (data, len(data))
        with open(file, "wb") as out:
            out.write(data)
            out.truncate(length)


def limit(space):
    """Holds a process to an address space."""
    resource.setrlimit(resource.RLIMIT_AS, (space, space))


def run(row, program, library):
    """What a row answers, and the peak of its heap."""
    write_files(row)
    for file in ("o.avro", "told"):
        if os.path.exists(file):
            os.remove(file)
    environment = {"LD_PRELOAD": library, "REFUSE_TELL": "told"}
    done = subprocess.run([program, *row.words], env=environment, stdin=subprocess.DEVNULL, capture_output=True,
                          preexec_fn=lambda: limit(row.space), timeout=SECONDS)
    told = (contents("told") or b"").decode().split()
    return done, int(told[-1]) if told else 0


def is_right(row, done):
    """Whether a row has its answer."""
    same = (done.returncode, done.stdout, done.stderr) == (row.status, row.out, row.err)
    return same and (row.made is None or contents(row.made[0]) == row.made[1])


def measure(name, program, library):
    """The rows of a group, those that are wrong, and the most heap of any."""
    rows = wrong = most = 0
    for row in GROUPS[name]():
        done, peak = run(row, program, library)
        rows += 1
        most = max(most, peak)
        if not is_right(row, done):
            wrong += 1
            if wrong <= 5:
                start = row.files.get("f.avro", b"")[-24:].hex()
                print(f"{name}: {' '.join(row.words)} of ..{start}: status {done.returncode}, {done.stderr!r}, not {row.err!r}", flush=True)
    print(f"{name}: {rows} rows, {wrong} wrong, at most {most // 1024} KB of heap", flush=True)
    return rows, wrong, most


def main(program, *names):
    program = os.path.abspath(program)
    with tempfile.TemporaryDirectory() as folder:
        library = build_library(folder)
        os.chdir(folder)
        found = [measure(name, program, library) for name in GROUPS if not names or name in names]
    rows, wrong, most = sum(it[0] for it in found), sum(it[1] for it in found), max(it[2] for it in found)
    print(f"{rows} rows, {wrong} wrong, at most {most // 1024} KB of heap")
    return 1 if wrong else 0


if __name__ == "__main__":
    if len(sys.argv) < 2:
        sys.exit(__doc__)
    sys.exit(main(*sys.argv[1:]))

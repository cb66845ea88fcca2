#!/usr/bin/env python3
"""Reads messages of about 100 bytes into a reader's schema by avrojudge_read_texts, in one call and in calls of 10,000, by
Apache Avro C's generic reader and by python3-avro:

    messages.py LIBRARY [COUNT]

LIBRARY is libavrojudge.so; COUNT is 1,000,000 unless given. It prints a table of processor times: the least of five runs of a
program in C, and for Python a run over a tenth of the messages, times ten. The library also makes the text of each datum. It
needs Debian's libavro-dev and python3-avro.
"""

import array
import io
import os
import random
import resource
import subprocess
import sys
import tempfile
import time

HERE = os.path.dirname(os.path.abspath(__file__))
sys.path[:0] = [os.path.join(HERE, "gen"), os.path.join(HERE, "c")]

from building import compile_file
from generate import LETTERS, number

RUNS = 5
FIELDS = '{"name":"id","type":"%s"},{"name":"state","type":{"type":"enum","name":"s","symbols":["OPEN","PAID"]}},'
FIELDS += '{"name":"user","type":"string"},{"name":"lines","type":{"type":"array","items":"int"}}'
RECORD = '{"type":"record","name":"m","fields":[%s]}'
WRITER = RECORD % (FIELDS % "int" + ',{"name":"note","type":["null","string"]}')
READER = RECORD % ('{"name":"note","type":["null","string"]},' + FIELDS % "long")


def text(choose, length):
    return number(length) + "".join(choose.choices(LETTERS, k=length)).encode()


def message(choose):
    """A message of 100 bytes, or a few more or fewer."""
    lines = b"".join(number(choose.randrange(64)) for _ in range(10))
    head = number(choose.randrange(1 << 20)) + number(choose.randrange(2)) + text(choose, 30)
    return head + number(10) + lines + number(0) + number(1) + text(choose, 48)


def seconds(command):
    """The least processor time of some runs."""
    times = []
    for _ in range(RUNS):
        before = resource.getrusage(resource.RUSAGE_CHILDREN)
        subprocess.run(command, check=True, stdout=subprocess.DEVNULL)
        after = resource.getrusage(resource.RUSAGE_CHILDREN)
        times.append(after.ru_utime + after.ru_stime - before.ru_utime - before.ru_stime)
    return min(times)


def seconds_of_python(messages):
    from avro.io import BinaryDecoder, DatumReader
    from avro.schema import parse

    reader = DatumReader(parse(WRITER), parse(READER))
    start = time.process_time()
    for data in messages:
        reader.read(BinaryDecoder(io.BytesIO(data)))
    return time.process_time() - start


def main(library, count=1_000_000):
    choose = random.Random(1)
    messages = [message(choose) for _ in range(count)]
    with tempfile.TemporaryDirectory() as folder:
        os.chdir(folder)
        for name, data in (
            ("writer", WRITER.encode()), ("reader", READER.encode()), ("data", b"".join(messages)),
            ("lengths", array.array("Q", map(len, messages))),
        ):
            with open(name, "wb") as file:
                file.write(data)
        include = os.path.join(HERE, "..", "bindings", "c")
        compile_file("messages.c", "messages", f"-I{include}", library, f"-Wl,-rpath,{os.path.dirname(library)}", "-lavro")
        rows = [(name, seconds(["./messages", word, "writer", "reader", "data", "lengths"])) for name, word in (
            ("`avrojudge_read_texts`, one call", "library"), ("`avrojudge_read_texts`, 10,000 a call", "calls"),
            ("`avro_value_read`", "peer"))]
    rows.append(("python3-avro", 10 * seconds_of_python(messages[: count // 10])))
    print(f"| {count:,} messages, {sum(map(len, messages)):,} bytes | s | of the library's |\n|---|---|---|")
    for name, taken in rows:
        print(f"| {name} | {taken:.2f} | {taken / rows[0][1]:.2f} |")


if __name__ == "__main__":
    main(os.path.abspath(sys.argv[1]), *map(int, sys.argv[2:]))

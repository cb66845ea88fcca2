#!/usr/bin/env python3
"""Writes container files, and measures a program that checks and copies them against C.

    containers.py write narrow|wide|strings FILE [MEGABYTES]
    containers.py measure PROGRAM [FOLDER [KIND..]]
    containers.py instructions PROGRAM [FOLDER [KIND..]]
    containers.py large PROGRAM [FOLDER]

`measure` writes files of 100 MB, runs PROGRAM and `c/copy.c` on them in turn, and prints for each command the least processor
time of five runs, the peak of resident memory, the peak of PROGRAM's heap, and whether the two copies have the same bytes.
`instructions` counts the instructions of one run each for files of 4 MB with valgrind, which other work on the machine does not
change. `large` measures a file of 1 GB of narrow records once, if 12 GB of the disk stay free. The files go to FOLDER, or to a
temporary folder.
"""

import filecmp
import os
import random
import shutil
import subprocess
import sys
import tempfile

HERE = os.path.dirname(os.path.abspath(__file__))
sys.path[:0] = [os.path.join(HERE, "gen"), os.path.join(HERE, "c")]

from building import build_library, build_program
from container_schemas import READERS, WRITERS
from generate import LETTERS, WIDE, number, record

KINDS = ("narrow", "wide", "strings")
BLOCK = 65_536
# How many blocks are made; a file holds them again and again.
BLOCKS = 64
RUNS = 5
# Seconds of a command after which it is run no more.
ENOUGH = 20
MEGABYTES = "100"
FEW_MEGABYTES = "4"
FREE = 12 << 30
GOALS = {"check": 1.2, "copy": 2.0, "copy --reader": 2.5}
SYNC = bytes(range(100, 116))


def text(choose, most):
    """A string of some characters, each eighth one with some that take several bytes."""
    letters = choose.choices(LETTERS, k=choose.randrange(most // 2, most))
    if choose.randrange(8) == 0:
        letters += choose.choices(WIDE, k=2)
    data = "".join(letters).encode()
    return number(len(data)) + data


def array(choose, items):
    """Some items in one block or in several, with the size of each or without."""
    parts = []
    while items:
        count = len(items) if choose.randrange(3) else choose.randrange(1, len(items) + 1)
        data = b"".join(items[:count])
        parts += [number(-count), number(len(data))] if choose.randrange(4) == 0 else [number(count)]
        parts.append(data)
        items = items[count:]
    return b"".join(parts) + number(0)


def long(choose):
    """A long of up to 48 bits on either side of 0."""
    return number(choose.getrandbits(choose.randrange(1, 49)) * choose.choice((1, 1, 1, -1)))


def entries(choose):
    """The entries of a map: keys that differ, with ints."""
    return [number(4) + b"key%d" % k + number(choose.randrange(-500, 500)) for k in range(choose.randrange(4))]


def group(choose):
    """Ten fields: boolean, int, long, string, bytes, fixed, enum, union, array, map."""
    yield bytes([choose.randrange(2)])
    yield number(choose.randrange(-100_000, 100_000))
    yield long(choose)
    yield text(choose, 16)
    data = choose.randbytes(choose.randrange(12))
    yield number(len(data)) + data
    yield choose.randbytes(8)
    yield number(choose.randrange(5))
    yield number(0) if choose.randrange(2) else number(1) + text(choose, 10)
    yield array(choose, [long(choose) for _ in range(choose.randrange(6))])
    yield array(choose, entries(choose))


def wide(choose):
    """A record of 40 fields."""
    return b"".join(part for _ in range(4) for part in group(choose))


DATA = {"narrow": record, "wide": wide, "strings": lambda choose: text(choose, 1_340)}


def block(choose, kind):
    """A block of about 64 KiB, with the marker behind it."""
    data, length, count = [], 0, 0
    while length < BLOCK:
        datum = DATA[kind](choose)
        data.append(datum)
        length += len(datum)
        count += 1
    return number(count) + number(length) + b"".join(data) + SYNC


def header(kind):
    """The header, whose metadata stand in two blocks, the first with its size."""
    schema = WRITERS[kind].encode()
    first = number(11) + b"avro.schema" + number(len(schema)) + schema
    second = number(10) + b"avro.codec" + number(4) + b"null" + number(7) + b"made.by" + number(5) + b"bench"
    return b"Obj\x01" + number(-1) + number(len(first)) + first + number(2) + second + number(0) + SYNC


def write(kind, path, megabytes="100"):
    """Writes a file; the same words write the same bytes."""
    choose = random.Random(1)
    blocks = [block(choose, kind) for _ in range(BLOCKS)]
    left = int(megabytes) * 1_000_000
    with open(path, "wb") as file:
        file.write(header(kind))
        while left > 0:
            for each in blocks:
                if left > 0:
                    file.write(each)
                    left -= len(each)


def build(folder):
    """Builds the programs in C."""
    for name in ("copy", "watch"):
        build_program(name, folder)
    build_library(folder)


def watched(folder, words):
    """A run: seconds of the processor, the peak of resident memory in KB, and what it printed."""
    told, end = os.pipe()
    # The starter tells what the program took on descriptor 3.
    shell = ["sh", "-c", f'exec "$@" 3>&{end}', "sh", os.path.join(folder, "watch"), *words]
    done = subprocess.run(shell, pass_fds=(end,), stdout=subprocess.PIPE, stderr=subprocess.STDOUT)
    os.close(end)
    with os.fdopen(told) as lines:
        user, system, peak, status = lines.read().split()
    if status != "0":
        sys.exit(f"{' '.join(words)}: status {status}: {done.stdout.decode(errors='replace')[:400]}")
    return float(user) + float(system), int(peak), done.stdout.decode().strip()


def heap_of(folder, words):
    """The most bytes of allocations that stood at once in a run, in KB."""
    told = os.path.join(folder, "told")
    environment = {"LD_PRELOAD": os.path.join(folder, "refuse.so"), "REFUSE_TELL": told}
    subprocess.run(words, env=environment, stdout=subprocess.DEVNULL, check=True)
    with open(told, encoding="ascii") as lines:
        return int(lines.read().split()[-1]) // 1024


def instructions_of(words):
    """The instructions of a run."""
    tool = ["valgrind", "--tool=callgrind", "--callgrind-out-file=/dev/null"]
    done = subprocess.run([*tool, *words], stdout=subprocess.DEVNULL, stderr=subprocess.PIPE, check=True, text=True)
    line = next(line for line in done.stderr.splitlines() if "Collected" in line)
    return int(line.split()[-1])


def commands(program, folder, kind, source):
    """What is run: each command by the program and by C, and the files that they write."""
    reader = os.path.join(folder, "reader.avsc")
    with open(reader, "w", encoding="ascii") as out:
        out.write(READERS[kind])
    by_c, made, made_by_c = (os.path.join(folder, name) for name in ("copy", "made.avro", "made_by_c.avro"))
    yield "check", [program, "check", source], [by_c, "check", kind, source], None
    yield "copy", [program, "copy", source, made], [by_c, "copy", kind, source, made_by_c], (made, made_by_c)
    yield ("copy --reader", [program, "copy", source, made, "--reader", reader], [by_c, "copy", kind, source, made_by_c, reader],
           (made, made_by_c))


def compare(folder, ours, by_c, made, runs):
    """The least times of both, in turn, the peaks, and whether the answers and the files are the same."""
    found = [(watched(folder, ours), watched(folder, by_c))]
    while len(found) < runs and sum(pair[0][0] for pair in found) < ENOUGH:
        found.append((watched(folder, ours), watched(folder, by_c)))
    same = all(our[2] == its[2] for our, its in found) and (made is None or filecmp.cmp(*made, shallow=False))
    times = [min(pair[side][0] for pair in found) for side in (0, 1)]
    peaks = [max(pair[side][1] for pair in found) for side in (0, 1)]
    return times, peaks, same, found[0][0][2]


def measure_file(program, folder, kind, megabytes, runs):
    """The rows of one file."""
    source = os.path.join(folder, f"{kind}.avro")
    write(kind, source, megabytes)
    for name, ours, by_c, made in commands(program, folder, kind, source):
        (time, c_time), (peak, c_peak), same, counts = compare(folder, ours, by_c, made, runs)
        heap = heap_of(folder, ours)
        print(f"| {kind} | {name} | {time:.3f} s | {c_time:.3f} s | {time / c_time:.2f} | {GOALS[name]} | {peak} KB, {heap} KB "
              f"| {c_peak} KB | {'same' if same else 'DIFFERENT'} | {counts} |", flush=True)
        for file in made or ():
            os.remove(file)
    os.remove(source)


def print_head():
    print("| File | command | seconds | C | times | goal | peak, heap | C | answers | counts |")
    print("|---|---|---|---|---|---|---|---|---|---|")


def measure(program, folder, *kinds):
    build(folder)
    print_head()
    for kind in kinds or KINDS:
        measure_file(program, folder, kind, MEGABYTES, RUNS)


def instructions(program, folder, *kinds):
    build(folder)
    print("| File | command | instructions | C | times |")
    print("|---|---|---|---|---|")
    for kind in kinds or KINDS:
        source = os.path.join(folder, f"{kind}.avro")
        write(kind, source, FEW_MEGABYTES)
        for name, ours, by_c, made in commands(program, folder, kind, source):
            count, c_count = instructions_of(ours), instructions_of(by_c)
            print(f"| {kind} | {name} | {count / 1e6:.0f} million | {c_count / 1e6:.0f} million | {count / c_count:.2f} |", flush=True)
            # A file that is there would be read, to see whether it is a schema.
            for file in made or ():
                os.remove(file)


def large(program, folder):
    if shutil.disk_usage(folder).free < FREE + (3 << 30):
        sys.exit("the disk has too little room")
    build(folder)
    print_head()
    measure_file(program, folder, "narrow", "1000", 1)


COMMANDS = {"measure": measure, "instructions": instructions, "large": large}


def main(words):
    if len(words) in (3, 4) and words[0] == "write" and words[1] in KINDS:
        write(*words[1:])
    elif len(words) >= 2 and words[0] in COMMANDS:
        does = COMMANDS[words[0]]
        program = os.path.abspath(words[1])
        if len(words) > 2:
            os.makedirs(words[2], exist_ok=True)
            does(program, *words[2:])
        else:
            with tempfile.TemporaryDirectory() as folder:
                does(program, folder)
    else:
        sys.exit(__doc__)


if __name__ == "__main__":
    main(sys.argv[1:])

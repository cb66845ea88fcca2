#!/usr/bin/env python3
"""Measures a program on schemas whose names, or whose pairs of nodes, would all begin their search in one place of a hash table with a
fixed seed, beside as many random ones.

    collisions.py PROGRAM [COUNT]

It prints a table of the processor seconds and the peak of memory in MB of `PROGRAM schema`, `judge` and `explain`. COUNT names (95,000, about as many
as a text of 1 MiB has room for) are the symbols of an enum, or the aliases of a field, in both schemas. The names are found by
`c/colliding.c`, which takes a minute; pairs are those of `hostile_pairs.py`'s kind: records in many namespaces with one simple name.
"""

import heapq
import os
import random
import resource
import string
import subprocess
import sys
import tempfile

from c.building import build_program

COUNT = 95_000
MOST = 1 << 20
NODES = 2048
PAIRS = 36_800
SEED, FACTOR, WORD = 0x243F6A8885A308D3, 0x9E3779B97F4A7C15, (1 << 64) - 1
FIRST = string.ascii_letters
LETTERS = FIRST + string.digits + "_"


def hash_of_number(number):
    """The hash of a 64-bit number by the fixed seed."""
    product = (SEED ^ number) * (FACTOR ^ 16)
    folded = (product & WORD) ^ (product >> 64)
    return (folded ^ folded >> 32) & 0xFFFFFFFF


def spelled(number):
    """A short name for a number."""
    name, number = FIRST[number % 52], number // 52
    while number:
        name, number = name + LETTERS[number % 63], number // 63
    return name


def random_names(count):
    choice = random.Random(1)
    return ["N" + "".join(choice.choices(LETTERS, k=7)) for _ in range(count)]


def colliding_names(count, folder):
    program = build_program("colliding", folder)
    return subprocess.run([program, str(count), "14"], check=True, capture_output=True, text=True).stdout.split()


def enum_text(names):
    return '{"type":"enum","name":"E","symbols":["%s"]}' % '","'.join(names)


def record_text(names):
    """A record of a field with these aliases."""
    field = '{"name":"f","type":"int","aliases":["%s"]}' % '","'.join(names)
    return '{"type":"record","name":"R","fields":[%s]}' % field


def pair_texts(pairs):
    """Two schemas, each with a fixed in each namespace, and fields that lead to these pairs of them."""
    def text(side, count):
        fields = ['{"name":"_%s","type":{"type":"fixed","name":"%s.X","size":1}}' % (spelled(n), spelled(n)) for n in range(1, NODES)]
        fields += ['{"name":"%s","type":"%s.X"}' % (spelled(k), spelled(pair[side])) for k, pair in enumerate(pairs[:count])]
        return '{"type":"record","name":"R","fields":[%s]}' % ",".join(fields)
    count = len(pairs)
    while max(len(text(0, count)), len(text(1, count))) > MOST:
        count -= 200
    return text(0, count), text(1, count)


def pairs_of(keys):
    return [divmod(key, NODES) for key in keys if key // NODES and key % NODES and key // NODES != key % NODES]


def random_pairs():
    return pairs_of(random.Random(1).sample(range(NODES * NODES), PAIRS))


def colliding_pairs():
    """The pairs whose hashes begin in the fewest of 4,096 groups."""
    keys = heapq.nsmallest(PAIRS, range(NODES * NODES), key=lambda key: hash_of_number(key) & 4095)
    random.Random(2).shuffle(keys)
    return pairs_of(keys)


def run(*words):
    """The seconds, megabytes and status of a run."""
    process = subprocess.Popen(words, stdout=subprocess.DEVNULL, stderr=subprocess.DEVNULL)
    _, status, usage = os.wait4(process.pid, 0)
    return usage.ru_utime + usage.ru_stime, usage.ru_maxrss >> 10, os.waitstatus_to_exitcode(status)


def tell(name, *words):
    seconds, megabytes, status = run(*words)
    print(f"| {name} | {seconds:.2f} | {megabytes} | {status} |", flush=True)


def measure(program, kind, folder, names, pairs):
    """Measures the texts of one kind of names and pairs."""
    def written(name, text):
        path = os.path.join(folder, name)
        with open(path, "w") as file:
            file.write(text)
        return path
    enum, record = written("enum", enum_text(names)), written("record", record_text(names))
    writer, reader = (written(name, text) for name, text in zip(("writer", "reader"), pair_texts(pairs)))
    tell(f"schema, symbols, {kind}", program, "schema", enum)
    tell(f"schema, aliases, {kind}", program, "schema", record)
    for verb in ("judge", "explain"):
        tell(f"{verb}, symbols, {kind}", program, verb, enum, enum)
        tell(f"{verb}, aliases, {kind}", program, verb, record, record)
        tell(f"{verb}, pairs, {kind}", program, verb, writer, reader)


def main():
    program = os.path.abspath(sys.argv[1])
    count = int(sys.argv[2]) if len(sys.argv) > 2 else COUNT
    resource.setrlimit(resource.RLIMIT_CORE, (0, 0))
    print("| Call and names | Seconds | MB | Status |\n|---|---|---|---|")
    with tempfile.TemporaryDirectory() as folder:
        measure(program, "random", folder, random_names(count), random_pairs())
        measure(program, "colliding", folder, colliding_names(count, folder), colliding_pairs())


if __name__ == "__main__":
    main()

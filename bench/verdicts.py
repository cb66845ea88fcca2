#!/usr/bin/env python3
"""Writes pairs of schemas, and measures a program that judges them.

    verdicts.py write FOLDER
    verdicts.py measure PROGRAM [FOLDER]

`measure` runs `PROGRAM judge WRITER READER` on each pair, again with `--certificate`, after a yes `PROGRAM confirm` with that
certificate, and `PROGRAM explain`. It prints the least processor time of five runs each in milliseconds, the peak of memory in
MB, and the answers. A run ends after 60 seconds of processor time.
"""

import json
import os
import resource
import subprocess
import sys
import tempfile

SECONDS = 60
RUNS = 5


def record(name, fields):
    """A record of named fields."""
    return {"type": "record", "name": name, "fields": [{"name": f, "type": t} for f, t in fields]}


def union(count):
    """A union of records of one int field."""
    return [record(f"R{i}", [("f", "int")]) for i in range(count)]


def wide(count, last="int"):
    """A record of int fields, but for the type of the last one."""
    return record("W", [(f"field_{i}", "int") for i in range(count - 1)] + [(f"field_{count - 1}", last)])


def renamed(count):
    """A record whose fields have none of the names of `wide`."""
    return record("W", [(f"other_{i}", "int") for i in range(count)])


def nested(count):
    """A union of records, each but the first with a map whose values are null or the one before."""
    maps = [("m", {"type": "map", "values": ["null", f"N{i}"]}) for i in range(count - 1)]
    return [record("N0", [("f", "int")])] + [record(f"N{i + 1}", [m]) for i, m in enumerate(maps)]


def chain(count):
    """A union of records: the first without a field, each later one of the one before."""
    return [record("A0", [])] + [record(f"A{i}", [("f", f"A{i - 1}")]) for i in range(1, count)]


def symbols(order):
    """An enum."""
    return {"type": "enum", "name": "E", "symbols": [f"SYMBOL_{i}" for i in order]}


def pairs():
    """Each pair by its name: the writer's schema and the reader's."""
    for count in (250, 500, 1_000):
        yield f"union {count}", union(count), union(count)
        yield f"union {count} reversed", union(count), union(count)[::-1]
        yield f"union {count} less one", union(count), union(count)[:-1]
    for count in (500, 1_000, 2_047):
        yield f"fields {count}", wide(count), wide(count)
        yield f"fields {count} one unread", wide(count), wide(count, "string")
        yield f"fields {count} none known", wide(count), renamed(count)
    for count in (10, 20, 30):
        yield f"nested {count}", nested(count), nested(count)
    for count in (100, 200, 500, 1_000):
        yield f"chain {count}", chain(count), chain(count - 1)
    for count in (5_000, 10_000, 20_000):
        yield f"symbols {count} reversed", symbols(range(count)), symbols(reversed(range(count)))
    for count in (1_000, 2_000, 4_000):
        yield f"symbols {count} none known", symbols(range(count)), symbols(range(count, 2 * count))


def write(folder):
    """Writes the files of each pair, and answers their names."""
    names = []
    for name, writer, reader in pairs():
        files = [os.path.join(folder, f"{name.replace(' ', '_')}_{side}.avsc") for side in ("writer", "reader")]
        for file, schema in zip(files, (writer, reader)):
            with open(file, "w", encoding="ascii") as out:
                json.dump(schema, out, separators=(",", ":"))
        names.append((name, *files))
    return names


def limit():
    resource.setrlimit(resource.RLIMIT_CPU, (SECONDS, SECONDS))


def once(words):
    """A run: milliseconds of the processor, the peak in MB, and the first line of the answer."""
    child = subprocess.Popen(words, stdout=subprocess.PIPE, stderr=subprocess.STDOUT, preexec_fn=limit)
    text = child.stdout.read().decode(errors="replace")
    _, status, used = os.wait4(child.pid, 0)
    child.returncode = status
    first = text.split("\n", 2)[:2]
    answer = " ".join(first).strip()[:40] if os.WIFEXITED(status) else "ended"
    return 1000 * (used.ru_utime + used.ru_stime), used.ru_maxrss / 1024, answer


def least(words):
    runs = [once(words)]
    while len(runs) < RUNS and runs[0][0] < 2_000:
        runs.append(once(words))
    return min(runs)


def measure(program, folder):
    """Prints a row for each pair."""
    certificate = os.path.join(folder, "out.cert")
    print("| Pair | milliseconds | MB | answer | with a certificate | `confirm` | `explain` | MB | answer |")
    print("|---|---|---|---|---|---|---|---|---|")
    for name, writer, reader in write(folder):
        time, memory, answer = least([program, "judge", writer, reader])
        certified, _, _ = least([program, "judge", writer, reader, "--certificate", certificate])
        checked = confirmed(program, writer, reader, certificate) if answer == "yes" else "-"
        told, room, found = least([program, "explain", writer, reader])
        row = [f"{time:.1f}", f"{memory:.1f}", answer, f"{certified:.1f}", checked, f"{told:.1f}", f"{room:.1f}", found.split(" $")[0]]
        print("|", name, "|", " | ".join(row), "|", flush=True)


def confirmed(program, writer, reader, certificate):
    """The milliseconds of confirming a certificate, or what was answered in place of a yes."""
    time, _, answer = least([program, "confirm", writer, reader, certificate])
    return f"{time:.1f}" if answer == "confirmed" else answer


def main(words):
    if len(words) == 2 and words[0] == "write":
        os.makedirs(words[1], exist_ok=True)
        write(words[1])
    elif len(words) == 3 and words[0] == "measure":
        os.makedirs(words[2], exist_ok=True)
        measure(words[1], words[2])
    elif len(words) == 2 and words[0] == "measure":
        with tempfile.TemporaryDirectory() as folder:
            measure(words[1], folder)
    else:
        sys.exit(__doc__)


if __name__ == "__main__":
    main(sys.argv[1:])

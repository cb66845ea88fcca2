#!/usr/bin/env python3
"""Refuses a program memory and lets its devices fail, at each place in turn.

    refusals.py PROGRAM [WORD..]     all rows, or those whose names begin with one of the words

Each row is a command with its files, what it prints, its status, and what it writes into files. It is run as it is, with reads
and writes of one byte, and then with the first, the second and so on allocation, open, read or write refused, until a run meets
no refusal; reads and writes fail both at their usual lengths and at one byte. After a refused allocation the answer is the row's
own or status 5; after a failing device it is status 4, and names the file. What was printed and written until then is
a beginning of the row's. The table of what was wrong comes first, and then 'N rows, M runs, K wrong'.
"""

import os
import subprocess
import sys
import tempfile

sys.path.insert(0, os.path.join(os.path.dirname(os.path.abspath(__file__)), "..", "bench", "c"))

from building import build_library
from refusal_rows import rows

SECONDS = 20
# What the program opens for standard streams that are closed; these are open.
HELD = "/"


class Run:
    """What a run answered, and what it was refused."""

    def __init__(self, row, program, library, refusal, short):
        environment = {"LD_PRELOAD": library, "REFUSE_TELL": "told", "REFUSE": refusal}
        if short:
            environment["REFUSE_SHORT"] = "1"
        for file in [*row.written, "told"]:
            if os.path.exists(file):
                os.remove(file)
        row.write_files(row.written)
        given = {"stdin": subprocess.DEVNULL} if row.given is None else {"input": row.given}
        done = subprocess.run([program, *row.words], env=environment, capture_output=True, timeout=SECONDS, **given)
        self.status, self.out, self.err = done.returncode, done.stdout, done.stderr
        self.written = {file: contents(file) for file in row.written}
        told = contents("told") or b""
        lines = told.decode().splitlines()
        self.ended = bool(lines) and lines[-1].startswith("end ")
        self.refused = [line.split() for line in lines if not line.startswith("end ")]

    def text(self):
        """The answer in one line."""
        return f"status {self.status}, {self.out[:60]!r}, {self.err[:80]!r}, refused {self.refused}"


def contents(file):
    """The bytes of a file, or None where there is none."""
    if not os.path.exists(file):
        return None
    with open(file, "rb") as there:
        return there.read()


def is_own(row, run):
    """Whether the answer is the row's own."""
    same = (run.status, run.out, run.err) == (row.status, row.out, row.err)
    return same and all(run.written[file] == row.written[file] for file in row.written)


def is_beginning(row, run):
    """Whether what was printed and written is a beginning of the row's; a file that was there may be as it was."""
    files = all(
        bytes_ is None or bytes_ == row.files.get(file) or (row.written[file] or b"").startswith(bytes_) for file, bytes_ in run.written.items()
    )
    return files and row.out.startswith(run.out)


def device_texts(row, kind, path):
    """The statuses and texts that fit a failure at a path."""
    if path == "-2":
        return [(row.status, row.err[:count]) for count in range(len(row.err) + 1)]
    if path == "-1":
        return [(4, b"avro: output: cannot write\n")]
    if path == "-0":
        return [(4, b"avro: -: cannot read\n")]
    return [(4, f"avro: {path}: cannot {verb}\n".encode()) for verb in verbs(row, kind, path)]


def verbs(row, kind, path):
    """What a failure at a path can keep the program from: a file that is written is read before where it is there."""
    if path not in row.written:
        return ["read"]
    if path not in row.files:
        return ["write"]
    return {"open": ["read", "write"], "read": ["read"]}.get(kind, ["write"])


def is_untouched(row, run, kind, path, moved):
    """Whether a file that is made behind a part of another is not there where that part was not read."""
    if row.behind is None or kind == "write":
        return True
    made, source, length = row.behind
    return path == made or (path == source and int(moved) >= length) or run.written[made] is None


def fits(row, run):
    """Whether a run answers what it may."""
    if not run.ended:
        return False
    if not run.refused:
        return is_own(row, run)
    if len(run.refused) > 1:
        return False
    if run.refused[0][0] == "memory":
        ran_out = (run.status, run.err) == (5, b"avro: out of memory\n")
        return is_own(row, run) or (ran_out and is_beginning(row, run))
    kind, path, moved = run.refused[0]
    if path == HELD:
        return is_own(row, run)
    answers = (run.status, run.err) in device_texts(row, kind, path)
    return answers and is_beginning(row, run) and is_untouched(row, run, kind, path, moved)


def sweep(row, program, library, kind, short):
    """Refuses one thing after another until a run meets no refusal, and answers each run."""
    number = 1
    while True:
        run = Run(row, program, library, f"{kind} {number}", short)
        yield f"{kind} {number}{' short' if short else ''}", run
        if not run.refused:
            return
        number += 1


def runs_of(row, program, library):
    """All runs of a row."""
    shorts = (False,) if row.is_long else (False, True)
    for short in shorts:
        yield "whole" if not short else "short", Run(row, program, library, "", short)
    for kind in ("memory", "open"):
        yield from sweep(row, program, library, kind, False)
    for kind in ("read", "write", "nothing"):
        for short in shorts:
            yield from sweep(row, program, library, kind, short)


def main(program, *names):
    program = os.path.abspath(program)
    chosen = [row for row in rows() if not names or row.name.startswith(tuple(names))]
    count = wrong = 0
    with tempfile.TemporaryDirectory() as folder:
        library = build_library(folder)
        os.chdir(folder)
        for row in chosen:
            row.write_files(row.files)
            before, failed = count, 0
            for what, run in runs_of(row, program, library):
                count += 1
                if not fits(row, run):
                    failed += 1
                    if failed <= 3:
                        print(f"{row.name}, {what}: {run.text()}", flush=True)
            wrong += failed
            print(f"{row.name}: {count - before} runs, {failed} wrong", flush=True)
    print(f"{len(chosen)} rows, {count} runs, {wrong} wrong")
    return 1 if wrong else 0


if __name__ == "__main__":
    if len(sys.argv) < 2:
        sys.exit(__doc__)
    sys.exit(main(*sys.argv[1:]))

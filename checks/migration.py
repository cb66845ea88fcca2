#!/usr/bin/env python3
"""Copies files for readers' schemas to which `avro judge` says yes, and looks at what comes of it.

    migration.py PROGRAM [COUNT]

COUNT random pairs of a container file and a reader's schema, 2,000 unless said, each of which is judged as a migration does it:
`judge` is given the schema that `header` prints of the file. After a yes:

- no run of `copy --reader` or `show --reader` says that a datum does not resolve (C11), also where the file was damaged behind
  its schema;
- a file without damage is copied, unless it passes a limit (C9);
- the copy has as many data and blocks as the file, and the reader's schema;
- the copy of the copy is the copy, byte for byte;
- `show` of the copy prints what `show --reader` prints of the file.

The last line is 'N pairs: C copied, L over a limit, D damaged and refused, K wrong'. Half at least must be copied, and a
twentieth damaged and refused.
"""

from __future__ import annotations

import collections
import multiprocessing
import os
import random
import subprocess
import sys
import tempfile
from pathlib import Path
from typing import Iterator, TypeAlias

ROOT = Path(__file__).resolve().parent.parent
sys.path.insert(0, str(ROOT / "bench" / "gen"))

import random_files
from random_schemas import evolved, schema

COUNT = 2_000
BATCH = 20
SHOWN = 10
SECONDS = 60
# How much a reader's schema differs from the writer's.
CHANGES = (0, 0.01, 0.02, 0.05, 0.1)
READER = ["--reader", "new.avsc"]
UNRESOLVED = b": C11 "

Answer: TypeAlias = tuple[int, bytes, bytes]


def run(program: str, words: list[str]) -> Answer:
    done = subprocess.run([program, *words], stdin=subprocess.DEVNULL, capture_output=True, timeout=SECONDS)
    return done.returncode, done.stdout, done.stderr


def random_file(choose: random.Random) -> tuple[bytes, bytes]:
    """A file without a fault, and the text of a schema that a reader may have."""
    if choose.randrange(4) == 0:
        file, reader = random_files.KINDS[choose.choice(("leaves", "without bytes"))][0](choose)
    else:
        root = schema(choose, most=choose.choice((5, 20, 40)))
        file, reader = random_files.file_of(choose, root), evolved(choose, root, choose.choice(CHANGES))
    return file, random_files.text_of(choose, reader)


def damaged(choose: random.Random, file: bytes) -> bytes:
    """The file with some bytes changed behind its header."""
    start = file.find(random_files.SYNC) + len(random_files.SYNC)
    return file[:start] + random_files.changed(choose, file[start:])


def is_approved(program: str) -> bool:
    """Whether the file's own schema is judged yes for the reader's."""
    status, text, _ = run(program, ["header", "old.avro"])
    Path("old.avsc").write_bytes(text)
    return status == 0 and run(program, ["judge", "old.avsc", "new.avsc"])[0] == 0


def choose_pair(program: str, choose: random.Random) -> None:
    """Writes a file and a reader's schema that takes each datum of the file's."""
    while True:
        file, reader = random_file(choose)
        Path("new.avsc").write_bytes(reader)
        Path("old.avro").write_bytes(file)
        if run(program, ["check", "old.avro"])[0] == 0 and is_approved(program):
            return


def faults_of_copy(program: str, counts: bytes) -> Iterator[str]:
    """What is wrong with the copy of a file, of which `check` printed these counts."""
    if run(program, ["check", "new.avro"])[1] != counts:
        yield "the copy has other counts"
    wanted = run(program, ["schema", "new.avsc"])[1:]
    _, text, _ = run(program, ["header", "new.avro"])
    Path("put.avsc").write_bytes(text)
    if run(program, ["schema", "put.avsc"])[1:] != wanted:
        yield "the copy has another schema"
    if run(program, ["copy", "new.avro", "again.avro"])[0] != 0:
        yield "the copy is not copied"
    elif Path("again.avro").read_bytes() != Path("new.avro").read_bytes():
        yield "the copy of the copy is another"
    if run(program, ["show", "new.avro"]) != run(program, ["show", "old.avro", *READER]):
        yield "the copy is shown as something else"


def try_damaged(program: str, choose: random.Random) -> tuple[bool, list[str]]:
    """Damages the file behind its header: whether a copy is refused then, and what is wrong."""
    Path("old.avro").write_bytes(damaged(choose, Path("old.avro").read_bytes()))
    answers = {word: run(program, words) for word, words in
               {"copy": ["copy", "old.avro", "out.avro", *READER], "show": ["show", "old.avro", *READER]}.items()}
    wrong = [f"{word} of the damaged file: C11" for word, answer in answers.items() if UNRESOLVED in answer[2]]
    return answers["copy"][0] != 0, wrong


def try_pair(program: str, number: int) -> tuple[list[str], list[str]]:
    """What came of a pair, and what is wrong."""
    choose = random.Random(f"migration {number}")
    choose_pair(program, choose)
    counts = run(program, ["check", "old.avro"])[1]
    status, _, errors = run(program, ["copy", "old.avro", "new.avro", *READER])
    if status == 0:
        kind, wrong = "copied", list(faults_of_copy(program, counts))
    else:
        kind, wrong = "over a limit", [] if b": C9 " in errors else [errors.decode(errors="replace").strip()]
    is_refused, more = try_damaged(program, choose)
    return [kind, *["damaged and refused"][:is_refused]], wrong + more


def try_batch(job: tuple[str, range]) -> tuple[collections.Counter[str], list[str]]:
    """How often each thing came of some pairs, and what is wrong."""
    program, numbers = job
    seen: collections.Counter[str] = collections.Counter()
    lines = []
    with tempfile.TemporaryDirectory() as folder:
        os.chdir(folder)
        for number in numbers:
            kinds, wrong = try_pair(program, number)
            seen.update([*kinds, *["wrong"][: len(wrong)]])
            lines += [f"pair {number}: {line}" for line in wrong]
        os.chdir("/")
    return seen, lines


def main(words: list[str]) -> int:
    if len(words) not in (1, 2):
        print(__doc__, end="", file=sys.stderr)
        return 64
    program, count = os.path.abspath(words[0]), int(words[1]) if len(words) == 2 else COUNT
    seen: collections.Counter[str] = collections.Counter()
    shown = 0
    jobs = [(program, range(first, min(first + BATCH, count))) for first in range(0, count, BATCH)]
    with multiprocessing.Pool() as pool:
        for found, lines in pool.imap_unordered(try_batch, jobs):
            seen.update(found)
            for line in lines[: max(0, SHOWN - shown)]:
                print(line, flush=True)
                shown += 1
    told = [f"{seen[kind]} {kind}" for kind in ("copied", "over a limit", "damaged and refused", "wrong")]
    print(f"{count} pairs: {', '.join(told)}")
    is_few = seen["copied"] < count // 2 or seen["damaged and refused"] < count // 20
    return 1 if seen["wrong"] or is_few else 0


if __name__ == "__main__":
    sys.exit(main(sys.argv[1:]))

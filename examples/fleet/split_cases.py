#!/usr/bin/env python3
"""Compares split.py with `avro copy` on random container files, cut about every few bytes:

    split_cases.py [COUNT]

Their data hold the marker, whole containers and parts of one; some have a fault in a block, or end early. Each is copied with and without a
reader's schema, as one command and by its parts, some of which run twice. AVRO names the program. The last line says how much was tried; the
status is 0 where all went as it must.
"""

from __future__ import annotations

import os
import random
import shutil
import subprocess
import sys
import tempfile
from concurrent.futures import ThreadPoolExecutor
from pathlib import Path
from typing import NamedTuple

HERE = Path(__file__).resolve().parent
sys.path.insert(0, str(HERE.parent / "adapt"))
from filters import put_bytes, put_header, put_long

OLD = b'{"type":"record","name":"R","fields":[{"name":"a","type":"int"},{"name":"b","type":"bytes"}]}'
READERS = {
    "wide.avsc": b'{"type":"record","name":"R","fields":[{"name":"b","type":"bytes"},{"name":"a","type":"long"},{"name":"c","type":"int","default":7}]}',
    "less.avsc": b'{"type":"record","name":"R","fields":[{"name":"a","type":"int"}]}',
    "other.avsc": b'{"type":"record","name":"R","fields":[{"name":"d","type":"int"}]}',
}
# Edits of split.py that must be found.
PLANTED = [
    ("copied.is_cut() and last < plan.parts", "False"),
    ("copied = again(first, last)", "break"),
    ("first = last", "first += 1"),
    ("self.blocks + int(block)", "int(block)"),
    ("self.data += copied.data", "self.data = copied.data"),
    ("send(source, sink, self.prefix,", "send(source, sink, 0,"),
    ("sink.seek(self.length)", "sink.seek(self.prefix)"),
    ("plan.cuts[first], plan.cuts[last])", "plan.cuts[first], plan.bytes)"),
    ("found[1] == \"C16\"", "found[1] == \"C8\""),
    ("if copied.status != 0:", "if False:"),
    ("raise joined.fault(copied)", "return"),
]


class Case(NamedTuple):
    """A file, and how it is copied."""

    name: str
    options: list[str]
    step: int


class Ended(NamedTuple):
    """How a copy ended."""

    status: int
    printed: bytes
    said: bytes
    out: bytes | None


def datum(choose: random.Random, marker: bytes, file: bytes) -> bytes:
    """A record, whose bytes may hold the marker, a container or a piece of one."""
    held = choose.choice([b"", choose.randbytes(choose.randrange(40)), marker, marker * 2, file, file[: choose.randrange(len(file) + 1)]])
    return put_long(choose.randrange(-99, 99)) + put_bytes(held)


def block(choose: random.Random, marker: bytes, file: bytes) -> bytes:
    data = [datum(choose, marker, file) for _ in range(choose.randrange(5))]
    return put_long(len(data)) + put_bytes(b"".join(data)) + marker


def container(choose: random.Random) -> bytes:
    marker = bytes(choose.choice(b"\x00\x02") for _ in range(16)) if choose.random() < 0.5 else choose.randbytes(16)
    file = put_header({b"avro.schema": OLD, b"k": marker}, marker)
    header = len(file)
    for _ in range(choose.randrange(12)):
        file += block(choose, marker, file[-300:])
    return spoiled(choose, file, header)


def spoiled(choose: random.Random, file: bytes, header: int) -> bytes:
    """The file itself, cut, with a byte changed, or with bytes behind it."""
    at = choose.randrange(header, len(file) + 1)
    kind = choose.randrange(5)
    if kind == 1:
        return file[:at]
    if kind == 2 and at < len(file):
        return file[:at] + bytes([file[at] ^ 1 << choose.randrange(8)]) + file[at + 1 :]
    if kind == 3:
        return file + choose.randbytes(choose.randrange(1, 20))
    return file


def run(words: list[str], folder: Path, out: str) -> Ended:
    done = subprocess.run(words, cwd=folder, capture_output=True)
    path = folder / out
    made = path.read_bytes() if path.exists() else None
    path.unlink(missing_ok=True)
    return Ended(done.returncode, done.stdout, done.stderr, made)


def copied(case: Case, folder: Path) -> Ended:
    out = f"{case.name}.one"
    return run([os.environ["AVRO"], "copy", case.name, out, *case.options], folder, out)


def split(script: Path, case: Case, folder: Path) -> Ended:
    out = f"{case.name}.split"
    words = [sys.executable, str(script), "copy", case.name, out, "-j", "2", "--bytes", str(case.step), *case.options]
    return run(words, folder, out)


def split_by_parts(script: Path, case: Case, folder: Path) -> Ended:
    """By a plan, its parts from the last to the first, of which one runs twice, and what joins them."""
    plan, parts, out = f"{case.name}.plan", f"{case.name}.parts", f"{case.name}.joined"
    words = [sys.executable, str(script)]
    count = int(subprocess.run([*words, "plan", case.name, plan, "--bytes", str(case.step), *case.options], cwd=folder, capture_output=True).stdout or 0)
    (folder / parts).mkdir()
    for at in [*reversed(range(count)), *range(min(count, 1))]:
        subprocess.run([*words, "part", plan, str(at), parts], cwd=folder, capture_output=True)
    ended = run([*words, "join", plan, parts, out], folder, out)
    shutil.rmtree(folder / parts)
    return ended


def cases(count: int, folder: Path) -> list[Case]:
    """Writes the files, and answers how each is copied."""
    made = []
    for name, text in READERS.items():
        (folder / name).write_bytes(text)
    for at in range(count):
        choose = random.Random(at)
        (folder / str(at)).write_bytes(container(choose))
        reader = choose.choice([None, None, *READERS])
        options = (["--reader", reader] if reader else []) + (["--sync", "00" * 16] if choose.random() < 0.3 else [])
        made.append(Case(str(at), options, choose.choice([1, 20, 60, 150, 400])))
    return made


def wrong(script: Path, case: Case, folder: Path, is_whole: bool) -> list[str]:
    """What differs."""
    wanted, found = copied(case, folder), [("copy", split(script, case, folder))]
    if is_whole and int(case.name) % 4 == 0:
        found.append(("join", split_by_parts(script, case, folder)))
    return [f"{case}: {way}: {ended}, wanted {wanted}" for way, ended in found if ended != wanted]


def all_wrong(script: Path, made: list[Case], folder: Path, is_whole: bool = True) -> list[str]:
    with ThreadPoolExecutor(len(os.sched_getaffinity(0))) as pool:
        return [line for lines in pool.map(lambda case: wrong(script, case, folder, is_whole), made) for line in lines]


def main(count: int) -> int:
    script = HERE / "split.py"
    with tempfile.TemporaryDirectory() as name:
        folder = Path(name)
        made = cases(count, folder)
        faults = all_wrong(script, made, folder)
        text = script.read_text(encoding="utf-8")
        for old, new in PLANTED:
            bad = folder / "examples" / "fleet" / "split.py"
            bad.parent.mkdir(parents=True, exist_ok=True)
            shutil.copytree(HERE.parent / "adapt", folder / "examples" / "adapt", dirs_exist_ok=True)
            bad.write_text(text.replace(old, new), encoding="utf-8")
            if text.count(old) == 0 or not all_wrong(bad, made[:40], folder, is_whole=False):
                faults.append(f"not found: {old} -> {new}")
    print("".join(f"WRONG, {line}\n" for line in faults), end="")
    print(f"{count + count // 4} copies and {len(PLANTED)} planted mistakes, {len(faults)} wrong")
    return 1 if faults else 0


if __name__ == "__main__":
    sys.exit(main(int(sys.argv[1]) if len(sys.argv) > 1 else 240))

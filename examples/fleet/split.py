#!/usr/bin/env python3
"""Copies one long container file by several runs of `avro pipe`, at once or as tasks of a scheduler:

    split.py copy IN OUT [-j N] [--bytes B] [--reader SCHEMA] [--sync HEX32]

    split.py plan IN PLAN [--bytes B] [--reader SCHEMA] [--sync HEX32]
    split.py part PLAN K FOLDER
    split.py join PLAN FOLDER OUT

What stands in OUT, what is printed and the exit status are those of `avro copy IN OUT`, after a fault too. IN is cut
behind markers, about every B bytes (64 MiB unless it is given). A cut is a guess, since the bytes of a marker may stand in
the data, and none is trusted: the copy of the header and a part is taken only behind parts that were whole, and a part that
ends within a block is copied again up to a later cut.

`plan` prints how many parts there are, K is 0 to one less, and PLAN is JSON. `part` leaves its copy and what came of it in
FOLDER, where each try has a name of its own until it is done: so a part that is killed, or runs twice, loses nothing.
`join` names the parts that are missing; when it ends with 0 or 3, FOLDER is no longer needed. AVRO names the program, else
avro.

Exit status: that of `avro copy`; 4 also where parts are missing, or IN or the schema is another than at the plan; 64 usage.
"""

from __future__ import annotations

import argparse
import hashlib
import json
import mmap
import os
import re
import shutil
import subprocess
import sys
import tempfile
from concurrent.futures import Future, ThreadPoolExecutor
from dataclasses import asdict, dataclass, field
from pathlib import Path
from typing import BinaryIO, Callable

sys.path.insert(0, str(Path(__file__).resolve().parent.parent / "adapt"))
from filters import Failed, Refused, read_header

PART_BYTES = 1 << 26
MOST_BLOCKS = 1 << 32
COUNTS = re.compile(r"data (\d+) blocks (\d+)\n")
FAULT = re.compile(r"avro: -: (C\d+) block (\d+)(.*)\n", re.DOTALL)


class Trouble(Exception):
    """The line of a failure, and the exit status."""

    def __init__(self, line: str, status: int = 4) -> None:
        super().__init__(line)
        self.status = status


@dataclass
class Plan:
    """Where a file is cut: part K lies between cuts K and K + 1."""

    file: str
    bytes: int
    header: int
    cuts: list[int]
    options: list[str] = field(default_factory=list)
    schema: str | None = None

    @property
    def parts(self) -> int:
        return len(self.cuts) - 1


@dataclass
class Copied:
    """What came of the copy of the header and some parts, which stands in a file."""

    file: str
    status: int
    said: str
    data: int = 0
    blocks: int = 0

    def is_cut(self) -> bool:
        """Whether the bytes ended within a block."""
        found = FAULT.fullmatch(self.said)
        return self.status == 3 and found is not None and found[1] == "C16"


def program() -> str:
    name = os.environ.get("AVRO", "avro")
    found = shutil.which(name)
    if found is None:
        raise Trouble(f"split: {name}: no such program")
    return found


def digest(path: str) -> str:
    try:
        return hashlib.sha256(Path(path).read_bytes()).hexdigest()
    except OSError:
        raise Trouble(f"avro: {path}: cannot read") from None


def opened(path: str, mode: str) -> BinaryIO:
    try:
        return open(path, mode)
    except OSError:
        raise Trouble(f"avro: {path}: cannot {'read' if mode == 'rb' else 'write'}") from None


def is_divisible(path: str) -> bool:
    """Whether a file can be cut: it is a regular file, and begins with a header."""
    try:
        with open(path, "rb") as file:
            return os.path.isfile(path) and bool(read_header(file))
    except (OSError, Refused, Failed):
        return False


def find_cuts(path: str, step: int) -> tuple[int, int, list[int]]:
    """The length of a file and that of its header, and cuts behind markers, each at least a step behind the one before."""
    with opened(path, "rb") as file:
        header = read_header(file)
        start = len(header.raw)
        length = os.fstat(file.fileno()).st_size
        cuts = [start]
        with mmap.mmap(file.fileno(), 0, access=mmap.ACCESS_READ) as held:
            while cuts[-1] < length:
                at = held.find(header.marker, cuts[-1] + step)
                cuts.append(length if at < 0 else at + len(header.marker))
    return length, start, cuts


def plan_of(words: argparse.Namespace) -> Plan:
    length, header, cuts = find_cuts(words.IN, words.bytes)
    return Plan(words.IN, length, header, cuts, options_of(words), digest(words.reader) if words.reader else None)


def send(source: BinaryIO, sink: BinaryIO, start: int, end: int) -> None:
    """Sends a range of a file, or what there is of it."""
    while start < end and (sent := os.sendfile(sink.fileno(), source.fileno(), start, end - start)):
        start += sent


def copy_part(plan: Plan, first: int, last: int, out: str) -> Copied:
    """Copies the header and the bytes from one cut to another."""
    with opened(plan.file, "rb") as source, opened(out, "wb") as sink:
        words = [program(), "pipe", "--counts", *plan.options]
        with subprocess.Popen(words, stdin=subprocess.PIPE, stdout=sink, stderr=subprocess.PIPE) as run:
            try:
                send(source, run.stdin, 0, plan.header)
                send(source, run.stdin, plan.cuts[first], plan.cuts[last])
                run.stdin.close()
            except BrokenPipeError:
                pass
            said = run.stderr.read().decode("utf-8", "surrogateescape")
    counts = COUNTS.fullmatch(said)
    if counts and run.returncode == 0:
        return Copied(out, 0, "", int(counts[1]), int(counts[2]))
    return Copied(out, run.returncode if run.returncode > 0 else 4, said)


class Joined:
    """OUT, to which the copies of parts are added, in their order."""

    def __init__(self, plan: Plan, out: str) -> None:
        self.plan, self.out = plan, out
        self.prefix = self.length = os.path.getsize(out)
        self.data = self.blocks = 0

    def add(self, copied: Copied) -> None:
        """Adds a copy without its header, and its counts."""
        if self.blocks + copied.blocks > MOST_BLOCKS:
            raise Trouble(f"split: {self.plan.file}: more than {MOST_BLOCKS} blocks: use avro copy")
        with opened(copied.file, "rb") as source, opened(self.out, "r+b") as sink:
            sink.seek(self.length)
            try:
                send(source, sink, self.prefix, os.path.getsize(copied.file))
            except OSError:
                raise Trouble(f"avro: {self.out}: cannot write") from None
            self.length = sink.seek(0, os.SEEK_END)
        self.data += copied.data
        self.blocks += copied.blocks

    def fault(self, copied: Copied) -> Trouble:
        """The fault of a part as that of the whole file: its block is counted from the first."""
        found = FAULT.fullmatch(copied.said)
        if found is None:
            return failure(self.plan, copied)
        code, block, rest = found.groups()
        return Trouble(f"avro: {self.plan.file}: {code} block {self.blocks + int(block)}{rest}", copied.status)


def failure(plan: Plan, copied: Copied) -> Trouble:
    """What is told of a run that failed, and not at the file's own fault."""
    line = copied.said.rstrip("\n") or "split: the program was killed"
    return Trouble(line.replace("avro: -: ", f"avro: {plan.file}: ", 1), copied.status)


def start(plan: Plan, out: str, folder: str) -> Joined:
    """Makes OUT as `avro copy` does, with what stands before the blocks."""
    head = os.path.join(folder, "head.avro")
    with opened(plan.file, "rb") as source, opened(head, "wb") as sink:
        sink.write(source.read(plan.header))
    run = subprocess.run([program(), "copy", head, out, *plan.options], capture_output=True)
    os.unlink(head)
    if run.returncode != 0:
        line = run.stderr.decode("utf-8", "surrogateescape").rstrip("\n")
        raise Trouble(line.replace(f"avro: {head}: ", f"avro: {plan.file}: "), run.returncode)
    if run.stdout != b"data 0 blocks 0\n":
        raise Trouble("split: the program is another one")
    return Joined(plan, out)


def join(joined: Joined, part: Callable[[int], Copied], again: Callable[[int, int], Copied]) -> None:
    """Adds all parts: one that was cut within a block is copied again, up to a cut that is twice as far each time."""
    plan, first = joined.plan, 0
    while first < plan.parts:
        copied, last = part(first), first + 1
        while copied.is_cut() and last < plan.parts:
            last = min(plan.parts, first + 2 * (last - first))
            copied = again(first, last)
        joined.add(copied)
        if copied.status != 0:
            raise joined.fault(copied)
        first = last


def copy_by(jobs: int, plan: Plan, out: str) -> Joined:
    """Copies a file by several runs at once; those ahead of what was added are as many as the jobs, and a few."""
    with tempfile.TemporaryDirectory(prefix=".split-", dir=os.path.dirname(os.path.abspath(out))) as folder:
        joined = start(plan, out, folder)
        with ThreadPoolExecutor(jobs) as pool:
            runs: dict[int, Future[Copied]] = {}

            def name(first: int, last: int) -> str:
                return os.path.join(folder, f"{first}-{last}")

            def part(first: int) -> Copied:
                for path in Path(folder).iterdir():
                    if int(path.name.partition("-")[0]) < first:
                        path.unlink()
                for at in range(first, min(plan.parts, first + 2 * jobs)):
                    if at not in runs:
                        runs[at] = pool.submit(copy_part, plan, at, at + 1, name(at, at + 1))
                return runs[first].result()

            def again(first: int, last: int) -> Copied:
                for at in range(first + 1, last):
                    runs.pop(at, Future()).cancel()
                return copy_part(plan, first, last, name(first, last))

            try:
                join(joined, part, again)
            finally:
                pool.shutdown(cancel_futures=True)
    return joined


def record_of(folder: str, at: int) -> Path:
    return Path(folder, f"{at}.json")


def do_part(plan: Plan, at: int, folder: str) -> int:
    """Copies a part, and leaves what came of it under the part's name once it is done."""
    if not 0 <= at < plan.parts:
        raise Trouble(f"split: there are parts 0 to {plan.parts - 1}", 64)
    os.makedirs(folder, exist_ok=True)
    descriptor, made = tempfile.mkstemp(prefix=f"{at}-", suffix=".avro", dir=folder)
    os.close(descriptor)
    copied = copy_part(plan, at, at + 1, made)
    if copied.status not in (0, 3):
        os.unlink(made)
        raise failure(plan, copied)
    record = Path(made).with_suffix(".json")
    copied.file = os.path.basename(made)
    record.write_text(json.dumps(asdict(copied)), encoding="utf-8")
    os.replace(record, record_of(folder, at))
    return 0


def part_in(folder: str, at: int) -> Copied:
    copied = Copied(**json.loads(record_of(folder, at).read_text(encoding="utf-8")))
    copied.file = os.path.join(folder, copied.file)
    return copied


def do_join(plan: Plan, folder: str, out: str) -> Joined:
    missing = [str(at) for at in range(plan.parts) if not record_of(folder, at).exists()]
    if missing:
        raise Trouble(f"split: parts are missing: {' '.join(missing)}")
    with tempfile.TemporaryDirectory(prefix=".join-", dir=folder) as room:
        joined = start(plan, out, room)
        join(joined, lambda at: part_in(folder, at), lambda a, b: copy_part(plan, a, b, os.path.join(room, "again")))
    return joined


def read_plan(path: str) -> Plan:
    """A plan, where its file and its schema are still the same."""
    try:
        plan = Plan(**json.loads(Path(path).read_text(encoding="utf-8")))
    except (OSError, ValueError, TypeError):
        raise Trouble(f"split: {path}: cannot be read as a plan") from None
    if not os.path.exists(plan.file) or os.path.getsize(plan.file) != plan.bytes:
        raise Trouble(f"split: {plan.file}: is another file than at the plan")
    if plan.schema is not None and digest(plan.options[1]) != plan.schema:
        raise Trouble(f"split: {plan.options[1]}: is another schema than at the plan")
    return plan


def tell(joined: Joined) -> int:
    print(f"data {joined.data} blocks {joined.blocks}", flush=True)
    return 0


def options_of(words: argparse.Namespace) -> list[str]:
    return [word for name in ("reader", "sync") if getattr(words, name) for word in (f"--{name}", getattr(words, name))]


def can_be_cut(words: argparse.Namespace) -> bool:
    """Whether IN can be cut, the schema can be read more than once, and OUT is no file in use."""
    is_free = not os.path.exists(words.OUT) or (os.path.isfile(words.OUT) and not os.path.samefile(words.IN, words.OUT))
    return is_divisible(words.IN) and (not words.reader or os.path.isfile(words.reader)) and is_free


def do_copy(words: argparse.Namespace) -> int:
    """What cannot be cut is left to `avro copy`."""
    if not os.path.exists(words.IN) or not can_be_cut(words):
        return subprocess.run([program(), "copy", words.IN, words.OUT, *options_of(words)]).returncode
    return tell(copy_by(words.j, plan_of(words), words.OUT))


def do_plan(words: argparse.Namespace) -> int:
    if not is_divisible(words.IN):
        raise Trouble(f"split: {words.IN}: is no container file that can be cut")
    plan = plan_of(words)
    with opened(words.PLAN, "wb") as file:
        file.write(json.dumps(asdict(plan)).encode())
    print(plan.parts)
    return 0


def grammar() -> argparse.ArgumentParser:
    parser = argparse.ArgumentParser(prog="split", usage=__doc__, add_help=False, allow_abbrev=False)
    commands = parser.add_subparsers(dest="command", required=True)
    for name, places in {"copy": ["IN", "OUT"], "plan": ["IN", "PLAN"], "part": ["PLAN", "K", "FOLDER"], "join": ["PLAN", "FOLDER", "OUT"]}.items():
        command = commands.add_parser(name, usage=__doc__, add_help=False, allow_abbrev=False)
        for place in places:
            command.add_argument(place, type=int if place == "K" else str)
        if name in ("copy", "plan"):
            command.add_argument("--bytes", type=positive, default=PART_BYTES)
            command.add_argument("--reader")
            command.add_argument("--sync")
        if name == "copy":
            command.add_argument("-j", type=positive, default=len(os.sched_getaffinity(0)))
    return parser


def positive(word: str) -> int:
    value = int(word)
    if value < 1:
        raise ValueError
    return value


def main() -> int:
    try:
        words = grammar().parse_args()
    except SystemExit:
        return 64
    try:
        if words.command == "copy":
            return do_copy(words)
        if words.command == "plan":
            return do_plan(words)
        plan = read_plan(words.PLAN)
        return do_part(plan, words.K, words.FOLDER) if words.command == "part" else tell(do_join(plan, words.FOLDER, words.OUT))
    except Trouble as trouble:
        print(trouble, file=sys.stderr)
        return trouble.status
    except BrokenPipeError:
        return 4
    except OSError as fault:
        print(f"split: {fault.filename or 'output'}: {fault.strerror}", file=sys.stderr)
        return 4


if __name__ == "__main__":
    sys.exit(main())

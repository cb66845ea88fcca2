#!/usr/bin/env python3
"""Measures `pipe` between two pipes, and against `copy`.

    pipe.py [PROGRAM] [--megabytes N] [--compared N] [--blocks N] [--kinds KIND..] [--peak MB] [--runs N]

The default PROGRAM is $AVRO, or avro on the PATH. A container is a header and --blocks blocks (64) of about 64 KiB, repeated;
its kind is narrow, wide or strings, as in `containers.py`. First `copy` and `pipe` take one file of --compared megabytes (100)
in turn, --runs times (3), and the rows have the least times. Then `pipe` reads --megabytes (5,000) from one pipe and writes to
another; no file is that long. Sizes are rounded up to whole repetitions of the blocks. All output is compared byte for byte with
what `copy` makes of the header and of one repetition, put together again. The peak of resident memory must be under --peak
megabytes (4). All of this is done without and with a reader's schema. The status is 1 if an output differs or a peak is too high.
"""

import argparse
import math
import os
import random
import shutil
import subprocess
import sys
import tempfile
import threading
import time
from collections.abc import Callable, Iterator
from dataclasses import dataclass
from typing import IO

HERE = os.path.dirname(os.path.abspath(__file__))
sys.path[:0] = [os.path.join(HERE, "gen"), os.path.join(HERE, "c")]

from building import build_program
from container_schemas import READERS
from containers import BLOCKS, KINDS, block, header

TAKE = 1 << 20


@dataclass
class Cycled:
    """A header, and then a cycle of blocks again and again."""

    head: bytes
    cycle: bytes

    def parts(self, cycles: int) -> Iterator[bytes]:
        yield self.head
        for _ in range(cycles):
            yield self.cycle

    def is_read(self, source: IO[bytes], cycles: int) -> bool:
        """Whether a source holds exactly so many cycles; it is read to its end."""
        if source.read(len(self.head)) != self.head:
            return False
        window = self.cycle * (1 + -(-TAKE // len(self.cycle)))
        left, at, is_same = cycles * len(self.cycle), 0, True
        while part := source.read(TAKE):
            is_same = is_same and len(part) <= left and window[at:at + len(part)] == part
            left, at = left - len(part), (at + len(part)) % len(self.cycle)
        return is_same and left == 0


@dataclass
class Case:
    """A container, what `copy` makes of it, and the words behind the command."""

    name: str
    words: list[str]
    given: Cycled
    wanted: Cycled

    def cycles(self, megabytes: float) -> int:
        return math.ceil(megabytes * 1_000_000 / len(self.given.cycle))


@dataclass
class Run:
    """What a run took: seconds of the processor and of the clock, and the peak of resident memory in KB; and whether its output was the wanted one."""

    processor: float
    clock: float
    peak: int
    is_wanted: bool


Given = IO[bytes] | int
Use = Callable[["subprocess.Popen[bytes]"], bool]


def run(starter: str, words: list[str], given: Given, taken: Given, use: Use) -> Run:
    """Runs words by `watch.c`, which tells on descriptor 3 what they took."""
    told, end = os.pipe()
    shell = ["sh", "-c", f'exec "$@" 3>&{end}', "sh", starter, *words]
    begun = time.monotonic()
    with subprocess.Popen(shell, pass_fds=(end,), stdin=given, stdout=taken) as process:
        os.close(end)
        is_wanted = use(process)
    clock = time.monotonic() - begun
    with os.fdopen(told) as line:
        user, system, peak, status = line.read().split()
    if status != "0":
        sys.exit(f"{' '.join(words)}: status {status}")
    return Run(float(user) + float(system), clock, int(peak), is_wanted)


def feed(parts: Iterator[bytes], pipe: IO[bytes]) -> None:
    """Writes the parts. A program that ends before the last one is told of by its status."""
    try:
        with pipe:
            pipe.writelines(parts)
    except BrokenPipeError:
        pass


def between_pipes(starter: str, program: str, case: Case, megabytes: float) -> Run:
    """Sends a stream through `pipe`."""
    cycles = case.cycles(megabytes)

    def use(process: "subprocess.Popen[bytes]") -> bool:
        assert process.stdin is not None and process.stdout is not None
        feeder = threading.Thread(target=feed, args=(case.given.parts(cycles), process.stdin))
        feeder.start()
        is_wanted = case.wanted.is_read(process.stdout, cycles)
        feeder.join()
        return is_wanted

    return run(starter, [program, "pipe", *case.words], subprocess.PIPE, subprocess.PIPE, use)


def of_files(starter: str, program: str, folder: str, case: Case, command: str, cycles: int) -> Run:
    """Runs `copy` or `pipe` on the file source.avro of a folder, which has so many cycles."""
    source, made = os.path.join(folder, "source.avro"), os.path.join(folder, "made.avro")
    names = [source, made] if command == "copy" else []
    with open(source, "rb") as given, open(os.devnull if names else made, "wb") as taken:
        found = run(starter, [program, command, *names, *case.words], given, taken, lambda process: process.wait() == 0)
    with open(made, "rb") as file:
        found.is_wanted = case.wanted.is_read(file, cycles)
    os.remove(made)
    return found


def copy_of(program: str, folder: str, data: bytes, words: list[str]) -> bytes:
    """What `copy` makes of a container."""
    source, made = os.path.join(folder, "source.avro"), os.path.join(folder, "made.avro")
    with open(source, "wb") as file:
        file.write(data)
    subprocess.run([program, "copy", source, made, *words], check=True, stdout=subprocess.DEVNULL)
    with open(made, "rb") as file:
        return file.read()


def cases(program: str, folder: str, kind: str, blocks: int) -> Iterator[Case]:
    """The containers of a kind, without a reader's schema and with one."""
    choose = random.Random(1)
    given = Cycled(header(kind), b"".join(block(choose, kind) for _ in range(blocks)))
    reader = os.path.join(folder, "reader.avsc")
    with open(reader, "w", encoding="ascii") as file:
        file.write(READERS[kind])
    rows: list[tuple[str, list[str]]] = [(kind, []), (f"{kind}, --reader", ["--reader", reader])]
    for name, words in rows:
        head = copy_of(program, folder, given.head, words)
        whole = copy_of(program, folder, given.head + given.cycle, words)
        if not whole.startswith(head):
            sys.exit(f"{name}: the copy of the header is no beginning of the copy")
        yield Case(name, words, given, Cycled(head, whole[len(head):]))


def tell(case: Case, what: str, megabytes: float, runs: list[Run], most: float) -> bool:
    """Prints a row, and says whether all is as it must be."""
    processor, clock = min(run.processor for run in runs), min(run.clock for run in runs)
    peak = max(run.peak for run in runs) / 1000
    answers = [] if all(run.is_wanted for run in runs) else ["ANOTHER OUTPUT"]
    answers += [] if peak < most else ["TOO MUCH MEMORY"]
    size = case.cycles(megabytes) * len(case.given.cycle) / 1_000_000
    print(f"| {case.name} | {what} | {size:,.1f} MB | {processor:.2f} s | {clock:.2f} s | {size / processor:,.1f} MB/s | {peak:.2f} MB "
          f"| {' '.join(answers) or 'good'} |", flush=True)
    return not answers


def measure(program: str, folder: str, kind: str, given: argparse.Namespace) -> bool:
    """The rows of a kind."""
    starter = os.path.join(folder, "watch")
    are_good = True
    for case in cases(program, folder, kind, given.blocks):
        cycles = case.cycles(given.compared)
        with open(os.path.join(folder, "source.avro"), "wb") as file:
            file.writelines(case.given.parts(cycles))
        pairs = [[of_files(starter, program, folder, case, command, cycles) for command in ("copy", "pipe")] for _ in range(given.runs)]
        for what, at in ("`copy`", 0), ("`pipe < IN > OUT`", 1):
            are_good &= tell(case, what, given.compared, [pair[at] for pair in pairs], given.peak)
        stream = between_pipes(starter, program, case, given.megabytes)
        are_good &= tell(case, "`pipe` between two pipes", given.megabytes, [stream], given.peak)
    return are_good


def read_words() -> argparse.Namespace:
    words = argparse.ArgumentParser(description=__doc__, formatter_class=argparse.RawDescriptionHelpFormatter)
    words.add_argument("program", nargs="?", default=os.environ.get("AVRO", "avro"))
    words.add_argument("--megabytes", type=float, default=5_000)
    words.add_argument("--compared", type=float, default=100)
    words.add_argument("--blocks", type=int, default=BLOCKS)
    words.add_argument("--kinds", nargs="+", choices=KINDS, default=KINDS[:1])
    words.add_argument("--peak", type=float, default=4)
    words.add_argument("--runs", type=int, default=3)
    return words.parse_args()


def main() -> None:
    given = read_words()
    program = shutil.which(given.program)
    if program is None:
        sys.exit(f"{given.program}: no such program")
    with tempfile.TemporaryDirectory() as folder:
        build_program("watch", folder)
        print("| Container | command | size | processor | clock | of the processor | peak | answer |")
        print("|---|---|---|---|---|---|---|---|")
        rows = [measure(os.path.abspath(program), folder, kind, given) for kind in given.kinds]
    sys.exit(0 if all(rows) else 1)


if __name__ == "__main__":
    main()

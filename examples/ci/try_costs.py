#!/usr/bin/env python3
"""Measures `avro-breaking` on trees of schemas that are made to be costly.

    try_costs.py [--apart] [PROGRAM [NAME..]]

PROGRAM is $AVRO where it is not given, and else avro on the PATH; with NAME only such trees are tried. A row has the status,
the seconds of processor time, and the memory of the largest process, the check and all that it starts; and the last line that
was printed. The status is 0 if each run ends as it should, within 300 MB and 10 seconds (a tree of many texts: 0.1 more for
each). With --apart the program may take as long as it needs, and its own seconds are left out: for one that was built with
checks.
"""

from __future__ import annotations

import json
import os
import re
import shutil
import subprocess
import sys
import tempfile
from dataclasses import dataclass, field
from pathlib import Path
from typing import Any, Callable

HERE = Path(__file__).resolve().parent
MOST_MEMORY, MOST_SECONDS = 300.0, 10.0
MOST_TEXT = 1_048_576


@dataclass(frozen=True)
class Tree:
    """The files of a tree before and after, the words of the call, and the statuses that it may end with."""

    old: dict[str, bytes]
    new: dict[str, bytes]
    words: tuple[str, ...] = ()
    statuses: tuple[int, ...] = (1,)
    others: dict[str, bytes] = field(default_factory=dict)

    def call(self) -> dict[str, Any]:
        """What is known of the tree once it lies there."""
        return {"words": self.words, "statuses": self.statuses, "count": 2 * len(self.new)}


def record(fields: list[tuple[str, Any]], **others: Any) -> dict:
    return {"type": "record", "name": "R", "fields": [{"name": name, "type": kind} for name, kind in fields], **others}


def text(schema: Any) -> bytes:
    made = json.dumps(schema, separators=(",", ":")).encode()
    assert len(made) <= MOST_TEXT, len(made)
    return made


def one(old: Any, new: Any, *words: str, statuses: tuple[int, ...] = (1,), **others: bytes) -> Tree:
    return Tree({"a.avsc": text(old)}, {"a.avsc": text(new)}, words, statuses, others)


def numbered(letter: str, count: int) -> list[str]:
    return [f"{letter}{number}" for number in range(count)]


def aliases(count: int) -> Tree:
    """A record and its field that had many names."""
    names = numbered("a", count)
    arrays = [{"type": "array", "items": {"type": "array", "items": {"type": "int", "logicalType": word}}} for word in ("date", "x")]
    old, new = record([("x", arrays[0])]), record([("x", arrays[1])], aliases=names)
    new["fields"][0]["aliases"] = names
    return one(old, new, statuses=(0,))


def changed_fields(*words: str, accepted: int) -> Tree:
    """Many fields with other types, of which some are accepted."""
    old, new = (record([(name, kind) for name in numbered("f", 2000)]) for kind in ("int", "string"))
    lines = "".join(f"a.avsc v1 /fields/{number}\n" for number in range(accepted)).encode()
    return one(old, new, *words, statuses=(0 if accepted == 2000 else 1,), allowed=lines)


def long_answer(*words: str, kinds: tuple[str, str] = ("int", "string"), statuses: tuple[int, ...] = (1,)) -> Tree:
    """Each of many faults lies below a field with a long name: two hundred MB of faults."""
    inner = [record([(name, kind) for name in numbered("f", 1000)], name="I") for kind in kinds]
    old, new = (record([("l" * 100_000, each)]) for each in inner)
    return one(old, new, *words, statuses=statuses, allowed=b"a.avsc v1 /fields/0/type/fields/0\n")


def symbols(name: int, *words: str, statuses: tuple[int, ...] = (1,), accepted: bytes = b"") -> Tree:
    """An enum with a long name that lost many symbols, each of which is a fault with this name."""
    old = {"type": "enum", "name": "E" * name, "symbols": numbered("s", 60_000)}
    old, new = (record([("a", each)]) for each in (old, {**old, "symbols": ["z"]}))
    return one(old, new, *words, statuses=statuses, allowed=accepted)


def attributes() -> Tree:
    """A text that takes much memory once it is read."""
    filled = [{"": 0}] * 140_000
    return one(record([("a", "int")], x=filled), record([("a", "string")], x=filled), statuses=(1, 3))


def datum() -> Tree:
    """A smallest datum of many fields with long names."""
    inner = record([("l" * 60_000, "int")], name="I")
    fields = [("first", inner), *((name, "I") for name in numbered("f", 500))]
    return one(record(fields), record([*fields, ("more", "int")]), statuses=(1, 4))


def notes() -> Tree:
    """Many changes of logical types."""
    old, new = (record([(name, {"type": "int", "logicalType": word}) for name in numbered("f", 1500)]) for word in ("date", "x" * 400))
    return one(old, new, statuses=(0,))


def nested(open_: str, close: str) -> Tree:
    """A text that is no schema, in a renamed file."""
    made = (open_ * 500_000)[: MOST_TEXT // 2] + (close * 500_000)[: MOST_TEXT // 2]
    return Tree({"a.avsc": text(record([]))}, {"b.avsc": made.encode()}, (), (3,))


def many_files(*words: str, statuses: tuple[int, ...] = (1,)) -> Tree:
    """A hundred texts as long as they may be."""
    olds, news = ({f"{n}.avsc": text(record([(f"f{n}", kind)], name=f"R{n}", doc="x" * 1_048_400)) for n in range(100)}
                  for kind in ("int", "string"))  # fmt: skip
    return Tree(olds, news, words, statuses)


def lines(count: int, line: bytes) -> Tree:
    """A file of accepted breaks."""
    made = b"".join(line % number for number in range(count))
    return one(record([("a", "int")]), record([("a", "string")]), "--allow", "allowed", allowed=made)


def namespace() -> Tree:
    """Many types in a long namespace, of which a branch of each union has the name."""
    fields = [(name, ["null", {"type": "fixed", "name": name.upper(), "size": 1}]) for name in numbered("f", 1300)]
    old, new = (record([*fields, ("last", kind)], namespace="n" * 800_000) for kind in ("int", "string"))
    return one(old, new, "--allow", "allowed", allowed=b"a.avsc v1 /fields/0\n")


def long_notes() -> Tree:
    """Notes with a long word, which a field had that many fields of many records had been."""
    old = record([("o", record([("x", {"type": "int", "logicalType": "w" * 900_000})], name="Old"))])
    inner = [record([("y", "int")], name=f"S{number}", aliases=["Old"]) for number in range(1000)]
    for each in inner:
        each["fields"][0]["aliases"] = ["x"]
    return one(old, record([(f"f{number}", each) for number, each in enumerate(inner)]))


def renamed() -> Tree:
    """Many files with new names, whose types have long names."""
    olds, news = ({f"{letter}{n}.avsc": text(record([], name=f"R{n}", namespace="n" * 1_048_000)) for n in range(100)} for letter in "ab")
    return Tree(olds, news, (), (0,))


def sparse() -> Tree:
    """A file of forty GB."""
    return Tree({"a.avsc": b'"int"'}, {"a.avsc": b'"int"', "huge.avsc": b""}, (), (3,))


TREES: dict[str, Callable[[], Tree]] = {
    "2,700 aliases of a record and of its field (41 KB)": lambda: aliases(2_700),
    "58,000 aliases of a record and of its field (1 MB)": lambda: aliases(58_000),
    "2,000 changed fields, all accepted": lambda: changed_fields("--allow", "allowed", accepted=2000),
    "2,000 changed fields, one not accepted": lambda: changed_fields("--allow", "allowed", accepted=1999),
    "200 MB of faults": long_answer,
    "200 MB of faults, one accepted": lambda: long_answer("--allow", "allowed"),
    "200 MB of faults, all accepted": lambda: symbols(3_000, "--allow", "allowed", statuses=(0,), accepted=b"a.avsc v1 /fields\n"),
    "200 MB of faults of doubles, --tame": lambda: long_answer("--tame", kinds=("double", "string")),
    "15 GB of faults": lambda: symbols(250_000),
    "15 GB of faults, none accepted": lambda: symbols(250_000, "--allow", "allowed", accepted=b"a.avsc v1 /fields/1\n"),
    "15 GB of faults, all accepted": lambda: symbols(250_000, "--allow", "allowed", statuses=(0,), accepted=b"a.avsc v1 /fields\n"),
    "140,000 small objects in a text (1 MB)": attributes,
    "a datum of 30 MB": datum,
    "1,500 notes": notes,
    "half a million brackets": lambda: nested("[", "]"),
    "half a million keys": lambda: nested('{"":', "}"),
    "100 texts of 1 MiB": many_files,
    "100 texts of 1 MiB, --bundle": lambda: many_files("--bundle", statuses=(1, 5)),
    "100 renamed files, whose types have names of 1 MB": renamed,
    "1,300 types in a namespace of 0.8 MB": namespace,
    "1,000 notes on a word of 0.9 MB": long_notes,
    "1,000 patterns of accepted breaks": lambda: lines(1000, b"*%dx*y*.avsc v1 /fields/0\n"),
    "120,000 lines of accepted breaks": lambda: lines(120_000, b"%d v\n"),
    "a file of 40 GB": sparse,
}


def git(folder: Path, *words: str) -> None:
    settings = ("-c", "user.name=A user", "-c", "user.email=user@example.com")
    subprocess.run(["git", "-C", folder, *settings, *words], check=True, capture_output=True)


def write(folder: Path, files: dict[str, bytes]) -> None:
    for name, data in files.items():
        (folder / name).write_bytes(data)
        if name == "huge.avsc":
            os.truncate(folder / name, 40_000_000_000)


def lay(folder: Path, tree: Tree) -> None:
    git(folder.parent, "init", "-q", folder.name)
    write(folder, tree.old)
    git(folder, "add", "-A")
    git(folder, "commit", "-qm", "old")
    git(folder, "tag", "v1")
    for name in tree.old:
        (folder / name).unlink()
    write(folder, tree.new)
    write(folder, tree.others)


@dataclass(frozen=True)
class Measured:
    """A run: its status, processor time without that of the program if that is apart, memory in MB and last line."""

    status: int
    seconds: float
    memory: float
    line: str

    def row(self, name: str) -> str:
        return f"| {name} | {self.status} | {self.seconds:.1f} s | {self.memory:.0f} MB | {self.line[:100]} |"


def measured(words: list[str], folder: Path, program: str) -> Measured:
    with open(folder.parent / "said", "w+b") as said:
        process = subprocess.Popen(words, cwd=folder, stdout=said, stderr=subprocess.STDOUT, env={**os.environ, "AVRO": program})
        _, status, usage = os.wait4(process.pid, 0)
        said.seek(0)
        lines = said.read().decode(errors="replace").splitlines()
    seconds = usage.ru_utime + usage.ru_stime - seconds_apart(folder.parent)
    return Measured(os.waitstatus_to_exitcode(status), seconds, usage.ru_maxrss / 1000, (lines or [""])[-1])


def timed(program: str, folder: Path) -> str:
    """A program that runs another, and writes down the time that it took."""
    made = folder / "avro"
    made.write_text(f'#!/bin/sh\n"{program}" "$@"\nstatus=$?\ntimes >> "{folder}/times"\nexit $status\n')
    made.chmod(0o755)
    return str(made)


def seconds_apart(folder: Path) -> float:
    file = folder / "times"
    found = re.findall(r"(\d+)m([\d.]+)s", file.read_text() if file.is_file() else "")
    return sum(int(minutes) * 60 + float(seconds) for minutes, seconds in found)


def is_right(call: dict[str, Any], found: Measured) -> bool:
    """Whether a run ended as it should; a second more is for what is done before and after the answers."""
    most = MOST_SECONDS + 0.1 * call["count"] + 1
    return found.status in (*call["statuses"], 4) and found.seconds <= most and found.memory <= MOST_MEMORY


def laid(name: str, folder: Path) -> dict[str, Any]:
    """Lays a tree by another process: the memory of this one would count as that of those that it starts."""
    words = [sys.executable, __file__, "--lay", name, folder]
    return json.loads(subprocess.run(words, check=True, capture_output=True).stdout)


def main(words: list[str]) -> int:
    if words[:1] == ["--lay"]:
        tree = TREES[words[1]]()
        lay(Path(words[2]), tree)
        print(json.dumps(tree.call()))
        return 0
    is_apart = words[:1] == ["--apart"]
    words = words[is_apart:]
    program = os.path.realpath(shutil.which(words[0] if words else os.environ.get("AVRO", "avro")) or sys.exit("no program"))
    wrong = 0
    print("| Tree | Status | Processor time | Memory | Last line |\n|---|---|---|---|---|")
    for name in TREES:
        if not words[1:] or any(word in name for word in words[1:]):
            call, found = run(name, program, is_apart)
            wrong += not is_right(call, found)
            print(found.row(name) + ("" if is_right(call, found) else " WRONG"), flush=True)
    print(f"{wrong} wrong")
    return 1 if wrong else 0


def run(name: str, program: str, is_apart: bool) -> tuple[dict[str, Any], Measured]:
    with tempfile.TemporaryDirectory(prefix="costs.") as top:
        folder = Path(top) / "tree"
        call = laid(name, folder)
        program = timed(program, folder.parent) if is_apart else program
        words = [sys.executable, str(HERE / "avro-breaking"), *call["words"], *(("--max-time", "1000") if is_apart else ())]
        return call, measured(words, folder, program)


if __name__ == "__main__":
    sys.exit(main(sys.argv[1:]))

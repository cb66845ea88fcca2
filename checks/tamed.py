#!/usr/bin/env python3
"""Compares what `avro judge` says of schemas with floats and doubles behind two filters of examples/adapt with what is so.

    tamed.py PROGRAM [COUNT]

COUNT random pairs of schemas, 1,000 unless said. Their int and long are rewritten as two others of int, long, float and
double, of which the first is widened to the second, each of the six in turn: the rules of resolution for these are the
same, so the verdict on the pair as it was is that on the one that comes of it. This one goes through tame.py and through
lattice.py.

Behind lattice.py the verdict must be the right one. A yes behind tame.py must be a yes, and a no may be too careful, if
each of its faults is about a number that is read as a wider one; a pair with a default that would be one of another branch
is refused there.

The last two lines are 'FILTER: N pairs, R refused, Y yes, F no, C too careful, K wrong'. A tenth at least must be a yes, and
a no.
"""

from __future__ import annotations

import collections
import itertools
import json
import os
import random
import subprocess
import sys
import tempfile
from pathlib import Path
from typing import Any, Callable

ROOT = Path(__file__).resolve().parent.parent
sys.path[:0] = [str(ROOT / "bench" / "gen"), str(ROOT / "examples" / "adapt")]

from random_schemas import evolved, schema, spelled

from bundle import with_parts
from filters import Refused
from lattice import Lattice
from tame import Rewriting, rewritten

NUMBERS = ("int", "long", "float", "double")
WORDS = [{"int": one, "long": other} for one, other in itertools.combinations(NUMBERS, 2)]
FILTERS: dict[str, Callable[[], Rewriting]] = {"tame": lambda: Rewriting(is_back=False), "lattice": Lattice}
SHOWN = 10


def with_words(tree: Any, words: dict[str, str]) -> Any:
    """A schema with other words for its primitives."""
    if isinstance(tree, list):
        return [with_words(branch, words) for branch in tree]
    if isinstance(tree, str):
        return words.get(tree, tree)
    copy = with_parts(tree, lambda part, _: with_words(part, words))
    return {**copy, "type": words.get(copy["type"], copy["type"])} if isinstance(copy["type"], str) else copy


def verdict(program: str, writer: bytes, reader: bytes) -> str:
    Path("writer.avsc").write_bytes(writer)
    Path("reader.avsc").write_bytes(reader)
    done = subprocess.run([program, "judge", "writer.avsc", "reader.avsc"], capture_output=True, text=True)
    return (done.stdout or done.stderr).split("\n")[0]


def text(tree: Any) -> bytes:
    return json.dumps(tree).encode()


def random_pair(number: int) -> list[Any]:
    choose = random.Random(number)
    root = schema(choose)
    return [spelled(choose, each) for each in (root, evolved(choose, root, choose.choice((0.02, 0.1, 0.3))))]


def judged(program: str, pair: list[Any], rewriting: Callable[[], Rewriting]) -> str:
    """The verdict behind a filter."""
    try:
        return verdict(program, *[rewritten(text(tree), rewriting()) for tree in pair])
    except Refused:
        return "refused"


def is_widened(program: str) -> bool:
    """Whether each fault of the pair in the files is that a number is read as a wider one, or below it."""
    done = subprocess.run([program, "explain", "writer.avsc", "reader.avsc"], capture_output=True, text=True)
    return all("ieee." in line or "no branch of the reader's union accepts" in line for line in done.stdout.splitlines()[1:])


def kind_of(program: str, name: str, wanted: str, found: str) -> str:
    if found == wanted or name == "tame" and found == "refused":
        return found
    is_careful = name == "tame" and (wanted, found) == ("yes", "no") and is_widened(program)
    return "too careful" if is_careful else "wrong"


def told(count: int, seen: collections.Counter[str]) -> str:
    kinds = [f"{seen[kind]} {kind}" for kind in ("refused", "yes", "no", "too careful", "wrong")]
    return f"{count} pairs, {', '.join(kinds)}"


def main(words: list[str]) -> int:
    if len(words) not in (1, 2):
        print(__doc__, end="", file=sys.stderr)
        return 64
    program, count = os.path.abspath(words[0]), int(words[1]) if len(words) == 2 else 1_000
    seen: dict[str, collections.Counter[str]] = {name: collections.Counter() for name in FILTERS}
    with tempfile.TemporaryDirectory() as folder:
        os.chdir(folder)
        for number in range(count):
            pair = random_pair(number)
            wanted = verdict(program, *map(text, pair))
            widened = [with_words(tree, WORDS[number % len(WORDS)]) for tree in pair]
            for name, rewriting in FILTERS.items():
                found = judged(program, widened, rewriting)
                kind = kind_of(program, name, wanted, found)
                seen[name][kind] += 1
                if kind == "wrong" and seen[name][kind] <= SHOWN:
                    print(f"{name}: pair {number}: {found}, and Avro has {wanted}")
        os.chdir("/")
    for name in FILTERS:
        print(f"{name}: {told(count, seen[name])}")
    is_wrong = any(it["wrong"] or min(it["yes"], it["no"]) < count // 10 for it in seen.values())
    return 1 if is_wrong else 0


if __name__ == "__main__":
    sys.exit(main(sys.argv[1:]))

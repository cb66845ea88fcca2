#!/usr/bin/env python3
"""Compares `avro explain` with `avro judge`, and its text with its JSON.

    explain.py PROGRAM [COUNT]

COUNT random pairs of schemas, 1,000 unless said. Of each pair:

- a schema that judge refuses, explain refuses with the same line;
- explain says yes exactly where judge does; where judge is undecided by its size or depth, explain says no;
- the kind of the fault that judge tells is among those that explain lists;
- there are as many lines as the first one says, no two are equal, and the statuses are those of the verdicts;
- the line of JSON is JSON, and has the same verdict and the same faults in the same order: kind, name and both places.

The last line is 'N pairs, R refused, Y yes, F faults, K differ'. It is also a failure if a kind of fault, or a yes, did not occur.
"""

from __future__ import annotations

import collections
import json
import os
import random
import re
import subprocess
import sys
import tempfile

sys.path.insert(0, os.path.dirname(os.path.abspath(__file__)))

from confirm import random_pair

COUNT = 1_000
SHOWN = 20
KINDS = {"NoMatch", "NoBranch", "NotUtf8", "NoSymbol", "MissingField"}
LINE = re.compile(r"(\$.*?): (NoMatch|NoBranch|NotUtf8|NoSymbol|MissingField): (.*) \(writer's (\$.*)\)")
SYMBOL = re.compile(r"(\w+) is not a symbol of the reader's ")


def run(program: str, *words: str) -> tuple[int, str]:
    done = subprocess.run([program, *words], stdin=subprocess.DEVNULL, capture_output=True, text=True)
    return done.returncode, done.stdout + done.stderr


def faults_of_json(answer: dict) -> list[tuple[str, str, str, str | None]]:
    """The kind, both places and the symbol of each fault, with the place of a missing field as lines tell it."""
    found = []
    for fault in answer["faults"]:
        at = fault["reader"]["at"] + ("." + fault["field"] if "field" in fault else "")
        found.append((fault["fault"], at, fault["writer"]["at"], fault.get("symbol")))
    return found


def faults_of_text(lines: list[str]) -> list[tuple[str, str, str, str | None]] | None:
    """The same of the lines; nothing where a line is of another form."""
    found = []
    for line in lines:
        parts = LINE.fullmatch(line)
        if parts is None:
            return None
        symbol = SYMBOL.match(parts[3]) if parts[2] == "NoSymbol" else None
        found.append((parts[2], parts[1], parts[4], symbol[1] if symbol else None))
    return found


def wrong_of(program: str, seen: collections.Counter[str]) -> str | None:
    """What is wrong with the answers to the pair of files, if anything."""
    judged, told = run(program, "judge", "a.avsc", "b.avsc")
    status, text = run(program, "explain", "a.avsc", "b.avsc")
    as_json, line = run(program, "explain", "a.avsc", "b.avsc", "--json")
    if status != as_json:
        return f"status {status} of the text, {as_json} of the JSON"
    if judged == 3:
        seen["refused"] += 1
        return None if (status, text, line) == (3, told, told) else f"judge refuses with {told!r}, explain with {text!r}"
    if told == "undecided Pairs\n":
        seen["over the limit"] += 1
        return None
    if status != min(judged, 1):
        return f"judge ends with {judged}, explain with {status}"
    head, *lines = text.splitlines()
    if head != (f"no {len(lines)}" if status else "yes") or bool(lines) != bool(status) or not text.endswith("\n"):
        return f"the first line is {head!r}, and {len(lines)} follow"
    if len(set(lines)) != len(lines):
        return "a line stands twice"
    faults, answer = faults_of_text(lines), json.loads(line)
    if answer["verdict"] != head.split()[0] or faults is None or faults != faults_of_json(answer):
        return "the text and the JSON differ"
    kinds = [kind for kind, *_ in faults]
    if judged == 1 and told.splitlines()[1].split()[1] not in kinds:
        return f"{told.splitlines()[1]!r} of judge is not listed"
    seen.update(kinds or ["yes"])
    return None


def main() -> int:
    if len(sys.argv) not in (2, 3):
        print(__doc__, file=sys.stderr)
        return 64
    program, count = os.path.abspath(sys.argv[1]), int(sys.argv[2]) if len(sys.argv) == 3 else COUNT
    seen: collections.Counter[str] = collections.Counter()
    wrong = 0
    with tempfile.TemporaryDirectory() as folder:
        os.chdir(folder)
        for number in range(count):
            for name, text in zip(("a.avsc", "b.avsc"), random_pair(random.Random(number))):
                with open(name, "wb") as file:
                    file.write(text)
            found = wrong_of(program, seen)
            wrong += found is not None
            if found and wrong <= SHOWN:
                print(f"pair {number}: {found}")
        os.chdir("/")
    missing = sorted({"yes", *KINDS} - set(seen))
    for kind in missing:
        print(f"{kind} did not occur")
    faults = sum(seen[kind] for kind in KINDS)
    print(f"{count} pairs, {seen['refused']} refused, {seen['yes']} yes, {faults} faults, {wrong} differ")
    return 1 if wrong or missing else 0


if __name__ == "__main__":
    sys.exit(main())

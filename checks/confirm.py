#!/usr/bin/env python3
"""Compares `avro confirm` with `examples/confirm.py`, which shares no code with it.

    confirm.py PROGRAM [COUNT]

First a table of certificates that were written by hand, each of which turns one rule: both must give the answer of its
row. Then COUNT random pairs of schemas, 1,000 unless said. The program judges each pair, and both are asked about the
certificate that it wrote and about spoiled ones: a node or a pair left out, added or altered, lines exchanged, a byte
altered, the end missing, a number over 4,095, the certificate of another pair, the one that knows no dead nodes. For
a pair that is not approved, all pairs that its roots lead to stand for the certificate. Answers are equal if output,
errors and status are.

A line for each way of spoiling says how often each answer came, and the last line is 'N certificates, K differ'. It
is also a failure if a certificate as it was written is not confirmed, if one of a pair that was judged no is, or if a
way or an answer did not occur. It needs Python 3.11.
"""

from __future__ import annotations

import collections
import contextlib
import io
import json
import multiprocessing
import os
import random
import shutil
import subprocess
import sys
import tempfile
from dataclasses import dataclass
from typing import Callable, Iterable, Iterator, TypeAlias

HERE = os.path.dirname(os.path.abspath(__file__))
EXAMPLE = os.path.join(HERE, "..", "examples", "confirm.py")
sys.path[:0] = [os.path.dirname(EXAMPLE), os.path.join(HERE, "..", "bench", "gen")]

import confirm as example
import random_texts
from confirm_rows import G1, G2, NO, ROWS, YES, Answer, Row, lines, long_rows
from random_schemas import Field, Type, all_types, evolved, schema

COUNT = 1_000
BATCH = 20
SHOWN = 20
# The files of a writer's schema, of a reader's and of a certificate.
WORDS = ["a.avsc", "b.avsc", "a.cert"]
AS_WRITTEN = "as written"
# The kinds of random pairs, and how often each is chosen.
KINDS = {"evolved": 8, "defaults": 3, "aliases": 5, "long lists": 2, "least": 1, "dead": 8}
# Characters that a certificate has or nearly has.
CHARACTERS = b"0123456789 \n\r\t\0adeinprv-+\xff"

ANSWERS = {YES: "confirmed", NO: "not confirmed", G1: "G1", G2: "G2"}

Pair: TypeAlias = tuple[int, int]


@dataclass
class Certificate:
    """The lines of a certificate, as lists of numbers."""

    dead: list[int]
    pairs: list[Pair]

    @staticmethod
    def read(text: bytes) -> Certificate:
        """Reads what the program wrote."""
        lines = [line.split() for line in text.decode("ascii").splitlines()]
        dead = [int(line[1]) for line in lines if line[0] == "dead"]
        return Certificate(dead, [(int(line[1]), int(line[2])) for line in lines if line[0] == "pair"])

    def text(self) -> bytes:
        """The text, with the lines in the order of the lists."""
        lines = [f"dead {node}\n" for node in self.dead] + [f"pair {w} {r}\n" for w, r in self.pairs]
        return "".join(["approval 1\n", *lines, "end\n"]).encode("ascii")


def write_files(*contents: bytes) -> None:
    """Writes the files of WORDS, or the first of them."""
    for name, content in zip(WORDS, contents):
        with open(name, "wb") as file:
            file.write(content)


def run(words: list[str]) -> Answer:
    done = subprocess.run(words, stdin=subprocess.DEVNULL, capture_output=True, text=True)
    return done.returncode, done.stdout, done.stderr


def count_wrong(commands: dict[str, list[str]], rows: Iterable[Row]) -> int:
    """How many answers to rows are wrong, of the commands by their names."""
    wrong = 0
    for rule, writer, reader, text, answer in rows:
        write_files(json.dumps(writer).encode(), json.dumps(reader).encode(), text)
        for name, words in commands.items():
            found = run([*words, *WORDS])
            if found != answer:
                wrong += 1
                print(f"{rule}: {name} answers {found}, not {answer}")
    return wrong


def count_wrong_rows(program: str) -> int:
    """How many answers to the table are wrong; the example is run as a script."""
    as_script = {"the example": [sys.executable, EXAMPLE]}
    wrong = count_wrong({"the program": [program, "confirm"], **as_script}, ROWS) + count_wrong(as_script, long_rows())
    print(f"table: {len(ROWS)} certificates, {wrong} answers wrong", flush=True)
    return wrong


def dead_types(choose: random.Random) -> list[Type]:
    """Records without data, which hold one another, and a union of such records."""
    count = choose.choice((1, 1, 2, 3))
    made = [Type("record", name=f"Dead{k}", fields=[]) for k in range(count)]
    for k, type in enumerate(made):
        type.fields = [Field("next", made[(k + 1) % count])]
        if choose.randrange(2):
            type.fields.append(Field("more", Type("array", of=choose.choice(made))))
    return [*made, Type("union", branches=list(made))]


def put_dead(choose: random.Random, root: Type) -> Type:
    """Puts types without data where some types of a schema are used, or in the place of its root."""
    made = dead_types(choose)
    if choose.randrange(20) == 0:
        return choose.choice(made)
    for type in all_types(root):
        if choose.randrange(3) or type in made:
            continue
        if type.kind in ("array", "map"):
            type.of = choose.choice(made)
        elif type.kind == "union":
            type.branches.insert(choose.randrange(len(type.branches) + 1), choose.choice(made[:-1]))
        elif type.kind == "record":
            or_null = Type("union", branches=[Type("null"), made[0]])
            type.fields.append(Field("dead", choose.choice((Type("array", of=made[0]), or_null, made[-1]))))
    return root


def dead_pair(choose: random.Random) -> tuple[bytes, bytes]:
    """A schema with types that have no data, and one that it evolved into."""
    root = put_dead(choose, schema(choose, most=choose.choice((5, 20, 40))))
    reader = evolved(choose, root, choose.choice((0.02, 0.1, 0.3)))
    return random_texts.text_of(choose, root), random_texts.text_of(choose, reader)


def random_pair(choose: random.Random) -> tuple[bytes, bytes]:
    """The texts of a writer's schema and a reader's."""
    kind = choose.choices(list(KINDS), list(KINDS.values()))[0]
    return dead_pair(choose) if kind == "dead" else random_texts.PAIRS[f"pair: {kind}"][0](choose)


@dataclass
class Case:
    """What the spoiled certificates of a pair of schemas are made of."""

    choose: random.Random
    writer: list[example.Node]
    reader: list[example.Node]
    certificate: Certificate
    other: bytes

    def any_pair(self) -> Pair:
        """A pair of nodes, of which one now and then is no node."""
        return self.choose.randrange(len(self.writer) + 1), self.choose.randrange(len(self.reader) + 1)

    def reached(self, dead: list[int]) -> Certificate:
        """The pairs that the roots lead to, also past those at which data fail."""
        check = example.Check(self.writer, self.reader, set(dead), set())
        left: list[Pair] = [(0, 0)]
        while left:
            pair = left.pop()
            if not check.stands(pair):
                check.pairs.add(pair)
                left += check.asked_by(*pair) or []
        return Certificate(dead, sorted(check.pairs))


def dead_nodes(nodes: list[example.Node]) -> list[int]:
    """All nodes without data."""
    dead, is_all = set(range(len(nodes))), False
    while not is_all:
        check = example.Check(nodes, [], dead, set())
        kept = {node for node in dead if check.is_dead(node)}
        dead, is_all = kept, kept == dead
    return sorted(dead)


def without(choose: random.Random, items: list) -> list:
    at = choose.randrange(len(items))
    return items[:at] + items[at + 1 :]


def pair_left_out(case: Case) -> bytes | None:
    dead, pairs = case.certificate.dead, case.certificate.pairs
    return Certificate(dead, without(case.choose, pairs)).text() if pairs else None


def pair_added(case: Case) -> bytes:
    return Certificate(case.certificate.dead, sorted({*case.certificate.pairs, case.any_pair()})).text()


def pair_altered(case: Case) -> bytes | None:
    dead, pairs = case.certificate.dead, case.certificate.pairs
    return Certificate(dead, sorted({*without(case.choose, pairs), case.any_pair()})).text() if pairs else None


def dead_left_out(case: Case) -> bytes | None:
    dead, pairs = case.certificate.dead, case.certificate.pairs
    return Certificate(without(case.choose, dead), pairs).text() if dead else None


def dead_added(case: Case) -> bytes:
    return Certificate(sorted({*case.certificate.dead, case.any_pair()[0]}), case.certificate.pairs).text()


def dead_altered(case: Case) -> bytes | None:
    dead, pairs = case.certificate.dead, case.certificate.pairs
    return Certificate(sorted({*without(case.choose, dead), case.any_pair()[0]}), pairs).text() if dead else None


def dead_taken_as_live(case: Case) -> bytes | None:
    """Without dead nodes, and with the pairs that are asked for then."""
    return case.reached([]).text() if case.certificate.dead else None


def lines_exchanged(case: Case) -> bytes:
    text = case.certificate.text().splitlines(keepends=True)
    a, b = case.choose.sample(range(len(text)), 2)
    text[a], text[b] = text[b], text[a]
    return b"".join(text)


def byte_altered(case: Case) -> bytes:
    text = bytearray(case.certificate.text())
    text[case.choose.randrange(len(text))] = case.choose.choice(CHARACTERS)
    return bytes(text)


def end_missing(case: Case) -> bytes:
    text = case.certificate.text()
    return text[: -case.choose.randrange(1, 6)]


def number_too_great(case: Case) -> bytes:
    """With a last line of which a number is over 4,095, so that the lines still rise."""
    dead, pairs = case.certificate.dead, case.certificate.pairs
    great = case.choose.choice((4_096, 4_097, 10_000, 2**32, 2**64, 10**40)) + case.choose.randrange(3)
    if case.choose.randrange(3) == 0:
        return Certificate([*dead, great], pairs).text()
    pair = (pairs[-1][0], great) if pairs and case.choose.randrange(2) else (great, 0)
    return Certificate(dead, [*pairs, pair]).text()


def of_another_pair(case: Case) -> bytes:
    return case.other


SPOILS: tuple[Callable[[Case], bytes | None], ...] = (
    pair_left_out, pair_added, pair_altered, dead_left_out, dead_added, dead_altered, dead_taken_as_live,
    lines_exchanged, byte_altered, end_missing, number_too_great, of_another_pair,
)
WAYS = (AS_WRITTEN, "of a pair not approved", *(spoil.__name__.replace("_", " ") for spoil in SPOILS))


def texts_of(case: Case, is_approved: bool) -> Iterator[tuple[str, bytes]]:
    """Certificates for a pair of schemas, each with its way; the spoiled ones differ from the first."""
    text = case.certificate.text()
    yield WAYS[0] if is_approved else WAYS[1], text
    for way, spoil in zip(WAYS[2:], SPOILS):
        spoiled = spoil(case)
        if spoiled is not None and spoiled != text:
            yield way, spoiled


def ask_example(words: list[str]) -> Answer:
    """What the example answers, in this process."""
    out, errors = io.StringIO(), io.StringIO()
    with contextlib.redirect_stdout(out), contextlib.redirect_stderr(errors):
        try:
            status = example.main(words)
        except SystemExit as end:
            status = int(end.code or 0)
        except Exception as fault:
            status = 1
            print(repr(fault), file=sys.stderr)
    return status, out.getvalue(), errors.getvalue()


def judge(program: str) -> tuple[int, Certificate | None]:
    """The status of judging the schemas, and the certificate that an approval comes with."""
    status, _, _ = run([program, "judge", *WORDS[:2], "--certificate", WORDS[2]])
    if status != 0:
        return status, None
    with open(WORDS[2], "rb") as file:
        return status, Certificate.read(file.read())


@dataclass
class Batch:
    """What came of some pairs: how many were refused, how often each way had each answer, and the differences."""

    refused: int
    counts: collections.Counter[tuple[str, str]]
    differences: list[str]


def compare_pair(program: str, number: int, other: bytes, batch: Batch) -> bytes:
    """Compares the answers to the certificates of a random pair of schemas; of these the first is answered."""
    choose = random.Random(f"confirm {number}")
    status = 3
    while status > 2:
        write_files(*random_pair(choose))
        status, certificate = judge(program)
        batch.refused += status > 2
    writer, reader = (example.read_schema(word) for word in WORDS[:2])
    case = Case(choose, writer, reader, certificate or Certificate([], []), other)
    if certificate is None:
        case.certificate = case.reached(dead_nodes(writer))
    for way, text in texts_of(case, certificate is not None):
        answer = compare_certificate(program, f"pair {number}, {way}", way, text, batch)
        if answer == YES and status == 1:
            batch.differences.append(f"pair {number}, {way}: confirmed, and judged no")
    return case.certificate.text()


def compare_certificate(program: str, what: str, way: str, text: bytes, batch: Batch) -> Answer:
    """Compares the answers to a certificate; that of the program is answered. Of the first difference in a batch the
    files are kept.
    """
    with open(WORDS[2], "wb") as file:
        file.write(text)
    theirs, ours = run([program, "confirm", *WORDS]), ask_example(WORDS)
    batch.counts[way, ANSWERS.get(theirs, "other")] += 1
    if theirs != ours:
        kept = "" if batch.differences else f"; files in {keep()}"
        batch.differences.append(f"{what}: the program answers {theirs}, the example {ours}{kept}")
    return theirs


def keep() -> str:
    """Copies the files into a new folder."""
    folder = tempfile.mkdtemp(prefix="confirm-")
    for word in WORDS:
        shutil.copy(word, folder)
    return folder


def compare_batch(job: tuple[str, range]) -> Batch:
    program, numbers = job
    batch, other = Batch(0, collections.Counter(), []), lines("pair 0 0", "pair 1 1")
    with tempfile.TemporaryDirectory() as folder, contextlib.chdir(folder):
        for number in numbers:
            other = compare_pair(program, number, other, batch)
    return batch


def compare_pairs(program: str, count: int) -> Batch:
    """Compares the answers to the certificates of random pairs, in two processes."""
    jobs = [(program, range(start, min(start + BATCH, count))) for start in range(0, count, BATCH)]
    whole = Batch(0, collections.Counter(), [])
    with multiprocessing.Pool(2) as pool:
        for batch in pool.imap(compare_batch, jobs):
            whole.refused += batch.refused
            whole.counts += batch.counts
            whole.differences += batch.differences
    return whole


def missing(counts: collections.Counter[tuple[str, str]]) -> Iterator[str]:
    """What did not occur, or may not have occurred."""
    for way in WAYS:
        if not any(way == it for it, _ in counts):
            yield f"{way}: none occurred"
    for answer in ANSWERS.values():
        if not any(answer == found and way != AS_WRITTEN for way, found in counts):
            yield f"no spoiled certificate had the answer {answer}"
    for way, answer in counts:
        if answer == "other" or (way == AS_WRITTEN) > (answer == "confirmed"):
            yield f"{way}: the program answers {answer}"


def print_counts(counts: collections.Counter[tuple[str, str]]) -> None:
    """A line for each way."""
    for way in WAYS:
        found = {answer: counts[way, answer] for answer in (*ANSWERS.values(), "other")}
        print(f"{way}:", ", ".join(f"{answer} {count}" for answer, count in found.items() if count))


def main(program: str, count: int) -> int:
    program = os.path.abspath(program)
    with tempfile.TemporaryDirectory() as folder, contextlib.chdir(folder):
        wrong = count_wrong_rows(program)
    found = compare_pairs(program, count)
    print_counts(found.counts)
    print(f"{count} pairs of schemas; {found.refused} others were refused")
    faults = [*found.differences[:SHOWN], *missing(found.counts)]
    print(*faults, sep="\n", end="\n" if faults else "")
    print(f"{len(ROWS) + found.counts.total()} certificates, {wrong + len(found.differences)} differ")
    return 1 if wrong or faults else 0


if __name__ == "__main__":
    if len(sys.argv) not in (2, 3):
        sys.exit(__doc__)
    sys.exit(main(sys.argv[1], int(sys.argv[2]) if len(sys.argv) == 3 else COUNT))

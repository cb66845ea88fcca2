"""What is judged and told of each file."""

from __future__ import annotations

import re
from dataclasses import dataclass, field
from typing import Iterable

from .allowed import Accepted, Allowed, line_for
from .desk import ANSWERS, Answer, Faults, Laid, Sheet
from .ending import MOST_FAULTS, MOST_READ
from .history import Groups
from .log import Log, complain, quoted
from .logical import notes
from .options import Options
from .places import Schema, Unreadable, lines_of, pointer_of
from .trees import Version

# What comes of a file, and the status, from what weighs least to what weighs most.
OUTCOMES = {"unchanged": 0, "new": 0, "yes": 0, "accepted": 0, "undecided": 2, "no": 1, "gone": 1, "refused": 3}


def worst(outcomes: Iterable[str]) -> str:
    return max(outcomes, key=list(OUTCOMES).index, default="yes")


def schema_of(text: Laid) -> Schema | None:
    try:
        return Schema(text.version.read())
    except (Unreadable, KeyError, TypeError):
        return None


@dataclass(frozen=True)
class Pair:
    """An old text, the path and the bases that it has, and who reads whom."""

    mode: str
    path: str
    bases: list[str]
    old: Laid

    @property
    def start(self) -> str:
        return f"{quoted(self.bases[0])}{' forward' if self.mode == 'forward' else ''}: "

    @property
    def side(self) -> str:
        """The side on which the new text is."""
        return "reader" if self.mode == "backward" else "writer"


@dataclass
class Findings:
    """What is told of a no: its first faults, how many more there are, and the places that no line accepts."""

    lines: list[str] = field(default_factory=list)
    more: int = 0
    # The place of the first fault.
    first: str | None = None
    left: list[str | None] = field(default_factory=list)
    is_accepted: bool = False

    def told(self) -> list[str]:
        return self.lines + ([f"and {self.more} more"] if self.more else [])


class FileJudge:
    """Judges a file by itself and against each different text that bases have of it."""

    def __init__(self, options: Options, log: Log, allowed: Allowed, sheet: Sheet, path: str) -> None:
        self.options, self.log, self.allowed, self.sheet, self.path = options, log, allowed, sheet, path
        self.new: Laid | None = None
        self.schema: Schema | None = None
        # How many faults may still be told, and the notes that were.
        self.room = MOST_FAULTS
        self.noted: set[tuple[str, str]] = set()

    def judge(self, version: Version, groups: Groups) -> str:
        if version.fault:
            return self.refused([version.fault])
        self.new = self.sheet.lay(version, self.path)
        answer = self.sheet.schema(self.new)
        if answer.status:
            why = self.why(answer)
            return self.refused(why, self.line_in(why))
        self.schema = schema_of(self.new) if groups else None
        found = [each for (path, old), bases in groups.items() for each in self.against(path, old, bases)]
        if len(self.noted) > MOST_FAULTS:
            complain(f"note {quoted(self.path)}: and {len(self.noted) - MOST_FAULTS} more")
        return worst(["new", *found])

    def against(self, path: str, version: Version, bases: list[str]) -> list[str]:
        """Judges the new text and an old one that some bases have; what comes of it, in each direction."""
        if path != self.path and not self.options.json:
            complain(f"renamed {quoted(path)} -> {quoted(self.path)}")
        if version.fault:
            return [self.refused([f"{quoted(bases[0])}: {version.fault}"])]
        old = self.sheet.lay(version, path)
        modes = ("backward", "forward") if self.options.mode == "full" else (self.options.mode,)
        found = [self.pair(Pair(mode, path, bases, old)) for mode in modes]
        if "refused" not in found:
            self.note(old)
        return found

    def pair(self, pair: Pair) -> str:
        texts = (pair.old, self.new) if pair.side == "reader" else (self.new, pair.old)
        answer = self.sheet.judge(*texts, self.options.json)
        outcome, findings = ANSWERS[answer.status], Findings()
        if outcome == "refused":
            return self.refused(self.why_pair(answer, pair))
        if outcome == "no" and (self.options.allow is not None or not self.options.json):
            findings = self.find(answer, pair)
            outcome = "accepted" if findings.is_accepted else "no"
        if self.options.json:
            self.answer(outcome, answer, pair)
        elif outcome != "yes":
            self.tell(outcome, answer, findings, pair)
        return outcome

    def find(self, answer: Answer, pair: Pair) -> Findings:
        """The faults of a no, of which so many are told as there is room for, and whether all are accepted."""
        accepted = self.allowed.of(self.path, pair.bases) if self.options.allow is not None else None
        with self.sheet.explain(answer) as faults:
            findings = self.read(faults, accepted, pair.side)
        self.room -= len(findings.lines)
        return findings

    def read(self, faults: Faults, accepted: Accepted | None, side: str) -> Findings:
        """Reads faults as long as there is something to tell or to accept."""
        findings, left = Findings(), {}
        for number, fault in enumerate(faults):
            if number >= max(self.room, 1) and self.is_enough(number, accepted, len(left)):
                break
            place = pointer_of(fault, side, self.schema) if accepted or number == 0 else None
            findings.first = place if number == 0 else findings.first
            if number < self.room:
                findings.lines.append(fault)
            if accepted and not accepted.takes(place):
                left[place] = None
        findings.more = faults.count - len(findings.lines)
        findings.left, findings.is_accepted = list(left), accepted is not None and not left
        return findings

    @staticmethod
    def is_enough(number: int, accepted: Accepted | None, left: int) -> bool:
        """Whether no further fault can change what is told."""
        return accepted is None or accepted.is_all or left >= MOST_FAULTS or (left > 0 and number >= MOST_READ)

    def why(self, answer: Answer) -> list[str]:
        """Why a text is refused, and what to do if --tame takes it."""
        lines = answer.said.split("\n")
        is_float = any(re.search(r": (float|double) is not supported$", line) for line in lines)
        return lines + ["--tame takes float and double"] * (is_float and not self.options.tame)

    def why_pair(self, answer: Answer, pair: Pair) -> list[str]:
        """The same of an old text, or of a pair that a filter refuses."""
        again = self.sheet.schema(pair.old)
        first, *others = self.why(again if again.status == 3 else answer)
        return [f"{quoted(pair.bases[0])}: {first}", *others]

    def note(self, old: Laid) -> None:
        """Tells what has changed of logical types."""
        before = schema_of(old)
        told = []
        for note in notes(before, self.schema) if before and self.schema else ():
            if note not in self.noted:
                self.noted.add(note)
                told += [note] if len(self.noted) <= MOST_FAULTS else []
        lines = self.lines(pointer for pointer, _ in told)
        for pointer, words in told:
            self.log.note(self.path, f"{pointer}: {words}" if pointer else words, lines.get(pointer, 0))

    def lines(self, pointers: Iterable[str]) -> dict[str, int]:
        """The lines of places in the file, if there are remarks at them."""
        found = list(pointers) if self.log.is_workflow else []
        return lines_of(self.new.version.own(), found) if found else {}

    def refused(self, lines: list[str], line: int = 0) -> str:
        self.log.tell(self.path, lines, line)
        return "refused"

    def line_in(self, lines: list[str]) -> int:
        """The first line of the file that `avro schema --why` names."""
        named = re.compile(rf"{re.escape(quoted(self.path))}:(\d+):")
        return next((int(found[1]) for found in map(named.match, lines) if found), 0)

    def tell(self, outcome: str, answer: Answer, findings: Findings, pair: Pair) -> None:
        first, *others = ["no, accepted"] if outcome == "accepted" else answer.said.split("\n")
        allow = [f"allow: {line_for(self.path, pair.bases[0], place or '')}" for place in findings.left]
        kind = "notice" if outcome == "accepted" else "error"
        place = findings.first or ""
        line = self.lines([place]).get(place, 0) if findings.first is not None else 0
        self.log.tell(self.path, [pair.start + first, *others, *findings.told(), *allow], line, kind)

    def answer(self, outcome: str, answer: Answer, pair: Pair) -> None:
        renamed = {"renamed": pair.path} if pair.path != self.path else {}
        accepted = {"accepted": True} if outcome == "accepted" else {}
        members = {"file": self.path, **renamed, "base": pair.bases[0], "mode": pair.mode, **accepted}
        self.log.answer(answer.said, members)

"""The breaks that are accepted."""

from __future__ import annotations

import fnmatch
import os
import re
from dataclasses import dataclass
from pathlib import Path
from typing import Iterator

from .ending import FAILED, MOST_PATTERNS, MOST_TEXT, USAGE, stop
from .log import in_quotes, quoted, unquoted
from .places import of_field
from .trees import read_file


@dataclass(frozen=True)
class Words:
    """What a line has for a file or a base: a name, or a pattern, which a name in quotes is not."""

    name: str
    is_pattern: bool = False

    def match(self, name: str) -> bool:
        return name == self.name or (self.is_pattern and fnmatch.fnmatchcase(name, self.name))


def words_of(written: str) -> Words:
    name = unquoted(written)
    if name is not None or not re.search(r"[*?[]", written):
        return Words(written if name is None else name)
    return Words(written, is_pattern=True)


@dataclass(frozen=True)
class Line:
    """A line of the file: what it accepts is at the pointer or below, and everywhere if that is empty."""

    text: str
    file: Words
    base: Words
    pointer: str

    @classmethod
    def read(cls, text: str) -> Line | None:
        words, pointer = text.strip(), ""
        *rest, last = words.rsplit(None, 1)
        if rest and last.startswith("/"):
            words, pointer = rest[0].rstrip(), last
        if words.endswith('"') and (found := re.fullmatch(r'(.*\S)\s+("(?:[^"\\]|\\.)*")', words)):
            parts = list(found.groups())
        else:
            parts = words.rsplit(None, 1)
        return cls(text.strip(), *map(words_of, map(str.rstrip, parts)), of_field(pointer)) if len(parts) == 2 else None

    def has_pattern(self) -> bool:
        return self.file.is_pattern or self.base.is_pattern


def line_for(path: str, base: str, pointer: str) -> str:
    """The line that accepts what fails at a place."""
    file = quoted(path)
    text = f"{file} {quoted(base)} {pointer}".rstrip()
    line = Line.read(text)
    is_read = line and (line.file, line.base, line.pointer) == (Words(path), Words(base), pointer)
    return text if is_read and not text.startswith("#") else f"{in_quotes(path)} {in_quotes(base)} {pointer}".rstrip()


class Accepted:
    """The lines that accept something of a file for some bases, by their pointers."""

    def __init__(self, lines: Iterator[Line], used: set[str]) -> None:
        self.used = used
        self.lines: dict[str, list[str]] = {}
        for line in lines:
            self.lines.setdefault(line.pointer, []).append(line.text)
        # Whether everything about the file is accepted.
        self.is_all = "" in self.lines

    def takes(self, pointer: str | None) -> bool:
        """Whether a fault is accepted, there or anywhere above; of one whose place is not known, only with its file."""
        above = pointer or ""
        found = list(self.lines.get("", ()))
        while above:
            found += self.lines.get(above, ())
            above = above.rpartition("/")[0]
        self.used.update(found)
        return bool(found)


class Allowed:
    """The file of accepted breaks."""

    def __init__(self, file: str | None) -> None:
        self.file = file
        self.lines: dict[int, Line] = {}
        self.used: set[str] = set()
        for number, text in enumerate(self.texts(file) if file is not None else (), 1):
            if text.strip() and not text.startswith("#"):
                line = Line.read(text)
                self.lines[number] = line or stop(USAGE, f"{quoted(file)}:{number}: not FILE BASE [POINTER]")
        self.patterns = [line for line in self.lines.values() if line.file.is_pattern]
        if sum(line.has_pattern() for line in self.lines.values()) > MOST_PATTERNS:
            stop(FAILED, f"{quoted(file)}: has more than {MOST_PATTERNS} patterns")
        self.names: dict[str, list[Line]] = {}
        for line in self.lines.values():
            self.names.setdefault(line.file.name, []).append(line)

    @staticmethod
    def texts(file: str) -> list[str]:
        data = read_file(Path(file))
        if len(data) > MOST_TEXT:
            stop(FAILED, f"{quoted(file)}: has more than {MOST_TEXT} bytes")
        return os.fsdecode(data).splitlines()

    def of(self, path: str, bases: list[str]) -> Accepted:
        lines = (*self.names.get(path, ()), *(line for line in self.patterns if line.file.match(path)))
        return Accepted((line for line in lines if any(map(line.base.match, bases))), self.used)

    def unused(self) -> Iterator[str]:
        for number, line in self.lines.items():
            if line.text not in self.used:
                yield f"{quoted(self.file)}:{number}: accepts nothing: {line.text}"

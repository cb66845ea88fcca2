"""Names and lines as they are printed: nothing in them ends a line, moves a cursor or begins a command of a log."""

from __future__ import annotations

import json
import os
import re
from dataclasses import dataclass
from typing import Union

from .ending import MOST_LINE

# What git writes for a byte of a name in quotes.
ESCAPES = {ord(letter): f"\\{escape}" for letter, escape in zip('\a\b\t\n\v\f\r"\\', 'abtnvfr"\\')}


def escaped_byte(byte: int) -> str:
    return ESCAPES.get(byte) or (chr(byte) if 32 <= byte < 127 else f"\\{byte:03o}")


def in_quotes(name: str) -> str:
    """A name in quotes, with git's escapes, and without two `#` in a row, by which commands of logs begin."""
    return '"' + "".join(map(escaped_byte, os.fsencode(name))).replace("##", "#\\043") + '"'


def quoted(name: str) -> str:
    """A name as git prints it with core.quotePath; it is in quotes also where it could begin a command of a log."""
    written = in_quotes(name)
    return name if written == f'"{name}"' and not name.startswith((" ", ":")) else written


def unquoted(written: str) -> str | None:
    """The name that stands in quotes, with git's escapes; none where it is something else."""
    if not re.fullmatch(r'"(?:[^"\\]|\\[abtnvfr"\\]|\\[0-3][0-7]{2})*"', written):
        return None
    letters = {escape[1:]: bytes([byte]) for byte, escape in ESCAPES.items()}
    data = re.sub(
        rb'\\([0-7]{3}|[abtnvfr"\\])',
        lambda found: letters.get(found[1].decode()) or bytes([int(found[1], 8)]),
        os.fsencode(written[1:-1]),
    )
    return os.fsdecode(data)


def shown(line: str) -> str:
    """A line of printable characters, which no reader of logs takes for a command."""
    if not line.isprintable():
        line = "".join(letter if letter.isprintable() else f"\\u{{{ord(letter):x}}}" for letter in line)
    line = line.replace("##", "#\\u{23}")
    return re.sub(r"^(\s*):(?=:)", r"\1\\u{3a}", line)


def cut(line: str) -> str:
    """A line without its middle, if it is long."""
    half = MOST_LINE // 2
    return line if len(line) <= MOST_LINE else f"{line[:half]}...{line[-half:]}"


def first_line(text: bytes) -> str:
    return os.fsdecode(text).strip().partition("\n")[0]


def write(descriptor: int, line: str) -> None:
    with open(descriptor, "wb", closefd=False) as output:
        output.write(f"{line}\n".encode())


def complain(line: str) -> None:
    """Prints to standard error; where that fails the status has to do."""
    try:
        write(2, shown(cut(line)))
    except OSError:
        pass


# The members of an answer that are put before the program's.
Members = dict[str, Union[str, bool]]


@dataclass(frozen=True)
class Log:
    """Where answers and notes go."""

    is_json: bool
    is_quiet: bool
    # Whether findings are shown at their files, in a workflow of GitHub.
    is_workflow: bool

    def tell(self, path: str, lines: list[str], line: int = 0, kind: str = "error") -> None:
        """Tells what is found of a file, at a line of it if that is not 0."""
        first, *others = map(cut, lines)
        text = [shown(f"{quoted(path)}: {first}"), *(f"    {shown(each)}" for each in others)]
        if self.is_json:
            for each in text:
                complain(each)
        else:
            write(1, "\n".join(text))
        self.remark(kind, path, line, lines)

    def note(self, path: str, words: str, line: int) -> None:
        complain(f"note {quoted(path)}: {words}")
        self.remark("notice", path, line, [words])

    def answer(self, said: str, members: Members) -> None:
        """Prints an answer of the program, which is an object of JSON, with members before its own."""
        line = f"{json.dumps(members, separators=(',', ':'))[:-1]},{said[1:]}"
        if not line.isascii():
            line = json.dumps(json.loads(line), separators=(",", ":"))
        write(1, line.replace("##", "#\\u0023"))

    def sum_up(self, line: str) -> None:
        if not self.is_quiet:
            complain(line)

    def remark(self, kind: str, path: str, line: int, lines: list[str]) -> None:
        """In a workflow of GitHub: shows words at a line of a file, or, if it is 0, at the file."""
        if self.is_workflow and not self.is_json:
            place = f"file={in_property(quoted(path))}" + (f",line={line}" if line else "")
            data = "\n".join(shown(cut(each)) for each in lines)
            write(1, f"::{kind} {place}::{in_data(data)}")


def in_data(text: str) -> str:
    return text.replace("%", "%25").replace("\r", "%0D").replace("\n", "%0A")


def in_property(text: str) -> str:
    return in_data(text).replace(":", "%3A").replace(",", "%2C")

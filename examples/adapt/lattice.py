#!/usr/bin/env python3
"""Rewrites a schema for verdicts, so that `avro` sees each widening of Avro, those to float and double as well:

    avro judge <(lattice.py < old.avsc) <(lattice.py < new.avsc) | lattice.py --names
    avro explain <(lattice.py < old.avsc) <(lattice.py < new.avsc) | lattice.py --names

An int, long, float or double becomes a fixed whose aliases are what is widened to it, so that the verdict is Avro's for
the schemas themselves, in unions too. With --names the words return into an answer, and a number of its datum is 0. Of
a default no number is kept, since no verdict depends on one. No data can be read with such a schema: for data there is
tame.py.

Exit status: 0; 3 a text is refused; 4 standard input cannot be read, or standard output cannot be written; 64 usage.
"""

from __future__ import annotations

import re
import sys
from typing import Any, BinaryIO

from filters import Failed, Refused, run, send, usage
from tame import DEPTH, RESERVED, Defaults, Rewriting, Unfit, read_leaf, rewrite_text, rewritten

# The numbers, each with those that are widened to it.
WIDENED: dict[str, tuple[str, ...]] = {
    "int": (),
    "long": ("int",),
    "float": ("int", "long"),
    "double": ("int", "long", "float"),
}
NAMES = {word: f"number.{word}_" for word in WIDENED}
# A size that the fixeds of a schema hardly have: a datum shows such a one as the number 0, too.
SIZE = 13
ZERO = "0" * SIZE
# A name as answers have it: of a branch, of a datum's branch, of a type.
NAMED = re.compile(rb"(<|\")number\.(int|long|float|double)_(?=[>\"])|\bnumber\.(int|long|float|double)_\(%d\)" % SIZE)
ZEROS = b'"' + rb"\u0000" * SIZE + b'"'


class Zeros(Defaults):
    """Reads defaults, and turns each number into the same text of a fixed."""

    @staticmethod
    def read_leaf(value: Any, word: Any, schema: Any, namespace: str) -> Any:
        read = read_leaf(value, word, schema, namespace)
        return ZERO if word in WIDENED else read


class Lattice(Rewriting):
    """Rewrites the numbers of a schema as fixeds."""

    reserved, stood_for = RESERVED | {f"{word}_" for word in WIDENED}, "a number"

    def __init__(self) -> None:
        super().__init__(is_back=False)
        self.given = Zeros()

    def turned(self, word: Any) -> Any:
        if not isinstance(word, str) or word not in WIDENED:
            return None
        name = NAMES[word]
        if name in self.written:
            return name
        self.written.add(name)
        return {"type": "fixed", "name": name, "aliases": [NAMES[other] for other in WIDENED[word]], "size": SIZE}

    def default(self, value: Any, given: Any, made: Any, namespace: str) -> Any:
        """What is made of a default fits the same branch, or one before it."""
        try:
            return self.given.read_default(value, given, namespace)[0]
        except Unfit:
            raise Refused("it is not a datum of its type") from None


def latticed(text: bytes) -> bytes:
    """The text of a schema as it is judged."""
    return rewritten(text, Lattice())


def with_words(answer: bytes) -> bytes:
    """An answer with the words for the names of the fixeds."""
    return NAMED.sub(lambda found: (found[1] or b"") + (found[2] or found[3]), answer).replace(ZEROS, b"0")


def send_words(source: BinaryIO, sink: BinaryIO) -> None:
    """Sends an answer line by line, since that of `explain` may be very long."""
    try:
        for line in source:
            send(sink, with_words(line))
    except OSError:
        raise Failed("-: cannot read") from None


def main(words: list[str]) -> int:
    sys.setrecursionlimit(DEPTH)
    if words == []:
        return run("lattice", lambda source, sink: rewrite_text(source, sink, Lattice()))
    if words == ["--names"]:
        return run("lattice", send_words)
    return usage(__doc__)


if __name__ == "__main__":
    sys.exit(main(sys.argv[1:]))

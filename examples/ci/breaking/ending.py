"""How a run ends, and the limits of what it takes."""

from __future__ import annotations

from typing import NoReturn

# Statuses other than those of verdicts: something fails, memory runs out, usage.
FAILED, NO_MEMORY, USAGE = 4, 5, 64

# The bytes that a schema may have for `avro`; of a longer text one more is read.
MOST_TEXT = 1_048_576
# The schemas that a tree may have.
MOST_FILES = 100_000
# The bytes of an answer of the program, and those of a filter.
MOST_ANSWER = 4_194_304
# The characters of a line that is printed; what is longer is cut in the middle.
MOST_LINE = 16_384
# The faults, and likewise the notes, that are told of a file.
MOST_FAULTS = 100
# The faults that are read in search of what is not accepted, once something is not.
MOST_READ = 2_000
# The patterns in a file of accepted breaks.
MOST_PATTERNS = 1_000
# The bytes of memory for a filter.
MOST_MEMORY = 314_572_800
# The seconds of processor time for all answers, and how many more there are for each text.
SECONDS, SECONDS_OF_TEXT = 10.0, 0.1


class Stop(Exception):
    """Ends the run: a status and a line."""

    def __init__(self, status: int, line: str) -> None:
        super().__init__(status, line)
        self.status, self.line = status, line


def stop(status: int, line: str) -> NoReturn:
    raise Stop(status, line)

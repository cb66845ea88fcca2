"""How a run ends, the lines of `avro explain`, and the one file."""

import contextlib
import errno
import io
import subprocess
import unittest

from .. import build
from ..desk import Clock, Faults, Laid, told
from ..ending import MOST_LINE, Stop
from ..run import failure
from ..trees import Version

VERSION = Version("", bytes, bytes)


def faults(*lines):
    """The faults in an output of these lines."""
    process = subprocess.Popen(["cat"], stdin=subprocess.PIPE, stdout=subprocess.PIPE)
    process.stderr = io.BytesIO()
    process.stdin.write(b"".join(lines))
    process.stdin.close()
    with contextlib.ExitStack() as stack:
        stack.callback(process.wait)
        stack.callback(process.stdout.close)
        return list(Faults(process, bytes, Clock(1000.0)))


class Ends(unittest.TestCase):
    def test_no_exception_is_a_break(self):
        for fault, status in [(ValueError("a\nb"), 4), (KeyError("x"), 4), (RecursionError(), 4), (MemoryError(), 5),
                              (OSError(errno.ENOMEM, "memory"), 5), (OSError(errno.ENOSPC, "full"), 4), (Stop(64, "x"), 64)]:  # fmt: skip
            self.assertEqual(failure(fault).status, status)

    def test_names_of_files_are_quoted(self):
        self.assertEqual(failure(OSError(errno.EACCES, "no", b"a\nb")).line, '"a\\nb": no')


class Explained(unittest.TestCase):
    def test_lines(self):
        self.assertEqual(faults(b"no 2\n", b"a\n", b"b\n"), ["a", "b"])

    def test_long_lines_are_cut_in_the_middle(self):
        for length in (MOST_LINE - 1, MOST_LINE, MOST_LINE + 1, 2 * MOST_LINE, 5 * MOST_LINE):
            first, second = faults(b"no 2\n", b"a" + b"x" * (length - 2) + b"z\n", b"b\n")
            self.assertEqual((first[0], first[-1], second, "..." in first), ("a", "z", "b", length >= MOST_LINE))
            self.assertLessEqual(len(first), MOST_LINE)

    def test_lines_that_are_missing_end_the_run(self):
        for lines in [(b"no 2\n", b"a\n"), (b"no 1\n", b"a"), (b"",), (b"yes\n",)]:
            with self.assertRaises(Stop) as raised:
                faults(*lines)
            self.assertEqual(raised.exception.status, 4)

    def test_numbers_are_told_as_names(self):
        texts = (Laid("1.avsc", "a.avsc", VERSION), Laid("2.avsc", '"b\\n"', VERSION))
        self.assertEqual(told("avro: 2.avsc: S2\n2.avsc:1:1: x 1.avsc: y", texts), 'avro: "b\\n": S2\n"b\\n":1:1: x 1.avsc: y')


class OneFile(unittest.TestCase):
    def test_it_is_what_the_modules_make(self):
        self.assertEqual(build.main(["--check"]), 0)

    def test_modules_that_cannot_be_joined_are_refused(self):
        for name, first, second in [("a name twice", "x = 1", "x = 2"), ("another name", "x = 1", "from .a import x as y"),
                                    ("not before", "x = 1", "from .a import y")]:  # fmt: skip
            made = build.Joined()
            made.add("a", f'"""A."""\n\n{first}\n')
            with self.assertRaises(build.Unfit, msg=name):
                made.add("b", f'"""B."""\n\n{second}\n')


if __name__ == "__main__":
    unittest.main()

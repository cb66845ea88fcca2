"""Breaks that are accepted."""

import tempfile
import unittest

from ..allowed import Allowed, line_for
from ..ending import Stop


def allowed(text):
    with tempfile.NamedTemporaryFile("w", suffix=".txt") as file:
        file.write(text)
        file.flush()
        return Allowed(file.name)


class Lines(unittest.TestCase):
    def takes(self, line, path, base, pointer):
        return allowed(line + "\n").of(path, [base]).takes(pointer)

    def test_names(self):
        self.assertTrue(self.takes("a b.avsc v1 /fields/0", "a b.avsc", "v1", "/fields/0"))
        self.assertTrue(self.takes('"a b.avsc" "v1"', "a b.avsc", "v1", "/fields/0"))
        self.assertTrue(self.takes("a [1].avsc v1", "a [1].avsc", "v1", ""))
        self.assertFalse(self.takes("a.avsc v1", "b.avsc", "v1", ""))
        self.assertFalse(self.takes("a.avsc v1", "a.avsc", "v2", ""))

    def test_patterns(self):
        self.assertTrue(self.takes("shop/*.avsc v? /fields", "shop/a/b.avsc", "v2", "/fields/7/type/1"))
        self.assertFalse(self.takes('"*.avsc" v1', "a.avsc", "v1", ""))
        self.assertFalse(self.takes("*.avsc v1", "a.avs", "v1", ""))

    def test_pointers(self):
        for line, pointer, is_taken in [("/fields/0", "/fields/0/type/1", True), ("/fields/0/type", "/fields/0", True),
                                        ("/fields/0/type/type", "/fields/0/type/items", True), ("/fields/1", "/fields/10", False),
                                        ("/fields/0/type/1", "/fields/0", False), ("/type", "", True)]:  # fmt: skip
            self.assertEqual(self.takes(f"a v1 {line}", "a", "v1", pointer), is_taken, (line, pointer))

    def test_a_place_that_is_not_known_is_accepted_with_its_file_alone(self):
        self.assertFalse(self.takes("a v1 /fields", "a", "v1", None))
        self.assertTrue(self.takes("a v1", "a", "v1", None))

    def test_lines_are_read_back(self):
        for path in ["a.avsc", "a b.avsc", "a [1].avsc", "caf\u00e9 \"2\".avsc", "*", "#a", " a", "a v1", "x /fields", "##[x]"]:
            for base in ["v1", "HEAD~1", "v\u202e", "HEAD^{/a b}"]:
                line = line_for(path, base, "/fields/1")
                self.assertTrue(self.takes(line, path, base, "/fields/1"), line)
                self.assertFalse(self.takes(line, path + "x", base, "/fields/1"), line)
                self.assertFalse(self.takes(line, path, base, "/fields"), line)

    def test_what_was_not_used_is_told(self):
        found = allowed("# a\n\na v1\nb v1\n")
        found.of("a", ["v1"]).takes("")
        self.assertEqual([line.rpartition(": ")[2] for line in found.unused()], ["b v1"])

    def test_other_lines_are_usage(self):
        for text in ["a\n", "/fields/0\n", "a /fields/0\n"]:
            with self.assertRaises(Stop) as raised:
                allowed(text)
            self.assertEqual(raised.exception.status, 64)

    def test_patterns_are_not_too_many(self):
        with self.assertRaises(Stop) as raised:
            allowed("".join(f"*{number} v1\n" for number in range(1001)))
        self.assertEqual(raised.exception.status, 4)

    def test_hostile_lines_take_no_time(self):
        for text in ['"' * 100_000 + " v1", "*" * 5000 + "x v1", "a" + " " * 100_000 + "v1"]:
            allowed(text + "\n").of("a" * 5000, ["v1"])


if __name__ == "__main__":
    unittest.main()

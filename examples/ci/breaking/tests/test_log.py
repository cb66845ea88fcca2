"""Names and lines of hostile texts."""

import os
import subprocess
import tempfile
import unittest

from ..log import MOST_LINE, cut, in_data, in_property, in_quotes, quoted, shown, unquoted

NAMES = [b"order.avsc", b"of the shop/order.avsc", b"caf\xc3\xa9.avsc", b"a\nb", b'"', b"\\", b"\x1b[2J", b"\xe2\x80\xae.avsc", b"\xff",
         b"a\tb", b"a:b.avsc"]  # fmt: skip


class Quoting(unittest.TestCase):
    def test_names_are_quoted_as_git_does(self):
        with tempfile.TemporaryDirectory() as folder:
            subprocess.run(["git", "init", "-q", folder], check=True)
            for name in NAMES:
                path = os.fsencode(folder) + b"/" + name
                os.makedirs(os.path.dirname(path), exist_ok=True)
                with open(path, "wb"):
                    pass
            words = ["git", "-C", folder, "-c", "core.quotePath=true", "ls-files", "--others"]
            listed = subprocess.run(words, check=True, capture_output=True, text=True).stdout.splitlines()
        self.assertEqual(sorted(listed), sorted(quoted(os.fsdecode(name)) for name in NAMES))

    def test_names_in_quotes_are_read_back(self):
        for name in [*NAMES, b"##[stop-commands]x", b"###", b"::error::", b" x", bytes(range(1, 256))]:
            self.assertEqual(os.fsencode(unquoted(in_quotes(os.fsdecode(name)))), name)

    def test_what_is_not_in_quotes_is_no_name(self):
        for text in ["", "a", '"', '"a', '"\\x"', '"\\1"', '"a"b"', '"\\400"']:
            self.assertIsNone(unquoted(text))

    def test_no_name_begins_a_command(self):
        self.assertEqual(quoted("##[stop-commands]x"), '"#\\043[stop-commands]x"')
        self.assertEqual(quoted("::error::x"), '"::error::x"')
        self.assertEqual(quoted("  ::error::x"), '"  ::error::x"')


class Lines(unittest.TestCase):
    def test_lines_are_printable(self):
        self.assertEqual(shown("a\x1b[2J\u202eb\n\udcff"), "a\\u{1b}[2J\\u{202e}b\\u{a}\\u{dcff}")
        self.assertEqual(shown("caf\u00e9"), "caf\u00e9")

    def test_lines_begin_no_command(self):
        self.assertEqual(shown("  ::error::x"), "  \\u{3a}:error::x")
        self.assertEqual(shown("a ##[error]x ###"), "a #\\u{23}[error]x #\\u{23}#")

    def test_long_lines_are_cut(self):
        self.assertEqual(cut("x" * MOST_LINE), "x" * MOST_LINE)
        self.assertEqual(len(cut("x" * (MOST_LINE + 1))), MOST_LINE + 3)

    def test_parts_of_annotations(self):
        self.assertEqual(in_data("a%\r\nb:,"), "a%25%0D%0Ab:,")
        self.assertEqual(in_property("a:b,c"), "a%3Ab%2Cc")


if __name__ == "__main__":
    unittest.main()

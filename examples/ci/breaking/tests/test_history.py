"""What bases have of files that are there, gone or renamed."""

import json
import unittest

from ..history import History
from ..trees import Version


def version(name, fields=0):
    text = json.dumps({"type": "record", "name": name, "fields": [], "doc": str(fields)}).encode()
    return Version(f"{name} {fields}", lambda: text, lambda: text)


class Renames(unittest.TestCase):
    def history(self, new, *bases):
        history = History(new)
        for number, base in enumerate(bases):
            history.add(f"v{len(bases) - number}", base)
        return history

    def test_a_file_is_found_by_its_type(self):
        history = self.history({"b": version("R", 1)}, {"a": version("R")})
        self.assertEqual(history.gone, set())
        self.assertEqual(history.groups, {"b": {("a", version("R")): ["v1"]}})

    def test_of_several_the_same_text_counts(self):
        history = self.history({"b": version("R", 1), "c": version("R")}, {"a": version("R")})
        self.assertEqual(history.groups["c"], {("a", version("R")): ["v1"]})
        self.assertEqual(self.history({"b": version("R", 1), "c": version("R", 2)}, {"a": version("R")}).gone, {"a"})

    def test_a_file_that_was_there_is_no_new_place(self):
        self.assertEqual(self.history({"b": version("R")}, {"a": version("R"), "b": version("R")}).gone, {"a"})

    def test_only_the_newest_base_has_files_that_are_gone(self):
        self.assertEqual(self.history({"b": version("R")}, {"b": version("R")}, {"a": version("S")}).gone, set())

    def test_each_base_has_its_own_names(self):
        history = self.history({"b": version("R", 2)}, {"b": version("R", 1)}, {"a": version("R")}, {"a": version("R")})
        self.assertEqual(history.groups["b"], {("b", version("R", 1)): ["v3"], ("a", version("R")): ["v2", "v1"]})

    def test_what_differs_from_any_base_is_changed(self):
        new = {"a": version("R")}
        self.assertTrue(self.history(new, {"a": version("R")}, {}).is_unchanged("a"))
        self.assertFalse(self.history(new, {"a": version("R")}, {"a": version("R", 1)}).is_unchanged("a"))
        self.assertFalse(self.history(new, {}, {"a": version("R")}).is_unchanged("a"))
        self.assertFalse(self.history(new).is_unchanged("a"))


if __name__ == "__main__":
    unittest.main()

"""Places in schemas, their pointers and their lines."""

import json
import unittest

from ..places import KINDS, Place, Schema, Unreadable, lines_of, pointer_of, root, root_name

ORDER = """{"type": "record", "name": "shop.Order", "fields": [
  {"name": "id", "type": "long"},
  {"name": "notes",
   "type": ["null", {"type": "array", "items":
     {"type": "record", "name": "Note", "fields": [{"name": "text", "type": {"type": "string"}}]}}]},
  {"name": "last", "type": {"type": "map", "values": "Note"}}]}
""".encode()


def text(schema):
    return json.dumps(schema).encode()


class Kinds(unittest.TestCase):
    def test_a_text_is_no_kind_of_a_definition(self):
        for word in KINDS:
            self.assertEqual(Place("", word, "").kind, "reference")
            self.assertEqual(Place("", {"type": word}, "").kind, word)
            self.assertEqual(Place("", word, "a").name, ("a", word))
        self.assertEqual(Place("", "int", "a").name, ("", "int"))
        self.assertEqual(Place("", "b.c.D", "a").name, ("b.c", "D"))

    def test_names_of_roots(self):
        self.assertEqual(root_name(ORDER), "shop.Order")
        self.assertEqual(root_name(text({"type": {"type": "enum", "name": "E", "namespace": "a.b", "symbols": ["X"]}})), "a.b.E")
        for other in ['"int"', "[]", "{}", "5", "null", '{"type":"record"}', '{"type":"record","name":5}', '{"type":["null"]}', "",
                      "[" * 100_000, '{"type":"fixed","name":null}', "\xff", '{"type":5,"name":"x"}']:  # fmt: skip
            self.assertIsNone(root_name(other.encode("latin-1")), other[:40])

    def test_long_numbers_take_no_time(self):
        self.assertEqual(root(b'{"type":"int","x":' + b"1" * 1_000_000 + b"}").kind, "int")

    def test_what_is_no_json_is_unreadable(self):
        with self.assertRaises(Unreadable):
            root(b"{")


class Pointers(unittest.TestCase):
    def test_places_are_found(self):
        schema = Schema(ORDER)
        for at, pointer in [("$", ""), ("$.id", "/fields/0"), ("$.notes<array>[].text", "/fields/1/type/1/items/fields/0"),
                            ("$.last{}.text", "/fields/1/type/1/items/fields/0"), ("$.last{}", "/fields/2/type/values"),
                            ("$.nothing", None), ("$.id.x", None)]:  # fmt: skip
            self.assertEqual(schema.pointer(at), pointer, at)

    def test_faults_have_places_on_both_sides(self):
        fault = "$.last{}.text: NoMatch: a: b (writer's $.id) cannot be (writer's $.id)"
        self.assertEqual(pointer_of(fault, "writer", Schema(ORDER)), "/fields/0")
        self.assertEqual(pointer_of(fault, "reader", Schema(ORDER)), "/fields/1/type/1/items/fields/0")

    def test_branches_are_found_by_fullnames(self):
        fixed = {"type": "fixed", "name": "F", "size": 1}
        schema = Schema(text(["null", {"type": "record", "name": "a.b.R", "fields": [{"name": "x", "type": ["string", fixed, "R"]}]}]))
        for at, pointer in [("$<a.b.R>.x<a.b.F>", "/1/fields/0/type/1"), ("$<a.b.R>.x<a.b.R>.x<string>", "/1/fields/0/type/0"),
                            ("$<R>", None), ("$<null>", "/0")]:  # fmt: skip
            self.assertEqual(schema.pointer(at), pointer, at)

    def test_names_share_their_namespace(self):
        fields = [{"name": f"f{n}", "type": {"type": "fixed", "name": f"F{n}", "size": 1}} for n in range(2000)]
        record = {"type": "record", "name": "R", "namespace": "n" * 500_000, "fields": fields}
        names = [place.name for place in Schema(text(record)).root.below()]
        self.assertEqual(len({id(space) for space, _ in names}), 1)

    def test_a_cut_line_has_no_place(self):
        for fault in ["$.i...d: NoMatch: x (writer's $.id)", "$.id: NoMatch: x (writer's $.i...d)", "$<a...b>: NoMatch: x (writer's $)"]:
            self.assertIsNone(pointer_of(fault, "reader", Schema(ORDER)))


class Lines(unittest.TestCase):
    def test_lines_are_those_of_values(self):
        for pointer, line in [("", 1), ("/fields/0", 2), ("/fields/1", 3), ("/fields/1/type", 4), ("/fields/1/type/1/items", 5),
                              ("/fields/2", 6), ("/fields/1/type/1/items/fields/0/type/type", 5)]:  # fmt: skip
            self.assertEqual(lines_of(ORDER, [pointer]), {pointer: line})

    def test_what_is_not_there_is_where_its_parent_is(self):
        self.assertEqual(lines_of(ORDER, ["/fields/2/type/values/fields/7", "/fields/0"]), {"/fields/2/type/values/fields/7": 6, "/fields/0": 2})
        self.assertEqual(lines_of(b'\n\n "int"', ["/x"]), {"/x": 3})

    def test_each_value_has_its_line(self):
        written = json.dumps({"a": [1, {"b": [], "c": {}}, "x\\\"]"], "d": [[], [[2]]]}, indent=1)
        for pointer, word in [("/a/0", "1,"), ("/a/1/b", '"b"'), ("/a/1/c", '"c"'), ("/a/2", '"x'), ("/d/0", "[],"), ("/d/1/0/0", "2")]:
            line = lines_of(written.encode(), [pointer])[pointer]
            self.assertIn(word, written.splitlines()[line - 1])


if __name__ == "__main__":
    unittest.main()

"""Notes on logical types."""

import json
import time
import unittest

from ..logical import notes
from ..places import Schema

DATE, DECIMAL = {"type": "int", "logicalType": "date"}, {"type": "bytes", "logicalType": "decimal", "precision": 9}


def record(*fields, **others):
    return {"type": "record", "name": "Order", "fields": [{"name": name, "type": kind, **more} for name, kind, more in fields], **others}


def noted(old, new):
    return list(notes(*(Schema(json.dumps(schema).encode()) for schema in (old, new))))


class Notes(unittest.TestCase):
    def test_a_change_is_noted_at_its_field(self):
        old, new = record(("a", "int", {}), ("b", "int", {})), record(("b", DATE, {}), ("a", "int", {}))
        self.assertEqual(noted(old, new), [("/fields/0", "logicalType date, was none")])

    def test_a_scale_of_zero_may_be_left_out(self):
        self.assertEqual(noted(DECIMAL, {**DECIMAL, "scale": 0}), [])
        self.assertEqual(noted(DECIMAL, {**DECIMAL, "scale": 2}), [("", "decimal scale 2, was 0")])

    def test_fields_and_records_are_found_by_aliases(self):
        old = record(("a", "int", {}))
        new = record(("b", DATE, {"aliases": ["x", "a"]}), name="New", aliases=["y", "shop.Order"])
        self.assertEqual(noted(old, new), [("/fields/0", "logicalType date, was none")])
        self.assertEqual(noted(old, {**new, "aliases": []}), [])

    def test_of_several_aliases_the_first_that_is_known_counts(self):
        old = record(("a", "int", {}), ("b", DATE, {}))
        self.assertEqual(noted(old, record(("c", DATE, {"aliases": ["b", "a"]}))), [])
        self.assertEqual(noted(old, record(("c", DATE, {"aliases": ["a", "b"]}))), [("/fields/0", "logicalType date, was none")])

    def test_items_branches_and_definitions(self):
        def of(leaf):
            fixed = {**leaf, "type": "fixed", "name": "F", "size": 4}
            return record(("a", ["null", {"type": "array", "items": leaf}], {}), ("b", {"type": "map", "values": ["null", fixed]}, {}))

        found = noted(of({"type": "int"}), of(DATE))
        self.assertEqual(found, [("/fields/0", "logicalType date, was none"), ("/fields/1", "logicalType date, was none")])

    def test_a_type_that_became_a_branch_is_compared(self):
        self.assertEqual(noted(record(("a", DATE, {})), record(("a", ["null", "int"], {}))), [("/fields/0", "logicalType none, was date")])

    def test_many_aliases_take_no_time(self):
        aliases = [f"a{number}" for number in range(50_000)]
        old = record(*((f"a{number}", "int", {}) for number in range(1000)))
        new = record(("x", DATE, {"aliases": aliases[::-1]}), name="New", aliases=aliases + ["Order"])
        start = time.process_time()
        self.assertEqual(noted(old, new), [("/fields/0", "logicalType date, was none")])
        self.assertLess(time.process_time() - start, 5)


if __name__ == "__main__":
    unittest.main()

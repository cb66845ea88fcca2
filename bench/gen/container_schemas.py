"""The schemas of the files of `containers.py`, and the readers' schemas that they are copied into. `copy.c` has them in its code."""

import json


def written(schema):
    return json.dumps(schema, separators=(",", ":"))


def record(name, fields):
    """A record of named fields; a third part is a default."""
    named = [dict(zip(("name", "type", "default"), field)) for field in fields]
    return {"type": "record", "name": name, "fields": named}


def group(index, is_reader):
    """Ten fields of a writer, each group with its own fixed and enum, or the eight of them that the reader keeps."""
    number = "long" if is_reader else "int"
    fields = [
        (f"boolean_{index}", "boolean"),
        (f"int_{index}", number),
        (f"long_{index}", "long"),
        (f"string_{index}", "string"),
        (f"bytes_{index}", "bytes"),
        (f"fixed_{index}", {"type": "fixed", "name": f"Fixed{index}", "size": 8}),
        (f"enum_{index}", {"type": "enum", "name": f"Enum{index}", "symbols": ["A", "B", "C", "D", "E"]}),
        (f"union_{index}", ["null", "string"]),
        (f"array_{index}", {"type": "array", "items": "long"}),
        (f"map_{index}", {"type": "map", "values": number}),
    ]
    if is_reader:
        # Without the bytes and the map, and from the last to the first.
        fields = [field for field in fields if not field[0].startswith(("bytes", "map"))][::-1]
    return fields


NARROW = [("a", "long"), ("b", "int"), ("c", "string")]
NARROW_READER = [("c", "string"), ("d", "int", 7), ("b", "long")]
WIDE = [field for index in range(4) for field in group(index, False)]
WIDE_READER = [("added", "string", "added by the reader")] + [field for index in reversed(range(4)) for field in group(index, True)]

WRITERS = {"narrow": written(record("Narrow", NARROW)), "wide": written(record("Wide", WIDE)), "strings": written("string")}
READERS = {
    "narrow": written(record("Narrow", NARROW_READER)),
    "wide": written(record("Wide", WIDE_READER)),
    "strings": written(["null", "string"]),
}

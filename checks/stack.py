#!/usr/bin/env python3
"""Runs a program on what is nested as deep as its limits allow, with little stack.

    stack.py PROGRAM [KILOBYTES]

Texts of JSON that is 127 deep, in attributes, types and defaults of each kind, data that are 127 deep, and chains of 2,000 records are
read, shown, copied and judged with so much stack, 512 KB where no number is named. A line tells each run that ends by a signal, one for
each group says how much stack its runs need, and the last line is 'N runs, K wrong'.
"""

import json
import os
import resource
import subprocess
import sys
import tempfile

HERE = os.path.dirname(os.path.abspath(__file__))
sys.path.insert(0, os.path.join(HERE, "..", "bench", "gen"))

from generate import number
from refusal_rows import block, header

# The brackets that may stand in one another, and those that are around a default.
DEEP, AROUND = 127, 3
STEPS = range(32, 1025, 32)


def written(schema):
    return json.dumps(schema, separators=(",", ":"))


def record(name, type):
    return {"type": "record", "name": name, "fields": [{"name": "a", "type": type}]}


def array(items):
    return {"type": "array", "items": items}


def map_of(values):
    return {"type": "map", "values": values}


def plain(type):
    return type


def with_default(type, default):
    """A record with a field that has a default."""
    field = {"name": "f", "type": type, "default": 0}
    return written({"type": "record", "name": "Root", "fields": [field]}).replace('"default":0', f'"default":{default}')


def of_two(part):
    """A union of two records, of which each has a part of both and of an empty one."""
    empty = {"type": "record", "name": "E", "fields": []}
    return [record("A", part(["A", record("B", part(["A", "B", empty])), "E"]))]


def within(opening, inner, closing):
    """As many brackets in one another as a default may have."""
    count = (DEEP - AROUND) // (opening.count("{") + opening.count("["))
    return opening * (count - 1) + inner + closing * (count - 1)


def defaults():
    """Types whose defaults are as deep as JSON may be."""
    shapes = [(plain, '{"a":', "{}", "}"), (array, '{"a":[', '{"a":[]}', "]}"), (map_of, '{"a":{"k":', '{"a":{}}', "}}")]
    for part, opening, inner, closing in shapes:
        yield with_default(of_two(part), within(opening, inner, closing))
        yield with_default(record("A", part(["null", "A"])), within(opening, "null", closing))
    yield with_default(arrays(DEEP - AROUND), "[" * (DEEP - AROUND) + "]" * (DEEP - AROUND))


def arrays(count):
    """Arrays in one another."""
    return json.loads('{"type":"array","items":' * count + '"int"' + "}" * count)


def texts():
    """Texts that are as deep as JSON may be, without a default."""
    yield '{"type":"int","x":' + "[" * (DEEP - 1) + "]" * (DEEP - 1) + "}"
    yield '{"type":"int","x":' + '{"":' * (DEEP - 2) + "{}" + "}" * (DEEP - 1)
    yield written(arrays(DEEP))


def chain(count):
    """Records of which each has a field of the one before."""
    types = [record("R0", "int"), *(record(f"R{k}", f"R{k - 1}") for k in range(1, count))]
    fields = [{"name": f"f{k}", "type": type} for k, type in enumerate(types)]
    return written({"type": "record", "name": "Root", "fields": fields})


def data():
    """Schemas of themselves, and a datum of each that is as deep as a datum may be."""
    levels = DEEP // 2
    yield record("A", ["null", "A"]), b"\x02" * (levels - 1) + b"\x00"
    yield record("A", array("A")), b"\x02" * levels + b"\x00" * (levels + 1)
    yield record("A", map_of("A")), (number(1) + b"\x02k") * levels + b"\x00" * (levels + 1)


def groups():
    """The files of each group, and the commands that read them."""
    schemas = [["schema", "a.avsc"], ["schema", "a.avsc", "--canonical"], ["judge", "a.avsc", "a.avsc"]]
    read = [["check", "a.avro"], ["show", "a.avro"], ["copy", "a.avro", "out"], ["show", "a.avro", "--reader", "a.avsc"]]
    read.append(["copy", "a.avro", "out", "--reader", "a.avsc"])
    yield "texts", [({"a.avsc": text.encode()}, schemas) for text in texts()]
    yield "defaults", [({"a.avsc": text.encode()}, schemas) for text in defaults()]
    yield "chains", [({"a.avsc": chain(2_000).encode()}, [*schemas, ["explain", "a.avsc", "a.avsc"]])]
    files = ((written(schema).encode(), datum) for schema, datum in data())
    yield "data", [({"a.avsc": text, "a.avro": header(text.decode()) + block(1, datum)}, read) for text, datum in files]


def status(program, words, kilobytes):
    """The status of a run with so much stack; it is negative after a signal."""
    limit = lambda: resource.setrlimit(resource.RLIMIT_STACK, (kilobytes << 10, kilobytes << 10))
    return subprocess.run([program, *words], stdout=subprocess.DEVNULL, stderr=subprocess.DEVNULL, preexec_fn=limit, check=False).returncode


def needed(program, words):
    """How much stack a run needs, in steps."""
    return next((step for step in STEPS if status(program, words, step) >= 0), 0)


def check(program, kilobytes):
    """Runs all groups, and returns how many runs there were and what was wrong."""
    runs, wrong = 0, []
    for name, rows in groups():
        most = 0
        for number_of_row, (files, commands) in enumerate(rows):
            write(files)
            for words in commands:
                runs, said = runs + 1, status(program, words, kilobytes)
                if said != 0:
                    wrong.append(f"{name} {number_of_row}: {' '.join(words)}: status {said}")
                most = max(most, needed(program, words))
        print(f"{name}: {most} KB", flush=True)
    return runs, wrong


def write(files):
    for name, content in files.items():
        with open(name, "wb") as file:
            file.write(content)


def main():
    if len(sys.argv) not in (2, 3):
        sys.exit(__doc__)
    program, kilobytes = os.path.abspath(sys.argv[1]), int(sys.argv[2]) if len(sys.argv) == 3 else 512
    with tempfile.TemporaryDirectory() as folder:
        os.chdir(folder)
        runs, wrong = check(program, kilobytes)
    print("".join(f"{line}\n" for line in wrong), end="")
    print(f"{runs} runs, {len(wrong)} wrong")
    return 1 if wrong else 0


if __name__ == "__main__":
    sys.exit(main())

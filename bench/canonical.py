#!/usr/bin/env python3
"""Measures the cost of canonical forms, compared with reading the schema alone.

    canonical.py PROGRAM    prints, for each kind and number of nodes, the bytes of the canonical form and the least
                            processor time of nine runs of `PROGRAM schema FILE`, in milliseconds, without and with
                            `--canonical`
"""
import json
import os
import subprocess
import sys
import tempfile

NODES = [512, 1024, 2048, 4096]
RUNS = 9
NAME = 80


def name(k):
    return "%06d" % k


def fixed(k):
    return {"type": "fixed", "name": "F" + "x" * (NAME - 7) + name(k), "size": 16}


def definitions(nodes):
    """A union of fixeds with long names."""
    return [fixed(k) for k in range(nodes - 1)]


def references(nodes):
    """Fixeds with long names in the fields of a record, and a field more that refers to each."""
    types = [fixed(k) for k in range(nodes - 1)]
    fields = [{"name": "a" + name(k), "type": type_} for k, type_ in enumerate(types)]
    fields += [{"name": "b" + name(k), "type": type_["name"]} for k, type_ in enumerate(types)]
    return {"type": "record", "name": "R", "fields": fields}


def namespace(nodes):
    """Enums in the fields of a record, all in its long namespace."""
    fields = [{"name": "f" + name(k), "type": {"type": "enum", "name": "E" + name(k), "symbols": ["A", "B"]}} for k in range(nodes - 1)]
    return {"type": "record", "name": "R", "namespace": "n" * NAME, "fields": fields}


def run(words):
    """The processor time and the output of one run."""
    child = subprocess.Popen(words, stdout=subprocess.PIPE)
    out = child.stdout.read()
    _, status, usage = os.wait4(child.pid, 0)
    if status != 0:
        sys.exit("%s failed" % " ".join(words))
    return usage.ru_utime + usage.ru_stime, out


def least(words):
    return min(run(words)[0] for _ in range(RUNS)) * 1000


def main():
    if len(sys.argv) != 2:
        sys.exit(__doc__)
    print("| Schema | nodes | bytes of the form | reading alone, ms | with the form, ms |")
    print("|---|---|---|---|---|")
    with tempfile.TemporaryDirectory() as folder:
        path = os.path.join(folder, "schema.avsc")
        for kind in [definitions, references, namespace]:
            for nodes in NODES:
                with open(path, "w") as out:
                    out.write(json.dumps(kind(nodes), separators=(",", ":")))
                words = [sys.argv[1], "schema", path]
                form = len(run(words + ["--canonical"])[1])
                print("| %s | %d | %d | %.1f | %.1f |" % (kind.__name__, nodes, form, least(words), least(words + ["--canonical"])), flush=True)


if __name__ == "__main__":
    main()

#!/usr/bin/env python3
"""Tries what takes the places of `avro schema --why`: the error format of vim, and the problem matcher for GitHub.

    try_places.py [PROGRAM]

PROGRAM is $AVRO where it is not given, and else avro on the PATH. vim is tried where it is on the PATH. The last line says
how many places each took of how many; the status is 0 where each took all.
"""

import json
import os
import re
import shutil
import subprocess
import sys
import tempfile

HERE = os.path.dirname(os.path.abspath(__file__))
SCHEMA = """{"type":"record","name":"Order","fields":[
  {"name":"id","type":"int"},
  {"name":"price","type":"double",
   "default":0.0},
  {"name":"field-60","type":["null", "string","string"]}]}
"""
FILE = "or der.avsc"
# What must be found: lines, columns and words.
WANTED = [
    (3, 26, "/fields/1/type: double is not supported"),
    (4, 14, "/fields/1/default: 0.0 is not a 64-bit integer"),
    (5, 11, '/fields/2/name: "field-60" is not a valid name'),
    (5, 47, "/fields/2/type/2: duplicate branch string, first at /fields/2/type/1"),
]
# The settings of docs/COMMANDS.md.
COMMANDS = os.path.join(HERE, "..", "..", "docs", "COMMANDS.md")


def matched(text):
    """What GitHub's matcher finds in the lines of a text, as JavaScript's expressions do."""
    with open(os.path.join(HERE, "problem-matcher.json"), encoding="utf-8") as file:
        [matcher] = json.load(file)["problemMatcher"]
    [pattern] = matcher["pattern"]
    found = [match for line in text.splitlines() if (match := re.search(pattern["regexp"], line))]
    return [(it[pattern["file"]], int(it[pattern["line"]]), int(it[pattern["column"]]), it[pattern["message"]]) for it in found]


def listed_by_vim(program):
    """What vim lists after `:make`, with the settings of the page."""
    with open(COMMANDS, encoding="utf-8") as file:
        settings = re.findall(r"`:(set \S.*?)`", re.sub(r"\n", " ", file.read()))
    settings = [it.replace("makeprg=avro", "makeprg=" + program.replace(" ", "\\ ")) for it in settings]
    report = "call writefile(map(getqflist(), {_, it -> json_encode([it.valid, bufname(it.bufnr), it.lnum, it.col, it.text])}), 'list')"
    commands = [part for it in (*settings, "silent make!", report, "qa!") for part in ("-c", it)]
    subprocess.run(["vim", "-Nu", "NONE", "-es", "-T", "dumb", FILE, *commands], capture_output=True, timeout=60, check=False)
    with open("list", encoding="utf-8") as file:
        rows = [json.loads(line) for line in file]
    return [(name, line, column, text) for valid, name, line, column, text in rows if valid]


def main():
    program = os.path.realpath(shutil.which(sys.argv[1] if len(sys.argv) > 1 else os.environ.get("AVRO", "avro")) or sys.exit("no program"))
    wanted = [(FILE, *it) for it in WANTED]
    with tempfile.TemporaryDirectory() as folder:
        os.chdir(folder)
        with open(FILE, "w", encoding="utf-8") as file:
            file.write(SCHEMA)
        said = subprocess.run([program, "schema", FILE, "--why"], capture_output=True, text=True, check=False)
        found = {"matcher": matched(said.stderr)}
        if shutil.which("vim"):
            found["vim"] = listed_by_vim(program)
    for taker, places in found.items():
        for place in [it for it in wanted if it not in places] + [it for it in places if it not in wanted]:
            print(f"{taker}: {place}")
    print(", ".join(f"{taker} {len(places)} of {len(wanted)} places" for taker, places in found.items()))
    return 0 if all(places == wanted for places in found.values()) else 1


if __name__ == "__main__":
    sys.exit(main())

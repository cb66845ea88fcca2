#!/usr/bin/env python3
"""Makes a page of who reads whom, of all versions of a schema, with all faults and what to change:

    matrix.py v1.avsc v2.avsc v3.avsc > matrix.html
    matrix.py --tame v1.avsc v2.avsc v3.avsc > matrix.html

A row is the schema that data were written with, a column the one that they are read with. The page is one file of
HTML, without a script, and fetches nothing. Its answers are those of `avro explain --json`; AVRO names the program,
else avro. With --tame schemas may have floats and doubles, by ../adapt/lattice.py. Each file is read once, so it may be
a pipe. It needs Python 3.9 and its library alone.

Exit status: 0 the page is written, whatever the answers; 3, 4 or 5 as the program's, with its line; 4 also where avro
is another program; 64 usage.
"""

from __future__ import annotations

import importlib
import json
import os
import shutil
import subprocess
import sys
import tempfile
from html import escape
from pathlib import Path
from typing import Any, Iterator

ADAPT = Path(__file__).resolve().parent.parent / "adapt"

ADVICE = {
    "MissingField": "Give the field a default, or name the old field that it replaces in its aliases.",
    "NoSymbol": "Keep the symbol, or give the enum a default.",
    "NoMatch": "Keep the old type, or widen it; a type that was renamed names the old one in its aliases.",
    "NoBranch": "Keep a branch for it.",
    "NotUtf8": "Keep bytes.",
}
VERDICTS = {0: "yes", 1: "no", 2: "undecided"}
STYLE = """
:root { color-scheme: light dark;
  --page: #fff; --text: #1f2328; --soft: #59636e; --line: #d1d9e0;
  --yes: #dafbe1; --no: #ffebe9; --undecided: #fff8c5; }
@media (prefers-color-scheme: dark) { :root {
  --page: #0d1117; --text: #f0f6fc; --soft: #9198a1; --line: #3d444d;
  --yes: #12361f; --no: #4c1a1c; --undecided: #41310b; } }
body { margin: clamp(1rem, 4vw, 2rem); background: var(--page); color: var(--text);
  font: 16px/1.5 system-ui, sans-serif; }
h1 { font-size: 1.5rem; } h2 { font-size: 1.1rem; margin-top: 2rem; overflow-wrap: anywhere; }
p, section { max-width: 60rem; }
.wide { overflow-x: auto; border: solid var(--line); border-width: 1px 0 0 1px; }
table { width: 100%; border-spacing: 0; }
th, td { border: solid var(--line); border-width: 0 1px 1px 0; padding: .4rem .6rem; text-align: center;
  white-space: nowrap; }
tr > :first-child { position: sticky; left: 0; background: var(--page); text-align: left; }
tbody th { min-width: min(40vw, 12rem); max-width: 40vw; white-space: normal; overflow-wrap: anywhere; }
.yes { background: var(--yes); } .no { background: var(--no); } .undecided { background: var(--undecided); }
.soft { color: var(--soft); }
a { color: inherit; }
code { font: 0.9em ui-monospace, monospace; overflow-wrap: anywhere; }
ul { padding: 0; list-style: none; }
li { border-left: 4px solid var(--no); padding: .1rem 0 .1rem .8rem; margin: .8rem 0; }
li p { margin: .2rem 0; overflow-wrap: anywhere; }
"""

Answer = dict[str, Any]


class Failed(Exception):
    """There is no page: the status, and its line."""


def filter_of_adapt(name: str) -> Any:
    sys.path.insert(0, str(ADAPT))
    try:
        return importlib.import_module(name)
    except ImportError:
        raise Failed(4, f"matrix: {ADAPT / name}.py: no such filter") from None


class Judge:
    """Asks the program about texts, each of which lies in a folder under its number."""

    def __init__(self, files: list[str], folder: str, is_tamed: bool) -> None:
        self.files, self.folder = files, folder
        self.name = os.environ.get("AVRO", "avro")
        self.program = shutil.which(self.name)
        if self.program is None:
            raise Failed(4, f"matrix: {self.name}: no such program")
        self.lattice = filter_of_adapt("lattice") if is_tamed else None
        self.refused = self.lattice.Refused if self.lattice else ()
        for number, file in enumerate(files):
            Path(folder, str(number)).write_bytes(self.read(file))

    def read(self, file: str) -> bytes:
        try:
            text = Path(file).read_bytes()
            return self.lattice.latticed(text) if self.lattice else text
        except OSError:
            raise Failed(4, f"matrix: {file}: cannot read") from None
        except self.refused as fault:
            raise Failed(3, f"matrix: {file}: {fault}") from None

    def explain(self, writer: int, reader: int) -> Answer:
        words = [os.path.abspath(self.program), "explain", "--json", "--", str(writer), str(reader)]
        done = subprocess.run(words, cwd=self.folder, capture_output=True)
        if done.returncode in (3, 4, 5) and done.stderr.startswith(b"avro: "):
            raise Failed(done.returncode, self.named(done.stderr.decode()))
        if done.returncode not in VERDICTS:
            raise self.other()
        return self.answer(self.lattice.with_words(done.stdout) if self.lattice else done.stdout, VERDICTS[done.returncode])

    def answer(self, line: bytes, verdict: str) -> Answer:
        """The answer that a line has: that of another program may have any form."""
        try:
            answer = json.loads(line)
            if answer["verdict"] != verdict:
                raise self.other()
            for fault in answer.get("faults", ()):
                item(fault)
        except (ValueError, KeyError, TypeError, AttributeError, RecursionError):
            raise self.other() from None
        return answer

    def other(self) -> Failed:
        return Failed(4, f"matrix: {self.name}: is another program")

    def named(self, line: str) -> str:
        """The line of a fault, with the file's name for its number."""
        avro, *words = line.rstrip("\n").split(": ")
        return ": ".join([avro, *(self.files[int(word)] if word.isdigit() else word for word in words)])


def words(fault: Answer) -> str:
    """What is wrong, as `avro explain` says it."""
    writer, reader = fault["writer"]["type"], fault["reader"]["type"]
    return {
        "MissingField": f"{writer} of the writer has no such field, and there is no default",
        "NoSymbol": f"{fault.get('symbol')} is not a symbol of the reader's {reader}, which has no default",
        "NoMatch": f"{writer} cannot be read as {reader}",
        "NoBranch": f"no branch of the reader's union accepts {writer}",
        "NotUtf8": "bytes read as string may not be UTF-8",
    }[fault["fault"]]


def place(fault: Answer) -> str:
    at = fault["reader"]["at"]
    return f"{at}.{fault['field']}" if "field" in fault else at


def cell(answer: Answer, row: int, column: int) -> str:
    verdict = answer["verdict"]
    if verdict == "no":
        told = f'<a href="#{row}-{column}">no, {len(answer["faults"])}</a>'
    else:
        told = " ".join([verdict, *([answer["cause"]] if "cause" in answer else [])])
    return f'<td class="{verdict}">{told}</td>'


def table(files: list[str], answers: list[list[Answer]]) -> Iterator[str]:
    yield '<div class="wide" tabindex="0"><table><thead><tr><td class="soft">data of</td>'
    for number, file in enumerate(files, 1):
        yield f'<th scope="col" title="{escape(file)}">{number}</th>'
    yield "</tr></thead><tbody>"
    for row, file in enumerate(files):
        cells = [cell(answer, row, column) for column, answer in enumerate(answers[row])]
        yield f'<tr><th scope="row">{row + 1} {escape(file)}</th>{"".join(cells)}</tr>'
    yield "</tbody></table></div>"


def item(fault: Answer) -> str:
    kind = fault["fault"]
    return (
        f"<li><p><code>{escape(place(fault))}</code> {kind}</p><p>{escape(words(fault))} "
        f'<span class="soft">(writer\'s <code>{escape(fault["writer"]["at"])}</code>)</span></p>'
        f"<p>{escape(ADVICE[kind])}</p></li>"
    )


def faults(files: list[str], answers: list[list[Answer]]) -> Iterator[str]:
    """A list for each reader, and for all writers at once that have the same faults with it."""
    for column, reader in enumerate(files):
        rows_by_items: dict[str, list[int]] = {}
        for row, answer in enumerate(line[column] for line in answers):
            if answer["verdict"] == "no":
                rows_by_items.setdefault("".join(map(item, answer["faults"])), []).append(row)
        for items, rows in rows_by_items.items():
            anchors = "".join(f'<a id="{row}-{column}"></a>' for row in rows)
            writers = ", ".join(dict.fromkeys(escape(files[row]) for row in rows))
            title = f"{anchors}{escape(reader)} does not read all data of {writers}"
            yield f"<section><h2>{title}</h2><ul>{items}</ul></section>"


def page(files: list[str], is_tamed: bool) -> str:
    numbers = range(len(files))
    with tempfile.TemporaryDirectory() as folder:
        judge = Judge(files, folder, is_tamed)
        answers = [[judge.explain(writer, reader) for reader in numbers] for writer in numbers]
    parts = [
        '<!doctype html><html lang="en"><head><meta charset="utf-8">',
        '<meta name="viewport" content="width=device-width, initial-scale=1">',
        f"<title>Who reads whom: {escape(files[-1])}</title><style>{STYLE}</style></head><body>",
        "<h1>Who reads whom</h1>",
        "<p>A row is the schema that data were written with; a column, by the number of its row, the one that they are "
        "read with. A no has the number of its faults.</p>",
        *table(files, answers),
        *faults(files, answers),
        "</body></html>",
    ]
    return "\n".join(parts) + "\n"


def main(words: list[str]) -> int:
    is_tamed = words[:1] == ["--tame"]
    files = words[1:] if is_tamed else words
    if len(files) < 2 or files[0].startswith("-"):
        print(__doc__, end="", file=sys.stderr)
        return 64
    try:
        text = page(files, is_tamed)
    except Failed as fault:
        status, line = fault.args
        print(line, file=sys.stderr)
        return status
    try:
        with open(1, "wb", closefd=False) as output:
            output.write(text.encode("utf-8", "surrogateescape"))
    except OSError:
        print("matrix: output: cannot write", file=sys.stderr)
        return 4
    return 0


if __name__ == "__main__":
    sys.exit(main(sys.argv[1:]))

#!/usr/bin/env python3
"""Weighs the sources by crate, beside a table that an earlier commit is kept in: what a change has added or taken away.

usage: checks/weight.py [--all] [TABLE]
       checks/weight.py --table

The columns are lines that are not empty: of code (`.rt`), of definitions (`specs/`) and of proofs (`proofs/`), each without
its imports, then the imports of all three, and how many of the first three are comments; and all text in thousands of bytes.
Each has its number and how far that is from the table's. A crate is left out where nothing differs, unless --all is given;
the last row is the sum. Without TABLE it is checks/weight.tsv. With --table the numbers are printed as such a table.

The exit status is 0 whatever the numbers are.
"""

from __future__ import annotations

import re
import sys
from pathlib import Path
from typing import Iterator

ROOT = Path(__file__).resolve().parent.parent
KEPT = Path(__file__).with_suffix(".tsv")
COLUMNS = ("code", "definitions", "proofs", "imports", "comments", "KB")
IMPORT = re.compile(r"(?:pub |ghost )?use ")
COMMENTS = ("///", "//!", "--")
Row = dict[str, int]
NOTHING: Row = dict.fromkeys(COLUMNS, 0)


def kind_of(file: Path) -> str | None:
    """The column in which a file's lines count; none if it is no source, or was built."""
    folders = file.relative_to(ROOT / "crates").parts[1:]
    if folders[0] == "out":
        return None
    if file.suffix == ".rt":
        return "code"
    if file.suffix == ".antt":
        return "definitions" if "specs" in folders else "proofs"
    return None


def weighed(crate: Path) -> Row:
    """The numbers of a crate."""
    row = dict(NOTHING)
    for file in crate.rglob("*"):
        kind = kind_of(file)
        if not kind:
            continue
        for line in file.read_text(encoding="utf-8").splitlines(keepends=True):
            text = line.strip()
            if not text:
                continue
            row["KB"] += len(line.encode())
            row["imports" if IMPORT.match(text) else kind] += 1
            row["comments"] += text.startswith(COMMENTS)
    row["KB"] = round(row["KB"] / 1000)
    return row


def weigh() -> dict[str, Row]:
    """The numbers of each crate that has sources."""
    rows = {folder.name: weighed(folder) for folder in sorted((ROOT / "crates").iterdir())}
    return {crate: row for crate, row in rows.items() if any(row.values())}


def read(table: Path) -> dict[str, Row]:
    """The numbers of a table."""
    lines = [line.split("\t") for line in table.read_text(encoding="utf-8").splitlines() if line]
    return {crate: dict(zip(COLUMNS, map(int, numbers))) for crate, *numbers in lines[1:]}


def summed(rows: dict[str, Row]) -> Row:
    """The sums of all crates."""
    return {column: sum(row[column] for row in rows.values()) for column in COLUMNS}


def compared(now: dict[str, Row], then: dict[str, Row], is_all: bool) -> Iterator[str]:
    """The lines of the comparison."""
    yield f"{'':20}" + "".join(f"{column:>16}" for column in COLUMNS)
    rows = [(crate, now.get(crate, NOTHING), then.get(crate, NOTHING)) for crate in sorted({*now, *then})]
    shown = [row for row in rows if is_all or row[1] != row[2]]
    for name, new, old in [*shown, ("all", summed(now), summed(then))]:
        yield f"{name:20}" + "".join(f"{new[column]:9} {new[column] - old[column]:+6}" for column in COLUMNS)


def main(words: list[str]) -> int:
    """Prints the comparison, or the table."""
    tables = [word for word in words if word not in ("--all", "--table")]
    if len(tables) > 1 or any(word.startswith("-") for word in tables) or ("--table" in words and len(words) > 1):
        print(__doc__, file=sys.stderr)
        return 64
    now = weigh()
    if "--table" in words:
        lines = [["crate", *COLUMNS], *([crate, *map(str, row.values())] for crate, row in now.items())]
        print(*("\t".join(line) for line in lines), sep="\n")
    else:
        print(*compared(now, read(Path(tables[0]) if tables else KEPT), "--all" in words), sep="\n")
    return 0


if __name__ == "__main__":
    sys.exit(main(sys.argv[1:]))

#!/usr/bin/env python3
"""Tries each bug of checks/planted/CRATE/NAME.edit on a copy of the crates, where the prover must refuse it, and prints
the first goal that stays open.

usage: checks/planted.py [--apply-only] [--jobs N] [CRATE..]

Without a crate, those of all crates are tried. A crate is checked as it stands first, with those below it, which is
most of the time. With --apply-only nothing is checked but that each edit's old lines stand in their files, each once.
The exit status is 1 where an edit is still proved, or where it cannot be applied or tried.
"""

from __future__ import annotations

import argparse
import re
import shutil
import subprocess
import sys
import tempfile
from pathlib import Path

ROOT = Path(__file__).resolve().parent.parent
PLANTED = ROOT / "checks" / "planted"
# An open goal, or an error of the text.
TOLD = re.compile(r"(?:note: )?\S+:\d+:\d+: (?!warning|note: )")
# A proof that names what the edit took away, which says nothing of the contract.
NAMED = re.compile(r"(?:note: )?(?:\./)?proofs/.*(?:has no field|is not in scope|has no `|was not admitted)")


class Bad(Exception):
    """Why an edit cannot be applied or tried."""


def applied(edit: Path, crate: Path) -> dict[Path, str]:
    """The texts of the files that an edit changes, once it is applied to a crate."""
    texts: dict[Path, str] = {}
    file, old = None, None
    first, *lines = edit.read_text(encoding="utf-8").splitlines()
    if not first.startswith("It breaks: "):
        raise Bad("its first line does not say what it breaks")
    for line in lines:
        word, _, rest = line.partition(": ") if ": " in line else line.partition(":")
        if word == "file":
            file = crate / rest
            if not file.is_file():
                raise Bad(f"there is no file {rest}")
        elif word == "old" and file:
            old = rest
        elif word == "new" and file and old:
            text = texts.get(file) or file.read_text(encoding="utf-8")
            found = text.count(old)
            if found != 1 or old not in text.split("\n"):
                raise Bad(f"in {file.relative_to(crate)} this is no line that stands there once, but {found} times: {old}")
            texts[file] = text.replace(old, rest)
            old = None
        else:
            raise Bad(f"this line cannot be read: {line}")
    if not texts:
        raise Bad("it changes nothing")
    return texts


def check(crate: Path, jobs: list[str]) -> tuple[bool, str]:
    """Whether a crate is proved, or else the first goal that stays open."""
    ran = subprocess.run(["rt", "check", *jobs], cwd=crate, stdin=subprocess.DEVNULL, stdout=subprocess.PIPE, stderr=subprocess.STDOUT, text=True, errors="replace")
    lines = ran.stdout.splitlines()
    if ran.returncode == 0:
        return True, ""
    if not any(line.startswith("logic=not-proved") for line in lines):
        raise Bad("the check did not come to a verdict:\n" + "\n".join(lines[-6:]))
    told = [line for line in lines if TOLD.match(line)]
    goals = [line for line in told if not NAMED.match(line)]
    if not goals:
        raise Bad("only a proof that names what the edit took away is refused:\n" + "\n".join(told[:1]))
    return False, goals[0]


def try_edit(edit: Path, crate: Path, jobs: list[str]) -> str:
    """Tries an edit on a copy of a crate, which is as before then, and says which goal refuses it."""
    texts = applied(edit, crate)
    before = {file: file.read_text(encoding="utf-8") for file in texts}
    try:
        for file, text in texts.items():
            file.write_text(text, encoding="utf-8")
        proved, goal = check(crate, jobs)
    finally:
        for file, text in before.items():
            file.write_text(text, encoding="utf-8")
    if proved:
        raise Bad("the crate is still proved")
    return f"refused: {goal}"


def try_crate(name: str, crates: Path, jobs: list[str], apply_only: bool) -> bool:
    """Tries the edits of a crate, and says whether each is as it must be."""
    crate = crates / name
    good = True
    if not apply_only and not check(crate, jobs)[0]:
        print(f"{name}: it is not proved as it stands")
        return False
    for edit in sorted((PLANTED / name).glob("*.edit")):
        try:
            answer = "applies" if applied(edit, crate) and apply_only else try_edit(edit, crate, jobs)
        except Bad as why:
            answer, good = f"NOT REFUSED: {why}", False
        print(f"{name}/{edit.stem}: {answer}", flush=True)
    return good


def main() -> int:
    """Tries the edits of the crates that are named."""
    parser = argparse.ArgumentParser(description="Tries the planted bugs on a copy of the crates.")
    parser.add_argument("--apply-only", action="store_true", help="only see that each edit can be applied")
    parser.add_argument("--jobs", metavar="N", help="how many jobs a check has")
    parser.add_argument("crates", metavar="CRATE", nargs="*", help="the crates whose edits are tried; else all")
    words = parser.parse_args()
    known = sorted(folder.name for folder in PLANTED.iterdir())
    unknown = [name for name in words.crates if name not in known]
    if unknown:
        parser.error(f"no bugs are planted in {' '.join(unknown)}")
    names = words.crates or known
    if words.apply_only:
        return 0 if all([try_crate(name, ROOT / "crates", [], True) for name in names]) else 1
    with tempfile.TemporaryDirectory(prefix="planted-") as room:
        copy = Path(room)
        shutil.copytree(ROOT / "crates", copy / "crates", ignore=shutil.ignore_patterns("out"))
        for file in ("crates.txt", "HANDLES"):
            shutil.copy(ROOT / file, copy)
        jobs = ["--jobs", words.jobs] if words.jobs else []
        return 0 if all([try_crate(name, copy / "crates", jobs, False) for name in names]) else 1


if __name__ == "__main__":
    sys.exit(main())

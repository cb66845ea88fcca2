#!/usr/bin/env python3
"""Joins the modules of this folder into `avro-breaking`, the one file that is copied into a repository or run by a hook:

    build.py [--check]

With --check nothing is written; the status is 1 if the file is not what the modules make.
"""

from __future__ import annotations

import ast
import sys
from pathlib import Path

HERE = Path(__file__).resolve().parent
FILE = HERE.parent / "avro-breaking"
# Each uses only those before it.
MODULES = ("ending", "log", "options", "git", "trees", "bases", "places", "logical", "desk", "bundling", "allowed", "history",
           "judging", "run")  # fmt: skip
HEAD = '''#!/usr/bin/env python3
"""Judges the schemas of a git repository against those of an earlier commit: `avro-breaking --help` says how.

This file is made of the modules of examples/ci/breaking by their build.py: change those.
"""

from __future__ import annotations

import sys

if sys.version_info < (3, 9):
    sys.stderr.write("avro-breaking: needs Python 3.9 or newer\\n")
    sys.exit(4)

'''
FOOT = '''

if __name__ == "__main__":
    sys.exit(main(sys.argv[1:]))
'''


class Unfit(Exception):
    """The modules cannot be joined."""


def names_of(node: ast.stmt) -> list[str]:
    """The names that a statement of a module defines."""
    if isinstance(node, (ast.FunctionDef, ast.ClassDef)):
        return [node.name]
    targets = node.targets if isinstance(node, ast.Assign) else []
    return [name.id for target in targets for name in ast.walk(target) if isinstance(name, ast.Name)]


class Joined:
    """What the modules so far import and define, and their texts."""

    def __init__(self) -> None:
        self.plain: set[str] = set()  # but for sys, which is in the head
        self.taken: dict[str, set[str]] = {}
        self.defined: dict[str, str] = {}
        self.texts: list[str] = []

    def add(self, name: str, text: str) -> None:
        tree = ast.parse(text)
        doc, *body = tree.body
        imports = [node for node in body if isinstance(node, (ast.Import, ast.ImportFrom))]
        for node in imports:
            self.take(name, node)
        for defined in (each for node in body for each in names_of(node)):
            if self.defined.setdefault(defined, name) != name:
                raise Unfit(f"{defined} is defined in {self.defined[defined]} and in {name}")
        end = max((node.end_lineno or 0 for node in imports), default=doc.end_lineno or 0)
        words = ast.get_docstring(tree) or ""
        comment = "\n".join(f"# {line}" for line in words.splitlines())
        self.texts.append(f"{comment}\n\n" + "".join(text.splitlines(keepends=True)[end:]).strip() + "\n")

    def take(self, name: str, node: ast.Import | ast.ImportFrom) -> None:
        if any(each.asname for each in node.names):
            raise Unfit(f"{name}:{node.lineno}: an import with another name")
        if isinstance(node, ast.Import):
            self.plain.update(each.name for each in node.names)
        elif node.level == 0:
            self.taken.setdefault(node.module or "", set()).update(each.name for each in node.names)
        else:
            self.check(name, node)

    def check(self, name: str, node: ast.ImportFrom) -> None:
        for each in node.names:
            if self.defined.get(each.name) != node.module:
                raise Unfit(f"{name}:{node.lineno}: {each.name} is not defined before, in {node.module}")

    def text(self) -> str:
        self.taken.pop("__future__")
        lines = [f"import {name}\n" for name in sorted(self.plain - {"sys"})]
        lines += [f"from {name} import {', '.join(sorted(self.taken[name]))}\n" for name in sorted(self.taken)]
        return HEAD + "".join(lines) + "\n\n" + "\n\n".join(self.texts) + FOOT


def joined() -> str:
    made = Joined()
    for name in MODULES:
        made.add(name, (HERE / f"{name}.py").read_text(encoding="utf-8"))
    return made.text()


def main(words: list[str]) -> int:
    if words not in ([], ["--check"]):
        print(__doc__, end="", file=sys.stderr)
        return 64
    try:
        text = joined()
    except Unfit as fault:
        print(f"build.py: {fault}", file=sys.stderr)
        return 3
    if words:
        is_same = FILE.is_file() and FILE.read_text(encoding="utf-8") == text
        if not is_same:
            print(f"build.py: {FILE.name} is not what the modules make", file=sys.stderr)
        return 0 if is_same else 1
    FILE.write_text(text, encoding="utf-8")
    FILE.chmod(0o755)
    return 0


if __name__ == "__main__":
    sys.exit(main(sys.argv[1:]))

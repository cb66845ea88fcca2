#!/usr/bin/env python3
"""Lists the definitions that the headline rests on, file by file, those that a `confirmed` alone rests on, those that
the answer of `avro judge` to two texts rests on besides, those that the answer of `avro read` after a yes rests on
besides these, those that a migration rests on besides the first and the third, and those that the program's commands rest on
besides all of these; and how many there are, from nothing, for one command. It compares them with the tables of docs/HEADLINE.md.

usage: checks/headline.py [--print [confirm | judge | explain]]

With --print the tables are printed, and nothing is compared; with a command besides, all definitions that one has to believe
for it, as one text, in which each stands before what uses it. Else the exit status is 0 where the tables of the page are
those that the definitions give, and 1 where one is another.
"""

from __future__ import annotations

import re
import sys
import textwrap
from functools import lru_cache
from pathlib import Path
from typing import NamedTuple

ROOT = Path(__file__).resolve().parent.parent
PAGE = ROOT / "docs" / "HEADLINE.md"
Roots = tuple[tuple[str, str], ...]
HEADLINE: Roots = (
    ("Rattle.avro_judge.specs.Headline", "IsRight"),
    ("Rattle.avro_judge.specs.Headline", "ReadsRight"),
)
CONFIRMED: Roots = (("Rattle.avro_certificate.specs.Compatible", "AreCompatible"),)
ANSWERED: Roots = (("Rattle.avro_answer.specs.JudgeAnswer", "JudgeAnswer"),)
READ: Roots = (("Rattle.avro_answer.specs.ReadHeadline", "ReadsAfterYes"),)
MIGRATED: Roots = (
    ("Rattle.avro_migration.specs.Migrates", "Migrates"),
    ("Rattle.avro_migration.specs.Migrates", "IsOfOther"),
    ("Rattle.avro_migration.specs.Migrates", "IsNoneWithin"),
)
# What the functions of the program that are given schemas, a certificate or an input ensure of the output and the status, or
# of what they fail for.
PROGRAM: Roots = (
    ("Rattle.avro_tool.specs.PlainWords", "MakesPlainRequest"),
    ("Rattle.avro_tool.specs.PlainAnswers", "AnswersPlain"),
    ("Rattle.avro_tool.specs.TextsRefused", "RefusesPlain"),
    ("Rattle.avro_tool.specs.ConfirmedHistories", "TellsConfirmed"),
    ("Rattle.avro_tool.specs.FoundStatus", "finding_status"),
    ("Rattle.avro_tool.specs.FoundStatus", "worse"),
    ("Rattle.avro_tool.specs.ModeAnswer", "ModeAnswer"),
    ("Rattle.avro_tool.specs.EachAnswer", "EachAnswer"),
    ("Rattle.avro_tool.specs.KeptCertificates", "AddsClosed"),
    ("Rattle.avro_tool.specs.HeaderText", "IsHeaderTold"),
    ("Rattle.avro_tool.specs.DefaultLimits", "default_limits"),
    ("Rattle.avro_tool.specs.FoundStatus", "IsVerdict"),
    ("Rattle.avro_tool.specs.FailsOnlyFor", "FailsOnlyFor"),
    ("Rattle.avro_tool.specs.FailureText", "IsPutFailure"),
    ("Rattle.avro_tool.specs.FailureText", "IsFileFailure"),
    ("Rattle.avro_tool.specs.FailureText", "IsDataFailure"),
    ("Rattle.avro_tool.specs.FailureText", "IsRefusal"),
    ("Rattle.avro_tool.specs.FailureText", "exit_status"),
    ("Rattle.avro_tool.specs.TextsRefused", "RefusesNothing"),
    ("Rattle.avro_device.specs.PutFront", "PutsFrontOf"),
    ("Rattle.avro_answer.specs.JudgeAnswer", "StatusAnswer"),
    ("Rattle.avro_answer.specs.JsonAnswer", "IsJudgedLine"),
    ("Rattle.avro_answer.specs.ExplainAnswer", "FaultsAnswer"),
    ("Rattle.avro_answer.specs.ExplainAnswer", "FaultsJson"),
    ("Rattle.avro_answer.specs.ConfirmAnswer", "SetsAnswer"),
    ("Rattle.avro_answer.specs.ConfirmAnswer", "SetsJson"),
    ("Rattle.avro_answer.specs.ConfirmAnswer", "SetsStatus"),
    ("Rattle.avro_answer.specs.SchemaAnswer", "NodesAnswer"),
    ("Rattle.avro_answer.specs.DataRead", "IsDatumTold"),
    ("Rattle.avro_history.specs.ConfirmedHistory", "nodes_of_all"),
    ("Rattle.avro_history.specs.SeenHistory", "sets_of"),
    ("Rattle.avro_file.specs.FileSeen", "file_fault"),
    ("Rattle.avro_file.specs.HeaderTaken", "TakesHeaderFault"),
    ("Rattle.avro_container.specs.TaskSeen", "job_from"),
    ("Rattle.avro_container.specs.Checking", "Takes"),
    ("Rattle.avro_container.specs.Checking", "IsWhole"),
    ("Rattle.avro_container.specs.Checking", "IsFaulty"),
    ("Rattle.avro_container.specs.Copying", "CopiesFile"),
    ("Rattle.avro_container.specs.Copying", "CopiesUpTo"),
    ("Rattle.avro_container.specs.Copying", "CopiesFront"),
    ("Rattle.avro_lines.specs.Shown", "ShowsWhole"),
    ("Rattle.avro_lines.specs.Shown", "ShowsFault"),
    ("Rattle.avro_lines.specs.Shown", "ShowsFront"),
    ("Rattle.avro_lines.specs.Shown", "nodes_of"),
)
# What `run_over` says of plain words.
WORDS: Roots = (
    ("Rattle.avro_tool.specs.PlainWords", "name_of"),
    ("Rattle.avro_tool.specs.PlainWords", "files_of"),
    ("Rattle.avro_tool.specs.PlainWords", "HaveNoOption"),
    ("Rattle.avro_tool.specs.PlainWords", "AreApart"),
)
# What it says of one command: its words, its answer, and which texts are refused.
COMMANDS: dict[str, tuple[str, Roots]] = {
    "confirm": (
        "avro confirm A B C",
        WORDS + (("Rattle.avro_tool.specs.PlainAnswers", "AnswersConfirm"), ("Rattle.avro_answer.specs.ConfirmAnswer", "RefusesOneOf")),
    ),
    "judge": (
        "avro judge A B",
        WORDS
        + (
            ("Rattle.avro_tool.specs.PlainWords", "default_judge_limits"),
            ("Rattle.avro_tool.specs.PlainAnswers", "AnswersJudge"),
            ("Rattle.avro_tool.specs.TextsRefused", "RefusesPairOf"),
        ),
    ),
    "explain": (
        "avro explain A B",
        WORDS + (("Rattle.avro_tool.specs.PlainAnswers", "AnswersExplain"), ("Rattle.avro_tool.specs.TextsRefused", "RefusesPairOf")),
    ),
}
# The crates and their files in the order in which each rests on those before it.
CRATES = (
    "name", "schema", "zigzag", "device", "cursor", "binary", "compare", "resolve", "certificate", "least", "explain", "judge", "history", "schema_json", "display",
    "canonical", "answer", "file", "container", "lines", "migration", "tool",
)
WORD = re.compile(r"[A-Za-z_][\w\-]*")
HEAD = re.compile(r"(?:abbrev )?(?:pub )?(?:abbrev )?(?:record |data |type )?(?:pub )?([A-Za-z_][\w\-]*)")
USE = re.compile(r"^use (Rattle\.[\w.]+)\.\{([^}]*)\}", re.MULTILINE)


class Module(NamedTuple):
    """What a file imports, by the name it has there, the lines of each of its definitions, without and with comments, and
    the line before those that cite each other, by the names of these."""

    imports: dict[str, tuple[str, str]]
    lines: dict[str, list[str]]
    told: dict[str, list[str]]
    heads: dict[str, list[str]]


def file_of(module: str) -> Path | None:
    """The file of a module of definitions; none for a module of the kit or one that is derived from code."""
    parts = module.split(".")
    if len(parts) < 4 or parts[2] != "specs" or parts[3] in ("declared", "contracts"):
        return None
    file = ROOT / "crates" / parts[1] / "specs" / ("/".join(parts[3:]) + ".antt")
    return file if file.exists() else None


def imports_of(text: str) -> dict[str, tuple[str, str]]:
    """The imports of a file."""
    found: dict[str, tuple[str, str]] = {}
    for use in USE.finditer(text):
        for item in use.group(2).split(","):
            own, _, other = item.strip().partition(" as ")
            found[other or own] = (use.group(1), own)
    return found


def is_comment(line: str) -> bool:
    """Whether a line is a comment alone."""
    return line.lstrip().startswith("--")


def told_of(text: str) -> tuple[dict[str, list[str]], dict[str, list[str]]]:
    """The lines of each definition of a file with the comments before them, and of some the line of their group."""
    found: dict[str, list[str]] = {}
    heads: dict[str, list[str]] = {}
    name, head, comments = None, None, []
    for line in text.splitlines():
        words = line.strip()
        if is_comment(line):
            comments.append(line)
            continue
        if not words or words.startswith("use "):
            comments = []
            continue
        indent = len(line) - len(line.lstrip())
        if indent == 0:
            head = [*comments, line] if re.match(r"(abbrev )?mutual\b", words) else None
        if head and indent == 0:
            name = None
        elif indent == (2 if head else 0):
            start = HEAD.match(words)
            name = start.group(1) if start else None
        if name:
            found.setdefault(name, []).extend([*comments, line])
        if name and head:
            heads[name] = head
        comments = []
    return found, heads


@lru_cache(maxsize=None)
def read(file: Path) -> Module:
    """A file of definitions."""
    text = file.read_text(encoding="utf-8")
    told, heads = told_of(text)
    lines = {name: [line for line in found if not is_comment(line)] for name, found in told.items()}
    return Module(imports_of(text), lines, told, heads)


def owner(module: Module, name: str) -> str | None:
    """The definition that a name is, or that it is a part of, as a constructor or a field."""
    if name in module.lines:
        return name
    word = re.compile(r"(?<![\w\-])" + re.escape(name) + r"(?![\w\-])")
    return next((own for own, lines in module.lines.items() if word.search("\n".join(lines))), None)


def reached(roots: Roots) -> list[tuple[Path, str]]:
    """The definitions that the roots reach."""
    found: dict[tuple[Path, str], None] = {}
    waiting = list(roots)
    while waiting:
        module_name, name = waiting.pop()
        file = file_of(module_name)
        if file is None:
            continue
        module = read(file)
        own = owner(module, name)
        if own is None or (file, own) in found:
            continue
        found[(file, own)] = None
        words = set(WORD.findall("\n".join(module.lines[own])))
        waiting += [module.imports[word] for word in words if word in module.imports]
        waiting += [(module_name, word) for word in words if word in module.lines]
    return list(found)


def rank(file: Path) -> tuple[int, str]:
    """Where a file stands in the table."""
    crate = file.relative_to(ROOT / "crates").parts[0].removeprefix("avro_")
    return (CRATES.index(crate), file.stem)


def kit_names(found: list[tuple[Path, str]]) -> dict[str, set[str]]:
    """What these definitions name of the kit's crates but `std`, by its file."""
    named: dict[str, set[str]] = {}
    for file, own in found:
        module = read(file)
        for word in set(WORD.findall("\n".join(module.lines[own]))) & set(module.imports):
            home, name = module.imports[word]
            crate = home.split(".")[1]
            if crate != "std" and not crate.startswith("avro_"):
                named.setdefault(f"{crate}/specs/{home.rpartition('.')[2]}.antt", set()).add(name)
    return named


def kit_rows(found: list[tuple[Path, str]]) -> list[str]:
    """A row for each of these files of the kit."""
    named = kit_names(found)
    shown = {file: ", ".join(f"`{name}`" for name in sorted(names)) for file, names in named.items()}
    return [f"| the kit's `{file}` | | {shown[file]} |" for file in sorted(shown)]


def table(roots: Roots, known: Roots = (), named: bool = True) -> str:
    """The table of what the roots reach besides what is known, a row a file in the order of reading, then the kit's
    files, and a last row of sums, without those. The definitions are named or counted."""
    names: dict[Path, list[str]] = {}
    before = set(reached(known))
    besides = [found for found in reached(roots) if found not in before]
    for file, name in besides:
        names.setdefault(file, []).append(name)
    rows, total = [], [0, 0]
    for file in sorted(names, key=rank):
        order = [name for name in read(file).lines if name in names[file]]
        count = sum(len(read(file).lines[name]) for name in order)
        total = [total[0] + len(order), total[1] + count]
        shown = ", ".join(f"`{name}`" for name in order) if named else len(order)
        rows.append(f"| `{file.relative_to(ROOT / 'crates')}` | {count} | {shown} |")
    rows += kit_rows(besides)
    rows.append(f"| {len(names)} files | {total[1]} | {total[0]} definitions |")
    return "\n".join(["| File | Lines | Definitions |", "|---|---|---|", *rows])


def tables() -> list[str]:
    """The tables of the page."""
    return [
        table(HEADLINE),
        table(CONFIRMED),
        table(ANSWERED, HEADLINE, named=False),
        table(READ, HEADLINE + ANSWERED),
        table(MIGRATED, HEADLINE + ANSWERED),
        table(PROGRAM, HEADLINE + ANSWERED + READ + MIGRATED, named=False),
        counts(),
    ]


def weight(found: list[tuple[Path, str]]) -> int:
    """The number of lines of these definitions."""
    return sum(len(read(file).lines[name]) for file, name in found)


def counts() -> str:
    """The table of how much there is to believe for each command, from nothing."""
    rows = ["| Words | Lines | Definitions |", "|---|---|---|"]
    for words, roots in COMMANDS.values():
        found = reached(roots)
        rows.append(f"| `{words}` | {weight(found):,} | {len(found)} |")
    return "\n".join(rows)


def in_order(found: list[tuple[Path, str]]) -> list[Path]:
    """The files of these definitions, each behind those that its own definitions name something of."""
    needs: dict[Path, set[Path]] = {}
    for file, name in found:
        module = read(file)
        homes = {module.imports[word][0] for word in WORD.findall("\n".join(module.lines[name])) if word in module.imports}
        needs.setdefault(file, set()).update(home for home in map(file_of, homes) if home)
    order: dict[Path, None] = {}

    def visit(file: Path) -> None:
        if file in order or file not in needs:
            return
        for other in sorted(needs[file] - {file}, key=rank):
            visit(other)
        order[file] = None

    for file in sorted(needs, key=rank):
        visit(file)
    return list(order)


def case_of(module: str, name: str, command: str) -> list[str]:
    """The lines of a definition by cases of words that are those of a command."""
    cases = re.split(rf"\n(?={name} )", "\n".join(read(file_of(module)).lines[name]))
    return next(case for case in cases if f"(PlainWords.{command} " in case).split("\n")


def statement(command: str) -> list[str]:
    """What is ensured of a command: the clauses of `run_over`, and what they are for it."""
    code = (ROOT / "crates" / "avro_tool" / "src" / "lib.rt").read_text(encoding="utf-8")
    head = code[code.index("pub fn run_over<") :].split("\n{\n")[0]
    return [
        *head[head.index("    ensures ") :].split("\n"),
        *case_of("Rattle.avro_tool.specs.PlainAnswers", "AnswersPlain", command),
        *case_of("Rattle.avro_tool.specs.TextsRefused", "RefusesPlain", command),
    ]


def text_of(command: str) -> str:
    """All definitions that one has to believe for a command, as one text."""
    words, roots = COMMANDS[command]
    found = reached(roots)
    kit = "; ".join(f"{file}: {', '.join(sorted(names))}" for file, names in sorted(kit_names(found).items()))
    told = (
        f"What one has to believe for `{words}`: {len(found)} definitions, {weight(found):,} lines without comments. Each stands before "
        f"what uses it, behind the name of its file. Not among them are those of the kit (std; {kit}), and what the toolchain derives "
        "from the program's own types. With them this is ensured (`run_over`, avro_tool/src/lib.rt):"
    )
    parts = [*(f"-- {line}" for line in textwrap.wrap(told, 120)), *(f"--     {line.strip()}" for line in statement(command))]
    for file in in_order(found):
        module, head = read(file), None
        parts += ["", f"-- {file.relative_to(ROOT / 'crates')}"]
        for name in (own for own in module.lines if (file, own) in found):
            if module.heads.get(name) is not head:
                head = module.heads.get(name)
                parts += ["", *(head or [])]
            elif not head:
                parts.append("")
            parts += module.told[name]
    return "\n".join(parts)


def main() -> int:
    """Prints the tables or the definitions of a command, or compares the tables."""
    if sys.argv[1:] == ["--print"]:
        print(*tables(), sep="\n\n")
        return 0
    if sys.argv[1:-1] == ["--print"] and sys.argv[-1] in COMMANDS:
        print(text_of(sys.argv[-1]))
        return 0
    if sys.argv[1:]:
        print(__doc__, file=sys.stderr)
        return 64
    page = PAGE.read_text(encoding="utf-8")
    if all(found in page for found in tables()):
        return 0
    print(f"{PAGE.name}: a table is not what checks/headline.py --print gives", file=sys.stderr)
    return 1


if __name__ == "__main__":
    sys.exit(main())

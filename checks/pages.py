#!/usr/bin/env python3
"""Prints docs/DEFINITIONS.md, which git does not keep, and docs/CONTRACTS.md from the comments of the sources.

usage: checks/pages.py [--check | --definitions]

A row of DEFINITIONS is a public definition in the `specs/` folder of a crate, but for `specs/inside/`, with the comment
before it; a definition without one shares the row of the one before it, and the first one of a file has the file's line. A row
of CONTRACTS is a public function that is reached from the crate's `lib.rt`, or a public trait, with the first paragraph of its
text, that of its section `# Errors`, and the names of its clauses; and an edit of `must-fail/`, with its line `It breaks:`. A
clause without a name is shown by the definitions that it states: of those that its file imports, the ones that stand in the
fewest parentheses; one that states none is shown as it is written. The pages' heads stand in this script.

With --definitions only docs/DEFINITIONS.md is printed. With --check nothing is written: if docs/CONTRACTS.md differs, a line
says where it begins to, and the exit status is 1. It is 1, too, where a definition, a function or an edit has nothing to print.
"""

from __future__ import annotations

import re
import sys
from pathlib import Path
from typing import Iterator, NamedTuple

from sources import CRATES, ROOT, TESTS, exports, modules

DEFINITIONS = """# Definitions

What the contracts are about, in the words of the Apache Avro 1.11 Specification. Each definition is in the `specs/` folder
of its crate, over mathematical data: lists, numbers and finite trees, without capacities and pointers. The line of a file
names the sections of the specification that it follows; what names none is a choice of this project, or says how
contracts see the program's own data (`docs/DECISIONS.md` has the reasons).

The crates stand lowest first, so no definition rests on a later crate. For the headline alone, read `avro_name`,
`avro_schema`, `avro_zigzag`, the files `Blocks` and `Encoding` of `avro_cursor`, `avro_compare`, the file `Compatible` of
`avro_certificate`, and `avro_judge`; `docs/HEADLINE.md` lists the definitions that it rests on. What only proofs and
private contracts need is in `specs/inside/`, and not listed. The files `proofs/Rows*.antt` compute the definitions on worked
examples; `avro_packed`, `avro_least` and `avro_judge` have none. The laws about the definitions are listed with the crates'
other functions in `docs/CONTRACTS.md`, as `laws::NAME`.

`make pages` prints this page from the comments at the definitions; git does not keep it.
"""

CONTRACTS = """# What is proved, crate by crate

Every function is proved to be safe and to return on every input that meets its `requires`. In addition, for every kind of
schema, if memory does not run out, the clauses of its contract hold. This page has the public functions, with what each is
for in the words of its source, and the names of its clauses, which are what is proved: what a text says beyond them is not.
No clause says how much time or memory a call takes, or what it keeps to be faster.

Names of clauses that recur: `found`, `read`, `answered` and `reads` say that what is returned is right, `complete`,
`succeeds` and `begins` that it is returned whenever there is such a thing, `refused` that an error names a fault that is
there, `breaks` and `fails` that each fault is reported, `named` which errors there are, `unchanged` and `kept` what an error
leaves, `front` that a prefix was put, `works` that no call of the device failed, and `status` what holds of an exit status
alone. For a clause without a name stand the definitions that it states, after 'by', or the clause itself if it states none.
`make pages` prints `docs/DEFINITIONS.md`, which puts each definition in a sentence.

These public functions require something of their caller; all others may be called with any values of their types:
{requires}.

A law is the contract of a function with an empty body, about the definitions alone: its crate lists it as `laws::NAME`. A
trait has one row; whatever implements it meets its clauses. Comparisons, hashes and clones are those of the values that
contracts see, by the traits of `std`. Conversions between errors, derived code and the display of a `Fault` are not listed.
A function without a clause has `none`: it is safe, and returns.

`checks/pages.py` prints this page from the sources.
"""

WRONG = """## Wrong bodies that the gate tries

Each row is a body that a careless change could leave behind. The gate substitutes it for the right one, and it must be
refused by a goal of the changed function (`must-fail/NAME.edit` of the crate).

| Edit | What it would break |
|---|---|
"""

LAST = """
A call that always reports that memory ran out would be proved, since no contract can see memory: so a test calls each call
that allocates once with ample memory (`docs/TRUST.md`).
"""

# A public definition, by its indentation and its name.
DEFINED = re.compile(r"^( *)((?:(?:abbrev|data|record|unfoldable) )*)pub ((?:(?:abbrev|data|record) )*)([^\s({:]+)")
MUTUAL = re.compile(r"^(?:abbrev |data )?mutual$")
FUNCTION = re.compile(r'^( *)(pub )?(?:const |unsafe )?(?:extern "C" )?fn (\w+)')
HOLDER = re.compile(r"^(?:pub trait (\w+)|impl\b(.*))")
TYPE = re.compile(r"^pub (?:struct|enum) (\w+)")
EXTERN = re.compile(r"^pub extern \S+ fn (\w+)", re.MULTILINE)
CLAUSE = re.compile(r"^\s*(requires|ensures|reads)\b ?(\w+)? ?\{(.*)")
IMPORTED = re.compile(r"^ *ghost use Rattle\.avro_\w+\.specs\.[\w.]+\.\{([^}]*)\}", re.MULTILINE)
# What binds names in a clause: the group of a quantifier, or the head of a function.
BINDER = re.compile(r"\((?:\w+ )+: |λ (?:\w+ ?)+\.")
TOKEN = re.compile(r"[()]|[\w.]+")
LINK = re.compile(r"\[(`[^`\]]+`)\](?:\([^)]*\))?")
PROMISE = "It breaks: "
# What each call that allocates says of errors.
MEMORY = "Memory ran out."


class Definition(NamedTuple):
    """A public definition: its place, its name and its comment."""

    line: int
    name: str
    comment: str


class Clause(NamedTuple):
    """A clause: `requires`, `ensures` or `reads`, its name, if it has one, and what it says."""

    kind: str
    name: str
    body: str


class Function(NamedTuple):
    """A function, or a trait: its place, its name, its text, and its clauses, each with what it states."""

    place: str
    name: str
    text: str
    requires: list[str]
    ensures: list[str]


def crates() -> list[str]:
    """The crates of the library, lowest first."""
    names = re.findall(r"^(\w+)[^:\n]*:", (ROOT / "crates.txt").read_text(encoding="utf-8"), re.MULTILINE)
    return [it for it in names if it not in TESTS]


def sentence(text: str) -> str:
    """The text as a sentence in a cell."""
    text = LINK.sub(r"\1", text.strip()).replace("|", r"\|")
    text = text[:1].upper() + text[1:]
    return text if not text or text[-1] in ".:" else text + "."


def head_of(lines: list[str], mark: str) -> str:
    """The comment with which a file begins, up to its first empty line."""
    found = []
    for line in lines:
        if not line.startswith(mark) or not line[len(mark) :].strip():
            break
        found.append(line[len(mark) :].strip())
    return " ".join(found)


def definitions_of(lines: list[str]) -> Iterator[Definition]:
    """The public definitions of a file."""
    comment: list[str] = []
    together = False
    for number, line in enumerate(lines, 1):
        if line.strip().startswith("--"):
            comment.append(line.strip()[2:].strip())
            continue
        if MUTUAL.match(line):
            together = True
            continue
        together = together and (not line or line[0] == " ")
        it = DEFINED.match(line)
        if it and (len(it[1]) == 2 if together else not it[1] and (it[2] or it[3])):
            yield Definition(number, it[4], " ".join(comment))
        comment = []


def specs_of(crate: str) -> Iterator[Path]:
    """The files of a crate's definitions, in the order of their names."""
    base = CRATES / crate / "specs"
    for file in sorted(base.rglob("*.antt")):
        if "inside" not in file.relative_to(base).with_suffix("").parts and file.name != "Lib.antt":
            yield file


def page_of_definitions(findings: list[str]) -> str:
    """The page of the definitions."""
    page = [DEFINITIONS]
    for crate in crates():
        parts = []
        for file in specs_of(crate):
            lines = file.read_text(encoding="utf-8").splitlines()
            rows: list[tuple[list[str], str]] = []
            for found in definitions_of(lines):
                if found.comment:
                    rows.append(([found.name], found.comment))
                elif rows:
                    rows[-1][0].append(found.name)
                elif lines and lines[0].startswith("-- "):
                    rows.append(([found.name], lines[0].removeprefix("-- ")))
                else:
                    rows.append(([found.name], ""))
                    findings.append(f"{file.relative_to(ROOT)}:{found.line}: {found.name} has no comment")
            if rows:
                parts.append(f"**`{file.stem}`**: {sentence(head_of(lines, '--'))}\n\n| Definition | In one sentence |\n|---|---|\n")
                parts.append("".join(f"| {', '.join(f'`{it}`' for it in names)} | {sentence(text)} |\n" for names, text in rows) + "\n")
        if parts:
            page.append(f"\n## `{crate}`\n\n" + "".join(parts).rstrip("\n") + "\n")
    return "".join(page)


def imported(text: str) -> dict[str, str]:
    """The definitions that a file imports, by the names that they have there."""
    found = {}
    for names in IMPORTED.findall(text):
        for item in names.split(","):
            own, _, other = item.strip().partition(" as ")
            found[other or own] = own
    return found


def stated(clause: Clause, known: dict[str, str]) -> str:
    """A clause by its name, or else by the definitions that it states, or as it is written."""
    if clause.name:
        return f"`{clause.name}`"
    depth, named = 0, {}
    for token in TOKEN.findall(without_binders(clause.body)):
        depth += {"(": 1, ")": -1}.get(token, 0)
        if token in known:
            named.setdefault(depth, []).append(known[token])
    if not named:
        return "`" + clause.body.replace("|", r"\|") + "`"
    names = [f"`{it}`" for it in dict.fromkeys(named[min(named)])]
    return "by " + " and ".join([", ".join(names[:-1]), names[-1]] if names[1:] else names)


def without_binders(body: str) -> str:
    """The text of a clause without the types of what it quantifies."""
    while it := BINDER.search(body):
        end = it.end()
        if it[0][0] == "(":
            depth = 1
            while depth:
                depth += {"(": 1, ")": -1}.get(body[end], 0)
                end += 1
        body = body[: it.start()] + body[end:]
    return body


def functions_of(file: Path) -> Iterator[tuple[str, Function]]:
    """The public functions of a file, and the methods of its public traits, each with the type or trait that has it.

    A type, a trait, and a trait that a type implements stand among them without a name.
    """
    source = file.read_text(encoding="utf-8")
    lines, known = source.splitlines(), imported(source)
    text: list[str] = []
    holder, is_trait = "", False
    for number, line in enumerate(lines, 1):
        bare = line.strip()
        if bare.startswith("///"):
            text.append(bare[3:].strip())
            continue
        if bare.startswith("#["):
            continue
        place = f"{file.relative_to(ROOT)}:{number}"
        it = TYPE.match(line)
        if it:
            yield it[1], Function(place, "", "\n".join(text), [], [])
        it = HOLDER.match(line)
        if it:
            is_trait = bool(it[1])
            holder, done = (it[1], "") if is_trait else owner_of(it[2])
            if is_trait:
                yield holder, Function(place, "", "\n".join(text), [], [])
            elif done:
                yield holder, Function(place, "", "", [], [f"those of `{done}`"])
                holder = ""
        elif line == "}":
            holder, is_trait = "", False
        it = FUNCTION.match(line)
        if it and (it[2] or is_trait) and (holder or not it[1]):
            requires, ensures = [], []
            for clause in clauses_of(lines[number - 1 :], it[1]):
                (requires if clause.kind == "requires" else ensures).append(stated(clause, known))
            yield holder, Function(place, it[3], "\n".join(text), requires, ensures)
        text = []


def owner_of(header: str) -> tuple[str, str]:
    """The type of a block of functions, and the trait that it implements there, if it does."""
    header = re.sub(r"^<(?:[^<>]|<[^<>]*>)*>", "", header.strip()).strip()
    done, _, owner = header.rpartition(" for ")
    return re.match(r"\w*", owner)[0], re.match(r"\w*", done)[0]


def clauses_of(lines: list[str], indent: str) -> Iterator[Clause]:
    """The clauses of the function that begins here."""
    any_yet = False
    for number, line in enumerate(lines):
        if line in (f"{indent}{{", f"{indent}{{}}"):
            return
        it = CLAUSE.match(line)
        if it:
            any_yet = True
            yield Clause(it[1], it[2] or "", body_of(it[3], lines[number + 1 :]))
        if line.endswith(";") or (not any_yet and re.search(r"\{(?:\})?$", line)):
            return


def body_of(first: str, others: list[str]) -> str:
    """What a clause says, from behind its bracket to the one that closes it, in one line."""
    parts, depth = [], 1
    for line in [first, *others]:
        for place, character in enumerate(line):
            depth += {"{": 1, "}": -1}.get(character, 0)
            if not depth:
                return " ".join([*parts, line[:place].strip()]).strip()
        parts.append(line.strip())
    return " ".join(parts)


def told(function: Function) -> str:
    """The first paragraph of a text, and what it says of errors."""
    parts = re.split(r"\n# Errors\n", function.text)
    first = " ".join(parts[0].strip().split("\n\n")[0].split("\n"))
    errors = " ".join(parts[1].strip().split("\n\n")[0].split("\n")) if len(parts) > 1 else MEMORY
    return sentence(first) if errors == MEMORY else f"{sentence(first)} Errors: {sentence(errors)}"


def reached(crate: str) -> Iterator[tuple[str, tuple[str, ...], str]]:
    """What callers of a crate reach: the path by which they do, the module, and the name there."""
    yield from reached_in(crate, (), "")
    for name in re.findall(r"^pub mod (\w+);", modules(crate)[()], re.MULTILINE):
        yield from reached_in(crate, (name,), f"{name}::")


def reached_in(crate: str, module: tuple[str, ...], front: str) -> Iterator[tuple[str, tuple[str, ...], str]]:
    """The same of one module."""
    own, again = exports(crate, module)
    for name in sorted({*own, *EXTERN.findall(modules(crate)[module])}):
        yield front + name, module, name
    for name, path in sorted(again.items()):
        if path[0] in ("crate", "self"):
            path = path[1:] if path[0] == "crate" else module + path[1:]
        elif (CRATES / path[0]).is_dir():
            continue
        else:
            path = module + path
        if path[:-1] in modules(crate):
            yield from reached_from(crate, path, front + name)


def reached_from(crate: str, path: tuple[str, ...], name: str) -> Iterator[tuple[str, tuple[str, ...], str]]:
    """Where the item of a path is defined, over further exports."""
    own, again = exports(crate, path[:-1])
    if path[-1] in own:
        yield name, path[:-1], path[-1]
    elif path[-1] in again:
        further = again[path[-1]]
        if not (CRATES / further[0]).is_dir():
            start = () if further[0] == "crate" else path[:-1]
            yield from reached_from(crate, start + tuple(it for it in further if it not in ("crate", "self")), name)


def file_of(crate: str, module: tuple[str, ...]) -> Path:
    """The file of a module."""
    base = CRATES / crate / "src"
    return base.joinpath(*module).with_suffix(".rt") if module else next(it for it in (base / "lib.rt", base / "main.rt") if it.exists())


def items_of(crate: str) -> Iterator[Function]:
    """The public functions and traits of a crate, and the types that implement one, by the names that callers have."""
    traits = {f"those of `{it}`" for name in crates() for text in modules(name).values() for it in re.findall(r"^pub trait (\w+)", text, re.MULTILINE)}
    free: dict[tuple[tuple[str, ...], str], Function] = {}
    held: dict[str, list[Function]] = {}
    for module in modules(crate):
        for holder, function in functions_of(file_of(crate, module)):
            if holder:
                held.setdefault(holder, []).append(function)
            else:
                free[(module, function.name)] = function
    seen = set()
    for path, module, name in sorted(reached(crate), key=lambda it: ("::" in it[0], place_in(crate, it))):
        text = modules(crate)[module]
        if (module, name) in seen:
            continue
        seen.add((module, name))
        if (module, name) in free and re.search(rf"^pub (?:\w+ )*(?:extern \S+ )?fn {name}\b", text, re.MULTILINE):
            yield free[(module, name)]._replace(name=path)
        elif re.search(rf"^pub trait {name}\b", text, re.MULTILINE):
            yield trait_of(path, held.get(name, []))
        elif re.search(rf"^pub (?:struct|enum) {name}\b", text, re.MULTILINE):
            functions = held.get(name, [])
            done = [it.ensures[0] for it in functions if not it.name and it.ensures and it.ensures[0] in traits]
            if done:
                yield functions[0]._replace(name=path, text=next((it.text for it in functions if it.text and not it.name), ""), ensures=done)
            for function in functions:
                if function.name:
                    yield function._replace(name=f"{path}::{function.name}")


def place_in(crate: str, item: tuple[str, tuple[str, ...], str]) -> tuple[str, int]:
    """Where an item stands: laws in the order of their file, others by their names."""
    path, module, name = item
    if "::" not in path:
        return path.lower(), 0
    return path.split("::")[0], re.search(rf"^pub .*\b{name}\b", modules(crate)[module], re.MULTILINE).start()


def trait_of(path: str, functions: list[Function]) -> Function:
    """A trait as one row, with the clauses of all its methods."""
    clauses = list(dict.fromkeys(clause for function in functions if function.name for clause in function.ensures))
    return functions[0]._replace(name=path, ensures=clauses)


def merged(clauses: list[str]) -> str:
    """The names of clauses, each once."""
    return ", ".join(dict.fromkeys(clauses)) or "none"


def page_of_contracts(findings: list[str]) -> str:
    """The page of the contracts."""
    page, asking = [], []
    for crate in crates():
        rows, names = [], []
        for function in items_of(crate):
            if not function.text.strip():
                findings.append(f"{function.place}: {function.name} has no text")
            if function.requires:
                names.append(f"`{function.name}`")
            rows.append(f"| `{function.name}` | {told(function)} | {merged(function.ensures)} |\n")
        if names:
            asking.append(f"{', '.join(names)} of `{crate}`")
        if rows:
            first = head_of(file_of(crate, ()).read_text(encoding="utf-8").splitlines(), "//!")
            page.append(f"\n## `{crate}`\n\n{sentence(first)}\n\n| Item | What it is for | Clauses |\n|---|---|---|\n{''.join(rows)}")
    return CONTRACTS.replace("{requires}", wrapped("; ".join(asking))) + "".join(page) + "\n" + "".join(wrong(findings)) + LAST


def wrapped(text: str) -> str:
    """The text in lines."""
    lines = [""]
    for word in text.split(" "):
        if lines[-1] and len(lines[-1]) + len(word) >= 120:
            lines.append("")
        lines[-1] += (" " if lines[-1] else "") + word
    return "\n".join(lines)


def wrong(findings: list[str]) -> Iterator[str]:
    """The table of the wrong bodies."""
    yield WRONG
    for crate in crates():
        for file in sorted((CRATES / crate / "must-fail").glob("*.edit")):
            first = file.read_text(encoding="utf-8").splitlines()[0]
            if first.startswith(PROMISE):
                yield f"| `{crate}/{file.stem}` | {sentence(first[len(PROMISE) :])} |\n"
            else:
                findings.append(f"{file.relative_to(ROOT)}:1: no line '{PROMISE.strip()}'")


def difference(page: Path, text: str) -> str | None:
    """Where a page differs from its text."""
    there = page.read_text(encoding="utf-8").splitlines() if page.exists() else []
    here = text.splitlines()
    for number, (one, other) in enumerate(zip([*there, *[""] * len(here)], [*here, *[""] * len(there)]), 1):
        if one != other:
            return f"{page.relative_to(ROOT)}:{number}: this line is not that of the sources (checks/pages.py prints it): {other or 'there is none'}"
    return None


def main(words: list[str]) -> int:
    """Prints the pages, or compares the one that is kept."""
    if words not in ([], ["--check"], ["--definitions"]):
        print(__doc__, file=sys.stderr)
        return 64
    findings: list[str] = []
    definitions, contracts = page_of_definitions(findings), page_of_contracts(findings)
    kept = ROOT / "docs" / "CONTRACTS.md"
    if words == ["--check"]:
        found = difference(kept, contracts)
        findings += [found] if found else []
    else:
        kept.with_name("DEFINITIONS.md").write_text(definitions, encoding="utf-8")
    if not words:
        kept.write_text(contracts, encoding="utf-8")
    for finding in findings:
        print(finding)
    return 1 if findings else 0


if __name__ == "__main__":
    sys.exit(main(sys.argv[1:]))

"""The words of a call."""

from __future__ import annotations

import argparse
import os
from dataclasses import dataclass
from typing import Any, NoReturn

from .ending import USAGE, stop
from .log import complain, quoted, write

CALL = """avro-breaking [--staged] [--changed] [--all | --since TAG | BASE] [--match GLOB].. [--mode MODE] [--bundle]
                     [--tame] [--allow FILE] [--json] [--quiet] [--max-time SECONDS] [-- PATHSPEC..]"""
DESCRIPTION = """Judges the schemas of a git repository against those of an earlier commit: each must read what the old one wrote.

BASE is a tag or another commit, and without it the last tag that leads here. With --all the schemas are judged against
each tag that leads here, with --since TAG against those that contain TAG; of a text that several tags have, with the
newest. With --match only tags count that GLOB matches, as for `git describe`. A base that is HEAD itself, and from which
nothing differs, gives way to the tag before it. In a repository without any tag each schema is judged by itself. The new
schemas are those of the working tree, or with --staged those of the index. PATHSPEC says which files are schemas, as git
takes it from where one stands; without it all '*.avsc' of the repository. A file that the newest base has and that is
gone is a break, unless one new file has the name of its type: then it is renamed, and judged against that.

With --bundle a schema may use types of other files of PATHSPEC in the same tree. With --tame a text that the program
refuses is checked behind tame.py and judged behind lattice.py. These filters and bundle.py are beside this script or in
../adapt, or beside the bundle.py that BUNDLE names. AVRO names the program, else avro.

A line of the FILE of --allow is 'FILE BASE [POINTER]'. It accepts what fails at that place of the new schema or below;
without POINTER whatever fails, also that the file is gone. FILE and BASE may be patterns, or names in quotes.

Answers go to standard output; notes on logical types, renamed files and the summary to standard error.

Status: 0 all do; 1 one does not, or is gone; 2 one is undecided, and all others do; 3 one is refused; 4 something cannot
be read, written or run, or takes too long; 5 memory runs out; 64 usage, or there is nothing to compare with."""


@dataclass(frozen=True)
class Options:
    """What a call asks for; PATHSPEC and BASE as they are given."""

    staged: bool = False
    changed: bool = False
    all: bool = False
    since: str | None = None
    match: tuple[str, ...] = ()
    mode: str = "backward"
    bundle: bool = False
    tame: bool = False
    allow: str | None = None
    json: bool = False
    quiet: bool = False
    max_time: float | None = None
    base: str | None = None
    paths: tuple[str, ...] = ()

    @property
    def is_many(self) -> bool:
        """Whether the schemas are judged against more than one tag."""
        return self.all or self.since is not None


class Parser(argparse.ArgumentParser):
    def error(self, message: str) -> NoReturn:
        for line in self.format_usage().splitlines():
            complain(line)
        stop(USAGE, message)

    def print_help(self, file: Any = None) -> None:
        write(1, self.format_help().rstrip("\n"))


def seconds(word: str) -> float:
    number = float(word)
    if not 0 < number <= 1_000_000:
        raise ValueError(word)
    return number


def parser() -> Parser:
    layout = argparse.RawDescriptionHelpFormatter
    made = Parser("avro-breaking", CALL, DESCRIPTION, formatter_class=layout, allow_abbrev=False)
    add = made.add_argument
    add("--staged", action="store_true", help="judge the index, as the next commit will have it")
    add("--changed", action="store_true", help="judge only what differs from one of the bases")
    add("--all", action="store_true", help="judge against each tag that leads here")
    add("--since", metavar="TAG", help="the same, but only tags that contain TAG")
    add("--match", metavar="GLOB", action="append", default=[], help="only tags that GLOB matches; more than once: any of them")
    add("--mode", choices=("backward", "forward", "full"), default="backward", help="who reads whom")
    add("--bundle", action="store_true", help="take missing types from the other files")
    add("--tame", action="store_true", help="take float and double")
    add("--allow", metavar="FILE", help="accept the breaks that FILE lists")
    add("--json", action="store_true", help="print each answer as a line of JSON")
    add("--quiet", action="store_true", help="print no summary")
    time = "end after so much processor time, instead of 10 seconds and 0.1 for each text"
    add("--max-time", metavar="SECONDS", type=seconds, help=time)
    add("base", metavar="BASE", nargs="*", help="the commit to judge against")
    return made


def read_words(words: list[str]) -> Options:
    end = words.index("--") if "--" in words else len(words)
    made = parser()
    found = vars(made.parse_args(words[:end]))
    bases = found.pop("base")
    if len(bases) > 1:
        files = " ".join(map(quoted, bases))
        made.error("more than one BASE" + (f" (of files: -- {files})" if any(map(os.path.lexists, bases)) else ""))
    options = Options(**{**found, "match": tuple(found["match"])}, base=(bases or [None])[0], paths=tuple(words[end + 1 :]))
    if options.base is not None and options.is_many:
        made.error("a BASE, and --all or --since")
    return options

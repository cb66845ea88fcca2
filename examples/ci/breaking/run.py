"""A run: from the words of a call to its status."""

from __future__ import annotations

import collections
import contextlib
import errno
import os
import shutil
import signal
import tempfile
from pathlib import Path
from typing import Iterator

from .allowed import Allowed, line_for
from .bases import Base, Bases, find_bases
from .bundling import bundled
from .desk import Clock, Sheet, check_program, program
from .ending import FAILED, NO_MEMORY, SECONDS, SECONDS_OF_TEXT, USAGE, Stop, stop
from .git import Blobs, git
from .history import History
from .judging import OUTCOMES, FileJudge, worst
from .log import Log, complain, in_quotes, quoted
from .options import Options, read_words
from .trees import Tree, Version, WorkingTree

# Without PATHSPEC.
EVERY = (":/*.avsc",)


class Run:
    """The files of a history, judged one after the other."""

    def __init__(self, options: Options, folder: Path, history: History, clock: Clock) -> None:
        self.options, self.folder, self.history, self.clock = options, folder, history, clock
        self.log = Log(options.json, options.quiet, bool(os.environ.get("GITHUB_ACTIONS")))
        self.allowed = Allowed(options.allow)
        self.avro = program(os.environ.get("AVRO", "avro"))
        check_program(self.avro, folder)

    def judge(self, bases: Bases) -> int:
        found = collections.Counter(map(self.file, sorted(self.history.new.keys() | self.history.gone)))
        for words in self.allowed.unused():
            complain(f"avro-breaking: {words}")
        self.log.sum_up(summary(found, bases))
        return OUTCOMES[worst(found)]

    def file(self, path: str) -> str:
        if path not in self.history.new:
            return self.gone(path)
        if self.options.changed and self.history.is_unchanged(path):
            return "unchanged"
        with tempfile.TemporaryDirectory(dir=self.folder) as folder:
            sheet = Sheet(Path(folder), self.avro, self.options.tame, self.clock)
            judge = FileJudge(self.options, self.log, self.allowed, sheet, path)
            return judge.judge(self.history.new[path], self.history.groups[path])

    def gone(self, path: str) -> str:
        base = self.history.newest_name
        outcome = "accepted" if self.allowed.of(path, [base]).takes("") else "gone"
        if self.options.json:
            accepted = {"accepted": True} if outcome == "accepted" else {}
            self.log.answer('{"verdict":"gone"}', {"file": path, "base": base, **accepted})
        elif outcome == "accepted":
            self.log.tell(path, [f"{quoted(base)}: gone, accepted"], kind="notice")
        else:
            allow = [f"allow: {line_for(path, base, '')}"] if self.options.allow is not None else []
            self.log.tell(path, [f"{quoted(base)}: gone", *allow])
        return outcome


def summary(found: dict[str, int], bases: Bases) -> str:
    count = sum(found.values())
    words = ", ".join(f"{found[word]} {word}" for word in OUTCOMES if found[word])
    return f"{count} schema{'s' * (count != 1)}{bases.words()}: {words}".removesuffix(": ")


@contextlib.contextmanager
def ended_by(clock: Clock) -> Iterator[None]:
    """Ends what this process does itself, too, when the time is over."""
    before = signal.signal(signal.SIGPROF, clock.end)
    signal.setitimer(signal.ITIMER_PROF, clock.seconds)
    try:
        yield
    finally:
        signal.setitimer(signal.ITIMER_PROF, 0)
        signal.signal(signal.SIGPROF, before)


class Reading:
    """Reads the schemas of the new tree and of the bases, one base after the other."""

    def __init__(self, options: Options, folder: Path, blobs: Blobs) -> None:
        self.options, self.folder, self.blobs = options, folder, blobs
        self.paths = options.paths or EVERY
        # Each PATHSPEC must name a file of some tree, and so must all together.
        self.unnamed = list(dict.fromkeys([*((path,) for path in self.paths), self.paths]))
        self.count = 0

    def history(self, bases: Bases) -> History:
        new = (Tree if self.options.staged else WorkingTree)(self.paths, self.blobs)
        history = History(self.versions(new))
        for base in bases.found:
            history.add(base.name, self.versions_of(base))
        if self.unnamed and (self.options.paths or not self.options.changed):
            stop(USAGE, f"no schema is named by {' '.join(map(in_single_quotes, self.unnamed[0]))}{modules_told(new)}")
        return history

    def versions_of(self, base: Base) -> dict[str, Version]:
        index = str(self.folder / "index")
        git("read-tree", f"{base.revision}^{{commit}}", GIT_INDEX_FILE=index)
        found = self.versions(Tree(self.paths, self.blobs, base.name, GIT_INDEX_FILE=index))
        os.remove(index)
        return found

    def versions(self, tree: Tree) -> dict[str, Version]:
        self.unnamed = [paths for paths in self.unnamed if not tree.has(*paths)]
        self.count += 1
        found = tree.versions()
        if not self.options.bundle:
            return found
        return bundled(self.clock(len(found)), self.folder / f"tree-{self.count}", found)

    def clock(self, count: int) -> Clock:
        """The time for so many texts."""
        return Clock(self.options.max_time or SECONDS + SECONDS_OF_TEXT * count)


def in_single_quotes(path: str) -> str:
    written = in_quotes(path)
    return f"'{path}'" if written == f'"{path}"' else written


def modules_told(tree: Tree) -> str:
    """What is said of submodules, whose files are those of another repository."""
    modules = tree.modules()
    names = ", ".join(map(quoted, modules[:3])) + ", .." * (len(modules) > 3)
    return f" (files of a submodule are judged in it: {names})" if modules else ""


def judge(options: Options, folder: Path) -> int:
    bases = find_bases(options, options.paths or EVERY)
    with contextlib.closing(Blobs()) as blobs:
        reading = Reading(options, folder, blobs)
        history = reading.history(bases)
        clock = reading.clock(history.count())
        with ended_by(clock):
            return Run(options, folder, history, clock).judge(bases)


def judge_in_folder(options: Options) -> int:
    try:
        git("rev-parse", "--show-toplevel")
    except Stop as fault:
        stop(USAGE, fault.line)
    folder = tempfile.mkdtemp(prefix="avro-breaking.", dir=os.environ.get("TMPDIR") or "/tmp")
    try:
        return judge(options, Path(folder))
    finally:
        shutil.rmtree(folder, ignore_errors=True)


def failure(fault: Exception) -> Stop:
    """How a run ends after an exception, of which none may pass for a verdict."""
    if isinstance(fault, Stop):
        return fault
    if isinstance(fault, MemoryError) or getattr(fault, "errno", None) == errno.ENOMEM:
        return Stop(NO_MEMORY, "out of memory")
    if isinstance(fault, OSError):
        name = fault.filename or "output"
        return Stop(FAILED, f"{quoted(os.fsdecode(name))}: {fault.strerror or fault}")
    return Stop(FAILED, f"{type(fault).__name__}: {fault}")


def main(words: list[str]) -> int:
    try:
        return judge_in_folder(read_words(words))
    except KeyboardInterrupt:
        return 128 + signal.SIGINT
    except Exception as fault:
        end = failure(fault)
        complain(f"avro-breaking: {end.line}")
        return end.status

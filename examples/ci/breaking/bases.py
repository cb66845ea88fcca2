"""The commits to judge against."""

from __future__ import annotations

import os
from dataclasses import dataclass, replace

from .ending import USAGE, Stop, stop
from .git import commit_of, git, is_so
from .log import complain, quoted
from .options import Options

FETCH = "git fetch --tags; in a workflow of GitHub: fetch-depth: 0"
COMPARE = ("--no-optional-locks", "diff", "--quiet", "--no-ext-diff")
UNSHALLOW = "git fetch --unshallow --tags; in a workflow of GitHub: fetch-depth: 0"


@dataclass(frozen=True)
class Base:
    """A commit: what it is called when it is told, and what git finds it by."""

    name: str
    revision: str
    # Whether it is the call's BASE, and no tag that was found.
    is_given: bool = False


def tag_base(tag: str) -> Base:
    return Base(tag, f"refs/tags/{tag}")


@dataclass(frozen=True)
class Bases:
    """The bases, the newest first; `passed` is one that is HEAD itself and gave way to them."""

    found: tuple[Base, ...] = ()
    passed: str = ""

    def words(self) -> str:
        """What the schemas are judged against, for the summary."""
        passed = f" ({quoted(self.passed)} is HEAD itself)" if self.passed else ""
        if not self.found:
            return f", no earlier tag{passed}" if passed else ""
        name = quoted(self.found[0].name) if len(self.found) == 1 else f"{len(self.found)} tags"
        return f" against {name}{passed}"


class Tags:
    """The tags that lead to HEAD, of which only those count that a pattern matches, if there is one."""

    def __init__(self, patterns: tuple[str, ...]) -> None:
        self.patterns = patterns

    def last(self, *excluded: str) -> str | None:
        """The last tag but those."""
        words = [f"--match={pattern}" for pattern in self.patterns] + [f"--exclude={tag}" for tag in excluded]
        try:
            return git("describe", "--tags", "--abbrev=0", *words).strip()
        except Stop:
            return None

    def all(self, since: str | None) -> list[str]:
        """All of them, the newest first, or those that contain a commit."""
        words = ("--contains", since) if since is not None else ()
        sorting = ("--sort=-version:refname", "--sort=-creatordate")
        return git("tag", "--no-column", *sorting, "--merged", "HEAD", *words, "--list", *self.patterns).splitlines()

    def any(self) -> bool:
        return bool(git("tag", "--list"))

    @staticmethod
    def here() -> list[str]:
        return git("tag", "--points-at", "HEAD").splitlines()


def find_bases(options: Options, paths: tuple[str, ...]) -> Bases:
    """The commits to judge against; a base that is HEAD itself gives way if nothing differs from it."""
    tags = Tags(options.match)
    found = named_bases(options, tags)
    same = those_at_head(found, tags)
    if not same or differs_from_head(options, paths):
        return Bases(tuple(found))
    found = [base for base in found if base not in same]
    if not options.is_many:
        tag = tags.last(*tags.here())
        found = [tag_base(tag)] if tag else []
    bases = Bases(tuple(found), same[0].name)
    return bases if found else without_earlier(bases, options)


def those_at_head(bases: list[Base], tags: Tags) -> list[Base]:
    """Those of the bases that are HEAD itself."""
    head = commit_of("HEAD")
    here = {tag_base(tag) for tag in (tags.here() if head else ())}
    return [base for base in bases if base in here or (base.is_given and commit_of(base.revision) == head)]


def named_bases(options: Options, tags: Tags) -> list[Base]:
    """The bases that the call asks for, whether or not they are HEAD."""
    if options.is_many and is_shallow():
        stop(USAGE, f"the clone is shallow, and may lack tags ({UNSHALLOW})")
    for name in filter(None, (options.base, options.since)):
        check_commit(name)
    if options.base is not None:
        return [Base(options.base, options.base, is_given=True)]
    last = tags.last()
    if last is None:
        return without_tag(options, tags)
    if not options.is_many:
        return [tag_base(last)]
    found = tags.all(options.since) or stop(USAGE, f"no tag that leads here contains {quoted(options.since or '')}")
    return [tag_base(tag) for tag in sorted(found, key=lambda tag: tag != last)]


def check_commit(name: str) -> None:
    if commit_of(name) is None:
        is_file = os.path.lexists(name) or bool(git("ls-files", "--", f":(literal){name}"))
        hint = f" (of a file: avro-breaking -- {quoted(name)})" if is_file else ""
        stop(USAGE, f"{quoted(name)}: no such commit{hint}")


def is_shallow() -> bool:
    return git("rev-parse", "--is-shallow-repository").strip() == "true"


def is_without_tags() -> bool:
    """Whether the clone was made without the tags of where it comes from."""
    return is_so("config", "--get-regexp", r"^remote\..*\.tagopt$", "^--no-tags$")


def without_tag(options: Options, tags: Tags) -> list[Base]:
    """A clone may lack the tag that counts: only where nothing says so is this the time before the first one."""
    if is_shallow():
        stop(USAGE, f"no tag leads here: the clone is shallow ({UNSHALLOW})")
    if tags.any():
        matching = f" matches {' or '.join(map(quoted, options.match))} and" if options.match else ""
        stop(USAGE, f"no tag{matching} leads here ({FETCH})")
    if is_without_tags():
        unset = "git config --unset-all remote.origin.tagOpt"
        stop(USAGE, f"the clone was made without tags ({FETCH}; before the first one: {unset})")
    if options.is_many:
        stop(USAGE, f"there is no tag ({FETCH}; before the first one leave out --all)")
    complain("avro-breaking: no tag yet: each schema is judged by itself")
    return []


def without_earlier(bases: Bases, options: Options) -> Bases:
    here = f"{quoted(bases.passed)} is HEAD itself"
    if is_shallow():
        stop(USAGE, f"no earlier tag: {here}, and the clone is shallow ({UNSHALLOW})")
    if is_without_tags():
        stop(USAGE, f"no earlier tag: {here}, and the clone was made without tags ({FETCH})")
    if options.is_many:
        stop(USAGE, f"no earlier tag: {here}, and nothing differs from it")
    complain(f"avro-breaking: no earlier tag: {here}, and each schema is judged by itself")
    return replace(bases, found=())


def differs_from_head(options: Options, paths: tuple[str, ...]) -> bool:
    """Whether a schema of the working tree differs from HEAD, or anything in the index, of which a commit is made."""
    if options.staged:
        return not is_so(*COMPARE, "--cached", "HEAD", "--")
    others = git("ls-files", "--others", "--exclude-standard", "--", *paths)
    return bool(others) or not is_so(*COMPARE, "HEAD", "--", *paths)

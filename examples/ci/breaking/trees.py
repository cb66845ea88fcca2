"""The schemas of a tree: of a commit, of the index, or of the working tree."""

from __future__ import annotations

import functools
import hashlib
import os
import posixpath
import re
from dataclasses import dataclass, field
from pathlib import Path
from typing import Callable, Iterator

from .ending import FAILED, MOST_FILES, MOST_TEXT, stop
from .git import Blobs, git, records
from .log import quoted

LINK, MODULE = "120000", "160000"
MOST_LINKS = 40


@dataclass(frozen=True)
class Version:
    """A schema of a tree: a key, which is the same for the same text, and how that is read, or why there is none."""

    key: str
    read: Callable[[], bytes] = field(compare=False, repr=False)
    # The text of the file itself, where what is judged has more than that.
    own: Callable[[], bytes] = field(compare=False, repr=False)
    fault: str = ""


def read_file(path: Path) -> bytes:
    """The text of a file, up to one byte more than a schema may have."""
    with open(path, "rb") as file:
        return file.read(MOST_TEXT + 1)


@dataclass(frozen=True)
class Entry:
    """A file of an index: git's tag for its state, its mode and its object."""

    tag: str
    mode: str
    object: str


class Tree:
    """The files of the index, or of one into which a commit was read; `name` is the commit's, as it is told."""

    def __init__(self, paths: tuple[str, ...], blobs: Blobs, name: str = "", **environment: str) -> None:
        self.paths, self.blobs, self.name, self.environment = paths, blobs, name, environment

    def entries(self, *paths: str) -> Iterator[tuple[str, Entry]]:
        for line in records("ls-files", "-zst", "--full-name", "--", *paths, **self.environment):
            words, _, path = line.partition("\t")
            yield path, Entry(*words.split()[:3])

    def has(self, *paths: str) -> bool:
        """Whether a schema of the tree is named."""
        return any(entry.mode != MODULE for _, entry in self.entries(*paths))

    def modules(self) -> list[str]:
        return [path for path, entry in self.entries(":/") if entry.mode == MODULE]

    def versions(self) -> dict[str, Version]:
        """The schemas that PATHSPEC names."""
        found: dict[str, Version] = {}
        for path, entry in self.entries(*self.paths):
            self.put(found, path, self.version(path, entry) if entry.mode != MODULE else None)
        return found

    def put(self, found: dict[str, Version], path: str, version: Version | None) -> None:
        if version is not None:
            found[path] = version
        if len(found) > MOST_FILES:
            stop(FAILED, f"there are more than {MOST_FILES} schemas: PATHSPEC can name fewer")

    def version(self, path: str, entry: Entry) -> Version | None:
        if entry.mode == LINK:
            target = self.followed(path)
            entry = target and self.entry(target)
        if not entry:
            return None
        read = functools.partial(self.blobs.read, entry.object)
        return Version(entry.object, read, read)

    def entry(self, path: str) -> Entry | None:
        """The file that has this very path, and is not a folder."""
        first = next(self.entries(f":(top,literal){path}"), None)
        return first[1] if first and first[0] == path and first[1].mode != MODULE else None

    @functools.cached_property
    def links(self) -> dict[str, str]:
        """The objects of all symbolic links."""
        return {path: entry.object for path, entry in self.entries(":/") if entry.mode == LINK}

    def followed(self, path: str) -> str | None:
        """The path to which one leads through symbolic links."""
        given = path
        for _ in range(MOST_LINKS):
            above = (path[: end.start()] for end in re.finditer("/|$", path))
            link = next((each for each in above if each in self.links), None)
            if link is None:
                return path
            target = os.fsdecode(self.blobs.read(self.links[link])) + path[len(link) :]
            path = posixpath.normpath(posixpath.join(posixpath.dirname(link), target))
            if path.startswith("/") or path.split("/")[0] == "..":
                self.lead_out(given)
        return None

    def lead_out(self, path: str) -> None:
        place = f"{quoted(self.name)}: " if self.name else ""
        stop(FAILED, f"{place}{quoted(path)}: is a link out of the tree")


class WorkingTree(Tree):
    """The files as they are; those outside a sparse checkout as they are in the index."""

    @functools.cached_property
    def top(self) -> Path:
        return Path(os.path.realpath(git("rev-parse", "--show-toplevel")[:-1]))

    @functools.cached_property
    def hash(self) -> str:
        """The hash by which objects are named, so that a file has the key that its object has."""
        return "sha256" if git("rev-parse", "--show-object-format").strip() == "sha256" else "sha1"

    def others(self, *paths: str) -> Iterator[str]:
        return records("ls-files", "-z", "--full-name", "--others", "--exclude-standard", "--", *paths)

    def has(self, *paths: str) -> bool:
        return super().has(*paths) or any(True for _ in self.others(*paths))

    def versions(self) -> dict[str, Version]:
        found = super().versions()
        for path in self.others(*self.paths):
            self.put(found, path, self.file(path))
        return found

    def version(self, path: str, entry: Entry) -> Version | None:
        return self.file(path) or (super().version(path, entry) if entry.tag == "S" else None)

    def file(self, path: str) -> Version | None:
        """The schema of a file that is there, wherever in the tree its links lead."""
        real = Path(os.path.realpath(self.top / path))
        inner = os.path.relpath(real, self.top).split("/")[0]
        if inner in ("..", ".git"):
            self.lead_out(path)
        if not real.is_file():
            return None
        read = functools.partial(read_file, real)
        return Version(self.key(read()), read, read)

    def key(self, text: bytes) -> str:
        made = hashlib.new(self.hash, b"blob %d\0" % len(text), usedforsecurity=False)
        made.update(text)
        return made.hexdigest()

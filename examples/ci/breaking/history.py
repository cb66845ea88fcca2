"""What the bases have of each file, under the name that it has now."""

from __future__ import annotations

import hashlib

from .places import root_name
from .trees import Version

# A text that bases have, the path that it has there, and the names of these bases, the newest first.
Groups = dict[tuple[str, Version], list[str]]


class History:
    """The new files, and what the bases that were added, the newest first, have of them."""

    def __init__(self, new: dict[str, Version]) -> None:
        self.new = new
        self.newest: dict[str, Version] | None = None
        self.newest_name = ""
        # The files of the newest base that are gone, and are not renamed.
        self.gone: set[str] = set()
        self.groups: dict[str, Groups] = {path: {} for path in new}
        self.root_names: dict[str, str | None] = {}

    def add(self, name: str, versions: dict[str, Version]) -> None:
        renamed = self.renamed(versions)
        for path, version in versions.items():
            now = path if path in self.new else renamed.get(path)
            if now is not None:
                self.groups[now].setdefault((path, version), []).append(name)
        if self.newest is None:
            self.newest, self.newest_name = versions, name
            self.gone = versions.keys() - self.new.keys() - renamed.keys()

    def renamed(self, versions: dict[str, Version]) -> dict[str, str]:
        """Of the files of a base that are gone, those whose type is that of one file that the base does not have."""
        gone, added = versions.keys() - self.new.keys(), self.new.keys() - versions.keys()
        if not gone or not added:
            return {}
        by_name: dict[str, list[str]] = {}
        for path in added:
            name = self.root_name(self.new[path])
            if name is not None:
                by_name.setdefault(name, []).append(path)
        found = {path: self.one_of(versions[path], by_name.get(self.root_name(versions[path]) or "", [])) for path in gone}
        return {path: now for path, now in found.items() if now is not None}

    def one_of(self, old: Version, paths: list[str]) -> str | None:
        """The only one of the new files or, of several, the only one with the same text."""
        if len(paths) > 1:
            paths = [path for path in paths if self.new[path].key == old.key]
        return paths[0] if len(paths) == 1 else None

    def root_name(self, version: Version) -> str | None:
        """The fullname of the type that a text defines, or what stands for a long one."""
        if version.key not in self.root_names:
            name = root_name(version.own())
            is_long = name is not None and len(name) > 200
            self.root_names[version.key] = hashlib.sha256(name.encode(errors="surrogatepass")).hexdigest() if is_long else name
        return self.root_names[version.key]

    def is_unchanged(self, path: str) -> bool:
        """Whether a file is the same in each base that has it, and the newest has it."""
        version = self.new[path]
        return self.newest is not None and self.newest.get(path) == version and self.groups[path].keys() == {(path, version)}

    def count(self) -> int:
        """How many texts are judged."""
        return sum(1 + len(groups) for groups in self.groups.values())

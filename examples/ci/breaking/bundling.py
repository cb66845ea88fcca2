"""The texts of a tree with the types that they take from each other."""

from __future__ import annotations

import functools
import hashlib
import re
import shutil
from dataclasses import replace
from pathlib import Path

from .desk import Clock, run_script
from .log import quoted
from .trees import Version, read_file


def bundled(clock: Clock, folder: Path, versions: dict[str, Version]) -> dict[str, Version]:
    """The schemas of a tree behind bundle.py, which reads them all at once in a folder, under numbers."""
    if not versions:
        return {}
    source, out = folder / "own", folder / "bundled"
    source.mkdir(parents=True)
    files = {path: f"{number:08}.avsc" for number, path in enumerate(sorted(versions))}
    for path, file in files.items():
        (source / file).write_bytes(versions[path].read())
    done = run_script(clock, "bundle.py", "--tree", source, out)
    shutil.rmtree(source)
    faults = iter(done.stderr.decode(errors="replace").splitlines())
    names = {file: path for path, file in files.items()}
    found = {}
    for path, file in files.items():
        found[path] = made(versions[path], out / file) or refused(versions[path], next(faults, ""), names)
    return found


def made(own: Version, file: Path) -> Version | None:
    if not file.is_file():
        return None
    read = functools.partial(read_file, file)
    return Version(f"{own.key} {hashlib.sha256(read()).hexdigest()}", read, own.own)


def refused(own: Version, fault: str, names: dict[str, str]) -> Version:
    told = re.sub(r"\b\d{8}\.avsc", lambda found: quoted(names.get(found[0], found[0])), fault)
    return replace(own, fault=told or "bundle: no text")

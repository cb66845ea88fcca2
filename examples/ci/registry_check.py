#!/usr/bin/env python3
"""Judges a new schema against all versions of a subject in a schema registry, by `avro history`:

    registry-check.sh URL SUBJECT NEW [--tame] [--certificates OUT] [OPTION..]

SUBJECT is as it stands in a URL; other options, as --mode MODE, --next and --json, are for `avro history`. A version's references
are fetched, and stand in its text where they are used first. --tame takes floats and doubles, by ../adapt/lattice.py. curl
asks the registry: its own settings and ~/.netrc, or the file that NETRC names, may name a user. AVRO names the program, else avro.

Prints `v1 yes`, `v2 no` .. and below a no its first faults, or `no version yet` where the registry knows no such subject; status:
that of `avro history`; 3 a schema is refused; 4 the registry cannot be asked, or answers something else; 64 usage.
"""

from __future__ import annotations

import itertools
import json
import os
import re
import shutil
import subprocess
import sys
import tempfile
from dataclasses import dataclass, field
from pathlib import Path
from typing import Any, Iterator
from urllib.parse import quote, urlsplit

from breaking.log import cut, shown

HERE = Path(__file__).resolve().parent
sys.path.insert(0, str(HERE.parent / "adapt"))
import bundle
import lattice

# A text of the greatest length, each of whose bytes is escaped; and all other answers.
MOST_BYTES = 8_388_608
MOST_VERSIONS = 10_000
MOST_REFERENCES = 1_000
MOST_FAULTS = 100
SECONDS = 60
NO_SUBJECT = 40401
LINE = re.compile(r"(v\d+)(?: (backward|forward))? no")


class Stop(Exception):
    """Ends the run: a status and a line."""

    def __init__(self, status: int, line: str) -> None:
        super().__init__(line)
        self.status = status


@dataclass
class Options:
    """What the words ask for."""

    url: str
    subject: str
    new: str
    is_tamed: bool
    others: list[str]


@dataclass
class Registry:
    """Asks a registry by curl, whose words have no secret in them."""

    url: str
    # The texts of versions that were asked for, by subject and version.
    known: dict[tuple[str, int], dict] = field(default_factory=dict)

    def get(self, subject: str, path: str) -> tuple[int, Any]:
        """The status of HTTP, and the JSON of the answer."""
        words = ["curl", "-sS", "-K", "-", "--globoff", "--proto", "=http,https", "--max-time", str(SECONDS), "--max-filesize", str(MOST_BYTES)]
        words += ["--netrc-file", os.environ["NETRC"]] if "NETRC" in os.environ else ["--netrc-optional"]
        settings = f'url = "{self.url}/subjects/{subject}/{path}"\nwrite-out = "%{{http_code}}"\n'
        with subprocess.Popen(words, stdin=subprocess.PIPE, stdout=subprocess.PIPE, stderr=subprocess.PIPE) as run:
            run.stdin.write(settings.encode())
            run.stdin.close()
            said = run.stdout.read(MOST_BYTES + 4)
            if len(said) > MOST_BYTES + 3:
                run.kill()
            words = run.stderr.read(4_096).decode(errors="replace").partition("\n")[0]
        if len(said) > MOST_BYTES + 3:
            raise Stop(4, f"{subject}: an answer of more than {MOST_BYTES} bytes")
        if run.returncode != 0:
            raise Stop(4, f"{subject}: {words.replace(self.url, 'the registry') or 'curl was ended'}")
        try:
            return int(said[-3:]), json.loads(said[:-3])
        except (ValueError, RecursionError):
            return int(said[-3:] or 0), None

    def versions(self, subject: str) -> list[int]:
        """The numbers of a subject's versions; none where the registry says that it has no such subject."""
        status, answer = self.get(subject, "versions")
        if status == 404 and isinstance(answer, dict) and answer.get("error_code") == NO_SUBJECT:
            return []
        if status != 200:
            raise Stop(4, f"{subject}: the registry answers {status}")
        if not isinstance(answer, list) or not answer or not all(type(number) is int and number > 0 for number in answer):
            raise Stop(4, f"{subject}: the answer is no list of versions")
        if len(answer) > MOST_VERSIONS:
            raise Stop(4, f"{subject}: more than {MOST_VERSIONS} versions")
        return answer

    def version(self, subject: str, number: int) -> dict:
        """A version, with its text and its references."""
        key = subject, number
        if key not in self.known:
            if len(self.known) > MOST_VERSIONS + MOST_REFERENCES:
                raise Stop(4, f"{subject}: more than {MOST_REFERENCES} references")
            status, answer = self.get(subject, f"versions/{number}")
            if status != 200:
                raise Stop(4, f"{subject}: v{number}: the registry answers {status}")
            if not isinstance(answer, dict) or not isinstance(answer.get("schema"), str):
                raise Stop(4, f"{subject}: v{number}: the answer has no schema")
            if answer.get("schemaType", "AVRO") != "AVRO":
                raise Stop(4, f"{subject}: v{number}: is no schema of Avro")
            self.known[key] = answer
        return self.known[key]

    def referred(self, version: dict) -> dict[tuple[str, int], str]:
        """The texts that a version refers to, and those that these refer to, each once."""
        texts: dict[tuple[str, int], str] = {}
        left = references_of(version)
        while left:
            key = left.pop()
            if key not in texts:
                if len(texts) >= MOST_REFERENCES:
                    raise Stop(4, f"more than {MOST_REFERENCES} references")
                other = self.version(quote(key[0], safe=""), key[1])
                texts[key] = other["schema"]
                left += references_of(other)
        return texts

    def text(self, subject: str, number: int) -> bytes:
        """The text of a version, with the types of its references in it."""
        version = self.version(subject, number)
        own = version["schema"].encode()
        others = {f"{name} v{at}": text.encode() for (name, at), text in self.referred(version).items()}
        try:
            return bundle.bundled(f"v{number}", own, bundle.definitions(others.items())) if others else own
        except bundle.Refused as fault:
            raise Stop(3, f"{subject}: {fault}") from None


def references_of(version: dict) -> list[tuple[str, int]]:
    found = version.get("references") or []
    try:
        return [(str(each["subject"]), int(each["version"])) for each in found]
    except (TypeError, KeyError, ValueError):
        raise Stop(4, "a version's references are of another form") from None


class Judge:
    """Runs the program on the texts in a folder, where the versions have the names `v1` and so on."""

    def __init__(self, options: Options, folder: str) -> None:
        name = os.environ.get("AVRO", "avro")
        program = shutil.which(name)
        if program is None:
            raise Stop(4, f"{name}: no such program")
        self.program, self.options, self.folder = os.path.realpath(program), options, folder

    def lay(self, name: str, text: bytes, told: str) -> None:
        if self.options.is_tamed:
            try:
                text = lattice.latticed(text)
            except lattice.Refused as fault:
                raise Stop(3, f"{told}: {fault}") from None
        Path(self.folder, name).write_bytes(text)

    def words(self, *words: str) -> list[str]:
        return [self.program, *words]

    def named(self, said: bytes) -> str:
        """A line of the program, with the name of the new schema as it was given."""
        return said.decode(errors="surrogateescape").replace("avro: new: ", f"avro: {self.options.new}: ")

    def check_new(self) -> None:
        done = subprocess.run(self.words("schema", "new"), cwd=self.folder, capture_output=True)
        if done.returncode != 0:
            raise Stop(done.returncode, self.named(done.stderr).rstrip("\n"))

    def history(self, numbers: list[int]) -> int:
        files = [f"v{number}" for number in numbers]
        done = subprocess.run(self.words("history", *files, "new", *self.options.others), cwd=self.folder, capture_output=True)
        for line in done.stdout.decode(errors="surrogateescape").splitlines():
            print(line, flush=True)
            found = LINE.fullmatch(line)
            if found:
                self.tell_faults(*((found[1], "new") if found[2] != "forward" else ("new", found[1])))
        sys.stderr.write(self.named(done.stderr))
        return done.returncode

    def tell_faults(self, writer: str, reader: str) -> None:
        """Prints the first faults of a no, however many there are; with --next the readers differ, and none is told."""
        if "--next" in self.options.others:
            return
        with subprocess.Popen(self.words("explain", writer, reader), cwd=self.folder, stdout=subprocess.PIPE) as run:
            lines = self.lines(run)
            first = next(lines, "")
            told = list(itertools.islice(lines, MOST_FAULTS))
            run.kill()
        for line in told:
            print(f"    {shown(cut(line))}", flush=True)
        count = int(first[3:]) if re.fullmatch(r"no \d+", first) else len(told)
        if count > len(told):
            print(f"    and {count - len(told)} more", flush=True)

    def lines(self, run: subprocess.Popen) -> Iterator[str]:
        for line in iter(lambda: run.stdout.readline(MOST_BYTES), b""):
            yield (lattice.with_words(line) if self.options.is_tamed else line).decode(errors="replace").rstrip("\n")


def options_of(words: list[str]) -> Options:
    """The words, with the files of options as they are seen from any folder."""
    if len(words) < 3 or any(word.startswith("-") for word in words[:3]):
        raise Stop(64, __doc__.rstrip("\n"))
    url, subject, new, *others = words
    if "@" in urlsplit(url).netloc:
        raise Stop(64, "a user and a password belong in ~/.netrc, where no other user of this machine sees them")
    is_tamed = "--tame" in others
    others = [word for word in others if word != "--tame"]
    for at, word in enumerate(others):
        name, is_one, value = word.partition("=")
        if name in ("--certificates", "--confirm"):
            if is_tamed:
                raise Stop(64, f"{name} and --tame: a certificate would be of other schemas")
            if is_one:
                others[at] = f"{name}={os.path.abspath(value)}"
            elif at + 1 < len(others):
                others[at + 1] = os.path.abspath(others[at + 1])
    if re.search(r'["\\\s]', url + subject) or any(ord(letter) < 33 for letter in url + subject):
        raise Stop(64, "URL and SUBJECT are as they stand in a URL")
    return Options(url.rstrip("/"), subject, new, is_tamed, others)


def judge(options: Options) -> int:
    try:
        new = Path(options.new).read_bytes()
    except OSError:
        raise Stop(4, f"{options.new}: cannot read") from None
    with tempfile.TemporaryDirectory() as folder:
        program, registry = Judge(options, folder), Registry(options.url)
        program.lay("new", new, options.new)
        program.check_new()
        numbers = registry.versions(options.subject)
        for number in numbers:
            program.lay(f"v{number}", registry.text(options.subject, number), f"{options.subject}: v{number}")
        if not numbers:
            print("no version yet")
            return 0
        return program.history(numbers)


def main(words: list[str]) -> int:
    sys.setrecursionlimit(lattice.DEPTH)
    try:
        return judge(options_of(words))
    except Stop as stop:
        line = str(stop)
        print(line if line.startswith("avro: ") or stop.status == 64 and "\n" in line else f"registry-check: {shown(cut(line))}", file=sys.stderr)
        return stop.status
    except MemoryError:
        print("registry-check: out of memory", file=sys.stderr)
        return 5
    except OSError as fault:
        print(f"registry-check: {fault.strerror}", file=sys.stderr)
        return 4


if __name__ == "__main__":
    sys.exit(main(sys.argv[1:]))

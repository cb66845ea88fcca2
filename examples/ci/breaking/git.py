"""What git tells."""

from __future__ import annotations

import os
import subprocess
import tempfile
from typing import Iterator

from .ending import FAILED, MOST_TEXT, Stop, stop
from .log import first_line

PIECE = 1 << 16


def git(*words: str, **environment: str) -> str:
    done = subprocess.run(["git", *words], capture_output=True, env={**os.environ, **environment})
    if done.returncode:
        stop(FAILED, f"git {words[0]}: {first_line(done.stderr) or f'status {done.returncode}'}")
    return os.fsdecode(done.stdout)


def is_so(*words: str, **environment: str) -> bool:
    """Whether a command of git that tests something ends with 0, and not with 1."""
    done = subprocess.run(["git", *words], capture_output=True, env={**os.environ, **environment})
    if done.returncode > 1:
        stop(FAILED, f"git: {first_line(done.stderr) or f'status {done.returncode}'}")
    return done.returncode == 0


def records(*words: str, **environment: str) -> Iterator[str]:
    """What a command of git prints before each NUL, without holding it all."""
    with tempfile.TemporaryFile() as errors:
        process = subprocess.Popen(["git", *words], env={**os.environ, **environment}, stdout=subprocess.PIPE, stderr=errors)
        with process:
            rest = b""
            while piece := process.stdout.read(PIECE):
                *whole, rest = (rest + piece).split(b"\0")
                yield from map(os.fsdecode, whole)
        errors.seek(0)
        if process.returncode:
            stop(FAILED, f"git {words[0]}: {first_line(errors.read(PIECE)) or f'status {process.returncode}'}")


def commit_of(name: str) -> str | None:
    """The commit that a name stands for, if there is one."""
    try:
        return git("rev-parse", "--quiet", "--verify", f"{name}^{{commit}}").strip()
    except Stop:
        return None


class Blobs:
    """The contents of git's objects, of which one that is too long for a schema is not read."""

    def __init__(self) -> None:
        self.sizes, self.contents = (self.asked(word) for word in ("--batch-check", "--batch"))

    @staticmethod
    def asked(word: str) -> subprocess.Popen[bytes]:
        pipes = {"stdin": subprocess.PIPE, "stdout": subprocess.PIPE, "stderr": subprocess.DEVNULL}
        return subprocess.Popen(["git", "cat-file", word], **pipes)

    @staticmethod
    def size(process: subprocess.Popen[bytes], name: str) -> int:
        process.stdin.write(f"{name}\n".encode())
        process.stdin.flush()
        *_, size = process.stdout.readline().split() or [b""]
        return int(size) if size.isdigit() else stop(FAILED, f"git cat-file: {name}: cannot read")

    def read(self, name: str) -> bytes:
        if self.size(self.sizes, name) > MOST_TEXT:
            return b" " * (MOST_TEXT + 1)
        size = self.size(self.contents, name)
        text = self.contents.stdout.read(size + 1)
        return text[:-1] if len(text) == size + 1 else stop(FAILED, f"git cat-file: {name}: cannot read")

    def close(self) -> None:
        for process in (self.sizes, self.contents):
            process.kill()
            process.communicate()

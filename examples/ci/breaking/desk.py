"""What the program and the filters say of texts, which lie in a folder under numbers."""

from __future__ import annotations

import contextlib
import functools
import os
import re
import resource
import shutil
import signal
import subprocess
import sys
from dataclasses import dataclass, replace
from pathlib import Path
from typing import Callable, Iterator, NoReturn

from .ending import FAILED, MOST_ANSWER, MOST_FAULTS, MOST_LINE, MOST_MEMORY, MOST_TEXT, NO_MEMORY, stop
from .log import first_line, quoted
from .trees import Version

ANSWERS = {0: "yes", 1: "no", 2: "undecided", 3: "refused"}
# What the program says first, for each status.
SAID = {
    0: re.compile(r'ok \d+|yes|\{"verdict":"yes".*\}'),
    1: re.compile(r'no\n.*|\{"verdict":"no".*\}', re.DOTALL),
    2: re.compile(r'undecided \w+|\{"verdict":"undecided".*\}'),
    3: re.compile(r"avro: .*", re.DOTALL),
}
CHECK, JUDGE = "tame.py", "lattice.py"


class Refused(Exception):
    """A filter refuses a text."""


@dataclass(frozen=True)
class Laid:
    """A text where it lies for the program, which is given a word for it, and the file's name as it is told."""

    word: str
    name: str
    version: Version


@dataclass(frozen=True)
class Answer:
    """What the program says of texts, which it was given behind a filter if there is one."""

    status: int
    said: str
    texts: tuple[Laid, ...] = ()
    filter: str = ""


def program(name: str) -> str:
    return os.path.abspath(shutil.which(name) or stop(FAILED, f"{quoted(name)}: no such program"))


def script(name: str) -> Path:
    here = Path(__file__).resolve().parent
    if (here / "desk.py").is_file():
        here = here.parent
    folders = [here, here.parent / "adapt"]
    if "BUNDLE" in os.environ:
        folders = [Path(os.environ["BUNDLE"]).resolve().parent]
    files = [folder / name for folder in folders]
    return next(filter(Path.is_file, files), None) or stop(FAILED, f"{files[0]}: no such program")


def seconds_used() -> float:
    """The processor time of this process and of those that it has waited for."""
    return sum(sum(resource.getrusage(who)[:2]) for who in (resource.RUSAGE_SELF, resource.RUSAGE_CHILDREN))


def limit_resource(kind: int, most: int) -> None:
    with contextlib.suppress(ValueError, OSError):
        resource.setrlimit(kind, (most, most + 1))


class Clock:
    """The processor time that all answers may take."""

    def __init__(self, seconds: float) -> None:
        self.seconds, self.start = seconds, seconds_used()

    def end(self, *_: object) -> NoReturn:
        stop(FAILED, f"the answers take more than {self.seconds:g} seconds of processor time (--max-time takes another number)")

    def limits(self, memory: int = 0) -> Callable[[], None]:
        """What limits a program before it starts."""
        left = self.seconds - (seconds_used() - self.start)
        if left <= 0:
            self.end()

        def limit() -> None:
            limit_resource(resource.RLIMIT_CPU, int(left) + 1)
            if memory:
                limit_resource(resource.RLIMIT_DATA, memory)

        return limit

    def check(self, status: int) -> None:
        """Looks at the status of a program that was limited."""
        if status == -signal.SIGXCPU or seconds_used() - self.start > self.seconds:
            self.end()


def run_script(clock: Clock, name: str, *words: str | Path, text: bytes | None = None) -> subprocess.CompletedProcess[bytes]:
    """Runs a filter, which may take only so much memory."""
    streams = {"stdin": subprocess.DEVNULL} if text is None else {"input": text}
    limit = clock.limits(MOST_MEMORY)
    done = subprocess.run([sys.executable, script(name), *words], capture_output=True, preexec_fn=limit, **streams)
    clock.check(done.returncode)
    if b"MemoryError" in done.stderr:
        stop(NO_MEMORY, f"{name}: out of memory")
    if done.returncode not in (0, 3):
        stop(FAILED, f"{name}: {first_line(done.stderr) or f'status {done.returncode}'}")
    return done


def filtered(clock: Clock, name: str, text: bytes, *words: str) -> bytes:
    done = run_script(clock, name, *words, text=text)
    if done.returncode == 3:
        raise Refused(first_line(done.stderr))
    return done.stdout


@contextlib.contextmanager
def running(words: tuple[str, ...], folder: Path, clock: Clock) -> Iterator[subprocess.Popen[bytes]]:
    """A program that is ended when its output is no longer needed."""
    errors = open(folder / "errors", "w+b")
    streams = {"stdin": subprocess.DEVNULL, "stdout": subprocess.PIPE, "stderr": errors}
    process = subprocess.Popen(words, cwd=folder, preexec_fn=clock.limits(), **streams)
    process.stderr = errors
    try:
        yield process
    finally:
        process.kill()
        process.stdout.close()
        process.wait()
        errors.close()


def check_program(avro: str, folder: Path) -> None:
    """Another program of this name must not be taken at its word."""
    (folder / "int").write_bytes(b'"int"')
    done = subprocess.run((avro, "schema", "int"), cwd=folder, stdin=subprocess.DEVNULL, capture_output=True)
    if (done.returncode, done.stdout) != (0, b"ok 1\n"):
        stop(FAILED, f"{quoted(avro)}: is another program of this name: set AVRO to the one that judges schemas")


class Sheet:
    """The texts that are judged of one file, and what is asked of them."""

    def __init__(self, folder: Path, avro: str, is_tame: bool, clock: Clock) -> None:
        self.folder, self.avro, self.is_tame, self.clock = folder, avro, is_tame, clock
        self.count = 0
        self.filtered = functools.lru_cache(None)(self.lay_filtered)

    def lay(self, version: Version, path: str) -> Laid:
        self.count += 1
        laid = Laid(f"{self.count}.avsc", quoted(path), version)
        (self.folder / laid.word).write_bytes(version.read())
        return laid

    def lay_filtered(self, name: str, laid: Laid) -> Laid:
        text = (self.folder / laid.word).read_bytes()
        if len(text) > MOST_TEXT:
            return laid
        made = replace(laid, word=f"{name}-{laid.word}")
        (self.folder / made.word).write_bytes(filtered(self.clock, name, text))
        return made

    def schema(self, text: Laid) -> Answer:
        return self.ask(CHECK, "schema", (text,), "--why")

    def judge(self, writer: Laid, reader: Laid, is_json: bool) -> Answer:
        return self.ask(JUDGE, "judge", (writer, reader), *["--json"] * is_json)

    def ask(self, name: str, command: str, texts: tuple[Laid, ...], *words: str) -> Answer:
        """What the program says of texts; with --tame behind a filter, if it refuses them as they are."""
        answer = self.run(command, texts, *words)
        if answer.status != 3 or not self.is_tame:
            return answer
        try:
            answer = replace(self.run(command, tuple(self.filtered(name, text) for text in texts), *words), filter=name)
            return replace(answer, said=self.named(answer)(answer.said.encode()).decode())
        except Refused as fault:
            return Answer(3, str(fault))

    def named(self, answer: Answer) -> Callable[[bytes], bytes]:
        """What puts the words of the schemas into what is said of texts behind a filter."""
        return self.with_names if answer.filter == JUDGE else bytes

    def with_names(self, said: bytes) -> bytes:
        return filtered(self.clock, JUDGE, said, "--names")

    def run(self, command: str, texts: tuple[Laid, ...], *words: str) -> Answer:
        with running((self.avro, command, *(text.word for text in texts), *words), self.folder, self.clock) as process:
            said = process.stdout.read(MOST_ANSWER + 1)
            if len(said) > MOST_ANSWER:
                stop(FAILED, f"{texts[-1].name}: avro {command} answers more than {MOST_ANSWER} bytes")
            status = process.wait()
            process.stderr.seek(0)
            said += process.stderr.read(MOST_ANSWER)
        self.clock.check(status)
        text = told(said.decode(errors="replace").rstrip("\n"), texts)
        self.check(status, text)
        return Answer(status, text, texts)

    def check(self, status: int, said: str) -> None:
        if status not in ANSWERS:
            stop(NO_MEMORY if status == NO_MEMORY else FAILED, said or f"{quoted(self.avro)}: status {status}")
        if not SAID[status].fullmatch(said):
            stop(FAILED, f"{quoted(self.avro)}: is another program")

    @contextlib.contextmanager
    def explain(self, answer: Answer) -> Iterator[Faults]:
        """The faults of what was judged."""
        words = (self.avro, "explain", *(text.word for text in answer.texts))
        with running(words, self.folder, self.clock) as process:
            yield Faults(process, self.named(answer), self.clock)


def told(said: str, texts: tuple[Laid, ...]) -> str:
    """What the program says, with the names of the files."""
    names = {text.word: text.name for text in texts}
    beginning = re.compile(rf"^(avro: )?({'|'.join(map(re.escape, names))})(?=:)", re.MULTILINE)
    return beginning.sub(lambda found: (found[1] or "") + names[found[2]], said)


class Faults:
    """The lines of `avro explain`, read one by one; what is long in them is cut, and then no place is found there."""

    def __init__(self, process: subprocess.Popen[bytes], named: Callable[[bytes], bytes], clock: Clock) -> None:
        self.process, self.named, self.clock = process, named, clock
        found = re.fullmatch(rb"no (\d+)\n", process.stdout.readline(MOST_LINE)) or self.fail()
        self.count = int(found[1])

    def fail(self) -> NoReturn:
        status = self.process.wait()
        self.clock.check(status)
        self.process.stderr.seek(0)
        said = first_line(self.process.stderr.read(MOST_LINE))
        stop(NO_MEMORY if status == NO_MEMORY else FAILED, said or "avro explain: ends early")

    def __iter__(self) -> Iterator[str]:
        left = self.count
        while left:
            lines = [self.line() for _ in range(min(left, MOST_FAULTS))]
            yield from self.named(b"\n".join(lines)).decode(errors="replace").split("\n")
            left -= len(lines)

    def line(self) -> bytes:
        head = self.process.stdout.readline(MOST_LINE)
        if head.endswith(b"\n"):
            return head[:-1]
        last = tail = b""
        while not tail.endswith(b"\n"):
            last, tail = tail, self.process.stdout.readline(MOST_LINE) or self.fail()
        half = MOST_LINE // 2 - 2
        return head[:half] + b"..." + (head[half:] + last + tail)[:-1][-half:]

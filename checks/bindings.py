#!/usr/bin/env python3
"""Compares the library for C with the program, through C and through Python.

    bindings.py PROGRAM LIBRARY [COUNT]

LIBRARY is libavrojudge.so; libavrojudge.a stands beside it. COUNT random pairs of schemas, 300 unless said, beside all pairs of
examples/, and texts that are empty, nested, 1 MiB long and one byte longer.

- Of each pair, `judge`, `explain`, `certify`, `confirm`, `history`, `schema` and `read` answer through Python the bytes and
  the status that the program answers; so does bindings/c/example.c with 512 KiB of stack, and what the module makes of the
  bytes. Data that are read are random bytes and zeros, with some that are skipped.
- Each call is made again with a byte of room too few, and with none: the front is put, and the length is that of all.
- Limits of 1 give the program's answers, and limits out of range its status 64.
- Four threads with 512 KiB of stack each judge and explain all pairs at once, and answer the same.

- The library's name for programs that are linked with it is libavrojudge.so.1; texts and data may be a bytearray or a
  memoryview, and a datum that is judged is parsed as one that is read.
- Where Debian's libavro-dev and libjna-java are there, a program uses Apache Avro C's library beside this one, and the
  example in Java answers as the program does.

The last line is 'N pairs, M calls, K differ; a call of judge takes C us from C, P us from Python'. It is also a failure if a status
did not occur. It needs Python 3.11 and a C compiler, CC or cc.
"""

from __future__ import annotations

import collections
import contextlib
import ctypes
import json
import os
import pathlib
import random
import resource
import shutil
import subprocess
import sys
import tempfile
import threading
import time
from collections.abc import Callable, Iterator
from dataclasses import dataclass, field

HERE = pathlib.Path(__file__).resolve().parent
BINDINGS = HERE.parent / "bindings"
EXAMPLES = HERE.parent / "examples"
sys.path[:0] = [str(HERE), str(BINDINGS / "python")]

import avrojudge
from confirm import random_pair

COUNT = 300
SHOWN = 20
STACK = 512 * 1024
CALLS = 2_000
LONGEST = 1_048_576
GUARD = b"\xa5"

Pair = tuple[bytes, bytes]


@dataclass
class Check:
    """The program, and what was found."""

    program: str
    example: str
    seen: collections.Counter[tuple[str, int]] = field(default_factory=collections.Counter)
    calls: int = 0
    wrong: int = 0

    def tell(self, text: str) -> None:
        self.wrong += 1
        if self.wrong <= SHOWN:
            print(text)

    def compare(self, name: str, told: object, asked: object) -> None:
        if told != asked:
            self.tell(f"{name}: the program says {str(told)[:300]}, the library {str(asked)[:300]}")

    def run(self, *words: str) -> tuple[int, bytes]:
        done = subprocess.run([self.program, *words], stdin=subprocess.DEVNULL, capture_output=True)
        return done.returncode, done.stdout + done.stderr

    def call(self, name: str, told: tuple[int, bytes], *words: object) -> None:
        """Compares a call in large and in short rooms with what the program told."""
        function = getattr(avrojudge.library(), "avrojudge_read_texts" if name == "read_all" else f"avrojudge_{name}_text")
        asked = avrojudge.ask(function, *words)
        self.compare(name, told, asked)
        for room in {0, max(len(asked[1]) - 1, 0), len(asked[1])}:
            self.compare(f"{name} in {room} bytes of room", (asked[0], asked[1][:room], len(asked[1])), put_in(function, room, *words))
        self.seen[name, asked[0]] += 1
        self.calls += 4


def put_in(function: Callable[..., int], room: int, *words: object) -> tuple[int, bytes, int]:
    """The status of a call, what it puts in a room of so many bytes, and the length that it wants."""
    wanted = ctypes.c_size_t(room + 7)
    out = ctypes.create_string_buffer(GUARD * (room + 16), room + 16)
    status = function(*words, out, room, ctypes.byref(wanted))
    end = min(room, wanted.value)
    if out.raw[end:] != GUARD * (room + 16 - end):
        return status, b"bytes behind the text were changed", wanted.value
    return status, out.raw[:end], wanted.value


def text_of(verdict: avrojudge.Verdict) -> str:
    """The text that the program prints of a verdict."""
    if verdict.fault is None:
        return f"undecided {verdict.cause}\n" if verdict.cause else "yes\n"
    kind = verdict.fault.kind + (f" {verdict.fault.field}" if verdict.fault.field is not None else "")
    path = "".join(f"/{step}" for step in verdict.fault.path) or "/"
    datum = json.dumps(verdict.datum, ensure_ascii=False, separators=(",", ":"))
    return f"no\nfault {kind} at {path}\nnodes {verdict.nodes}\ndatum {datum}\n"


def faults_of(explanation: avrojudge.Explanation) -> str:
    """The text that the program prints of an explanation."""
    if explanation.answer is not avrojudge.Answer.NO:
        return "yes\n" if explanation.answer is avrojudge.Answer.YES else "undecided Pairs\n"
    lines = [f"{it.reader}: {it.kind}: {it.what} (writer's {it.writer})\n" for it in explanation.faults]
    return f"no {len(lines)}\n" + "".join(lines)


def typed(function: Callable[..., object], *words: object) -> object:
    """What a function of the module answers or raises, as the program would tell it."""
    try:
        answer = function(*words)
    except avrojudge.Refused as refused:
        return f"avro: {refused.text}: {refused.code}\n"
    if isinstance(answer, avrojudge.Verdict):
        return text_of(answer)
    if isinstance(answer, avrojudge.Explanation):
        return faults_of(answer)
    if isinstance(answer, bool):
        return "confirmed\n" if answer else "not confirmed\n"
    if isinstance(answer, list):
        return "".join(f"{number} {it.answer.name.lower()}{' ' + it.cause if it.cause else ''}\n" for number, it in enumerate(answer))
    return f"{answer}\n"


def words_of(*texts: bytes) -> list[object]:
    return [word for text in texts for word in (text, len(text))]


def check_schema(check: Check, text: bytes) -> None:
    for shown, option, function in (
        (avrojudge.COUNT, [], avrojudge.nodes),
        (avrojudge.CANONICAL, ["--canonical"], avrojudge.canonical),
        (avrojudge.FINGERPRINT, ["--fingerprint"], avrojudge.fingerprint),
    ):
        told = check.run("schema", "writer", *option)
        check.call("schema", told, *words_of(text), shown)
        as_typed = typed(function, text)
        check.compare(function.__name__, told[1].decode().removeprefix("ok "), as_typed)


def check_history(check: Check, texts: list[bytes]) -> None:
    last = len(texts) - 1
    names = [str(number) for number in range(len(texts))]
    for name, text in zip(names, texts):
        pathlib.Path(name).write_bytes(text)
    status, told = check.run("history", *names)
    if status == 3:
        _, name, code = told.decode().split(": ")
        told = f"avro: {'reader' if name == str(last) else 'writer'}: {code}".encode()
    lengths = (ctypes.c_size_t * len(texts))(*map(len, texts))
    check.call("history", (status, told), *words_of(b"".join(texts)), lengths, len(texts), avrojudge.c_limits(avrojudge.Limits()))
    check.compare("history", told.decode(), typed(avrojudge.history, texts))


def check_example(check: Check, told: tuple[int, bytes], explained: tuple[int, bytes]) -> None:
    """Compares the example in C, which puts at most 4,096 bytes of an explanation."""
    done = subprocess.run(
        [check.example, "writer", "reader"], stdin=subprocess.DEVNULL, capture_output=True,
        preexec_fn=lambda: resource.setrlimit(resource.RLIMIT_STACK, (STACK, STACK)),
    )
    more = explained[1][:4096] if told[0] == 1 else b""
    check.compare("example.c", (told[0], told[1] + more), (done.returncode, done.stdout + done.stderr))
    check.calls += 1


def check_pair(check: Check, pair: Pair) -> tuple[tuple[int, bytes], tuple[int, bytes]]:
    """Compares all answers to a pair, and answers the program's verdict and explanation."""
    writer, reader = pair
    for name, text in zip(("writer", "reader"), pair):
        pathlib.Path(name).write_bytes(text)
    certificate = pathlib.Path("certificate")
    told = check.run("judge", "writer", "reader", "--certificate", "certificate")
    explained = check.run("explain", "writer", "reader")
    defaults = avrojudge.c_limits(avrojudge.Limits())
    check.call("judge", told, *words_of(*pair), defaults)
    check.compare("judge", told[1].decode(), typed(avrojudge.judge, writer, reader))
    check.call("explain", explained, *words_of(*pair), 0)
    check.compare("explain", explained[1].decode(), typed(avrojudge.explain, writer, reader))
    # Of a pair that is no yes, it is the certificate of the last one, or none.
    if not certificate.exists():
        certificate.write_bytes(b"approval 1\nend\n")
    proof = certificate.read_bytes()
    confirmed = check.run("confirm", "writer", "reader", "certificate")
    check.call("confirm", confirmed, *words_of(writer, reader, proof))
    check.compare("confirm", confirmed[1].decode(), typed(avrojudge.confirm, writer, reader, proof))
    check_example(check, told, explained)
    check_certificate(check, pair, told)
    return told, explained


def check_certificate(check: Check, pair: Pair, told: tuple[int, bytes]) -> None:
    """Compares the certificate of a pair with the file that the program wrote, after this verdict."""
    status, text = told
    wanted = pathlib.Path("certificate").read_bytes() if status == 0 else text if status == 3 else b""
    check.call("certify", (status, wanted), *words_of(*pair), avrojudge.c_limits(avrojudge.Limits()))
    try:
        check.compare("certify", wanted if status == 0 else None, avrojudge.certify(*pair))
    except avrojudge.Refused as refused:
        check.compare("certify", text.decode(), f"avro: {refused.text}: {refused.code}\n")
    told = check.run("explain", "writer", "reader", "--json")
    check.call("explain_json", told, *words_of(*pair), 0)
    told = check.run("judge", "writer", "reader", "--json")
    check.call("judge_json", told, *words_of(*pair), avrojudge.c_limits(avrojudge.Limits()))
    check.compare("judge_json", told[1].decode(), typed(avrojudge.judge_json, *pair))


def data_of(chance: random.Random) -> Iterator[bytes]:
    """Data of which some begin with a datum."""
    yield b""
    yield bytes(64)
    for _ in range(4):
        yield bytes(chance.choice((0, 2, 4, 6, chance.randrange(256))) for _ in range(chance.randrange(40)))


def line_of_read(told: tuple[int, bytes]) -> bytes:
    """The line of one of several data, by what the program tells of it alone."""
    status, text = told
    return text if status == 0 else b'{"fault":"%s"}\n' % text.decode().split(": ", 2)[2].rstrip("\n").encode()


def check_data(check: Check, pair: Pair, chance: random.Random) -> None:
    """Compares what is read of data, for the reader's schema and without one."""
    writer, reader = pair
    skip, data = chance.randrange(4), list(data_of(chance))
    for new in (None, reader):
        words = ["--skip", str(skip), *([] if new is None else ["--reader", "reader"])]
        lines = []
        for part in data:
            pathlib.Path("data").write_bytes(part)
            told = check.run("read", "writer", "data", *words)
            check.call("read", told, *words_of(writer, new or b"", part), avrojudge.c_reading(new, skip))
            lines.append(check.run("read", "writer", "data", "--json", *words))
            check_typed_read(check, (writer, part, new, skip), lines[-1])
        if lines[0][1].startswith((b"avro: writer: ", b"avro: reader: ")):
            status, text = lines[0]
        else:
            status, text = int(any(line[0] for line in lines)), b"".join(map(line_of_read, lines))
        lengths = (ctypes.c_size_t * len(data))(*map(len, data))
        joined = words_of(writer, new or b"", b"".join(data))
        check.call("read_all", (status, text), *joined, lengths, len(data), avrojudge.c_reading(new, skip))


def check_typed_read(check: Check, words: tuple[bytes, bytes, bytes | None, int], told: tuple[int, bytes]) -> None:
    """Compares what the module makes of data."""
    try:
        datum, length = avrojudge.read(*words)
    except avrojudge.Refused as refused:
        check.compare("read", told[1].decode(), f"avro: {refused.text}: {refused.code}\n")
        return
    check.compare("read", json.loads(told[1]), {"bytes": length, "datum": datum})
    check.compare("read_all", [(datum, length)], avrojudge.read_all(words[0], [words[1]], *words[2:]))


def check_limits(check: Check, pair: Pair) -> None:
    """Compares answers within limits of 1, each alone."""
    for name, text in zip(("writer", "reader"), pair):
        pathlib.Path(name).write_bytes(text)
    for option in ("pairs", "size", "depth"):
        told = check.run("judge", "writer", "reader", f"--max-{option}", "1")
        limits = avrojudge.Limits(**{option: 1})
        check.call("judge", told, *words_of(*pair), avrojudge.c_limits(limits))
        check.compare("judge", told[1].decode(), typed(avrojudge.judge, *pair, limits))
        told = check.run("judge", "writer", "reader", "--json", f"--max-{option}", "1")
        check.call("judge_json", told, *words_of(*pair), avrojudge.c_limits(limits))
    told = check.run("explain", "writer", "reader", "--max-pairs", "1")
    check.call("explain", told, *words_of(*pair), 1)
    told = check.run("explain", "writer", "reader", "--max-pairs", "1", "--json")
    check.call("explain_json", told, *words_of(*pair), 1)
    told = check.run("judge", "writer", "reader", "--max-pairs", "1", "--certificate", "other")
    if told[0] == 2:
        check.call("certify", (2, b""), *words_of(*pair), avrojudge.c_limits(avrojudge.Limits(pairs=1)))


def check_usage(check: Check, pair: Pair) -> None:
    """Numbers out of range, and lengths that are not those of the texts."""
    none = (64, b"")
    for limits in (avrojudge.Limits(pairs=16_777_217), avrojudge.Limits(size=1_048_577), avrojudge.Limits(depth=257)):
        check.call("judge", none, *words_of(*pair), avrojudge.c_limits(limits))
        check.call("judge_json", none, *words_of(*pair), avrojudge.c_limits(limits))
        check.call("history", none, *words_of(b"".join(pair)), (ctypes.c_size_t * 2)(*map(len, pair)), 2, avrojudge.c_limits(limits))
        with contextlib.suppress(avrojudge.OutOfRange):
            avrojudge.judge(*pair, limits)
            check.tell(f"{limits} is taken")
    for struct_size in (0, 12, 20):
        check.call("judge", none, *words_of(*pair), avrojudge.CLimits(struct_size, 0, 0, 0))
    most = avrojudge.Limits(16_777_216, 1_048_576, 256)
    check.call("judge", avrojudge.ask(avrojudge.library().avrojudge_judge_text, *words_of(*pair), avrojudge.c_limits(most)), *words_of(*pair), avrojudge.c_limits(most))
    check.call("explain", none, *words_of(*pair), 16_777_217)
    check.call("schema", none, *words_of(pair[0]), 3)
    for asked in ((0, 2), (0, 0, 257), (0, 0, 0, 16_777_217), (0, 0, 0, 0, 16_777_217)):
        check.call("read", none, *words_of(*pair, b""), avrojudge.CReading(*asked))
        check.call("read_all", none, *words_of(*pair, b""), (ctypes.c_size_t * 1)(0), 1, avrojudge.CReading(*asked))
    check.call("read_all", none, *words_of(*pair, b"a"), (ctypes.c_size_t * 1)(2), 1, avrojudge.CReading())
    check.call("certify", none, *words_of(*pair), avrojudge.c_limits(avrojudge.Limits(depth=257)))
    check.call("explain_json", none, *words_of(*pair), 16_777_217)
    joined, limits = b"".join(pair), avrojudge.c_limits(avrojudge.Limits())
    for lengths in ([], [len(joined)], [len(joined), 1], [1, 1], [2**64 - 1, len(joined) + 1]):
        check.call("history", none, *words_of(joined), (ctypes.c_size_t * len(lengths))(*lengths), len(lengths), limits)
    told = check.run("--version")
    check.compare("version", told, avrojudge.ask(avrojudge.library().avrojudge_version))
    check.compare("version", told[1].decode().split()[1], avrojudge.version())


def check_kinds(check: Check, pair: Pair) -> None:
    """Texts and data that are no bytes, and words that are none."""
    for kind in (bytearray, memoryview, lambda text: memoryview(text * 2)[: len(text)]):
        check.compare("judge", avrojudge.judge(*pair), avrojudge.judge(*map(kind, pair)))
        check.compare("read", (1, 1), avrojudge.read(kind(b'"int"'), kind(b"00\2"), skip=2))
        check.compare("read_all", [(1, 1), (-1, 1)], avrojudge.read_all(b'"int"', [kind(b"\2"), kind(b"\1")]))
    for wrong in (5, None):
        with contextlib.suppress(TypeError):
            avrojudge.judge(wrong, pair[1])
            check.tell(f"{wrong} is taken as a text")
    judged, read = avrojudge.judge(b'["int","string"]', b'"string"').datum, avrojudge.read(b'["int","string"]', b"\0\0")[0]
    check.compare("data", judged, read)
    check.calls += 15


def check_soname(check: Check, library: str) -> None:
    said = subprocess.run(["objdump", "-p", library], capture_output=True, text=True, check=True).stdout
    check.compare("SONAME", "libavrojudge.so.1", next((line.split()[1] for line in said.splitlines() if "SONAME" in line), None))


def check_threads(check: Check, pairs: list[Pair], answers: list[tuple[tuple[int, bytes], tuple[int, bytes]]]) -> None:
    """Four threads ask all pairs at once."""
    library = avrojudge.library()
    found: list[str] = []

    def work(first: int) -> None:
        for number in range(len(pairs)):
            at = (number + first) % len(pairs)
            words = words_of(*pairs[at])
            judged = avrojudge.ask(library.avrojudge_judge_text, *words, avrojudge.c_limits(avrojudge.Limits()))
            if (judged, avrojudge.ask(library.avrojudge_explain_text, *words, 0)) != answers[at]:
                found.append(f"pair {at}: a thread gets another answer")
        found.append("done")

    threading.stack_size(STACK)
    threads = [threading.Thread(target=work, args=(len(pairs) * number // 4,)) for number in range(4)]
    for thread in threads:
        thread.start()
    for thread in threads:
        thread.join()
    threading.stack_size(0)
    for text in found:
        if text != "done":
            check.tell(text)
    if found.count("done") != 4:
        check.tell("a thread did not end")
    check.calls += 8 * len(pairs)


def special_pairs() -> Iterator[Pair]:
    """Texts that are empty, nested as deep as they may be, 1 MiB long and one byte longer."""
    yield b"", b""
    yield b"", b'"int"'
    yield b'"int"', b""
    record = b'{"type":"record","name":"R","fields":[%s]}'
    for levels in (60, 120, 126):
        left, right = b'{"type":"array","items":' * levels, b"}" * levels
        yield left + b'"int"' + right, left + b'"long"' + right
        yield left + b'"long"' + right, left + b'"int"' + right
        yield left + record % b"" + right, left + record % b'{"name":"f","type":"int"}' + right
    inner = record.replace(b"R", b"A", 1) % b'{"name":"a","type":["A","null"]}'
    for levels in (123, 124):
        default = b'{"a":' * levels + b"null" + b"}" * levels
        deep = record % (b'{"name":"f","type":%s,"default":%s}' % (inner, default))
        yield deep, deep
    for length in (LONGEST, LONGEST + 1):
        long = b'"int"'.ljust(length)
        yield long, b'"long"'
        yield b'"int"', long
        yield b"x" * length, b'"int"'


def all_pairs(count: int) -> list[Pair]:
    schemas = [path.read_bytes() for path in sorted(EXAMPLES.glob("*.avsc"))]
    pairs = [(writer, reader) for writer in schemas for reader in schemas]
    return [*pairs, *special_pairs(), *(random_pair(random.Random(number)) for number in range(count))]


def build(name: pathlib.Path, library: str, folder: str) -> str:
    """Builds a program in C with the static library."""
    made = os.path.join(folder, name.stem)
    archive = pathlib.Path(library).resolve().with_name("libavrojudge.a")
    flags = ["-std=c99", "-Wall", "-Wextra", "-Werror", "-O2", f"-I{BINDINGS / 'c'}"]
    subprocess.run([os.environ.get("CC", "cc"), *flags, str(name), str(archive), "-o", made], check=True)
    return made


def check_both(check: Check, library: str, folder: str) -> None:
    """Uses Apache Avro C's library beside this one, where it is installed."""
    if not pathlib.Path("/usr/include/avro.h").exists():
        return
    made, there = os.path.join(folder, "both"), os.path.dirname(library)
    flags = ["-std=c99", "-Wall", "-Wextra", "-Werror", f"-I{BINDINGS / 'c'}", str(HERE / "both_libraries.c"), f"-L{there}", f"-Wl,-rpath,{there}"]
    subprocess.run([os.environ.get("CC", "cc"), *flags, "-lavro", "-lavrojudge", "-o", made], check=True)
    check.compare("both libraries", 0, subprocess.run([made]).returncode)
    check.calls += 1


def check_java(check: Check, folder: str) -> None:
    """Compares the example in Java, where there are a compiler and JNA."""
    jar = pathlib.Path("/usr/share/java/jna.jar")
    if not jar.exists() or shutil.which("javac") is None:
        return
    files = [str(file) for file in sorted((BINDINGS / "java" / "src").rglob("*.java"))]
    subprocess.run(["javac", "-cp", str(jar), "-d", folder, *files], check=True)
    names = sorted(EXAMPLES.glob("*.avsc"))
    for writer, reader in [(writer, reader) for writer in names for reader in names][:: len(names) - 1]:
        told = check.run("judge", str(writer), str(reader))
        more = check.run("explain", str(writer), str(reader))[1] if told[0] == 1 else b""
        done = subprocess.run(["java", "-cp", f"{jar}:{folder}", "org.avrojudge.Example", str(writer), str(reader)], capture_output=True)
        check.compare("Example.java", (told[0], told[1] + more), (done.returncode, done.stdout + done.stderr))
        check.calls += 1


def times(calls: str) -> tuple[float, float]:
    """Microseconds that a call of judge takes from C and from Python, of the best of three runs."""
    files = [EXAMPLES / "order-1.avsc", EXAMPLES / "order-2.avsc"]
    words = [calls, *map(str, files), str(CALLS)]
    from_c = min(float(subprocess.run(words, check=True, capture_output=True, text=True).stdout) for _ in range(3))
    texts = [file.read_bytes() for file in files]
    from_python = []
    for _ in range(3):
        start = time.perf_counter()
        for _ in range(CALLS):
            avrojudge.judge(*texts)
        from_python.append((time.perf_counter() - start) * 1e6 / CALLS)
    return from_c, min(from_python)


def missing_of(seen: collections.Counter[tuple[str, int]]) -> list[tuple[str, int]]:
    """The statuses of functions that must occur and did not."""
    wanted = {"judge": (0, 1, 2, 3, 64), "explain": (0, 1, 2, 3, 64), "confirm": (0, 1, 3), "history": (0, 1, 3, 64), "schema": (0, 3, 64)}
    wanted |= {"judge_json": (0, 1, 2, 3, 64), "explain_json": (0, 1, 2, 3, 64), "certify": (0, 1, 2, 3, 64), "read": (0, 3, 64), "read_all": (0, 1, 3, 64)}
    return [(name, status) for name, statuses in wanted.items() for status in statuses if not seen[name, status]]


def main() -> int:
    if len(sys.argv) not in (3, 4):
        print(__doc__, file=sys.stderr)
        return 64
    program, library = map(os.path.abspath, sys.argv[1:3])
    os.environ["AVROJUDGE_LIBRARY"] = library
    pairs = all_pairs(int(sys.argv[3]) if len(sys.argv) == 4 else COUNT)
    with tempfile.TemporaryDirectory() as folder:
        check = Check(program, build(BINDINGS / "c" / "example.c", library, folder))
        calls = build(HERE / "calls.c", library, folder)
        os.chdir(folder)
        answers = []
        for number, pair in enumerate(pairs):
            before = check.wrong
            answers.append(check_pair(check, pair))
            check_schema(check, pair[0])
            check_data(check, pair, random.Random(number))
            check_history(check, [*pair, pair[number % 2]][: 2 + number % 3 // 2])
            if number % 10 == 0:
                check_limits(check, pair)
            if check.wrong > before:
                print(f"these were of pair {number}")
        check_usage(check, pairs[0])
        check_kinds(check, pairs[0])
        check_soname(check, library)
        check_both(check, library, folder)
        check_java(check, folder)
        check_threads(check, pairs, answers)
        from_c, from_python = times(calls)
        os.chdir("/")
    missing = missing_of(check.seen)
    for name, status in missing:
        print(f"status {status} of {name} did not occur")
    print(
        f"{len(pairs)} pairs, {check.calls} calls, {check.wrong} differ; "
        f"a call of judge takes {from_c:.0f} us from C, {from_python:.0f} us from Python"
    )
    return 1 if check.wrong or missing else 0


if __name__ == "__main__":
    sys.exit(main())

"""The answers of the program `avro` in Python, by its library for C.

    import avrojudge

    verdict = avrojudge.judge(old, new)
    if verdict.answer is avrojudge.Answer.NO:
        print(verdict.fault, verdict.datum)

A text is `bytes`, a `bytearray` or a `memoryview`, or a `str` that is encoded in UTF-8; data are no `str`. A datum is parsed
JSON. The library is the file that the variable AVROJUDGE_LIBRARY names, or else the one that `make library` or `make install`
has put where this module is, or else the system's. Calls may run in several threads at once, each of which needs 512 KiB of
stack (`threading.stack_size`). It needs Python 3.10.
"""

from __future__ import annotations

import ctypes
import enum
import functools
import json
import os
import pathlib
import re
from collections.abc import Callable, Sequence
from dataclasses import dataclass

__all__ = [
    "Answer", "AvroError", "Explanation", "Fault", "HistoryLine", "Limits", "NamedFault", "OutOfMemory", "OutOfRange", "Refused", "Verdict",
    "canonical", "certify", "confirm", "explain", "fingerprint", "history", "judge", "judge_json", "nodes", "read", "read_all", "version",
]

FIRST_ROOM = 4096
SONAME = "libavrojudge.so.1"
LINE = re.compile(r"(\$.*?): (\w+): (.*) \(writer's (\$.*)\)")
COUNT, CANONICAL, FINGERPRINT = range(3)

Data = bytes | bytearray | memoryview
Text = Data | str


class AvroError(Exception):
    """There is no answer."""


class Refused(AvroError):
    """A text or data are refused: `text` is 'writer', 'reader', 'certificate' or 'data', and `code` says why, as 'S2' or
    'MissingField 2 at /3/0'."""

    def __init__(self, text: str, code: str) -> None:
        super().__init__(f"{text}: {code}")
        self.text = text
        self.code = code


class OutOfMemory(AvroError, MemoryError):
    """Memory ran out."""


class OutOfRange(AvroError, ValueError):
    """A limit is out of its range."""


class Answer(enum.IntEnum):
    """The status of an answer."""

    YES = 0
    NO = 1
    UNDECIDED = 2


@dataclass(frozen=True)
class Limits:
    """Limits of judging; 0 stands for the default."""

    pairs: int = 0
    size: int = 0
    depth: int = 0


@dataclass(frozen=True)
class Fault:
    """Why a datum fails: the kind, the index of the reader's field that is missing, and the way down the datum."""

    kind: str
    field: int | None
    path: tuple[int, ...]


@dataclass(frozen=True)
class Verdict:
    """What is judged of two schemas. A no has the fault, and a least datum that fails with the number of its nodes; an undecided
    has its cause."""

    answer: Answer
    fault: Fault | None = None
    nodes: int | None = None
    datum: object = None
    cause: str | None = None


@dataclass(frozen=True)
class NamedFault:
    """A fault of two schemas: its kind, its places in the reader's and the writer's schema, and what fails there."""

    kind: str
    reader: str
    writer: str
    what: str


@dataclass(frozen=True)
class Explanation:
    """All faults of two schemas; undecided where there are too many pairs of nodes to look at."""

    answer: Answer
    faults: tuple[NamedFault, ...]


@dataclass(frozen=True)
class HistoryLine:
    """What is judged of an earlier schema and the last one."""

    answer: Answer
    cause: str | None = None


class CReading(ctypes.Structure):
    """`avrojudge_reading` of avrojudge.h."""

    _fields_ = [
        ("skip", ctypes.c_size_t), ("has_reader", ctypes.c_uint32), ("depth", ctypes.c_uint32), ("nodes", ctypes.c_uint32),
        ("blob", ctypes.c_uint32),
    ]


class CLimits(ctypes.Structure):
    """`avrojudge_limits` of avrojudge.h."""

    _fields_ = [
        ("struct_size", ctypes.c_uint32), ("pairs", ctypes.c_uint32), ("size", ctypes.c_uint32), ("depth", ctypes.c_uint32),
    ]


def _path() -> str:
    """Where the library is: beside this module in a checkout or below a prefix, or where the system has it."""
    above = pathlib.Path(__file__).resolve().parents
    beside = [folder / part / SONAME for folder, part in zip(above[1:5:3], ("out", "lib"))]
    return os.environ.get("AVROJUDGE_LIBRARY") or next((str(path) for path in beside if path.exists()), SONAME)


@functools.cache
def library() -> ctypes.CDLL:
    """The library, with the types of its functions."""
    found = ctypes.CDLL(_path())
    text = [ctypes.c_char_p, ctypes.c_size_t]
    answer = [*text, ctypes.POINTER(ctypes.c_size_t)]
    limits = ctypes.POINTER(CLimits)
    for name, types in (
        ("avrojudge_judge_text", [*text, *text, limits]),
        ("avrojudge_judge_json_text", [*text, *text, limits]),
        ("avrojudge_explain_text", [*text, *text, ctypes.c_uint32]),
        ("avrojudge_explain_json_text", [*text, *text, ctypes.c_uint32]),
        ("avrojudge_certify_text", [*text, *text, limits]),
        ("avrojudge_confirm_text", [*text, *text, *text]),
        ("avrojudge_history_text", [*text, ctypes.POINTER(ctypes.c_size_t), ctypes.c_size_t, limits]),
        ("avrojudge_schema_text", [*text, ctypes.c_uint32]),
        ("avrojudge_read_text", [*text, *text, *text, ctypes.POINTER(CReading)]),
        ("avrojudge_read_texts", [*text, *text, *text, ctypes.POINTER(ctypes.c_size_t), ctypes.c_size_t, ctypes.POINTER(CReading)]),
        ("avrojudge_version", []),
    ):
        function = getattr(found, name)
        function.restype, function.argtypes = ctypes.c_uint32, [*types, *answer]
    return found


def _bytes(text: Text) -> bytes:
    return text.encode() if isinstance(text, str) else _data(text)


def _data(data: Data) -> bytes:
    return data if isinstance(data, bytes) else bytes(memoryview(data))


def _number(number: int) -> int:
    """A number that the library can take."""
    if not 0 <= number < 2**32:
        raise OutOfRange(f"{number} is out of range")
    return number


def c_limits(limits: Limits) -> CLimits:
    """The limits as the library takes them."""
    return CLimits(ctypes.sizeof(CLimits), _number(limits.pairs), _number(limits.size), _number(limits.depth))


def ask(function: Callable[..., int], *words: object, room: int = FIRST_ROOM) -> tuple[int, bytes]:
    """The status and the whole text of a call. It is made again where the room was short."""
    wanted = ctypes.c_size_t()
    while True:
        out = ctypes.create_string_buffer(max(room, 1))
        status = function(*words, out, room, ctypes.byref(wanted))
        if wanted.value <= room:
            return status, out.raw[: wanted.value]
        room = wanted.value


def _lines(function: Callable[..., int], *words: object) -> tuple[Answer, list[str]]:
    """The answer of a call and the lines of its text; what keeps it from an answer is raised."""
    status, text = ask(function, *words)
    # A display may hold other characters that split lines.
    lines = text.decode().split("\n")[:-1]
    if status == 3:
        _, name, code = lines[0].split(": ", 2)
        raise Refused(name, code)
    if status == 5:
        raise OutOfMemory("out of memory")
    if status == 64:
        raise OutOfRange("a number is out of range")
    return Answer(status), lines


def _fault(line: str) -> Fault:
    """The fault of a line, as 'fault MissingField 2 at /3/0'."""
    words = line.split()
    field = int(words[2]) if words[1] == "MissingField" else None
    return Fault(words[1], field, tuple(int(step) for step in words[-1].split("/") if step))


def _named(line: str) -> NamedFault:
    """The fault of a line of `explain`."""
    parts = LINE.fullmatch(line)
    if parts is None:
        raise AvroError(f"not the line of a fault: {line}")
    return NamedFault(kind=parts[2], reader=parts[1], writer=parts[4], what=parts[3])


def _line(line: str) -> HistoryLine:
    """What a line of `history` says, as '0 undecided Size'."""
    _, word, *cause = line.split()
    return HistoryLine(Answer[word.upper()], cause[0] if cause else None)


def judge(writer: Text, reader: Text, limits: Limits = Limits()) -> Verdict:
    """Judges whether the reader's schema reads all data of the writer's."""
    old, new = _bytes(writer), _bytes(reader)
    answer, lines = _lines(library().avrojudge_judge_text, old, len(old), new, len(new), c_limits(limits))
    if answer is Answer.NO:
        datum = json.loads(lines[3].removeprefix("datum "))
        return Verdict(answer, _fault(lines[1]), int(lines[2].removeprefix("nodes ")), datum)
    if answer is Answer.UNDECIDED:
        return Verdict(answer, cause=lines[0].removeprefix("undecided "))
    return Verdict(answer)


def judge_json(writer: Text, reader: Text, limits: Limits = Limits()) -> str:
    """The same as the line of JSON that `avro judge --json` prints."""
    old, new = _bytes(writer), _bytes(reader)
    return _lines(library().avrojudge_judge_json_text, old, len(old), new, len(new), c_limits(limits))[1][0]


def explain(writer: Text, reader: Text, max_pairs: int = 0) -> Explanation:
    """Finds all faults of two schemas, by names."""
    old, new = _bytes(writer), _bytes(reader)
    answer, lines = _lines(library().avrojudge_explain_text, old, len(old), new, len(new), _number(max_pairs))
    faults = tuple(map(_named, lines[1:])) if answer is Answer.NO else ()
    return Explanation(answer, faults)


def confirm(writer: Text, reader: Text, certificate: Text) -> bool:
    """Whether a certificate shows that the reader's schema reads all data of the writer's."""
    texts = [_bytes(text) for text in (writer, reader, certificate)]
    words = [word for text in texts for word in (text, len(text))]
    return _lines(library().avrojudge_confirm_text, *words)[0] is Answer.YES


def history(texts: Sequence[Text], limits: Limits = Limits()) -> list[HistoryLine]:
    """Judges each schema but the last with the last one, of at least two."""
    if len(texts) < 2:
        raise OutOfRange("a history has at least two schemas")
    parts = [_bytes(text) for text in texts]
    lengths = (ctypes.c_size_t * len(parts))(*map(len, parts))
    joined = b"".join(parts)
    lines = _lines(library().avrojudge_history_text, joined, len(joined), lengths, len(parts), c_limits(limits))[1]
    return [_line(line) for line in lines]


def _shown(text: Text, shown: int) -> str:
    """What is shown of a schema."""
    schema = _bytes(text)
    return _lines(library().avrojudge_schema_text, schema, len(schema), shown)[1][0]


def nodes(text: Text) -> int:
    """The number of a schema's nodes."""
    return int(_shown(text, COUNT).removeprefix("ok "))


def canonical(text: Text) -> str:
    """The Parsing Canonical Form of a schema."""
    return _shown(text, CANONICAL)


def fingerprint(text: Text) -> str:
    """The SHA-256 of a schema's Parsing Canonical Form, in digits."""
    return _shown(text, FINGERPRINT)


def certify(writer: Text, reader: Text, limits: Limits = Limits()) -> bytes | None:
    """The certificate that the reader's schema reads all data of the writer's, or None where the verdict is no yes."""
    old, new = _bytes(writer), _bytes(reader)
    answer, lines = _lines(library().avrojudge_certify_text, old, len(old), new, len(new), c_limits(limits))
    return "".join(f"{line}\n" for line in lines).encode() if answer is Answer.YES else None


def c_reading(reader: Text | None, skip: int) -> CReading:
    """How data are to be read, as the library takes it, within the default limits."""
    if not 0 <= skip < 2**64:
        raise OutOfRange(f"{skip} is out of range")
    return CReading(skip, 0 if reader is None else 1)


def read(writer: Text, data: Data, reader: Text | None = None, skip: int = 0) -> tuple[object, int]:
    """The datum that the data begin with after `skip` bytes, as parsed JSON, and the length of its encoding. It is what the
    datum is for the reader's schema, where there is one. Data that are refused raise `Refused`."""
    old, new, part = _bytes(writer), _bytes(reader or b""), _data(data)
    words = (old, len(old), new, len(new), part, len(part), c_reading(reader, skip))
    length, datum = _lines(library().avrojudge_read_text, *words)[1]
    return json.loads(datum.removeprefix("datum ")), int(length.removeprefix("bytes "))


def read_all(
    writer: Text, data: Sequence[Data], reader: Text | None = None, skip: int = 0,
) -> list[tuple[object, int] | Refused]:
    """The same of each of several data; of those that are refused the exception stands in the list, and is not raised."""
    old, new, parts = _bytes(writer), _bytes(reader or b""), [_data(part) for part in data]
    lengths = (ctypes.c_size_t * len(parts))(*map(len, parts))
    joined = b"".join(parts)
    words = (old, len(old), new, len(new), joined, len(joined), lengths, len(parts), c_reading(reader, skip))
    return [_read_line(line) for line in _lines(library().avrojudge_read_texts, *words)[1]]


def _read_line(line: str) -> tuple[object, int] | Refused:
    """What a line says of data."""
    answer = json.loads(line)
    return Refused("data", answer["fault"]) if "fault" in answer else (answer["datum"], answer["bytes"])


def version() -> str:
    """The version of the library, as '1.0.0'."""
    return ask(library().avrojudge_version)[1].decode().split()[1]

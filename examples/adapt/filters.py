"""What the filters of this folder share: their exit statuses, and the numbers and headers of container files."""

from __future__ import annotations

import sys
from typing import BinaryIO, Callable, NamedTuple, Union

MAGIC = b"Obj\x01"
MOST_HEADER = 4_194_304
MOST_BLOCK = 16_777_216
PIECE = 1 << 16

Data = Union[bytes, bytearray]


class Refused(Exception):
    """The input is refused: status 3."""


class Failed(Exception):
    """A file cannot be read or written, or a program is missing: status 4."""


class Header(NamedTuple):
    """The header of a container file: its bytes as they were read, and what they say."""

    raw: bytes
    metadata: dict[bytes, bytes]
    marker: bytes


class Kept:
    """A source of a header, which keeps what is read, up to the limit of headers."""

    def __init__(self, source: BinaryIO) -> None:
        self.source = source
        self.bytes = bytearray()

    def read(self, count: int) -> bytes:
        if len(self.bytes) + count > MOST_HEADER:
            raise Refused(f"its header has more than {MOST_HEADER} bytes")
        data = read(self.source, count)
        self.bytes += data
        return data


def read(source: BinaryIO | Kept, count: int) -> bytes:
    try:
        return source.read(count)
    except OSError:
        raise Failed("-: cannot read") from None


def take(source: BinaryIO | Kept, count: int) -> bytes:
    data = read(source, count)
    if len(data) < count:
        raise Refused("it ends too early")
    return data


def send(sink: BinaryIO, data: Data) -> None:
    try:
        sink.write(data)
    except OSError:
        raise Failed("output: cannot write") from None


def send_rest(source: BinaryIO, sink: BinaryIO) -> None:
    while data := read(source, PIECE):
        send(sink, data)


def read_long(source: BinaryIO | Kept, first: bytes = b"") -> int:
    """A number, of which the first byte may have been read already."""
    byte = (first or take(source, 1))[0]
    value, shift = byte & 0x7F, 7
    while byte & 0x80:
        byte = take(source, 1)[0]
        value |= (byte & 0x7F) << shift
        shift += 7
        if value >> 64 or shift > 70:
            raise Refused("a number is out of range")
    return (value >> 1) ^ -(value & 1)


def put_long(value: int) -> bytes:
    rest = (value << 1) ^ (value >> 63)
    groups = bytearray()
    while rest > 0x7F:
        groups.append(rest & 0x7F | 0x80)
        rest >>= 7
    groups.append(rest)
    return bytes(groups)


def put_bytes(data: bytes) -> bytes:
    return put_long(len(data)) + data


def read_bytes(source: Kept) -> bytes:
    length = read_long(source)
    if length < 0:
        raise Refused("a length in its metadata is negative")
    return take(source, length)


def read_metadata(source: Kept) -> dict[bytes, bytes]:
    metadata: dict[bytes, bytes] = {}
    while count := read_long(source):
        if count < 0:
            read_long(source)
        for _ in range(abs(count)):
            key = read_bytes(source)
            if key in metadata:
                raise Refused("a key is in its metadata twice")
            metadata[key] = read_bytes(source)
    return metadata


def read_header(source: BinaryIO) -> Header:
    if read(source, len(MAGIC)) != MAGIC:
        raise Refused("it is not a container file")
    kept = Kept(source)
    metadata = read_metadata(kept)
    marker = take(kept, 16)
    return Header(MAGIC + bytes(kept.bytes), metadata, marker)


def put_header(metadata: dict[bytes, bytes], marker: bytes) -> bytes:
    """A header with its metadata in one block."""
    count = put_long(len(metadata)) if metadata else b""
    return MAGIC + count + b"".join(put_bytes(key) + put_bytes(metadata[key]) for key in metadata) + b"\0" + marker


def read_block(source: BinaryIO, first: bytes, marker: bytes, most: int) -> tuple[int, bytes]:
    """The count of a block and its data; its first byte has been read."""
    count, size = read_long(source, first), read_long(source)
    if not 0 <= size <= most:
        raise Refused("its size is out of range")
    data = take(source, size)
    if take(source, len(marker)) != marker:
        raise Refused("its marker differs")
    return count, data


def change_blocks(source: BinaryIO, sink: BinaryIO, marker: bytes, most: int, change: Callable[[bytes], Data]) -> None:
    """Copies the blocks, of at most so many bytes each, with what `change` makes of their data."""
    block = 0
    while first := read(source, 1):
        try:
            count, data = read_block(source, first, marker, most)
            changed = change(data)
        except Refused as fault:
            raise Refused(f"block {block}: {fault}") from None
        send(sink, put_long(count) + put_long(len(changed)))
        send(sink, changed)
        send(sink, marker)
        block += 1


def run(name: str, work: Callable[[BinaryIO, BinaryIO], None]) -> int:
    """Runs a filter from standard input to standard output, and answers its exit status."""
    try:
        with open_stream(0, "rb", "-: cannot read") as source:
            run_into(work, source)
        return 0
    except Refused as fault:
        return fail(f"{name}: -: {fault}", 3)
    except Failed as fault:
        return fail(f"{name}: {fault}", 4)


def run_into(work: Callable[[BinaryIO, BinaryIO], None], source: BinaryIO) -> None:
    """What was written before a fault goes out as well, as that of `avro pipe` does."""
    sink = open_stream(1, "wb", "output: cannot write")
    try:
        work(source, sink)
    finally:
        try:
            sink.close()
        except OSError:
            raise Failed("output: cannot write") from None


def open_stream(descriptor: int, mode: str, words: str) -> BinaryIO:
    try:
        return open(descriptor, mode, closefd=False)
    except OSError:
        raise Failed(words) from None


def fail(words: str, status: int) -> int:
    print(words, file=sys.stderr)
    return status


def usage(text: str) -> int:
    print(text, end="", file=sys.stderr)
    return 64

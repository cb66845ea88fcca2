#!/usr/bin/env python3
"""Writes a container file of another codec as one of codec `null`, which alone `avro` takes:

    set -o pipefail
    recodec.py < in.avro | avro pipe --reader new.avsc > out.avro
    avro check <(recodec.py < in.avro)

The codecs are deflate, bzip2, xz, snappy, which is faster by Python's module snappy, and zstandard, which needs
Python's module zstandard or the program zstd. No datum is decoded. The blocks, their counts, the marker and the order
of the metadata stay, and of the metadata only avro.codec changes. A file of codec null comes out byte for byte. A block
has at most 16777216 bytes, as for `avro`. The way back is pack.py.

Exit status: 0; 3 the file is refused, and what came out is the beginning of the copy; 4 standard input cannot be read,
standard output cannot be written, or what zstandard needs is missing; 64 usage.
"""

from __future__ import annotations

import bz2
import lzma
import shutil
import subprocess
import sys
import tempfile
import zlib
from typing import Any, BinaryIO, Callable

from filters import MOST_BLOCK, Data, Failed, Refused, change_blocks, put_header, read_header, run, send, send_rest, usage

try:
    import snappy
except ImportError:
    snappy = None
try:
    import zstandard
except ImportError:
    zstandard = None

# What snappy may make of a block that it cannot compress; the other codecs add less.
MOST_PACKED = MOST_BLOCK + MOST_BLOCK // 6 + 1_024
# What a stream may ask for its window: as much as the highest presets of xz and zstd need, and more.
MOST_MEMORY = 1 << 27
# Bytes of zstandard that are unpacked at once: they stand for 8 MiB at most.
STEP = 256
ZSTANDARD_MAGIC = b"\x28\xb5\x2f\xfd"
ENDS_EARLY = "the data end too early"


class Corrupt(Exception):
    """What is wrong with the bytes of a codec."""


def check_size(size: int) -> None:
    if size > MOST_BLOCK:
        raise Refused(f"it has more than {MOST_BLOCK} bytes")


def unpacked(stream: Any, packed: bytes) -> bytes:
    """What a stream of Python's library makes of a block, which is at most a byte over the limit."""
    data = stream.decompress(packed, MOST_BLOCK + 1)
    check_size(len(data))
    if not stream.eof:
        raise Corrupt(ENDS_EARLY)
    return data


def unpacked_whole(stream: Any, packed: bytes) -> bytes:
    data = unpacked(stream, packed)
    if stream.unused_data:
        raise Corrupt("bytes are left after the data")
    return data


def inflate(packed: bytes) -> bytes:
    # Python's library of Avro leaves a part of a checksum after the data, so what is left there is not looked at.
    return unpacked(zlib.decompressobj(-zlib.MAX_WBITS), packed)


def unpack_bzip2(packed: bytes) -> bytes:
    return unpacked_whole(bz2.BZ2Decompressor(), packed)


def unpack_xz(packed: bytes) -> bytes:
    return unpacked_whole(lzma.LZMADecompressor(lzma.FORMAT_XZ, memlimit=MOST_MEMORY), packed)


def unpack_snappy(packed: bytes) -> Data:
    elements, checksum = packed[:-4], packed[-4:]
    length, start = snappy_length(elements)
    check_size(length)
    data = unpack_by_snappy(elements) or unpack_elements(elements, start, length)
    if zlib.crc32(data) != int.from_bytes(checksum, "big"):
        raise Corrupt("the checksum differs")
    return data


def unpack_by_snappy(elements: bytes) -> bytes | None:
    """What the module makes of a block; where it makes nothing, the elements tell why."""
    try:
        return snappy.decompress(elements) if snappy else None
    except snappy.UncompressError:
        return None


def unpack_elements(elements: bytes, at: int, length: int) -> bytearray:
    data = bytearray()
    while at < len(elements):
        if elements[at] & 3 == 0:
            at = put_literal(data, elements, at)
        else:
            at = put_copy(data, elements, at, length)
        if len(data) > length:
            raise Corrupt("there are more bytes than it says")
    if len(data) < length:
        raise Corrupt(ENDS_EARLY)
    return data


def snappy_length(elements: bytes) -> tuple[int, int]:
    """The length of the data, and where the elements begin."""
    length = 0
    for at in range(5):
        byte = elements[at]
        length |= (byte & 0x7F) << 7 * at
        if byte < 0x80:
            return length, at + 1
    raise Corrupt("the length has too many bytes")


def number(elements: bytes, at: int, size: int) -> int:
    if at + size > len(elements):
        raise Corrupt(ENDS_EARLY)
    return int.from_bytes(elements[at : at + size], "little")


def put_literal(data: bytearray, elements: bytes, at: int) -> int:
    """Adds the bytes of a literal, and answers where the next element begins."""
    count, size = elements[at] >> 2, 0
    if count >= 60:
        size = count - 59
        count = number(elements, at + 1, size)
    start, end = at + 1 + size, at + 2 + size + count
    if end > len(elements):
        raise Corrupt(ENDS_EARLY)
    data += elements[start:end]
    return end


def put_copy(data: bytearray, elements: bytes, at: int, length: int) -> int:
    """Adds bytes that the data have already, and answers where the next element begins."""
    tag = elements[at]
    if tag & 3 == 1:
        size, count = 1, (tag >> 2 & 7) + 4
        offset = tag >> 5 << 8 | number(elements, at + 1, 1)
    else:
        size, count = 2 if tag & 3 == 2 else 4, (tag >> 2) + 1
        offset = number(elements, at + 1, size)
    if not 0 < offset <= len(data):
        raise Corrupt("a copy begins before the data")
    if len(data) + count > length:
        raise Corrupt("there are more bytes than it says")
    source = data[len(data) - offset : len(data) - offset + count]
    data += (source * (count // len(source) + 1))[:count]
    return at + 1 + size


def unpack_zstandard(packed: bytes) -> Data:
    if packed[:4] != ZSTANDARD_MAGIC:
        raise Corrupt("the data do not begin as a frame does")
    return unpack_by_program(packed) if zstandard is None else unpack_by_module(packed)


def unpack_by_module(packed: bytes) -> bytearray:
    """Unpacks each frame, a few bytes at once, since the module has no limit of its own."""
    unpacker = zstandard.ZstdDecompressor(max_window_size=MOST_MEMORY)
    data, at, frame = bytearray(), 0, None
    try:
        while at < len(packed):
            frame = frame or unpacker.decompressobj()
            data += frame.decompress(packed[at : at + STEP])
            check_size(len(data))
            at = min(at + STEP, len(packed))
            if frame.eof:
                at, frame = at - len(frame.unused_data), None
    except zstandard.ZstdError as fault:
        raise Corrupt(str(fault)) from None
    if frame is not None:
        raise Corrupt(ENDS_EARLY)
    return data


def unpack_by_program(packed: bytes) -> bytes:
    with tempfile.TemporaryFile() as file:
        file.write(packed)
        file.seek(0)
        words = ["zstd", "-dcq", "--no-progress", f"--memory={MOST_MEMORY}"]
        try:
            program = subprocess.Popen(words, stdin=file, stdout=subprocess.PIPE, stderr=subprocess.DEVNULL)
        except OSError:
            raise Failed("zstandard: neither Python's module zstandard nor the program zstd is here") from None
        with program:
            data = program.stdout.read(MOST_BLOCK + 1)
            if len(data) > MOST_BLOCK:
                program.kill()
    check_size(len(data))
    if program.returncode != 0:
        raise Corrupt("the program zstd refuses the data")
    return data


CODECS: dict[bytes, Callable[[bytes], Data]] = {
    b"deflate": inflate,
    b"bzip2": unpack_bzip2,
    b"xz": unpack_xz,
    b"snappy": unpack_snappy,
    b"zstandard": unpack_zstandard,
}


def unpack(codec: bytes, packed: bytes) -> Data:
    try:
        return CODECS[codec](packed)
    except IndexError:
        raise Refused(f"{codec.decode()}: {ENDS_EARLY}") from None
    except (Corrupt, zlib.error, lzma.LZMAError, OSError, EOFError) as fault:
        raise Refused(f"{codec.decode()}: {fault}") from None


def check_zstandard() -> None:
    """Asked before anything is written, so that a missing program leaves no beginning of a file."""
    if zstandard is None and shutil.which("zstd") is None:
        raise Failed("zstandard: neither Python's module zstandard nor the program zstd is here")


def recode(source: BinaryIO, sink: BinaryIO) -> None:
    header = read_header(source)
    codec = header.metadata.get(b"avro.codec", b"null")
    if codec == b"null":
        send(sink, header.raw)
        send_rest(source, sink)
        return
    if codec not in CODECS:
        raise Refused(f"unknown codec {ascii(codec[:40].decode('latin-1'))[1:-1]}")
    if codec == b"zstandard":
        check_zstandard()
    send(sink, put_header({**header.metadata, b"avro.codec": b"null"}, header.marker))
    change_blocks(source, sink, header.marker, MOST_PACKED, lambda packed: unpack(codec, packed))


def main(words: list[str]) -> int:
    return usage(__doc__) if words else run("recodec", recode)


if __name__ == "__main__":
    sys.exit(main(sys.argv[1:]))

#!/usr/bin/env python3
"""Writes container files for try.sh: good ones of each codec, and broken ones.

    make_files.py FOLDER

FOLDER gets CODEC.avro for each codec, of the same 5,000 measurements with floats and doubles; blocks.avro, the same of
codec null with its metadata in two blocks; old.avsc and new.avsc, their schema and the one that they are migrated to;
and the broken ones, each named for what is wrong. zstandard.avro is there if the module zstandard or the program zstd
is. The same words write the same bytes.
"""

from __future__ import annotations

import bz2
import json
import lzma
import random
import struct
import subprocess
import sys
import zlib
from pathlib import Path
from typing import Any, Callable, Iterator

from filters import MAGIC, MOST_BLOCK, put_bytes, put_header, put_long

MARKER = bytes(range(16))
COUNT = 5_000
# Data in a block.
PER_BLOCK = 700
# What a bomb would take, which is more than try.sh gives to recodec.
BOMB = 200 << 20
SPECIAL = (0.0, -0.0, 1.5, 5e-324, float("inf"), float("-inf"), float("nan"))


def record(name: str, fields: list[dict], **more: Any) -> dict:
    return {"type": "record", "name": name, "namespace": "lab", **more, "fields": fields}


OLD = record(
    "Measurement",
    [
        {"name": "id", "type": "long"},
        {"name": "value", "type": "double"},
        {"name": "error", "type": ["null", {"type": "float", "logicalType": "share", "of": 0.5}], "default": None},
        {"name": "series", "type": {"type": "array", "items": "double"}},
        {"name": "by_name", "type": {"type": "map", "values": "float"}},
        {"name": "unit", "type": "string"},
    ],
    doc=None,
)
NEW = record(
    "Measurement",
    [
        {"name": "series", "type": {"type": "array", "items": "double"}},
        {"name": "result", "type": "double", "aliases": ["value"]},
        {"name": "id", "type": "long"},
        {"name": "error", "type": ["float", "null"]},
        {"name": "factor", "type": "double", "default": 0.1},
        {"name": "limits", "type": {"type": "array", "items": ["null", "float"]}, "default": [None, 2, -1e3]},
        {"name": "by_name", "type": {"type": "map", "values": "float"}},
    ],
)


def number(choose: random.Random) -> float:
    if choose.randrange(8) == 0:
        return choose.choice(SPECIAL)
    return choose.uniform(-1, 1) * 10 ** choose.randrange(-9, 30)


def datum(choose: random.Random, at: int) -> bytes:
    """The encoding of a measurement."""
    error = put_long(1) + struct.pack("<f", number(choose)) if choose.randrange(3) else put_long(0)
    series = [struct.pack("<d", number(choose)) for _ in range(choose.randrange(5))]
    names = [put_bytes(b"n%d" % k) + struct.pack("<f", number(choose)) for k in range(choose.randrange(3))]
    parts = [put_long(at), struct.pack("<d", number(choose)), error, listed(series), listed(names)]
    return b"".join(parts) + put_bytes(choose.choice((b"m", b"kg", "Ω".encode())))


def listed(items: list[bytes]) -> bytes:
    return (put_long(len(items)) if items else b"") + b"".join(items) + put_long(0)


def blocks_of_data() -> Iterator[tuple[int, bytes]]:
    choose = random.Random(1)
    data = [datum(choose, at) for at in range(COUNT)]
    for start in range(0, COUNT, PER_BLOCK):
        part = data[start : start + PER_BLOCK]
        yield len(part), b"".join(part)


def deflate(data: bytes) -> bytes:
    packer = zlib.compressobj(wbits=-zlib.MAX_WBITS)
    return packer.compress(data) + packer.flush()


def snappy(data: bytes) -> bytes:
    """Literals of up to 2,000 bytes, and copies of each kind where the last bytes repeat what stood 8 before."""
    return snappy_length(len(data)) + b"".join(snappy_elements(data)) + zlib.crc32(data).to_bytes(4, "big")


def snappy_length(length: int) -> bytes:
    groups = bytearray()
    while length > 0x7F:
        groups.append(length & 0x7F | 0x80)
        length >>= 7
    return bytes([*groups, length])


def snappy_elements(data: bytes) -> Iterator[bytes]:
    start = at = 0
    while at < len(data):
        count = repeated(data, at)
        if count >= 4:
            yield from literals(data[start:at])
            yield copy(at, count)
            at += count
            start = at
        else:
            at += 1
    yield from literals(data[start:])


def repeated(data: bytes, at: int) -> int:
    """How many bytes from here on are those that stood 8 before."""
    count = 0
    while at >= 8 and count < 64 and at + count < len(data) and data[at + count] == data[at + count - 8]:
        count += 1
    return count


def literals(data: bytes) -> Iterator[bytes]:
    for start in range(0, len(data), 2_000):
        part = data[start : start + 2_000]
        if len(part) <= 60:
            yield bytes([len(part) - 1 << 2]) + part
        elif len(part) <= 256:
            yield bytes([60 << 2, len(part) - 1]) + part
        else:
            yield bytes([61 << 2]) + (len(part) - 1).to_bytes(2, "little") + part


def copy(at: int, count: int) -> bytes:
    """A copy from 8 bytes before, by turns of one, two and four bytes of offset."""
    if count <= 11 and at % 3 == 0:
        return bytes([count - 4 << 2 | 1, 8])
    if at % 2:
        return bytes([count - 1 << 2 | 2]) + (8).to_bytes(2, "little")
    return bytes([count - 1 << 2 | 3]) + (8).to_bytes(4, "little")


def zstandard(data: bytes) -> bytes:
    try:
        import zstandard as module
    except ImportError:
        return subprocess.run(["zstd", "-cq"], input=data, stdout=subprocess.PIPE, check=True).stdout
    return module.ZstdCompressor().compress(data)


CODECS: dict[str, Callable[[bytes], bytes]] = {
    "null": bytes,
    "deflate": deflate,
    "bzip2": bz2.compress,
    "xz": lzma.compress,
    "snappy": snappy,
    "zstandard": zstandard,
}


def metadata(codec: str) -> dict[bytes, bytes]:
    return {b"made.by": b"try", b"avro.codec": codec.encode(), b"avro.schema": json.dumps(OLD).encode(), b"": b"\xff"}


def block(count: int, packed: bytes) -> bytes:
    return put_long(count) + put_bytes(packed) + MARKER


def container(codec: str, blocks: list[tuple[int, bytes]]) -> bytes:
    packed = [block(count, CODECS[codec](data)) for count, data in blocks]
    return put_header(metadata(codec), MARKER) + b"".join(packed)


def with_metadata_in_blocks(file: bytes) -> bytes:
    """A file of codec null whose metadata stand in two blocks, of which the second has its size."""
    entries = [put_bytes(key) + put_bytes(value) for key, value in metadata("null").items()]
    first, second = b"".join(entries[:3]), entries[3]
    rest = file[len(put_header(metadata("null"), MARKER)) :]
    head = MAGIC + put_long(3) + first + put_long(-1) + put_long(len(second)) + second + b"\0"
    return head + MARKER + rest


def broken(good: dict[str, bytes]) -> Iterator[tuple[str, bytes]]:
    """Files that are refused, by the words for what is wrong with them."""
    schema = json.dumps(OLD).encode()
    head = {name: put_header(metadata(name), MARKER) for name in [*CODECS, "lzo"]}
    text = b"The quick brown fox. " * 40
    yield "no container", b"Obj\x02" + good["null"][4:]
    yield "nothing", b""
    yield "header cut", good["deflate"][:40]
    yield "unknown codec", head["lzo"]
    yield "key twice", MAGIC + put_long(2) + 2 * (put_bytes(b"avro.schema") + put_bytes(schema)) + b"\0" + MARKER
    yield "long header", MAGIC + put_long(1) + put_bytes(b"avro.schema") + put_long(1 << 40)
    yield "block cut", good["deflate"][:-20]
    yield "marker", good["deflate"][:-1] + b"\0"
    yield "negative size", head["deflate"] + put_long(1) + put_long(-1)
    for codec in CODECS:
        if codec in good and codec != "null":
            packed = CODECS[codec](text)
            yield f"{codec} ends early", head[codec] + block(1, packed[: len(packed) * 2 // 3])
            yield f"{codec} spoiled", head[codec] + block(1, b"\xff" + packed[1:])
            yield f"{codec} after a good block", good[codec] + block(1, b"")
    yield "snappy checksum", head["snappy"] + block(1, snappy(text)[:-4] + bytes(4))
    yield "snappy offset", head["snappy"] + block(1, b"\x08" + bytes([0, 65]) + copy(0, 7) + bytes(4))
    yield "bytes after xz", head["xz"] + block(1, lzma.compress(text) + b"\0")


def bombs(good: dict[str, bytes]) -> Iterator[tuple[str, bytes]]:
    """Files whose block is a byte over the limit, or far over it."""
    for codec, kind in (("deflate", deflate), ("bzip2", bzip2_fast), ("xz", xz_fast), ("zstandard", zstandard)):
        if codec in good:
            head = put_header(metadata(codec), MARKER)
            yield f"{codec} over by a byte", head + block(1, kind(bytes(MOST_BLOCK + 1)))
            yield f"{codec} bomb", head + block(1, kind(bytes(BOMB)))
    yield "snappy bomb", put_header(metadata("snappy"), MARKER) + block(1, snappy_length(1 << 31) + bytes(9))


def bzip2_fast(data: bytes) -> bytes:
    return bz2.compress(data, 1)


def xz_fast(data: bytes) -> bytes:
    return lzma.compress(data, preset=0)


def main(words: list[str]) -> int:
    if len(words) != 1:
        print(__doc__, end="", file=sys.stderr)
        return 64
    folder = Path(words[0])
    (folder / "broken").mkdir(parents=True)
    (folder / "bombs").mkdir()
    (folder / "old.avsc").write_text(json.dumps(OLD))
    (folder / "new.avsc").write_text(json.dumps(NEW))
    blocks, good = list(blocks_of_data()), {}
    for codec in CODECS:
        try:
            good[codec] = container(codec, blocks)
        except OSError:
            continue
        (folder / f"{codec}.avro").write_bytes(good[codec])
    (folder / "blocks.avro").write_bytes(with_metadata_in_blocks(good["null"]))
    for part, files in (("broken", broken(good)), ("bombs", bombs(good))):
        for name, data in files:
            (folder / part / f"{name}.avro").write_bytes(data)
    return 0


if __name__ == "__main__":
    sys.exit(main(sys.argv[1:]))

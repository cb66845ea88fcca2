#!/usr/bin/env python3
"""Writes a container file of codec `null` with another codec, as recodec.py reads them:

    set -o pipefail
    recodec.py < in.avro | avro pipe --reader new.avsc | pack.py deflate > out.avro
    recodec.py < in.avro | avro pipe --reader new.avsc | pack.py --like in.avro > out.avro

The codecs are deflate, bzip2, xz, snappy, which needs Python's module snappy, zstandard, which needs Python's module
zstandard or the program zstd, and null, with which the file comes out byte for byte. With --like the codec is that of a
container file. The blocks, their counts, the marker and the order of the metadata stay, and of the metadata only
avro.codec changes.

Exit status: 0; 3 the file is refused, and what came out is the beginning of the copy; 4 standard input cannot be read,
standard output cannot be written, or what the codec needs is missing; 64 usage.
"""

from __future__ import annotations

import bz2
import lzma
import subprocess
import sys
import zlib
from typing import BinaryIO, Callable

from filters import MOST_BLOCK, Failed, Refused, change_blocks, fail, put_header, read_header, run, send, send_rest, usage
from recodec import check_zstandard, snappy, zstandard


def deflate(data: bytes) -> bytes:
    packer = zlib.compressobj(wbits=-zlib.MAX_WBITS)
    return packer.compress(data) + packer.flush()


def pack_snappy(data: bytes) -> bytes:
    return snappy.compress(data) + zlib.crc32(data).to_bytes(4, "big")


def pack_zstandard(data: bytes) -> bytes:
    if zstandard is not None:
        return zstandard.ZstdCompressor().compress(data)
    try:
        return subprocess.run(["zstd", "-cq"], input=data, stdout=subprocess.PIPE, check=True).stdout
    except (OSError, subprocess.CalledProcessError):
        raise Failed("zstandard: neither Python's module zstandard nor the program zstd is here") from None


CODECS: dict[str, Callable[[bytes], bytes]] = {
    "deflate": deflate,
    "bzip2": bz2.compress,
    "xz": lzma.compress,
    "snappy": pack_snappy,
    "zstandard": pack_zstandard,
}
KNOWN = {"null", *CODECS}


def check_codec(codec: str) -> None:
    """Whether what the codec needs is here, before anything is written."""
    if codec == "snappy" and snappy is None:
        raise Failed("snappy: Python's module snappy is not here")
    if codec == "zstandard":
        check_zstandard()


def pack(source: BinaryIO, sink: BinaryIO, codec: str) -> None:
    check_codec(codec)
    header = read_header(source)
    if header.metadata.get(b"avro.codec", b"null") != b"null":
        raise Refused("its codec is not null")
    if codec == "null":
        send(sink, header.raw)
        send_rest(source, sink)
        return
    send(sink, put_header({**header.metadata, b"avro.codec": codec.encode()}, header.marker))
    change_blocks(source, sink, header.marker, MOST_BLOCK, CODECS[codec])


def codec_of(path: str) -> str:
    """The codec of a container file."""
    try:
        with open(path, "rb") as file:
            codec = read_header(file).metadata.get(b"avro.codec", b"null").decode("latin-1")
    except OSError:
        raise Failed(f"{path}: cannot read") from None
    except Refused as fault:
        raise Refused(f"{path}: {fault}") from None
    if codec not in KNOWN:
        raise Refused(f"{path}: unknown codec {ascii(codec[:40])[1:-1]}")
    return codec


def main(words: list[str]) -> int:
    if len(words) == 2 and words[0] == "--like":
        try:
            words = [codec_of(words[1])]
        except (Refused, Failed) as fault:
            return fail(f"pack: {fault}", 3 if isinstance(fault, Refused) else 4)
    if len(words) != 1 or words[0] not in KNOWN:
        return usage(__doc__)
    return run("pack", lambda source, sink: pack(source, sink, words[0]))


if __name__ == "__main__":
    sys.exit(main(sys.argv[1:]))

"""The rows that `refusals.py` runs: commands, their files, and what they answer.

What a row answers is written here by hand or from the rules, and never taken from the program.
"""

import hashlib
import os
import sys

sys.path.insert(0, os.path.join(os.path.dirname(os.path.abspath(__file__)), "..", "bench", "gen"))

from generate import number

SYNC = bytes(range(16))


class Row:
    """A command, its files and what is on its standard input, what it prints and writes, and its status."""

    def __init__(self, name, words, files, out="", err="", status=0, written=None, behind=None, given=None, is_long=False):
        self.name = name
        self.words = words.split(" ")
        self.files = {file: text.encode() if isinstance(text, str) else text for file, text in files.items()}
        self.out = out.encode() if isinstance(out, str) else out
        self.err = err.encode()
        self.status = status
        # The files that it writes, with their bytes.
        self.written = {} if written is None else written
        # A file that is made only after a number of bytes of another were read.
        self.behind = behind
        # The bytes on standard input, or None where there are none.
        self.given = given
        # Whether it prints so much that no run of it moves a byte at a time.
        self.is_long = is_long

    def write_files(self, names):
        """Writes those of its files that have these names."""
        for file in names:
            if file in self.files:
                with open(file, "wb") as out:
                    out.write(self.files[file])


def text_bytes(text):
    """A length, and the text in UTF-8."""
    data = text.encode()
    return number(len(data)) + data


def header(schema, sync=SYNC, codec=False):
    """The header of a file whose metadata are in one block."""
    entries = text_bytes("avro.schema") + text_bytes(schema)
    if codec:
        entries += text_bytes("avro.codec") + text_bytes("null")
    return b"Obj\x01" + number(2 if codec else 1) + entries + b"\0" + sync


def block(count, data, sync=SYNC):
    """A block of a file."""
    return number(count) + number(len(data)) + data + sync


def certificate(*pairs, dead=()):
    """The text of a certificate."""
    lines = ["approval 1", *(f"dead {node}" for node in dead), *(f"pair {w} {r}" for w, r in pairs), "end"]
    return "".join(line + "\n" for line in lines)


NODE = '{"type":"record","name":"Node","fields":[{"name":"value","type":"%s"},{"name":"next","type":["null","Node"]}]}'
TEST = '{"type":"record","name":"test","fields":[{"name":"a","type":"long"},{"name":"b","type":"string"}]}'
TEST_READER = '{"type":"record","name":"test","fields":[{"name":"b","type":"string"},{"name":"a","type":"long"}]}'
TEST_CANONICAL = '{"name":"test","type":"record","fields":[{"name":"a","type":"long"},{"name":"b","type":"string"}]}'
ROW_DATUM = bytes.fromhex("3606666f6f")
OF_A = '{"type":"array","items":{"type":"record","name":"R","fields":[{"name":"a","type":"int"}]}}'
OF_A_AND_B = OF_A.replace("]}}", ',{"name":"b","type":"int"}]}}')
NODE_PAIRS = ((0, 0), (0, 2), (1, 1), (2, 2), (3, 2), (3, 3))

REFUSED_TEXTS = {
    "float": ('"float"', "S10"),
    "unknown": ('"Foo"', "S2"),
    "nested union": ('["int",["null"]]', "S6"),
    "size": ('{"type":"fixed","name":"F","size":"16"}', "S5"),
    "name": ('{"type":"enum","name":"int","symbols":["A"]}', "S4"),
    "symbols": ('{"type":"enum","name":"E","symbols":["A","A"]}', "S7"),
    "default": ('{"type":"record","name":"R","fields":[{"name":"f","type":["null","int"],"default":"x"}]}', "S9"),
    "twice": ('["int",{"type":"fixed","name":"F","size":1},{"type":"fixed","name":"F","size":1}]', "S3"),
    "no bytes": ("", "S1"),
}


def schema_rows():
    """Texts of schemas, taken and refused."""
    files = {"test.avsc": TEST}
    yield Row("schema count", "schema test.avsc", files, "ok 3\n")
    yield Row("schema canonical", "schema test.avsc --canonical", files, TEST_CANONICAL + "\n")
    print_ = hashlib.sha256(TEST_CANONICAL.encode()).hexdigest()
    yield Row("schema fingerprint", "schema test.avsc --fingerprint", files, print_ + "\n")
    for name, (text, code) in REFUSED_TEXTS.items():
        yield Row(f"schema refused {name}", "schema f.avsc", {"f.avsc": text}, err=f"avro: f.avsc: {code}\n", status=3)


FIXEDS = (
    '{"type":"record","name":"W","fields":[{"name":"f","type":{"type":"fixed","name":"F","size":200000}},'
    '{"name":"g","type":"F"},{"name":"z","type":"%s"}]}'
)


def judge_rows():
    """Verdicts and their files."""
    ints = {"int.avsc": '"int"', "long.avsc": '"long"'}
    yield Row("judge yes", "judge int.avsc long.avsc", ints, "yes\n")
    yield Row("judge no", "judge long.avsc int.avsc", ints, "no\nfault NoMatch at /\nnodes 1\ndatum 0\n", status=1)
    text = certificate((0, 0)).encode()
    yield Row("judge certificate", "judge int.avsc long.avsc --certificate c.txt", ints, "yes\n", written={"c.txt": text})
    nodes = {"w.avsc": NODE % "int", "r.avsc": NODE % "long"}
    text = certificate(*NODE_PAIRS).encode()
    yield Row("judge recursive", "judge w.avsc r.avsc --certificate c.txt", nodes, "yes\n", written={"c.txt": text})
    arrays = {"w.avsc": OF_A, "r.avsc": OF_A_AND_B}
    no = 'no\nfault MissingField 1 at /0\nnodes 3\ndatum [{"a":0}]\n'
    yield Row("judge missing field", "judge w.avsc r.avsc", arrays, no, status=1)
    dead = {"w.avsc": '{"type":"record","name":"R","fields":[{"name":"f","type":"R"}]}', "r.avsc": '"int"'}
    text = certificate(dead=(0,)).encode()
    yield Row("judge dead", "judge w.avsc r.avsc --certificate c.txt", dead, "yes\n", written={"c.txt": text})
    strings = {"w.avsc": '"int"', "r.avsc": '"string"'}
    sync = hashlib.sha256(b'"int"').digest()[:16]
    file = header('"int"', sync, codec=True) + block(1, b"\0", sync)
    no = "no\nfault NoMatch at /\nnodes 1\ndatum 0\n"
    yield Row("judge refutation", "judge w.avsc r.avsc --refutation o.avro", strings, no, status=1, written={"o.avro": file})
    fixeds = {"w.avsc": FIXEDS % "string", "r.avsc": FIXEDS % "int"}
    zeros = "\\u0000" * 200_000
    datum = f'{{"f":"{zeros}","g":"{zeros}","z":""}}'
    no = f"no\nfault NoMatch at /2\nnodes 4\ndatum {datum}\n"
    yield Row("judge long datum", "judge w.avsc r.avsc", fixeds, no, status=1, is_long=True)
    fault = '{"kind":"NoMatch","path":[2],"at":"$.z"}'
    no = f'{{"verdict":"no","fault":{fault},"nodes":4,"datum":{datum}}}\n'
    yield Row("judge json long datum", "judge w.avsc r.avsc --json", fixeds, no, status=1, is_long=True)


def option_rows():
    """Answers as JSON, other limits, and modes of histories."""
    ints = {"int.avsc": '"int"', "long.avsc": '"long"'}
    fault = '{"kind":"NoMatch","path":[],"at":"$"}'
    no = f'{{"verdict":"no","fault":{fault},"nodes":1,"datum":0}}\n'
    yield Row("judge json yes", "judge int.avsc long.avsc --json", ints, '{"verdict":"yes"}\n')
    yield Row("judge json no", "judge long.avsc int.avsc --json", ints, no, status=1)
    arrays = {"w.avsc": OF_A, "r.avsc": OF_A_AND_B}
    no = '{"verdict":"no","fault":{"kind":"MissingField","field":"b","path":[0],"at":"$[0]"},"nodes":3,"datum":[{"a":0}]}\n'
    yield Row("judge json field", "judge w.avsc r.avsc --json", arrays, no, status=1)
    undecided = '{"verdict":"undecided","cause":"Size"}\n'
    yield Row("judge json undecided", "judge w.avsc r.avsc --json --max-size 2", arrays, undecided, status=2)
    yield Row("judge limits", "judge w.avsc r.avsc --max-depth 2", arrays, "undecided Depth\n", status=2)
    text = "avro: --max-pairs takes 1 to 16777216\n"
    yield Row("judge no limit", "judge w.avsc r.avsc --max-pairs 0", arrays, err=text, status=64)
    files = {**ints, "c.txt": certificate((0, 0))}
    yield Row("confirm json", "confirm int.avsc long.avsc c.txt --json", files, '{"confirmed":true}\n')
    both = "int.avsc backward yes\nint.avsc forward no\n"
    yield Row("history full", "history int.avsc long.avsc --mode full --next", ints, both, status=1)
    lines = f'{{"file":"int.avsc","mode":"backward","verdict":"yes"}}\n{{"file":"int.avsc","mode":"forward","verdict":"no","fault":{fault}}}\n'
    yield Row("history json", "history int.avsc long.avsc --mode full --json", ints, lines, status=1)


def explain_rows():
    """All faults, by names."""
    arrays = {"w.avsc": OF_A, "r.avsc": OF_A_AND_B}
    reason = "R of the writer has no such field, and there is no default"
    yield Row("explain", "explain w.avsc r.avsc", arrays, f"no 1\n$[].b: MissingField: {reason} (writer's $[])\n", status=1)
    places = ",".join(f'"{side}":{{"node":1,"at":"$[]","type":"R"}}' for side in ("writer", "reader"))
    fault = f'{{"fault":"MissingField","field":"b",{places}}}'
    line = f'{{"verdict":"no","faults":[{fault}]}}\n'
    yield Row("explain json", "explain w.avsc r.avsc --json", arrays, line, status=1)
    yield Row("explain yes", "explain r.avsc w.avsc", arrays, "yes\n")
    yield Row("explain undecided", "explain w.avsc r.avsc --max-pairs 1", arrays, "undecided Pairs\n", status=2)


def kept_rows():
    """Files that options ask for: those that are read, those that hold a schema, and others."""
    ints = {"a.avsc": '"int"', "b.avsc": '"long"', "c.avsc": OF_A}
    text = "avro: a.avsc is also an input\n"
    yield Row("judge read certificate", "judge a.avsc b.avsc --certificate a.avsc", ints, err=text, status=64)
    yield Row("judge read refutation", "judge b.avsc a.avsc --refutation a.avsc", ints, err=text, status=64)
    yield Row("history read certificates", "history a.avsc b.avsc --certificates a.avsc", ints, err=text, status=64)
    text = "avro: c.avsc is a schema\n"
    yield Row("judge schema certificate", "judge a.avsc b.avsc --certificate c.avsc", ints, err=text, status=64)
    yield Row("judge schema refutation", "judge b.avsc a.avsc --refutation c.avsc", ints, err=text, status=64)
    yield Row("history schema certificates", "history a.avsc b.avsc --certificates c.avsc", ints, err=text, status=64)
    text = certificate((0, 0))
    files = {**ints, "o.txt": "kept"}
    yield Row("judge other certificate", "judge a.avsc b.avsc --certificate o.txt", files, "yes\n", written={"o.txt": text.encode()})
    text = "history 1\n" + text + "end\n"
    yield Row("history other certificates", "history a.avsc b.avsc --certificates o.txt", files, "a.avsc yes\n", written={"o.txt": text.encode()})


def certificate_rows():
    """Certificates that are read again, and histories."""
    files = {"w.avsc": NODE % "int", "r.avsc": NODE % "long", "c.txt": certificate(*NODE_PAIRS), "d.txt": certificate()}
    yield Row("confirm", "confirm w.avsc r.avsc c.txt", files, "confirmed\n")
    yield Row("confirm not", "confirm w.avsc r.avsc d.txt", files, "not confirmed\n", status=1)
    files = {**files, "c.txt": "approval 1\npair 0 0\nend"}
    yield Row("confirm refused", "confirm w.avsc r.avsc c.txt", files, err="avro: c.txt: G1\n", status=3)
    each = certificate((0, 0), (0, 1))
    text = "history 1\n" + each + each + "end\n"
    files = {"a": '"int"', "b": '"long"', "c": '["long","string"]', "h.txt": text}
    yield Row("history", "history a b c", files, "a yes\nb yes\n")
    yield Row("history certificates", "history a b c --certificates o.txt", files, "a yes\nb yes\n", written={"o.txt": text.encode()})
    yield Row("history confirmed", "history a b c --confirm h.txt", files, "confirmed\n")
    yield Row("history not confirmed", "history b c --confirm h.txt", files, "not confirmed\n", status=1)
    record = '{"type":"record","name":"R","fields":[%s]}'
    field = '{"name":"a","type":"int"}', '{"name":"a","type":"string","default":""}'
    files = {"a": record % field[0], "b": record % "", "c": record % field[1]}
    yield Row("history no", "history a b c", files, "a no\nb yes\n", status=1)


def reading_rows():
    """Containers that are looked at."""
    file = header(TEST) + block(1, ROW_DATUM)
    files = {"f.avro": file, "r.avsc": TEST_READER}
    shown = '{"a":27,"b":"foo"}\n'
    yield Row("show", "show f.avro", files, shown)
    yield Row("show reader", "show f.avro --reader r.avsc", files, shown)
    yield Row("check", "check f.avro", files, "data 1 blocks 1\n")
    files = {"f.avro": header('"null"') + block(3, b"")}
    yield Row("show nulls", "show f.avro", files, "null\nnull\nnull\n")
    yield Row("check nulls", "check f.avro", files, "data 3 blocks 1\n")
    yield Row("check json", "check f.avro --json", files, '{"file":"f.avro","data":3,"blocks":1}\n')
    yield Row("show limit", "show f.avro --limit 2", files, "null\nnull\n")
    long = ["a" * 1_500_000, "b", "c" * 1_100_000]
    data = b"".join(text_bytes(text) for text in long)
    lines = "".join(f'"{text}"\n' for text in long)
    yield Row("show long lines", "show f.avro", {"f.avro": header('"string"') + block(3, data)}, lines, is_long=True)
    broken = header('"int"') + block(1, b"\x0a") + number(2) + number(1) + b"\x0a" + SYNC
    text = "avro: f.avro: C10 block 1 datum 1: B1 at 1\n"
    yield Row("check refused", "check f.avro", {"f.avro": broken}, err=text, status=3)
    yield Row("show refused", "show f.avro", {"f.avro": broken}, "5\n", text, 3)
    yield Row("check empty", "check f.avro", {"f.avro": ""}, err="avro: f.avro: C1\n", status=3)
    yield Row("check schema", "check f.avro", {"f.avro": header('"float"')}, err="avro: f.avro: C4: S10\n", status=3)
    key = '{"type":"map","values":"int"}'
    file = header(key) + block(1, bytes.fromhex("0402610202610400"))
    text = "avro: f.avro: C10 block 0 datum 0: B8 at 4\n"
    yield Row("check key twice", "check f.avro", {"f.avro": file}, err=text, status=3)


def copying_rows():
    """Containers that are copied."""
    ints = header('"int"')
    source, made = "i.avro", "o.avro"
    readers = {"r.avsc": '["long","int"]'}
    marked = "copy i.avro o.avro --reader r.avsc --sync 000102030405060708090a0b0c0d0e0f"
    copied = header('["long","int"]') + block(1, b"\0\x0a")
    yield Row("copy reader", marked, {source: ints + block(1, b"\x0a"), **readers}, "data 1 blocks 1\n", written={made: copied},
              behind=(made, source, len(ints)))
    file = header(TEST) + block(1, ROW_DATUM)
    behind = (made, source, len(header(TEST)))
    yield Row("copy", "copy i.avro o.avro", {source: file}, "data 1 blocks 1\n", written={made: file}, behind=behind)
    copied = header(TEST_READER) + block(1, ROW_DATUM[1:] + ROW_DATUM[:1])
    files = {source: file, "r.avsc": TEST_READER}
    yield Row("copy record", "copy i.avro o.avro --reader r.avsc", files, "data 1 blocks 1\n", written={made: copied}, behind=behind)
    broken = ints + block(1, b"\x0a") + number(2) + number(1) + b"\x0a" + SYNC
    text = "avro: i.avro: C10 block 1 datum 1: B1 at 1\n"
    yield Row("copy refused", "copy i.avro o.avro", {source: broken}, "", text, 3, {made: ints + block(1, b"\x0a")}, (made, source, len(ints)))
    file = ints + block(1, b"\x0a")
    text = "avro: i.avro: C11 block 0 datum 0: NoMatch at /\n"
    files = {source: file, "r.avsc": '"string"'}
    yield Row("copy unresolved", "copy i.avro o.avro --reader r.avsc", files, "", text, 3, {made: header('"string"')}, (made, source, len(ints)))
    text = "avro: IN and OUT are one word\n"
    yield Row("copy one word", "copy i.avro i.avro", {source: file}, err=text, status=64)
    text = "avro: IN and OUT are the same file\n"
    yield Row("copy one file", "copy i.avro ./i.avro", {source: file}, err=text, status=64)
    files = {source: file, "r.avsc": '"long"'}
    text = "avro: r.avsc is also an input\n"
    yield Row("copy into reader", "copy i.avro r.avsc --reader r.avsc", files, err=text, status=64)
    yield Row("copy into schema", "copy i.avro r.avsc", files, err="avro: r.avsc is a schema\n", status=64)
    files = {source: file, made: "kept"}
    yield Row("copy into other", "copy i.avro o.avro", files, "data 1 blocks 1\n", written={made: file})
    text = "avro: --sync takes 32 hexadecimal digits\n"
    yield Row("copy sync", "copy i.avro o.avro --sync 00", {source: file}, err=text, status=64, written={made: None})


def piping_rows():
    """Containers that are copied from the standard input to the standard output."""
    ints = header('"int"')
    file = ints + block(1, b"\x0a")
    readers = {"r.avsc": '["long","int"]'}
    copied = header('["long","int"]') + block(1, b"\0\x0a")
    yield Row("pipe", "pipe", {}, file, given=file)
    yield Row("pipe counts", "pipe --counts", {}, file, "data 1 blocks 1\n", given=file)
    yield Row("pipe reader", "pipe --reader r.avsc --sync 000102030405060708090a0b0c0d0e0f", readers, copied, given=file)
    broken = file + number(2) + number(1) + b"\x0a" + SYNC
    text = "avro: -: C10 block 1 datum 1: B1 at 1\n"
    yield Row("pipe refused", "pipe --counts", {}, file, text, 3, given=broken)
    yield Row("pipe cut", "pipe", {}, ints, "avro: -: C16 block 0\n", 3, given=file[:-1])
    yield Row("pipe empty", "pipe", {}, "", "avro: -: C1\n", 3)
    text = "avro: -: C11 block 0 datum 0: NoMatch at /\n"
    yield Row("pipe unresolved", "pipe --reader r.avsc", {"r.avsc": '"string"'}, header('"string"'), text, 3, given=file)
    text = "avro: --sync takes 32 hexadecimal digits\n"
    yield Row("pipe sync", "pipe --sync 00", {}, err=text, status=64, given=file)


def header_rows():
    """Headers that are shown, and the version."""
    entries = text_bytes("avro.schema") + text_bytes('"Foo"') + text_bytes("avro.codec") + text_bytes("deflate")
    files = {"f.avro": b"Obj\x01" + number(2) + entries + b"\0" + SYNC}
    yield Row("header", "header f.avro", files, '"Foo"\n')
    text = '{"avro.codec":"deflate","avro.schema":"\\"Foo\\""}\n'
    yield Row("header metadata", "header f.avro --metadata", files, text)
    entries = text_bytes("avro.codec") + text_bytes("null")
    files = {"f.avro": b"Obj\x01" + number(1) + entries + b"\0" + SYNC}
    yield Row("header no schema", "header f.avro", files, err="avro: f.avro: C3\n", status=3)
    yield Row("header cut", "header f.avro --metadata", {"f.avro": files["f.avro"][:-1]}, err="avro: f.avro: C16\n", status=3)
    yield Row("version", "--version", {}, "avro 1.0.0\n")


def encoded_rows():
    """Data without a container."""
    files = {"w.avsc": TEST, "r.avsc": TEST_READER, "d": b"\0\0\0\0\7" + ROW_DATUM + b"\xff"}
    shown = 'bytes 5\ndatum {"a":27,"b":"foo"}\n'
    yield Row("read", "read w.avsc d --skip 5", files, shown)
    yield Row("read json", "read w.avsc d --skip 5 --json", files, '{"bytes":5,"datum":{"a":27,"b":"foo"}}\n')
    yield Row("read reader", "read w.avsc d --skip 5 --reader r.avsc", files, shown)
    yield Row("read cut", "read w.avsc d", {**files, "d": ROW_DATUM[:-1]}, err="avro: d: B1 at 2\n", status=3)
    unread = {"w.avsc": '"int"', "r.avsc": '"string"', "d": b"\x0a"}
    yield Row("read unresolved", "read w.avsc d --reader r.avsc", unread, err="avro: d: NoMatch at /\n", status=3)
    yield Row("read schema", "read w.avsc d", {**unread, "w.avsc": '"float"'}, err="avro: w.avsc: S10\n", status=3)
    yield Row("read skip", "read w.avsc d --skip 2", unread, err="avro: d: B1 at 0\n", status=3)


def rows():
    """All rows."""
    for some in (schema_rows, judge_rows, option_rows, explain_rows, kept_rows, certificate_rows, reading_rows, copying_rows, piping_rows, header_rows, encoded_rows):
        yield from some()

#!/usr/bin/env python3
"""Runs a program with standard streams that are closed, and looks at which descriptors its files become.

    descriptors.py PROGRAM

Each row is a command, run with each choice of closed streams, by a shell and under `strace`. Its status, what it prints on the streams
that are open, and its files are to be those of the row; where the standard output is closed and would be written, status 4, and
where the standard input is closed and would be read, too, also by the names of these streams. `/` is to be opened three times
for reading first of all and closed last of all, and no file that is opened between may be descriptor 0, 1 or 2. A line a row,
and the last line is 'N runs, K wrong'.
"""

import hashlib
import itertools
import os
import re
import shutil
import subprocess
import sys
import tempfile

from refusal_rows import block, certificate, header

STREAMS = ["<&-", ">&-", "2>&-"]
INTS = header('"int"') + block(1, b"\x0a")
LONGS = header('"long"') + block(1, b"\x0a")
FILES = {"i.avro": INTS, "a.avsc": b'"int"', "b.avsc": b'"long"', "c.txt": certificate((0, 0)).encode()}
MARKER = hashlib.sha256(b'"long"').digest()[:16]
REFUTED = header('"long"', MARKER, True) + block(1, b"\0", MARKER)
COUNTS = b"data 1 blocks 1\n"
NO = b"no\nfault NoMatch at /\nnodes 1\ndatum 0\n"
JSON_NO = b'{"verdict":"no","fault":{"kind":"NoMatch","path":[],"at":"$"},"nodes":1,"datum":0}\n'
HELD = 'openat(AT_FDCWD, "/", O_RDONLY'
NAMES = ["/dev/stdin", "/dev/stdout", "/dev/stderr"]
# Words, status, what is printed on the standard output and error, and the files that are written.
ROWS = [
    ("copy i.avro o.avro", 0, COUNTS, b"", {"o.avro": INTS}),
    ("copy i.avro o.avro --reader b.avsc", 0, COUNTS, b"", {"o.avro": LONGS}),
    ("copy none o.avro", 4, b"", b"avro: none: cannot read\n", {}),
    ("copy i.avro b.avsc", 64, b"", b"avro: b.avsc is a schema\n", {}),
    ("pipe", 0, INTS, b"", {}),
    ("pipe --counts --reader b.avsc", 0, LONGS, COUNTS, {}),
    ("show i.avro --reader b.avsc", 0, b"5\n", b"", {}),
    ("check i.avro", 0, COUNTS, b"", {}),
    ("header i.avro", 0, b'"int"\n', b"", {}),
    ("schema a.avsc", 0, b"ok 1\n", b"", {}),
    ("judge a.avsc b.avsc --certificate o.txt", 0, b"yes\n", b"", {"o.txt": FILES["c.txt"]}),
    ("judge b.avsc a.avsc", 1, NO, b"", {}),
    ("explain a.avsc b.avsc", 0, b"yes\n", b"", {}),
    ("confirm a.avsc b.avsc c.txt", 0, b"confirmed\n", b"", {}),
    ("history a.avsc b.avsc", 0, b"a.avsc yes\n", b"", {}),
    ("--version", 0, b"avro 1.0.0\n", b"", {}),
    ("check /dev/stdin", 0, COUNTS, b"", {}),
    ("copy i.avro /dev/stderr", 0, COUNTS, INTS, {}),
    ("copy i.avro /dev/stdout", 64, b"", b"avro: /dev/stdout is the standard output: use avro pipe\n", {}),
    ("judge a.avsc b.avsc --certificate /dev/stderr", 0, b"yes\n", FILES["c.txt"], {}),
    ("judge b.avsc a.avsc --refutation /dev/stderr --json", 1, JSON_NO, REFUTED, {}),
    ("history a.avsc b.avsc --certificates /dev/stderr", 0, b"a.avsc yes\n", b"history 1\n" + FILES["c.txt"] + b"end\n", {}),
]


def wanted(row, closed):
    """What a row answers where these streams are closed."""
    words, status, out, err, written = row
    named = next((name for at, name in enumerate(NAMES) if at in closed and name in words.split()), None)
    if words.startswith("pipe") and 0 in closed:
        status, out, err = 4, b"", b"avro: -: cannot read\n"
    elif named is not None and (1 not in closed or words.startswith("c")):
        verb = "read" if named == "/dev/stdin" else "write"
        # A verdict is printed before its evidence.
        status, out, err = 4, b"" if words.startswith("c") else out, f"avro: {named}: cannot {verb}\n".encode()
    elif out and 1 in closed:
        # A file that an option asks for is written after the output; a copy is whole before its counts.
        written = written if words.startswith("copy") else {}
        status, err = 4, (err if words.startswith("copy") else b"") + b"avro: output: cannot write\n"
    return status, b"" if 1 in closed else out, b"" if 2 in closed else err, {**FILES, **written}


def contents():
    """The bytes of each file."""
    found = {}
    for name in os.listdir("."):
        with open(name, "rb") as file:
            found[name] = file.read()
    return found


def calls_of(path):
    """The calls of the program itself, after the shell and after the loader has begun it."""
    with open(path, encoding="utf-8", errors="replace") as file:
        lines = file.read().splitlines()
    started = max(at for at, line in enumerate(lines) if line.startswith("execve("))
    lines = lines[started + 1 :]
    first = next((at for at, line in enumerate(lines) if line.startswith(HELD)), len(lines))
    return lines[first:]


def fault_of_calls(calls):
    """What is wrong with the calls, or None."""
    opened = [re.search(r"= (-?\d+)", line)[1] for line in calls[:3] if line.startswith(HELD)]
    if len(opened) != 3 or "-1" in opened:
        return f"/ is not opened first: {calls[:3]}"
    is_held = True
    for line in calls[3:]:
        call = re.match(r"(\w+)\(([^,)]*).*= (-?\d+)", line)
        if call and call[1] == "close" and call[2] in opened:
            is_held = False
        elif call and call[1] != "close" and (call[3] in ("0", "1", "2") or not is_held):
            return line
    return None


def fault_of(row, program, closed, trace):
    """What is wrong with a run, or None."""
    for name, data in FILES.items():
        with open(name, "wb") as file:
            file.write(data)
    for name in set(os.listdir(".")) - set(FILES):
        os.remove(name)
    script = 'exec "$@" ' + " ".join(STREAMS[stream] for stream in closed)
    words = ["strace", "-o", trace, "-e", "trace=execve,open,openat,dup,dup2,dup3,close", "sh", "-c", script, "sh", program, *row[0].split()]
    done = subprocess.run(words, input=INTS, capture_output=True, timeout=60)
    answer = (done.returncode, done.stdout, done.stderr, contents())
    if answer != wanted(row, closed):
        return f"{answer}"
    return fault_of_calls(calls_of(trace))


def main(program):
    program = os.path.abspath(program)
    if shutil.which("strace") is None:
        sys.exit("descriptors.py: strace is not installed")
    count = wrong = 0
    with tempfile.TemporaryDirectory() as folder, tempfile.NamedTemporaryFile() as trace:
        os.chdir(folder)
        for row in ROWS:
            failed = 0
            for closed in itertools.chain.from_iterable(itertools.combinations(range(3), many) for many in range(4)):
                count += 1
                fault = fault_of(row, program, closed, trace.name)
                if fault is not None:
                    failed += 1
                    print(f"{row[0]}, closed {closed}: {fault}")
            wrong += failed
            print(f"{row[0]}: {failed} wrong", flush=True)
        os.chdir("/")
    print(f"{count} runs, {wrong} wrong")
    return 1 if wrong else 0


if __name__ == "__main__":
    if len(sys.argv) != 2:
        sys.exit(__doc__)
    sys.exit(main(sys.argv[1]))

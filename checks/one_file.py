#!/usr/bin/env python3
"""Gives a program one file by several names, also as a standard stream, and lets many runs write into one pipe.

    one_file.py PROGRAM

A container is copied into itself by five names: the same word, a path that begins with './', a hard link, a symbolic link and the name of
a descriptor. The files that a copy goes into, or that options ask for, are a file that is read, by the same names, and another schema. Each
is refused with its line and status 64, and no file changes.

Each file of each command is the standard output too, opened by '>', '>>' and '1<>', or the standard error of a command that writes more than
errors there, or both: each is refused with status 64, and the files hold what the shell left in them. The line goes to the stream that is
not the file. A copy into the pipe that the standard output is, is refused as well. Other words that name a pipe, a terminal or
`/dev/full` are not, and `read` answers from a FIFO that stays open.

Then 2,000 runs of 'judge', four at a time, write into one pipe, verdicts into the output and faults into the error: no line is
torn. A line a group of tries, and the last line is 'N tries, K wrong'.
"""

import os
import pty
import subprocess
import sys
import tempfile
import threading
import tty

from refusal_rows import block, certificate, header, text_bytes

RUNS = 2000
SECONDS = 20
NAMES = ["{}", "./{}", "hard.{}", "soft.{}"]
ONE_WORD = "avro: IN and OUT are one word\n"
ONE_FILE = "avro: IN and OUT are the same file\n"
IN_STDERR = "avro: /dev/stdin is the standard error\n"
OUT_STDERR = "avro: /dev/stdout is the standard error\n"
# How a shell opens a standard stream.
MODES = {">": os.O_WRONLY | os.O_TRUNC, ">>": os.O_WRONLY | os.O_APPEND, "1<>": os.O_RDWR}
# Each file of each command, as {}.
WORDS = [
    ("schema {}", "a.avsc"),
    ("schema {} --why --canonical", "a.avsc"),
    ("judge {} b.avsc", "a.avsc"),
    ("judge b.avsc {} --json", "a.avsc"),
    ("judge a.avsc b.avsc --certificate {}", "o.txt"),
    ("judge b.avsc a.avsc --refutation {}", "o.txt"),
    ("judge none none --certificate none --refutation {}", "o.txt"),
    ("explain {} b.avsc", "a.avsc"),
    ("explain b.avsc {} --json", "a.avsc"),
    ("confirm {} b.avsc c.txt", "a.avsc"),
    ("confirm b.avsc {} c.txt", "a.avsc"),
    ("confirm a.avsc b.avsc {}", "c.txt"),
    ("history {} b.avsc", "a.avsc"),
    ("history none {} b.avsc --mode full", "a.avsc"),
    ("history b.avsc {}", "a.avsc"),
    ("history a.avsc b.avsc --certificates {}", "o.txt"),
    ("history a.avsc b.avsc --confirm {}", "c.txt"),
    ("check {}", "a.avro"),
    ("check none {} --json", "a.avro"),
    ("show {}", "a.avro"),
    ("show {} --reader none --limit 1", "a.avro"),
    ("show a.avro --reader {}", "a.avsc"),
    ("copy {} new", "a.avro"),
    ("copy {} new --reader none", "a.avro"),
    ("copy a.avro {}", "o.txt"),
    ("copy a.avro {} --reader b.avsc", "o.txt"),
    ("copy a.avro new --reader {}", "a.avsc"),
    ("pipe --reader {}", "a.avsc"),
    ("header {}", "a.avro"),
    ("header {} --metadata", "a.avro"),
    ("read {} d", "a.avsc"),
    ("read a.avsc {}", "d"),
    ("read none {} --skip 1", "d"),
    ("read a.avsc d --reader {}", "b.avsc"),
]
# Those of the commands that write more than errors to the standard error.
TOLD = [
    ("check {} --progress", "a.avro"),
    ("check none {} --json --progress", "a.avro"),
    ("copy {} new --progress", "a.avro"),
    ("copy a.avro {} --progress", "o.txt"),
    ("copy a.avro new --progress --reader {}", "a.avsc"),
    ("pipe --counts --reader {}", "a.avsc"),
    ("pipe --progress --reader {}", "a.avsc"),
]


def write_files():
    """Writes the files, and gives them the other names."""
    ints = header('"int"') + b"".join(block(500, b"\x0a" * 500) for _ in range(200))
    fields = ",".join(f'{{"name":"field{number}","type":"int"}}' for number in range(100))
    files = {
        "a.avro": ints,
        "a.avsc": b'"int"',
        "b.avsc": b'"long"',
        "c.avsc": b'"string"',
        "wide.avsc": b'{"type":"record","name":"R","fields":[' + fields.encode() + b"]}",
        "c.txt": certificate((0, 0)).encode(),
        "d": b"\x0a" * 64,
        "o.txt": b"kept" * 64,
    }
    for file, data in files.items():
        with open(file, "wb") as out:
            out.write(data)
        os.link(file, f"hard.{file}")
        os.symlink(file, f"soft.{file}")
    return files


def names_of(file):
    """The names of a file; the last one is that of a descriptor, which programs that are started get too."""
    descriptor = os.open(file, os.O_RDONLY)
    os.set_inheritable(descriptor, True)
    return [*(name.format(file) for name in NAMES), f"/dev/fd/{descriptor}"]


def is_kept(files):
    """Whether the files hold what they held, and no other one was made."""
    for file, data in files.items():
        with open(file, "rb") as there:
            if there.read() != data:
                return False
    return not os.path.exists("new") and not os.path.exists("none")


def tries():
    """Words, and the line that they are to be refused with."""
    for other in names_of("a.avro"):
        yield ["copy", "a.avro", other], ONE_WORD if other == "a.avro" else ONE_FILE
    for out in names_of("a.avsc"):
        is_read = f"avro: {out} is also an input\n"
        yield ["judge", "a.avsc", "b.avsc", "--certificate", out], is_read
        yield ["judge", "b.avsc", "a.avsc", "--refutation", out], is_read
        yield ["history", "b.avsc", "a.avsc", "--certificates", out], is_read
        yield ["history", "a.avsc", "b.avsc", "--certificates", out], is_read
        yield ["copy", "a.avro", out, "--reader", "a.avsc"], is_read
        is_schema = f"avro: {out} is a schema\n"
        yield ["history", "--certificates", out, "b.avsc", "c.avsc"], is_schema
        yield ["judge", "b.avsc", "c.avsc", "--certificate", out], is_schema
        yield ["judge", "b.avsc", "c.avsc", "--refutation", out], is_schema
        yield ["copy", "a.avro", out, "--reader", "b.avsc"], is_schema
        yield ["copy", "a.avro", out], is_schema
    for name in ("/dev/stdout", "/dev/fd/1", "/proc/self/fd/1"):
        is_pipe = f"avro: {name} is the standard output: use avro pipe\n"
        yield ["copy", "a.avro", name], is_pipe
        yield ["copy", "a.avro", name, "--reader", "none", "--progress"], is_pipe


def stream_tries():
    """Words, the file that is standard streams, these, and what the output and the error are to get."""
    for stream, rows in (("output", WORDS), ("error", TOLD)):
        number = 1 if stream == "output" else 2
        for at, (words, file) in enumerate(rows):
            # Each by its word and two other names in turn.
            names = [*names_of(file)[1:], f"/dev/std{stream[:3]}", f"/proc/self/fd/{number}"]
            for name in (file, names[at % 6], names[(at + 3) % 6]):
                said = f"avro: {name} is the standard {stream}\n"
                named = words.format(name).split()
                yield named, file, {number}, "" if number == 1 else said, said if number == 1 else ""
                yield named, file, {1, 2}, "", ""
    for words in ("pipe", "pipe --counts --reader none", "pipe --progress"):
        yield words.split(), "a.avro", {1}, "", ONE_FILE
        yield words.split(), "a.avro", {1, 2}, "", ""
    for words in ("pipe --counts --reader none", "pipe --progress"):
        yield words.split(), "a.avro", {2}, IN_STDERR, ""


def run(program, words, stdout=subprocess.PIPE, stderr=subprocess.PIPE):
    """The status of a run over a container, and what it wrote into pipes."""
    with open("a.avro", "rb") as given:
        done = subprocess.run([program, *words], stdin=given, stdout=stdout, stderr=stderr, timeout=SECONDS, close_fds=False)
    return done.returncode, (done.stdout or b"").decode("latin-1"), (done.stderr or b"").decode("latin-1")


def run_into(program, words, file, mode, streams):
    """A run some of whose standard streams are a file that is opened once."""
    out = os.open(file, MODES[mode])
    ends = {name: out for number, name in ((1, "stdout"), (2, "stderr")) if number in streams}
    done = run(program, words, **ends)
    os.close(out)
    return done


def count_wrong(name, checked):
    """How many tries there were, and how many of them were wrong: each has what it is, and its fault or None."""
    count = wrong = 0
    for what, fault in checked:
        count += 1
        if fault is not None:
            wrong += 1
            print(f"{what}: {fault}")
    print(f"{name}: {count} tries, {wrong} wrong", flush=True)
    return count, wrong


def fault_of(done, wanted, files):
    """What is wrong with a run, or None."""
    if done != wanted:
        return f"status {done[0]}, {done[1][:60]!r}, {done[2][:80]!r}"
    return None if is_kept(files) else "a file changed"


def refused(program, files):
    """The tries of files alone."""
    for words, line in tries():
        yield " ".join(words), fault_of(run(program, words), (64, "", line), files)


def streamed(program, files):
    """The tries of files that are standard streams."""
    for words, file, streams, out, err in stream_tries():
        for mode in MODES:
            left = {**files, file: b""} if mode == ">" else files
            done = run_into(program, words, file, mode, streams)
            yield f"{' '.join(words)} {mode} {file} {streams}", fault_of(done, (64, out, err), left)
            if mode == ">":
                restore(file, files[file])
    for words in ("pipe --counts", "pipe --progress --reader none"):
        # The errors of both streams are asked for there.
        for mode, front in ((">", b""), (">>", files["o.txt"])):
            done = run_into(program, words.split(), "o.txt", mode, {1, 2})
            yield f"{words} {mode} o.txt 2>&1", fault_of(done, (64, "", ""), {**files, "o.txt": front + OUT_STDERR.encode()})
            restore("o.txt", files["o.txt"])


def restore(file, data):
    """Gives a file the bytes that it had."""
    with open(file, "wb") as out:
        out.write(data)


def terminal(program, words):
    """The status of a run whose output and error are a terminal, and what that shows."""
    own, end = pty.openpty()
    tty.setraw(end)
    shown = []
    reader = threading.Thread(target=lambda: shown.extend(chunks(own)))
    reader.start()
    status, _, _ = run(program, words, stdout=end, stderr=end)
    os.close(end)
    reader.join()
    os.close(own)
    return status, b"".join(shown).decode("latin-1"), ""


def chunks(descriptor):
    """What is read from a terminal until it is closed."""
    while True:
        try:
            chunk = os.read(descriptor, 65_536)
        except OSError:
            return
        if not chunk:
            return
        yield chunk


def taken(program, files):
    """Streams that are no regular files."""
    counts = "data 100000 blocks 200\n"
    whole, plain = (files[file].decode("latin-1") for file in ("a.avro", "c.txt"))
    judge = "judge a.avsc b.avsc --certificate /dev/stdout".split()
    yield "certificate into a pipe", fault_of(run(program, judge), (0, "yes\n" + plain, ""), files)
    yield "certificate into a terminal", fault_of(terminal(program, judge), (0, "yes\n" + plain, ""), files)
    for words, wanted in (("copy a.avro /dev/stdout", whole + counts), ("check /dev/stdin", counts), ("pipe --counts", whole + counts)):
        yield f"{words}, a terminal", fault_of(terminal(program, words.split()), (0, wanted, ""), files)
    full = os.open("/dev/full", os.O_RDWR)
    for words, wanted in (
        ("copy a.avro /dev/full", (4, "", "avro: /dev/full: cannot write\n")),
        ("show a.avro", (4, "", "avro: output: cannot write\n")),
        ("judge a.avsc b.avsc --certificate o.txt", (4, "", "avro: output: cannot write\n")),
        ("pipe", (4, "", "avro: output: cannot write\n")),
    ):
        yield f"{words} > /dev/full", fault_of(run(program, words.split(), stdout=full), wanted, files)
    for words, wanted in (("check a.avro --progress", counts), ("pipe --counts --progress", whole)):
        yield f"{words} 2> /dev/full", fault_of(run(program, words.split(), stderr=full), (0, wanted, ""), files)
    os.close(full)
    with open("o.txt", "ab") as log:
        yield "check 2>> o.txt", fault_of(run(program, ["check", "a.avro"], stderr=log), (0, counts, ""), files)
        yield "check 2>> a.avro", fault_of(run(program, ["check", "a.avro"], stderr=os.open("a.avro", MODES[">>"])), (0, counts, ""), files)


def fifo_run(program, words, data):
    """A run over a FIFO that stays open, into which bytes are written."""
    there = os.open("fifo", os.O_RDWR)
    writer = threading.Thread(target=os.write, args=(there, data))
    writer.start()
    try:
        return run(program, words)
    except subprocess.TimeoutExpired:
        return "no answer", "", ""
    finally:
        while writer.is_alive():
            os.read(there, 65_536)
        os.close(there)


def open_fifos(program, files):
    """Data in a FIFO that stays open, and the FIFO as an output."""
    os.mkfifo("fifo")
    restore("text.avsc", b'"string"')
    for length in (0, 1, 4_000, 65_530, 66_000, 70_000, 131_072):
        data = text_bytes("a" * length)
        wanted = (0, f'bytes {len(data)}\ndatum "{"a" * length}"\n', "")
        yield f"text of {length}", fault_of(fifo_run(program, ["read", "text.avsc", "fifo"], data), wanted, files)
    for words, data, wanted in (
        ("read a.avsc fifo", b"\x0a", (0, "bytes 1\ndatum 5\n", "")),
        ("read a.avsc fifo --skip 5", b"\0\0\0\0\7\x0a\xff", (0, "bytes 1\ndatum 5\n", "")),
        ("read a.avsc fifo", b"\xff" * 10, (3, "", "avro: fifo: B2 at 0\n")),
    ):
        yield words, fault_of(fifo_run(program, words.split(), data), wanted, files)
    there = os.open("fifo", os.O_RDWR)
    done = run(program, ["copy", "a.avro", "fifo"], stdout=there)
    os.close(there)
    yield "copy a.avro fifo > fifo", fault_of(done, (64, "", "avro: fifo is the standard output: use avro pipe\n"), files)


def is_whole(program, words):
    """Whether many runs into one pipe write what one run writes, that many times."""
    one = subprocess.run([program, *words], stdout=subprocess.PIPE, stderr=subprocess.STDOUT)
    lines = "".join(f"{number}\n" for number in range(RUNS)).encode()
    many = subprocess.run(["xargs", "-P4", "-I{}", program, *words], input=lines, stdout=subprocess.PIPE, stderr=subprocess.STDOUT)
    return len(one.stdout) > 0 and many.stdout == one.stdout * RUNS


def torn(program):
    """Sorts of runs of which many write into one pipe."""
    for words in (["judge", "b.avsc", "a.avsc"], ["judge", "wide.avsc", "a.avsc"], ["judge", "none.avsc", "a.avsc"], ["judge", "a.avsc"]):
        yield f"{RUNS} times {' '.join(words)}", None if is_whole(program, words) else "torn"


def main(program):
    program = os.path.abspath(program)
    with tempfile.TemporaryDirectory() as folder:
        os.chdir(folder)
        files = write_files()
        groups = [("one file", refused), ("standard streams", streamed), ("no regular files", taken), ("open FIFOs", open_fifos)]
        counts = [count_wrong(name, group(program, files)) for name, group in groups]
        counts.append(count_wrong("one pipe", torn(program)))
        os.chdir("/")
    wrong = sum(wrong for _, wrong in counts)
    print(f"{sum(count for count, _ in counts)} tries, {wrong} wrong")
    return 1 if wrong else 0


if __name__ == "__main__":
    if len(sys.argv) != 2:
        sys.exit(__doc__)
    sys.exit(main(sys.argv[1]))

#!/usr/bin/env python3
"""Copies many files, or the parts of one long file, by the workers of a Dask cluster:

    dask_fleet.py SCHEDULER copies
    dask_fleet.py SCHEDULER parts PLAN FOLDER

`copies` takes each name of the file `list` that is missing in the folder `out`: in/NAME becomes out/NAME, for the schema
new.avsc. A worker adds the counts and the name of each copy to a file of its own in the folder `said`. `parts` takes each
part of a plan of split.py that is missing in FOLDER. The workers see the folder that this is started in, and this
script's, under the same paths.

Each try has a name of its own until it is whole, and one that is lost with its worker goes to another worker. So a worker or
this script may be killed, and the same line goes on. Each failure is told on standard error. AVRO names the program, else
avro.

Exit status: 0 where nothing is missing any more, else the highest of the jobs' statuses, where 4 stands for a job that was
killed; 4 also where the scheduler is not there or `list` or PLAN cannot be read; 64 usage.
"""

from __future__ import annotations

import errno
import json
import os
import shutil
import socket
import subprocess
import sys
import uuid
from pathlib import Path

from distributed import Client, Future, as_completed

SPLIT = Path(__file__).resolve().with_name("split.py")
Done = tuple[int, bytes, bytes]


def run(words: list, folder: str, program: str) -> Done:
    """Runs a program in a folder: its status, and what it printed."""
    done = subprocess.run(words, cwd=folder, env={**os.environ, "AVRO": program}, capture_output=True)
    if done.returncode < 0:
        return 4, b"", done.stderr + b"killed by signal %d\n" % -done.returncode
    return done.returncode, done.stdout, done.stderr


def note(folder: str, line: bytes) -> None:
    """Adds a line to this worker's own file."""
    path = os.path.join(folder, "said", f"{socket.gethostname()}.{os.getpid()}")
    with open(path, "ab", buffering=0) as file:
        if file.write(line) != len(line):
            raise OSError(errno.ENOSPC, os.strerror(errno.ENOSPC), path)


def copy(program: str, folder: str, name: bytes) -> Done:
    """Copies a file, which gets its name once it is whole and its counts are noted."""
    part = b"out/%s.part.%s" % (name, uuid.uuid4().hex.encode())
    done = run([program, "copy", b"in/" + name, part, "--reader", "new.avsc"], folder, program)
    if done[0] == 0:
        note(folder, done[1].rstrip(b"\n") + b" " + name + b"\n")
        root = os.fsencode(folder)
        os.rename(os.path.join(root, part), os.path.join(root, b"out", name))
    return done


def missing_names() -> list[bytes]:
    names = dict.fromkeys(Path("list").read_bytes().removesuffix(b"\n").split(b"\n"))
    return [name for name in names if not os.path.isfile(b"out/" + name)]


def missing_parts(plan: str, folder: str) -> list[int]:
    parts = len(json.loads(Path(plan).read_bytes())["cuts"]) - 1
    return [at for at in range(parts) if not Path(folder, f"{at}.json").exists()]


def submit(client: Client, program: str, words: list[str]) -> dict[Future, bytes]:
    """Starts a job for each that is missing."""
    here = os.getcwd()
    if words == ["copies"]:
        return {client.submit(copy, program, here, name, pure=False): name for name in missing_names()}
    _, plan, folder = words
    return {
        client.submit(run, [str(SPLIT), "part", plan, str(at), folder], here, program, pure=False): b"part %d" % at
        for at in missing_parts(plan, folder)
    }


def result_of(future: Future) -> Done:
    """What came of a job; the cluster's own failure is one, too."""
    if future.status == "finished":
        return future.result()
    why = repr(future.exception()) if future.status == "error" else future.status
    return 4, b"", f"dask: {why}\n".encode("utf-8", "backslashreplace")


def tell(job: bytes, done: Done) -> None:
    """Says what failed, where there is room for it."""
    try:
        sys.stderr.buffer.write(job + b": " + (done[2] or b"status %d\n" % done[0]))
        sys.stderr.flush()
    except OSError:
        pass


def main(words: list[str]) -> int:
    if words[1:] != ["copies"] and (len(words) != 4 or words[1] != "parts"):
        print(__doc__, file=sys.stderr)
        return 64
    program = shutil.which(os.environ.get("AVRO", "avro"))
    if program is None:
        print("dask_fleet: no such program", file=sys.stderr)
        return 64
    worst = 0
    with Client(words[0]) as client:
        jobs = submit(client, os.path.abspath(program), words[1:])
        for future in as_completed(jobs):
            done = result_of(future)
            if done[0] != 0:
                tell(jobs[future], done)
            worst = max(worst, done[0])
    return worst


if __name__ == "__main__":
    try:
        sys.exit(main(sys.argv[1:]))
    except (OSError, ValueError, KeyError) as fault:
        print(f"dask_fleet: {fault}", file=sys.stderr)
        sys.exit(4)

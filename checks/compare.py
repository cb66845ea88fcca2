#!/usr/bin/env python3
"""Compares what two programs answer to the same random inputs.

    compare.py OLD NEW [--files N] [--texts N] [--kind KIND..] [--seed N] [--jobs N] [--minutes N] [--keep FOLDER]
    compare.py OLD NEW --case KIND NUMBER --keep FOLDER [--seed N]

Both programs run the same commands on the same files, N container files and N texts and pairs of schemas. A command differs where its status,
its output, its errors or the files that it writes differ. A line for each kind and command says how many runs there were, how many
differed, how many were not compared since one of the two took over 60 seconds, and how often each status came. The first differences
follow, and `--keep` puts their files into a folder, with the commands. The same seed makes the same inputs. After `--minutes` the batches
that are left are not begun. `--case` makes the files of one case in the folder that `--keep` names, and compares them alone.
"""

import argparse
import collections
import contextlib
import math
import multiprocessing
import os
import random
import resource
import shlex
import signal
import subprocess
import sys
import tempfile
import time

sys.path.insert(0, os.path.join(os.path.dirname(os.path.abspath(__file__)), "..", "bench", "gen"))

import random_files
import random_texts

SECONDS = 60
# How a run is ended that took longer.
LATE = (-signal.SIGXCPU, -signal.SIGKILL)
BATCH = 20
SHOWN = 20
WRITTEN = ("out.avro", "out.cert")
KINDS = {**{kind: random_files for kind in random_files.KINDS}, **{kind: random_texts for kind in random_texts.KINDS}}


def choose_of(seed, kind, index):
    """What the parts of a case are chosen by."""
    return random.Random(f"{seed} {kind} {index}")


def run(program, words):
    """What a program answers to words in the folder: its status, output, errors and files; None where it took too long."""
    child = subprocess.Popen([program, *words], stdin=subprocess.DEVNULL, stdout=subprocess.PIPE, stderr=subprocess.PIPE, close_fds=False)
    with contextlib.suppress(ProcessLookupError):
        resource.prlimit(child.pid, resource.RLIMIT_CPU, (SECONDS, SECONDS))
    out, errors = child.communicate()
    files = take(WRITTEN)
    return None if child.returncode in LATE else (child.returncode, out, errors, files)


def take(names):
    """Reads files and removes them."""
    found = {}
    for name in names:
        try:
            with open(name, "rb") as file:
                found[name] = file.read()
            os.remove(name)
        except FileNotFoundError:
            pass
    return found


def write(files):
    for name, data in files.items():
        with open(name, "wb") as file:
            file.write(data)


def difference(old, new):
    """What differs between two answers, or None."""
    for what, one, other in zip(("status", "output", "errors"), old, new):
        if one != other:
            return f"{what} {short(one)} and {short(other)}"
    for name in WRITTEN:
        if old[3].get(name) != new[3].get(name):
            return f"{name} {short(old[3].get(name))} and {short(new[3].get(name))}"
    return None


def short(answer):
    """An answer in a few words."""
    if isinstance(answer, bytes) and len(answer) > 160:
        return f"{answer[:120]!r}.. of {len(answer)} bytes"
    return repr(answer)


def compare_case(programs, kind, choose):
    """Runs the commands of a case: for each its name, its words, the old program's status and what differs."""
    files, commands = KINDS[kind].case(choose, kind)
    write(files)
    made, commands = set(files), list(commands)
    # What is asked of a certificate is added once it was made.
    for name, words in commands:
        old, new = (run(program, words) for program in programs)
        if old is None or new is None:
            yield name, words, "time", None
            continue
        yield name, words, old[0], difference(old, new)
        if name == random_texts.CERTIFIED and "out.cert" in old[3]:
            files, more = random_texts.certified(choose, old[3]["out.cert"])
            write(files)
            made |= set(files)
            commands += more
    take(made)


def compare_batch(job):
    """Compares some cases: how many runs there were by command, status and whether they differ, and the differences."""
    programs, seed, kind, cases = job
    counts, found = collections.Counter(), []
    with tempfile.TemporaryDirectory() as folder:
        os.chdir(folder)
        for index in cases:
            for name, words, status, what in compare_case(programs, kind, choose_of(seed, kind, index)):
                counts[name, status, what is not None] += 1
                if what is not None:
                    found.append((kind, index, name, words, what))
        os.chdir("/")
    return kind, counts, found


def numbers(kinds, total):
    """How many cases of each kind there are."""
    sum_ = sum(often for _, often in kinds.values())
    return {kind: math.ceil(total * often / sum_) for kind, (_, often) in kinds.items()}


def jobs_of(options, programs):
    """The batches, in an order that mixes the kinds."""
    counts = {**numbers(random_files.KINDS, options.files), **numbers(random_texts.KINDS, options.texts)}
    jobs = []
    for kind, count in counts.items():
        if not options.kind or kind in options.kind:
            for start in range(0, count, BATCH):
                jobs.append((programs, options.seed, kind, range(start, min(start + BATCH, count))))
    random.Random(options.seed).shuffle(jobs)
    return jobs


def keep(folder, seed, kind, index, commands):
    """Puts the files of a case into a folder, with the commands that differed."""
    place = os.path.join(folder, f"{kind.replace(': ', '_').replace(' ', '_')}_{seed}_{index}")
    os.makedirs(place, exist_ok=True)
    files, _ = KINDS[kind].case(choose_of(seed, kind, index), kind)
    for name, data in files.items():
        with open(os.path.join(place, name), "wb") as file:
            file.write(data)
    with open(os.path.join(place, "commands"), "a", encoding="utf-8") as file:
        for words, what in commands:
            file.write(f"{shlex.join(words)}\n    {what}\n")


def print_counts(counts):
    """A line for each kind and command."""
    for (kind, name), found in sorted(counts.items()):
        statuses, differ = collections.Counter(), 0
        for (status, is_other), count in found.items():
            statuses[status] += count
            differ += count if is_other else 0
        late = statuses.pop("time", 0)
        told = ", ".join(f"{status}: {count}" for status, count in sorted(statuses.items()))
        print(f"{kind}, {name}: {sum(statuses.values()) + late} runs, {differ} differ, {late} not compared; status {told}")


def compare(options, programs):
    """Compares all cases, and answers how many runs differed."""
    counts, found = collections.defaultdict(collections.Counter), []
    jobs, began, done = jobs_of(options, programs), time.monotonic(), 0
    with multiprocessing.Pool(options.jobs) as pool:
        for kind, batch, differences in pool.imap_unordered(compare_batch, jobs):
            done += 1
            for (name, status, is_other), count in batch.items():
                counts[kind, name][status, is_other] += count
            found += differences
            for _, index, name, words, what in differences:
                print(f"{kind} {index}, {shlex.join(words)}: {what}", file=sys.stderr, flush=True)
                if options.keep:
                    keep(options.keep, options.seed, kind, index, [(words, what)])
            if options.minutes and time.monotonic() - began > 60 * options.minutes:
                print(f"stopped after {done} of {len(jobs)} batches")
                break
    print_counts(counts)
    runs = sum(sum(it.values()) for it in counts.values())
    found.sort(key=lambda it: it[:2])
    print(f"{runs} runs of each program, {len(found)} differ")
    for kind, index, name, words, what in found[:SHOWN]:
        print(f"{kind} {index}, {shlex.join(words)}: {what}")
    return len(found)


def compare_one(options, programs):
    """Compares one case, whose files stay in a folder."""
    kind, index = options.case[0], int(options.case[1])
    os.makedirs(options.keep, exist_ok=True)
    os.chdir(options.keep)
    choose = choose_of(options.seed, kind, index)
    differ = 0
    for name, words, status, what in compare_case(programs, kind, choose):
        print(f"{name}: status {status}, {what or 'the same'}")
        differ += what is not None
    write(KINDS[kind].case(choose_of(options.seed, kind, index), kind)[0])
    return differ


def main():
    words = argparse.ArgumentParser(description=__doc__, formatter_class=argparse.RawDescriptionHelpFormatter)
    words.add_argument("programs", nargs=2)
    words.add_argument("--files", type=int, default=5_200)
    words.add_argument("--texts", type=int, default=6_400)
    words.add_argument("--kind", nargs="+", choices=list(KINDS))
    words.add_argument("--seed", type=int, default=1)
    words.add_argument("--jobs", type=int, default=2)
    words.add_argument("--minutes", type=float)
    words.add_argument("--keep")
    words.add_argument("--case", nargs=2)
    options = words.parse_args()
    programs = [os.path.abspath(it) for it in options.programs]
    if options.case and not options.keep:
        words.error("--case needs --keep")
    if options.keep:
        options.keep = os.path.abspath(options.keep)
    does = compare_one if options.case else compare
    sys.exit(1 if does(options, programs) else 0)


if __name__ == "__main__":
    main()

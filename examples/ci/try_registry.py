#!/usr/bin/env python3
"""Tries registry-check.sh on small servers: one with a registry's paths, and one that means harm.

    try_registry.py [PROGRAM]

PROGRAM is $AVRO where it is not given, and else avro on the PATH. Then the script is spoiled in several ways, and each
must be found. The last line says how much was tried; the status is 0 where all went as it must.
"""

from __future__ import annotations

import http.server
import json
import os
import re
import shutil
import subprocess
import sys
import tempfile
import threading
import time
from concurrent.futures import ThreadPoolExecutor
from pathlib import Path

HERE = Path(__file__).resolve().parent
ORDERS = [str(HERE.parent / f"order-{number}.avsc") for number in (1, 2, 3)]
MONEY = '{"type":"record","name":"com.acme.Money","fields":[{"name":"amount","type":"Currency"}]}'
CURRENCY = '{"type":"enum","name":"com.acme.Currency","symbols":["EUR"]}'
ORDER = '{"type":"record","name":"com.acme.Order","fields":[{"name":"total","type":"Money"}]}'
WHOLE = ORDER.replace('"Money"', MONEY.replace('"Currency"', CURRENCY))
FLOAT, DOUBLE = '"float"', '"double"'
WIDE = json.dumps({"type": "record", "name": "R", "fields": [{"name": f"f{at}", "type": "int"} for at in range(150)]})
NARROW = WIDE.replace('"int"', '"string"')


def own(text: str, *references: tuple[str, int]) -> dict:
    """A version, with the subjects and versions that it refers to."""
    return {"schema": text, "references": [{"name": "x", "subject": name, "version": at} for name, at in references]}


def read(path: str) -> str:
    return Path(path).read_text(encoding="utf-8")


# The versions of each subject: some numbers are missing in a registry, and one has more digits than another.
SUBJECTS = {
    "orders-value": {2: own(read(ORDERS[0])), 10: own(read(ORDERS[1]))},
    "a%2Fb": {1: own(read(ORDERS[1]))},
    "lost": {1: own(read(ORDERS[0])), 2: None},
    "order": {1: own(ORDER, ("money", 1))},
    "money": {1: own(MONEY, ("currency", 3))},
    "currency": {3: own(CURRENCY)},
    "ring": {1: own(ORDER, ("ring", 1))},
    "floats": {1: own(FLOAT)},
    "wide": {1: own(WIDE)},
    "json": {1: {"schema": "{}", "schemaType": "JSON"}},
    "other": {1: {"id": 7}},
}
# What a server that means harm answers for a subject's versions: a status and a beginning, which some repeat without end.
HARM = {
    "page": (200, b"<p>10 errors</p>"),
    "none": (200, b"[]"),
    "words": (200, b'["1"]'),
    "truth": (200, b"[true]"),
    "deep": (200, b"[" * 100_000),
    "moved": (302, b"[1]"),
    "empty": (204, b""),
    "unknown": (404, b'{"error_code":40402}'),
    "endless": (200, b"[1"),
}
PLANTED = [
    ('if status == 404 and isinstance(answer, dict) and answer.get("error_code") == NO_SUBJECT:', "if status == 404:"),
    ("        if status != 200:\n            raise Stop(4, f\"{subject}: the registry answers", "        if status > 499:\n            raise Stop(4, f\"{subject}: the registry answers"),
    (" or not answer or", " or"),
    ("type(number) is int", "isinstance(number, int)"),
    ("run.stdout.read(MOST_BYTES + 4)", "run.stdout.read()"),
    ("if len(said) > MOST_BYTES + 3:\n            raise", "if False:\n            raise"),
    ("others[at + 1] = os.path.abspath(others[at + 1])", "pass"),
    ("left += references_of(other)", "pass"),
    ("if key not in texts:", "if True:"),
    ('"new", *self.options.others)', '"new")'),
    ("itertools.islice(lines, MOST_FAULTS)", "lines"),
    ('if "@" in urlsplit(url).netloc:', "if False:"),
    ("        program.check_new()\n", ""),
    ('if answer.get("schemaType", "AVRO") != "AVRO":', "if False:"),
]


class Server(http.server.BaseHTTPRequestHandler):
    def do_GET(self) -> None:
        steps = self.path.split("/")[1:]
        if self.headers.get("Authorization") is None and steps[1:2] == ["secret"]:
            return self.answer(401, b"{}")
        subject = "orders-value" if steps[1:2] == ["secret"] else steps[1]
        if subject in HARM:
            return self.harm(subject)
        versions = SUBJECTS.get(subject)
        if versions is None:
            return self.answer(404, b'{"error_code":40401}')
        if steps[3:] == []:
            return self.answer(200, json.dumps([*versions]).encode())
        version = versions.get(int(steps[3]))
        return self.answer(200, json.dumps(version).encode()) if version else self.answer(404, b'{"error_code":40402}')

    def harm(self, subject: str) -> None:
        status, body = HARM[subject]
        self.answer(status, body, "/subjects/orders-value/versions")
        try:
            for at in range(3_000 if subject == "endless" else 0):
                # Past the bound it goes on slowly.
                time.sleep(0.2 if at > 1_500 else 0)
                self.wfile.write(b",1" * 4_096)
        except OSError:
            pass

    def answer(self, status: int, body: bytes, place: str = "/") -> None:
        self.send_response(status)
        if status == 302:
            self.send_header("Location", place)
        self.end_headers()
        if status != 204:
            self.wfile.write(body)

    def log_message(self, *words: object) -> None:
        pass


def rows(url: str) -> list[tuple[list[str], int, str]]:
    """Words, and the status and the whole output that they must have."""
    usage = (HERE / "registry_check.py").read_text(encoding="utf-8").split('"""')[1].rstrip("\n") + "\n"
    missing = "    $.lines[].price: MissingField: "
    return [
        ([url, "orders-value", ORDERS[2]], 1, f"v2 no\n{missing}*v10 no\n{missing}*"),
        ([url + "/", "orders-value", ORDERS[1]], 0, "v2 yes\nv10 yes\n"),
        ([url, "orders-value", ORDERS[0]], 1, "v2 yes\nv10 no\n    *"),
        ([url, "orders-value", ORDERS[1], "--mode", "full", "--next"], 1, "v2 backward yes\nv2 forward no\nv10 backward yes\nv10 forward yes\n"),
        ([url, "orders-value", ORDERS[1], "--json"], 0, '{"file":"v2","verdict":"yes"}\n{"file":"v10","verdict":"yes"}\n'),
        ([url, "a%2Fb", ORDERS[1]], 0, "v1 yes\n"),
        ([url, "orders-value", "/dev/null"], 3, "avro: /dev/null: S1\n"),
        ([url, "nothing", "/dev/null"], 3, "avro: /dev/null: S1\n"),
        ([url, "nothing", ORDERS[1]], 0, "no version yet\n"),
        ([url, "lost", ORDERS[1]], 4, "registry-check: lost: v2: the registry answers 404\n"),
        ([url, "page", ORDERS[1]], 4, "registry-check: page: the answer is no list of versions\n"),
        ([url, "none", ORDERS[1]], 4, "registry-check: none: the answer is no list of versions\n"),
        ([url, "words", ORDERS[1]], 4, "registry-check: words: the answer is no list of versions\n"),
        ([url, "truth", ORDERS[1]], 4, "registry-check: truth: the answer is no list of versions\n"),
        ([url, "deep", ORDERS[1]], 4, "registry-check: deep: the answer is no list of versions\n"),
        ([url, "moved", ORDERS[1]], 4, "registry-check: moved: the registry answers 302\n"),
        ([url, "empty", ORDERS[1]], 4, "registry-check: empty: the registry answers 204\n"),
        ([url, "unknown", ORDERS[1]], 4, "registry-check: unknown: the registry answers 404\n"),
        ([url, "endless", ORDERS[1]], 4, "registry-check: endless: an answer of more than 8388608 bytes\n"),
        ([url, "json", ORDERS[1]], 4, "registry-check: json: v1: is no schema of Avro\n"),
        ([url, "other", ORDERS[1]], 4, "registry-check: other: v1: the answer has no schema\n"),
        ([url, "order", "whole.avsc"], 0, "v1 yes\n"),
        ([url, "ring", "whole.avsc"], 3, "registry-check: ring: v1: /fields/0/type: no type com.acme.Money\n"),
        ([url, "floats", "double.avsc", "--tame"], 0, "v1 yes\n"),
        ([url, "floats", "long.avsc", "--tame"], 1, "v1 no\n    $: NoMatch: float cannot be read as long *"),
        ([url, "floats", "double.avsc"], 3, "avro: double.avsc: S10\n"),
        ([url, "floats", "double.avsc", "--tame", "--certificates", "out"], 64, "registry-check: --certificates and --tame: a certificate would be of other schemas\n"),
        ([url, "wide", "narrow.avsc"], 1, "v1 no\n    *    and 50 more\n"),
        ([url.replace("//", "//user:password@"), "orders-value", ORDERS[1]], 64, "registry-check: a user and a password belong in ~/.netrc, where no other user of this machine sees them\n"),
        ([url, "secret", ORDERS[1]], 0, "v2 yes\nv10 yes\n"),
        ([url, 'a"b', ORDERS[1]], 64, "registry-check: URL and SUBJECT are as they stand in a URL\n"),
        (["http://127.0.0.1:1", "orders-value", ORDERS[1]], 4, "registry-check: orders-value: curl: (7) *"),
        (["file:///etc", "orders-value", ORDERS[1]], 4, "registry-check: orders-value: curl: (1) *"),
        ([url, "orders-value", "nowhere.avsc"], 4, "registry-check: nowhere.avsc: cannot read\n"),
        ([url, "orders-value"], 64, usage),
    ]


def is_like(said: str, wanted: str) -> bool:
    """Whether an output is the wanted one, in which a `*` stands for anything."""
    return re.fullmatch(".*".join(map(re.escape, wanted.split("*"))), said, re.DOTALL) is not None


def wrong(script: Path, program: str, url: str, folder: Path) -> list[str]:
    """What is not as it must be."""
    found = []
    environment = {**os.environ, "AVRO": program, "no_proxy": "*", "NETRC": str(folder / "netrc"), "PYTHONDONTWRITEBYTECODE": "1"}
    for words, status, said in rows(url):
        done = subprocess.run(["timeout", "60", "bash", script, *words], cwd=folder, env=environment, capture_output=True, text=True)
        if done.returncode != status or not is_like(done.stdout + done.stderr, said):
            found.append(f"{words}: status {done.returncode}, {done.stdout + done.stderr!r}")
    certificates = folder / "yes.certs"
    certificates.unlink(missing_ok=True)
    subprocess.run(["bash", script, url, "orders-value", ORDERS[1], "--certificates", certificates.name], cwd=folder, env=environment, capture_output=True)
    if not certificates.exists() or not certificates.read_bytes().startswith(b"history 1\n"):
        found.append("--certificates: nothing is where one stands")
    return found


def lay(folder: Path, port: int) -> None:
    texts = {"whole.avsc": WHOLE, "double.avsc": DOUBLE, "long.avsc": '"long"', "narrow.avsc": NARROW}
    texts["netrc"] = "machine 127.0.0.1 login user password password\n"
    for name, text in texts.items():
        (folder / name).write_text(text, encoding="utf-8")


def is_found(at: int, program: str, url: str, port: int, folder: Path) -> bool:
    """Whether a planted mistake makes a row wrong."""
    old, new = PLANTED[at]
    for part in ("adapt", "ci"):
        shutil.copytree(HERE.parent / part, folder / "examples" / part, ignore=shutil.ignore_patterns("__pycache__"))
    lay(folder, port)
    script = folder / "examples" / "ci" / "registry_check.py"
    text = script.read_text(encoding="utf-8")
    script.write_text(text.replace(old, new), encoding="utf-8")
    return text.count(old) > 0 and bool(wrong(script.with_name("registry-check.sh"), program, url, folder))


def main() -> int:
    program = os.path.realpath(shutil.which(sys.argv[1] if len(sys.argv) > 1 else os.environ.get("AVRO", "avro")) or sys.exit("no program"))
    server = http.server.ThreadingHTTPServer(("127.0.0.1", 0), Server)
    threading.Thread(target=server.serve_forever, daemon=True).start()
    url = f"http://127.0.0.1:{server.server_port}"
    with tempfile.TemporaryDirectory() as name:
        folder = Path(name)
        lay(folder, server.server_port)
        faults = wrong(HERE / "registry-check.sh", program, url, folder)
        with ThreadPoolExecutor(os.cpu_count()) as pool:
            found = pool.map(lambda at: is_found(at, program, url, server.server_port, folder / f"planted-{at}"), range(len(PLANTED)))
            faults += [f"not found: {new}" for (_, new), is_right in zip(PLANTED, found) if not is_right]
    print("".join(f"WRONG, {each}\n" for each in faults), end="")
    print(f"{len(rows(url)) + 1 + len(PLANTED)} tries, {len(faults)} wrong")
    return 1 if faults else 0


if __name__ == "__main__":
    sys.exit(main())

#!/usr/bin/env python3
"""Looks at a page of matrix.py in headless Chromium, and compares what it shows with what `avro` answers.

    look.py PAGE SCHEMA..
    look.py --picture PICTURE PAGE [WIDTH [SCHEME]]

At 1280 and at 420 pixels of width, light and dark:

- each cell says what `avro judge` does, those of a schema with itself as well; a yes is green, and a no is red;
- each no leads to a list, on the page, of the lines of `avro explain`;
- the columns are headed by the numbers of the rows, and the rows by their numbers and files, also where the table is
  scrolled to its end;
- the texts stand out from what is behind them; the page is not wider than the window, and the table not narrower.

With --picture only a picture is taken, 760 pixels wide and light unless said. CHROMIUM names the browser, else chromium, and AVRO the program. Prints what is
wrong, and at the end 'N cells, M faults, K wrong'; the status is 1 if anything is.
"""

from __future__ import annotations

import base64
import json
import os
import subprocess
import sys
from functools import lru_cache
from pathlib import Path
from typing import Any

WIDTHS = (1280, 420)
SCHEMES = ("light", "dark")
# The least ratio of contrast of a text, by the rules for accessible pages.
LEAST_CONTRAST = 4.5
SHOWN = """(() => {
  const colors = (element) => {
    const style = getComputedStyle(element);
    let behind = element;
    while (behind && getComputedStyle(behind).backgroundColor == "rgba(0, 0, 0, 0)") behind = behind.parentElement;
    return [style.color, behind ? getComputedStyle(behind).backgroundColor : "rgb(255, 255, 255)"];
  };
  const list = (link) => {
    const target = link && document.getElementById(link.hash.slice(1));
    const items = target ? [...target.closest("section").querySelectorAll("li")] : [];
    const shown = items.filter((item) => item.offsetHeight);
    return shown.map((item) => [...item.querySelectorAll("p")].map((p) => p.innerText));
  };
  const wide = document.querySelector(".wide");
  wide.scrollLeft = wide.scrollWidth;
  const left = (element) => element.getBoundingClientRect().left;
  const heads = [...document.querySelectorAll("tbody th")];
  return {
    width: document.documentElement.scrollWidth,
    table: [wide.clientWidth, document.querySelector("table").offsetWidth],
    columns: [...document.querySelectorAll("thead th")].map((head) => head.innerText),
    heads: heads.map((head) => head.innerText),
    stay: heads.every((head) => left(head) >= left(wide)),
    page: colors(document.body),
    texts: [...document.querySelectorAll("h1, h2, p, span, code, th, td")].map((e) => [e.innerText, ...colors(e)]),
    rows: [...document.querySelectorAll("tbody tr")].map((row) => [...row.querySelectorAll("td")].map((cell) =>
      ({text: cell.innerText, colors: colors(cell), faults: list(cell.querySelector("a"))}))),
  };
})()"""


class Browser:
    """A page in Chromium, by its protocol over two pipes."""

    def __init__(self, page: str) -> None:
        to_browser, self.commands = os.pipe()
        self.answers, from_browser = os.pipe()
        line = 'exec "$0" --headless --no-sandbox --disable-gpu --remote-debugging-pipe 3<&"$1" 4>&"$2" 2> /dev/null'
        words = ["bash", "-c", line, os.environ.get("CHROMIUM", "chromium"), str(to_browser), str(from_browser)]
        self.process = subprocess.Popen(words, pass_fds=(to_browser, from_browser))
        os.close(to_browser)
        os.close(from_browser)
        self.number, self.left, self.session = 0, b"", {}
        target = self.call("Target.createTarget", url=Path(page).resolve().as_uri())["targetId"]
        self.session = {"sessionId": self.call("Target.attachToTarget", targetId=target, flatten=True)["sessionId"]}

    def call(self, method: str, **words: Any) -> dict:
        self.number += 1
        command = {"id": self.number, "method": method, "params": words, **self.session}
        os.write(self.commands, json.dumps(command).encode() + b"\0")
        while True:
            answer = self.answer()
            if answer.get("id") == self.number:
                return answer["result"]

    def answer(self) -> dict:
        while b"\0" not in self.left:
            piece = os.read(self.answers, 1 << 16)
            if not piece:
                sys.exit("look.py: the browser has ended")
            self.left += piece
        answer, _, self.left = self.left.partition(b"\0")
        return json.loads(answer)

    def size(self, width: int, height: int, scheme: str) -> None:
        self.call("Emulation.setDeviceMetricsOverride", width=width, height=height, deviceScaleFactor=1, mobile=False)
        self.call("Emulation.setEmulatedMedia", features=[{"name": "prefers-color-scheme", "value": scheme}])

    def value(self, script: str) -> Any:
        done = {"result": {}}
        while "value" not in done["result"]:
            done = self.call("Runtime.evaluate", expression=script, returnByValue=True)
        return done["result"]["value"]

    def load(self) -> None:
        """Waits until the page is there; the empty one before it is complete, too."""
        while self.value("location.protocol == 'file:' && document.readyState") != "complete":
            pass

    def close(self) -> None:
        self.process.terminate()
        self.process.wait()


@lru_cache(maxsize=None)
def run(*words: str) -> list[str]:
    return subprocess.run([os.environ.get("AVRO", "avro"), *words], capture_output=True, text=True).stdout.splitlines()


def channels(color: str) -> list[int]:
    return [int(part) for part in color[color.index("(") + 1 : -1].split(",")[:3]]


def light_of(color: str) -> float:
    """The relative luminance, from 0 to 1."""
    parts = [part / 255 for part in channels(color)]
    linear = [part / 12.92 if part <= 0.04045 else ((part + 0.055) / 1.055) ** 2.4 for part in parts]
    return 0.2126 * linear[0] + 0.7152 * linear[1] + 0.0722 * linear[2]


def contrast(one: str, other: str) -> float:
    low, high = sorted((light_of(one), light_of(other)))
    return (high + 0.05) / (low + 0.05)


def hue(color: str) -> str:
    red, green, blue = channels(color)
    return "green" if green > max(red, blue) else "red" if red > max(green, blue) else "neither"


def wrong_of_cell(cell: dict, writer: str, reader: str) -> list[str]:
    """What is wrong with a cell, which has the colour, the verdict and the faults of a pair of schemas."""
    verdict = run("judge", writer, reader)[0]
    lines = run("explain", writer, reader)[1:] if verdict == "no" else []
    shown = cell["text"].split(",")[0]
    wrong = [] if shown == verdict else [f"it says {shown!r}, and avro {verdict!r}"]
    color = hue(cell["colors"][1])
    if verdict in ("yes", "no") and color != {"yes": "green", "no": "red"}[verdict]:
        wrong.append(f"it is {color}, and avro says {verdict}")
    found = []
    for head, told, *_ in cell["faults"]:
        place, kind = head.rsplit(" ", 1)
        found.append(f"{place}: {kind}: {told}")
    if found != lines:
        wrong.append(f"its faults are {found}, and those of avro {lines}")
    return [f"data of {writer} read by {reader}: {each}" for each in wrong]


def wrong_of_page(shown: dict, width: int, scheme: str, files: list[str]) -> list[str]:
    wrong = []
    if shown["width"] > width:
        wrong.append(f"it is {shown['width']} pixels wide")
    room, table = shown["table"]
    if table < room:
        wrong.append(f"the table is {table} pixels wide, and {room} are there")
    numbers = list(map(str, range(1, len(files) + 1)))
    if shown["columns"] != numbers or shown["heads"] != [f"{number} {file}" for number, file in zip(numbers, files)]:
        wrong.append(f"its columns are {shown['columns']}, and its rows {shown['heads']}")
    if not shown["stay"]:
        wrong.append("the heads of rows go away")
    if (light_of(shown["page"][1]) < 0.5) != (scheme == "dark"):
        wrong.append(f"its background is {shown['page'][1]}")
    for text, color, behind in shown["texts"]:
        if text and contrast(color, behind) < LEAST_CONTRAST:
            wrong.append(f"{text!r} is {color} on {behind}")
    return wrong


def look(page: str, files: list[str]) -> int:
    browser = Browser(page)
    cells = faults = 0
    wrong: list[str] = []
    for width in WIDTHS:
        for scheme in SCHEMES:
            browser.size(width, 900, scheme)
            browser.load()
            shown = browser.value(SHOWN)
            found = wrong_of_page(shown, width, scheme, files)
            if [len(row) for row in shown["rows"]] != [len(files)] * len(files):
                found.append("it has other rows or columns")
            for writer, row in zip(files, shown["rows"]):
                for reader, cell in zip(files, row):
                    cells, faults = cells + 1, faults + len(cell["faults"])
                    found += wrong_of_cell(cell, writer, reader)
            wrong += [f"{width} pixels, {scheme}: {each}" for each in found]
    browser.close()
    print(*wrong, f"{cells} cells, {faults} faults, {len(wrong)} wrong", sep="\n")
    return 1 if wrong else 0


def take_picture(picture: str, page: str, width: str = "760", scheme: str = "light") -> int:
    browser = Browser(page)
    browser.size(int(width), 600, scheme)
    browser.load()
    height = browser.value("document.documentElement.scrollHeight")
    browser.size(int(width), height, scheme)
    Path(picture).write_bytes(base64.b64decode(browser.call("Page.captureScreenshot", format="png")["data"]))
    browser.close()
    return 0


def main(words: list[str]) -> int:
    if words[:1] == ["--picture"] and 3 <= len(words) <= 5:
        return take_picture(*words[1:])
    if len(words) < 3 or words[0].startswith("-"):
        print(__doc__, end="", file=sys.stderr)
        return 64
    return look(words[0], words[1:])


if __name__ == "__main__":
    sys.exit(main(sys.argv[1:]))

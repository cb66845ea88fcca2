#!/usr/bin/env python3
"""Compares the places that `avro schema --why` tells with those of a second reader of refused texts, in Python.

    why.py PROGRAM [COUNT]

COUNT random texts, 2,000 unless said: schemas of which up to four parts are spoiled, and defaults that do not fit. Of each:

- the status, the output and the first line are those of `avro schema` without the option;
- the lines after it are those of the reader below, in the order of the text, and at most 100 with how many follow;
- of a text that is refused, one of them at least has a word of the code.

The last line is 'N texts, R refused, L lines, K differ'. It is also a failure if a code from S2 to S11 did not occur.
"""

from __future__ import annotations

import json
import os
import random
import re
import subprocess
import sys
import tempfile

sys.path.insert(0, os.path.join(os.path.dirname(os.path.abspath(__file__)), "..", "bench", "gen"))

import random_texts
from random_schemas import schema, spelled

COUNT, MOST, SHOWN = 2_000, 100, 20
CODES = {f"S{n}" for n in range(2, 12)}
PRIMITIVES = ("null", "boolean", "int", "long", "bytes", "string")
NAMED = ("record", "error", "enum", "fixed")
LEFT_OUT = ("float", "double")
NAME = re.compile(r"[A-Za-z_][A-Za-z0-9_]*")
SPACE = re.compile(r"[ \t\n\r]*")
NUMBER = re.compile(r"-?(?:0|[1-9]\d*)(?:\.\d+)?(?:[eE][+-]?\d+)?")
# A word that each code's lines have.
WORDS = {
    "S1": r"invalid JSON|byte order|UTF-8|nested|container",
    "S2": r"unknown type",
    "S3": r"duplicate type",
    "S4": r"is not a valid name|is a primitive type",
    "S5": r'missing "|must be',
    "S6": r"empty union|cannot be a branch|duplicate branch",
    "S7": r"symbol",
    # A name that is not valid is not compared with others.
    "S8": r"duplicate field name|is not a valid name",
    "S9": r"the default is not a valid|matches no branch",
    "S10": r"not supported",
    "S11": r"64-bit integer",
    "S12": r"1048576|4096 nodes",
}


# What is told of a text with this escape, and how much is told of a long one.
ESCAPE = re.compile(r"\\u[0-9a-f]{4}|\\.|~.|.", re.DOTALL)
LONGEST, END = 200, 98
ANSWER = 'missing "type" (a registry\'s answer? its schema is the string under "schema")'


class Number:
    """A number that is not a 64-bit integer, as it is written."""

    def __init__(self, text):
        self.text = text


def number(text):
    return int(text) if re.fullmatch(r"-?\d+", text) and text != "-0" and -(2**63) <= int(text) < 2**64 else Number(text)


def places_in(text):
    """The offset of each value of a JSON text, by its pointer."""
    found = {}

    def skip(at):
        return SPACE.match(text, at).end()

    def value(at, pointer):
        at = skip(at)
        found[pointer] = at
        if text[at] == '"':
            return json.decoder.scanstring(text, at + 1)[1]
        if text[at] in "{[":
            is_object, close, count = text[at] == "{", "}" if text[at] == "{" else "]", 0
            at = skip(at + 1)
            while text[at] != close:
                key = str(count)
                if is_object:
                    key, at = json.decoder.scanstring(text, at + 1)
                    at = skip(at) + 1
                at = skip(value(at, below(pointer, key)))
                at = skip(at + 1) if text[at] == "," else at
                count += 1
            return at + 1
        return NUMBER.match(text, at).end() if text[at] in "-0123456789" else at + (5 if text[at] == "f" else 4)

    value(0, "")
    return found


def inner(text):
    """A text as in a JSON string."""
    return json.dumps(str(text), ensure_ascii=False)[1:-1]


def cut(text):
    """An escaped text, in whose middle dots stand if it is long: the ends are whole characters and escapes."""
    if len(text.encode()) <= LONGEST:
        return text
    units = ESCAPE.findall(text)

    def whole(some):
        size, kept = 0, 0
        for unit in some:
            size += len(unit.encode())
            kept += size <= END
        return kept

    head, tail = whole(units), whole(reversed(units))
    return "".join([*units[:head], "...", *units[len(units) - tail :]])


def told(text):
    return cut(inner(text))


def below(pointer, key):
    """The pointer of a member or an item."""
    return f"{pointer}/{inner(key).replace('~', '~0').replace('/', '~1')}"


def shown(pointer):
    """How words name a place."""
    return cut(pointer) or "the root"


class Reader:
    """What is wrong with a tree, by pointers. A type is a word, a list or the object that declares it; None is unknown."""

    def __init__(self):
        self.said, self.named, self.defaults, self.unknown = [], {}, [], set()

    def say(self, at, words):
        self.said.append((at, words))

    def numbers(self, value, at):
        if isinstance(value, Number):
            self.say(at, f"{cut(value.text)} is not a 64-bit integer")
        for key, part in value.items() if isinstance(value, dict) else enumerate(value) if isinstance(value, list) else ():
            self.numbers(part, below(at, key))

    def text(self, schema, key, at):
        if key not in schema:
            self.say(at, f'missing "{key}"')
        elif not isinstance(schema[key], str):
            self.say(f"{at}/{key}", f'"{key}" must be a string')
        else:
            return schema[key]
        return None

    def texts(self, schema, key, at):
        """The texts of a list; none where it is missing or another thing."""
        if key not in schema:
            return []
        if not isinstance(schema[key], list) or not all(isinstance(it, str) for it in schema[key]):
            self.say(f"{at}/{key}", f'"{key}" must be an array of strings')
            return []
        return schema[key]

    def is_full_name(self, name, at):
        if not all(NAME.fullmatch(part) for part in name.split(".")):
            self.say(at, f'"{told(name)}" is not a valid name')
        elif name.rpartition(".")[2] in PRIMITIVES + LEFT_OUT:
            self.say(at, f"{name.rpartition('.')[2]} is a primitive type and cannot be defined")
        else:
            return True
        return False

    def is_simple_name(self, name, at):
        if NAME.fullmatch(name):
            return True
        self.say(at, f'"{told(name)}" is not a valid name')
        return False

    def type(self, schema, space, at):
        if isinstance(schema, list):
            return self.union(schema, space, at)
        if isinstance(schema, str):
            return self.word(schema, space, at)
        if not isinstance(schema, dict):
            self.say(at, "a type must be a string, an object or an array")
            return None
        if at == "" and "type" not in schema and isinstance(schema.get("schema"), str):
            self.say(at, ANSWER)
            return None
        kind = self.text(schema, "type", at)
        if kind is None:
            return None
        if kind in ("array", "map"):
            key = "items" if kind == "array" else "values"
            if key not in schema:
                self.say(at, f'missing "{key}"')
                return (kind, None)
            return (kind, self.type(schema[key], space, f"{at}/{key}"))
        if kind not in NAMED:
            return self.word(kind, space, f"{at}/type")
        if kind == "error":
            self.say(f"{at}/type", "error is not supported")
        return self.definition(schema, kind, space, at)

    def definition(self, schema, kind, space, at):
        name = self.text(schema, "name", at)
        space = self.space(schema, name or "", space, at)
        simple = (name or "").rpartition(".")[2]
        # what is told of a definition without a name is its kind
        made = {"kind": "record" if kind == "error" else kind, "name": None, "parts": None}
        if name is not None and self.is_full_name(name, f"{at}/name") and space is not None:
            made["name"] = full = f"{space}.{simple}" if space else simple
            if full in self.named:
                self.say(at, f"duplicate type {told(full)}, first defined at {shown(self.named[full][1])}")
            else:
                self.named[full] = made, at
        for k, alias in enumerate(self.texts(schema, "aliases", at)):
            self.is_full_name(alias, f"{at}/aliases/{k}")
        {"enum": self.enum, "fixed": self.fixed}.get(kind, self.record)(schema, made, space, at)
        return made

    def space(self, schema, name, around, at):
        """The namespace of a definition: that of its name, its own, or the one around it; None is unknown."""
        if "." in name:
            own = name.rpartition(".")[0]
            return own if is_space(own) else None
        if "namespace" not in schema:
            return around
        own = self.text(schema, "namespace", at)
        if own is not None and not is_space(own):
            self.say(f"{at}/namespace", f'"{told(own)}" is not a valid name')
            return None
        return own

    def word(self, word, space, at):
        if word in LEFT_OUT:
            self.say(at, f"{word} is not supported")
            return None
        if word in PRIMITIVES:
            return word
        if not self.is_full_name(word, at):
            return None
        if "." not in word and space is None:
            return None
        full = word if "." in word or not space else f"{space}.{word}"
        if full not in self.named:
            self.say(at, f"unknown type {told(full)} (a type must be defined before it is used)")
            return None
        return self.named[full][0]

    def union(self, branches, space, at):
        if not branches:
            self.say(at, "empty union")
        seen, made = {}, []
        for i, branch in enumerate(branches):
            place = f"{at}/{i}"
            found = self.type(branch, space, place)
            made.append(found)
            if isinstance(found, list):
                self.say(place, "a union cannot be a branch of a union")
                continue
            key = found if isinstance(found, str) else found[0] if isinstance(found, tuple) else id(found)
            if found is not None and key in seen:
                self.say(place, f"duplicate branch {self.title(found)}, first at {shown(seen[key])}")
            seen.setdefault(key, place)
        return made

    def title(self, made):
        if isinstance(made, dict):
            return made["kind"] if made["name"] is None else told(made["name"])
        return made if isinstance(made, str) else made[0]

    def enum(self, schema, made, _space, at):
        if "symbols" not in schema:
            self.say(at, 'missing "symbols"')
        elif schema["symbols"] == []:
            self.say(f"{at}/symbols", "an enum needs at least one symbol")
        symbols = self.texts(schema, "symbols", at)
        seen = {}
        for i, symbol in enumerate(symbols):
            place = f"{at}/symbols/{i}"
            self.is_simple_name(symbol, place)
            if symbol in seen:
                self.say(place, f"duplicate symbol {told(symbol)}, first at {shown(seen[symbol])}")
            seen.setdefault(symbol, place)
        if isinstance(schema.get("symbols"), list) and len(symbols) == len(schema["symbols"]):
            made["parts"] = seen
        if "default" in schema and not isinstance(schema["default"], str):
            self.say(f"{at}/default", '"default" must be a string')
        elif "default" in schema and made["parts"] is not None and schema["default"] not in seen:
            self.say(f"{at}/default", "the default is not one of the symbols")

    def fixed(self, schema, made, _space, at):
        size = schema.get("size")
        if "size" not in schema:
            self.say(at, 'missing "size"')
        elif isinstance(size, Number):
            pass
        elif not isinstance(size, int) or isinstance(size, bool):
            self.say(f"{at}/size", '"size" must be an integer')
        elif not 0 <= size <= 1_048_576:
            self.say(f"{at}/size", '"size" must be 0 to 1048576')
        else:
            made["parts"] = size

    def record(self, schema, made, space, at):
        if "fields" not in schema:
            self.say(at, 'missing "fields"')
        elif not isinstance(schema["fields"], list):
            self.say(f"{at}/fields", '"fields" must be an array')
        else:
            seen = {}
            fields = [self.field(field, seen, space, f"{at}/fields/{i}") for i, field in enumerate(schema["fields"])]
            made["parts"] = dict(fields) if None not in fields else None

    def field(self, field, seen, space, at):
        if not isinstance(field, dict):
            self.say(at, "a field must be an object")
            return None
        name = self.text(field, "name", at)
        names = [(f"{at}/name", name)] if name is not None else []
        names += [(f"{at}/aliases/{k}", it) for k, it in enumerate(self.texts(field, "aliases", at))]
        for place, word in names:
            if self.is_simple_name(word, place):
                if word in seen:
                    self.say(place, f"duplicate field name {told(word)}, first at {shown(seen[word])}")
                seen.setdefault(word, place)
        made = None
        if "type" not in field:
            self.say(at, 'missing "type"')
        else:
            made = self.type(field["type"], space, f"{at}/type")
        if "default" in field:
            self.defaults.append((field["default"], made, f"{at}/default"))
        return None if name is None else (name, made)

    def check_defaults(self):
        for value, made, at in self.defaults:
            if not fits(value, made):
                is_union = isinstance(made, list)
                self.say(at, "the default matches no branch of the union" if is_union else f"the default is not a valid {self.title(made)}")


def is_space(text):
    return not text or all(NAME.fullmatch(part) for part in text.split("."))


def is_bytes(value):
    return isinstance(value, str) and all(ord(it) < 256 for it in value)


def fits(value, made):
    """Whether a value is a datum of a type, as far as that is known."""
    if isinstance(made, list):
        return any(isinstance(value, Number) if isinstance(branch, list) else fits(value, branch) for branch in made)
    if made is None:
        return True
    if isinstance(value, Number):
        return True
    if isinstance(made, tuple):
        parts = value if isinstance(value, list) else value.values() if isinstance(value, dict) else ()
        return isinstance(value, list if made[0] == "array" else dict) and all(fits(part, made[1]) for part in parts)
    if isinstance(made, dict):
        kind, parts = made["kind"], made["parts"]
        if kind == "record":
            return isinstance(value, dict) and (
                parts is None or (value.keys() == parts.keys() and all(fits(value[key], parts[key]) for key in parts))
            )
        if kind == "enum":
            return isinstance(value, str) and (parts is None or value in parts)
        return is_bytes(value) and (parts is None or len(value) == parts)
    if made == "string":
        return isinstance(value, str)
    if made == "bytes":
        return is_bytes(value)
    if made in ("null", "boolean"):
        return value is None if made == "null" else isinstance(value, bool)
    bits = 31 if made == "int" else 63
    return isinstance(value, int) and not isinstance(value, bool) and -(2**bits) <= value < 2**bits


def reasons(file, data, code):
    """The lines that are to be told of a text of JSON."""
    text = data.decode()
    tree = json.loads(text, parse_float=number, parse_int=number)
    reader = Reader()
    if code == "S11":
        reader.numbers(tree, "")
    reader.type(tree, "", "")
    reader.check_defaults()
    at = places_in(text)
    lines = []
    for pointer, words in reader.said:
        before = text[: at[pointer]].encode()
        words = f"{cut(pointer)}: {words}" if pointer else words
        lines.append((before.count(b"\n") + 1, len(before) - before.rfind(b"\n"), words))
    return [f"{file}:{line}:{column}: {words}" for line, column, words in sorted(lines)]


def is_in_order(lines):
    places = [tuple(map(int, re.search(r":(\d+):(\d+): ", line).groups())) for line in lines]
    return places == sorted(places)


def random_text(choose):
    """A text of a schema, most often spoiled."""
    how = choose.randrange(4)
    made = schema(choose) if how == 0 else random_texts.defaults(choose) if how == 1 else random_texts.named(choose)
    if how == 3:
        made = random_texts.long_lists(choose)
    tree = json.loads(json.dumps(spelled(choose, made)))
    for _ in range(choose.choice((0, 1, 1, 2, 4))):
        tree = random_texts.spoiled_tree(choose, tree)
    return random_texts.written(choose, tree)


def run(program, *words):
    done = subprocess.run([program, *words], stdin=subprocess.DEVNULL, capture_output=True)
    return done.returncode, done.stdout, done.stderr.decode()


def difference(program, data):
    """The code of a text, how many lines are told of it, and what differs."""
    with open("s", "wb") as file:
        file.write(data)
    status, out, err = run(program, "schema", "s")
    status_why, out_why, err_why = run(program, "schema", "s", "--why")
    code = err[len("avro: s: ") :].rstrip("\n") if status == 3 else None
    first, *lines = err_why.splitlines() or [""]
    if (status, out) != (status_why, out_why) or first != err.rstrip("\n") or (code is None and lines):
        return code, 0, f"{err_why!r} for {err!r}"
    if code is None:
        return code, 0, None
    wanted = reasons("s", data, code)
    more = [f"s: and {len(wanted) - MOST} more"] if len(wanted) > MOST else []
    told = lines[: len(lines) - len(more)]
    if lines[len(told) :] != more or not is_in_order(told) or (not more and sorted(told) != sorted(wanted)):
        return code, len(lines), f"told {lines}\n wanted {wanted[: MOST + 1]}"
    if more and not set(told) <= set(wanted):
        return code, len(lines), f"told {sorted(set(told) - set(wanted))}"
    if not more and not any(re.search(WORDS[code], line) for line in told):
        return code, len(lines), f"no word of {code}: {told}"
    return code, len(lines), None


def main():
    program = os.path.abspath(sys.argv[1])
    count = int(sys.argv[2]) if len(sys.argv) > 2 else COUNT
    refused, lines, differ, codes = 0, 0, 0, set()
    with tempfile.TemporaryDirectory() as folder:
        os.chdir(folder)
        for seed in range(count):
            data = random_text(random.Random(seed))
            code, told, fault = difference(program, data)
            refused, lines = refused + (code is not None), lines + told
            codes.add(code)
            if fault:
                differ += 1
                if differ <= SHOWN:
                    print(f"text {seed}: {data.decode()[:500]}\n {fault}")
    for code in sorted(CODES - codes):
        print(f"{code} did not occur")
    print(f"{count} texts, {refused} refused, {lines} lines, {differ} differ")
    return 1 if differ or CODES - codes else 0


if __name__ == "__main__":
    sys.exit(main())

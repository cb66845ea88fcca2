"""What is done by hand though a library is there for it: each place in the sources, by the rule that it breaks.

A place is told by its rule, its file and what stands there, so that exceptions can be counted (`surface_rows.py`).
"""

from __future__ import annotations

import re
from collections import Counter
from functools import lru_cache
from pathlib import Path
from typing import Iterator, NamedTuple

from sources import (
    ALIAS,
    CRATES,
    EDITED,
    USE,
    Module,
    Text,
    body,
    definition,
    enclosed,
    head,
    imports,
    leaves,
    libraries,
    modules,
    owner_at,
    resolved,
    split,
    target,
    texts,
    tidy,
)

UTF8, NAMES, ERRORS = "UTF-8 by hand", "names by hand", "an error by hand"
JSON, FRAMES, NUMBERS = "JSON by hand", "JSON's brackets by hand", "JSON's numbers by hand"
DIGITS, DIGEST, WORDS = "hexadecimal digits by hand", "SHA-256 by hand", "words by hand"
RULES = {
    UTF8: "a check of UTF-8 (avro_cursor::text_of is the one, which goes by simdutf8)",
    NAMES: "names in a tree, in a hashed map, or in a list that is searched (an IndexMap keeps names)",
    ERRORS: "an error that thiserror does not derive",
    JSON: "a literal of JSON (serde_json writes it, or the json::Writer that it stands on)",
    FRAMES: "a bracket of JSON outside of what puts brackets around what a writer has made",
    NUMBERS: "a number of JSON that no json::Writer writes",
    DIGITS: "digits that hex does not write or read",
    DIGEST: "a digest that sha2 does not make",
    WORDS: "words of a command line that clap does not take",
}
# The crates whose literals `null` are JSON, and not the name of a type.
DISPLAYS = ("avro_display", "avro_show")

MAPS = ("BTreeMap", "BTreeSet", "HashMap", "HashSet")
TEXT = re.compile(r"\b(?:String|str|RcStr|BoxedStr|Namespace|FullName)\b|\[u8\]|\bVec<u8>")
NUMBER = re.compile(r"(?:[ui](?:8|16|32|64|128|size)|NodeId)")
WRAPPED = re.compile(r"(?:.*[: ])?&?(?:'\w+ )?(?:String|str|RcStr)")
PARAMETER = re.compile(r"[A-Z]\d?|_")
OBJECT = re.compile(r"\b((?:serde_json::)?\w+)<(?=\s*String\b)")
SEARCH = re.compile(r"\.(?:(?P<walk>find|position|rposition|find_map|any)\(\s*(?:move )?\||(?P<order>sort|sort_by|sort_by_key|sort_by_cached_key|binary_search_by)\()")
PAIRS = re.compile(r"\bVec<\(")
TYPE = re.compile(r"^(?:pub(?:\([^)]*\))? )?(?:struct|enum) (\w+)[^{;(]*([{(])", re.MULTILINE)
STD_UTF8 = re.compile(r"\b(?:from_utf8\w*|utf8_chunks|Utf8Chunks)\b")
OWN_UTF8 = re.compile(r"\b(?:0x(?:80|[bB][fF]|[cC][0-2]|[dD][fF]|[eE][0fF]|[fF][0478])|0b1[01]\w*|191|192|223|224|239|240|247|248|leading_ones)\b")
BEFORE = re.compile(r"(?:\w+::)*$")
HAND = re.compile(r"^impl\b[^{;]*?\b(Display|Error) for (\w+)", re.MULTILINE)
ERROR_NAME = re.compile(r"\w*(?:Error|Fault|Failure|Refusal)$")
FRAME = re.compile(r"[\[\]{},:]+(?:\\n)?")
FORMAT = re.compile(r"(?:\b(?:format|write|writeln|print|println)!\s*\((?:[^()\";]|\([^()]*\))*[;,]?|#\[error\()\s*$")
BY_RADIX = re.compile(r"\b(?:from_str_radix|to_digit|from_digit|LowerHex|UpperHex)\b")
RADIX = re.compile(r"\{[^{}]*:[^{}]*[xX]\}|0123456789[aA][bB][cC]")
SHA = re.compile(r"\b(?:rotate_right|rotate_left|0x6a09_?e667|0x428a_?2f98|1779033703|1116352408)\b", re.IGNORECASE)


class Place(NamedTuple):
    """A place that breaks a rule: the rule, the file, its line, and what stands there."""

    rule: str
    file: str
    line: int
    what: str


Found = Iterator[tuple[int, str]]


@lru_cache(maxsize=None)
def aliases_in(text: str) -> dict[str, str]:
    """The types that names of a text stand for."""
    return {it[1]: tidy(it[2]) for it in ALIAS.finditer(text)} if "type " in text else {}


@lru_cache(maxsize=None)
def aliases_with(crate: str, _edits: frozenset[tuple[Path, str]]) -> dict[str, str]:
    """The types that names of a crate with such edits stand for, or names of others."""
    found = {}
    for other in [*libraries(), crate]:
        for text in modules(other).values():
            found.update(aliases_in(text))
    return found


def aliases(crate: str) -> dict[str, str]:
    """The types that names of a crate stand for, or names of others."""
    return aliases_with(crate, frozenset(EDITED.items()))


def plain_type(crate: str, text: str, kind: str) -> str:
    """A type of a text, with what its aliases stand for."""
    known = aliases(crate)
    for _ in range(4):
        wider = re.sub(r"\b\w+\b", lambda it: known.get(resolved(text, it[0])[-1], it[0]), kind)
        if wider == kind or len(wider) > 1000:
            return wider
        kind = wider
    return kind


@lru_cache(maxsize=None)
def wrappers_in(text: str) -> frozenset[str]:
    """The types of a text that hold another text and nothing else."""
    found = set()
    for it in TYPE.finditer(text):
        parts = split(enclosed(text, it.end() - 1))
        if "struct" in it[0] and len(parts) == 1 and WRAPPED.fullmatch(tidy(parts[0])):
            found.add(it[1])
    return frozenset(found)


def wrappers(crate: str) -> frozenset[str]:
    """The types of a crate that hold one text and nothing else."""
    return frozenset().union(*(wrappers_in(text) for text in modules(crate).values()))


def is_name(crate: str, text: str, key: str) -> bool:
    """Whether a type has a text in it, or may have any type."""
    plain = plain_type(crate, text, key)
    words = set(re.findall(r"\w+", plain))
    return bool(TEXT.search(plain) or PARAMETER.fullmatch(plain) or words & wrappers(crate))


def maps_of(crate: str, text: str) -> str:
    """What matches each name that a text has for a tree or a hashed map."""
    names = {*MAPS, *(own for own, path in imports(text).items() if path[-1] in MAPS)}
    for name, kind in aliases(crate).items():
        key = re.match(rf"(?:\w+::)*(?:{'|'.join(MAPS)})<(?:'\w+, )?(\w+)\b", kind)
        if key and PARAMETER.fullmatch(key[1]):
            names.add(name)
    return "|".join(sorted(names))


def shown(kind: str) -> str:
    """A type without its lifetimes."""
    return tidy(re.sub(r"'\w+,? ?", "", kind))


def trees_in(crate: str, text: Text) -> Found:
    """The trees and hashed maps with a text as key, by the key's type."""
    plain = body(text.plain)
    for it in re.finditer(rf"\b(?:{maps_of(crate, text.plain)})(?:::)?<", plain):
        key = shown(split(enclosed(plain, it.end() - 1))[0])
        if is_name(crate, text.plain, key):
            yield it.start(), key
    for it in OBJECT.finditer(plain):
        parts = split(enclosed(plain, it.end() - 1))
        if resolved(text.plain, it[1]) == ("serde_json", "Map") and parts[1:] != ["Value"]:
            yield it.start(), shown(f"Map<{', '.join(parts)}>")


def unwritten_in(crate: str, text: Text) -> Found:
    """The trees and hashed maps whose keys stand neither where they are made nor in the head of the function."""
    plain, names = body(text.plain), maps_of(crate, text.plain)
    seen: Counter[str] = Counter()
    for it in re.finditer(rf"\b(?:{names})::(?:new|with_\w+|from\w*|default)\(", plain):
        front = plain[: it.start()]
        if re.search(r"\w: $|let (?:mut )?\w+: [^=;]+ = $", front):
            continue
        start = [at.end() for at in re.finditer(r"\bfn \w+", front)][-1:]
        words = plain_type(crate, text.plain, head(plain[start[0] :])) if start else ""
        owner = owner_at(plain, it.start())
        seen[owner] += 1
        if seen[owner] > len(re.findall(rf"\b(?:{names})<", words)):
            yield it.start(), f"{owner}: no key"


def pairs_in(crate: str, text: Text) -> Found:
    """The lists of pairs of a text and numbers."""
    plain = body(text.plain)
    for it in PAIRS.finditer(plain):
        kind = enclosed(plain, it.end() - 1)
        parts = [plain_type(crate, text.plain, shown(part)) for part in split(kind)]
        others = [part for part in parts if not TEXT.search(part)]
        if len(parts) > 1 and len(others) == len(parts) - 1 and all(NUMBER.fullmatch(part) for part in others):
            yield it.start(), f"Vec<({shown(kind)})>"


def own_trees_in(_: str, text: Text) -> Found:
    """The types that hold themselves and a text, as a tree of names does."""
    for it in TYPE.finditer(text.plain):
        inner = enclosed(text.plain, it.end() - 1)
        is_tree = re.search(rf"\b(?:Box|Rc|Arc|Vec)<(?:[^<>]*\b)?{it[1]}\b", inner) or re.search(r"\bleft\w*:[^}]*\bright\w*:", inner)
        if is_tree and TEXT.search(inner):
            yield it.start(), it[1]


def searches_in(_: str, text: Text) -> Found:
    """The searches through a list for what compares as a text may, and what puts a list in order for one."""
    plain = body(text.plain)
    for it in SEARCH.finditer(plain):
        inner = enclosed(plain, plain.index("(", it.start()))
        if it["walk"] != "any" or re.search(r"as_str|name|\.\d\b", inner):
            yield it.start(), f"{owner_at(plain, it.start())}: {it['walk'] or it['order']}"


def utf8_in(_: str, text: Text) -> Found:
    """The checks of UTF-8 by std, and what spells bytes of UTF-8."""
    for use in USE.finditer(text.plain):
        for path, _own in leaves(use[2]):
            if STD_UTF8.fullmatch(path[-1]) and path[0] != "simdutf8":
                yield use.start(), "use"
    plain = body(text.plain)
    for it in STD_UTF8.finditer(plain):
        front = BEFORE.search(plain[max(0, it.start() - 80) : it.start()])
        if resolved(text.plain, (front[0] if front else "") + it[0])[0] != "simdutf8":
            yield it.start(), owner_at(plain, it.start())
    for it in OWN_UTF8.finditer(plain):
        yield it.start(), owner_at(plain, it.start())


def inner_of(literal: str) -> str:
    """What a literal holds, with the end of a line as `\\n`."""
    raw = literal.lstrip("b")
    if raw.startswith("r"):
        return raw[1:].strip("#")[1:-1].replace("\n", "\\n")
    return re.sub(r"\\\n\s*", "", raw[1:-1]).replace('\\"', '"').replace("\\'", "'").replace("\\\\", "\\")


def signs_in(text: Text) -> Iterator[tuple[int, str, str]]:
    """The literals that no clause spells: what each holds, and that without the places of a format."""
    for at, literal in text.literals:
        front = text.text[max(0, at - 200) : at]
        if front.endswith("codes ") or literal.startswith("'\\u"):
            continue
        inner = inner_of(literal)
        signs = inner
        if FORMAT.search(front):
            signs = re.sub(r"\{[^{}]*\}", "", inner.replace("{{", "\1").replace("}}", "\2")).replace("\1", "{").replace("\2", "}")
        yield at, inner, signs


def json_in(crate: str, text: Text) -> Found:
    """The literals of JSON: with quotes or with more than brackets, and the words true, false and null."""
    for at, inner, signs in signs_in(text):
        is_word = inner in ("true", "false") or (inner == "null" and crate in DISPLAYS)
        if is_word or (re.search(r'[\[\]{}"]', signs) and not FRAME.fullmatch(signs)):
            yield at, inner


def frames_in(_: str, text: Text) -> Found:
    """The literals of brackets and braces alone."""
    for at, inner, signs in signs_in(text):
        if FRAME.fullmatch(signs) and re.search(r"[\[\]{}]", signs):
            yield at, inner


def numbers_in(_: str, text: Text) -> Found:
    """What makes digits of JSON's numbers without a writer."""
    for use in USE.finditer(text.plain):
        if any(path[0] == "itoa" for path, _own in leaves(use[2])):
            yield use.start(), "itoa"
    for it in re.finditer(r"(?<![\w:])itoa::", body(text.plain)):
        yield it.start(), "itoa"


def digits_in(_: str, text: Text) -> Found:
    """What makes or reads hexadecimal digits."""
    plain = text.plain
    for it in BY_RADIX.finditer(plain):
        yield it.start(), owner_at(plain, it.start())
    for at, literal in text.literals:
        if RADIX.search(literal):
            yield at, owner_at(plain, at)


def digests_in(_: str, text: Text) -> Found:
    """What turns words around, or spells the first numbers of SHA-256."""
    for it in SHA.finditer(text.plain):
        yield it.start(), owner_at(text.plain, it.start())


def words_in(_: str, text: Text) -> Found:
    """The literals of options."""
    for at, literal in text.literals:
        if re.match(r'b?"--?\w', literal) and not text.text[:at].endswith("codes "):
            yield at, inner_of(literal)


@lru_cache(maxsize=None)
def public_types(text: str) -> frozenset[str]:
    """The public types of a text."""
    return frozenset(re.findall(r"^pub (?:struct|enum) (\w+)", text, re.MULTILINE))


def defined(crate: str, module: Module, name: str) -> tuple[str, Module, str] | None:
    """The public type that a name of a module stands for, over imports and aliases."""
    for _ in range(6):
        text = modules(crate)[module]
        if name in public_types(text):
            return crate, module, name
        if name in aliases_in(text):
            words = re.findall(r"\w+", aliases_in(text)[name].split("<")[0])
            name = words[-1] if words else ""
            continue
        place = target(crate, module, imports(text)[name]) if name in imports(text) else definition(crate, (), name)
        if place is None or place == (crate, module, name):
            return None
        crate, module, name = place
    return None


@lru_cache(maxsize=None)
def errors_named(text: str) -> frozenset[str]:
    """The names that a module has for errors: those of results, those with the name of one, and those with its trait."""
    results = "|".join(sorted({"Result", *(own for own, path in imports(text).items() if path[-1] == "Result")}))
    names = {it[2] for it in HAND.finditer(text) if it[1] == "Error"}
    names |= {it for it in re.findall(r"^pub (?:struct|enum|type) (\w+)", text, re.MULTILINE) if ERROR_NAME.match(it)}
    for it in re.finditer(rf"\b(?:{results})<", text):
        parts = split(enclosed(text, it.end() - 1))
        word = re.match(r"(?:\w+::)*(\w+)", parts[1]) if len(parts) == 2 else None
        names |= {word[1]} if word else set()
    return frozenset(names)


def public_errors() -> set[tuple[str, Module, str]]:
    """The public types that are errors of some crate, also behind aliases."""
    found = set()
    for crate in libraries():
        for module, text in modules(crate).items():
            found |= {defined(crate, module, name) for name in errors_named(text)}
    return found - {None}


@lru_cache(maxsize=None)
def hands_in(text: Text) -> list[tuple[int, str]]:
    """The errors whose text or whose trait is written by hand."""
    found = []
    for it in HAND.finditer(text.plain):
        if it[1] == "Error" or ERROR_NAME.match(it[2]) or it[2] in errors_named(text.plain):
            found.append((it.start(), it[2]))
    return found


def underived() -> Iterator[Place]:
    """The public errors that do not derive the trait of thiserror."""
    for crate, module, name in sorted(public_errors()):
        text = texts(crate)[module]
        at = re.search(rf"((?:^#\[[^\n]*\]\n+)*)^pub (?:struct|enum) {name}\b", text.plain, re.MULTILINE)
        derived = [word for it in re.findall(r"\bderive\(([^)]*)\)", at[1]) for word in split(it)]
        if ("thiserror", "Error") not in {resolved(text.plain, word) for word in derived}:
            yield place_of(ERRORS, text, at.end(), name)


def place_of(rule: str, text: Text, at: int, what: str) -> Place:
    """The place in a text."""
    return Place(rule, str(text.file.relative_to(CRATES)), text.plain.count("\n", 0, at) + 1, what)


# What finds the places of each rule in a text.
FINDERS = (
    (UTF8, utf8_in),
    (NAMES, trees_in),
    (NAMES, unwritten_in),
    (NAMES, pairs_in),
    (NAMES, own_trees_in),
    (NAMES, searches_in),
    (JSON, json_in),
    (FRAMES, frames_in),
    (NUMBERS, numbers_in),
    (DIGITS, digits_in),
    (DIGEST, digests_in),
    (WORDS, words_in),
)


@lru_cache(maxsize=None)
def words_of(text: Text) -> frozenset[str]:
    """The words in a text."""
    return frozenset(re.findall(r"\w+", text.plain))


@lru_cache(maxsize=None)
def places_in(crate: str, text: Text, _known: frozenset[tuple[str, str]]) -> tuple[Place, ...]:
    """The places in a text that break a rule, where the names of types in it stand for these."""
    return tuple(place_of(rule, text, at, what) for rule, finder in FINDERS for at, what in finder(crate, text))


def places() -> Iterator[Place]:
    """The places that break a rule."""
    hands = set()
    for crate in libraries():
        known = aliases(crate)
        for text in texts(crate).values():
            yield from places_in(crate, text, frozenset((it, known[it]) for it in words_of(text) & known.keys()))
            hands |= {place_of(ERRORS, text, at, what) for at, what in hands_in(text)}
    told = {(it.file, it.what) for it in hands}
    yield from sorted(hands)
    yield from (it for it in underived() if (it.file, it.what) not in told)

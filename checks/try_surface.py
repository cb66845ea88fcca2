#!/usr/bin/env python3
"""Tries edits of the sources that `surface.py` has to find: each takes a library's work away from it, does such work by hand, or hides a
public item.

usage: checks/try_surface.py [NAME..]

Each edit, or each of these, is made to what `surface.py` reads, and no file changes. A finding has to name what the edit breaks.
What is wrong has a line, the last line is 'N edits, M found', and the exit status is 1 if they are not the same, or if there is
a finding without any edit.
"""

from __future__ import annotations

import sys
from typing import NamedTuple

from sources import CRATES, EDITED, source_of
from surface import findings


class Edit(NamedTuple):
    """An edit: its name, the file, the text there and the one in its place, or the end of the file, and what a finding says."""

    name: str
    file: str
    old: str | None
    new: str
    told: str


NAME_TABLE = "avro_schema_json/src/declarations/name_table.rt"
DIGEST = "avro_canonical/src/digest.rt"

EDITS = [
    Edit("a renamed tree", NAME_TABLE, None, "use std::collections::BTreeMap as Tree;\n\nfn added(ids: &Tree<String, u32>) {}\n", "'String' (line"),
    Edit(
        "a tree by hand",
        NAME_TABLE,
        None,
        "struct Branch {\n    name: String,\n    lower: Option<Box<Branch>>,\n    higher: Option<Box<Branch>>,\n}\n",
        "'Branch' (line",
    ),
    Edit(
        "an alias of a text",
        "avro_schema_json/src/repeats.rt",
        None,
        "type Word = String;\n\nfn added(words: &BTreeSet<Word>) {}\n",
        "'Word' (line",
    ),
    Edit("names in a list", NAME_TABLE, "ids: IndexMap<(u32, String), u32, Seeded>,", "ids: Vec<(u32, String, u32)>,", "'Vec<(u32, String, u32)>'"),
    Edit(
        "an error behind an alias",
        "avro_schema/src/fault.rt",
        None,
        "pub enum Lost {\n    Bytes,\n}\n\npub type Kept<T> = Result<T, Lost>;\n",
        "'Lost' (line",
    ),
    Edit(
        "a loop over UTF-8",
        "avro_cursor/src/text.rt",
        "match compat::from_utf8(bytes) {",
        "match checked(bytes, |byte| byte & 0xC0 == 0x80) {",
        "simdutf8::compat::from_utf8 is not there",
    ),
    Edit("chunks of UTF-8", "avro_binary/src/leaves.rt", None, "fn added(bytes: &[u8]) -> usize {\n    bytes.utf8_chunks().count()\n}\n", "'added' (line"),
    Edit("an array as a literal", "avro_answer/src/fault_lines.rt", None, 'fn added() -> &\'static str {\n    "[1,2]"\n}\n', "'[1,2]' (line"),
    Edit(
        "a member where one is excepted",
        "avro_answer/src/explaining.rt",
        'Form::Json => "{\\"verdict\\":\\"yes\\",\\"faults\\":[]}\\n",',
        'Form::Json => "{\\"verdict\\":\\"yes\\",\\"pairs\\":0,\\"faults\\":[]}\\n",',
        '"pairs":0',
    ),
    Edit("digits of a digest by hand", DIGEST, "hex::encode(alloc, &digest[..])?", "digits_of(alloc, &digest[..])?", "hex::encode is not there"),
    Edit("a digest by hand", DIGEST, "use sha2::{Digest, Sha256};", "use crate::digesting::{Digest, Sha256};", "sha2::Sha256::new is not there"),
    Edit(
        "no clap",
        "avro_tool/src/grammar.rt",
        "use clap::{Arg, ArgAction, Command};",
        "use crate::parsing::{Arg, ArgAction, Command};",
        "clap::Command::new is not there",
    ),
    Edit(
        "a reader of JSON by hand",
        "avro_schema_json/src/read.rt",
        "match Value::from_slice(alloc, text) {",
        "match read_value(alloc, text) {",
        "serde_json::Value::from_slice is not there",
    ),
    Edit("a private plan", "avro_resolve/src/lib.rt", "pub use plan::Plan;", "use plan::Plan;", "avro_resolve::Plan: there is no public struct"),
    Edit(
        "a derive of another trait",
        "avro_name/src/error.rt",
        "use thiserror::Error;",
        "use crate::derived::Error;",
        "'NameError' (line",
    ),
    Edit(
        "a hashed map by the name of an alias",
        "avro_compare/src/symbols.rt",
        None,
        "type Table<K> = HashMap<K, u32>;\n\nfn added(table: &Table<String>) {}\n",
        "'String' (line",
    ),
    # These take other ways around the same rules.
    Edit(
        "trees by the names of the library",
        NAME_TABLE,
        "use indexmap::{IndexMap, IndexSet};",
        "use std::collections::{BTreeMap as IndexMap, BTreeSet as IndexSet};",
        "indexmap::IndexMap<(u32, String)> is not there",
    ),
    Edit("a module by the name of a library", "avro_canonical/src/lib.rt", None, "mod sha2;\n", "a module has the name of the library sha2"),
    Edit(
        "a marker read by hand",
        "avro_tool/src/number_options.rt",
        "match <[u8; 16] as FromHex>::from_hex(digits) {",
        "match u128::from_str_radix(digits, 16).map(u128::to_be_bytes) {",
        "hex::FromHex::from_hex is not there",
    ),
    Edit(
        "JSON by a format",
        "avro_tool/src/commands/check.rt",
        None,
        'fn added(alloc: Global, size: u32) -> Result<String, AllocError> {\n    format!(in alloc; "{{\\"size\\":{size}}}")\n}\n',
        "size",
    ),
    Edit("a boolean by hand", "avro_answer/src/verdicts.rt", None, 'fn added(yes: bool) -> &\'static str {\n    if yes { "true" } else { "no" }\n}\n', "'true' (line"),
    Edit(
        "a tree whose keys are not written",
        "avro_schema/src/naming.rt",
        None,
        "fn added(alloc: Global, name: &str) -> Result<(), Memory> {\n    let mut seen = BTreeMap::new(alloc);\n    seen.insert(name, 0)?;\n    Ok(())\n}\n",
        "'added: no key'",
    ),
    Edit("std's check by another name", "avro_file/src/header/properties.rt", None, "use std::str::from_utf8 as checked;\n", "'use' (line"),
    Edit(
        "an error without a derive",
        "avro_certificate/src/error.rt",
        "#[derive(Clone, Copy, Debug, PartialEq, Eq, Error)]",
        "#[derive(Clone, Copy, Debug, PartialEq, Eq)]",
        "'CertError' (line",
    ),
    Edit("an option by hand", "avro_tool/src/command_line.rt", None, 'fn added(word: &str) -> bool {\n    word == "--json"\n}\n', "'--json' (line"),
    Edit("no hash of a name", "avro_name/src/full_name.rt", "impl Hash for FullName {", "impl Hashed for FullName {", "avro_name::FullName::hash"),
]


def is_found(edit: Edit) -> bool:
    """Whether a finding says what an edit breaks."""
    file = CRATES / edit.file
    text = source_of(file)
    if edit.old is not None and text.count(edit.old) != 1:
        print(f"{edit.name}: in {edit.file} this stands {text.count(edit.old)} times: {edit.old}")
        return False
    EDITED[file] = text + "\n" + edit.new if edit.old is None else text.replace(edit.old, edit.new)
    found = findings()
    del EDITED[file]
    is_there = any(edit.told in it and edit.file.split("/")[0] in it for it in found)
    if not is_there:
        print(f"{edit.name}: no finding says {edit.told!r}, but: {found}")
    return is_there


def main(names: list[str]) -> int:
    """Tries all edits, or those of these names."""
    before = findings()
    for finding in before:
        print(f"without any edit: {finding}")
    edits = [edit for edit in EDITS if not names or edit.name in names]
    count = sum(is_found(edit) for edit in edits)
    print(f"{len(edits)} edits, {count} found")
    return 0 if edits and count == len(edits) and not before else 1


if __name__ == "__main__":
    sys.exit(main(sys.argv[1:]))

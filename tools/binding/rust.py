"""What follows from the table for the crate for Rust."""
import re

from .table import Group, Struct, Table, Value, camel, sentence

MADE = "Made by `tools/bindings` from `include/fancy.toml`."
TYPES = {"uint32_t": "u32", "size_t": "usize", "ptrdiff_t": "isize", "bool": "u8"}


def said(doc: str, indent: str = "    ") -> list:
    text = re.sub("`FANCY_FLAG_([A-Z_]+)`", r"[`Flags::\1`](crate::Flags::\1)", sentence(doc))
    return [f"{indent}/// {text}"] if doc else []


def numbers(table: Table) -> list:
    """The file `numbers.rs`."""
    lines = [f"//! The numbers of `fancy.h`. {MADE}", "#![allow(dead_code)] // some are for other languages"]
    for group in table.groups:
        lines += ["", *(f"pub(crate) const {it.full_name}: u32 = {it.number};" for it in group.values)]
    lines += ["", "// the largest number of a group"]
    lines += [f"pub(crate) const LAST_{it.key.upper()}: u32 = {it.values[-1].number};" for it in table.groups]
    version = [f"pub(crate) const VERSION_{name}: u32 = {number};" for name, number in table.version_numbers().items()]
    letters = ["/// The letters of the flags, in the order of their bits.", f'pub(crate) const FLAG_LETTERS: &str = "{table.letters}";']
    return [*lines, "", *letters, "", *version]


def struct(it: Struct) -> list:
    traits = "Debug, Clone, Copy" + ("" if it.key == "result" else ", Default")
    fields = [f"    pub {field.name}: {TYPES[field.type]}," for field in it.fields]
    head = ["", f"/// `fancy_{it.key}`", "#[repr(C)]", f"#[derive({traits})]"]
    return [*head, f"pub(crate) struct {it.rust} {{", *fields, "}"]


def structs(table: Table) -> list:
    """The file `structs.rs`."""
    bools = ["//!", "//! A bool of C is a `u8`, so that each byte is a valid one, whatever the library writes."]
    head = [f"//! The structs of `fancy.h`, laid out as they are there. {MADE}", *bools]
    return head + [line for it in table.structs for line in struct(it)]


def flags(table: Table) -> list:
    """The constants of `Flags`, and their names."""
    lines = []
    for it in table.group("flag").shared():
        whole = f"    pub const {it.name}: Flags = Flags(numbers::{it.full_name});"
        broken = [f"    pub const {it.name}: Flags =", f"        Flags(numbers::{it.full_name});"]
        lines += [*said(it.doc), *([whole] if len(whole) <= 120 else broken)]
    names = [it.name for it in table.group("flag").shared()]
    return [*lines, "", f"    const NAMES: [&'static str; {len(names)}] = [", *(f'        "{it}",' for it in names), "    ];"]


def variant(value: Value) -> str:
    return value.original + (" { crlf: bool }" if "crlf" in value.fields else "")


def which(group: Group) -> list:
    """An enum of the numbers that `which` has."""
    name, has_crlf = group.given["rust"]["name"], any(it.fields for it in group.values)
    crlf = ["        /// CR is a line terminator too, and CR LF a single one.", "        crlf: bool,"]
    variants = []
    for it in group.values:
        body = [f"    {it.original} {{", *crlf, "    },"] if it.fields else [f"    {it.original},"]
        variants += [*said(it.doc), *body]
    to = [f"            {name}::{it.original}{' { .. }' if it.fields else ''} => numbers::{it.full_name}," for it in group.values]
    back = [f"            numbers::{it.full_name} => {name}::{it.original}{' { crlf }' if it.fields else ''}," for it in group.values]
    having = "\n            | ".join(f"{name}::{it.original} {{ crlf }}" for it in group.values if it.fields)
    field = ["", "    /// Whether CR is a line terminator too; false if the variant has no such field.", "    pub(crate) fn crlf(self) -> bool {"]
    field += ["        match self {", f"            {having} => crlf,", "            _ => false,", "        }", "    }"]
    return [
        "", f"/// {group.given['rust']['doc']}", "#[derive(Debug, Clone, Copy, PartialEq, Eq)]", "#[non_exhaustive]",
        f"pub enum {name} {{", *variants, "}", "", f"impl {name} {{",
        "    pub(crate) fn number(self) -> u32 {", "        match self {", *to, "        }", "    }", "",
        f"    pub(crate) fn numbered(number: u32{', crlf: bool' if has_crlf else ''}) -> Option<{name}> {{",
        "        Some(match number {", *back, "            _ => return None,", "        })", "    }",
        *(field if has_crlf else []), "}",
    ]  # fmt: skip


def errors(group: Group) -> list:
    """The enum `ParseError`."""
    values, variants = group.kinds(), []
    for it in values:
        also = f" With {it.given['carries']}." if it.carries else ""
        variants += [said(it.doc)[0] + also, f"    {camel(it.name)}{'(String)' if it.carries else ''},"]
    numbered = [
        f"            numbers::{it.full_name} => ParseError::{camel(it.name)}{'(String::new())' if it.carries else ''},"
        for it in values
    ]
    messages = [
        f"            ParseError::{camel(it.name)}{'(_)' if it.carries else ''} => \"{it.given['message']}\"," for it in values
    ]
    carrying = [f"ParseError::{camel(it.name)}(text)" for it in values if it.carries]
    texts = [f"            {'| ' if i else ''}{it}" for i, it in enumerate(carrying)]
    return ERRORS.format(*map("\n".join, (variants, numbered, messages, texts, texts))).split("\n")


ERRORS = """
/// What is wrong with a pattern, under the names of fancy-regex. `Display` writes the message, without the position. A later
/// version of the crate may have more kinds.
#[derive(Debug, Clone, PartialEq, Eq)]
#[non_exhaustive]
pub enum ParseError {{
{}
    /// A kind that this crate has no name for, of a library that is newer: its number and its whole message.
    Unknown(u32, String),
}}

impl ParseError {{
    /// The kind with a number, without the text that depends on the pattern.
    pub(crate) fn numbered(number: u32) -> Option<ParseError> {{
        Some(match number {{
{}
            _ => return None,
        }})
    }}

    /// The message up to the text that depends on the pattern.
    pub(crate) fn words(&self) -> &'static str {{
        match self {{
{}
            ParseError::Unknown(..) => "",
        }}
    }}

    pub(crate) fn carried(&self) -> Option<&String> {{
        match self {{
{}
            | ParseError::Unknown(_, text) => Some(text),
            _ => None,
        }}
    }}

    pub(crate) fn carried_mut(&mut self) -> Option<&mut String> {{
        match self {{
{}
            | ParseError::Unknown(_, text) => Some(text),
            _ => None,
        }}
    }}
}}"""


def kinds(table: Table) -> list:
    """The file `kinds.rs`."""
    head = [f"//! Kinds of errors, assertions and the like, with their numbers. {MADE}", "", "use crate::numbers;"]
    groups = [it for it in table.groups if "rust" in it.given]
    return head + errors(table.group("error")) + [line for it in groups for line in which(it)]

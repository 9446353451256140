"""Finds the patterns in source files, and writes each as a record: an object of JSON in a line, which says where the pattern is.

    python -m fancy extract src/*.py >records.jsonl

- In Python it finds the calls of the functions of `re` and `regex` whose first argument is a string literal.
- In Rust it finds the string literals after `Regex::new(` and `RegexBuilder::new(`.
- In property lists, JSON (with comments or without) and YAML it finds the texts under the keys of TextMate's grammars and
  Sublime's syntaxes, and under those that `--keys` names.

A program calls `records` with the name of a file and its content:

    >>> from fancy_extract import records
    >>> [(it["column"], it["pattern"]) for it in records("a.py", b"import re; re.compile('a+')")]
    [(24, 'a+')]

The library libfancy is not needed. YAML is read by PyYAML, if that is installed. Python 3.8 or later.
"""

from __future__ import annotations

import argparse
import ast
import bisect
import importlib
import itertools
import json
import os
import plistlib
import re
import sys
import tokenize
import unicodedata
import warnings
import xml.parsers.expat
from dataclasses import dataclass, replace
from typing import Any, Callable, Dict, Iterator, List, Optional, Sequence, Set, Tuple

__all__ = ["GRAMMAR_KEYS", "ExtractError", "main", "records"]

_LETTERS = "imsUxuRon"  # of the flags, as `patterns --flags` takes them

#: the keys under which TextMate's grammars and Sublime's syntaxes have patterns
GRAMMAR_KEYS = frozenset(
    "match begin end while firstLineMatch foldingStartMarker foldingStopMarker first_line_match escape".split()
)


class ExtractError(Exception):
    """Why the patterns of a file cannot be found, and the line and the column, from 1, as far as they are known."""

    def __init__(self, message: str, line: Optional[int] = None, column: Optional[int] = None) -> None:
        super().__init__(message)
        self.line, self.column = line, column


class Source:
    """The text of a file, and where its characters are."""

    def __init__(self, content: bytes, encoding: str = "utf-8") -> None:
        mark = len(b"\xef\xbb\xbf") if content.startswith(b"\xef\xbb\xbf") else 0
        try:
            self.text = content[mark:].decode(encoding)
        except UnicodeDecodeError as error:
            line = content.count(b"\n", 0, mark + error.start) + 1
            raise ExtractError(f"the line is not valid {encoding.upper()}", line) from error
        self.lines = [0, *(found.end() for found in re.finditer("\n", self.text))]
        self.mark = mark
        self.is_utf8 = encoding == "utf-8"
        self._offsets: Optional[List[int]] = None

    def position(self, index: int) -> Tuple[int, int]:
        """The line and the column of the character, from 1; columns count characters."""
        line = bisect.bisect_right(self.lines, index)
        return line, index - self.lines[line - 1] + 1

    def offsets(self) -> Sequence[int]:
        """The byte offset of each character of the text in UTF-8, and of its end."""
        if self.text.isascii():
            return range(self.mark, self.mark + len(self.text) + 1)
        if self._offsets is None:
            sizes = (len(character.encode()) for character in self.text)
            self._offsets = list(itertools.accumulate(sizes, initial=self.mark))
        return self._offsets

    def offset(self, index: int) -> int:
        """The byte offset of the character in the file, which is in UTF-8."""
        return self.offsets()[index]

    def index(self, line: int, byte_column: int) -> int:
        """The index of the character in a line, from 1, that is so many bytes of UTF-8 after its start."""
        offsets = self.offsets()
        return bisect.bisect_left(offsets, offsets[self.lines[line - 1]] + byte_column)


@dataclass(frozen=True)
class Found:
    """A pattern in a source."""

    pattern: str
    start: int  #: the index of its first character in the source
    indexes: Optional[Sequence[int]] = None  #: that of each of its characters and of its end, if they are known
    flags: Optional[str] = None  #: the letters of its flags, or "-"; None if they are not known
    syntax: Optional[str] = None  #: what its literals are written in; None if they are not known
    literals: Sequence[Tuple[int, int]] = ()  #: the indexes at which each of them begins and ends
    dialect: Optional[str] = None  #: the dialect that it is written in; None if it is not known

    def record(self, file: str, source: Source) -> Dict[str, Any]:
        """The record of the pattern."""
        line, column = source.position(self.start)
        record: Dict[str, Any] = {"file": file, "line": line, "column": column, "pattern": self.pattern}
        if self.flags is not None:
            record["flags"] = self.flags
        if self.dialect is not None:
            record["dialect"] = self.dialect
        if self.indexes is not None:
            positions = [source.position(index) for index in self.indexes]
            if any(position[0] != line for position in positions):
                record["lines"] = [position[0] for position in positions]
            record["columns"] = [position[1] for position in positions]
        if self.syntax is not None and source.is_utf8:
            record["syntax"] = self.syntax
            record["literals"] = [source.offset(index) for literal in self.literals for index in literal]
        return record


def _letters(letters: Set[str]) -> str:
    """The word that names the flags."""
    return "".join(letter for letter in _LETTERS if letter in letters) or "-"


class _Text:
    """A text that is put together from parts of a source, and the indexes of its characters there."""

    def __init__(self) -> None:
        self.characters: List[str] = []
        self.indexes: List[int] = []

    def add(self, text: str, index: int) -> None:
        """Adds what a part of the source at the index stands for."""
        self.characters.append(text)
        self.indexes.extend([index] * len(text))

    def take(self, source: str, index: int, end: int) -> None:
        """Adds a part of the source as it is. A line ends with a line feed, however it ends in the source."""
        while index < end:
            is_pair = source.startswith("\r\n", index) and index + 2 <= end
            self.add("\n" if is_pair or source[index] == "\r" else source[index], index)
            index += 2 if is_pair else 1

    def found(
        self,
        value: str,
        start: int,
        end: int,
        flags: Optional[str] = None,
        syntax: Optional[str] = None,
        literals: Sequence[Tuple[int, int]] = (),
    ) -> Found:
        """The pattern with this value, between the indexes. If the text is another, its characters are not known."""
        is_known = "".join(self.characters) == value
        return Found(value, start, [*self.indexes, end] if is_known else None, flags, syntax, literals)


# ---- Python

#: the functions of `re` and `regex` that take a pattern first, and how many arguments come before the flags
_CALLS = {
    "compile": 1, "match": 2, "search": 2, "fullmatch": 2, "findall": 2, "finditer": 2, "split": 3, "sub": 4, "subn": 4,
    "splititer": 3,
}  # fmt: skip

#: the letters of the flags of `re`
_PYTHON_FLAGS = {
    "I": "i", "IGNORECASE": "i", "M": "m", "MULTILINE": "m", "S": "s", "DOTALL": "s", "X": "x", "VERBOSE": "x", "U": "",
    "UNICODE": "", "A": "a", "ASCII": "a", "L": "", "LOCALE": "", "DEBUG": "", "NOFLAG": "",
}  # fmt: skip

_PYTHON_LITERAL = re.compile(r"([A-Za-z]{0,2})('''|\"\"\"|'|\")")
_PYTHON_GAP = re.compile(r"(?:\s|\\\r?\n|#[^\n]*)*")
_PYTHON_ESCAPE = re.compile(
    r"\\(?:(?P<line>\r?\n)|(?P<octal>[0-7]{1,3})|x(?P<hex>[0-9A-Fa-f]{2})|(?P<simple>[\\'\"abfnrtv])"
    r"|(?P<unicode>N\{(?P<name>[^}]*)\}|u(?P<short>[0-9A-Fa-f]{4})|U(?P<long>[0-9A-Fa-f]{8})))"
)
_SIMPLE = {"a": "\a", "b": "\b", "f": "\f", "n": "\n", "r": "\r", "t": "\t", "v": "\v"}


def _python_escape(source: str, at: int, is_bytes: bool) -> Optional[Tuple[str, int]]:
    """What the escape at the index stands for, and where it ends; None if there is none."""
    escape = _PYTHON_ESCAPE.match(source, at)
    if escape is None or (is_bytes and escape["unicode"]):
        return None
    if escape["line"]:
        return "", escape.end()
    if escape["simple"]:
        return _SIMPLE.get(escape["simple"], escape["simple"]), escape.end()
    if escape["name"] is not None:
        return unicodedata.lookup(escape["name"]), escape.end()
    if escape["octal"]:
        return chr(int(escape["octal"], 8)), escape.end()
    return chr(int(escape["hex"] or escape["short"] or escape["long"], 16)), escape.end()


def _python_string(source: str, at: int, text: _Text) -> Tuple[int, int]:
    """Adds the string literal at the index to the text, and returns where its text ends, and where it does."""
    literal = _PYTHON_LITERAL.match(source, at)
    if literal is None:
        raise ValueError
    prefix, quote, at = literal[1].lower(), literal[2], literal.end()
    while not source.startswith(quote, at):
        if source[at] != "\\":
            end = at + (2 if source.startswith("\r\n", at) else 1)
            text.take(source, at, end)
        elif "r" in prefix:
            end = at + (3 if source.startswith("\r\n", at + 1) else 2)
            text.take(source, at, end)
        else:
            value, end = _python_escape(source, at, "b" in prefix) or ("\\", at + 1)
            text.add(value, at)
        at = end
    return at, at + len(quote)


def _string_literal(source: Source, node: ast.Constant, flags: Optional[str]) -> Found:
    """The text of a string literal, which may have several parts."""
    at = source.index(node.lineno, node.col_offset)
    end = source.index(node.end_lineno or node.lineno, node.end_col_offset or 0)
    value = node.value if isinstance(node.value, str) else node.value.decode("ascii")
    literal, text, literals = _PYTHON_LITERAL.match(source.text, at), _Text(), []
    start = stop = literal.end() if literal else at
    try:
        while at < end:
            begin = at
            stop, at = _python_string(source.text, at, text)
            literals.append((begin, at))
            at = _PYTHON_GAP.match(source.text, at).end()  # type: ignore[union-attr]
    except (ValueError, KeyError, IndexError):
        return Found(value, start, flags=flags)
    return text.found(value, start, stop, flags, "python", literals)


def _python_literal(source: Source, node: ast.Constant, flags: Optional[str]) -> Found:
    """The pattern of a string literal, which is one of Python's."""
    return replace(_string_literal(source, node, flags), dialect="python")


class _Names:
    """The names that a module of Python has for `re` and `regex`, and for what is in them."""

    def __init__(self, tree: ast.AST) -> None:
        self.modules: Set[str] = set()
        self.members: Dict[str, str] = {}
        for node in ast.walk(tree):
            if isinstance(node, ast.Import):
                self.modules.update(it.asname or it.name for it in node.names if it.name in ("re", "regex"))
            if isinstance(node, ast.ImportFrom) and node.module in ("re", "regex") and node.level == 0:
                self.members.update((it.asname or it.name, it.name) for it in node.names)

    def member(self, node: ast.expr) -> Optional[str]:
        """The name in `re` of what an expression names."""
        if isinstance(node, ast.Attribute) and isinstance(node.value, ast.Name) and node.value.id in self.modules:
            return node.attr
        return self.members.get(node.id) if isinstance(node, ast.Name) else None

    def flags(self, node: ast.expr) -> Optional[Set[str]]:
        """The letters of the flags that an expression combines; None if it is anything else."""
        letters: Set[str] = set()
        ahead = [node]
        while ahead:
            node = ahead.pop()
            if isinstance(node, ast.BinOp) and isinstance(node.op, ast.BitOr):
                ahead += [node.left, node.right]
            elif not isinstance(node, ast.Constant) or node.value != 0:
                known = _PYTHON_FLAGS.get(self.member(node) or "")
                if known is None:
                    return None
                letters.update(known)
        return letters

    def letters(self, call: ast.Call, count: int, is_text: bool) -> Optional[str]:
        """The word for the flags of a call, where so many arguments come before them."""
        given = [it.value for it in call.keywords if it.arg == "flags"] or call.args[count : count + 1]
        if any(it.arg is None for it in call.keywords) or any(isinstance(it, ast.Starred) for it in call.args):
            return None
        flags = self.flags(given[0]) if given else set()
        if flags is None:
            return None
        return _letters(flags - {"a"} | ({"u"} if is_text and "a" not in flags else set()))


def find_in_python(content: bytes, _keys: Set[str]) -> Tuple[Source, List[Found]]:
    """The patterns of a module of Python."""
    try:
        encoding, _ = tokenize.detect_encoding(iter(content.splitlines(keepends=True)).__next__)
        source = Source(content, "utf-8" if encoding.startswith("utf-8") else encoding)
        with warnings.catch_warnings():
            # on an escape that is none, which a pattern that is not raw often has
            warnings.simplefilter("ignore")
            tree = ast.parse(source.text)
    except SyntaxError as error:
        raise ExtractError(error.msg or "the file is not Python", error.lineno, error.offset) from error
    except (ValueError, LookupError) as error:
        raise ExtractError(f"the file is not Python: {error}") from error
    except (RecursionError, MemoryError) as error:
        raise ExtractError("the code nests too deep") from error
    names, found = _Names(tree), []
    for call in ast.walk(tree):
        if not isinstance(call, ast.Call):
            continue
        count = _CALLS.get(names.member(call.func) or "")
        given = call.args[:1] or [it.value for it in call.keywords if it.arg == "pattern"]
        if count is None or not given or not isinstance(given[0], ast.Constant):
            continue
        value = given[0].value
        if isinstance(value, str) or (isinstance(value, bytes) and value.isascii()):
            found.append(_python_literal(source, given[0], names.letters(call, count, isinstance(value, str))))
    return source, found


# ---- Rust

_RUST_TOKEN = re.compile(
    r"(?P<line>//[^\n]*)|(?P<block>/\*)|(?P<raw>\b[bc]?r(?P<hashes>\#*)\")|(?P<string>(?:\b[bc])?\")"
    r"|(?P<character>(?:\bb)?'(?:\\[^\n]?[^'\n]*|[^\\'\n])')|(?P<call>\bRegex(?:Builder)?\s*::\s*new\s*\(\s*)"
)
_RUST_BLOCK = re.compile(r"/\*|\*/")
_RUST_ESCAPE = re.compile(
    r"\\(?:(?P<line>\r?\n\s*)|x(?P<hex>[0-9A-Fa-f]{2})|u\{(?P<unicode>[0-9A-Fa-f_]+)\}|(?P<simple>[nrt\\0'\"]))"
)
_RUST_SIMPLE = {"n": "\n", "r": "\r", "t": "\t", "0": "\0"}
_RUST_OPTION = re.compile(r"\s*\.\s*(\w+)\s*\(\s*(true|false)?[^()]*\)")
_RUST_FLAGS = {
    "case_insensitive": "i", "multi_line": "m", "dot_matches_new_line": "s", "swap_greed": "U", "ignore_whitespace": "x",
    "verbose_mode": "x", "unicode": "u", "unicode_mode": "u", "crlf": "R", "oniguruma_mode": "o",
}  # fmt: skip


def _past_block(source: str, at: int) -> int:
    """The index past a block comment that is open at the index; others may be nested in it."""
    depth = 1
    for found in _RUST_BLOCK.finditer(source, at):
        depth += 1 if found[0] == "/*" else -1
        if depth == 0:
            return found.end()
    return len(source)


def _rust_raw(source: str, at: int, hashes: str) -> Tuple[_Text, int, int]:
    """The text of a raw string from past its opening quote on, where it ends, and where its literal does."""
    text, end = _Text(), source.find('"' + hashes, at)
    end = len(source) if end < 0 else end
    text.take(source, at, end)
    return text, end, end + 1 + len(hashes)


def _rust_string(source: str, at: int) -> Tuple[_Text, int, int]:
    """The same of a string that has escapes."""
    text = _Text()
    while at < len(source) and source[at] != '"':
        escape = _RUST_ESCAPE.match(source, at)
        if escape is None:
            end = at + (2 if source.startswith("\r\n", at) or source[at] == "\\" else 1)
            text.take(source, at, end)
        else:
            end, code = escape.end(), escape["hex"] or (escape["unicode"] or "").replace("_", "")
            simple = escape["simple"] or ""
            text.add(chr(int(code, 16)) if code else _RUST_SIMPLE.get(simple, simple), at)
        at = end
    return text, at, at + 1


def _rust_flags(source: str, at: int) -> str:
    """The word for the flags that are set by the calls after the string at the index, those of a builder."""
    letters, closing = {"u"}, re.compile(r"\s*,?\s*\)").match(source, at)
    at = closing.end() if closing else len(source)
    while True:
        option = _RUST_OPTION.match(source, at)
        if option is None:
            return _letters(letters)
        letter = _RUST_FLAGS.get(option[1], "")
        letters = letters - {letter} if option[2] == "false" else letters | set(letter)
        at = option.end()


def find_in_rust(content: bytes, _keys: Set[str]) -> Tuple[Source, List[Found]]:
    """The patterns of a source file of Rust."""
    source, at, argument = Source(content), 0, -1
    found: List[Found] = []
    while True:
        token = _RUST_TOKEN.search(source.text, at)
        if token is None:
            return source, found
        start = at = token.end()
        if token["call"]:
            argument = at
        elif token["line"] or token["block"]:
            at = _past_block(source.text, at) if token["block"] else at
            # a comment between the parenthesis and the string
            if token.start() == argument:
                argument = re.compile(r"\s*").match(source.text, at).end()  # type: ignore[union-attr]
        elif token["raw"] or token["string"]:
            is_raw = token["raw"] is not None
            text, end, at = _rust_raw(source.text, at, token["hashes"]) if is_raw else _rust_string(source.text, at)
            if token.start() == argument:
                flags, literals = _rust_flags(source.text, at), [(token.start(), at)]
                found.append(text.found("".join(text.characters), start, end, flags, "rust", literals))


# ---- JSON with comments

_JSON_NOISE = re.compile(r'"(?:\\.|[^"\\])*"|//[^\n]*|/\*.*?\*/|,(?=(?:\s|//[^\n]*|/\*.*?\*/)*[\]}])', re.DOTALL)
_JSON_TOKEN = re.compile(r'"(?:\\.|[^"\\])*"|[{}\[\]:,]', re.DOTALL)
_JSON_PART = re.compile(r"\\u[Dd][89ABab][0-9A-Fa-f]{2}\\u[Dd][C-Fc-f][0-9A-Fa-f]{2}|\\u[0-9A-Fa-f]{4}|\\.|[^\\]", re.DOTALL)


def _blank(found: "re.Match[str]") -> str:
    """Blanks in the place of a comment, or of a comma before a closing bracket."""
    return found[0] if found[0].startswith('"') else re.sub(r"[^\n]", " ", found[0])


def _json_string(token: str, start: int) -> Found:
    """The pattern that is a string of JSON, with its quotes, at the index."""
    text = _Text()
    for part in _JSON_PART.finditer(token, 1, len(token) - 1):
        text.add(json.loads(f'"{part[0]}"', strict=False), start + part.start())
    end = start + len(token)
    return text.found(json.loads(token, strict=False), start + 1, end - 1, None, "json", [(start, end)])


def find_in_json(content: bytes, keys: Set[str]) -> Tuple[Source, List[Found]]:
    """The patterns of a file of JSON, which may have comments and commas before closing brackets."""
    source, found = Source(content), []
    text = _JSON_NOISE.sub(_blank, source.text)
    try:
        json.loads(text)
    except json.JSONDecodeError as error:
        raise ExtractError(f"the file is not valid JSON: {error.msg}", error.lineno, error.colno) from error
    except RecursionError as error:
        raise ExtractError("the JSON nests too deep") from error
    last, key, before = "", "", ""
    for token in _JSON_TOKEN.finditer(text):
        if token[0] == ":" and last.startswith('"'):
            key = json.loads(last)
        if token[0].startswith('"') and before == ":" and key in keys:
            found.append(_json_string(token[0], token.start()))
        last = before = token[0]
    return source, found


# ---- property lists


class _PropertyList:
    """A walk over a property list in XML."""

    def __init__(self, source: Source, content: bytes, keys: Set[str]) -> None:
        self.source, self.content, self.keys = source, content, keys
        self.found: List[Found] = []
        self.key = ""
        self.text: Optional[_Text] = None
        self.begin = 0  #: the index after the start tag of the element
        self.parser = xml.parsers.expat.ParserCreate()
        self.parser.buffer_text = False
        self.parser.StartElementHandler = self.start
        self.parser.EndElementHandler = self.end
        self.parser.CharacterDataHandler = self.data

    def at(self) -> int:
        """The index of the character that the parser has come to."""
        line, column = self.parser.CurrentLineNumber, self.parser.CurrentColumnNumber
        return min(self.source.lines[line - 1] + column, len(self.source.text))

    def start(self, name: str, _attributes: Dict[str, str]) -> None:
        self.text = _Text() if name in ("key", "string") else None
        self.begin = self.source.text.find(">", self.at()) + 1
        if self.text is None:
            # what an array has is under no key
            self.key = ""

    def data(self, text: str) -> None:
        if self.text is not None:
            # an entity is a part by itself, of one character
            at = self.at()
            for i, character in enumerate(text):
                self.text.add(character, at + i)

    def end(self, name: str) -> None:
        text, self.text = self.text, None
        if name == "key" and text is not None:
            self.key = "".join(text.characters)
            return
        if name == "string" and text is not None and self.key in self.keys:
            end = self.at()
            start = text.indexes[0] if text.indexes else end
            # an element without an end tag has no contents
            syntax = "xml" if self.source.text.startswith("</", end) else None
            value = "".join(text.characters)
            self.found.append(text.found(value, start, end, None, syntax, [(self.begin, end)]))
        self.key = ""


def find_in_property_list(content: bytes, keys: Set[str]) -> Tuple[Source, List[Found]]:
    """The patterns of a property list in XML."""
    if content.startswith(b"bplist"):
        raise ExtractError("the property list is binary, and has no lines: convert it to XML")
    source = Source(content)
    try:
        plistlib.loads(content, fmt=plistlib.FMT_XML)
        walk = _PropertyList(source, content, keys)
        walk.parser.Parse(content, True)
    except xml.parsers.expat.ExpatError as error:
        message = xml.parsers.expat.ErrorString(error.code)
        raise ExtractError(f"the file is not a property list: {message}", error.lineno, error.offset + 1) from error
    except (plistlib.InvalidFileException, ValueError, TypeError, AttributeError, IndexError) as error:
        raise ExtractError("the file is not a property list") from error
    return source, walk.found


# ---- YAML

_VARIABLE = re.compile(r"\{\{([A-Za-z0-9_]+)\}\}")


def _yaml_text(source: str, node: Any) -> Tuple[_Text, int]:
    """The text of a scalar of YAML, and where it ends, as far as it is read here."""
    text, start, end = _Text(), node.start_mark.index, node.end_mark.index
    if node.style is None:
        text.take(source, start, end)
        return text, end
    if node.style == "'":
        for part in re.compile("''|[^']", re.DOTALL).finditer(source, start + 1, end - 1):
            text.add(part[0][0], part.start())
        return text, end - 1
    if node.style == '"':
        for part in re.compile(r"\\[\"\\/]|[^\\]", re.DOTALL).finditer(source, start + 1, end - 1):
            text.add(part[0][-1], part.start())
        return text, end - 1
    if node.style == "|":
        at = source.find("\n", start) + 1
        for line in node.value.split("\n"):
            stop = source.find("\n", at)
            stop = len(source) if stop < 0 else stop
            # the indentation is no part of the text
            first = stop - len(line) - (1 if source.startswith("\r", stop - 1) else 0)
            if text.characters:
                text.add("\n", min(at - 1, len(source)))
            text.take(source, max(first, at), max(first, at) + len(line))
            at = stop + 1
        return text, text.indexes[-1] + 1 if text.indexes else start
    return text, start


def _yaml_syntax(source: str, node: Any, is_flow: bool) -> Optional[str]:
    """What the scalar is written in; None if it is folded, or has a tag or an anchor."""
    start = "" if node.style is None else node.style
    if start == ">" or not source.startswith(start, node.start_mark.index):
        return None
    if not start and source.startswith(("!", "&"), node.start_mark.index):
        return None
    return "yaml-flow" if is_flow else "yaml"


def _yaml_found(source: Source, node: Any, variables: Dict[str, str], syntax: Optional[str]) -> Found:
    """The pattern of a scalar, in which the variables of a syntax of Sublime are replaced."""
    text, end = _yaml_text(source.text, node)
    start = node.start_mark.index + (1 if node.style in ("'", '"') else 0)
    if node.style == "|" and text.indexes:
        start = text.indexes[0]
    literals = [(node.start_mark.index, node.end_mark.index)]
    plain = text.found(node.value, start, end, None, syntax, literals)
    if not any(name in variables for name in _VARIABLE.findall(node.value)):
        return plain
    replaced = _replaced(node.value, variables)
    if plain.indexes is None:
        return Found("".join(part for part, _ in replaced), start)
    whole = _Text()
    for part, at in replaced:
        whole.add(part, plain.indexes[at])
    return Found("".join(whole.characters), start, [*whole.indexes, end])


def _replaced(pattern: str, variables: Dict[str, str], depth: int = 0) -> List[Tuple[str, int]]:
    """The characters of a pattern, and in the place of each variable its text, each with its index in the pattern."""
    parts, at = [], 0
    for found in _VARIABLE.finditer(pattern):
        if found[1] not in variables or depth > 32:
            continue
        parts += [(pattern[i], i) for i in range(at, found.start())]
        inside = _replaced(variables[found[1]], variables, depth + 1)
        parts.append(("".join(part for part, _ in inside), found.start()))
        at = found.end()
    return parts + [(pattern[i], i) for i in range(at, len(pattern))]


def _yaml_variables(root: Any, yaml: Any) -> Dict[str, str]:
    """The variables of a syntax of Sublime."""
    for key, value in root.value if isinstance(root, yaml.MappingNode) else ():
        if key.value == "variables" and isinstance(value, yaml.MappingNode):
            return {name.value: text.value for name, text in value.value if isinstance(text, yaml.ScalarNode)}
    return {}


def find_in_yaml(content: bytes, keys: Set[str]) -> Tuple[Source, List[Found]]:
    """The patterns of a file of YAML."""
    try:
        yaml: Any = importlib.import_module("yaml")
    except ImportError as error:
        raise ExtractError("PyYAML, which reads YAML, is not installed") from error
    source, found = Source(content), []
    try:
        root = yaml.compose(source.text)
    except yaml.MarkedYAMLError as error:
        mark = error.problem_mark or error.context_mark
        message = f"the file is not valid YAML: {error.problem}"
        raise ExtractError(message, *((mark.line + 1, mark.column + 1) if mark else ())) from error
    except (yaml.YAMLError, RecursionError) as error:
        raise ExtractError("the file is not valid YAML") from error
    variables, scalars = _yaml_variables(root, yaml), []
    uses: Dict[int, int] = {}
    ahead, seen = [(root, False)], set()
    while ahead:
        node, is_flow = ahead.pop()
        uses[id(node)] = uses.get(id(node), 0) + 1
        if id(node) in seen:
            continue
        seen.add(id(node))
        is_flow = is_flow or bool(getattr(node, "flow_style", False))
        if isinstance(node, yaml.SequenceNode):
            ahead.extend((value, is_flow) for value in node.value)
        for key, value in node.value if isinstance(node, yaml.MappingNode) else ():
            ahead.append((value, is_flow))
            if key.value in keys and isinstance(value, yaml.ScalarNode) and value.tag == "tag:yaml.org,2002:str":
                scalars.append((value, is_flow))
    for node, is_flow in scalars:
        # a scalar that several aliases name is not one pattern's alone
        syntax = _yaml_syntax(source.text, node, is_flow) if uses[id(node)] == 1 else None
        found.append(_yaml_found(source, node, variables, syntax))
    return source, found


# ---- the command line

_Finder = Callable[[bytes, Set[str]], Tuple[Source, List[Found]]]

_FINDERS: Dict[str, _Finder] = {
    **dict.fromkeys((".py", ".pyi", ".pyw"), find_in_python),
    ".rs": find_in_rust,
    **dict.fromkeys((".json", ".jsonc", ".code-workspace"), find_in_json),
    **dict.fromkeys((".tmlanguage", ".plist", ".tmpreferences"), find_in_property_list),
    **dict.fromkeys((".sublime-syntax", ".yaml", ".yml"), find_in_yaml),
}


def records(file: str, content: bytes, keys: Sequence[str] = ()) -> Iterator[Dict[str, Any]]:
    """The records of the patterns of a file, in the order of the text: what `python -m fancy extract` writes as JSON. The name of
    the file says what it is. `keys` are names of keys beside `GRAMMAR_KEYS`. Raises `ExtractError` if the patterns cannot be found.
    """
    finder = _FINDERS.get(os.path.splitext(file)[1].lower())
    if finder is None:
        raise ExtractError(f"patterns are found in files whose names end with {', '.join(sorted(_FINDERS))}")
    source, found = finder(content, {*GRAMMAR_KEYS, *keys})
    for one in sorted(found, key=lambda it: it.start):
        yield one.record(file, source)


def _shown(file: str, error: ExtractError) -> str:
    position = "".join(f":{number}" for number in (error.line, error.column) if number is not None)
    return f"{file}{position}: {error}"


def main(arguments: Optional[Sequence[str]] = None) -> int:
    """Writes the records of the files, and returns the exit status: 2 if a file cannot be read, and then standard error says
    why, while the others are still read."""
    parser = argparse.ArgumentParser(
        prog="python -m fancy extract", description="Writes the patterns of source files as records in JSON."
    )
    parser.add_argument("--keys", default="", metavar="NAME[,NAME..]", help="more keys of JSON, YAML and property lists")
    parser.add_argument("files", nargs="+", metavar="FILE", help="a source file; its name says what it is")
    given = parser.parse_args(arguments)
    status = 0
    for file in given.files:
        try:
            with open(file, "rb") as opened:
                content = opened.read()
            found = list(records(file, content, [key for key in given.keys.split(",") if key]))
        except OSError as error:
            print(f"{file}: {error.strerror}", file=sys.stderr)
            status = 2
        except ExtractError as error:
            print(_shown(file, error), file=sys.stderr)
            status = 2
        else:
            for record in found:
                print(json.dumps(record))
    return status


if __name__ == "__main__":
    sys.exit(main())

"""Patterns in the syntax of fancy-regex: parse them, check them, and write them in one form. They are not matched.

    >>> import fancy
    >>> tree = fancy.parse(r"(?<year>\\d{4})-")
    >>> tree.named_groups
    {'year': (1,)}
    >>> [(type(node).__name__, node.span) for node in tree.walk()]
    [('Concat', (0, 15)), ('Group', (0, 14)), ('Repeat', (8, 13)), ('Delegate', (8, 10)), ('Literal', (14, 15))]
    >>> fancy.to_pattern("(?x) a {2,2}  # twice", fancy.UNICODE)
    'a{2}'
    >>> try:
    ...     fancy.parse("(é")
    ... except fancy.Error as error:
    ...     print(error, error.byte_position)
    Opening parenthesis without closing parenthesis at position 2 3

A pattern is a `str`, or `bytes` that are UTF-8. A position or a span counts characters of a `str` and bytes of `bytes`, so
that it can be used as an index. `byte_position` and `byte_span` are the same in bytes of the UTF-8.

The work is done by the shared library libfancy, whose functions are proved to meet their contracts. It is the file that
the environment variable FANCY_LIBRARY names; or else `libfancy.so.2` or `libfancy.so` beside this file; or else the one that
`make -C c` built in this source tree; or else the one that is installed. Its functions may be called in several threads at
once. A library that is newer than the module may have a kind that this does not know: then `RuntimeError` is raised. Python
3.8 or later.

On the command line, `python -m fancy tree PATTERN` writes the nodes of a pattern, `python -m fancy check FILE` reports each line
of a file that is not a valid pattern, and `python -m fancy extract FILE` writes the patterns of source files as records in JSON.
"""

from __future__ import annotations

import argparse
import bisect
import collections
import ctypes
import ctypes.util
import enum
import functools
import operator
import os
import re
import struct
import sys
import warnings
from dataclasses import dataclass, field
from typing import Callable, ClassVar, Deque, Dict, Iterator, List, Mapping, Optional, Sequence, Tuple, Type, TypeVar, Union

__all__ = [
    "Error", "Node", "NodeFacts", "Pattern", "PatternFacts", "Ranges", "Relative", "Span", "Tree", "Trivium", "check", "class_ranges",
    "escape", "facts", "format", "is_resolved", "normal_form", "parse", "parse_decimal", "parse_id", "to_pattern", "trivia",
]  # fmt: skip

Pattern = Union[str, bytes]
Span = Tuple[int, int]
Ranges = List[Tuple[int, int]]
_Kind = TypeVar("_Kind", bound=enum.IntEnum)
_Item = TypeVar("_Item")
_Fields = Dict[str, object]


# ---- flags, and kinds of things. The numbers are those of fancy.h.


class _KindWithText(enum.IntEnum):
    @property
    def text(self) -> str:
        """The message of this kind. Four messages end with a text that depends on the pattern: of these, what comes
        before that text, as `Invalid escape: `."""
        if self is ErrorKind.NOT_UTF8:
            return "Not UTF-8"
        message: bytes = _library.fancy_kind_message(self)
        return message.decode()


# ---- numbers: made by tools/bindings from include/fancy.toml
__all__ += [
    "CASEI", "MULTI", "DOTNL", "SWAP_GREED", "IGNORE_SPACE", "UNICODE", "CRLF", "ONIGURUMA_MODE",
    "IGNORE_NUMBERED_GROUPS_WHEN_NAMED_GROUPS_EXIST", "Flag", "ErrorKind", "AssertionKind", "LookKind", "VerbKind",
    "AbsentKind", "TriviumKind", "Precedence", "Style",
]


class Flag(enum.IntFlag):
    """Flags of a pattern, to be combined by `|`."""

    CASEI = 1  #: case-insensitive
    MULTI = 2  #: `^` and `$` match at line breaks too
    DOTNL = 4  #: `.` matches a line feed too
    SWAP_GREED = 8  #: quantifiers are lazy, and greedy with a `?` after them
    IGNORE_SPACE = 16  #: whitespace and comments from `#` to the end of a line are ignored
    UNICODE = 32  #: `\p{alnum}` and the like, `\x80` to `\xFF` and `\R` are those of Unicode
    CRLF = 64  #: CR is a line terminator too, and CR LF a single one
    ONIGURUMA_MODE = 128  #: the pattern is in Oniguruma's syntax
    IGNORE_NUMBERED_GROUPS_WHEN_NAMED_GROUPS_EXIST = 256  #: if some group has a name, groups without a name have no number


CASEI = Flag.CASEI
MULTI = Flag.MULTI
DOTNL = Flag.DOTNL
SWAP_GREED = Flag.SWAP_GREED
IGNORE_SPACE = Flag.IGNORE_SPACE
UNICODE = Flag.UNICODE
CRLF = Flag.CRLF
ONIGURUMA_MODE = Flag.ONIGURUMA_MODE
IGNORE_NUMBERED_GROUPS_WHEN_NAMED_GROUPS_EXIST = Flag.IGNORE_NUMBERED_GROUPS_WHEN_NAMED_GROUPS_EXIST

_LETTERS = "imsUxuRon"  # of the flags, in the order of their bits


class ErrorKind(_KindWithText):
    """Kinds of errors."""

    NOT_UTF8 = 0  #: the pattern is `bytes` that are not UTF-8, or a `str` with a lone surrogate
    GENERAL_PARSE_ERROR = 1  #: something else than what the other kinds say: `a)`
    UNCLOSED_OPEN_PAREN = 2  #: a group is not closed: `(a`
    INVALID_REPEAT = 3  #: it is never returned: braces that are not a quantifier are literals
    RECURSION_EXCEEDED = 4  #: groups nest 64 deep, or too many quantifiers follow one another in Oniguruma mode
    TRAILING_BACKSLASH = 5  #: a backslash at the end: `a\`
    INVALID_ESCAPE = 6  #: an escape that does not exist: `\q`
    UNCLOSED_UNICODE_NAME = 7  #: a property that is not closed: `\p{L`
    INVALID_HEX = 8  #: no digits where an escape needs them: `\xg`
    INVALID_CODEPOINT_VALUE = 9  #: a number that no character has: `\u{D800}`
    INVALID_CLASS = 10  #: a class that is not closed, or that cannot be read: `[a`
    UNKNOWN_FLAG = 11  #: a flag that does not exist: `(?q)`
    CHANGING_UNICODE_MODE_UNSUPPORTED = 12  #: `(?u)` without `UNICODE`, or `(?-u)` with it
    INVALID_BACKREF = 13  #: a reference to a group that does not exist: `\k<n>`
    TARGET_NOT_REPEATABLE = 14  #: a quantifier without an operand, or after something that cannot be repeated: `a**`
    INVALID_GROUP_NAME = 15  #: the name of a group cannot be read: `(?<a`
    INVALID_GROUP_NAME_BACKREF = 16  #: a reference to a name whose group opens after it: `\k<n>(?<n>a)`


class AssertionKind(enum.IntEnum):
    """Which assertion an `Assertion` is."""

    START_TEXT = 1  #: `\A`, or `^` without `MULTI`
    END_TEXT = 2  #: `\z`, or `$` without `MULTI`
    END_TEXT_IGNORE_TRAILING_NEWLINES = 3  #: `\Z`
    START_LINE = 4  #: `^` with `MULTI`
    START_LINE_ONIGURUMA = 5  #: `^` with `MULTI` in Oniguruma mode
    END_LINE = 6  #: `$` with `MULTI`
    LEFT_WORD_BOUNDARY = 7  #: `\<`, `\b{start}`
    LEFT_WORD_HALF_BOUNDARY = 8  #: `\b{start-half}`
    RIGHT_WORD_BOUNDARY = 9  #: `\>`, `\b{end}`
    RIGHT_WORD_HALF_BOUNDARY = 10  #: `\b{end-half}`
    WORD_BOUNDARY = 11  #: `\b`
    NOT_WORD_BOUNDARY = 12  #: `\B`


class LookKind(enum.IntEnum):
    """Which look-around a `LookAround` is."""

    AHEAD = 1  #: `(?=a)`
    AHEAD_NEG = 2  #: `(?!a)`
    BEHIND = 3  #: `(?<=a)`
    BEHIND_NEG = 4  #: `(?<!a)`


class VerbKind(enum.IntEnum):
    """Which verb a `Verb` is."""

    FAIL = 1  #: `(*FAIL)`
    ACCEPT = 2  #: `(*ACCEPT)`
    COMMIT = 3  #: `(*COMMIT)`
    SKIP = 4  #: `(*SKIP)`
    PRUNE = 5  #: `(*PRUNE)`


class AbsentKind(enum.IntEnum):
    """Which absent expression an `Absent` is."""

    REPEATER = 1  #: `(?~a)`: any text that does not contain a match of the child
    EXPRESSION = 2  #: `(?~|a|b)`: a match of the second child in a text that does not contain a match of the first
    STOPPER = 3  #: `(?~|a)`: from here on the text must not contain a match of the child
    CLEAR = 4  #: `(?~|)`: ends the effect of a stopper


class TriviumKind(enum.IntEnum):
    """What a `Trivium` is."""

    COMMENT = 1  #: a comment, `(?#..)`
    LINE_COMMENT = 2  #: a comment from `#` through its line feed, or through the end of the pattern
    INLINE_FLAGS = 3  #: inline flags, `(?i)`
    OPENING = 4  #: the opening of a flag group, as `(?:` or `(?i:`
    CLOSING = 5  #: the closing parenthesis of such a group
    DROPPED = 6  #: what leaves nothing in the tree, as `(?(` and `)|)` in `(?(1)|)`
    INNER_COMMENT = 7  #: a comment inside a token, as in `((?#c)a)` or `a{2(?#c)}`; if the token is a `Trivium`, after that and inside it
    INNER_LINE_COMMENT = 8  #: the same, from `#` through its line feed


class Precedence(enum.IntEnum):
    """What a printed text is to be: a whole pattern, a branch of an alternation, a part of a concatenation, or the
    operand of a quantifier."""

    WHOLE = 0
    BRANCH = 1
    PIECE = 2
    OPERAND = 3


class Style(enum.IntEnum):
    """How `format` lays out a pattern that it keeps as it is written."""

    KEPT = 0  #: its lines stay, with their indentation
    VERBOSE = 1  #: over several lines, unless it is one that fits; the pattern then begins with `(?x)` unless `IGNORE_SPACE` is set
    COMPACT = 2  #: in one line: ignored whitespace, `(?x)` at the beginning and empty comments go, and `# one` becomes `(?# one)`
# ---- end of numbers


# ---- errors


class Error(ValueError):
    """Why a pattern is invalid. A pattern has at most one error."""

    pattern: Pattern  #: as it was given
    kind: ErrorKind
    message: str  #: without the position
    position: int  #: an index into `pattern`, at most one past its end
    byte_position: int  #: the same in bytes of the UTF-8
    lineno: int  #: the line of the position, from 1
    colno: int  #: its column, in characters or bytes as `position`, from 1

    def __init__(self, pattern: Pattern, kind: ErrorKind, message: str, position: int, byte_position: int) -> None:
        super().__init__(f"{message} at position {position}")
        self.pattern, self.kind, self.message = pattern, kind, message
        self.position, self.byte_position = position, byte_position
        if isinstance(pattern, str):
            newlines, newline = pattern.count("\n", 0, position), pattern.rfind("\n", 0, position)
        else:
            newlines, newline = pattern.count(b"\n", 0, position), pattern.rfind(b"\n", 0, position)
        self.lineno, self.colno = newlines + 1, position - newline

    def __reduce__(self) -> Tuple[Type[Error], Tuple[Pattern, ErrorKind, str, int, int]]:
        return Error, (self.pattern, self.kind, self.message, self.position, self.byte_position)

    @property
    def msg(self) -> str:
        """The message, under the name that `re.error` has for it."""
        return self.message

    @property
    def pos(self) -> int:
        """The position, under the name that `re.error` has for it."""
        return self.position


# ---- nodes


@dataclass(frozen=True)
class Node:
    """A node of a tree. Nodes are equal if their kinds, their fields and their children are; spans are not compared."""

    span: Span = field(compare=False)  #: the part of the pattern: `pattern[start:stop]`
    byte_span: Span = field(compare=False)  #: the same in bytes of the UTF-8
    children: Tuple[Node, ...]
    number: ClassVar[int] = 0  #: of the kind, in fancy.h
    __match_args__ = ("children", "span", "byte_span")

    @property
    def kind(self) -> str:
        """The name of the kind, as "Literal"."""
        return type(self).__name__

    def normal_form(self, precedence: int = Precedence.WHOLE) -> Optional[str]:
        """Returns a text that is parsed as the normal form of this node with its descendants, as the function `normal_form` does
        for a pattern; or None if they are not printable, or have more than 832 levels. The node may have been made by hand. Raises
        `ValueError` if a number in it is too large for the library.

        >>> [node.normal_form() for node in parse("(?=a)(?:b|c)*").root.children]
        [None, '(?:b|c)*']
        """
        rows, number = _Rows(self), _member(Precedence, precedence)
        got, text = _text(_library.fancy_print_nodes, *rows.arguments(), number)
        if got.status == _OUT_OF_MEMORY:
            raise MemoryError
        return text if got.status == _OK else None

    def character_ranges(self, flags: int = UNICODE) -> Optional[Ranges]:
        """Returns the characters that this node matches, as the function `class_ranges` does for a class; or None unless it is a
        `Delegate`, a `Literal` or an `Any` that matches exactly one character. Of the flags only `UNICODE` matters. Raises `Error`, at
        the position 0, if fancy-regex refuses the node.

        >>> [node.character_ranges() for node in parse("(?i)k.").root.children]
        [[(75, 75), (107, 107), (8490, 8490)], [(0, 9), (11, 55295), (57344, 1114111)]]
        """
        source = _Source(self.text if isinstance(self, (Literal, Delegate)) else ".", flags)
        if not isinstance(self, (Any, Literal, Delegate)):
            return None
        nodes, _, texts, size, _ = _Rows(self).arguments()
        return source.ranges(_library.fancy_node_ranges, nodes, texts, size, int(source.flags))

    def walk(self) -> Iterator[Node]:
        """The node and its descendants in preorder: each before its children, these in the order of the pattern."""
        ahead: List[Node] = [self]
        while ahead:
            node = ahead.pop()
            yield node
            ahead.extend(reversed(node.children))


# ---- nodes: made by tools/bindings from include/fancy.toml
__all__ += [
    "Empty", "Any", "Assertion", "GeneralNewline", "Literal", "LiteralBytes", "Concat", "Alt", "Group", "LookAround",
    "Repeat", "Delegate", "Backref", "BackrefAtLevel", "AtomicGroup", "KeepOut", "ContinueFromPreviousMatchEnd",
    "BackrefExistsCondition", "Conditional", "SubroutineCall", "Verb", "Absent", "DefineGroup", "AstNode",
]


@dataclass(frozen=True)
class Empty(Node):
    """Nothing, as between the bars of `a||b`."""

    number: ClassVar[int] = 1
    __match_args__ = ("children", "span", "byte_span")


@dataclass(frozen=True)
class Any(Node):
    """Any character: `.`."""

    newline: bool  #: it matches a line break too
    crlf: bool  #: CR is a line terminator too, and CR LF a single one

    number: ClassVar[int] = 2
    __match_args__ = ("newline", "crlf", "children", "span", "byte_span")


@dataclass(frozen=True)
class Assertion(Node):
    """An assertion, as `^`, `$`, `\\b`."""

    which: AssertionKind
    crlf: bool  #: CR is a line terminator too, and CR LF a single one

    number: ClassVar[int] = 3
    __match_args__ = ("which", "crlf", "children", "span", "byte_span")


@dataclass(frozen=True)
class GeneralNewline(Node):
    """A line break: `\\R`."""

    unicode: bool  #: the line breaks of Unicode count too

    number: ClassVar[int] = 4
    __match_args__ = ("unicode", "children", "span", "byte_span")


@dataclass(frozen=True)
class Literal(Node):
    """A text: of a parsed pattern, one character."""

    text: str
    casei: bool  #: case-insensitive

    number: ClassVar[int] = 5
    __match_args__ = ("text", "casei", "children", "span", "byte_span")


@dataclass(frozen=True)
class LiteralBytes(Node):
    """Bytes, as `\\x80` without `UNICODE`."""

    value: bytes

    number: ClassVar[int] = 6
    __match_args__ = ("value", "children", "span", "byte_span")


@dataclass(frozen=True)
class Concat(Node):
    """Its children one after another."""

    number: ClassVar[int] = 7
    __match_args__ = ("children", "span", "byte_span")


@dataclass(frozen=True)
class Alt(Node):
    """One of its children: `a|b`."""

    number: ClassVar[int] = 8
    __match_args__ = ("children", "span", "byte_span")


@dataclass(frozen=True)
class Group(Node):
    """A capturing group."""

    group: int  #: its number, from 1
    name: Optional[str]

    number: ClassVar[int] = 9
    __match_args__ = ("group", "name", "children", "span", "byte_span")


@dataclass(frozen=True)
class LookAround(Node):
    """A look-ahead or a look-behind."""

    which: LookKind

    number: ClassVar[int] = 10
    __match_args__ = ("which", "children", "span", "byte_span")


@dataclass(frozen=True)
class Repeat(Node):
    """Its child, repeated."""

    lo: int  #: the lower bound of a repetition
    hi: Optional[int]  #: the upper bound; None for no bound
    greedy: bool

    number: ClassVar[int] = 11
    __match_args__ = ("lo", "hi", "greedy", "children", "span", "byte_span")


@dataclass(frozen=True)
class Delegate(Node):
    """A character class, a class escape or a property, as its text."""

    text: str
    casei: bool  #: case-insensitive

    number: ClassVar[int] = 12
    __match_args__ = ("text", "casei", "children", "span", "byte_span")


@dataclass(frozen=True)
class Backref(Node):
    """A back reference to a group."""

    group: int
    casei: bool  #: case-insensitive

    number: ClassVar[int] = 13
    __match_args__ = ("group", "casei", "children", "span", "byte_span")


@dataclass(frozen=True)
class BackrefAtLevel(Node):
    """A back reference to a group at a recursion level."""

    group: int
    level: int  #: relative to the current one
    casei: bool  #: case-insensitive

    number: ClassVar[int] = 14
    __match_args__ = ("group", "level", "casei", "children", "span", "byte_span")


@dataclass(frozen=True)
class AtomicGroup(Node):
    """An atomic group: `(?>a)`."""

    number: ClassVar[int] = 15
    __match_args__ = ("children", "span", "byte_span")


@dataclass(frozen=True)
class KeepOut(Node):
    """`\\K`"""

    number: ClassVar[int] = 16
    __match_args__ = ("children", "span", "byte_span")


@dataclass(frozen=True)
class ContinueFromPreviousMatchEnd(Node):
    """`\\G`"""

    number: ClassVar[int] = 17
    __match_args__ = ("children", "span", "byte_span")


@dataclass(frozen=True)
class BackrefExistsCondition(Node):
    """The condition that a group has matched."""

    group: int
    level: Optional[int]  #: relative to the current one; None if the condition has no level

    number: ClassVar[int] = 18
    __match_args__ = ("group", "level", "children", "span", "byte_span")


@dataclass(frozen=True)
class Conditional(Node):
    """A conditional. It has three children: the condition, the branch taken if it holds, and the other branch."""

    number: ClassVar[int] = 19
    __match_args__ = ("children", "span", "byte_span")


@dataclass(frozen=True)
class SubroutineCall(Node):
    """A call of a group; of the whole pattern if the number is 0."""

    group: int

    number: ClassVar[int] = 20
    __match_args__ = ("group", "children", "span", "byte_span")


@dataclass(frozen=True)
class Verb(Node):
    """A verb, as `(*FAIL)`."""

    which: VerbKind

    number: ClassVar[int] = 21
    __match_args__ = ("which", "children", "span", "byte_span")


@dataclass(frozen=True)
class Absent(Node):
    """An absent expression, as `(?~a)`."""

    which: AbsentKind

    number: ClassVar[int] = 22
    __match_args__ = ("which", "children", "span", "byte_span")


@dataclass(frozen=True)
class DefineGroup(Node):
    """`(?(DEFINE)..)`"""

    number: ClassVar[int] = 23
    __match_args__ = ("children", "span", "byte_span")


@dataclass(frozen=True)
class AstNode(Node):
    """A call that cannot be resolved."""

    target: Union[int, str, Relative]  #: the group that it names: by number, by name or by relative number
    position: int  #: the position of the call, as an index into the pattern
    byte_position: int  #: the same in bytes of the UTF-8

    number: ClassVar[int] = 24
    __match_args__ = ("target", "position", "byte_position", "children", "span", "byte_span")
# ---- end of nodes


@dataclass(frozen=True)
class Relative:
    """A relative number of a group, in an unresolved call."""

    number: int


@dataclass(frozen=True)
class Trivium:
    """A part of a pattern that no node of its tree has."""

    kind: TriviumKind
    span: Span  #: the part of the pattern: `pattern[start:stop]`
    byte_span: Span  #: the same in bytes of the UTF-8
    flags_before: Optional[Flag]  #: the flags before `INLINE_FLAGS`, or around the group of an `OPENING`
    flags_after: Optional[Flag]  #: the flags after `INLINE_FLAGS`, or in the group of an `OPENING`


@dataclass(frozen=True)
class NodeFacts:
    """What is known of the matches of a node. `2**64 - 1` as a least number stands for more too."""

    min_length: int  #: a match has at least so many characters
    max_length: Optional[int]  #: a match has at most so many characters; None for no limit
    min_bytes: int  #: a match has at least so many bytes of UTF-8
    max_bytes: Optional[int]  #: a match has at most so many bytes of UTF-8; None for no limit
    can_be_empty: bool  #: `min_length` is 0; if not, no match is empty
    is_constant_length: bool  #: all matches have `min_length` characters
    is_anchored_at_start: bool  #: an assertion says that each match starts where the text does
    is_anchored_at_end: bool  #: an assertion says that each match ends where the text does


@dataclass(frozen=True)
class PatternFacts:
    """What is known of the matches of a pattern."""

    nodes: Tuple[Optional[NodeFacts], ...]  #: of each node, in the order of `Tree.walk`; None: it is not known what the node matches
    prefix: Optional[str]  #: the text that each match begins with; None if it is not known
    is_prefix_whole: bool  #: each match is that text, and no more
    #: fancy-regex can hand the pattern to an engine that never backtracks: it has no reference, look-around, atomic group or the like
    is_easy: bool


@dataclass(frozen=True)
class Tree:
    """The tree of a pattern, with its group information."""

    pattern: Pattern  #: as it was given
    flags: Flag
    root: Node
    total_groups: int  #: how many groups have a number
    named_groups: Dict[str, Tuple[int, ...]]  #: the group numbers of each name, ascending
    backrefs: Tuple[int, ...]  #: the group numbers of back references, up to `total_groups`, ascending; may contain 0
    numeric_capture_group_references: bool  #: the pattern has a back reference in digits, or a call by number
    contains_subroutines: bool  #: the pattern has a subroutine call
    self_recursive: bool  #: the pattern calls itself by the number 0
    out_of_range_backref: Optional[int]  #: the number of the first back reference above `total_groups`
    numbered_groups_ignored: bool  #: groups without a name have no number

    def walk(self) -> Iterator[Node]:
        """All nodes in preorder."""
        return self.root.walk()

    def trivia(self) -> Tuple[Trivium, ...]:
        """What no node of the tree of `pattern` has, as the function `trivia` returns it. It parses the pattern anew, and does
        not depend on changes of the tree."""
        return trivia(self.pattern, self.flags)

    def group_name(self, group: int) -> Optional[str]:
        """The name of the group with this number; None if it has none.

        >>> [parse("(?<n>a)(b)").group_name(group) for group in (1, 2)]
        ['n', None]
        """
        return next((name for name, numbers in self.named_groups.items() if group in numbers), None)

    def to_pattern(self) -> Optional[str]:
        """Returns a pattern that is parsed, under the same flags, as this tree with these names; or None if no pattern is, which can
        happen after the tree was changed. Of the group information it needs only the names, by the numbers that groups have in the
        tree, and the two fields that say whether references are written by numbers. Raises `ValueError` if a number in the tree is
        too large for the library.

        >>> from dataclasses import replace
        >>> tree = parse("(?<n>a+)b")
        >>> group, rest = tree.root.children
        >>> replace(tree, root=replace(tree.root, children=(rest, group))).to_pattern()
        'b(?<n>a+)'
        """
        rows, flags = _Rows(self.root), _flags_given(self.flags)
        names = rows.names(self.named_groups)
        info = _Info(
            numeric_capture_group_references=self.numeric_capture_group_references, self_recursive=self.self_recursive
        )
        got, text = _text(
            _library.fancy_to_pattern_nodes, *rows.arguments(), names, len(names), ctypes.byref(info), int(flags)
        )
        if got.status == _OUT_OF_MEMORY:
            raise MemoryError
        return text if got.status == _OK else None

    def format(self) -> Optional[str]:
        """Deprecated: the old name of `to_pattern`, which the next major version does not have."""
        warnings.warn("Tree.format is deprecated: call Tree.to_pattern", DeprecationWarning, stacklevel=2)
        return self.to_pattern()


# ---- the library

# ---- structs and statuses: made by tools/bindings from include/fancy.toml
class _Result(ctypes.Structure):
    status: int
    kind: int
    position: int
    size: int
    _fields_ = [
        ("status", ctypes.c_uint32),
        ("kind", ctypes.c_uint32),
        ("position", ctypes.c_size_t),
        ("size", ctypes.c_size_t),
    ]


class _Node(ctypes.Structure):
    kind: int
    which: int
    end: int
    text: int
    text_size: int
    lo: int
    hi: int
    group: int
    level: int
    position: int
    start: int
    stop: int
    newline: bool
    crlf: bool
    unicode: bool
    casei: bool
    greedy: bool
    has_level: bool
    _fields_ = [
        ("kind", ctypes.c_uint32),
        ("which", ctypes.c_uint32),
        ("end", ctypes.c_size_t),
        ("text", ctypes.c_size_t),
        ("text_size", ctypes.c_size_t),
        ("lo", ctypes.c_size_t),
        ("hi", ctypes.c_size_t),
        ("group", ctypes.c_size_t),
        ("level", ctypes.c_ssize_t),
        ("position", ctypes.c_size_t),
        ("start", ctypes.c_size_t),
        ("stop", ctypes.c_size_t),
        ("newline", ctypes.c_bool),
        ("crlf", ctypes.c_bool),
        ("unicode", ctypes.c_bool),
        ("casei", ctypes.c_bool),
        ("greedy", ctypes.c_bool),
        ("has_level", ctypes.c_bool),
    ]


class _Name(ctypes.Structure):
    text: int
    text_size: int
    group: int
    _fields_ = [
        ("text", ctypes.c_size_t),
        ("text_size", ctypes.c_size_t),
        ("group", ctypes.c_size_t),
    ]


class _Info(ctypes.Structure):
    node_count: int
    texts_size: int
    name_count: int
    backref_count: int
    total_groups: int
    out_of_range_backref: int
    has_out_of_range_backref: bool
    numeric_capture_group_references: bool
    contains_subroutines: bool
    self_recursive: bool
    numbered_groups_ignored: bool
    _fields_ = [
        ("node_count", ctypes.c_size_t),
        ("texts_size", ctypes.c_size_t),
        ("name_count", ctypes.c_size_t),
        ("backref_count", ctypes.c_size_t),
        ("total_groups", ctypes.c_size_t),
        ("out_of_range_backref", ctypes.c_size_t),
        ("has_out_of_range_backref", ctypes.c_bool),
        ("numeric_capture_group_references", ctypes.c_bool),
        ("contains_subroutines", ctypes.c_bool),
        ("self_recursive", ctypes.c_bool),
        ("numbered_groups_ignored", ctypes.c_bool),
    ]


class _Trivium(ctypes.Structure):
    start: int
    stop: int
    kind: int
    flags_before: int
    flags_after: int
    _fields_ = [
        ("start", ctypes.c_size_t),
        ("stop", ctypes.c_size_t),
        ("kind", ctypes.c_uint32),
        ("flags_before", ctypes.c_uint32),
        ("flags_after", ctypes.c_uint32),
    ]


class _Range(ctypes.Structure):
    first: int
    last: int
    _fields_ = [
        ("first", ctypes.c_uint32),
        ("last", ctypes.c_uint32),
    ]


class _NodeFacts(ctypes.Structure):
    min_length: int
    max_length: int
    min_bytes: int
    max_bytes: int
    is_known: bool
    can_be_empty: bool
    is_constant_length: bool
    is_anchored_at_start: bool
    is_anchored_at_end: bool
    _fields_ = [
        ("min_length", ctypes.c_size_t),
        ("max_length", ctypes.c_size_t),
        ("min_bytes", ctypes.c_size_t),
        ("max_bytes", ctypes.c_size_t),
        ("is_known", ctypes.c_bool),
        ("can_be_empty", ctypes.c_bool),
        ("is_constant_length", ctypes.c_bool),
        ("is_anchored_at_start", ctypes.c_bool),
        ("is_anchored_at_end", ctypes.c_bool),
    ]


class _PatternFacts(ctypes.Structure):
    node_count: int
    prefix_size: int
    has_prefix: bool
    is_prefix_whole: bool
    is_easy: bool
    _fields_ = [
        ("node_count", ctypes.c_size_t),
        ("prefix_size", ctypes.c_size_t),
        ("has_prefix", ctypes.c_bool),
        ("is_prefix_whole", ctypes.c_bool),
        ("is_easy", ctypes.c_bool),
    ]


_OK = 0
_REFUSED = 1
_NOT_UTF8 = 2
_OUT_OF_MEMORY = 3
_BUFFER_TOO_SHORT = 4
_NOT_PRINTABLE = 5
_NO_PATTERN = 6
_NO_TREE = 7
_UNKNOWN_STYLE = 8
_UNKNOWN_FLAG = 9
_UNKNOWN_PRECEDENCE = 10
_UNRESOLVED = 11
_NOT_ONE_CHARACTER = 12
_BY_NUMBER = 1
_BY_NAME = 2
_RELATIVE = 3
_MAJOR, _MINOR = 2, 1
# ---- end of structs and statuses


_UNBOUNDED = 2**64 - 1  #: `SIZE_MAX`
_ITEMS, _BYTES = 1024, 2**16  #: few patterns need more rows of a kind, or longer texts


class _Buffers(ctypes.Structure):
    """What the library writes into: the struct `fancy_buffers`, and its arrays as Python reads them."""

    info: _Info
    trivium_count: int
    _fields_ = [
        ("nodes", ctypes.c_void_p),
        ("node_capacity", ctypes.c_size_t),
        ("texts", ctypes.c_void_p),
        ("texts_capacity", ctypes.c_size_t),
        ("names", ctypes.c_void_p),
        ("name_capacity", ctypes.c_size_t),
        ("backrefs", ctypes.c_void_p),
        ("backref_capacity", ctypes.c_size_t),
        ("trivia", ctypes.c_void_p),
        ("trivium_capacity", ctypes.c_size_t),
        ("info", _Info),
        ("trivium_count", ctypes.c_size_t),
    ]

    def __init__(
        self, nodes: int = _ITEMS, texts: int = _BYTES, names: int = _ITEMS, backrefs: int = _ITEMS, trivia: int = _ITEMS
    ) -> None:
        rows, text, named = (_Node * nodes)(), (ctypes.c_char * texts)(), (_Name * names)()
        groups, parts = (ctypes.c_size_t * backrefs)(), (_Trivium * trivia)()
        super().__init__(
            ctypes.addressof(rows), nodes, ctypes.addressof(text), texts, ctypes.addressof(named), names,
            ctypes.addressof(groups), backrefs, ctypes.addressof(parts), trivia,
        )  # fmt: skip
        self.of_nodes, self.of_texts, self.of_names = memoryview(rows), memoryview(text), memoryview(named)
        self.of_backrefs, self.of_trivia, self.count = groups, memoryview(parts), ctypes.c_size_t()
        # the last arguments of a call that writes a text, and of one that writes trivia
        self.for_text = ctypes.c_void_p(self.texts), ctypes.c_size_t(texts)
        self.for_trivia = ctypes.c_void_p(self.trivia), ctypes.c_size_t(trivia), self.count


def _file() -> str:
    """The file of the library, or the name by which the loader looks for it."""
    folder, name = os.path.dirname(os.path.abspath(__file__)), f"libfancy.so.{_MAJOR}"
    beside = [os.path.join(folder, it) for it in (name, "libfancy.so", os.path.join("..", "c", "out", name))]
    found = [os.environ.get("FANCY_LIBRARY", "")] + [it for it in beside if os.path.exists(it)] + [name]
    return next(filter(None, found))


def _load() -> ctypes.CDLL:
    name = _file()
    try:
        library = ctypes.CDLL(name)
    except OSError as error:
        found = None if os.environ.get("FANCY_LIBRARY") else ctypes.util.find_library("fancy")
        if found is None:
            raise ImportError(f"the library libfancy cannot be loaded: {error}") from error
        library = ctypes.CDLL(found)
    pattern = [ctypes.c_char_p, ctypes.c_size_t, ctypes.c_uint32]
    buffer = [ctypes.c_void_p, ctypes.c_size_t]
    rows = 2 * buffer + [ctypes.c_size_t]
    library.fancy_version.argtypes, library.fancy_version.restype = [], ctypes.c_uint32
    _check_version(library, name)
    library.fancy_kind_message.argtypes, library.fancy_kind_message.restype = [ctypes.c_uint32], ctypes.c_char_p
    for call, arguments in {
        "fancy_check": pattern,
        "fancy_message": pattern + buffer,
        "fancy_parse": pattern + 4 * buffer + [ctypes.POINTER(_Info)],
        "fancy_print": pattern + [ctypes.c_uint32] + buffer,
        "fancy_to_pattern": pattern + buffer,
        "fancy_format": pattern + [ctypes.c_uint32, ctypes.c_size_t] + buffer,
        "fancy_tree": pattern + 4 * buffer + [ctypes.POINTER(_Info)],
        "fancy_parse_into": pattern + [ctypes.POINTER(_Buffers)],
        "fancy_print_nodes": rows + [ctypes.c_uint32] + buffer,
        "fancy_trivia": pattern + buffer + [ctypes.POINTER(ctypes.c_size_t)],
        "fancy_to_pattern_nodes": rows + buffer + [ctypes.POINTER(_Info), ctypes.c_uint32] + buffer,
        "fancy_is_resolved": pattern,
        "fancy_escape": pattern + buffer,
        "fancy_class_ranges": pattern + buffer + [ctypes.POINTER(ctypes.c_size_t)],
        "fancy_node_ranges": [ctypes.c_void_p] + buffer + [ctypes.c_uint32] + buffer + [ctypes.POINTER(ctypes.c_size_t)],
        "fancy_facts": pattern + 2 * buffer + [ctypes.POINTER(_PatternFacts)],
        "fancy_parse_id": pattern[:2],
        "fancy_parse_decimal": pattern[:2] + [ctypes.POINTER(ctypes.c_size_t)],
    }.items():
        function = getattr(library, call)
        function.argtypes, function.restype = arguments, _Result
    return library


def _check_version(library: ctypes.CDLL, name: str) -> None:
    version = library.fancy_version()
    major, minor = version // 1_000_000, version // 1000 % 1000
    if major != _MAJOR or minor < _MINOR:
        raise ImportError(f"{name} has the version {major}.{minor}, and {_MAJOR}.{_MINOR} or a later {_MAJOR} is needed")


if __name__ == "__main__" and sys.argv[1:2] == ["extract"]:
    # this subcommand does without the library
    from fancy_extract import main as _extract

    sys.exit(_extract(sys.argv[2:]))

_library = _load()


def _version() -> str:
    number = _library.fancy_version()
    return f"{number // 1_000_000}.{number // 1000 % 1000}.{number % 1000}"


__version__ = _version()  #: of the library


_Call = Callable[..., _Result]

# A call takes buffers from here, and puts them back when it has copied what is in them. So no two calls have the same, be they of
# several threads, or one of a signal handler within the other. If there are more, the oldest are dropped.
_KEPT: Deque[_Buffers] = collections.deque(maxlen=16)


def _taken() -> _Buffers:
    """Buffers for a call, which puts them back into `_KEPT`."""
    try:
        return _KEPT.pop()
    except IndexError:
        return _Buffers()


def _text(call: _Call, *arguments: object) -> Tuple[_Result, str]:
    """What a call returns, and the text that it writes into a buffer: its last two arguments."""
    kept = buffers = _taken()
    try:
        got = call(*arguments, *buffers.for_text)
        status = got.status
        while status == _BUFFER_TOO_SHORT:
            buffers = _Buffers(0, got.size, 0, 0, 0)
            got = call(*arguments, *buffers.for_text)
            status = got.status
        is_written = status == _OK or status == _REFUSED
        return got, str(buffers.of_texts[: got.size], "utf-8") if is_written else ""
    finally:
        _KEPT.append(kept)


_LETTERS_OF: Dict[object, str] = {ctypes.c_uint32: "I", ctypes.c_size_t: "Q", ctypes.c_ssize_t: "q", ctypes.c_bool: "?"}


def _reader(structure: Type[ctypes.Structure], *names: str) -> struct.Struct:
    """What reads these fields of a struct at once. They are in the order of the struct, and the others are skipped."""
    types = {name: _LETTERS_OF[kind] for name, kind, *_ in structure._fields_}
    letters, at = "=", 0
    for name in names:
        place = getattr(structure, name)
        letters += f"{place.offset - at}x{types[name]}"
        at = place.offset + place.size
    return struct.Struct(f"{letters}{ctypes.sizeof(structure) - at}x")


def _made(kind: Type[_Item], fields: _Fields) -> _Item:
    """An object of a frozen dataclass. Its `__init__` would set each field by a call, which took most of the time of `parse`."""
    it = object.__new__(kind)
    object.__setattr__(it, "__dict__", fields)
    return it


def _unknown(what: str, number: int) -> RuntimeError:
    return RuntimeError(f"libfancy {__version__} has the {what} {number}, which this module does not know")


class _Known(Dict[int, _Item]):
    """What each number means that the library writes. A library that is newer may have more numbers."""

    def __init__(self, what: str, items: Mapping[int, _Item]) -> None:
        super().__init__(items)
        self.what = what

    def __missing__(self, number: int) -> _Item:
        raise _unknown(self.what, number)


def _members(kind: Type[_Kind]) -> _Known[_Kind]:
    """The members of an enum by their numbers."""
    return _Known(kind.__name__, {int(it): it for it in kind})


_ERRORS, _ASSERTIONS, _LOOKS, _VERBS = _members(ErrorKind), _members(AssertionKind), _members(LookKind), _members(VerbKind)
_ABSENTS, _TRIVIUMS = _members(AbsentKind), _members(TriviumKind)
_WITH_FLAGS = TriviumKind.INLINE_FLAGS, TriviumKind.OPENING


@functools.lru_cache(maxsize=None)
def _flag(number: int) -> Flag:
    """The flags of a number, for which `Flag` itself takes longer."""
    return Flag(number)


# ---- what a caller passes. ctypes cuts a number that is too large, so each is looked at before.


_EVERY_FLAG = sum(Flag)
_OF_RE = {re.IGNORECASE: CASEI, re.MULTILINE: MULTI, re.DOTALL: DOTNL, re.VERBOSE: IGNORE_SPACE}


def _flags_given(flags: int) -> Flag:
    """The flags of a call: members of `Flag`, or a number with no other bits. The flags of `re` have other numbers."""
    if type(flags) is Flag and not int(flags) & ~_EVERY_FLAG:
        return flags
    if isinstance(flags, re.RegexFlag):
        own = [flag for bit, flag in _OF_RE.items() if flags & bit] + [UNICODE] * (not flags & re.ASCII)
        names = " | ".join(f"fancy.{flag.name}" for flag in own) or "fancy.Flag(0)"
        raise TypeError(f"flags are fancy.Flag, not {flags!r}: use {names}")
    if isinstance(flags, enum.Enum) and not isinstance(flags, Flag):
        raise TypeError(f"flags are fancy.Flag, such as fancy.UNICODE | fancy.CASEI, not {flags!r}")
    number = operator.index(flags)
    if number & ~_EVERY_FLAG:
        raise ValueError(f"flags {number:#x} have bits that are no fancy.Flag")
    return _flag(number)


def _member(kind: Type[_Kind], value: int) -> _Kind:
    """The member of an enum that was passed, as itself or as its number. That of another enum is a mistake."""
    if isinstance(value, kind):
        return value
    if isinstance(value, enum.Enum):
        raise TypeError(f"{value!r} is no fancy.{kind.__name__}")
    return kind(value)


def _number(what: str, value: int, least: int = 0, most: int = _UNBOUNDED) -> int:
    """A number in a tree, if the library can take it."""
    number = operator.index(value)
    if not least <= number <= most:
        raise ValueError(f"{what} is {number}, and has to be from {least} to {most}")
    return number


def _signed(what: str, value: int) -> int:
    """A level or a relative number in a tree, if the library can take it."""
    return _number(what, value, -(2**63), 2**63 - 1)


class _Source:
    """A pattern as the library takes it, and its positions."""

    def __init__(self, pattern: Pattern, flags: int) -> None:
        if isinstance(pattern, str):
            # a lone surrogate is handed on, to be refused as what is not UTF-8
            text = pattern.encode("utf-8", "surrogatepass")
        elif isinstance(pattern, bytes):
            text = pattern
        else:
            raise TypeError(f"a pattern is str or bytes, not {type(pattern).__name__}")
        self.pattern, self.bytes = pattern, text
        self.flags = UNICODE if flags is UNICODE else _flags_given(flags)
        self.arguments = text, len(text), self.flags
        self._starts: List[int] = []

    def counts_bytes(self) -> bool:
        """Whether each byte offset is an index into the pattern."""
        return len(self.bytes) == len(self.pattern)

    def starts(self) -> List[int]:
        """The byte offset of each character, and of the end."""
        if not self._starts:
            # the other bytes of a character begin with the bits 10
            self._starts = [*(at for at, byte in enumerate(self.bytes) if byte >> 6 != 0b10), len(self.bytes)]
        return self._starts

    def index(self, offset: int) -> int:
        """The index into the pattern of a byte offset, which may be one past the end."""
        if self.counts_bytes():
            return offset
        past = max(offset - len(self.bytes), 0)
        return bisect.bisect_left(self.starts(), offset - past) + past

    def span(self, byte_span: Span) -> Span:
        """A span of bytes as one of the pattern."""
        if self.counts_bytes():
            return byte_span
        start, stop = byte_span
        return self.index(start), self.index(stop)

    def trivium(self, start: int, stop: int, number: int, before: int, after: int) -> Trivium:
        """The trivium of a row."""
        kind, byte_span = _TRIVIUMS[number], (start, stop)
        has_flags = kind in _WITH_FLAGS
        fields: _Fields = {
            "kind": kind,
            "span": self.span(byte_span),
            "byte_span": byte_span,
            "flags_before": _flag(before) if has_flags else None,
            "flags_after": _flag(after) if has_flags else None,
        }
        return _made(Trivium, fields)

    def error(self, got: _Result, message: str) -> Error:
        kind = _ERRORS[got.kind]
        return Error(self.pattern, kind, message, self.index(got.position), got.position)

    def refusal(self) -> Optional[Error]:
        """The error of the pattern, if it has one."""
        got, message = _text(_library.fancy_message, *self.arguments)
        if got.status == _OK:
            return None
        if got.status == _OUT_OF_MEMORY:
            raise MemoryError
        return self.error(got, message if got.status == _REFUSED else ErrorKind.NOT_UTF8.text)

    def text(self, call: _Call, *arguments: object) -> Tuple[int, str]:
        """The status of a call, and the text that it writes. Raises the error of a pattern that is not valid."""
        got, text = _text(call, *self.arguments, *arguments)
        status = got.status
        if status == _OUT_OF_MEMORY:
            raise MemoryError
        if status in (_REFUSED, _NOT_UTF8):
            raise self.refusal() or AssertionError
        return status, text

    def ranges(self, call: _Call, *arguments: object) -> Optional[Ranges]:
        """The ranges that a call writes; None if what it is called for does not match exactly one character."""
        count, capacity = ctypes.c_size_t(), 64
        while True:
            rows = (_Range * capacity)()
            got = call(*arguments, rows, capacity, ctypes.byref(count))
            if got.status != _BUFFER_TOO_SHORT:
                break
            capacity = count.value
        if got.status == _OUT_OF_MEMORY:
            raise MemoryError
        if got.status == _REFUSED:
            raise self.error(got, _ERRORS[got.kind].text)
        if got.status == _NOT_UTF8:
            raise self.refusal() or AssertionError
        return [(row.first, row.last) for row in rows[: count.value]] if got.status == _OK else None


# what reads the fields of a row that each node needs, and those that some kinds need
_ROW = _reader(_Node, "kind", "end", "start", "stop")
_ANY = _reader(_Node, "newline", "crlf").unpack_from
_ASSERTION = _reader(_Node, "which", "crlf").unpack_from
_NEWLINE = _reader(_Node, "unicode").unpack_from
_TEXT = _reader(_Node, "text", "text_size", "casei").unpack_from
_GROUP = _reader(_Node, "group").unpack_from
_WHICH = _reader(_Node, "which").unpack_from
_REPEAT = _reader(_Node, "lo", "hi", "greedy").unpack_from
_REFERENCE = _reader(_Node, "group", "level", "casei", "has_level").unpack_from
_CALL = _reader(_Node, "which", "text", "text_size", "group", "level", "position").unpack_from
_NAME = _reader(_Name, "text", "text_size", "group")
_TRIVIUM = _reader(_Trivium, "start", "stop", "kind", "flags_before", "flags_after")
_FACTS = _reader(_NodeFacts, *(it[0] for it in _NodeFacts._fields_))


class _Builder:
    """Makes the nodes of a tree from a copy of the rows that the library writes."""

    def __init__(self, source: _Source, rows: bytes, texts: bytes, names: Dict[int, str]) -> None:
        self.source, self.rows, self.texts, self.names = source, rows, texts, names

    def root(self) -> Node:
        """The node of the first row, with all the others below it."""
        apart: List[Tuple[int, Node]] = []  # nodes without a parent as yet, with their indices, the first on top
        at, counts_bytes = len(self.rows) // _ROW.size, self.source.counts_bytes()
        for number, end, start, stop in reversed(list(_ROW.iter_unpack(self.rows))):
            at -= 1
            kind, add = _KINDS[number]
            span = start, stop
            fields: _Fields = {
                "span": span if counts_bytes else self.source.span(span),
                "byte_span": span,
                "children": _before(apart, end) if end > at + 1 else (),
            }
            if add is not None:
                add(self, fields, at * _ROW.size)
            apart.append((at, _made(kind, fields)))
        return apart[0][1]

    # each of these adds the fields that nodes of a kind have beside those of each, from the row at an offset

    def any(self, fields: _Fields, row: int) -> None:
        fields["newline"], fields["crlf"] = _ANY(self.rows, row)

    def assertion(self, fields: _Fields, row: int) -> None:
        which, fields["crlf"] = _ASSERTION(self.rows, row)
        fields["which"] = _ASSERTIONS[which]

    def newline(self, fields: _Fields, row: int) -> None:
        (fields["unicode"],) = _NEWLINE(self.rows, row)

    def text(self, fields: _Fields, row: int) -> None:
        start, size, fields["casei"] = _TEXT(self.rows, row)
        fields["text"] = self.texts[start : start + size].decode()

    def value(self, fields: _Fields, row: int) -> None:
        start, size, _ = _TEXT(self.rows, row)
        fields["value"] = self.texts[start : start + size]

    def group(self, fields: _Fields, row: int) -> None:
        (number,) = _GROUP(self.rows, row)
        fields["group"], fields["name"] = number, self.names.get(number)

    def look(self, fields: _Fields, row: int) -> None:
        fields["which"] = _LOOKS[_WHICH(self.rows, row)[0]]

    def verb(self, fields: _Fields, row: int) -> None:
        fields["which"] = _VERBS[_WHICH(self.rows, row)[0]]

    def absent(self, fields: _Fields, row: int) -> None:
        fields["which"] = _ABSENTS[_WHICH(self.rows, row)[0]]

    def repeat(self, fields: _Fields, row: int) -> None:
        fields["lo"], hi, fields["greedy"] = _REPEAT(self.rows, row)
        fields["hi"] = None if hi == _UNBOUNDED else hi

    def backref(self, fields: _Fields, row: int) -> None:
        fields["group"], _, fields["casei"], _ = _REFERENCE(self.rows, row)

    def backref_at_level(self, fields: _Fields, row: int) -> None:
        fields["group"], fields["level"], fields["casei"], _ = _REFERENCE(self.rows, row)

    def condition(self, fields: _Fields, row: int) -> None:
        fields["group"], level, _, has_level = _REFERENCE(self.rows, row)
        fields["level"] = level if has_level else None

    def call(self, fields: _Fields, row: int) -> None:
        (fields["group"],) = _GROUP(self.rows, row)

    def unresolved(self, fields: _Fields, row: int) -> None:
        which, start, size, group, level, position = _CALL(self.rows, row)
        if which == _BY_NUMBER:
            fields["target"] = group
        elif which == _BY_NAME:
            fields["target"] = self.texts[start : start + size].decode()
        elif which == _RELATIVE:
            fields["target"] = Relative(level)
        else:
            raise _unknown("kind of target", which)
        fields["position"], fields["byte_position"] = self.source.index(position), position


_ADDING: Dict[Type[Node], Callable[[_Builder, _Fields, int], None]] = {
    Any: _Builder.any, Assertion: _Builder.assertion, GeneralNewline: _Builder.newline, Literal: _Builder.text,
    LiteralBytes: _Builder.value, Group: _Builder.group, LookAround: _Builder.look, Repeat: _Builder.repeat, Delegate: _Builder.text,
    Backref: _Builder.backref, BackrefAtLevel: _Builder.backref_at_level, BackrefExistsCondition: _Builder.condition,
    SubroutineCall: _Builder.call, Verb: _Builder.verb, Absent: _Builder.absent, AstNode: _Builder.unresolved,
}  # fmt: skip
_KINDS = _Known("kind of node", {kind.number: (kind, _ADDING.get(kind)) for kind in Node.__subclasses__()})


def _before(apart: List[Tuple[int, Node]], end: int) -> Tuple[Node, ...]:
    """Takes the nodes from the top of `apart` whose indices are below `end`."""
    nodes: List[Node] = []
    while apart and apart[-1][0] < end:
        nodes.append(apart.pop()[1])
    return tuple(nodes)


class _Rows:
    """The rows of a node and its descendants, for the library to read."""

    def __init__(self, root: Node) -> None:
        self.texts = bytearray()
        rows: List[_Node] = []
        # a number stands for the row whose descendants are all written
        ahead: List[Union[Node, int]] = [root]
        while ahead:
            node = ahead.pop()
            if isinstance(node, int):
                rows[node].end = len(rows)
            else:
                ahead.append(len(rows))
                ahead.extend(reversed(node.children))
                rows.append(self.row(node))
        self.nodes = (_Node * len(rows))(*rows)

    def arguments(self) -> Tuple[object, ...]:
        return self.nodes, len(self.nodes), bytes(self.texts), len(self.texts), 0

    def text(self, text: Union[str, bytes]) -> Dict[str, int]:
        start = len(self.texts)
        self.texts += text.encode() if isinstance(text, str) else text
        return {"text": start, "text_size": len(self.texts) - start}

    def groups(self) -> int:
        """How many of the rows are groups."""
        return sum(row.kind == Group.number for row in self.nodes)

    def names(self, named: Mapping[str, Tuple[int, ...]]) -> ctypes.Array[_Name]:
        # the library leaves out the names of groups that are not among the rows
        most, pairs = self.groups(), ((name, number) for name, numbers in named.items() for number in numbers)
        kept = [(name, it) for name, it in pairs if not most < operator.index(it) <= _UNBOUNDED]
        names = [_Name(group=_number(f"a group of the name {name!r}", it), **self.text(name)) for name, it in kept]
        return (_Name * len(names))(*names)

    def row(self, node: Node) -> _Node:
        """The row of a node, but for its end."""
        row, kind = _Node(kind=node.number), node.kind
        for name in ("newline", "crlf", "unicode", "casei", "greedy"):
            setattr(row, name, getattr(node, name, False))
        for name in ("lo", "group"):
            setattr(row, name, _number(f"{kind}.{name}", getattr(node, name, 0)))
        row.which = _number(f"{kind}.which", getattr(node, "which", 0), most=2**32 - 1)
        text: Union[str, bytes] = b""
        if isinstance(node, (Literal, Delegate)):
            text = node.text
        elif isinstance(node, LiteralBytes):
            text = node.value
        elif isinstance(node, Repeat):
            # the last number stands for no bound
            row.hi = _UNBOUNDED if node.hi is None else _number(f"{kind}.hi", node.hi, most=_UNBOUNDED - 1)
        elif isinstance(node, (BackrefAtLevel, BackrefExistsCondition)):
            row.has_level, row.level = node.level is not None, _signed(f"{kind}.level", node.level or 0)
        elif isinstance(node, AstNode):
            row.position, target = _number(f"{kind}.byte_position", node.byte_position), node.target
            row.which = _BY_NUMBER if isinstance(target, int) else _BY_NAME if isinstance(target, str) else _RELATIVE
            row.group = _number(f"{kind}.target", target) if isinstance(target, int) else 0
            row.level = _signed(f"{kind}.target", target.number) if isinstance(target, Relative) else 0
            text = target if isinstance(target, str) else b""
        for name, value in self.text(text).items():
            setattr(row, name, value)
        return row


def _named_groups(names: bytes, texts: bytes) -> Dict[str, Tuple[int, ...]]:
    named: Dict[str, List[int]] = {}
    for start, size, group in _NAME.iter_unpack(names):
        named.setdefault(texts[start : start + size].decode(), []).append(group)
    return {name: tuple(numbers) for name, numbers in named.items()}


_INFO = _reader(_Info, *(it[0] for it in _Info._fields_)).unpack_from


def _tree(source: _Source, buffers: _Buffers) -> Tree:
    """The tree of a valid pattern, whose rows are in the buffers."""
    (
        node_count, texts_size, name_count, backref_count, total_groups, out_of_range, has_out_of_range, by_numbers, has_calls,
        is_recursive, is_ignored,
    ) = _INFO(buffers, _Buffers.info.offset)  # fmt: skip
    texts = bytes(buffers.of_texts[:texts_size])
    named = _named_groups(bytes(buffers.of_names[:name_count]), texts)
    names = {number: name for name, numbers in named.items() for number in numbers}
    fields: _Fields = {
        "pattern": source.pattern,
        "flags": source.flags,
        "root": _Builder(source, bytes(buffers.of_nodes[:node_count]), texts, names).root(),
        "total_groups": total_groups,
        "named_groups": named,
        "backrefs": tuple(buffers.of_backrefs[:backref_count]),
        "numeric_capture_group_references": by_numbers,
        "contains_subroutines": has_calls,
        "self_recursive": is_recursive,
        "out_of_range_backref": out_of_range if has_out_of_range else None,
        "numbered_groups_ignored": is_ignored,
    }
    return _made(Tree, fields)


def _parsed(source: _Source, buffers: _Buffers) -> Tree:
    """The tree of a pattern, which the library writes into the buffers; if they are too short, into others."""
    got: _Result = _library.fancy_parse_into(*source.arguments, buffers)
    while got.status == _BUFFER_TOO_SHORT:
        if got.size:  # it is the message that is too long
            buffers = _Buffers(0, got.size, 0, 0, 0)
        else:
            info = buffers.info
            buffers = _Buffers(
                info.node_count, info.texts_size, info.name_count, info.backref_count, buffers.trivium_count
            )
        got = _library.fancy_parse_into(*source.arguments, buffers)
    status = got.status
    if status == _OUT_OF_MEMORY:
        raise MemoryError
    if status == _REFUSED:
        raise source.error(got, str(buffers.of_texts[: got.size], "utf-8"))
    if status != _OK:
        raise source.refusal() or AssertionError
    return _tree(source, buffers)


# ---- what a caller calls


def parse(pattern: Pattern, flags: int = UNICODE) -> Tree:
    """Parses a pattern. Raises `Error` if it is invalid."""
    source, buffers = _Source(pattern, flags), _taken()
    try:
        return _parsed(source, buffers)
    finally:
        _KEPT.append(buffers)


def trivia(pattern: Pattern, flags: int = UNICODE) -> Tuple[Trivium, ...]:
    """Returns what no node of a pattern's tree has, in the order of the pattern: comments, inline flags, the parentheses of
    groups such as `(?:a)` and `(?i:a)`, and what leaves nothing in the tree. A comment inside a token, as one in the braces of a
    quantifier, is part of the token, and ignored whitespace is left out. Raises `Error` if the pattern is invalid.

    >>> [(it.kind.name, it.span) for it in trivia("(?i)a(?# b)(?:c)")]
    [('INLINE_FLAGS', (0, 4)), ('COMMENT', (5, 11)), ('OPENING', (11, 14)), ('CLOSING', (15, 16))]
    """
    source, kept = _Source(pattern, flags), _taken()
    buffers = kept
    try:
        got: _Result = _library.fancy_trivia(*source.arguments, *buffers.for_trivia)
        while got.status == _BUFFER_TOO_SHORT:
            buffers = _Buffers(0, 0, 0, 0, buffers.count.value)
            got = _library.fancy_trivia(*source.arguments, *buffers.for_trivia)
        status = got.status
        rows = bytes(buffers.of_trivia[: buffers.count.value]) if status == _OK else b""
    finally:
        _KEPT.append(kept)
    if status == _OUT_OF_MEMORY:
        raise MemoryError
    if status != _OK:
        raise source.refusal() or AssertionError
    return tuple([source.trivium(*row) for row in _TRIVIUM.iter_unpack(rows)])


def _node_facts(
    min_length: int, max_length: int, min_bytes: int, max_bytes: int, is_known: bool, *others: bool
) -> Optional[NodeFacts]:
    """The facts of a row, if it has some."""
    most, most_bytes = (None if it == _UNBOUNDED else it for it in (max_length, max_bytes))
    return NodeFacts(min_length, most, min_bytes, most_bytes, *others) if is_known else None


def facts(pattern: Pattern, flags: int = UNICODE) -> PatternFacts:
    """Returns what is known of the matches of a pattern, and of those of each node. Nothing is known of a back reference, a condition, a
    call, an atomic group, a possessive quantifier, an absent form, a verb, bytes, `\\R`, `\\K`, `\\G` and what contains one of them.
    Raises `Error` if the pattern is invalid.

    >>> found = facts("^ab(c|é*)")
    >>> found.nodes[0].min_length, found.nodes[0].max_length, found.nodes[0].is_anchored_at_start
    (2, None, True)
    >>> found.prefix, found.is_prefix_whole, found.is_easy
    ('ab', False, True)
    """
    source, whole = _Source(pattern, flags), _PatternFacts()
    # enough for nearly all patterns
    count, size = len(source.bytes) + len(source.bytes) // 3 + 2, len(source.bytes)
    while True:
        rows, prefix = (_NodeFacts * count)(), ctypes.create_string_buffer(size)
        got: _Result = _library.fancy_facts(*source.arguments, rows, count, prefix, size, whole)
        if got.status != _BUFFER_TOO_SHORT:
            break
        count, size = whole.node_count, whole.prefix_size
    if got.status == _OUT_OF_MEMORY:
        raise MemoryError
    if got.status != _OK:
        raise source.refusal() or AssertionError
    nodes = [_node_facts(*row) for row in _FACTS.iter_unpack(bytes(memoryview(rows)[: whole.node_count]))]
    text = prefix.raw[: whole.prefix_size].decode() if whole.has_prefix else None
    return PatternFacts(tuple(nodes), text, whole.is_prefix_whole, whole.is_easy)


def check(pattern: Pattern, flags: int = UNICODE) -> Optional[Error]:
    """Returns the error of a pattern, or None if the pattern is valid. It does not raise the error."""
    source = _Source(pattern, flags)
    got: _Result = _library.fancy_check(*source.arguments)
    return None if got.status == _OK else source.refusal()


def is_resolved(pattern: Pattern, flags: int = UNICODE) -> bool:
    """Whether each reference of a pattern refers to a group that the pattern has, or to the whole pattern. It is not so if a back
    reference, a condition or a call has a number above `total_groups`, or a call is an `AstNode`. Raises `Error` if the pattern is
    invalid.

    >>> [is_resolved(pattern) for pattern in (r"(a)\\1", r"(a)\\2", r"\\g<n>")]
    [True, False, False]
    """
    source = _Source(pattern, flags)
    got: _Result = _library.fancy_is_resolved(*source.arguments)
    if got.status == _OUT_OF_MEMORY:
        raise MemoryError
    if got.status not in (_OK, _UNRESOLVED):
        raise source.refusal() or AssertionError
    return got.status == _OK


def to_pattern(pattern: Pattern, flags: int = UNICODE) -> str:
    """Returns a pattern that is parsed, under the same flags, as the same tree with the same groups and names. There is one for each
    tree: comments, ignored whitespace, and the choice among several ways to write the same node are lost. Raises `Error` if the
    pattern is invalid. Raises `RuntimeError` if the text for the tree does not parse back as it; by what is proved of the library,
    this does not happen.

    >>> to_pattern(r"(?:a){0,1}(?# or)|\\x41")
    'a?|A'
    """
    status, text = _Source(pattern, flags).text(_library.fancy_to_pattern)
    if status == _NO_PATTERN:
        raise RuntimeError("what is written for the tree does not parse back as it")
    return text


def format(pattern: Pattern, flags: int = UNICODE, style: Optional[Style] = None, width: int = 80) -> str:
    """Formats a pattern: returns one that is parsed, under the same flags, as the same tree with the same groups and names. Raises
    `Error` if the pattern is invalid.

    It is written as its author wrote it: escapes, classes, names and comments stay. Simpler forms of quantifiers are used, and
    groups, flags and ignored whitespace that are not needed go. `width` is how many characters a line may have in the style
    `VERBOSE`, in which a pattern that is such a line stays one.

    >>> format("(?:a){0,1}|\\\\x41", style=Style.KEPT)
    'a?|\\\\x41'
    >>> print(format("(?:a){0,1}|\\\\x41", style=Style.VERBOSE, width=6))
    (?x)
      a?
    | \\x41

    Without a style it is deprecated, and does what `to_pattern` does."""
    if style is None:
        warnings.warn("format without a style is deprecated: call to_pattern", DeprecationWarning, stacklevel=2)
        return to_pattern(pattern, flags)
    source, number = _Source(pattern, flags), _member(Style, style)
    columns = min(operator.index(width), _UNBOUNDED)
    if columns < 0:
        raise ValueError("a width is not negative")
    return source.text(_library.fancy_format, number, columns)[1]


def normal_form(pattern: Pattern, flags: int = UNICODE, precedence: int = Precedence.WHOLE) -> Optional[str]:
    """Returns a text that is parsed as the normal form of a pattern's tree, or None if the tree is not printable: references,
    look-arounds, atomic groups, calls and the like have no text here. Raises `Error` if the pattern is invalid."""
    source, number = _Source(pattern, flags), _member(Precedence, precedence)
    status, text = source.text(_library.fancy_print, number)
    return None if status == _NOT_PRINTABLE else text


def escape(text: Pattern, flags: int = UNICODE) -> str:
    """Returns a pattern that matches a text: under the flags, which are those that hold where it is put, it is parsed as a `Literal`
    for each character. What is written for a character is the same whatever stands beside it. Raises `Error` if the text is not
    UTF-8.

    >>> escape("1+1\\t= 2"), escape("a b", UNICODE | IGNORE_SPACE)
    ('1\\\\+1\\\\t= 2', 'a\\\\ b')
    """
    return _Source(text, flags).text(_library.fancy_escape)[1]


def class_ranges(text: Pattern, flags: int = UNICODE) -> Optional[Ranges]:
    """Returns the characters that a class matches: pairs of the first and the last code of each range, in ascending order, with a gap
    between any two. The text is that of a `Delegate`, and read as fancy-regex reads it: under `CASEI`, for a node with `casei`, and
    under `UNICODE`; other flags change nothing. None if it is read as something else than a class or a character. Raises `Error` if
    fancy-regex refuses the class, and if the text is not UTF-8. `Node.character_ranges` does this for a node.

    >>> class_ranges("[a-cx]"), class_ranges("[k]", UNICODE | CASEI), class_ranges("[0-[a]b]")
    ([(97, 99), (120, 120)], [(75, 75), (107, 107), (8490, 8490)], None)
    """
    source = _Source(text, flags)
    return source.ranges(_library.fancy_class_ranges, *source.arguments)


def parse_id(text: Pattern) -> str:
    """Returns the id that a text begins with, as for a template of a replacement: all letters and numbers, in any script, and `_` at
    the front. It is empty if the text begins with no id. Raises `Error` if the text is not UTF-8.

    >>> parse_id("year}-"), parse_id("{year}")
    ('year', '')
    """
    source = _Source(text, 0)
    got: _Result = _library.fancy_parse_id(*source.arguments[:2])
    if got.status != _OK:
        raise source.refusal() or AssertionError
    return source.bytes[: got.size].decode()


def parse_decimal(text: Pattern) -> Optional[Tuple[int, int]]:
    """Reads the number that a text begins with: all ASCII digits at the front. Returns how many they are, and the number; None if
    there is no digit, or if the number does not fit in 64 bits. Raises `Error` if the text is not UTF-8.

    >>> parse_decimal("12a"), parse_decimal("a12")
    ((2, 12), None)
    """
    source, value = _Source(text, 0), ctypes.c_size_t()
    got: _Result = _library.fancy_parse_decimal(*source.arguments[:2], ctypes.byref(value))
    if got.status != _OK:
        raise source.refusal() or AssertionError
    return (got.size, value.value) if got.size else None


# ---- the command line


def _flags(letters: str) -> Flag:
    if letters != "-" and (not letters or not set(letters) <= set(_LETTERS)):
        raise argparse.ArgumentTypeError(f"the letters are {_LETTERS}, or - for none")
    return Flag(sum(1 << _LETTERS.index(letter) for letter in set(letters) - {"-"}))


def _lines(name: str) -> Iterator[Tuple[int, Pattern]]:
    """The patterns of a file, each with the number of its line. A line that is not UTF-8 comes as its bytes."""
    if name == "-":
        content = sys.stdin.buffer.read()
    else:
        with open(name, "rb") as file:
            content = file.read()
    lines = content.split(b"\n")
    if lines[-1] == b"":
        lines.pop()
    for number, line in enumerate(lines, 1):
        line = line[:-1] if line.endswith(b"\r") else line
        try:
            yield number, line.decode()
        except UnicodeDecodeError:
            yield number, line


def _node_lines(tree: Tree) -> Iterator[str]:
    """A line for each node: its kind, its span, and its own fields. It is further to the right than that of its parent."""
    ahead: List[Tuple[int, Node]] = [(0, tree.root)]
    while ahead:
        depth, node = ahead.pop()
        start, stop = node.span
        names: Tuple[str, ...] = type(node).__match_args__
        values = ((name, getattr(node, name)) for name in names[:-3])
        fields = [f" {name}={value.name if isinstance(value, enum.Enum) else repr(value)}" for name, value in values]
        yield f"{'  ' * depth}{node.kind} {start}-{stop}{''.join(fields)}"
        ahead.extend((depth + 1, it) for it in reversed(node.children))


def _write_tree(pattern: str, flags: int) -> int:
    try:
        tree = parse(pattern, flags)
    except Error as error:
        print(f"character {error.position + 1}: {error.message}", file=sys.stderr)
        return 1
    for line in _node_lines(tree):
        print(line)
    return 0


def _write_lines(subcommand: str, files: Sequence[str], flags: int) -> int:
    status = 0
    for file in files:
        try:
            for number, pattern in _lines(file):
                error = check(pattern, flags)
                if error is not None:
                    status = max(status, 1)
                    where = sys.stdout if subcommand == "check" else sys.stderr
                    print(f"{file}:{number}:{error.position + 1}: {error.message}", file=where)
                if subcommand == "format":
                    text = pattern if error is not None else to_pattern(pattern, flags)
                    sys.stdout.flush()
                    sys.stdout.buffer.write((text.encode() if isinstance(text, str) else text) + b"\n")
        except OSError as error:
            print(f"{file}: {error.strerror}", file=sys.stderr)
            status = 2
    return status


def _main(arguments: Optional[Sequence[str]] = None) -> int:
    parser = argparse.ArgumentParser(prog="python -m fancy", description="Shows a pattern, or checks and formats files of patterns.")
    parser.add_argument("--version", action="version", version=f"libfancy {__version__}")
    subcommands = parser.add_subparsers(dest="subcommand", required=True, metavar="tree|check|format|extract")
    for name, summary in {
        "tree": "writes the nodes of a pattern, each with its span and its fields",
        "check": "reports each line that is not a valid pattern, as FILE:LINE:COLUMN: message",
        "format": "writes each pattern in one form and without its comments, or as it is if it is invalid",
    }.items():
        subcommand = subcommands.add_parser(name, help=summary, description=f"{name} {summary}.")
        subcommand.add_argument("--flags", type=_flags, default=UNICODE, metavar="LETTERS", help=f"of {_LETTERS}")
        if name == "tree":
            subcommand.add_argument("pattern", metavar="PATTERN")
        else:
            subcommand.add_argument("files", nargs="*", default=["-"], metavar="FILE", help="one pattern per line; - is standard input")
    # it is run before the library is loaded
    subcommands.add_parser("extract", help="writes the patterns of source files as records in JSON", add_help=False)
    given = parser.parse_args(arguments)
    if given.subcommand == "tree":
        return _write_tree(given.pattern, given.flags)
    return _write_lines(given.subcommand, given.files, given.flags)


if __name__ == "__main__":
    sys.exit(_main())

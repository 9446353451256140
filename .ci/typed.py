"""A program that uses the types of the module, of Python 3.10 or later: `mypy --strict` accepts it, and it runs. A comment `type: ignore` is where mypy has
to report an error, since it reports each such comment that is not needed."""

from __future__ import annotations

from typing import Dict, List, Optional, Tuple

import fancy
from fancy_extract import records


def described(node: fancy.Node) -> str:
    """The kind of a node with its own fields, which come first in a pattern of `match`."""
    match node:
        case fancy.Literal(text, True):
            return f"{text.upper()} in any case"
        case fancy.Literal(text) | fancy.Delegate(text):
            return text
        case fancy.LiteralBytes(value):
            return value.hex()
        case fancy.Repeat(lo, hi, greedy, (child,)):
            bound: Optional[int] = hi
            return f"{described(child)} {lo} to {bound} times" + ("" if greedy else ", lazy")
        case fancy.Group(number, name):
            return f"group {number + 0} {name or ''}"
        case fancy.Assertion(fancy.AssertionKind.WORD_BOUNDARY):
            return "boundary"
        case fancy.LookAround(which) | fancy.Verb(which) | fancy.Absent(which) | fancy.Assertion(which):
            return which.name
        case fancy.AstNode(fancy.Relative(distance), position):
            return f"call {distance + 0} at {position + 0}"
        case fancy.AstNode(target):
            return f"call {target}"
        case fancy.Conditional((condition, _, _)):
            return f"if {described(condition)}"
        case fancy.Concat(children) | fancy.Alt(children):
            return str(len(children))
    return node.kind


def looked_at() -> None:
    """Each function and attribute with its type; and types that are others."""
    tree: fancy.Tree = fancy.parse("(?<n>a)b", fancy.UNICODE | fancy.CASEI)
    names: Dict[str, Tuple[int, ...]] = tree.named_groups
    span: Tuple[int, int] = tree.root.span
    error: Optional[fancy.Error] = fancy.check(b"(")
    flags: Optional[fancy.Flag] = fancy.trivia("(?i)a")[0].flags_after
    text: Optional[str] = tree.to_pattern()
    formatted: str = fancy.format("a", style=fancy.Style.KEPT)
    named: Optional[str] = tree.group_name(1)
    resolved: bool = fancy.is_resolved("a")
    written: Tuple[str, str, str] = fancy.to_pattern("a"), fancy.escape("a"), fancy.parse_id("a-")
    decimal: Optional[Tuple[int, int]] = fancy.parse_decimal("12")
    ranges: List[Optional[List[Tuple[int, int]]]] = [fancy.class_ranges("[a]"), tree.root.character_ranges()]
    facts: fancy.PatternFacts = fancy.facts("a")
    most: List[Optional[int]] = [it.max_length if it else None for it in facts.nodes]
    number: int = tree.root  # type: ignore[assignment]
    name: str = tree.root.children[0].span  # type: ignore[assignment]
    first: str = next(records("a.py", b""), {"pattern": ""})["pattern"]
    assert (names, span, text, formatted, first) == ({"n": (1,)}, (0, 8), "(?<n>a)b", "a", "") and error and flags
    assert number and name and (named, resolved, written, decimal) == ("n", True, ("a", "a", "a"), (2, 12))
    assert ranges == [[(97, 97)], None] and most == [1]


PATTERNS = {
    "(?i)a": "A in any case", "a": "a", r"\d": r"\d", "a{2,}?": "a 2 to None times, lazy", "(?<n>a)": "group 1 n", r"\b": "boundary", "(?=a)": "AHEAD",
    r"\g<-3>": "call -3 at 2", r"\g<n>": "call n", "(?(1)a|b)": "if BackrefExistsCondition", "ab|c": "2", r"\K": "KeepOut", "(*SKIP)": "SKIP",
}  # fmt: skip

looked_at()
for pattern, wanted in PATTERNS.items():
    assert described(fancy.parse(pattern).root) == wanted, (pattern, described(fancy.parse(pattern).root))
print(f"{len(PATTERNS)} nodes are matched")

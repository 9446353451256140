"""The tables of docs/grammar.md, for `.ci/runs`.

- Each pattern of a table whose first head begins with `pattern`: its tree, its error or its text is what its row says. Where a cell has
  as much in backticks as there are patterns, each pattern has its own, and else all have the first.
- The printed trees: `conformance` prints each, and `fre` reads the text.

The page writes a tree as `Concat[Group[a], Backref 1]`, with M for the greatest count, and leaves out other fields.
"""
import re
from typing import Callable, Iterator

from pages import messages, rows, spans, table_rows
from programs import Check, Output, Run

PAGE = "docs/grammar.md"
# What the columns beside patterns say, and which flags they add. What is not here is an unknown head.
READING = {"reads as": "", "is returned as": "", "is returned here as": "", "outside it": "", "in Oniguruma mode": "o"}
WRITING = {"its text under `FLAG_UNICODE`": "", "its text in Oniguruma mode": "o"}
WORDS = ("what is not kept", "what is not checked", "in Oniguruma")


# ---- examples


def node_of(line: str) -> str:
    """A node, from its line of `fre`, as the page writes it without its children."""
    name, *fields = line.split()
    if name in ("Literal", "Delegate"):
        text = bytes.fromhex(fields[0]).decode()
        return f"Delegate {text}" if name == "Delegate" else "a space" if text == " " else text
    if name in ("Assertion", "LookAround", "BacktrackingControlVerb", "Absent"):
        return fields[0]
    if name == "Any":
        return "Any newline" if fields[0] == "newline=true" else "Any"
    if name == "Repeat":
        low, high = (it.replace(str(2**64 - 1), "M") for it in fields[:2])
        return f"{'' if fields[2] == 'greedy=true' else 'lazy '}Repeat {low} {high} "
    if name in ("Backref", "BackrefWithRelativeRecursionLevel", "BackrefExistsCondition", "SubroutineCall"):
        return " ".join([name, *(it for it in fields if re.fullmatch(r"-?\d+", it))])
    return name


def tree_of(lines: list) -> str:
    """A tree, from its lines of `fre`, as the page writes it."""
    first, *others = lines
    level = len(first) - len(first.lstrip())
    starts = [at for at, it in enumerate(others) if len(it) - len(it.lstrip()) == level + 2]
    inner = [tree_of(others[start:end]) for start, end in zip(starts, [*starts[1:], None])]
    return node_of(first) + (f"[{', '.join(inner)}]" if inner else "")


def read_as(got: Output) -> str:
    """The tree that `fre` writes, or the kind of the error and its position."""
    if got.status == 0:
        return tree_of(got.out.split("\nmarks ")[0].split("\n"))
    error = re.fullmatch(r"Parsing error at position (\d+): (.*)\n", got.err, flags=re.S)
    kinds = [kind for kind, start in messages().items() if error and error[2].startswith(start)]
    return f"{', '.join(kinds)} at {error[1]}" if error else got.err


def reading(flags: str, pattern: str, said: str, cell: str):
    """The run for a pattern that is read, what has to come of it, and what is taken of that."""
    position = re.search(r"` at (\d+)", cell)
    return Run("fre", (flags, pattern)), f"{said} at {position[1]}" if said in messages() and position else said, read_as


def writing(flags: str, pattern: str, said: str, _: str):
    """The same for a pattern whose text is written."""
    words = ("format", "--canonical", "--drop-comments", "--quiet", "--flags", flags, "-e", pattern)
    return Run("patterns", words), said + "\n", lambda got: got.out + got.err


def cell_checks(where: str, patterns: list, cell: str, flags: str, kind: Callable) -> Iterator[Check]:
    """The examples of a cell."""
    found = spans(cell)
    assert found, f"{where}: nothing is said: {cell}"
    own = found if len(found) == len(patterns) else found[:1] * len(patterns)
    for pattern, said in zip(patterns, own):
        yield Check(f"{where}: {pattern} {flags}", *kind(flags, pattern, said, cell))


def example_checks() -> Iterator[Check]:
    """The tables of patterns."""
    for line, head, cells in table_rows(PAGE):
        if not head[0].startswith("pattern"):
            continue
        flags = "un" if "under that flag" in head[0] + cells[0] else "u"
        for title, cell in zip(head[1:], cells[1:]):
            assert title in (*READING, *WRITING, *WORDS), f"an unknown head: {title}"
            if title not in WORDS:
                added, kind = (READING[title], reading) if title in READING else (WRITING[title], writing)
                yield from cell_checks(f"{PAGE}:{line}", spans(cells[0]), cell, flags + added, kind)


# ---- printed trees


def nodes(text: str, is_casei: Callable[[str], bool], level: int = 0) -> list:
    """The lines that `fre` writes for a tree, which is written as the page has it."""
    leaf = re.fullmatch(r"(Literal|Delegate) (.+)|(.)", text)
    row = re.fullmatch(r"(Concat|Alt|Group|DefineGroup)\[(.*)\]", text)
    repeat = re.fullmatch(r"(lazy )?Repeat (\S+) (\S+) \[(.*)\]", text)
    inside = ""
    if leaf:
        held = leaf[2] or leaf[3]
        line = f"{leaf[1] or 'Literal'} {held.encode().hex()} casei={str(is_casei(held)).lower()}"
    elif row:
        line, inside = row[1], row[2]
    elif repeat:
        low, high = (it.replace("M", str(2**64 - 1)) for it in repeat.group(2, 3))
        line, inside = f"Repeat {low} {high} greedy={str(not repeat[1]).lower()}", repeat[4]
    else:
        line = {"Empty": "Empty", "WordBoundary": "Assertion WordBoundary"}[text]
    lines = ["  " * level + line]
    for child in children(inside):
        lines += nodes(child, is_casei, level + 1)
    return lines


def children(inside: str) -> list:
    """The parts between commas that no brackets hold."""
    found, depth = [], 0
    for part in inside.split(", ") if inside else []:
        if depth:
            found[-1] += ", " + part
        else:
            found.append(part)
        depth += part.count("[") - part.count("]")
    return found


def cell_nodes(cell: str) -> list:
    """The lines of the tree in a cell. The cell names what is case-insensitive, or says it of all."""
    tree, *named = spans(cell)
    is_said = "case-insensitive" in cell
    return nodes(tree, lambda held: is_said and (not named or held in named))


SAME = ": 1 same, 0 different\n"


def print_checks() -> Iterator[Check]:
    """The table of printed trees."""
    for line, (tree, texts, read) in rows(PAGE, "tree", "its text at 0", "reads as"):
        where, lines = f"{PAGE}:{line}", "\n".join(cell_nodes(tree))
        for part in texts.split("; "):
            text = None if part.startswith("not printable") else "".join(spans(part)[:1])
            level = re.search(r"` at (\d)$", part)
            written = "none" if text is None else text.encode().hex() or "-"
            record = f"{level[1] if level else 0}\t{lines.encode().hex()}\t{written}\n"
            run = Run("conformance", ("replay", "trees"), files=(("trees", record),))
            yield Check(f"{where}: {part}", run, SAME, lambda got: got.out[-len(SAME):])
            if text is None:
                continue
            start = (lines if read == "itself" else "\n".join(cell_nodes(read))) + "\nmarks "
            for letters in "-u":
                run = Run("fre", (letters, text))
                yield Check(f"{where}: fre {letters} {text}", run, start, lambda got, start=start: got.out[:len(start)] + got.err)


def parts() -> dict:
    """The checks of the tables."""
    return {f"{PAGE}, examples": list(example_checks()), f"{PAGE}, printed trees": list(print_checks())}

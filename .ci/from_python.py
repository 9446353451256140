"""Compares what Python gets with recorded answers: `from_python.py FOLDER`, where the folder holds rows.tsv, numbered.tsv,
texts.tsv and characters.tsv. From the nodes and fields of `fancy.parse` it writes what `fre` writes. Besides, it runs the examples of the
module's docstring, and compares positions and spans, in characters and in bytes, with those written here. FANCY_LIBRARY names
the library."""

import concurrent.futures
import copy
import ctypes
import dataclasses
import doctest
import os
import pathlib
import pickle
import re
import shutil
import signal
import subprocess
import sys
import tempfile
import time
import unittest.mock
import warnings

import fancy

NAMES = {"BackrefAtLevel": "BackrefWithRelativeRecursionLevel", "Verb": "BacktrackingControlVerb"}
LETTERS = fancy._LETTERS


def flags_named(letters):
    return fancy.Flag(0 if letters == "-" else sum(1 << LETTERS.index(letter) for letter in letters))


def camel(kind):
    return "".join(word.capitalize() for word in kind.name.split("_"))


def boolean(value):
    return "true" if value else "false"


def hexed(text):
    return (text if isinstance(text, bytes) else text.encode()).hex() or "-"


def unhexed(field):
    return bytes.fromhex("" if field == "-" else field)


def target(node):
    if isinstance(node.target, fancy.Relative):
        return f"relative:{node.target.number}"
    return f"number:{node.target}" if isinstance(node.target, int) else f"name:{hexed(node.target)}"


def fields(node):
    if isinstance(node, fancy.Any):
        return f" newline={boolean(node.newline)} crlf={boolean(node.crlf)}"
    if isinstance(node, fancy.Assertion):
        asks = fancy.AssertionKind.END_TEXT_IGNORE_TRAILING_NEWLINES <= node.which <= fancy.AssertionKind.END_LINE
        return f" {camel(node.which)}" + (f" crlf={boolean(node.crlf)}" if asks else "")
    if isinstance(node, fancy.GeneralNewline):
        return f" unicode={boolean(node.unicode)}"
    if isinstance(node, (fancy.Literal, fancy.Delegate)):
        return f" {hexed(node.text)} casei={boolean(node.casei)}"
    if isinstance(node, fancy.LiteralBytes):
        return f" {hexed(node.value)}"
    if isinstance(node, fancy.LookAround):
        return f" Look{camel(node.which)}"
    if isinstance(node, (fancy.Verb, fancy.Absent)):
        return f" {camel(node.which)}"
    if isinstance(node, fancy.Repeat):
        return f" {node.lo} {2**64 - 1 if node.hi is None else node.hi} greedy={boolean(node.greedy)}"
    if isinstance(node, fancy.Backref):
        return f" {node.group} casei={boolean(node.casei)}"
    if isinstance(node, fancy.BackrefAtLevel):
        return f" {node.group} {node.level} casei={boolean(node.casei)}"
    if isinstance(node, fancy.BackrefExistsCondition):
        return f" {node.group} {'none' if node.level is None else node.level}"
    if isinstance(node, fancy.SubroutineCall):
        return f" {node.group}"
    if isinstance(node, fancy.AstNode):
        return f" SubroutineCall {target(node)} {node.byte_position}"
    return ""


def lines(node, level=0):
    yield f"{'  ' * level}{NAMES.get(node.kind, node.kind)}{fields(node)}"
    for child in node.children:
        yield from lines(child, level + 1)


def information(tree):
    named = ";".join(f"{hexed(name)}:{','.join(map(str, numbers))}" for name, numbers in tree.named_groups.items())
    outside = "none" if tree.out_of_range_backref is None else tree.out_of_range_backref
    return (
        f"marks groups={tree.total_groups} backrefs={','.join(map(str, tree.backrefs)) or '-'} named={named or '-'}"
        f" numeric={boolean(tree.numeric_capture_group_references)} calls={boolean(tree.contains_subroutines)}"
        f" self={boolean(tree.self_recursive)} out_of_range={outside} ignored={boolean(tree.numbered_groups_ignored)}"
    )


def answer(pattern, flags):
    """The status, and what `fre` writes on standard output and on standard error."""
    try:
        tree = fancy.parse(pattern, flags)
    except fancy.Error as error:
        return 1, "", f"Parsing error at position {error.byte_position}: {error.message}\n"
    text = fancy.normal_form(pattern, flags)
    printed = "none" if text is None else hexed(text)
    return 0, "\n".join([*lines(tree.root), information(tree), f"text {printed}"]) + "\n", ""


def are_spans_in_characters(pattern, flags):
    """Whether the spans in characters and in bytes are the same parts of the pattern, and names those of the groups."""
    if fancy.check(pattern, flags) is not None:
        return True
    tree, whole = fancy.parse(pattern, flags), pattern.encode()
    numbers = {name: tuple(g.group for g in tree.walk() if isinstance(g, fancy.Group) and g.name == name) for name in tree.named_groups}
    return numbers == tree.named_groups and all(
        pattern[slice(*node.span)].encode() == whole[slice(*node.byte_span)] for node in tree.walk()
    )


def are_trees_written(pattern, flags):
    """Whether a tree, and each node of it, gives what the pattern gives."""
    if fancy.check(pattern, flags) is not None:
        return True
    tree = fancy.parse(pattern, flags)
    nodes = [node.normal_form(fancy.Precedence.PIECE) for node in tree.walk()]
    return (
        tree.to_pattern() == fancy.to_pattern(pattern, flags)
        and nodes[0] == fancy.normal_form(pattern, flags, fancy.Precedence.PIECE)
        and all(text is None or isinstance(fancy.check(text), (fancy.Error, type(None))) for text in nodes)
    )


def are_parts_written(pattern, flags):
    """Whether what is written for each node of a tree, as a tree of its own, is the same if all names are passed to the library."""
    if fancy.check(pattern, flags) is not None:
        return True
    tree = fancy.parse(pattern, flags)
    parts = [dataclasses.replace(tree, root=node) for node in tree.walk()]
    texts = [part.to_pattern() for part in parts]
    with unittest.mock.patch.object(fancy._Rows, "groups", lambda _: 2**64):
        return texts == [part.to_pattern() for part in parts]


def characters(call, *arguments):
    """The characters as they are recorded, and the position of an error."""
    try:
        ranges = call(*arguments)
    except fancy.Error as error:
        return f"{error.position}.." if error.kind is fancy.ErrorKind.INVALID_CLASS else ""
    return "not one character" if ranges is None else " ".join(f"{first:X}-{last:X}" for first, last in ranges)


def are_characters(pattern, flags, wanted):
    """Whether a node matches these characters, or is refused, at this position if it is a class."""
    node, position = fancy.parse(pattern, flags).root, re.match(r"\d+\.\.", wanted)
    is_right = characters(node.character_ranges, flags) == ("0.." if position else wanted)
    if not isinstance(node, fancy.Delegate):
        return is_right
    of_class = flags | fancy.CASEI if node.casei else flags & ~fancy.CASEI
    return is_right and characters(fancy.class_ranges, node.text, of_class) == (position[0] if position else wanted)


def is_recorded(row):
    if row[0] == "characters":
        return are_characters(unhexed(row[2]).decode(), flags_named(row[1]), unhexed(row[3]).decode())
    if row[0] == "text":
        pattern, flags = unhexed(row[2]).decode(), flags_named(row[1])
        return fancy.to_pattern(pattern, flags).encode() == unhexed(row[3]) and is_kept_by_a_style(pattern, flags)
    if not (row[0] == "-" or (row[0] and set(row[0]) <= set(LETTERS))):
        return row[2] == "2"
    status, out, err = int(row[2]), *(unhexed(field).decode() for field in row[3:5])
    flags, given = flags_named(row[0]), unhexed(row[1])
    pattern = given.decode()
    is_same = answer(pattern, flags) == answer(given, flags) == (status, out, err)
    return (
        is_same
        and are_spans_in_characters(pattern, flags)
        and are_trees_written(pattern, flags)
        and are_parts_written(pattern, flags)
        and is_kept_by_a_style(pattern, flags)
    )


def replay(file):
    rows = [line.split("\t") for line in file.read_text().splitlines()]
    rows = [row for row in rows if len(row) > 3]
    different = [row for row in rows if not is_recorded(row)]
    for row in different:
        print("different:", *row)
    print(f"{file.name}: {len(rows) - len(different)} same, {len(different)} different")
    return bool(rows) and not different


def is_error(pattern, kind, message, position, byte_position, lineno, colno):
    """Whether the pattern has this error, raised and returned, also after it was pickled."""
    try:
        fancy.parse(pattern)
    except fancy.Error as raised:
        errors = [raised, fancy.check(pattern), pickle.loads(pickle.dumps(raised))]
        return isinstance(raised, ValueError) and all(
            (e.pattern, e.kind, e.message, e.position, e.byte_position, e.lineno, e.colno, e.msg, e.pos)
            == (pattern, kind, message, position, byte_position, lineno, colno, message, position)
            and str(e) == f"{message} at position {position}" and message.startswith(kind.text)
            for e in errors
        )  # fmt: skip
    return False


def spans(pattern, flags=fancy.UNICODE):
    return [node.span for node in fancy.parse(pattern, flags).walk()]


def are_errors_right():
    kinds, unclosed = fancy.ErrorKind, "Opening parenthesis without closing parenthesis"
    return (
        is_error("(é", kinds.UNCLOSED_OPEN_PAREN, unclosed, 2, 3, 1, 3)
        and is_error("(é".encode(), kinds.UNCLOSED_OPEN_PAREN, unclosed, 3, 3, 1, 4)
        and is_error("é\nαβ)", kinds.GENERAL_PARSE_ERROR, fancy.check("a)").message, 4, 7, 2, 3)
        and is_error("é(?#\\", kinds.UNCLOSED_OPEN_PAREN, unclosed, 6, 7, 1, 7)
        and is_error(b"a\xffb", kinds.NOT_UTF8, "Not UTF-8", 1, 1, 1, 2)
        and is_error("é\ud800", kinds.NOT_UTF8, "Not UTF-8", 1, 2, 1, 2)
        and fancy.check("(a)") is None
    )


def are_trees_right():
    deep = "(" * 63 + ")" * 63
    named = fancy.parse("(?<n>a)(b)\\k<n>")
    return (
        spans("(a|b)c*") == [(0, 7), (0, 5), (1, 4), (1, 2), (3, 4), (5, 7), (5, 6)]
        and spans("é[α-ω]é") == [(0, 7), (0, 1), (1, 6), (6, 7)]
        and spans("é[α-ω]é".encode()) == [(0, 11), (0, 2), (2, 9), (9, 11)]
        and spans("") == spans(b"") == [(0, 0)]
        and fancy.parse("a(?:b)") == fancy.parse("a(?:b)")
        and fancy.parse("a(?:b)").root == fancy.parse("ab").root != fancy.parse("ac").root
        and [(g.group, g.name) for g in named.walk() if isinstance(g, fancy.Group)] == [(1, "n"), (2, None)]
        and sum(1 for _ in fancy.parse(deep).walk()) == 64
        and fancy.parse("a{2,}").root.hi is None
        and len(list(fancy.parse("a" * 5000).walk())) == 5001
        and fancy.to_pattern("(?x) a {2,2}  # twice") == "a{2}"
        and fancy.normal_form("(?=a)") is None
        and fancy.normal_form("a|b", precedence=fancy.Precedence.PIECE) == "(?:a|b)"
        and changed(r"(?<n>a)\1", fancy.KeepOut) == r"\K\1"
        and changed(r"(?<n>a)(?<m>b)\g<n>", fancy.Empty) is None  # no part of a concatenation is empty
    )


def is_long_right(count):
    """Whether what a call writes is right if it has so many items, or so many characters."""
    named = {f"n{number:04}": (number + 1,) for number in range(count)}
    groups, references = "".join(f"(?<{name}>a)" for name in named), "".join(f"\\k<{name}>" for name in named)
    tree, name = fancy.parse(groups + references), "n" * count
    unordered = fancy.check(f"\\k<{name}>(?<{name}>a)")
    return (
        [node.text for node in fancy.parse("a|" * count).walk() if isinstance(node, fancy.Literal)] == ["a"] * count
        and [node.text for node in fancy.parse("\\h" * count).walk() if isinstance(node, fancy.Delegate)] == ["[0-9A-Fa-f]"] * count
        and (tree.named_groups, tree.backrefs) == (named, tuple(range(1, count + 1)))
        and fancy.to_pattern("a" * count) == fancy.format("a" * count, style=fancy.Style.KEPT) == "a" * count
        and len(fancy.to_pattern("(?<" + "n" * 99 + ">)" + "\\k<-1>" * count)) == 104 + 103 * count
        and len(fancy.trivia("a(?:)*" * count, fancy.UNICODE | fancy.ONIGURUMA_MODE)) == 3 * count
        and (count == 0 or unordered.message == fancy.ErrorKind.INVALID_GROUP_NAME_BACKREF.text + name)
    )


def time_of_name(count):
    """The seconds of this thread in which the group numbers of a name are gathered that so many groups have."""
    names = bytes((fancy._Name * count)(*(fancy._Name(text=0, text_size=1, group=it) for it in range(count))))
    start = time.thread_time()
    named = fancy._named_groups(names, b"n")
    seconds = time.thread_time() - start
    assert named == {"n": tuple(range(count))}
    return seconds


def is_name_linear():
    """Whether ten times as many groups of one name take ten times as long; a hundred times if each made the tuple anew."""
    few = time_of_name(5_000)
    return time_of_name(50_000) < 30 * few


def are_buffers_right():
    """Whether results are right where the first buffers of a call are long enough, and where they are too short; and whether a comment
    of 1 MB takes little memory."""
    code = """
import fancy, resource
def call(pattern):
    tree = fancy.parse(pattern)
    texts = fancy.to_pattern(pattern), fancy.normal_form(pattern), *[fancy.format(pattern, style=style) for style in fancy.Style]
    return tree.root.kind, fancy.check(pattern), len(fancy.trivia(pattern)), texts
call("a")
with open("/proc/self/statm") as file:
    size = int(file.read().split()[0]) * resource.getpagesize()
resource.setrlimit(resource.RLIMIT_AS, (size + 16_000_000, size + 16_000_000))
pattern = "(?#" + "a" * 1_000_000 + ")"
assert call(pattern) == ("Empty", None, 1, ("", "", pattern, pattern, pattern))
"""
    counts = [*range(36), *range(60, 68), *range(124, 132), *range(252, 260), *range(508, 516), *range(764, 772), *range(1020, 1028), 5000]
    return all(map(is_long_right, counts)) and subprocess.run([sys.executable, "-W", "error", "-c", code]).returncode == 0


def are_objects_plain():
    """Whether what a call makes is as what is made by hand: it can be copied, compared, hashed and pickled, has no fields but its own, and
    none of them can be changed."""
    patterns = "(?<n>a+)|[b]\\k<n>", "(?i)\\b.(?=\\R)\\K\\G", "é(?(1)a|b)(c)(?>d)", "(a)\\k<1+2>\\g<1>\\g<n>(*FAIL)(?~e)", b"\\x80"
    trees = [fancy.parse(it, flags) for it in patterns for flags in (fancy.UNICODE, fancy.MULTI) if fancy.check(it, flags) is None]
    made = [*trees, *fancy.trivia("(?i)a(?#b)"), *(node for tree in trees for node in tree.walk())]
    return all(is_object_plain(it) for it in made) and len({it.kind for it in made if isinstance(it, fancy.Node)}) > 17


def is_object_plain(it):
    values = {field.name: getattr(it, field.name) for field in dataclasses.fields(it)}
    others = [type(it)(**values), copy.copy(it), copy.deepcopy(it), pickle.loads(pickle.dumps(it))]
    return (
        vars(it) == values
        and all(other == it and repr(other) == repr(it) and vars(other) == values for other in others)
        and (isinstance(it, fancy.Tree) or {hash(other) for other in others} == {hash(it)})
        and all(refusal(lambda: setattr(it, name, 1))[0] is dataclasses.FrozenInstanceError for name in values)
    )


def are_calls_apart():
    """Whether calls that run at once have buffers of their own: those of several threads, and one within another."""
    patterns = ["(a|b)c*", "(?<n>a)\\k<n>", "é[α-ω]é", "a" * 3000, "(?:x)" * 700, "(?#" + "c" * 70000 + ")"]
    wanted = [(fancy.parse(it), fancy.trivia(it), fancy.to_pattern(it)) for it in patterns]

    def work(_=None):
        return [(fancy.parse(it), fancy.trivia(it), fancy.to_pattern(it)) for it in patterns] == wanted

    inside = []
    with concurrent.futures.ThreadPoolExecutor(8) as pool:
        is_right = all(pool.map(work, range(40)))
    signal.signal(signal.SIGALRM, lambda *_: inside.append(fancy.parse("(x)(y)").total_groups == len(fancy.trivia("(?:a)"))))
    signal.setitimer(signal.ITIMER_REAL, 0.0005, 0.0005)
    is_right = is_right and all(work() for _ in range(10))
    signal.setitimer(signal.ITIMER_REAL, 0)
    return is_right and inside and all(inside) and len(fancy._KEPT) <= 16


def letters_of(flags):
    return None if flags is None else "".join(letter for bit, letter in enumerate(LETTERS) if flags & 1 << bit)


def trivia(pattern, flags=fancy.UNICODE):
    """The trivia of a pattern as tuples, in which flags are letters. Its tree has to have the same."""
    found = fancy.trivia(pattern, flags)
    assert fancy.parse(pattern, flags).trivia() == found
    return [
        (it.kind.name, it.span, it.byte_span, letters_of(it.flags_before), letters_of(it.flags_after)) for it in found
    ]


def is_refused_by_trivia(pattern):
    try:
        fancy.trivia(pattern)
    except fancy.Error as error:
        return (error.kind, error.position) == (fancy.check(pattern).kind, fancy.check(pattern).position)
    return False


def are_trivia_right():
    none = (None, None)
    return (
        trivia("") == trivia(b"ab") == trivia("[(?#)]") == trivia("\\#", fancy.IGNORE_SPACE) == []
        and trivia("é(?#é)*") == [("COMMENT", (1, 6), (2, 8), *none)]
        and trivia("é(?#é)*".encode()) == [("COMMENT", (2, 8), (2, 8), *none)]
        and trivia("a*(?#b)c") == [("COMMENT", (2, 7), (2, 7), *none)]
        and trivia("é{1(?#c)}") == [("INNER_COMMENT", (3, 8), (4, 9), *none)]
        and trivia("((?#é)a)") == [("INNER_COMMENT", (1, 6), (1, 7), *none)]
        and trivia("(a(?i)b)c") == [("INLINE_FLAGS", (2, 6), (2, 6), "u", "iu")]
        and trivia("(?i:a)b") == [("OPENING", (0, 4), (0, 4), "u", "iu"), ("CLOSING", (5, 6), (5, 6), *none)]
        and trivia("(a)(?<n>b)", fancy.UNICODE | fancy.IGNORE_NUMBERED_GROUPS_WHEN_NAMED_GROUPS_EXIST) == [
            ("OPENING", (0, 1), (0, 1), "un", "un"), ("CLOSING", (2, 3), (2, 3), *none),
        ]
        and trivia("(é)(?(1)(?#c)|)") == [
            ("DROPPED", (3, 6), (4, 7), *none), ("DROPPED", (7, 8), (8, 9), *none), ("COMMENT", (8, 13), (9, 14), *none),
            ("DROPPED", (13, 15), (14, 16), *none),
        ]
        and trivia("a(?:)*b", fancy.UNICODE | fancy.ONIGURUMA_MODE) == [
            ("OPENING", (1, 4), (1, 4), "uo", "uo"), ("CLOSING", (4, 5), (4, 5), *none), ("DROPPED", (5, 6), (5, 6), *none),
        ]
        and trivia("(?x)a # é\nc #") == [
            ("INLINE_FLAGS", (0, 4), (0, 4), "u", "xu"), ("LINE_COMMENT", (6, 10), (6, 11), *none),
            ("LINE_COMMENT", (12, 13), (13, 14), *none),
        ]
        and is_refused_by_trivia("a(?#b)(")
        and is_refused_by_trivia(b"\xff")
    )  # fmt: skip


def is_kept_by_a_style(pattern, flags):
    """Whether what a pattern is formatted to in each style has its tree and its comments, and is formatted already."""
    if fancy.check(pattern, flags) is not None:
        return True
    for style in fancy.Style:
        text = fancy.format(pattern, flags, style, width=30)
        tree, comments = fancy.parse(pattern, flags), comments_of(pattern, flags, style)
        if (text, comments) != (fancy.format(text, flags, style, width=30), comments_of(text, flags, style)):
            return False
        if tree.to_pattern() != fancy.parse(text, flags).to_pattern() or tree.named_groups != fancy.parse(text, flags).named_groups:
            return False
    return True


def comments_of(pattern, flags, style):
    """The comments that are not empty, for the style `COMPACT` without their delimiters and whitespace at their ends."""
    kind = fancy.TriviumKind
    kinds = kind.COMMENT, kind.LINE_COMMENT, kind.INNER_COMMENT, kind.INNER_LINE_COMMENT
    texts = [pattern[slice(*it.span)] for it in fancy.trivia(pattern, flags) if it.kind in kinds]
    if style == fancy.Style.COMPACT:
        return [it for it in ((text[3:-1] if text[0] == "(" else text[1:]).rstrip() for text in texts) if it]
    return [text for text in texts if text != "(?#)"]


def raises(kind, call):
    try:
        call()
    except kind:
        return True
    return False


def are_formatted_right():
    style, verbose = fancy.Style, fancy.UNICODE | fancy.IGNORE_SPACE
    return (
        fancy.format("(?:\\x41){0,1}(?# é)", style=style.KEPT) == "\\x41?(?# é)"
        and fancy.format("(?:\\x41){0,1}(?# é)".encode(), style=style.KEPT) == "\\x41?(?# é)"
        and fancy.format("a  b \n (?:c){1,}   # one", verbose, style.KEPT) == "a  b\n c+   # one"
        and fancy.format("(abcd|ef)g", style=style.VERBOSE) == "(abcd|ef)g"
        and fancy.format("(abcd|ef)g", style=style.VERBOSE, width=8) == "(?x)\n(\n    abcd\n  | ef\n)\ng"
        and fancy.format("(abcd|ef)g", style=style.VERBOSE, width=2**64) == "(abcd|ef)g"
        and fancy.format("(?x)\n  a{0,1} # é\n| b", style=style.COMPACT) == "a?(?# é)|b"
        and fancy.to_pattern("(?:\\x41){0,1}(?# é)") == "A?"
        and raises(ValueError, lambda: fancy.format("a", style=len(style)))
        and raises(ValueError, lambda: fancy.format("a", style=style.VERBOSE, width=-1))
        and raises(fancy.Error, lambda: fancy.format("(", style=style.KEPT))
        and raises(fancy.Error, lambda: fancy.format(b"\xff", style=style.KEPT))
    )


def are_engine_calls_right():
    """What an engine asks: whether references are resolved, names of groups, texts as patterns, and what a text begins with."""
    tree, spaces = fancy.parse("(?<n>a)(b)(?<n>c)"), fancy.UNICODE | fancy.IGNORE_SPACE
    resolved = {r"(a)\1": True, r"(a)\2": False, r"\g<0>": True, r"\g<n>": False, "(?(2)a|b)(x)": False, "": True}
    texts = ["", "a b#é", "\\.+*?()|[]{}^$", "\t\x00\u200b\U0001f600-&~"]
    return (
        all(fancy.is_resolved(pattern) == wanted == fancy.is_resolved(pattern.encode()) for pattern, wanted in resolved.items())
        and [tree.group_name(group) for group in range(5)] == [None, "n", None, "n", None]
        and [fancy.escape(it) for it in ("1+1", b"a b", "\n")] == ["1\\+1", "a b", "\\n"]
        and fancy.escape("a b", spaces) == "a\\ b"
        and all(is_text_of(text, fancy.Flag(flags)) for text in texts for flags in range(sum(fancy.Flag) + 1))
        and [fancy.parse_id(it) for it in ("", "année}", b"a-", "{a", "_1")] == ["", "année", "a", "", "_1"]
        and [fancy.parse_decimal(it) for it in ("", "007a", b"1", "a1")] == [None, (3, 7), (1, 1), None]
        and [fancy.parse_decimal(str(2**64 - it)) for it in (1, 0)] == [(20, 2**64 - 1), None]
        and all(raises(fancy.Error, lambda: call(b"a\xff")) for call in (fancy.escape, fancy.parse_id, fancy.parse_decimal))
        and raises(fancy.Error, lambda: fancy.is_resolved("("))
        and raises(TypeError, lambda: fancy.parse_id(1))
    )


def are_ranges_right():
    """The characters of classes and other nodes, beside those that are recorded."""
    ascii_only, any_case = fancy.Flag(0), fancy.UNICODE | fancy.CASEI
    classes = {
        ("[a-cx]", fancy.UNICODE): [(97, 99), (120, 120)], ("é", fancy.UNICODE): [(233, 233)], ("[é]".encode(), fancy.UNICODE): [(233, 233)],
        (r"\d", ascii_only): [(48, 57)], ("[s]", any_case): [(83, 83), (115, 115), (383, 383)], ("[s]", fancy.CASEI): [(83, 83), (115, 115)],
        ("[a&&b]", fancy.UNICODE): [], ("[0-[a]b]", fancy.UNICODE): None, ("", fancy.UNICODE): None, ("ab", fancy.UNICODE): None,
    }  # fmt: skip
    nodes = list(fancy.parse("(?i:k)(a)").walk())
    return (
        all(fancy.class_ranges(*given) == wanted for given, wanted in classes.items())
        and all(is_class_of_re(it) for it in ("[^a-c]", r"\d", r"[^\d_]", r"[\x00-\x1f\u00e9α-ω]", "[^\x00-\u2000]"))
        and is_class_of_re("[k-t]", re.I)
        and is_refused_class("[é-a]", 1, 1)
        and is_refused_class("[éz-a]", 2, 3)
        and is_refused_class("[éz-a]".encode(), 3, 3)
        and is_refused_class(r"\p{Greeek}", 0, 0)
        and [it.character_ranges() for it in nodes] == [None, [(75, 75), (107, 107), (8490, 8490)], None, [(97, 97)]]
        and fancy.Literal((0, 1), (0, 1), (), "ab", False).character_ranges() is None
        and raises(fancy.Error, lambda: fancy.class_ranges(b"a\xff"))
        and raises(fancy.Error, lambda: fancy.parse(".").root.character_ranges(ascii_only))
        and raises(TypeError, lambda: fancy.class_ranges(1))
    )


def are_facts_right():
    """What is known of matches: of each node its lengths in characters and bytes, and by letters whether it can be empty, its length is
    constant, and it is anchored at the start and the end (f)."""
    one, at_start = (1, 1, 1, 1, "c"), (0, 0, 0, 0, "ecs")
    wanted = {
        "": ("", True, True, [(0, 0, 0, 0, "ec")]),
        "a|bc": ("", False, True, [(1, 2, 1, 2, ""), one, (2, 2, 2, 2, "c"), one, one]),
        "ab|ac": ("a", False, True, [(2, 2, 2, 2, "c"), (2, 2, 2, 2, "c"), one, one, (2, 2, 2, 2, "c"), one, one]),
        "é{2,}": ("é", False, True, [(2, None, 4, None, ""), (1, 1, 2, 2, "c")]),
        "a😀": ("a😀", True, True, [(2, 2, 5, 5, "c"), one, (1, 1, 4, 4, "c")]),
        # k, K and the Kelvin sign, of three bytes, are one letter
        "(?i)k": ("", False, True, [(1, 1, 1, 3, "c")]),
        ".?": ("", False, True, [(0, 1, 0, 4, "e"), (1, 1, 1, 4, "c")]),
        "^a$": ("a", True, True, [(1, 1, 1, 1, "csf"), at_start, one, (0, 0, 0, 0, "ecf")]),
        "^|a": ("", False, True, [(0, 1, 0, 1, "e"), at_start, one]),
        "(^)?": ("", False, True, [(0, 0, 0, 0, "ec"), at_start, at_start]),
        "(?<=a|b*)d": ("d", True, False, [one, (0, 0, 0, 0, "ec"), (0, None, 0, None, "e"), one, (0, None, 0, None, "e"), one, one]),
        "(?:a{4294967296}){4294967296}": ("a", False, True, [(2**64 - 1, None, 2**64 - 1, None, ""), (2**32, 2**32, 2**32, 2**32, "c"), one]),
        r"(a)\1": (None, False, False, [None, one, one, None]),
        "a++": (None, False, False, [None, (1, None, 1, None, ""), one]),
    }  # fmt: skip
    return (
        all(listed(fancy.facts(pattern)) == it == listed(fancy.facts(pattern.encode())) for pattern, it in wanted.items())
        and fancy.facts("[0-9]", fancy.Flag(0)) == fancy.facts("[0-9]")
        and not fancy.facts("^a", fancy.UNICODE | fancy.MULTI).nodes[0].is_anchored_at_start
        # more nodes than bytes
        and len(fancy.facts("|" * 5000).nodes) == len(list(fancy.parse("|" * 5000).walk()))
        and fancy.facts("é" * 5000).prefix == "é" * 5000
        and raises(fancy.Error, lambda: fancy.facts("a("))
        and raises(fancy.Error, lambda: fancy.facts(b"\xff"))
    )


def listed(facts):
    """The facts of a pattern, with those of each node as a tuple."""
    nodes = [it and dataclasses.astuple(it) for it in facts.nodes]
    rows = [it and (*it[:4], "".join(letter for letter, holds in zip("ecsf", it[4:]) if holds)) for it in nodes]
    return facts.prefix, facts.is_prefix_whole, facts.is_easy, rows


def is_class_of_re(text, flags=0):
    """Whether a class has the characters that Python's engine finds, among the first."""
    codes, matches = range(0x3000), re.compile(text, flags).fullmatch
    ranges = fancy.class_ranges(text, fancy.UNICODE | (fancy.CASEI if flags & re.I else 0))
    found = {code for first, last in ranges for code in range(first, min(last + 1, len(codes)))}
    return found == {code for code in codes if matches(chr(code))}


def is_refused_class(text, position, byte_position):
    try:
        fancy.class_ranges(text)
    except fancy.Error as error:
        got = error.pattern, error.kind, error.message, error.position, error.byte_position
        return got == (text, fancy.ErrorKind.INVALID_CLASS, "Invalid character class", position, byte_position)
    return False


def is_text_of(text, flags):
    """Whether a text is escaped to a pattern that has a literal for each character, in order."""
    root = fancy.parse(fancy.escape(text, flags), flags).root
    nodes = root.children if isinstance(root, fancy.Concat) else () if isinstance(root, fancy.Empty) else (root,)
    return all(isinstance(it, fancy.Literal) for it in nodes) and [it.text for it in nodes] == list(text)


def are_old_names_right():
    """Whether the old names of `to_pattern` say that they are deprecated, and do the same."""
    tree, calls = fancy.parse("(?:a){0,}"), []
    for call in (lambda: fancy.format("(?:a){0,}"), tree.format):
        with warnings.catch_warnings(record=True) as caught:
            warnings.simplefilter("always")
            calls.append((call(), [(it.category, it.filename) for it in caught]))
    return calls == [("a*", [(DeprecationWarning, __file__)])] * 2


def refusal(call):
    """The type and the message of what a call raises."""
    try:
        call()
    except Exception as error:
        return type(error), str(error)
    return None


def are_flags_looked_at():
    """Whether each function that takes flags takes the module's own, and no others."""
    tree = fancy.parse("a")
    calls = [
        fancy.parse, fancy.check, fancy.trivia, fancy.to_pattern, fancy.normal_form, fancy.escape, fancy.is_resolved, fancy.class_ranges,
        fancy.facts,
        lambda pattern, flags: fancy.format(pattern, flags, fancy.Style.KEPT),
        lambda pattern, flags: fancy.parse(pattern).root.character_ranges(flags),
        lambda pattern, flags: dataclasses.replace(tree, flags=flags).to_pattern(),
    ]  # fmt: skip
    of_re = {
        re.I: "fancy.CASEI | fancy.UNICODE", re.M | re.X: "fancy.MULTI | fancy.IGNORE_SPACE | fancy.UNICODE",
        re.S | re.A: "fancy.DOTNL", re.A: "fancy.Flag(0)",
    }  # fmt: skip
    other = fancy.Style.VERBOSE
    refused = {
        **{it: (TypeError, f"flags are fancy.Flag, not {it!r}: use {names}") for it, names in of_re.items()},
        other: (TypeError, f"flags are fancy.Flag, such as fancy.UNICODE | fancy.CASEI, not {other!r}"),
        32 | 65536: (ValueError, "flags 0x10020 have bits that are no fancy.Flag"),
        2**31: (ValueError, "flags 0x80000000 have bits that are no fancy.Flag"),
        2**32 + 32: (ValueError, "flags 0x100000020 have bits that are no fancy.Flag"),
        -1: (ValueError, "flags -0x1 have bits that are no fancy.Flag"),
    }
    return (
        all(refusal(lambda: it("a", flags)) == wanted for it in calls for flags, wanted in refused.items())
        and all(refusal(lambda: it("a", flags))[0] is TypeError for it in calls for flags in (None, "u", 32.0))
        and all(refusal(lambda: it("a", flags)) is None for it in calls for flags in (0, 33, sum(fancy.Flag), fancy.Flag(0)))
        and fancy.parse("A", 33) == fancy.parse("A", fancy.UNICODE | fancy.CASEI)
        and fancy.parse("A", 33).flags is fancy.UNICODE | fancy.CASEI
    )


def replaced(pattern, **fields):
    """What raises when the second node of a pattern is written, with other fields."""
    tree = fancy.parse(pattern)
    node = dataclasses.replace(tree.root.children[1], **fields)
    root = dataclasses.replace(tree.root, children=(tree.root.children[0], node))
    calls = [dataclasses.replace(tree, root=root).to_pattern, root.normal_form, node.normal_form]
    refusals = {refusal(call) for call in calls}
    return refusals.pop() if len(refusals) == 1 else refusals


def out_of_range(what, number, least=0, most=2**64 - 1):
    return ValueError, f"{what} is {number}, and has to be from {least} to {most}"


def are_numbers_looked_at():
    """Whether each number in a tree that C would cut is refused, and the largest that are not cut are taken."""
    lowest, highest = -(2**63), 2**63 - 1
    two, low = 2**64 + 2, -(2**64) + 2  # cut to 64 bits, each is 2
    named = dataclasses.replace(fancy.parse("(?<n>a)b"), named_groups={"n": (two,)})
    return (
        replaced("ba{2}", lo=two) == out_of_range("Repeat.lo", two)
        and replaced("ba{2}", lo=low) == out_of_range("Repeat.lo", low)
        and replaced("ba{2}", hi=two) == out_of_range("Repeat.hi", two, most=2**64 - 2)
        and replaced("ba{2}", hi=-1) == out_of_range("Repeat.hi", -1, most=2**64 - 2)
        and replaced("ba{2}", hi=2**64 - 1) == out_of_range("Repeat.hi", 2**64 - 1, most=2**64 - 2)
        and replaced("ba{2}", hi=2.0)[0] is TypeError
        and replaced("ba{2}", lo=3, hi=2**64 - 2) is replaced("ba{2}", lo=2**64 - 1, hi=None) is None
        and replaced("b(a)", group=two) == out_of_range("Group.group", two)
        and replaced(r"(a)\1", group=two) == out_of_range("Backref.group", two)
        and replaced(r"(a)\k<1+2>", group=two) == out_of_range("BackrefAtLevel.group", two)
        and replaced(r"(a)\k<1+2>", level=two) == out_of_range("BackrefAtLevel.level", two, lowest, highest)
        and replaced(r"(a)\k<1+2>", level=lowest - 1) == out_of_range("BackrefAtLevel.level", lowest - 1, lowest, highest)
        and replaced(r"(a)\k<1+2>", level=lowest) is replaced(r"(a)\k<1+2>", level=highest) is None
        and replaced(r"(a)\g<1>", group=two) == out_of_range("SubroutineCall.group", two)
        and replaced("b(?=a)", which=2**32 + 1) == out_of_range("LookAround.which", 2**32 + 1, most=2**32 - 1)
        and replaced(r"b\g<n>", target=two) == out_of_range("AstNode.target", two)
        and replaced(r"b\g<n>", target=fancy.Relative(two)) == out_of_range("AstNode.target", two, lowest, highest)
        and replaced(r"b\g<n>", byte_position=two) == out_of_range("AstNode.byte_position", two)
        and refusal(named.to_pattern) == out_of_range("a group of the name 'n'", two)
        and fancy.parse("ba{2,3}").root.children[1].normal_form() == "a{2,3}"
    )


def are_choices_looked_at():
    """Whether a precedence or a style that does not exist is refused, and that of another enum."""
    node, other = fancy.parse("a|b").root, fancy.Style.COMPACT
    calls = [lambda given: fancy.normal_form("a|b", precedence=given), lambda given: node.normal_form(given)]
    refused = {it: (ValueError, f"{it} is not a valid Precedence") for it in (-1, 4, 256, 2**32)}
    refused[other] = TypeError, f"{other!r} is no fancy.Precedence"
    return (
        all(refusal(lambda: it(given)) == wanted for it in calls for given, wanted in refused.items())
        and all(it(fancy.Precedence.PIECE) == it(2) == "(?:a|b)" for it in calls)
        and refusal(lambda: fancy.format("a", style=2**32)) == (ValueError, f"{2**32} is not a valid Style")
        and refusal(lambda: fancy.format("a", style=fancy.MULTI)) == (TypeError, f"{fancy.MULTI!r} is no fancy.Style")
        and refusal(lambda: fancy.format("a", style=1, width=8.0))[0] is TypeError
    )


def changed(pattern, kind):
    """What is written for the tree of a pattern whose first child is replaced."""
    tree = fancy.parse(pattern)
    first, *rest = tree.root.children
    children = (kind(first.span, first.byte_span, ()), *rest)
    return dataclasses.replace(tree, root=dataclasses.replace(tree.root, children=children)).to_pattern()


def are_names_public():
    """Whether `__all__` has what the module defines, and nothing else; and whether a pattern of `match` begins with a node's own fields."""
    names = {name for name, it in vars(fancy).items() if name[0] != "_" and getattr(it, "__module__", "") == "fancy"}
    kinds = [fancy.Node, *fancy.Node.__subclasses__()]
    shared = ("children", "span", "byte_span")
    own = {kind: tuple(it.name for it in dataclasses.fields(kind) if it.name not in shared) for kind in kinds}
    return (
        sorted(fancy.__all__) == sorted(names | {"Pattern", "Ranges", "Span"})
        and all(kind.__match_args__ == fields + shared for kind, fields in own.items())
        and [kind.number for kind in kinds] == list(range(len(kinds)))
    )


def loaded(folder, **variables):
    """The file of the library that a copy of the module in a folder loads."""
    code = "import fancy; print(fancy._library._name)"
    environment = {key: it for key, it in os.environ.items() if not key.startswith(("FANCY_", "PYTHONPATH", "LD_"))}
    command = [sys.executable, "-W", "error", "-c", code]
    got = subprocess.run(command, cwd=folder, env={**environment, **variables}, capture_output=True, text=True)
    return os.path.realpath(got.stdout.strip()) if "/" in got.stdout else got.stdout.strip() or got.stderr


def is_library_found():
    """Whether the library is looked for in this order: FANCY_LIBRARY, beside the module under either name, where `make -C c`
    builds it, where the loader looks. A file that was found is removed, so that the next one is found."""
    library, name = os.environ["FANCY_LIBRARY"], f"libfancy.so.{fancy.__version__.split('.')[0]}"
    with tempfile.TemporaryDirectory() as top:
        top = os.path.realpath(top)
        folder, built, system = (os.path.join(top, it) for it in ("python", "c/out", "system"))
        files = [f"{folder}/{name}", f"{folder}/libfancy.so", f"{built}/{name}"]
        for it in (folder, built, system):
            os.makedirs(it)
        shutil.copy(fancy.__file__, folder)
        for file in [*files, f"{system}/{name}"]:
            shutil.copy(library, file)
        is_right = loaded(folder, FANCY_LIBRARY=library) == os.path.realpath(library)
        for file in files:
            is_right = is_right and loaded(folder, FANCY_LIBRARY="") == file
            os.remove(file)
        return is_right and loaded(folder, LD_LIBRARY_PATH=system) == name


def are_unknown_numbers_refused():
    """Whether the library's own symbols refuse what the module never passes: other bits, and numbers that no precedence has."""
    call, text = fancy._library, ctypes.create_string_buffer(64)
    return (
        all(call.fancy_check(b"a", 1, 1 << bit).status == (0 if bit < 9 else 9) for bit in range(32))
        and all(call.fancy_print(b"a|b", 3, 32, it, text, 64).status == 10 for it in (4, 255, 256, 2**32 - 1))
        and call.fancy_print(b"a|b", 3, 32, 3, text, 64).status == 0
        and text.value == b"(?:a|b)"
    )


def are_null_pointers_taken():
    """Whether the library's own symbols, which the header's inline functions stand before in C, take null pointers."""
    call, none = fancy._library, (None, 0)
    got = [
        call.fancy_check(*none, 0), call.fancy_message(*none, 0, *none),
        call.fancy_print(*none, 0, 0, *none), call.fancy_to_pattern(*none, 0, *none),
        call.fancy_parse(*none, 0, *none, *none, *none, *none, None),
        call.fancy_tree(*none, 0, *none, *none, *none, *none, None), call.fancy_print_nodes(*none, *none, 0, 0, *none),
        call.fancy_to_pattern_nodes(*none, *none, 0, *none, None, 0, *none), call.fancy_trivia(*none, 0, *none, None),
        call.fancy_format(*none, 0, fancy.Style.KEPT, 0, *none), call.fancy_is_resolved(*none, 0), call.fancy_escape(*none, 0, *none),
        call.fancy_parse_id(*none), call.fancy_parse_decimal(*none, None), call.fancy_class_ranges(*none, 0, *none, None),
        call.fancy_node_ranges(ctypes.byref(fancy._Node(kind=2)), *none, 32, *none, None), call.fancy_facts(*none, 0, *none, *none, None),
    ]  # fmt: skip
    call.fancy_group_name.restype = ctypes.c_size_t
    return [it.status for it in got] == [0, 0, 0, 0, 4, 4, 7, 7, 0, 0, 0, 0, 0, 0, 12, 4, 4] and call.fancy_group_name(None, 0, 1) == 0


def is_command_right():
    with tempfile.TemporaryDirectory() as folder:
        file = pathlib.Path(folder, "patterns")
        file.write_bytes("a(b|c)*\n(é\n[a\r\n".encode() + b"\xff\n(?=a)")
        command = [sys.executable, "-m", "fancy"]
        checked = subprocess.run([*command, "check", file], capture_output=True, text=True)
        wanted = "2:3: Opening parenthesis without closing parenthesis", "3:3: Invalid character class", "4:1: Not UTF-8"
        formatted = subprocess.run([*command, "format", "-"], input="(?: a|b)\n", capture_output=True, text=True)
        missing = subprocess.run([*command, "check", f"{file}.none"], capture_output=True, text=True)
        drawn = subprocess.run([*command, "tree", "(?<y>a+)|b"], capture_output=True, text=True)
        nodes = (
            "Alt 0-10", "  Group 0-8 group=1 name='y'", "    Repeat 5-7 lo=1 hi=None greedy=True",
            "      Literal 5-6 text='a' casei=False", "  Literal 9-10 text='b' casei=False",
        )  # fmt: skip
        invalid = subprocess.run([*command, "tree", "(é"], capture_output=True, text=True)
        return (
            (checked.returncode, checked.stderr) == (1, "")
            and checked.stdout == "".join(f"{file}:{line}\n" for line in wanted)
            and (formatted.returncode, formatted.stdout) == (0, " a|b\n")
            and missing.returncode == 2
            and (drawn.returncode, drawn.stdout) == (0, "".join(f"{it}\n" for it in nodes))
            and (invalid.returncode, invalid.stderr) == (1, "character 3: Opening parenthesis without closing parenthesis\n")
            and subprocess.run([*command, "check", "--flags", "q"], capture_output=True).returncode == 2
        )


def main():
    folder = pathlib.Path(sys.argv[1])
    results = {
        "the docstring": doctest.testmod(fancy).failed == 0,
        "errors": are_errors_right(),
        "trees": are_trees_right(),
        "trivia": are_trivia_right(),
        "long patterns": are_buffers_right(),
        "many groups of one name": is_name_linear(),
        "objects": are_objects_plain(),
        "calls at once": are_calls_apart(),
        "formatted patterns": are_formatted_right(),
        "calls for engines": are_engine_calls_right(),
        "characters": are_ranges_right(),
        "facts": are_facts_right(),
        "old names": are_old_names_right(),
        "flags": are_flags_looked_at(),
        "numbers in a tree": are_numbers_looked_at(),
        "precedences and styles": are_choices_looked_at(),
        "other numbers": are_unknown_numbers_refused(),
        "the command": is_command_right(),
        "null pointers": are_null_pointers_taken(),
        "the names": are_names_public(),
        "finding the library": is_library_found(),
        "the recorded answers": all([replay(folder / f"{name}.tsv") for name in ("rows", "numbered", "texts", "characters")]),
    }
    failed = [name for name, is_right in results.items() if not is_right]
    print("Python", fancy.__version__, "failed: " + ", ".join(failed) if failed else "passed")
    return bool(failed)


sys.exit(main())

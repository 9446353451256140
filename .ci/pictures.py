"""Pictures, for `.ci/runs`: those of docs/pictures, sizes, what is in one, and a write that fails.

The sizes are sums: around the tree there are 36 pixels at either side, and 16 above it; below it there are 24, the lines of the pattern,
24 for each, and 16. A character is 9 wide, a small one 7; the box of a character is 13 wide and 24 high.
"""
import json
import re
import subprocess
from functools import partial
from typing import Iterator

from programs import TOP, Check, Output, Run, all_of, decoded, path_of

FOLDER = TOP / "docs/pictures"

# The pictures of docs/pictures, and the options and the pattern of each. `log` has more groups than fit in a line; `markup` has
# characters that XML keeps for itself or forbids, that have no shape, or that change the direction of the text.
PICTURES = {
    "address.svg": ("--flags", "ux", r"""(?<open> < )?        # a bracket
(?<user> [\w.+-]+ ) @ (?<host> \w+ (?: \. \w+ )+ )
(?(<open>) > | $ )   # closed if it was open"""),
    "balanced.svg": (r"\((?:[^()]++|\g<0>)*+\)",),
    "bytes.svg": (r"(?(DEFINE)(?<byte>25[0-5]|2[0-4]\d|1?\d?\d))\b\g<byte>(?:\.\g<byte>){3}\b",),
    "comment.svg": ("--flags", "uo", r"/\*(?~\*/)\*/|(?~|;|\O*)#|(?~|end)\w+(?~|)"),
    "date.html": ("--html", r"(?<year>\d{4})-(?<month>\d\d)-(?<day>\d\d)"),
    "date.svg": (r"(?<year>\d{4})-(?<month>\d\d)-(?<day>\d\d)",),
    "log.svg": (
        r'^(?<host>\S+) (?<ident>\S+) (?<user>\S+) \[(?<time>[^\]]+)\] "(?<method>[A-Z]+) (?<path>\S+) (?<protocol>[^"]+)" '
        r"(?<status>\d{3}) (?<bytes>\d+|-)$",
    ),
    "markup.svg": (
        "<(?<tag>[a-z]+)(?: [^<>\"&]*+)?>[^<]*</\\k<tag>>|&(?:lt|gt|amp|quot);|\u202e\u05d0\u00e9\U0001f600\x07",
    ),
    "number.svg": (r"[+-]?(?:\d+(?:\.\d*)?|\.\d+)(?:[eE][+-]?\d+)?",),
    "password.svg": (r"^(?=.*?\d)(?=.*?[a-z])(?!.*\s).{8,64}$",),
    "quoted.svg": (r"""(["'])(?:\\.|(?!\1).)*\1""",),
    "url.svg": ("--flags", "ui", r"\bhttps?://((?:[\w-]+\.)+[a-z]{2,})(?::(\d{1,5}))?(/[^\s?#]*)?(?:\?(\S*))?"),
}

# Patterns, and the widths and heights of their pictures.
SIZES = [
    ("", 72 + 24, 40 + 24 + 40),
    ("a", 72 + 13, 40 + 24 + 40),
    ("ab", 72 + 26, 40 + 24 + 40),
    # A class has words below it, as its box is: 12 more than they are.
    (r"\d", 72 + 47, 40 + 40 + 40),
    ("a.", 72 + 13 + 12 + 82, 40 + 40 + 40),
    # Branches have 12 between them, and rails of 20 at either side.
    ("a|b", 72 + 53, 40 + 60 + 40),
    ("a|b|cd", 72 + 66, 40 + 96 + 40),
    ("a?", 72 + 53, 40 + 32 + 40),
    # Words are above a loop, and the rails have 8 above and below.
    ("a+", 72 + 117, 40 + 48 + 40),
    ("a*", 72 + 117, 40 + 56 + 40),
    # A group has words above its inside, 12 at either side and 8 below.
    ("(a)", 72 + 61, 40 + 48 + 40),
    ("a\u202eb\n", 72 + 13 + 76 + 13 + 13, 40 + 24 + 64),
]

# Patterns, how wide their pictures are to be at most, and the widths and heights that they have then. A row that would be wider has
# lines, with 16 between them, and 60 at its sides; characters stay together up to a quarter wider. At least 240 are left for what is
# in a node.
WRAPPED = [
    # Four boxes of a class are 4 * 47 + 3 * 12 wide.
    (r"\d" * 8, 300, 72 + 60 + 224, 40 + 96 + 40),
    (r"\d" * 12, 372, 72 + 60 + 224, 40 + 152 + 40),
    (r"\d" * 8, 960, 72 + 460, 40 + 40 + 40),
    # 23 characters are 299 wide.
    ("a" * 30, 300, 72 + 60 + 299, 40 + 64 + 40),
    ("(" + r"\d" * 8 + ")", 396, 72 + 24 + 60 + 224, 40 + 24 + 96 + 40),
]


def picture(*words, stdin: str = "") -> Run:
    """A run that draws a pattern."""
    return Run("patterns", ("picture", *words), stdin)


def drawn() -> Iterator[Check]:
    """The pictures of docs/pictures, and that there are no others."""
    for name, words in PICTURES.items():
        yield Check(f"docs/pictures/{name}", picture(*words), all_of(0, decoded((FOLDER / name).read_bytes()), ""))
    others = "".join(f"{it.name}\n" for it in sorted(FOLDER.iterdir()) if it.name not in PICTURES)
    yield Check("docs/pictures: other files", lambda: Output(others, "", 0), all_of(0, "", ""))


# ---- sizes


def size_of(got: Output) -> str:
    """The status, and the width and the height that the first line has."""
    size = re.search(r' width="(\d+)" height="(\d+)" ', got.out.split("\n")[0])
    return f"status {got.status}, {size[1]} * {size[2]}" if size else got.out + got.err


def sizes() -> Iterator[Check]:
    """The pictures of SIZES and WRAPPED."""
    for pattern, limit, width, height in [*((it, None, *size) for it, *size in SIZES), *WRAPPED]:
        words = ("--width", f"{limit}") if limit else ()
        yield Check(f"size of {pattern!r} {' '.join(words)}", picture(*words, "-e", pattern), f"status 0, {width} * {height}", size_of)


# ---- what is in a picture


def lacking(got: Output, wanted: list, unwanted: list = ()) -> str:
    """The exit status, standard error, and what a picture lacks, and what it has and should not have."""
    parts = [f"lacks {it}\n" for it in wanted if it not in got.out] + [f"has {it}\n" for it in unwanted if it in got.out]
    return all_of(got.status, "".join(parts), got.err)


PAGE_PARTS = [
    "<svg",
    "literal &quot;&lt;&quot;",
    '<a href="#group1">1</a></td><td>n</td><td>0..7</td><td><code>(?&lt;n&gt;&lt;)</code></td>',
    "back reference to group 1, named &quot;n&quot;",
    "Back references to group 1.",
]


def contents() -> Iterator[Check]:
    """What a page has of a pattern, and no script; a class and a colour for each of twelve groups; and nothing of an invalid pattern."""
    page = partial(lacking, wanted=PAGE_PARTS, unwanted=["<script"])
    yield Check("the page of a picture", picture("--html", r"(?<n><)\k<n>"), all_of(0, "", ""), page)
    colours = [part for it in range(12) for part in (f"frame colour{it} group", f".picture .colour{it} .box {{ stroke: #")]
    yield Check("colours of a picture", picture("()" * 12), all_of(0, "", ""), partial(lacking, wanted=colours))
    said = "PATTERN:1:2: Opening parenthesis without closing parenthesis\n(\n-^\nopened here\n"
    yield Check("a picture that is refused", picture("("), all_of(1, "", said))


# Characters that may not be in XML, a format character, one that is not assigned, and blanks.
HIDDEN = "(?<n>[\ufffe]\uffff\u200b\u2065)" + "".join(chr(it) for it in range(0x21))
ESCAPES = [r"\u{00}", r"\u{1f}", r"\u{200b}", r"\u{2065}", r"\u{fffe}", r"\u{ffff}"]
# What may not be in XML 1.0.
NOT_IN_XML = re.compile("[^\t\n\r -\ud7ff\ue000-\ufffd\U00010000-\U0010ffff]")


def hidden(got: Output) -> str:
    """What a picture of HIDDEN lacks or has."""
    return lacking(got, ESCAPES, ["\u200b", "\u2065", *NOT_IN_XML.findall(got.out)])


def hidden_characters() -> Iterator[Check]:
    """Characters that are shown as escapes, of a pattern in JSON, since no argument has NUL."""
    for words in ((), ("--html",)):
        run = picture(*words, "--file", "-:match", stdin=json.dumps({"match": HIDDEN}))
        yield Check(f"hidden characters of a picture {' '.join(words)}", run, all_of(0, "", ""), hidden)


# ---- writes


def refused_write() -> Output:
    """What is said where a picture cannot be written."""
    with open("/dev/full", "wb") as full:
        command = [path_of("patterns"), "picture", "a"]
        got = subprocess.run(command, stdout=full, stderr=subprocess.PIPE, check=False)
    return Output("", decoded(got.stderr), got.returncode)


def writes() -> Iterator[Check]:
    """A write that fails is reported."""
    yield Check("a picture on a full device", refused_write, all_of(3, "", "patterns: cannot write\n"))


def parts() -> dict:
    """The checks of pictures."""
    return {f"pictures, {it.__name__}": list(it()) for it in (drawn, sizes, contents, hidden_characters, writes)}

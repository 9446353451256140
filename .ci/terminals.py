"""Runs on terminals, for `.ci/runs`.

The line that says how far a run is comes on a terminal, does not wrap where that is narrow, and is erased before a report; a dumb
terminal has no such line, and a closed pipe ends a run silently.
"""
import json
import os
import pty
import re
import subprocess
import tempfile
import time
import tty
from contextlib import suppress
from functools import partial
from pathlib import Path
from typing import Iterator

from programs import Check, Output, decoded, encoded, path_of
from tables import FILES

END = b"\0end"
ERASED = "\r\x1b[K"
SHOWN = "\x1b[?7l\r0 of 1 file, 2,048 patterns\x1b[K\x1b[?7h" + ERASED
SECOND = "\x1b[?7l\r1 of 2 files, 10 patterns, 50%, about N s left\x1b[K\x1b[?7h" + ERASED
COUNTED = "2,049 patterns, 1 refused\n"
BOLD = ("\x1b[1m-:2049:2:\x1b[0m Opening parenthesis without closing parenthesis\n"
        "(\n\x1b[1m-\x1b[0m\x1b[1;31m^\x1b[0m\n\x1b[1mopened here\x1b[0m\n")


def refusal(line: int) -> str:
    """What is reported of the pattern `(`."""
    return f"-:{line}:2: Opening parenthesis without closing parenthesis\n(\n-^\nopened here\n"


# Words, which outputs are terminals, or full or closed, a variable of the environment, how many lines of eight bytes come
# before a pause and after it, and the exit status, and what has to be written to the outputs. The clock is asked after
# 8,192 bytes, and where a file begins.
TERMINALS = [
    ("check", "err", "NO_COLOR=1", 1024, 1024, 1, refusal(2049), SHOWN + COUNTED),
    ("check", "out err", "NO_COLOR=1", 1024, 1024, 1, ERASED + refusal(2049), SHOWN + COUNTED),
    ("check", "out", "NO_COLOR=1", 1024, 1024, 1, refusal(2049), COUNTED),
    ("check --quiet", "out err", "NO_COLOR=1", 1024, 1024, 1, refusal(2049), ""),
    ("format --check", "err", "NO_COLOR=1", 1024, 1024, 1, "", SHOWN + refusal(2049) + COUNTED),
    ("check", "err full", "NO_COLOR=1", 1024, 1024, 3, "", SHOWN + "patterns: cannot write\n"),
    ("check - good", "err", "NO_COLOR=1", 9, 0, 1, refusal(10), SECOND + "13 patterns, 1 refused\n"),
    # colours, and neither colours nor the line
    ("check", "out err", "TERM=xterm", 1024, 1024, 1, ERASED + BOLD, SHOWN + COUNTED),
    ("check", "out err", "TERM=dumb", 1024, 1024, 1, refusal(2049), COUNTED),
    # a pipe that nobody reads from: the line is erased, and nothing is written
    ("check", "err closed", "NO_COLOR=1", 1024, 1024, 3, "", SHOWN),
    ("groups", "closed", "NO_COLOR=1", 1024, 0, 3, "", ""),
]


def output_for(kinds: str, writer: int):
    """Where the standard output of a run goes: to a full device, to a pipe whose reader is closed, or to the writer."""
    if "full" in kinds:
        return open("/dev/full", "wb")
    if "closed" in kinds:
        reader, writer = os.pipe()
        os.close(reader)
        return open(writer, "wb")
    return writer


def on_terminals(words: str, kinds: str, variable: str, before: int, after: int) -> Output:
    """What a run writes whose standard input pauses for more than a second between the lines, and ends with `(`."""
    pairs = {it: pty.openpty() if it in kinds else os.pipe() for it in ("out", "err")}
    for it in kinds.split():
        if it in pairs:
            tty.setraw(pairs[it][1])
    with tempfile.TemporaryDirectory() as folder:
        (Path(folder) / "good").write_bytes(encoded(FILES["good"]))
        process = subprocess.Popen(
            [path_of("patterns"), *words.split()], stdin=subprocess.PIPE, stdout=output_for(kinds, pairs["out"][1]),
            stderr=pairs["err"][1], cwd=folder, env=dict([variable.split("=")]), bufsize=0,
        )
        with suppress(BrokenPipeError):
            process.stdin.write(b"abcdefg\n" * before)
            time.sleep(1.2)
            process.stdin.write(b"abcdefg\n" * after + b"(")
        process.stdin.close()
        status = process.wait()
    return Output(all_read(*pairs["out"]), all_read(*pairs["err"]), status)


def all_read(reader: int, writer: int) -> str:
    """What was written, up to an end that is put after it. It is little, so that a pipe or a terminal holds it."""
    os.write(writer, END)
    text = b""
    while not text.endswith(END):
        text += os.read(reader, 1 << 16)
    os.close(reader)
    os.close(writer)
    return decoded(text.removesuffix(END))


# ---- what is shown


def last_shown(got: Output) -> str:
    """All that comes of a run, with N seconds left. A slow one may show the line more than once: the last time counts."""
    shown = re.sub(r"(\x1b\[\?7l\r\d of [^\r]*)+(?=\x1b\[\?7l\r\d of)", "", got.err)
    return json.dumps([got.status, got.out, re.sub(r"about \d+ s left", "about N s left", shown)], indent=1)


def screen_of(text: str, columns: int) -> str:
    """What a terminal of so many columns shows of the text, whose escapes are those of the line."""
    rows, column, wraps = [""], 0, True
    for part in re.findall(r"\x1b\[\??\d*[A-Za-z]|.", text, flags=re.S):
        if part in ("\x1b[?7l", "\x1b[?7h"):
            wraps = part == "\x1b[?7h"
        elif part == "\x1b[K":
            rows[-1] = rows[-1][: min(column, columns - 1)]
        elif part == "\r":
            column = 0
        elif part == "\n" or (column == columns and wraps):
            rows, column = [*rows, ""], 0
        if len(part) == 1 and part not in "\r\n":
            column = min(column, columns - 1)
            rows[-1] = rows[-1][:column] + part + rows[-1][column + 1:]
            column += 1
    return "\n".join(rows)


def narrow(got: Output) -> str:
    """What a terminal of twelve columns shows before the line is erased, and at the end."""
    return screen_of(got.err.split(ERASED, maxsplit=1)[0], 12) + "\nerased:\n" + screen_of(got.err, 12)


def terminals() -> Iterator[Check]:
    """The rows above, and the first of them on a narrow terminal."""
    for words, kinds, variable, before, after, status, out, err in TERMINALS:
        run = partial(on_terminals, words, kinds, variable, before, after)
        yield Check(f"{words}, {variable}, terminals: {kinds}", run, last_shown(Output(out, err, status)), last_shown)
    wanted = "0 of 1 file\nerased:\n2,049 patter\nns, 1 refuse\nd\n"
    yield Check("a narrow terminal", partial(on_terminals, *TERMINALS[0][:5]), wanted, narrow)


def parts() -> dict:
    """The checks of terminals."""
    return {"terminals": list(terminals())}

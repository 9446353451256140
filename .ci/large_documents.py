"""Large documents in `patterns server`, for `.ci/runs`; by itself `.ci/large_documents.py PROGRAM`.

A document of 50 MB is opened and changed, and all is asked about it: beside what the program takes by itself, at most twice its size and 4 MiB
are in memory. It is too large for its patterns to be read; then most of it is removed, and the symbols have to be those of what is left. In a
document of 10,000 patterns a keystroke takes less than 20 ms of a processor. A pattern of 1 MB is passed over, and others are not. A program
that is built without proof is slow, gets smaller documents, and has no bounds.
"""
import os
import sys
import tempfile
from functools import partial
from itertools import count, islice
from pathlib import Path
from typing import Callable, Iterator

from programs import TRIED, Check, Output, path_of
from random_messages import REQUESTS, Client, diagnostics, symbols

# How many bytes, and how many patterns; if the program is built without proof, the second numbers.
SIZES, COUNTS, LENGTHS = (50_000_000, 10_000_000), (10_000, 500), (1_000_000, 300_000)
KEYSTROKES = 50
URI = "untitled:a"


def peak(client: Client) -> int:
    """How many bytes the server had in memory at most."""
    status = Path(f"/proc/{client.process.pid}/status").read_text(encoding="ascii")
    return int(status.split("VmHWM:")[1].split("kB")[0]) * 1024


def processor_time(client: Client) -> float:
    """How many seconds of a processor the server has taken."""
    fields = Path(f"/proc/{client.process.pid}/stat").read_text(encoding="utf-8").rpartition(")")[2].split()
    return (int(fields[11]) + int(fields[12])) / os.sysconf("SC_CLK_TCK")


def numbered(line: str) -> Iterator[str]:
    """Lines that have a number in the place of `%`."""
    return (line.replace("%", str(number)) for number in count())


def open_document(client: Client, text: str) -> None:
    """Opens a document whose lines are patterns."""
    document = {"uri": URI, "languageId": "patterns", "version": 1, "text": text}
    client.send(method="textDocument/didOpen", params={"textDocument": document})
    client.reports()


def change(client: Client, version: int, start: int, end: int, text: str) -> list:
    """Replaces lines by a text; the notifications that come."""
    ends = {"start": {"line": start, "character": 0}, "end": {"line": end, "character": 0}}
    params = {"textDocument": {"uri": URI, "version": version}, "contentChanges": [{"range": ends, "text": text}]}
    client.send(method="textDocument/didChange", params=params)
    return client.reports()


def asked(client: Client) -> list:
    """The results of all requests about the start of the document."""
    position = {"line": 0, "character": 0}
    params = {"textDocument": {"uri": URI}, "position": position, "range": {"start": position, "end": position}, "positions": [position],
              "newName": "m", "context": {}}
    return [client.ask(f"textDocument/{it}", params)[0]["result"] for it in REQUESTS if it != "unknown"]


def memory(client: Client, size: int) -> None:
    """Opens a document of so many bytes, changes it, and asks for all."""
    base = peak(client)
    some = "".join(islice(numbered("word%\n"), 100_000))
    text = some * (size // len(some) + 1)
    last = text.count("\n")
    open_document(client, text)
    change(client, 2, 0, 0, "a")
    wrong = change(client, 3, last + 2, last + 2, "a")
    assert [it["method"] for it in wrong] == ["window/showMessage"], wrong
    assert set(asked(client)) == {None}
    taken = peak(client) - base
    assert TRIED or taken <= 2 * len(text) + (4 << 20), (taken, len(text))
    assert diagnostics(change(client, 4, 3, last, ""), URI) == []
    assert [name for name, _ in symbols(client, URI)] == ["aword0", "word1", "word2"]


def long_pattern(client: Client, length: int) -> None:
    """Opens a document with a pattern of so many bytes."""
    open_document(client, "[a]b\n" + "a" * length + "\n")
    found = [(it["range"]["start"]["line"], it["severity"]) for it in diagnostics(change(client, 2, 0, 0, ""), URI)]
    assert found == [(0, 2), (0, 3)], found
    assert [name for name, _ in symbols(client, URI)] == ["[a]b"]


def keystrokes(client: Client, total: int) -> None:
    """Types in a document of so many patterns."""
    open_document(client, "".join(islice(numbered("^(\\d{4})-(\\d{2})T%$\n"), total)))
    before = processor_time(client)
    for number in range(KEYSTROKES):
        line = number * total // KEYSTROKES
        change(client, 2 + number, line, line, "a")
    taken = (processor_time(client) - before) / KEYSTROKES
    assert TRIED or taken < 0.02, taken


def played(program: Path, play: Callable[[Client, int], None], number: int) -> str:
    """What comes of a session."""
    with tempfile.TemporaryDirectory() as folder:
        client = Client(str(program), folder, False)
        play(client, number)
        client.ask("shutdown", {})
        client.send(method="exit")
        client.process.stdin.close()
        assert client.process.wait() == 0
    return "played\n"


def parts() -> dict:
    """The checks."""

    def run(play: Callable[[Client, int], None], numbers: tuple) -> Output:
        return Output(played(path_of("patterns"), play, numbers[bool(TRIED)]), "", 0)

    plays = (("memory", memory, SIZES), ("keystrokes", keystrokes, COUNTS), ("long pattern", long_pattern, LENGTHS))
    checks = [Check(f"large documents, {name}", partial(run, play, numbers), "played\n", lambda got: got.out) for name, play, numbers in plays]
    return {"large documents": checks}


if __name__ == "__main__":
    for each, total in ((memory, SIZES[0]), (keystrokes, COUNTS[0]), (long_pattern, LENGTHS[0])):
        played(Path(sys.argv[1]), each, total)

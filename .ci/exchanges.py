r"""Exchanges of a client with `patterns server`, for `.ci/runs`.

Each is a file of crates/patterns/data/exchanges. A line `> JSON` is a message of the client, and `>> TEXT` are bytes that it writes as they
are, with the escapes of Python. A line `+ NAME TEXT` writes a file, with these escapes, in the folder of the server, whose path is FOLDER in
messages, and a line `$ WORDS` has the words after `patterns server`. The lines `< JSON` below are the messages of the server that follow,
with the names of their fields in the order in which they are written. A line `= STATUS` is the exit status, and `! TEXT` what is written to
standard error. Other lines are comments. After each line `>` the client asks for a method that no server has, and waits for the answer,
which is not shown.
"""
import json
import subprocess
import tempfile
from functools import partial
from pathlib import Path
from typing import Iterator, NamedTuple, Optional

from programs import DATA, Check, Output, all_of, decoded, encoded, path_of

EXCHANGES = DATA / "exchanges"
BARRIER = "a message that no client sends"


class Part(NamedTuple):
    """A line of the client or a comment, and what the client sends or writes into the file of this name."""
    line: str
    sent: Optional[bytes]
    file: Optional[str] = None


def framed(text: str) -> bytes:
    """A message with its header."""
    data = encoded(text)
    return b"Content-Length: %d\r\n\r\n" % len(data) + data


def unescaped(text: str) -> bytes:
    """The bytes that a text with escapes of Python stands for."""
    return text.encode("latin-1").decode("unicode_escape").encode("latin-1")


def parts_of(text: str, folder: str = "FOLDER") -> list:
    """The lines of an exchange that do not come from the server, which runs in this folder."""
    found = []
    for line in text.splitlines():
        if line.startswith(("<", "=", "!")):
            continue
        if line.startswith("> "):
            found.append(Part(line, framed(line[2:].replace("FOLDER", folder))))
        elif line.startswith(">> "):
            found.append(Part(line, unescaped(line[3:])))
        elif line.startswith("+ "):
            _, file, written = line.split(" ", 2)
            found.append(Part(line, unescaped(written), file))
        else:
            found.append(Part(line, None))
    return found


def words_of(text: str) -> list:
    """The words after `patterns server` in an exchange."""
    return [word for line in text.splitlines() if line.startswith("$ ") for word in line[2:].split()]


def message(stream) -> Optional[str]:
    """The next message of the server; None at the end."""
    length = None
    while line := stream.readline():
        assert line.endswith(b"\r\n"), line
        if line == b"\r\n":
            data = stream.read(length)
            assert len(data) == length
            return data.decode("utf-8")
        name, value = line[:-2].split(b": ")
        assert name == b"Content-Length", line
        length = int(value)
    return None


def send(process: subprocess.Popen, data: bytes) -> None:
    """Writes to a server, which may have ended."""
    try:
        process.stdin.write(data)
        process.stdin.flush()
    except BrokenPipeError:
        pass


def answers(process: subprocess.Popen) -> Iterator[str]:
    """The messages of the server up to the answer to a method that it does not have, which is asked for."""
    send(process, framed(json.dumps({"jsonrpc": "2.0", "id": BARRIER, "method": BARRIER})))
    while (got := message(process.stdout)) is not None:
        if json.loads(got).get("id") == BARRIER:
            return
        yield got


def played(program: Path, text: str) -> str:
    """The exchange with what the server writes."""
    lines = []
    with tempfile.TemporaryDirectory() as folder:
        process = subprocess.Popen([program, "server", *words_of(text)], cwd=folder, stdin=subprocess.PIPE, stdout=subprocess.PIPE,
                                   stderr=subprocess.PIPE)
        for part in parts_of(text, folder):
            lines.append(part.line)
            if part.file is not None:
                (Path(folder) / part.file).write_bytes(part.sent)
            elif part.sent is not None:
                send(process, part.sent)
            if part.line.startswith("> "):
                lines += [f"< {got.replace(folder, 'FOLDER')}" for got in answers(process)]
        try:
            process.stdin.close()
        except BrokenPipeError:
            pass
        while (got := message(process.stdout)) is not None:
            lines.append(f"< {got}")
        lines += [f"! {line}" for line in decoded(process.stderr.read()).splitlines()]
        lines.append(f"= {process.wait()}")
    return "".join(line + "\n" for line in lines)


def exchange(file: Path) -> Output:
    """What comes of an exchange."""
    return Output(played(path_of("patterns"), decoded(file.read_bytes())), "", 0)


def unwritten() -> Output:
    """What comes of an answer that cannot be written."""
    sent = framed('{"jsonrpc":"2.0","id":1,"method":"initialize","params":{}}')
    with open("/dev/full", "wb") as full:
        got = subprocess.run([path_of("patterns"), "server"], input=sent, stdout=full, stderr=subprocess.PIPE, check=False)
    return Output("", decoded(got.stderr), got.returncode)


def parts() -> dict:
    """The checks."""
    files = sorted(EXCHANGES.glob("*.txt"))
    checks = [Check(f"exchanges/{it.name}", partial(exchange, it), decoded(it.read_bytes()), lambda got: got.out) for it in files]
    return {"exchanges": [*checks, Check("exchanges, not written", unwritten, all_of(3, "", "patterns: cannot write\n"))]}


def accept(found: dict) -> int:
    """Writes exchanges as they came out, and counts them."""
    taken = {EXCHANGES / name.removeprefix("exchanges/"): got for name, got in found.items() if name.startswith("exchanges/")}
    for file, got in taken.items():
        file.write_bytes(encoded(got.out))
    return len(taken)

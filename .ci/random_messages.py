"""Random messages to `patterns server`, for `.ci/runs`; by itself `.ci/random_messages.py PROGRAM [COUNT [SEED]]`.

Documents, lines of patterns and grammars of TextMate, or with every other seed patterns of several lines, are opened, changed at random,
whole and by ranges, and closed. What is reported after a change has to be what is reported when the text is opened that the changes lead to
by the protocol, which is computed here. A change at a position that a document does not have has to be refused, and the document to stay as
it was. Each request has to get one answer, and what is no JSON a refusal. Each range has to be in the document, edits and tokens not to
overlap, and a text that was formatted to stay when it is formatted again. The same of long texts, which are read otherwise: whole, escaped
or not, and wrong.
"""
import json
import random
import re
import subprocess
import sys
import tempfile
from functools import partial
from pathlib import Path
from typing import Optional

from exchanges import framed, message
from programs import TRIED, Check, Output, path_of

# How many sequences each check sends, and how many if the program is built without proof, which is slow. The first of more
# than these sends long texts too.
COUNT, TRIED_COUNT = 500, 50
SEEDS = (1, 2, 3, 4)
# The words of a server whose documents are patterns of several lines.
SEVERAL_LINES = ("-z", "--flags", "ux")

ALPHABET = ["a", "b", "(", ")", "|", "*", "{1}", "[a]", "[", "]", "\\d", "\\", "é", "𝄞", "\n", "\r", "\r\n", "?", "(?<n>", "\\k<n>", "#"]
LINE_ENDS = ("\n", "\r")


def lines_of(text: str) -> list:
    """Where the lines of a text begin and end, without their ends."""
    found, start, at = [], 0, 0
    while at < len(text):
        if text[at] in LINE_ENDS:
            found.append((start, at))
            at += 2 if text[at:at + 2] == "\r\n" else 1
            start = at
        else:
            at += 1
    found.append((start, len(text)))
    return found


def units(c: str, utf8: bool) -> int:
    """How many units a character takes."""
    return len(c.encode("utf-8")) if utf8 else len(c.encode("utf-16-le")) // 2


def index_of(text: str, position: dict, utf8: bool) -> Optional[int]:
    """How many characters are before a position; None if there is no such position. The line after the last one is the end."""
    lines = lines_of(text)
    if position["line"] >= len(lines):
        return len(text) if position["line"] == len(lines) else None
    start, end = lines[position["line"]]
    left = position["character"]
    while left > 0 and start < end:
        left -= units(text[start], utf8)
        if left < 0:
            return None
        start += 1
    return start


def changed(text: str, changes: list, utf8: bool) -> Optional[str]:
    """The text after changes; None if one is at a wrong position."""
    for change in changes:
        if "range" not in change:
            text = change["text"]
            continue
        first, last = change["range"]["start"], change["range"]["end"]
        start, end = (index_of(text, it, utf8) for it in (first, last))
        if start is None or end is None or (first["line"], first["character"]) > (last["line"], last["character"]):
            return None
        text = text[:start] + change["text"] + text[end:]
    return text


def edited(text: str, edits: list, utf8: bool) -> str:
    """The text after edits, which have to be in it, and not to overlap."""
    spans = [tuple(index_of(text, it["range"][end], utf8) for end in ("start", "end")) + (it["newText"],) for it in edits]
    assert all(None not in it for it in spans), (text, edits)
    done, parts = 0, []
    for start, end, new in sorted(spans):
        assert done <= start <= end, (text, edits)
        parts += [text[done:start], new]
        done = end
    return "".join(parts) + text[done:]


def some_text(rng: random.Random) -> str:
    """A short text."""
    return "".join(rng.choice(ALPHABET) for _ in range(rng.randrange(12)))


def some_grammar(rng: random.Random) -> str:
    """A grammar of TextMate with some patterns."""
    patterns = [{rng.choice(("match", "begin", "end", "name")): some_text(rng)} for _ in range(rng.randrange(4))]
    return json.dumps({"patterns": patterns}, ensure_ascii=rng.random() < 0.5, indent=rng.choice((None, 1)))


def some_position(rng: random.Random, text: str) -> dict:
    """A position, which may be wrong."""
    lines = lines_of(text)
    line = rng.randrange(len(lines) + 2 * (rng.random() < 0.05))
    width = len(text) if line >= len(lines) else lines[line][1] - lines[line][0]
    return {"line": line, "character": rng.randrange(width + 3)}


def some_change(rng: random.Random, text: str) -> dict:
    """A change of a text."""
    if rng.random() < 0.1:
        return {"text": some_text(rng)}
    ends = [some_position(rng, text), some_position(rng, text)]
    if rng.random() < 0.95:
        ends.sort(key=lambda it: (it["line"], it["character"]))
    return {"range": dict(zip(("start", "end"), ends)), "text": some_text(rng)}


REQUESTS = ("hover", "definition", "references", "documentHighlight", "prepareRename", "rename", "formatting", "rangeFormatting", "codeAction",
            "documentSymbol", "foldingRange", "semanticTokens/full", "selectionRange", "unknown")


class Client:
    """A client of a server."""

    def __init__(self, program: str, folder: str, utf8: bool, words: tuple = ()) -> None:
        self.process = subprocess.Popen([program, "server", *words], cwd=folder, stdin=subprocess.PIPE, stdout=subprocess.PIPE)
        self.number = 0
        encodings = ["utf-8"] if utf8 else ["utf-16"]
        symbols = {"documentSymbol": {"hierarchicalDocumentSymbolSupport": True}}
        self.ask("initialize", {"capabilities": {"general": {"positionEncodings": encodings}, "textDocument": symbols}})

    def send(self, **fields) -> None:
        """Sends a message."""
        self.process.stdin.write(framed(json.dumps({"jsonrpc": "2.0", **fields})))

    def ask(self, method: str, params: dict) -> tuple:
        """The answer to a request, and the notifications before it."""
        self.number += 1
        self.send(id=self.number, method=method, params=params)
        self.process.stdin.flush()
        notes = []
        while True:
            got = message(self.process.stdout)
            assert got is not None, f"the server ends: {self.process.wait()}"
            got = json.loads(got)
            if "method" in got:
                notes.append(got)
                continue
            assert got["id"] == self.number, got
            return got, notes

    def reports(self) -> list:
        """The notifications that have come."""
        return self.ask("barrier", {})[1]

    def garbage(self, data: bytes) -> None:
        """Sends what is no JSON, which has to be refused."""
        self.process.stdin.write(b"Content-Length: %d\r\n\r\n%b" % (len(data), data))
        self.process.stdin.flush()
        got = json.loads(message(self.process.stdout))
        assert got["id"] is None and got["error"]["code"] == -32700, (data, got)


def diagnostics(notes: list, uri: str) -> Optional[list]:
    """What is reported last on a document."""
    found = [it["params"]["diagnostics"] for it in notes if it["method"].endswith("publishDiagnostics") and it["params"]["uri"] == uri]
    return json.loads(json.dumps(found[-1]).replace(uri, "")) if found else None


def check_tokens(text: str, data: list, utf8: bool) -> None:
    """Tokens have to be in the document, each in one line, and not to overlap."""
    line = character = 0
    ranges = []
    for lines, characters, length in zip(data[::5], data[1::5], data[2::5]):
        line, character = line + lines, characters + (0 if lines else character)
        ends = [{"line": line, "character": it} for it in (character, character + length)]
        start, end = (index_of(text, it, utf8) for it in ends)
        assert length == sum(units(c, utf8) for c in text[start:end]) > 0, (text, data, ends)
        ranges.append(dict(zip(("start", "end"), ends)))
    edited(text, [{"range": it, "newText": ""} for it in ranges], utf8)


def some_request(rng: random.Random, uri: str, text: str) -> tuple:
    """A request about a document: its method, and its parameters, of which one may be missing."""
    position = some_position(rng, text)
    ends = {"start": some_position(rng, text), "end": some_position(rng, text)}
    params = {"textDocument": {"uri": uri}, "position": position, "range": ends, "positions": [position], "newName": "m",
              "context": rng.choice(({}, {"only": ["source"]}))}
    for name in rng.sample(sorted(params), rng.randrange(2)):
        del params[name]
    return "textDocument/" + rng.choice(REQUESTS), params


def request(rng: random.Random, client: Client, document: dict, utf8: bool) -> None:
    """Asks for something at random."""
    uri, text = document["uri"], document["text"]
    method, params = some_request(rng, uri, text)
    result = client.ask(method, params)[0].get("result")
    if result and method in ("textDocument/rangeFormatting", "textDocument/formatting"):
        fresh = {**document, "uri": "untitled:c", "text": edited(text, result, utf8)}
        client.send(method="textDocument/didOpen", params={"textDocument": fresh})
        again = client.ask(method, {**params, "textDocument": {"uri": "untitled:c"}})[0]
        client.send(method="textDocument/didClose", params={"textDocument": {"uri": "untitled:c"}})
        client.reports()
        assert method != "textDocument/formatting" or again["result"] == [], (text, result, again)
    for it in result or [] if method == "textDocument/codeAction" else []:
        edited(text, it["edit"]["changes"][uri], utf8)
    if result and method == "textDocument/rename":
        edited(text, result["changes"][uri], utf8)
    if result and method == "textDocument/semanticTokens/full":
        check_tokens(text, result["data"], utf8)
    if result and method == "textDocument/foldingRange":
        assert all(it["startLine"] < it["endLine"] < len(lines_of(text)) for it in result), (text, result)
    if result and method == "textDocument/prepareRename":
        edited(text, [{"range": result, "newText": ""}], utf8)
    if rng.random() < 0.05:
        client.garbage(b"{" + some_text(rng).encode("utf-8"))


def sequence(rng: random.Random, client: Client, utf8: bool) -> int:
    """A document that is opened, changed and closed; how many messages there were."""
    language, some = rng.choice((("patterns", some_text), ("textmate", some_grammar)))
    uri, text = "untitled:a", some(rng)
    document = {"uri": uri, "languageId": language, "version": 1, "text": text}
    client.send(method="textDocument/didOpen", params={"textDocument": document})
    count = 2
    for version in range(2, 2 + rng.randrange(8)):
        changes = [some_change(rng, text) for _ in range(rng.randrange(1, 4))]
        client.send(method="textDocument/didChange", params={"textDocument": {"uri": uri, "version": version}, "contentChanges": changes})
        after = changed(text, changes, utf8)
        notes = client.reports()
        if after is None:
            assert [it["method"] for it in notes if it["params"].get("uri") in (uri, None)][-1] == "window/showMessage", (text, changes, notes)
        else:
            text = after
            fresh = {**document, "uri": "untitled:b", "text": text}
            client.send(method="textDocument/didOpen", params={"textDocument": fresh})
            client.send(method="textDocument/didClose", params={"textDocument": {"uri": "untitled:b"}})
            wanted = [it for it in client.reports() if it["params"].get("uri") == "untitled:b"][0:1]
            found = diagnostics(notes, uri)
            assert found == diagnostics(wanted, "untitled:b"), (text, changes, notes, wanted)
            edited(text, [{"range": {**it["range"], "start": it["range"]["end"]}, "newText": ""} for it in found], utf8)
            edited(text, [{"range": {**it["range"], "end": it["range"]["start"]}, "newText": ""} for it in found], utf8)
        request(rng, client, {**document, "text": text}, utf8)
        count += 4
    client.send(method="textDocument/didClose", params={"textDocument": {"uri": uri}})
    return count


LONG_ALPHABET = ["a", "b", "é", "𝄞", "\"", "/", "\\d", "\\t"]
# What is no text of JSON, between quotation marks.
WRONG = (b"\\x", b"\\u12g", b"\\ud834", b"\\ud834\\u0041", b"\\udd1e", b"\n", b"\xff", b"\xc3")


def long_text(rng: random.Random) -> str:
    """A text of more than 1 MiB, of few lines that are patterns."""
    some = "".join(rng.choice(LONG_ALPHABET) for _ in range(rng.randrange(1000, 3000)))
    count = (110_000 // len(some.encode("utf-8"))) + 1
    return "".join(f"{number}{some * rng.randrange(count, count + 10)}\n" for number in range(10))


def symbols(client: Client, uri: str) -> list:
    """The starts of the lines of a document whose lines are patterns, and where they end, as its symbols have them."""
    found = client.ask("textDocument/documentSymbol", {"textDocument": {"uri": uri}})[0]["result"]
    return [(it["name"], it["range"]["end"]) for it in found]


def long_texts(rng: random.Random, client: Client, utf8: bool) -> None:
    """Documents with long texts, which are opened and changed as a whole. A text that is wrong is refused, and changes nothing."""
    uri = "untitled:a"
    for is_ascii in (False, True):
        text, other = long_text(rng), long_text(rng)
        open_it = {"textDocument": {"uri": uri, "languageId": "patterns", "version": 1, "text": text}}
        change = {"textDocument": {"uri": uri, "version": 2}, "contentChanges": [{"text": other}]}
        for method, params, now in (("didOpen", open_it, text), ("didChange", change, other)):
            sent = json.dumps({"jsonrpc": "2.0", "method": f"textDocument/{method}", "params": params}, ensure_ascii=is_ascii)
            client.process.stdin.write(framed(sent))
            lines = now.splitlines()
            wanted = [(f"{it[:60]}…", {"line": number, "character": sum(units(c, utf8) for c in it)}) for number, it in enumerate(lines)]
            assert symbols(client, uri) == wanted, (is_ascii, method)
            start = json.dumps(now, ensure_ascii=is_ascii)[1:-1]
            at = rng.randrange(len(start))
            while at > 0 and start[at - 1] not in "ab":
                at -= 1
            wrong = sent.replace(start, start[:at] + "WRONG" + start[at:]).encode("utf-8").replace(b"WRONG", rng.choice(WRONG))
            client.garbage(wrong)
            assert symbols(client, uri) == wanted, (is_ascii, method, at)
    answer = client.ask("textDocument/rename", {"textDocument": {"uri": uri}, "position": {"line": 0, "character": 0}, "newName": "m" * (2 << 20)})
    assert answer[0]["error"]["code"] == -32803
    client.send(method="textDocument/didClose", params={"textDocument": {"uri": uri}})


def session(rng: random.Random) -> bytes:
    """All messages of a client that opens a document, changes it, and asks for something after each change."""
    sent = [{"id": 0, "method": "initialize", "params": {"capabilities": {}}}]
    language, some = rng.choice((("patterns", some_text), ("textmate", some_grammar)))
    uri, text = "untitled:a", some(rng)
    sent.append({"method": "textDocument/didOpen", "params": {"textDocument": {"uri": uri, "languageId": language, "version": 1, "text": text}}})
    for number in range(1, 6):
        changes = [some_change(rng, text)]
        sent.append({"method": "textDocument/didChange", "params": {"textDocument": {"uri": uri, "version": number}, "contentChanges": changes}})
        text = changed(text, changes, False) or text
        method, params = some_request(rng, uri, text)
        sent.append({"id": number, "method": method, "params": params})
    sent += [{"id": 6, "method": "shutdown"}, {"method": "exit"}]
    return b"".join(framed(json.dumps({"jsonrpc": "2.0", **it})) for it in sent)


def played(program: Path, total: int, seed: int) -> str:
    """What comes of so many sequences, half of them with positions in UTF-16, and half in UTF-8."""
    rng, count = random.Random(seed), 0
    with tempfile.TemporaryDirectory() as folder:
        for utf8 in (False, True):
            client = Client(str(program), folder, utf8, () if seed % 2 else SEVERAL_LINES)
            if seed == SEEDS[0] and total > TRIED_COUNT:
                long_texts(rng, client, utf8)
            for _ in range(total // 2):
                count += sequence(rng, client, utf8)
            client.ask("shutdown", {})
            client.send(method="exit")
            client.process.stdin.close()
            assert client.process.wait() == 0
    return f"{total} sequences, {count} messages\n"


def parts() -> dict:
    """The checks."""

    def run(seed: int) -> Output:
        return Output(played(path_of("patterns"), TRIED_COUNT if TRIED else COUNT, seed), "", 0)

    def taken(got: Output) -> str:
        return re.sub(r"\d+", "N", got.out)

    return {"random messages": [Check(f"random messages {it}", partial(run, it), "N sequences, N messages\n", taken) for it in SEEDS]}


def main() -> int:
    """Sends random sequences."""
    total = int(sys.argv[2]) if len(sys.argv) > 2 else 1000
    print(played(Path(sys.argv[1]), total, int(sys.argv[3]) if len(sys.argv) > 3 else 1), end="")
    return 0


if __name__ == "__main__":
    sys.exit(main())

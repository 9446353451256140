r"""Transcripts: what a shell shows of runs of the programs, in blocks ```console, for `.ci/runs`.

A line `$ COMMAND` begins a command. Lines `> ..` continue it while a quote is open. Below it is what it writes to standard output, and
then the line with the counts, if that is all that it writes to standard error. What else goes there is shown by `2> FILE` and
`cat FILE`, and an exit status other than 0 by `echo $?`, as by a shell with `set -o pipefail`. A command is one of these:

- `patterns ..` and `fre ..`, perhaps after `echo TEXT |`, `printf TEXT |`, `printf %s TEXT |`, `cat FILE |` or `yes TEXT | head -n N |`.
  What goes to a file has to be the picture of that name in docs/pictures.
- `.. | fields`: of the line of JSON that is written, the fields below it, a line for each: a pointer, and the value, or nothing if there
  is no such field.
- `.. | quoted`: each line that is written as a string of JSON, for bytes that a text cannot show.
- `cat FILE`, or `printf .. > FILE`: the file lies where the commands after it run.
- `cd FOLDER`: they run in a copy of the folder of crates/patterns/data.

A word is bare, in single quotes, or in `$'..'` with escapes. The escapes are those of printf: `\\`, `\n`, `\r`, `\t`, `\xHH` and `\uHHHH`.

Each transcript is a file of crates/patterns/data/cases. Each of its cases is a heading with a block. The files of a block before the
first heading lie beside those of each case.
"""
import json
import re
import unicodedata
from pathlib import Path
from typing import Iterator, NamedTuple

from programs import DATA, TOP, Check, Output, Run, all_of, decoded, encoded

CASES = DATA / "cases"
PROGRAMS = ("patterns", "fre")
ENTRY = "echo $?"


class Block(NamedTuple):
    """A fenced block: the heading above it, the number of its first line, its language, and its text."""
    heading: str
    line: int
    language: str
    text: str


class Command(NamedTuple):
    """A command of a block, and the output below it."""
    text: str
    shown: str


class Example(NamedTuple):
    """A command that runs a program: its index in the block, the run, what has to come of it, and the word of its output."""
    index: int
    run: Run
    wanted: Output
    word: str = ""


# ---- blocks


def blocks(text: str) -> Iterator[Block]:
    """The fenced blocks of a page."""
    heading, language, start = "", None, 0
    lines = text.split("\n")
    for number, line in enumerate(lines):
        if language is None and line.startswith("## "):
            heading = line[3:]
        elif language is None and re.fullmatch(r"```\w+", line):
            language, start = line[3:], number + 1
        elif language is not None and line == "```":
            yield Block(heading, start + 1, language, "".join(it + "\n" for it in lines[start:number]))
            language = None


QUOTED = r"\$'(?:[^'\\]|\\.)*'|'[^']*'"
TOKEN = re.compile(rf"\s+|(?P<operator>2>|>|\|)|(?P<word>(?:[\w./:,@%+=-]|\$\?|{QUOTED})+)")


def is_open(command: str) -> bool:
    """Whether a quote of the command is open."""
    return "'" in re.sub(QUOTED, "", command)


def commands(text: str) -> list:
    """The commands of a block."""
    found = []
    for line in text.split("\n")[:-1]:
        if found and is_open(found[-1].text):
            assert line.startswith("> ") or line == ">", f"no continuation: {line}"
            found[-1] = Command(found[-1].text + "\n" + line[2:], "")
        elif line.startswith("$ "):
            found.append(Command(line[2:], ""))
        else:
            assert found, f"no command: {line}"
            found[-1] = found[-1]._replace(shown=found[-1].shown + line + "\n")
    return found


def block_of(found: list) -> str:
    """The text of a block with these commands."""
    return "".join("$ " + re.sub(r"\n(.*)", continuation, it.text) + "\n" + it.shown for it in found)


def continuation(line: re.Match) -> str:
    """A further line of a command."""
    return f"\n> {line[1]}" if line[1] else "\n>"


# ---- words


def escaped(text: str) -> str:
    """The text that printf writes for one with escapes."""
    def character(match) -> str:
        kind, code = match[1][0], match[1][1:]
        if kind == "x":
            return decoded(bytes([int(code, 16)]))
        return chr(int(code, 16)) if kind == "u" else {"n": "\n", "r": "\r", "t": "\t", "\\": "\\", "'": "'"}[kind]

    return decoded(encoded(re.sub(r"\\(x[0-9A-Fa-f]{1,2}|u[0-9A-Fa-f]{1,4}|.)", character, text, flags=re.S)))


def unquoted(word: str) -> str:
    """A word without its quotes."""
    def inner(match) -> str:
        return escaped(match[0][2:-1]) if match[0].startswith("$") else match[0][1:-1]

    return re.sub(QUOTED, inner, word)


def parsed(command: str):
    """The words of the parts of a command between bars, and the file that each operator leads to."""
    parts, targets, at, operator = [[]], {}, 0, ""
    while at < len(command):
        token = TOKEN.match(command, at)
        assert token, f"unreadable: {command[at:]}"
        at = token.end()
        if token["operator"] == "|":
            parts.append([])
        elif token["operator"]:
            operator = token["operator"]
        elif token["word"] and operator:
            targets[operator], operator = unquoted(token["word"]), ""
        elif token["word"]:
            parts[-1].append(unquoted(token["word"]))
    return parts, targets


def text_of(parts: list, files: dict) -> str:
    """What the parts before a program write to it."""
    if not parts:
        return ""
    program, *words = parts[0]
    if program == "yes":
        _, _, number = parts[1]
        return (words[0] + "\n") * int(number)
    if program == "printf":
        return words[1] if words[0] == "%s" else escaped(words[0]).replace("%%", "%")
    return {"echo": lambda: words[0] + "\n", "cat": lambda: files[words[0]]}[program]()


# ---- outputs


def field(value, pointer: str) -> str:
    """The line of the field that the pointer names."""
    for key in pointer.split("/")[1:]:
        is_there = int(key) < len(value) if isinstance(value, list) else isinstance(value, dict) and key in value
        if not is_there:
            return pointer + "\n"
        value = value[int(key) if isinstance(value, list) else key]
    return f"{pointer} {json.dumps(value, ensure_ascii=False)}\n"


def fields_of(out: str, pointers: list) -> str:
    """The fields that the pointers name, of the one line of the text."""
    if out.count("\n") != 1 or not out.endswith("\n"):
        return f"not one line: {out}"
    try:
        return "".join(field(json.loads(out), it) for it in pointers)
    except json.JSONDecodeError:
        return f"not JSON: {out}"


def shown_out(out: str, word: str, shown: str) -> str:
    """What is shown of the standard output after the word."""
    if word == "fields":
        return fields_of(out, [it.split(" ")[0] for it in shown.splitlines()])
    if word == "quoted":
        return "".join(json.dumps(it) + "\n" for it in re.findall(r"[^\n]*\n|[^\n]+", out))
    return out


COUNTS = re.compile(r"^[\d,]+ patterns?, [\d,]+ refused.*\n\Z", flags=re.M)


def parted(shown: str):
    """What is shown as standard output, and what as standard error: a last line with the counts."""
    counts = COUNTS.search(shown)
    at = counts.start() if counts else len(shown)
    return shown[:at], shown[at:]


# ---- examples


def folder_files(name: str) -> dict:
    """The files of a folder of crates/patterns/data, by their paths in it."""
    folder = DATA / name
    return {str(it.relative_to(folder)): decoded(it.read_bytes()) for it in sorted(folder.rglob("*")) if it.is_file()}


def wanted_of(found: list, index: int, targets: dict) -> Output:
    """What is shown of a run, and by the commands after it."""
    out, err = parted(found[index].shown)
    after = found[index + 1:]
    status = int(after[0].shown) if after and after[0].text == ENTRY else None
    if "2>" in targets:
        out = found[index].shown
        err = next(it.shown for it in after if it.text == f"cat {targets['2>']}")
    if ">" in targets:
        assert out == "", found[index].text
        out = decoded((TOP / "docs/pictures" / targets[">"]).read_bytes())
    return Output(out, err, status)


def examples(found: list, files: dict) -> Iterator[Example]:
    """The runs of a block. The files that it makes are added to those that are there."""
    reports = set()
    for index, (text, shown) in enumerate(found):
        parts, targets = parsed(text)
        names = [it[0] for it in parts]
        at = next((number for number, it in enumerate(names) if it in PROGRAMS), None)
        if at is not None:
            program, *words = parts[at]
            run = Run(program, tuple(words), text_of(parts[:at], files), tuple(files.items()))
            word = names[at + 1] if at + 1 < len(names) else ""
            reports.add(targets.get("2>"))
            yield Example(index, run, wanted_of(found, index, targets), word)
        elif names == ["cd"]:
            files.update(folder_files(parts[0][1]))
        elif ">" in targets:
            files[targets[">"]] = text_of(parts, files)
        elif names == ["cat"] and parts[0][1] not in reports:
            files[parts[0][1]] = shown
        else:
            assert text == ENTRY or names == ["cat"], f"unknown: {text}"


def check_of(name: str, example: Example) -> Check:
    """The check of a run. Its exit status counts if it is shown."""
    wanted = example.wanted

    def taken(got: Output) -> str:
        out = shown_out(got.out, example.word, wanted.out)
        return all_of(None if wanted.status is None else got.status, out, got.err)

    return Check(name, example.run, all_of(wanted.status, wanted.out, wanted.err), taken)


# ---- transcripts


def cases_of(file: Path) -> Iterator:
    """The blocks of a transcript that are cases, each with the name of its check, its commands and its runs."""
    shared, known = {}, set()
    for block in blocks(decoded(file.read_bytes())):
        found = commands(block.text)
        if not block.heading:
            list(examples(found, shared))
            continue
        assert block.heading not in known, f"{file.name}: {block.heading} is there twice"
        known.add(block.heading)
        runs = list(examples(found, dict(shared)))
        assert runs, f"{file.name}: {block.heading} runs nothing"
        yield f"{file.name}: {block.heading}", block, found, runs


def status_shown(example: Example) -> Example:
    """An example of a transcript: the exit status is 0 if none is shown."""
    return example._replace(wanted=example.wanted._replace(status=example.wanted.status or 0))


def numbered(name: str, runs: list) -> Iterator:
    """The names of the runs of a case, and the runs."""
    for number, example in enumerate(runs, 1):
        yield name if len(runs) == 1 else f"{name} {number}", status_shown(example)


def checks() -> Iterator[Check]:
    """The check of each run of each transcript."""
    for file in sorted(CASES.glob("*.md")):
        for name, _, _, runs in cases_of(file):
            yield from (check_of(*it) for it in numbered(name, runs))


# ---- what comes out, written into the transcripts


HIDDEN = ("Cc", "Cf", "Cs", "Co", "Cn", "Zl", "Zp")


def is_plain(text: str) -> bool:
    """Whether a text can be shown as it is: it has whole lines, and no hidden characters but tabs."""
    return not any(unicodedata.category(it) in HIDDEN for it in re.sub("[\t\n]", "", text)) and text[-1:] in ("", "\n")


def shown_again(command: Command, example: Example, got: Output) -> list:
    """The commands that show what comes of a run."""
    head, target, word = re.fullmatch(r"(.*?)( 2> \S+)?( \| (?:fields|quoted))?", command.text, flags=re.S).groups()
    word = word or ("" if is_plain(got.out) else " | quoted")
    out = shown_out(got.out, word[3:], example.wanted.out)
    is_apart = parted(out + got.err) != (out, got.err)
    target = (target or " 2> errors") if is_apart else ""
    new = [Command(head + target + word, out + ("" if is_apart else got.err))]
    if got.status:
        new.append(Command(ENTRY, f"{got.status}\n"))
    return new + ([Command(f"cat {target.split()[1]}", got.err)] if is_apart else [])


def accepted(found: list, outputs: dict) -> list:
    """The commands of a block, where the runs with these indexes had these outputs."""
    new, leaving = [], set()
    for index, command in enumerate(found):
        parts, targets = parsed(command.text)
        if index in outputs:
            new += shown_again(command, *outputs[index])
            leaving = {ENTRY, f"cat {targets.get('2>')}"}
        elif command.text not in leaving:
            new.append(command)
            leaving = set() if any(it[0] in PROGRAMS for it in parts) else leaving
    return new


def accept(outputs: dict) -> int:
    """Writes what came of checks, by their names, into the transcripts, and returns of how many."""
    count = 0
    for file in sorted(CASES.glob("*.md")):
        lines = decoded(file.read_bytes()).split("\n")
        for name, block, found, runs in reversed(list(cases_of(file))):
            changed = {it.index: (it, outputs[own]) for own, it in numbered(name, runs) if own in outputs}
            count += len(changed)
            start = block.line - 1
            if changed:
                lines[start:start + block.text.count("\n")] = block_of(accepted(found, changed)).split("\n")[:-1]
        file.write_bytes(encoded("\n".join(lines)))
    return count


def parts() -> dict:
    """The checks of the transcripts."""
    return {"transcripts": list(checks())}

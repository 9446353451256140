"""The tables of crates/patterns/data/tables whose rows need no file, for `.ci/runs`.

- usage.tsv: words, the status, and how the text begins that explains them.
- lint.tsv: options of `lint`, a pattern, and the columns and rules of what is reported of it.
- comments.tsv: flags, a pattern, and the column of its first comment, for which `format --canonical` keeps it; and that it keeps each
  text that it writes.
- advice.tsv: flags, an invalid pattern, the offset in characters of the delimiter that is not closed, and the help.
- kinds.tsv: flags, a pattern, and the kind of the first node of its tree in JSON.
- annotations.tsv: words, a pattern, and the report on it for another tool: severity, file, start, end, rule and message. It is compared
  in each of the formats.
- json.tsv: a text as a string of JSON, and where and why it is not read as JSON.

Besides: no line of a help is longer than 100 characters, lines of a million bytes are read, and each character of ASCII is in a pattern
that is reported in JSON.
"""
import json
import re
import shlex
from functools import partial
from typing import Iterator

from annotations import READERS
from programs import DATA, Check, Output, Run, all_of, all_taken, output_of
from transcripts import field, fields_of

LONG = 1 << 20
COLUMNS = 100
# Files that words of the tables name.
FILES = {"good": "a|b\r\n\nc", "50%, or so": "(\n"}


def run_of(*words, stdin: str = "") -> Run:
    """A run of `patterns`, with the files that its words name."""
    names = {it.split(":")[0] for it in words}
    return Run("patterns", words, stdin, tuple(it for it in FILES.items() if it[0] in names))


def rows(table: str) -> list:
    """The cells of the rows of a table."""
    return [it.split("\t") for it in (DATA / "tables" / table).read_text(encoding="utf-8").split("\n")[:-1]]


def groups_of(table: str) -> dict:
    """The other cells of the rows, by their first."""
    found = {}
    for first, *cells in rows(table):
        found.setdefault(first, []).append(cells)
    return found


def lines_of(cells) -> str:
    """Cells as lines."""
    return "".join("\t".join(it) + "\n" for it in cells)


# ---- tables


def usages() -> Iterator[Check]:
    """The words of usage.tsv: the text that explains them is all that is written."""
    for words, status, start in rows("usage.tsv"):
        def taken(got: Output, start=start) -> str:
            text, other = (got.out, got.err) if got.status == 0 else (got.err, got.out)
            return f"status {got.status}\n{text[:len(start)] if start else text[:1] and '..'}\n{other}"

        yield Check(f"usage.tsv: {words}", run_of(*shlex.split(words)), f"status {status}\n{start or '..'}\n", taken)


def reports() -> Iterator[Check]:
    """The patterns of lint.tsv."""
    for options, cells in groups_of("lint.tsv").items():
        patterns = [it for it, _ in cells]

        def taken(got: Output, patterns=patterns) -> str:
            found = [[] for _ in patterns]
            for line, column, rule in re.findall(r"^-:(\d+):(\d+): \w+: .*\[([a-z-]+)\]$", got.out, flags=re.M):
                found[int(line) - 1].append(f"{column} {rule}")
            return lines_of(zip(patterns, (", ".join(it) for it in found))) + got.err

        words = ("lint", "--quiet", *options.split())
        run = run_of(*words, stdin=lines_of([it] for it in patterns))
        yield Check(f"lint.tsv: {options}", run, lines_of(cells), taken)


CANONICAL = ("format", "--canonical", "--quiet")


def comments() -> Iterator[Check]:
    """The patterns of comments.tsv: one is kept for a comment, and reported with its column."""
    for flags, cells in groups_of("comments.tsv").items():
        patterns = [it for it, _ in cells]

        def taken(got: Output, patterns=patterns) -> str:
            columns = dict(re.findall(r"^-:(\d+):(\d+): comments would be lost", got.err, flags=re.M))
            found, written = [], got.out.split("\n")
            for number, pattern in enumerate(patterns, 1):
                column = columns.get(str(number), "")
                is_right = not column or written[number - 1] == pattern
                found.append([pattern, column if is_right else "not kept"])
            return f"status {got.status}\n" + lines_of(found)

        run = run_of(*CANONICAL, "--flags", flags, stdin=lines_of([it] for it in patterns))
        yield Check(f"comments.tsv: {flags}", run, "status 1\n" + lines_of(cells), taken)


def formatted_twice(flags: str, patterns: str) -> Output:
    """What `format --check` says of what `format` writes for the patterns without their comments."""
    got = output_of(run_of(*CANONICAL, "--drop-comments", "--flags", flags, stdin=patterns))
    return output_of(run_of(*CANONICAL, "--check", "--flags", flags, stdin=got.out))


def formatted() -> Iterator[Check]:
    """What `format` writes for the patterns of comments.tsv without their comments, it keeps."""
    for flags, cells in groups_of("comments.tsv").items():
        stdin = lines_of([it] for it, _ in cells)
        yield Check(f"comments.tsv: {flags}, formatted", partial(formatted_twice, flags, stdin), all_of(0, "", ""))


def advice() -> Iterator[Check]:
    """The patterns of advice.tsv: what `check` says of each, beside the error."""
    for flags, cells in groups_of("advice.tsv").items():
        def taken(got: Output) -> str:
            found = [json.loads(it) for it in got.out.splitlines()]
            related = [it.get("related", {}) for it in found]
            assert all(it["label"] == "opened here" for it in related if it), got.out
            starts = [str(it.get("start_character", "")) for it in related]
            return lines_of(zip((it["pattern"] for it in found), starts, (it.get("help", "") for it in found))) + got.err

        run = run_of("check", "--json", "--quiet", "--flags", flags, stdin=lines_of([it] for it, *_ in cells))
        yield Check(f"advice.tsv: {flags}", run, lines_of(cells), taken)


def kinds() -> Iterator[Check]:
    """The patterns of kinds.tsv."""
    for flags, pattern, kind in rows("kinds.tsv"):
        run = run_of("tree", "--json", "--flags", flags, "--", pattern)
        wanted = field({"pattern": pattern}, "/pattern") + field({"tree": {"kind": kind}}, "/tree/kind")
        yield Check(
            f"kinds.tsv: {pattern}", run, wanted, lambda got: fields_of(got.out, ["/pattern", "/tree/kind"]) + got.err
        )


def annotations() -> Iterator[Check]:
    """The patterns of annotations.tsv, in each format for other tools."""
    for words, cells in groups_of("annotations.tsv").items():
        stdin = lines_of([pattern] for pattern, *_ in cells)
        wanted = lines_of(report for _, *report in cells if report)
        for name, lines in READERS.items():
            run = run_of(*shlex.split(words), "--format", name, stdin=stdin)
            yield Check(f"annotations.tsv: {name}: {words}", run, wanted, lambda got, lines=lines: lines(got.out) + got.err)


def refusals() -> Iterator[Check]:
    """The texts of json.tsv: why one is not read is all that is written."""
    for text, reason in rows("json.tsv"):
        run = run_of("check", "--quiet", "--textmate", stdin=json.loads(text))
        yield Check(f"json.tsv: {text}", run, all_of(2, "", f"-:{reason}\n"))


# ---- helps


def help_errors(*words) -> str:
    """The lines of a help that are too long, and all that comes of it if it does not end well."""
    got = output_of(run_of(*words))
    longer = [it for it in got.out.split("\n") if len(it) > COLUMNS]
    is_right = got.out and all_taken(got._replace(out="")) == all_of(0, "", "")
    return "".join(f"{shlex.join(words)}: {it}\n" for it in [*longer, *([] if is_right else [all_taken(got)])])


def all_help_errors() -> Output:
    """The same of the long and the short help of the program and of each subcommand."""
    listed = output_of(run_of("--help")).out.partition("Commands:\n")[2].partition("\n\n")[0]
    commands = re.findall(r"^  (?!help )(\w+)", listed, re.M)
    helps = [(*command, option) for command in ((), *((it,) for it in commands)) for option in ("--help", "-h")]
    return Output("".join(help_errors(*it) for it in helps) if commands else "no subcommands\n", "", 0)


def helps() -> Iterator[Check]:
    """The check of all helps."""
    yield Check("helps", all_help_errors, all_of(0, "", ""))


# ---- patterns that are in no file


def generated() -> Iterator[Check]:
    """Long lines, and all characters of ASCII: NUL in a line, and the others in patterns that end with NUL."""
    for letter, status in (("a", 0), ("(", 1)):
        run = run_of("check", stdin=letter * LONG)
        yield Check(f"long line of {letter}", run, f"{status}", lambda got: f"{got.status}")
    for words, codes, end in (((), range(1), "\n"), (("-z",), range(1, 128), "\0")):
        patterns = [f"{chr(it)}((" for it in codes]

        def taken(got: Output) -> str:
            return "".join(fields_of(it + "\n", ["/type", "/pattern"]) for it in got.out.splitlines())

        run = run_of("check", "--json", *words, stdin="".join(it + end for it in patterns))
        wanted = "".join(field({"type": "error"}, "/type") + field({"pattern": it}, "/pattern") for it in patterns)
        yield Check(f"characters {shlex.join(words)}", run, wanted, taken)


def parts() -> dict:
    """The checks of each table, and of what is in none."""
    found = (usages, reports, comments, formatted, advice, kinds, annotations, refusals, helps, generated)
    return {it.__name__: list(it()) for it in found}

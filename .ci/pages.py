"""What the pages show, for `.ci/runs`.

- Each command in a block ```console of PAGES, with the output below it, as in a transcript. A page need not show the exit status.
- The errors in the table of docs/library.md, and the rules in docs/lint.md.
- That the code on these pages is that of the examples of crates/conformance, and any other output in its `stdout`. In a block ```rs, which
  is a file of another repository, each line is one of these examples. A block ```txt is in crates.txt.

Blocks of other languages, such as ```sh and ```yaml, are not run. The examples of docs/c.md and docs/python.md are run by `.ci/from-c`.
"""
import re
from functools import cache
from pathlib import Path
from typing import Iterator, NamedTuple

import transcripts
from programs import CRATES, TOP, Check, Output, Run, all_of, output_of

PAGES = ("README.md", "docs/library.md", "docs/cli.md", "docs/format.md", "docs/lint.md")
LETTERS = {"FLAG_UNICODE": "u", "FLAG_ONIGURUMA_MODE": "o"}


class Row(NamedTuple):
    """A row of a table of a page: the number of its line, the heads of the columns, and the cells."""
    line: int
    head: tuple
    cells: tuple


@cache
def text_of(path: Path) -> str:
    """The text of a file, in whatever locale."""
    return path.read_text(encoding="utf-8")


def table_rows(page: str) -> Iterator[Row]:
    """The rows of the tables of a page."""
    head = None
    for number, line in enumerate(text_of(TOP / page).split("\n"), 1):
        cells = tuple(it.strip().replace(r"\|", "|") for it in re.split(r"(?<!\\)\|", line)[1:-1])
        if not line.startswith("|"):
            head = None
        elif head is None:
            head = cells
        elif not line.startswith("|---"):
            yield Row(number, head, cells)


def rows(page: str, *head: str) -> Iterator:
    """The rows of the tables whose heads begin with these: the number of the line, and the cells."""
    for row in table_rows(page):
        if row.head[:len(head)] == head:
            yield row.line, row.cells


def spans(cell: str) -> list:
    """What is between backticks in a cell."""
    return cell.split("`")[1::2]


# ---- blocks


def page_checks(page: str) -> Iterator[Check]:
    """The checks of the blocks of a page that are commands."""
    for block in transcripts.blocks(text_of(TOP / page)):
        if block.language == "console":
            found = transcripts.commands(block.text)
            for example in transcripts.examples(found, {}):
                yield transcripts.check_of(f"{page}:{block.line}: {found[example.index].text}", example)


def misquoted(page: str) -> Iterator[str]:
    """The blocks of a page that quote crates/conformance or crates.txt, and are not there."""
    examples = CRATES / "conformance"
    sources = {
        "rust": [text_of(it) for it in examples.glob("src/examples/*.rt")],
        "antt": [text_of(it) for it in [*examples.glob("specs/*.antt"), *examples.glob("proofs/*.antt")]],
        "text": [text_of(examples / "stdout")],
        "txt": [text_of(TOP / "crates.txt")],
    }
    known = {line for source in sources["rust"] for line in source.split("\n")}
    for _, line, language, text in transcripts.blocks(text_of(TOP / page)):
        if language in sources and not any(text in it for it in sources[language]):
            yield f"{page}:{line}: not in crates/conformance or crates.txt\n"
        if language == "rs" and not known.issuperset(text.split("\n")):
            yield f"{page}:{line}: a line is not in crates/conformance\n"


def quotations() -> Iterator[Check]:
    """The checks that what the pages quote is there."""
    for page in PAGES:
        yield Check(f"{page}: quotations", lambda page=page: Output("".join(misquoted(page)), "", 0), all_of(0, "", ""))


# ---- tables


@cache
def messages() -> dict:
    """How the message of each kind of error begins."""
    text = text_of(CRATES / "fancy_lex/src/error.rt")
    return dict(re.findall(r'ParseError::(\w+)(?:\(s\))? => \{?\s*\(\s*"([^"]*)"', text))


def error_checks() -> Iterator[Check]:
    """The table of errors in docs/library.md: `fre` gives the position and the message of the kind."""
    kind = None
    for line, (named, example, position, _) in rows("docs/library.md", "kind", "example", "position"):
        kind = spans(named)[0] if named else kind
        if not spans(example):
            continue
        pattern, *flags = spans(example)
        times = re.match(r"(\d+) times", example)
        letters = "-" if "without `" in example else LETTERS[flags[0]] if flags else "u"
        run = Run("fre", (letters, pattern * int(times[1] if times else 1)))
        start = f"Parsing error at position {position}: {messages()[kind]}"
        yield Check(f"docs/library.md:{line}", run, start, lambda got, start=start: got.err[:len(start)])


def reported(rule: str, got: Output) -> str:
    """Whether `lint` reports the rule, and what is on standard error."""
    return f"{'reported' if f'[{rule}]' in got.out else 'silent'}\n{got.err}"


def rule_checks() -> Iterator[Check]:
    """The table of rules in docs/lint.md: a rule reports its examples, which are patterns or grammars, and not those for which it is
    silent."""
    for line, (named, _, _, example, silent, _) in rows("docs/lint.md", "rule"):
        (rule,) = spans(named)
        for cell, wanted in ((example, "reported\n"), (silent, "silent\n")):
            flags = [it for it in spans(cell) if it.startswith("--flags ")]
            for pattern in (it for it in spans(cell) if it not in flags):
                options = ("--textmate",) if pattern.startswith('{"') else " ".join(flags).split()
                run = Run("patterns", ("lint", "--quiet", "--warn", rule, *options), pattern + "\n")
                yield Check(f"docs/lint.md:{line}: {pattern}", run, wanted, lambda got, rule=rule: reported(rule, got))


def listed_rules(got: Output) -> str:
    """The rules that `lint --rules` lists, each with its defaults, and whether docs/lint.md has its example."""
    examples = {spans(it[0])[0]: spans(it[3]) for _, it in rows("docs/lint.md", "rule")}
    rules = re.findall(r"^(\S+): .*, as in (.*) \[(.*)\]\n", got.out, flags=re.M)
    return "".join(f"{name} [{default}] {shown in examples.get(name, [])}\n" for name, shown, default in rules)


def list_check() -> Check:
    """The table of rules in docs/lint.md has what `lint --rules` lists."""
    wanted = "".join(
        f"{spans(it[0])[0]} [{it[1]}{', fixed' if it[5] else ''}] True\n" for _, it in rows("docs/lint.md", "rule")
    )
    return Check("docs/lint.md: the rules", Run("patterns", ("lint", "--rules")), wanted, listed_rules)


def wrongly_explained() -> Output:
    """The patterns of `lint --explain` that their rule does not report, and those to write that it does. The status is 1 if there are no
    patterns."""
    listed = output_of(Run("patterns", ("lint", "--explain", "all"))).out
    wrong, count = [], 0
    for rule, below in re.findall(r"^(\S+): .*\n((?:  .*\n)+)", listed, flags=re.M):
        for kind, pattern in re.findall(r"  (found|write): (.*)\n", below):
            got = reported(rule, output_of(Run("patterns", ("lint", "--quiet", "--warn", rule), pattern + "\n")))
            count += 1
            if got != {"found": "reported\n", "write": "silent\n"}[kind]:
                wrong.append(f"{rule}: {kind}: {pattern}: {got}")
    return Output("".join(wrong), "", 0 if count else 1)


def parts() -> dict:
    """The checks of each page and each table."""
    return {
        **{page: list(page_checks(page)) for page in PAGES},
        "quotations": list(quotations()),
        "docs/library.md, errors": list(error_checks()),
        "docs/lint.md, rules": [
            *rule_checks(),
            list_check(),
            Check("lint --explain: patterns of programs", wrongly_explained, "status 0\nerrors:\n"),
        ],
    }

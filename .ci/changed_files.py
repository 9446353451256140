"""What `--fix`, `--write` and `--diff` make of texts, files and sources, for `.ci/runs`, by tables of crates/patterns/data/tables:

- fixes.tsv: options of `lint`, a text as a string of JSON, and what `--fix` makes of it: of standard input, and of a file, which keeps
  its permissions, and is not written if nothing changes. A link to it stays one.
- formats.tsv: the same of `format` and `--write`.
- names.tsv: words, the text of `patterns.toml`, the name of a file of lines, and what is said of it, if it is not written for its name.
  Otherwise it is changed.
- sources.tsv: the name of a source, its text as a string of JSON, and what `--fix` makes of it with the records that
  `python -m fancy extract` finds in it.
- source_formats.tsv: the same of `format` and `--write`.
- kept_sources.tsv: options of `format --write`, the name of a source, its text as a string of JSON, which stays, and what is said of that.
"""
import importlib.util
import json
import os
import shlex
import shutil
import subprocess
import sys
import tempfile
from functools import partial
from pathlib import Path
from typing import Iterator, NamedTuple, Optional

from programs import TOP, Check, Output, all_of, decoded, encoded, path_of
from tables import rows, run_of

WRITTEN = 10 ** 18


class Change(NamedTuple):
    """A table of texts that are changed, and the words that change a text, and that show how it would change."""
    table: str
    changing: tuple
    showing: tuple


CHANGES = [
    Change("fixes.tsv", ("lint", "--fix"), ("lint", "--diff")),
    Change("formats.tsv", ("format", "--write"), ("format", "--diff")),
]


def changed_texts() -> Iterator[Check]:
    """The texts of fixes.tsv and formats.tsv, as standard input."""
    for change in CHANGES:
        for options, text, fixed in rows(change.table):
            run = run_of(*change.changing, "--quiet", *options.split(), stdin=json.loads(text))
            yield Check(f"{change.table}: {options}: {text}", run, json.loads(fixed), lambda got: got.out)


# ---- files


def state_of(folder: Path) -> str:
    """The files of a folder: the bytes of each, its permissions, whether it was not written, and whether it is a link."""
    return "".join(
        f"{it.name} {it.read_bytes()} {it.stat().st_mode:o} {it.stat().st_mtime_ns == WRITTEN} {it.is_symlink()}\n"
        for it in sorted(folder.iterdir())
    )


def link_state(text: str, mode: str, is_kept: bool) -> str:
    """The same of a folder with a file and a link to it."""
    return "".join(f"{name} {encoded(text)} {mode} {is_kept} {name == 'link'}\n" for name in ("file", "link"))


def changed_file(options: str, text: str, *words, mode: int = 0o640) -> Output:
    """What the words and options make of a folder with the text in a file, which a link leads to."""
    with tempfile.TemporaryDirectory() as name:
        folder = Path(name)
        file, link = folder / "file", folder / "link"
        file.write_bytes(encoded(text))
        file.chmod(mode)
        os.utime(file, ns=(WRITTEN, WRITTEN))
        link.symlink_to("file")
        command = [path_of("patterns"), *words, "--quiet", *options.split(), "link"]
        got = subprocess.run(command, cwd=folder, capture_output=True, check=False)
        return Output(state_of(folder), decoded(got.stderr), got.returncode)


def changed_files() -> Iterator[Check]:
    """The texts of fixes.tsv and formats.tsv, as files: with `--fix` or `--write`, and with `--diff`, which writes none."""
    for change, (options, text, fixed) in ((it, cells) for it in CHANGES for cells in rows(it.table)):
        old, new = json.loads(text), json.loads(fixed)
        for words, wanted in ((change.changing, new), (change.showing, old)):
            name = f"{change.table}: file {shlex.join(words)} {options}: {text}"
            state = link_state(wanted, "100640", wanted == old)
            yield Check(name, partial(changed_file, options, old, *words), state, lambda got: got.out)
    wanted = all_of(2, link_state("a|a", "100440", True), "patterns: link: cannot be written: permission denied\n")
    options = "--allow all --warn duplicate-branch"
    yield Check("a read-only file with --fix", partial(changed_file, options, "a|a", "lint", "--fix", mode=0o440), wanted)


# ---- patches

PATCHING = [it for it in (("patch", "-p1", "--silent"), ("git", "apply", "--whitespace=nowarn")) if shutil.which(it[0])]


def patched(file: Path, tool: tuple, patch: bytes) -> Output:
    """What a tool makes of a file by a patch."""
    env = {**os.environ, "GIT_CEILING_DIRECTORIES": str(file.parent.parent)}
    got = subprocess.run(tool, cwd=file.parent, input=patch, capture_output=True, env=env, check=False)
    return Output(decoded(file.read_bytes()), decoded(got.stdout + got.stderr), got.returncode)


def patched_file(options: str, text: str, words: tuple, tool: tuple) -> Output:
    """What a tool makes of a file with the text by what the words and options write."""
    with tempfile.TemporaryDirectory() as name:
        file = Path(name) / "file"
        file.write_bytes(encoded(text))
        command = [path_of("patterns"), *words, "--quiet", *options.split(), "file"]
        got = subprocess.run(command, cwd=name, capture_output=True, check=False)
        return patched(file, tool, got.stdout)


def patched_files() -> Iterator[Check]:
    """The texts of fixes.tsv and formats.tsv that change, as files to which the patch is applied."""
    for change, (options, text, fixed) in ((it, cells) for it in CHANGES for cells in rows(it.table)):
        for tool in PATCHING if text != fixed else ():
            run = partial(patched_file, options, json.loads(text), change.showing, tool)
            yield Check(f"{change.table}: {tool[0]}: {options}: {text}", run, all_of(0, json.loads(fixed), ""))


# ---- names

CHANGING = b"a{0,1}|a{0,1}"


def named_file(words: str, config: str, file_name: str) -> Output:
    """What the words make of a file with the name, beside a configuration."""
    with tempfile.TemporaryDirectory() as name:
        file = Path(name) / file_name
        (Path(name) / "patterns.toml").write_text(config + "\n", encoding="utf-8")
        file.write_bytes(CHANGING)
        os.utime(file, ns=(WRITTEN, WRITTEN))
        command = [path_of("patterns"), *words.split(), "--quiet", file_name]
        got = subprocess.run(command, cwd=name, capture_output=True, check=False)
        is_kept = (file.read_bytes(), file.stat().st_mtime_ns) == (CHANGING, WRITTEN)
    state = "kept\n" if is_kept else "changed\n"
    return Output(decoded(got.stdout) + state, decoded(got.stderr), got.returncode)


def named_files() -> Iterator[Check]:
    """The rows of names.tsv: a file with the name is changed, or stays untouched and standard error says why."""
    for words, config, name, said in rows("names.tsv"):
        wanted = all_of(2, "kept\n", f"patterns: {name}: {said}\n") if said else all_of(0, "changed\n", "")
        yield Check(f"names.tsv: {words} {name} {config}", partial(named_file, words, config, name), wanted)


# ---- sources

FIXING = ("lint", "--fix", "--records", "--quiet", "--allow", "all", "--warn", "duplicate-branch,duplicate-characters")
WRITING = ("format", "--write", "--records", "--quiet")
PYTHON = TOP / "python"
HAS_YAML = importlib.util.find_spec("yaml") is not None


def records_of(name: str, folder: Path) -> list:
    """The records that `python -m fancy extract` finds in a source."""
    found = subprocess.run(
        [sys.executable, "-m", "fancy", "extract", name], cwd=folder, env={**os.environ, "PYTHONPATH": str(PYTHON)},
        capture_output=True, check=True,
    )
    return [json.loads(line) for line in found.stdout.splitlines()]


def changed_source(
    name: str, text: str, words: tuple, shift: int = 0, is_spelled: bool = True, tool: Optional[tuple] = None,
) -> Output:
    """What the words make of a source, with the records that are found in it, or the tool by the patch that they write; `shift` is
    added to the offsets of their literals, and without `is_spelled` they have none."""
    with tempfile.TemporaryDirectory() as folder:
        source = Path(folder) / name
        source.write_bytes(encoded(text))
        records = records_of(name, Path(folder))
        for it in records:
            literals = it.pop("literals")
            if is_spelled:
                it["literals"] = [offset + shift for offset in literals]
        lines = "".join(json.dumps(it) + "\n" for it in records)
        command = [path_of("patterns"), *words]
        got = subprocess.run(command, cwd=folder, input=encoded(lines), capture_output=True, check=False)
        if tool:
            return patched(source, tool, got.stdout)
        return Output(decoded(source.read_bytes()), decoded(got.stderr), got.returncode)


def patched_sources(table: str, name: str, texts: tuple, words: tuple) -> Iterator[Check]:
    """A source that changes from the first text to the second, to which the patch is applied."""
    text, fixed = texts
    showing = (words[0], "--diff", *words[2:])
    for tool in PATCHING if text != fixed else ():
        run = partial(changed_source, name, json.loads(text), showing, tool=tool)
        yield Check(f"{table}: {tool[0]}: {name}: {text}", run, all_of(0, json.loads(fixed), ""))


def changed_sources() -> Iterator[Check]:
    """The texts of sources.tsv, source_formats.tsv and kept_sources.tsv."""
    for table, words in (("sources.tsv", FIXING), ("source_formats.tsv", WRITING)):
        for name, text, fixed in rows(table):
            if HAS_YAML or not name.endswith(".yaml"):
                run = partial(changed_source, name, json.loads(text), words)
                yield Check(f"{table}: {name}: {text}", run, all_of(0, json.loads(fixed), ""))
                yield from patched_sources(table, name, (text, fixed), words)
    for options, name, text, said in rows("kept_sources.tsv"):
        if HAS_YAML or not name.endswith(".yaml"):
            run = partial(changed_source, name, json.loads(text), (*WRITING, *options.split()))
            yield Check(f"kept_sources.tsv: {options} {name}: {text}", run, all_of(1, json.loads(text), said + "\n"))


def other_records() -> Iterator[Check]:
    """A source that has changed since its records were written, and one whose records do not say how it spells its patterns."""
    text = 'import re\nre.compile("a|a")\n'
    said = "patterns: app.py: it does not have the characters of its patterns where their records say\n"
    yield Check("a source that has changed", partial(changed_source, "app.py", text, FIXING, 1), all_of(2, text, said))
    said = "app.py:2:13: the pattern is not changed: its record needs `syntax` and `literals`, as python -m fancy extract writes them\n"
    run = partial(changed_source, "app.py", text, FIXING, is_spelled=False)
    yield Check("a record without literals", run, all_of(0, text, said))


def parts() -> dict:
    """The checks of the tables."""
    return {it.__name__: list(it()) for it in (changed_texts, changed_files, patched_files, named_files, changed_sources, other_records)}

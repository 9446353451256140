"""Runs of the programs, and checks of what they write, for `.ci/runs`.

A program is that which `rt ci` left, or is built anew; or, inside `tried`, built without proof. What it reads and writes is UTF-8 here,
with each other byte as a surrogate.
"""
import errno
import os
import re
import shlex
import shutil
import subprocess
import sys
import tempfile
import threading
import time
from concurrent.futures import ThreadPoolExecutor
from contextlib import contextmanager
from functools import cache
from pathlib import Path
from typing import Callable, Iterator, NamedTuple, Optional, Union

TOP = Path(__file__).resolve().parent.parent
CRATES = TOP / "crates"
DATA = CRATES / "patterns/data"


class Run(NamedTuple):
    """A run of a program: the words after its name, the standard input, and the files where it runs."""
    program: str
    words: tuple
    stdin: str = ""
    files: tuple = ()


class Output(NamedTuple):
    """What a run wrote, and its exit status."""
    out: str
    err: str
    status: Optional[int]


def all_of(status, out: str, err: str) -> str:
    """All that comes of a run, as a text. Without a status it is left out."""
    return ("" if status is None else f"status {status}\n") + f"{out}errors:\n{err}"


def all_taken(got: Output) -> str:
    """All that comes of a run, as a text."""
    return all_of(got.status, got.out, got.err)


class Check(NamedTuple):
    """A run, or what makes several, what has to come of it, and what is taken of its output to compare with that."""
    name: str
    run: Union[Run, Callable[[], Output]]
    wanted: str
    taken: Callable[[Output], str] = all_taken


def decoded(data: bytes) -> str:
    """The bytes as a text."""
    return data.decode("utf-8", "surrogateescape")


def encoded(text: str) -> bytes:
    """The text as bytes."""
    return text.encode("utf-8", "surrogateescape")


# ---- built


def is_old(program: Path) -> bool:
    """Whether the program is not there, or is older than the code of a crate."""
    if not program.exists():
        return True
    made = program.stat().st_mtime
    return any(it.stat().st_mtime > made for it in CRATES.glob("*/src/**/*.rt"))


@cache
def build(program: str) -> Path:
    """The program of a crate, which is proved and built anew where that is needed."""
    path = CRATES / program / "out" / program
    words = {"patterns": ["--help"], "fre": ["u", "a"], "conformance": ["replay", "data/numbered.tsv"]}[program]
    if is_old(path):
        subprocess.run(["rt", "run", "--", *words], cwd=path.parent.parent, stdout=sys.stderr, check=True)
    return path


# ---- tried

# Programs that were built without proof, by their names. `fre` reads nothing, so its runs are cases of `rt try`, and it has no path.
TRIED = {}
# What makes a program read the file that is named after these words.
READING = {"patterns": ("check",), "conformance": ("replay",)}


def pipe_writer(process: subprocess.Popen, pipe: Path) -> Optional[int]:
    """The writer of a pipe that a program of the process has begun to read, unless the process ends before."""
    while process.poll() is None:
        try:
            return os.open(pipe, os.O_WRONLY | os.O_NONBLOCK)
        except OSError as error:
            if error.errno != errno.ENXIO:
                raise
        time.sleep(0.02)
    return None


def reader_of(pipe: Path) -> list:
    """The command of the process that reads from a pipe."""
    while True:
        for file in Path("/proc").glob("[0-9]*/fd/*"):
            try:
                if int(file.parts[2]) != os.getpid() and os.readlink(file) == str(pipe):
                    return os.fsdecode(Path(*file.parts[:3], "cmdline").read_bytes()).split("\0")[:-1]
            except OSError:
                pass


def caught(program: str, folder: Path) -> Path:
    """A script that runs a copy of the program that `rt try` builds. It is copied while it waits for a pipe."""
    pipe, copy, script, log = (folder / f"{program}{it}" for it in (".pipe", ".copy", "", ".log"))
    os.mkfifo(pipe)
    words = [*READING[program], str(pipe)]
    command = ["rt", "try", "--seconds", "300", "--", *words]
    with log.open("wb") as out:
        process = subprocess.Popen(command, cwd=CRATES / program, stdout=out, stderr=out)
    writer = pipe_writer(process, pipe)
    if writer is None:
        sys.exit(f"rt try does not run {program}:\n{decoded(log.read_bytes())}")
    *loader, file = reader_of(pipe)[:-len(words)]
    shutil.copyfile(file, copy)
    os.close(writer)
    process.wait()
    script.write_text(f'#!/bin/sh\nexec {shlex.join([*loader, str(copy)])} "$@"\n', encoding="utf-8")
    for it in (copy, script):
        it.chmod(0o755)
    return script


@contextmanager
def tried(*programs) -> Iterator[None]:
    """Inside it, these programs are built without proof."""
    with tempfile.TemporaryDirectory() as name, ThreadPoolExecutor() as pool:
        Path(name).chmod(0o755)
        TRIED.update(zip(programs, pool.map(lambda it: caught(it, Path(name)) if it in READING else None, programs)))
        try:
            yield
        finally:
            TRIED.clear()


def outputs_of_cases(program: str, runs: list) -> list:
    """What a program that `rt try` builds writes in runs that have only words."""
    with tempfile.TemporaryDirectory() as folder:
        for number, run in enumerate(runs):
            (Path(folder) / f"{number:04}").touch()
            (Path(folder) / f"{number:04}.args").write_bytes(encoded("".join(it + "\n" for it in run.words)))
        command = ["rt", "try", "--seconds", "300", "--cases", folder]
        got = subprocess.run(command, cwd=CRATES / program, capture_output=True, check=False)
    out, err = decoded(got.stdout), decoded(got.stderr)
    outs = re.split(r"^== \d{4}\n", out, flags=re.M)[1:]
    errs = re.split(r"^case=\d{4} .* status=(\d+) .*\n", err, flags=re.M)[:-1]
    assert len(outs) == len(runs) and len(errs) == 2 * len(runs), out + err
    return [Output(*it[:2], int(it[2])) for it in zip(outs, errs[::2], errs[1::2])]


# ---- runs


BUILDING = threading.Lock()


def path_of(program: str) -> Path:
    """The program, which is tried or built."""
    with BUILDING:
        return TRIED.get(program) or build(program)


def output_of(run: Run) -> Output:
    """What the program writes in a run."""
    with tempfile.TemporaryDirectory() as folder:
        for name, text in run.files:
            file = Path(folder) / name
            file.parent.mkdir(parents=True, exist_ok=True)
            file.write_bytes(encoded(text))
        command = [path_of(run.program), *run.words]
        got = subprocess.run(command, cwd=folder, input=encoded(run.stdin), capture_output=True, check=False)
    return Output(decoded(got.stdout), decoded(got.stderr), got.returncode)


def outputs_of(runs: list) -> list:
    """What comes of each run, or of what makes several."""
    plain = [it for it in runs if isinstance(it, Run)]
    cases = [it for it in plain if it.program in TRIED and not TRIED[it.program]]
    known = dict(zip(cases, outputs_of_cases("fre", cases))) if cases else {}
    with ThreadPoolExecutor(os.cpu_count()) as pool:
        return list(pool.map(lambda it: known.get(it) or (output_of(it) if isinstance(it, Run) else it()), runs))

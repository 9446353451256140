"""Files that are replaced, and pipes, for `.ci/runs`.

A file that is written keeps its owner, its group and its permissions up to 0777; it stays where these cannot be kept, where it has
several hard links, is a pipe, has changed since it was read, or another run writes it; and what a killed run left is removed. The same
holds for a large file, which is written while it is read. A pipe is not read as a configuration. Only root tries what needs another owner.
"""
import fcntl
import os
import signal
import stat
import subprocess
import tempfile
from concurrent.futures import ThreadPoolExecutor
from functools import partial
from pathlib import Path
from typing import Callable, Iterator

from programs import Check, Output, all_of, decoded, path_of
from tables import LONG

NEW = "file.patterns.tmp"
NOBODY = 65534
NOT_REGULAR = "it is not a regular file"
# What follows the first line of a file that is written while it is read, and what is said of it.
REST = b"\n\xFF" + b"c" * LONG + b"\n"
UNREAD = "file:2: the line is not valid UTF-8\n"
FIXING_FILE = ("lint", "--fix", "--quiet", "--allow", "all", "--warn", "duplicate-branch", "file")


def entries_of(folder: Path) -> str:
    """The entries of a folder: the bytes of each that is a regular file, up to `REST`, its permissions, its owner and its group."""
    found = []
    for it in sorted(folder.iterdir()):
        known = it.lstat()
        data = it.read_bytes().removesuffix(REST) if stat.S_ISREG(known.st_mode) else b""
        found.append(f"{it.name} {data} {known.st_mode:o} {known.st_uid}:{known.st_gid}\n")
    return "".join(found)


def entry(name: str = "file", data: bytes = b"a|a", mode: int = 0o100644, owner: int = 0, group: int = 0) -> str:
    """The same of one entry."""
    return f"{name} {data} {mode:o} {owner}:{group}\n"


def output_in_time(words: list, folder: Path, **options) -> Output:
    """What a run in the folder says, unless it takes minutes."""
    try:
        got = subprocess.run(words, cwd=folder, capture_output=True, timeout=120, check=False, **options)
    except subprocess.TimeoutExpired:
        return Output("", "the run does not end\n", 0)
    return Output("", decoded(got.stderr), got.returncode)


# ---- owners, links, and what other runs leave


def replaced(prepare: Callable, user: int, rest: bytes) -> Output:
    """What a user makes of a folder of everybody with the file `a|a`, and a rest after that, once something was done with it. What
    `prepare` returns is closed after the run."""
    with tempfile.TemporaryDirectory() as name:
        folder = Path(name) / "folder"
        folder.mkdir()
        for it in (folder.parent, folder):
            it.chmod(0o777)
        program = Path(name) / "patterns"
        # by a process of its own: a file that another thread's process still has open for writing cannot be run
        subprocess.run(["cp", path_of("patterns"), program], check=True)
        file = folder / "file"
        file.write_bytes(b"a|a" + rest)
        file.chmod(0o644)
        held = prepare(file)
        options = {"user": user, "group": user, "extra_groups": []} if user else {}
        got = output_in_time([program, *FIXING_FILE], folder, **options)
        if held:
            held.close()
        return got._replace(out=entries_of(folder))


def owned(mode: int, owner: int, group: int) -> Callable:
    """Gives a file an owner, a group and permissions."""
    def prepare(file: Path):
        os.chown(file, owner, group)
        file.chmod(mode)

    return prepare


def with_new(data: bytes, is_locked: bool) -> Callable:
    """Puts a file of the name of the new file beside a file, and locks it as a run does, if so."""
    def prepare(file: Path):
        held = open(file.with_name(NEW), "wb")
        held.write(data)
        held.flush()
        os.fchmod(held.fileno(), 0o600)
        if is_locked:
            fcntl.flock(held, fcntl.LOCK_EX)
            return held
        held.close()
        return None

    return prepare


# What is done first with the file, the user who runs the program, what the folder has then, and why it is not written.
REPLACEMENTS = [
    (owned(0o6755, 1234, 2345), 0, entry(data=b"a", mode=0o100755, owner=1234, group=2345), ""),
    (owned(0o640, 1234, 2345), 0, entry(data=b"a", mode=0o100640, owner=1234, group=2345), ""),
    (owned(0o6755, 0, 0), 0, entry(data=b"a", mode=0o100755), ""),
    (owned(0o640, NOBODY, NOBODY), NOBODY, entry(data=b"a", mode=0o100640, owner=NOBODY, group=NOBODY), ""),
    # of another user, and of another group
    (owned(0o666, 0, NOBODY), NOBODY, entry(mode=0o100666, group=NOBODY),
     "its owner and group cannot be kept; read it as standard input"),
    (owned(0o666, NOBODY, 0), NOBODY, entry(mode=0o100666, owner=NOBODY),
     "its owner and group cannot be kept; read it as standard input"),
    # other names of the file
    (lambda it: os.link(it, it.with_name("link")), 0, entry() + entry("link"),
     "it has several hard links, of which only this one would change; read it as standard input"),
    # what a killed run left, and what another run is writing
    (with_new(b"a|", False), 0, entry(data=b"a"), ""),
    (with_new(b"a|", True), 0, entry() + entry(NEW, b"a|", 0o100600), "another run is writing it"),
    # what no run left
    (lambda it: os.mkfifo(it.with_name(NEW), 0o644), 0, entry() + entry(NEW, b"", 0o010644), "entity already exists"),
    (lambda it: it.with_name(NEW).symlink_to("file"), 0, entry() + entry(NEW, b"", 0o120777), "entity already exists"),
]


def replacements() -> Iterator[Check]:
    """The rows above, which only root can run."""
    for number, (prepare, user, state, reason) in enumerate(REPLACEMENTS):
        error = f"patterns: file: cannot be written: {reason}\n" if reason else ""
        wanted = all_of(2 if reason else 0, state, error)
        yield Check(f"a replaced file {number}", partial(replaced, prepare, user, b""), wanted)
        wanted = all_of(2, state, error + UNREAD)
        yield Check(f"a large replaced file {number}", partial(replaced, prepare, user, REST), wanted)


# ---- files that change


def stopped_before_renaming(file: Path, more: tuple):
    """A run that changes a file, with more words, and whether it is stopped before it renames the new file."""
    words = [path_of("patterns"), *FIXING_FILE, *more]
    process = subprocess.Popen(words, cwd=file.parent, stdout=subprocess.DEVNULL, stderr=subprocess.PIPE)
    while process.poll() is None and not file.with_name(NEW).exists():
        pass
    if process.returncode is None:
        process.send_signal(signal.SIGSTOP)
        os.waitid(os.P_PID, process.pid, os.WSTOPPED | os.WEXITED | os.WNOWAIT)
    return process, file.with_name(NEW).exists()


def changed_while_read(text: bytes, more: tuple) -> Output:
    """What comes of a file with this text, which is read with more words, and to which a line is added before the new file is renamed."""
    with tempfile.TemporaryDirectory() as name:
        file = Path(name) / "file"
        for _ in range(100):
            file.write_bytes(text)
            process, is_caught = stopped_before_renaming(file, more)
            if is_caught:
                file.write_bytes(text + b"\n")
            process.send_signal(signal.SIGCONT)
            _, err = process.communicate(timeout=120)
            if is_caught:
                kept = file.read_bytes() == text + b"\n"
                return Output(f"{kept} {os.listdir(name)}\n", decoded(err), process.returncode)
    return Output("the new file was never seen\n", "", 0)


# ---- pipes


def fixed_pipe() -> Output:
    """What is said of a pipe that is to be written."""
    with tempfile.TemporaryDirectory() as name:
        file = Path(name) / "file"
        os.mkfifo(file)
        with ThreadPoolExecutor() as pool:
            writing = pool.submit(lambda: file.write_bytes(b"a|a"))
            got = output_in_time([path_of("patterns"), *FIXING_FILE], Path(name))
            writing.result()
        return got


# Words, the pipe that is made in a folder with the files `a` and `in/a`, and what is said of it.
PIPES = [
    ("check a", "patterns.toml", "patterns.toml"),
    ("check in/a", "patterns.toml", "patterns.toml"),
    ("check in/a", "in/patterns.toml", "in/patterns.toml"),
    ("check --config in/pipe a", "in/pipe", "in/pipe"),
]


def pipe_as_configuration(words: str, pipe: str) -> Output:
    """What is said in a folder where a configuration is a pipe that nobody writes to."""
    with tempfile.TemporaryDirectory() as name:
        folder = Path(name)
        (folder / "in").mkdir()
        for it in ("a", "in/a"):
            (folder / it).write_bytes(b"a\n")
        os.mkfifo(folder / pipe)
        return output_in_time([path_of("patterns"), *words.split(), "--quiet"], folder)


def pipes() -> Iterator[Check]:
    """What is said of pipes, and of a file that changes while it is read."""
    for words, pipe, name in PIPES:
        wanted = all_of(2, "", f"patterns: {name}: {NOT_REGULAR}\n")
        yield Check(f"{words}, pipe {pipe}", partial(pipe_as_configuration, words, pipe), wanted)
    said = "patterns: file: cannot be written: "
    yield Check("a pipe that is fixed", fixed_pipe, all_of(2, "", f"{said}{NOT_REGULAR}\n"))
    wanted = all_of(2, "True ['file']\n", f"{said}it has changed since it was read\n")
    grammar = b'{"match": "a|a", "other": "' + b"b" * LONG + b'"}\n'
    yield Check("a file that changes while it is read", partial(changed_while_read, grammar, ("--keys", "match")), wanted)
    wanted = all_of(2, "True ['file']\n", f"{said}it has changed since it was read\n{UNREAD}")
    yield Check("a large file that changes while it is read", partial(changed_while_read, b"a|a" + REST, ()), wanted)


def parts() -> dict:
    """The checks of files that are replaced, and of pipes."""
    found = {"pipes": list(pipes())}
    return {**found, "replacements": list(replacements())} if os.geteuid() == 0 else found

"""What the packages are made of: what the gate and `make -C c` built, the version, and the text that says what was proved."""
import hashlib
import os
import re
import subprocess
import tempfile
from functools import cache
from pathlib import Path
from typing import Iterator

from .files import File

TOP = Path(__file__).resolve().parents[2]
# glibc of Ubuntu 22.04, the oldest system that has to run the packages; Debian 12 has 2.36.
OLDEST_GLIBC = (2, 35)


class Refused(Exception):
    """Why there are no packages."""


def text_of(path: str) -> str:
    return (TOP / path).read_text(encoding="utf-8")


def output_of(*words, cwd: Path = TOP) -> str:
    """What a command writes. It does not see the variables that choose another library or another target for Rust."""
    environment = {key: it for key, it in os.environ.items() if key not in ("CARGO_BUILD_TARGET", "FANCY_LIB_DIR")}
    try:
        return subprocess.run(words, cwd=cwd, env=environment, stdout=subprocess.PIPE, check=True, text=True).stdout
    except FileNotFoundError:
        raise Refused(f"there is no command {words[0]}") from None
    except subprocess.CalledProcessError as error:
        raise Refused(f"`{' '.join(map(str, words))}` ended with status {error.returncode}") from None


def tracked(folder: str) -> dict:
    """The tree of the files of a folder that git has."""
    paths = output_of("git", "ls-files", "-z", cwd=TOP / folder).split("\0")
    return {path: File((TOP / folder / path).read_bytes()) for path in paths if path and (TOP / folder / path).is_file()}


# ---- versions


@cache
def version() -> str:
    """The version of the repository, which `tools/bindings` takes from the same line."""
    return re.search(r'^version = "(.*)"$', text_of("include/fancy.toml"), re.M)[1]


def major() -> str:
    """The number in the soname of the shared library."""
    return version().split(".")[0]


@cache
def commit() -> str:
    """The commit of the sources, or that which they were changed after. A tag of it that is a version has to be this one."""
    found = output_of("git", "rev-parse", "HEAD").strip()
    tags = [it for it in output_of("git", "tag", "--points-at", found).split() if re.match(r"v\d", it)]
    if tags and f"v{version()}" not in tags:
        raise Refused(f"the tag {tags[0]} is of another version than {version()}, which include/fancy.toml has")
    return f"{found}, with changes that are in no commit" if output_of("git", "--no-optional-locks", "status", "--porcelain") else found


@cache
def time() -> int:
    """The time of all files, in seconds: SOURCE_DATE_EPOCH, or else that of the commit."""
    return int(os.environ.get("SOURCE_DATE_EPOCH") or output_of("git", "log", "-1", "--format=%ct"))


@cache
def toolchain() -> str:
    """What `rt version` prints, which has to be what README.md names."""
    named = re.search(r"`(logic [0-9a-f]+)`", text_of("README.md"))[1]
    found = output_of("rt", "version").strip()
    if not found.endswith(named):
        raise Refused(f"the toolchain is {found}, and README.md names {named}")
    return found


# ---- what was built


@cache
def libraries() -> dict:
    """The libraries that each crate uses, from crates.txt."""
    rows = [it.partition(":") for it in text_of("crates.txt").splitlines() if not it.startswith("#")]
    return {head.split()[0]: rest.split() for head, _, rest in rows}


def with_below(crate: str) -> set:
    """The crate, and the crates of this repository that it depends on."""
    return {crate}.union(*(with_below(it) for it in libraries()[crate] if it in libraries()))


def sources(crate: str) -> Iterator[Path]:
    """The files that a proof of the crate reads."""
    for it in with_below(crate):
        for part in ("src", "specs", "proofs"):
            yield from (path for path in (TOP / "crates" / it / part).rglob("*") if path.is_file())


def checked(path: str, made_of, command: str) -> Path:
    """A file that was built. It has to be there, and to be as new as what it was made of."""
    file = TOP / path
    if not file.is_file():
        raise Refused(f"{path} is not there: run `{command}`")
    newest = max(made_of, key=lambda it: it.stat().st_mtime_ns)
    if newest.stat().st_mtime_ns > file.stat().st_mtime_ns:
        raise Refused(f"{path} is older than {newest.relative_to(TOP)}: run `{command}`")
    return file


def program(crate: str) -> Path:
    """The program that `rt ci` left of a crate. That of `rt run`, which rests on earlier checks, has a file `.stamp` beside it."""
    file = checked(f"crates/{crate}/out/{crate}", sources(crate), "rt ci")
    if Path(f"{file}.stamp").exists():
        raise Refused(f"{file.relative_to(TOP)} is of `rt run`: run `rt ci`")
    return file


@cache
def built() -> dict:
    """The programs and the library, by their names. None was built without its proof: `rt ci` leaves no such program, and `make -C c` no such
    archive."""
    programs = {it: program(it) for it in ("patterns", "fre")}
    proved = checked("crates/fancy_c/out/libfancy_c.a", sources("fancy_c"), "make -C c")
    archive = checked("c/out/libfancy.a", [proved, TOP / "c/fancy.c", TOP / "include/fancy.h"], "make -C c")
    shared = checked(f"c/out/libfancy.so.{version()}", [archive, TOP / "c/fancy.map"], "make -C c")
    return {**programs, "libfancy.a": archive, f"libfancy.so.{major()}": shared}


@cache
def glibc(name: str) -> tuple:
    """The version of glibc that a program or the shared library needs, by the versions of the symbols that it refers to."""
    needs = output_of("objdump", "-p", built()[name])
    others = set(re.findall(r"NEEDED +(\S+)", needs)) - {"libc.so.6", "libm.so.6", "ld-linux-x86-64.so.2"}
    if others:
        raise Refused(f"{name} needs {min(others)}, which is not of the C library")
    found = max(tuple(map(int, it.split(".")[:2])) for it in re.findall(r" GLIBC_([0-9.]+)$", needs, re.M))
    if "GLIBC_ABI_DT_RELR" in needs:
        found = max(found, (2, 36))
    if found > OLDEST_GLIBC:
        raise Refused(f"{name} needs glibc {dotted(found)} or more, and Ubuntu 22.04 has {dotted(OLDEST_GLIBC)}")
    return found


def dotted(numbers: tuple) -> str:
    return ".".join(map(str, numbers))


# ---- what the packages have of it


@cache
def packed(name: str) -> bytes:
    """A program or the library as the packages have it: a program and the shared library without what only a debugger reads."""
    if name.endswith(".a"):
        return built()[name].read_bytes()
    with tempfile.TemporaryDirectory() as folder:
        output_of("strip", "--strip-unneeded", "--remove-section=.comment", "-o", f"{folder}/{name}", built()[name])
        return Path(folder, name).read_bytes()


@cache
def proved() -> str:
    """The file PROVED, which each package has."""
    needed = dotted(max(glibc(it) for it in built() if not it.endswith(".a")))
    sums = "".join(f"{hashlib.sha256(packed(it)).hexdigest()}  {it}\n" for it in sorted(built()))
    return f"""Nevkral {version()}, for Linux on x86-64-v2 with glibc {needed} or later.

commit     {commit()}
toolchain  {toolchain()}

The code of these files was proved before it was built, except for c/fancy.c in the library (SHA-256):

{sums}
To check that, run `rt ci` at the top of a clone of the repository at this commit, with this toolchain: `rt version` prints its line. It proves
all of the code, and its last line ends with `0 failed`. docs/proved.md says what is proved, what is only tested, and what is trusted.
"""

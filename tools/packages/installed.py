"""What `make install` and `make -C c install` put below a prefix, the Python module as it is installed, and the pages."""
import os
import tempfile
from pathlib import Path

from .built import TOP, built, output_of, packed, proved, tracked
from .files import File, below, read, text


def made(folder: str, *variables) -> dict:
    """The tree that `make install` makes in a folder of the repository, with an empty prefix unless the variables have one."""
    # make builds none of these anew, whatever is newer
    old = [*(os.path.relpath(it, TOP / folder) for it in built().values()), "out/libfancy.so"]
    with tempfile.TemporaryDirectory() as stage:
        options = [f"--old-file={it}" for it in old]
        output_of("make", "-s", *options, "install", f"DESTDIR={stage}", *(variables or ["PREFIX="]), cwd=TOP / folder)
        tree = read(Path(stage))
    names = {file.read_bytes(): name for name, file in built().items()}
    return {path: it._replace(data=packed(names[it.data])) if it.data in names else it for path, it in tree.items()}


def programs() -> dict:
    """The programs, their man pages and their completions."""
    return made(".")


def library(*variables) -> dict:
    """The library with its header and fancy.pc."""
    return made("c", *variables)


def file_of(path: str) -> File:
    return File((TOP / path).read_bytes())


def module() -> dict:
    """The Python module. A package has a place for `py.typed`, which a file has not, and is imported as the file is."""
    return {
        "fancy/__init__.py": file_of("python/fancy.py"),
        "fancy/__main__.py": file_of("python/__main__.py"),
        "fancy/py.typed": File(),
        "fancy_extract/__init__.py": file_of("python/fancy_extract.py"),
        "fancy_extract/py.typed": File(),
    }


def licence() -> File:
    return file_of("LICENSE")


def examples() -> dict:
    return tracked("examples")


def pages() -> dict:
    """The pages with their pictures, the examples, the licence, and what was proved."""
    first = {it: file_of(it) for it in ("README.md", "CHANGELOG.md", "CONTRIBUTING.md")}
    others = {**below("docs", tracked("docs")), **below("examples", examples())}
    return {**first, **others, "LICENSE": licence(), "PROVED": text(proved())}

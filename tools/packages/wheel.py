"""The wheel: the Python module with the library beside it, for each Python 3.8 or later whose C library is new enough."""
import base64
import hashlib

from .built import dotted, glibc, major, packed, proved, time, version
from .files import File, below, text, zipped
from .installed import licence, module

SUMMARY = "Parses patterns in the syntax of fancy-regex into trees, by a library that is proved"
DESCRIPTION = """The module `fancy` parses, checks and formats regular expressions in the syntax of the Rust crate fancy-regex; it does not match
them. `python -m fancy tree PATTERN` writes the tree of a pattern. The library in it is for Linux on x86-64-v2.
"""


def tag() -> str:
    """What the wheel runs on. manylinux has no name for less than glibc 2.17 that each pip knows."""
    needed = max(glibc(f"libfancy.so.{major()}"), (2, 17))
    return f"py3-none-manylinux_{dotted(needed).replace('.', '_')}_x86_64"


def information() -> dict:
    """The files of the folder `.dist-info`, without RECORD."""
    return {
        "METADATA": text(
            f"Metadata-Version: 2.1\nName: nevkral-fancy\nVersion: {version()}\nSummary: {SUMMARY}\nLicense: MIT\n"
            "Classifier: Operating System :: POSIX :: Linux\nClassifier: Typing :: Typed\nRequires-Python: >=3.8\n"
            'Provides-Extra: yaml\nRequires-Dist: PyYAML; extra == "yaml"\nDescription-Content-Type: text/markdown\n'
            f"\n{DESCRIPTION}"
        ),
        "PROVED": text(proved()),
        "WHEEL": text(f"Wheel-Version: 1.0\nGenerator: nevkral ({version()})\nRoot-Is-Purelib: false\nTag: {tag()}\n"),
        "licenses/LICENSE": licence(),
    }


def row(path: str, file: File) -> str:
    """The line of RECORD for a file."""
    digest = base64.urlsafe_b64encode(hashlib.sha256(file.data).digest()).rstrip(b"=").decode()
    return f"{path},sha256={digest},{len(file.data)}\n"


def wheels() -> dict:
    """The wheel by its name."""
    name, library = f"nevkral_fancy-{version()}", f"libfancy.so.{major()}"
    own = {**module(), f"fancy/{library}": File(packed(library), 0o755)}
    tree = {**dict(sorted(own.items())), **below(f"{name}.dist-info", information())}
    record = f"{name}.dist-info/RECORD"
    tree[record] = text("".join(row(*it) for it in tree.items()) + f"{record},,\n")
    return {f"{name}-{tag()}.whl": zipped(tree, time())}

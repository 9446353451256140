"""The packages for Debian and Ubuntu. That of the library has the number of the soname in its name, so that programs for another major version
keep theirs."""
import hashlib
import re
from email.utils import formatdate

from .built import built, dotted, glibc, major, output_of, proved, text_of, time, version
from .files import File, ar, below, gzipped, tar_of_root, text, xz
from .installed import examples, library, module, programs

MAINTAINER = "Nevkral maintainers <maintainers@users.noreply.nevkral.example>"
LIBRARIES = "usr/lib/x86_64-linux-gnu"
NUMBER = f"{version()}-1"
SHARED = f"libfancy{major()}"

# What each package is, its first line being the short description.
DESCRIPTIONS = {
    "patterns": """checks, lints, formats and draws regular expressions
 The program patterns reads regular expressions in the syntax of the Rust
 crate fancy-regex: from files, from sources in Python and Rust, and from the
 grammars of TextMate and VS Code. Its parser and its printer are proved.
 The program fre writes the tree of one expression for other programs.
 Both need a processor with x86-64-v2.""",
    SHARED: """parser of regular expressions (shared library)
 libfancy parses, checks, prints and formats regular expressions in the
 syntax of the Rust crate fancy-regex. Its functions are proved.
 This package has the shared library, for processors with x86-64-v2.""",
    "libfancy-dev": """parser of regular expressions (development files)
 libfancy parses, checks, prints and formats regular expressions in the
 syntax of the Rust crate fancy-regex. Its functions are proved.
 This package has the header, the static library and fancy.pc.""",
    "python3-fancy": """parser of regular expressions (Python module)
 The module fancy parses, checks, prints and formats regular expressions in
 the syntax of the Rust crate fancy-regex, by the library libfancy, whose
 functions are proved.""",
}

COMPILED = """#!/bin/sh
set -e
if [ "$1" = configure ] && command -v py3compile >/dev/null; then
    py3compile -p python3-fancy
fi
"""
CLEANED = """#!/bin/sh
set -e
if command -v py3clean >/dev/null; then
    py3clean -p python3-fancy
fi
"""


def needed(*names) -> str:
    """The C library that a program or the shared library needs."""
    return f"libc6 (>= {dotted(max(map(glibc, names)))})"


def documents(package: str) -> dict:
    """What each package has in its folder of /usr/share/doc."""
    holder, terms = re.search(r"Copyright \(c\) (.*)\n\n((?s:.*))", text_of("LICENSE")).groups()
    licence = "".join(f" {it or '.'}\n" for it in terms.splitlines())
    changes = f"nevkral ({NUMBER}) unstable; urgency=medium\n\n  * Version {version()}, see changelog.gz.\n\n"
    tree = {
        "copyright": text(
            "Format: https://www.debian.org/doc/packaging-manuals/copyright-format/1.0/\nUpstream-Name: Nevkral\n\n"
            f"Files: *\nCopyright: {holder}\nLicense: Expat\n{licence}"
        ),
        "changelog.gz": File(gzipped(text_of("CHANGELOG.md").encode())),
        "changelog.Debian.gz": File(gzipped(f"{changes} -- {MAINTAINER}  {formatdate(time())}\n".encode())),
        "PROVED": text(proved()),
    }
    return below(f"usr/share/doc/{package}", tree)


def package(name: str, fields: dict, tree: dict, **further: File) -> dict:
    """A package by its name: its fields beside those that all have, its files, and further files of its control archive."""
    tree = {**tree, **documents(name)}
    every = {
        "Package": name, "Source": "nevkral", "Version": NUMBER, "Architecture": "amd64", "Maintainer": MAINTAINER,
        "Installed-Size": str(sum(-(-len(it.data) // 1024) for it in tree.values()) + 1), "Section": "utils", "Priority": "optional",
        **fields, "Description": DESCRIPTIONS[name],
    }  # fmt: skip
    sums = "".join(f"{hashlib.md5(it.data).hexdigest()}  {path}\n" for path, it in sorted(tree.items()) if not it.link)
    control = {"control": text("".join(f"{key}: {it}\n" for key, it in every.items())), "md5sums": text(sums), **further}
    members = {"debian-binary": b"2.0\n", "control.tar.xz": xz(tar_of_root(control, time())), "data.tar.xz": xz(tar_of_root(tree, time()))}
    return {f"{name}_{NUMBER}_{every['Architecture']}.deb": ar(members, time())}


# ---- the packages


def of_programs() -> dict:
    tree = below("usr", programs())
    for path in [it for it in tree if "/man/" in it]:
        tree[f"{path}.gz"] = File(gzipped(tree.pop(path).data))
    tree["usr/share/zsh/vendor-completions/_patterns"] = tree.pop("usr/share/zsh/site-functions/_patterns")
    return package("patterns", {"Depends": needed("patterns", "fre"), "Suggests": "python3-fancy"}, tree)


def symbols() -> str:
    """The file `symbols`: each symbol of the library, and the version that it is of by c/fancy.map."""
    name = f"libfancy.so.{major()}"
    listed = output_of("nm", "-D", "--defined-only", "--with-symbol-versions", built()[name])
    found = sorted(re.findall(r" T (\S+)@@FANCY_([0-9.]+)$", listed, re.M))
    rows = "".join(f" {symbol}@FANCY_{since} {since}\n" for symbol, since in found)
    nodes = "".join(f" FANCY_{since}@FANCY_{since} {since}\n" for since in sorted({it for _, it in found}))
    return f"{name} {SHARED} #MINVER#\n* Build-Depends-Package: libfancy-dev\n{nodes}{rows}"


def of_library() -> dict:
    """The package of the shared library, and that of what a compiler needs."""
    files = library("PREFIX=/usr", f"LIBDIR=/{LIBRARIES}")
    # a library is not executable in Debian
    shared = {path: it._replace(mode=0o644) for path, it in files.items() if ".so." in path}
    others = {path: it for path, it in files.items() if path not in shared}
    fields = {"Section": "libs", "Multi-Arch": "same", "Depends": needed(f"libfancy.so.{major()}")}
    control = {
        "shlibs": text(f"libfancy {major()} {SHARED} (>= {version()})\n"),
        "symbols": text(symbols()),
        "triggers": text("activate-noawait ldconfig\n"),
    }
    others_fields = {"Section": "libdevel", "Multi-Arch": "same", "Depends": f"{SHARED} (= {NUMBER}), libc6-dev"}
    others |= below("usr/share/doc/libfancy-dev/examples", examples())
    return {**package(SHARED, fields, shared, **control), **package("libfancy-dev", others_fields, others)}


def of_module() -> dict:
    needs = f"python3 (>= 3.8), {SHARED} (>= {version()})"
    fields = {"Section": "python", "Architecture": "all", "Depends": needs, "Suggests": "python3-yaml"}
    scripts = {"postinst": File(COMPILED.encode(), 0o755), "prerm": File(CLEANED.encode(), 0o755)}
    return package("python3-fancy", fields, below("usr/lib/python3/dist-packages", module()), **scripts)


def packages() -> dict:
    """The packages by their names."""
    return {**of_programs(), **of_library(), **of_module()}

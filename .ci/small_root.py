"""A small system for `.ci/installs`: `small_root.py FOLDER PACKAGE..` copies the files of these Debian packages, which have to be installed here, of
the essential ones, and of those that they need, into the folder. dpkg has these packages there, and no others."""
import os
import re
import shutil
import subprocess
import sys
from pathlib import Path

DATABASE = "var/lib/dpkg"
FOLDERS = ("dev", "proc", "root", "run", "tmp", "home/user", "var/log", f"{DATABASE}/info", f"{DATABASE}/triggers", f"{DATABASE}/updates")
NAME = re.compile(r"\s*([a-z0-9][a-z0-9+.-]*)")


def stanzas() -> dict:
    """What dpkg says of each package that is installed, by its name."""
    texts = Path("/", DATABASE, "status").read_text(encoding="utf-8").split("\n\n")
    return {it.split("\n", 1)[0].removeprefix("Package: "): it for it in texts if "\nStatus: install ok installed\n" in it}


def field(stanza: str, name: str) -> list:
    """The parts of a field, which commas separate."""
    found = re.search(rf"^{name}: (.*)$", stanza, re.M)
    return found[1].split(",") if found else []


def closure(wanted: list, known: dict) -> set:
    """The packages with all that they need. Of alternatives it is the first that is installed."""
    provided = {NAME.match(it)[1]: name for name, stanza in known.items() for it in field(stanza, "Provides")}
    found, ahead = set(), list(wanted)
    while ahead:
        name = ahead.pop()
        if name not in found:
            found.add(name)
            needs = [it.split("|") for key in ("Pre-Depends", "Depends") for it in field(known[name], key)]
            names = [[NAME.match(it)[1] for it in need] for need in needs]
            ahead += [next(it if it in known else provided[it] for it in need if it in known or it in provided) for need in names]
    return found


def main() -> None:
    root, known = Path(sys.argv[1]), stanzas()
    missing = [it for it in sys.argv[2:] if it not in known]
    if missing:
        sys.exit(f"not installed: {' '.join(missing)}")
    essential = [name for name, stanza in known.items() if "\nEssential: yes\n" in stanza]
    packages = sorted(closure(sys.argv[2:] + essential, known))
    for it in FOLDERS:
        (root / it).mkdir(parents=True)
    (root / "tmp").chmod(0o1777)
    for it in ("bin", "lib", "lib64", "sbin"):
        if os.path.islink(f"/{it}"):
            (root / os.readlink(f"/{it}")).mkdir(parents=True, exist_ok=True)
            (root / it).symlink_to(os.readlink(f"/{it}"))
    listed = subprocess.run(["dpkg", "-L", *packages], capture_output=True, text=True, check=True).stdout
    files = {it for it in listed.split("\n") if it.startswith("/") and (os.path.islink(it) or os.access(it, os.R_OK))}
    # such as cc and awk
    files |= {str(it) for it in Path("/usr/bin").iterdir() if it.is_symlink() and os.readlink(it).startswith("/etc/alternatives/")}
    files |= {"/etc/alternatives", *(str(it) for it in Path("/etc/alternatives").iterdir())}
    files -= {it for it in files if it.startswith("/usr/share/doc/")}
    names = "\0".join(it[1:] for it in sorted(files) if it != "/.").encode()
    packed = subprocess.run(["tar", "-C", "/", "--no-recursion", "--null", "-cT", "-"], input=names, stdout=subprocess.PIPE, check=True).stdout
    subprocess.run(["tar", "-C", root, "--no-same-owner", "-x"], input=packed, check=True)
    (root / DATABASE / "status").write_text("".join(f"{known[it]}\n\n" for it in packages), encoding="utf-8")
    for file in Path("/", DATABASE, "info").iterdir():
        if file.name == "format" or file.stem.split(":")[0] in packages:
            shutil.copy(file, root / DATABASE / "info")
    shutil.copy(Path("/", DATABASE, "triggers/ldconfig"), root / DATABASE / "triggers")
    (root / "etc/passwd").write_text("root:x:0:0::/root:/bin/bash\nuser:x:65534:65534::/home/user:/bin/bash\n", encoding="utf-8")
    (root / "etc/group").write_text("root:x:0:\nuser:x:65534:\n", encoding="utf-8")


main()

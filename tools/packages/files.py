"""Trees of files in memory, and the archives that are made of them: the same bytes for the same tree and the same time."""
import gzip
import io
import lzma
import os
import tarfile
import zipfile
from datetime import datetime, timezone
from pathlib import Path
from typing import NamedTuple


class File(NamedTuple):
    """A file of a tree: its contents and its mode, or where it links to. A tree has it by its path."""
    data: bytes = b""
    mode: int = 0o644
    link: str = ""


def text(value: str) -> File:
    return File(value.encode())


def read(folder: Path) -> dict:
    """The tree of the files below a folder."""
    tree = {}
    for path in folder.rglob("*"):
        name = str(path.relative_to(folder))
        if path.is_symlink():
            tree[name] = File(link=os.readlink(path))
        elif path.is_file():
            tree[name] = File(path.read_bytes(), 0o755 if os.access(path, os.X_OK) else 0o644)
    return tree


def below(folder: str, tree: dict) -> dict:
    """The tree inside a folder."""
    return {f"{folder}/{path}": it for path, it in tree.items()}


def tar(tree: dict, time: int) -> bytes:
    """A tar archive with each folder before what is in it, all of it root's."""
    out = io.BytesIO()
    folders = {path[:at] for path in tree for at, it in enumerate(path) if it == "/"}
    with tarfile.open(fileobj=out, mode="w", format=tarfile.GNU_FORMAT) as archive:
        for path in sorted([*folders, *tree], key=lambda it: it.split("/")):
            info = tarfile.TarInfo(path)
            info.mtime, info.uname, info.gname = time, "root", "root"
            if path in folders:
                info.type, info.mode = tarfile.DIRTYPE, 0o755
                archive.addfile(info)
            elif tree[path].link:
                info.type, info.mode, info.linkname = tarfile.SYMTYPE, 0o777, tree[path].link
                archive.addfile(info)
            else:
                info.size, info.mode = len(tree[path].data), tree[path].mode
                archive.addfile(info, io.BytesIO(tree[path].data))
    return out.getvalue()


def tar_of_root(tree: dict, time: int) -> bytes:
    """The same with `.`, the folder that all is in, before each path, as Debian has them."""
    return tar({"./" + path: it for path, it in tree.items()}, time)


def gzipped(data: bytes) -> bytes:
    return gzip.compress(data, 9, mtime=0)


def xz(data: bytes) -> bytes:
    return lzma.compress(data, preset=6)


def zipped(tree: dict, time: int) -> bytes:
    """A zip archive in the order of the tree."""
    out = io.BytesIO()
    with zipfile.ZipFile(out, "w", zipfile.ZIP_DEFLATED) as archive:
        for path, file in tree.items():
            info = zipfile.ZipInfo(path, datetime.fromtimestamp(time, timezone.utc).timetuple()[:6])
            info.create_system, info.external_attr, info.compress_type = 3, (0o100000 | file.mode) << 16, zipfile.ZIP_DEFLATED
            archive.writestr(info, file.data)
    return out.getvalue()


def ar(members: dict, time: int) -> bytes:
    """An archive of ar, as a Debian package is one."""
    parts = [b"!<arch>\n"]
    for name, data in members.items():
        parts.append(f"{name:<16}{time:<12}0     0     100644  {len(data):<10}`\n".encode())
        parts.append(data + b"\n" * (len(data) % 2))
    return b"".join(parts)

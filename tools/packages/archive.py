"""The archive: a prefix, so that it runs where it is unpacked, and may be unpacked into another prefix."""
from .built import major, time, version
from .files import File, below, gzipped, tar
from .installed import library, module, pages, programs


def relocatable(pc: File) -> File:
    """fancy.pc, whose prefix is empty, with one that is found from where the file is."""
    found = pc.data.decode().replace("prefix=\n", "prefix=${pcfiledir}/../..\n")
    return pc._replace(data=found.replace("dir=/", "dir=${prefix}/").encode())


def tree() -> dict:
    name = f"libfancy.so.{major()}"
    found = {**programs(), **library(), **below("share/nevkral/python", module()), **below("share/doc/nevkral", pages())}
    found["lib/pkgconfig/fancy.pc"] = relocatable(found["lib/pkgconfig/fancy.pc"])
    found[f"share/nevkral/python/fancy/{name}"] = File(link=f"../../../../lib/{name}")
    return found


def archives() -> dict:
    """The archive by its name."""
    name = f"nevkral-{version()}-linux-x86_64"
    return {f"{name}.tar.gz": gzipped(tar(below(name, tree()), time()))}

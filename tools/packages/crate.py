"""The crate for Rust with the library in it, as cargo packs it."""
import tempfile
from pathlib import Path

from .built import output_of, packed, proved, tracked, version
from .files import File, text
from .installed import licence


def crates() -> dict:
    """The package by its name. cargo builds it with the library in it, and gives each file in it the same time."""
    name = f"fancy-syntax-{version()}.crate"
    own = {"LICENSE": licence(), "vendored/libfancy.a": File(packed("libfancy.a")), "vendored/PROVED": text(proved())}
    with tempfile.TemporaryDirectory() as top:
        for path, file in {**tracked("rust"), **own}.items():
            Path(top, "rust", path).parent.mkdir(parents=True, exist_ok=True)
            Path(top, "rust", path).write_bytes(file.data)
        words = ("cargo", "package", "--quiet", "--offline", "--locked", "--features", "vendored", "--target-dir", f"{top}/target")
        output_of(*words, cwd=Path(top, "rust"))
        return {name: Path(top, "target/package", name).read_bytes()}

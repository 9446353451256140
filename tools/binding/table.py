"""The table `include/fancy.toml`: groups of numbers, structs, calls and the version; and how its sentences are written in a language."""
import re
import textwrap
import tomllib
from dataclasses import dataclass
from pathlib import Path

TOP = Path(__file__).resolve().parents[2]


def camel(name: str) -> str:
    return "".join(word.capitalize() for word in name.split("_"))


@dataclass
class Value:
    """A number of a group. The name is that of the header, without `FANCY_` and the name of the group."""
    name: str
    number: int
    group: "Group"
    given: dict

    @property
    def full_name(self) -> str:
        return f"{self.group.key.upper()}_{self.name}"

    @property
    def doc(self) -> str:
        return self.given.get("doc", "")

    @property
    def original(self) -> str:
        """The name in fancy-regex."""
        return self.given.get("original") or self.group.given.get("prefix", "") + camel(self.name)

    @property
    def fields(self) -> list:
        return self.given.get("fields", [])

    @property
    def is_shared(self) -> bool:
        """Whether Python and Rust have a name for it too."""
        return not self.given.get("only_c", False)

    @property
    def carries(self) -> bool:
        """Whether its message ends with a text that depends on the pattern."""
        return "carries" in self.given


class Group:
    def __init__(self, key: str, given: dict):
        self.key, self.given = key, given
        self.values = [Value(name, it["number"], self, it) for name, it in given.items() if name.isupper()]

    def kinds(self) -> list:
        """The values without the one that says that there is none."""
        return [it for it in self.values if it.name != "NONE"]

    def shared(self) -> list:
        """The values that Python and Rust have a name for too."""
        return [it for it in self.values if it.is_shared]


@dataclass
class Field:
    name: str
    type: str  # as in C
    doc: str = ""
    python: str | None = None


class Struct:
    def __init__(self, key: str, given: dict):
        self.key, self.given = key, given
        self.fields = [Field(name, **it) for name, it in given.items() if isinstance(it, dict)]
        self.rust = given.get("rust", camel(key))
        self.rattle = given.get("rattle", self.rust)


class Table:
    def __init__(self, text: str):
        given = tomllib.loads(text)
        self.version = given.pop("version")
        self.structs = [Struct(key, it) for key, it in given.pop("struct").items()]
        self.calls = given.pop("calls")
        self.groups = [Group(key, it) for key, it in given.items()]

    def group(self, key: str) -> Group:
        return next(it for it in self.groups if it.key == key)

    def struct(self, key: str) -> Struct:
        return next(it for it in self.structs if it.key == key)

    @property
    def letters(self) -> str:
        """Those of the flags, in the order of their bits."""
        return "".join(it.given["letter"] for it in self.group("flag").shared())

    @property
    def flags_end(self) -> str:
        """The number after that of all flags together."""
        return str(sum(it.number for it in self.group("flag").shared()) + 1)

    def version_numbers(self) -> dict:
        return dict(zip(("MAJOR", "MINOR", "PATCH"), self.version.split(".")))


def sentence(doc: str) -> str:
    """What is said as a sentence; code alone needs no full stop."""
    has_words = re.search("[A-Za-z]", re.sub("`.*?`", "", doc))
    return doc[:1].upper() + doc[1:] + ("." if has_words and not doc.endswith(".") else "")


def filled(text: str, width: int, first: str, rest: str) -> list:
    """The lines of a text, of which the first and each other one have something before them."""
    return textwrap.wrap(text, width, initial_indent=first, subsequent_indent=rest, break_long_words=False, break_on_hyphens=False)

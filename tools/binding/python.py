"""What follows from the table for the Python module."""
import re

from .table import Group, Struct, Table, Value, camel, filled, sentence

WIDTH = 120
TYPES = {"uint32_t": "c_uint32", "size_t": "c_size_t", "ptrdiff_t": "c_ssize_t", "bool": "c_bool"}


def docstring(text: str) -> list:
    """The documentation of a class."""
    text = re.sub("FANCY_[A-Z]+?_", "", text).replace("\\", "\\\\")
    return filled(f'"""{text}"""', WIDTH, "    ", "    ")


def said(doc: str) -> str:
    """What is said of an attribute, after it."""
    return f"  #: {re.sub('FANCY_[A-Z]+?_', '', doc)}" if doc else ""


def member(value: Value) -> str:
    own = value.given.get("python", {})
    return f"    {own.get('name', value.name)} = {value.number}{said(own.get('doc', value.doc))}"


def enum(group: Group) -> list:
    own = group.given["python"]
    members = [member(it) for it in group.shared()]
    return [f"class {own['name']}({own.get('base', 'enum.IntEnum')}):", *docstring(own["doc"]), "", *members, "", ""]


def public(names: list) -> list:
    return ["__all__ += [", *filled(", ".join(f'"{it}"' for it in names) + ",", WIDTH, "    ", "    "), "]"]


def numbers(table: Table) -> list:
    """The flags and the kinds."""
    flags, *others = groups = [it for it in table.groups if "python" in it.given]
    names = [it.name for it in flags.shared()]
    aliases = [f"{it} = {flags.given['python']['name']}.{it}" for it in names]
    letters = [f'_LETTERS = "{table.letters}"  # of the flags, in the order of their bits']
    classes = [it.given["python"]["name"] for it in groups]
    return [
        *public(names + classes), "", "", *enum(flags), *aliases, "", *letters, "", "",
        *(line for it in others for line in enum(it)),
    ][:-2]  # fmt: skip


def attributes(value: Value, table: Table) -> list:
    """Those of a class of nodes."""
    if isinstance(value.given.get("python"), list):
        return value.given["python"]
    lines = []
    for it in (it for it in table.struct("node").fields if it.name in value.fields):
        if it.name == "which":
            lines.append(f"which: {table.group(value.given['which']).given['python']['name']}")
        elif it.python != "":
            lines.append(it.python or f"{it.name}: {'bool' if it.type == 'bool' else 'int'}{said(it.doc)}")
    return lines


def node(value: Value, table: Table) -> list:
    own = attributes(value, table)
    names = [it.partition(":")[0] for it in own] + ["children", "span", "byte_span"]
    lines = ["", *(f"    {it}" for it in own)] if own else []
    return [
        "@dataclass(frozen=True)", f"class {camel(value.name)}(Node):", *docstring(sentence(value.doc)), *lines, "",
        f"    number: ClassVar[int] = {value.number}",
        f"    __match_args__ = ({', '.join(map(repr, names))})".replace("'", '"'), "", "",
    ]  # fmt: skip


def nodes(table: Table) -> list:
    """The classes of nodes."""
    values = table.group("node").values
    classes = [line for it in values for line in node(it, table)]
    return [*public([camel(it.name) for it in values]), "", "", *classes][:-2]


def structure(it: Struct) -> list:
    types = [f"    {field.name}: {'bool' if field.type == 'bool' else 'int'}" for field in it.fields]
    pairs = [f'        ("{field.name}", ctypes.{TYPES[field.type]}),' for field in it.fields]
    return [f"class _{camel(it.key)}(ctypes.Structure):", *types, "    _fields_ = [", *pairs, "    ]", "", ""]


def library(table: Table) -> list:
    """The structs, the numbers of statuses and targets, and the version that is needed."""
    values = [it for key in ("status", "target") for it in table.group(key).values]
    version = table.version_numbers()
    return [
        *(line for it in table.structs for line in structure(it)),
        *(f"_{it.name} = {it.number}" for it in values),
        f"_MAJOR, _MINOR = {version['MAJOR']}, {version['MINOR']}",
    ]

"""Compares the code of the crates, and its definitions, with the table: numbers, names, messages, letters, fields and layouts."""
import re
from itertools import zip_longest

from .table import TOP, Group, Table, camel

TYPES = {"uint32_t": "u32", "size_t": "usize", "ptrdiff_t": "isize", "bool": "bool"}
# The type in the code for a group of numbers.
ENUMS = {
    "error": "ParseError", "node": "Expr", "assertion": "Assertion", "look": "LookAround", "verb": "BacktrackingControlVerb",
    "absent": "Absent", "target": "CaptureGroupTarget", "trivium": "TriviumKind", "style": "Style",
}  # fmt: skip
# The groups of the numbers that definitions give, and names there of what has another name in the table.
DEFINITIONS = {
    "number_of_kind": "error", "assertion_number": "assertion", "look_around_number": "look", "verb_number": "verb", "kind_number": "trivium",
    "IsStyleOf": "style", "row": "node", "HasFields": "absent", "row_of_call": "target", "HasTarget": "target",
}  # fmt: skip
DEFINED = {"INLINE_FLAGS": "flags", "BACKREF_EXISTS_CONDITION": "backref_exists", "AST_NODE": "ast_group"}


def read(*names: str) -> str:
    """The text of files of the crates, of which a name may be a pattern."""
    files = [file for name in names for file in sorted((TOP / "crates").glob(name))]
    return "\n".join(it.read_text(encoding="utf-8") for it in files)


def compared(what: str, table: dict, code: dict) -> list:
    """Each name for which the table and the code have something else."""
    names = sorted(table.keys() | code.keys())
    other = [it for it in names if table.get(it) != code.get(it)]
    return [f"{what}: {it} is {code.get(it)} in the code, and {table.get(it)} in include/fancy.toml" for it in other]


def constants(table: Table) -> list:
    code = dict(re.findall(r"pub const (\w+): u32 = (\d+);", read("fancy_c/src/*.rt", "fancy_lex/src/flags.rt")))
    precedences = re.findall(r"pub const (\w+): u8 = (\d+);", read("fancy_syntax/src/print.rt"))
    code |= {f"PRECEDENCE_{name}": number for name, number in precedences}
    numbers = {it.full_name: str(it.number) for group in table.groups for it in group.values}
    return compared("numbers", numbers | {f"VERSION_{name}": it for name, it in table.version_numbers().items()}, code)


def variants(group: Group, code: str) -> list:
    """Whether the variant of each number has its name, where the one is made of the other."""
    kind, prefix = ENUMS[group.key], group.key.upper()
    to = re.findall(rf"\b{kind}::(\w+)(?:\([^()]*\)|\s*{{[^{{}}]*}})?\s*=>[^=;]*?\b{prefix}_([A-Z_0-9]+)", code)
    back = re.findall(rf"\b{prefix}_([A-Z_0-9]+) =>\s*{{?\s*(?:Some\()?{kind}::(\w+)", code)
    pairs = {*to, *((variant, name) for name, variant in back)}
    found = {name: {variant for variant, other in pairs if other == name} for _, name in pairs}
    return compared(f"variants of {kind}", {it.name: {it.original} for it in group.kinds()}, found)


def structs(table: Table) -> list:
    code, problems = read("fancy_c/src/*.rt"), []
    for it in table.structs:
        body = re.search(rf"#\[repr\(C\)\][^{{]*?pub struct {it.rattle} {{(.*?)\n}}", code, re.S)
        fields = re.findall(r"pub (\w+): (\w+),", body[1]) if body else []
        own = [(field.name, TYPES[field.type]) for field in it.fields]
        pairs = enumerate(zip_longest(own, fields))
        problems += [f"{it.rattle}: field {i} is {code} in the code, and {row} in include/fancy.toml" for i, (row, code) in pairs if row != code]
    return problems


def messages(table: Table) -> list:
    code = re.findall(r'ParseError::(\w+)(\(s\))? => {?\s*\(\s*"(.*?)",', read("fancy_lex/src/error.rt"))
    rows = re.findall(r'^kind_text \(?(\w+)( s\))? = codes "(.*?)"', read("fancy_lex/specs/Located.antt"), re.M)
    values = table.group("error").kinds()
    own = {camel(it.name): (it.given["message"], it.carries) for it in values}
    problems = compared("messages", own, {name: (text, bool(carried)) for name, carried, text in code})
    return problems + compared("kind_text", own, {camel(name): (text, bool(carried)) for name, carried, text in rows})


def flag_names(table: Table) -> dict:
    """The flags by their names in the code, where each is documented with the name that it has in the table."""
    names = dict(re.findall(r"/// `FLAG_(\w+)`\n    (\w+),\n", read("fancy_lex/src/flags.rt")))
    return {names.get(it.name, it.name): it for it in table.group("flag").shared()}


def letters(table: Table) -> list:
    code = read("fancy_lex/src/flags.rt")
    own = {name: it.given["letter"] for name, it in flag_names(table).items()}
    to = re.findall(r"Flag::(\w+) => '(.)',", code)
    back = [(name, letter) for letter, name in re.findall(r"'(.)' => Some\(Flag::(\w+)\)", code)]
    rows = re.findall(r'^letter (\w+) = code "(.)"', read("fancy_lex/specs/Flag.antt"), re.M)
    return [it for pairs in (to, back, rows) for it in compared("letters", own, dict(pairs))]


def bits(table: Table) -> list:
    """The numbers of flags in definitions."""
    own = {name: str(it.number) for name, it in flag_names(table).items()}
    of = re.findall(r"(\w+) = has_bit bits (\d+);", read("fancy_lex/specs/Flags.antt"))
    to = re.findall(r"bit_of f\.(\w+) (\d+)", read("fancy_lex/specs/Flags.antt"))
    return [it for pairs in (of, to) for it in compared("flags", own, {camel(name): bit for name, bit in pairs})]


def equations(name: str) -> list:
    """The equations of a file of definitions, each in one line."""
    return [" ".join(it.split()) for it in re.split(r"\n(?=\S)", read(name))]


def value_in(definition: str, key: str, table: Table):
    """The number that the right side of an equation gives, as the table has it."""
    # the row of an absent form has the number of the form
    values = {it.full_name: it for group in (key, "absent") for it in table.group(group).values}
    return next((values[it] for it in re.findall(r"\b[A-Z]+_[A-Z_0-9]+\b", definition) if it in values), None)


def definitions(table: Table) -> list:
    """Whether each equation that gives a number is about what has this number."""
    found = []
    files = "CallResult", "Node", "RowTree", "TriviumRows", "FormattedText"
    for it in [it for name in files for it in equations(f"fancy_c/specs/{name}.antt")]:
        left, _, right = it.partition(" = ")
        name, *words = re.findall(r"\w+", left) or [""]
        value = value_in(right, DEFINITIONS[name], table) if name in DEFINITIONS else None
        if value:
            names = {camel(value.name), value.original, camel(DEFINED.get(value.name, value.name))}
            if not names & {camel(it) if it.islower() else it for it in words}:
                found.append(f"definitions: {left} has the number of {value.full_name}")
    return found


def fields_of(row: str) -> set:
    """The fields that the definition of a row sets."""
    fields = set(re.findall(r"(\w+) = ", row))
    if re.search(r"with_text s number\.\w+|plain number\.\w+ s (?!0)", row):
        fields |= {"text", "text_size"}
    if re.search(r"with_text s number\.\w+ \w+ casei", row):
        fields.add("casei")
    return fields


def rows(table: Table) -> list:
    """The fields that the row of each kind of nodes has."""
    own = {it.name: set(it.fields) for it in table.group("node").values}
    code = {name: set() for name in own}
    for it in equations("fancy_c/specs/Node.antt"):
        found = re.search(r"^\S.*? = (.*number\.NODE_(\w+).*)", it)
        if found:
            code[found[2]] |= fields_of(found[1])
    for name, field in re.findall(r"kind == NODE_(\w+) then record r { (\w+) =", read("fancy_c/specs/Numbered.antt")):
        code[name].add(field)
    return compared("fields of rows", own, code)


def layouts(table: Table) -> list:
    """The order of fields where definitions have a whole struct."""
    problems = []
    made = ("Node", "plain k s n", "node"), ("InfoRows", "summary t m", "info"), ("TriviumRows", "row x", "trivium"), ("ClassRanges", "row r", "range")
    made += ("FactRows", "known_row f", "node_facts"), ("FactRows", "unknown_row", "node_facts"), ("FactRows", "summary n x t", "pattern_facts")
    for name, of, key in made:
        found = [it for it in equations(f"fancy_c/specs/{name}.antt") if it.startswith(f"{of} = record")]
        own = [it.name for it in table.struct(key).fields]
        if [re.findall(r"(\w+) = (?!record)", it) for it in found] != [own]:
            problems.append(f"fancy_c/specs/{name}.antt: the fields of {of} are not those of include/fancy.toml")
    return problems


def versions(table: Table) -> list:
    command = re.search(r'const VERSION: &str = "(.*?)";', read("patterns_command/src/command.rt"))
    change = re.search(r"^## ([0-9.]+)$", (TOP / "CHANGELOG.md").read_text(encoding="utf-8"), re.M)
    found = {"patterns": command and command[1], "CHANGELOG.md": change and change[1]}
    return compared("versions", dict.fromkeys(found, table.version), found)


def problems(table: Table) -> list:
    code = read("fancy_c/src/*.rt")
    found = [it for group in table.groups if group.key in ENUMS for it in variants(group, code)]
    for check in (constants, structs, messages, letters, bits, definitions, rows, layouts, versions):
        found += check(table)
    return found

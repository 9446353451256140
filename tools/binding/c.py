"""What follows from the table for C: parts of the header, the symbols of the shared library, and names in an example."""
from .table import Group, Struct, Table, Value, filled

WIDTH = 128


def comment(text: str, before: str = "", rest: str = " * ") -> list:
    """A comment of some lines, which end within the width. The last is not a single short word."""
    for width in range(WIDTH, WIDTH - 20, -1):
        lines = filled(text + "\0*/", width, f"{before}/* ", rest)
        if len(lines) == 1 or len(lines[-1].strip(" *")) > 8:
            break
    return [it.replace("\0", " ") for it in lines]


def said_of(value: Value) -> str:
    """What the header says of a number, without backticks: its sentence, or the fields of a kind of nodes."""
    if "c" in value.given:
        return value.given["c"]
    if value.group.given.get("c", True):
        return value.doc.replace("`", "")
    if "which" not in value.given:
        return ", ".join(value.fields)
    which = f"which: FANCY_{value.given['which'].upper()}_.."
    return "; ".join([which, *(it for it in value.fields if it != "which")])


def with_comments(rows: list, column: int | None) -> list:
    """Lines of code with what is said of each, from a column on; before the line if it is long."""
    column = column or 1 + max((len(code) for code, said in rows if said), default=0)
    lines = []
    for code, said in rows:
        beside = code.ljust(column - 1) + " "
        if not said:
            lines.append(code)
        elif len(beside) > 60 and len(beside) + len(said) + 6 > WIDTH:
            lines += [*comment(said, "    "), code]
        else:
            lines += comment(said, beside, " " * (len(beside) + 3))
    return lines


def deprecated(group: Group) -> list:
    """The old names of numbers."""
    values = [it for it in group.values if "deprecated" in it.given]
    said = "/* deprecated: the next major version does not have this name */"
    return [f"#define {it.given['deprecated']} FANCY_{it.full_name} {said}" for it in values]


def enum(group: Group) -> list:
    rows = [(f"FANCY_{it.full_name} = {it.number}", said_of(it)) for it in group.values]
    lines = comment(group.given["comment"]) if "comment" in group.given else []
    head = f"enum fancy_{group.given.get('tag', group.key)} {{"
    in_one = f"{head} {', '.join(code for code, _ in rows)} }};"
    if len(in_one) <= 120 and not any(said for _, said in rows):
        return [*lines, in_one, ""]
    rows = [(f"    {code}{',' if code != rows[-1][0] else ''}", said) for code, said in rows]
    return [*lines, head, *with_comments(rows, group.given.get("column")), "};", *deprecated(group), ""]


def struct(it: Struct) -> list:
    """A struct, and its name as a type."""
    name, rows = f"fancy_{it.key}", [(f"    {field.type} {field.name};", field.doc) for field in it.fields]
    lines = with_comments(rows, it.given.get("column"))
    return [*comment(it.given["comment"]), f"typedef struct {name} {name};", f"struct {name} {{", *lines, "};", ""]


def kinds(table: Table) -> list:
    lines = [line for group in table.groups for line in enum(group)]
    return (lines + [line for it in table.structs for line in struct(it)])[:-1]


def version(table: Table) -> list:
    return [f"#define FANCY_VERSION_{name} {number}" for name, number in table.version_numbers().items()]


def messages(table: Table) -> list:
    values = table.group("error").kinds()
    return [f'    case FANCY_{it.full_name}: return "{it.given["message"]}";' for it in values]


def symbols(table: Table) -> list:
    """The file `c/fancy.map`."""
    lines = [
        "# The symbols of the shared library, made by tools/bindings from include/fancy.toml. A new call gets a version of its own,",
        "# which inherits from the one before.",
    ]
    before = ""
    for since, names in table.calls.items():
        if since == "alone":
            continue
        twins = [f"fancy_{it};" + ("" if it in table.calls["alone"] else f" fancy_{it}_nonnull;") for it in names]
        local = [] if before else ["    local: *;"]
        lines += [f"FANCY_{since} {{", "    global:", *(f"        {it}" for it in twins), *local, f"}}{before};", ""]
        before = f" FANCY_{since}"
    return lines[:-1]


def names(table: Table) -> list:
    """The names that `examples/lines.c` writes."""
    lines = []
    for name, key in (("kinds", "node"), ("assertions", "assertion"), ("looks", "look"), ("verbs", "verb"), ("absents", "absent")):
        words = ", ".join(['""', *(f'"{it.original}"' for it in table.group(key).values)])
        whole = f"static const char *const {name}[] = {{{words}}};"
        lines += [whole] if len(whole) <= WIDTH else [f"static const char *const {name}[] = {{", *filled(words + "};", WIDTH - 4, "    ", "    ")]
    return [*lines, f'static const char flag_letters[] = "{table.letters}";']

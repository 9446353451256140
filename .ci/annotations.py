"""The reports that `patterns` writes for other tools, as lines to compare, for `.ci/runs`.

A line has the severity, the file, the line and column of the start and of the end, the rule and the message, which has
`\\n` for a line end. A log of SARIF is checked against what the schema of 2.1.0 requires first.
"""
import json
import re
from urllib.parse import unquote

# What the schema requires of an object, of those that are written here, and the objects that are its members.
REQUIRED = {
    "log": {"version", "runs"},
    "run": {"tool"},
    "tool": {"driver"},
    "driver": {"name"},
    "rule": {"id"},
    "result": {"message"},
    "message": {"text"},
    "region": {"startLine"},
}
MEMBERS = {
    "log": {"runs": ["run"]},
    "run": {"tool": "tool", "results": ["result"]},
    "tool": {"driver": "driver"},
    "driver": {"rules": ["rule"]},
    "rule": {"shortDescription": "message", "help": "message"},
    "result": {"message": "message", "locations": ["location"]},
    "location": {"physicalLocation": "physical"},
    "physical": {"artifactLocation": "artifact", "region": "region"},
}
# The members that the schema has, of the objects above: no other is allowed.
ALLOWED = {
    "log": {"$schema", "version", "runs"},
    "run": {"tool", "results", "columnKind"},
    "tool": {"driver"},
    "driver": {"name", "rules"},
    "rule": {"id", "shortDescription", "help"},
    "result": {"ruleId", "level", "message", "locations"},
    "message": {"text"},
    "location": {"physicalLocation"},
    "physical": {"artifactLocation", "region"},
    "artifact": {"uri"},
    "region": {"startLine", "startColumn", "endLine", "endColumn"},
}


def check(value, kind) -> None:
    """Checks that the value has what the schema requires, and no other members than those above."""
    if isinstance(kind, list):
        assert isinstance(value, list), value
        for it in value:
            check(it, kind[0])
        return
    assert isinstance(value, dict), value
    assert REQUIRED.get(kind, set()) <= value.keys() <= ALLOWED[kind], (kind, sorted(value))
    for name, inner in MEMBERS.get(kind, {}).items():
        if name in value:
            check(value[name], inner)


def line_of(severity, file, start, end, rule, message) -> str:
    """A report as a line."""
    return "\t".join([severity, file, start, end, rule or "", message.replace("\n", "\\n")]) + "\n"


def sarif_lines(text: str) -> str:
    """The reports of a log of SARIF."""
    log = json.loads(text)
    check(log, "log")
    assert log["version"] == "2.1.0" and len(log["runs"]) == 1, log
    run = log["runs"][0]
    rules = [it["id"] for it in run["tool"]["driver"]["rules"]]
    assert run["columnKind"] == "unicodeCodePoints" and len(set(rules)) == len(rules), run
    assert text.count("\n") == 2 + len(run["results"]), text
    lines = []
    for result in run["results"]:
        assert result["level"] in ("error", "warning", "note"), result
        assert result.get("ruleId", rules[0]) in rules, result
        physical = result["locations"][0]["physicalLocation"]
        region = physical["region"]
        start, end = ((region[it + "Line"], region[it + "Column"]) for it in ("start", "end"))
        assert (1, 1) <= start <= end and re.fullmatch(r"[\w./~%-]+", physical["artifactLocation"]["uri"], re.A), physical
        uri = unquote(physical["artifactLocation"]["uri"])
        severity = {"note": "notice"}.get(result["level"], result["level"])
        lines.append(line_of(severity, uri, "%d:%d" % start, "%d:%d" % end, result.get("ruleId"), result["message"]["text"]))
    return "".join(lines)


COMMAND = re.compile(r"::(error|warning|notice) file=([^,:]*),line=(\d+),endLine=(\d+),col=(\d+),endColumn=(\d+)(?:,title=([^,:]*))?::(.*)")


def unescaped(text: str) -> str:
    """The text of a property or a message."""
    for code, character in (("%3A", ":"), ("%2C", ","), ("%0A", "\n"), ("%0D", "\r"), ("%25", "%")):
        text = text.replace(code, character)
    return text


def github_lines(text: str) -> str:
    """The reports of workflow commands, a line each."""
    lines = []
    for line in text.splitlines():
        found = COMMAND.fullmatch(line)
        assert found, line
        severity, file, start, end, column, end_column, rule, message = found.groups()
        lines.append(line_of(severity, unescaped(file), f"{start}:{column}", f"{end}:{end_column}", rule, unescaped(message)))
    return "".join(lines)


READERS = {"sarif": sarif_lines, "github": github_lines}

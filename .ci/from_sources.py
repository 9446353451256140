"""Compares the records that `python -m fancy extract` writes of small sources with those written here: `from_sources.py`.
PYTHONPATH names the folder of the module. Without PyYAML, what it would read is left out. It also runs the example of the module's docstring."""

import doctest
import importlib.util
import json
import os
import subprocess
import sys
import tempfile

import fancy_extract

HAS_YAML = importlib.util.find_spec("yaml") is not None

# A source, and its records: line, column, pattern, flags, and the lists that are written. In the place of where a literal
# begins and ends is its text.
SOURCES = {
    "strings.py": (
        b"""\xef\xbb\xbfimport re, regex as rx
from re import compile as make, X
re.compile(r"a\\d(", re.I | re.MULTILINE)
rx.sub('a\\t\\x41\\u00e9\\N{BULLET}\\101\\q', "", text, flags=re.A)
make("\xc3\xa9"  # the first part
     'b', X)
re.match('''a\\
b
''', text)
""",
        [
            (3, 14, "a\\d(", "imu", {"columns": [14, 15, 16, 17, 18], "literals": ['r"a\\d("']}),
            (
                4, 9, "a\tA\u00e9\u2022A\\q", "-",
                {
                    "columns": [9, 10, 12, 16, 22, 32, 36, 37, 38],
                    "literals": [r"'a\t\x41\u00e9\N{BULLET}\101\q'"],
                },
            ),
            (
                5, 7, "\u00e9b", "xu",
                {"lines": [5, 6, 6], "columns": [7, 7, 8], "literals": ['"\u00e9"', "'b'"]},
            ),
            (
                7, 13, "ab\n", "u",
                {"lines": [7, 8, 8, 9], "columns": [13, 1, 2, 1], "literals": ["'''a\\\nb\n'''"]},
            ),
        ],
    ),
    "calls.py": (
        b"""import re as r
from regex import split, VERBOSE as V
r.compile(pattern=r"a")
r.split("b", text, 1, r.S)
split('c', text, 0, V | FLAGS)
r.findall(b"d\\\\", text)
r.search("e", *more)
r.compile(name); r.compile(f"{name}"); r.escape("f"); other.compile("g"); r.compile(b"\\xff"); r.compile()
""",
        [
            (3, 21, "a", "u", {"columns": [21, 22], "literals": ['r"a"']}),
            (4, 10, "b", "su", {"columns": [10, 11], "literals": ['"b"']}),
            (5, 8, "c", None, {"columns": [8, 9], "literals": ["'c'"]}),
            (6, 13, "d\\", "-", {"columns": [13, 14, 16], "literals": ['b"d\\\\"']}),
            (7, 11, "e", None, {"columns": [11, 12], "literals": ['"e"']}),
        ],
    ),
    "latin.py": (
        b"# coding: latin-1\nimport re\nre.compile('\xe9(')\n",
        [(3, 13, "\u00e9(", "u", {"columns": [13, 14, 15]})],
    ),
    "ends.py": (
        b"import re\r\nre.compile('''a\r\nb''')\r\n",
        [(2, 15, "a\nb", "u", {"lines": [2, 2, 3, 3], "columns": [15, 16, 1, 2], "literals": ["'''a\r\nb'''"]})],
    ),
    "strings.rs": (
        b"""// Regex::new("a")
fn f<'a>(c: &'a str) { '"'; '\\''; Regex::new(r#"b"\\d"#); }
/* /* */ Regex::new("c") */ let s = "Regex::new(\\"d\\")";
fancy_regex :: Regex :: new ( /* the pattern */ // of the name
  "e\\u{e9}\\\\\\x41\\
    f")
RegexBuilder::new("g",).case_insensitive(true).size_limit(10 << 20).unicode(false).multi_line(b).build();
Regex::new(&name); Regex::new(concat!("h"));
""",
        [
            (2, 49, 'b"\\d', "u", {"columns": [49, 50, 51, 52, 53], "literals": ['r#"b"\\d"#']}),
            (
                5, 4, "e\u00e9\\Af", "u",
                {
                    "lines": [5, 5, 5, 5, 6, 6], "columns": [4, 5, 11, 13, 5, 6],
                    "literals": ['"e\\u{e9}\\\\\\x41\\\n    f"'],
                },
            ),
            (7, 20, "g", "im", {"columns": [20, 21], "literals": ['"g"']}),
        ],
    ),
    "comments.json": (
        b"""{ // "match": "a"
  "match": "b\\"\\\\d\\u00e9\\ud83d\\ude00", /* , */
  "name": "match", "c": {"begin": ["d"], "end": "",},
}
""",
        [
            (
                2, 13, 'b"\\d\u00e9\U0001f600', None,
                {"columns": [13, 14, 16, 18, 19, 25, 37], "literals": [r'"b\"\\d\u00e9\ud83d\ude00"']},
            ),
            (3, 50, "", None, {"columns": [50], "literals": ['""']}),
        ],
    ),
    "grammar.tmLanguage": (
        b"""<?xml version="1.0" encoding="UTF-8"?>
<plist version="1.0"><dict>
<key>match</key> <string>a&lt;\xc3\xa9
&#65;</string> <key>name</key> <string>b</string>
<key>begin</key> <string><![CDATA[<c>]]>d</string>
<key>while</key> <array><string>e</string></array>
</dict></plist>
""",
        [
            (
                3, 26, "a<\u00e9\nA", None,
                {"lines": [3, 3, 3, 3, 4, 4], "columns": [26, 27, 31, 32, 1, 6], "literals": ["a&lt;\u00e9\n&#65;"]},
            ),
            (5, 35, "<c>d", None, {"columns": [35, 36, 37, 41, 42], "literals": ["<![CDATA[<c>]]>d"]}),
        ],
    ),
    "syntax.sublime-syntax": (
        b"""%YAML 1.2
---
variables: {id: '[a-z]{{n}}', n: '+'}
contexts:
  main:
    - match: '{{id}}''('
      escape: a\\d(
    - match: "b\\\\\\"c"
      first_line_match: "\\x41"
    - match: |
        (?x)
          \xc3\xa9
    - match: 7
""",
        [
            (6, 15, "[a-z]+'(", None, {"columns": [15, 15, 15, 15, 15, 15, 21, 23, 24]}),
            (7, 15, "a\\d(", None, {"columns": [15, 16, 17, 18, 19], "literals": ["a\\d("]}),
            (8, 15, 'b\\"c', None, {"columns": [15, 16, 18, 20, 21], "literals": [r'"b\\\"c"']}),
            (9, 26, "A", None, {"literals": [r'"\x41"']}),
            (
                11, 9, "(?x)\n  \u00e9\n", None,
                {
                    "lines": [11, 11, 11, 11, 11, 12, 12, 12, 12, 13], "columns": [9, 10, 11, 12, 13, 9, 10, 11, 12, 1],
                    "literals": ["|\n        (?x)\n          \u00e9\n"],
                },
            ),
        ],
    ),
    "keys.yaml": (b"patterns: {one: 'a', match: b}\n", [(1, 18, "a", None, None), (1, 29, "b", None, None)]),
}

# A source that cannot be read, and what is said of it after the file's name.
FAULTS = {
    "none.py": (None, ": No such file or directory"),
    "syntax.py": (b"a = 1\nb = )\n", ":2:5: unmatched ')'"),
    "coding.py": (b"# coding: none\n", ": unknown encoding: none"),
    "bytes.py": (b"a\n\xff\n", ":2: the line is not valid UTF-8"),
    "bytes.rs": (b"a\n\xff\n", ":2: the line is not valid UTF-8"),
    "comma.json": (b'{\n"a" 1}', ":2:5: the file is not valid JSON: Expecting ':' delimiter"),
    "deep.json": (b"[" * 100_000, ": the JSON nests too deep"),
    "binary.plist": (b"bplist00", ": the property list is binary, and has no lines: convert it to XML"),
    "tag.plist": (b"<plist>\n<dict></plist>", ":2:9: the file is not a property list: mismatched tag"),
    "other.plist": (b"<plist><key>a</key></plist>", ": the file is not a property list"),
    "name.txt": (
        b"a",
        ": patterns are found in files whose names end with .code-workspace, .json, .jsonc, .plist, .py, .pyi, .pyw, .rs, "
        ".sublime-syntax, .tmlanguage, .tmpreferences, .yaml, .yml",
    ),
}
YAML_FAULTS = {
    "comma.yml": (b"a:\n- [b\n", ":3:1: the file is not valid YAML: expected ',' or ']', but got '<stream end>'"),
    "mark.yml": (b"a: \x01\n", ": the file is not valid YAML"),
}


def extract(folder, *words, variables=()):
    """What the command writes in the folder, and its status. It finds no library."""
    command = [sys.executable, "-W", "error", "-m", "fancy", "extract", *words]
    environment = dict(os.environ, FANCY_LIBRARY="/nonexistent", **dict(variables))
    return subprocess.run(command, cwd=folder, env=environment, capture_output=True, text=True, check=False)


SYNTAXES = {".py": "python", ".rs": "rust", ".json": "json", ".tmLanguage": "xml", ".sublime-syntax": "yaml"}


def record(file, line, column, pattern, flags, lists):
    found = {"file": file, "line": line, "column": column, "pattern": pattern}
    if flags is not None:
        found["flags"] = flags
    if file.endswith(".py"):
        found["dialect"] = "python"
    found.update(lists or {})
    if "literals" in found:
        found["syntax"] = SYNTAXES[os.path.splitext(file)[1]]
    return found


def with_texts(content, found):
    """The record with the texts of its literals."""
    ends = found.get("literals", [])
    texts = [content[start:end].decode() for start, end in zip(ends[::2], ends[1::2])]
    return {**found, "literals": texts} if ends else found


def is_yaml(name):
    return name.endswith((".yaml", ".yml", ".sublime-syntax"))


def compare(name, got, wanted):
    assert got == wanted, f"{name}:\nis     {got}\nwanted {wanted}"


def write(folder, sources):
    for name, content in sources.items():
        if content is not None:
            with open(os.path.join(folder, name), "wb") as file:
                file.write(content)


def check_sources(folder):
    for name, (content, wanted) in SOURCES.items():
        if is_yaml(name) and not HAS_YAML:
            continue
        words = ["--keys", "one,two", name] if name == "keys.yaml" else [name]
        got = extract(folder, *words)
        compare(name, (got.returncode, got.stderr), (0, ""))
        records = [json.loads(line) for line in got.stdout.splitlines()]
        if name == "keys.yaml":
            records = [{key: it[key] for key in ("file", "line", "column", "pattern", "syntax")} for it in records]
            wanted = [(*it[:4], {"syntax": "yaml-flow"}) for it in wanted]
        compare(name, [with_texts(content, it) for it in records], [record(name, *it) for it in wanted])


def check_faults(folder):
    faults = {**FAULTS, **(YAML_FAULTS if HAS_YAML else {})}
    got = extract(folder, *faults, "calls.py")
    compare("faults", got.stderr.splitlines(), [name + message for name, (_, message) in faults.items()])
    compare("faults", (got.returncode, len(got.stdout.splitlines())), (2, len(SOURCES["calls.py"][1])))


def check_without_yaml(folder):
    """PyYAML is missing where a module of its name cannot be imported."""
    os.mkdir(os.path.join(folder, "missing"))
    write(os.path.join(folder, "missing"), {"yaml.py": b"raise ImportError\n"})
    path = os.pathsep.join([os.path.join(folder, "missing"), os.environ["PYTHONPATH"]])
    got = extract(folder, "keys.yaml", variables=[("PYTHONPATH", path)])
    wanted = (2, "", "keys.yaml: PyYAML, which reads YAML, is not installed\n")
    compare("without PyYAML", (got.returncode, got.stdout, got.stderr), wanted)


compare("the docstring", tuple(doctest.testmod(fancy_extract)), (0, 2))
with tempfile.TemporaryDirectory() as top:
    write(top, {name: content for name, (content, _) in {**SOURCES, **FAULTS, **YAML_FAULTS}.items()})
    check_sources(top)
    check_faults(top)
    check_without_yaml(top)
print(f"records of sources: as written{'' if HAS_YAML else ', but YAML is left out, since PyYAML is not installed'}")

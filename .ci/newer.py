"""What Python gets of a library that is newer than the module, and has numbers that this does not know: an error that says so, and is not one of the
pattern. `newer.py OLD`, where FANCY_LIBRARY names `.ci/newer.c`, and the argument a library that is too old, which is not loaded."""

import os
import subprocess
import sys

import fancy

WHAT = {
    "node": "kind of node 1000", "assertion": "AssertionKind 1000", "look": "LookKind 1000", "verb": "VerbKind 1000", "absent": "AbsentKind 1000",
    "target": "kind of target 1000", "error": "ErrorKind 1000", "trivium": "TriviumKind 1000",
}  # fmt: skip


def refusal(call, pattern):
    try:
        call(pattern)
    except RuntimeError as error:
        return str(error)
    return None


for pattern, what in WHAT.items():
    call = fancy.trivia if pattern == "trivium" else fancy.parse
    wanted = f"libfancy {fancy.__version__} has the {what}, which this module does not know"
    assert refusal(call, pattern) == wanted, (pattern, refusal(call, pattern))
assert refusal(fancy.check, "error").startswith("libfancy ") and fancy.parse("ab").root.kind == "Empty"

old = subprocess.run([sys.executable, "-c", "import fancy"], env={**os.environ, "FANCY_LIBRARY": sys.argv[1]}, capture_output=True, text=True)
assert f"ImportError: {sys.argv[1]} has the version " in old.stderr and " is needed" in old.stderr, old.stderr
print(f"{len(WHAT)} numbers of a newer library are not known, and an older library is refused")

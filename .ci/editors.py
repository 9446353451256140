"""Editors as clients of `patterns server`, for `.ci/runs`.

Each opens a file, writes what is reported, fixes what can be fixed in its first line, formats it, fixes all, and saves it. An editor that is not
installed is left out, and standard error says so. Neovim also edits files at random.

The settings of docs/editors.md for editors without a server are tried too: the `errorformat` of Vim by Neovim, and the matcher of VS Code
by its expression.
"""
import json
import os
import re
import shutil
import subprocess
import sys
import tempfile
from functools import partial
from pathlib import Path
from typing import Callable, NamedTuple

from programs import TOP, Check, Output, Run, decoded, encoded, path_of
from transcripts import blocks

BEFORE = "a|b|a\n[a]b{1}\n(?:x){0,1}\n"
AFTER = "a|b\nab\nx?\n"
REPORTED = """\
1: `a` is branch 1 already
2: `[a]` is a class of one character
2: `b{1}` repeats exactly once
Fix: `a` is branch 1 already [duplicate-branch]
Fix all in this file
"""


class Editor(NamedTuple):
    """What starts an editor with a script, and whether it has what that needs."""
    name: str
    command: tuple
    is_there: Callable[[], bool]


def has_eglot() -> bool:
    """Whether Emacs has eglot."""
    command = ["emacs", "--batch", "--eval", "(progn (package-initialize) (require 'eglot))"]
    return shutil.which("emacs") is not None and subprocess.run(command, capture_output=True, check=False).returncode == 0


EDITORS = [
    Editor("neovim", ("nvim", "--headless", "--clean", "-c", f"luafile {TOP}/.ci/neovim.lua"), lambda: shutil.which("nvim") is not None),
    Editor("emacs", ("emacs", "--batch", "--no-site-file", "-l", f"{TOP}/.ci/emacs.el"), has_eglot),
]


def edited(editor: Editor) -> Output:
    """What an editor writes, and the file as it saves it."""
    with tempfile.TemporaryDirectory() as folder:
        file = Path(folder) / "words.txt"
        file.write_bytes(encoded(BEFORE))
        env = {**os.environ, "PATTERNS": str(path_of("patterns")), "FILE": str(file), "HOME": folder, "XDG_STATE_HOME": folder}
        got = subprocess.run(editor.command, cwd=folder, env=env, stdin=subprocess.DEVNULL, capture_output=True, timeout=300, check=False)
        return Output(decoded(got.stdout) + decoded(file.read_bytes()), decoded(got.stderr), got.returncode)


def edited_at_random(seed: int) -> Output:
    """Whether the server has the text of Neovim after each of some commands, in a file without a line feed at its end."""
    with tempfile.TemporaryDirectory() as folder:
        file = Path(folder) / "words.txt"
        file.write_bytes(b"ab\ncd\nef")
        env = {"PATTERNS": str(path_of("patterns")), "FILE": str(file), "SEED": str(seed), "HOME": folder, "XDG_STATE_HOME": folder}
        command = ("nvim", "--headless", "--clean", "-c", f"luafile {TOP}/.ci/neovim_edits.lua")
        got = subprocess.run(command, cwd=folder, env={**os.environ, **env}, stdin=subprocess.DEVNULL, capture_output=True, timeout=300, check=False)
        return Output(decoded(got.stdout), decoded(got.stderr), got.returncode)


# ---- without a server


LINTED = "a|b|a\n(a\nx{1,0}\n"
LISTED = """\
words.txt:1:5: warning: `a` is branch 1 already [duplicate-branch]
words.txt:2:3: Opening parenthesis without closing parenthesis
words.txt:3:1: error: quantifier whose minimum is above its maximum [invalid-quantifier]
"""
# Writes the list of `:make` like this.
LISTING = """\
for _, it in ipairs(vim.fn.getqflist()) do
  local name = it.bufnr > 0 and vim.fn.bufname(it.bufnr) or ""
  local severity = ({ e = "error: ", w = "warning: " })[it.type] or ""
  io.stdout:write(("%s:%d:%d: %s%s\\n"):format(name, it.lnum, it.col, severity, it.text))
end
"""


def last_block(language: str) -> str:
    """The last block of the page in this language."""
    page = decoded((TOP / "docs/editors.md").read_bytes())
    return [it.text for it in blocks(page) if it.language == language][-1]


def listed_by_vim() -> Output:
    """The list that `:make` makes with the settings of the page."""
    with tempfile.TemporaryDirectory() as folder:
        (Path(folder) / "words.txt").write_bytes(encoded(LINTED))
        (Path(folder) / "page.vim").write_bytes(encoded(last_block("vim")))
        (Path(folder) / "list.lua").write_bytes(encoded(LISTING))
        (Path(folder) / "patterns").symlink_to(path_of("patterns"))
        env = {**os.environ, "PATH": f"{folder}:{os.environ['PATH']}", "HOME": folder, "XDG_STATE_HOME": folder}
        commands = ("source page.vim", "edit words.txt", "silent make", "luafile list.lua", "quitall!")
        words = ["nvim", "--headless", "--clean", *(it for one in commands for it in ("-c", one))]
        got = subprocess.run(words, cwd=folder, env=env, stdin=subprocess.DEVNULL, capture_output=True, timeout=300, check=False)
        return Output(decoded(got.stdout), decoded(got.stderr), got.returncode)


def listed_by_matcher(got: Output) -> str:
    """The lines that the matcher of the page reads in what `lint` writes."""
    pattern = json.loads(last_block("json"))["tasks"][0]["problemMatcher"]["pattern"]
    found = filter(None, (re.match(pattern["regexp"], line) for line in got.out.splitlines()))
    fields = [[it[pattern[name]] for name in ("file", "line", "column", "severity", "message")] for it in found]
    return "".join(":".join(it[:3]) + f": {it[3] + ': ' if it[3] else ''}{it[4]}\n" for it in fields)


def parts() -> dict:
    """The checks."""
    found = [it for it in EDITORS if it.is_there()]
    for it in EDITORS:
        if it not in found:
            print(f"editors: no {it.name}: left out", file=sys.stderr)
    checks = [Check(f"editors/{it.name}", partial(edited, it), REPORTED + AFTER, lambda got: got.out) for it in found]
    run = Run("patterns", ("lint", "--quiet", "words.txt"), files=(("words.txt", LINTED),))
    checks.append(Check("editors/matcher", run, LISTED, listed_by_matcher))
    if shutil.which("nvim") is not None:
        checks.append(Check("editors/errorformat", listed_by_vim, LISTED, lambda got: got.out))
        checks += [Check(f"editors/neovim edits {it}", partial(edited_at_random, it), "same\n", lambda got: got.out) for it in (1, 2, 3)]
    return {"editors": checks}

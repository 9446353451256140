"""Checks that each character of a pattern is in the text of a leaf, in a part that no node has, in the own text of a node, or is a
blank: `each_character.py FILE.. [--random N]`. Each line of a file has letters of flags, a tab and a pattern in hexadecimal; lines that
are no such pattern, and patterns with an error, are left out. Then come so many random patterns. The leaves and the parts that no node
has must not overlap. The other characters belong to the innermost node around them: of a Concat or an Empty they are blanks, of an Alt
also bars, and of another node its parentheses, its operator or its condition."""

import pathlib
import random
import sys

import fancy

LETTERS = fancy._LETTERS
BLANKS = "\t\n\r "
# what has no children, and may hold parts that no node has: an empty branch, and `(?~|)`
HOLDERS = "Empty", "Absent"
# comments that are in the text of a leaf, in a part or in the own text of a node
INNER = fancy.TriviumKind.INNER_COMMENT, fancy.TriviumKind.INNER_LINE_COMMENT
PARTS = [
    "a", "b", "é", " ", "#", "\n", "|", "|", "(", "(", "(?:", "(?i:", "(?<n>", "(?=", "(?>", "(?~", "(?(1)", "(?(", ")", ")", ")",
    "(?i)", "(?x)", "(?-x)", "(?#c)", "(?#\\))", "# c\n", "*", "+?", "{1,2}", "{ 1 (?#d) }", "??", "\\d", "\\#", "\\x{ 41 }", "\\1", "\\g<n>",
    "[a-z]", "[^#)]", "[a&&[b]]", ".", "^", "$", "\\b{start}", "\\K", "(?!)", "(*FAIL)", "(?P>n)", "( ?<m>",
    "(?:)", "(?(1)|)", "(?((?#c)",
]  # fmt: skip


def left(pattern, flags):
    """The characters that belong to no leaf and no part without a node, with the node around each; None if two of these overlap."""
    tree = fancy.parse(pattern, flags)
    nodes = list(tree.walk())
    around = ["Concat"] * len(pattern)
    for node in nodes:
        around[slice(*node.span)] = [node.kind] * (node.span[1] - node.span[0])
    leaves = [node.span for node in nodes if not node.children and node.kind not in HOLDERS]
    taken = [False] * len(pattern)
    for start, end in leaves + [it.span for it in tree.trivia() if it.kind not in INNER]:
        if any(taken[start:end]):
            return None
        taken[start:end] = [True] * (end - start)
    return [(at, around[at]) for at in range(len(pattern)) if not taken[at]]


def is_own(character, kind):
    """Whether a character that is in no leaf may belong to a node of this kind."""
    if kind in ("Concat", "Empty"):
        return character in BLANKS
    return kind != "Alt" or character in BLANKS + "|"


def is_covered(pattern, flags):
    rest = left(pattern, flags)
    return rest is not None and all(is_own(pattern[at], kind) for at, kind in rest)


def recorded(file):
    for line in pathlib.Path(file).read_text().splitlines():
        letters, _, fields = line.partition("\t")
        flags = sum(1 << LETTERS.index(letter) for letter in letters if letter in LETTERS)
        try:
            yield bytes.fromhex(fields.partition("\t")[0]).decode(), fancy.Flag(flags)
        except ValueError:
            pass


def made(count):
    choice = random.Random(1)
    for _ in range(count):
        flags = fancy.Flag(choice.choice([32, 32, 48, 160, 176, 288, 96, 304, choice.randrange(sum(fancy.Flag) + 1)]))
        yield "".join(choice.choices(PARTS, k=choice.randrange(1, 12))), flags


def main():
    files, count = sys.argv[1:], 0
    if "--random" in files:
        count = int(files.pop())
        files.pop()
    seen = wrong = 0
    for patterns in [*map(recorded, files), made(count)]:
        for pattern, flags in patterns:
            if fancy.check(pattern, flags) is not None:
                continue
            seen += 1
            if not is_covered(pattern, flags):
                wrong += 1
                print("not covered:", int(flags), repr(pattern), left(pattern, flags))
    print(f"each character: {seen} patterns; {wrong} wrong")
    return bool(wrong) or not seen


if __name__ == "__main__":
    sys.exit(main())

"""Does one thing with each pattern of a corpus, so that its cost can be counted: `count.py MODE FILE`, where a line of the file begins with flags
and a pattern in hexadecimal. `tools/speed python` runs it."""
import sys

import fancy

LETTERS = "imsUxuRon"


def samples(file):
    for line in open(file, encoding="ascii"):
        flags, text = line.rstrip("\n").split("\t")[:2]
        yield sum(1 << LETTERS.index(letter) for letter in flags if letter in LETTERS), bytes.fromhex(text).decode()


def is_valid(pattern, flags):
    try:
        fancy.parse(pattern, flags)
    except fancy.Error:
        return False
    return True


mode, file = sys.argv[1:]
does = {"none": lambda pattern, flags: pattern != "", "check": lambda pattern, flags: fancy.check(pattern, flags) is None, "tree": is_valid}[mode]
print(sum(does(pattern, flags) for flags, pattern in samples(file)))

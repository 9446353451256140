# Does what check.c does, by the module fancy: check.py <PATTERNS
import sys
import fancy

status = 0
for number, line in enumerate(sys.stdin.buffer, 1):
    error = fancy.check(line[:-1] if line.endswith(b"\n") else line)
    if error is not None:
        status = 1
        print(f"{number}:{error.byte_position + 1}: {error.message if error.kind else 'not UTF-8'}")
sys.exit(status)

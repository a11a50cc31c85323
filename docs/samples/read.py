# Month lines in; out, in decimal: solstice year, number, leap mark, first day and length. It stops at any other line.
import re, sys

for line in sys.stdin.buffer:
    if re.fullmatch(rb"[0-9A-F]{12}\n?", line):
        fields = line[0:3], line[3:4], line[4:5], line[5:10], line[10:12]
        print(*(int(field, 16) for field in fields))
    elif re.fullmatch(rb"E[1-5]\n?", line):
        print("refused", int(line[1:]))
    else:
        sys.exit(f"no month line: {line!r}")

"""Writes the stored run in trials/program/letters, whose entries stand below and behind letters of two bytes: its grammar
file, its report, the line of `reader` and what `entries` prints.

The answers stand beside the inputs and were worked out by hand.
"""

from grammar_fields import file
from records import write
from table_nodes import ANY, EMPTY, align, repeat, rule, sequence, terminal

MICRO, DEGREE = "\u00b5".encode(), "\u00b0".encode()
KEYWORDS = [b"offset", MICRO + b"m", b":"]
NODES = [
    *map(terminal, (3, 4, 5, 0, 2, 1)),
    sequence(3, 4),  # 6, a value: a number and the line's end.
    rule(1), align(7), repeat(8), sequence(2, 9), sequence(1, 10),
    sequence(0, 11),  # 12, offsets: the three keywords, then values below each other.
    sequence(5, 4),  # 13, a temperature: a word and the line's end.
    rule(0), rule(2),
    EMPTY, rule(3),
    sequence(15, 17), sequence(14, 18),
]
RULES = [(12, b"offsets"), (6, b"value"), (13, b"temperature"), (16, DEGREE)]

# Note 3 of 02: a letter of two bytes takes one column. So both values stand at column 11, and the first is 12 bytes behind
# its line's start. A number with a degree sign is a word. The last rule reads nothing: its name is shown. The last of the 9
# tokens, the third line's end, is read and nothing is tried behind it. No token is left, so `entries` says no farthest place.
REPORT = b"offset " + MICRO + b"m: 0.3\n           0.4\n  20" + DEGREE + b"\n"
LINE = b"success 9 11 11 clear 8\n"
ENTRIES = (b"offsets 1:1 offset " + MICRO + b"m: 0.3\n"
           b"  value 1:12 0.3\n"
           b"  value 2:12 0.4\n"
           b"temperature 3:3 20" + DEGREE + b"\n"
           + DEGREE + b" -\n")

FILES = {
    "grammar.bin": file(NODES, len(NODES) - 1, ANY, KEYWORDS, RULES),
    "stdin": REPORT,
    "stdout": LINE,
    "entries.stdout": ENTRIES + LINE,
}

if __name__ == "__main__":
    write({f"trials/program/letters/{name}": content for name, content in FILES.items()})

"""Writes the stored run of the program in trials/program/long_line: its grammar file, its report and the line, of 36 bytes.

The answer stands beside the inputs and was worked out by hand from the words of 01 that are quoted here.
"""

from grammar_fields import file
from records import write
from table_nodes import ANY, EQUAL, choice, position, repeat, sequence, terminal

# "Terminal: 3 + k where the spelling equals keyword k ..", else 0 for a number, else 1; a line's end is 2.
NODES = (
    terminal(3),  # 0: the keyword `a`
    terminal(2),  # 1: a line's end
    choice(0, 1),
    repeat(2),
    position(3, ANY),  # 4: `a` and line ends, wherever they stand
    terminal(1),
    position(5, ANY),  # 6: a word, wherever it stands
    sequence(6, 1),
    sequence(4, 7),
)
FILE = file(NODES, 8, EQUAL, [b"a"])

# "A line with a token ends in a token of terminal 2": 2,047 lines of two tokens, 4,094 tokens. Then 8,191 tabs, to
# column 65,528, six blanks and a word of one byte at column 65,534: its line's end is at column 65,535, the last
# that is allowed. Together 4,096 tokens, as many as are allowed.
REPORT = b"a\n" * 2047 + b"\t" * 8191 + b" " * 6 + b"b\n"

# In mode any the interval is met with "0 on, without end" and stays 0 without end, to the word and past it. The last
# line's end is read in mode equal: the interval is met with 65,535 to 65,535. No align: the flag stays clear. It is the last
# token, at place 4,095, and nothing is tried behind it.
LINE = b"success 4096 65535 65535 clear 4095\n"

FILES = {"grammar.bin": FILE, "stdin": REPORT, "stdout": LINE}

if __name__ == "__main__":
    write({f"trials/program/long_line/{name}": content for name, content in FILES.items()})

"""Writes the stored run in trials/program/long_list, whose list needs one place more than the program `entries` has: its
grammar file, its empty report, the line of `reader` and that of `entries`.

The answers stand beside the inputs and were worked out by hand.
"""

from grammar_fields import file
from records import write
from table_nodes import ANY, EMPTY, rule, sequence

# Rule 0 reads nothing; each of rules 1 to 13 is two of the one before. So rule k lists 2 ^ (k + 1) - 1 captures, and rule 13
# lists 16,383.
LAST = 13


def nodes():
    """The empty node, and for each rule a node that names it and one of two of them; then the start."""
    rows = [EMPTY]
    for k in range(LAST + 1):
        rows += [rule(k), sequence(2 * k + 1, 2 * k + 1)]
    # Rule 13, then rule 0 twice: 16,385 captures. The room is 16,384.
    return [*rows, sequence(2 * LAST + 1, 2)]


# Rule k + 1 stands for the two of rule k.
RULES = [(0, b"r0"), *((2 * k, b"r%d" % k) for k in range(1, LAST + 1))]
FILE = file(nodes(), 2 * LAST + 3, ANY, [], RULES)

# No token is read or tried, and the state is the start's. A run without a list needs no room.
FILES = {
    "grammar.bin": FILE,
    "stdin": b"",
    "stdout": b"success 0 0 inf clear 0\n",
    "entries.stdout": b"refused 13\n",
}

if __name__ == "__main__":
    write({f"trials/program/long_list/{name}": content for name, content in FILES.items()})

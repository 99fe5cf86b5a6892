#!/usr/bin/env python3
"""Writes the stored run of the program depth: a list over the most tokens, and the line that it must print.

tools/stack.py takes the list and the layout of a shape from here, for the grammars whose stack it measures.
"""

from records import wide, write
from table_nodes import AT_LEAST, EMPTY, choice, flat, rule, sequence, terminal

# "At most 4,096 tokens".
TOKENS = 4096

# X = (a X) / empty: rule 0 is X, terminal 0 is a.
LIST = [terminal(0), rule(0), sequence(0, 1), EMPTY, choice(2, 3)]


def shape(nodes, rules=(), mode=AT_LEAST, tokens=TOKENS, listing=False, by_2014=False):
    """The file `shape`. The layout is that of the program's first comment. The start is the last node, and so is rule 0;
    these are the other rules."""
    words, last = flat(nodes), len(nodes) - 1
    return wide(2, len(words), 1 + len(rules), tokens, last, mode, listing, by_2014, *words, last, *rules)


# "c. a, mode at least, a0: 0 to 0." Each token is an a at column 0, and the interval stays. Behind the last one a fails,
# and empty succeeds: a was tried at the count.
LINE = f"success {TOKENS} 0 0 clear {TOKENS}\n"

if __name__ == "__main__":
    write({"crates/depth/data/shape": shape(LIST), "crates/depth/stdout": LINE.encode()})

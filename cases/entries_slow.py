#!/usr/bin/env python3
"""Writes the stored run in trials/program/slow of a grammar that tries the same rule at the same token again and again:
its grammar file, its report, the line of `reader` and what `entries` prints. A run that remembers nothing does not end.

The answers stand beside the inputs and were worked out by hand.
"""

from grammar_fields import file
from records import write
from table_nodes import EQUAL, slow_rules, terminal

# 02, Note 8: "let rule 0 be a, and each of rules 1 to 60 (the rule before it, then b) or the rule before it." The start
# names rule 60. "Terminal: 3 + k where the spelling equals keyword k".
LAST = 60
NODES, RULES = slow_rules(LAST, terminal(3), terminal(4))
FILE = file(NODES, len(NODES) - 1, EQUAL, [b"a", b"b"], [(node, b"r%d" % k) for k, node in enumerate(RULES)])

# The tokens are a at column 0 and the line's end at column 1. Every rule reads a; b is tried at the line's end, which is
# the farthest place and is left: line 1, column 2.
LINE = b"success 1 0 0 clear 1\n"
# Each rule stands in the one after it.
ENTRIES = b"".join(b"  " * (LAST - k) + b"r%d 1:1 a\n" % k for k in reversed(range(LAST + 1)))

FILES = {
    "grammar.bin": FILE,
    "stdin": b"a",
    "stdout": LINE,
    "entries.stdout": ENTRIES + LINE + b"farthest 1:2\n",
}

if __name__ == "__main__":
    write({f"trials/program/slow/{name}": content for name, content in FILES.items()})

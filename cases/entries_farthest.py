#!/usr/bin/env python3
"""Writes the stored runs in trials/program of a grammar that fails inside a report, of one that fails behind its last token,
and of one that leaves tokens: the grammar file, the report, the line of `reader` and what `entries` prints, whose last line
says where the farthest place is.

The answers stand beside the inputs and were worked out by hand.
"""

from grammar_fields import file
from records import write
from table_nodes import ANY, repeat, rule, sequence, terminal

MICRO = "\u00b5".encode()
# "Terminal: 3 + k where the spelling equals keyword k ..", else 1 for a word; a line's end is 2.
WORD, EOL, A, B, C = map(terminal, (1, 2, 3, 4, 5))
LEAVES = [WORD, EOL, A, B, C]
KEYWORDS = [b"a", b"b", b"c"]


def line_of(*words):
    """The nodes of a sequence of leaves, by their numbers; the last is the whole. In mode any columns play no part."""
    nodes, last = list(LEAVES), words[-1]
    for word in reversed(words[:-1]):
        nodes.append(sequence(word, last))
        last = len(nodes) - 1
    return nodes


def run(folder, nodes, rules, report, line, entries):
    """The files of a stored run. The start is the last node."""
    files = {
        "grammar.bin": file(nodes, len(nodes) - 1, ANY, KEYWORDS, rules),
        "stdin": report,
        "stdout": line,
        "entries.stdout": entries,
    }
    return {f"trials/program/{folder}/{name}": content for name, content in files.items()}


FILES = {
    # a, b, then a word and c, each line with its end. The tokens are a 0, its end 1, b 2, its end 3, the word 4 and d 5, where
    # c is tried: in the third line, behind a letter of two bytes, which takes one column, and a blank.
    **run("farthest_inside", line_of(2, 1, 3, 1, 0, 4, 1), (), b"a\n  b\n" + MICRO + b" d\n",
          b"failure 5\n", b"failure 5\nfarthest 3:3\n"),
    # a and its end, twice: the second a is tried behind the last token.
    **run("farthest_end", line_of(2, 1, 2, 1), (), b"  a\n", b"failure 2\n", b"failure 2\nfarthest end\n"),
    # A repeat of the rule x, which is a and its end, over two such lines and one with b, where its last round tries a.
    **run("farthest_left", [*line_of(2, 1), rule(0), repeat(6)], [(5, b"x")], b"a\n a\n   b\n",
          b"success 4 0 inf clear 4\n", b"x 1:1 a\nx 2:2 a\nsuccess 4 0 inf clear 4\nfarthest 3:4\n"),
}

if __name__ == "__main__":
    write(FILES)

#!/usr/bin/env python3
"""Writes the calls that the program grammar_writer_cases makes, and the lines that it must print (README.md).

Nothing here reads a grammar file. Each call has its answer written beside it; a family of calls has one answer for all, or
the rule that gives each, in its loop or function. A file that is expected is written out or put together from its fields.
A comment quotes the words of document 01, or of Note 1 or 4 of 02, that decide an answer.
"""

import itertools
import re

import entries_letters
import entries_long_list
import faults
import grammar_file_cases
import line_cases
import published
import reader_long_line
import scanner_cases
import shown_text_cases
from grammar_fields import EVERY_KIND, NINE, START, TAIL, VERSION
from grammar_fields import EMPTY as EMPTY_FIELD
from grammar_fields import field, file, keyword, largest, node, start, with_keywords, with_names
from grammar_fields import rule as rule_field
from records import PAYLOAD_ROOM, Cases, Payloads, wide
from table_nodes import EMPTY, RELATION_COUNT
from table_nodes import align, choice, flat, indent, not_, over, position, repeat, rule, sequence, terminal

CASES = Cases("grammar_writer_cases")
# 9: empty nodes. 35 and 37: keywords and rules with spellings of 32 bytes.
FILES, WORDS = Payloads(60, (1, 9, 35, 37)), Payloads(60, (2, 8))


# --- Records and lines ---------------------------------------------------------------------------


def record(kind, label, line, lending, nodes, rules, first, mode, lent):
    """One call and the line expected of it. The layout is that of the program's first comment."""
    assert lent <= PAYLOAD_ROOM, label
    words = flat(nodes)
    five, file_bytes = FILES.stretch(lending)
    more, word_bytes = WORDS.stretch(wide(2, *words, *rules))
    numbers = wide(2, first, mode) + wide(3, lent) + wide(2, len(words), len(rules)) + wide(3, *five, *more)
    CASES.add(label, line, kind, numbers, file_bytes, word_bytes)


def total(content):
    """The sum that is printed of a longer file."""
    number = 0
    for byte in content:
        number = (number * 31 + byte) % 1000000000
    return number


def writes(label, expected, lending, nodes, rules=(), first=0, mode=0, lent=None, whole=None):
    """A call that writes the file expected. Longer ones are printed as a sum unless `whole` says otherwise. Where nothing
    else is said, five bytes more are lent: "After success, words past those written are as before." """
    whole = len(expected) <= 400 if whole is None else whole
    shown = expected.hex() if whole else f"sum {total(expected)}"
    record("W" if whole else "w", label, f"written {len(expected)} | {shown} | kept", lending, nodes, rules, first, mode,
           len(expected) + 5 if lent is None else lent)


def refused(label, number, lending, nodes, rules=(), first=0, mode=0, lent=1000):
    """ "The answer is the number", "Nothing is written." """
    assert number in (1, 2, 3, 4, 5, 6, 15)
    record("w", label, f"refused {number} | kept", lending, nodes, rules, first, mode, lent)


def again(label, content, lent=None):
    """ "writing what was just read, with the same file lending names, yields that file byte for byte" """
    lent = len(content) + 5 if lent is None else lent
    record("a", label, f"again {len(content)} | same | kept", content, (), (), 0, 0, lent)


def not_again(label, number, content, lent=1000):
    """A file that is not read, or has no room to be written again."""
    record("a", label, f"refused {number} | kept", content, (), (), 0, 0, lent)


# --- Lending files -------------------------------------------------------------------------------


def lender(spellings=(), names=(), rows=(EMPTY,), first=0, mode=0, stands_for=0):
    """A lending file with these keywords and rule names; each rule stands for one node. The table of its own is an empty
    node unless said."""
    return file(rows, first, mode, spellings, [(stands_for, name) for name in names])


def carries(label, spellings, names, nodes, rules=(), first=0, mode=0, lending=None, lent=None):
    """ "a valid grammar file that lends its keywords and rule names": these two are the lending file's, all else the
    call's."""
    expected = file(nodes, first, mode, spellings, list(zip(rules, names, strict=True)))
    writes(label, expected, lending or lender(spellings, names), nodes, rules, first, mode, lent)


def named(count):
    """So many names."""
    return [b"r%d" % i for i in range(count)]


A, B = terminal(3), terminal(4)
PLAIN = lender()


# --- The small inputs of the table of numbers ----------------------------------------------------

# The column "small input", rows 1 to 5, as the lending file; each with the fault put right.
refused("small 1, lending no bytes", 1, b"", [A])
writes("lending the smallest file", VERSION + node(1, 3) + START, VERSION + TAIL, [A])
refused("small 2, lending keyword `a b`", 2, with_keywords(b"a b"), [A])
carries("lending keyword `ab`", [b"ab"], [], [A])
refused("small 3, lending no node", 3, VERSION + START, [A])
refused("small 4, lending node 0 a repeat of 0", 4, VERSION + node(6, 0) + START, [A])
carries("lending node 1 a repeat of 0", [], [], [A], lending=VERSION + EMPTY_FIELD + node(6, 0) + START)
refused("small 5, lending rule 0 is node 1 of 1", 5, VERSION + rule_field(1, b"r") + TAIL, [A], [0])
carries("lending rule 0 is node 0 of 1", [], [b"r"], [A], [0])

# Rows 3 to 6, as the table, its rules and the start. Row 6: "a lent slice too short for what is to be written".
refused("small 3, no node", 3, PLAIN, [])
carries("one node", [], [], [EMPTY])
refused("small 4, node 0 a repeat of 0", 4, PLAIN, [repeat(0)])
carries("node 1 a repeat of 0", [], [], [EMPTY, repeat(0)])
refused("small 5, rule 0 is node 1 of 1", 5, lender((), [b"r"]), [EMPTY], [1])
carries("rule 0 is node 0 of 1", [], [b"r"], [EMPTY], [0])
# Tag 1 has 4 bytes, an empty node 9, the start 6.
refused("small 6, 19 bytes to be written and 18 lent", 6, PLAIN, [EMPTY], lent=18)
carries("19 bytes to be written and 19 lent", [], [], [EMPTY], lent=19)
# "15, rule count differs from the lending file's"
refused("small 15, one rule and none lent", 15, PLAIN, [EMPTY], [0])
refused("small 15, no rule and one lent", 15, lender((), [b"r"]), [EMPTY])


# --- Files written out ---------------------------------------------------------------------------

# "one-byte tag, two-byte length (high byte first), value. Two-byte numbers inside values are high byte first."
writes(
    "written out, no keyword and no rule",
    bytes.fromhex(
        "01 0001 01"
        "04 0006 01 00ff 0000 00"
        "05 0003 0000 02"
    ),
    PLAIN, [terminal(255)], mode=2,
)
# The lending file has other nodes, rules of other nodes and another start: its keywords and names alone are lent.
LENT = bytes.fromhex(
    "01 0001 01"
    "02 0002 6966"
    "02 0001 3a"
    "03 0003 0001 53"
    "03 0006 0000 6c697374"
    "04 0006 01 0009 0000 00"
    "04 0006 06 0000 0000 00"
    "05 0003 0001 01"
)
writes(
    "written out, every kind of node",
    bytes.fromhex(
        "01 0001 01"
        "02 0002 6966"
        "02 0001 3a"
        "03 0003 0009 53"
        "03 0006 0004 6c697374"
        "04 0006 00 0000 0000 00"
        "04 0006 01 0003 0000 00"
        "04 0006 02 0001 0000 00"
        "04 0006 03 0001 0002 00"
        "04 0006 04 0003 0000 00"
        "04 0006 05 0001 0000 00"
        "04 0006 06 0001 0000 00"
        "04 0006 07 0004 0000 01"
        "04 0006 08 0007 0000 22"
        "04 0006 09 0008 0000 00"
        "05 0003 0008 22"
    ),
    LENT,
    [EMPTY, A, rule(1), sequence(1, 2), choice(3, 0), not_(1), repeat(1), indent(4, 1), position(7, 34), align(8)],
    [9, 4], 8, 34,
)
# Numbers over 255, each with a high and a low byte: 256 is 01 00, 257 is 01 01, 258 is 01 02.
writes(
    "written out, node numbers over 255",
    bytes.fromhex(
        "01 0001 01"
        "02 0002 6966"
        "02 0001 3a"
        "03 0003 0102 53"
        "03 0006 0108 6c697374"
        + "04 0006 00 0000 0000 00" * 256 +
        "04 0006 01 00ff 0000 00"
        "04 0006 02 0001 0000 00"
        "04 0006 03 0100 0101 00"
        "04 0006 04 0001 0102 00"
        "04 0006 05 0103 0000 00"
        "04 0006 06 0104 0000 00"
        "04 0006 07 0105 0000 22"
        "04 0006 08 0106 0000 04"
        "04 0006 09 0107 0000 00"
        "05 0003 0103 1f"
    ),
    LENT,
    [EMPTY] * 256 + [terminal(255), rule(1), sequence(256, 257), choice(1, 258), not_(259), repeat(260),
                     indent(261, 34), position(262, 4), align(263)],
    [258, 264], 259, 31, whole=True,
)
# The number 511 is 01 ff, 510 is 01 fe.
writes(
    "written out, the last node of 512",
    bytes.fromhex(
        "01 0001 01"
        "02 0002 6966"
        "02 0001 3a"
        "03 0003 01ff 53"
        "03 0006 00ff 6c697374"
        + "04 0006 00 0000 0000 00" * 511 +
        "04 0006 03 01fe 00ff 00"
        "05 0003 01ff 03"
    ),
    LENT, [EMPTY] * 511 + [sequence(510, 255)], [511, 255], 511, 3, whole=True,
)
# A keyword of 32 bytes has the length 00 20, a rule of a name of 32 bytes 00 22.
writes(
    "written out, spellings of 32 bytes",
    bytes.fromhex(
        "01 0001 01"
        "02 0020" + "6b" * 32 +
        "03 0022 0000" + "72" * 32 +
        "04 0006 00 0000 0000 00"
        "05 0003 0000 00"
    ),
    lender([b"k" * 32], [b"r" * 32], [A, EMPTY], 1, 3, 1), [EMPTY], [0],
)


# --- What is lent, and what is not ---------------------------------------------------------------

# Neither the lending file's nodes nor its rules' nodes nor its start come over, whatever they are.
for said, rows, first, mode, stands_for in (
    ("one empty node", [EMPTY], 0, 0, 0),
    ("the nodes that are written", [A, B, sequence(0, 1)], 2, 1, 2),
    ("the same nodes with another start", [A, B, sequence(0, 1)], 0, 34, 1),
    ("twelve nodes", EVERY_KIND, 11, 34, 11),
    ("512 nodes", [EMPTY] * 512, 511, 3, 511),
):
    lending = lender([b"k", b":"], [b"one", b"two", b"three"], rows, first, mode, stands_for)
    carries(f"lending file of {said}", [b"k", b":"], [b"one", b"two", b"three"], [A, B, sequence(0, 1)], [2, 0, 1], 2, 1,
            lending)

# Keywords and names stand in the lending file's order; rule r has name r.
for order in itertools.permutations((b"b", b"a", b"cc")):
    said = b" ".join(order).decode()
    carries(f"names in the order {said}", [], order, [A, B, EMPTY], [0, 1, 2])
    carries(f"keywords in the order {said}", order, [], [A, B, EMPTY])
for rules in itertools.product(range(3), repeat=3):
    carries(f"rules of nodes {' '.join(map(str, rules))}", [b"k"], [b"x", b"y", b"z"], [A, B, EMPTY], rules)
# "distinct within their tag": a keyword may equal a name, and each stays where it is.
carries("keyword equal to a name", [b"same", b"k"], [b"r", b"same"], [A], [0, 0])

# "Tags 2 to 4 occur any number of times": no keyword, no rule, neither.
for spellings in ([], [b"k"], [b"k", b"l"]):
    for names in ([], [b"r"], [b"r", b"s"]):
        carries(f"{len(spellings)} keywords and {len(names)} rules", spellings, names, [A, B], [1] * len(names), 1, 3)

# "Keywords and names have 1 to 32 bytes".
for size in range(1, 33):
    carries(f"spellings of {size} bytes", [b"k" * size, b"x"], [b"r" * size, b"y"], [A, B], [1, 0])

# "none of them at or below 32 or equal to 127": every other byte, alone, first and last.
FINE = [byte for byte in range(33, 256) if byte != 127]
for byte in FINE:
    one = bytes([byte])
    carries(f"byte {byte} as keyword and name", [one], [one], [A], [0])
for byte in (33, 126, 128, 191, 192, 254, 255):
    one = bytes([byte])
    carries(f"byte {byte} first and last", [one + b"a", b"a" + one], [b"r" + one, one + b"r"], [A], [0, 0])
carries("every byte a keyword", [bytes([byte]) for byte in FINE], [], [terminal(224)])
carries("keywords and names of bytes over 127", ["\u00b5m".encode(), b"\xff\x80"], ["\u00b0".encode()], [A], [0])
# "A keyword that holds one of the nine single bytes below has length 1." Names have no such rule.
for byte in NINE:
    sign = bytes([byte])
    carries(f"keyword `{sign.decode()}`, and in a name", [sign], [b"a" + sign + b"b"], [A], [0])
carries("the nine single bytes as keywords", [bytes([byte]) for byte in NINE], [NINE], [A], [0])


# --- The table that is written -------------------------------------------------------------------

# Every terminal. No check asks for a keyword of that number: "a = terminal, 0 to 255".
for number in (0, 1, 2, 3, 4, 5, 127, 128, 254, 255):
    carries(f"terminal {number}, one keyword", [b"k"], [], [terminal(number)])
carries("terminals 0 to 255", [], [], [terminal(number) for number in range(256)])

# "Relations and modes 4 to 34 now mean ..", and 0 to 3 as before (02, Note 1).
for number in range(RELATION_COUNT):
    carries(f"relation {number}", [], [], [A, indent(0, number), position(1, number)], (), 2)
    carries(f"mode {number}", [], [], [A], mode=number)

# Each node as the start, and as a rule's.
for count in (1, 2, 3, 255, 256, 257, 258, 511, 512):
    for number in sorted({0, count // 2, count - 2, count - 1} & set(range(count))):
        carries(f"start node {number} of {count}", [], [], [EMPTY] * count, (), number, 3)
        carries(f"rule node {number} of {count}", [], [b"r"], [EMPTY] * count, [number])

# The same child twice, and children in both orders.
for a, b in itertools.product((0, 1, 255, 256, 257, 299), repeat=2):
    carries(f"sequence and choice of {a} {b}", [], [], [EMPTY] * 300 + [sequence(a, b), choice(b, a)], (), 301)

# A table with one node of each kind more, up to the twelve.
for count in range(1, len(EVERY_KIND) + 1):
    carries(f"the first {count} of twelve nodes", [b"k"], [b"x", b"y", b"z"], EVERY_KIND[:count], [count - 1, 0, count // 2],
            count - 1, 2)

# Well-formedness, 7, is none of this call's checks: "the lending file by 1 to 5, the tables and start by 3 to 5, then the
# new one, then 6". Row 7's small input, case j and others, as the lending file's table and as the call's.
for said, nodes, rules in (
    ("rule 0 is node 0 is rule 0", [rule(0)], [0]),
    ("repeat of empty", [EMPTY, repeat(0)], [1]),
    ("case j", [A, EMPTY, choice(0, 1), rule(0), sequence(2, 3)], [4]),
    ("two rules of each other", [rule(0), rule(1)], [1, 0]),
    ("a repeat of a rule that may read nothing", [A, not_(0), rule(0), repeat(2)], [1]),
):
    names = named(len(rules))
    ill_formed = file(nodes, len(nodes) - 1, 1, [b"k"], list(zip(rules, names)))
    writes(f"{said}, written", ill_formed, lender([b"k"], names), nodes, rules, len(nodes) - 1, 1)
    carries(f"{said}, lending", [b"k"], names, [A], [0] * len(rules), 0, 1, ill_formed)
    again(f"{said}, again", ill_formed)


# --- Limits --------------------------------------------------------------------------------------

# "1 to 512 nodes, 0 to 128 rules", "At most 253 keywords".
for count in (1, 2, 511, 512):
    carries(f"{count} nodes", [b"k"], [b"r"], over([A], align, count), [count - 1], count - 1)
for count in (0, 1, 2, 127, 128):
    carries(f"{count} rules", [], named(count), [A, B], [i % 2 for i in range(count)])
for count in (0, 1, 2, 252, 253):
    carries(f"{count} keywords", [b"k%d" % i for i in range(count)], [b"r"], [A], [0])
carries("128 rules and 512 nodes", [], named(128), [terminal(i % 256) for i in range(512)], range(511, 383, -1), 300, 34)

# All limits at once: 253 keywords and 128 names of 32 bytes, 512 nodes. 4 + 253 * 35 + 128 * 37 + 512 * 9 + 6 bytes.
WIDE = [b"%032d" % i for i in range(253)]
MANY = [terminal(i) for i in range(256)] + [sequence(i - 1, i - 256) for i in range(256, 512)]
MANY_RULES = [(7 * i) % 512 for i in range(128)]
LONGEST = file(MANY, 510, 34, WIDE, list(zip(MANY_RULES, WIDE)))
assert len(LONGEST) == 18209
SHORT_LENDER = lender(WIDE, WIDE[:128])
for said, lending in (
    ("one node", SHORT_LENDER), ("512 other nodes", largest([EMPTY] * 512)), ("those nodes", LONGEST),
):
    writes(f"longest, lending file of {said}", LONGEST, lending, MANY, MANY_RULES, 510, 34)
for lent in (18209, 18210, 18300, 65535, PAYLOAD_ROOM):
    writes(f"longest, {lent} bytes lent", LONGEST, SHORT_LENDER, MANY, MANY_RULES, 510, 34, lent)
for lent in (0, 1, 4, 6, 9104, 18207, 18208):
    refused(f"longest, {lent} bytes lent", 6, SHORT_LENDER, MANY, MANY_RULES, 510, 34, lent)
# The longest file lends all it has to a table of one node: 511 * 9 bytes less.
carries("one node, the longest file lending", WIDE, WIDE[:128], [B], [0] * 128, 0, 1, LONGEST)
again("longest", LONGEST)
again("longest, no byte more lent", LONGEST, 18209)
not_again("longest, one byte less lent", 6, LONGEST, 18208)


# --- The lending file by 1 to 5 ------------------------------------------------------------------


def faulty(number, said, bad, *mended):
    """A lending file that is refused by the number, and the same with the fault put right: its keywords, its names and the
    file."""
    refused(f"lending, {said}", number, bad, [A], [0])
    if mended:
        spellings, names, content = mended
        carries(f"lending, not {said}", spellings, names, [A], [0] * len(names), 0, 1, content)


# "file over length, a field cut short, tag missing, out of order or unknown, wrong value length .., tag 1's value not 1,
# over 253 keywords"
KEY, NAME = keyword(b"k"), rule_field(0, b"r")
LENDS = VERSION + KEY + NAME + TAIL
for said, bad in (
    ("a field cut short", LENDS[:-1]),
    ("no tag 1", LENDS[4:]),
    ("no tag 5", LENDS[:-6]),
    ("tag 3 before tag 2", VERSION + NAME + KEY + TAIL),
    ("tag 4 before tag 3", VERSION + KEY + EMPTY_FIELD + NAME + START),
    ("tag 6", VERSION + KEY + field(6, b"") + NAME + TAIL),
    ("a byte more", LENDS + b"\0"),
    ("a tag 5 more", LENDS + START),
    ("a node of 5 bytes", VERSION + KEY + NAME + field(4, bytes(5)) + START),
    ("a start of 2 bytes", VERSION + KEY + NAME + EMPTY_FIELD + field(5, bytes(2))),
    ("a rule of 1 byte", VERSION + KEY + field(3, b"\0") + TAIL),
    ("tag 1 of value 2", field(1, b"\x02") + LENDS[4:]),
    ("tag 1 of 2 bytes", field(1, b"\x01\x01") + LENDS[4:]),
):
    faulty(1, said, bad)
carries("lending, none of these", [b"k"], [b"r"], [A], [0], lending=LENDS)
KEYS = [b"k%d" % i for i in range(254)]
faulty(1, "254 keywords", lender(KEYS), KEYS[:253], [], lender(KEYS[:253]))
# "At most 65,535 bytes": the frame around a keyword has 22. At that length it is the keyword's 2.
faulty(1, "65,536 bytes", with_keywords(b"a" * 65514))
faulty(2, "65,535 bytes", with_keywords(b"a" * 65513))

# "keyword or name breaks its rules, length too"
for said, bad, good in (
    ("of 0 bytes", [b""], [b"a"]),
    ("of 33 bytes", [b"a" * 33], [b"a" * 32]),
    ("of byte 32", [b"a\x20"], [b"a\x21"]),
    ("of byte 127", [b"a\x7f"], [b"a\x80"]),
    ("of byte 31", [b"\x1f"], [b"\x7e"]),
    ("equal to another", [b"a", b"b", b"a"], [b"a", b"b", b"c"]),
):
    faulty(2, f"a keyword {said}", with_keywords(*bad), good, [], with_keywords(*good))
    faulty(2, f"a name {said}", with_names(*bad), [], good, with_names(*good))
for byte in NINE:
    sign = bytes([byte])
    faulty(2, f"a keyword with `{sign.decode()}` of two bytes", with_keywords(sign + b"a"), [sign, b"a"], [],
            with_keywords(sign, b"a"))

# "node or rule count outside the limits"
faulty(3, "no node", VERSION + KEY + NAME + START, [b"k"], [b"r"], LENDS)
faulty(3, "513 nodes", VERSION + EMPTY_FIELD * 513 + START, [], [], VERSION + EMPTY_FIELD * 512 + START)
faulty(3, "129 rules", lender((), named(129)), [], named(128), lender((), named(128)))

# "kind over 9, child not lower, no such rule, terminal over 255, relation over 3, unused word not 0"; for relations
# "Numbers 4, 5 and 12 begin at relation or mode 35." (02, Note 1)
for said, bad, good in (
    ("kind 10", (10, 0, 0, 0), (9, 0, 0, 0)),
    ("a child of the same number", (6, 1, 0, 0), (6, 0, 0, 0)),
    ("a second child of the same number", (3, 0, 1, 0), (3, 0, 0, 0)),
    ("rule 1 of 1", (2, 1, 0, 0), (2, 0, 0, 0)),
    ("terminal 256", (1, 256, 0, 0), (1, 255, 0, 0)),
    ("an indent by 35", (7, 0, 0, 35), (7, 0, 0, 34)),
    ("a position by 35", (8, 0, 0, 35), (8, 0, 0, 34)),
    ("an unused a", (0, 1, 0, 0), (0, 0, 0, 0)),
    ("an unused b", (5, 0, 1, 0), (5, 0, 0, 0)),
    ("an unused relation", (4, 0, 0, 1), (4, 0, 0, 0)),
):
    faulty(4, said, lender([b"k"], [b"r"], [EMPTY, bad]), [b"k"], [b"r"], lender([b"k"], [b"r"], [EMPTY, good]))

# "a rule's node, or a file's start node, not in the table; file's mode over 3", from 35 on (02, Note 1)
for said, bad, good in (
    ("rule node 2 of 2", {"stands_for": 2}, {"stands_for": 1}),
    ("start node 2 of 2", {"first": 2}, {"first": 1}),
    ("mode 35", {"mode": 35}, {"mode": 34}),
    ("rule node 256 of 2", {"stands_for": 256}, {"stands_for": 0}),
    ("start node 65,535 of 2", {"first": 65535}, {"first": 0}),
    ("mode 255", {"mode": 255}, {"mode": 3}),
):
    faulty(5, said, lender([b"k"], [b"r"], [EMPTY] * 2, **bad), [b"k"], [b"r"], lender([b"k"], [b"r"], [EMPTY] * 2, **good))


# --- The tables and the start by 3 to 5 ----------------------------------------------------------

# "node words no multiple of 4, node or rule count outside the limits"
for count in (0, 1, 2, 3, 5, 6, 7, 9, 2047, 2049, 2050, 2051, 2052, 2053, 2056, 2100):
    refused(f"{count} node words", 3, PLAIN, [0] * count)
for count in (4, 8, 2044, 2048):
    carries(f"{count} node words", [], [], [EMPTY] * (count // 4))
for count in (129, 130, 200):
    refused(f"{count} rules, 128 lent", 3, lender((), named(128)), [EMPTY], [0] * count)

# "kind over 9, child not lower, no such rule, terminal over 255, relation over 3, unused word not 0"; for relations 35 on.
# The words are those of node 1 of 3; there is one rule. A word has room for numbers that no field has: 256 is 0 in a byte,
# 265 is 9 and 290 is 34.
for number, words in (
    (None, (0, 0, 0, 0)), (4, (0, 1, 0, 0)), (4, (0, 0, 1, 0)), (4, (0, 0, 0, 1)), (4, (0, 0, 0, 256)),
    (None, (1, 255, 0, 0)), (4, (1, 256, 0, 0)), (4, (1, 65535, 0, 0)), (4, (1, 0, 1, 0)), (4, (1, 0, 0, 1)),
    (None, (2, 0, 0, 0)), (4, (2, 1, 0, 0)), (4, (2, 256, 0, 0)), (4, (2, 0, 1, 0)), (4, (2, 0, 0, 1)),
    (None, (3, 0, 0, 0)), (4, (3, 1, 0, 0)), (4, (3, 0, 1, 0)), (4, (3, 2, 0, 0)), (4, (3, 0, 0, 1)), (4, (3, 0, 256, 0)),
    (None, (4, 0, 0, 0)), (4, (4, 1, 0, 0)), (4, (4, 0, 1, 0)), (4, (4, 2, 0, 0)), (4, (4, 0, 0, 1)), (4, (4, 256, 0, 0)),
    (None, (5, 0, 0, 0)), (4, (5, 1, 0, 0)), (4, (5, 2, 0, 0)), (4, (5, 0, 1, 0)), (4, (5, 0, 0, 1)), (4, (5, 256, 0, 0)),
    (None, (6, 0, 0, 0)), (4, (6, 1, 0, 0)), (4, (6, 2, 0, 0)), (4, (6, 0, 1, 0)), (4, (6, 0, 0, 1)), (4, (6, 256, 0, 0)),
    (None, (7, 0, 0, 34)), (4, (7, 0, 0, 35)), (4, (7, 0, 0, 256)), (4, (7, 0, 0, 290)), (4, (7, 1, 0, 1)),
    (4, (7, 0, 1, 1)), (None, (8, 0, 0, 34)), (4, (8, 0, 0, 35)), (4, (8, 0, 0, 256)), (4, (8, 0, 0, 290)),
    (4, (8, 1, 0, 1)), (4, (8, 0, 1, 1)),
    (None, (9, 0, 0, 0)), (4, (9, 1, 0, 0)), (4, (9, 2, 0, 0)), (4, (9, 0, 1, 0)), (4, (9, 0, 0, 1)), (4, (9, 256, 0, 0)),
    (4, (10, 0, 0, 0)), (4, (255, 0, 0, 0)), (4, (256, 0, 0, 0)), (4, (265, 0, 0, 0)), (4, (65535, 0, 0, 0)),
):
    label = "node of words " + " ".join(map(str, words))
    if number is None:
        carries(label, [b"k"], [b"r"], [EMPTY, words, EMPTY], [2])
    else:
        refused(label, number, lender([b"k"], [b"r"]), [EMPTY, words, EMPTY], [2])
# The call's rules count, not the lending file's: 127 of 128 is there, 128 is not.
carries("rule 127 of 128", [], named(128), [rule(127)], [0] * 128)
refused("rule 128 of 128", 4, lender((), named(128)), [rule(128)], [0] * 128)
# One bad node, at every place.
for place, nodes in faults.places([EMPTY] * 4, (10, 0, 0, 0)):
    refused(f"bad node at {place} of 5", 4, PLAIN, nodes)

# "a rule's node, or a file's start node, not in the table; file's mode over 3", from 35 on (02, Note 1). The call's start
# is checked so too: "the tables and start by 3 to 5".
for count in (1, 2, 255, 256, 257, 512):
    refused(f"rule node {count} of {count}", 5, lender((), [b"r"]), [EMPTY] * count, [count])
    refused(f"start node {count} of {count}", 5, PLAIN, [EMPTY] * count, (), count)
for number in (2, 255, 256, 257, 512, 32768, 65280, 65535):
    refused(f"rule node {number} of 1", 5, lender((), [b"r"]), [EMPTY], [number])
    refused(f"start node {number} of 1", 5, PLAIN, [EMPTY], (), number)
# The lending file has node 1 and starts there, the table has not.
refused("start node 1 of 1, the lending file's of 2", 5, lender((), (), [A, B], 1), [EMPTY], (), 1)
refused("rule node 1 of 1, the lending file's of 2", 5, lender((), [b"r"], [A, B], 0, 0, 1), [EMPTY], [1])
for mode in (35, 36, 67, 128, 255, 256, 257, 259, 290, 291, 32768, 65280, 65535):
    refused(f"mode {mode}", 5, PLAIN, [EMPTY], (), 0, mode)
for place, rules in faults.places([0, 1, 0], 2):
    refused(f"bad rule node at {place} of 4", 5, lender((), named(4)), [EMPTY] * 2, rules)


# --- The rule count: 15 --------------------------------------------------------------------------

# "15, rule count differs from the lending file's": one more, one less, none against one, one against none.
for lent, count in itertools.product(range(5), repeat=2):
    label = f"{count} rules, {lent} lent"
    if lent == count:
        carries(label, [b"k"], named(lent), [A, B], [1] * count, 1, 1)
    else:
        refused(label, 15, lender([b"k"], named(lent)), [A, B], [1] * count, 1, 1)
for lent, count in ((128, 127), (127, 128), (128, 0), (0, 128), (128, 1), (1, 128), (127, 126), (64, 128)):
    refused(f"{count} rules of one node, {lent} lent", 15, lender((), named(lent)), [EMPTY], [0] * count)
# Neither the nodes' count nor the keywords' is asked.
for count in (1, 2, 3, 4):
    carries(f"{count} nodes, 2 lent", [b"k"], [b"r"], [A] * count, [0], lending=lender([b"k"], [b"r"], [B, B]))


# --- Room: 6 -------------------------------------------------------------------------------------

# "a lent slice too short for what is to be written": 4 + 9 + 6 bytes, then 4 + 4 + 6 + 2 * 9 + 6.
for size, spellings, names, nodes, rules in ((19, [], [], [A], []), (38, [b"k"], [b"r"], [A, B], [1])):
    for lent in range(size):
        refused(f"{size} bytes and {lent} lent", 6, lender(spellings, names, [EMPTY] * 3), nodes, rules, 0, 1, lent)
    for lent in (size, size + 1, size + 2, 64, 1000, 18209, 65536, PAYLOAD_ROOM):
        carries(f"{size} bytes and {lent} lent", spellings, names, nodes, rules, 0, 1, None, lent)
# The room is the written file's, not the lending file's, whether that is longer or shorter.
LONG_LENDER = lender([b"k"], [b"r"], [EMPTY] * 100)
refused("38 bytes and 37 lent, the lending file of 920", 6, LONG_LENDER, [A, B], [1], 1, 1, 37)
carries("38 bytes and 38 lent, the lending file of 920", [b"k"], [b"r"], [A, B], [1], 1, 1, LONG_LENDER, 38)
refused("920 bytes and 919 lent, the lending file of 29", 6, lender([b"k"], [b"r"]), [A] * 100, [1], 1, 1, 919)
carries("920 bytes and 920 lent, the lending file of 29", [b"k"], [b"r"], [A] * 100, [1], 1, 1, None, 920)
refused("920 bytes and 29 lent, the lending file of 29", 6, lender([b"k"], [b"r"]), [A] * 100, [1], 1, 1, 29)


# --- The order of the numbers --------------------------------------------------------------------

# "Checks go: the lending file by 1 to 5, the tables and start by 3 to 5, then the new one, then 6." So a number of the
# lending file comes before a lower one of the tables, and 15 before 6.
R = lender([b"k"], [b"r"])
LATE, BAD_RULE = lender([b"k"], [b"r"], mode=35), lender([b"k"], [b"r"], stands_for=1)
for number, said, lends, nodes, rules, first, mode, lent in (
    (1, "lending 1 before lending 2", with_keywords(b"a b") + b"\0", [A], [], 0, 0, 50),
    (2, "lending 2 before lending 3", VERSION + keyword(b"a b") + START, [A], [], 0, 0, 50),
    (3, "lending 3 before lending 4", VERSION + node(10) + EMPTY_FIELD * 512 + START, [A], [], 0, 0, 50),
    (4, "lending 4 before lending 5", VERSION + node(10) + start(1, 35), [A], [], 0, 0, 50),
    (5, "lending 5, the mode, before 3, no node", LATE, [], [0], 0, 0, 50),
    (5, "lending 5, the mode, before 3, five words", LATE, [0] * 5, [0], 0, 0, 50),
    (5, "lending 5, a rule's node, before 3, 129 rules", BAD_RULE, [A], [0] * 129, 0, 0, 50),
    (5, "lending 5, the start node, before 3, 513 nodes", lender((), (), first=1), [EMPTY] * 513, [], 0, 0, 50),
    (5, "lending 5 before 4", LATE, [repeat(0)], [0], 0, 0, 50),
    (5, "lending 5 before 15", LATE, [A], [], 0, 0, 50),
    (5, "lending 5 before 6", LATE, [A], [0], 0, 0, 0),
    (4, "lending 4 before 3", VERSION + node(10) + START, [], [], 0, 0, 50),
    (1, "lending 1 before 3", b"", [], [], 0, 0, 50),
    (1, "lending 1 before all others", b"", [10, 0, 0], [9], 9, 35, 0),
    (2, "lending 2 before all others", with_keywords(b"a b"), [10, 0, 0], [9], 9, 35, 0),
    (3, "3 before 4, five words and kind 10", R, [10, 0, 0, 0, 0], [0], 0, 0, 50),
    (3, "3 before 4, 129 rules and kind 10", R, [(10, 0, 0, 0)], [0] * 129, 0, 0, 50),
    (3, "3 before 5, no node and start node 0", R, [], [0], 0, 0, 50),
    (3, "3 before 5, no node and mode 35", R, [], [], 0, 35, 50),
    (3, "3 before 15, 129 rules and one lent", R, [A], [0] * 129, 0, 0, 50),
    (3, "3 before 6, no node and no byte lent", R, [], [0], 0, 0, 0),
    (4, "4 before 5, kind 10 and a rule's node", R, [(10, 0, 0, 0)], [1], 0, 0, 50),
    (4, "4 before 5, kind 10 and the start node", R, [(10, 0, 0, 0)], [0], 1, 0, 50),
    (4, "4 before 5, relation 35 and mode 35", R, [A, indent(0, 35)], [0], 0, 35, 50),
    (4, "4 before 15", R, [(10, 0, 0, 0)], [0, 0], 0, 0, 50),
    (4, "4 before 15, a rule that only the lending file has", lender((), named(2)), [rule(1)], [0], 0, 0, 50),
    (4, "4 before 6", R, [(10, 0, 0, 0)], [0], 0, 0, 0),
    (5, "5, a rule's node, before 15", R, [A], [0, 1], 0, 0, 50),
    (5, "5, the start node, before 15, no rule", R, [A], [], 1, 0, 50),
    (5, "5, the start node, before 15, two rules", R, [A], [0, 0], 1, 0, 50),
    (5, "5, the mode, before 15", R, [A], [], 0, 35, 50),
    (5, "5, a rule's node, before 6", R, [A], [1], 0, 0, 0),
    (5, "5, the start node, before 6", R, [A], [0], 1, 0, 0),
    (5, "5, the mode, before 6", R, [A], [0], 0, 35, 0),
    (15, "15 before 6, no rule and no byte lent", R, [A], [], 0, 0, 0),
    (15, "15 before 6, two rules and no byte lent", R, [A], [0, 0], 0, 0, 0),
    (15, "15 before 6, one rule against none and 18 bytes lent", PLAIN, [A], [0], 0, 0, 18),
):
    refused(said, number, lends, nodes, rules, first, mode, lent)

# Choices of faults, one of each number, at most three together or all ten: the answer is the first one chosen, in the
# order of the checks.


def late_call(chosen, last):
    """A table with faults of 3 to 5 behind its good parts, for the four rules of `faults.late_file`."""
    nodes = [terminal(1), (10, 0, 0, 0) if 4 in chosen else terminal(2)]
    rules = [0, 1, 0, 2 if 5 in chosen else 1] + [0] * (15 in last)
    return nodes + [0] * (3 in chosen), rules, 0, 34


def early_call(chosen, last):
    """The same, before them, for the one rule of `faults.early_file`; 5 is the start's."""
    nodes = [terminal(256 if 4 in chosen else 7), EMPTY, repeat(0)]
    return nodes, [2] * (129 if 3 in chosen else 0 if 15 in last else 1), 3 if 5 in chosen else 1, 1


# What is written of each where there is no fault.
LATE_FILE = file([terminal(1), terminal(2)], 0, 34, [b"k"], [(0, b"first"), (1, b"rule0"), (0, b"rule1"), (1, b"last")])
EARLY_FILE = file([terminal(7), EMPTY, repeat(0)], 1, 1, [b"a"], [(2, b"r")])
CHOICES = list(itertools.product(faults.choices(1, 2, 3, 4, 5), faults.choices(3, 4, 5), faults.choices(15, 6)))
for said, lent_by, call, expected in (
    ("late", faults.late_file, late_call, LATE_FILE),
    ("early", faults.early_file, early_call, EARLY_FILE),
):
    for of_file, of_table, last in CHOICES:
        chosen = of_file + of_table + last
        if len(chosen) not in (0, 1, 2, 3, 10):
            continue
        label = faults.label(f"{said}, lending", of_file) + faults.label(", table", of_table) + faults.label(", last", last)
        lent = len(expected) - (6 in last)
        if chosen:
            refused(label, chosen[0], lent_by(of_file), *call(of_table, last), lent)
        else:
            writes(label, expected, lent_by(of_file), *call(of_table, last), lent)


# --- The files and tables of other programs ------------------------------------------------------


def answered(cases, payloads, kinds):
    """The label, the answer that is expected, the record and the payload of each call of these kinds."""
    for stored, line, payload in zip(cases.records, cases.lines, payloads.all, strict=True):
        if chr(stored[0]) in kinds:
            text = line.encode().rstrip(b"\n")
            yield text[: stored[1]].decode(), text[stored[1] + 2 :].decode(), stored, payload


def refusal(answer):
    """The number of a refusal by 1 to 5, or none: then the grammar file has passed these."""
    found = re.match(r"refused ([1-5])\b", answer)
    return int(found[1]) if found else None


# Of equal files the first stands.
SEEN = set()


# The tables that the file reader's cases check by 3 to 5: "the tables and start by 3 to 5". A table that passes is written,
# with as many names lent as it has rules, the start its last node in mode 34.
for label, answer, stored, payload in answered(grammar_file_cases.CASES, grammar_file_cases.BEFORE, "t"):
    words = [int.from_bytes(payload[i : i + 2], "big") for i in range(0, len(payload), 2)]
    count = int.from_bytes(stored[2:4], "big")
    nodes, rules = words[:count], words[count:]
    names = named(min(len(rules), 128))
    if refusal(answer):
        refused(f"{label}, written", refusal(answer), lender((), names), nodes, rules)
    else:
        rows = list(zip(*[iter(nodes)] * 4, strict=True))
        carries(f"{label}, written", [], names, rows, rules, len(rows) - 1, 34)

# The grammar files that the file reader's cases have refused by 1 to 5 lend nothing: "the lending file by 1 to 5".
for label, answer, _, content in answered(grammar_file_cases.CASES, grammar_file_cases.BEFORE, "rR"):
    if refusal(answer) and content not in SEEN:
        SEEN.add(content)
        refused(f"file case lending, {label}", refusal(answer), content, [A])

# The valid grammar files of the programs over such files are written again.
for said, cases, payloads, kinds in (
    ("file", grammar_file_cases.CASES, grammar_file_cases.BEFORE, "rR"),
    ("scanner", scanner_cases.CASES, scanner_cases.PAIRS.files, "sanocv"),
    ("line", line_cases.CASES, line_cases.PAIRS.files, "l"),
    ("text", shown_text_cases.CASES, shown_text_cases.PAIRS.files, "s"),
):
    for label, answer, _, content in answered(cases, payloads, kinds):
        if not refusal(answer) and content not in SEEN:
            SEEN.add(content)
            again(f"{said} case again, {label}", content)

# So are those that were made from published papers, all of which are read.
for label, content in published.FILES:
    if content not in SEEN:
        SEEN.add(content)
        again(f"published again, {label}", content)

# The grammar files of the stored runs under trials/program.
again("trials/program/letters", entries_letters.FILES["grammar.bin"])
again("trials/program/long_line", reader_long_line.FILE)
again("trials/program/long_list", entries_long_list.FILE)

# The grammar of README's first page, as tools/build.py lays it out: examples/grammar.bin.
SPLICES = [
    rule(1), position(0, 3), rule(2), align(2), repeat(3), terminal(2), terminal(0), terminal(1),
    *map(terminal, range(3, 11)), choice(14, 15), choice(13, 16), choice(12, 17), choice(11, 18), choice(10, 19),
    choice(9, 20), choice(8, 21), choice(7, 22), choice(6, 23), choice(5, 24), position(25, 3), indent(26, 3), not_(27),
    sequence(4, 28), sequence(1, 29), not_(8), repeat(24), sequence(32, 5), sequence(31, 33), repeat(34), rule(3), rule(4),
    rule(5), choice(37, 38), choice(36, 39), align(40), repeat(41), indent(42, 1), sequence(5, 43), sequence(6, 44),
    sequence(8, 45), sequence(6, 5), sequence(13, 47), sequence(6, 48), sequence(12, 49), sequence(9, 50), choice(13, 5),
    choice(6, 52), repeat(53), sequence(15, 5), sequence(54, 55), position(56, 3), sequence(14, 57), sequence(12, 58),
    sequence(10, 59), sequence(11, 50),
]
SPLICE_WORDS = [b"splice", b"arc", b"alignment", b"cleave", b":", b",", b"[", b"]"]
SPLICE_RULES = [(30, b"report"), (35, b"heading"), (46, b"splice"), (51, b"arc"), (60, b"alignment"), (61, b"cleave")]
SPLICE_FILE = file(SPLICES, 30, 1, SPLICE_WORDS, SPLICE_RULES)
again("examples/grammar.bin", SPLICE_FILE)
# The same table written with a file that has the keywords and names alone, and with another start.
SPLICE_NODES, SPLICE_NAMES = zip(*SPLICE_RULES)
for said, first, mode in (("", 30, 1), (", from an arc in any column", 51, 3)):
    label = f"examples/grammar.bin from its table{said}"
    carries(label, SPLICE_WORDS, SPLICE_NAMES, SPLICES, SPLICE_NODES, first, mode)

# Room for a file that is written again: as many bytes as it has, one less, none.
for said, content in (("smallest file", VERSION + TAIL), ("examples/grammar.bin", SPLICE_FILE)):
    again(f"{said}, no byte more lent", content, len(content))
    again(f"{said}, much more lent", content, PAYLOAD_ROOM)
    for lent in (len(content) - 1, 1, 0):
        not_again(f"{said} again, {lent} bytes lent", 6, content, lent)
# A file that is not read is not written again.
for number in (1, 2, 3, 4, 5):
    not_again(f"late file with fault {number} again", number, faults.late_file((number,)))
    not_again(f"early file with fault {number} again", number, faults.early_file((number,)))


if __name__ == "__main__":
    CASES.write()

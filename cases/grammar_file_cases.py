#!/usr/bin/env python3
"""Writes the calls that the program grammar_file_cases makes, and the lines that it must print (README.md).

Nothing here reads a grammar file. Each call has its answer written beside the bytes that are put
together for it; a family of calls has one answer for all, or the rule that gives each, in its loop or
function. A comment quotes the words of document 01 that decide it.
"""

import itertools

import faults
import grammar_fields
from grammar_fields import EMPTY, EVERY_KIND, NINE, START, TAIL, VERSION
from grammar_fields import field, keyword, node, rule, start, with_keywords, with_names
from records import Cases, Payloads, spaced, wide
from table_nodes import flat

CASES = Cases("grammar_file_cases")
BEFORE = Payloads()


# --- Records and lines ---------------------------------------------------------------------------


def record(kind, label, x, y, payload, line):
    """One call and the line expected of it. The layout is that of the program's first comment."""
    same, rest = BEFORE.front(payload)
    CASES.add(label, line, kind, wide(2, x, y) + wide(3, same, len(payload)), rest)


# Node words and rule words lent.
SMALL, WIDE = (64, 16), (2100, 200)


def reads(label, answer, file, lent=SMALL, words=None):
    """A file that is read. The answer: nodes, rules, keywords, start node, start mode.

    words: the nodes and the rule words that are expected, to be printed too. Lent words past the written
    ones keep the marker: "After success, words past those written are as before." A check of the file
    alone answers the same.
    """
    line = spaced("read", answer)
    if words is not None:
        nodes, rules = words
        line += spaced(" | nodes", flat(nodes)) + spaced(" | rules", rules)
    line += " | kept | check " + spaced("read", answer)
    record("r" if words is None else "R", label, *lent, file, line)


def refused(label, number, file, lent=SMALL):
    """A file that is refused by one of 1 to 5. "Nothing is written." """
    assert 1 <= number <= 5
    record("r", label, *lent, file, f"refused {number} | kept | check refused {number}")


def short(label, answer, file, lent):
    """A file that passes 1 to 5 but not 6; the answer is that of a check of the file alone."""
    record("r", label, *lent, file, "refused 6 | kept | check " + spaced("read", answer))


def part(kind, label, number, file, expected):
    """The bytes of a keyword (k, K) or of a rule's name (n, N)."""
    record(kind, label, number, 0, file, f'"{expected}" {len(expected.encode())}')


def spelled(label, number, *texts):
    """The texts as keywords, then as names: files that are read (None) or refused. The label has {} for which."""
    for kind, build, answer in SPELLED:
        if number is None:
            reads(label.format(kind), answer(len(texts)), build(*texts))
        else:
            refused(label.format(kind), number, build(*texts))


SPELLED = (
    ("keyword", with_keywords, lambda count: (1, 0, count, 0, 0)),
    ("name", with_names, lambda count: (1, count, 0, 0, 0)),
)


def table(label, nodes, rules, expected):
    """A check of a table by itself, by 3 to 5."""
    words = flat(nodes)
    record("t", label, len(words), len(rules), wide(2, *words, *rules), expected)


# --- The small inputs of the table of numbers ----------------------------------------------------

# The column "small input", rows 1 to 6.
refused("small 1, no bytes", 1, b"")
refused("small 2, keyword `a b`", 2, with_keywords(b"a b"))
refused("small 3, no node", 3, VERSION + START)
refused("small 4, node 0 a repeat of 0", 4, VERSION + node(6, 0) + START)
refused("small 5, rule 0 is node 1 of 1", 5, VERSION + rule(1, b"r") + EMPTY + START)
short("small 6, 1 node and 3 words", (1, 0, 0, 0, 0), VERSION + EMPTY + START, (3, 0))

# The same files with the fault put right.
reads("smallest file", (1, 0, 0, 0, 0), VERSION + EMPTY + START, (4, 0), ([(0, 0, 0, 0)], []))
reads("repeat of an earlier node", (2, 0, 0, 1, 0), VERSION + EMPTY + node(6, 0) + start(1), (8, 0),
      ([(0, 0, 0, 0), (6, 0, 0, 0)], []))
reads("rule 0 is node 0 of 1", (1, 1, 0, 0, 0), VERSION + rule(0, b"r") + EMPTY + START, (4, 1), ([(0, 0, 0, 0)], [0]))

# A file byte by byte, written out: the two-byte numbers are high byte first.
reads(
    "bytes written out",
    (2, 1, 1, 1, 2),
    bytes.fromhex(
        "01 0001 01"
        "02 0002 6966"
        "03 0003 0001 53"
        "04 0006 01 00ff 0000 00"
        "04 0006 07 0000 0000 03"
        "05 0003 0001 02"
    ),
    (12, 4),
    ([(1, 255, 0, 0), (7, 0, 0, 3)], [1]),
)


# --- A file with every kind ----------------------------------------------------------------------

FULL_RULES = [(11, b"report"), (3, b"line"), (0, b"loss")]
FULL_KEYWORDS = [b"loss", b":", "na\u00efve".encode()]
FULL_FIELDS = (
    [VERSION]
    + [keyword(k) for k in FULL_KEYWORDS]
    + [rule(n, name) for n, name in FULL_RULES]
    + [node(*n) for n in EVERY_KIND]
    + [start(9, 1)]
)
FULL = b"".join(FULL_FIELDS)
FULL_ANSWER = (12, 3, 3, 9, 1)

reads("full", FULL_ANSWER, FULL, (48, 3), (EVERY_KIND, [11, 3, 0]))
reads("full, more room", FULL_ANSWER, FULL, (2100, 200), (EVERY_KIND, [11, 3, 0]))

# "a field cut short, tag missing": no proper start of a file has its last field, tag 5, whole.
for size in range(len(FULL)):
    refused(f"full cut to {size}", 1, FULL[:size])

# "tag 5, once and last": nothing stands behind it.
for byte in (0, 1, 2, 3, 4, 5, 6, 255):
    refused(f"full and the byte {byte}", 1, FULL + bytes([byte]))
for name, extra in (
    ("tag 1", VERSION),
    ("tag 2", keyword(b"z")),
    ("tag 3", rule(0, b"z")),
    ("tag 4", EMPTY),
    ("tag 5", START),
    ("tag 0", field(0, b"")),
    ("tag 6", field(6, b"")),
    ("two bytes", b"\0\0"),
    ("three bytes", b"\0\0\0"),
    ("itself", FULL),
):
    refused(f"full and {name}", 1, FULL + extra)

# A length that is one too large or too small. Tags 1, 4 and 5 then have a "wrong value length"; a
# keyword or a name takes in the next tag, so the next field's tag is the byte 0, or leaves its last
# byte, which is over 5, to be a tag: "unknown". The last field is "cut short" by one.
for i, whole in enumerate(FULL_FIELDS):
    before, after = b"".join(FULL_FIELDS[:i]), b"".join(FULL_FIELDS[i + 1 :])
    length = int.from_bytes(whole[1:3], "big")
    for step, said in ((1, "more"), (-1, "less")):
        changed = whole[:1] + (length + step).to_bytes(2, "big") + whole[3:]
        refused(f"full, length of field {i} one {said}", 1, before + changed + after)

# "a field cut short": a length far past the end, for each tag.
for tag in (1, 2, 3, 4, 5):
    refused(f"tag {tag} of length 65535 in a small file", 1, VERSION + bytes([tag, 255, 255]) + TAIL)

# "two-byte length (high byte first)": 06 00 is 1536, more than is there.
refused("node length low byte first", 1, VERSION + b"\x04\x06\x00" + bytes(6) + START)
refused("keyword length low byte first", 1, VERSION + b"\x02\x01\x00a" + TAIL)


# --- Order, number and lengths of fields ---------------------------------------------------------

FIVE = {1: VERSION, 2: keyword(b"k"), 3: rule(0, b"r"), 4: EMPTY, 5: START}


def tags(order):
    """The fields of these tags, in this order."""
    return b"".join(FIVE[tag] for tag in order)


def named(order):
    return " ".join(str(tag) for tag in order) or "none"


# "In this order": of the orders of five fields of different tags only one is right.
reads("tags 1 2 3 4 5", (1, 1, 1, 0, 0), tags((1, 2, 3, 4, 5)))
for order in itertools.permutations((1, 2, 3, 4, 5)):
    if order != (1, 2, 3, 4, 5):
        refused(f"tags {named(order)}", 1, tags(order))

# "Tags 2 to 4 occur any number of times": leaving out 2 or 3 is fine; without 4 there is "no node".
reads("tags 1 3 4 5", (1, 1, 0, 0, 0), tags((1, 3, 4, 5)))
reads("tags 1 2 4 5", (1, 0, 1, 0, 0), tags((1, 2, 4, 5)))
reads("tags 1 4 5", (1, 0, 0, 0, 0), tags((1, 4, 5)))
refused("tags 1 2 3 5", 3, tags((1, 2, 3, 5)))
refused("tags 1 3 5", 3, tags((1, 3, 5)))
refused("tags 1 2 5", 3, tags((1, 2, 5)))
refused("tags 1 5", 3, tags((1, 5)))

# "tag missing": tag 1 or tag 5 is not there.
for size in range(1, 5):
    for order in itertools.combinations((1, 2, 3, 4, 5), size):
        if 1 not in order or 5 not in order:
            refused(f"tags {named(order)}", 1, tags(order))

# "tag 1, once", "tag 5, once and last".
for order in (
    (1, 1, 4, 5),
    (1, 2, 1, 3, 4, 5),
    (1, 2, 3, 1, 4, 5),
    (1, 2, 3, 4, 1, 5),
    (1, 2, 3, 4, 5, 1),
    (1, 5, 4, 5),
    (1, 4, 5, 5),
    (1, 5, 5),
    (5, 1, 4, 5),
    (1, 2, 5, 3, 4, 5),
):
    refused(f"tags {named(order)}", 1, tags(order))

# "in number order": no lower tag after a higher one, even where the rest stands right.
for order in (
    (1, 2, 3, 2, 4, 5),
    (1, 2, 4, 2, 5),
    (1, 3, 4, 3, 5),
    (1, 3, 2, 3, 4, 5),
    (1, 4, 2, 4, 5),
):
    refused(f"tags {named(order)}", 1, tags(order))

# Neighbouring fields of different tags of the full file, swapped: "out of order".
for i in (0, 3, 6, 18):
    swapped = FULL_FIELDS[:i] + [FULL_FIELDS[i + 1], FULL_FIELDS[i]] + FULL_FIELDS[i + 2 :]
    refused(f"full, fields {i} and {i + 1} swapped", 1, b"".join(swapped))

# Fields of one tag keep the order of the file: nodes and rules "count from 0" as they come.
reads(
    "rules in the file's order",
    (2, 3, 2, 1, 3),
    with_keywords(b"b", b"a")[:-len(TAIL)]
    + rule(1, b"c")
    + rule(0, b"b")
    + rule(1, b"a")
    + node(1, 7)
    + node(5, 0)
    + start(1, 3),
    (9, 4),
    ([(1, 7, 0, 0), (5, 0, 0, 0)], [1, 0, 1]),
)

# "tag .. unknown": tags other than 1 to 5, at every place of a file, with and without a value.
for tag in (0, 6, 7, 64, 128, 255):
    for place in range(6):
        for value in (b"", b"\x01"):
            whole = tags(range(1, place + 1)) + field(tag, value) + tags(range(place + 1, 6))
            refused(f"tag {tag} at {place}, {len(value)} bytes", 1, whole)

# "wrong value length" and "tag 1's value not 1": tag 1 has "value the byte 1".
for value in (b"", b"\x01\x00", b"\x01\x01", b"\x00\x01", b"\x01\x01\x01", bytes(256) + b"\x01"):
    refused(f"tag 1 of {len(value)} bytes, {value[:2].hex()}", 1, field(1, value) + TAIL)
for value in (0, 2, 3, 49, 129, 255):
    refused(f"tag 1 of value {value}", 1, field(1, bytes([value])) + TAIL)

# "wrong value length (a tag 3 value only if under two bytes ..)": other lengths of a rule are 2.
refused("tag 3 of 0 bytes", 1, VERSION + field(3, b"") + TAIL)
refused("tag 3 of 1 byte", 1, VERSION + field(3, b"\0") + TAIL)
refused("tag 3 of 1 letter", 1, VERSION + field(3, b"r") + TAIL)
refused("tag 3 of 2 bytes", 2, VERSION + field(3, b"\0\0") + TAIL)
reads("tag 3 of 3 bytes", (1, 1, 0, 0, 0), VERSION + field(3, b"\0\0r") + TAIL)
reads("tag 3 of 34 bytes", (1, 1, 0, 0, 0), VERSION + field(3, b"\0\0" + b"r" * 32) + TAIL)
refused("tag 3 of 35 bytes", 2, VERSION + field(3, b"\0\0" + b"r" * 33) + TAIL)
refused("tag 3 of 1 byte after a good rule", 1, VERSION + rule(0, b"r") + field(3, b"\0") + TAIL)

# "wrong value length": tag 4 has one byte, two, two and one; tag 5 two and one.
for size in (0, 1, 4, 5, 7, 8, 262):
    refused(f"tag 4 of {size} bytes", 1, VERSION + field(4, bytes(size)) + START)
    refused(f"tag 4 of {size} bytes, second", 1, VERSION + EMPTY + field(4, bytes(size)) + START)
for size in (0, 1, 2, 4, 5, 259):
    refused(f"tag 5 of {size} bytes", 1, VERSION + EMPTY + field(5, bytes(size)))


# --- Limits --------------------------------------------------------------------------------------

EMPTY_WORDS = (0, 0, 0, 0)

# "1 to 512 nodes": past it "node .. count outside the limits".
reads("512 nodes", (512, 0, 0, 0, 0), VERSION + EMPTY * 512 + START, WIDE)
reads("511 nodes", (511, 0, 0, 510, 0), VERSION + EMPTY * 511 + start(510), WIDE)
for count in (513, 514, 520, 768, 1024, 1025):
    refused(f"{count} nodes", 3, VERSION + EMPTY * count + START, WIDE)

# 512 nodes, all different: terminals 0 to 255, then sequences.
MANY = [(1, i, 0, 0) for i in range(256)] + [(3, i - 1, i - 256, 0) for i in range(256, 512)]
reads("512 different nodes", (512, 0, 0, 511, 3), grammar_fields.file(MANY, 511, 3), (2048, 0), (MANY, []))

# "0 to 128 rules": past it "rule count outside the limits".
NAMES = [b"rule%d" % i for i in range(400)]
reads("127 rules", (1, 127, 0, 0, 0), with_names(*NAMES[:127]), WIDE, ([EMPTY_WORDS], [0] * 127))
reads("128 rules", (1, 128, 0, 0, 0), with_names(*NAMES[:128]), WIDE, ([EMPTY_WORDS], [0] * 128))
for count in (129, 130, 255, 256, 257, 384):
    refused(f"{count} rules", 3, with_names(*NAMES[:count]), WIDE)
reads("128 rules of different nodes", (130, 128, 0, 0, 0),
      grammar_fields.file([EMPTY_WORDS] * 130, pairs=[(129 - i, NAMES[i]) for i in range(128)]), (520, 128),
      ([EMPTY_WORDS] * 130, [129 - i for i in range(128)]))

# "At most 253 keywords"; "over 253 keywords" is 1.
SPELLINGS = [b"word%d" % i for i in range(520)]
for count in (0, 1, 2, 252, 253):
    reads(f"{count} keywords", (1, 0, count, 0, 0), with_keywords(*SPELLINGS[:count]))
for count in (254, 255, 256, 257, 509, 512, 513):
    refused(f"{count} keywords", 1, with_keywords(*SPELLINGS[:count]))

# All limits at once: 253 keywords and 128 names of 32 bytes, 512 nodes.
LARGEST = grammar_fields.largest(MANY)
reads("largest", (512, 128, 253, 511, 3), LARGEST, (2048, 128), (MANY, [511 - i for i in range(128)]))
reads("largest, more room", (512, 128, 253, 511, 3), LARGEST, WIDE)

# "Keywords and names have 1 to 32 bytes"; "keyword or name breaks its rules, length too" is 2.
for size in (1, 2, 31, 32):
    spelled(f"{{}} of {size} bytes", None, b"a" * size)
for size in (0, 33, 34, 64, 255, 256, 257, 288):
    spelled(f"{{}} of {size} bytes", 2, b"a" * size)
refused("keyword of 0 bytes between two", 2, with_keywords(b"a", b"", b"b"))
refused("keyword of 33 bytes last", 2, with_keywords(b"a", b"b" * 33))
refused("name of 0 bytes between two", 2, with_names(b"a", b"", b"b"))
refused("name of 33 bytes last", 2, with_names(b"a", b"b" * 33))

# "At most 65,535 bytes": at that length the file is judged by what it holds, one byte more is 1.
# The frame around a keyword has 4 + 3 + 9 + 6 = 22 bytes. Such a keyword is far over 32 bytes: 2.
for size, number in ((65535, 2), (65536, 1)):
    refused(f"file of {size} bytes, one keyword", number, with_keywords(b"a" * (size - 22)))
# 4 + 14 + 9 * 7279 + 6 bytes: a rule with a name of 9 bytes, and more than 512 nodes: 3.
FILLED = VERSION + rule(0, b"a" * 9) + EMPTY * 7279 + START
assert len(FILLED) == 65535
refused("file of 65535 bytes, many nodes", 3, FILLED)


# --- The bytes of keywords and names -------------------------------------------------------------

# "none of them at or below 32 or equal to 127".
for byte in (0, 1, 9, 10, 13, 31, 32, 127):
    for said, text in (
        ("alone", bytes([byte])),
        ("first", bytes([byte]) + b"a"),
        ("last", b"a" + bytes([byte])),
        ("last of 32", b"a" * 31 + bytes([byte])),
        ("in the middle", b"ab" + bytes([byte]) + b"cd"),
    ):
        spelled(f"byte {byte} {said} in a {{}}", 2, text)

# Every other byte is fine. Tried are 33 and 126, some from 128 on, and neighbours of the nine single
# bytes `: , ( ) [ ] = ; %` among signs, digits and letters.
FINE = b"!\"$&'*+-./09<>AZ\\^_`az{|}~" + bytes([128, 129, 160, 186, 254, 255])
for byte in FINE:
    spelled(f"byte {byte} alone in a {{}}", None, bytes([byte]))
    spelled(f"byte {byte} first in a {{}}", None, bytes([byte]) + b"a")
    spelled(f"byte {byte} last in a {{}}", None, b"a" + bytes([byte]))

# "A keyword that holds one of the nine single bytes .." Names have no such rule.
for byte in NINE:
    sign = bytes([byte])
    said = sign.decode()
    reads(f"keyword `{said}`", (1, 0, 1, 0, 0), with_keywords(sign))
    refused(f"keyword `a{said}`", 2, with_keywords(b"a" + sign))
    refused(f"keyword `{said}a`", 2, with_keywords(sign + b"a"))
    refused(f"keyword `{said}{said}`", 2, with_keywords(sign + sign))
    refused(f"keyword of 32 bytes with `{said}` last", 2, with_keywords(b"a" * 31 + sign))
    refused(f"keyword `ab{said}cd`", 2, with_keywords(b"ab" + sign + b"cd"))
    reads(f"name `{said}`", (1, 1, 0, 0, 0), with_names(sign))
    reads(f"name `a{said}`", (1, 1, 0, 0, 0), with_names(b"a" + sign))
    reads(f"name `{said}a`", (1, 1, 0, 0, 0), with_names(sign + b"a"))
    reads(f"name `{said}{said}`", (1, 1, 0, 0, 0), with_names(sign + sign))
reads("the nine single bytes as keywords", (1, 0, 9, 0, 0), with_keywords(*[bytes([byte]) for byte in NINE]))
reads("the nine single bytes in one name", (1, 1, 0, 0, 0), with_names(NINE))

# One bad spelling among good ones, at every place.
for place, texts in faults.places([b"one", b"two", b"three"], b"a b"):
    spelled(f"bad {{}} at {place} of 4", 2, *texts)

# A rule's node number is no part of its name: its bytes may be anything.
reads("rule with node bytes 0 and 32", (33, 1, 0, 0, 0), VERSION + rule(32, b"r") + EMPTY * 33 + START, (140, 1),
      ([EMPTY_WORDS] * 33, [32]))


# --- Distinct within their tag -------------------------------------------------------------------

LETTERS = b"abcdefghijklmnopqrstuvwxyz012345"

# "and are distinct within their tag".
for kind, build, answer in SPELLED:
    refused(f"equal {kind}s", 2, build(b"a", b"a"))
    refused(f"equal {kind}s of 32 bytes", 2, build(b"a" * 32, b"a" * 32))
    refused(f"equal {kind}s first and last", 2, build(b"a", b"b", b"c", b"a"))
    refused(f"equal {kind}s at the end", 2, build(b"a", b"b", b"c", b"c"))
    refused(f"equal {kind}s in the middle", 2, build(b"a", b"b", b"b", b"c"))
    refused(f"equal {kind}s of one single byte", 2, build(b":", b"a", b":"))
    reads(f"{kind}s that differ in the last byte", answer(2), build(b"abcd", b"abce"))
    reads(f"{kind}s that differ in the first byte", answer(2), build(b"abcd", b"bbcd"))
    reads(f"{kind}s that differ in the middle", answer(2), build(b"abcd", b"abxd"))
    reads(f"{kind}s with a start first", answer(2), build(b"ab", b"abc"))
    reads(f"{kind}s with a start last", answer(2), build(b"abc", b"ab"))
    reads(f"{kind}s with an end first", answer(2), build(b"bc", b"abc"))
    reads(f"{kind}s that differ in case", answer(2), build(b"If", b"if"))
    reads(f"{kind}s of the same letters", answer(2), build(b"ab", b"ba"))
    reads(f"{kind}s `a` to `aaa`", answer(3), build(b"a", b"aa", b"aaa"))
    reads(f"{kind}s of 31 and 32 bytes", answer(2), build(b"a" * 31, b"a" * 32))
    reads(f"{kind}s that differ by 128", answer(2), build(b"a", bytes([97 + 128])))
    # Equal ones of every length, and ones of 32 bytes that differ at one place only.
    for size in range(1, 33):
        text = LETTERS[:size]
        refused(f"equal {kind}s of {size} letters", 2, build(text, b"Z", text))
        changed = LETTERS[: size - 1] + b"Z" + LETTERS[size:]
        reads(f"{kind}s that differ at {size - 1}", answer(2), build(LETTERS, changed))
    # One equal pair of six, and of many of all lengths.
    for i, j in itertools.combinations(range(6), 2):
        texts = [b"a", b"ab", b"b", b"bc", b"abc", b"c"]
        texts[j] = texts[i]
        refused(f"{kind}s {i} and {j} of 6 equal", 2, build(*texts))
    mixed = [(b"%d-" % i + LETTERS)[: 4 + i % 29] for i in range(100, 228)]
    reads(f"128 {kind}s of mixed lengths", answer(128), build(*mixed), WIDE)
    for i, j in ((0, 1), (0, 2), (0, 127), (1, 127), (63, 64), (64, 65), (31, 32), (126, 127), (50, 90)):
        texts = mixed[:j] + [mixed[i]] + mixed[j + 1 :]
        refused(f"{kind}s {i} and {j} of 128 equal", 2, build(*texts), WIDE)

# A keyword may equal a name: only "within their tag".
reads("keyword equal to a name", (1, 1, 1, 0, 0), VERSION + keyword(b"same") + rule(0, b"same") + TAIL)
# Two rules of one node are two rules; equal names of different nodes are equal names.
reads("two rules of one node", (1, 2, 0, 0, 0), VERSION + rule(0, b"r") + rule(0, b"s") + TAIL)
refused("equal names of different nodes", 2, VERSION + rule(0, b"r") + rule(1, b"r") + EMPTY + TAIL)

# 253 keywords and 128 names of 32 bytes that differ in the last two only.
LONG = [b"k" * 30 + bytes([ord("A") + i // 26, ord("a") + i % 26]) for i in range(253)]
reads("253 alike keywords", (1, 0, 253, 0, 0), with_keywords(*LONG))
refused("253 alike keywords, last equal to first", 2, with_keywords(*LONG[:252], LONG[0]))
refused("253 alike keywords, last two equal", 2, with_keywords(*LONG[:252], LONG[251]))
refused("253 alike keywords, first two equal", 2, with_keywords(LONG[1], *LONG[1:]))
refused("253 alike keywords, two inside equal", 2, with_keywords(*LONG[:200], LONG[100], *LONG[201:]))
reads("128 alike names", (1, 128, 0, 0, 0), with_names(*LONG[:128]), WIDE)
refused("128 alike names, last equal to first", 2, with_names(*LONG[:127], LONG[0]), WIDE)
refused("128 alike names, last two equal", 2, with_names(*LONG[:127], LONG[126]), WIDE)
refused("128 alike names, first two equal", 2, with_names(LONG[1], *LONG[1:128]), WIDE)


# --- Nodes ---------------------------------------------------------------------------------------

# A node is tried as node 2 of 4, between an empty node, a terminal and a last empty node, beside one
# rule, of node 3. The same four nodes are also put to a check of the table by itself.


def tried(label, words, number):
    """A node that passes (None), or that a file and the table by itself are refused for by the number. A file
    is tried where the words have room in its bytes."""
    kind, _, _, relation = words
    nodes = [(0, 0, 0, 0), (1, 9, 0, 0), words, (0, 0, 0, 0)]
    if kind < 256 and relation < 256:
        file = grammar_fields.file(nodes, 2, pairs=[(3, b"r")])
        if number is None:
            reads(label, (4, 1, 0, 2, 0), file, (17, 2), (nodes, [3]))
        else:
            refused(label, number, file)
    table(f"table, {label}", nodes, [3], "passes" if number is None else f"refused {number}")


# Kind 0, empty: uses no word. "unused word not 0".
tried("empty", (0, 0, 0, 0), None)
for a, b, relation in ((1, 0, 0), (0, 1, 0), (0, 0, 1), (256, 0, 0), (0, 256, 0), (0, 0, 255)):
    tried(f"empty with {a} {b} {relation}", (0, a, b, relation), 4)

# Kind 1, terminal: "a = terminal, 0 to 255"; "terminal over 255".
for a in (0, 1, 2, 3, 127, 128, 254, 255):
    tried(f"terminal {a}", (1, a, 0, 0), None)
for a in (256, 257, 511, 512, 32768, 65280, 65535):
    tried(f"terminal {a}", (1, a, 0, 0), 4)
for a, b, relation in ((0, 1, 0), (0, 256, 0), (0, 0, 1), (255, 0, 255)):
    tried(f"terminal with {a} {b} {relation}", (1, a, b, relation), 4)

# Kind 2, rule: "a = rule"; "no such rule". There is one, number 0.
tried("rule 0 of 1", (2, 0, 0, 0), None)
for a in (1, 2, 128, 256, 65535):
    tried(f"rule {a} of 1", (2, a, 0, 0), 4)
for a, b, relation in ((0, 1, 0), (0, 256, 0), (0, 0, 1)):
    tried(f"rule with {a} {b} {relation}", (2, a, b, relation), 4)

# Kinds 3 and 4: "a, b = nodes"; "child not lower" than node 2; the relation is unused.
for kind, said in ((3, "sequence"), (4, "choice")):
    for a, b in ((0, 0), (0, 1), (1, 0), (1, 1)):
        tried(f"{said} of {a} {b}", (kind, a, b, 0), None)
    for child in (2, 3, 4, 256, 257, 65535):
        tried(f"{said} of {child} 0", (kind, child, 0, 0), 4)
        tried(f"{said} of 0 {child}", (kind, 0, child, 0), 4)
        tried(f"{said} of {child} {child}", (kind, child, child, 0), 4)
    for relation in (1, 3, 255):
        tried(f"{said} with relation {relation}", (kind, 0, 1, relation), 4)

# Kinds 5, 6 and 9: "a = node"; b and the relation are unused.
for kind, said in ((5, "not"), (6, "repeat"), (9, "align")):
    for a in (0, 1):
        tried(f"{said} of {a}", (kind, a, 0, 0), None)
    for a in (2, 3, 4, 256, 257, 65535):
        tried(f"{said} of {a}", (kind, a, 0, 0), 4)
    for a, b, relation in ((0, 1, 0), (1, 1, 0), (0, 256, 0), (0, 0, 1), (1, 0, 3)):
        tried(f"{said} with {a} {b} {relation}", (kind, a, b, relation), 4)

# Kinds 7 and 8: "a = node, relation"; b is unused. 02, Note 1: "Numbers 4, 5 and 12 begin at relation or mode 35."
for kind, said in ((7, "indent"), (8, "position")):
    for a in (0, 1):
        for relation in (0, 1, 2, 3):
            tried(f"{said} of {a} by {relation}", (kind, a, 0, relation), None)
    for relation in (4, 34):
        tried(f"{said} of 0 by {relation}", (kind, 0, 0, relation), None)
    for relation in (35, 36, 67, 128, 252, 255):
        tried(f"{said} of 0 by {relation}", (kind, 0, 0, relation), 4)
    for a in (2, 3, 4, 256, 65535):
        tried(f"{said} of {a} by 1", (kind, a, 0, 1), 4)
    for b in (1, 256, 65535):
        tried(f"{said} with b {b}", (kind, 0, b, 1), 4)

# "kind over 9".
for kind in (10, 11, 15, 16, 19, 99, 128, 246, 255):
    tried(f"kind {kind}", (kind, 0, 0, 0), 4)
# A table has room for kinds and relations that no file can hold.
for kind in (256, 257, 265, 65535):
    tried(f"kind {kind}", (kind, 0, 0, 0), 4)
for relation in (256, 259, 290, 65535):
    tried(f"indent of 0 by {relation}", (7, 0, 0, relation), 4)
    tried(f"empty with relation {relation}", (0, 0, 0, relation), 4)

# Node 0 can have no child: none is lower.
for kind in (3, 4, 5, 6, 7, 8, 9):
    refused(f"node 0 of kind {kind} with child 0", 4, VERSION + node(kind) + START)
    table(f"table, node 0 of kind {kind} with child 0", [kind, 0, 0, 0], [], "refused 4")
reads("node 0 a terminal", (1, 0, 0, 0, 0), VERSION + node(1, 255) + START, (4, 0), ([(1, 255, 0, 0)], []))
# "no such rule": there is none at all.
refused("rule 0 of none", 4, VERSION + node(2, 0) + START)
table("table, rule 0 of none", (2, 0, 0, 0), [], "refused 4")

# One bad node, at every place.
for place, nodes in faults.places([EMPTY_WORDS] * 4, (10, 0, 0, 0)):
    refused(f"bad node at {place} of 5", 4, grammar_fields.file(nodes))

# Rule 127 of 128 is there, rule 128 is not.
RULES_128 = grammar_fields.rules((0, name) for name in NAMES[:128])
reads("rule 127 of 128", (1, 128, 0, 0, 0), VERSION + RULES_128 + node(2, 127) + START, WIDE)
refused("rule 128 of 128", 4, VERSION + RULES_128 + node(2, 128) + START, WIDE)
reads("rule 1 of 2", (1, 2, 0, 0, 0), VERSION + rule(0, b"r") + rule(0, b"s") + node(2, 1) + START)

# "a rule may stand for any node", also a later one or the one that names it. Well-formedness, 7, is
# none of the file reader's: it "uses 1 to 6".
reads("rule of a later node", (2, 1, 0, 0, 0), VERSION + rule(1, b"r") + node(2, 0) + EMPTY + START, (8, 1),
      ([(2, 0, 0, 0), (0, 0, 0, 0)], [1]))
reads("rule of itself", (1, 1, 0, 0, 0), VERSION + rule(0, b"r") + node(2, 0) + START, (4, 1), ([(2, 0, 0, 0)], [0]))

# "Two-byte numbers inside values are high byte first": 256 is 01 00 and 258 is 01 02. With the bytes
# changed over they would be 1 and 513; 1 changed over is 256.
HIGH = [(0, 0, 0, 0)] * 297 + [(3, 256, 258, 0), (4, 258, 1, 0), (6, 256, 0, 0)]
reads("children 256 and 258 of 300", (300, 2, 0, 258, 1),
      grammar_fields.file(HIGH, 258, 1, pairs=[(256, b"r"), (258, b"s")]), (1200, 2), (HIGH, [256, 258]))
for child, last in ((256, 257), (255, 256), (299, 300), (510, 511)):
    file = VERSION + EMPTY * last + node(5, child) + START
    reads(f"child {child} of node {last}", (last + 1, 0, 0, 0, 0), file, WIDE)
for child, last in ((256, 256), (257, 256), (300, 300), (511, 511), (512, 511)):
    file = VERSION + EMPTY * last + node(5, child) + START
    refused(f"child {child} of node {last}", 4, file, WIDE)


# --- Rule nodes and the start --------------------------------------------------------------------

# "a rule's node, or a file's start node, not in the table": nodes count from 0.
for count in (1, 2, 3, 255, 256, 257, 258, 512):
    file = VERSION + rule(count - 1, b"r") + EMPTY * count + START
    reads(f"rule node {count - 1} of {count}", (count, 1, 0, 0, 0), file, WIDE)
    file = VERSION + rule(count, b"r") + EMPTY * count + START
    refused(f"rule node {count} of {count}", 5, file, WIDE)
for count in (1, 2, 3, 255, 256, 257, 258, 512):
    file = VERSION + EMPTY * count + start(count - 1)
    reads(f"start node {count - 1} of {count}", (count, 0, 0, count - 1, 0), file, WIDE)
    file = VERSION + EMPTY * count + start(count)
    refused(f"start node {count} of {count}", 5, file, WIDE)
for number in (2, 255, 256, 512, 32768, 65535):
    refused(f"rule node {number} of 1", 5, VERSION + rule(number, b"r") + EMPTY + START)
    refused(f"start node {number} of 1", 5, VERSION + EMPTY + start(number))
for number in (256, 258, 299):
    file = VERSION + EMPTY * 300 + start(number, 2)
    reads(f"start node {number} of 300", (300, 0, 0, number, 2), file, WIDE)

# One rule of a node that is not there, at every place.
for place, pairs in faults.places([(0, b"a"), (0, b"b"), (0, b"c")], (1, b"d")):
    refused(f"bad rule node at {place} of 4", 5, grammar_fields.file([EMPTY_WORDS], pairs=pairs))

# 02, Note 1: "Numbers 4, 5 and 12 begin at relation or mode 35."
for mode in (0, 1, 2, 3, 4, 34):
    reads(f"mode {mode}", (1, 0, 0, 0, mode), VERSION + EMPTY + start(0, mode))
for mode in (35, 36, 38, 67, 128, 252, 255):
    refused(f"mode {mode}", 5, VERSION + EMPTY + start(0, mode))


# --- Room ----------------------------------------------------------------------------------------

# "a lent slice too short for what is to be written": four words a node, one a rule.
ONE_NODE = VERSION + EMPTY + START
ONE_RULE = VERSION + rule(0, b"r") + EMPTY + START
TWO = VERSION + rule(1, b"r") + rule(0, b"s") + node(1, 5) + node(9, 0) + start(1, 2)
TWO_WORDS = ([(1, 5, 0, 0), (9, 0, 0, 0)], [1, 0])
for room in (0, 1, 2, 3):
    short(f"1 node, {room} words lent", (1, 0, 0, 0, 0), ONE_NODE, (room, 5))
for room in (4, 5, 6, 7, 8, 100, 2100):
    reads(f"1 node, {room} words lent", (1, 0, 0, 0, 0), ONE_NODE, (room, 0), ([EMPTY_WORDS], []))
for room in (0, 1, 200):
    words = ([EMPTY_WORDS], [])
    reads(f"no rules, {room} rule words lent", (1, 0, 0, 0, 0), ONE_NODE, (4, room), words)
short("1 rule, no rule word lent", (1, 1, 0, 0, 0), ONE_RULE, (4, 0))
short("1 rule, no word lent", (1, 1, 0, 0, 0), ONE_RULE, (0, 0))
for room in (1, 2, 3, 200):
    reads(f"1 rule, {room} rule words lent", (1, 1, 0, 0, 0), ONE_RULE, (4, room), ([EMPTY_WORDS], [0]))
for lent in ((7, 2), (8, 1), (7, 1), (4, 2), (0, 2), (8, 0), (2100, 1), (7, 200), (2, 8)):
    said = f"2 nodes and 2 rules, {lent[0]} and {lent[1]} words lent"
    short(said, (2, 2, 0, 1, 2), TWO, lent)
for lent in ((8, 2), (9, 2), (8, 3), (11, 5), (2100, 200)):
    said = f"2 nodes and 2 rules, {lent[0]} and {lent[1]} words lent"
    reads(said, (2, 2, 0, 1, 2), TWO, lent, TWO_WORDS)
short("full, 47 and 3 words lent", FULL_ANSWER, FULL, (47, 3))
short("full, 48 and 2 words lent", FULL_ANSWER, FULL, (48, 2))
short("full, 12 and 3 words lent", FULL_ANSWER, FULL, (12, 3))
short("512 nodes, 2047 words lent", (512, 0, 0, 0, 0), VERSION + EMPTY * 512 + START, (2047, 0))
short("512 nodes, 512 words lent", (512, 0, 0, 0, 0), VERSION + EMPTY * 512 + START, (512, 0))
reads("512 nodes, 2048 words lent", (512, 0, 0, 0, 0), VERSION + EMPTY * 512 + START, (2048, 0))
short("128 rules, 127 words lent", (1, 128, 0, 0, 0), with_names(*NAMES[:128]), (4, 127))
reads("128 rules, 128 words lent", (1, 128, 0, 0, 0), with_names(*NAMES[:128]), (4, 128))
short("largest, 2047 and 128 words lent", (512, 128, 253, 511, 3), LARGEST, (2047, 128))
short("largest, 2048 and 127 words lent", (512, 128, 253, 511, 3), LARGEST, (2048, 127))


# --- Rising order --------------------------------------------------------------------------------

# "Checks run in rising number", each over the whole file.
RULES_129 = VERSION + RULES_128 + rule(0, NAMES[128])
for number, said, file, lent in (
    (1, "1 before 2, keyword `a b` and the last field cut", with_keywords(b"a b")[:-1], SMALL),
    (1, "1 before 2, keyword `a b` and no tag 5", with_keywords(b"a b")[:-6], SMALL),
    (1, "1 before 2, 254 keywords, first bad", with_keywords(b"a b", *SPELLINGS[:253]), SMALL),
    (1, "1 before 2, 254 keywords, last bad", with_keywords(*SPELLINGS[:253], b"a b"), SMALL),
    (1, "1 before 2, 254 keywords, all equal", with_keywords(*[b"a"] * 254), SMALL),
    (1, "1 before 2, keyword of 33 bytes and an unknown tag", VERSION + keyword(b"a" * 33) + field(6, b"") + TAIL, SMALL),
    (1, "1 before 2, empty name and a tag 3 of 1 byte", VERSION + rule(0, b"") + field(3, b"\0") + TAIL, SMALL),
    (1, "1 before 3, no node and no tag 5", VERSION, SMALL),
    (1, "1 before 3, 513 nodes and a byte more", VERSION + EMPTY * 513 + START + b"\0", WIDE),
    (1, "1 before 3, 129 rules and a keyword", RULES_129 + keyword(b"k") + TAIL, WIDE),
    (1, "1 before 4, kind 10 and a node of 7 bytes", VERSION + node(10) + field(4, bytes(7)) + START, SMALL),
    (1, "1 before 5, mode 35 and a byte more", VERSION + EMPTY + start(0, 35) + b"\x05", SMALL),
    (1, "1 before 6, no word lent and a byte more", ONE_NODE + b"\0", (0, 0)),
    (2, "2 before 3, 129 rules, one name bad", with_names(*NAMES[:128], b"a b"), WIDE),
    (2, "2 before 3, 129 rules, two names equal", with_names(*NAMES[:128], NAMES[0]), WIDE),
    (2, "2 before 3, 384 rules, last name bad", with_names(*NAMES[:383], b"\x7f"), WIDE),
    (2, "2 before 3, equal keywords, no node", VERSION + keyword(b"k") * 2 + START, SMALL),
    (2, "2 before 3, bad keyword and 513 nodes", VERSION + keyword(b"a:") + EMPTY * 513 + START, WIDE),
    (2, "2 before 4, bad name and kind 10", VERSION + rule(0, b"a b") + node(10) + START, SMALL),
    (2, "2 before 5, bad name of a node not there", VERSION + rule(9, b"a b") + TAIL, SMALL),
    (2, "2 before 6, bad keyword and no word lent", with_keywords(b""), (0, 0)),
    (3, "3 before 4, 513 nodes and kind 10", VERSION + node(10) + EMPTY * 512 + START, WIDE),
    (3, "3 before 4, 129 rules and kind 10", RULES_129 + node(10) + START, WIDE),
    (3, "3 before 4, 129 rules and rule 129 named", RULES_129 + node(2, 129) + START, WIDE),
    (3, "3 before 5, no node and mode 35", VERSION + start(0, 35), SMALL),
    (3, "3 before 5, no node and a rule", VERSION + rule(0, b"r") + START, SMALL),
    (3, "3 before 5, 513 nodes and start 513", VERSION + EMPTY * 513 + start(513), WIDE),
    (3, "3 before 6, no node and no word lent", VERSION + START, (0, 0)),
    (3, "3 before 6, 513 nodes and 2051 words", VERSION + EMPTY * 513 + START, (2051, 0)),
    (3, "3 before 6, 129 rules and 128 words", with_names(*NAMES[:129]), (4, 128)),
    (4, "4 before 5, kind 10 and a bad rule node", VERSION + rule(1, b"r") + node(10) + START, SMALL),
    (4, "4 before 5, last node bad and a bad first rule node", VERSION + rule(9, b"r") + EMPTY + node(6, 1) + START, SMALL),
    (4, "4 before 5, kind 10 and mode 35", VERSION + node(10) + start(0, 35), SMALL),
    (4, "4 before 5, relation 35 and mode 35", VERSION + EMPTY + node(7, 0, 0, 35) + start(1, 35), SMALL),
    (4, "4 before 6, kind 10 and no word lent", VERSION + node(10) + START, (0, 0)),
    (5, "5 before 6, bad start and no word lent", VERSION + EMPTY + start(1), (0, 0)),
    (5, "5 before 6, mode 35 and 3 words lent", VERSION + EMPTY + start(0, 35), (3, 0)),
    (5, "5 before 6, bad rule node, no rule word", VERSION + rule(1, b"r") + TAIL, (4, 0)),
):
    refused(said, number, file, lent)

# Every choice of faults from six, one of each number: the answer is the lowest number chosen.


def ordered(said, chosen, answer, file, lent):
    """A file with the faults chosen: read if there are none, else refused by the lowest."""
    label = faults.label(said, chosen)
    if not chosen:
        reads(label, answer, file, lent)
    elif chosen == (6,):
        short(label, answer, file, lent)
    else:
        refused(label, min(chosen), file, lent)


for chosen in faults.choices(1, 2, 3, 4, 5, 6):
    ordered("late", chosen, (2, 4, 1, 0, 0), faults.late_file(chosen), (7 if 6 in chosen else 8, 200))
for chosen in faults.choices(1, 2, 3, 4, 5, 6):
    ordered("early", chosen, (3, 1, 1, 0, 3), faults.early_file(chosen), (2100, 0 if 6 in chosen else 1))


# --- Keywords and names handed out ---------------------------------------------------------------

# The calls `keyword` and `rule_name` hand out keyword k and the name of rule r, from 0, and no bytes
# where there is none or the file fails 1 to 5.
for i, text in enumerate(("loss", ":", "na\u00efve")):
    part("k", f"full, keyword {i}", i, FULL, text)
for i, text in enumerate(("report", "line", "loss")):
    part("n", f"full, name {i}", i, FULL, text)
for number in (3, 4, 252, 253, 255, 256, 65535):
    part("k", f"full, keyword {number}", number, FULL, "")
    part("n", f"full, name {number}", number, FULL, "")
for number in (0, 1, 2, 3):
    part("K", f"full, keyword 2^64 - 1 - {number}", number, FULL, "")
    part("N", f"full, name 2^64 - 1 - {number}", number, FULL, "")
part("k", "no keywords, keyword 0", 0, ONE_RULE, "")
part("n", "no keywords, name 0", 0, ONE_RULE, "r")
part("k", "no rules, keyword 0", 0, with_keywords(b"only"), "only")
part("n", "no rules, name 0", 0, with_keywords(b"only"), "")
part("k", "no bytes, keyword 0", 0, b"", "")
part("n", "no bytes, name 0", 0, b"", "")
for number, text in ((0, "abcdefghijklmnopqrstuvwxyz012345"), (1, "b"), (2, "")):
    file = with_keywords(LETTERS, b"b")
    part("k", f"keywords of 32 and 1 bytes, keyword {number}", number, file, text)
    file = with_names(LETTERS, b"b")
    part("n", f"names of 32 and 1 bytes, name {number}", number, file, text)
part("n", "name of the nine single bytes", 0, with_names(NINE), NINE.decode())
for number, text in ((0, "word0"), (1, "word1"), (252, "word252"), (253, ""), (254, "")):
    part("k", f"253 keywords, keyword {number}", number, with_keywords(*SPELLINGS[:253]), text)
for number, text in ((0, "rule0"), (1, "rule1"), (127, "rule127"), (128, ""), (129, "")):
    part("n", f"128 rules, name {number}", number, with_names(*NAMES[:128]), text)
for number, text in ((0, "0" * 32), (252, "0" * 29 + "252"), (253, "")):
    part("k", f"largest, keyword {number}", number, LARGEST, text)
for number, text in ((0, "0" * 32), (127, "0" * 29 + "127"), (128, "")):
    part("n", f"largest, name {number}", number, LARGEST, text)

# A file that one of 1 to 5 refuses has none, though keyword 0 and name 0 could be picked out of it.
GOOD = VERSION + keyword(b"k") + rule(0, b"r")
for said, file in (
    ("refused by 1, a byte more", GOOD + TAIL + b"\0"),
    ("refused by 1, a byte less", (GOOD + TAIL)[:-1]),
    ("refused by 2, bad name", GOOD + rule(0, b"a b") + TAIL),
    ("refused by 2, equal keywords", VERSION + keyword(b"k") + keyword(b"k") + rule(0, b"r") + TAIL),
    ("refused by 3, no node", GOOD + START),
    ("refused by 4, kind 10", GOOD + node(10) + START),
    ("refused by 5, mode 35", GOOD + EMPTY + start(0, 35)),
    ("refused by 5, bad rule node", GOOD + rule(1, b"s") + TAIL),
):
    part("k", f"{said}, keyword 0", 0, file, "")
    part("n", f"{said}, name 0", 0, file, "")
part("k", "254 keywords, keyword 0", 0, with_keywords(*SPELLINGS[:254]), "")
part("n", "129 rules, name 0", 0, with_names(*NAMES[:129]), "")
part("k", "not refused, keyword 0", 0, GOOD + TAIL, "k")
part("n", "not refused, name 0", 0, GOOD + TAIL, "r")


# --- The table by itself -------------------------------------------------------------------------

# "node words no multiple of 4, node or rule count .." is 3.
for count in (0, 1, 2, 3, 5, 6, 7, 2047, 2049, 2050, 2051, 2052, 2056, 2100):
    table(f"table, {count} words", [0] * count, [], "refused 3")
for count in (4, 8, 2044, 2048):
    table(f"table, {count} words", [0] * count, [], "passes")
for count in (0, 1, 2, 127, 128):
    table(f"table, {count} rules", [0] * 4, [0] * count, "passes")
for count in (129, 130, 200):
    table(f"table, {count} rules", [0] * 4, [0] * count, "refused 3")

# "a rule's node .. not in the table" is 5.
for place in range(3):
    rules = [0, 1, 0]
    rules[place] = 2
    table(f"table, rule {place} of 3 is node 2 of 2", [0] * 8, rules, "refused 5")
table("table, rules of both nodes", [0] * 8, [1, 0, 1], "passes")
table("table, rule of node 65535", [0] * 4, [65535], "refused 5")
table("table, rule of node 256 of 1", [0] * 4, [256], "refused 5")
table("table, rule of node 511 of 512", [0] * 2048, [511], "passes")
table("table, rule of node 512 of 512", [0] * 2048, [512], "refused 5")
table("table, full", EVERY_KIND, [11, 3, 0], "passes")
# Well-formedness, 7, is asked elsewhere.
table("table, rule 0 is node 0 is rule 0", [2, 0, 0, 0], [0], "passes")

# "Checks run in rising number".
table("table, 3 words and a bad rule node", [0] * 3, [9], "refused 3")
table("table, 5 words and kind 10", [10, 0, 0, 0, 0], [], "refused 3")
table("table, no words and a rule", [], [0], "refused 3")
table("table, 513 nodes, the first of kind 10", [10] + [0] * 2051, [], "refused 3")
table("table, 129 rules and kind 10", [10, 0, 0, 0], [0] * 129, "refused 3")
table("table, 129 rules of a node that is not there", [0] * 4, [1] * 129, "refused 3")
table("table, kind 10 and a bad rule node", [10, 0, 0, 0], [1], "refused 4")
table("table, last node bad and a bad first rule node", [0] * 4 + [6, 1, 0, 0], [2, 0], "refused 4")


if __name__ == "__main__":
    CASES.write()

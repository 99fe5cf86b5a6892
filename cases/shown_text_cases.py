#!/usr/bin/env python3
"""Writes the calls that the program shown_text_cases makes, and the lines that it must print (README.md).

Nothing here reads a grammar file, scans a report or runs a grammar. Each call has its answer written beside it, worked
out by hand; a family of calls has one answer for all, or the rule that gives each, in its loop or function. A comment
quotes the words of document 01 or 02 that decide it.

A capture is its four words: rule, first token, token after the last, number of captures around it. A token is written
as its offset and length; its terminal is 1 and its column 0.
"""

import faults
from grammar_fields import EMPTY, START, TAIL, VERSION
from grammar_fields import file, keywords, largest, node, rule, rules, start, with_keywords, with_names
from records import Cases, Pairs, Payloads, wide

CASES = Cases("shown_text_cases")
# 35 and 37: keywords and names of 32 bytes, with their tags and lengths. 9: empty nodes.
PAIRS, TOKEN_BYTES = Pairs(100, (1, 2, 9, 35, 37)), Payloads(100, (16,))

U32 = 4294967295

# Tag 1 takes bytes 0 to 3, the keywords 4 to 10 and 11 to 14. The rules stand at 15, 25 and 35, and the name of each
# five bytes further on, behind tag, length and node number.
NAMES = ((20, b"entry"), (30, b"value"), (40, b"end"))
FILE = VERSION + keywords((b"loss", b":")) + rules((0, name) for _, name in NAMES) + TAIL

# 18 bytes, and the tokens of their scan: loss, :, 0.03, a line's end, at, 5, a line's end.
REPORT = b"loss: 0.03\n  at 5\n"
TOKENS = ((0, 4), (4, 1), (6, 4), (10, 0), (13, 2), (16, 1), (17, 0))
COUNT = 7


# --- Records and lines ---------------------------------------------------------------------------


def record(label, line, capture, grammar, report, tokens):
    """One call and the line expected of it. The layout is that of the program's first comment."""
    numbers, *payloads = PAIRS.stretch(grammar, report)
    more, token_bytes = TOKEN_BYTES.stretch(wide(4, *words(tokens)))
    CASES.add(label, line, "s", wide(4, *capture) + numbers + wide(3, *more), *payloads, token_bytes)


def words(tokens):
    """The words of tokens; a single word may stand among them."""
    return [word for token in tokens for word in ((1, 0, *token) if isinstance(token, tuple) else (token,))]


def quoted(text):
    """A text as the program prints it: whole, or the two ends of a long one."""
    ends = [text] if len(text) <= 64 else [text[:32], text[-32:]]
    for byte, sign in ((b"\\", b"\\\\"), (b"\t", b"\\t"), (b"\n", b"\\n"), (b"\r", b"\\r")):
        ends = [end.replace(byte, sign) for end in ends]
    return " .. ".join(f'"{end.decode()}"' for end in ends)


def in_report(label, capture, offset, text, tokens, report=REPORT, grammar=FILE):
    """A text that stands in the report at an offset."""
    assert report[offset : offset + len(text)] == text, label
    record(label, f"report {offset} {len(text)} {quoted(text)}", capture, grammar, report, tokens)


def in_file(label, capture, offset, name, tokens=(), report=REPORT, grammar=FILE):
    """A rule's name that stands in the grammar file at an offset."""
    assert grammar[offset : offset + len(name)] == name, label
    record(label, f"file {offset} {len(name)} {quoted(name)}", capture, grammar, report, tokens)


def refused(label, number, capture, tokens=(), report=REPORT, grammar=FILE):
    """ "the text's own call shows no bytes where that refuses" """
    assert number in (1, 2, 3, 4, 5, 8, 11, 14)
    record(label, f'refused {number} ""', capture, grammar, report, tokens)


# --- Tokens: a part of the report ----------------------------------------------------------------

# "The text shown for a capture runs from its first token's first byte to its last token's end in the report".
in_report("one token", (0, 0, 1, 0), 0, b"loss", TOKENS)
in_report("a token by itself", (0, 1, 2, 0), 4, b":", TOKENS)
in_report("one token inside", (1, 2, 3, 0), 6, b"0.03", TOKENS)
in_report("a line's end, no byte and no refusal", (1, 3, 4, 0), 10, b"", TOKENS)
in_report("the last token, no byte", (2, 6, 7, 0), 17, b"", TOKENS)
in_report("two tokens side by side", (0, 0, 2, 0), 0, b"loss:", TOKENS)
in_report("tokens with a blank between", (0, 1, 3, 0), 4, b": 0.03", TOKENS)
in_report("a line", (0, 0, 3, 0), 0, b"loss: 0.03", TOKENS)
in_report("a line and its end", (0, 0, 4, 0), 0, b"loss: 0.03", TOKENS)
in_report("over a line break", (2, 2, 6, 0), 6, b"0.03\n  at 5", TOKENS)
in_report("from a line's end on", (2, 3, 5, 0), 10, b"\n  at", TOKENS)
in_report("every token", (0, 0, 7, 0), 0, b"loss: 0.03\n  at 5", TOKENS)
# Any two places with a token between them.
for first in range(COUNT):
    for after in range(first + 1, COUNT + 1):
        offset, end = TOKENS[first][0], sum(TOKENS[after - 1])
        in_report(f"tokens {first} to before {after}", (1, first, after, 0), offset, REPORT[offset:end], TOKENS)
# The rule says nothing where a token was read, nor does "the number of captures around it".
for number in range(3):
    for around in (0, 1, 7, 4096, U32):
        capture = (number, 2, 5, around)
        in_report(f"rule {number}, {around} captures around it", capture, 6, b"0.03\n  at", TOKENS)
# Tokens need not be those of a scan. Two at one offset; the last one's end inside the first; a text without a byte.
in_report("two tokens at one offset", (0, 0, 2, 0), 5, b" 0", [(5, 1), (5, 2)])
in_report("four tokens at one offset", (0, 0, 4, 0), 5, b"", [(5, 9), (5, 8), (5, 7), (5, 0)])
in_report("a last token that ends inside the first", (0, 0, 2, 0), 0, b"los", [(0, 10), (2, 1)])
in_report("a last token without a byte inside the first", (0, 0, 2, 0), 4, b": ", [(4, 10), (6, 0)])
in_report("a break as a token", (0, 0, 1, 0), 10, b"\n", [(10, 1)])
# Terminals and columns up to their limits.
in_report("terminal 255 and column 65535", (0, 0, 2, 0), 0, b"loss:", [255, 65535, 0, 4, 0, 65535, 4, 1])
# Bytes above 127, tabs and byte 13.
MICRO = "\t0.3 \u00b5m\r\n".encode()
in_report("two bytes of one character", (0, 1, 2, 0), 5, "\u00b5m".encode(), [(1, 3), (5, 3), (9, 0)], MICRO)
in_report("up to a break behind byte 13", (0, 0, 3, 0), 1, "0.3 \u00b5m\r".encode(), [(1, 3), (5, 3), (9, 0)], MICRO)
in_report("a tab as a token", (0, 0, 1, 0), 0, b"\t", [(0, 1)], MICRO)
in_report("a backslash and quotes", (0, 0, 1, 0), 0, b'a\\"b"', [(0, 5)], b'a\\"b" c')


# --- No token: a name in the file ----------------------------------------------------------------

# "or is the rule's name in the grammar file if it read no token"; "the two may be equal, at the token count too".
for number, (offset, name) in enumerate(NAMES):
    for place in range(COUNT + 1):
        in_file(f"rule {number} at place {place}", (number, place, place, 0), offset, name, TOKENS)
    in_file(f"rule {number}, no tokens", (number, 0, 0, 0), offset, name)
    in_file(f"rule {number}, no tokens and no report", (number, 0, 0, 0), offset, name, (), b"")
for around in (1, 7, U32):
    in_file(f"a name, {around} captures around it", (1, 3, 3, around), 30, b"value", TOKENS)
# Neither the tokens' offsets nor their ends are looked at.
in_file("a name, offsets fall", (1, 1, 1, 0), 30, b"value", [(9, 1), (5, 1), (2, 1)])
in_file("a name, every token past the report", (1, 1, 1, 0), 30, b"value", [(99, 1), (U32, U32)])
# Without keywords the first rule stands at 4; a name of 32 bytes; one of one byte.
LONG_NAME = b"thirty-two-bytes-long-name-3456-"
in_file("a name of 32 bytes", (0, 0, 0, 0), 9, LONG_NAME, grammar=with_names(LONG_NAME, b"x"))
in_file("a name of one byte behind it", (1, 0, 0, 0), 46, b"x", grammar=with_names(LONG_NAME, b"x"))
in_file("a name with bytes above 127", (1, 0, 0, 0), 15, "\u00b5m".encode(),
        grammar=with_names(b"x", "\u00b5m".encode()))
# A name that is a keyword too, and names that begin alike.
in_file("a name that is a keyword", (0, 0, 0, 0), 16, b"loss",
        grammar=file([(0, 0, 0, 0)], spellings=[b"loss"], pairs=[(0, b"loss"), (0, b"los")]))
in_file("a name that begins another", (1, 0, 0, 0), 25, b"los",
        grammar=file([(0, 0, 0, 0)], spellings=[b"loss"], pairs=[(0, b"loss"), (0, b"los")]))
# 253 keywords of 35 bytes with tag and length, then rules of 37: rule k stands at 4 + 253 * 35 + 37 * k.
LARGEST = largest([(0, 0, 0, 0)] * 512)
for number in (0, 1, 2, 63, 126, 127):
    in_file(f"rule {number} of the largest file", (number, 0, 0, 0), 4 + 8855 + 37 * number + 5, b"%032d" % number,
            grammar=LARGEST)
for number in (128, 253, 512):
    refused(f"rule {number} of the largest file", 14, (number, 0, 0, 0), grammar=LARGEST)


# --- Number 14: the rule -------------------------------------------------------------------------

# "a capture whose rule .. not there": rules 0 to 2 are, whether a token was read or not.
for number in (3, 4, 7, 127, 128, 255, 256, 65535, 65536, 2147483648, U32 - 1, U32):
    refused(f"rule {number} of 3", 14, (number, 0, 1, 0), TOKENS)
    refused(f"rule {number} of 3, no token read", 14, (number, 0, 0, 0), TOKENS)
# One rule, and none: then every capture is refused.
in_report("rule 0 of 1", (0, 0, 1, 0), 0, b"loss", TOKENS, grammar=with_names(b"r"))
in_file("rule 0 of 1, no token read", (0, 0, 0, 0), 9, b"r", TOKENS, grammar=with_names(b"r"))
refused("rule 1 of 1", 14, (1, 0, 1, 0), TOKENS, grammar=with_names(b"r"))
refused("rule 1 of 1, no token read", 14, (1, 0, 0, 0), TOKENS, grammar=with_names(b"r"))
for number in (0, 1, 2, U32):
    for first, after in ((0, 0), (0, 1), (0, 7), (7, 7)):
        refused(f"rule {number} of none, tokens {first} to before {after}", 14, (number, first, after, 0), TOKENS,
                grammar=with_keywords(b"loss", b":"))
refused("rule 0 of none, no tokens and no report", 14, (0, 0, 0, 0), (), b"", with_keywords())


# --- Number 14: the tokens -----------------------------------------------------------------------

# "a capture whose .. tokens are not there": 7 are. The token after the last may be the count.
for after in (8, 9, 28, 4096, 65536, 2147483648, U32 - 1, U32):
    refused(f"tokens 0 to before {after} of 7", 14, (0, 0, after, 0), TOKENS)
    refused(f"tokens 6 to before {after} of 7", 14, (0, 6, after, 0), TOKENS)
    refused(f"tokens {after - 1} to before {after} of 7", 14, (0, after - 1, after, 0), TOKENS)
    refused(f"no token at {after} of 7", 14, (0, after, after, 0), TOKENS)
for first, after in ((0, 1), (1, 1), (0, 4), (U32, U32)):
    refused(f"tokens {first} to before {after} of none", 14, (0, first, after, 0))
# "whose first token comes after the token that follows it".
for first, after in (
    (1, 0), (2, 1), (7, 0), (7, 6), (8, 7), (8, 0), (28, 7), (65536, 0), (2147483648, 0), (U32, 0), (U32, 7),
    (U32, U32 - 1),
):
    refused(f"first token {first}, the one that follows {after}", 14, (0, first, after, 0), TOKENS)

# "whose tokens' offsets fall": that of a token of the capture is below that of the one before it in the capture. Each
# token has a byte, and the report has 18.
for said, first, after, offsets in (
    ("at the beginning", 0, 4, (6, 5, 7, 8)),
    ("in the middle", 0, 4, (5, 7, 6, 8)),
    ("at the end", 0, 4, (5, 6, 8, 7)),
    ("everywhere", 0, 4, (8, 7, 6, 5)),
    ("in the middle, first and last in order", 0, 4, (2, 9, 3, 8)),
    ("far in the middle, first and last in order", 0, 5, (0, 1, 16, 0, 17)),
    ("in the middle to before the first", 0, 3, (5, 4, 6)),
    ("at the end to before the first", 0, 3, (5, 6, 4)),
    ("between two", 0, 2, (1, 0)),
    ("between two, inside", 1, 3, (0, 5, 4, 6)),
    ("at its beginning, inside", 1, 4, (0, 6, 5, 7, 8)),
    ("at its end, inside", 1, 4, (0, 5, 7, 6, 8)),
    ("from the largest", 0, 3, (0, U32, 2)),
    ("behind equal ones", 0, 4, (5, 5, 5, 4)),
    ("before equal ones", 0, 4, (6, 5, 5, 5)),
):
    refused(f"offsets fall {said}", 14, (0, first, after, 0), [(offset, 1) for offset in offsets])
for said, first, after, offsets in (
    ("rise", 0, 4, (5, 6, 7, 8)),
    ("are equal", 0, 4, (5, 5, 5, 5)),
    ("rise and are equal", 0, 4, (5, 5, 6, 6)),
    ("fall before the first", 1, 4, (9, 5, 6, 7)),
    ("fall behind the last", 0, 3, (5, 6, 7, 2)),
    ("fall before and behind", 1, 3, (9, 5, 6, 2)),
    ("fall before and behind one", 1, 2, (9, 5, 2)),
):
    text = REPORT[offsets[first] : offsets[after - 1] + 1]
    in_report(f"offsets {said}", (0, first, after, 0), offsets[first], text, [(offset, 1) for offset in offsets])

# "or whose last token ends past the report": at most at byte 18.
in_report("the last token ends with the report", (0, 0, 1, 0), 17, b"\n", [(17, 1)])
in_report("a last token without a byte at the end", (0, 0, 1, 0), 18, b"", [(18, 0)])
in_report("the text is the whole report", (0, 0, 1, 0), 0, REPORT, [(0, 18)])
in_report("the text of two is the whole report", (0, 0, 2, 0), 0, REPORT, [(0, 0), (18, 0)])
for token in ((17, 2), (18, 1), (19, 0), (0, 19), (1, 18), (65535, 0), (65536, 0), (0, 65536), (U32, 0), (0, U32)):
    refused(f"the last token is {token} of 18 bytes", 14, (0, 0, 1, 0), [token])
    refused(f"the last of two is {token} of 18 bytes", 14, (0, 0, 2, 0), [(0, 1), token])
# The end is the true sum, also where it passes a word's limit: less 4294967296 these would lie in the report.
for offset, length in (
    (U32, 1), (1, U32), (2, U32), (10, U32), (18, U32), (U32, 2), (U32, U32), (10, U32 - 2), (U32 - 3, 9),
    (2147483648, 2147483648), (2147483649, 2147483655),
):
    refused(f"a sum over a word, {offset} and {length}", 14, (0, 0, 1, 0), [(offset, length)])
    refused(f"a sum over a word behind a token, {offset} and {length}", 14, (0, 0, 2, 0), [(0, 4), (offset, length)])
# Only the last token's end is looked at.
in_report("an inner token ends past the report", (0, 0, 3, 0), 0, b"loss: 0.03", [(0, 4), (5, 100), (6, 4)])
in_report("an inner token ends over a word", (0, 0, 3, 0), 0, b"loss: 0.03", [(0, 4), (5, U32), (6, 4)])
in_report("the first token ends past the report", (0, 0, 2, 0), 2, b"ss", [(2, 1000), (3, 1)])
in_report("tokens outside end past the report", (0, 1, 2, 0), 2, b"ss", [(0, 1000), (2, 2), (3, 1000)])
refused("the last of them ends past the report", 14, (0, 1, 3, 0), [(0, 1000), (2, 2), (3, 1000)])
# No report: its end is its beginning.
in_report("no report, a token without a byte", (0, 0, 1, 0), 0, b"", [(0, 0)], b"")
refused("no report, a token of a byte", 14, (0, 0, 1, 0), [(0, 1)], b"")
refused("no report, a token at 1", 14, (0, 0, 1, 0), [(1, 0)], b"")


# --- Numbers 8 and 11, and the longest inputs ----------------------------------------------------

# "8 for the report": "report over length or refused byte", wherever it stands, also where a name is shown. A column
# over 65,535 is 9, which is not asked here.
for byte in (0, 1, 8, 11, 12, 14, 31, 127):
    for said, report in (("first", bytes([byte]) + REPORT), ("last", REPORT + bytes([byte]))):
        refused(f"byte {byte} {said}", 8, (0, 2, 3, 0), TOKENS, report)
        refused(f"byte {byte} {said}, no token read", 8, (0, 0, 0, 0), TOKENS, report)
for size in (65536, 65537, 131072):
    refused(f"a report of {size} bytes", 8, (0, 0, 1, 0), [(0, 1)], b"a" * size)
    refused(f"a report of {size} bytes, no token read", 8, (0, 0, 0, 0), [(0, 1)], b"a" * size)
LONGEST = b"ab" * 32767 + b"c"
in_report("a report of 65535 bytes", (0, 0, 1, 0), 0, LONGEST, [(0, 65535)], LONGEST)
in_report("the last byte of 65535", (0, 0, 1, 0), 65534, b"c", [(65534, 1)], LONGEST)
in_report("the end of 65535 bytes", (0, 0, 2, 0), 65470, b"ab" * 32 + b"c", [(65470, 0), (65535, 0)], LONGEST)
in_report("64 bytes of 65535", (0, 0, 1, 0), 2, b"ab" * 32, [(2, 64)], LONGEST)
refused("past the end of 65535 bytes", 14, (0, 0, 1, 0), [(65534, 2)], LONGEST)
in_report("65535 tabs", (0, 0, 1, 0), 65533, b"\t\t", [(65533, 2)], b"\t" * 65535)

# "11 for the tokens": "token words no multiple of 4, over 4,096 tokens, terminal over 255, column over 65,535", of any
# token, also where a name is shown.
for said, tokens in (
    ("3 words", [1, 0, 0]),
    ("5 words", [(0, 4), 1]),
    ("7 words", [(0, 4), 1, 0, 4]),
    ("terminal 256", [256, 0, 0, 4]),
    ("column 65536", [1, 65536, 0, 4]),
    ("the second of terminal 256", [(0, 4), 256, 0, 4, 1]),
    ("the second at column 65536", [(0, 4), 1, 65536, 4, 1]),
    ("the second of the largest terminal", [(0, 4), U32, 0, 4, 1]),
    ("the second at the largest column", [(0, 4), 1, U32, 4, 1]),
    ("4097 tokens", [(0, 4)] * 4097),
):
    refused(said, 11, (0, 0, 1, 0), tokens)
    refused(f"{said}, no token read", 11, (0, 0, 0, 0), tokens)
# 4,096 tokens, all at offset 7; then one of them at 6, which falls, and the text from it on begins there.
SEVENS = [(7, 1)] * 4096
in_report("4096 tokens", (0, 0, 4096, 0), 7, b".", SEVENS)
in_report("the last of 4096 tokens", (0, 4095, 4096, 0), 7, b".", SEVENS)
in_file("behind 4096 tokens", (1, 4096, 4096, 0), 30, b"value", SEVENS)
refused("a token more than 4096", 14, (0, 0, 4097, 0), SEVENS)
for at in (1, 2048, 4095):
    fallen = SEVENS[:at] + [(6, 1)] + SEVENS[at + 1 :]
    refused(f"4096 tokens, the offset of {at} falls", 14, (0, 0, 4096, 0), fallen)
    refused(f"4096 tokens, {at - 1} and {at}, whose offset falls", 14, (0, at - 1, at + 1, 0), fallen)
    in_report(f"4096 tokens, those before {at}, whose offset falls", (0, 0, at, 0), 7, b".", fallen)
    text = b"0." if at < 4095 else b"0"
    in_report(f"4096 tokens, those from {at} on, whose offset fell", (0, at, 4096, 0), 6, text, fallen)


# --- Numbers 1 to 5, and the order ---------------------------------------------------------------

# "14, for shown text, after 1 to 5 for the file, 8 for the report and 11 for the tokens". Small inputs of 1 to 5, with a
# text of the report and with a name.
for number, said, grammar in (
    (1, "no bytes", b""),
    (1, "a file cut short", FILE[:-1]),
    (1, "a byte too many", FILE + b"\0"),
    (2, "keyword `a b`", with_keywords(b"a b")),
    (2, "two rules of one name", with_names(b"r", b"r")),
    (3, "no node", VERSION + rule(0, b"r") + START),
    (4, "node 0 a repeat of 0", VERSION + rule(0, b"r") + node(6) + START),
    (5, "rule 0 is node 1 of 1", VERSION + rule(1, b"r") + TAIL),
    (5, "start mode 35", VERSION + rule(0, b"r") + EMPTY + start(0, 35)),
):
    refused(said, number, (0, 0, 1, 0), TOKENS, grammar=grammar)
    refused(f"{said}, no token read", number, (0, 0, 0, 0), TOKENS, grammar=grammar)
# A file need not be well formed: 7 is not asked. Rule 0 is node 0, which is rule 0.
in_file("a rule that is itself", (0, 0, 0, 0), 9, b"r", grammar=VERSION + rule(0, b"r") + node(2) + START)
in_report("a rule that is itself, a token read", (0, 0, 1, 0), 0, b"loss", TOKENS,
          grammar=VERSION + rule(0, b"r") + node(2) + START)

# "Checks run in rising number": every choice of faults from eight, one of each number; the answer is the lowest chosen.
# With none, the late ones show `ab c` for the last of four rules, and the early ones the name of the only rule, which
# stands at 8, behind tag 1 and a keyword of a byte.
for chosen in faults.choices(1, 2, 3, 4, 5, 8, 11, 14):
    grammar, report = faults.late_file(chosen), b"ab c\n" + b"\0" * (8 in chosen)
    tokens, capture = [(0, 2), (3, 1)] + [1, 1, 1] * (11 in chosen), (3, 0, 3 if 14 in chosen else 2, 0)
    label = faults.label("late", chosen)
    if chosen:
        refused(label, chosen[0], capture, tokens, report, grammar)
    else:
        in_report(label, capture, 0, b"ab c", tokens, report, grammar)
for chosen in faults.choices(1, 2, 3, 4, 5, 8, 11, 14):
    grammar, report = faults.early_file(chosen), b"\x7f" * (8 in chosen) + b"x y"
    tokens, capture = [1, 65536 if 11 in chosen else 0, 0, 1, (2, 1)], (1 if 14 in chosen else 0, 1, 1, 0)
    label = faults.label("early", chosen)
    if chosen:
        refused(label, chosen[0], capture, tokens, report, grammar)
    else:
        in_file(label, capture, 13, b"r", tokens, report, grammar)
# Two ways to be 14 at once are still 14.
refused("no rule and no token", 14, (3, 8, 8, 0), TOKENS)
refused("every word the largest", 14, (U32, U32, U32, U32), TOKENS)
refused("every word the largest, no tokens", 14, (U32, U32, U32, U32), (), b"")
refused("falling offsets and a last end past the report", 14, (0, 0, 2, 0), [(5, 1), (4, 100)])


if __name__ == "__main__":
    CASES.write()

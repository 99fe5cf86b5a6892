#!/usr/bin/env python3
"""Writes the calls that the program scanner_cases makes, and the lines that it must print (README.md).

Nothing here scans a report. Each call has its tokens written beside the bytes that are put together
for it; a family of calls has the rule that gives its tokens, in its loop or function. A comment quotes
the words of document 01, or of Note 3 of 02, that decide it.
"""

import itertools

import faults
import grammar_fields
from grammar_fields import EMPTY, EVERY_KIND, NINE, RUN, START, TAIL, VERSION
from grammar_fields import alike, field, keyword, node, rule, start, with_keywords, with_names
from records import Cases, Pairs, spaced, wide
from table_nodes import ANY, RELATION_COUNT

CASES = Cases("scanner_cases")
PAIRS = Pairs(60, (1, 2, 4, 9))


# --- Records and lines ---------------------------------------------------------------------------


def record(kind, label, x, y, mark, file, report, line):
    """One call and the line expected of it. The layout is that of the program's first comment."""
    numbers, *stored = PAIRS.stretch(file, report)
    CASES.add(label, line, kind, wide(1, mark) + wide(3, x, y) + numbers, *stored)


FEW = 24  # Scans of no more tokens than these have every word printed.


def scanned(tokens):
    """The line of a scan that answers these tokens. "A token is four words in a lent slice of u32 .."
    "After success, words past those written are as before." """
    line = f"tokens {len(tokens)}"
    for token in tokens if len(tokens) <= FEW else tokens[-2:]:
        line += spaced(" |", token)
    if len(tokens) > FEW:
        total = 0
        for word in (word for token in tokens for word in token):
            total = (total * 31 + word) % 1000000000
        line += f" | sum {total}"
    return line + " | kept"


def state(at, column, mark):
    return f" | at {at} {column} {'set' if mark else 'clear'}"


def scan(label, file, report, tokens, lent):
    """A scan that answers these tokens."""
    record("s", label, lent, 0, False, file, report, scanned(tokens))


def reads(label, file, report, tokens, column, lent=None):
    """The same, and the tokens handed out one by one are these too. "After the last token the answer
    is none ..": the column given is the one reached there.

    Where nothing else is said, six words more are lent than needed.
    """
    if lent is None:
        lent = 4 * len(tokens) + 6
    line = scanned(tokens) + f" | handed {len(tokens)} then none" + state(len(report), column, False)
    record("a", label, lent, 0, False, file, report, line + (" | same" if tokens else ""))


def refused_scan(label, number, file, report, lent):
    """A refused scan. "The answer is the number"; "Nothing is written." """
    record("s", label, lent, 0, False, file, report, f"refused {number} | kept")


def refused(label, number, file, report, lent=64):
    """A scan and a first step that are both refused by one of 1 to 5 or 8. "a refused call leaves the
    value unchanged" """
    assert number in (1, 2, 3, 4, 5, 8)
    line = f"refused {number} | kept | handed 0 then refused {number}" + state(0, 0, False)
    record("a", label, lent, 0, False, file, report, line)


def too_far(label, file, report, handed, at, column, mark, lent=64):
    """A scan refused by 9. The steps hand out that many tokens before the one that is too far; the
    value stays behind the last of them, at the offset, column and mark given."""
    line = f"refused 9 | kept | handed {handed} then refused 9" + state(at, column, mark)
    record("a", label, lent, 0, False, file, report, line)


def too_many(label, file, report, handed, column, lent):
    """A scan refused by 10. The steps, which don't know 10, hand out all tokens."""
    line = f"refused 10 | kept | handed {handed} then none" + state(len(report), column, False)
    record("a", label, lent, 0, False, file, report, line)


def handed(answer):
    """What a step hands out: the four words of a token, none, or the number of a refusal."""
    if answer is None:
        return "none"
    return f"refused {answer}" if isinstance(answer, int) else spaced("token", answer)


def step(label, file, report, before, answer, after=None, kind="n"):
    """The next token from an offset, column and mark on. A refusal leaves the value as it was."""
    at, column, mark = before
    if isinstance(answer, int) and after is None:
        after = before
    record(kind, label, at, column, mark, file, report, handed(answer) + state(*after))


def walk(label, file, report, *steps):
    """A scan, and a step behind each token. The steps: what is handed out, then the offset, column and
    mark reached; the last hands out none."""
    reads(label, file, report, [token for token, _ in steps[:-1]], steps[-1][1][1])
    before = (0, 0, False)
    for i, (answer, after) in enumerate(steps):
        step(f"{label}, step {i}", file, report, before, answer, after)
        before = after
    step(f"{label}, once more", file, report, before, None, before)


def value(label, file, report, *answers):
    """The first steps of a scanner's value, and what each hands out."""
    for i, answer in enumerate(answers):
        record("v", f"value, {label}, step {i}", i, 0, False, file, report, handed(answer))


# --- Grammar files -------------------------------------------------------------------------------


PLAIN = with_keywords()
LOSS = with_keywords(b"loss")
REFUSED = [byte for byte in range(32) if byte not in (9, 10, 13)] + [127]
DIGITS = b"0123456789"
CONTINUATION = range(128, 192)

A = [(1, 0, 0, 1), (2, 1, 1, 0)]  # The tokens of `a`.


def width(text):
    """The columns of a text without tabs and breaks: "A byte from 128 to 191 no longer advances the column". """
    return sum(byte not in CONTINUATION for byte in text)


def laid(between, pairs):
    """A line of spellings with these bytes between any two, from their terminals, and its tokens: one for each
    spelling, where it begins, then the line's end."""
    text = b""
    tokens = []
    for terminal, spelling in pairs:
        text += between if text else b""
        tokens.append((terminal, width(text), len(text), len(spelling)))
        text += spelling
    return text, tokens + [(2, width(text), len(text), 0)]


def reads_apart(label, file, *pairs, between=b" "):
    """`reads` of such a line, with blanks unless said."""
    text, tokens = laid(between, pairs)
    reads(label, file, text, tokens, width(text))


def reads_together(label, file, *pairs):
    """The same with nothing between the spellings, as single bytes part them."""
    reads_apart(label, file, *pairs, between=b"")


def scan_apart(label, file, *pairs):
    """The same for `scan`."""
    text, tokens = laid(b" ", pairs)
    scan(label, file, text, tokens, 4 * len(tokens) + 6)


# --- The small inputs and the examples of document 01 --------------------------------------------

# The column "small input", rows 8 to 10.
refused("small 8, byte 0", 8, PLAIN, b"\0")
too_far("small 9, 8192 tabs and `a`", PLAIN, b"\t" * 8192 + b"a", 0, 0, 0, False)
too_many("small 10, `a` and 7 words", PLAIN, b"a", 2, 1, 7)
reads("`a` and 8 words", PLAIN, b"a", A, 1, 8)

# "A tab then `a`: column 8, offset 1."
reads("tab then `a`", PLAIN, b"\ta", [(1, 8, 1, 1), (2, 9, 2, 0)], 9)

# "With keywords `loss` and `:` .. the text `  loss: 0.03` without a break".
BENCH = with_keywords(b"loss", b":")
walk("bench", BENCH, b"  loss: 0.03",
     ((3, 2, 2, 4), (6, 6, True)), ((4, 6, 6, 1), (7, 7, True)), ((0, 8, 8, 4), (12, 12, True)),
     ((2, 12, 12, 0), (12, 12, False)), (None, (12, 12, False)))

# A file byte by byte, written out: keywords `if` and `=`.
WRITTEN = bytes.fromhex("01 0001 01 02 0002 6966 02 0001 3d 04 0006 00 0000 0000 00 05 0003 0000 02")
reads("bytes written out", WRITTEN, b"if x=-1", [(3, 0, 0, 2), (1, 3, 3, 1), (4, 4, 4, 1), (0, 5, 5, 2), (2, 7, 7, 0)], 7)

# A report of several lines: a tab before text, an empty line, byte 13 before a break.
LINES = b"splice 12:\n\tloss: 0.03\n\n\tnote: ok (a, b)\r\n"
LINES_TOKENS = [
    (3, 0, 0, 6), (0, 7, 7, 2), (6, 9, 9, 1), (2, 10, 10, 0),
    (4, 8, 12, 4), (6, 12, 16, 1), (0, 14, 18, 4), (2, 18, 22, 0),
    (5, 8, 25, 4), (6, 12, 29, 1), (1, 14, 31, 2), (1, 17, 34, 1), (1, 18, 35, 1),
    (1, 19, 36, 1), (1, 21, 38, 1), (1, 22, 39, 1), (2, 24, 41, 0),
]
LINES_FILE = with_keywords(b"splice", b"loss", b"note", b":")
reads("lines of a report", LINES_FILE, LINES, LINES_TOKENS, 0)
# The same without the last two bytes: byte 13 and the break.
reads("lines without the last", LINES_FILE, LINES[:-2], LINES_TOKENS[:-1] + [(2, 23, 40, 0)], 23)
# "3 + k where the spelling equals keyword k .. else 0 .. else 1": no keywords.
reads("lines and no keywords", PLAIN, LINES, [(1 if t > 2 else t, c, o, n) for t, c, o, n in LINES_TOKENS], 0)

# --- One byte, and one byte between two letters --------------------------------------------------

# Each byte alone, between `a` and `c`, and behind keyword loss: a rule for each class of bytes.
for byte in range(256):
    text = bytes([byte])
    alone = f"byte {byte} alone"
    between = f"byte {byte} between"
    behind = f"byte {byte} behind a keyword"
    if byte in REFUSED:
        # "Other bytes below 32, and 127, are refused."
        refused(alone, 8, PLAIN, text)
        refused(between, 8, PLAIN, b"a" + text + b"c")
        refused(behind, 8, LOSS, b"loss" + text)
    elif byte == 10:
        # "Byte 10 ends a line and sets the column to 0."
        reads(alone, PLAIN, text, [], 0)
        reads(between, PLAIN, b"a\nc", A + [(1, 0, 2, 1), (2, 1, 3, 0)], 1)
        reads(behind, LOSS, b"loss\n", [(3, 0, 0, 4), (2, 4, 4, 0)], 0)
    elif byte == 9:
        # "Byte 9 moves to the next higher multiple of 8."
        reads(alone, PLAIN, text, [], 8)
        reads(between, PLAIN, b"a\tc", [(1, 0, 0, 1), (1, 8, 2, 1), (2, 9, 3, 0)], 9)
        reads(behind, LOSS, b"loss\t", [(3, 0, 0, 4), (2, 8, 5, 0)], 8)
    elif byte in (13, 32):
        # "Bytes 13 and 32 are blanks. Each byte .."
        reads(alone, PLAIN, text, [], 1)
        reads(between, PLAIN, b"a" + text + b"c", [(1, 0, 0, 1), (1, 2, 2, 1), (2, 3, 3, 0)], 3)
        reads(behind, LOSS, b"loss" + text, [(3, 0, 0, 4), (2, 5, 5, 0)], 5)
    elif byte in NINE:
        # "The bytes .. are tokens by themselves"
        reads(alone, PLAIN, text, A, 1)
        three = [(1, 0, 0, 1), (1, 1, 1, 1), (1, 2, 2, 1), (2, 3, 3, 0)]
        reads(between, PLAIN, b"a" + text + b"c", three, 3)
        reads(behind, LOSS, b"loss" + text, [(3, 0, 0, 4), (1, 4, 4, 1), (2, 5, 5, 0)], 5)
    elif byte in CONTINUATION:
        # "A byte from 128 to 191 no longer advances the column; offsets still count bytes."
        reads(alone, PLAIN, text, [(1, 0, 0, 1), (2, 0, 1, 0)], 0)
        reads(between, PLAIN, b"a" + text + b"c", [(1, 0, 0, 3), (2, 2, 3, 0)], 2)
        reads(behind, LOSS, b"loss" + text, [(1, 0, 0, 5), (2, 4, 5, 0)], 4)
    else:
        # "other tokens are longest runs of the remaining bytes", 192 to 255 among them.
        reads(alone, PLAIN, text, [(0 if byte in DIGITS else 1, 0, 0, 1), (2, 1, 1, 0)], 1)
        reads(between, PLAIN, b"a" + text + b"c", [(1, 0, 0, 3), (2, 3, 3, 0)], 3)
        reads(behind, LOSS, b"loss" + text, [(1, 0, 0, 5), (2, 5, 5, 0)], 5)

# The longest run of all: each byte that can stand in one, once.
reads_apart("all run bytes", PLAIN, (1, bytes(RUN)))
reads_apart("bytes 128 to 255", PLAIN, (1, bytes(range(128, 256))))
# Note 3: a letter of two bytes takes one column.
reads("letters of two bytes", PLAIN, "\u00b5m \u00e9t\u00e9\tx".encode(),
      [(1, 0, 0, 3), (1, 3, 4, 5), (1, 8, 10, 1), (2, 9, 11, 0)], 9)

# "report over length or refused byte": a refused byte at every place of a text.
for byte in (0, 8, 11, 12, 14, 31, 127):
    for place, text in faults.places(b"ab : 1\n", byte):
        refused(f"byte {byte} at {place} of 8", 8, PLAIN, bytes(text))


# --- Letters of UTF-8, whole and damaged ---------------------------------------------------------

# Note 3: "a `\u00b5` ahead of an entry pushes it one column too far. A byte from 128 to 191 no longer advances the
# column; offsets still count bytes." The names say the letters by their Unicode numbers, in
# hexadecimal as those are written.
MICRO, DEGREE = "\u00b5".encode(), "\u00b0".encode()
THREE = "\u2013".encode()  # A dash, e2 80 93.
FOUR = "\U0001f600".encode()  # A face, f0 9f 98 80.
for said, letter in (("b5", MICRO), ("b0", DEGREE), ("2013", THREE), ("1f600", FOUR), ("a and 308", b"a\xcc\x88")):
    n = len(letter)
    # Ahead of a token, with a blank and without: one column for the letter, two for a mark and the letter under it.
    cols = width(letter)
    assert cols == (2 if letter[0] == 97 else 1)
    reads(f"letter {said}, blank, `ab`", PLAIN, letter + b" ab",
          [(1, 0, 0, n), (1, cols + 1, n + 1, 2), (2, cols + 3, n + 3, 0)], cols + 3)
    reads(f"letter {said} first in a token", PLAIN, b"  " + letter + b"ab c",
          [(1, 2, 2, n + 2), (1, cols + 5, n + 5, 1), (2, cols + 6, n + 6, 0)], cols + 6)
    reads(f"letter {said} inside a token", PLAIN, b"a" + letter + b"b c",
          [(1, 0, 0, n + 2), (1, cols + 3, n + 3, 1), (2, cols + 4, n + 4, 0)], cols + 4)
    reads(f"letter {said} behind a token", PLAIN, b"ab" + letter + b" c",
          [(1, 0, 0, n + 2), (1, cols + 3, n + 3, 1), (2, cols + 4, n + 4, 0)], cols + 4)
    reads(f"letter {said} alone in a line", PLAIN, letter + b"\n" + letter,
          [(1, 0, 0, n), (2, cols, n, 0), (1, 0, n + 1, n), (2, cols, 2 * n + 1, 0)], cols)
    # Up to column 7, and up to 8: the letter decides where a tab goes.
    reads(f"letter {said} before a tab", PLAIN, b" " * (7 - cols) + letter + b"\tx",
          [(1, 7 - cols, 7 - cols, n), (1, 8, 8 - cols + n, 1), (2, 9, 9 - cols + n, 0)], 9)
    reads(f"letter {said} before a far tab", PLAIN, b" " * (8 - cols) + letter + b"\tx",
          [(1, 8 - cols, 8 - cols, n), (1, 16, 9 - cols + n, 1), (2, 17, 10 - cols + n, 0)], 17)
    # Beside single bytes.
    reads(f"letter {said} between single bytes", PLAIN, b":" + letter + b":",
          [(1, 0, 0, 1), (1, 1, 1, n), (1, cols + 1, n + 1, 1), (2, cols + 2, n + 2, 0)], cols + 2)
    # "Terminal: 3 + k where the spelling equals keyword k", by bytes; a number has digits alone.
    reads(f"letter {said} behind a number", PLAIN, b"20" + letter, [(1, 0, 0, n + 2), (2, cols + 2, n + 2, 0)], cols + 2)
    reads(f"letter {said} a keyword", with_keywords(letter, b"20" + letter), letter + b" 20" + letter + b" 20",
          [(3, 0, 0, n), (4, cols + 1, n + 1, n + 2), (0, 2 * cols + 4, 2 * n + 4, 2), (2, 2 * cols + 6, 2 * n + 6, 0)],
          2 * cols + 6)
    reads(f"letter {said}, the last byte missing", with_keywords(letter), letter[:-1] + b" x",
          [(1, 0, 0, n - 1), (1, cols + 1, n, 1), (2, cols + 2, n + 1, 0)], cols + 2)

# The entry that went wrong: `\u00b5` and two blanks, and below it three blanks, lead to the same column.
reads("entries below each other", LOSS, MICRO + b"  loss\n   loss\n",
      [(1, 0, 0, 2), (3, 3, 4, 4), (2, 7, 8, 0), (3, 3, 12, 4), (2, 7, 16, 0)], 0)

# A byte order mark is a letter like any other: it makes the first word another one, and takes a column.
reads("byte order mark before a keyword", LOSS, b"\xef\xbb\xbfloss loss", [(1, 0, 0, 7), (3, 6, 8, 4), (2, 10, 12, 0)], 10)

# Bytes 128 to 191 by themselves: run bytes that move no column, at every place.
for byte in (128, 176, 191):
    one = bytes([byte])
    reads(f"byte {byte} at a line's start", PLAIN, b"a\n" + one + b" b",
          A + [(1, 0, 2, 1), (1, 1, 4, 1), (2, 2, 5, 0)], 2)
    reads(f"byte {byte} after a tab", PLAIN, b"\t" + one + b"\tb", [(1, 8, 1, 1), (1, 16, 3, 1), (2, 17, 4, 0)], 17)
    reads(f"byte {byte} before a tab", PLAIN, b"       " + one + b"\tb", [(1, 7, 7, 1), (1, 8, 9, 1), (2, 9, 10, 0)], 9)
    reads(f"byte {byte} before a break", PLAIN, b"a " + one + b"\nb",
          [(1, 0, 0, 1), (1, 2, 2, 1), (2, 2, 3, 0), (1, 0, 4, 1), (2, 1, 5, 0)], 1)
    reads(f"byte {byte} and byte 13 before a break", PLAIN, one + b"\r\n", [(1, 0, 0, 1), (2, 1, 2, 0)], 0)
    reads(f"byte {byte} between blanks", PLAIN, b" " + one + b" " + one + b" ",
          [(1, 1, 1, 1), (1, 2, 3, 1), (2, 3, 5, 0)], 3)
    reads(f"byte {byte} between single bytes", PLAIN, b":" + one + b":",
          [(1, 0, 0, 1), (1, 1, 1, 1), (1, 1, 2, 1), (2, 2, 3, 0)], 2)
    reads(f"byte {byte} ten times", PLAIN, one * 10 + b"a b", [(1, 0, 0, 11), (1, 2, 12, 1), (2, 3, 13, 0)], 3)
    reads(f"byte {byte} inside a number", PLAIN, b"1" + one + b"2", [(1, 0, 0, 3), (2, 2, 3, 0)], 2)
# What is no UTF-8 is not refused, and from 192 on each byte advances.
for said, text, tokens, column in (
    ("c0 80", b"\xc0\x80 x", [(1, 0, 0, 2), (1, 2, 3, 1), (2, 3, 4, 0)], 3),
    ("ed a0 80", b"\xed\xa0\x80 x", [(1, 0, 0, 3), (1, 2, 4, 1), (2, 3, 5, 0)], 3),
    ("c2 c2 b5", b"\xc2\xc2\xb5 x", [(1, 0, 0, 3), (1, 3, 4, 1), (2, 4, 5, 0)], 4),
    ("f5 ff", b"\xf5\xff x", [(1, 0, 0, 2), (1, 3, 3, 1), (2, 4, 4, 0)], 4),
    ("bf c0", b"\xbf\xc0 x", [(1, 0, 0, 2), (1, 2, 3, 1), (2, 3, 4, 0)], 3),
    ("c2, a blank, b5", b"\xc2 \xb5 x", [(1, 0, 0, 1), (1, 2, 2, 1), (1, 3, 4, 1), (2, 4, 5, 0)], 4),
    ("c2, a break, b5", b"\xc2\n\xb5 x", [(1, 0, 0, 1), (2, 1, 1, 0), (1, 0, 2, 1), (1, 1, 4, 1), (2, 2, 5, 0)], 2),
    ("c2, a tab, b5", b"\xc2\t\xb5 x", [(1, 0, 0, 1), (1, 8, 2, 1), (1, 9, 4, 1), (2, 10, 5, 0)], 10),
    ("c2, `:`, b5", b"\xc2:\xb5 x", [(1, 0, 0, 1), (1, 1, 1, 1), (1, 2, 2, 1), (1, 3, 4, 1), (2, 4, 5, 0)], 4),
):
    reads(f"no UTF-8, {said}", PLAIN, text, tokens, column)
# A keyword of 32 bytes in 16 letters, one letter more, and its bytes 128 to 191 alone.
MICROS = with_keywords(MICRO * 16, b"\xb5" * 16)
reads_apart("16 letters b5 a keyword", MICROS, (3, MICRO * 16), (1, MICRO * 17), (4, b"\xb5" * 16), (1, MICRO * 15))
# "none of them at or below 32 or equal to 127": no other byte of a letter is looked at in keywords and names.
reads_apart("names with letters", VERSION + keyword(MICRO) + rule(0, MICRO) + rule(0, b"\x80") + TAIL, (3, MICRO), (1, b"\x80"))


# --- Blanks, tabs and columns --------------------------------------------------------------------

# "Bytes 13 and 32 are blanks. Each byte .."
for n in range(10):
    reads(f"{n} blanks then `a`", PLAIN, b" " * n + b"a", [(1, n, n, 1), (2, n + 1, n + 1, 0)], n + 1)
    reads(f"`a` then {n} blanks", PLAIN, b"a" + b" " * n, [(1, 0, 0, 1), (2, n + 1, n + 1, 0)], n + 1)
    reads(f"{n} bytes 13 then `a`", PLAIN, b"\r" * n + b"a", [(1, n, n, 1), (2, n + 1, n + 1, 0)], n + 1)
    reads(f"`a` then {n} bytes 13", PLAIN, b"a" + b"\r" * n, [(1, 0, 0, 1), (2, n + 1, n + 1, 0)], n + 1)
    reads(f"{n} blanks alone", PLAIN, b" " * n, [], n)
    reads(f"{n} bytes 13 alone", PLAIN, b"\r" * n, [], n)
# "Byte 9 moves to the next higher multiple of 8."
for n in (1, 2, 3, 4, 9, 100):
    tokens = [(1, 8 * n, n, 1), (2, 8 * n + 1, n + 1, 0)]
    reads(f"{n} tabs then `a`", PLAIN, b"\t" * n + b"a", tokens, 8 * n + 1)
    reads(f"`a` then {n} tabs", PLAIN, b"a" + b"\t" * n, [(1, 0, 0, 1), (2, 8 * n, n + 1, 0)], 8 * n)
    reads(f"{n} tabs alone", PLAIN, b"\t" * n, [], 8 * n)
# From columns 0 to 7 a tab moves to 8, from 8 to 15 to 16, from 16 to 23 to 24.
for n, stop in [(n, 8) for n in range(8)] + [(n, 16) for n in range(8, 16)] + [(16, 24), (23, 24), (24, 32)]:
    tokens = [(1, stop, n + 1, 1), (2, stop + 1, n + 2, 0)]
    reads(f"{n} blanks, tab, `b`", PLAIN, b" " * n + b"\tb", tokens, stop + 1)
    reads(f"{n} bytes 13, tab, `b`", PLAIN, b"\r" * n + b"\tb", tokens, stop + 1)
    if n > 0:
        tokens = [(1, 0, 0, n)] + tokens
        reads(f"{n} letters, tab, `b`", PLAIN, b"a" * n + b"\tb", tokens, stop + 1)
        reads(f"{n} bytes 255, tab, `b`", PLAIN, b"\xff" * n + b"\tb", tokens, stop + 1)
for label, text, tokens, column in (
    ("blank, tab, blank, tab, `a`", b" \t \ta", [(1, 16, 4, 1), (2, 17, 5, 0)], 17),
    ("tab, blank, `a`", b"\t a", [(1, 9, 2, 1), (2, 10, 3, 0)], 10),
    ("tabs between", b"a\tb\t\tc", [(1, 0, 0, 1), (1, 8, 2, 1), (1, 24, 5, 1), (2, 25, 6, 0)], 25),
    ("tab behind 8 letters", b"abcdefgh\ti", [(1, 0, 0, 8), (1, 16, 9, 1), (2, 17, 10, 0)], 17),
    ("tab in a second line", b"abc\n\td", [(1, 0, 0, 3), (2, 3, 3, 0), (1, 8, 5, 1), (2, 9, 6, 0)], 9),
    ("tab behind a single byte", b":\ta", [(1, 0, 0, 1), (1, 8, 2, 1), (2, 9, 3, 0)], 9),
    ("tab before the break", b"a\t\n", [(1, 0, 0, 1), (2, 8, 2, 0)], 0),
    ("blanks on both sides", b"  a   b ", [(1, 2, 2, 1), (1, 6, 6, 1), (2, 8, 8, 0)], 8),
    ("byte 13 first", b"\ra", [(1, 1, 1, 1), (2, 2, 2, 0)], 2),
    ("byte 13 and tab", b"\r\t\ra", [(1, 9, 3, 1), (2, 10, 4, 0)], 10),
):
    reads(label, PLAIN, text, tokens, column)


# --- Lines ---------------------------------------------------------------------------------------

# "A line with a token ends in a token of terminal 2 .."
for label, text, tokens, column in (
    ("empty report", b"", [], 0),
    ("one break", b"\n", [], 0),
    ("three breaks", b"\n\n\n", [], 0),
    ("a line of blanks", b"   \n", [], 0),
    ("a line of blanks without a break", b"   ", [], 3),
    ("a line of a tab", b"\t\n", [], 0),
    ("a line of byte 13", b"\r\n", [], 0),
    ("lines of blanks and tabs", b" \n\t \n \t\n  ", [], 2),
    ("final break", b"a\n", A, 0),
    ("no final break", b"a", A, 1),
    ("`a` and two blanks", b"a  ", [(1, 0, 0, 1), (2, 3, 3, 0)], 3),
    ("`a`, two blanks and a break", b"a  \n", [(1, 0, 0, 1), (2, 3, 3, 0)], 0),
    ("final break and blanks", b"a\n   ", A, 3),
    ("final break and a tab", b"a\n\t", A, 8),
    ("final break and empty lines", b"a\n\n\n", A, 0),
    ("empty lines first", b"\n\na", [(1, 0, 2, 1), (2, 1, 3, 0)], 1),
    ("a line of blanks first", b"  \na", [(1, 0, 3, 1), (2, 1, 4, 0)], 1),
    ("two lines", b"a\nb", A + [(1, 0, 2, 1), (2, 1, 3, 0)], 1),
    ("two lines and a final break", b"a\nb\n", A + [(1, 0, 2, 1), (2, 1, 3, 0)], 0),
    ("empty lines between", b"a\n\n\nb\n", A + [(1, 0, 4, 1), (2, 1, 5, 0)], 0),
    ("a line of blanks between", b"a\n   \nb", A + [(1, 0, 6, 1), (2, 1, 7, 0)], 1),
    ("a line of tabs between", b"a\n\t\t\n b", A + [(1, 1, 6, 1), (2, 2, 7, 0)], 2),
    ("byte 13 before breaks", b"a\r\nb\r\n", [(1, 0, 0, 1), (2, 2, 2, 0), (1, 0, 3, 1), (2, 2, 5, 0)], 0),
    ("byte 13 behind a break", b"a\n\rb", A + [(1, 1, 3, 1), (2, 2, 4, 0)], 2),
    ("lines ended by byte 13 alone", b"a\rb\r", [(1, 0, 0, 1), (1, 2, 2, 1), (2, 4, 4, 0)], 4),
    ("deeper lines", b"a\n b\n  c", A + [(1, 1, 3, 1), (2, 2, 4, 0), (1, 2, 7, 1), (2, 3, 8, 0)], 3),
    ("single byte at the end", b"a:\n", [(1, 0, 0, 1), (1, 1, 1, 1), (2, 2, 2, 0)], 0),
    ("break behind a number", b"12\n3", [(0, 0, 0, 2), (2, 2, 2, 0), (0, 0, 3, 1), (2, 1, 4, 0)], 1),
):
    reads(label, PLAIN, text, tokens, column)
# n lines of `a`: line i stands at offset 2 i.
for n in (1, 2, 5, 30, 300):
    tokens = [token for i in range(n) for token in ((1, 0, 2 * i, 1), (2, 1, 2 * i + 1, 0))]
    reads(f"{n} lines of `a`", PLAIN, b"a\n" * n, tokens, 0)
    reads(f"{n} lines of `a`, no final break", PLAIN, (b"a\n" * n)[:-1], tokens, 1)
# n times `a `: token i stands at column and offset 2 i, and the line ends behind the last blank.
for n in (1, 2, 5, 30, 300):
    tokens = [(1, 2 * i, 2 * i, 1) for i in range(n)] + [(2, 2 * n, 2 * n, 0)]
    reads(f"{n} times `a` and a blank", PLAIN, b"a " * n, tokens, 2 * n)
# Runs of n letters: one token.
for n in (1, 2, 31, 32, 33, 64, 255, 256, 257, 4096):
    reads_apart(f"a run of {n}", PLAIN, (1, b"a" * n))


# --- Numbers -------------------------------------------------------------------------------------

# "0 for a number (an optional `-`, digits, optionally `.` and digits ..); else 1"
NUMBERS = (
    "0 -0 007 1.5 -1.5 1 9 10 -1 00 0.0 -0.0 0.03 -00.10 123456789.987654321 00000000000000000000.0 "
    "99999999999999999999999 -99999999999999999999999 1.0 -1.00"
).split()
WORDS = (
    "- 1. .5 -.5 --1 +1 1e3 1.2.3 . -. .. -1. --1.5 1..5 1.-5 1- 1-2 -1- 1.5- +1.5 0x10 1a a1 1_000 1/2 "
    "-a a-1 .1. 1.5. -1.5.2 1.5e3 1e-3 5' 1E3 inf nan -- ---- 1.5a -x1 0- \u22121 1\u00b2 \u0661"
).split()
for spelling in NUMBERS:
    reads_apart(f"number {spelling}", PLAIN, (0, spelling.encode()))
for spelling in WORDS:
    reads_apart(f"no number {spelling}", PLAIN, (1, spelling.encode()))
reads_apart("all these numbers", PLAIN, *[(0, s.encode()) for s in NUMBERS])
reads_apart("all these that are none", PLAIN, *[(1, s.encode()) for s in WORDS])
reads_apart("numbers and others in turn", PLAIN,
            *[pair for s, t in zip(NUMBERS, WORDS) for pair in ((0, s.encode()), (1, t.encode()))])
# Every string of `-`, `7` and `.` to length 6: the numbers among them are put together as the words say.
PLUS = ["7" * n for n in range(1, 7)]
RESTS = [""] + ["." + digits for digits in PLUS]
MADE = {sign + whole + rest for sign in ("", "-") for whole in PLUS for rest in RESTS}
for size in (1, 2, 3, 4, 5, 6):
    strings = ["".join(s) for s in itertools.product("-7.", repeat=size)]
    pairs = [(0 if s in MADE else 1, s.encode()) for s in strings]
    for s, pair in zip(strings, pairs) if size <= 3 else ():
        reads_apart(f"string {s}", PLAIN, pair)
    put = reads_apart if size <= 5 else scan_apart
    put(f"strings of {size}", PLAIN, *pairs)
# Single bytes part numbers from what stands beside them.
for label, text, tokens in (
    ("`1,5`", b"1,5", [(0, 0, 0, 1), (1, 1, 1, 1), (0, 2, 2, 1), (2, 3, 3, 0)]),
    ("`-:1`", b"-:1", [(1, 0, 0, 1), (1, 1, 1, 1), (0, 2, 2, 1), (2, 3, 3, 0)]),
    ("`1.:.5`", b"1.:.5", [(1, 0, 0, 2), (1, 2, 2, 1), (1, 3, 3, 2), (2, 5, 5, 0)]),
    ("`50%`", b"50%", [(0, 0, 0, 2), (1, 2, 2, 1), (2, 3, 3, 0)]),
    ("`(-1.5)`", b"(-1.5)", [(1, 0, 0, 1), (0, 1, 1, 4), (1, 5, 5, 1), (2, 6, 6, 0)]),
    ("`x=-1`", b"x=-1", [(1, 0, 0, 1), (1, 1, 1, 1), (0, 2, 2, 2), (2, 4, 4, 0)]),
    ("`- 1`", b"- 1", [(1, 0, 0, 1), (0, 2, 2, 1), (2, 3, 3, 0)]),
    ("`1 .5`", b"1 .5", [(0, 0, 0, 1), (1, 2, 2, 2), (2, 4, 4, 0)]),
):
    reads(f"number beside, {label}", PLAIN, text, tokens, len(text))

# "3 + k where .. else 0 for a number": the keyword comes first.
for spelling in NUMBERS + WORDS:
    text = spelling.encode()
    if len(text) <= 32:
        reads_apart(f"keyword {spelling}", with_keywords(b"x", text), (4, text))
reads_apart("keywords that look like numbers", with_keywords(b"1.5", b"0", b"-1"), (3, b"1.5"), (4, b"0"), (5, b"-1"),
            (0, b"1.50"), (0, b"00"), (0, b"-0"), (0, b"-1.0"), (0, b"1"), (0, b"1.51"), (1, b"1.5."))


# --- Single bytes --------------------------------------------------------------------------------

# Each is a token of length 1 wherever it stands, of terminal 1, or 3 + k where it is keyword k.
for byte in NINE:
    text = bytes([byte])
    name = text.decode()
    for said, file, t in (("no keyword", PLAIN, 1), ("a keyword", with_keywords(text), 3)):
        # Alone, twice, thrice, next to words and numbers, with blanks between.
        reads_together(f"`{name}` {said}, alone", file, (t, text))
        reads_together(f"`{name}` {said}, twice", file, (t, text), (t, text))
        reads_together(f"`{name}` {said}, thrice", file, (t, text), (t, text), (t, text))
        reads_together(f"`{name}` {said}, between words", file, (1, b"a"), (t, text), (1, b"b"))
        reads_together(f"`{name}` {said}, between numbers", file, (0, b"12"), (t, text), (0, b"-3"))
        reads_together(f"`{name}` {said}, around a word", file, (t, text), (1, b"ab"), (t, text))
        reads_apart(f"`{name}` {said}, apart", file, (1, b"a"), (t, text), (1, b"b"), (t, text))
    reads_together(f"`{name}` and `a` keywords", with_keywords(b"a", text), (3, b"a"), (4, text), (3, b"a"))
# All nine in one row; as keywords they are 3 to 11, in reverse 11 to 3.
EACH = [bytes([byte]) for byte in NINE]
reads_together("nine in a row", PLAIN, *[(1, text) for text in EACH])
reads_together("nine keywords", with_keywords(*EACH), *[(3 + i, text) for i, text in enumerate(EACH)])
reads_together("nine keywords, reverse", with_keywords(*EACH[::-1]), *[(11 - i, text) for i, text in enumerate(EACH)])
# Bytes beside them in the row of bytes are no single bytes: each is of the run.
for byte in b"!$&'*+-./<>?@\\^_`{|}~\"#":
    text = bytes([byte])
    reads_apart(f"`{text.decode()}` twice", PLAIN, (1, text * 2))


# --- Keywords ------------------------------------------------------------------------------------

# "3 + k where the spelling equals keyword k": equal, and of the whole longest run.
for spelling in (b"loss lossy los l lossloss xloss loss- -loss loss. loss1 1loss Loss LOSS lost lots moss sslo "
                 b"loss\x80").split():
    said = spelling.decode("latin-1").replace("\x80", " and byte 128")
    reads_apart(f"keyword loss, {said}", LOSS, (3 if spelling == b"loss" else 1, spelling))
reads_apart("keyword loss, thrice", LOSS, (3, b"loss"), (3, b"loss"), (1, b"lossy"), (3, b"loss"))
reads("keyword loss, then `:`", LOSS, b"loss:", [(3, 0, 0, 4), (1, 4, 4, 1), (2, 5, 5, 0)], 5)
reads("keyword loss, behind `:`", LOSS, b":loss", [(1, 0, 0, 1), (3, 1, 1, 4), (2, 5, 5, 0)], 5)
reads("keyword loss, cut by `=`", LOSS, b"lo=ss", [(1, 0, 0, 2), (1, 2, 2, 1), (1, 3, 3, 2), (2, 5, 5, 0)], 5)
CUT = [(1, 0, 0, 2), (2, 2, 2, 0), (1, 0, 3, 2), (2, 2, 5, 0)]
reads("keyword loss, cut by a break", LOSS, b"lo\nss", CUT, 2)
PREFIXES = (b"a", b"ab", b"abc", b"abcd", b"b", b"bc")
for said, file, terminals in (
    ("short first", with_keywords(b"a", b"ab", b"abc"), (3, 4, 5, 1, 1, 1)),
    ("long first", with_keywords(b"abc", b"ab", b"a"), (5, 4, 3, 1, 1, 1)),
    ("middle missing", with_keywords(b"abc", b"a"), (4, 1, 3, 1, 1, 1)),
):
    reads_apart(f"keywords one in the other, {said}", file, *zip(terminals, PREFIXES))
# Keywords are bytes: 128 to 255 stand in them as any.
BYTES = with_keywords("na\u00efve".encode(), b"\x80", b"\xff", b"\xff\x80")
reads_apart("keywords of bytes over 127", BYTES, (3, "na\u00efve".encode()), (4, b"\x80"), (5, b"\xff"),
            (6, b"\xff\x80"), (1, b"\x80\xff"), (1, b"naive"), (1, b"\x81"))
# "At most 253 keywords": terminals 3 to 255.
SPELLINGS = [b"word%d" % i for i in range(253)]
MOST = with_keywords(*SPELLINGS)
for k in (0, 1, 2, 126, 127, 128, 250, 251, 252):
    reads_apart(f"253 keywords, number {k}", MOST, (3 + k, b"word%d" % k))
reads_apart("253 keywords, one more", MOST, (1, b"word253"))
reads_apart("253 keywords, first, middle, last", MOST, (3, b"word0"), (129, b"word126"), (255, b"word252"))
scan_apart("253 keywords, all", MOST, *[(3 + k, b"word%d" % k) for k in range(253)])
scan_apart("253 keywords, all in reverse", MOST, *[(255 - k, b"word%d" % (252 - k)) for k in range(253)])
reads_apart("252 keywords, the 253rd", with_keywords(*SPELLINGS[:252]), (1, b"word252"), (254, b"word251"))
refused("254 keywords", 1, with_keywords(*SPELLINGS, b"word253"), b"word0")
# "Keywords and names have 1 to 32 bytes": the longest, alike but for the last byte.
LONG = [b"x" * 31 + bytes([last]) for last in b"abcdefgh"]
LONGEST = with_keywords(*LONG)
for k in range(8):
    reads_apart(f"32 bytes, last differs, {k}", LONGEST, (3 + k, LONG[k]))
reads_apart("32 bytes, all", LONGEST, *[(3 + k, LONG[k]) for k in range(8)])
for said, spelling in (
    ("another last", b"x" * 31 + b"i"),
    ("31 bytes", b"x" * 31),
    ("33 bytes", b"x" * 31 + b"aa"),
    ("33 bytes, the last 32 equal", b"x" * 32 + b"a"),
    ("64 bytes", (b"x" * 31 + b"a") * 2),
    ("288 bytes", b"x" * 31 + b"a" * 257),
    ("65535 bytes", b"x" * 31 + b"a" * 65504),
):
    reads_apart(f"32 bytes, {said}", LONGEST, (1, spelling))
# Alike but for the first byte.
FIRST = [bytes([first]) + b"y" * 31 for first in b"abcdefgh"]
reads_apart("32 bytes, first differs", with_keywords(*FIRST), *[(3 + k, FIRST[k]) for k in range(8)], (1, b"i" + b"y" * 31))
# Two keywords side by side: neither both together nor the end of one with the start of the next is one.
TWO = with_keywords(b"ab", b"cd")
reads_apart("keywords side by side", TWO, (3, b"ab"), (4, b"cd"), (1, b"abcd"), (1, b"bc"))
# "tag 2, a keyword; tag 3, a rule": a rule's name is no keyword.
NAMED = VERSION + keyword(b"loss") + rule(0, b"note") + rule(0, b":") + rule(0, b"loss") + TAIL
reads_apart("names are no keywords", NAMED, (3, b"loss"), (1, b"note"), (1, b":"), (1, b"rule"))

# Note 6: "200 keywords of 32 bytes that differ only in the last", and so in the middle and in the first. "It still says
# yes exactly where all bytes are the same": what is nearly one of them is a word.
for said, place in (("last", 31), ("middle", 16), ("first", 0)):
    ALIKE = alike(place)
    ALIKE_FILE = with_keywords(*ALIKE)
    scan_apart(f"200 keywords, {said} byte, all", ALIKE_FILE, *[(3 + k, text) for k, text in enumerate(ALIKE)])
    reads_apart(f"200 keywords, {said} byte, some and near ones", ALIKE_FILE,
                (3, ALIKE[0]), (202, ALIKE[199]), (102, ALIKE[99]),
                (1, ALIKE[0][:-1]), (1, ALIKE[0][1:]), (1, ALIKE[199] + b"k"), (1, b"k" + ALIKE[199]),
                (1, b"k" * place + bytes([RUN[200]]) + b"k" * (31 - place)),
                (1, ALIKE[0][:8] + b"j" + ALIKE[0][9:]), (1, ALIKE[0][16:] + ALIKE[99][:16]), (1, ALIKE[0] + ALIKE[1]))
    TEXT, TOKENS = laid(b" ", ((202, ALIKE[199]), (1, ALIKE[199][:-1]), (3, ALIKE[0])))
    value(f"200 keywords, {said} byte", ALIKE_FILE, TEXT, *TOKENS, None)
    refused(f"200 keywords, {said} byte, the last the first", 2, with_keywords(*ALIKE[:199], ALIKE[0]), b"k")

# Files of every kind of node, the largest one, and one that is not well formed: 7 is not asked here.
FULL = grammar_fields.file(EVERY_KIND[:10], 9, 1, (b"loss", b":"), ((9, b"report"), (3, b"line"), (0, b"loss")))
LARGEST = grammar_fields.largest([(0, 0, 0, 0)] * 512)
reads("file with every kind", FULL, b"loss: 1", [(3, 0, 0, 4), (4, 4, 4, 1), (0, 6, 6, 1), (2, 7, 7, 0)], 7)
reads_apart("largest file", LARGEST, (3, b"0" * 32), (255, b"0" * 29 + b"252"), (0, b"0" * 29 + b"253"), (0, b"0"))
reads("file not well formed", VERSION + rule(0, b"r") + node(2, 0) + START, b"a", A, 1)
reads("repeat of empty", VERSION + EMPTY + node(6, 0) + start(1), b"a", A, 1)


# --- Files that are refused ----------------------------------------------------------------------

# "the scanner 1 to 5 and 8 to 10".
FILE_65535 = VERSION + keyword(b"kk") + EMPTY * 7280 + START
FILE_65536 = VERSION + rule(0, b"r") + EMPTY * 7280 + START
assert len(FILE_65535) == 65535 and len(FILE_65536) == 65536
BAD_FILES = (
    (1, "no bytes", b""),
    (1, "last field cut", PLAIN[:-1]),
    (1, "a byte more", PLAIN + b"\0"),
    (1, "no tag 5", VERSION + EMPTY),
    (1, "tag 1 missing", TAIL),
    (1, "tag 1 twice", VERSION + VERSION + TAIL),
    (1, "tag 1 of value 2", field(1, b"\x02") + TAIL),
    (1, "tag 6", VERSION + field(6, b"") + TAIL),
    (1, "keyword behind a rule", VERSION + rule(0, b"r") + keyword(b"loss") + TAIL),
    (1, "65536 bytes", FILE_65536),
    (2, "keyword `a b`", with_keywords(b"a b")),
    (2, "keyword `a:`", with_keywords(b"a:")),
    (2, "empty keyword", with_keywords(b"")),
    (2, "keyword of 33 bytes", with_keywords(b"k" * 33)),
    (2, "equal keywords", with_keywords(b"loss", b":", b"loss")),
    (2, "equal names", with_names(b"r", b"r")),
    (2, "empty name", with_names(b"")),
    (3, "no node", VERSION + START),
    (3, "513 nodes", VERSION + EMPTY * 513 + START),
    (3, "65535 bytes", FILE_65535),
    (3, "129 rules", with_names(*[b"r%d" % i for i in range(129)])),
    (4, "node 0 a repeat of 0", VERSION + node(6, 0) + START),
    (4, "kind 10", VERSION + node(10) + START),
    (4, "no such rule", VERSION + node(2, 0) + START),
    (4, "relation 35", VERSION + EMPTY + node(7, 0, 0, 35) + START),
    (4, "unused word", VERSION + node(0, 1) + START),
    (5, "rule 0 is node 1 of 1", VERSION + rule(1, b"r") + TAIL),
    (5, "start node 1 of 1", VERSION + EMPTY + start(1)),
    (5, "mode 35", VERSION + EMPTY + start(0, 35)),
)
for number, said, file in BAD_FILES:
    refused(f"file, {said}", number, file, b"a")
    refused_scan(f"file, {said}, empty report and no word", number, file, b"", 0)
    # "Checks run in rising number": a report that fails 8 or 9, and too few words, say nothing then.
    refused_scan(f"file, {said}, byte 0", number, file, b"\0", 64)
    refused_scan(f"file, {said}, no word", number, file, b"a", 0)
    refused_scan(f"file, {said}, 8192 tabs and `a`", number, file, b"\t" * 8192 + b"a", 64)


# --- Room ----------------------------------------------------------------------------------------

# "too few words lent": four words a token, the line end's too.
for lent in range(8):
    too_many(f"`a`, {lent} words", PLAIN, b"a", 2, 1, lent)
for lent in (8, 9, 10, 11, 12, 13, 16, 100, 16400):
    reads(f"`a`, {lent} words", PLAIN, b"a", A, 1, lent)
for lent in (0, 1, 4, 16400):
    reads(f"empty report, {lent} words", PLAIN, b"", [], 0, lent)
    reads(f"blanks and breaks, {lent} words", PLAIN, b" \n\t\n ", [], 1, lent)
BENCH_TOKENS = [(3, 2, 2, 4), (4, 6, 6, 1), (0, 8, 8, 4), (2, 12, 12, 0)]
for lent in (0, 3, 4, 8, 12, 13, 14, 15):
    too_many(f"bench, {lent} words", BENCH, b"  loss: 0.03", 4, 12, lent)
for lent in (16, 17, 18, 19, 20, 64):
    reads(f"bench, {lent} words", BENCH, b"  loss: 0.03", BENCH_TOKENS, 12, lent)
for lent in (0, 4, 64, 67):
    too_many(f"lines of a report, {lent} words", LINES_FILE, LINES, 17, 0, lent)
for lent in (68, 69, 72):
    reads(f"lines of a report, {lent} words", LINES_FILE, LINES, LINES_TOKENS, 0, lent)
# Two lines: the second line end is the fourth token.
for lent in (7, 8, 12, 15):
    too_many(f"two lines, {lent} words", PLAIN, b"a\nb\n", 4, 0, lent)
reads("two lines, 16 words", PLAIN, b"a\nb\n", A + [(1, 0, 2, 1), (2, 1, 3, 0)], 0, 16)

# "4,096 tokens are read, 4,097 refused."
LINES_2048 = [token for i in range(2048) for token in ((1, 0, 2 * i, 1), (2, 1, 2 * i + 1, 0))]
SPACED_4095 = [(1, 2 * i, 2 * i, 1) for i in range(4095)] + [(2, 8190, 8190, 0)]
SINGLES_4095 = [(1, i, i, 1) for i in range(4095)] + [(2, 4095, 4095, 0)]
SINGLES_4094 = [(1, i, i, 1) for i in range(4094)] + [(2, 4094, 4094, 0)]
scan("4096 tokens, lines", PLAIN, b"a\n" * 2048, LINES_2048, 16384)
scan("4096 tokens, lines, no final break", PLAIN, (b"a\n" * 2048)[:-1], LINES_2048, 16400)
scan("4096 tokens, single bytes", PLAIN, b":" * 4095, SINGLES_4095, 16384)
scan("4096 tokens, single bytes and a break", PLAIN, b":" * 4095 + b"\n", SINGLES_4095, 16385)
scan("4095 tokens, single bytes", PLAIN, b":" * 4094, SINGLES_4094, 16380)
scan("4096 tokens, single bytes, empty lines behind", PLAIN, b":" * 4095 + b"\n \n\t", SINGLES_4095, 16400)
scan("4096 tokens, one line", PLAIN, b"a " * 4095, SPACED_4095, 16384)
scan("4096 tokens, one line, 4 words more", PLAIN, b"a " * 4095, SPACED_4095, 16388)
for lent in (0, 8, 16380, 16383):
    refused_scan(f"4096 tokens, one line, {lent} words", 10, PLAIN, b"a " * 4095, lent)
for lent in (16384, 16387, 16388, 16389, 16400):
    refused_scan(f"4097 tokens, one line, {lent} words", 10, PLAIN, b"a " * 4096, lent)
refused_scan("4097 tokens, single bytes", 10, PLAIN, b":" * 4096, 16400)
refused_scan("4097 tokens, lines", 10, PLAIN, b"a\n" * 2047 + b"a b", 16400)
refused_scan("4098 tokens, lines", 10, PLAIN, b"a\n" * 2049, 16400)
refused_scan("4098 tokens, lines, no final break", 10, PLAIN, b"a\n" * 2048 + b"a", 16400)
refused_scan("65536 tokens", 10, PLAIN, b":" * 65535, 16400)
# Keywords, numbers and single bytes in every line: `k:1` is four tokens with its line end.
MIXED = [
    token
    for i in range(1024)
    for token in ((3, 0, 4 * i, 1), (4, 1, 4 * i + 1, 1), (0, 2, 4 * i + 2, 1), (2, 3, 4 * i + 3, 0))
]
scan("4096 tokens, four a line", with_keywords(b"k", b":"), b"k:1\n" * 1024, MIXED, 16384)
refused_scan("4098 tokens, four a line", 10, with_keywords(b"k", b":"), b"k:1\n" * 1024 + b"k", 16400)


# --- The longest reports -------------------------------------------------------------------------

# "a report of at most 65,535 bytes", "report over length" is 8, whatever its bytes.
for said, byte, tokens, column in (
    ("letters", b"a", [(1, 0, 0, 65535), (2, 65535, 65535, 0)], 65535),
    ("bytes 255", b"\xff", [(1, 0, 0, 65535), (2, 65535, 65535, 0)], 65535),
    ("bytes 192", b"\xc0", [(1, 0, 0, 65535), (2, 65535, 65535, 0)], 65535),
    ("bytes 128", b"\x80", [(1, 0, 0, 65535), (2, 0, 65535, 0)], 0),
    ("bytes 191", b"\xbf", [(1, 0, 0, 65535), (2, 0, 65535, 0)], 0),
    ("digits", b"0", [(0, 0, 0, 65535), (2, 65535, 65535, 0)], 65535),
    ("blanks", b" ", [], 65535),
    ("breaks", b"\n", [], 0),
    ("bytes 13", b"\r", [], 65535),
    ("tabs", b"\t", [], 524280),
):
    reads(f"65535 {said}", PLAIN, byte * 65535, tokens, column)
    refused(f"65536 {said}", 8, PLAIN, byte * 65536)
refused("65536 bytes 0", 8, PLAIN, b"\0" * 65536)
refused("70000 letters", 8, PLAIN, b"a" * 70000)
refused("65536 single bytes", 8, PLAIN, b":" * 65536, 16400)
# A blank as byte 65,536 is over length too.
refused("65535 letters and a blank", 8, PLAIN, b"a" * 65535 + b" ")
refused("65535 letters and a break", 8, PLAIN, b"a" * 65535 + b"\n")
for said, report, tokens, column in (
    ("65534 letters and a break", b"a" * 65534 + b"\n", [(1, 0, 0, 65534), (2, 65534, 65534, 0)], 0),
    ("65534 letters and a blank", b"a" * 65534 + b" ", [(1, 0, 0, 65534), (2, 65535, 65535, 0)], 65535),
    ("65534 digits and `.`", b"0" * 65534 + b".", [(1, 0, 0, 65535), (2, 65535, 65535, 0)], 65535),
    ("65533 digits, `.` and a digit", b"0" * 65533 + b".1", [(0, 0, 0, 65535), (2, 65535, 65535, 0)], 65535),
    ("`-` and 65534 digits", b"-" + b"0" * 65534, [(0, 0, 0, 65535), (2, 65535, 65535, 0)], 65535),
    ("65534 digits and a letter", b"0" * 65534 + b"a", [(1, 0, 0, 65535), (2, 65535, 65535, 0)], 65535),
    ("65534 blanks and `a`", b" " * 65534 + b"a", [(1, 65534, 65534, 1), (2, 65535, 65535, 0)], 65535),
    ("65534 breaks and `a`", b"\n" * 65534 + b"a", [(1, 0, 65534, 1), (2, 1, 65535, 0)], 1),
    ("65533 letters, a break and `b`", b"a" * 65533 + b"\nb",
     [(1, 0, 0, 65533), (2, 65533, 65533, 0), (1, 0, 65534, 1), (2, 1, 65535, 0)], 1),
):
    reads(said, PLAIN, report, tokens, column)
for byte in (0, 127):
    refused(f"65534 letters and byte {byte}", 8, PLAIN, b"a" * 65534 + bytes([byte]))
    refused(f"65534 blanks and byte {byte}", 8, PLAIN, b" " * 65534 + bytes([byte]))
    refused(f"byte {byte} and 65534 letters", 8, PLAIN, bytes([byte]) + b"a" * 65534)


# --- Columns over 65,535 -------------------------------------------------------------------------

# "a token's column over 65,535" is 9; n tabs reach column 8 n, and 8 x 8,191 is 65,528.
T8191 = b"\t" * 8191
T8192 = b"\t" * 8192
reads("8191 tabs and `a`", PLAIN, T8191 + b"a", [(1, 65528, 8191, 1), (2, 65529, 8192, 0)], 65529)
reads("8191 tabs, 6 blanks and `a`", PLAIN, T8191 + b"      a", [(1, 65534, 8197, 1), (2, 65535, 8198, 0)], 65535)
reads("8191 tabs and 7 letters", PLAIN, T8191 + b"abcdefg", [(1, 65528, 8191, 7), (2, 65535, 8198, 0)], 65535)
# The line end is a token: its column counts.
too_far("8191 tabs and 8 letters", PLAIN, T8191 + b"abcdefgh", 1, 8199, 65536, True)
too_far("8191 tabs, 7 blanks and `a`", PLAIN, T8191 + b"       a", 1, 8199, 65536, True)
too_far("8191 tabs, 7 blanks, `a` and a break", PLAIN, T8191 + b"       a\n", 1, 8199, 65536, True)
too_far("8191 tabs, 8 blanks and `a`", PLAIN, T8191 + b"        a", 0, 0, 0, False)
too_far("8191 tabs, `a` and a tab", PLAIN, T8191 + b"a\t", 1, 8192, 65529, True)
too_far("8191 tabs, `a` and 7 blanks", PLAIN, T8191 + b"a       ", 1, 8192, 65529, True)
reads("8191 tabs, `a` and 6 blanks", PLAIN, T8191 + b"a      ", [(1, 65528, 8191, 1), (2, 65535, 8198, 0)], 65535)
too_far("8191 tabs, `a`, tab and `b`", PLAIN, T8191 + b"a\tb", 1, 8192, 65529, True)
# Note 3: a line may hold more bytes before 9 comes.
reads("8191 tabs and 7 letters b5", PLAIN, T8191 + MICRO * 7, [(1, 65528, 8191, 14), (2, 65535, 8205, 0)], 65535)
too_many("8191 tabs and 7 letters b5, 7 words lent", PLAIN, T8191 + MICRO * 7, 2, 65535, 7)
too_far("8191 tabs and 8 letters b5", PLAIN, T8191 + MICRO * 8, 1, 8207, 65536, True)
reads("8191 tabs and 57344 bytes 128", PLAIN, T8191 + b"\x80" * 57344, [(1, 65528, 8191, 57344), (2, 65528, 65535, 0)], 65528)
reads("8191 tabs, 7 blanks and byte 128", PLAIN, T8191 + b"       \x80", [(1, 65535, 8198, 1), (2, 65535, 8199, 0)], 65535)
too_far("8191 tabs, 7 blanks and letter b5", PLAIN, T8191 + b"       " + MICRO, 1, 8200, 65536, True)
too_far("8191 tabs, 8 blanks and byte 128", PLAIN, T8191 + b"        \x80", 0, 0, 0, False)
too_far("8192 tabs and byte 128", PLAIN, T8192 + b"\x80", 0, 0, 0, False)
# 4,369 tabs and 30,583 letters of two bytes: 65,535 bytes, and 34,952 + 30,583 columns.
reads("4369 tabs and 30583 letters b5", PLAIN, b"\t" * 4369 + MICRO * 30583,
      [(1, 34952, 4369, 61166), (2, 65535, 65535, 0)], 65535)
too_far("4370 tabs and 30582 letters b5", PLAIN, b"\t" * 4370 + MICRO * 30582, 1, 65534, 65542, True)
too_far("8192 tabs and `:`", PLAIN, T8192 + b":", 0, 0, 0, False)
too_far("8192 tabs and a number", PLAIN, T8192 + b"1", 0, 0, 0, False)
too_far("8192 tabs and a keyword", LOSS, T8192 + b"loss", 0, 0, 0, False)
too_far("65534 tabs and `a`", PLAIN, b"\t" * 65534 + b"a", 0, 0, 0, False)
reads("`a` and 8191 tabs", PLAIN, b"a" + T8191, [(1, 0, 0, 1), (2, 65528, 8192, 0)], 65528)
too_far("`a` and 8192 tabs", PLAIN, b"a" + T8192, 1, 1, 1, True)
too_far("`a`, 8192 tabs and a break", PLAIN, b"a" + T8192 + b"\n", 1, 1, 1, True)
too_far("`a`, 8192 tabs and `b`", PLAIN, b"a" + T8192 + b"b", 1, 1, 1, True)
too_far("`a`, a break, 8192 tabs and `b`", PLAIN, b"a\n" + T8192 + b"b", 2, 2, 0, False)
# A line without a token has no line end, however far its column.
reads("8192 tabs", PLAIN, T8192, [], 65536)
reads("8192 tabs and a break", PLAIN, T8192 + b"\n", [], 0)
reads("8192 tabs, a break and `a`", PLAIN, T8192 + b"\na", [(1, 0, 8193, 1), (2, 1, 8194, 0)], 1)
reads("`a`, a break and 8192 tabs", PLAIN, b"a\n" + T8192, A, 65536)
reads("`a`, a break, 8192 tabs, a break and `b`", PLAIN, b"a\n" + T8192 + b"\nb", A + [(1, 0, 8195, 1), (2, 1, 8196, 0)], 1)
reads("`a`, a break and 65533 tabs", PLAIN, b"a\n" + b"\t" * 65533, A, 524264)


# --- Rising order --------------------------------------------------------------------------------

# "Checks run in rising number": 8 over the whole text, then 9 over every token, then 10.
refused("8 before 9, 8192 tabs, `a` and byte 0", 8, PLAIN, T8192 + b"a\0")
refused("8 before 9, over length and 65535 tabs", 8, PLAIN, b"\t" * 65535 + b"a")
refused("8 before 10, `a`, byte 127 and 7 words", 8, PLAIN, b"a\x7f", 7)
refused("8 before 10, `a`, byte 0 and no word", 8, PLAIN, b"a\n\0", 0)
refused("8 before 9 and 10, all three", 8, PLAIN, T8192 + b"a\n\x1f", 0)
refused_scan("8 before 10, 4100 tokens and byte 0", 8, PLAIN, b"a " * 4100 + b"\0", 16400)
too_far("9 before 10, 8192 tabs, `a` and no word", PLAIN, T8192 + b"a", 0, 0, 0, False, 0)
too_far("9 before 10, 8192 tabs, `a` and 7 words", PLAIN, T8192 + b"a", 0, 0, 0, False, 7)
too_far("9 before 10, line end too far and 7 words", PLAIN, b"a" + T8192, 1, 1, 1, True, 7)
too_far("9 before 10, third token too far and 7 words", PLAIN, b"a\n" + T8192 + b"b", 2, 2, 0, False, 7)
refused_scan("9 before 10, token 4097 too far", 9, PLAIN, b"a\n" * 2048 + T8192 + b"a", 16400)
refused_scan("9 before 10, token 5001 too far", 9, PLAIN, b"a\n" * 2500 + T8192 + b"b", 16400)
refused_scan("9 before 10, token 5001 too far and no word", 9, PLAIN, b"a\n" * 2500 + T8192 + b"b", 0)
refused_scan("9 before 10, line end 4097 too far", 9, PLAIN, b":" * 4096 + T8192, 16400)
refused_scan("9 before 10, line end 5001 too far", 9, PLAIN, b":" * 5000 + T8192 + b"\n", 16400)
refused_scan("9 before 10, last of 20001 tokens too far", 9, PLAIN, b"a\n" * 10000 + T8192 + b"a", 16400)
refused_scan("10, 5000 tokens and 8192 tabs", 10, PLAIN, b"a\n" * 2500 + T8192, 16400)

# Every choice of faults, one of each number: the answer is the lowest number chosen. In the first set
# those of lower numbers mostly stand later in the file and in the report, in the second earlier.


def ordered(said, chosen, file, report, tokens, lent):
    """A scan with the faults chosen: the tokens if there are none, else refused by the lowest."""
    if chosen:
        refused_scan(faults.label(said, chosen), min(chosen), file, report, lent)
    else:
        scan(faults.label(said, chosen), file, report, tokens, lent)


for chosen in faults.choices(8, 9, 10, 1, 2, 3, 4, 5):
    report = (T8192 if 9 in chosen else b"") + b"k" + (b"\0" if 8 in chosen else b"")
    tokens = [(3, 0, 0, 1), (2, 1, 1, 0)]
    ordered("late", chosen, faults.late_file(chosen), report, tokens, 7 if 10 in chosen else 8)
for chosen in faults.choices(8, 9, 10, 1, 2, 3, 4, 5):
    report = (b"\x1f" if 8 in chosen else b"") + b"b" + (T8192 if 9 in chosen else b"") + b"\n"
    ordered("early", chosen, faults.early_file(chosen), report, A, 0 if 10 in chosen else 11)


# --- Single steps --------------------------------------------------------------------------------

# "After a token the value stands right behind it .." and the two sentences after it.
walk("steps, empty", PLAIN, b"", (None, (0, 0, False)))
walk("steps, blanks", PLAIN, b"  ", (None, (2, 2, False)))
walk("steps, empty lines", PLAIN, b"\n \n\t", (None, (4, 8, False)))
walk("steps, `a`", PLAIN, b"a", ((1, 0, 0, 1), (1, 1, True)), ((2, 1, 1, 0), (1, 1, False)), (None, (1, 1, False)))
walk("steps, `a` and a break", PLAIN, b"a\n",
     ((1, 0, 0, 1), (1, 1, True)), ((2, 1, 1, 0), (2, 0, False)), (None, (2, 0, False)))
walk("steps, `a` and two blanks", PLAIN, b"a  ",
     ((1, 0, 0, 1), (1, 1, True)), ((2, 3, 3, 0), (3, 3, False)), (None, (3, 3, False)))
walk("steps, `a`, a break and a tab", PLAIN, b"a\n\t",
     ((1, 0, 0, 1), (1, 1, True)), ((2, 1, 1, 0), (2, 0, False)), (None, (3, 8, False)))
walk("steps, byte 13 before the break", PLAIN, b"a\r\nb\r",
     ((1, 0, 0, 1), (1, 1, True)), ((2, 2, 2, 0), (3, 0, False)), ((1, 0, 3, 1), (4, 1, True)),
     ((2, 2, 5, 0), (5, 2, False)), (None, (5, 2, False)))
walk("steps, lines", LOSS, b"\n x:y\n\n\tloss -1\t\n 2",
     ((1, 1, 2, 1), (3, 2, True)), ((1, 2, 3, 1), (4, 3, True)), ((1, 3, 4, 1), (5, 4, True)),
     ((2, 4, 5, 0), (6, 0, False)), ((3, 8, 8, 4), (12, 12, True)), ((0, 13, 13, 2), (15, 15, True)),
     ((2, 16, 16, 0), (17, 0, False)), ((0, 1, 18, 1), (19, 2, True)), ((2, 2, 19, 0), (19, 2, False)),
     (None, (19, 2, False)))
walk("steps, 65535 letters", PLAIN, b"a" * 65535,
     ((1, 0, 0, 65535), (65535, 65535, True)), ((2, 65535, 65535, 0), (65535, 65535, False)),
     (None, (65535, 65535, False)))
walk("steps, 65535 bytes 128", PLAIN, b"\x80" * 65535,
     ((1, 0, 0, 65535), (65535, 0, True)), ((2, 0, 65535, 0), (65535, 0, False)), (None, (65535, 0, False)))
walk("steps, 65535 tabs", PLAIN, b"\t" * 65535, (None, (65535, 524280, False)))

# Steps don't know 10: tokens 4,096 and on are handed out as any.
for at in (4094, 4095, 4096, 9998):
    token = (1, at, at, 1)
    step(f"steps, `:` {at + 1} of 9999", PLAIN, b":" * 9999, (at, at, True), token, (at + 1, at + 1, True))
step("steps, line end behind 9999 `:`", PLAIN, b":" * 9999, (9999, 9999, True), (2, 9999, 9999, 0), (9999, 9999, False))

# A value stands where it stands: the token found is the longest run from its offset on, at its column.
for said, file, report, before, token, after in (
    ("inside a word", PLAIN, b"hello", (2, 2, True), (1, 2, 2, 3), (5, 5, True)),
    ("inside a word, mark clear", PLAIN, b"hello", (2, 2, False), (1, 2, 2, 3), (5, 5, True)),
    ("inside a word, column 70", PLAIN, b"hello", (2, 70, False), (1, 70, 2, 3), (5, 73, True)),
    ("inside a word, column 0", PLAIN, b"hello", (4, 0, True), (1, 0, 4, 1), (5, 1, True)),
    ("inside `-1.5` at 0", PLAIN, b"-1.5", (0, 0, False), (0, 0, 0, 4), (4, 4, True)),
    ("inside `-1.5` at 1", PLAIN, b"-1.5", (1, 1, False), (0, 1, 1, 3), (4, 4, True)),
    ("inside `-1.5` at 2", PLAIN, b"-1.5", (2, 2, False), (1, 2, 2, 2), (4, 4, True)),
    ("inside `-1.5` at 3", PLAIN, b"-1.5", (3, 3, False), (0, 3, 3, 1), (4, 4, True)),
    ("a keyword inside a word", LOSS, b"xloss", (1, 1, False), (3, 1, 1, 4), (5, 5, True)),
    ("a keyword, one byte in", LOSS, b"loss", (1, 1, False), (1, 1, 1, 3), (4, 4, True)),
    ("before a single byte", PLAIN, b"a:b", (1, 1, True), (1, 1, 1, 1), (2, 2, True)),
    ("behind a single byte", PLAIN, b"a:b", (2, 2, True), (1, 2, 2, 1), (3, 3, True)),
    ("second of two single bytes", PLAIN, b"::", (1, 1, True), (1, 1, 1, 1), (2, 2, True)),
    ("blanks, then a word", PLAIN, b"a  b", (1, 1, True), (1, 3, 3, 1), (4, 4, True)),
    ("blanks, then a word, mark clear", PLAIN, b"a  b", (1, 1, False), (1, 3, 3, 1), (4, 4, True)),
    ("inside blanks", PLAIN, b"a  b", (2, 2, True), (1, 3, 3, 1), (4, 4, True)),
    ("tab from column 3", PLAIN, b"abc\td", (3, 3, True), (1, 8, 4, 1), (5, 9, True)),
    ("tab from column 8", PLAIN, b"abc\td", (3, 8, True), (1, 16, 4, 1), (5, 17, True)),
    ("tab from column 15", PLAIN, b"abc\td", (3, 15, True), (1, 16, 4, 1), (5, 17, True)),
    ("byte 13 from column 4", PLAIN, b"\rd", (0, 4, False), (1, 5, 1, 1), (2, 6, True)),
    # A mark on an empty line: the line counts as one with a token, and its end is handed out at once.
    ("mark and a break", PLAIN, b"\n", (0, 0, True), (2, 0, 0, 0), (1, 0, False)),
    ("mark and no text", PLAIN, b"", (0, 0, True), (2, 0, 0, 0), (0, 0, False)),
    ("mark, no text, column 5", PLAIN, b"", (0, 5, True), (2, 5, 0, 0), (0, 5, False)),
    ("mark, a break, column 5", PLAIN, b"\n", (0, 5, True), (2, 5, 0, 0), (1, 0, False)),
    ("mark and a line of blanks", PLAIN, b"  \na", (0, 0, True), (2, 2, 2, 0), (3, 0, False)),
    ("mark and blanks to the end", PLAIN, b"  ", (0, 0, True), (2, 2, 2, 0), (2, 2, False)),
    ("mark and a tab to the end", PLAIN, b"\t", (0, 3, True), (2, 8, 1, 0), (1, 8, False)),
    ("mark, two breaks and `a`", PLAIN, b"\n\na", (0, 0, True), (2, 0, 0, 0), (1, 0, False)),
    ("mark at the end of a text", PLAIN, b"abc", (3, 3, True), (2, 3, 3, 0), (3, 3, False)),
    ("mark behind a final break", PLAIN, b"abc\n", (4, 0, True), (2, 0, 4, 0), (4, 0, False)),
    ("mark at the break", PLAIN, b"abc\nd", (3, 3, True), (2, 3, 3, 0), (4, 0, False)),
    # No mark: the line has had no token, so a break ends nothing.
    ("no mark at the break", PLAIN, b"abc\nd", (3, 3, False), (1, 0, 4, 1), (5, 1, True)),
    ("no mark, two breaks and `a`", PLAIN, b"\n\na", (0, 0, False), (1, 0, 2, 1), (3, 1, True)),
    ("no mark, column 9, a break", PLAIN, b" \n  a", (0, 9, False), (1, 2, 4, 1), (5, 3, True)),
):
    step(f"step, {said}", file, report, before, token, after)
for said, report, before, after in (
    ("at the end", b"abc", (3, 3, False), (3, 3, False)),
    ("at the end, column 77", b"abc", (3, 77, False), (3, 77, False)),
    ("at the end of an empty text", b"", (0, 9, False), (0, 9, False)),
    ("before a final break", b"abc\n", (3, 3, False), (4, 0, False)),
    ("before blanks", b"abc  ", (3, 3, False), (5, 5, False)),
    ("before blanks, column 10", b"abc  ", (3, 10, False), (5, 12, False)),
    ("before a break and blanks", b"abc\n  ", (3, 3, False), (6, 2, False)),
    ("before tabs", b"abc\t\t", (3, 3, False), (5, 16, False)),
):
    step(f"no token, {said}", PLAIN, report, before, None, after)

# "an offset past the text or a column over 524,280 ..".
for mark in (False, True):
    said = "mark set" if mark else "mark clear"
    for length, at in ((0, 1), (3, 4), (3, 5), (3, 65535), (3, 65536), (65535, 65536)):
        report = b"a" * length
        step(f"offset {at} of {len(report)}, {said}", PLAIN, report, (at, 0, mark), 8)
    for back in (0, 1, 2, 65535, 65536):
        after = (2**64 - 1 - back, 7, mark)
        step(f"offset 2^64 - 1 - {back}, {said}", PLAIN, b"abc", (back, 7, mark), 8, after, "o")
    for back in (0, 1, 7, 8, 65535):
        after = (1, 2**32 - 1 - back, mark)
        step(f"column 2^32 - 1 - {back}, {said}", PLAIN, b"\tabc", (1, back, mark), 8, after, "c")
    for column in (524281, 524282, 524288, 589816, 16777215):
        for report in (b"", b"a", b"\n", b"\na", b" "):
            shown = report.decode().replace("\n", "break").replace(" ", "blank") or "nothing"
            step(f"column {column} before {shown}, {said}", PLAIN, report, (0, column, mark), 8)
step("column 524280 and no text", PLAIN, b"", (0, 524280, False), None, (0, 524280, False))
step("column 524280 at the end", PLAIN, b"abc", (3, 524280, False), None, (3, 524280, False))
step("column 524280 and a break", PLAIN, b"\n", (0, 524280, False), None, (1, 0, False))
step("column 524280, a break and `a`", PLAIN, b"\na", (0, 524280, False), (1, 0, 1, 1), (2, 1, True))
# Nothing caps the column reached: one more for a blank, the next multiple of 8 for a tab.
step("column 524280 and a blank", PLAIN, b" ", (0, 524280, False), None, (1, 524281, False))
step("column 524280 and a blank, the next", PLAIN, b" ", (1, 524281, False), 8)
step("column 524279 and a blank", PLAIN, b" ", (0, 524279, False), None, (1, 524280, False))
step("column 524280 and a tab", PLAIN, b"\t", (0, 524280, False), None, (1, 524288, False))
step("column 524279 and a tab", PLAIN, b"\t", (0, 524279, False), None, (1, 524280, False))
step("column 524280 and 65535 tabs", PLAIN, b"\t" * 65535, (0, 524280, False), None, (65535, 1048560, False))
step("column 524280 and 65535 blanks", PLAIN, b" " * 65535, (0, 524280, False), None, (65535, 589815, False))
step("offset 65535 of 65535", PLAIN, b"\t" * 65535, (65535, 524280, False), None, (65535, 524280, False))

# "and the token handed out by 9": its column, and no other's.
for said, file, report, before in (
    ("`a` at 65536", PLAIN, b"a", (0, 65536, False)),
    ("`a` at 65536, mark set", PLAIN, b"a", (0, 65536, True)),
    ("`:` at 65536", PLAIN, b":", (0, 65536, False)),
    ("number at 65536", PLAIN, b"1", (0, 65536, False)),
    ("keyword at 65536", LOSS, b"loss", (0, 65536, False)),
    ("`a` at 524280", PLAIN, b"a", (0, 524280, False)),
    ("`a` at 65536 by a blank", PLAIN, b" a", (0, 65535, True)),
    ("`a` at 65536 by a tab", PLAIN, b"\ta", (0, 65528, False)),
    ("`a` at 65536 by byte 13", PLAIN, b"\ra", (0, 65535, False)),
    ("`a` at 65536, inside a text", PLAIN, b"x\n y a z", (4, 65535, True)),
    ("break at 65536", PLAIN, b"\n", (0, 65536, True)),
    ("break at 65536 by a blank", PLAIN, b" \n", (0, 65535, True)),
    ("break at 65536 by a tab", PLAIN, b"\t\na", (0, 65529, True)),
    ("end at 65536", PLAIN, b"a", (1, 65536, True)),
    ("end at 65536 by a blank", PLAIN, b"a ", (1, 65535, True)),
    ("end at 524280", PLAIN, b"", (0, 524280, True)),
    ("end at 524288", PLAIN, b"\t", (0, 524280, True)),
):
    step(f"step by 9, {said}", file, report, before, 9)
for said, file, report, before, answer, after in (
    ("`a` at 65535", PLAIN, b"a", (0, 65535, False), (1, 65535, 0, 1), (1, 65536, True)),
    ("`a` at 65535 by a blank", PLAIN, b" a", (0, 65534, False), (1, 65535, 1, 1), (2, 65536, True)),
    ("`a` at 65528 by a tab", PLAIN, b"\ta", (0, 65527, False), (1, 65528, 1, 1), (2, 65529, True)),
    ("`:` at 65535", PLAIN, b":", (0, 65535, True), (1, 65535, 0, 1), (1, 65536, True)),
    ("break at 65535", PLAIN, b"\n", (0, 65535, True), (2, 65535, 0, 0), (1, 0, False)),
    ("end at 65535", PLAIN, b"", (0, 65535, True), (2, 65535, 0, 0), (0, 65535, False)),
    ("break at 65536, no mark", PLAIN, b"\n", (0, 65536, False), None, (1, 0, False)),
    ("end at 65536, no mark", PLAIN, b"", (0, 65536, False), None, (0, 65536, False)),
    ("break at 65536, no mark, then `a`", PLAIN, b"\na", (0, 65536, False), (1, 0, 1, 1), (2, 1, True)),
    ("the next token too far", PLAIN, b"a" + T8192 + b"b", (0, 0, False), (1, 0, 0, 1), (1, 1, True)),
    ("a run past column 65535", PLAIN, b"a" * 65535, (0, 1, False), (1, 1, 0, 65535), (65535, 65536, True)),
    ("a run to column 131070", PLAIN, b"a" * 65535, (0, 65535, False), (1, 65535, 0, 65535), (65535, 131070, True)),
):
    step(f"step not by 9, {said}", file, report, before, answer, after)

# "the whole text by 8": a refused byte behind the token, before the offset, or with none left.
for byte in REFUSED:
    text = bytes([byte])
    step(f"step, byte {byte} behind", PLAIN, b"a b\n" + text, (0, 0, False), 8)
    step(f"step, byte {byte} before the offset", PLAIN, text + b"a", (1, 1, True), 8)
    step(f"step, byte {byte} at the offset", PLAIN, b"a" + text + b"b", (1, 1, True), 8)
    step(f"step, byte {byte} and none left", PLAIN, b"a" + text, (2, 2, False), 8)
step("step, over length", PLAIN, b"a" * 65536, (0, 0, False), 8)
step("step, over length, at the end", PLAIN, b" " * 65536, (65536, 0, False), 8)
step("step, over length, at 65535", PLAIN, b" " * 65536, (65535, 0, True), 8)
step("step, the last byte of 65535 refused", PLAIN, b"a " * 32767 + b"\0", (0, 0, False), 8)

# "Its calls check the file by 1 to 5 .. a refused call .."
for number, said, file in BAD_FILES:
    step(f"step, file, {said}", file, b"a b", (0, 0, False), number)
    step(f"step, file, {said}, inside", file, b"a b", (1, 5, True), number)
    step(f"step, file, {said}, at the end", file, b"a b", (3, 3, False), number)
    # Lower numbers first.
    step(f"step, file, {said}, byte 0", file, b"a\0", (0, 0, False), number)
    step(f"step, file, {said}, offset 4 of 3", file, b"a b", (4, 0, True), number)
    step(f"step, file, {said}, column 524281", file, b"a b", (0, 524281, False), number)
    step(f"step, file, {said}, column 65536", file, b"a b", (0, 65536, True), number)
# 8 before 9.
step("step, 8 before 9, byte 0 behind", PLAIN, b"a\0", (0, 65536, False), 8)
step("step, 8 before 9, column 524281", PLAIN, b"a", (0, 524281, False), 8)
step("step, 8 before 9, offset 2 of 1", PLAIN, b"a", (2, 65536, True), 8)

# Every choice of faults, one of each number. 8 by its three ways: the text, the offset, the column.
for way in ("byte", "offset", "column"):
    for chosen in faults.choices(8, 9, 1, 2, 3, 4, 5):
        file = field(1, b"\x02" if 1 in chosen else b"\x01")
        file += keyword(b"a:" if 2 in chosen else b"a")
        file += rule(0 if 5 not in chosen else 600 if 3 in chosen else 2, b"r")
        file += EMPTY * (513 if 3 in chosen else 1) + node(8, 0, 0, RELATION_COUNT if 4 in chosen else ANY) + START
        report = b"x b"
        before = (1, 65535 if 9 in chosen else 65534, True)
        if 8 in chosen:
            report = b"x b\x7f" if way == "byte" else report
            before = (4, before[1], True) if way == "offset" else before
            before = (1, 524281, True) if way == "column" else before
        label = spaced(f"step faults by {way}", sorted(chosen) or ("none",))
        if chosen:
            step(label, file, report, before, min(chosen))
        else:
            step(label, file, report, before, (1, 65535, 2, 1), (3, 65536, True))


# --- Steps over letters --------------------------------------------------------------------------

walk("steps, letters", PLAIN, b"a\xc2\xb5 \x80\n\xc2\xb0",
     ((1, 0, 0, 3), (3, 2, True)), ((1, 3, 4, 1), (5, 3, True)), ((2, 3, 5, 0), (6, 0, False)),
     ((1, 0, 6, 2), (8, 1, True)), ((2, 1, 8, 0), (8, 1, False)), (None, (8, 1, False)))
for said, report, before, answer, after in (
    # A value inside a letter stands at the column it is given.
    ("inside a letter", b"a\xc2\xb5b c", (2, 2, True), (1, 2, 2, 2), (4, 3, True)),
    ("inside a letter, column 70", b"a\xc2\xb5b c", (2, 70, False), (1, 70, 2, 2), (4, 71, True)),
    ("behind a letter", b"\xc2\xb5 c", (2, 1, True), (1, 2, 3, 1), (4, 3, True)),
    ("bytes 128 at 65535", b"\x80\x80", (0, 65535, False), (1, 65535, 0, 2), (2, 65535, True)),
    ("line end behind bytes 128 at 65535", b"\x80", (1, 65535, True), (2, 65535, 1, 0), (1, 65535, False)),
    ("a letter at 65535", MICRO, (0, 65535, False), (1, 65535, 0, 2), (2, 65536, True)),
    ("a break and byte 128 at 524280", b"\n\x80", (0, 524280, False), (1, 0, 1, 1), (2, 0, True)),
    ("65535 bytes 128 at 65535", b"\x80" * 65535, (0, 65535, False), (1, 65535, 0, 65535), (65535, 65535, True)),
):
    step(f"step, {said}", PLAIN, report, before, answer, after)
step("step by 9, line end behind a letter at 65535", PLAIN, MICRO, (2, 65536, True), 9)
step("step by 9, byte 128 at 65536", PLAIN, b"\x80", (0, 65536, False), 9)
step("step by 9, byte 128 at 524280", PLAIN, b"\x80", (0, 524280, False), 9)
step("step by 8, byte 128 at 524281", PLAIN, b"\x80", (0, 524281, False), 8)
value("letters", with_keywords(MICRO), b"\xc2\xb5 x\n\xb5",
      (3, 0, 0, 2), (1, 2, 3, 1), (2, 3, 4, 0), (1, 0, 5, 1), (2, 0, 6, 0), None)


# --- The scanner's value, step by step -----------------------------------------------------------

# "Terminal: 3 + k where the spelling equals keyword k (from 0)": `loss` is 3, `:` is 4.
LOSS_COLON = with_keywords(b"loss", b":")

# Offsets: `loss` 2, `:` 6, `0.03` 8, breaks 12 and 13, a tab 14, `x` 15, `-1` 17, `,` 19, the end 20.
# "Byte 9 moves to the next higher multiple of 8": `x` is at column 8. "A line with a token ends .. also at the
# end ..": the second line has none. "else 0 for a number (an optional `-` ..); else 1".
VALUE_REPORT = b"  loss: 0.03\n\n\tx -1,"
value("report", LOSS_COLON, VALUE_REPORT,
      (3, 2, 2, 4), (4, 6, 6, 1), (0, 8, 8, 4), (2, 12, 12, 0), (1, 8, 15, 1), (0, 10, 17, 2), (1, 12, 19, 1),
      (2, 13, 20, 0), None, None, None)

# 8,192 tabs lead to column 65,536, which is 9: "a refused call leaves the value unchanged". A value that moved on would
# hand out `c` after two refusals, at the break behind `b` the second.
value("wide", LOSS_COLON, b"a\n" + T8192 + b"b\nc", (1, 0, 0, 1), (2, 1, 1, 0), 9, 9, 9, 9)

# "Its calls check .. the whole text by 8": already the first step, though `a` stands before the byte.
value("byte 0", LOSS_COLON, b"a\0", 8, 8)

# "none of them at or below 32": 2.
value("keyword `a b`", with_keywords(b"a b"), VALUE_REPORT, 2, 2)


if __name__ == "__main__":
    CASES.write()

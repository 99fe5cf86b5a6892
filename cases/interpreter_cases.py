#!/usr/bin/env python3
"""Writes the calls that the program interpreter_cases makes, and the lines that it must print (README.md).

Nothing here runs a grammar. Each call has its answer written beside it, worked out by hand; a family of
calls has one answer for all, or the rule that gives each, in its loop or function. A comment quotes the
words of document 01 or 02 or names the clause of document 001 that decide it.

Expressions are written as README.md says: a to z are terminals 1 to 26. A token is a letter and a column. An
interval is its two ends, and an answer the tokens read, the interval, the flag and the farthest place (02, Note 7), or
`failure` and the farthest place. A capture is the name of its rule, its first token, the token after its last and the
number of captures around it. A run that remembers is told like any other, with the words lent for it and what they hold.

A run is by the reading of 2017 unless said; a label that tells the reading ends so, or begins so in a family of faults.
"""

import faults
from expressions import Table, named_columns, relation_number, written, written_rules
from records import Cases, Payloads, begin, spaced, wide
from table_nodes import (
    EMPTY, align, choice, flat, indent, not_, over, position, repeat, rule, sequence, slow_rules, step, terminal,
)

CASES = Cases("interpreter_cases")
TABLE_BYTES, TOKEN_BYTES = Payloads(), Payloads(100, (4, 16, 32))

MODES = ("equal", "greater", "at-least", "any")

# Words 2 and 3 of a token. "The interpreter uses only the first two words": these break the limits of both.
REST = (70000, 300)

U32 = 4294967295

# The answer of a run that reads nothing, from 0 without end and clear, before its farthest place.
SAME = "0 0 inf clear"

A, B = terminal(1), terminal(2)
KIND_10 = (10, 0, 0, 0)

# The kinds of a run, of a run that lists and of one that remembers, by reading. Where none is told it is that of 2017.
RUN, LISTING = {"": "r", "2017": "r", "2014": "R"}, {"": "l", "2017": "l", "2014": "L"}
REMEMBERING = {"": "m", "2017": "m", "2014": "M"}

# What words lent to remember in hold, by the program's numbers (`lend` in crates/stored_runs/src/remembering.rt). The last
# two look like outcomes kept for a node.
CONTENTS = {"zeros": 0, "ones": 1, "numbers": 2, "failures": 3, "successes": 4}
MOST_LENT = 65536


# --- Records and lines ---------------------------------------------------------------------------


def record(label, nodes, rules, tokens, line, mode=2, kind="r", lent=0, contents="zeros", about=0, **start):
    """One call and the line expected of it. The layout is that of the program's first comment. Tokens are written, or
    are words. The start is told as in `begin`; unless said it is node 0, place 0, from 0 without end, flag clear,
    mode at least."""
    node_words = flat(nodes)
    same_bytes, table = TABLE_BYTES.front(wide(2, *node_words, *rules))
    numbers, rest = TOKEN_BYTES.stretch(wide(4, *(token_words(tokens) if isinstance(tokens, str) else tokens)))
    header = begin(mode=mode, **start) + wide(2, len(node_words), len(rules), same_bytes) + wide(3, *numbers)
    header += wide(3, lent) + wide(1, CONTENTS[contents]) + wide(2, about)
    CASES.add(label, line, kind, header, table, rest)


def token_words(text, rest=REST):
    """The words of tokens written as `a2 b3`."""
    return [word for name, column in named_columns(text) for word in (ord(name) - 96, column, *rest)]


def success(answer, place):
    """ "Success answers the number of tokens read from that place on ..": the place reached is the start's and
    the tokens read."""
    read, lower, upper, flag, farthest = answer.split()
    assert flag in ("clear", "set") and farthest.isdigit()
    return f"success {read} {lower} {upper} {flag} {farthest} {place + int(read)}"


def ended(answer, place):
    """What an unrefused run prints."""
    if not answer.startswith("failure"):
        return success(answer, place)
    assert answer.removeprefix("failure ").isdigit()
    return answer


def refused(label, number, nodes, rules=(), tokens=(), **start):
    """ "The answer is the number" """
    assert number in (3, 4, 5, 11, 12, 16)
    record(label, nodes, rules, tokens, f"refused {number}", **start)


def bad(label, ill, nodes, rules=(), tokens=(), **start):
    """ "The answer is the number, with the node for 7" """
    record(label, nodes, rules, tokens, f"refused 7 {ill}", **start)


def runs(label, answer, nodes, rules=(), tokens=(), **start):
    """A run of nodes given as such, from node 0 and place 0 in mode at least unless said."""
    record(label, nodes, rules, tokens, ended(answer, start.get("place", 0)), **start)


def same(label, nodes, rules=(), tokens=(), **start):
    """A run of an empty node: the start's state stays, which is 0 without end and clear. The farthest place is "the start
    place if none was tried"."""
    runs(label, f"{SAME} {start.get('place', 0)}", nodes, rules, tokens, **start)


def told(expression, mode, tokens, rules="", start="0 inf", flag="clear", place=0, name="", by="", once=False):
    """The label of a run of an expression, and the call as `record` takes it. Without a name, or behind the name of a
    case, the label tells all. It ends in the reading if that is said. With `once` equal parts are one node."""
    table = Table(written_rules(rules), written(expression), once)
    lower, upper = start.split()
    label = name
    if not name or name.startswith("case"):
        label += (", " if name else "") + expression
        label += f" where {rules}" if rules else ""
        label += f", mode {mode}, {tokens or 'no token'}"
        label += f", from {lower} to {upper}" if start != "0 inf" else ""
        label += ", flag set" if flag == "set" else ""
        label += f", place {place}" if place else ""
    label += f", by {by}" if by else ""
    return label, {
        "nodes": table.nodes, "rules": table.rules, "tokens": tokens, "mode": relation_number(mode),
        "node": table.start, "place": place, "lower": int(lower), "upper": None if upper == "inf" else int(upper),
        "flag": flag == "set",
    }


def given(expression, mode, tokens, answer, rules="", start="0 inf", flag="clear", place=0, name="", by=""):
    """A run of an expression."""
    label, call = told(expression, mode, tokens, rules, start, flag, place, name, by)
    record(label, line=ended(answer, place), kind=RUN[by], **call)


def both(expression, tokens, by_2017, by_2014, **more):
    """Runs of an expression by each reading, with their answers, in mode equal: 2014 has no other."""
    given(expression, "equal", tokens, by_2017, by="2017", **more)
    given(expression, "equal", tokens, by_2014, by="2014", **more)


def alike(expression, tokens, answer, **more):
    """The same where both readings have one answer."""
    both(expression, tokens, answer, answer, **more)


def row(expression, mode, start, answers, flag="clear", first=0, by="", farthest=0, failing=0):
    """Runs over one token a, at column `first` and on. An answer is the interval of success, or -. Those that succeed have
    one farthest place, and those that fail."""
    for column, cell in enumerate(answers.split(), first):
        answer = f"failure {failing}" if cell == "-" else f"1 {cell.replace('-', ' ')} clear {farthest}"
        given(expression, mode, f"a{column}", answer, start=start, flag=flag, by=by)


def lists(expression, mode, tokens, answer, captures, rules="", lents=None, by="", **more):
    """Runs of an expression that list these captures: `X 0 1 0, Y 1 2 0`."""
    label, call = told(expression, mode, tokens, rules, by=by, **more)
    names = list(written_rules(rules))
    parts = [part.split() for part in captures.split(", ") if part]
    captures = [(names.index(name), *map(int, numbers)) for name, *numbers in parts]
    listed(label, answer, captures, lents, kind=LISTING[by], **call)


def both_list(expression, tokens, by_2017, by_2014, **more):
    """Runs that list by each reading, in mode equal, the answer and the captures of each given."""
    lists(expression, "equal", tokens, *by_2017, by="2017", **more)
    lists(expression, "equal", tokens, *by_2014, by="2014", **more)


def listed(label, answer, captures, lents=None, place=0, kind="l", **call):
    """Runs that list these captures, their rules by number, one for each number of words lent: unless said just enough
    of them, one less and six more.

    "13, fewer capture places than the list needs"; "Nothing is written." else "the slice's words past the list are 0; a
    failure lists none"."""
    need = 4 * len(captures)
    for lent in (need - 1, need, need + 6) if lents is None else lents:
        if lent >= need:
            head = ended(answer, place)
            head += "" if answer.startswith("failure") else f" | captures {len(captures)}"
            line = "".join([head, *(spaced(" |", capture) for capture in captures), f" | {lent - need} zeros"])
            record(f"list, {label}, {lent} words", line=line, kind=kind, lent=lent, place=place, **call)
        elif lent >= 0:
            unlisted(f"{label}, {lent} words", "refused 13", lent, place=place, kind=kind, **call)


def unlisted(label, answer, lent, kind="l", **call):
    """A run that lists and is refused. "Nothing is written." """
    record(f"list, {label}", line=f"{answer} | {lent} kept", kind=kind, lent=lent, **call)


def remembers(label, answer, nodes, rules=(), tokens=(), lent=MOST_LENT, contents="ones", about=0, kind="m", **start):
    """A run that is lent words to remember in. "What the slice held before makes no difference, and after an unrefused
    run all its words are 0.\""""
    label = f"remember, {label}, {lent} {contents}" + (f" of node {about}" if CONTENTS[contents] > 2 else "")
    line = ended(answer, start.get("place", 0)) + " zeros"
    record(label, nodes, rules, tokens, line, kind=kind, lent=lent, contents=contents, about=about, **start)


def forgets(label, answer, lent, contents="ones", kind="m", **call):
    """One that is refused. "Nothing is written." """
    label = f"remember, {label}, {lent} {contents}"
    record(label, line=f"{answer} kept", kind=kind, lent=lent, contents=contents, **call)


def recalls(expression, mode, tokens, answer, why="", lents=(MOST_LENT, 24), by="", **more):
    """Runs of an expression that remember, equal parts of it being one node."""
    label, call = told(expression, mode, tokens, by=by, once=True, **more)
    for lent in lents:
        remembers(f"{why}, {label}" if why else label, answer, kind=REMEMBERING[by], lent=lent, **call)


def recalls_both(expression, tokens, by_2017, by_2014, **more):
    """The same by each reading, in mode equal."""
    recalls(expression, "equal", tokens, by_2017, by="2017", **more)
    recalls(expression, "equal", tokens, by_2014, by="2014", **more)


def by_mode(*rows):
    """Rows of answers, one for each mode."""
    return dict(zip(MODES, rows))


# --- Bench cases ---------------------------------------------------------------------------------

# "Cases a to j .. Start interval 0 without end and flag clear unless said".
# "a. Align of a b under greater .. a2 b3 .."
given("indent greater (align (a b))", "at-least", "a2 b3", "2 0 1 clear 1", name="case a")
# "b. a, mode greater: a5 gives 0 to 4; a0 fails."
given("a", "greater", "a5", "1 0 4 clear 0", name="case b")
given("a", "greater", "a0", "failure 0", name="case b")
# "c. a, mode at least, a0: 0 to 0."
given("a", "at-least", "a0", "1 0 0 clear 0", name="case c")
# "d. a, flag set, mode greater, a5: 5 to 5."
given("a", "greater", "a5", "1 5 5 clear 0", flag="set", name="case d")
# "e. No tokens: a fails; empty succeeds, state unchanged."
for mode in MODES:
    for flag in ("clear", "set"):
        given("a", mode, "", "failure 0", flag=flag, name="case e")
        given("empty", mode, "", f"0 0 inf {flag} 0", flag=flag, name="case e")
# "f. a, then (b under greater, or empty) .. a1 b2 .. a3 b2 .."
given("a (indent greater b / empty)", "equal", "a1 b2", "2 1 1 clear 1", name="case f")
given("a (indent greater b / empty)", "equal", "a3 b2", "1 3 3 clear 1", name="case f")
# "g. a, then b under any .. a3 b0 .."
given("a indent any b", "equal", "a3 b0", "2 3 3 clear 1", name="case g")
# "h. Align of empty, then a, mode greater, a5: 0 to 4."
given("(align empty) a", "greater", "a5", "1 0 4 clear 0", name="case h")
# "i. Align of (a under greater) .. from 1 to 1, a4 .."
given("align (indent greater a)", "equal", "a4", "1 1 1 clear 0", start="1 1", name="case i")

# 001, after Theorem 2.3: "(ab)^>, △ ⊢ (a1b2, N, ff) → ⊥" and "a^> b^>, △ ⊢ (a1b2, N, ff) → ⊤(ε, {0}, ff)".
given("indent greater (a b)", "equal", "a1 b2", "failure 1", name="case of 001")
given("(indent greater a) (indent greater b)", "equal", "a1 b2", "2 0 0 clear 1", name="case of 001")


# --- Number 3 ------------------------------------------------------------------------------------

# "node words no multiple of 4, node or rule count ..", "1 to 512 nodes, 0 to 128 rules".
refused("small 3, no node", 3, [])
same("one node", [EMPTY])
faults.counts(refused, same, nodes=(2, 511, 512), rules=(1, 127, 128))
refused("no node and a rule", 3, [], [0])


# --- Number 4 ------------------------------------------------------------------------------------

# "kind over 9, child not lower .. unused word not 0". The node stands behind a and b, with two rules; the run
# starts at a, so that the node is not walked.
refused("small 4, node 0 a repeat of 0", 4, [repeat(0)])
for node in (
    # "kind over 9"; "terminal over 255"; "no such rule": rules 0 and 1 are there
    (10, 0, 0, 0), (65535, 0, 0, 0), (1, 256, 0, 0), (1, 257, 0, 0), (2, 2, 0, 0), (2, 65535, 0, 0),
    # "child not lower": the node itself is 2
    (3, 2, 0, 0), (3, 0, 2, 0), (4, 2, 0, 0), (4, 0, 3, 0), (5, 2, 0, 0), (6, 2, 0, 0), (7, 2, 0, 1), (8, 3, 0, 1),
    (9, 2, 0, 0),
    # 02, Note 1: "Numbers 4, 5 and 12 begin at relation or mode 35."
    (7, 0, 0, 35), (7, 0, 0, 65535), (8, 0, 0, 35), (8, 0, 0, 256),
    # "unused word not 0"
    (0, 1, 0, 0), (0, 0, 1, 0), (0, 0, 0, 1), (1, 1, 1, 0), (1, 1, 0, 1), (2, 0, 1, 0), (2, 0, 0, 1), (3, 0, 1, 1),
    (4, 0, 1, 1), (5, 0, 1, 0), (5, 0, 0, 1), (6, 0, 1, 0), (6, 0, 0, 1), (7, 0, 1, 1), (8, 0, 1, 1), (9, 0, 1, 0),
    (9, 0, 0, 1),
):
    refused(f"node 2 is {node}", 4, [A, B, node], [0, 1], "a2")
# The same with nothing wrong: a at 2 in mode at least leaves 0 to 2.
for node in (EMPTY, A, (1, 255, 0, 0), rule(1), sequence(1, 0), choice(0, 1), not_(1), repeat(1), indent(1, 3),
             indent(1, 34), position(1, 3), position(1, 34), align(1)):
    runs(f"node 2 is {node}", "1 0 2 clear 0", [A, B, node], [0, 1], "a2")
refused("node 511 a kind 10", 4, [EMPTY] * 511 + [KIND_10])
refused("rule 0 of none", 4, [rule(0)])


# --- Number 5 ------------------------------------------------------------------------------------

# "a rule's node .. not in the table".
refused("small 5, rule 0 = node 1 of 1", 5, [EMPTY], [1])
same("rule 0 = node 0 of 1", [EMPTY], [0])
for number in (2, 255, 256, 512, 65535):
    refused(f"rule 0 = node {number} of 1", 5, [EMPTY], [number])
refused("rule 127 = node 1 of 1", 5, [EMPTY], [0] * 127 + [1])
same("rule 0 = node 511 of 512", [EMPTY] * 512, [511])
refused("rule 0 = node 512 of 512", 5, [EMPTY] * 512, [512])


# --- Number 7 ------------------------------------------------------------------------------------

# "The grammar passes if every node does .. otherwise the lowest .."
bad("small 7, rule 0 = node 0 = rule 0", 0, [rule(0)], [0])
# "j. Check: repeat of empty .. repeat of not-empty .. bad at node 3." Not of empty always fails, so its repeat
# succeeds in the old state, no terminal tried.
bad("case j, repeat of empty", 1, [EMPTY, repeat(0)])
bad("case j, repeat of empty, started at it", 1, [EMPTY, repeat(0)], node=1)
given("(!empty)*", "greater", "a5", "0 0 inf clear 0", name="case j")
bad("case j, X = (a / empty) X", 3, [A, EMPTY, choice(0, 1), rule(0), sequence(2, 3)], [4])
# "a repeat whose child is and may not succeed reading nothing"
bad("two repeats of empty", 1, [EMPTY, repeat(0), repeat(0)])
bad("(!a)*", 2, [A, not_(0), repeat(1)], tokens="a2")
bad("(a*)*", 2, [A, repeat(0), repeat(1)], tokens="a2")
bad("(align empty)*", 2, [EMPTY, align(0), repeat(1)])
# "a sequence whose a is, and b too ..": X = X a needs X before it.
bad("X = X a", 0, [rule(0), A, sequence(0, 1)], [2])
bad("a, then X = X a", 1, [A, rule(0), sequence(1, 0)], [2])
bad("repeat of empty as node 511", 511, [EMPTY] * 511 + [repeat(0)], node=5)
bad("every node of 511 a repeat of empty", 1, [EMPTY] + [repeat(0)] * 511)


# --- Number 11 -----------------------------------------------------------------------------------


def changed(tokens, at, word):
    return tokens[:at] + [word] + tokens[at + 1 :]


# "token words no multiple of 4 .. column over 65,535". The run is empty from place 0, so that no token is
# looked at by it.
refused("small 11, 3 token words", 11, [EMPTY], tokens=[0] * 3)
same("no token words", [EMPTY])
for count in (1, 2, 5, 6, 7, 9, 16383, 16385, 16386, 16387, 16389):
    refused(f"{count} token words", 11, [EMPTY], tokens=[0] * count)
for count in (4, 8, 16380, 16384):
    same(f"{count} token words", [EMPTY], tokens=[0] * count)
for count in (4097, 4098, 4125):
    refused(f"{count} tokens", 11, [EMPTY], tokens=[0] * 4 * count)
for number in (0, 1, 254, 255):
    same(f"a token of terminal {number}", [EMPTY], tokens=[number, 0, 0, 0])
for number in (256, 257, 511, 65535, 65536, 65537, 16777216, 2147483648, U32):
    refused(f"a token of terminal {number}", 11, [EMPTY], tokens=[number, 0, 0, 0])
for column in (0, 1, 255, 256, 65534, 65535):
    same(f"a token at column {column}", [EMPTY], tokens=[1, column, 0, 0])
for column in (65536, 65537, 131071, 131072, 16777216, 2147483648, U32 - 1, U32):
    refused(f"a token at column {column}", 11, [EMPTY], tokens=[1, column, 0, 0])
# Every token counts, before the start's place and behind what is read.
THREE = token_words("a1 a1 a1")
for at in (0, 1, 2):
    refused(f"token {at} of 3 of terminal 256, from place 1", 11, [A], tokens=changed(THREE, at * 4, 256), place=1)
    refused(f"token {at} of 3 at column 65536, from place 1", 11, [A], tokens=changed(THREE, at * 4 + 1, 65536), place=1)
runs("3 tokens, from place 1", "1 0 1 clear 1", [A], tokens=THREE, place=1)
LONG = token_words("a7") * 4096
runs("4096 tokens, a", "1 0 7 clear 0", [A], tokens=LONG)
for at in (0, 4095):
    refused(f"4096 tokens, token {at} of terminal 256", 11, [A], tokens=changed(LONG, at * 4, 256))
    refused(f"4096 tokens, token {at} at column 65536", 11, [A], tokens=changed(LONG, at * 4 + 1, 65536))
refused("4097 tokens, a", 11, [A], tokens=LONG + token_words("a7"))
# "The interpreter uses only the first two words": a b in mode at least, a2 b3, leaves 0 to 2 whatever words 2
# and 3 are.
for rest in ((0, 0), (0, 1), (1, 0), (3, 2), (256, 256), (65536, 65536), (U32, 0), (0, U32), (U32, U32)):
    tokens = token_words("a2 b3", rest)
    runs(f"words 2 and 3 are {rest}", "2 0 2 clear 1", [A, B, sequence(0, 1)], tokens=tokens, node=2)


# --- Number 12 -----------------------------------------------------------------------------------

# "start node or place past its end ..".
refused("small 12, interval 5 to 4", 12, [EMPTY], lower=5, upper=4)
# "start node .. past its end"
for count in (1, 2, 3, 512):
    same(f"start node {count - 1} of {count}", [EMPTY] * count, tokens="a2", node=count - 1)
    refused(f"start node {count} of {count}", 12, [EMPTY] * count, tokens="a2", node=count)
for node in (2, 255, 256, 16384, 32768, 65535):
    refused(f"start node {node} of 1", 12, [EMPTY], tokens="a2", node=node)
refused("start node 1 of 1 with 2 rules", 12, [EMPTY], [0, 0], "a2", node=1)
# "place past its end (place = count is allowed)". 02, Note 7: "the count itself if tried past the last token".
for count in (0, 1, 2, 3, 4096):
    same(f"place {count} of {count} tokens", [EMPTY], tokens="a2 " * count, place=count)
    runs(f"a at place {count} of {count} tokens", f"failure {count}", [A], tokens="a2 " * count, place=count)
    for place in (count + 1, count + 2, count * 4 + 4, 65536, 1073741824, U32 - 3, U32):
        refused(f"place {place} of {count} tokens", 12, [EMPTY], tokens="a2 " * count, place=place)
for place in (4, 8):
    refused(f"place {place} of 2 tokens, a word's number", 12, [EMPTY], tokens="a2 " * 2, place=place)
# "lower end over the upper .. finite upper end over 65,535". The last two also where the lower end is not over
# the upper.
for lower, upper in (
    (0, 0), (0, 1), (1, 1), (4, 5), (5, 5), (0, 65534), (0, 65535), (65534, 65535), (65535, 65535),
    (0, None), (5, None), (65534, None), (65535, None),
):
    ends = f"{lower} {'inf' if upper is None else upper}"
    for flag, said in ((False, "clear"), (True, "set")):
        runs(f"interval {ends.replace(' ', ' to ')}, flag {said}", f"0 {ends} {said} 0", [EMPTY],
             lower=lower, upper=upper, flag=flag)
for lower, upper in (
    (1, 0), (2, 0), (65535, 0), (65535, 65534), (6, 5), (65536, 0), (65536, 65535), (65536, 65536), (65536, None),
    (65537, None), (65540, 65541), (65536 + 5, 7), (131072, None), (2147483648, None), (U32, 0), (U32, None),
    (U32, U32), (U32 - 1, U32), (0, 65536), (0, 65537), (3, 65536 + 9), (65535, 65536), (0, 131071),
    (0, 2147483648), (0, U32), (5, U32),
):
    refused(f"interval {lower} to {'inf' if upper is None else upper}", 12, [EMPTY], lower=lower, upper=upper)
refused("interval 5 to 4, flag set", 12, [EMPTY], tokens="a2", lower=5, upper=4, flag=True, mode=3)
# 02, Note 1: "Numbers 4, 5 and 12 begin at relation or mode 35."
for mode in (0, 1, 2, 3, 4, 34):
    same(f"mode {mode}", [EMPTY], mode=mode)
for mode in (35, 36, 255, 256, 257, 258, 259, 290, 32768, 65535):
    refused(f"mode {mode}", 12, [EMPTY], mode=mode)
    refused(f"mode {mode}, flag set, a2", 12, [A], tokens="a2", flag=True, mode=mode)


# --- Rising order --------------------------------------------------------------------------------

# "Checks run in rising number": all of 3 before any of 4, and so on. Every choice of faults from six, one of
# each number; the answer is the lowest number chosen. In the first set the faults stand late in the input, in
# the second early. With none, a at 5 in mode at least leaves 0 to 5, and so does a*, whose last round fails at 1.


def ordered(said, chosen, ill, table, tokens, answer="1 0 5 clear 0", **start):
    """A call with the faults chosen: success with the answer if there are none, else refused by the first; for 7 the
    node is `ill`."""
    label = faults.label(said, chosen)
    if not chosen:
        runs(label, answer, *table, tokens, **start)
    elif chosen[0] == 7:
        bad(label, ill, *table, tokens, **start)
    else:
        refused(label, chosen[0], *table, tokens, **start)


for chosen in faults.choices(3, 4, 5, 7, 11, 12):
    tokens = token_words("a5") + ([1, 1, 1] if 11 in chosen else [])
    ordered("late", chosen, 0, faults.late_table(chosen), tokens, mode=35 if 12 in chosen else 2)
for chosen in faults.choices(3, 4, 5, 7, 11, 12):
    tokens = [1, 5, 0, 0, 256 if 11 in chosen else 2, 0, 0, 0]
    ordered("early", chosen, 2, faults.early_table(chosen, 1), tokens, "1 0 5 clear 1", node=3 if 12 in chosen else 2)

BAD_START = {"node": 1, "place": 2, "lower": 5, "upper": 4, "flag": True, "mode": 35}
for number, said, nodes, rules, tokens, start in (
    (3, "3 before 12, no node and start node 0", [], [], [], {}),
    (3, "3 before 12, 3 words and start node 9", [0] * 3, [], [], {"node": 9}),
    (3, "3 before 11, 513 nodes and 3 token words", [EMPTY] * 513, [], [0] * 3, {}),
    (3, "3 before 12, 129 rules and interval 5 to 4", [EMPTY], [0] * 129, [], {"lower": 5, "upper": 4}),
    (4, "4 before 11, kind 10 and column 65536", [KIND_10], [], [1, 65536, 0, 0], {}),
    (4, "4 before 12, terminal 256 and place 1 of none", [(1, 256, 0, 0)], [], [], {"place": 1}),
    (5, "5 before 11, a bad rule node and 4097 tokens", [EMPTY], [1], [0] * 16388, {}),
    (5, "5 before 12, a bad rule node and it as start node", [EMPTY], [1], [], {"node": 1}),
    (11, "11 before 12, 3 words and interval 5 to 4", [EMPTY], [], [0] * 3, {"lower": 5, "upper": 4}),
    (11, "11 before 12, 4097 tokens and place 4098", [EMPTY], [], [0] * 16388, {"place": 4098}),
    (11, "11 before 12, 4097 tokens and place 4097", [EMPTY], [], [0] * 16388, {"place": 4097}),
    (11, "11 before 12, column 65536 and mode 35", [EMPTY], [], [0, 65536, 0, 0], {"mode": 35}),
    (11, "11 before 12, terminal 256 and start node 1 of 1", [EMPTY], [], [256, 0, 0, 0], {"node": 1}),
    (11, "11 before 12, column 65536 and all of 12", [EMPTY], [], [0, 65536, 0, 0], BAD_START),
    (12, "all of 12", [EMPTY], [], [0, 65535, 0, 0], BAD_START),
):
    refused(said, number, nodes, rules, tokens, **start)
bad("7 before 11, X = X and 3 token words", 0, [rule(0)], [0], [0] * 3)
bad("7 before 11, repeat of empty and 4097 tokens", 1, [EMPTY, repeat(0)], tokens=[0] * 16388)
bad("7 before 12, X = X and interval 5 to 4", 0, [rule(0)], [0], lower=5, upper=4)
bad("7 before 12, repeat of empty and start node 2 of 2", 1, [EMPTY, repeat(0)], node=2)
bad("7 before 11 and 12", 1, [EMPTY, repeat(0)], tokens=[256, 65536, 0], **BAD_START)


# --- Terminal (001, clause 2) --------------------------------------------------------------------

# "A terminal at column i: with the flag set .. else i must lie in the mode's inner set .. The flag is then
# clear." By mode, the inner set of l to h: l to h; l+1 on; l on; 0 on. The outer set of i to i: i to i; 0 to
# i-1; 0 to i; 0 on. Answers for a at columns 0 to 9 or 3, a row for each mode. With the flag set the mode says
# nothing, and the answers are those of mode equal.
TERMINAL = {
    "3 6": by_mode(
        "- - - 3-3 4-4 5-5 6-6 - - -",
        "- - - - 3-3 3-4 3-5 3-6 3-6 3-6",
        "- - - 3-3 3-4 3-5 3-6 3-6 3-6 3-6",
        "3-6 " * 10,
    ),
    "3 inf": by_mode(
        "- - - 3-3 4-4 5-5 6-6 7-7 8-8 9-9",
        "- - - - 3-3 3-4 3-5 3-6 3-7 3-8",
        "- - - 3-3 3-4 3-5 3-6 3-7 3-8 3-9",
        "3-inf " * 10,
    ),
    "5 5": by_mode(
        "- - - - - 5-5 - - - -",
        "- - - - - - 5-5 5-5 5-5 5-5",
        "- - - - - 5-5 5-5 5-5 5-5 5-5",
        "5-5 " * 10,
    ),
    "0 inf": by_mode("0-0 1-1 2-2 3-3", "- 0-0 0-1 0-2", "0-0 0-1 0-2 0-3", "0-inf " * 4),
    "0 0": by_mode("0-0 - - -", "- 0-0 0-0 0-0", "0-0 0-0 0-0 0-0", "0-0 " * 4),
}
# The same at columns 65532 to 65535. No token can lie above 65535.
HIGH = {
    "65534 inf": by_mode(
        "- - 65534-65534 65535-65535", "- - - 65534-65534", "- - 65534-65534 65534-65535", "65534-inf " * 4
    ),
    "65535 inf": by_mode("- - - 65535-65535", "- - - -", "- - - 65535-65535", "65535-inf " * 4),
    "65535 65535": by_mode("- - - 65535-65535", "- - - -", "- - - 65535-65535", "65535-65535 " * 4),
    "0 65535": by_mode(
        "65532-65532 65533-65533 65534-65534 65535-65535",
        "0-65531 0-65532 0-65533 0-65534",
        "0-65532 0-65533 0-65534 0-65535",
        "0-65535 " * 4,
    ),
    "0 inf": by_mode(
        "65532-65532 65533-65533 65534-65534 65535-65535",
        "0-65531 0-65532 0-65533 0-65534",
        "0-65532 0-65533 0-65534 0-65535",
        "0-inf " * 4,
    ),
    "0 65533": by_mode(
        "65532-65532 65533-65533 - -",
        "0-65531 0-65532 0-65533 0-65533",
        "0-65532 0-65533 0-65533 0-65533",
        "0-65533 " * 4,
    ),
}
for first, starts in ((0, TERMINAL), (65532, HIGH)):
    for start, rows in starts.items():
        for mode in MODES:
            row("a", mode, start, rows[mode], first=first)
            row("a", mode, start, rows["equal"], flag="set", first=first)

# "A terminal also fails at the token count and at another terminal".
for mode in MODES:
    for flag in ("clear", "set"):
        given("a", mode, "b5", "failure 0", flag=flag)
        given("a", mode, "b5 a5", "failure 0", flag=flag)
        given("a", mode, "a5", "failure 1", flag=flag, place=1)
runs("terminal 0 at a token of terminal 0", "1 0 4 clear 0", [(1, 0, 0, 0)], tokens=[0, 4, 0, 0])
runs("terminal 0 at a token of terminal 1", "failure 0", [(1, 0, 0, 0)], tokens=[1, 4, 0, 0])
runs("terminal 255 at a token of terminal 255", "1 0 4 clear 0", [(1, 255, 0, 0)], tokens=[255, 4, 0, 0])
runs("terminal 255 at a token of terminal 254", "failure 0", [(1, 255, 0, 0)], tokens=[254, 4, 0, 0])
runs("terminal 4 at a token of terminal 3 at column 4", "failure 0", [(1, 4, 0, 0)], tokens=[3, 4, 4, 4])


# --- Position (001, clause 9) --------------------------------------------------------------------

# "Position changes the mode for its child": the rows are those of the terminal in the inner mode, whatever
# the outer one; with the flag set the inner mode says nothing either.
for inner in MODES:
    for outer in MODES:
        row(f"position {inner} a", outer, "3 6", TERMINAL["3 6"][inner])
        row(f"position {inner} a", outer, "3 6", TERMINAL["3 6"]["equal"], flag="set")
    row(f"position {inner} a", "equal", "3 inf", TERMINAL["3 inf"][inner])
# The inner of two positions counts (001, Theorem 2.4, "Cancellation of outer token modes").
for inner in MODES:
    for outer in MODES:
        row(f"position {outer} (position {inner} a)", "at-least", "5 5", TERMINAL["5 5"][inner])


# --- Indent (001, clause 8) ----------------------------------------------------------------------

# "Indent: the child gets the inner set of S .." Rows for a at columns 0 to 9. An indent by equal changes
# nothing (001, Theorem 2.4, "Identity indentation law").
#
# From 3 to 6. Greater: inside 4 on. Mode equal leaves i to i, outside 0 to i-1; mode greater leaves 4 to i-1,
# outside 0 to i-2; mode at least leaves 4 to i, outside 0 to i-1; mode any leaves 4 on, "without end less 1 is
# without end". At least: inside 3 on. Mode equal leaves i to i, mode greater 3 to i-1, mode at least 3 to i, mode
# any 3 on; outside 0 to the same upper end. Any: inside 0 on, outside 0 on. Each is met with 3 to 6.
for relation, mode, answers in (
    ("greater", "equal", "- - - - 3-3 3-4 3-5 3-6 3-6 3-6"),
    ("greater", "greater", "- - - - - 3-3 3-4 3-5 3-6 3-6"),
    ("greater", "at-least", "- - - - 3-3 3-4 3-5 3-6 3-6 3-6"),
    ("greater", "any", "3-6 " * 10),
    ("at-least", "equal", "- - - 3-3 3-4 3-5 3-6 3-6 3-6 3-6"),
    ("at-least", "greater", "- - - - 3-3 3-4 3-5 3-6 3-6 3-6"),
    ("at-least", "at-least", "- - - 3-3 3-4 3-5 3-6 3-6 3-6 3-6"),
    ("at-least", "any", "3-6 " * 10),
    ("any", "equal", "3-6 " * 10),
    ("any", "greater", "- 3-6 3-6 3-6 3-6 3-6 3-6 3-6 3-6 3-6"),
    ("any", "at-least", "3-6 " * 10),
    ("any", "any", "3-6 " * 10),
):
    row(f"indent {relation} a", mode, "3 6", answers)
for mode in MODES:
    row("indent equal a", mode, "3 6", TERMINAL["3 6"][mode])

# With the flag set the token must lie in the inner set and leaves i to i, in every mode: under greater 4 on
# and outside 0 to i-1, under at least 3 on and outside 0 to i, under any 0 on and outside 0 on. Align outside
# or inside the indent is the same (001, Theorem 2.4, "Distributivity of indentation and alignment").
for relation, answers in (
    ("equal", "- - - 3-3 4-4 5-5 6-6 - - -"),
    ("greater", "- - - - 3-3 3-4 3-5 3-6 3-6 3-6"),
    ("at-least", "- - - 3-3 3-4 3-5 3-6 3-6 3-6 3-6"),
    ("any", "3-6 " * 10),
):
    for mode in MODES:
        row(f"indent {relation} a", mode, "3 6", answers, flag="set")
    for mode in ("greater", "any"):
        row(f"indent {relation} (align a)", mode, "3 6", answers)
        row(f"align (indent {relation} a)", mode, "3 6", answers)

# From 3 on: the same without the old upper end.
for relation, mode, answers in (
    ("greater", "equal", "- - - - 3-3 3-4 3-5 3-6 3-7 3-8"),
    ("greater", "greater", "- - - - - 3-3 3-4 3-5 3-6 3-7"),
    ("greater", "at-least", "- - - - 3-3 3-4 3-5 3-6 3-7 3-8"),
    ("greater", "any", "3-inf " * 10),
    ("at-least", "equal", "- - - 3-3 3-4 3-5 3-6 3-7 3-8 3-9"),
    ("at-least", "greater", "- - - - 3-3 3-4 3-5 3-6 3-7 3-8"),
    ("at-least", "at-least", "- - - 3-3 3-4 3-5 3-6 3-7 3-8 3-9"),
    ("at-least", "any", "3-inf " * 10),
    ("any", "equal", "3-inf " * 10),
    ("any", "greater", "- 3-inf 3-inf 3-inf 3-inf 3-inf 3-inf 3-inf 3-inf 3-inf"),
    ("any", "at-least", "3-inf " * 10),
    ("any", "any", "3-inf " * 10),
):
    row(f"indent {relation} a", mode, "3 inf", answers)
for mode in MODES:
    row("indent equal a", mode, "3 inf", TERMINAL["3 inf"][mode])

# From 5 to 5: what succeeds leaves 5 to 5. From 0 to 0: what succeeds leaves 0 to 0; "greater" on the way out
# of 1 to 1 is 0 to 0.
for relation, mode, answers in (
    ("greater", "equal", "- - - - - - 5-5 5-5 5-5 5-5"),
    ("greater", "greater", "- - - - - - - 5-5 5-5 5-5"),
    ("greater", "at-least", "- - - - - - 5-5 5-5 5-5 5-5"),
    ("greater", "any", "5-5 " * 10),
    ("at-least", "equal", "- - - - - 5-5 5-5 5-5 5-5 5-5"),
    ("at-least", "greater", "- - - - - - 5-5 5-5 5-5 5-5"),
    ("at-least", "at-least", "- - - - - 5-5 5-5 5-5 5-5 5-5"),
    ("at-least", "any", "5-5 " * 10),
    ("any", "equal", "5-5 " * 10),
    ("any", "greater", "- 5-5 5-5 5-5 5-5 5-5 5-5 5-5 5-5 5-5"),
):
    row(f"indent {relation} a", mode, "5 5", answers)
for relation, mode, answers in (
    ("greater", "equal", "- 0-0 0-0 0-0"),
    ("greater", "greater", "- - 0-0 0-0"),
    ("greater", "at-least", "- 0-0 0-0 0-0"),
    ("greater", "any", "0-0 0-0 0-0 0-0"),
    ("at-least", "equal", "0-0 0-0 0-0 0-0"),
    ("at-least", "greater", "- 0-0 0-0 0-0"),
    ("at-least", "at-least", "0-0 0-0 0-0 0-0"),
    ("at-least", "any", "0-0 0-0 0-0 0-0"),
    ("any", "equal", "0-0 0-0 0-0 0-0"),
    ("any", "greater", "- 0-0 0-0 0-0"),
):
    row(f"indent {relation} a", mode, "0 0", answers)
row("indent greater a", "equal", "0 0", "- 0-0 0-0 0-0", flag="set")
row("indent any a", "greater", "0 0", "0-0 0-0 0-0 0-0", flag="set")

# From 0 on, greater on the way out down to 0.
row("indent greater a", "equal", "0 inf", "- 0-0 0-1 0-2")
row("indent greater a", "greater", "0 inf", "- - 0-0 0-1")
row("indent greater a", "at-least", "0 inf", "- 0-0 0-1 0-2")
row("indent greater a", "any", "0 inf", "0-inf 0-inf 0-inf 0-inf")
row("indent at-least a", "equal", "0 inf", "0-0 0-1 0-2 0-3")
row("indent at-least a", "greater", "0 inf", "- 0-0 0-1 0-2")

# A child that reads nothing leaves its set; outside, S is met with the outer set of the inner set of S, which
# holds S. The flag is "as it left it".
for relation in MODES:
    for start in ("3 6", "3 inf", "5 5", "0 0", "0 inf", "65535 65535", "65535 inf"):
        for flag in ("clear", "set"):
            given(f"indent {relation} empty", "greater", "a0", f"0 {start} {flag} 0", start=start, flag=flag)
given("indent greater !a", "greater", "b0", "0 3 6 set 0", start="3 6", flag="set")
given("indent greater a*", "greater", "a2", "0 3 6 set 0", start="3 6", flag="set")
given("indent greater a*", "greater", "a2", "0 3 6 clear 0", start="3 6")

# Nested indents; the first one written is the outer one.
# From 0 on: 1 on, 2 on; i to i; met 1 to i-1; met 0 to i-2.
row("indent greater (indent greater a)", "equal", "0 inf", "- - 0-0 0-1 0-2 0-3")
# Mode greater needs 3 or more: 2 to i-1; 1 to i-2; 0 to i-3.
row("indent greater (indent greater a)", "greater", "0 inf", "- - - 0-0 0-1 0-2")
# 3 on inside; 3 to i; 2 to i-1; 1 to i-2; 0 to i-3.
row("indent greater (indent greater (indent greater a))", "at-least", "0 inf", "- - - 0-0 0-1 0-2")
row("indent greater (indent greater (indent greater a))", "any", "0 inf", "0-inf 0-inf 0-inf 0-inf")
# From 3 to 6. Inside 4 on in both, mode equal: i to i; then greater and at least, in either order, 0 to i-1.
row("indent at-least (indent greater a)", "equal", "3 6", "- - - - 3-3 3-4 3-5 3-6 3-6")
row("indent greater (indent at-least a)", "equal", "3 6", "- - - - 3-3 3-4 3-5 3-6 3-6")
# Greater then any: inside 0 on; the any leaves 4 on; outside 0 on less 1.
row("indent greater (indent any a)", "equal", "3 6", "3-6 " * 9)
# Any then greater: inside 1 on; greater leaves 0 to i-1; any 0 on.
row("indent any (indent greater a)", "equal", "3 6", "- 3-6 3-6 3-6 3-6 3-6 3-6 3-6 3-6")
# At least twice is at least (001, "Composition law of indentations").
row("indent at-least (indent at-least a)", "equal", "3 6", "- - - 3-3 3-4 3-5 3-6 3-6 3-6")
# Equal in between changes nothing.
row("indent equal (indent greater (indent equal a))", "equal", "3 6", "- - - - 3-3 3-4 3-5 3-6 3-6")
# With the flag set, inside 5 on; i to i; met 4 to i-1; met 3 to i-2.
row("indent greater (indent greater a)", "greater", "3 6", "- - - - - 3-3 3-4 3-5 3-6", flag="set")
# A position may stand on either side of an indent (001, Theorem 2.3).
row("position equal (indent greater a)", "greater", "3 6", "- - - - 3-3 3-4 3-5 3-6 3-6")
row("indent greater (position equal a)", "greater", "3 6", "- - - - 3-3 3-4 3-5 3-6 3-6")

# More than one token in an indent: one baseline for both.
# Inside 1 on; 3 to 3; 3 to 3; outside 0 to 2.
given("indent greater (a b)", "equal", "a3 b3", "2 0 2 clear 1")
given("indent greater (a b)", "equal", "a3 b4", "failure 1")
# Inside 1 on; 1 to 3; 1 to 2; outside 0 to 1.
given("indent greater (a b)", "at-least", "a3 b2", "2 0 1 clear 1")
given("indent greater (a b)", "at-least", "a3 b1", "2 0 0 clear 1")
given("indent greater (a b)", "at-least", "a3 b0", "failure 1")
# Inside 1 on; 1 to 2; 1 to 1; outside 0 to 0.
given("indent greater (a b)", "greater", "a3 b2", "2 0 0 clear 1")
given("indent greater (a b)", "greater", "a3 b1", "failure 1")
# Two indents have two baselines: 0 to 2, then inside 1 on, 1 to 1, 0 to 0.
given("(indent greater a) (indent greater b)", "equal", "a3 b1", "2 0 0 clear 1")
given("(indent greater a) (indent greater b)", "equal", "a1 b3", "2 0 0 clear 1")
# 0 to 2; then b on its own in mode equal.
given("(indent greater a) b", "equal", "a3 b2", "2 2 2 clear 1")
given("(indent greater a) b", "equal", "a3 b0", "2 0 0 clear 1")
given("(indent greater a) b", "equal", "a3 b3", "failure 1")
# b at the baseline, then a right of it, then b at it again. a2 fails at 1, b3 at 2.
given("b (indent greater a) b", "equal", "b2 a3 b2", "3 2 2 clear 2")
given("b (indent greater a) b", "equal", "b2 a2 b2", "failure 1")
given("b (indent greater a) b", "equal", "b2 a3 b3", "failure 2")
# 2 to 2; inside 3 on: 4 to 4, outside met 3 to 3; then in the inner block b at 3; out 0 to 2 met 2 to 2.
# b4 fails at 2, a3 at 1.
given("b indent greater ((indent greater a) b)", "equal", "b2 a4 b3", "3 2 2 clear 2")
given("b indent greater ((indent greater a) b)", "equal", "b2 a4 b4", "failure 2")
given("b indent greater ((indent greater a) b)", "equal", "b2 a3 b3", "failure 1")
# "Any other child's failure is its parent's."
given("indent greater a", "greater", "b5", "failure 0")
given("indent greater a", "greater", "", "failure 0")
given("indent any (a b)", "equal", "a3 b4", "failure 1")


# --- Empty and rule (001, clauses 1 and 3) -------------------------------------------------------

# "Empty changes nothing."
for start in ("0 inf", "3 6", "5 5", "65535 inf"):
    for flag in ("clear", "set"):
        given("empty", "equal", "a9", f"0 {start} {flag} 0", start=start, flag=flag)
# "A rule is its node."
given("X", "greater", "a5", "1 0 4 clear 0", rules="X = a")
given("X", "greater", "a5", "1 5 5 clear 0", rules="X = a", flag="set")
given("X", "greater", "b5", "failure 0", rules="X = a")
given("X", "greater", "a5", "0 0 inf set 0", rules="X = empty", flag="set")
given("X", "greater", "a5", "1 0 4 clear 0", rules="X = Y; Y = Z; Z = a")
given("Z X Y", "at-least", "c9 a4 b5", "3 0 4 clear 2", rules="X = a; Y = b; Z = c")
given("Y X Z", "at-least", "c9 a4 b5", "failure 0", rules="X = a; Y = b; Z = c")
# "Position changes the mode for its child, through rules too."
given("position greater X", "equal", "a5", "1 0 4 clear 0", rules="X = a")
given("position any X", "equal", "a0", "1 3 6 clear 0", rules="X = a", start="3 6")
given("position greater X", "equal", "a5 b3", "2 0 2 clear 1", rules="X = a Y; Y = b")
given("position greater X", "equal", "a5 b3", "2 3 3 clear 1", rules="X = a Y; Y = position equal b", start="3 inf")
given("position equal X", "any", "a5", "1 0 4 clear 0", rules="X = position greater Y; Y = a")
given("position any (position equal X)", "greater", "a5 b5", "2 5 5 clear 1", rules="X = Y Z; Y = a; Z = b")
given("position any (position equal X)", "greater", "a5 b6", "failure 1", rules="X = Y Z; Y = a; Z = b")
# And only for its child.
given("X b", "equal", "a9 b3", "2 3 3 clear 1", rules="X = position any a", start="3 6")
given("X b", "equal", "a9 b9", "failure 1", rules="X = position any a", start="3 6")
given("(position any X) Y", "equal", "a9 b4", "2 4 4 clear 1", rules="X = a; Y = b", start="3 6")
given("(position any X) X", "equal", "a9 a4", "2 4 4 clear 1", rules="X = a", start="3 6")
given("X position any X", "equal", "a4 a9", "2 4 4 clear 1", rules="X = a", start="3 6")
# Indents and aligns through rules. In the second b fails at 1, past the token.
given("indent greater X", "equal", "a5", "1 0 4 clear 0", rules="X = a")
given("align X", "greater", "a5", "1 5 5 clear 1", rules="X = Y; Y = a b / a")
given("indent greater (align X)", "at-least", "a2 b3", "2 0 1 clear 1", rules="X = a Y; Y = b")
given("(indent greater Y) b", "equal", "a4 b3", "2 3 3 clear 1", rules="X = a; Y = align X")
given("X a", "greater", "a5", "1 0 4 clear 0", rules="X = align empty")


# --- Sequence (001, clause 4) --------------------------------------------------------------------

# "Sequence: a, then b from where a ended."
given("a b", "equal", "a2 b2", "2 2 2 clear 1")
given("a b", "equal", "a2 b3", "failure 1")
given("a b", "greater", "a2 b3", "2 0 1 clear 1")
given("a b", "greater", "a3 b1", "2 0 0 clear 1")
given("a b", "greater", "a3 b0", "failure 1")
given("a b", "at-least", "a2 b3", "2 0 2 clear 1")
given("a b", "at-least", "a3 b2", "2 0 2 clear 1")
given("a b", "at-least", "a3 b0", "2 0 0 clear 1")
given("a b", "any", "a9 b0", "2 0 inf clear 1")
given("a b", "any", "a9 b0", "2 3 6 clear 1", start="3 6")
given("a b", "at-least", "a9 b3", "2 3 3 clear 1", start="3 6")
given("a b", "at-least", "a9 b2", "failure 1", start="3 6")
given("a b", "greater", "a4 b9", "2 3 3 clear 1", start="3 6")
# Failures of the first and of the second.
given("a b", "any", "b1 b1", "failure 0")
given("a b", "any", "a1 a1", "failure 1")
given("a b", "any", "a1", "failure 1")
given("a b", "any", "", "failure 0")
# More than what is read stays.
given("a b", "any", "a1 b2 c3", "2 0 inf clear 1")
# "The flag is then clear": only the first token is aligned. 2 to 2, then b by the mode. From 3 to 6 a fails at 0.
given("a b", "equal", "a2 b2", "2 2 2 clear 1", flag="set")
given("a b", "greater", "a2 b3", "2 2 2 clear 1", flag="set")
given("a b", "greater", "a2 b2", "failure 1", flag="set")
given("a b", "at-least", "a2 b2", "2 2 2 clear 1", flag="set")
given("a b", "at-least", "a2 b1", "failure 1", flag="set")
given("a b", "any", "a2 b0", "2 2 2 clear 1", flag="set")
given("a b", "any", "a2 b0", "failure 0", flag="set", start="3 6")
given("empty a", "greater", "a5", "1 5 5 clear 0", flag="set")
given("a empty", "greater", "a5", "1 0 4 clear 0")
given("empty empty", "greater", "a5", "0 3 6 set 0", flag="set", start="3 6")
# Narrowing step by step: 0 to 9, 0 to 7, 0 to 7, 0 to 4; then 4 to 4.
NARROWING = "(position at-least a) (position greater b) (position greater c) (position at-least d)"
given(NARROWING, "equal", "a9 b8 c9 d4", "4 0 4 clear 3")
given(f"{NARROWING} e", "equal", "a9 b8 c9 d4 e4", "5 4 4 clear 4")
given(f"{NARROWING} e", "equal", "a9 b8 c9 d4 e5", "failure 4")
# Sequences nested to either side are the same.
given("((a b) c) d", "at-least", "a4 b3 c2 d7", "4 0 2 clear 3")
given("a (b (c d))", "at-least", "a4 b3 c2 d7", "4 0 2 clear 3")
# The mode comes back after a position that failed or ended last in the first part.
given("(a position any b) c", "equal", "a3 b9 c3", "3 3 3 clear 2")
given("(a position any b) c", "equal", "a3 b9 c4", "failure 2")


# --- Choice (001, clause 5) ----------------------------------------------------------------------

# "Choice: a, or if a fails b from the old state."
given("a / b", "greater", "a5", "1 0 4 clear 0")
given("a / b", "greater", "b5", "1 0 4 clear 0")
given("a / b", "greater", "c5", "failure 0")
given("a / b", "greater", "", "failure 0")
given("a / empty", "greater", "b5", "0 0 inf clear 0")
given("a / empty", "greater", "b5", "0 3 6 set 0", start="3 6", flag="set")
given("a / empty", "equal", "a7", "0 3 6 clear 0", start="3 6")
given("empty / a", "greater", "a5", "0 0 inf clear 0")
given("a / b / c", "at-least", "c5", "1 0 5 clear 0")
given("(a / b) / c", "at-least", "b5", "1 0 5 clear 0")
# The same terminal twice: the second may take what the first did not.
given("a / position any a", "equal", "a7", "1 3 6 clear 0", start="3 6")
given("position any a / a", "equal", "a4", "1 3 6 clear 0", start="3 6")
given("indent greater a / a", "equal", "a3", "1 3 3 clear 0", start="3 6")
# A first part that succeeded is not gone back to.
given("(a / a b) c", "any", "a1 b1 c1", "failure 1")
given("(a b / a) c", "any", "a1 c1", "2 0 inf clear 1")
given("(a b / a) c", "any", "a1 b1 c1", "3 0 inf clear 2")
# "Trying the second alternative with the first one's narrowed interval": a leaves 2 to 2 and b fails at 1; the
# second starts from 0 on again.
given("a b / (position any a) c", "equal", "a2 c5", "2 5 5 clear 1")
given("a b / position any (a c)", "equal", "a2 c5", "2 0 inf clear 1")
given("a b / position any (a c)", "equal", "a4 c9", "2 3 6 clear 1", start="3 6")
given("a b / empty", "equal", "a2 c2", "0 0 inf clear 1")
given("a b / empty", "greater", "a5 c2", "0 3 6 clear 1", start="3 6")
given("(position at-least a) b / (position at-least a) (position any b)", "equal", "a4 b9", "2 0 4 clear 1")
# The flag goes back too: a at 2 is aligned in both; `position greater a` at 2 with a clear flag would leave 0 to 1.
# Each time b fails at 1; in the third then c at 0.
given("a b / (position greater a) c", "equal", "a2 c2", "2 2 2 clear 1", flag="set")
given("a b / empty", "equal", "a2 c2", "0 0 inf set 1", flag="set")
given("a b / c", "equal", "a2 c2", "failure 1", flag="set")
# Align's flag does not stay: a at 5 in mode greater leaves 0 to 4.
given("align (a b) / a c", "greater", "a5 c6", "2 0 4 clear 1")
given("align a / a", "greater", "a2", "failure 0", start="3 6")
given("align a / a", "greater", "a9", "1 3 6 clear 0", start="3 6")
# The indent's interval does not stay: from 2 to 2 the inner set is 3 on. In the second b fails at 1, then a at 0.
given("indent greater (a b) / a c", "equal", "a2 c2", "2 2 2 clear 1", start="2 2")
given("indent greater (a b) / a c", "equal", "a3 c3", "failure 1", start="2 2")
given("indent greater (a b) / indent greater (a c)", "equal", "a3 c3", "2 2 2 clear 1", start="2 2")
# The position's mode does not stay: c must stand at 3.
given("position any (a b) / a c", "equal", "a3 c3", "2 3 3 clear 1")
given("position any (a b) / a c", "equal", "a3 c4", "failure 1")
given("position any (a b) / (position any a) c", "equal", "a3 c4", "2 4 4 clear 1")
# Narrowed by what came before the choice, not by its first part. c fails at 2.
given("a ((position at-least b) c / (position any b) d)", "at-least", "a9 b4 d1", "3 0 1 clear 2")
given("a (b c / position any b)", "at-least", "a9 b4 d1", "2 0 9 clear 2")
given("a (b c / empty)", "at-least", "a9 b4 d1", "1 0 9 clear 2")
# Three alternatives, two of them narrowing.
given("(position equal a) b / (position greater a) c / (position any a) d", "equal", "a5 d9", "2 9 9 clear 1")
given("((position equal a) b / (position greater a) c) / (position at-least a) d", "equal", "a5 d4", "2 4 4 clear 1")
given("((position equal a) b / (position greater a) c) / (position at-least a) d", "equal", "a5 d6", "failure 1")


# --- Not (001, clause 6) -------------------------------------------------------------------------

# "Not succeeds exactly if its child fails", "Not and failure hand the old state on."
given("!a", "greater", "b5", "0 0 inf clear 0")
given("!a", "greater", "a5", "failure 0")
given("!a", "greater", "a0", "0 0 inf clear 0")
given("!a", "greater", "", "0 0 inf clear 0")
given("!a", "equal", "a7", "0 3 6 clear 0", start="3 6")
given("!a", "equal", "a6", "failure 0", start="3 6")
given("!a", "any", "a7", "0 3 6 set 0", start="3 6", flag="set")
given("!a", "any", "a6", "failure 0", start="3 6", flag="set")
given("!empty", "greater", "", "failure 0")
given("!!empty", "greater", "", "0 0 inf clear 0")
given("!!a", "equal", "a2", "0 0 inf clear 0")
given("!!a", "equal", "a2", "0 0 inf set 0", flag="set")
given("!!a", "equal", "b2", "failure 0")
given("!!!a", "equal", "b2", "0 0 inf clear 0")
given("!!a a", "equal", "a2", "1 2 2 clear 0")
given("!!a a", "greater", "a2", "1 2 2 clear 0", flag="set")
given("!!a position any a", "equal", "a2", "1 0 inf clear 0")
# A child that narrows before it fails: a leaves 2 to 2, b fails; `position any a` leaves 0 on, and c is at 5. a2 from
# 3 to 6 fails at 0, and b is not tried.
given("!(a b) (position any a) c", "equal", "a2 c5", "2 5 5 clear 1")
given("!(a b) a c", "equal", "a2 c5", "failure 1")
given("!(a b)", "equal", "a2 c5", "0 3 6 clear 0", start="3 6")
given("!(a b)", "equal", "a4 c5", "0 3 6 set 1", start="3 6", flag="set")
given("!(a b) a", "greater", "a4 c5", "1 4 4 clear 1", start="3 6", flag="set")
# The child's align, indent and position are gone with it. a9 c9: b fails at 1, then a at 0.
given("!(align a) b", "greater", "b5", "1 0 4 clear 0")
given("!(indent greater a) a", "equal", "a3", "1 3 3 clear 0", start="3 6")
given("!(indent greater a) a", "equal", "a4", "failure 0", start="3 6")
given("!(position any (a b)) a", "equal", "a9 c9", "failure 1", start="3 6")
given("!(position any (a b)) a", "equal", "a5 c9", "1 5 5 clear 1", start="3 6")
given("!(a position any b) a c", "equal", "a5 c9", "failure 1", start="3 6")
given("!(a position any b) a c", "equal", "a5 c5", "2 5 5 clear 1", start="3 6")
# Forms around a not. In the last its a succeeds at 2.
given("align !a", "greater", "b5", "0 3 6 clear 0", start="3 6")
given("align !a", "greater", "a7", "0 3 6 clear 0", start="3 6")
given("align !a", "greater", "a5", "failure 0", start="3 6")
given("align !a", "greater", "b5", "0 3 6 set 0", start="3 6", flag="set")
given("indent greater !a", "equal", "a3", "0 3 6 clear 0", start="3 6")
given("indent greater !a", "equal", "a4", "failure 0", start="3 6")
given("position any !a", "equal", "a9", "failure 0", start="3 6")
given("(!a b)*", "at-least", "b4 b2 a9", "2 0 2 clear 2")


# --- Repeat (001, clause 7) ----------------------------------------------------------------------

# "Repeat: success in the old state .. else the repeat again .." The last round fails at the place reached.
given("a*", "greater", "", "0 0 inf clear 0")
given("a*", "greater", "b5", "0 0 inf clear 0")
given("a*", "greater", "b5", "0 3 6 set 0", start="3 6", flag="set")
given("a*", "equal", "a7", "0 3 6 clear 0", start="3 6")
given("a*", "equal", "a2", "1 2 2 clear 1")
# Each round narrows: at least 0 to 5, 0 to 3, 0 to 3; greater one less each; equal stops at the third.
given("a*", "at-least", "a5 a3 a4", "3 0 3 clear 3")
given("a*", "greater", "a5 a3 a4", "3 0 2 clear 3")
given("a*", "equal", "a2 a2 a3", "2 2 2 clear 2")
given("a*", "any", "a5 a0 a9", "3 0 inf clear 3")
given("a*", "greater", "a5 a3 a1 a0", "3 0 0 clear 3")
given("a*", "at-least", "a5 a4 a3 a2 a1 a0", "6 0 0 clear 6")
given("a*", "at-least", "a5 a4 a3 a2 a1 a0", "3 3 3 clear 3", start="3 6")
given("a*", "greater", "a9 a8 a7 a6 a5 a4 a3", "6 3 3 clear 6", start="3 6")
# The flag is for the first token only: 2 to 2, then by the mode.
given("a*", "greater", "a2 a3 a2", "2 2 2 clear 2", flag="set")
given("a*", "at-least", "a2 a3 a2", "3 2 2 clear 3", flag="set")
given("a*", "any", "a7 a3 a2", "0 3 6 set 0", start="3 6", flag="set")
# What follows starts where the last round ended.
given("a* b", "at-least", "a5 a3 b9", "3 0 3 clear 2")
given("a* b", "equal", "a5 a5 b5", "3 5 5 clear 2")
given("a* b", "equal", "a5 a5 b6", "failure 2")
given("a* b", "equal", "b6", "1 6 6 clear 0")
given("a* a", "any", "a1 a1", "failure 2")
given("a* position any a", "equal", "a1 a1 a2", "3 1 1 clear 2")
# A round whose second part fails is gone back on: the second a would leave 0 to 3. That part is tried one place on.
given("((position at-least a) (position any b))*", "equal", "a5 b0 a3 c0", "2 0 5 clear 3")
given("((position at-least a) (position any b))* (position any a) (position any c)", "equal", "a5 b0 a3 c0",
      "4 0 5 clear 3")
given("((position at-least a) (position any b))* a position any c", "equal", "a5 b0 a3 c0", "4 3 3 clear 3")
given("(a b)*", "at-least", "a4 b3 a2 b1 a0 c0", "4 0 1 clear 5")
given("(a b)*", "at-least", "a4 c4", "0 0 inf set 1", flag="set")
given("(a b)* a", "equal", "a4 c4", "1 4 4 clear 1", flag="set")
given("(a b)*", "at-least", "a4 b4 a4", "2 0 4 clear 3")
given("(a b)*", "equal", "a4 b4 a4 b5", "2 4 4 clear 3")
given("(a b / a c)*", "at-least", "a4 b4 a3 c3 a2 d2", "4 0 3 clear 5")
given("(a / b)*", "greater", "a9 b7 b8 a3 c1", "4 0 2 clear 4")
# Repeats in repeats. In the first the last a is read, and b fails at 7.
given("(a* b)*", "at-least", "a9 a8 b7 b6 a5 b4 a3", "6 0 4 clear 7")
given("(a b*)*", "at-least", "a9 b8 b7 a6 a5 b4 c3", "6 0 4 clear 6")
given("(a b*)*", "equal", "a2 b2 b2 a2 b3 a2", "4 2 2 clear 4")
# A position in a round holds for its child only: b must stand at 2 in every round.
given("(b position greater a)*", "equal", "b2 a3 b2 a5", "4 2 2 clear 4")
given("(b position greater a)*", "equal", "b2 a3 b3 a5", "2 2 2 clear 2")
given("((position greater a) b)*", "equal", "a3 b2 a5 b2", "4 2 2 clear 4")
given("((position greater a) b)*", "equal", "a3 b2 a2 b2", "2 2 2 clear 2")
given("(b / position greater a)*", "equal", "b2 a3 b2 a5 b3", "4 2 2 clear 4")
given("(position any a)* b", "equal", "a9 a0 b4", "3 4 4 clear 2", start="3 6")
given("(position any (a b))* a c", "equal", "a9 b0 a4 c4", "4 4 4 clear 3", start="3 6")
given("(position any (a b))* a c", "equal", "a9 b0 a4 c5", "failure 3", start="3 6")
# In both failures b fails at 3, which ends the rounds, then a at 2.
given("(indent greater (a b))* a c", "equal", "a4 b4 a4 c4", "failure 3", start="3 6")
given("(indent greater (a b))* a c", "equal", "a5 b5 a4 c4", "4 4 4 clear 3", start="3 6")
given("(align (a b))* a c", "greater", "a4 b5 a5 c6", "4 4 4 clear 3", start="3 6")
given("(align (a b))* a c", "greater", "a4 b5 a4 c6", "failure 3", start="3 6")
# Indents in rounds: each has its own baseline, met outside. 0 to 4, then inside 1 on: 3 to 3, 0 to 2; then 7
# to 7, 0 to 2.
given("(indent greater a)*", "equal", "a5 a3 a7", "3 0 2 clear 3")
given("(indent greater a)*", "equal", "a5 a1 a0", "2 0 0 clear 2")
given("(indent greater a)*", "greater", "a5 a3 a1", "2 0 1 clear 2")
# One indent around all rounds: inside 1 on; at least 1 to 5, 1 to 3, and a0 fails; outside 0 to 2.
given("indent greater a*", "at-least", "a5 a3 a0", "2 0 2 clear 2")
given("indent greater a*", "equal", "a5 a5 a3", "2 0 4 clear 2")
# An align in each round: each first token at the baseline.
given("(align a)*", "greater", "a2 a2 a3", "2 2 2 clear 2")
given("(align (a b*))*", "greater", "a2 b4 b3 a2 b5", "5 2 2 clear 5")
given("(align (a b*))*", "greater", "a2 b4 b2 a2 b5", "2 2 2 clear 2")
given("indent greater (align (a b*))*", "greater", "a2 b4 b3 a2 b5", "5 0 1 clear 5")
given("indent greater (align (a b*))*", "greater", "a2 b4 b3 a2 b5", "0 2 inf clear 0", start="2 inf")
given("indent greater (align (a b*))*", "greater", "a3 b4 b5 a3 b5", "5 2 2 clear 5", start="2 inf")
# The align that failed last does not leave its flag: b by the mode, greater than 2.
given("(align a)* b", "greater", "a2 b3", "2 2 2 clear 1")
given("(align a)* b", "greater", "a2 b2", "failure 1")
given("(align a)* b", "greater", "b5", "1 0 4 clear 0")
given("(align a)* b", "greater", "b5", "1 5 5 clear 0", flag="set")


# --- Align (001, clause 10) ----------------------------------------------------------------------

# "Align sets the flag inside; after success .."
for mode in MODES:
    given("align a", mode, "a5", "1 5 5 clear 0")
    given("align a", mode, "a5", "1 5 5 clear 0", start="3 6")
    given("align a", mode, "a5", "1 5 5 clear 0", start="3 6", flag="set")
    given("align a", mode, "a7", "failure 0", start="3 6")
    given("align a", mode, "a2", "failure 0", start="3 6")
    given("align a", mode, "b5", "failure 0")
    given("align a", mode, "", "failure 0")
    given("align empty", mode, "a5", "0 3 6 clear 0", start="3 6")
    given("align empty", mode, "a5", "0 3 6 set 0", start="3 6", flag="set")
# "Leaving the flag set after an align that read nothing": empty, no round, a not, an alternative that reads
# nothing, an indent over empty, an align over empty, a rule over empty.
NOTHING = (
    "align empty", "align b*", "align !b", "align (b / empty)", "align (indent greater empty)", "align (align empty)",
    "align (empty empty)", "align (position any b*)",
)
for nothing in NOTHING:
    given(f"({nothing}) a", "greater", "a5", "1 0 4 clear 0", name=f"case h with {nothing}")
    given(f"({nothing}) a", "greater", "a5", "1 5 5 clear 0", flag="set", name=f"case h with {nothing}")
    given(f"({nothing}) a", "greater", "a7", "1 3 6 clear 0", start="3 6", name=f"case h with {nothing}")
    given(f"({nothing}) a", "greater", "a7", "failure 0", start="3 6", flag="set", name=f"case h with {nothing}")
given("(align X) a", "greater", "a5", "1 0 4 clear 0", rules="X = empty")
given("(align X) a", "greater", "a5", "1 5 5 clear 0", rules="X = empty", flag="set")
# What reads nothing first leaves the flag set inside, for the next token there.
for first in ("empty", "b*", "!b", "(b / empty)", "(indent greater empty)", "(align empty)", "(indent any b*)"):
    given(f"align ({first} a)", "greater", "a5", "1 5 5 clear 0")
    given(f"align ({first} a)", "greater", "a7", "failure 0", start="3 6")
# What reads something first takes the alignment: b at 3, then a by the mode.
given("align (b* a)", "greater", "b3 a5", "2 3 3 clear 1")
given("align (b* a)", "greater", "b3 a3", "failure 1")
given("align ((b / empty) a)", "greater", "b3 a5", "2 3 3 clear 1")
# Only the first token is aligned.
given("align (a b)", "equal", "a2 b2", "2 2 2 clear 1")
given("align (a b)", "equal", "a2 b3", "failure 1")
given("align (a b)", "greater", "a2 b3", "2 2 2 clear 1")
given("align (a b)", "greater", "a2 b2", "failure 1")
given("align (a b)", "at-least", "a2 b2", "2 2 2 clear 1")
given("align (a b)", "any", "a2 b0", "2 2 2 clear 1")
given("align (a b)", "any", "a2 b0", "failure 0", start="3 6")
# After an align that read something the flag is clear, also if it was set before.
given("(align a) b", "greater", "a2 b3", "2 2 2 clear 1", flag="set")
given("(align a) b", "greater", "a2 b2", "failure 1", flag="set")
given("(align a) b", "greater", "a2 b2", "failure 1")
given("(align a) b", "any", "a2 b0", "2 2 2 clear 1")
# Aligns beside and in each other.
given("(align a) (align b)", "greater", "a2 b2", "2 2 2 clear 1")
given("(align a) (align b)", "greater", "a2 b3", "failure 1")
given("align (a align b)", "greater", "a2 b2", "2 2 2 clear 1")
given("align (a align b)", "greater", "a2 b3", "failure 1")
given("align ((align a) b)", "greater", "a2 b3", "2 2 2 clear 1")
given("align ((align a) b)", "greater", "a2 b2", "failure 1")
given("align (align a)", "greater", "a2", "1 2 2 clear 0")
given("(position at-least a) (align b) c", "greater", "a5 b4 c9", "3 4 4 clear 2")
given("(position at-least a) (align b) c", "greater", "a5 b6 c9", "failure 1")
given("a align b", "greater", "a5 b4", "2 4 4 clear 1")
given("a align b", "greater", "a5 b5", "failure 1")
# Align of a choice is a choice of aligns (001, Theorem 2.3).
given("align (a / b)", "greater", "b4", "1 4 4 clear 0")
given("align a / align b", "greater", "b4", "1 4 4 clear 0")
given("align (a b / a c)", "greater", "a4 c5", "2 4 4 clear 1")
given("align (a b / a c)", "greater", "a4 c4", "failure 1")
given("(align (a b / empty)) a c", "greater", "a4 c4", "2 0 3 clear 1")
# A position in an align: the flag goes before the mode.
given("align (position any a)", "equal", "a2", "failure 0", start="3 6")
given("align (position any a)", "equal", "a4", "1 4 4 clear 0", start="3 6")
given("(position any (align a)) b", "equal", "a4 b4", "2 4 4 clear 1", start="3 6")
given("(align (position any a)) b", "equal", "a4 b9", "failure 1", start="3 6")
# Indents in aligns: "Ignoring indentation under a set flag, as 000 does". From 1 to 1 the token must be right
# of 1.
given("align (indent greater a)", "equal", "a1", "failure 0", start="1 1")
given("align (indent greater a)", "greater", "a2", "1 1 1 clear 0", start="1 1")
given("indent greater a", "equal", "a4", "1 1 1 clear 0", start="1 1", flag="set")
given("indent greater a", "equal", "a1", "failure 0", start="1 1", flag="set")
given("align (indent any a)", "equal", "a2", "1 5 5 clear 0", start="5 5")
given("align (indent at-least a)", "equal", "a4", "failure 0", start="5 5")
given("align (indent greater a)", "equal", "a4", "1 0 3 clear 0")
given("align (indent greater a)", "equal", "a0", "failure 0")
# 4 to 4, outside 0 to 3, flag clear; then b in mode greater.
given("align ((indent greater a) b)", "greater", "a4 b2", "2 0 1 clear 1")
given("align ((indent greater a) b)", "greater", "a4 b0", "failure 1")
given("(indent greater (align a)) b", "greater", "a4 b2", "2 0 1 clear 1")
given("align (indent greater (a b))", "greater", "a4 b5", "2 0 3 clear 1")
given("align (indent greater (a b))", "greater", "a4 b4", "failure 1")
given("indent greater (align (a b))", "greater", "a2 b3", "2 0 1 clear 1")
given("indent greater (align (a b))", "greater", "a2 b2", "failure 1")
given("indent greater (align (a b))", "greater", "a0 b2", "failure 0")
given("indent greater (align (a b))", "at-least", "a3 b3", "failure 0", start="3 6")
given("indent greater (align (a b))", "at-least", "a5 b9", "2 3 4 clear 1", start="3 6")
# 0 to 3 and clear; then b aligned in 0 to 3.
given("align ((indent greater a) (align b))", "greater", "a4 b3", "2 3 3 clear 1")
given("align ((indent greater a) (align b))", "greater", "a4 b4", "failure 1")
# No round under the indent: the flag stays set for b.
given("align ((indent greater a*) b)", "greater", "b5", "1 5 5 clear 0")
given("align ((indent greater a*) b)", "greater", "a6 b3", "2 0 2 clear 1")
given("align ((indent greater a*) b)", "greater", "b7", "failure 0", start="3 6")
# Indent in align in indent: from 0 on, 1 on, flag, 2 on; 5 to 5; 1 to 4; 0 to 3.
given("indent greater (align (indent greater a))", "equal", "a5", "1 0 3 clear 0")
given("indent greater (align (indent greater (align a)))", "equal", "a1", "failure 0")
# Aligned lines under a head, from 2 to 2: inside 3 on; 5 to 5 for both; outside 0 to 4 met 2 to 2.
given("h indent greater ((align a) (align a))", "equal", "h2 a5 a5", "3 2 2 clear 2")
given("h indent greater ((align a) (align a))", "equal", "h2 a5 a6", "failure 2")
given("h indent greater ((align a) (align a))", "equal", "h2 a2 a2", "failure 1")
given("h indent at-least ((align a) (align a))", "equal", "h2 a2 a2", "3 2 2 clear 2")


# --- Recursion through rules ---------------------------------------------------------------------

# "An expression may name a rule ..".
LIST = "X = a X / empty"
given("X", "at-least", "", "0 0 inf clear 0", rules=LIST)
given("X", "at-least", "b1", "0 3 6 set 0", rules=LIST, start="3 6", flag="set")
given("X", "at-least", "a5 a3 a7", "3 0 3 clear 3", rules=LIST)
given("X", "greater", "a5 a3 a7", "3 0 2 clear 3", rules=LIST)
given("X", "equal", "a2 a2 a3", "2 2 2 clear 2", rules=LIST)
given("X", "greater", "a2 a3 a2", "2 2 2 clear 2", rules=LIST, flag="set")
given("X b", "at-least", "a5 a3 b9", "3 0 3 clear 2", rules=LIST)
given("position at-least X", "equal", "a5 a3 b9", "2 0 3 clear 2", rules=LIST)
given("(position at-least X) X", "equal", "a5 a3 a9", "3 0 3 clear 3", rules=LIST)
given("(align X) b", "greater", "b5", "1 0 4 clear 0", rules=LIST)
given("(align X) b", "greater", "a2 b3", "2 2 2 clear 1", rules=LIST)
# X = a X has no end: the a that is not there, at 2, is everyone's failure.
given("X", "at-least", "a1 a1", "failure 2", rules="X = a X")
given("X*", "at-least", "a1 a1", "0 0 inf clear 2", rules="X = a X")
given("X / a", "at-least", "a1 a1", "1 0 1 clear 2", rules="X = a X")
# X = !empty X: the first part fails before the rule is met again, and tries nothing.
given("X", "at-least", "a1", "failure 0", rules="X = !empty X")
given("X / a", "at-least", "a1", "1 0 1 clear 0", rules="X = !empty X")
# Each step one block deeper. a0: 0 to 0; inside 1 on: a1: 1 to 1; inside 2 on: a2: 2 to 2; then nothing.
DEEPER = "X = a indent greater X / empty"
given("X", "equal", "a0 a1 a2", "3 0 0 clear 3", rules=DEEPER)
given("X", "equal", "a3 a5 a9", "3 3 3 clear 3", rules=DEEPER)
given("X", "equal", "a3 a5 a5", "2 3 3 clear 2", rules=DEEPER)
given("X", "equal", "a3 a3", "1 3 3 clear 1", rules=DEEPER)
given("X", "any", "a0 a0 a0", "3 0 inf clear 3", rules=DEEPER)
# At least: 0 to 9; inside 1 on: a4: 1 to 4; inside 2 on: a3: 2 to 3; out 0 to 2 met 1 to 4: 1 to 2; out 0 to
# 1.
given("X", "at-least", "a9 a4 a3", "3 0 1 clear 3", rules=DEEPER)
given("X", "at-least", "a9 a4 a1", "2 0 3 clear 2", rules=DEEPER)
# Greater: a9: 0 to 8; inside 1 on: a4: 1 to 3; inside 2 on: a3: 2 to 2; out 1 to 1; out 0 to 0.
given("X", "greater", "a9 a4 a3", "3 0 0 clear 3", rules=DEEPER)
given("X", "greater", "a9 a4 a2", "2 0 2 clear 2", rules=DEEPER)
# A position on the way into the rule holds from there on: a at 2, the others anywhere.
given("X", "equal", "a2 a5 a0", "3 2 2 clear 3", rules="X = a position any X / empty")
given("X", "equal", "a2 a5 a5", "1 2 2 clear 1", rules="X = a X / empty")
# Rules in turn. The second a is gone back on where its b is missing, which was tried behind it.
TURN = "X = a Y / empty; Y = b X"
given("X", "at-least", "a4 b4 a3 b2", "4 0 2 clear 4", rules=TURN)
given("X", "at-least", "a4 b4 a3", "2 0 4 clear 3", rules=TURN)
given("X", "at-least", "a4 b4 a3 c1", "2 0 4 clear 3", rules=TURN)
given("X", "at-least", "a4 c4", "0 0 inf clear 1", rules=TURN)
given("Y", "at-least", "b5 a4 b4 a3", "3 0 4 clear 4", rules=TURN)
given("Y", "at-least", "a4 b4", "failure 0", rules=TURN)
given("X", "equal", "a4 b4 a4 b5", "2 4 4 clear 3", rules=TURN)
# As many b as a. With a b too few the outermost goes back to nothing: its b fails at 3.
PAIRS = "X = a X b / empty"
given("X", "at-least", "a5 a4 b4 b2", "4 0 2 clear 3", rules=PAIRS)
given("X", "at-least", "a5 a4 b4", "0 0 inf clear 3", rules=PAIRS)
given("X", "at-least", "a5 a4 b4 b3 b2", "4 0 3 clear 3", rules=PAIRS)
given("X", "at-least", "b5", "0 0 inf clear 0", rules=PAIRS)
given("!X", "at-least", "b5", "failure 0", rules=PAIRS)
# b stands in the block of its own a: a2 b2 outside, a4 b4 inside. b2 b4: the inner b fails at 2, then the outer at 1.
# b4 b3: the outer fails at 3.
NESTED = "X = a (indent greater X) b / empty"
given("X", "equal", "a2 a4 b4 b2", "4 2 2 clear 3", rules=NESTED)
given("X", "equal", "a2 a4 b2 b4", "0 0 inf clear 2", rules=NESTED)
given("X", "equal", "a2 a4 b4 b3", "0 0 inf clear 3", rules=NESTED)
given("X", "equal", "a2 b2 b2", "2 2 2 clear 1", rules=NESTED)
# An outline: lines at one column, each with lines right of it. a0: 0 to 0; inside 1 on: a2 a2 at 2; inside 3
# on: a4 at 4; out 2 to 2; out 0 to 0; then a0 again. a1 is at no open baseline.
OUTLINE = "X = (align (a indent greater X))*"
given("X", "at-least", "a0 a2 a2 a4 a1", "4 0 0 clear 4", rules=OUTLINE)
given("X", "at-least", "a0 a2 a2 a4 a0", "5 0 0 clear 5", rules=OUTLINE)
given("X", "any", "a0 a2 a2 a4 a2 a6 a0 a1", "8 0 0 clear 8", rules=OUTLINE)
given("X", "at-least", "a3 a5 a4 a3", "2 3 3 clear 2", rules=OUTLINE)
given("indent greater X", "at-least", "a3 a5 a3", "3 0 2 clear 3", rules=OUTLINE)
given("indent greater X", "at-least", "a3 a5 a3", "0 3 6 clear 0", rules=OUTLINE, start="3 6")
# Statements under a head: d0: 0 to 0; inside 1 on: a2 a2 d2 at 2; under that d, inside 3 on: a4 a4; a2 ends
# it, out 2 to 2; a2; out 0 to 0.
BLOCK = "D = d indent greater L; L = (align S) L / empty; S = D / a"
given("D", "at-least", "d0 a2 a2 d2 a4 a4 a2", "7 0 0 clear 7", rules=BLOCK)
given("D", "at-least", "d0 a2 a2 d2 a4 a4 a1", "6 0 0 clear 6", rules=BLOCK)
given("D", "at-least", "d0 a2 a3", "2 0 0 clear 2", rules=BLOCK)
given("D", "at-least", "d0 d1 d2 a3 a2", "5 0 0 clear 5", rules=BLOCK)
given("D", "at-least", "d0 d1 d2 a3 a1", "5 0 0 clear 5", rules=BLOCK)
given("D", "at-least", "d0 a0", "1 0 0 clear 1", rules=BLOCK)
given("D", "at-least", "a0", "failure 0", rules=BLOCK)
# d3: 0 to 3. Inside 1 on: a2 at 2; out 0 to 1.
given("D", "at-least", "d3 a2 a2", "3 0 1 clear 3", rules=BLOCK)
# Left to right over three rules with a mode each: 0 to 5, 0 to 3, then 2 to 2.
given("position at-least X", "any", "a5 b4 c2", "3 2 2 clear 2",
      rules="X = a position greater Y; Y = b position equal Z; Z = c")


# --- Places --------------------------------------------------------------------------------------

# "Success answers the number of tokens read from that place on". Tokens before the place say nothing.
given("b", "at-least", "a2 b3", "1 0 3 clear 1", place=1)
given("a", "at-least", "a2 b3", "failure 1", place=1)
given("a", "at-least", "a2 b3", "failure 2", place=2)
given("empty", "at-least", "a2 b3", "0 0 inf clear 2", place=2)
given("empty", "at-least", "a2 b3", "0 3 6 set 1", place=1, start="3 6", flag="set")
given("a b", "at-least", "a2 b2 a4 b3 c1", "2 0 3 clear 3", place=2)
given("a*", "at-least", "a9 a5 a3 a4 b1", "3 0 3 clear 4", place=1)
given("a*", "at-least", "a9 a5 a3 a4 b1", "0 0 inf clear 4", place=4)
given("a*", "at-least", "a9 a5 a3 a4 b1", "0 0 inf set 5", place=5, flag="set")
given("!a", "at-least", "a9 a5 b3", "0 0 inf clear 2", place=2)
given("!a", "at-least", "a9", "0 0 inf clear 1", place=1)
given("X", "at-least", "a0 a1 a5 a3 a7", "3 0 3 clear 5", rules=LIST, place=2)
given("a b / a c", "at-least", "b0 a5 c4", "2 0 4 clear 2", place=1)
given("indent greater (align (a b))", "at-least", "c0 c0 a2 b3", "2 0 1 clear 3", place=2)
given("a", "greater", "a0 a5", "1 5 5 clear 1", place=1, flag="set")


# --- Start nodes and shared nodes ----------------------------------------------------------------

# "A start gives a node": a, b, a b, a b / a, (a b / a)*, from each. In mode at least a4 b3 a2. Behind the last a the
# repeat tries b, and then a, at 3.
SHARED = [A, B, sequence(0, 1), choice(2, 0), repeat(3)]
for node, answer in enumerate(("1 0 4 clear 0", "failure 0", "2 0 3 clear 1", "2 0 3 clear 1", "3 0 2 clear 3")):
    runs(f"start node {node} of a, b, a b, a b / a, (a b / a)*", answer, SHARED, tokens="a4 b3 a2", node=node)
# One node as both parts.
runs("node 1 is node 0 twice", "2 0 2 clear 1", [A, sequence(0, 0)], tokens="a4 a2", node=1)
runs("node 1 is node 0 twice, once there", "failure 1", [A, sequence(0, 0)], tokens="a4 b2", node=1)
# "a rule may stand for any node": a higher one, and one that the start does not lie below.
runs("rule 0 = a higher node", "1 0 4 clear 0", [rule(0), A], [1], "a4")
runs("rule 1 of 2", "1 0 4 clear 0", [rule(1), B, A], [1, 2], "a4")
# a X / empty with the nodes in another order: 0 empty, 1 rule X, 2 a, 3 a X, 4 a X / empty, 5 b.
runs("X with its nodes in another order", "2 0 3 clear 2", [EMPTY, rule(0), A, sequence(2, 1), choice(3, 0), B], [4],
     "a4 a3 b2", node=1)
# The largest table: node 511 through 510 forms down to a at node 0. An align over 510 aligns is one align;
# 510 indents by equal change nothing; 510 nots are none; 510 positions: the innermost counts. 511 indents by
# greater, mode at least: inside 511 on, and outside 511 less.
DEEP = over([A], indent)
for label, answer, nodes, tokens in (
    ("511 aligns over a", "1 4 4 clear 0", over([A], align), "a4"),
    ("511 indents by equal over a", "1 0 4 clear 0", over([A], lambda n: indent(n, 0)), "a4"),
    ("511 nots over a, at a", "failure 0", over([A], not_), "a4"),
    ("511 nots over a, at b", f"{SAME} 0", over([A], not_), "b4"),
    ("511 positions over a, equal last", "1 4 4 clear 0", over([A], lambda n: position(n, n % 4)), "a4"),
    ("511 indents by greater over a, a510", "failure 0", DEEP, "a510"),
    ("511 indents by greater over a, a511", "1 0 0 clear 0", DEEP, "a511"),
    ("511 indents by greater over a, a515", "1 0 4 clear 0", DEEP, "a515"),
):
    runs(label, answer, nodes, tokens=tokens, node=511)
# 128 rules, each the next one's name, the last a.
runs("128 rules in a row to a", "1 0 4 clear 0", [A] + [rule(n) for n in range(1, 128)], [*range(1, 128), 0], "a4",
     node=1)


# --- Lower ends past 65,535 ----------------------------------------------------------------------

# "Capping the lower end at 65,535 .." From 65535 the inner set under greater is 65536 on. No token lies there,
# so every mode but any fails, and an aligned token too.
for start in ("65535 inf", "65535 65535"):
    for column in (0, 1, 65534, 65535):
        for mode in ("equal", "greater", "at-least"):
            given("indent greater a", mode, f"a{column}", "failure 0", start=start)
        given("indent greater a", "any", f"a{column}", f"1 {start} clear 0", start=start)
        given("indent greater (align a)", "any", f"a{column}", "failure 0", start=start)
        given("indent greater a", "any", f"a{column}", "failure 0", start=start, flag="set")
    for mode in MODES:
        given("indent greater empty", mode, "a65535", f"0 {start} clear 0", start=start,
              name=f"case empty under greater, {start}")
    # Any inside greater brings the inner set back to 0 on.
    given("indent greater (indent any a)", "equal", "a7", f"1 {start} clear 0", start=start)
    given("indent greater (indent any (align a))", "any", "a7", f"1 {start} clear 0", start=start)
    given("indent greater ((position any a) (align b))", "equal", "a0 b65535", "failure 1", start=start)
    given("indent greater ((position any a) b)", "equal", "a0 b0", "failure 1", start=start)
    given("indent greater ((position any a) b)", "at-least", "a0 b65535", "failure 1", start=start)
    given("indent greater ((position any a) (position any b))", "equal", "a0 b65535", f"2 {start} clear 1", start=start)
    given("indent greater ((position any a) (align b)) / (position any a) b", "equal", "a0 b65535",
          "2 65535 65535 clear 1", start=start)
    given("!(indent greater (align a)) a", "equal", "a65535", "1 65535 65535 clear 0", start=start)
    given("indent greater (indent greater (indent greater a*))", "at-least", "a65535", f"0 {start} clear 0",
          start=start)
    given("indent greater (indent greater (indent greater a*))", "any", "a65535 a0", f"2 {start} clear 2", start=start)
# From 65534 one greater leaves room for column 65535, two do not.
given("indent greater a", "equal", "a65535", "1 65534 65534 clear 0", start="65534 inf")
given("indent greater a", "at-least", "a65535", "1 65534 65534 clear 0", start="65534 inf")
given("indent greater a", "greater", "a65535", "failure 0", start="65534 inf")
given("indent greater (align a)", "any", "a65535", "1 65534 65534 clear 0", start="65534 inf")
given("indent greater (indent greater a)", "equal", "a65535", "failure 0", start="65534 inf")
given("align (indent greater (indent greater a))", "any", "a65535", "failure 0", start="65534 inf")
given("indent greater (indent greater a)", "any", "a65535", "1 65534 inf clear 0", start="65534 inf")
# 511 greaters in mode any, then the same over an aligned a.
for column in (0, 510, 65535):
    tokens = [1, column, 0, 0]
    runs(f"511 indents by greater from 65535, mode any, a{column}", "1 65535 inf clear 0", DEEP,
         tokens=tokens, node=511, lower=65535, mode=3)
    runs(f"510 indents by greater over align a from 65535, a{column}", "failure 0", over([A, align(0)], indent),
         tokens=tokens, node=511, lower=65535, mode=3)
    runs(f"511 indents by greater from 65535, mode at-least, a{column}", "failure 0", DEEP,
         tokens=tokens, node=511, lower=65535)
# Through a rule: each a one greater further in. At the end `align b` finds no column. Without b a fails at 100, behind
# the last; with it a and b are tried at 50, and nothing further on.
given("X", "any", "a0 " * 100, "100 65535 inf clear 100", rules=DEEPER, start="65535 inf",
      name="100 a, X = a indent greater X / empty, mode any, from 65535")
given("X", "any", "a65535 " * 100, "100 65535 65535 clear 100", rules=DEEPER, start="65535 65535",
      name="100 a at 65535, X = a indent greater X / empty, mode any, from 65535 to 65535")
given("X", "any", "a0 " * 50 + "b65535", "failure 50", rules="X = a indent greater X / align b", start="65535 inf",
      name="50 a and b, X = a indent greater X / align b, mode any, from 65535")
given("X", "any", "a0 " * 50 + "b65535", "51 65535 inf clear 50", rules="X = a indent greater X / b", start="65535 inf",
      name="50 a and b, X = a indent greater X / b, mode any, from 65535")
# 100 tokens with 50 greaters each; from 0 on b at 4999 is too far left, at 5000 it is the one column left.
# Back through 5000 greaters 5000 to 5000 leaves 0 to 0. b is at place 100.
FAR = "X = a " + "indent greater " * 50 + "X / align b"
for column, answer in ((4999, "failure 100"), (5000, "101 0 0 clear 100"), (5007, "101 0 7 clear 100")):
    given("X", "any", "a0 " * 100 + f"b{column}", answer, rules=FAR,
          name=f"100 a with 50 greaters each, then align b at {column}")
given("X", "any", "a0 " * 100 + "b65535", "failure 100", rules=FAR, start="65535 inf",
      name="100 a with 50 greaters each from 65535, then align b at 65535")


# --- Steps (02, Note 1) --------------------------------------------------------------------------

# "the inner column is the outer one plus 1 to 31": a leaves 5 to 5, and b lies that much right of it, no more
# and no less.
for amount in (1, 2, 31):
    for column, answer in ((4 + amount, "failure 1"), (5 + amount, "2 5 5 clear 1"), (6 + amount, "failure 1")):
        given(f"a indent +{amount} b", "equal", f"a5 b{column}", answer)
# The same as the token's mode, and by a position.
for amount in (1, 2, 31):
    for column, answer in ((4 + amount, "failure 0"), (5 + amount, "1 5 5 clear 0"), (6 + amount, "failure 0")):
        given("a", f"+{amount}", f"a{column}", answer, start="5 5")
        given(f"position +{amount} a", "equal", f"a{column}", answer, start="5 5")
# "On the way in both ends rise": 3 to 4 is 5 to 6 inside; i to i falls to i-2 to i-2. At least: 5 to 6 met with
# 0 to i, and "on the way out both fall".
row("a", "+2", "3 4", "- 3-3 4-4 -", first=4)
row("indent +2 a", "at-least", "3 4", "- 3-3 3-4 3-4", first=4)
# With the flag set the mode is not asked, and a lies in the interval itself; under an indent it is the inner one.
given("a", "+2", "a5", "1 5 5 clear 0", start="5 5", flag="set")
given("a", "+2", "a7", "failure 0", start="5 5", flag="set")
given("indent +2 a", "greater", "a5", "1 3 3 clear 0", start="3 3", flag="set")
given("indent +2 a", "greater", "a6", "failure 0", start="3 3", flag="set")
# No column is 2 right of another but those from 2 on.
given("a", "+2", "a1", "failure 0")
given("a", "+2", "a2", "1 0 0 clear 0")

# "both fall": to 0 and, in a run, from no end below the amount, so none has to stop there. 0 to 5 is 2 to 7 inside.
# Equal leaves 2 to 2, and both ends fall to 0. At least leaves 2 to 4, and only the lower one does.
given("indent +2 a", "equal", "a2", "1 0 0 clear 0", start="0 5")
given("indent +2 a", "at-least", "a4", "1 0 2 clear 0", start="0 5")
# Without end stays so: 4 on is 35 on inside. Any leaves 35 on; equal 35 to 35; at least 35 to 40.
given("indent +31 a", "any", "a0", "1 4 inf clear 0", start="4 inf")
given("indent +31 a", "equal", "a34", "failure 0", start="4 inf")
given("indent +31 a", "equal", "a35", "1 4 4 clear 0", start="4 inf")
given("indent +31 a", "at-least", "a40", "1 4 9 clear 0", start="4 inf")
# A child that reads nothing: the ends rise and fall by the same, and the flag is "as it left it".
given("indent +31 empty", "equal", "a0", "0 0 0 clear 0", start="0 0")
given("indent +31 empty", "equal", "a0", "0 4 inf set 0", start="4 inf", flag="set")

# Amounts add: 4 to 4 is 6 to 6, then 9 to 9. So do an indent's and a mode's. Three times 31 is 93.
for column, answer in ((8, "failure 0"), (9, "1 4 4 clear 0"), (10, "failure 0")):
    given("indent +2 (indent +3 a)", "equal", f"a{column}", answer, start="4 4")
given("indent +2 (position +3 a)", "equal", "a9", "1 4 4 clear 0", start="4 4")
given("indent +31 (indent +31 (indent +31 a))", "equal", "a93", "1 0 0 clear 0")
# With the four: 3 to 3 is 4 on, then 6 on; or 5 to 5, then 6 on. Both read a6 and not a5. Any and a step: 2 on.
for expression in ("indent greater (indent +2 a)", "indent +2 (indent greater a)"):
    given(expression, "equal", "a5", "failure 0", start="3 3")
    given(expression, "equal", "a6", "1 3 3 clear 0", start="3 3")
given("indent any (indent +2 a)", "equal", "a1", "failure 0", start="3 6")
given("indent any (indent +2 a)", "equal", "a2", "1 3 6 clear 0", start="3 6")

# Align outside a step, and inside: from 3 to 3 the first token lies at 5; b by the mode, right of 5. Behind a6, which
# fails, b is not tried.
given("align (indent +2 a)", "greater", "a5", "1 3 3 clear 0", start="3 3")
given("align (indent +2 a)", "greater", "a6", "failure 0", start="3 3")
given("indent +2 (align (a b))", "greater", "a5 b6", "2 3 3 clear 1", start="3 3")
given("indent +2 (align (a b))", "greater", "a5 b5", "failure 1", start="3 3")
given("indent +2 (align (a b))", "greater", "a6 b7", "failure 0", start="3 3")
given("(align (indent +2 empty)) a", "greater", "a5", "1 0 4 clear 0", name="case h with a step")
# Not: inside is 5 to 5, so a3 is not read there, and a5 is. Either way a is tried at 0 only.
given("!(indent +2 a) a", "equal", "a3", "1 3 3 clear 0", start="3 3")
given("!(indent +2 a) a", "equal", "a5", "failure 0", start="3 3")
given("indent +2 !a", "equal", "a3", "0 3 3 clear 0", start="3 3")
# "b from the old state": the first reads a5 and leaves 5 to 5 inside, in mode +2 3 to 3, and fails at c. From 0
# on again: 1 on inside, 5 to 5, outside 4 to 4; then 5 to 5 in mode equal.
given("indent +2 (a b) / indent +1 (a c)", "equal", "a5 c5", "2 4 4 clear 1")
given("position +2 (a b) / a c", "equal", "a5 c5", "2 5 5 clear 1")
# Rounds: 3 to 3 after the first, so that every a lies at 5. Through a rule too.
given("(indent +2 a)*", "equal", "a5 a5 a6", "2 3 3 clear 2")
given("position +2 X*", "equal", "a5 a5 a6", "2 3 3 clear 2", rules="X = a")
# Two columns a level: a0; inside 2 to 2: a2; inside 4 to 4: a4; then a2 and a0 again. A line at 3 or 5 is at no
# level, and the lines behind it are not read, nor tried.
LEVELS = "X = (align (a indent +2 X))*"
given("X", "at-least", "a0 a2 a4 a2 a0", "5 0 0 clear 5", rules=LEVELS)
given("X", "at-least", "a0 a2 a5 a2 a0", "2 0 0 clear 2", rules=LEVELS)
given("X", "at-least", "a0 a3 a2", "1 0 0 clear 1", rules=LEVELS)

# "A finite upper end may now pass 65,535 inside a run." From 65535 to 65535 by 31 inside is 65566 to 65566, where
# no token lies: one in mode any is read, or under any, and the interval comes back as it was.
LAST = "65535 65535"
given("indent +31 empty", "equal", "a65535", f"0 {LAST} clear 0", start=LAST)
given("indent +31 a", "any", "a7", f"1 {LAST} clear 0", start=LAST)
given("indent +31 (indent any a)", "equal", "a7", f"1 {LAST} clear 0", start=LAST)
given("indent +31 !a", "equal", "a65535", f"0 {LAST} clear 0", start=LAST)
given("indent +31 a", "equal", "a65535", "failure 0", start=LAST)
given("indent +31 (align a)", "any", "a65535", "failure 0", start=LAST)
# 65504 to 65535 is 65535 to 65566 inside: only the upper end is past. a at 65535 leaves 65535 to 65535. One
# further right there is no column left.
given("indent +31 a", "equal", "a65535", "1 65504 65504 clear 0", start="65504 65535")
given("indent +31 a", "equal", "a65535", "failure 0", start="65505 65535")
given("a", "+31", "a65535", "1 65504 65504 clear 0", start="65504 65535")
given("a", "+31", "a65535", "failure 0", start="65505 65535")
# 511 times 31 is 15841.
STEEP = over([A], lambda n: indent(n, step(31)))
runs("511 indents by +31 over a, a15840", "failure 0", STEEP, tokens="a15840", node=511)
runs("511 indents by +31 over a, a15845", "1 0 4 clear 0", STEEP, tokens="a15845", node=511)
runs("511 indents by +31 from 65535 to 65535, mode any", f"1 {LAST} clear 0", STEEP, tokens="a7", node=511, mode=3,
     lower=65535, upper=65535)
# 50 steps by 31 a round are 1550: 100 rounds take 3 to 6 to 155003 to 155006 and back. After 42 rounds 0 to 0 is
# 65100 to 65100, where align b finds its column; after 43 it is 66650. b is at the place that is the number of a.
CLIMB = "indent +31 " * 50
given("X", "any", "a0 " * 100, "100 3 6 clear 100", rules=f"X = a {CLIMB} X / empty", start="3 6",
      name="100 a with 50 steps by 31 each, mode any, from 3 to 6")
for count, column, answer in (
    (42, 65099, "failure 42"), (42, 65100, "43 0 0 clear 42"), (42, 65101, "failure 42"), (43, 65535, "failure 43"),
):
    given("X", "any", "a0 " * count + f"b{column}", answer, rules=f"X = a {CLIMB} X / align b", start="0 0",
          name=f"{count} a with 50 steps by 31 each, then align b at {column}")


# --- Long lists ----------------------------------------------------------------------------------

# Columns fall from 200 to 101, or rise from 101 to 200. At least: the least column, 101. Greater: one less.
# Equal: only the first. Any: all, and no narrowing. The last a tried is the first not read, or behind all at 100.
FALLING = " ".join(f"a{200 - i}" for i in range(100))
RISING = " ".join(f"a{101 + i}" for i in range(100))
for expression, rules in (("X", LIST), ("a*", "")):
    for said, mode, tokens, answer, more in (
        ("falling, mode at-least", "at-least", FALLING, "100 0 101 clear 100", {}),
        ("rising, mode at-least", "at-least", RISING, "100 0 101 clear 100", {}),
        ("falling, mode greater", "greater", FALLING, "100 0 100 clear 100", {}),
        ("rising, mode greater", "greater", RISING, "100 0 100 clear 100", {}),
        ("falling, mode equal", "equal", FALLING, "1 200 200 clear 1", {}),
        ("rising, mode equal", "equal", RISING, "1 101 101 clear 1", {}),
        ("falling, mode any", "any", FALLING, "100 0 inf clear 100", {}),
        ("rising, mode any", "any", RISING, "100 0 inf clear 100", {}),
        # From 150 on, falling, at least: 200 to 150 are 51 tokens, and the upper end is 150.
        ("falling, from 150", "at-least", FALLING, "51 150 150 clear 51", {"start": "150 inf"}),
        ("falling, mode greater, from 150", "greater", FALLING, "50 150 150 clear 50", {"start": "150 inf"}),
        ("falling, from 0 to 120", "at-least", FALLING, "100 0 101 clear 100", {"start": "0 120"}),
        ("falling, place 60", "at-least", FALLING, "40 0 101 clear 100", {"place": 60}),
    ):
        given(expression, mode, tokens, answer, rules, name=f"{expression}, 100 a {said}", **more)
# Each a one column further in. Then 100 a and 100 b in pairs, a and b of a pair at one column, and the same with
# the outermost b missing: it is tried at 199, there or not.
STAIRS = [f"a{i}" for i in range(105)]
PYRAMID = STAIRS[:100] + [f"b{99 - i}" for i in range(100)]
for name, tokens, answer, rules, start in (
    ("X = a indent greater X / empty, 100 a at 0 to 99, mode equal", STAIRS[:100], "100 0 0 clear 100", DEEPER,
     "0 inf"),
    ("X = a indent greater X / empty, 100 a at 5 to 104, mode equal", STAIRS[5:], "100 5 5 clear 100", DEEPER, "0 inf"),
    ("X = a indent greater X / empty, 100 a at 0 to 99, mode equal, from 5", STAIRS[:100], "0 5 inf clear 0", DEEPER,
     "5 inf"),
    ("X = a indent greater X / empty, column 59 twice", STAIRS[:60] + STAIRS[59:99], "60 0 0 clear 60", DEEPER,
     "0 inf"),
    ("X = a (indent greater X) b / empty, 100 pairs", PYRAMID, "200 0 0 clear 199", NESTED, "0 inf"),
    ("X = a (indent greater X) b / empty, 100 pairs less the last b", PYRAMID[:199], "0 0 inf clear 199", NESTED,
     "0 inf"),
):
    given("X", "equal", " ".join(tokens), answer, rules, start, name=name)
# 4096 tokens at column 7, the most there may be. a fails behind them at 4096; b is at 4095, and the last round of
# (a a)* tries 4094 and 4095.
MOST = "a7 " * 4096
given("a*", "at-least", MOST, "4096 0 7 clear 4096", name="a*, 4096 a, mode at-least")
given("X", "at-least", MOST, "4096 0 7 clear 4096", rules=LIST, name="X = a X / empty, 4096 a, mode at-least")
given("X", "greater", MOST, "4096 7 7 clear 4096", rules="X = (align a) X / empty",
      name="X = (align a) X / empty, 4096 a, mode greater")
given("X", "any", MOST, "failure 4096", rules="X = a X", name="X = a X, 4096 a, mode any")
given("a*", "at-least", MOST, "1 0 7 clear 4096", place=4095, name="a*, 4096 a, place 4095")
given("a*", "at-least", MOST, "0 0 inf clear 4096", place=4096, name="a*, 4096 a, place 4096")
given("a* a", "at-least", MOST, "failure 4096", name="a* a, 4096 a")
given("(align a)* b", "greater", "a7 " * 4095 + "b8", "4096 7 7 clear 4095",
      name="(align a)* b, 4095 a and b8, mode greater")
given("(align a)* b", "greater", "a7 " * 4095 + "b7", "failure 4095", name="(align a)* b, 4095 a and b7, mode greater")
given("X", "any", MOST, "4096 65535 inf clear 4096", rules=DEEPER, start="65535 inf",
      name="X = a indent greater X / empty, 4096 a from 65535")
given("X", "equal", MOST, "1 7 7 clear 1", rules=DEEPER, name="X = a indent greater X / empty, 4096 a, mode equal")
given("(indent greater a)*", "equal", MOST, "4096 0 6 clear 4096", name="(indent greater a)*, 4096 a, mode equal")
given("(a a)*", "greater", "a7 " * 4095, "4094 0 6 clear 4095", name="(a a)*, 4095 a, mode greater")


# --- Lists of captures (02, Note 2) --------------------------------------------------------------

# "A run may also list its captures: every rule that succeeded on the way to the final success". Mode any leaves the
# interval alone. `a` is not the rule's node, and no rule is on the way.
lists("X", "any", "a0", "1 0 inf clear 0", "X 0 1 0", rules="X = a")
lists("Y", "any", "a0", "1 0 inf clear 0", "Y 0 1 0", rules="X = b; Y = a")
lists("a", "any", "a0", "1 0 inf clear 0", "", rules="X = a")
lists("empty", "any", "a0", "0 0 inf clear 0", "", rules="X = a")
# A start at the rule, and at the node that it stands for: there the rule is not on the way, but one below it is.
BELOW = [A, rule(1), rule(0)]
listed("a start at a rule", "1 0 2 clear 0", [(0, 0, 1, 0)], nodes=[A, rule(0)], rules=[0], tokens="a2", node=1)
listed("a start at the rule's node", "1 0 2 clear 0", [], nodes=[A, rule(0)], rules=[0], tokens="a2", node=0)
for node, captures in ((2, [(0, 0, 1, 0), (1, 0, 1, 1)]), (1, [(1, 0, 1, 0)]), (0, [])):
    listed(f"start node {node} of a, Y = a, X = Y", "1 0 2 clear 0", captures, nodes=BELOW, rules=[1, 0], tokens="a2",
           node=node)

# "an outer one stands before those inside it, and otherwise they stand in the order in which they were read"; "the
# number of captures around it". The order of the rules says nothing.
lists("X Y", "any", "a0 b0", "2 0 inf clear 1", "X 0 1 0, Y 1 2 0", rules="X = a; Y = b")
lists("Y X", "any", "b0 a0", "2 0 inf clear 1", "Y 0 1 0, X 1 2 0", rules="X = a; Y = b")
lists("X", "any", "a0", "1 0 inf clear 0", "X 0 1 0, Y 0 1 1", rules="X = Y; Y = a")
lists("Y", "any", "a0", "1 0 inf clear 0", "Y 0 1 0, X 0 1 1", rules="X = a; Y = X")
lists("X", "any", "a0", "1 0 inf clear 0", "X 0 1 0, Y 0 1 1, Z 0 1 2", rules="X = Y; Y = Z; Z = a")
lists("X", "any", "a0 b0 c0", "3 0 inf clear 2", "X 0 3 0, Y 1 2 1, Z 2 3 1", rules="X = a Y Z; Y = b; Z = c")
lists("X", "any", "a0 b0 b0", "3 0 inf clear 2", "X 0 3 0, Y 0 2 1, Z 1 2 2, Z 2 3 1", rules="X = Y Z; Y = a Z; Z = b")
lists("X Z", "any", "b0 a0 b0 b0", "4 0 inf clear 3", "X 0 3 0, Z 0 1 1, Y 1 3 1, Z 2 3 2, Z 3 4 0",
      rules="X = Z Y; Y = a Z; Z = b")
lists("(X X) X", "any", "a0 a0 a0", "3 0 inf clear 2", "X 0 1 0, X 1 2 0, X 2 3 0", rules="X = a")
lists("X (X X)", "any", "a0 a0 a0", "3 0 inf clear 2", "X 0 1 0, X 1 2 0, X 2 3 0", rules="X = a")
lists("a X b Y c", "any", "a0 a0 b0 b0 c0", "5 0 inf clear 4", "X 1 2 0, Y 3 4 0", rules="X = a; Y = b")
# One rule twice at one place: the first time in vain, where b fails at 1; reading nothing; reading nothing the first
# time, where a is not right of 3.
lists("X", "any", "a0", "1 0 inf clear 1", "X 0 1 0, Y 0 1 1, Z 0 1 2, Z 1 1 1",
      rules="X = Y Z; Y = Z b / Z; Z = a / empty")
lists("X", "any", "a0", "0 0 inf clear 0", "X 0 0 0, Y 0 0 1, Y 0 0 1", rules="X = Y Y; Y = empty")
lists("(indent greater X) X", "equal", "a3", "1 3 3 clear 0", "X 0 0 0, X 0 1 0", rules="X = a / empty", start="3 3")

# "first token, token after the last": both are places in the token list, also from a start inside it, and equal where
# nothing was read.
lists("X", "any", "a0 a0 a0", "1 0 inf clear 2", "X 2 3 0", rules="X = a", place=2)
lists("a X", "any", "b0 a0 a0 b0", "2 0 inf clear 2", "X 2 3 0", rules="X = a", place=1)
lists("X", "any", "c0 c0 a0 b0", "2 0 inf clear 3", "X 2 4 0, Y 3 4 1", rules="X = a Y; Y = b", place=2)
lists("X*", "any", "a0 a0 a0 a0", "3 0 inf clear 4", "X 1 2 0, X 2 3 0, X 3 4 0", rules="X = a", place=1)
lists("X", "any", "a0 a0", "0 0 inf clear 2", "X 2 2 0", rules="X = empty", place=2)
lists("X / Y", "any", "a0 b0", "1 0 inf clear 1", "Y 1 2 0", rules="X = a; Y = b", place=1)
lists("X", "any", "a0 a0", "failure 2", "", rules="X = a", place=2)
# A capture may be 0 0 0 0, as the words behind the list are: the count tells them apart.
lists("X", "any", "", "0 0 inf clear 0", "X 0 0 0", rules="X = empty")
lists("X", "any", "a0", "0 0 inf clear 0", "X 0 0 0", rules="X = empty")
lists("X X X", "any", "a0", "0 0 inf clear 0", "X 0 0 0, X 0 0 0, X 0 0 0", rules="X = empty")
lists("a X X b Y", "any", "a0 b0", "2 0 inf clear 1", "X 1 1 0, X 1 1 0, Y 2 2 0", rules="X = empty; Y = empty")
lists("X", "any", "a0", "1 0 inf clear 0", "X 0 1 0, Y 0 0 1, Y 1 1 1", rules="X = Y a Y; Y = empty")
lists("X X X", "any", "a0", "1 0 inf clear 1", "X 0 1 0, X 1 1 0, X 1 1 0", rules="X = a / empty")
lists("X", "any", "a0", "0 0 inf clear 0", "X 0 0 0, Y 0 0 1, Z 0 0 2", rules="X = Y; Y = Z; Z = b*")

# "13, fewer capture places than the list needs": a place has four words, so three lists of 3, 1 and 0 captures need 12,
# 4 and 0. Lent more, "the slice's words past the list are 0".
lists("X", "any", "a0 b0 c0", "3 0 inf clear 2", "X 0 3 0, Y 1 2 1, Z 2 3 1", rules="X = a Y Z; Y = b; Z = c",
      lents=(0, 1, 2, 3, 4, 5, 7, 8, 9, 10, 13, 14, 15, 16, 17, 100, 16500))
lists("X", "any", "a0", "1 0 inf clear 0", "X 0 1 0", rules="X = a", lents=(0, 1, 2, 5, 6, 7, 8, 9, 11, 12, 16500))
lists("a", "any", "a0", "1 0 inf clear 0", "", rules="X = a", lents=(1, 2, 3, 4, 5, 7, 8, 16500))
# "a failure lists none", and so needs no place; all words are past the list. Captures that are read before it are not
# on the way to a success.
lists("X", "any", "b0", "failure 0", "", rules="X = a", lents=(0, 1, 2, 3, 4, 5, 6, 7, 8, 100, 16500))
lists("X Y c", "any", "a0 b0", "failure 2", "", rules="X = a; Y = b",
      lents=(0, 1, 2, 3, 4, 5, 6, 7, 8, 9, 11, 12, 16500))
lists("X", "any", "a0 a0 b0", "failure 2", "", rules="X = Y Y Y; Y = a", lents=(0, 1, 3, 4, 5, 11, 12, 13, 16))
lists("X* c", "any", "a0 a0 a0", "failure 3", "", rules="X = a", lents=(0, 3, 4, 12, 20))
lists("!X", "any", "a0", "failure 0", "", rules="X = a", lents=(0, 3, 4, 9))

# "outside .. any failed alternative": what it read is gone, and takes no place: just enough for the final list is
# enough, where the abandoned one was longer, as long or shorter. (Note 7: what it tried counts.)
lists("X Y c / Z", "any", "a0 b0", "2 0 inf clear 2", "Z 0 2 0", rules="X = a; Y = b; Z = a b")
lists("X X X X b / Z", "any", "a0 a0 a0 a0", "4 0 inf clear 4", "Z 0 4 0", rules="X = a; Z = a a a a")
lists("X b / Y c", "any", "a0 c0", "2 0 inf clear 1", "Y 0 1 0", rules="X = a; Y = a")
lists("X c / Y Z", "any", "a0 b0", "2 0 inf clear 1", "Y 0 1 0, Z 1 2 0", rules="X = a; Y = a; Z = b")
lists("X Y c / a b", "any", "a0 b0", "2 0 inf clear 2", "", rules="X = a; Y = b")
lists("X Y c / empty", "any", "a0 b0", "0 0 inf clear 2", "", rules="X = a; Y = b")
lists("X / Y", "any", "a0 a0", "2 0 inf clear 2", "Y 0 2 0, Z 1 2 1", rules="X = Z Z c; Y = a Z; Z = a")
lists("X b / X c / X d", "any", "a0 d0", "2 0 inf clear 1", "X 0 1 0", rules="X = a")
lists("(X b / X c) / X X", "any", "a0 a0", "2 0 inf clear 1", "X 0 1 0, X 1 2 0", rules="X = a")
# Inside a rule, the count around is that of what is left.
lists("X", "any", "a0 c0", "2 0 inf clear 1", "X 0 2 0, Y 0 1 1, Z 0 1 2", rules="X = Y b / Y c; Y = Z; Z = a")
lists("X Z", "any", "a0 c0 c0", "3 0 inf clear 2", "X 0 2 0, Y 0 1 1, Z 1 2 1, Z 2 3 0",
      rules="X = Y Y b / Y Z; Y = a; Z = c")
lists("X", "any", "a0 a0 a0", "3 0 inf clear 2", "X 0 3 0, Y 0 1 1, Y 1 2 1, Y 2 3 1",
      rules="X = Y X' / Y Y Y; Y = a; X' = Y b")
# The first alternative's captures are on the way where it succeeds, the second's are not looked for.
lists("X / Y", "any", "a0", "1 0 inf clear 0", "X 0 1 0", rules="X = a; Y = a")
lists("empty / X", "any", "a0", "0 0 inf clear 0", "", rules="X = a")
lists("X / empty", "any", "b0", "0 0 inf clear 0", "", rules="X = a")
# Captures before the choice stay, and those behind it follow. c fails at 2, and at 3.
lists("X (Y c / Z) W", "any", "a0 b0 d0", "3 0 inf clear 2", "X 0 1 0, Z 1 2 0, W 2 3 0",
      rules="X = a; Y = b; Z = b; W = d")
lists("X (Y Y c / empty) Y", "any", "a0 b0 b0", "2 0 inf clear 3", "X 0 1 0, Y 1 2 0", rules="X = a; Y = b")
# A sequence that fails behind a rule that succeeded as a whole, with captures of its own.
lists("X b / a*", "any", "a0 a0 a0", "3 0 inf clear 3", "", rules="X = Y Y Y; Y = a")
lists("X b / Y*", "any", "a0 a0 a0", "3 0 inf clear 3", "Y 0 1 0, Y 1 2 0, Y 2 3 0", rules="X = Y Y Y; Y = a")

# "outside any not": inside a not, two nots and a not in a rule, whatever succeeded there. It needs no place, and does
# not count as around. (Note 7: what it tried counts, so `X b` at a0 comes to 1, and `Z Z` to 2.)
lists("!X b", "any", "b0", "1 0 inf clear 0", "", rules="X = a")
lists("!(X b) a", "any", "a0", "1 0 inf clear 1", "", rules="X = a")
lists("!(X b) X", "any", "a0", "1 0 inf clear 1", "X 0 1 0", rules="X = a")
lists("!!X", "any", "a0", "0 0 inf clear 0", "", rules="X = a")
lists("!!X X", "any", "a0", "1 0 inf clear 0", "X 0 1 0", rules="X = a")
lists("!!!(X b) X", "any", "a0", "1 0 inf clear 1", "X 0 1 0", rules="X = a")
lists("X !!Y Y", "any", "a0 b0", "2 0 inf clear 1", "X 0 1 0, Y 1 2 0", rules="X = a; Y = b")
lists("X", "any", "a0", "1 0 inf clear 0", "X 0 1 0, Z 0 1 1", rules="X = !!Y Z; Y = Z; Z = a")
lists("X", "any", "a0", "0 0 inf clear 0", "X 0 0 0", rules="X = !!Y; Y = Z; Z = a")
lists("X", "any", "a0 b0", "1 0 inf clear 2", "X 0 1 0, Y 0 1 1", rules="X = Y !(Z Z); Y = a; Z = b")
lists("!!(X Y X) a", "any", "a0 b0 a0", "1 0 inf clear 2", "", rules="X = a; Y = b")
lists("!(X / Y) Z / Y", "any", "b0", "1 0 inf clear 0", "Y 0 1 0", rules="X = a; Y = b; Z = b")
lists("(!X Y)*", "any", "b0 b0 a0", "2 0 inf clear 2", "Y 0 1 0, Y 1 2 0", rules="X = a; Y = a / b")

# "outside .. a repeat's last, failed round": each round that succeeded has its captures, and the last has none, however
# far it came. (Note 7: that counts for the farthest place.)
lists("X*", "any", "b0", "0 0 inf clear 0", "", rules="X = a")
lists("X*", "any", "a0 a0 a0 b0", "3 0 inf clear 3", "X 0 1 0, X 1 2 0, X 2 3 0", rules="X = a")
lists("(X b)*", "any", "a0", "0 0 inf clear 1", "", rules="X = a")
lists("(X Y)*", "any", "a0 b0 a0", "2 0 inf clear 3", "X 0 1 0, Y 1 2 0", rules="X = a; Y = b")
lists("(X Y)* X", "any", "a0 b0 a0", "3 0 inf clear 3", "X 0 1 0, Y 1 2 0, X 2 3 0", rules="X = a; Y = b")
lists("(X Y)* Z", "any", "a0 b0 a0 c0", "4 0 inf clear 3", "X 0 1 0, Y 1 2 0, Z 2 4 0", rules="X = a; Y = b; Z = a c")
lists("(X X X)*", "any", "a0 " * 5, "3 0 inf clear 5", "X 0 1 0, X 1 2 0, X 2 3 0", rules="X = a")
lists("(X X X X)*", "any", "a0 a0 a0", "0 0 inf clear 3", "", rules="X = a")
lists("X", "any", "a0 a0 b0", "2 0 inf clear 2", "X 0 2 0, Y 0 1 1, Y 1 2 1", rules="X = Y*; Y = a")
lists("X", "any", "b0", "0 0 inf clear 0", "X 0 0 0", rules="X = Y*; Y = a")
lists("X", "any", "a0 b0 b0 a0 b0", "5 0 inf clear 5", "X 0 5 0, Y 0 3 1, Z 1 2 2, Z 2 3 2, Y 3 5 1, Z 4 5 2",
      rules="X = Y*; Y = a Z*; Z = b")
lists("(X Y / X Z)*", "any", "a0 b0 a0 c0 a0 d0", "4 0 inf clear 5", "X 0 1 0, Y 1 2 0, X 2 3 0, Z 3 4 0",
      rules="X = a; Y = b; Z = c")
lists("X* b / Y*", "any", "a0 a0", "2 0 inf clear 2", "Y 0 1 0, Y 1 2 0", rules="X = a; Y = a")
lists("((X Y)* c)* X", "any", "a0 b0 c0 a0 b0 a0", "4 0 inf clear 6", "X 0 1 0, Y 1 2 0, X 3 4 0", rules="X = a; Y = b")

# Under indent, align and position: the columns decide which alternative and how many rounds there are.
lists("indent greater X", "equal", "a5", "1 0 4 clear 0", "X 0 1 0", rules="X = a")
lists("align X", "greater", "a5", "1 5 5 clear 0", "X 0 1 0", rules="X = a")
lists("position any X", "equal", "a0", "1 3 6 clear 0", "X 0 1 0", rules="X = a", start="3 6")
lists("X", "greater", "a5", "1 5 5 clear 0", "X 0 1 0", rules="X = a", flag="set")
lists("X", "greater", "a2", "0 3 6 set 0", "X 0 0 0", rules="X = a / empty", start="3 6", flag="set")
lists("indent greater X", "equal", "a0", "failure 0", "", rules="X = a", lents=(0, 4, 5))
lists("indent greater X / Y", "equal", "a3", "1 3 3 clear 0", "Y 0 1 0", rules="X = a; Y = a", start="3 6")
lists("align X / Y", "greater", "a9", "1 3 6 clear 0", "Y 0 1 0", rules="X = a; Y = a", start="3 6")
lists("(indent greater (X X)) / Y", "equal", "a3 a4", "1 3 3 clear 1", "Y 0 1 0", rules="X = a; Y = a")
lists("position greater (X Y)", "equal", "a5 b3", "2 0 2 clear 1", "X 0 1 0, Y 1 2 0", rules="X = a; Y = b")
lists("X*", "equal", "a2 a2 a3", "2 2 2 clear 2", "X 0 1 0, X 1 2 0", rules="X = a")
lists("(align X)*", "greater", "a2 a2 a3", "2 2 2 clear 2", "X 0 1 0, X 1 2 0", rules="X = a")
# The third a, at 5, is not right of 5: X reads nothing there.
lists("X", "equal", "a0 a1 a2", "3 0 0 clear 3", "X 0 3 0, X 1 3 1, X 2 3 2, X 3 3 3", rules=DEEPER)
lists("X", "equal", "a3 a5 a5", "2 3 3 clear 2", "X 0 2 0, X 1 2 1, X 2 2 2", rules=DEEPER)
# d0; inside, aligned at 2, a2 and no second statement, since a3 is not at 2.
lists("D", "at-least", "d0 a2 a3", "2 0 0 clear 2", "D 0 2 0, L 1 2 1, S 1 2 2, L 2 2 2", rules=BLOCK)
# a0; under it a2 with nothing under it, and a2 with a4; a1 is at no open baseline.
lists("X", "at-least", "a0 a2 a2 a4 a1", "4 0 0 clear 4", "X 0 4 0, X 1 4 1, X 2 2 2, X 3 4 2, X 4 4 3", rules=OUTLINE)
# 02, Note 1: two columns a level. a0; under it a2 with a4 under it, and a2 with nothing; then a0 with nothing. A stray
# a5 ends it. At a5 alone b fails at 1.
lists("X", "at-least", "a0 a2 a4 a2 a0", "5 0 0 clear 5",
      "X 0 5 0, X 1 4 1, X 2 3 2, X 3 3 3, X 4 4 2, X 5 5 1", rules=LEVELS)
lists("X", "at-least", "a0 a2 a5 a2 a0", "2 0 0 clear 2", "X 0 2 0, X 1 2 1, X 2 2 2", rules=LEVELS)
lists("indent +2 X / Y", "equal", "a5", "1 5 5 clear 1", "Y 0 1 0", rules="X = a b; Y = a")

# "the number of captures around it" in deep lists: X at place k has those at 0 to k - 1 around it, and ends where they
# do. In pairs the last b tried is at 5, there or not.
lists("X", "any", "a0 " * 5, "5 0 inf clear 5", "X 0 5 0, X 1 5 1, X 2 5 2, X 3 5 3, X 4 5 4, X 5 5 5", rules=LIST)
lists("X", "any", "a0 a0 a0 b0 b0 b0 b0", "6 0 inf clear 5", "X 0 6 0, X 1 5 1, X 2 4 2, X 3 3 3", rules=PAIRS)
lists("X", "any", "a0 a0 a0 b0 b0", "0 0 inf clear 5", "X 0 0 0", rules=PAIRS)
for count in (100, 300):
    lists("X", "any", "a0 " * count, f"{count} 0 inf clear {count}",
          ", ".join(f"X {k} {count} {k}" for k in range(count + 1)), rules=LIST, name=f"X = a X / empty, {count} a")
    lists("X*", "any", "a0 " * count, f"{count} 0 inf clear {count}",
          ", ".join(f"X {k} {k + 1} 0" for k in range(count)), rules="X = a", name=f"X* where X = a, {count} a")
lists("X", "any", "a0 " * 300, "120 0 inf clear 300", ", ".join(f"X {180 + k} 300 {k}" for k in range(121)), rules=LIST,
      place=180, name="X = a X / empty, 300 a, place 180")
# The most tokens: 4097 captures would need 16388 words. Without the last alternative all of them fail.
lists("X", "any", MOST, "4096 0 inf clear 4096", ", ".join(f"X {k} 4096 {k}" for k in range(4097)), rules=LIST,
      lents=(0, 4, 16384, 16387), name="X = a X / empty, 4096 a")
lists("X", "any", MOST, "failure 4096", "", rules="X = a X", lents=(0, 16387, 16388, 16500), name="X = a X, 4096 a")
lists("X*", "any", MOST, "1 0 inf clear 4096", "X 4095 4096 0", rules="X = a", place=4095,
      name="X* where X = a, 4096 a, place 4095")
# 128 rules, each the next one's name, from the second on: rule k has rules 1 to k - 1 around it.
listed("128 rules in a row to a, from the second", "1 0 4 clear 0", [(k, 0, 1, k - 1) for k in range(1, 128)],
       nodes=[A] + [rule(n) for n in range(1, 128)], rules=[*range(1, 128), 0], tokens="a4", node=1)


def doubled(count):
    """A call over a table where rule 0 is empty and each of so many others is twice the one before it, and the number
    of the node that is the last rule. Three nodes further on it is in a failed alternative, five in two nots."""
    nodes = [EMPTY]
    for number in range(count):
        nodes += [rule(number), sequence(len(nodes), len(nodes))]
    last = len(nodes)
    nodes += [rule(count), not_(0), sequence(last, last + 1), choice(last + 2, 0), not_(last), not_(last + 4)]
    return {"nodes": nodes, "rules": list(range(0, last, 2)), "tokens": "a0"}, last


def twice(number, around=0):
    """The captures of such a rule: its own, then twice those of the one before it."""
    inside = twice(number - 1, around + 1) * 2 if number else []
    return [(number, 0, 0, around), *inside]


# Rule k has 2^(k+1) - 1 captures, with nothing read and nothing tried. In a failed alternative and in two nots they
# need no place.
for count in (1, 3, 5):
    call, last = doubled(count)
    listed(f"{count} doubled rules", f"{SAME} 0", twice(count), node=last, **call)
for count, lents in ((10, (0, 4, 8187)), (20, (16500,))):
    call, last = doubled(count)
    for lent in lents:
        unlisted(f"{count} doubled rules, {lent} words", "refused 13", lent, node=last, **call)
call, last = doubled(14)
listed("14 doubled rules in a failed alternative", f"{SAME} 0", [], (0, 4, 16500), node=last + 3, **call)
listed("14 doubled rules in two nots", f"{SAME} 0", [], (0, 4, 16500), node=last + 5, **call)

# "New numbers: 13, .. after 12", and "Nothing is written": every choice of faults from seven, one of each number. With
# none, rule 0 reads a5: one capture, which takes four words; 13 is to lend three. In the late ones it is a; in the
# early ones a*, whose last round fails at the second token, at 1.


def ordered_list(said, chosen, ill, table, tokens, answer="1 0 5 clear 0", **start):
    label, lent = faults.label(said, chosen), 3 if 13 in chosen else 4
    call = {"nodes": table[0], "rules": table[1], "tokens": tokens, **start}
    if chosen:
        unlisted(label, f"refused 7 {ill}" if chosen[0] == 7 else f"refused {chosen[0]}", lent, **call)
    else:
        listed(label, answer, [(0, 0, 1, 0)], (lent,), **call)


for chosen in faults.choices(3, 4, 5, 7, 11, 12, 13):
    tokens = token_words("a5") + ([1, 1, 1] if 11 in chosen else [])
    ordered_list("late", chosen, 0, faults.late_table(chosen, rule(0)), tokens, node=2, mode=35 if 12 in chosen else 2)
for chosen in faults.choices(3, 4, 5, 7, 11, 12, 13):
    tokens = [1, 5, 0, 0, 256 if 11 in chosen else 2, 0, 0, 0]
    ordered_list("early", chosen, 2, faults.early_table(chosen, 1, rule(0)), tokens, "1 0 5 clear 1",
                 node=4 if 12 in chosen else 3)
# The small inputs of 3, 4, 5, 7, 11 and 12, lent no word, some, and many.
for lent in (0, 1, 4, 7, 16500):
    for number, said, call in (
        (3, "no node", {"nodes": [], "rules": []}),
        (4, "node 0 a repeat of 0", {"nodes": [repeat(0)], "rules": []}),
        (5, "rule 0 = node 1 of 1", {"nodes": [EMPTY], "rules": [1]}),
        ("7 0", "rule 0 = node 0 = rule 0", {"nodes": [rule(0)], "rules": [0]}),
        (11, "3 token words", {"nodes": [EMPTY], "rules": [], "tokens": [0] * 3}),
        (12, "interval 5 to 4", {"nodes": [EMPTY], "rules": [], "lower": 5, "upper": 4}),
    ):
        unlisted(f"{said}, {lent} words", f"refused {number}", lent, **{"tokens": (), **call})


# --- The reading of 2014 (02, Note 5) ------------------------------------------------------------

# "Align of empty, then a under greater, mode equal, a at column 0, succeeds with 0 to 0 under 2014 and fails under 2017."
both("(align empty) indent greater a", "a0", "failure 0", "1 0 0 clear 0", name="case of Note 5")

# "an align hands on the flag as its child left it" (001, section 2.4 (2): "the alignment flag is never changed at the
# end of parsing of an expression of the form |p|"). At the end of the run; a flag set before stays by both.
STILL = (
    "align empty", "align b*", "align !b", "align (b / empty)", "align (indent greater empty)", "align (align empty)",
    "align (empty empty)",
)
for still in STILL:
    both(still, "a3", "0 3 6 clear 0", "0 3 6 set 0", start="3 6")
    # Then an indent: by 2017 inside is 4 on, and a3 is not there; by 2014 "under a set flag an indent passes the
    # interval through unchanged both ways", and a3 lies in 3 to 6.
    both(f"({still}) indent greater a", "a3", "failure 0", "1 3 3 clear 0", start="3 6")
alike("align empty", "a3", "0 3 6 set 0", start="3 6", flag="set")
# By 2017 a5 leaves 5 to 5 inside and 3 to 4 outside; by 2014 5 to 5. a7 is right of 3 to 6.
both("(align empty) indent greater a", "a5", "1 3 4 clear 0", "1 5 5 clear 0", start="3 6")
both("(align empty) indent greater a", "a7", "1 3 6 clear 0", "failure 0", start="3 6")
# Then a token: in mode equal a terminal asks the same with the flag and without it. It clears the flag, so that the
# indent behind it counts: 5 on.
alike("(align empty) a", "a5", "1 5 5 clear 0", start="3 6")
alike("(align empty) a", "a7", "failure 0", start="3 6")
alike("(align empty) a indent greater b", "a4 b5", "2 4 4 clear 1", start="3 6")
alike("(align empty) a indent greater b", "a4 b4", "failure 1", start="3 6")
# After an align that read something the flag is clear by both.
alike("(align a) indent greater b", "a4 b5", "2 4 4 clear 1", start="3 6")
alike("(align a) indent greater b", "a4 b4", "failure 1", start="3 6")
alike("(align a) indent greater b", "a4 b5", "2 4 4 clear 1", start="3 6", flag="set")
# "as its child left it": a clears the flag and an align of empty behind it sets it again, through an outer align too.
both("a align empty", "a4", "1 4 4 clear 0", "1 4 4 set 0", start="3 6", flag="set")
both("align (a align empty)", "a4", "1 4 4 clear 0", "1 4 4 set 0", start="3 6")
both("(align (a align empty)) indent greater b", "a4 b4", "failure 1", "2 4 4 clear 1", start="3 6")
both("(align (a align empty)) indent greater b", "a4 b5", "2 4 4 clear 1", "failure 1", start="3 6")

# Rounds. The flag is set anew in each. By 2014 a3 leaves 3 to 3 and is read again; a5 leaves 5 to 5, where a4 is not.
# By 2017 a5 leaves 3 to 4 outside, again, and a4 3 to 3. The last round fails right behind what was read.
AGAIN = "((align empty) indent greater a)*"
both(AGAIN, "a3 a3", "0 3 6 clear 0", "2 3 3 clear 2", start="3 6")
both(AGAIN, "a5 a5 a4", "3 3 3 clear 3", "2 5 5 clear 2", start="3 6")
# From round to round: by both the first leaves 3 to 3 outside. By 2014 the flag is then set, and the next a must lie at
# 3; by 2017 right of 3.
ONWARD = "((indent greater a) align empty)*"
both(ONWARD, "a4 a4 a5", "3 3 3 clear 3", "1 3 3 set 1", start="3 6")
both(ONWARD, "a4 a3 a3", "1 3 3 clear 1", "3 3 3 set 3", start="3 6")
# "Not and failure hand the old state on": the flag of a failed round, of a failed alternative and of a not is gone.
for gone in ("((align empty) b)*", "((align empty) b / empty)", "!!(align empty)", "!(align b)", "!((align empty) b)"):
    alike(f"{gone} indent greater a", "a3", "failure 0", start="3 6")
alike("((align empty) b)* indent greater a", "a4", "1 3 3 clear 0", start="3 6")
alike("(align empty) b / indent greater a", "a4", "1 3 3 clear 0", start="3 6")
# It stays through a repeat without a round, a not, a rule and a second align, and holds in both alternatives.
for kept in ("b*", "!b", "X", "(align empty)", "(indent greater empty)"):
    both(f"(align empty) {kept} indent greater a", "a3", "failure 0", "1 3 3 clear 0", rules="X = empty", start="3 6")
both("(align empty / b) indent greater a", "a3", "failure 0", "1 3 3 clear 0", start="3 6")
both("(align empty) (indent greater b / indent greater a)", "a3", "failure 0", "1 3 3 clear 0", start="3 6")
# "Not succeeds exactly if its child fails": at a3 the indent's child fails by 2017 only, at a7 by 2014 only.
both("(align empty) !(indent greater a) a", "a3", "1 3 3 clear 0", "failure 0", start="3 6")
both("!((align empty) indent greater a)", "a3", "0 3 6 clear 0", "failure 0", start="3 6")
both("!((align empty) indent greater a)", "a7", "failure 0", "0 3 6 clear 0", start="3 6")
# "A rule is its node."
both("X", "a3", "0 3 6 clear 0", "0 3 6 set 0", rules="X = align empty", start="3 6")
both("X Y", "a3", "failure 0", "1 3 3 clear 0", rules="X = align empty; Y = indent greater a", start="3 6")
both("(align X) Y", "a3", "failure 0", "1 3 3 clear 0", rules="X = empty; Y = indent greater a", start="3 6")
AGAIN_RULE = "X = (align empty) (indent greater a) X / empty"
both("X", "a3 a3", "0 3 6 clear 0", "2 3 3 clear 2", rules=AGAIN_RULE, start="3 6")

# "under a set flag an indent passes the interval through unchanged both ways": whatever the relation, a must lie in 3 to
# 4 and leaves its column. (By 2017 the rows stand under "Indent".)
for relation in (*MODES, "+1", "+31"):
    row(f"indent {relation} a", "equal", "3 4", "- 3-3 4-4 -", flag="set", first=2, by="2014")
both("align (indent any a)", "a2", "1 5 5 clear 0", "failure 0", start="5 5")
both("align (indent at-least a)", "a6", "1 5 5 clear 0", "failure 0", start="5 5")
# Steps: by 2017 a lies so many columns right of 3, by 2014 at 3.
for amount in (1, 2, 31):
    both(f"indent +{amount} a", "a3", "failure 0", "1 3 3 clear 0", start="3 3", flag="set")
    both(f"indent +{amount} a", f"a{3 + amount}", "1 3 3 clear 0", "failure 0", start="3 3", flag="set")
# Nested: none of them counts. By 2017 greater twice is 5 on inside: a5 leaves 4 to 4, then 3 to 3; a7 4 to 6, then 3 to
# 5. At least and then +2: a6 leaves 4 to 4, then 3 to 4. Any and then greater: 1 on, and a1 leaves 3 to 6.
both("indent greater (indent greater a)", "a3", "failure 0", "1 3 3 clear 0", start="3 6", flag="set")
both("indent greater (indent greater a)", "a5", "1 3 3 clear 0", "1 5 5 clear 0", start="3 6", flag="set")
both("indent greater (indent greater a)", "a7", "1 3 5 clear 0", "failure 0", start="3 6", flag="set")
both("indent at-least (indent +2 a)", "a6", "1 3 4 clear 0", "1 6 6 clear 0", start="3 6", flag="set")
both("indent any (indent greater a)", "a1", "1 3 6 clear 0", "failure 0", start="3 6", flag="set")
# A child that reads nothing: by 2014 it is asked in 3 to 6, by 2017 in 4 on. The flag is "as it left it". A repeat
# that reads a3 tries a again at 1.
alike("indent greater empty", "a3", "0 3 6 set 0", start="3 6", flag="set")
both("indent greater !a", "a3", "0 3 6 set 0", "failure 0", start="3 6", flag="set")
both("indent greater !a", "a7", "failure 0", "0 3 6 set 0", start="3 6", flag="set")
both("indent greater a*", "a3", "0 3 6 set 0", "1 3 3 clear 1", start="3 6", flag="set")
both("indent greater (a / empty)", "a7", "1 3 6 clear 0", "0 3 6 set 0", start="3 6", flag="set")

# "Distributivity of indentation and alignment fails in the semantics of [3]" (001, section 2.4 (3)). Case i of 01, and
# its indent outside: there the flag is clear on the way in, inside is 2 on, and outside 1 to 1.
both("align (indent greater a)", "a4", "1 1 1 clear 0", "failure 0", start="1 1", name="case i")
both("align (indent greater a)", "a1", "failure 0", "1 1 1 clear 0", start="1 1")
alike("indent greater (align a)", "a4", "1 1 1 clear 0", start="1 1")
alike("indent greater (align a)", "a1", "failure 0", start="1 1")
# The outer indent counts, 1 on, and by 2014 the inner one does not: a5 leaves 0 to 4, by 2017 1 to 4 and then 0 to 3.
both("indent greater (align (indent greater a))", "a5", "1 0 3 clear 0", "1 0 4 clear 0")
both("indent greater (align (indent greater a))", "a1", "failure 0", "1 0 0 clear 0")
both("align (indent greater (align (indent greater a)))", "a3", "failure 0", "1 3 3 clear 0", start="3 6")

# The flag on the way in decides. Set on the way in and cleared by the child: nothing is narrowed on the way out, for "the
# indentations cancelled because of an alignment do not apply even to the subsequent non-aligned tokens" (001, section
# 2.4 (3)). By 2017 a5 b5 leaves 3 to 4.
both("align (indent greater (a b))", "a5 b5", "2 3 4 clear 1", "2 5 5 clear 1", start="3 6")
both("align (indent greater (a b))", "a3 b3", "failure 0", "2 3 3 clear 1", start="3 6")
# The inner indent is met with a clear flag: right of a4 by both. Outside it is 4 to 4; then by 2017 3 to 3.
both("indent greater (a indent greater b)", "a4 b5", "2 3 3 clear 1", "2 4 4 clear 1", start="3 6", flag="set")
alike("indent greater (a indent greater b)", "a4 b4", "failure 1", start="3 6", flag="set")
# What follows, from 3 to 4 by 2017 and from 5 to 5 by 2014: b in it, or right of it.
both("(indent greater a) b", "a5 b5", "failure 1", "2 5 5 clear 1", start="3 6", flag="set")
both("(indent greater a) b", "a5 b4", "2 4 4 clear 1", "failure 1", start="3 6", flag="set")
both("(indent greater a) indent greater b", "a5 b6", "2 3 4 clear 1", "2 5 5 clear 1", start="3 6", flag="set")
both("(indent greater a) indent greater b", "a5 b4", "2 3 3 clear 1", "failure 1", start="3 6", flag="set")
# Clear on the way in and, by 2014, set by the child: the interval is met with the outer set all the same, and the flag
# is "as it left it".
for relation in ("greater", "any", "+2"):
    both(f"indent {relation} (align empty)", "a3", "0 3 6 clear 0", "0 3 6 set 0", start="3 6")
both("(indent greater (align empty)) indent greater a", "a3", "failure 0", "1 3 3 clear 0", start="3 6")
# Inside is 4 on: a4 leaves 3 to 3 outside, a3 is not there. With a second indent, by 2017 5 on; by 2014 it is passed
# through: a6 leaves 6 to 6, outside 3 to 5; by 2017 4 to 5 and then 3 to 4.
alike("indent greater ((align empty) a)", "a4", "1 3 3 clear 0", start="3 6")
alike("indent greater ((align empty) a)", "a3", "failure 0", start="3 6")
both("indent greater ((align empty) indent greater a)", "a4", "failure 0", "1 3 3 clear 0", start="3 6")
both("indent greater ((align empty) indent greater a)", "a6", "1 3 4 clear 0", "1 3 5 clear 0", start="3 6")
# The child ends with the flag set and something read: a5 leaves 5 to 5, outside 3 to 4.
both("indent greater (a align empty)", "a5", "1 3 4 clear 0", "1 3 4 set 0", start="3 6")

# Starts: a place, the ends of the columns, without end. Where nothing is tried the farthest place is the start's.
both("indent greater a", "a9 a3", "failure 1", "1 3 3 clear 1", start="3 6", flag="set", place=1)
both("align empty", "a9 a3", "0 0 inf clear 2", "0 0 inf set 2", place=2)
both("indent greater a", "a65535", "failure 0", "1 65535 65535 clear 0", start="65535 65535", flag="set")
both("indent +31 a", "a65535", "failure 0", "1 65535 65535 clear 0", start="65535 inf", flag="set")
both("align empty", "a0", "0 65535 inf clear 0", "0 65535 inf set 0", start="65535 inf")
# Inside is 65536 on. By 2017 any brings it back to 0 on; by 2014 it is passed through, and no token lies there.
both("indent greater ((align empty) indent any a)", "a65535", "1 65535 inf clear 0", "failure 0", start="65535 inf")
alike("indent greater (indent any a)", "a7", "1 65535 inf clear 0", start="65535 inf")

# "all else is as before": without an indent under a set flag and an align that reads nothing the readings agree. Cases e,
# f and g of 01, those of 001 behind Theorem 2.3, the recursions above: these try a terminal right behind what was read,
# but for that of a and b in pairs, which ends in its last b.
for flag in ("clear", "set"):
    alike("empty", "", f"0 0 inf {flag} 0", flag=flag, name=f"case e, empty, flag {flag}")
    alike("a", "a5", "1 5 5 clear 0", start="3 6", flag=flag)
alike("a (indent greater b / empty)", "a1 b2", "2 1 1 clear 1", name="case f")
alike("a (indent greater b / empty)", "a3 b2", "1 3 3 clear 1", name="case f")
alike("a indent any b", "a3 b0", "2 3 3 clear 1", name="case g")
alike("indent greater (a b)", "a1 b2", "failure 1", name="case of 001")
alike("(indent greater a) (indent greater b)", "a1 b2", "2 0 0 clear 1", name="case of 001")
alike("X", "a0 a1 a2", "3 0 0 clear 3", rules=DEEPER)
alike("X", "a2 a4 b4 b2", "4 2 2 clear 3", rules=NESTED)
alike("X", "a0 a2 a2 a4 a1", "4 0 0 clear 4", rules=OUTLINE)
alike("X", "a0 a2 a4 a2 a0", "5 0 0 clear 5", rules=LEVELS)
alike("D", "d0 a2 a2 d2 a4 a4 a2", "7 0 0 clear 7", rules=BLOCK)
# 000, section 4.2: "if we have p^> with I = {1, 2}, then J = {2, 3, 4, ...}".
alike("indent greater a", "a2", "1 1 1 clear 0", start="1 2", name="case of 000, section 4.2")
# 000, section 4.3: every terminal under greater, the blocks `(|alts|*)^>`. From 1 to 1 inside is 2 on. By 2014 the first
# a of a clause takes its column, and the others lie right of it: a5 a10, then a4 is not at 5. By 2017 a5 leaves 2 to 4,
# a10 too, and a4 2 to 3; then a fails at 3.
CLAUSES = "Y = (indent greater a)+"
both("indent greater (align Y)*", "a5 a10 a4", "3 1 1 clear 3", "2 1 1 clear 2", rules=CLAUSES, start="1 1")

# The largest table: 511 aligns over empty; 511 indents by greater, or by 31, with the flag set.
for by, flag in (("2017", "clear"), ("2014", "set")):
    runs(f"511 aligns over empty, by {by}", f"0 0 inf {flag} 0", over([EMPTY], align), node=511, mode=0, kind=RUN[by])
for by, answer in (("2017", "failure 0"), ("2014", "1 4 4 clear 0")):
    for said, nodes in (("greater", DEEP), ("+31", STEEP)):
        runs(f"511 indents by {said} over a, flag set, a4, by {by}", answer, nodes, tokens="a4", node=511, mode=0,
             flag=True, kind=RUN[by])
# The most tokens. By 2017 each a7 leaves 0 to 6 outside; by 2014 7 to 7, or the flag set with 0 to 6.
both(AGAIN, MOST, "4096 0 6 clear 4096", "4096 7 7 clear 4096", name=f"{AGAIN}, 4096 a")
both(ONWARD, MOST, "4096 0 6 clear 4096", "1 0 6 set 1", name=f"{ONWARD}, 4096 a")
both("X", MOST, "4096 0 6 clear 4096", "4096 7 7 clear 4096", rules=AGAIN_RULE, name=f"{AGAIN_RULE}, 4096 a")

# Lists: the readings read other rules, or the same ones. By 2014 a clause is captured for each a at 5, by 2017 one for
# all.
both_list("indent greater (align Y)*", "a5 a10 a5 a7", ("4 1 1 clear 4", "Y 0 4 0"),
          ("4 1 1 clear 4", "Y 0 2 0, Y 2 4 0"), rules=CLAUSES, start="1 1")
both_list("(align empty) (indent greater X / Y)", "a3", ("1 3 3 clear 0", "Y 0 1 0"), ("1 3 3 clear 0", "X 0 1 0"),
          rules="X = a; Y = a", start="3 6")
both_list("X indent greater Y", "a3", ("failure 0", ""), ("1 3 3 clear 0", "X 0 0 0, Y 0 1 0"),
          rules="X = align empty; Y = a", start="3 6")
both_list("(align empty) !(indent greater X) Y", "a3", ("1 3 3 clear 0", "Y 0 1 0"), ("failure 0", ""),
          rules="X = a; Y = a", start="3 6")
both_list("((align empty) indent greater X)*", "a5 a5 a4", ("3 3 3 clear 3", "X 0 1 0, X 1 2 0, X 2 3 0"),
          ("2 5 5 clear 2", "X 0 1 0, X 1 2 0"), rules="X = a", start="3 6")
both_list("X", "a9 a3", ("1 3 3 clear 1", "X 1 2 0, Y 1 1 1, Z 1 2 1"),
          ("1 3 3 clear 1", "X 1 2 0, Y 1 1 1, Z 1 2 1, W 1 2 2"),
          rules="X = (align Y) Z; Y = b*; Z = indent greater W / a; W = a", start="3 6", place=1)
both_list("X", "a0 a1 a2", *[("3 0 0 clear 3", "X 0 3 0, X 1 3 1, X 2 3 2, X 3 3 3")] * 2, rules=DEEPER)
lists("X", "equal", "a7 " * 100, "100 7 7 clear 100", ", ".join(f"X {k} 100 {k}" for k in range(101)), rules=AGAIN_RULE,
      name=f"{AGAIN_RULE}, 100 a", lents=(0, 403, 404, 500), by="2014")


# --- Number 16 (02, Note 5) ----------------------------------------------------------------------


def only_2017(label, answer, nodes, rules=(), tokens="a5", **start):
    """By 2017 a run, by 2014 refused: "16, under 2014 a position node anywhere in the table or a mode other than 0"."""
    start = {"mode": 0, **start}
    runs(f"{label}, by 2017", answer, nodes, rules, tokens, **start)
    refused(f"{label}, by 2014", 16, nodes, rules, tokens, kind="R", **start)


def either(label, answer, nodes, rules=(), tokens="a5", **start):
    """The same run by each reading, in mode equal."""
    for by in ("2017", "2014"):
        runs(f"{label}, by {by}", answer, nodes, rules, tokens, mode=0, kind=RUN[by], **start)


# "anywhere in the table". Position greater over a leaves 0 to 4; a by itself 5 to 5.
POSITION = [A, position(0)]
only_2017("a position as the start node", "1 0 4 clear 0", POSITION, node=1)
only_2017("a position below the start node", "1 5 5 clear 0", [*POSITION, align(1)], node=2)
only_2017("a position that is not reached", "1 5 5 clear 0", POSITION)
only_2017("a position in the alternative not tried", "1 5 5 clear 0", [*POSITION, choice(0, 1)], node=2)
only_2017("a position in a rule", "1 0 4 clear 0", [*POSITION, rule(0)], [1], node=2)
only_2017("a position in a rule not used", "1 5 5 clear 0", POSITION, [1])
only_2017("a position in a rule not used, flag set", "1 5 5 clear 0", POSITION, [0, 1, 0], flag=True)
only_2017("a position where the run fails", "failure 0", POSITION, tokens="b5")
only_2017("a position without a token", "failure 0", POSITION, tokens="")
only_2017("a position where nothing is read", f"{SAME} 0", [EMPTY, position(0)])
only_2017("511 positions", "1 0 4 clear 0", over([A], position), node=511)
for number in (1, 511):
    nodes = [A] + [EMPTY] * 511
    nodes[number] = position(0)
    only_2017(f"node {number} of 512 a position", "1 5 5 clear 0", nodes)
for relation in (0, 3, 34):
    only_2017(f"a position by {relation} that is not reached", "1 5 5 clear 0", [A, position(0, relation)])
# Other nodes pass, and so does an 8, the kind of a position, in another word: a terminal, a rule, a child, a relation.
either("an indent in a position's place", "1 5 5 clear 0", [A, indent(0)])
EIGHT = [terminal(8)] * 9
either("8 in every other word", "1 5 5 clear 0", [*EIGHT, rule(8), sequence(8, 8), indent(8, 8), repeat(8)], [8] * 9,
       [8, 5, 8, 8], node=8)
# "a mode other than 0": 1 to 34, whatever the run does. From 35 on the mode is 12.
either("mode 0", "1 5 5 clear 0", [A])
for mode, answer in (
    (1, "1 0 4 clear 0"), (2, "1 0 5 clear 0"), (3, "1 0 inf clear 0"), (4, "1 4 4 clear 0"), (34, "failure 0"),
):
    only_2017(f"mode {mode}, a5", answer, [A], mode=mode)
for mode in (1, 34):
    only_2017(f"mode {mode}, flag set, a5", "1 5 5 clear 0", [A], mode=mode, flag=True)
    only_2017(f"mode {mode}, empty", f"{SAME} 0", [EMPTY], mode=mode)
for mode in (35, 65535):
    for said, nodes in (("a", [A]), ("with a position", POSITION)):
        refused(f"mode {mode}, {said}, by 2014", 12, nodes, tokens="a5", mode=mode, kind="R")

# "after 12 and before 13": each number before 16, with a position and with a mode, in a run and in a list.
for number, said, call in (
    (3, "513 nodes", {"nodes": [A, position(0)] + [EMPTY] * 511}),
    (4, "kind 10", {"nodes": [A, position(0), KIND_10]}),
    (5, "a bad rule node", {"nodes": [A, position(0)], "rules": [2]}),
    ("7 2", "a repeat of empty", {"nodes": [A, EMPTY, repeat(1), position(0)]}),
    (11, "3 token words", {"nodes": [A, position(0)], "tokens": [0] * 3}),
    (12, "interval 5 to 4", {"nodes": [A, position(0)], "lower": 5, "upper": 4}),
    (12, "start node 2 of 2", {"nodes": [A, position(0)], "node": 2}),
    (12, "place 2 of 1 token", {"nodes": [A, position(0)], "place": 2}),
):
    call = {"rules": (), "tokens": "a5", "mode": 1, **call}
    label = f"{said}, a position and mode 1"
    record(f"{label}, by 2014", line=f"refused {number}", kind="R", **call)
    unlisted(f"{label}, 4 words, by 2014", f"refused {number}", 4, kind="L", **call)
# 16 before 13: rule 0 is a, one capture, which takes four words; "Nothing is written."
for said, call, listing in (
    ("a position", {"nodes": [A, rule(0), position(0)], "mode": 0}, "1 5 5 clear 0"),
    ("mode 1", {"nodes": [A, rule(0)], "mode": 1}, "1 0 4 clear 0"),
):
    call = {"rules": [0], "tokens": "a5", "node": 1, **call}
    listed(f"16 and 13, {said}, by 2017", listing, [(0, 0, 1, 0)], (3, 4), **call)
    for lent in (0, 3, 4, 16500):
        unlisted(f"16 and 13, {said}, by 2014, {lent} words", "refused 16", lent, kind="L", **call)

# Families: none, each fault, every two and all, in the order of 2014, 16 before 13. In the late ones 16 is a position at
# the end of the table, in the early ones a mode. With none a at 5 in mode equal leaves 5 to 5. The lists are those with
# 16, that with 13 alone and that with none. In the early ones a repeat of a also tries the b behind it, at 1.
LATE, EARLY = {"answer": "1 5 5 clear 0"}, {"answer": "1 5 5 clear 1"}
for chosen in faults.few(3, 4, 5, 7, 11, 12, 16):
    tokens = token_words("a5") + ([1, 1, 1] if 11 in chosen else [])
    table = faults.late_table(chosen, position(1) if 16 in chosen else indent(1))
    ordered("by 2014, late", chosen, 0, table, tokens, kind="R", mode=35 if 12 in chosen else 0, **LATE)
    tokens = [1, 5, 0, 0, 256 if 11 in chosen else 2, 0, 0, 0]
    ordered("by 2014, early", chosen, 2, faults.early_table(chosen, 1), tokens, kind="R", node=3 if 12 in chosen else 2,
            mode=1 if 16 in chosen else 0, **EARLY)
for chosen in faults.few(3, 4, 5, 7, 11, 12, 16, 13):
    if 16 in chosen or chosen in ((), (13,)):
        tokens = token_words("a5") + ([1, 1, 1] if 11 in chosen else [])
        table = faults.late_table(chosen, rule(0), position(1) if 16 in chosen else indent(1))
        ordered_list("by 2014, late", chosen, 0, table, tokens, kind="L", node=2, mode=35 if 12 in chosen else 0,
                     **LATE)
        tokens = [1, 5, 0, 0, 256 if 11 in chosen else 2, 0, 0, 0]
        ordered_list("by 2014, early", chosen, 2, faults.early_table(chosen, 1, rule(0)), tokens, kind="L",
                     node=4 if 12 in chosen else 3, mode=1 if 16 in chosen else 0, **EARLY)


# --- The farthest place (02, Note 7) -------------------------------------------------------------

# "the start place if none was tried": by each reading, from the first token, from the middle, and behind the last.
for place in (0, 1, 2):
    for expression in ("empty", "empty empty", "empty / a", "(!empty)*", "!!empty", "indent greater empty"):
        alike(expression, "a0 a0", f"0 0 inf clear {place}", place=place)
    alike("X", "a0 a0", f"0 0 inf clear {place}", rules="X = empty", place=place)
    alike("!empty", "a0 a0", f"failure {place}", place=place)
    alike("!empty a", "a0 a0", f"failure {place}", place=place)
    # An align that reads nothing hands the flag on: clear by 2017, set by 2014.
    both("align empty", "a0 a0", f"0 0 inf clear {place}", f"0 0 inf set {place}", place=place)
    both_list("X", "a0 a0", (f"0 0 inf clear {place}", f"X {place} {place} 0"),
              (f"0 0 inf set {place}", f"X {place} {place} 0"), rules="X = align empty", place=place)

# A part that tries nothing adds nothing: behind a, at place 1, empty and the others stand where nothing is tried.
for expression in ("a empty", "a (empty / b)", "a !!empty", "a (!empty)*", "a X", "X a empty"):
    alike(expression, "a0 a0", "1 0 0 clear 0", rules="X = empty" if "X" in expression else "")
alike("a !empty", "a0 a0", "failure 0")
both("a align empty", "a0 a0", "1 0 0 clear 0", "1 0 0 set 0")
# Nor does what is not reached: a second part behind a failure, a second alternative behind a success.
alike("a b", "b0 b0", "failure 0")
alike("a / a b", "a0 b0", "1 0 0 clear 0")
alike("a*", "b0 b0", "0 0 inf clear 0")

# "Trials inside a not .. count": tried only inside nots, which fail or succeed.
alike("!(a b)", "a0 a0", "0 0 inf clear 1")
alike("!(a a)", "a0 a0", "failure 1")
alike("!!(a a)", "a0 a0", "0 0 inf clear 1")
alike("!(a a) / empty", "a0 a0", "0 0 inf clear 1")
alike("!(a a b) a", "a0 a0 a0", "1 0 0 clear 2")
alike("!!(a a a) a", "a0 a0 a0", "1 0 0 clear 2")
alike("(!(a b) a)*", "a0 a0", "2 0 0 clear 2")
lists("!!(X X) X", "equal", "a0 a0", "1 0 0 clear 1", "X 0 1 0", rules="X = a")

# ".. and in failed alternatives": tried only there, and further than what is read.
alike("a a b / empty", "a0 a0 a0", "0 0 inf clear 2")
alike("a a b / a", "a0 a0 a0", "1 0 0 clear 2")
alike("a a b / a b", "a0 a0 a0", "failure 2")
alike("(a a b / a c) / empty", "a0 a0 a0", "0 0 inf clear 2")
alike("a b / c", "a0 a0", "failure 1")
alike("(a b / a) a", "a0 a0 a0", "2 0 0 clear 1")
alike("(a a b / a) b", "a0 a0 a0", "failure 2")
lists("X X b / Y", "equal", "a0 a0", "1 0 0 clear 2", "Y 0 1 0", rules="X = a; Y = a")
lists("X X b", "equal", "a0 a0", "failure 2", "", rules="X = a")

# "the count itself if tried past the last token".
for count in (0, 1, 2, 4096):
    alike("a* !a", "a0 " * count, f"{count} 0 {'0' if count else 'inf'} clear {count}", name=f"a* !a over {count}")
    alike("a", "a0 " * count, f"failure {count}", place=count, name=f"a behind {count}")
alike("a a a", "a0 a0", "failure 2")
alike("a a", "a0 a0", "2 0 0 clear 1")
# A repeat's last, failed round: its first token, its second, and the count.
alike("a*", "a0 a0 b0 b0", "2 0 0 clear 2")
alike("(a b)*", "a0 b0 a0 a0", "2 0 0 clear 3")
alike("(a b)*", "a0 b0 a0", "2 0 0 clear 3")
alike("(a b)* a a", "a0 b0 a0 a0", "4 0 0 clear 3")

# A column that does not fit is a trial at its place; the token behind it is not tried.
alike("a b", "a0 b1", "failure 1")
alike("a b c", "a0 b1 c0", "failure 1")
alike("a (indent greater b / empty)", "a0 b0", "1 0 0 clear 1")

# "A place is a place in the token list": from place 1 and 2.
alike("a b", "c0 a0 b0", "2 0 0 clear 2", place=1)
alike("a b", "c0 a0 c0", "failure 2", place=1)
alike("!(a a) a", "c0 c0 a0 b0", "1 0 0 clear 3", place=2)

# By each reading, from what it tries: under a set flag 2014 passes over the indent, so that a fits where it does not by
# 2017, and the other way round.
both("(align (indent greater a)) b", "a1 b1", "failure 0", "2 1 1 clear 1", start="1 1")
both("(align (indent greater a)) b", "a2 b1", "2 1 1 clear 1", "failure 0", start="1 1")
both("((align empty) (indent greater a))*", "a0 a0", "0 0 inf clear 0", "2 0 0 clear 2")
both("(align (indent greater a)) b / a c", "a0 c0", "2 0 0 clear 1", "2 0 0 clear 1")


# --- Remembered outcomes (02, Note 8) ------------------------------------------------------------

# "For both readings the outcome, farthest place included, equals that of the plain run." The program makes every run above
# with words to remember in too. Here the words lent, what they hold, and what an outcome hangs on are chosen.

# The bench cases, with "a u32 slice of any length .. empty too": none, one word, and about as many as one outcome takes.
BENCH = (
    ("a", "indent greater (align (a b))", "at-least", "a2 b3", "2 0 1 clear 1", {}),
    ("b", "a", "greater", "a5", "1 0 4 clear 0", {}),
    ("b", "a", "greater", "a0", "failure 0", {}),
    ("c", "a", "at-least", "a0", "1 0 0 clear 0", {}),
    ("d", "a", "greater", "a5", "1 5 5 clear 0", {"flag": "set"}),
    ("e", "a", "equal", "", "failure 0", {}),
    ("e", "empty", "equal", "", "0 0 inf clear 0", {}),
    ("f", "a (indent greater b / empty)", "equal", "a1 b2", "2 1 1 clear 1", {}),
    ("f", "a (indent greater b / empty)", "equal", "a3 b2", "1 3 3 clear 1", {}),
    ("g", "a indent any b", "equal", "a3 b0", "2 3 3 clear 1", {}),
    ("h", "(align empty) a", "greater", "a5", "1 0 4 clear 0", {}),
    ("i", "align (indent greater a)", "equal", "a4", "1 1 1 clear 0", {"start": "1 1"}),
    ("j", "(!empty)*", "greater", "a5", "0 0 inf clear 0", {}),
)
for name, expression, mode, tokens, answer, more in BENCH:
    label, call = told(expression, mode, tokens, name=f"case {name}", **more)
    for lent in (0, 1, 11, 12, 13, 1200):
        remembers(label, answer, lent=lent, **call)
    for contents in CONTENTS:
        for about in range(len(call["nodes"]) if CONTENTS[contents] > 2 else 1):
            remembers(label, answer, lent=600, contents=contents, about=about, **call)
for said, ill, call in (
    ("repeat of empty", 1, {"nodes": [EMPTY, repeat(0)], "rules": (), "tokens": "a5"}),
    ("X = (a / empty) X", 3, {"nodes": [A, EMPTY, choice(0, 1), rule(0), sequence(2, 3)], "rules": [4], "tokens": "a5"}),
):
    for lent in (0, 12, 1200):
        forgets(f"case j, {said}", f"refused 7 {ill}", lent, **call)
recalls_both("(align empty) indent greater a", "a0", "failure 0", "1 0 0 clear 0", name="case of Note 5",
             lents=(0, 1, 11, 12, 13, 1200))

# Refused calls leave the words as they were, whatever these hold and however many there are.
for number, said, call in (
    (3, "no node", {"nodes": []}),
    (4, "kind 10", {"nodes": [A, KIND_10]}),
    (5, "a bad rule node", {"rules": [1]}),
    ("7 0", "X = X", {"nodes": [rule(0)], "rules": [0]}),
    (11, "3 token words", {"tokens": [0] * 3}),
    (12, "interval 5 to 4", {"lower": 5, "upper": 4}),
    (12, "mode 35", {"mode": 35}),
    (16, "mode 1, by 2014", {"mode": 1, "kind": "M"}),
    (16, "a position, by 2014", {"nodes": [A, position(0)], "kind": "M"}),
):
    call = {"nodes": [A], "rules": (), "tokens": "a5", "mode": 0, **call}
    for lent in (0, 1, 11, 12, 13, 1200, MOST_LENT):
        forgets(said, f"refused {number}", lent, **call)
    for contents in ("zeros", "numbers", "failures", "successes"):
        forgets(said, f"refused {number}", 1200, contents=contents, **call)

# "What the slice held before makes no difference": what looks like a failure of X, which reads a, or like a success, where it
# fails; of the others too.
for tokens, answer in (("a0 b0", "2 0 0 clear 1"), ("b0", "failure 0")):
    for expression in ("X b", "(X X / X) b", "(indent at-least X) b", "align X b", "position equal X b"):
        label, call = told(expression, "equal", tokens, rules="X = a / c", once=True)
        for contents in ("failures", "successes"):
            for about in range(len(call["nodes"])):
                remembers(label, answer, lent=1200, contents=contents, about=about, **call)

# An outcome hangs on the node, the mode, the place, both ends and the flag: each of these alone is different where X is
# tried again, and the other outcome would be wrong. X is a choice, so that it is no terminal.
X = "X = a / c"
# The flag: in mode greater a5 leaves 0 to 4 where it is clear, and 5 to 5 where it is set.
recalls("X b / align X", "greater", "a5", "1 5 5 clear 1", rules=X, why="the flag counts")
recalls("(align X) b / X", "greater", "a5", "1 0 4 clear 1", rules=X, why="the flag counts")
recalls("X b / X", "greater", "a5", "1 5 5 clear 1", rules=X, flag="set", why="the flag counts")
# By 2014 an indent counts only where it is clear. By 2017 a0 is under greater in neither.
Y = "Y = (indent greater a) / c"
recalls_both("Y b / align Y", "a0", "failure 0", "1 0 0 clear 0", rules=Y, why="the flag counts")
recalls_both("(align Y) b / Y", "a0", "failure 0", "failure 1", rules=Y, why="the flag counts")
# An align that reads nothing leaves the flag clear by 2017 and set by 2014; b is tried at 0.
recalls_both("V b / V", "a0", "0 0 inf clear 0", "0 0 inf set 0", rules="V = align empty / c", why="the flag it leaves")
recalls_both("V b / V", "a0", "0 0 inf set 0", "0 0 inf set 0", rules="V = align empty / c", flag="set",
             why="the flag it leaves")
# The lower end: under greater X begins at 1, where a0 does not fit.
for by in ("2017", "2014"):
    recalls("(indent greater X) b / X", "equal", "a0", "1 0 0 clear 0", rules=X, by=by, why="the lower end counts")
    recalls("X b / indent greater X", "equal", "a0", "failure 1", rules=X, by=by, why="the lower end counts")
recalls("(indent greater X) b / X", "at-least", "a3", "1 0 3 clear 1", rules=X, why="the lower end counts")
recalls("(indent +2 X) b / (indent +1 X) b / X", "at-least", "a3", "1 0 3 clear 1", rules=X, why="the lower end counts")
# The upper end: under at least X begins without one, and a7 fits; from 0 to 5 it does not.
for by in ("2017", "2014"):
    recalls("(indent at-least X) b / X", "equal", "a7", "failure 1", rules=X, start="0 5", by=by,
            why="the upper end counts")
    recalls("X b / indent at-least X", "equal", "a7", "1 0 5 clear 0", rules=X, start="0 5", by=by,
            why="the upper end counts")
# c2 leaves 0 to 2, and in mode any the start's interval; c0 leaves 0 to 0, which is not without end.
for tokens, start, first, second in (
    ("c2 a5", "0 9", "2 0 5 clear 2", "2 0 2 clear 2"),
    ("c2 a5", "0 inf", "2 0 5 clear 2", "2 0 2 clear 2"),
    ("c0 a5", "0 inf", "2 0 5 clear 2", "2 0 0 clear 2"),
):
    recalls("c X b / (position any c) X", "at-least", tokens, first, rules=X, start=start, why="the upper end counts")
    recalls("(position any c) X b / c X", "at-least", tokens, second, rules=X, start=start, why="the upper end counts")
# The mode: a5 leaves 0 to 4 in mode greater, 5 to 5 in mode equal, 3 to 3 in mode +2, and in mode any all as it is.
recalls("(position greater X) b / X", "equal", "a5", "1 5 5 clear 1", rules=X, why="the mode counts")
recalls("X b / position greater X", "equal", "a5", "1 0 4 clear 1", rules=X, why="the mode counts")
recalls("(position +1 X) b / position +2 X", "equal", "a5", "1 3 3 clear 1", rules=X, why="the mode counts")
recalls("(position any X) b / X", "equal", "a9", "failure 1", rules=X, start="3 6", why="the mode counts")
# The place: in mode any the interval stays.
recalls("X b / a X", "any", "a0 c0", "2 0 inf clear 1", rules=X, why="the place counts")
recalls("X X b / X", "any", "a0 a0", "1 0 inf clear 2", rules=X, why="the place counts")
recalls("a X / X", "any", "a0 b0", "1 0 inf clear 1", rules=X, why="the place counts")
# The node: Y fails at c and reads two.
recalls("X b / Y", "any", "a0 a0", "2 0 inf clear 1", rules=X + "; Y = c / a a", why="the node counts")


def looks(expression, tokens, answer, **more):
    """Runs by each reading, in mode equal, where the farthest place is what counts."""
    for by in ("2017", "2014"):
        recalls(expression, "equal", tokens, answer, by=by, why="the farthest place", **more)


# X is tried first where nothing was tried yet, and again after b was tried at 3: this stays the farthest place. Y fails at
# 0, both times.
FOUR = "a0 a0 a0 a0"
looks("X b / (!(a a a b)) X", FOUR, "1 0 0 clear 3", rules=X)
looks("X b / (!(a a a b)) (X b)", FOUR, "failure 3", rules=X)
looks("Y / (!(a a a b)) Y / a", FOUR, "1 0 0 clear 3", rules="Y = c d / d")
looks("Y / (!(a a a b)) Y", FOUR, "failure 3", rules="Y = c d / d")
# Z and W look further than they read, both times.
looks("Z c / Z", FOUR, "1 0 0 clear 3", rules="Z = (!(a a a b)) a / c")
looks("!(Z c) Z", FOUR, "1 0 0 clear 3", rules="Z = (!(a a a b)) a / c")
looks("W / W / a", FOUR, "1 0 0 clear 3", rules="W = a a a b / a a c")
looks("W / W", FOUR, "failure 3", rules="W = a a a b / a a c")
looks("!W !W", FOUR, "0 0 inf clear 3", rules="W = a a a b / a a c")
# From another place: X reads at 1, and b is tried behind the last token.
looks("X b / X", "b0 a0", "1 0 0 clear 2", rules=X, place=1)
looks("E b / E", "b0 a0", "0 0 inf clear 1", rules="E = empty / c", place=1)
looks("E b / E", "b0 a0", "0 0 inf clear 2", rules="E = empty / c", place=2)
# At a place where nothing is tried, neither time: the farthest place is that of a.
looks("a E !empty / a E empty", "a0 a0", "1 0 0 clear 0", rules="E = empty / c")
looks("a E !empty", "a0 a0", "failure 0", rules="E = empty / c")
# Inside a not and outside it, as a round of a repeat and by itself.
looks("!(X b) X", "a0 a0", "1 0 0 clear 1", rules=X)
looks("(!!X) X c / X X", "a0 a0", "2 0 0 clear 1", rules=X)
looks("R b / R", "a0 a0 a0", "3 0 0 clear 3", rules="R = a*")
looks("a R b / R", "a0 a0 a0", "3 0 0 clear 3", rules="R = a*")
looks("X* b / X X c / X", "a0 a0 a0", "1 0 0 clear 3", rules=X)

# A list may remember too: equal parts are one node, tried again where it succeeded, inside a not and outside. Its captures
# are listed where it counts, and only there.
for by in ("2017", "2014"):
    for expression, rules, tokens, answer, captures in (
        ("X b / X", X, "a0", "1 0 0 clear 1", "X 0 1 0"),
        ("(!!X) X", X, "a0", "1 0 0 clear 0", "X 0 1 0"),
        ("X !X / X", "X = a", "a0 a0", "1 0 0 clear 1", "X 0 1 0"),
        ("X Y b / X Y", "X = a; Y = b / c", "a0 c0", "2 0 0 clear 2", "X 0 1 0, Y 1 2 0"),
        ("!(X Y b) X Y", "X = a; Y = b / c", "a0 c0", "2 0 0 clear 2", "X 0 1 0, Y 1 2 0"),
        ("(!!(X Y)) (X Y)", "X = a; Y = b / c", "a0 c0", "2 0 0 clear 1", "X 0 1 0, Y 1 2 0"),
        ("!(X b / X c) X / X", "X = a", "a0 c0", "1 0 0 clear 1", "X 0 1 0"),
        ("(!!(X X)) X* b / X*", "X = a", "a0 a0", "2 0 0 clear 2", "X 0 1 0, X 1 2 0"),
        ("!X / (!X / X) b", X, "a0", "failure 1", ""),
    ):
        lists(expression, "equal", tokens, answer, captures, rules=rules, by=by, once=True)


def tower(count, *forms, base=(A, B)):
    """The nodes given, and over the first of them so many levels. A level is nodes, each a form of the level before and of
    the node before; the last is the level."""
    nodes, level = list(base), 0
    for _ in range(count):
        for form in forms:
            nodes.append(form(level, len(nodes) - 1))
        level = len(nodes) - 1
    return nodes


def then_b(level, _):
    return sequence(level, 1)


def or_level(level, last):
    return choice(last, level)


def remembers_both(label, answer, nodes, **more):
    """A run by each reading in mode equal, from the last node unless said."""
    for by in ("2017", "2014"):
        call = {"node": len(nodes) - 1, "mode": 0, **more}
        remembers(f"{label}, by {by}", answer, nodes, kind=REMEMBERING[by], **call)


# Ten levels, which end without remembering too. A slice of few words remembers little: none under 12, one outcome from there
# on, two from 24 on. Each level reads a and tries b behind it.
FEW = (0, 1, 2, 11, 12, 13, 23, 24, 25, 35, 36, 120, 1200)
TEN, TEN_RULES = slow_rules(10, A, B)
TEN_LEVELS = tower(10, then_b, or_level)
for lent in FEW:
    remembers_both("10 rules", "1 0 0 clear 1", TEN, rules=TEN_RULES, tokens="a0", lent=lent)
    remembers_both("10 rules, no a", "failure 0", TEN, rules=TEN_RULES, tokens="b0", lent=lent)
    remembers_both("10 levels", "1 0 0 clear 1", TEN_LEVELS, tokens="a0", lent=lent)
    remembers_both("10 levels, a b", "2 0 0 clear 2", TEN_LEVELS, tokens="a0 b0", lent=lent)
# a b, then b at 2, which the second level reads: each level reads one b more, as far as there are any.
remembers_both("10 levels, a and 10 b", "11 0 0 clear 10", TEN_LEVELS, tokens="a0" + " b0" * 10)
remembers_both("10 levels, a and 11 b", "11 0 0 clear 10", TEN_LEVELS, tokens="a0" + " b0" * 11)
for contents in ("zeros", "numbers", "failures", "successes"):
    for about in (0, 2, 3, 4, 28, 29, 30, 31) if CONTENTS[contents] > 2 else (0,):
        for lent in (12, 120, MOST_LENT):
            remembers_both("10 rules", "1 0 0 clear 1", TEN, rules=TEN_RULES, tokens="a0", lent=lent, contents=contents,
                           about=about)
# "Some grammars try the same expression at the same token again and again": each X tries the one behind it twice.
AGAIN_AND_AGAIN = "X = a X b / a X / a"
for lent in FEW:
    for by in ("2017", "2014"):
        label, call = told("X", "equal", "a0 " * 8, rules=AGAIN_AND_AGAIN, name=f"{AGAIN_AND_AGAIN}, 8 a", by=by)
        remembers(label, "8 0 0 clear 8", kind=REMEMBERING[by], lent=lent, **call)


# --- Slow grammars (02, Note 8) ------------------------------------------------------------------

# "The slice must be used": without it these runs do not end. Each level tries the one below it twice in one state, so that a
# run of k levels tries over 2^k terminals. It stands last, so that the others can be run by themselves.

# "On the one token a0, mode equal .. from rule 60 .. lent 65,536 words must end, with 1 read, 0 to 0, clear, farthest place
# 1." From a node that names rule 60, and from the rule's own node.
SIXTY, SIXTY_RULES = slow_rules(60, A, B)
for contents in CONTENTS:
    remembers_both("60 rules", "1 0 0 clear 1", SIXTY, rules=SIXTY_RULES, tokens="a0", contents=contents, about=180)
    remembers_both("60 rules, from rule 60's own node", "1 0 0 clear 1", SIXTY, rules=SIXTY_RULES, tokens="a0",
                   contents=contents, about=180, node=SIXTY_RULES[60])
remembers_both("60 rules, a b", "2 0 0 clear 2", SIXTY, rules=SIXTY_RULES, tokens="a0 b0")
remembers_both("60 rules, a7", "1 7 7 clear 1", SIXTY, rules=SIXTY_RULES, tokens="a7")
remembers_both("60 rules, from 3 to 6, a7", "failure 0", SIXTY, rules=SIXTY_RULES, tokens="a7", lower=3, upper=6)
remembers_both("60 rules, flag set, from 3 to 6, a5", "1 5 5 clear 1", SIXTY, rules=SIXTY_RULES, tokens="a5", lower=3,
               upper=6, flag=True)
remembers_both("60 rules, place 2 of 3", "1 0 0 clear 3", SIXTY, rules=SIXTY_RULES, tokens="b0 b0 a0", place=2)
# The largest table, 255 levels: (the level below, then b) or the level below.
remembers_both("255 levels", "1 0 0 clear 1", tower(255, then_b, or_level), tokens="a0")
remembers_both("255 levels, a and 100 b", "101 0 0 clear 101", tower(255, then_b, or_level), tokens="a0" + " b0" * 100)

# Every level under an indent: the lower end rises by 1 a level on the way in, and a leaves its column, which falls by 1 a
# level on the way out. By at least it stays, by any nothing is left of it, by 2 both ends fall.
for by, tokens, answer in (
    (1, "a169", "failure 0"), (1, "a170", "1 0 0 clear 1"), (1, "a200", "1 0 30 clear 1"),
    (2, "a7", "1 0 7 clear 1"), (3, "a7", "1 0 inf clear 1"),
    (step(2), "a339", "failure 0"), (step(2), "a340", "1 0 0 clear 1"), (step(2), "a350", "1 10 10 clear 1"),
):
    nodes = tower(170, then_b, or_level, lambda level, last, by=by: indent(last, by))
    remembers_both(f"170 levels under an indent by {by}, {tokens}", answer, nodes, tokens=tokens)
# Under aligns, the flag set before or not: a takes its column. A level that reads nothing hands the flag on as a single
# align does, b being tried at 0.
ALIGNED = tower(170, then_b, or_level, lambda level, last: align(last))
for flag in (False, True):
    remembers_both(f"170 levels under an align, flag {flag}", "1 7 7 clear 1", ALIGNED, tokens="a7", flag=flag)
NO_LEVEL = tower(170, then_b, or_level, lambda level, last: align(last), base=(EMPTY, B))
for by, answer in (("2017", "0 0 inf clear 0"), ("2014", "0 0 inf set 0")):
    remembers(f"170 levels under an align over empty, by {by}", answer, NO_LEVEL, tokens="a0", mode=0, node=511,
              kind=REMEMBERING[by])
# Inside nots: !(the level below, then b) and the level below; !!(the level below) and the level below, which tries no b.
remembers_both("170 levels with a not", "1 0 0 clear 1",
               tower(170, then_b, lambda level, last: not_(last), lambda level, last: sequence(last, level)), tokens="a0")
remembers_both("170 levels with two nots", "1 0 0 clear 0",
               tower(170, lambda level, last: not_(level), lambda level, last: not_(last),
                     lambda level, last: sequence(last, level)), tokens="a0")
# !!(the level below) in both alternatives: nothing is read, and b is tried at 0.
remembers_both("127 levels inside two nots", f"{SAME} 0",
               tower(127, lambda level, last: not_(level), lambda level, last: not_(last),
                     lambda level, last: sequence(last, 1), lambda level, last: choice(last, last - 1)), tokens="a0")
# A repeat of 254 levels, a round a token; the last round tries a at the count.
remembers_both("a repeat of 254 levels, 40 a", "40 0 0 clear 40",
               [*tower(254, then_b, or_level), repeat(509)], tokens="a0 " * 40)
# Levels whose parts are repeats: (the level below, then b)* and the level below. Over a b a the first level reads a b in a
# round, fails in b at the count, and reads a; the others do not get a round.
ROUNDS = tower(170, then_b, lambda level, last: repeat(last), lambda level, last: sequence(last, level))
remembers_both("170 levels behind repeats", "1 0 0 clear 1", ROUNDS, tokens="a0")
remembers_both("170 levels behind repeats, a b a", "3 0 0 clear 3", ROUNDS, tokens="a0 b0 a0")
# (the level below)*, then b, or the level below. Over three a the repeats read all of them, b fails at the count, and the
# level below reads one.
remembers_both("60 levels of repeats, 3 a", "1 0 0 clear 3",
               tower(60, lambda level, last: repeat(level), lambda level, last: sequence(last, 1), or_level),
               tokens="a0 a0 a0")
# By positions, the inner one of which holds for a: greater leaves 0 to 4. By 2017.
for said, mode in (("greater", lambda number: 1), ("one after the other", lambda number: number % 4)):
    nodes = tower(1, then_b, or_level, lambda level, last: position(last, 1))
    for number in range(2, 171):
        level = len(nodes) - 1
        nodes += [sequence(level, 1), choice(level + 1, level), position(level + 2, mode(number))]
    remembers(f"170 levels under positions, {said}", "1 0 4 clear 1", nodes, tokens="a5", mode=0, node=511)

# At many places: each level reads a before the level below, so that 171 tokens are read; each X tries the one behind it
# twice, and the last reads a.
remembers_both("170 levels behind a, 171 a", "171 0 0 clear 171",
               tower(170, lambda level, last: sequence(0, level), lambda level, last: sequence(last, 1),
                     lambda level, last: choice(last, last - 1)), tokens="a0 " * 171)
for count in (60, 300):
    for by in ("2017", "2014"):
        label, call = told("X", "equal", "a0 " * count, rules=AGAIN_AND_AGAIN, name=f"{AGAIN_AND_AGAIN}, {count} a", by=by)
        remembers(label, f"{count} 0 0 clear {count}", kind=REMEMBERING[by], **call)
# Columns on the way: X is under greater behind its a, at columns 0, 1, ..
label, call = told("X", "equal", " ".join(f"a{k}" for k in range(60)), name="60 a, each further right",
                   rules="X = a (indent greater X) b / a (indent greater X) / a")
remembers(label, "60 0 0 clear 60", **call)

NOTS_OVER_RULE = tower(60, lambda level, last: not_(level), lambda level, last: not_(last),
                       lambda level, last: sequence(last, level), base=(rule(0), A))

# Lists need no lent words to remember in: 61 captures, each around all behind it, from the node that names rule 60; 60 from
# the rule's own node, without its capture.
for by in ("2017", "2014"):
    listed(f"60 rules, by {by}", "1 0 0 clear 1", [(60 - k, 0, 1, k) for k in range(61)], nodes=SIXTY, rules=SIXTY_RULES,
           tokens="a0", node=len(SIXTY) - 1, mode=0, kind=LISTING[by])
    listed(f"60 rules, from rule 60's own node, by {by}", "1 0 0 clear 1", [(59 - k, 0, 1, k) for k in range(60)],
           nodes=SIXTY, rules=SIXTY_RULES, tokens="a0", node=SIXTY_RULES[60], mode=0, kind=LISTING[by])
    listed(f"60 rules, no a, by {by}", "failure 0", [], nodes=SIXTY, rules=SIXTY_RULES, tokens="b0", node=len(SIXTY) - 1,
           mode=0, kind=LISTING[by])
    lists("X", "equal", "a0 " * 60, "60 0 0 clear 60", ", ".join(f"X {k} 60 {k}" for k in range(60)),
          rules=AGAIN_AND_AGAIN, name=f"{AGAIN_AND_AGAIN}, 60 a", by=by)
    # !!(the level below) and the level below, over a rule: what succeeds inside nots lists nothing and is used again; the rule
    # is listed once.
    listed(f"60 levels with two nots over a rule, by {by}", "1 0 0 clear 0", [(0, 0, 1, 0)], nodes=NOTS_OVER_RULE, rules=[1],
           tokens="a0", node=len(NOTS_OVER_RULE) - 1, mode=0, kind=LISTING[by])


if __name__ == "__main__":
    CASES.write()

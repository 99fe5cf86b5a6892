#!/usr/bin/env python3
"""Writes the cases for the line that 01's program prints, and the lines of the program line_cases (README.md).

Every single answer stands beside its inputs and was worked out by hand from the words of 01 and 02 that are quoted
there; a family of cases has one answer for all, or the rule that gives each, in its loop. The last number of a success
or failure is how far the reader looked (02, Note 7). Nothing here reads a grammar file, scans a report or runs a
grammar.
"""

import grammar_fields
from expressions import LETTERS, RELATIONS, SCANNED, Table, numbered, written, written_rules
from grammar_fields import EMPTY as EMPTY_FIELD
from grammar_fields import NINE, RUN, START, TAIL, VERSION, field, keyword, node, rule, start, with_keywords, with_names
from records import Cases, Pairs, spaced
from table_nodes import ANY, AT_LEAST, EMPTY, EQUAL, GREATER
from table_nodes import align, choice, indent, not_, over, position, repeat, sequence, terminal
from table_nodes import rule as call

# 5: lines of four bytes and a break. 35: keywords of 32 bytes. 8200: two equal lines of 8,199 bytes.
DISTANCES = (1, 2, 3, 4, 8, 9, 16, 5, 6, 7, 10, 35, 8200)
CASES = Cases("line_cases")
PAIRS = Pairs(100, DISTANCES)

# "3 + k where the spelling equals keyword k ..; else 0 for a number .. else 1"; a line's end is 2. Written a, b, ..
# are the keywords.
TERMINALS = numbered((*SCANNED, *LETTERS))
NUMBER, WORD, EOL = terminal(0), terminal(1), terminal(2)
A, B = terminal(3), terminal(4)
# Tokens by themselves can stand side by side: ` :,` is a at column 1 and b at column 2.
KEYS = (b":", b",", b";")


# --- Records and lines --------------------------------------------------------------------------------------


def case(label, file, report, line):
    """A grammar file, a report, and the line expected of them."""
    assert label == label.lower() and len(label) < 100
    CASES.add(label, line, "l", *PAIRS.stretch(file, report))


def success(read, lower, upper, farthest):
    """ "tokens read, lower end, upper end (`inf` if none), flag", and how far the reader looked

    02, Note 7: "the largest token place that a terminal was tried at, the count itself if tried past the last token,
    and the start place if none was tried", printed "as one more number at the end of a success or failure line".
    Places count from 0, line ends with the others, and the start place is 0. A trial counts whether it succeeds or
    fails: "Trials inside a not and in failed alternatives count", so do those of a repeat's last round.

    The flag is always clear. It is so at the start, and each clause that starts with a clear flag ends with
    one: empty "changes nothing"; after a terminal "The flag is then clear"; after an align it is set only if it
    "was set both before .."; "Not and failure hand the old state on"; the others end as a child did that began
    with the parent's flag. So `set` is never printed.
    """
    return f"success {read} {lower} {upper} clear {farthest}"


def failure(farthest):
    """ "Otherwise `failure`", and how far the reader looked, as after a success"""
    return f"failure {farthest}"


def refused(number, *node_number):
    """ "`refused` with the lowest number .. and for 7 the node"

    6 never occurs: it is "a lent slice too short for what is to be written", and what is lent here is not
    part of the inputs. Nor does 11: the tokens are the scanner's own, with terminals up to 3 + 252, "At most
    4,096 tokens, columns at most 65,535". Nor does 12: the start is "token 0, interval 0 without end, flag
    clear", and a start node outside the table or a mode from 35 on is 5 already.
    """
    return spaced("refused", (number, *node_number))


def grammar(nodes, mode, keywords=KEYS, rules=(), first=None, leaves=""):
    """A file of these nodes; the rules are node numbers, named r0, r1, ...; the start is the last node unless said.

    Nodes and rules may be written instead, a the first keyword: then they are laid out as in `Table`, the leaves first.
    """
    if isinstance(nodes, str):
        first_ones = [written(leaf, TERMINALS) for leaf in leaves.split()]
        table = Table(written_rules(rules or "", TERMINALS), written(nodes, TERMINALS), once=True, leaves=first_ones)
        nodes, rules, first = table.nodes, table.rules, table.start
    pairs = [(number, b"r%d" % i) for i, number in enumerate(rules)]
    return grammar_fields.file(nodes, len(nodes) - 1 if first is None else first, mode, keywords, pairs)


def expressed(expression, mode, report, line, leaves=""):
    """A case whose label is its expression."""
    case(expression, grammar(expression, mode, leaves=leaves), report, line)


NOTHING = VERSION + TAIL
# No terminal is tried: "the start place if none was tried".
EMPTY_ANSWER = success(0, 0, "inf", 0)


# --- The example of 01 and texts near it --------------------------------------------------------------------

# "With keywords `loss` and `:` .. it prints `success 4 0 1 clear`", and behind it, by 02, Note 7, the last place tried:
# the line's end, 3.
LOSS = (b"loss", b":")
LOSS_NODES = [terminal(3), terminal(4), NUMBER, EOL, sequence(2, 3), sequence(1, 4), sequence(0, 5)]
EXAMPLE = b"  loss: 0.03"


def loss_file(mode):
    """The grammar of that example, in this mode."""
    return grammar("a b number eol", mode, LOSS)


case("example", loss_file(GREATER), EXAMPLE, success(4, 0, 1, 3))
# The same, the sequence's pairs bracketed from the left: "Sequence: a, then b from where a ended."
case("example bracketed from the left", grammar("((a b) number) eol", GREATER, LOSS, leaves="a b number eol"), EXAMPLE,
     success(4, 0, 1, 3))
# loss2 :6 number8 end12. Equal: loss makes 2 to 2, and 6 isn't "l to h": `:` fails at place 1.
case("example mode equal", loss_file(EQUAL), EXAMPLE, failure(1))
# At least: "0 to h" of 2 to 2, the later columns are higher.
case("example mode at-least", loss_file(AT_LEAST), EXAMPLE, success(4, 0, 2, 3))
# Any: "0 on, without end".
case("example mode any", loss_file(ANY), EXAMPLE, success(4, 0, "inf", 3))
# A line ends in a token "also at the end of the text": a break changes nothing here.
case("example with a break", loss_file(GREATER), EXAMPLE + b"\n", success(4, 0, 1, 3))
# "Bytes 13 and 32 are blanks."
case("example with a return and a break", loss_file(GREATER), EXAMPLE + b"\r\n", success(4, 0, 1, 3))
case("example with blanks behind", loss_file(GREATER), EXAMPLE + b"   ", success(4, 0, 1, 3))
# What follows the fourth token is not read, nor tried.
case("example twice", loss_file(GREATER), EXAMPLE + b"\n" + EXAMPLE, success(4, 0, 1, 3))
# "Byte 10 ends a line and sets the column to 0": empty lines before, no tokens of their own.
case("example below empty lines", loss_file(GREATER), b"\n   \n\t\n" + EXAMPLE, success(4, 0, 1, 3))
# "Byte 9 moves to the next higher multiple of 8": loss at 8.
case("example behind a tab", loss_file(GREATER), b"\tloss: 0.03", success(4, 0, 7, 3))
# No blanks are needed: "The bytes `: , ( ) [ ] = ; %` are tokens by themselves".
case("example without blanks inside", loss_file(GREATER), b"  loss:0.03", success(4, 0, 1, 3))
case("example with more blanks inside", loss_file(GREATER), b"  loss \t :\t\t0.03", success(4, 0, 1, 3))
# Greater: 0 isn't in "l+1 on".
case("example at column 0 mode greater", loss_file(GREATER), b"loss: 0.03", failure(0))
case("example at column 0 mode at-least", loss_file(AT_LEAST), b"loss: 0.03", success(4, 0, 0, 3))
case("example at column 1", loss_file(GREATER), b" loss: 0.03", success(4, 0, 0, 3))
# "(an optional `-`, digits, optionally `.` and digits, each group non-empty)".
case("example with a minus", loss_file(GREATER), b"  loss: -12", success(4, 0, 1, 3))
case("example with an exponent", loss_file(GREATER), b"  loss: 3e-2", failure(2))
# Terminal 3 only "where the spelling equals keyword k".
case("example with a capital", loss_file(GREATER), b"  Loss: 0.03", failure(0))
case("example with a longer word", loss_file(GREATER), b"  losses: 0.03", failure(0))
case("example with an equals sign", loss_file(GREATER), b"  loss= 0.03", failure(1))
# A fourth token that isn't the line's end, which is tried at 3; a line's end too early, where the number is tried, 2;
# the text cut off, its line's end at 2 too.
case("example with a word behind", loss_file(GREATER), EXAMPLE + b" dB", failure(3))
case("example over two lines", loss_file(GREATER), b"  loss:\n  0.03", failure(2))
case("example cut off", loss_file(GREATER), b"  loss:", failure(2))
case("example with no text", loss_file(GREATER), b"", failure(0))
# Keyword numbers are places among the keywords: with the two exchanged, loss is terminal 4.
case("example with keywords exchanged", grammar("a b number eol", GREATER, LOSS[::-1]), EXAMPLE, failure(0))
case("example with no keywords", grammar("a b number eol", GREATER, ()), EXAMPLE, failure(0))
# A start at another node: the number and the end only, on a number at column 3.
case("example started at the number", grammar(LOSS_NODES, EQUAL, LOSS, first=2), b"   0.03", success(1, 3, 3, 0))


# --- Empty, and texts without a token -----------------------------------------------------------------------

# "e. No tokens: a fails; empty succeeds, state unchanged."
for name, mode in RELATIONS.items():
    case(f"empty on no text mode {name}", grammar("empty", mode), b"", EMPTY_ANSWER)
    case(f"a on no text mode {name}", grammar("a", mode), b"", failure(0))
# "Empty changes nothing", with tokens there too.
case("empty on the example", NOTHING, EXAMPLE, EMPTY_ANSWER)
# Only "A line with a token ends in a token of terminal 2". Terminals are tried at the token count, 0.
for name, text in (("no text", b""), ("a break", b"\n"), ("breaks", b"\n\n\n"), ("blanks", b"  \t \r"),
                   ("blanks and breaks", b" \n\t\r\n ")):
    case(f"line end on {name}", grammar("eol", ANY), text, failure(0))
    case(f"no token at all on {name}", grammar("!(eol / word)", ANY), text, success(0, 0, "inf", 0))
# "A rule is its node", "Position changes the mode for its child", "Align sets the flag inside; after success
# ..", and for indent greater "Without end less 1 is without end": over empty the state is as before.
case("empty under a rule", grammar("X", EQUAL, rules="X = empty"), b"", EMPTY_ANSWER)
expressed("align empty", EQUAL, b"", EMPTY_ANSWER)
for relation in RELATIONS:
    expressed(f"indent {relation} empty", EQUAL, b"", EMPTY_ANSWER)
    expressed(f"position {relation} empty", EQUAL, b"", EMPTY_ANSWER)
expressed("empty empty", EQUAL, b"", EMPTY_ANSWER)
# a is tried at the token count, 0.
case("a* on no text", grammar("a*", EQUAL), b"", success(0, 0, "inf", 0))
case("!a on no text", grammar("!a", EQUAL), b"", success(0, 0, "inf", 0))
# No terminal is tried.
expressed("!empty", EQUAL, b"", failure(0))
expressed("!!empty", EQUAL, b"", EMPTY_ANSWER)


# --- One terminal in each mode ------------------------------------------------------------------------------

# From 0 without end: equal gives i to i; greater "0 to h-1" and fails at 0, not in "l+1 on" (case b: "a5
# gives 0 to 4; a0 fails"); at least "0 to h" (case c: "0 to 0"); any leaves all.
for column in (0, 1, 5):
    text = b" " * column + b":"
    case(f"a{column} mode equal", grammar("a", EQUAL), text, success(1, column, column, 0))
    case(f"a{column} mode greater", grammar("a", GREATER), text, success(1, 0, column - 1, 0) if column else failure(0))
    case(f"a{column} mode at-least", grammar("a", AT_LEAST), text, success(1, 0, column, 0))
    case(f"a{column} mode any", grammar("a", ANY), text, success(1, 0, "inf", 0))
# "A terminal also fails ... at another terminal".
case("b for a", grammar("a", ANY), b",", failure(0))
case("word for a", grammar("a", ANY), b"word", failure(0))
case("number for a", grammar("a", ANY), b"12", failure(0))
case("a for word", grammar("word", ANY), b":", failure(0))


# --- Two terminals, and which columns a second one has left -------------------------------------------------

# a2 b3. Equal: 2 to 2, 3 isn't in it. Greater: 0 to 1, then "l+1 on" is 1 on. At least: 0 to 2.
case("a2 b3 mode equal", grammar("a b", EQUAL), b"  :,", failure(1))
case("a2 b3 mode greater", grammar("a b", GREATER), b"  :,", success(2, 0, 1, 1))
case("a2 b3 mode at-least", grammar("a b", AT_LEAST), b"  :,", success(2, 0, 2, 1))
case("a2 b3 mode any", grammar("a b", ANY), b"  :,", success(2, 0, "inf", 1))
# "Sequence: a, then b": b missing, the line's end in its place; a missing, so b isn't tried; both there but exchanged.
case("sequence without b", grammar("a b", ANY), b":", failure(1))
case("sequence without a", grammar("a b", ANY), b",", failure(0))
case("sequence exchanged", grammar("a b", ANY), b",:", failure(0))
# Word, eol, word: each line's word and the first one's end, all in the mode.
# x4 end5 y2: at least 0 to 4, 0 to 4, then met with 0 to 2; greater 0 to 3, then met with
# 0 to 1; equal: 5 isn't 4, the end fails at 1.
case("lower second line mode at-least", grammar("word eol word", AT_LEAST), b"    x\n  y", success(3, 0, 2, 2))
case("lower second line mode greater", grammar("word eol word", GREATER), b"    x\n  y", success(3, 0, 1, 2))
case("lower second line mode equal", grammar("word eol word", EQUAL), b"    x\n  y", failure(1))
case("lower second line mode any", grammar("word eol word", ANY), b"    x\n  y", success(3, 0, "inf", 2))
# y0: greater fails, at least gives 0 to 0.
case("second line at 0 mode greater", grammar("word eol word", GREATER), b"    x\ny", failure(2))
case("second line at 0 mode at-least", grammar("word eol word", AT_LEAST), b"    x\ny", success(3, 0, 0, 2))
# With the end in mode any: x2 makes 2 to 2 and the second word must be there too.
case("second line equal", grammar("word (position any eol) word", EQUAL), b"  x\n  y", success(3, 2, 2, 2))
case("second line not equal", grammar("word (position any eol) word", EQUAL), b"  x\n   y", failure(2))


# --- Choice, not, repeat ------------------------------------------------------------------------------------

# "Choice: a, or if a fails b from the old state."
case("choice takes a", grammar("a / b", EQUAL), b" :", success(1, 1, 1, 0))
case("choice takes b", grammar("a / b", EQUAL), b" ,", success(1, 1, 1, 0))
case("choice takes neither", grammar("a / b", EQUAL), b" ;", failure(0))
# The order counts (001, section 1): of ab, ab/a reads both tokens, a/ab only a, and b isn't tried.
expressed("a b / a", ANY, b":,", success(2, 0, "inf", 1))
expressed("a / a b", ANY, b":,", success(1, 0, "inf", 0))
# The first alternative has succeeded; what follows fails, c at 1, and nothing else is tried.
expressed("(a / a b) c", ANY, b":,;", failure(1), leaves="a b c")
# "Trying the second alternative with the first one's narrowed interval": a b makes 5 to 5 and fails, b at 1; a
# under greater from 0 without end gives 0 to 4.
case("second alternative from the old state", grammar("a b / position greater a", EQUAL), b"     :",
     success(1, 0, 4, 1))
# "Not succeeds exactly if its child fails"; "Not and failure hand the old state on." Its trial at 0 counts.
case("!a before b", grammar("!a", EQUAL), b"   ,", success(0, 0, "inf", 0))
case("!a before a", grammar("!a", EQUAL), b"   :", failure(0))
case("!!a before a", grammar("!!a", EQUAL), b"   :", success(0, 0, "inf", 0))
case("!!a before b", grammar("!!a", EQUAL), b"   ,", failure(0))
expressed("!!a a", GREATER, b"   :", success(1, 0, 2, 0))
# a0 fails in mode greater by its column alone.
case("!a at a column outside", grammar("!a", GREATER), b":", success(0, 0, "inf", 0))
# "Repeat: success in the old state .. else the repeat again .." The last round fails at 3, the line's end.
case("a* mode any", grammar("a*", ANY), b":::", success(3, 0, "inf", 3))
case("a* mode at-least", grammar("a*", AT_LEAST), b"  :::", success(3, 0, 2, 3))
case("a* mode greater", grammar("a*", GREATER), b"  :::", success(3, 0, 1, 3))
# a2 makes 2 to 2; a3 fails, at place 1, and the round before it stands.
case("a* mode equal", grammar("a*", EQUAL), b"  :::", success(1, 2, 2, 1))
case("repeat of none", grammar("a*", EQUAL), b",", success(0, 0, "inf", 0))
case("repeat of none by the column", grammar("a*", GREATER), b":::", success(0, 0, "inf", 0))
# The repeat leaves no a: the second a fails at 3, as the last round did. b is read there.
expressed("a* a", ANY, b":::", failure(3))
expressed("a* b", ANY, b":::,", success(4, 0, "inf", 3), leaves="a b")
# Rounds of a b eol, at least: a4 makes 0 to 4; the second round's a2 would make 0 to 2, but its b fails,
# at 4.
case("repeat drops its last round", grammar("(a b eol)*", AT_LEAST), b"    :,\n  :;", success(3, 0, 4, 4))
# (a* b)*: a a b, then a b. A third round fails at 5, the line's end.
expressed("(a* b)*", ANY, b"::,:,", success(5, 0, "inf", 5), leaves="a b")


# --- Indent -------------------------------------------------------------------------------------------------

# a5 under one indent. Equal passes all both ways. Greater: from "l+1 on", 1 on: equal 5 to 5, out "0 to
# h-1"; mode greater from 2 on: 1 to 4, out 0 to 3; at least 1 to 5, out 0 to 4; any 1 on, out 0 on. At
# least: as the mode gives it, "0 to h" of that. Any: out "0 on, without end" always.
INDENTED = {
    ("equal", "equal"): (5, 5), ("equal", "greater"): (0, 4), ("equal", "at-least"): (0, 5),
    ("equal", "any"): (0, "inf"),
    ("greater", "equal"): (0, 4), ("greater", "greater"): (0, 3), ("greater", "at-least"): (0, 4),
    ("greater", "any"): (0, "inf"),
    ("at-least", "equal"): (0, 5), ("at-least", "greater"): (0, 4), ("at-least", "at-least"): (0, 5),
    ("at-least", "any"): (0, "inf"),
    ("any", "equal"): (0, "inf"), ("any", "greater"): (0, "inf"), ("any", "at-least"): (0, "inf"),
    ("any", "any"): (0, "inf"),
}
for relation in RELATIONS:
    for name, mode in RELATIONS.items():
        case(f"indent {relation} a mode {name}", grammar(f"indent {relation} a", mode), b"     :",
             success(1, *INDENTED[relation, name], 0))
# Greater in mode greater begins at 2: a1 fails, a2 gives 1 to 1 and out 0 to 0.
case("indent greater a mode greater at 1", grammar("indent greater a", GREATER), b" :", failure(0))
case("indent greater a mode greater at 2", grammar("indent greater a", GREATER), b"  :", success(1, 0, 0, 0))
case("indent greater a mode equal at 0", grammar("indent greater a", EQUAL), b":", failure(0))
case("indent greater a mode equal at 1", grammar("indent greater a", EQUAL), b" :", success(1, 0, 0, 0))
case("indent greater a mode any at 0", grammar("indent greater a", ANY), b":", success(1, 0, "inf", 0))
case("indent at-least a mode equal at 0", grammar("indent at-least a", EQUAL), b":", success(1, 0, 0, 0))
# Twice greater: 2 on; a5 gives 5 to 5, 1 to 4, 0 to 3; a1 fails.
expressed("indent greater (indent greater a)", EQUAL, b"     :", success(1, 0, 3, 0))
case("indent greater (indent greater a) at 1", grammar("indent greater (indent greater a)", EQUAL), b" :", failure(0))
case("indent greater (indent greater a) at 2", grammar("indent greater (indent greater a)", EQUAL), b"  :",
     success(1, 0, 0, 0))
# Any inside greater: 5 to 5, then 1 on, then "Without end less 1 is without end".
expressed("indent greater (indent any a)", EQUAL, b"     :", success(1, 0, "inf", 0))
expressed("indent any (indent greater a)", EQUAL, b"     :", success(1, 0, "inf", 0))
# 001, 2.3: in mode equal on a1 b2 the indent of (a b) fails (1 to 1, then 2, at place 1), the two
# indents apart give 0 to 0.
expressed("indent greater (a b)", EQUAL, b" :,", failure(1))
expressed("(indent greater a) (indent greater b)", EQUAL, b" :,", success(2, 0, 0, 1), leaves="a b")
# Case f: "a, then (b under greater, or empty) .. a1 b2 reads 2, 1 to 1".
case("case f on one line", grammar("a (indent greater b / empty)", EQUAL), b" :,", success(2, 1, 1, 1))
# "a3 b2 reads 1, 3 to 3": b2 stands on the next line, so the line's end is read too, in mode any.
# b is tried at 2, read or not.
CASE_F = grammar("a (position any eol) (indent greater b / empty)", EQUAL, leaves="a b eol")
case("case f with b lower", CASE_F, b"   :\n  ,", success(2, 3, 3, 2))
case("case f with b higher", CASE_F, b" :\n  ,", success(3, 1, 1, 2))
case("case f with b at the same column", CASE_F, b" :\n ,", success(2, 1, 1, 2))
# Case g: "a, then b under any .. a3 b0: 2 read, 3 to 3", and the line's end between them.
case("case g", grammar("a (position any eol) (indent any b)", EQUAL, leaves="a b eol"), b"   :\n,", success(3, 3, 3, 2))
# At least: b must be at 3 or above. It is tried at place 2.
CASE_AT_LEAST = grammar("a (position any eol) (indent at-least b)", EQUAL, leaves="a b eol")
case("indent at-least and b lower", CASE_AT_LEAST, b"   :\n  ,", failure(2))
case("indent at-least and b equal", CASE_AT_LEAST, b"   :\n   ,", success(3, 3, 3, 2))
case("indent at-least and b higher", CASE_AT_LEAST, b"   :\n    ,", success(3, 3, 3, 2))
# The upper end goes down by the second indent: a6 gives 0 to 5, b3 on the next line 0 to 2.
case("second indent lowers the upper end",
     grammar([A, B, EOL, position(2, ANY), indent(0), indent(1), sequence(3, 5), sequence(4, 6)], EQUAL),
     b"      :\n   ,", success(3, 0, 2, 2))


# --- Align --------------------------------------------------------------------------------------------------

# Case a, from 001: "Align of a b under greater .. a2 b3: 2 read, 0 to 1 ..".
case("case a", grammar("indent greater (align (a b))", AT_LEAST), b"  :,", success(2, 0, 1, 1))
# 001, theorem 2.4: align and indent may be exchanged. 1 on with the flag set: 2 to
# 2, then 2 to 2, out 0 to 1.
case("case a with align outside", grammar("align (indent greater (a b))", AT_LEAST), b"  :,", success(2, 0, 1, 1))
# "with the flag set, i must lie in the interval ..", whatever the mode (case d).
for name, mode in RELATIONS.items():
    case(f"align a mode {name}", grammar("align a", mode), b"     :", success(1, 5, 5, 0))
    case(f"align a at 0 mode {name}", grammar("align a", mode), b":", success(1, 0, 0, 0))
# Only the first token: "The flag is then clear." a5 b6 goes on from 5 to 5 in the mode.
case("align (a b) mode equal", grammar("align (a b)", EQUAL), b"     :,", failure(1))
case("align (a b) mode greater", grammar("align (a b)", GREATER), b"     :,", success(2, 5, 5, 1))
case("align (a b) mode at-least", grammar("align (a b)", AT_LEAST), b"     :,", success(2, 5, 5, 1))
case("align (a b) mode any", grammar("align (a b)", ANY), b"     :,", success(2, 5, 5, 1))
# Case h: "Align of empty, then a, mode greater, a5: 0 to 4."
case("case h", grammar("(align empty) a", GREATER), b"     :", success(1, 0, 4, 0))
# Within one more align the flag "was set both before and at the inner end", so a is aligned.
case("case h inside an align", grammar("align ((align empty) a)", GREATER), b"     :", success(1, 5, 5, 0))
# "after success it is set exactly if ..": a read in the inner one clears it.
expressed("align (align a)", GREATER, b"     :", success(1, 5, 5, 0))
expressed("align ((align a) b)", GREATER, b"     :,", success(2, 5, 5, 1), leaves="a b")
# "A rule is its node", "Position changes the mode", indent gives "the inner set": the flag goes in as it is.
# The last round of a* fails at 2, the line's end.
case("align of a rule", grammar("align X", GREATER, rules="X = a"), b"     :", success(1, 5, 5, 0))
expressed("align (a / b)", GREATER, b"     ,", success(1, 5, 5, 0))
expressed("align a*", GREATER, b"     ::", success(2, 5, 5, 2))
expressed("align (indent greater a)", GREATER, b"     :", success(1, 0, 4, 0))
# Not hands its child the flag: b4 isn't in 1 to 1, so not b succeeds; without the flag b4 is greater than 1. Both
# times b is tried at place 1.
expressed("a align !(position greater b)", EQUAL, b" :  ,", success(1, 1, 1, 1))
expressed("a !(position greater b)", EQUAL, b" :  ,", failure(1))
# Empty, not, a repeat without a round and an indent over empty leave the flag set.
expressed("align (empty a)", GREATER, b"     :", success(1, 5, 5, 0))
expressed("align (!b a)", GREATER, b"     :", success(1, 5, 5, 0), leaves="a b")
expressed("align (b* a)", GREATER, b"     :", success(1, 5, 5, 0), leaves="a b")
expressed("align ((indent greater empty) a)", GREATER, b"     :", success(1, 5, 5, 0))
# "b from the old state", "Not and failure hand the old state on", "success in the old state": the flag too.
# What failed had read a and cleared it; its b fails at 1, the line's end.
expressed("align (a b / a)", GREATER, b"     :", success(1, 5, 5, 1))
expressed("align (!(a b) a)", GREATER, b"     :", success(1, 5, 5, 1))
expressed("align ((a b)* a)", GREATER, b"     :", success(1, 5, 5, 1))
# And a failed align hands on the clear flag.
expressed("align (a b) / a", GREATER, b"     :", success(1, 0, 4, 1))
# The flag is clear behind an align that read: b6 in mode greater from 5 to 5; in mode equal 6 isn't 5.
case("(align a) b mode greater", grammar("(align a) b", GREATER, leaves="a b"), b"     :,", success(2, 5, 5, 1))
case("(align a) b mode equal", grammar("(align a) b", EQUAL, leaves="a b"), b"     :,", failure(1))
# Two aligns: the second token must lie in i to i.
case("two aligns on a line", grammar("(align a) (align b)", ANY, leaves="a b"), b":,", failure(1))
TWO_ALIGNS = grammar("(align a) eol (align b)", GREATER, leaves="a b eol")
case("two aligns at the same column", TWO_ALIGNS, b"  :\n  ,", success(3, 2, 2, 2))
case("two aligns with b lower", TWO_ALIGNS, b"  :\n ,", failure(2))
case("two aligns with b higher", TWO_ALIGNS, b"  :\n   ,", failure(2))
# Case i starts "from 1 to 1"; here a first token in mode equal, x1, gives that. "Align of (a under
# greater) .. a4: 1 to 1." (2 on, flag set: 4 to 4, out 0 to 3.)
case("case i behind a token", grammar("a align (indent greater b)", EQUAL), b" :  ,", success(2, 1, 1, 1))
case("case i right behind a token", grammar("a align (indent greater b)", EQUAL), b" :,", success(2, 1, 1, 1))
case("case i under equal", grammar("a align (indent equal b)", EQUAL), b" :  ,", failure(1))
case("case i under at-least", grammar("a align (indent at-least b)", EQUAL), b" :  ,", success(2, 1, 1, 1))
case("case i under any", grammar("a align (indent any b)", EQUAL), b" :  ,", success(2, 1, 1, 1))
case("case i without an indent", grammar("a align b", EQUAL), b" :  ,", failure(1))
# Behind the indent the flag is "as it left it", clear: a2 under greater gives 2 to 2, out
# 0 to 1; then b3 at least.
expressed("align ((indent greater a) b)", AT_LEAST, b"  :,", success(2, 0, 1, 1), leaves="a b")


# --- Position -----------------------------------------------------------------------------------------------

# "Position changes the mode for its child, through rules too."
ONE = {"equal": (5, 5), "greater": (0, 4), "at-least": (0, 5), "any": (0, "inf")}
for relation, ends in ONE.items():
    other = "any" if relation != "any" else "equal"
    mode = RELATIONS[other]
    expressed(f"position {relation} a", mode, b"     :", success(1, *ends, 0))
    case(f"position {relation} of a rule", grammar(f"position {relation} X", mode, rules="X = a"), b"     :",
         success(1, *ends, 0))
    # 001: of two positions the inner one holds.
    expressed(f"position {other} (position {relation} a)", EQUAL, b"     :", success(1, *ends, 0))
    # With the flag set the mode has no part.
    expressed(f"align (position {relation} a)", mode, b"     :", success(1, 5, 5, 0))
    expressed(f"position {relation} (align a)", mode, b"     :", success(1, 5, 5, 0))
# The mode is the child's only: b3 stands in the file's mode again, equal.
expressed("(position any a) b", EQUAL, b"  :,", success(2, 3, 3, 1), leaves="a b")
# At least: a2 leaves 0 to 2, and 3 is outside.
expressed("(position at-least a) b", EQUAL, b"  :,", failure(1), leaves="a b")
expressed("position at-least (a b)", EQUAL, b"  :,", success(2, 0, 2, 1))
# "through rules too", and indents, aligns, choices: the mode greater reaches a; a5
# under greater: 1 to 4, 0 to 3. The last round of a* fails at 2, the line's end.
expressed("position greater (indent greater a)", EQUAL, b"     :", success(1, 0, 3, 0))
expressed("position greater (a / b)", EQUAL, b"     ,", success(1, 0, 4, 0))
expressed("position greater a*", EQUAL, b"  ::", success(2, 0, 1, 2))
expressed("position greater !a", EQUAL, b":", success(0, 0, "inf", 0))
# The rule names itself inside a position: rule 0 = a, then (rule 0 in mode any, or
# empty). a2 equal, the rest any. Behind the third a the rule fails at 3, the line's end.
case("position in a rule that names itself",
     grammar("a (position any X / empty)", EQUAL, rules="X = a (position any X / empty)"), b"  :::",
     success(3, 2, 2, 3))


# --- Rules --------------------------------------------------------------------------------------------------

# 001, section 3: A = not not c, or a, or B; B = b, then (A A) aligned under greater;
# start A in mode at least.


def paper(text, line):
    """That grammar on a text where a, b, c and _ stand for the three keywords and a blank."""
    rules = "A = !!c / a / B; B = b indent greater (align (A A))"
    case(f"paper grammar on {text or 'no text'}", grammar("position at-least A", EQUAL, rules=rules),
         text.translate(str.maketrans("abc_", ":,; ")).encode(), line)


paper("a", success(1, 0, 0, 0))
# Not not c reads nothing.
paper("c", success(0, 0, "inf", 0))
# b0: 0 to 0. Inside 1 on with the flag set: a1 is 1 to 1, a2 at least. Out 0 to 0.
paper("baa", success(3, 0, 0, 2))
# b2: 0 to 2. Inside 1 on: 3 to 3. Out 0 to 2.
paper("__baa", success(3, 0, 2, 2))
# Both A are not not c: c is tried at 1, not read. Behind a it is tried at 2.
paper("bc", success(1, 0, 0, 1))
paper("bac", success(2, 0, 0, 2))
# The second A is missing: c, a and b fail at 2, the line's end.
paper("ba", failure(2))
# b0, then A = b1 a2 a3: 1 to 1; then a4 at least 1, the last one tried.
paper("bbaaa", success(5, 0, 0, 4))
paper("", failure(0))
# Value: a number or ( values ), in mode any; ( 1 ( 2 3 ) ( ) ) are 9 tokens. Nothing is tried behind the last bracket,
# at 8. Without it the line's end is at 8, and a value and the bracket fail there; so they do at the word, 2.
VALUES = [terminal(3), terminal(4), NUMBER, call(0), repeat(3), sequence(4, 1), sequence(0, 5), choice(2, 6)]
VALUES_FILE = grammar(VALUES, ANY, (b"(", b")"), rules=[7])
case("nested brackets", VALUES_FILE, b"(1 (2 3) ())", success(9, 0, "inf", 8))
case("nested brackets not closed", VALUES_FILE, b"(1 (2 3) ()", failure(8))
case("brackets with a word inside", VALUES_FILE, b"(1 two)", failure(2))
case("brackets of 1,000", VALUES_FILE, b"(" * 1000 + b")" * 1000, success(2000, 0, "inf", 1999))
# "a rule may stand for any node": rule 0 for a node above the one that names it, rule 1 for one below.
case("rules above and below", grammar([call(0), A, call(1), sequence(0, 2)], AT_LEAST, rules=[1, 1]),
     b"  ::", success(2, 0, 2, 1))
# Rule 0 = a, then (rule 0 or empty) under greater. Mode equal: each token stands to
# the right of the one before.
DEEPER = "a indent greater (X / empty)"


def deeper(mode):
    return grammar(DEEPER, mode, rules=f"X = {DEEPER}")


# a3, a4, a5: 3 to 3; 4 on, 4 to 4; and so on. Out: "0 to h-1" holds 3. Behind the last a the rule is tried once more
# and fails at the line's end, place 3; so it is in the others.
case("ever deeper mode equal", deeper(EQUAL), b"   :::", success(3, 3, 3, 3))
# a3: 0 to 3. 1 on, a4: 1 to 4. 2 on, a5: 2 to 5. Out 0 to 4 met with 1 to 4, out 0 to 3.
case("ever deeper mode at-least", deeper(AT_LEAST), b"   :::", success(3, 0, 3, 3))
# a1: 0 to 0. 1 on, a2 in 2 on: 1 to 1. 2 on, a3 in 3 on: 2 to 2. Out 0 to 1, out 0 to 0.
case("ever deeper mode greater", deeper(GREATER), b" :::", success(3, 0, 0, 3))
case("ever deeper mode any", deeper(ANY), b"   :::", success(3, 0, "inf", 3))
# 4,095 and the line's end are 4,096 tokens; the k-th token is at column k, and the
# outermost interval is 0 to 0. The line's end is at place 4,095.
case("ever deeper 4,095 times", deeper(EQUAL), b":" * 4095, success(4095, 0, 0, 4095))
# Rule 0 = a, then rule 0: may only fail. It passes the check, as a sequence "whose a is", and this a
# never succeeds reading nothing. The fourth a fails at 3, the line's end.
case("a rule that can't end", grammar("a X", ANY, rules="X = a X"), b":::", failure(3))
case("repeat of a rule that can't end", grammar("(a X)*", ANY, rules="X = a X"), b":::", success(0, 0, "inf", 3))
# Its first part can't succeed, so it may not read nothing: the same words let it pass. No terminal is tried.
case("a rule behind !empty", grammar("!empty X", ANY, rules="X = !empty X"), b"", failure(0))
# Case j: "repeat of not-empty passes".
expressed("(!empty)*", ANY, b":", EMPTY_ANSWER)
# "Choice: a's successes, and if a may fail all of b's facts": it reads something or fails. A third
# round fails at 2, the line's end.
expressed("(!empty / a)*", ANY, b"::", success(2, 0, "inf", 2))
# a or empty can't fail ("if a may fail all of b's facts"), so its not has no success and may be repeated.
# Behind empty a isn't tried.
expressed("(!(a / empty))*", ANY, b":", success(0, 0, "inf", 0))
expressed("(!(empty / a))*", ANY, b":", EMPTY_ANSWER)
# "something if both may succeed and one reads something": not empty can't, so the sequence may only fail, its
# not can't fail, and not not has no success. It passes, fails when run, and the repeat has no round. Behind not
# empty a isn't tried.
case("(!!(a !empty))*",
     grammar([EMPTY, not_(0), A, sequence(2, 1), not_(3), not_(4), repeat(5)], ANY), b":", success(0, 0, "inf", 0))
expressed("(!!(!empty a))*", ANY, b":", EMPTY_ANSWER)


# --- Several lines: blocks of aligned lines -----------------------------------------------------------------

STEPS = (b"step", b":", b"loss")
STEP_NODES = [
    terminal(3), NUMBER, terminal(4), EOL, terminal(5),
    sequence(2, 3), sequence(1, 5), sequence(0, 6),  # 7: step number : end
    sequence(1, 3), sequence(2, 8), sequence(4, 9), align(10),  # 11: loss : number end, aligned
    repeat(11), sequence(11, 12), indent(13),  # 14: one or more such lines under greater
    sequence(7, 14), align(15), repeat(16),  # 17: any number of blocks, each aligned
]
# 26: the blocks, then no token at all.
STEP_ALL = [*STEP_NODES, WORD, choice(1, 18), choice(3, 19), choice(0, 20), choice(2, 21), choice(4, 22),
            position(23, ANY), not_(24), sequence(17, 25)]
STEP_TEXT = b"step 1:\n  loss: 0.5\n  loss: 0.25\nstep 2:\n  loss: 0.1\n"
steps = grammar(STEP_NODES, GREATER, STEPS)
steps_all = grammar(STEP_ALL, GREATER, STEPS)
# Align makes 0 to 0 of the first step; the tokens behind it are greater. Under greater, 1 on:
# the first loss is aligned, 2 to 2, and so is the second. Out "0 to h-1", 0 to 1, met with 0 to
# 0. 4 + 4 + 4 + 4 + 4 tokens. The last rounds try a loss and a step at the token count, 20.
case("blocks", steps, STEP_TEXT, success(20, 0, 0, 20))
case("blocks to the end", steps_all, STEP_TEXT, success(20, 0, 0, 20))
case("blocks without the last break", steps_all, STEP_TEXT[:-1], success(20, 0, 0, 20))
case("blocks with empty lines", steps_all, STEP_TEXT.replace(b"\n", b"\n\n \t \n"), success(20, 0, 0, 20))
case("blocks with returns", steps_all, STEP_TEXT.replace(b"\n", b"\r\n"), success(20, 0, 0, 20))
case("blocks moved right by 4", steps_all, b"    " + STEP_TEXT[:-1].replace(b"\n", b"\n    "), success(20, 4, 4, 20))
# One tab and eight blanks are the same column.
case("blocks with tabs", steps_all, b"step 1:\n\tloss: 0.5\n        loss: 0.25\nstep 2:\n \tloss: 0.1\n",
     success(20, 0, 0, 20))
# Each block has its own inner column.
case("blocks of different depth", steps_all, STEP_TEXT.replace(b"  loss: 0.1\n", b"     loss: 0.1\n"),
     success(20, 0, 0, 20))
# The second loss isn't aligned with the first: the block ends before it, and no step follows there, at 8. Not tries the
# same place.
for name, text in (("right", b"   loss: 0.25"), ("left", b" loss: 0.25"), ("at 0", b"loss: 0.25")):
    text = STEP_TEXT.replace(b"  loss: 0.25", text)
    case(f"second line further {name}", steps, text, success(8, 0, 0, 8))
    case(f"second line further {name}, to the end", steps_all, text, failure(8))
# The first loss isn't greater than its step: the block fails, at 4, and the repeat has no round. Not tries place 0.
case("first line not indented", steps, STEP_TEXT.replace(b"  loss: 0.5", b"loss: 0.5"), success(0, 0, "inf", 4))
case("first line not indented, to the end", steps_all, STEP_TEXT.replace(b"  loss: 0.5", b"loss: 0.5"), failure(4))
# The second step must stand in 0 to 0. It is tried at 12.
case("second block further right", steps, STEP_TEXT.replace(b"step 2", b" step 2"), success(12, 0, 0, 12))
case("blocks on no text", steps_all, b"", success(0, 0, "inf", 0))
case("blocks on empty lines", steps_all, b"\n \n\t\n", success(0, 0, "inf", 0))
# The number is tried at 6, the line's end.
case("a number on a line of its own", steps, STEP_TEXT.replace(b": 0.5", b":\n    0.5"), success(0, 0, "inf", 6))


# --- Two columns a level (02, Note 1) -----------------------------------------------------------------------

# "One splicer maker indents each level by two columns, never more, and users want stray lines to fail."
SPLICER = (b"span", b"splice", b"loss", b":")
LEVEL_TEXT = (
    b"span 1:\n  splice 1:\n    loss: 0.04\n    loss: 0.05\n  splice 2:\n    loss: 0.02\n"
    b"span 2:\n  splice 3:\n    loss: 0.03\n"
)


def levels(relation):
    """Spans, the splices of each and their losses, every line aligned with its level's first, and behind them no token."""
    rules = f"Y = (align (b number d eol indent {relation} Z))+; Z = (align (c d number eol))+"
    spans = f"(align (a number d eol indent {relation} Y))*"
    return grammar(f"{spans} !(position any (a / b / c / d / number / word / eol))", GREATER, SPLICER, rules)


# Align makes 0 to 0 of the first span, and the tokens behind it are greater. By 2 inside: 2 to 2 for the splices; again:
# 4 to 4 for the losses. Out 2 to 2, then 0 to 0. Nine lines of four tokens; the last rounds and not try the count, 36.
by_two = levels("+2")
case("two columns a level", by_two, LEVEL_TEXT, success(36, 0, 0, 36))
case("two columns a level, moved right by 4", by_two, b"    " + LEVEL_TEXT[:-1].replace(b"\n", b"\n    "),
     success(36, 4, 4, 36))
# A line one column too far right or left is at no level, and a token is left behind what was read. The sixth line's
# loss fails at 20: its splice fails with it, and not tries that one, at 16. The fifth line's splice fails at 16.
STRAY = LEVEL_TEXT.replace(b"    loss: 0.02", b"     loss: 0.02")
case("two columns a level, a stray loss further right", by_two, STRAY, failure(20))
case("two columns a level, a stray loss further left", by_two, LEVEL_TEXT.replace(b"    loss: 0.02", b"   loss: 0.02"),
     failure(20))
case("two columns a level, a stray splice", by_two, LEVEL_TEXT.replace(b"  splice 2", b"   splice 2"), failure(16))
# Under greater that loss is the first of its block and may stand at 5.
case("greater a level, the same stray loss", levels("greater"), STRAY, success(36, 0, 0, 36))
# The last step as the start's mode, by 31: from 0 on it is 31 on, and 31 to 31 falls to 0 to 0.
case("start mode 34 at column 30", grammar("a", 34), b" " * 30 + b":", failure(0))
case("start mode 34 at column 31", grammar("a", 34), b" " * 31 + b":", success(1, 0, 0, 0))


# --- The scanner's terminals and columns --------------------------------------------------------------------

# "0 for a number (an optional `-`, digits, optionally `.` and digits ..); else 1".
NUMBERS = b"0 7 -1 0.03 -12.50 007 -0 1234567890.0987654321".split()
NO_NUMBERS = b"- . -. .5 5. -5. 1.2.3 1..2 --1 +1 1e5 1-2 -.5 1.-2 0x1 1. 1a a1 1.a".split()
NO_NUMBERS += b"\xd9\xa1 1/2 #1 1_0".split()
# A repeat's last round fails at the line's end, behind the eight.
case("numbers", grammar("number*", ANY, ()), b" ".join(NUMBERS), success(8, 0, "inf", 8))
for i, text in enumerate(NO_NUMBERS):
    case(f"no number {i}", grammar("word", ANY, ()), text, success(1, 0, "inf", 0))
# `,` is a token by itself: number, other, number.
case("number comma number", grammar("number word number", ANY, ()), b"1,5", success(3, 0, "inf", 2))
# "3 + k where .. else 0 for a number": a keyword comes first.
case("a number that is a keyword", grammar("a number", ANY, (b"12",)), b"12 13", success(2, 0, "inf", 1))
case("a keyword is no number", grammar("number", ANY, (b"12",)), b"12", failure(0))
case("a keyword is no word", grammar("word", ANY, (b"loss",)), b"loss", failure(0))
case("012 is not the keyword 12", grammar("number", ANY, (b"12",)), b"012", success(1, 0, "inf", 0))
# "The bytes `: , ( ) [ ] = ; %` are tokens by themselves"; without a keyword each is terminal 1. A repeat
# tries the line's end too, a sequence doesn't.
case("nine single bytes", grammar("word*", ANY, ()), NINE, success(9, 0, "inf", 9))
case("nine single bytes as keywords",
     grammar([*(terminal(3 + i) for i in range(9)), sequence(7, 8), *(sequence(6 - i, 9 + i) for i in range(7))], ANY,
             [bytes([b]) for b in NINE]), NINE, success(9, 0, "inf", 8))
case("single bytes inside words", grammar("word*", ANY, ()), b"a:b,c(d)e[f]g=h;i%j", success(19, 0, "inf", 19))
# "other tokens are longest runs of the remaining bytes": 94 from 33 to 126 less nine, and 128 from 128 on. Note 3 of 02: "A
# byte from 128 to 191 no longer advances the column", so 64 of these 213 do not.
# The line's end "at the column and offset of the break or the end", in mode equal.
END_COLUMN = [WORD, EOL, position(0, ANY), sequence(2, 1)]
case("one run of all other bytes", grammar(END_COLUMN, EQUAL, ()), bytes(RUN), success(2, 149, 149, 1))
case("keyword at the front of a run", grammar("a", ANY, LOSS), b"lossy", failure(0))
case("keyword at the end of a run", grammar("a", ANY, LOSS), b"-loss", failure(0))
case("keyword before a full stop", grammar("a", ANY, LOSS), b"loss.", failure(0))
case("keyword before a single byte", grammar("a", ANY, LOSS), b"loss=", success(1, 0, "inf", 0))
case("part of a keyword", grammar("a", ANY, LOSS), b"los", failure(0))
for name, text, column in (
    ("no break", b"abc", 3), ("a break", b"abc\n", 3), ("a blank", b"abc \n", 4), ("a return", b"abc\r\n", 4),
    ("a tab", b"abc\t", 8), ("a tab and a break", b"abc\t\n", 8), ("blanks in front", b"\n\n  abc", 5),
    ("two more lines", b"abc  \ndefghi\n", 5), ("bytes over 127", b"\xc3\xa9\x80\xff", 2),
    ("bytes 128", b"  \x80\x80", 2), ("letters b5", b"\xc2\xb5\xc2\xb5m", 3), ("a letter of four bytes", b"\xf0\x9f\x98\x80", 1),
):
    case(f"line end column with {name}", grammar(END_COLUMN, EQUAL, ()), text, success(2, column, column, 1))
# "Byte 9 moves to the next higher multiple of 8"; "Each byte but 9 and 10 advances the column by one" (Note 3 excepts 128 to 191).
for name, text, column in (
    ("a tab", b"\t", 8), ("two tabs", b"\t\t", 16), ("1 blank and a tab", b" \t", 8),
    ("7 and a tab", b" " * 7 + b"\t", 8),
    ("8 and a tab", b" " * 8 + b"\t", 16), ("9 and a tab", b" " * 9 + b"\t", 16),
    ("a tab and a blank", b"\t ", 9),
    ("returns", b"\r\r\r", 3), ("a return and a tab", b"\r\t", 8), ("a break", b"    \n", 0),
    ("a break and 2", b"\t\n  ", 2),
    ("a tab and a break", b"\t\n", 0), ("breaks and a tab", b"\n\n\t", 8),
):
    case(f"column behind {name}", grammar("word", EQUAL, ()), text + b"w", success(1, column, column, 0))
    case(f"column behind {name} mode at-least", grammar("word", AT_LEAST, ()), text + b"w", success(1, 0, column, 0))
case("column behind a token and a tab", grammar("(position any a) word", EQUAL, leaves="a word"), b" :\tw",
     success(2, 8, 8, 1))
# One line end for each line with a token, none for the others: x end y end. The last round is at the count, 4; that of
# word* is at the line's end, 3.
case("line ends", grammar("(word eol)*", ANY), b"\nx\n\n \t\n  y  \n\n", success(4, 0, "inf", 4))
case("no line end between two words", grammar("word*", ANY), b"x y z\n", success(3, 0, "inf", 3))
case("column on a second line", grammar("(position any (word eol)) word", EQUAL), b"abc\n  d", success(3, 2, 2, 2))
case("column below lines without a token", grammar("(position any (word eol)) word", EQUAL),
     b"abc\n\n \t\n    d", success(3, 4, 4, 2))


# Note 3: "a `\u00b5` ahead of an entry pushes it one column too far" no longer. Behind it and two blanks, and below it behind
# three, `loss` stands at column 3; what comes before it on its line is a word in mode any. The second is at place 3.
ENTRIES = "(position any word) a (position any eol) a"
for name, ahead in (("u", b"u"), ("letter b5", b"\xc2\xb5"), ("letter 2013", b"\xe2\x80\x93"), ("letter 1f600", b"\xf0\x9f\x98\x80"),
                    ("byte 255", b"\xff"), ("byte 192", b"\xc0")):
    case(f"entries behind {name}", grammar(ENTRIES, EQUAL, LOSS), ahead + b"  loss\n   loss", success(4, 3, 3, 3))
    case(f"entries behind {name}, a blank more", grammar(ENTRIES, EQUAL, LOSS), ahead + b"  loss\n    loss", failure(3))
    case(f"entries behind {name}, a blank less", grammar(ENTRIES, EQUAL, LOSS), ahead + b"  loss\n  loss", failure(3))
case("entries behind byte 181 alone", grammar(ENTRIES, EQUAL, LOSS), b"\xb5  loss\n  loss", success(4, 2, 2, 3))
case("a degree sign in a keyword", grammar("a", EQUAL, (b"\xc2\xb0C",)), b"\xc2\xb0C 20\xc2\xb0", success(1, 0, 0, 0))
case("a number with a degree sign is a word", grammar("word", EQUAL), b" 20\xc2\xb0", success(1, 1, 1, 0))


# --- Numbers of several digits in the line ------------------------------------------------------------------

# n single bytes and the line's end. The last round is tried at the count, n + 1.
COUNT = grammar("(a / eol)*", ANY)
for n in (8, 9, 98, 99, 998, 999, 4094, 4095):
    case(f"{n:,} tokens and a line end", COUNT, b":" * n, success(n + 1, 0, "inf", n + 1))
# A word at column c: 0 to c - 1 in mode greater, c to c in mode equal.
for column in (9, 10, 11, 99, 100, 101, 1000, 1001, 9999, 10000, 10001):
    text = b" " * column + b"w"
    case(f"column {column:,} mode greater", grammar("word", GREATER), text, success(1, 0, column - 1, 0))
    case(f"column {column:,} mode equal", grammar("word", EQUAL), text, success(1, column, column, 0))


# --- The largest columns ------------------------------------------------------------------------------------

# A token with a byte outside 128 to 191 takes a column and its line ends behind it: the highest column of such a token is
# 65,534. 8,191 tabs and 6 blanks, then `w` there; the line ends at 65,535, which is not "over 65,535".
HIGH = b"\t" * 8191 + b" " * 6 + b"w"
for name, mode, ends in (("equal", EQUAL, (65534, 65534)), ("greater", GREATER, (0, 65533)),
                         ("at-least", AT_LEAST, (0, 65534)), ("any", ANY, (0, "inf"))):
    case(f"column 65,534 mode {name}", grammar("word", mode), HIGH, success(1, *ends, 0))
# A token of bytes 128 to 191 may stand at 65,535, as its line ends there too.
case("byte 128 at column 65,535", grammar("word eol", EQUAL), b"\t" * 8191 + b" " * 7 + b"\x80",
     success(2, 65535, 65535, 1))
case("letter b5 at column 65,535", grammar("word", EQUAL), b"\t" * 8191 + b" " * 7 + b"\xc2\xb5", refused(9))
# The line's end at 65,535, behind a word in mode any. The largest ends that a line can show: lower 65,535
# (equal), upper 65,534 (greater, h-1) and 65,535 (at least, equal). A lower end over 65,535 is never shown:
# outside of all indents only equal and align raise it, to a column.
for name, mode, ends in (("equal", EQUAL, (65535, 65535)), ("greater", GREATER, (0, 65534)),
                         ("at-least", AT_LEAST, (0, 65535)), ("any", ANY, (0, "inf"))):
    case(f"column 65,535 mode {name}", grammar(END_COLUMN, mode), HIGH, success(2, *ends, 1))
case("column 65,535 under align", grammar("(position any word) (align eol)", ANY, leaves="word eol"), HIGH,
     success(2, 65535, 65535, 1))
case("column 65,535 under indent greater",
     grammar("indent greater ((position any word) eol)", EQUAL, leaves="word eol"), HIGH, success(2, 0, 65534, 1))
# 65,528 and seven bytes more.
case("a run up to column 65,535", grammar(END_COLUMN, EQUAL), b"\t" * 8191 + b"w" * 7, success(2, 65535, 65535, 1))
# `w` at 0 and the line's end at 65,535: 8,191 tabs and 7 blanks.
FAR = b"w" + b"\t" * 8191 + b" " * 7
case("line end at 65,535 behind tabs", grammar(END_COLUMN, EQUAL), FAR, success(2, 65535, 65535, 1))
# Two such lines: the first end makes 65,535 to 65,535. "Capping the lower end at 65,535 .."
FAR2 = FAR + b"\n" + FAR


def second(expression):
    """The first line, its word in mode any and its end in mode equal, then the expression."""
    return grammar(f"((position any word) eol) {expression}", EQUAL, leaves="word eol")


# Under greater 65,536 on: the word matches in mode any, the end at 65,535, place 3, not in mode equal.
case("second line under greater", second("indent greater ((position any word) eol)"), FAR2, failure(3))
# Under at least and equal 65,535 on or only; under any 0 on. The end makes 65,535 to 65,535.
for relation in ("equal", "at-least", "any"):
    case(f"second line under {relation}", second(f"indent {relation} ((position any word) eol)"), FAR2,
         success(4, 65535, 65535, 3))
# 65,536 on, all in mode any: both match; out "0 on, without end" met with 65,535 to 65,535.
case("second line under greater in mode any",
     second("indent greater (position any ((position any word) eol))"), FAR2, success(4, 65535, 65535, 3))
case("second line under greater twice in mode any",
     second("indent greater (indent greater (position any ((position any word) eol)))"), FAR2,
     success(4, 65535, 65535, 3))
# 506 indents: from 66,041 on.
case("second line under 506 indents in mode any",
     grammar([*over([*END_COLUMN, position(3, ANY)], indent, 511), sequence(3, 510)], EQUAL), FAR2,
     success(4, 65535, 65535, 3))
# The end at 65,535 isn't at least 65,536, nor greater.
for relation in ("at-least", "greater"):
    case(f"second line under greater in mode {relation}",
         second(f"indent greater ((position any word) (position {relation} eol))"), FAR2, failure(3))
# The aligned word must lie in 65,536 on. It fails at place 2.
case("second line aligned under greater", second("indent greater (align (position any word))"), FAR2, failure(2))
# The word in mode any, then not the end in mode equal, tried at 3. Empty tries nothing on the second line.
case("second line under greater and no end", second("indent greater ((position any word) !eol)"), FAR2,
     success(3, 65535, 65535, 3))
case("empty under greater behind 65,535", second("indent greater empty"), FAR2, success(2, 65535, 65535, 1))
# The second end in mode greater without an indent: "l+1 on" is 65,536 on.
case("second line in mode greater", second("position greater ((position any word) eol)"), FAR2, failure(3))
# The same in mode at least: 65,535 is in "l on".
case("second line end in mode at-least", second("(position any word) (position at-least eol)"), FAR2,
     success(4, 65535, 65535, 3))


# --- Refused by 1: the file's fields ------------------------------------------------------------------------

# "file over length, a field cut short .. over 253 keywords".
case("file of no bytes", b"", EXAMPLE, refused(1))
case("file of no bytes and no text", b"", b"", refused(1))
R0 = rule(0, b"r0")
K0 = keyword(b"k0")
WHOLE = VERSION + K0 + R0 + TAIL
case("file with all tags", WHOLE, EXAMPLE, EMPTY_ANSWER)
# "a field cut short": every shorter front of that file breaks off in a field or lacks tag 5.
for size in range(1, len(WHOLE)):
    case(f"first {size} bytes of a file", WHOLE[:size], EXAMPLE, refused(1))
for name, file in (
    # "tag missing": 1, 5.
    ("without tag 1", TAIL), ("without tag 1 but keywords", K0 + TAIL),
    ("without tag 5", VERSION + EMPTY_FIELD),
    # "tag 1, once", "tag 5, once and last".
    ("with tag 1 twice", VERSION + VERSION + TAIL), ("with tag 5 twice", VERSION + TAIL + START),
    ("with tag 1 last", TAIL + VERSION), ("with tag 1 behind tag 2", K0 + VERSION + TAIL),
    # "Tags 2 to 4 occur any number of times, in number order."
    ("with tag 2 behind tag 3", VERSION + R0 + K0 + TAIL),
    ("with tag 2 behind tag 4", VERSION + EMPTY_FIELD + K0 + START),
    ("with tag 3 behind tag 4", VERSION + EMPTY_FIELD + R0 + START),
    ("with tag 2 behind tag 5", VERSION + TAIL + K0),
    ("with tag 3 behind tag 5", VERSION + TAIL + R0),
    ("with tag 4 behind tag 5", VERSION + TAIL + EMPTY_FIELD),
    ("with tag 5 before tag 4", VERSION + START + EMPTY_FIELD),
    ("with tag 2 between two of tag 3", VERSION + R0 + K0 + rule(0, b"r1") + TAIL),
    # "unknown".
    ("with tag 0 first", field(0, b"") + WHOLE), ("with tag 0", VERSION + field(0, b"\x01") + TAIL),
    ("with tag 6", VERSION + EMPTY_FIELD + field(6, b"\x01") + START),
    ("with tag 6 last", WHOLE + field(6, b"")),
    ("with tag 255", VERSION + field(255, b"") + TAIL),
    ("with tag 6 in place of 5", VERSION + EMPTY_FIELD + b"\x06" + START[1:]),
    # Bytes behind tag 5: a field cut short, or a tag that may not stand there.
    ("with a byte 0 behind", WHOLE + b"\x00"), ("with a byte 5 behind", WHOLE + b"\x05"),
    ("with a break behind", WHOLE + b"\n"),
    ("with zeros behind", WHOLE + bytes(3)),
    # "tag 1's value not 1", "wrong value length".
    ("with version 0", field(1, b"\x00") + TAIL), ("with version 2", field(1, b"\x02") + TAIL),
    ("with version 255", field(1, b"\xff") + TAIL), ("with version character 1", field(1, b"1") + TAIL),
    ("with no version byte", field(1, b"") + TAIL), ("with two version bytes", field(1, b"\x01\x01") + TAIL),
    ("with version 0 1", field(1, b"\x00\x01") + TAIL),
    ("with a rule of no bytes", VERSION + field(3, b"") + TAIL),
    ("with a rule of 1 byte", VERSION + field(3, b"\x00") + TAIL),
    ("with a node of no bytes", VERSION + field(4, b"") + START),
    ("with a node of 5 bytes", VERSION + field(4, bytes(5)) + START),
    ("with a node of 7 bytes", VERSION + field(4, bytes(7)) + START),
    ("with two nodes in one field", VERSION + field(4, bytes(12)) + START),
    ("with a start of no bytes", VERSION + EMPTY_FIELD + field(5, b"")),
    ("with a start of 2 bytes", VERSION + EMPTY_FIELD + field(5, bytes(2))),
    ("with a start of 4 bytes", VERSION + EMPTY_FIELD + field(5, bytes(4))),
    # "two-byte length (high byte first)": 256 is more than there is.
    ("with a length low byte first", b"\x01\x01\x00\x01" + TAIL),
    ("with a length of 65,535", b"\x01\xff\xff\x01" + TAIL),
    ("of text", b"loss : number\n"), ("of zeros", bytes(20)),
):
    case(f"file {name}", file, EXAMPLE, refused(1))

# "At most 253 keywords": with 253 the last one is terminal 255.
K253 = [b"k%d" % i for i in range(253)]
case("253 keywords and the last", grammar([terminal(255)], EQUAL, K253), b"  k252", success(1, 2, 2, 0))
case("253 keywords and the first", grammar("a", EQUAL, K253), b"  k0", success(1, 2, 2, 0))
case("253 keywords and another word", grammar("word", EQUAL, K253), b"  k253", success(1, 2, 2, 0))
case("254 keywords", grammar([terminal(255)], EQUAL, [*K253, b"k253"]), b"  k252", refused(1))
case("254 keywords, the last twice", grammar([terminal(255)], EQUAL, [*K253, b"k252"]), b"  k252", refused(1))
case("254 keywords, the first broken", grammar([terminal(255)], EQUAL, [b"a b", *K253]), b"  k252", refused(1))
# "At most 65,535 bytes". No file of that length passes all: the longest that does has 253 keywords
# and 128 names of 32 bytes and 512 nodes, 18,209 bytes. At 65,535 the higher numbers speak. 7,280
# nodes take 65,520 bytes: 3.
MANY_NODES = EMPTY_FIELD * 7280 + START
case("file of 65,535 bytes, too many nodes", VERSION + keyword(b"ab") + MANY_NODES, b"", refused(3))
case("file of 65,536 bytes, too many nodes", VERSION + keyword(b"abc") + MANY_NODES, b"", refused(1))
# "keyword and name lengths are 2".
case("file of 65,535 bytes, a long keyword", VERSION + keyword(b"k" * 65513) + TAIL, b"", refused(2))
case("file of 65,536 bytes, a long keyword", VERSION + keyword(b"k" * 65514) + TAIL, b"", refused(1))
case("file of 65,535 bytes, a long name", VERSION + rule(0, b"r" * 65511) + TAIL, b"", refused(2))
case("file of 65,536 bytes, a long name", VERSION + rule(0, b"r" * 65512) + TAIL, b"", refused(1))
# Tag 0 is unknown.
case("file of 65,535 zeros", bytes(65535), b"", refused(1))
case("file of 65,536 zeros", bytes(65536), b"", refused(1))
# Behind a file that passes, zeros are "tag ... unknown".
case("file that passes, then zeros up to 65,536", NOTHING + bytes(65536 - len(NOTHING)), b"", refused(1))


# --- Refused by 2: keywords and names -----------------------------------------------------------------------

# "Keywords and names have 1 to 32 bytes ..", and "A keyword that holds one of the nine single bytes ..".
BAD = (
    ("a b", b"a b"), ("no byte", b""), ("33 bytes", b"x" * 33), ("256 bytes", b"x" * 256), ("a blank", b" "),
    ("byte 0", b"\x00"), ("byte 9 last", b"ab\t"), ("byte 10 first", b"\nab"), ("byte 31", b"a\x1f"),
    ("byte 127", b"\x7f"),
    ("byte 127 last", b"a\x7f"), ("a blank as byte 33", b"x" * 32 + b" "),
)
for name, spelling in BAD:
    case(f"keyword of {name}", with_keywords(spelling), EXAMPLE, refused(2))
    case(f"rule name of {name}", with_names(spelling), EXAMPLE, refused(2))
for byte in NINE:
    case(f"keyword x and byte {byte}", with_keywords(b"x" + bytes([byte])), EXAMPLE, refused(2))
    case(f"keyword of byte {byte} twice", with_keywords(bytes([byte, byte])), EXAMPLE, refused(2))
    # Only keywords have that rule.
    case(f"rule name x and byte {byte}", with_names(b"x" + bytes([byte])), EXAMPLE, EMPTY_ANSWER)
case("keyword twice", with_keywords(b"loss", b":", b"loss"), EXAMPLE, refused(2))
case("single byte keyword twice", with_keywords(b":", b":"), EXAMPLE, refused(2))
case("rule name twice", VERSION + R0 + rule(0, b"r1") + R0 + TAIL, EXAMPLE, refused(2))
# The nodes may differ; the names are the same.
case("rule name twice, other node", VERSION + R0 + rule(1, b"r0") + EMPTY_FIELD + TAIL, EXAMPLE, refused(2))
case("last keyword bad", with_keywords(b"loss", b":", b"a b"), EXAMPLE, refused(2))
# "distinct within their tag": a keyword may be spelled as a name is.
case("keyword spelled as a name", VERSION + keyword(b"loss") + rule(0, b"loss") + TAIL, EXAMPLE, EMPTY_ANSWER)
case("two rules for one node", VERSION + R0 + rule(0, b"r1") + TAIL, EXAMPLE, EMPTY_ANSWER)
for name, spelling in (
    ("32 bytes", b"x" * 32), ("byte 33", b"!"), ("byte 126", b"~"), ("bytes over 127", b"\x80\xc3\xa9\xff"),
    ("1 byte", b"q"), ("digits", b"-1.50"),
):
    case(f"keyword that passes, {name}", grammar("a", EQUAL, (spelling,)), b" " + spelling, success(1, 1, 1, 0))
    case(f"rule name that passes, {name}", with_names(spelling), b"", EMPTY_ANSWER)
# Keywords that differ only in the last byte, or by one byte more.
case("keywords alike up to the last byte", grammar("b", ANY, (b"x" * 32, b"x" * 31 + b"y")),
     b"x" * 31 + b"y", success(1, 0, "inf", 0))
case("keyword one byte longer than another", grammar("b", ANY, (b"los", b"loss")), b"loss", success(1, 0, "inf", 0))
case("keyword one byte shorter than another", grammar("b", ANY, (b"loss", b"los")), b"loss", failure(0))
case("33 bytes are not the keyword of 32", grammar("a", ANY, (b"x" * 32,)), b"x" * 33, failure(0))


# --- Refused by 3: counts -----------------------------------------------------------------------------------

# "1 to 512 nodes, 0 to 128 rules."
case("no node", VERSION + START, EXAMPLE, refused(3))
case("no node but keywords", VERSION + K0 + START, EXAMPLE, refused(3))
# Also 5: neither the start node nor the rule's is there.
case("no node but a rule", VERSION + R0 + START, EXAMPLE, refused(3))
case("no node and mode 35", VERSION + start(0, 35), EXAMPLE, refused(3))
case("512 nodes, start at the last", grammar([EMPTY] * 512, ANY), EXAMPLE, EMPTY_ANSWER)
case("512 nodes, start at the first", grammar([EMPTY] * 512, ANY, first=0), EXAMPLE, EMPTY_ANSWER)
case("513 nodes, start at the last", grammar([EMPTY] * 513, ANY), EXAMPLE, refused(3))
case("513 nodes, start at the first", grammar([EMPTY] * 513, ANY, first=0), EXAMPLE, refused(3))
case("1,024 nodes", grammar([EMPTY] * 1024, ANY), EXAMPLE, refused(3))
# 511 indents under greater: from 511 on. w600: 600 to 600, out 511 times h-1: 89. w511: 0. w510 is outside.
NEST = grammar(over([WORD], indent), EQUAL)
case("511 indents and column 600", NEST, b" " * 600 + b"w", success(1, 0, 89, 0))
case("511 indents and column 511", NEST, b" " * 511 + b"w", success(1, 0, 0, 0))
case("511 indents and column 510", NEST, b" " * 510 + b"w", failure(0))
# The same chain from node 258: 258 indents. 300 - 258 = 42.
case("258 indents and column 300", grammar(over([WORD], indent), EQUAL, first=258), b" " * 300 + b"w",
     success(1, 0, 42, 0))
# 128 rules: node i is rule i + 1, node 127 a word, rule i stands for node i.
CHAIN = [*(call(i + 1) for i in range(127)), WORD]
case("128 rules, one through the other", grammar(CHAIN, AT_LEAST, rules=range(128), first=0), b"  w",
     success(1, 0, 2, 0))
case("128 rules, from the last", grammar([*CHAIN, call(127)], AT_LEAST, rules=range(128)), b"  w", success(1, 0, 2, 0))
case("129 rules", grammar(CHAIN, AT_LEAST, rules=[*range(128), 0], first=0), b"  w", refused(3))
case("129 rules for one node", grammar([EMPTY], ANY, rules=[0] * 129), b"  w", refused(3))
case("128 rules for one node", grammar([EMPTY], ANY, rules=[0] * 128), b"  w", EMPTY_ANSWER)
case("129 rules and no node", VERSION + grammar_fields.rules((0, b"r%d" % i) for i in range(129)) + START, EXAMPLE,
     refused(3))
# The longest file that passes: 4 + 253 * 35 + 128 * 37 + 512 * 9 + 6 = 18,209 bytes.
LONGEST = grammar_fields.file(
    [terminal(255)] * 512, 511, GREATER,
    [b"the-keyword-of-32-bytes-no-%05d" % i for i in range(253)],
    [(511, b"the-rule-name-of-32-bytes-no-%03d" % i) for i in range(128)],
)
assert len(LONGEST) == 18209
case("longest file that passes", LONGEST, b"    the-keyword-of-32-bytes-no-00252", success(1, 0, 3, 0))
case("longest file and one node more", LONGEST[:-6] + EMPTY_FIELD + LONGEST[-6:], b"", refused(3))


# --- Refused by 4: nodes ------------------------------------------------------------------------------------

# "kind over 9, child not lower .. unused word not 0". The node comes behind an empty node 0, which is the
# start; "reachable or not" has no part in it. One rule stands for node 0.
for name, words in (
    ("kind 10", (10, 0, 0, 0)), ("kind 255", (255, 0, 0, 0)),
    ("terminal 256", (1, 256, 0, 0)), ("terminal 65,535", (1, 65535, 0, 0)), ("terminal 259", (1, 259, 0, 0)),
    ("no such rule", (2, 1, 0, 0)), ("no rule 256", (2, 256, 0, 0)), ("no rule 65,535", (2, 65535, 0, 0)),
    ("sequence of itself first", (3, 1, 0, 0)), ("sequence of itself second", (3, 0, 1, 0)),
    ("sequence of a higher node", (3, 0, 2, 0)), ("sequence of node 65,535", (3, 65535, 0, 0)),
    ("sequence of node 256", (3, 0, 256, 0)),
    ("choice of itself first", (4, 1, 0, 0)), ("choice of itself second", (4, 0, 1, 0)),
    ("choice of a higher node", (4, 2, 0, 0)),
    ("not of itself", (5, 1, 0, 0)), ("repeat of itself", (6, 1, 0, 0)), ("indent of itself", (7, 1, 0, 1)),
    ("position of itself", (8, 1, 0, 1)), ("align of itself", (9, 1, 0, 0)),
    ("align of a higher node", (9, 2, 0, 0)),
    # 02, Note 1: "Numbers 4, 5 and 12 begin at relation or mode 35."
    ("indent relation 35", (7, 0, 0, 35)), ("indent relation 36", (7, 0, 0, 36)),
    ("indent relation 255", (7, 0, 0, 255)),
    ("position relation 35", (8, 0, 0, 35)), ("position relation 36", (8, 0, 0, 36)),
    ("position relation 255", (8, 0, 0, 255)),
    ("empty with a", (0, 1, 0, 0)), ("empty with b", (0, 0, 1, 0)), ("empty with a relation", (0, 0, 0, 1)),
    ("empty with b of 256", (0, 0, 256, 0)),
    ("terminal with b", (1, 0, 1, 0)), ("terminal with a relation", (1, 0, 0, 1)),
    ("rule with b", (2, 0, 1, 0)), ("rule with a relation", (2, 0, 0, 3)),
    ("sequence with a relation", (3, 0, 0, 1)), ("choice with a relation", (4, 0, 0, 2)),
    ("not with b", (5, 0, 1, 0)), ("not with a relation", (5, 0, 0, 1)),
    ("repeat with b", (6, 0, 1, 0)), ("repeat with a relation", (6, 0, 0, 1)),
    ("indent with b", (7, 0, 1, 1)), ("position with b", (8, 0, 256, 1)),
    ("align with b", (9, 0, 1, 0)), ("align with a relation", (9, 0, 0, 1)),
):
    case(f"bad node, {name}", grammar([EMPTY, words, EMPTY], ANY, (), [0], first=0), EXAMPLE, refused(4))
for name, words in (("indent relation 34", indent(0, 34)), ("position relation 34", position(0, 34))):
    case(f"good node, {name}", grammar([EMPTY, words, EMPTY], ANY, (), [0], first=0), EXAMPLE, EMPTY_ANSWER)
# "node 0 a repeat of 0".
case("node 0 a repeat of 0", grammar([repeat(0)], ANY, ()), EXAMPLE, refused(4))
case("node 0 a sequence of 0 and 0", grammar([sequence(0, 0)], ANY, ()), EXAMPLE, refused(4))
# There is no rule 0.
case("node 0 a rule and no rule", grammar([call(0)], ANY, ()), EXAMPLE, refused(4))
case("only the last of 512 nodes bad", grammar([EMPTY] * 511 + [terminal(256)], ANY, first=0), EXAMPLE, refused(4))
# Terminal 255 may stand in a table with fewer keywords: no token has it.
case("terminal 255 without keywords", grammar([terminal(255)], ANY, ()), EXAMPLE, failure(0))


# --- Refused by 5: rule nodes and the start -----------------------------------------------------------------

# "a rule's node, or a file's start node ..". 02, Note 1: "Numbers 4, 5 and 12 begin at relation or mode 35."
case("rule 0 = node 1 of 1", grammar([EMPTY], ANY, (), [1]), EXAMPLE, refused(5))
case("last rule's node not there", grammar([EMPTY, EMPTY], ANY, (), [0, 1, 2]), EXAMPLE, refused(5))
case("rule node 65,535", grammar([EMPTY], ANY, (), [65535]), EXAMPLE, refused(5))
case("rule node 256", grammar([EMPTY, EMPTY], ANY, (), [256]), EXAMPLE, refused(5))
case("rule node 512 of 512", grammar([EMPTY] * 512, ANY, (), [512]), EXAMPLE, refused(5))
case("rule node 511 of 512", grammar([EMPTY] * 512, ANY, (), [511]), EXAMPLE, EMPTY_ANSWER)
for first, count in ((1, 1), (2, 2), (256, 2), (512, 512), (65535, 1)):
    case(f"start node {first:,} of {count}", grammar([EMPTY] * count, ANY, (), first=first), EXAMPLE, refused(5))
for mode in (35, 36, 128, 255):
    case(f"start mode {mode}", grammar("empty", mode, ()), EXAMPLE, refused(5))
case("start mode 34", grammar("empty", 34, ()), EXAMPLE, EMPTY_ANSWER)


# --- Refused by 7: well formed ------------------------------------------------------------------------------

# "The grammar passes if every node does .. otherwise the lowest .."
for label, nodes, rules, bad in (
    # "rule 0 = node 0 = rule 0": well formed "is also least".
    ("rule 0 = node 0 = rule 0", [call(0)], [0], 0),
    # Case j: "repeat of empty is bad"; "rule = (a or empty) then the rule .. bad at node 3".
    ("empty*", [EMPTY, repeat(0)], [], 1),
    ("case j", [A, EMPTY, choice(0, 1), call(0), sequence(2, 3)], [4], 3),
    # "a repeat whose child is and may not succeed reading nothing". "Repeat: ... nothing if it may fail."
    # "Not: nothing if the child may fail". Choice: b's nothing as a may fail; a's own.
    ("(a*)*", [A, repeat(0), repeat(1)], [], 2),
    ("(!a)*", [A, not_(0), repeat(1)], [], 2),
    ("(!!empty)*", [EMPTY, not_(0), not_(1), repeat(2)], [], 3),
    ("(a / empty)*", [A, EMPTY, choice(0, 1), repeat(2)], [], 3),
    ("(empty / a)*", [EMPTY, A, choice(0, 1), repeat(2)], [], 3),
    ("((!empty)*)*", [EMPTY, not_(0), repeat(1), repeat(2)], [], 3),
    # "Sequence: nothing if both".
    ("(a* b*)*", [A, B, repeat(0), repeat(1), sequence(2, 3), repeat(4)], [], 5),
    # "fails if a may fail, or a may succeed and b fail": empty then a may fail, so its not may read nothing.
    ("(!(empty a))*", [EMPTY, A, sequence(0, 1), not_(2), repeat(3)], [], 4),
    # "Not: ... fails if it may succeed": not a may fail, so not not a may read nothing.
    ("(!!a)*", [A, not_(0), not_(1), repeat(2)], [], 3),
    # "Rule, indent, position, align: those of their child."
    ("(align empty)*", [EMPTY, align(0), repeat(1)], [], 2),
    ("(indent greater empty)*", [EMPTY, indent(0), repeat(1)], [], 2),
    ("(position greater empty)*", [EMPTY, position(0), repeat(1)], [], 2),
    ("repeat of a rule for empty", [EMPTY, call(0), repeat(1)], [0], 2),
    # Rule 0 = a rule 0, or empty: passes, may read nothing; its repeat doesn't pass.
    ("repeat of a rule that may stop", [A, call(0), sequence(0, 1), EMPTY, choice(2, 3), repeat(4)], [4], 5),
    # The rule comes again before anything is read.
    ("left recursion", [A, call(0), sequence(1, 0)], [2], 1),
    ("left recursion with a way out", [A, call(0), sequence(1, 0), choice(2, 0)], [3], 1),
    ("left recursion second in a choice", [A, call(0), choice(0, 1)], [2], 1),
    # "a choice of two", also where the first can't fail.
    ("left recursion behind empty or", [EMPTY, call(0), choice(0, 1)], [2], 1),
    ("left recursion behind not", [A, not_(0), call(0), sequence(1, 2)], [3], 2),
    ("left recursion behind a repeat", [A, repeat(0), call(0), sequence(1, 2)], [3], 2),
    ("left recursion behind empty", [EMPTY, call(0), sequence(0, 1)], [2], 1),
    ("left recursion in an indent", [call(0), indent(0)], [1], 0),
    ("left recursion in a position", [call(0), position(0)], [1], 0),
    ("left recursion in an align", [call(0), align(0)], [1], 0),
    ("left recursion in a not", [call(0), not_(0)], [1], 0),
    ("left recursion in a repeat", [call(0), repeat(0)], [1], 0),
    ("two rules for each other", [call(1), call(0)], [0, 1], 0),
    ("three rules in a ring", [A, call(1), call(2), call(0)], [1, 2, 3], 1),
    # "reachable or not": the start is node 0.
    ("unreachable repeat", [A, EMPTY, repeat(1)], [], 2),
    ("unreachable rule", [A, call(0)], [1], 1),
    # The lowest: the rule node 0 stands for node 2, which is bad.
    ("rule for a higher bad node", [call(0), EMPTY, repeat(1)], [2], 0),
    ("two bad nodes", [EMPTY, repeat(0), call(0)], [2], 1),
    # "a sequence whose a is, and b too ..": node 0 is rule 1, node 3, a then the bad node 2. It passes, node 2
    # doesn't. With empty for a it doesn't, and a choice or repeat never does.
    ("bad node behind a", [call(1), A, call(0), sequence(1, 2)], [2, 3], 2),
    ("bad node behind empty", [call(1), EMPTY, call(0), sequence(1, 2)], [2, 3], 0),
    ("bad node behind !empty", [call(1), EMPTY, not_(1), call(0), sequence(2, 3)], [3, 4], 3),
    ("bad node second in a choice", [call(1), A, call(0), choice(1, 2)], [2, 3], 0),
    ("bad node in a repeat", [call(1), call(0), repeat(1)], [1, 2], 0),
    # "Three facts are the least ones": x, rule 0 = node 1 = rule 0, has none. Nor has a repeat of x ("nothing
    # if it may fail"), x or empty ("if a may fail"), x then a ("a may succeed and b fail"). So a followed by
    # one of them may only fail, its not can't fail, not not can't succeed, and the repeat of that, rule 1,
    # passes with node 0; node 1 doesn't.
    ("facts of x*", [call(1), call(0), repeat(1), A, sequence(3, 2), not_(4), not_(5), repeat(6)], [1, 7], 1),
    ("facts of x / empty",
     [call(1), call(0), EMPTY, choice(1, 2), A, sequence(4, 3), not_(5), not_(6), repeat(7)], [1, 8], 1),
    ("facts of (x a)*",
     [call(1), call(0), A, sequence(1, 2), repeat(3), sequence(2, 4), not_(5), not_(6), repeat(7)], [1, 8], 1),
    # Rule 0 = a or rule 0 may read something, never nothing, and not fail. "Repeat: something if the child
    # reads something": a followed by it may succeed, its not may fail, not not may read nothing, and rule 1,
    # its repeat, is bad.
    ("facts of (a / itself)*",
     [call(1), A, call(0), choice(1, 2), repeat(2), sequence(1, 4), not_(5), not_(6), repeat(7)], [3, 8], 0),
    ("bad node first in a sequence", [call(1), A, call(0), sequence(2, 1)], [2, 3], 0),
):
    case(f"not well formed, {label}", grammar(nodes, EQUAL, KEYS, rules, first=0), b":", refused(7, bad))
for number in (9, 10, 99, 100, 256, 511):
    # The repeat of empty is the last node.
    case(f"not well formed, node {number}", grammar([EMPTY] * number + [repeat(0)], ANY, ()), b"", refused(7, number))


# --- Refused by 8: the text ---------------------------------------------------------------------------------

# "Other bytes below 32, and 127, are refused."
for byte in (*range(9), 11, 12, *range(14, 32), 127):
    case(f"text of byte {byte}", NOTHING, bytes([byte]), refused(8))
for byte in (9, 10, 13, 32, 33, 126, 128, 159, 160, 255):
    case(f"text of byte {byte} passes", NOTHING, bytes([byte]), EMPTY_ANSWER)
# "the whole text by 8": anywhere, also where the grammar reads nothing or fails before.
for name, text in (
    ("behind the example", EXAMPLE + b"\n\x00"), ("in a word", b"  lo\x00ss: 0.03"),
    ("in a number", b"  loss: 0.\x7f3"), ("before the example", b"\x1b" + EXAMPLE),
    ("on a last line", EXAMPLE + b"\n\n\n \x0c"), ("form feed between", b"loss\x0c: 0.03"),
):
    case(f"refused byte {name}", loss_file(GREATER), text, refused(8))
case("refused byte where the grammar fails", grammar("a", ANY), b"word\x7f", refused(8))
# "a report of at most 65,535 bytes". Blanks, tabs (column 524,280, but no token), breaks: no tokens.
for name, byte in (("blanks", b" "), ("tabs", b"\t"), ("breaks", b"\n"), ("returns", b"\r")):
    case(f"65,535 {name}", NOTHING, byte * 65535, EMPTY_ANSWER)
    case(f"65,536 {name}", NOTHING, byte * 65536, refused(8))
# One word of 65,535 bytes; its line ends at 65,535.
case("a word of 65,535 bytes", grammar(END_COLUMN, EQUAL), b"w" * 65535, success(2, 65535, 65535, 1))
case("a word of 65,536 bytes", grammar(END_COLUMN, EQUAL), b"w" * 65536, refused(8))
case("65,534 blanks and a word", grammar(END_COLUMN, AT_LEAST), b" " * 65534 + b"w", success(2, 0, 65535, 1))
case("65,535 blanks and a word", grammar(END_COLUMN, AT_LEAST), b" " * 65535 + b"w", refused(8))
# A number of 65,535 digits.
case("a number of 65,535 digits", grammar("number", AT_LEAST), b"7" * 65535, success(1, 0, 0, 0))
case("a word before 65,534 breaks", grammar("word eol", AT_LEAST), b"w" + b"\n" * 65534, success(2, 0, 0, 1))
case("65,534 breaks and a word", grammar("word eol", AT_LEAST), b"\n" * 65534 + b"w", success(2, 0, 0, 1))
case("65,534 blanks and a byte 0", NOTHING, b" " * 65534 + b"\x00", refused(8))
case("a text of 65,536 zeros", NOTHING, bytes(65536), refused(8))
case("a text of 131,072 blanks", NOTHING, b" " * 131072, refused(8))


# --- Refused by 9: columns ----------------------------------------------------------------------------------

# "a token's column over 65,535": "8,192 tabs, `a`" is column 65,536.
case("8,192 tabs and a word", NOTHING, b"\t" * 8192 + b"a", refused(9))
case("8,192 tabs and a number", loss_file(ANY), b"\t" * 8192 + b"0.03", refused(9))
# No token, no refusal; and the next line starts at 0.
case("8,192 tabs", NOTHING, b"\t" * 8192, EMPTY_ANSWER)
case("8,192 tabs, a break and a word", grammar("word", EQUAL), b"\t" * 8192 + b"\n  a", success(1, 2, 2, 0))
# The word is at 65,535, but its line's end is a token at 65,536.
case("a word at column 65,535", NOTHING, b"\t" * 8191 + b" " * 7 + b"a", refused(9))
case("a run to column 65,536", NOTHING, b"\t" * 8191 + b"a" * 8, refused(9))
# The line's end, "at the column and offset of the break or the end": at the end of the text, at a break.
case("a word and 8,192 tabs", NOTHING, b"a" + b"\t" * 8192, refused(9))
case("a word, 8,192 tabs and a break", NOTHING, b"a" + b"\t" * 8192 + b"\n", refused(9))
case("a word, 8,191 tabs and 8 blanks", NOTHING, b"a" + b"\t" * 8191 + b" " * 8, refused(9))
case("a word, 8,191 tabs and 8 returns", NOTHING, b"a" + b"\t" * 8191 + b"\r" * 8, refused(9))
# A line behind it, or before it, changes nothing.
case("8,192 tabs and a word on the second line", NOTHING, b"a\n" + b"\t" * 8192 + b"a", refused(9))
case("8,192 tabs and a word, then a line", NOTHING, b"\t" * 8192 + b"a\nb", refused(9))
case("a word, a break and 8,192 tabs", grammar(END_COLUMN, EQUAL), b"a\n" + b"\t" * 8192, success(2, 1, 1, 1))
# A column far over: 65,534 tabs are 524,272.
case("65,534 tabs and a word", NOTHING, b"\t" * 65534 + b"a", refused(9))
case("a word and 65,534 tabs", NOTHING, b"a" + b"\t" * 65534, refused(9))
# Also where the grammar fails at the first token.
case("column too high where the grammar fails", grammar("a", ANY), b"word" + b"\t" * 8192, refused(9))


# --- Refused by 10: tokens ----------------------------------------------------------------------------------

# "4,096 tokens are read, 4,097 refused." Behind those read a repeat tries its last round at the count, 4,096.
BOTH = grammar("(word / eol)*", ANY)
case("4,096 single bytes", COUNT, b":" * 4096, refused(10))
case("4,096 single bytes, read by nothing", NOTHING, b":" * 4096, refused(10))
case("4,095 single bytes, read by nothing", NOTHING, b":" * 4095, EMPTY_ANSWER)
case("4,095 single bytes and a break", COUNT, b":" * 4095 + b"\n", success(4096, 0, "inf", 4096))
case("4,096 single bytes and a break", COUNT, b":" * 4096 + b"\n", refused(10))
# Two tokens a line.
case("2,048 lines", BOTH, b"a\n" * 2048, success(4096, 0, "inf", 4096))
case("2,048 lines without the last break", BOTH, b"a\n" * 2047 + b"a", success(4096, 0, "inf", 4096))
case("2,048 lines and a word", BOTH, b"a\n" * 2048 + b"a", refused(10))
case("2,047 lines and two words", BOTH, b"a\n" * 2047 + b"a a", refused(10))
case("2,049 lines", BOTH, b"a\n" * 2049, refused(10))
# Blanks and breaks behind the 4,096th token are no tokens.
case("2,048 lines and blanks", BOTH, b"a\n" * 2048 + b" \n\t\n ", success(4096, 0, "inf", 4096))
case("2,048 lines mode at-least", grammar("(word / eol)*", AT_LEAST), b"a\n" * 2048, success(4096, 0, 0, 4096))
# Each word at 3, the ends in mode any.
case("2,048 lines at column 3", grammar("(word position any eol)*", EQUAL), b"   a\n" * 2048, success(4096, 3, 3, 4096))
case("2,048 aligned lines at column 3", grammar("(align (word eol))*", GREATER), b"   a\n" * 2048,
     success(4096, 3, 3, 4096))
case("4,095 words", BOTH, b"w " * 4095, success(4096, 0, "inf", 4096))
case("4,096 words", BOTH, b"w " * 4096, refused(10))
case("4,096 numbers", NOTHING, b"7 " * 4096, refused(10))
# Columns to 65,534 and a line's end at 65,535 are in order; the number of tokens isn't.
case("65,535 single bytes", COUNT, b":" * 65535, refused(10))
case("32,767 lines", BOTH, b"a\n" * 32767, refused(10))
case("too many tokens where the grammar fails", grammar("a", ANY), b"w " * 4096, refused(10))
# All of 4,096 tokens read, then one more is asked for: "A terminal also fails at the token count".
case("4,096 tokens and one more wanted", grammar("(word / eol)* eol", ANY), b"a\n" * 2048, failure(4096))
case("4,096 tokens and no more wanted", grammar("(word / eol)* !(word / eol)", ANY), b"a\n" * 2048,
     success(4096, 0, "inf", 4096))


# --- Several at once ----------------------------------------------------------------------------------------

# "Checks run in rising number", "the lowest number that any of the four parts gives".
SPACED = keyword(b"a b")
BAD_NODE = node(10)
FILES = (
    # Each breaks its own number and the ones named behind it.
    (1, "only", WHOLE[:-1], refused(1)),
    (1, "and 2", VERSION + SPACED + EMPTY_FIELD, refused(1)),
    (1, "and 3", VERSION, refused(1)),
    (1, "and 4", VERSION + BAD_NODE, refused(1)),
    (1, "and 5", VERSION + rule(1, b"r0") + EMPTY_FIELD + start(0, 35)[:-1], refused(1)),
    (1, "and 7", VERSION + EMPTY_FIELD + node(6) + START + b"\x00", refused(1)),
    (1, "and 2 to 5", VERSION + SPACED + rule(9, b"") + BAD_NODE * 513 + start(999, 99) + START, refused(1)),
    (2, "only", VERSION + SPACED + TAIL, refused(2)),
    (2, "and 3", VERSION + SPACED + START, refused(2)),
    (2, "and 3 by 513 nodes", VERSION + SPACED + EMPTY_FIELD * 513 + START, refused(2)),
    (2, "and 4", VERSION + SPACED + BAD_NODE + START, refused(2)),
    (2, "and 5", VERSION + rule(1, b"") + TAIL, refused(2)),
    (2, "and 7", VERSION + SPACED + EMPTY_FIELD + node(6) + start(1), refused(2)),
    (2, "to 5", VERSION + keyword(b"") + rule(999, b"r0") + BAD_NODE * 513 + start(999, 99), refused(2)),
    (3, "only", VERSION + EMPTY_FIELD * 513 + START, refused(3)),
    (3, "and 4", VERSION + EMPTY_FIELD * 512 + BAD_NODE + START, refused(3)),
    (3, "and 5", VERSION + START, refused(3)),
    (3, "and 5 by a rule", VERSION + grammar_fields.rules((9, b"r%d" % i) for i in range(129)) + TAIL, refused(3)),
    (3, "and 7", VERSION + EMPTY_FIELD * 512 + node(6) + START, refused(3)),
    (4, "only", VERSION + BAD_NODE + START, refused(4)),
    (4, "and 5 by the start", VERSION + BAD_NODE + start(1, 0), refused(4)),
    (4, "and 5 by the mode", VERSION + BAD_NODE + start(0, 35), refused(4)),
    (4, "and 5 by a rule", VERSION + rule(1, b"r0") + BAD_NODE + START, refused(4)),
    # Node 1 is a repeat of empty.
    (4, "and 7", VERSION + EMPTY_FIELD + node(6) + BAD_NODE + START, refused(4)),
    (5, "by a rule", VERSION + rule(1, b"r0") + TAIL, refused(5)),
    (5, "by the start", VERSION + EMPTY_FIELD + start(1, 0), refused(5)),
    (5, "by the mode", VERSION + EMPTY_FIELD + start(0, 35), refused(5)),
    (5, "and 7 by the start", VERSION + EMPTY_FIELD + node(6) + start(2, 0), refused(5)),
    (5, "and 7 by the mode", VERSION + EMPTY_FIELD + node(6) + start(1, 35), refused(5)),
    (5, "and 7 by a rule", VERSION + R0 + rule(1, b"r1") + node(2) + START, refused(5)),
    (7, "at node 1", VERSION + EMPTY_FIELD + node(6) + start(1, 3), refused(7, 1)),
    (7, "at node 0", VERSION + R0 + node(2) + START, refused(7, 0)),
    (7, "at an unreachable node", VERSION + EMPTY_FIELD * 3 + node(6, 2) + START, refused(7, 3)),
)
# A text in order, and texts refused by 8 (a byte, the length), by 9 and by 10.
TEXTS = (("a text in order", EXAMPLE), ("a byte of 8", b"\x00"))
MORE_TEXTS = (("no text", b""), ("a length of 8", b" " * 65536), ("9", b"\t" * 8192 + b"a"), ("10", b":" * 4096))
# The file's number is lower than the text's, so its line holds whatever the text is. The first two texts go
# with each file, the others with the first file of each number.
for name, text in TEXTS:
    for number, kind, file, line in FILES:
        case(f"{number} {kind}, with {name}", file, text, line)
for name, text in MORE_TEXTS:
    done = set()
    for number, kind, file, line in FILES:
        if number not in done:
            done.add(number)
            case(f"{number} {kind}, with {name}", file, text, line)
# Both inputs over length; the file just within it.
case("a file and a text of 65,536 bytes", VERSION + keyword(b"abc") + MANY_NODES, b" " * 65536, refused(1))
case("a file of 65,535 and a text of 65,536 bytes", VERSION + keyword(b"ab") + MANY_NODES, b" " * 65536, refused(3))
# 8 before 9 and 10, whatever comes first in the text.
case("8 by a byte behind 9", NOTHING, b"\t" * 8192 + b"a\x00", refused(8))
case("8 by a byte before 9", NOTHING, b"\x00" + b"\t" * 8192 + b"a", refused(8))
case("8 by a byte behind 10", NOTHING, b":" * 4097 + b"\x7f", refused(8))
case("8 by a byte before 10", NOTHING, b"\x7f" + b":" * 4097, refused(8))
case("8 by the length and 9", NOTHING, b"a" + b"\t" * 65535, refused(8))
case("8 by the length and 10", COUNT, b":" * 65536, refused(8))
case("8 by the length, 9 and 10", COUNT, b":" * 5000 + b"\t" * 60536, refused(8))
case("8 by a byte, 9 and 10", COUNT, b":" * 4097 + b"\t" * 8192 + b"\x01", refused(8))
# 9 before 10: the column is over for the line's end behind 4,097 single bytes, or on the
# first line, or on the last.
case("9 behind 10", COUNT, b":" * 4097 + b"\t" * 8192, refused(9))
case("9 on a line before 10", COUNT, b"\t" * 8192 + b":\n" + b":" * 4097, refused(9))
case("9 on a line behind 10", COUNT, b":" * 4097 + b"\n" + b"\t" * 8192 + b":", refused(9))
# From 65,528 on: the ninth single byte is at 65,536.
case("9 and 10 on one line", COUNT, b"\t" * 8191 + b":" * 4097, refused(9))
# 7,680 tabs are column 61,440. From 61,441 on 4,095 single bytes end at 65,536: 9 alone. From 61,440 they
# end at 65,535, and 4,096 of them at 65,536: 9, with 4,097 tokens. 7,679 tabs and 7 blanks are 61,439:
# 4,096 of them end at 65,535, 10 alone.
case("4,095 tokens and a line end at 65,536", COUNT, b"\t" * 7680 + b" " + b":" * 4095, refused(9))
case("4,095 tokens and a line end at 65,535", COUNT, b"\t" * 7680 + b":" * 4095, success(4096, 0, "inf", 4096))
case("4,096 tokens and a line end at 65,536", COUNT, b"\t" * 7680 + b":" * 4096, refused(9))
case("4,096 tokens and a line end at 65,535", COUNT, b"\t" * 7679 + b" " * 7 + b":" * 4096, refused(10))
# Each before a failure or a success of the grammar: nothing runs.
case("7 where the start would succeed", VERSION + EMPTY_FIELD + node(6) + start(0, 0), EXAMPLE, refused(7, 1))
case("7 where the start would fail", grammar([A, EMPTY, repeat(1)], EQUAL, (), first=0), EXAMPLE, refused(7, 2))


if __name__ == "__main__":
    CASES.write()

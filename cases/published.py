#!/usr/bin/env python3
"""Writes the runs taken from published papers on indentation-sensitive grammars, the lines of the program published
(README.md), and docs/PUBLISHED.md.

Every expected line was worked by hand from the clauses of 001 (Nestra 2017) as 01 states them;
the comment above a run gives the steps. The last number is the farthest place (02, Note 7).
"l..h" is an interval, "l.." has no upper end, N is 0.. .
"flag: i..i" is a terminal under a set flag; "in" and "out" are an indent's way in and way out.

Runs are written as README.md says; the laws of 001 and the comments keep to the papers' signs.

`run_2014` makes a run by the reading of 000 (02, Note 5). In its steps "passed" is an indent under a set flag, which
changes nothing.
"""

import grammar_fields
from expressions import SCANNED, Table, named_columns, numbered, written, written_rules
from records import Cases, begin, wide, write
from table_nodes import ANY, AT_LEAST, EQUAL, GREATER, flat

CASES = Cases("published")
ROWS = []
FILES = []  # the label and the grammar file of each report

# ---- Records and lines ----


def run(label, source, shows, expected, start, tokens="", rules="", names="a b c d e",
        low=0, high=None, flag=0, mode=EQUAL, place=0, kind="r"):
    """A run of a table, whose terminals are the names, from 0 on. Tokens are a name and a column: `a2 b3`."""
    terminals = numbered(names.split())
    table = Table(written_rules(rules, terminals), written(start, terminals), once=True)
    words = [w for k, (name, column) in enumerate(named_columns(tokens)) for w in (terminals[name], column, k, 1)]
    parts = wide(2, *flat(table.nodes)), wide(2, *table.rules), wide(4, *words)
    record(label, source, shows, expected, kind, parts,
           node=table.start, place=place, lower=low, upper=high, flag=flag, mode=mode)


def run_2014(label, *row, **more):
    """The same by the reading of 2014: in mode equal and without positions, which it does not have (16)."""
    run(f"{label} by 2014", *row, kind="R", **more)


def report(label, source, shows, expected, keywords, start, text, rules="", mode=GREATER):
    """A grammar file and a report. Keyword k is terminal 3 + k."""
    terminals = numbered((*SCANNED, *keywords.split()))
    rules = written_rules(rules, terminals)
    table = Table(rules, written(start, terminals), once=True)
    pairs = [(number, name.encode()) for name, number in zip(rules, table.rules)]
    file = grammar_fields.file(table.nodes, table.start, mode, keywords.encode().split(), pairs)
    FILES.append((label, file))
    record(label, source, shows, expected, "l", (file, text.encode(), b""))


def record(label, source, shows, expected, kind, parts, **start):
    """One run, the line expected of it, and its row of the docs. The layout is that of the program's first comment."""
    ROWS.append((label, source, shows, expected))
    CASES.add(label, expected, kind, begin(**start) + wide(3, *map(len, parts)), *parts)


def eof(names):
    """No token of these names is left, at whatever column."""
    return "position any !(" + " / ".join(name if name in SCANNED else f'"{name}"' for name in names) + ")"


def page():
    """The runs as docs/PUBLISHED.md has them."""
    rows = [" | ".join(cell.replace("|", "\\|") for cell in row) for row in ROWS]
    return "\n".join([
        "# Runs taken from published papers",
        "",
        f"{len(ROWS)} runs, written by `cases/published.py`, whose comments give the steps of each.",
        "",
        *[f"- {paper}" for paper in PAPERS],
        "",
        "The laws of 001, and what the last section quotes, are in the papers' signs: `p^R` is `indent R p`, `p_R` is "
        "`position R p` and `|p|` is `align p`; for R, `=` is `equal`, `>` is `greater`, `>=` is `at-least`, and `any` is "
        "the same. The other runs are in the notation of the handbook, with letters for keywords.",
        "",
        "A run whose label ends in `by 2014` is by the reading of 000, in mode equal and without positions: where 000 gives "
        "a terminal a relation, an indent stands at it. All others are by the reading of 001.",
        "",
        "| label | source | what it shows | expected |",
        "|---|---|---|---|",
        *[f"| {row} |" for row in rows],
        "",
        "## Where a paper's text is garbled or its grammar changed",
        "",
        *[f"- {note}" for note in NOTES],
        "",
    ])


PAPERS = [
    "000: Michael D. Adams and \u00d6mer S. A\u011facan, Indentation-Sensitive Parsing for Parsec, 2014",
    "001: H\u00e4rmel Nestra, Grammars for Indentation-Sensitive Parsing, 2017",
    "002: Beata Burreau, Layout Syntax Support in the BNF Converter, a master's thesis, 2023",
    "003: Sebastian Erdweg, Tillmann Rendel, Christian K\u00e4stner and Klaus Ostermann, Layout-sensitive "
    "Generalized Parsing, 2012",
    "004: A Haskell pretty-printer, an undergraduate project whose author is named only as candidate 13243, 2002",
]

NOTES = [
    "001 section 1: the rule for stmts has lost brackets. Read as `{^> (stmt (; stmt)* [;] })^any`.",
    "001 theorem 2.3 (1): the last law reads `(p_s)^*`; it is `(p_s)^r`, as (2) says again.",
    "001 theorem 2.4 (2): by the paper's own definition of composition the two relations must stand the "
    "other way round. For > and >= this makes no difference; the runs with any go by the clauses.",
    "001 section 3: the rules of stage 1 have lost their bars. Read as `B = b |AA / A!!c / !!cA / !!c!!c|^>`.",
    "000 section 2.2: the star of the bracket grammar is shown as `1/2`.",
    "000 figures 4, 7 and 8 and the productions of suite and block are lost; the prose gives them. alts "
    "here has at least one alternative, else its repeat is refused.",
    "000 sections 3.1 and 3.2: > at each terminal became mode greater, since under 001 an indent at an "
    "aligned terminal moves its baseline. The runs by 2014 and the two `.. indented terminals by 001` keep the 2014 form.",
    "000 sections 2.1 and 5.1, by 2014: mode any became an indent by any at each terminal.",
    "000 sections 3.1 and 3.2, by 2014: the line that the program prints is by 001, so the report texts are token lists "
    "there, with the columns of the texts. The list over lines stands one column further right, since under greater no "
    "token could stand at column 0.",
    "001 section 2.4: the runs with a position have no 2014 form. Those in another mode than equal got an indent at the "
    "token, or mode equal.",
    "000 section 3.2, 002 and 003: inside brackets and braces the mode is at-least (or any), since in mode "
    "greater no token could stand at column 0.",
    "All report texts: each line ends in a token; the grammars read it in mode any, and where the paper's "
    "rule lets a phrase go on over a break it is optional behind each token.",
    "000 section 5.2: eof is a not over all terminals in mode any.",
    "002 section 5.1: g1, g2 and g3 are shown alike; their texts follow the description above them.",
    "002 figure 5.4: a blank stands before the joining sign, which the scanner would otherwise join to "
    "print; the joined line stands at column 0, as section 4.1.3 allows.",
    "003 figures 1 to 3 have lost their line breaks or texts; they are laid out as the prose says. In the "
    "third print program print 15 stands left of the block, as the prose needs.",
    "003 section 5.3: the two programs are run together; the first has its inner block at the column of do.",
    "004 section 2.6.3: leading blanks are lost; one blank a level, as the prose says.",
    "004 figure 59: the columns are those of its part (b), less 1.",
]

# ---- 001, section 1: plain expressions and do expressions ----

# In mode any a token's column changes nothing. a b reads both tokens, so the choice ends there.
run("001 1 a b / a", "001 section 1, the constructs of PEG", "a b / a reads the whole of a b",
    "success 2 0 inf clear 1", "a b / a", "a0 b1", mode=ANY)
# The first choice a succeeds, so a b is never tried.
run("001 1 a / a b", "001 section 1, the constructs of PEG", "a / a b reads only a", "success 1 0 inf clear 0",
    "a / a b", "a0 b1", mode=ANY)

# doexp ::= do^> (istmts / stmts); istmts ::= (|stmt|+)^>; stmts ::= {^> (stmt (; stmt)* [;] })^any.
# The text of stmts is garbled; this is the reading with balanced brackets. stmt is s or a doexp.
DO_NAMES = "do s { ; }"
DO = {
    "doexp": '(indent greater "do") (istmts / stmts)',
    "istmts": "indent greater (align stmt)+",
    "stmts": '(indent greater "{") (indent any (stmt (";" stmt)* ";"? "}"))',
    "stmt": '"s" / doexp',
}
# do^>: in 1.., do1 gives 1..1, out N with 0..0 = 0..0. istmts: in 1.., flag: s3 gives 3..3, the second
# s3 lies in 3..3. Out 0..0 with 0..2 = 0..0. The last round fails at 3, past the last token.
run("001 1 do block", "001 section 1, grammar of do", "two aligned statements", "success 3 0 0 clear 3",
    "doexp", "do1 s3 s3", DO, DO_NAMES)
# do4: out N with 0..3 = 0..3. istmts: in 1.., s3 3..3, s3 3..3, out 0..3 with 0..2 = 0..2. Again a round at 3.
run("001 1 do block left of do", "001 section 1, grammar of do", "block and do each bound the baseline",
    "success 3 0 2 clear 3", "doexp", "do4 s3 s3", DO, DO_NAMES)
# As the first, but s5 is not in 3..3 and is no doexp: the repeat ends before it, tried at 2.
run("001 1 do block ends early", "001 section 1, grammar of do", "an unaligned statement ends the block",
    "success 2 0 0 clear 2", "doexp", "do1 s3 s5", DO, DO_NAMES)
# do^> from N: in 1.. has no 0.
run("001 1 do at column 0", "001 section 1, grammar of do", "do must lie right of some baseline", "failure 0",
    "doexp", "do0 s3", DO, DO_NAMES)
# do1 0..0. istmts fails at {. stmts: {^> in 1.., {5 5..5, out 0..0. any: in N, s0 0..0, then ;9 is not
# in 0..0: the repeat and [;] read nothing, } meets the token ; and fails, all at 3. Nothing else is left.
run("001 1 braces in mode equal", "001 section 1, grammar of do", "any frees the baseline, not each token",
    "failure 3", "doexp", "do1 {5 s0 ;9 s2 }0", DO, DO_NAMES)
# The same with the contents in mode at least (2.1): any: in N, s2 0..2, ;9 0..2, s4 0..2, }0 0..0;
# out 0..0 with N = 0..0. At 5 stands the }, which both ; and } are tried at.
RELAXED = dict(DO, stmts='(indent greater "{") (indent any (position at-least (stmt (";" stmt)* ";"? "}")))')
run("001 2.1 braces in mode at-least", "001 section 2.1, token modes", "position relaxes a block's tokens",
    "success 6 0 0 clear 5", "doexp", "do1 {5 s2 ;9 s4 }0", RELAXED, DO_NAMES)
# Outer do1 0..0, istmts in 1... |stmt|: do^> in 2.., flag: do3 3..3, out 1.. with 0..2 = 1..2. Inner
# istmts: in 2.., s5 5..5; do4: do^> in 6.. has no 4, ends; out 1..2 with 0..4 = 1..2. Next |stmt| from
# 1..2: do^> in 2.., flag: do4 4..4, out 1..2 with 0..3 = 1..2; s6: in 2.., 6..6, out 1..2. Out 0..0 with
# 0..1. Both blocks end with a round at 5.
run("001 2.4 indented do under align", "001 sections 1 and 2.4 (3)", "an indent inside align moves the baseline",
    "success 5 0 0 clear 5", "doexp", "do1 do3 s5 do4 s6", DO, DO_NAMES)
# do is now a plain token in mode greater: do1 0..0; in 1.., flag: do3 3..3; in 4.., s5 5..5; do4 not in
# 5..5; out 3..3 with 0..4 = 3..3. do4 is not in 3..3 either: the block ends. Out 0..0 with 0..2 = 0..0. Nothing is
# tried behind do4.
MODE_DO = {"doexp": '"do" istmts', "istmts": "indent greater (align stmt)+", "stmt": '"s" / doexp'}
run("001 2.1 do in mode greater", "001 section 2.1, token modes", "with a token mode the nested do must align",
    "success 3 0 0 clear 3", "doexp", "do1 do3 s5 do4 s6", MODE_DO, DO_NAMES, mode=GREATER)
# As before up to 3..3; do3 lies in it; in 4.., s6 6..6, out 3..3 with 0..5 = 3..3; out 0..0. Rounds fail at 5.
run("001 2.1 do in mode greater aligned", "001 section 2.1, token modes", "an aligned nested do goes on",
    "success 5 0 0 clear 5", "doexp", "do1 do3 s5 do3 s6", MODE_DO, DO_NAMES, mode=GREATER)

# ---- 001, section 2.1: the toy example and its steps ----

TOY = "indent greater (align (a b))"
# Clause 8: in 1... Clause 10 sets the flag. Clause 2: a2 2..2; b3 in mode at least: 3 >= 2, 2..2 with
# 0..3 = 2..2. Out N with 0..1 = 0..1.
run("001 2.1 worked example", "001 section 2.1, the toy example", "indent greater (align (a b)) in mode at-least",
    "success 2 0 1 clear 1", TOY, "a2 b3", mode=AT_LEAST)
# From 1.. as the example's first step: flag: a2 2..2, b3 2..2; flag before was clear.
run("001 2.1 worked example align step", "001 section 2.1, the toy example", "align (a b) from 1 on",
    "success 2 2 2 clear 1", "align (a b)", "a2 b3", low=1, mode=AT_LEAST)
# The same with the flag set from outside.
run("001 2.1 worked example sequence step", "001 section 2.1, the toy example", "a b with the flag set",
    "success 2 2 2 clear 1", "a b", "a2 b3", low=1, flag=1, mode=AT_LEAST)
# Second token only, from 2..2: 3 >= 2, 2..2 with 0..3 = 2..2.
run("001 2.1 worked example b step", "001 section 2.1, the toy example", "b from place 1, interval 2 to 2",
    "success 1 2 2 clear 1", "b", "a2 b3", low=2, high=2, mode=AT_LEAST, place=1)
# a2 2..2; b1 is not in 2...
run("001 2.1 toy with b left of a", "001 section 2.1, the toy example", "mode at-least holds the second token back",
    "failure 1", TOY, "a2 b1", mode=AT_LEAST)
# Node 0 is rule 0 and rule 0 is node 0: the least well-formed set never gets it.
run("001 2.1 divergence", "001 section 2.1, circular dependencies", "X = X has no outcome and is not well formed",
    "refused 7 0", "X", "a0", "X = X")

# ---- 001, section 2.2: theorem 2.1 ----

# The child fails at b, so the repeat hands its state on, flag included.
run("001 2.2 nothing read", "001 theorem 2.1", "a state that reads nothing keeps interval and flag",
    "success 0 4 9 set 0", "a*", "b4", low=4, high=9, flag=1, mode=AT_LEAST)
# flag: a4 4..4, clear; then a6 >= 4, 4..4 with 0..6 = 4..4; then a fails at 2.
run("001 2.2 something read", "001 theorem 2.1", "reading clears the flag", "success 2 4 4 clear 2",
    "a*", "a4 a6", low=4, high=9, flag=1, mode=AT_LEAST)

# ---- 001, section 2.3: equivalences, each side by itself ----


def pair(name, source, shows, expected, left, right, tokens, **more):
    """The two sides of a law, a run each, with the same outcome."""
    run(f"001 2.3 {name} left", source, shows, expected, left, tokens, **more)
    run(f"001 2.3 {name} right", source, shows, expected, right, tokens, **more)


# The plain laws named before theorem 2.3.
PLAIN = "001 section 2.3, before theorem 2.3"

# In 2.., a3 3..3, out 1..6 with 0..2 = 1..2; the empty behind it keeps that.
# Right: the same without the empty.
pair("empty behind an indent", PLAIN, "p empty and p, p = a^>", "success 1 1 2 clear 0",
     "(indent greater a) empty", "indent greater a", "a3", low=1, high=6)
# flag: 6 is not in 3..5, so not succeeds with the old state, flag set; the empty keeps it.
# Right: not by itself hands the same state on.
pair("empty behind a not", PLAIN, "p empty and p, p = !a, flag set", "success 0 3 5 set 0",
     "!a empty", "!a", "a6", low=3, high=5, flag=1, mode=AT_LEAST)
# Mode greater: 4 is not in 5.., a fails and so does the sequence.
# Right: a fails by itself.
pair("empty behind a failure", PLAIN, "p empty and p, p = a left of the mode", "failure 0",
     "a empty", "a", "a4", low=4, high=4, mode=GREATER)
# The empty keeps 2..6 and clear; align: flag: a6 in 2..6, 6..6.
# Right: the align from the same state.
pair("empty before an align", PLAIN, "empty p and p, p = |a|", "success 1 6 6 clear 0",
     "empty align a", "align a", "a6", low=2, high=6, mode=ANY)
# The empty leaves the flag set: a2 in 1..3, 2..2, clear; then a1 is not in 2..: the repeat ends.
# Right: the repeat starts with the flag set too.
pair("empty before a repeat", PLAIN, "empty p and p, p = a*, flag set", "success 1 2 2 clear 1",
     "empty a*", "a*", "a2 a1", low=1, high=3, flag=1, mode=AT_LEAST)
# The empty keeps the state; in 4.., flag: 3 is not in it.
# Right: the same in 4...
pair("empty before a failure", PLAIN, "empty p and p, p = a^> at the baseline", "failure 0",
     "empty indent greater a", "indent greater a", "a3", low=3, high=3, flag=1)

# a4 N with 0..4 = 0..4. b^>: in 1.., b3 >= 1, 1..3, out 0..4 with 0..2 = 0..2. c1 >= 0, 0..1.
# Right: a and b^> come to 0..2 first, then c.
pair("sequence grouping", PLAIN, "p(qr) and (pq)r, q = b^>", "success 3 0 1 clear 2",
     "a (indent greater b) c", "(a indent greater b) c", "a4 b3 c1", mode=AT_LEAST)
# !b meets a and holds, flag still set; flag: a3 in 2..6, 3..3; mode greater: b4 in 4.., 3..3 with 0..3.
# Right: !b and a come to 3..3 first, then b.
pair("sequence grouping with flag", PLAIN, "p(qr) and (pq)r, p = !b, flag set", "success 2 3 3 clear 1",
     "!b a b", "(!b a) b", "a3 b4", low=2, high=6, flag=1, mode=GREATER)
# a2 in 1..5, 2..2; |b|: flag: b2 in 2..2; c3 is not in 2..2.
# Right: a and |b| read, then c fails the same way.
pair("sequence grouping failing", PLAIN, "p(qr) and (pq)r, c off the baseline", "failure 2",
     "a (align b) c", "(a align b) c", "a2 b2 c3", low=1, high=5)

# p = ab, q = ac, r = a: p: a4 2..4, b meets c. q from 2..9: a4 2..4, c3 >= 2, 2..3.
# Right: p/q is p failing and q giving 2..3; r is not tried.
pair("choice grouping", PLAIN, "p/(q/r) and (p/q)/r, q taken", "success 2 2 3 clear 1",
     "a b / a c / a", "(a b / a c) / a", "a4 c3", low=2, high=9, mode=AT_LEAST)
# p = b meets a. q = a^>: in 3.. has no 2. r = a from the old state, flag: a2 in 2..6, 2..2.
# Right: p/q fails, so r from the old state.
pair("choice grouping with flag", PLAIN, "p/(q/r) and (p/q)/r, r taken, flag set", "success 1 2 2 clear 0",
     "b / indent greater a / a", "(b / indent greater a) / a", "a2", low=2, high=6, flag=1)
# Mode greater. p = a^>: in 5.., 4 is not in 6... q = ab: 4 is not in 5... r = |a^>|: in 5.., flag: no 4.
# Right: the same three failures.
pair("choice grouping failing", PLAIN, "p/(q/r) and (p/q)/r, none fits", "failure 0",
     "indent greater a / a b / align (indent greater a)", "(indent greater a / a b) / align (indent greater a)",
     "a4 b4", low=4, high=4, mode=GREATER)

# p = a, q = b|c|, r = b: a5 0..5; q: b3 0..3, flag: c4 is not in 0..3, tried at 2; r from 0..5: b3 0..3.
# Right: pq fails at c; pr from N: a5 0..5, b3 0..3.
pair("sequence over choice", PLAIN, "p(q/r) and pq/pr, r taken", "success 2 0 3 clear 2",
     "a (b align c / b)", "a b align c / a b", "a5 b3 c4", mode=AT_LEAST)
# !b holds, flag still set; a^>: in 3.. has no 2; a: flag: 2 in 2..6, 2..2.
# Right: !b a^> fails; !b a from the old state, flag set, gives 2..2.
pair("sequence over choice with flag", PLAIN, "p(q/r) and pq/pr, p = !b, flag set", "success 1 2 2 clear 0",
     "!b (indent greater a / a)", "!b indent greater a / !b a", "a2", low=2, high=6, flag=1)
# a3 3..3; b^>: in 4.. has no 2; |b|: 2 is not in 3..3.
# Right: a is read twice, 3..3 each time, and b fails each time.
pair("sequence over choice failing", PLAIN, "p(q/r) and pq/pr, b left of a", "failure 1",
     "a (indent greater b / align b)", "a indent greater b / a align b", "a3 b2", low=1, high=4)

# p = a|b|, q = a: a4 2..4, flag: b5 is not in 2..4, tried at 1; q from 2..9: a4 2..4.
# Right: p fails, so !p holds in the old 2..9; then q.
pair("choice with a not", PLAIN, "p/q and p/!pq, q taken", "success 1 2 4 clear 1",
     "a align b / a", "a align b / !(a align b) a", "a4 b5", low=2, high=9, mode=AT_LEAST)
# p = a^>: in 2.., flag: a3 3..3, out 1..5 with 0..2 = 1..2.
# Right: p succeeds, so !p is not reached.
pair("choice with a not first taken", PLAIN, "p/q and p/!pq, p taken, flag set", "success 1 1 2 clear 0",
     "indent greater a / a", "indent greater a / !(indent greater a) a", "a3", low=1, high=5, flag=1)
# p = b meets a; q = !b holds in the old state, flag set.
# Right: !b holds and then !b again, nothing changed.
pair("choice with a not nothing read", PLAIN, "p/q and p/!pq, q = !b, flag set", "success 0 3 7 set 0",
     "b / !b", "b / !b !b", "a1", low=3, high=7, flag=1)
# p = a^>: in 4.., mode greater 5.., no 2; q = |a|: 2 is not in 3..3.
# Right: !p holds, then |a| fails.
pair("choice with a not failing", PLAIN, "p/q and p/!pq, neither fits", "failure 0",
     "indent greater a / align a", "indent greater a / !(indent greater a) align a", "a2", low=3, high=3, mode=GREATER)

# Theorem 2.3, empty. No terminal is tried: the farthest place is the start place.
# Empty under each of the three: in 4.., out 3..7 with 0.. = 3..7; align: set and set is set.
for name, e in (("position", "position greater empty"), ("indent", "indent greater empty"), ("align", "align empty")):
    run(f"001 2.3 empty under {name}", "001 theorem 2.3", "empty changes nothing", "success 0 3 7 set 0",
        e, "a0", low=3, high=7, flag=1)
# The right side of the three laws: clause 1 hands 3..7 and the set flag on.
run("001 2.3 empty by itself", "001 theorem 2.3", "empty changes nothing", "success 0 3 7 set 0",
    "empty", "a0", low=3, high=7, flag=1)
# No tokens. Position any: only the mode changes. Indent any: in N, out N with N = N.
# Align: set inside, clear before, so clear.
for name, e in (("position", "position any empty"), ("indent", "indent any empty"), ("align", "align empty")):
    run(f"001 2.3 empty under {name} without tokens", "001 theorem 2.3", "empty needs no token",
        "success 0 0 inf clear 0", e)
# The right side again: N and clear stay.
run("001 2.3 empty by itself without tokens", "001 theorem 2.3", "empty needs no token",
    "success 0 0 inf clear 0", "empty")
# From place 1, where a5 stands unread. Position at least: only the mode changes.
# Indent at least: in 5.., out 5..5 with 0.. = 5..5. Align: set inside, clear before, so clear.
for name, e in (("position", "position at-least empty"), ("indent", "indent at-least empty"), ("align", "align empty")):
    run(f"001 2.3 empty under {name} from place 1", "001 theorem 2.3", "no token is read from place 1 on",
        "success 0 5 5 clear 1", e, "a0 a5", low=5, high=5, mode=GREATER, place=1)
# The right side again: 5..5 and clear stay, nothing read.
run("001 2.3 empty by itself from place 1", "001 theorem 2.3", "no token is read from place 1 on",
    "success 0 5 5 clear 1", "empty", "a0 a5", low=5, high=5, mode=GREATER, place=1)

# Theorem 2.3 (1), position.
# Mode greater for both: a5 N with 0..4 = 0..4; b3 >= 1, 0..4 with 0..2 = 0..2.
# Right: each terminal has its own position greater.
pair("position over sequence", "001 theorem 2.3 (1)", "(pq)_> and p_> q_>", "success 2 0 2 clear 1",
     "position greater (a b)", "(position greater a) (position greater b)", "a5 b3")
# flag: a3 in 2..6, 3..3, clear; mode any: b0 leaves 3..3.
# Right: a_any under the flag gives 3..3, b_any keeps it.
pair("position over sequence with flag", "001 theorem 2.3 (1)", "(pq)_any and p_any q_any, flag set",
     "success 2 3 3 clear 1", "position any (a b)", "(position any a) (position any b)", "a3 b0", low=2, high=6, flag=1)
# Mode greater, not any: a5 in 3.., 2..6 with 0..4 = 2..4; b2 is not in 3...
# Right: b_> fails from 2..4 too.
pair("position over sequence failing", "001 theorem 2.3 (1)", "(pq)_> and p_> q_>, b at the baseline", "failure 1",
     "position greater (a b)", "(position greater a) (position greater b)", "a5 b2", low=2, high=6, mode=ANY)
# p = ab, q = a, mode at least: a4 2..4, b1 is not in 2..; q from 2..9: a4 2..4. (Mode equal: 4..4.)
# Right: p_>= fails at b, q_>= gives 2..4.
pair("position over choice", "001 theorem 2.3 (1)", "(p/q)_>= and p_>=/q_>=", "success 1 2 4 clear 1",
     "position at-least (a b / a)", "position at-least (a b) / position at-least a", "a4 b1", low=2, high=9)
# b meets a; a under the flag: 6 in 2..6, 6..6. (Without the flag mode greater would give 2..5.)
# Right: b_> fails, a_> under the flag gives 6..6.
pair("position over choice with flag", "001 theorem 2.3 (1)", "(p/q)_> and p_>/q_>, flag set", "success 1 6 6 clear 0",
     "position greater (b / a)", "position greater b / position greater a", "a6", low=2, high=6, flag=1, mode=AT_LEAST)
# Mode greater: 4 is not in 5.., so ab and a both fail. (The outer mode any would take it.)
# Right: (ab)_> and a_> both fail.
pair("position over choice failing", "001 theorem 2.3 (1)", "(p/q)_> and p_>/q_>, a at the baseline", "failure 0",
     "position greater (a b / a)", "position greater (a b) / position greater a", "a4 b5", low=4, high=4, mode=ANY)
# Mode greater: a4 is not in 5.., so not succeeds (in mode at least a4 would have matched).
# Right: a_> fails, so not succeeds with the old state.
pair("position over not", "001 theorem 2.3 (1)", "(!p)_> and !(p_>)", "success 0 4 4 clear 0",
     "position greater !a", "!(position greater a)", "a4", low=4, high=4, mode=AT_LEAST)
# Mode any: a0 matches, so not fails (in mode equal 0 is not in 4..4).
# Right: a_any matches, so not fails.
pair("position over not failing", "001 theorem 2.3 (1)", "(!p)_any and !(p_any), p matches", "failure 0",
     "position any !a", "!(position any a)", "a0", low=4, high=4)
# flag: 5 is not in 2..3 whatever the mode; not hands the old state on, flag set.
# Right: a_any fails under the flag too.
pair("position over not with flag", "001 theorem 2.3 (1)", "(!p)_any and !(p_any), flag set", "success 0 2 3 set 0",
     "position any !a", "!(position any a)", "a5", low=2, high=3, flag=1)
# Mode any: a0 and a9 match and leave 2..2; then b, where a fails at 2.
# Right: each round is in mode any.
pair("position over repeat", "001 theorem 2.3 (1)", "(p*)_any and (p_any)*", "success 2 2 2 clear 2",
     "position any a*", "(position any a)*", "a0 a9 b2", low=2, high=2)
# flag: a4 in 1..9, 4..4; mode greater: a6 in 5.., 4..4 with 0..5 = 4..4; a4 is not in 5..: ends.
# Right: a_> under the flag 4..4, a_> 4..4, then a_> fails.
pair("position over repeat with flag", "001 theorem 2.3 (1)", "(p*)_> and (p_>)*, flag set", "success 2 4 4 clear 2",
     "position greater a*", "(position greater a)*", "a4 a6 a4", low=1, high=9, flag=1)
# Mode greater: 5 is not in 6.., no round; the old state. (Mode at least would read it.)
# Right: a_> fails at once.
pair("position over repeat without a round", "001 theorem 2.3 (1)", "(p*)_> and (p_>)*, nothing read",
     "success 0 5 5 clear 0", "position greater a*", "(position greater a)*", "a5", low=5, high=5, mode=AT_LEAST)
# Indent greater: in 2..; mode at least: a5 2..5; out 1..6 with 0..4 = 1..4.
# Right: in 2.. first, then mode at least: the same 2..5 and way out.
pair("position over indent", "001 theorem 2.3 (1) and (2)", "(p^>)_>= and (p_>=)^>", "success 1 1 4 clear 0",
     "position at-least (indent greater a)", "indent greater (position at-least a)", "a5", low=1, high=6)
# In 2.., flag: a4 4..4; mode greater: b5 in 5.., 4..4 with 0..4 = 4..4; out 2..6 with 0..4 = 2..4.
# Right: the position stands inside the indent, both tokens are in it.
pair("position over indent with flag", "001 theorem 2.3 (1) and (2)", "(p^>=)_> and (p_>)^>=, flag set",
     "success 2 2 4 clear 1", "position greater (indent at-least (a b))", "indent at-least (position greater (a b))",
     "a4 b5", low=2, high=6, flag=1)
# In 4..; mode greater: 4 is not in 5...
# Right: in 4.., a_> needs 5...
pair("position over indent failing", "001 theorem 2.3 (1) and (2)", "(p^>)_> and (p_>)^>, one column short",
     "failure 0", "position greater (indent greater a)", "indent greater (position greater a)",
     "a4", low=3, high=3, mode=ANY)
# Any: in N; mode equal: a0 0..0; out 5..5 with N = 5..5. (The outer mode greater would not take a0.)
# Right: in N, a_= 0..0, out 5..5.
pair("position over indent any", "001 theorem 2.3 (1) and (2)", "(p^any)_= and (p_=)^any", "success 1 5 5 clear 0",
     "position equal (indent any a)", "indent any (position equal a)", "a0", low=5, high=5, mode=GREATER)

# Theorem 2.3 (2), indent.
# p = ab, q = a: in 3.., a4 4..4, b5 fails; q from 3..: a4 4..4; out 2..5 with 0..3 = 2..3.
# Right: p^> fails; q^> from 2..5: in 3.., 4..4, out 2..3.
pair("indent over choice", "001 theorem 2.3 (2)", "(p/q)^> and p^>/q^>", "success 1 2 3 clear 1",
     "indent greater (a b / a)", "indent greater (a b) / indent greater a", "a4 b5", low=2, high=5)
# p = a^>, q = a. At least: in 3..; p: in 4.. has no 3; q: flag: 3..3; out 3..8 with 0..3 = 3..3.
# Right: (a^>)^>= fails the same way; a^>=: in 3.., 3..3, out 3..3.
pair("indent over choice with flag", "001 theorem 2.3 (2)", "(p/q)^>= and p^>=/q^>=, flag set", "success 1 3 3 clear 0",
     "indent at-least (indent greater a / a)", "indent at-least (indent greater a) / indent at-least a",
     "a3", low=3, high=8, flag=1, mode=GREATER)
# In 5.., mode at least: a4 is not in 5..; q = b meets a.
# Right: (ab)^> fails in 5.., b^> meets a.
pair("indent over choice failing", "001 theorem 2.3 (2)", "(p/q)^> and p^>/q^>, a at the baseline", "failure 0",
     "indent greater (a b / b)", "indent greater (a b) / indent greater b", "a4 b6", low=4, high=4, mode=AT_LEAST)
# In N; b meets a; a0 0..0; out 6..6 with N = 6..6.
# Right: b^any fails; a^any: in N, 0..0, out 6..6.
pair("indent any over choice", "001 theorem 2.3 (2)", "(p/q)^any and p^any/q^any", "success 1 6 6 clear 0",
     "indent any (b / a)", "indent any b / indent any a", "a0", low=6, high=6)
# In 5.. has no 4, a fails, not hands 5.. on; out 4..4 with 0.. = 4..4. (!a without the indent fails.)
# Right: a^> fails, not hands the old 4..4 on.
pair("indent over not", "001 theorem 2.3 (2)", "(!p)^> and !(p^>)", "success 0 4 4 clear 0",
     "indent greater !a", "!(indent greater a)", "a4", low=4, high=4)
# In 3.., flag: 3 lies in it, a succeeds and not fails. (Without the flag mode greater needs 4...)
# Right: a^> succeeds, so not fails.
pair("indent over not failing", "001 theorem 2.3 (2)", "(!p)^> and !(p^>), p matches under the flag", "failure 0",
     "indent greater !a", "!(indent greater a)", "a3", low=2, high=6, flag=1, mode=GREATER)
# In 5.., flag: 4 is not in it, not hands 5.. and set on; out 5..7 with 0.. = 5..7; flag set.
# Right: a^>= fails, not hands 5..7 and set on.
pair("indent over not with flag", "001 theorem 2.3 (2)", "(!p)^>= and !(p^>=), flag set", "success 0 5 7 set 0",
     "indent at-least !a", "!(indent at-least a)", "a4", low=5, high=7, flag=1)

# Theorem 2.3 (3), align.
# p = ab, q = a: flag: a4 4..4, b3 not in 4..; q from 2..9, flag: a4 4..4.
# Right: |p| fails at b; |q| sets the flag anew.
pair("align over choice", "001 theorem 2.3 (3)", "|p/q| and |p|/|q|", "success 1 4 4 clear 1",
     "align (a b / a)", "align (a b) / align a", "a4 b3", low=2, high=9, mode=AT_LEAST)
# b meets a; !b holds, nothing read; the flag is set before and at the inner end: set.
# Right: |b| fails; |!b| gives set and set.
pair("align over choice with flag", "001 theorem 2.3 (3)", "|p/q| and |p|/|q|, q = !b, flag set", "success 0 2 9 set 0",
     "align (b / !b)", "align b / align !b", "a4", low=2, high=9, flag=1, mode=AT_LEAST)
# p = a^>: in 4.. has no 2. q = a: flag: 2 is not in 3..4, though the mode is any.
# Right: |a^>| and |a| fail for the same columns.
pair("align over choice failing", "001 theorem 2.3 (3)", "|p/q| and |p|/|q|, a left of the baseline", "failure 0",
     "align (indent greater a / a)", "align (indent greater a) / align a", "a2", low=3, high=4, mode=ANY)
# flag: a5 not in 2..3, so not succeeds with the old state; flag clear before, so clear after.
# Right: |a| fails, not hands 2..3 and clear on.
pair("align over not", "001 theorem 2.3 (3)", "|!p| and !|p|", "success 0 2 3 clear 0",
     "align !a", "!(align a)", "a5", low=2, high=3, mode=AT_LEAST)
# flag: 4 lies in 4..4, so not fails. (Mode greater without the flag needs 5...)
# Right: |a| succeeds, so not fails.
pair("align over not failing", "001 theorem 2.3 (3)", "|!p| and !|p|, p matches", "failure 0",
     "align !a", "!(align a)", "a4", low=4, high=4, mode=GREATER)
# flag: 0 is not in 2..3, not hands the state on with the flag set; set before, so set.
# Right: |a| fails, not hands 2..3 and set on.
pair("align over not with flag", "001 theorem 2.3 (3)", "|!p| and !|p|, flag set", "success 0 2 3 set 0",
     "align !a", "!(align a)", "a0", low=2, high=3, flag=1, mode=ANY)
# flag: a3 in 2..6, 3..3, clear; mode any: b0 leaves 3..3. (The outer mode greater would not take b0.)
# Right: the position stands outside, both tokens are in it all the same.
pair("align over position", "001 theorem 2.3 (3)", "|p_any| and |p|_any", "success 2 3 3 clear 1",
     "align (position any (a b))", "position any (align (a b))", "a3 b0", low=2, high=6, mode=GREATER)
# flag: a4 4..4; mode greater: b4 is not in 5.., though the outer mode is any.
# Right: b is in mode greater there too.
pair("align over position failing", "001 theorem 2.3 (3)", "|p_>| and |p|_>, b at the baseline", "failure 1",
     "align (position greater (a b))", "position greater (align (a b))", "a4 b4", low=1, high=7, mode=ANY)
# flag: 6 is not in 3..5 (mode at least would take it): no round, flag set; set before, so set.
# Right: the same repeat in mode at least under the flag.
pair("align over position with flag", "001 theorem 2.3 (3)", "|p_>=| and |p|_>=, p = a*, flag set",
     "success 0 3 5 set 0", "align (position at-least a*)", "position at-least (align a*)", "a6", low=3, high=5, flag=1)

# (pq)^> against p^> q^>: not equal.
JOINT, APART = "indent greater (a b)", "(indent greater a) (indent greater b)"
SPLIT = "001 section 2.3, after theorem 2.3"
# In 1.., a1 1..1, b2 not in 1..1.
run("001 2.3 indent over sequence left", SPLIT, "one baseline for both", "failure 1", JOINT, "a1 b2")
# a^>: 1..1, out N with 0..0 = 0..0; b^>: in 1.., b2 2..2, out 0..0 with 0..1 = 0..0.
run("001 2.3 indent over sequence right", SPLIT, "a baseline for each", "success 2 0 0 clear 1", APART, "a1 b2")
# In 1.., a5 5..5, b3 fails.
run("001 2.3 indent over falling sequence left", SPLIT, "one baseline for both", "failure 1", JOINT, "a5 b3")
# a^>: out N with 0..4 = 0..4; b^>: in 1.., b3 3..3, out 0..4 with 0..2 = 0..2.
run("001 2.3 indent over falling sequence right", SPLIT, "a baseline for each", "success 2 0 2 clear 1", APART, "a5 b3")
# In 3.., flag: a4 lies in it, 4..4, clear.
# Mode at least: b3 is not in 4.., so the sequence and the indent fail.
run("001 2.3 indent over falling sequence with flag left", SPLIT, "one baseline for both, flag set",
    "failure 1", JOINT, "a4 b3", low=2, high=6, flag=1, mode=AT_LEAST)
# a^>: in 3.., flag: 4..4, out 2..6 with 0..3 = 2..3, clear. b^>: in 3.., b3 >= 3, 3..3, out 2..3 with
# 0..2 = 2..2.
run("001 2.3 indent over falling sequence with flag right", SPLIT, "a baseline for each, flag set",
    "success 2 2 2 clear 1", APART, "a4 b3", low=2, high=6, flag=1, mode=AT_LEAST)
# In 1.., a1 1..1, b1 1..1, out N with 0..0 = 0..0.
# Right: a^> gives 0..0, then in 1.., b1 1..1, out 0..0: here they agree.
pair("indent over level sequence", SPLIT, "equal on tokens of one column", "success 2 0 0 clear 1",
     JOINT, APART, "a1 b1")
# In 3.., flag: a4 4..4; b5 >= 4, 4..4 with 0..5 = 4..4; out 2..6 with 0..3 = 2..3.
# Right: a^> 2..3 and clear; b^>: in 3.., 3.. with 0..5 = 3..5, out 2..3 with 0..4 = 2..3: they agree.
pair("indent over rising sequence with flag", SPLIT, "equal where the first token sets the bound",
     "success 2 2 3 clear 1", JOINT, APART, "a4 b5", low=2, high=6, flag=1, mode=AT_LEAST)
# In 3.., mode equal: 2 is not in it.
# Right: a^> fails in 3.. too.
pair("indent over sequence at the baseline", SPLIT, "equal where the first part fails", "failure 0",
     JOINT, APART, "a2 b2", low=2, high=2)

# Theorem 2.4.
# In 2..8; a6 2..6; b5 >= 2, 2..5; out 2..8 with 2..5 = 2..5.
# Right: the same without way in and out.
pair("identity indentation", "001 theorem 2.4 (1)", "p^= and p", "success 2 2 5 clear 1",
     "indent equal (a b)", "a b", "a6 b5", low=2, high=8, mode=AT_LEAST)
# In 2..6; flag: a2 2..2; mode greater: b3 in 3.., 2..2 with 0..2 = 2..2; out 2..6 with 2..2 = 2..2.
# Right: from 2..6 at once, 2..2.
pair("identity indentation with flag", "001 theorem 2.4 (1)", "p^= and p, flag set", "success 2 2 2 clear 1",
     "indent equal (a b)", "a b", "a2 b3", low=2, high=6, flag=1, mode=GREATER)
# In 2..6 keeps the upper end: 7 is not in it.
# Right: 7 is not in 2..6.
pair("identity indentation failing", "001 theorem 2.4 (1)", "p^= and p, a right of the interval", "failure 0",
     "indent equal a", "a", "a7", low=2, high=6)
# At least: in 2..; greater: in 3.., a5 5..5, out 2.. with 0..4 = 2..4; out 2..6 with 0..4 = 2..4.
# Right: in 3.., 5..5, out 2..6 with 0..4.
pair("composition", "001 theorem 2.4 (2)", "(p^>)^>= and p^>", "success 1 2 4 clear 0",
     "indent at-least (indent greater a)", "indent greater a", "a5", low=2, high=6)
# Greater: in 3..; at least: in 3.., flag: a3 3..3, out 3.. with 0..3 = 3..3; out 2..6 with 0..2 = 2..2.
# Right: in 3.., 3..3, out 2..6 with 0..2 = 2..2.
pair("composition with flag", "001 theorem 2.4 (2)", "(p^>=)^> and p^>, flag set", "success 1 2 2 clear 0",
     "indent greater (indent at-least a)", "indent greater a", "a3", low=2, high=6, flag=1, mode=AT_LEAST)
# At least: in 2..; greater: in 3.. has no 2.
# Right: in 3.. has no 2.
pair("composition failing", "001 theorem 2.4 (2)", "(p^>)^>= and p^>, a at the baseline", "failure 0",
     "indent at-least (indent greater a)", "indent greater a", "a2", low=2, high=6)
# At least twice: in 2.., in 2.., a5 5..5, out 2.. with 0..5 = 2..5; out 2..6 with 0..5 = 2..5.
# Right: in 2.., 5..5, out 2..6 with 0..5 = 2..5.
pair("composition of at-least", "001 theorem 2.4 (2)", "(p^>=)^>= and p^>=", "success 1 2 5 clear 0",
     "indent at-least (indent at-least a)", "indent at-least a", "a5", low=2, high=6)
# Greater: in 3..; any: in N, a0 0..0, out 3.. with N = 3..; out 2..6 with 0.. = 2..6.
# Right: in N, 0..0, out 2..6 with N.
pair("composition with any", "001 theorem 2.4 (2)", "(p^any)^> and p^any", "success 1 2 6 clear 0",
     "indent greater (indent any a)", "indent any a", "a0", low=2, high=6)
# Greater: in 3..; any: in N, flag: a0 0..0, b1 >= 0, 0..0; out 3.. with N = 3..; out 2..6 with 0.. = 2..6.
# Right: in N, 0..0, 0..0, out 2..6.
pair("composition with any and flag", "001 theorem 2.4 (2)", "(p^any)^> and p^any, flag set", "success 2 2 6 clear 1",
     "indent greater (indent any (a b))", "indent any (a b)", "a0 b1", low=2, high=6, flag=1, mode=AT_LEAST)
# Greater: in 3..; any: in N; mode greater: 0 is not in 1...
# Right: in N; 0 is not in 1...
pair("composition with any failing", "001 theorem 2.4 (2)", "(p^any)^> and p^any, a left of all", "failure 0",
     "indent greater (indent any a)", "indent any a", "a0", low=2, high=6, mode=GREATER)
# Any: in N; at least: in N; mode greater: a1 N with 0..0 = 0..0, out N with 0..0; out 5..5 with N = 5..5.
# Right: in N, 0..0, out 5..5 with N.
pair("composition under any", "001 theorem 2.4 (2)", "(p^>=)^any and p^any", "success 1 5 5 clear 0",
     "indent any (indent at-least a)", "indent any a", "a1", low=5, high=5, mode=GREATER)
# In 2.., flag: a4 4..4, b4 >= 4, 4..4; out 1..1 with 0..3 = 1..1. (000 would fail on the right.)
# Right: the flag first, then in 2.., 4..4 and the same way out.
pair("indentation and alignment", "001 theorem 2.4 (3)", "|p|^> and |p^>|", "success 2 1 1 clear 1",
     "indent greater (align (a b))", "align (indent greater (a b))", "a4 b4", low=1, high=1, mode=AT_LEAST)
# In 4.., flag: 3 is not in it, though the mode is any.
# Right: the flag first, then in 4.. has no 3. (000 would take it.)
pair("indentation and alignment failing", "001 theorem 2.4 (3)", "|p|^> and |p^>|, a at the baseline", "failure 0",
     "indent greater (align (a b))", "align (indent greater (a b))", "a3 b3", low=3, high=3, mode=ANY)
# In N, flag: a0 0..0; mode greater: b1 in 1.., 0..0 with 0..0; out 2..6 with N = 2..6.
# Right: the flag first, then in N, 0..0, out 2..6; the flag is clear inside.
pair("indentation and alignment with flag", "001 theorem 2.4 (3)", "|p|^any and |p^any|, flag set",
     "success 2 2 6 clear 1", "indent any (align (a b))", "align (indent any (a b))",
     "a0 b1", low=2, high=6, flag=1, mode=GREATER)
# In 4.., flag: 3 is not in it, !a holds: 4.. and set; set before; out 4..6 with 0.. = 4..6, set.
# Right: !a in 4.., out 4..6, set inside and before.
pair("indentation and alignment nothing read", "001 theorem 2.4 (3)", "|p|^>= and |p^>=|, p = !a, flag set",
     "success 0 4 6 set 0", "indent at-least (align !a)", "align (indent at-least !a)",
     "a3", low=4, high=6, flag=1, mode=ANY)
# flag: a4 4..4; mode greater: b5 in 5.., 4..4 with 0..4 = 4..4.
# Right: one align sets the flag just as well.
pair("alignment twice", "001 theorem 2.4 (4)", "||p|| and |p|", "success 2 4 4 clear 1",
     "align (align (a b))", "align (a b)", "a4 b5", mode=GREATER)
# flag: 3 is not in 4..6, no round; inner align: set and set; outer: set and set.
# Right: set and set once.
pair("alignment twice with flag", "001 theorem 2.4 (4)", "||p|| and |p|, p = a*, flag set", "success 0 4 6 set 0",
     "align (align a*)", "align a*", "a3", low=4, high=6, flag=1, mode=AT_LEAST)
# !b holds, nothing read; inner align: set and set = set; outer: clear and set = clear.
# Right: clear and set = clear.
pair("alignment twice nothing read", "001 theorem 2.4 (4)", "||p|| and |p|, p = !b", "success 0 2 6 clear 0",
     "align (align !b)", "align !b", "a9", low=2, high=6, mode=AT_LEAST)
# In 3.. has no 2, so the indent and both aligns fail.
# Right: the same 3.. under one align.
pair("alignment twice failing", "001 theorem 2.4 (4)", "||p|| and |p|, p = a^> at the baseline", "failure 0",
     "align (align (indent greater a))", "align (indent greater a)", "a2", low=2, high=2, mode=ANY)
# Mode equal is the inner one: a4 in 3..5, 4..4.
# Right: mode equal in place of greater: 4..4.
pair("position twice", "001 theorem 2.4 (5)", "(p_=)_any and p_=", "success 1 4 4 clear 0",
     "position any (position equal a)", "position equal a", "a4", low=3, high=5, mode=GREATER)
# Mode greater is the inner one: 3 is not in 4.. (any and at least would take it).
# Right: 3 is not in 4...
pair("position twice failing", "001 theorem 2.4 (5)", "(p_>)_any and p_>, a at the baseline", "failure 0",
     "position any (position greater a)", "position greater a", "a3", low=3, high=5, mode=AT_LEAST)
# flag: a6 in 2..6, 6..6; mode any is the inner one: b0 leaves 6..6.
# Right: 6..6, then b0 in mode any.
pair("position twice with flag", "001 theorem 2.4 (5)", "(p_any)_> and p_any, flag set", "success 2 6 6 clear 1",
     "position greater (position any (a b))", "position any (a b)", "a6 b0", low=2, high=6, flag=1)
# flag: a4 in 2..6, 4..4.
# Right: mode equal: a4 in 2..6, met with 4..4.
pair("terminal alignment", "001 theorem 2.4 (6)", "|a| and a_=", "success 1 4 4 clear 0",
     "align a", "position equal a", "a4", low=2, high=6, mode=AT_LEAST)
# flag: 7 is not in 2..6, though the mode is any.
# Right: mode equal: 7 is not in 2..6.
pair("terminal alignment failing", "001 theorem 2.4 (6)", "|a| and a_=, a right of the interval", "failure 0",
     "align a", "position equal a", "a7", low=2, high=6, mode=ANY)
# From 5.., flag set: a5 lies in it, 5..5, clear inside and so after.
# Right: the flag is set: 5 in 5.., 5..5.
pair("terminal alignment with flag", "001 theorem 2.4 (6)", "|a| and a_=, flag set, from 5 on", "success 1 5 5 clear 0",
     "align a", "position equal a", "a5", low=5, flag=1, mode=GREATER)

# Theorem 2.5.
# The flag is set, !b holds, flag: a4 4..4.
# Right: |!b| hands clear on, |a| sets the flag anew and gives 4..4.
pair("align over empty first part", "001 theorem 2.5 (1)", "|pq| and |p||q|, p reads nothing", "success 1 4 4 clear 0",
     "align (!b a)", "(align !b) (align a)", "a4", low=2, high=6, mode=AT_LEAST)
# p = !!a, q = ab: flag: 3 in 2..6, so !a fails and !!a holds, flag set; a3 3..3; b4 in 4.., 3..3.
# Right: |!!a| leaves the flag set (set and set); |ab| gives 3..3.
pair("align over empty first part with flag", "001 theorem 2.5 (1) and section 3, stage 2",
     "|!!aq| and |!!a||q|, flag set", "success 2 3 3 clear 1", "align (!!a a b)", "(align !!a) (align (a b))",
     "a3 b4", low=2, high=6, flag=1, mode=GREATER)
# !b holds; flag: 4 is not in 2..3, though the mode is any.
# Right: |!b| holds, |a|: 4 is not in 2..3.
pair("align over empty first part failing", "001 theorem 2.5 (1)", "|pq| and |p||q|, a off the baseline", "failure 0",
     "align (!b a)", "(align !b) (align a)", "a4", low=2, high=3, mode=ANY)
# flag: c2 in 2..6, so !!c holds, twice; set inside, clear before: clear. (Mode greater needs 3...)
# Right: the second align sets the flag anew, c2 in 2..6; clear after each.
pair("align over two empty parts", "001 theorem 2.5 (1) and section 3, stage 2", "|!!c!!c| and |!!c||!!c|",
     "success 0 2 6 clear 0", "align (!!c !!c)", "(align !!c) (align !!c)", "c2", low=2, high=6, mode=GREATER)
# |!b| a: the flag is clear again at a: 4 >= 2, 2..6 with 0..4 = 2..4.
run("001 2.3 align on an empty first part only", "001 theorem 2.5 (1)", "|p|q is not |pq| if p reads nothing",
    "success 1 2 4 clear 0", "(align !b) a", "a4", low=2, high=6, mode=AT_LEAST)
# flag: a4 4..4; b5 >= 4, 4..4.
# Right: |a| gives 4..4 and clear; b5 >= 4.
pair("align over reading first part", "001 theorem 2.5 (2)", "|pq| and |p|q, p reads", "success 2 4 4 clear 1",
     "align (a b)", "(align a) b", "a4 b5", low=2, high=6, mode=AT_LEAST)
# flag: a4 4..4; mode greater: b4 is not in 5...
# Right: |a| gives 4..4, b4 is not in 5...
pair("align over reading first part failing", "001 theorem 2.5 (2)", "|pq| and |p|q, b at the baseline", "failure 1",
     "align (a b)", "(align a) b", "a4 b4", mode=GREATER)
# flag: a3 in 1..6, 3..3, clear; c5 >= 3, so !!c holds, nothing read; clear. (Under a flag c5 would fail.) c is tried
# at 1.
# Right: |a| gives 3..3 and clear, then !!c holds.
pair("align over reading first part with flag", "001 theorem 2.5 (2) and section 3, stage 2",
     "|a!!c| and |a|!!c, flag set", "success 1 3 3 clear 1", "align (a !!c)", "(align a) !!c",
     "a3 c5", low=1, high=6, flag=1, mode=AT_LEAST)
# |a||b|: 4..4, then flag: 5 is not in it.
run("001 2.3 align on both parts", "001 theorem 2.5 (2)", "|p||q| is not |pq| if p reads", "failure 1",
    "(align a) (align b)", "a4 b5", low=2, high=6, mode=AT_LEAST)
# In 3.., !b holds, a4 4..4; out 2..6 with 0..3 = 2..3.
# Right: (!b)^>: in 3.., out 2..6 with 0.. = 2..6; a^>: in 3.., 4..4, out 2..3.
pair("indent over empty first part", "001 section 2.3, after theorem 2.5", "(pq)^> and p^> q^>, p reads nothing",
     "success 1 2 3 clear 0", "indent greater (!b a)", "(indent greater !b) (indent greater a)", "a4", low=2, high=6)
# In 3..; flag: 3 lies in it, !!a holds, set; a3 3..3; mode greater: b4 in 4.., 3..3; out 3..8 with 0..3.
# Right: (!!a)^>=: 3..8 and set stay; (ab)^>=: in 3.., 3..3, 3..3, out 3..3.
pair("indent over empty first part with flag", "001 section 2.3, after theorem 2.5",
     "(pq)^>= and p^>= q^>=, p = !!a, flag set", "success 2 3 3 clear 1",
     "indent at-least (!!a a b)", "(indent at-least !!a) (indent at-least (a b))", "a3 b4", low=3, high=8, flag=1,
     mode=GREATER)
# In 3..: a3 lies in it, so !a fails. (From 2..2 itself !a would hold.)
# Right: (!a)^> fails in 3...
pair("indent over empty first part failing", "001 section 2.3, after theorem 2.5", "(pq)^> and p^> q^>, p = !a fails",
     "failure 0", "indent greater (!a a)", "(indent greater !a) (indent greater a)", "a3", low=2, high=2)

# Theorem 2.6.
# Position: a4 in 3.., 2..6 with 0..3 = 2..3.
# Right: in 3.., 4..4, out 2..6 with 0..3 = 2..3.
pair("terminal position and indent", "001 theorem 2.6", "a_> and a^> in mode equal, flag clear",
     "success 1 2 3 clear 0", "position greater a", "indent greater a", "a4", low=2, high=6)
# Position: 9 in 2.., 2..6 with 0..9 = 2..6.
# Right: in 2.., 9..9, out 2..6 with 0..9 = 2..6.
pair("terminal position and indent at-least", "001 theorem 2.6", "a_>= and a^>= right of the interval",
     "success 1 2 6 clear 0", "position at-least a", "indent at-least a", "a9", low=2, high=6)
# Position: 0 in N, 5..8 with N = 5..8.
# Right: in N, 0..0, out 5..8 with N = 5..8.
pair("terminal position and indent any", "001 theorem 2.6", "a_any and a^any left of the interval",
     "success 1 5 8 clear 0", "position any a", "indent any a", "a0", low=5, high=8)
# Position: 7 in N, met with 7..7.
# Right: in N, 7..7, out N with 7..7 = 7..7.
pair("terminal position and indent equal", "001 theorem 2.6", "a_= and a^= from 0 on", "success 1 7 7 clear 0",
     "position equal a", "indent equal a", "a7")
# Position: 4 is not in 5...
# Right: in 5.. has no 4.
pair("terminal position and indent failing", "001 theorem 2.6", "a_> and a^> at the baseline", "failure 0",
     "position greater a", "indent greater a", "a4", low=4, high=4)
# With the flag set the mode is not looked at: a4 in 2..6, 4..4.
run("001 2.3 terminal position with flag", "001 theorem 2.6", "with the flag set a_> gives the column alone",
    "success 1 4 4 clear 0", "position greater a", "a4", low=2, high=6, flag=1)
# The indent still counts: in 3.., flag: 4..4, out 2..6 with 0..3 = 2..3.
run("001 2.3 terminal indent with flag", "001 theorem 2.6", "with the flag set a^> still moves the baseline",
    "success 1 2 3 clear 0", "indent greater a", "a4", low=2, high=6, flag=1)

# ---- 001, section 2.4: flags ----

# The align reads nothing; clear before, so clear after; mode greater: a5 N with 0..4 = 0..4.
run("001 2.4 flag after an empty align", "001 section 2.4 (2)", "the flag is restored", "success 1 0 4 clear 0",
    "(align (b / empty)) a", "a5", mode=GREATER)
# The flag was set before and at the inner end, so a5 is aligned: 5..5.
run("001 2.4 flag set before an empty align", "001 section 2.4 (2)", "a flag set outside stays",
    "success 1 5 5 clear 0", "(align (b / empty)) a", "a5", flag=1, mode=GREATER)
# In 2.. also under the flag: 1 is not in it. (000 would take it.)
run("001 2.4 indent under align", "001 section 2.4 (3)", "an indent inside align is not neglected", "failure 0",
    "align (indent greater (a b))", "a1 b1", low=1, high=1, mode=AT_LEAST)
# flag: a5 5..5 whatever the position says; b6 in 6.., 5..5 with 0..5 = 5..5.
run("001 2.4 position over an aligned block", "001 section 2.4 (3)", "align overrides position at the first token",
    "success 2 5 5 clear 1", "position greater (align (a b))", "a5 b6")
# b5 is not in 6...
run("001 2.4 position after the aligned token", "001 section 2.4 (3)", "position holds for the next token", "failure 1",
    "position greater (align (a b))", "a5 b5")

# The last two differences, by both readings: the mode is equal, and a stands under greater by an indent.
STAYS = "(align (b / empty)) indent greater a"
# The flag is clear again: in 1.., a5 5..5, out N with 0..4 = 0..4.
run("001 2.4 indent after an empty align", "001 section 2.4 (2)", "the flag is restored", "success 1 0 4 clear 0",
    STAYS, "a5")
# The flag stays set: passed, a5 5..5.
run_2014("001 2.4 indent after an empty align", "001 section 2.4 (2)", "the flag remains true", "success 1 5 5 clear 0",
         STAYS, "a5")
# By both the flag is set at the indent. In 1.., flag: a5 5..5, out 0..4. Passed: 5..5.
run("001 2.4 indent after an empty align with flag", "001 section 2.4 (3)", "an indent under the flag counts",
    "success 1 0 4 clear 0", STAYS, "a5", flag=1)
run_2014("001 2.4 indent after an empty align with flag", "001 section 2.4 (3)",
         "an indent under the flag is neglected", "success 1 5 5 clear 0", STAYS, "a5", flag=1)
# The align reads nothing, and the run ends: clear and set is clear; as the child left it is set.
run("001 2.4 empty align at the end", "001 section 2.4 (2)", "the flag is restored", "success 0 2 6 clear 0",
    "align !b", "a9", low=2, high=6)
run_2014("001 2.4 empty align at the end", "001 section 2.4 (2)", "the flag is as the child left it",
         "success 0 2 6 set 0", "align !b", "a9", low=2, high=6)
# "Distributivity of indentation and alignment fails in the semantics of [3]". |p|^>: in 2.., flag: a4 4..4, b4 4..4,
# out 1..1 with 0..3 = 1..1. |p^>|: passed, 4 is not in 1..1; a1 is, b1 too.
INSIDE, OUTSIDE = "align (indent greater (a b))", "indent greater (align (a b))"
run_2014("001 2.4 indent over align", "001 section 2.4 (3)", "|p|^> from 1 to 1", "success 2 1 1 clear 1",
         OUTSIDE, "a4 b4", low=1, high=1)
run_2014("001 2.4 align over indent", "001 section 2.4 (3)", "|p^>| is not |p|^>", "failure 0",
         INSIDE, "a4 b4", low=1, high=1)
run_2014("001 2.4 indent over align at the baseline", "001 section 2.4 (3)", "|p|^>, a at the baseline", "failure 0",
         OUTSIDE, "a1 b1", low=1, high=1)
run_2014("001 2.4 indent under align", "001 section 2.4 (3)", "an indent inside align is neglected",
         "success 2 1 1 clear 1", INSIDE, "a1 b1", low=1, high=1)
# "the indentations cancelled because of an alignment do not apply even to the subsequent non-aligned tokens". In 2..,
# flag: a2 2..2, b2, out 1.. with 0..1 = 1..1. Passed: a2 2..2, b2 2..2.
run("001 2.4 tokens behind the aligned one", "001 section 2.4 (3)", "the indent is for b too", "success 2 1 1 clear 1",
    INSIDE, "a2 b2", low=1)
run_2014("001 2.4 tokens behind the aligned one", "001 section 2.4 (3)", "the cancelled indent is not for b either",
         "success 2 2 2 clear 1", INSIDE, "a2 b2", low=1)
# The do blocks of section 1. do^>: in 1.., do1 1..1, out 0..0. In 1.., flag: do^> passed, do3 3..3; in 4.., flag:
# s5 5..5; do^> passed, 4 is not in 5..5; out 3..3 with 0..4 = 3..3. do4: passed, not in 3..3: the block ends. Out 0..0
# with 0..2. Nothing is tried behind do4.
run_2014("001 2.4 indented do under align", "001 sections 1 and 2.4 (3)", "the nested do must align",
         "success 3 0 0 clear 3", "doexp", "do1 do3 s5 do4 s6", DO, DO_NAMES)
# As before up to 3..3; do3: passed, in 3..3; in 4.., flag: s6 6..6, out 3..3 with 0..5. Out 0..0. Rounds fail at 5.
run_2014("001 2.4 indented do aligned", "001 sections 1 and 2.4 (3)", "an aligned nested do goes on",
         "success 5 0 0 clear 5", "doexp", "do1 do3 s5 do3 s6", DO, DO_NAMES)

# ---- 001, section 3: elimination of alignment and position ----

ORIGINAL = "A = !!c / a / B; B = b indent greater (align (A A))"
ORIGINAL_START = "position at-least A"
# Stage 1: A = a/B, B = b |AA / A!!c / !!cA / !!c!!c|^>, start (A/!!c)_>=.
STAGE1 = "A = a / B; B = b indent greater (align (A A / A !!c / !!c A / !!c !!c))"
STAGE1_START = "position at-least (A / !!c)"
# Stage 2: alignments moved down to terminals in mode equal.
BODY2 = "(indent greater (A' A / A' !!c / !!(position equal c) A' / !!(position equal c) !!(position equal c)))"
STAGE2 = f"A = a / B; B = b {BODY2}; A' = position equal a / B'; B' = (position equal b) {BODY2}"
STAGE2_START = "position at-least (A / !!c)"
# Stage 3: positions turned into indents, start mode equal.
BODY3 = "(indent greater (A' A / A' !!(indent at-least c) / !!c A' / !!c !!c))"
FINAL = f"A = indent at-least a / B; B = (indent at-least b) {BODY3}; A' = a / B'; B' = b {BODY3}"
FINAL_START = "A / !!(indent at-least c)"
SEC3 = "001 section 3"


def stages(name, shows, expected, tokens, every=False):
    """The original and the final grammar on the same tokens, and if asked the two between, with one outcome."""
    run(f"001 3 original grammar {name}", SEC3, shows, expected, ORIGINAL_START, tokens, ORIGINAL)
    if every:
        run(f"001 3 stage 1 grammar {name}", SEC3, shows, expected, STAGE1_START, tokens, STAGE1)
        run(f"001 3 stage 2 grammar {name}", SEC3, shows, expected, STAGE2_START, tokens, STAGE2)
    run(f"001 3 final grammar {name}", SEC3, shows, expected, FINAL_START, tokens, FINAL)


# Original: b3 >= 0, 0..3; in 1.., flag: a5 5..5; A: a7 >= 5, 5..5; out 0..3 with 0..4 = 0..3.
# Final: b^>= 3..3, out 0..3; in 1.., A': a5 5..5; A: a^>= in 5.., 7..7, out 5..5 with 0..7; out 0..3.
# Nothing is tried behind a7.
stages("block", "first token aligned, second at least", "success 3 0 3 clear 2", "b3 a5 a7")
# Original: b3 0..3; in 1.., a2 2..2; A: c2 >= 2, so !c fails and !!c holds, nothing read; out 0..3 with
# 0..1 = 0..1. Stage 1: AA fails at c, A!!c does it. Stage 2: a_= 2..2, then !!c. Final: a2 2..2, c^>=
# holds. c stands at 2, and all four look at it.
stages("lookahead", "the last A reads nothing before c", "success 2 0 1 clear 2", "b3 a2 c2", every=True)
# Original: b1 0..1; in 1.., flag: B: b2 2..2; in 3.., flag: a3 3..3, a3 3..3; out 2..2 with 0..2 = 2..2;
# A: a4 >= 2, 2..2; out 0..1 with 0..1 = 0..1. Final: b^>= 0..1; in 1.., B': b2 2..2; in 3.., a3, a^>= 3..3;
# out 2..2; A: a^>= in 2.., 4..4, out 2..2; out 0..1. Nothing is tried behind a4.
stages("nested", "an aligned inner block", "success 5 0 1 clear 4", "b1 b2 a3 a3 a4")
# b2 0..2; in 1.., a1 1..1; a0 is not in 1.., and no c and no b follow: both As fail, so b and the start.
stages("left of the baseline", "the second token lies left of the first", "failure 2", "b2 a1 a0")
# b0 0..0; in 1..: !!c with the flag set: c1 in 1.., twice, nothing read; align: clear before, clear after;
# out 0..0 with 0.. = 0..0. Final: !!c in mode equal, c1 in 1.., twice; 1.. stays; out 0..0. c stands at 1.
stages("empty body", "both parts of the block read nothing", "success 1 0 0 clear 1", "b0 c1")

# p* against X = pX/empty with p = |a|: a2 2..2, a2 in it, a5 not, tried at 2: two read.
run("001 3 repetition", "001 section 3, repetition eliminated", "p* with p = |a|", "success 2 2 2 clear 2",
    "(align a)*", "a2 a2 a5", mode=AT_LEAST)
run("001 3 repetition as a rule", "001 section 3, repetition eliminated", "X = pX/empty does the same",
    "success 2 2 2 clear 2", "X", "a2 a2 a5", "X = (align a) X / empty", mode=AT_LEAST)

# p = a: flag: a3 in 2..6, 3..3; mode greater: a5 in 4.., 3..3 with 0..4 = 3..3; a3 is not in 4..: ends.
# As a rule: pX, pX, then the third p fails and empty keeps 3..3.
run("001 3 repetition with flag", "001 section 3, repetition eliminated", "p* with p = a, flag set",
    "success 2 3 3 clear 2", "a*", "a3 a5 a3", low=2, high=6, flag=1, mode=GREATER)
run("001 3 repetition with flag as a rule", "001 section 3, repetition eliminated", "X = pX/empty does the same",
    "success 2 3 3 clear 2", "X", "a3 a5 a3", "X = a X / empty", low=2, high=6, flag=1, mode=GREATER)
# p = a^>: in 5.. has no 4: no round, the old 4..4.
# As a rule: p fails, so empty from the old 4..4.
run("001 3 repetition without a round", "001 section 3, repetition eliminated", "p* with p = a^> at the baseline",
    "success 0 4 4 clear 0", "(indent greater a)*", "a4", low=4, high=4)
run("001 3 repetition without a round as a rule", "001 section 3, repetition eliminated", "X = pX/empty does the same",
    "success 0 4 4 clear 0", "X", "a4", "X = (indent greater a) X / empty", low=4, high=4)

# ---- 001, section 4 ----

# flag: a2 2..2; at least: in 2.., b5 >= 2, 2..5; greater: in 3.., c4 >= 3, 3..4, out 2..5 with 0..3 = 2..3;
# out 2..2 with 0..3 = 2..2.
run("001 4.1 expression with a finite interval", "001 section 4.1",
    "align (a indent at-least (b indent greater c)) in mode at-least", "success 3 2 2 clear 2",
    "position at-least (align (a indent at-least (b indent greater c)))", "a2 b5 c4")
# Its inner part by itself: b5 2..5, then as above 2..3.
run("001 4.1 the interval inside", "001 section 4.1", "b indent greater c from 2 on, mode at-least",
    "success 2 2 3 clear 1", "b indent greater c", "b5 c4", low=2, mode=AT_LEAST)
# c2 is not in 3...
run("001 4.1 expression failing", "001 section 4.1", "c at the outer baseline", "failure 2",
    "position at-least (align (a indent at-least (b indent greater c)))", "a2 b5 c2")
# a1 1..1; in 2.., b4 4..4, out 1..1 with 0..3 = 1..1.
run("001 4.1 second expression", "001 section 4.1", "a indent greater b in mode equal", "success 2 1 1 clear 1",
    "position equal (a indent greater b)", "a1 b4")
# Both with {(i+2, i)}, which the section names. a2 2..2; in 2.., b5 2..5; in 4..7, c4 >= 4, 4..4, out 2..5
# with 2..2; out 2..2 with 0..2. c3 is not in 4...
EXACT = "position at-least (align (a indent at-least (b indent +2 c)))"
run("001 4.1 expression with a step", "001 section 4", "its first expression with the relation {(i+2, i)}",
    "success 3 2 2 clear 2", EXACT, "a2 b5 c4")
run("001 4.1 expression with a step failing", "001 section 4", "c one column right of the outer baseline", "failure 2",
    EXACT, "a2 b5 c3")
# a1 1..1; in 3..3: b3 is in it, out 1..1; b4 is not.
run("001 4.1 second expression with a step", "001 section 4", "a indent +2 b in mode equal", "success 2 1 1 clear 1",
    "position equal (a indent +2 b)", "a1 b3")
run("001 4.1 second expression with a step failing", "001 section 4", "b one column too far", "failure 1",
    "position equal (a indent +2 b)", "a1 b4")
# The table of outer sets, and {(i+2, i)}: a5 under each relation from N, mode equal: 5..5 on the way out.
for relation, ends in (("equal", "5 5"), ("greater", "0 4"), ("at-least", "0 5"), ("any", "0 inf"), ("+2", "3 3")):
    run(f"001 4.2 outer set of {relation}", "001 section 4.2, table of l and h", f"column 5 under {relation}",
        f"success 1 {ends} clear 0", f"indent {relation} a", "a5")


# ---- 000, section 2: parsing expressions and brackets ----

# A = a A / b in mode any: two rounds, then b.
run("000 2.1 right recursion", "000 section 2.1, the basic idea", "A = a A / b", "success 3 0 inf clear 2",
    "A", "a0 a1 b2", "A = a A / b", mode=ANY)
# The third A meets the end of the tokens; the failure goes up through both sequences, b meets a.
run("000 2.1 right recursion without end", "000 section 2.1, the basic idea", "A = a A / b without b", "failure 2",
    "A", "a0 a1", "A = a A / b", mode=ANY)

# By 2014 each terminal under any: in N, i..i, out N.
ANYWHERE = "A = (indent any a) A / indent any b"
run_2014("000 2.1 right recursion", "000 section 2.1, the basic idea", "A = a A / b", "success 3 0 inf clear 2",
         "A", "a0 a1 b2", ANYWHERE)
run_2014("000 2.1 right recursion without end", "000 section 2.1, the basic idea", "A = a A / b without b", "failure 2",
         "A", "a0 a1", ANYWHERE)

# A = ( '(' A^> ')' / '['^>= A^> ']'^>= )*; the star is lost in the text ("^{1/2}"), the words of figure 2
# need it.
BRACKET_NAMES = "( ) [ ]"
BRACKETS = {"A": '("(" (indent greater A) ")" / (indent at-least "[") (indent greater A) (indent at-least "]"))*'}
# (1 1..1; > in 2..: [4: >= in 2.., 4..4, out 2.. with 0..4 = 2..4; > in 3..: (5 5..5, > in 6.. reads
# nothing, out 5..5, )5 5..5; ] ends A; out 2..4 with 0..4 = 2..4; ]7: >= in 2.., 7..7, out 2..4 with 0..7
# = 2..4; out 1..1 with 0..3 = 1..1; )1. At the end of the tokens the repeat stops.
run("000 2.2 first word of figure 2", "000 section 2.2, figure 2", "indented brackets", "success 6 1 1 clear 6",
    "A", "(1 [4 (5 )5 ]7 )1", BRACKETS, BRACKET_NAMES)
# (1 1..1; in 2..: [8 out 2..8; in 3..: (6 )6 6..6; [8: in 6.., 8..8, out 6..6; ]9: in 6.., out 6..6; A
# ends; out 2..8 with 0..5 = 2..5; ]4: in 2.., 4..4, out 2..4; (3 3..3, )3; A ends; out 1..1 with 0..2 =
# 1..1; )1. At the end of the tokens the repeat stops.
run("000 2.2 second word of figure 2", "000 section 2.2, figure 2", "indented brackets",
    "success 10 1 1 clear 10", "A", "(1 [8 (6 )6 [8 ]9 ]4 (3 )3 )1", BRACKETS, BRACKET_NAMES)
# (1 1..1, )2 is not in 1..1: the first round fails, so the repeat keeps its old state.
run("000 2.2 parentheses not aligned", "000 section 2.2, the bracket grammar", "a failed round reads nothing",
    "success 0 0 inf clear 1", "A", "(1 )2", BRACKETS, BRACKET_NAMES)
# With eof in mode any behind it (5.2), ( is left over: not fails. ) was tried in the failed round, place 1.
run("000 5.2 parentheses not aligned with eof", "000 sections 2.2 and 5.2", "eof in mode any finds the rest",
    "failure 1", f"A {eof(BRACKET_NAMES.split())}", "(1 )2", BRACKETS, BRACKET_NAMES)
# (1 1..1; in 2..: [1 is not in 2..; A reads nothing; ) meets [: the round fails.
run("000 2.2 contents not indented", "000 section 2.2, the bracket grammar",
    "contents must be right of the parentheses", "success 0 0 inf clear 1", "A", "(1 [1 ]1 )1", BRACKETS, BRACKET_NAMES)
# B is the terminal a: a2 2..2, a2 in it, a3 not.
run("000 2.2 repeat at one column", "000 section 2.2, the simple example", "A = B*", "success 2 2 2 clear 2",
    "B*", "a2 a2 a3", "B = a")
# By 2014 the same: no flag is ever set, so that every indent counts. eof is a not under any: in N, ( is found.
run_2014("000 2.2 first word of figure 2", "000 section 2.2, figure 2", "indented brackets", "success 6 1 1 clear 6",
         "A", "(1 [4 (5 )5 ]7 )1", BRACKETS, BRACKET_NAMES)
run_2014("000 2.2 second word of figure 2", "000 section 2.2, figure 2", "indented brackets",
         "success 10 1 1 clear 10", "A", "(1 [8 (6 )6 [8 ]9 ]4 (3 )3 )1", BRACKETS, BRACKET_NAMES)
run_2014("000 2.2 parentheses not aligned", "000 section 2.2, the bracket grammar", "a failed round reads nothing",
         "success 0 0 inf clear 1", "A", "(1 )2", BRACKETS, BRACKET_NAMES)
run_2014("000 5.2 parentheses not aligned with eof", "000 sections 2.2 and 5.2", "eof under any finds the rest",
         "failure 1", 'A indent any !("(" / ")" / "[" / "]")', "(1 )2", BRACKETS, BRACKET_NAMES)
run_2014("000 2.2 contents not indented", "000 section 2.2, the bracket grammar",
         "contents must be right of the parentheses", "success 0 0 inf clear 1", "A", "(1 [1 ]1 )1", BRACKETS,
         BRACKET_NAMES)
run_2014("000 2.2 repeat at one column", "000 section 2.2, the simple example", "A = B*", "success 2 2 2 clear 2",
         "B*", "a2 a2 a3", "B = a")

# ---- 000, sections 3.1 and 4.3: case ----

# Figure 4 is lost in the text; the prose gives: case; exp; of; (eAlts / iAlts), eAlts = '{'^> alts^any
# '}'^any, iAlts = (|alts|*)^>, alts separated by ;. alt is apps -> apps, apps one or more ids. In place
# of > at each terminal the start mode is greater: under 001 an indent at an aligned token would move its
# baseline.
CASE_NAMES = "case of { } ; -> id"
CASE = {
    "case": '"case" apps "of" (eAlts / iAlts)',
    "eAlts": '"{" (indent any alts) (position any "}")',
    "iAlts": "indent greater (align alts)*",
    "alts": 'alt (";" alt)*',
    "alt": 'apps "->" apps',
    "apps": '"id"+',
}
# From 1..1: case3, x8, of10 each right of 1, 1..1 stays. { fails at id. In 2.., flag: Left5 5..5; y10,
# ->12, y15 are in 6..; Right4 is not, nor in 5..5. Out 1..1 with 0..4 = 1..1. 7 read.
run("000 4.3 derivation", "000 section 4.3, figure 7", "Right at 4 ends the alternatives that began at 5",
    "success 7 1 1 clear 7", "case", "case3 id8 of10 id5 id10 ->12 id15 id4", CASE, CASE_NAMES, low=1, high=1,
    mode=GREATER)
# Right5 is not in 6.. (so no argument) but in 5..5: a second alternative. The last apps tries place 11.
run("000 4.3 aligned alternatives", "000 section 4.3", "Right at 5 begins the second alternative",
    "success 11 1 1 clear 11", "case", "case3 id8 of10 id5 id10 ->12 id15 id5 id11 ->13 id16", CASE, CASE_NAMES,
    low=1, high=1, mode=GREATER)
# The grammar word for word, > at every terminal, mode equal, by 001: in 2.., flag: id^> in 3.., Left5
# 5..5, out 2.. with 0..4 = 2..4; y10, ->12, y15 keep 2..4; Right4: in 3.., 4..4, out 2..4 with 0..3 =
# 2..3: read as an argument. apps tries place 8 too. Out 1..1 with 0..2 = 1..1. 000 would stop before Right.
INDENTED = {
    "case": '(indent greater "case") apps (indent greater "of") (eAlts / iAlts)',
    "eAlts": '(indent greater "{") (indent any alts) (indent any "}")',
    "iAlts": "indent greater (align alts)*",
    "alts": 'alt ((indent greater ";") alt)*',
    "alt": 'apps (indent greater "->") apps',
    "apps": '(indent greater "id")+',
}
run("000 4.3 indented terminals by 001", "000 section 4.3 and 001 section 2.4 (3)",
    "the 2014 grammar under the 2017 clauses takes Right too", "success 8 1 1 clear 8",
    "case", "case3 id8 of10 id5 id10 ->12 id15 id4", INDENTED, CASE_NAMES, low=1, high=1)
# By 2014, as figure 7 has it. case3, x8, of10: in 2.., i..i, out 1..1. { fails at id. In 2.., flag: id^> passed, Left5
# 5..5; y10, ->12, y15: in 6.., i..i, out 5..5; Right4 is not in 6... Again the flag: passed, 4 is not in 5..5. Out 1..1
# with 0..4 = 1..1. 7 read.
run_2014("000 4.3 derivation", "000 section 4.3, figure 7", "Right at 4 ends the alternatives that began at 5",
         "success 7 1 1 clear 7", "case", "case3 id8 of10 id5 id10 ->12 id15 id4", INDENTED, CASE_NAMES, low=1, high=1)
# Right5 is not in 6.., but under the flag in 5..5; z11, ->13, z16: in 6.., out 5..5.
run_2014("000 4.3 aligned alternatives", "000 section 4.3", "Right at 5 begins the second alternative",
         "success 11 1 1 clear 11", "case", "case3 id8 of10 id5 id10 ->12 id15 id5 id11 ->13 id16", INDENTED,
         CASE_NAMES, low=1, high=1)
# {12: in 2.., out 1..1. any: in N: Left4: in 1.., 4..4, out 0..3; y9, ->11, y14 keep it; ;2: in 1.., out 0..1; Right1:
# in 1.., out 0..0; z7, ->9, z12 keep it; out 1..1 with N. }0: in N, 0..0, out 1..1. Nothing is tried behind }.
run_2014("000 3.1 explicit braces", "000 section 3.1.2, eAlts", "braces free the contents and the closing brace",
         "success 14 1 1 clear 13", "case", "case3 id8 of10 {12 id4 id9 ->11 id14 ;2 id1 id7 ->9 id12 }0", INDENTED,
         CASE_NAMES, low=1, high=1)
# {0 is not in 2..; iAlts: in 2.., no round, out 1..1. The failed round's flag is gone.
run_2014("000 3.1 opening brace too far left", "000 section 3.1.2, eAlts", "the opening brace keeps to greater",
         "success 3 1 1 clear 3", "case", "case3 id8 of10 {0 id2 ->4 id6 }0", INDENTED, CASE_NAMES, low=1, high=1)
# {0: in N, out 1..1. any: in N: id2: in 1.., out 0..1; ->4, id6 keep it; out 1..1; }0.
run_2014("000 3.1 relaxed layout", "000 section 3.1.2, RelaxedLayout", "an opening brace at any column",
         "success 8 1 1 clear 7", "case", "case3 id8 of10 {0 id2 ->4 id6 }0",
         dict(INDENTED, eAlts='(indent any "{") (indent any alts) (indent any "}")'), CASE_NAMES, low=1, high=1)
# {12 right of 1. any: in N: Left4 0..3, y9, ->11, y14, ;2 0..1, Right1 0..0, z7, ->9, z12; out 1..1. }0
# in mode any: 1..1. Nothing is tried behind it.
run("000 3.1 explicit braces", "000 section 3.1.2, eAlts", "braces free the contents and the closing brace",
    "success 14 1 1 clear 13", "case", "case3 id8 of10 {12 id4 id9 ->11 id14 ;2 id1 id7 ->9 id12 }0", CASE,
    CASE_NAMES, low=1, high=1, mode=GREATER)
# {0 is not in 2..; iAlts then reads no alternative: in 2.., |alts| fails at {, out 1..1 with 0.. = 1..1.
run("000 3.1 opening brace too far left", "000 section 3.1.2, eAlts", "the opening brace keeps to the mode",
    "success 3 1 1 clear 3", "case", "case3 id8 of10 {0 id2 ->4 id6 }0", CASE, CASE_NAMES, low=1, high=1, mode=GREATER)
# The opening brace in mode any: {0 1..1; in N: id2 0..1, ->4, id6; out 1..1; }0.
RELAXED_CASE = dict(CASE, eAlts='(position any "{") (indent any alts) (position any "}")')
run("000 3.1 relaxed layout", "000 section 3.1.2, RelaxedLayout", "an opening brace at any column",
    "success 8 1 1 clear 7", "case", "case3 id8 of10 {0 id2 ->4 id6 }0", RELAXED_CASE, CASE_NAMES, low=1, high=1,
    mode=GREATER)
# alts may read nothing, so its repeat is bad. Nodes: 0 id, 1 empty, 2 choice, 3 ;, 4 sequence, 5 repeat, 6
# sequence (alts), 7 rule, 8 align, 9 repeat, 10 indent. All up to 8 pass, 9 repeats what may read nothing.
run("000 3.1 alternatives that may be empty", "000 section 3.1.2, side condition of case",
    "a repeat of something that may read nothing", "refused 7 9", "indent greater (align alts)*", "id3",
    {"alts": '"id"? (";" "id"?)*'}, CASE_NAMES, mode=GREATER)
# The same table; well-formedness asks for no reading.
run_2014("000 3.1 alternatives that may be empty", "000 section 3.1.2, side condition of case",
         "a repeat of something that may read nothing", "refused 7 9", "indent greater (align alts)*", "id3",
         {"alts": '"id"? (";" "id"?)*'}, CASE_NAMES)

# ---- 000, section 4.2 and 5.1 ----

# a1 1..1; in 2.., b2 2..2, out 1..1.
run("000 4.2 b right of a", "000 section 4.2, biased choice", "a (indent greater b / empty)", "success 2 1 1 clear 1",
    "a (indent greater b / empty)", "a1 b2")
# a3 3..3; in 4.. has no 2; empty.
run("000 4.2 b left of a", "000 section 4.2, biased choice", "a (indent greater b / empty)", "success 1 3 3 clear 1",
    "a (indent greater b / empty)", "a3 b2")
# In 2.., a2 2..2, out 1..2 with 0..1 = 1..1.
run("000 4.2 indentation set 1 and 2", "000 section 4.2, indentation and absolute alignment",
    "indent greater p from 1 to 2", "success 1 1 1 clear 0", "indent greater a", "a2", low=1, high=2)
# By 2014 the same three: no flag is set.
run_2014("000 4.2 b right of a", "000 section 4.2, biased choice", "a (indent greater b / empty)",
         "success 2 1 1 clear 1", "a (indent greater b / empty)", "a1 b2")
run_2014("000 4.2 b left of a", "000 section 4.2, biased choice", "a (indent greater b / empty)",
         "success 1 3 3 clear 1", "a (indent greater b / empty)", "a3 b2")
run_2014("000 4.2 indentation set 1 and 2", "000 section 4.2, indentation and absolute alignment",
         "indent greater p from 1 to 2", "success 1 1 1 clear 0", "indent greater a", "a2", low=1, high=2)
# "we must not change the current indentation set": under the flag a1 lies in 1..2, 1..1, and a3 does not.
run_2014("000 4.2 indentation set 1 and 2 with flag", "000 section 4.2, indentation and absolute alignment",
         "in absolute mode the relation is ignored", "success 1 1 1 clear 0", "indent greater a", "a1", low=1, high=2,
         flag=1)
run_2014("000 4.2 indentation set 1 and 2 with flag failing", "000 section 4.2, indentation and absolute alignment",
         "in absolute mode the relation is ignored", "failure 0", "indent greater a", "a3", low=1, high=2, flag=1)
# a b fails at c, the second alternative starts again at a.
run("000 5.1 backtracking", "000 section 5.1, continuations", "a b / a c on a c", "success 2 0 inf clear 1",
    "a b / a c", "a0 c1", mode=ANY)
# By 2014 each terminal under any, and N stays.
run_2014("000 5.1 backtracking", "000 section 5.1, continuations", "a b / a c on a c", "success 2 0 inf clear 1",
         "(indent any a) (indent any b) / (indent any a) (indent any c)", "a0 c1")

# ---- 000 as report texts. Terminal 0 number, 1 word, 2 line end, 3 on keywords ----

# The papers' grammars have no token at each break; the line end may stand at any column: `position any eol`.

# let x = do f; g in x: keywords let = 3, = = 4, do = 5, ; = 6, in = 7. let0 x4 =6 do8 f11 ;12 g14 in16
# x19, end 20.
LETS = {
    "exp": '"let" (indent greater (align (word "=" exp))+) "in" exp / "do" indent greater (align stmts)+ / word',
    "stmts": 'exp (";" exp)*',
}
# flag: let0 0..0; in 1.., flag: x4 4..4, =6, do8 in 5..; in 5.., flag: f11 11..11, ;12, g14; in is no
# exp: out 4..4 with 0..10 = 4..4; no further x; out 0..0 with 0..3 = 0..0; in16, x19, end in mode any;
# nothing is tried behind it.
report("000 3.1 let with do", "000 section 3.1.1, do on one line", "the do block ends at in without an oracle",
       "success 10 0 0 clear 9", "let = do ; in", "(align exp) (position any eol)", "let x = do f; g in x\n", LETS)

# while_stmt = while test : suite; suite = NEWLINE block^> / simple; block = |statement|+ (the production
# is lost, the prose gives it). Keywords while = 3, : = 4, = = 5, [ = 6, ] = 7, "," = 8.
PYTHON = {
    "statement": '"while" word ":" suite / simple',
    "simple": 'word "=" (number / atom) position any eol',
    "suite": "(position any eol) (indent greater (align statement)+) / simple",
    "atom": '"[" (indent any (position at-least listmaker)) (position any "]")',
    "listmaker": 'number ("," (position any eol)? number)*',
}
PYTHON_KEYS = "while : = [ ] ,"
# Behind the last line a further statement is tried, so the token count.
PROGRAM = "(align statement)+"
# flag: while0 0..0, x6, :7, end 8. In 1.., flag: y4 4..4, =6, 1 at 8, end; z4 in 4..4, =6, 2 at 8, end;
# w0 is not. Out 0..0 with 0..3 = 0..0; w0 in 0..0, =2, 3 at 4, end. 4 + 4 + 4 + 4 read.
report("000 3.2 while block", "000 section 3.2.2, while_stmt and suite", "a block, then a line at the margin",
       "success 16 0 0 clear 16", PYTHON_KEYS, PROGRAM, "while x:\n    y = 1\n    z = 2\nw = 3\n", PYTHON)
# z2 is neither in 4..4 nor in 0..0: both repeats end. 4 + 4 read.
report("000 3.2 while block badly dedented", "000 section 3.2.2, suite", "a line between two baselines is left over",
       "success 8 0 0 clear 8", PYTHON_KEYS, PROGRAM, "while x:\n    y = 1\n  z = 2\n", PYTHON)
# y0 is not in 1.., and simple does not begin with a line end: both forms of suite fail, so the statement
# does. y0 is place 4.
report("000 3.2 while body not indented", "000 section 3.2.2, suite", "the block must be indented", "failure 4",
       PYTHON_KEYS, PROGRAM, "while x:\ny = 1\n", PYTHON)
# while0 0..0, x6, :7; no line end; y9 =11 1 at 13 in 1.., end 14.
report("000 3.2 while on one line", "000 section 3.2.2, suite", "the second form of suite",
       "success 7 0 0 clear 7", PYTHON_KEYS, PROGRAM, "while x: y = 1\n", PYTHON)
# flag: x0 0..0, =2, [4. In N, mode at least: 1 at 5 0..5, ,6, end any, 2 at 0 0..0, ,1, end, 3 at 2 0..0;
# out 0..0 with N; ]3 any, end. y0 in 0..0, =2, 4 at 4, end. Inside the brackets the mode is at least, as
# 0 is a column here. 6 + 3 + 3 + 4 read.
report("000 3.2 list over lines", "000 section 3.2.2, atom", "brackets free the columns of their contents",
       "success 16 0 0 clear 16", PYTHON_KEYS, PROGRAM, "x = [1,\n2,\n  3]\ny = 4\n", PYTHON)

# The footnote of section 3.1: occam's forms indent by exactly 2. Here a SEQ of processes, each two columns right of it;
# the footnote has no grammar. Keywords SEQ = 3, SKIP = 4.
OCCAM = {"process": '"SEQ" (position any eol) (indent +2 (align process)+) / "SKIP" position any eol'}
# flag: SEQ0 0..0, end; in 2..2, flag: SKIP2, end; SEQ2 2..2, end; in 4..4, flag: SKIP4, end; out 2..2 with 2..2; out
# 0..0 with 0..0. 8 read; the repeats try place 8.
report("000 3.1 processes indented by two", "000 section 3.1, footnote on occam",
       "each level exactly two columns further", "success 8 0 0 clear 8", "SEQ SKIP", "align process",
       "SEQ\n  SKIP\n  SEQ\n    SKIP\n", OCCAM)
# SKIP3, place 2, is not in 2..2, and a SEQ needs one process.
report("000 3.1 process indented by three", "000 section 3.1, footnote on occam", "a process one column too far",
       "failure 2", "SEQ SKIP", "align process", "SEQ\n   SKIP\n", OCCAM)

# ---- The same by 2014, as token lists ----

# Every terminal under greater, as 000 says of Haskell and Python, and the line end, nl, under any. Under the flag the
# greater of the first token is passed, so that it may stand at column 0.
LETS_2014 = {
    "exp": '(indent greater "let") (indent greater (align ((indent greater "id") (indent greater "=") exp))+) '
           '(indent greater "in") exp / (indent greater "do") indent greater (align stmts)+ / indent greater "id"',
    "stmts": 'exp ((indent greater ";") exp)*',
}
LETS_NAMES = "let = do ; in id"
LETS_TOKENS = "let0 id4 =6 do8 id11 ;12 id14 in16 id19"
# flag: passed, let0 0..0; in 1.., flag: passed, x4 4..4; =6, do8: in 5.., out 4..4; in 5.., flag: passed, f11 11..11;
# ;12, g14: in 12.., out 11..11; in is no exp: out 4..4 with 0..10; no further x; out 0..0 with 0..3; in16, x19: in 1..,
# out 0..0. 9 read; nothing is tried behind x.
run_2014("000 3.1 let with do", "000 section 3.1.1, do on one line", "the do block ends at in without an oracle",
         "success 9 0 0 clear 8", "align exp", LETS_TOKENS, LETS_2014, LETS_NAMES)
# By 001 the greater of let counts: in 1.. has no 0, and let is no do and no id. No other token is tried.
run("000 3.1 let indented terminals by 001", "000 section 3.1.1 and 001 section 2.4 (3)",
    "by 001 no aligned line can stand at column 0", "failure 0", "align exp", LETS_TOKENS, LETS_2014, LETS_NAMES)

PYTHON_2014 = {
    "statement": '(indent greater "while") (indent greater "id") (indent greater ":") suite / simple',
    "simple": '(indent greater "id") (indent greater "=") (indent greater "num" / atom) indent any "nl"',
    "suite": '(indent any "nl") (indent greater (align statement)+) / simple',
    "atom": '(indent greater "[") (indent any listmaker) (indent any "]")',
    "listmaker": '(indent greater "num") ((indent greater ",") (indent any "nl")? indent greater "num")*',
}
PYTHON_NAMES = "while : = [ ] , id num nl"


def python_2014(label, source, shows, expected, tokens):
    """A program by 2014, from its tokens."""
    run_2014(label, source, shows, expected, PROGRAM, tokens, PYTHON_2014, PYTHON_NAMES)


# flag: passed, while0 0..0; x6, :7: in 1.., out 0..0; nl8: in N, out 0..0. In 1.., flag: passed, y4 4..4; =6, num8: in
# 5.., out 4..4; nl. flag: passed, z4 in 4..4, and so on; w0 is not. Out 0..0 with 0..3; flag: w0 in 0..0. 16 read.
python_2014("000 3.2 while block", "000 section 3.2.2, while_stmt and suite", "a block, then a line at the margin",
            "success 16 0 0 clear 16", "while0 id6 :7 nl8 id4 =6 num8 nl9 id4 =6 num8 nl9 id0 =2 num4 nl5")
# z2 is neither in 4..4 nor in 0..0. 4 + 4 read.
python_2014("000 3.2 while block badly dedented", "000 section 3.2.2, suite",
            "a line between two baselines is left over", "success 8 0 0 clear 8",
            "while0 id6 :7 nl8 id4 =6 num8 nl9 id2 =4 num6 nl7")
# y0, place 4: passed, not in 1..; simple does not begin with nl.
python_2014("000 3.2 while body not indented", "000 section 3.2.2, suite", "the block must be indented", "failure 4",
            "while0 id6 :7 nl8 id0 =2 num4 nl5")
# y9, =11, num13: in 1.., out 0..0.
python_2014("000 3.2 while on one line", "000 section 3.2.2, suite", "the second form of suite",
            "success 7 0 0 clear 7", "while0 id6 :7 id9 =11 num13 nl14")
# flag: passed, x1 1..1; =3, [5: in 2.., out 1..1. any: in N: num6: in 1.., out 0..5; ,7 keeps it; nl; num1: in 1.., out
# 0..0; ,2, nl, num3; out 1..1 with N; ]4, nl. flag: y1 in 1..1. 12 + 4 read.
python_2014("000 3.2 list over lines", "000 section 3.2.2, atom", "brackets free the columns of their contents",
            "success 16 1 1 clear 16", "id1 =3 [5 num6 ,7 nl8 num1 ,2 nl3 num3 ]4 nl5 id1 =3 num5 nl6")

OCCAM_2014 = {"process": '"SEQ" (indent any "nl") (indent +2 (align process)+) / "SKIP" indent any "nl"'}
# The steps are those of the report: each indent stands behind a token, where the flag is clear.
run_2014("000 3.1 processes indented by two", "000 section 3.1, footnote on occam",
         "each level exactly two columns further", "success 8 0 0 clear 8", "align process",
         "SEQ0 nl3 SKIP2 nl6 SEQ2 nl5 SKIP4 nl8", OCCAM_2014, "SEQ SKIP nl")
run_2014("000 3.1 process indented by three", "000 section 3.1, footnote on occam", "a process one column too far",
         "failure 2", "align process", "SEQ0 nl3 SKIP3 nl7", OCCAM_2014, "SEQ SKIP nl")


# ---- 002 (Burreau 2023) ----

# Landin's rule: nothing of a phrase stands left of where it begins: `align p` in mode at least.
# flag: a2 2..2; b5 >= 2; c2 >= 2: 2..2 with 0..5 and 0..2 = 2..2.
run("002 4.1 landin offside rule", "002 section 4.1.2, Landin's wording", "no token left of the first",
    "success 3 2 2 clear 2", "align (a b c)", "a2 b5 c2", mode=AT_LEAST)
# c1 is not in 2...
run("002 4.1 landin offside rule broken", "002 section 4.1.2, Landin's wording", "a token left of the first",
    "failure 2", "align (a b c)", "a2 b5 c1", mode=AT_LEAST)
# What is in brackets is let off: a2 2..2; any: in N, b0 0..0, out 2..2 with N; c3 >= 2.
run("002 4.1 landin offside rule with brackets", "002 section 4.1.2, Landin's wording", "a freed segment inside",
    "success 3 2 2 clear 2", "align (a (indent any b) c)", "a2 b0 c3", mode=AT_LEAST)
# The newer wording: further to the right: mode greater. c2 is not in 3...
run("002 4.1 newer offside rule", "002 section 4.1.2, Amorim's wording", "the first token's column is too far left",
    "failure 2", "align (a b c)", "a2 b5 c2", mode=GREATER)

# 1 + 1 in the layouts of chapter 2: keyword + = 3; the line may break behind any token but the last.
SUM = 'align (number (position any eol)? "+" (position any eol)? number position any eol)'
SUMS = "002 chapter 2 and section 5.1, the three sums"
# flag: 1 at 0 0..0; +2, 1 at 4 in 1... Nothing is tried behind the last line end.
report("002 2 sum on one line", SUMS, "the offside rule over lines", "success 4 0 0 clear 3", "+", SUM, "1 + 1\n")
# 1 at 0, +2, end 3, 1 at 2, end 3.
report("002 2 sum broken behind plus", SUMS, "a continuation line further right", "success 5 0 0 clear 4", "+",
       SUM, "1 +\n  1\n")
# 1 at 0, end 1, +2, 1 at 4, end 5; no break at the end of the text, the line end is there all the same.
report("002 2 sum broken before plus", SUMS, "a continuation line further right", "success 5 0 0 clear 4", "+",
       SUM, "1\n  + 1")
# +0, place 2, is not in 1...
report("002 2 sum at the margin", SUMS, "a line at the first column is no continuation", "failure 2", "+", SUM,
       "1\n+ 1\n")

# Python-like definitions. Keywords def = 3, : = 4, ( = 5, ) = 6, print = 7, \ = 8.
DEFS = {
    "def": '"def" word "(" word* ")" ":" stmts',
    "stmts": "(position any eol) (indent greater (align stmt)*)",
    "stmt": '"print" "(" word ")" position any eol',
}
DEF_KEYS = "def : ( ) print \\"
FIG51 = "002 section 5.1, figure 5.1"
WHOLE = f"(align def) {eof((*SCANNED, *DEF_KEYS.split()))}"
# def0 0..0, f4 (5 )6 :7 in 1.., end 8; in 1.., flag: print4 4..4, (9 "hello"10 )17, end; print4 again;
# out 0..0 with 0..3 = 0..0; no token is left, place 16 is tried. 6 + 5 + 5 read.
report("002 5.1 function f", FIG51, "an indented body, statements aligned", "success 16 0 0 clear 16", DEF_KEYS,
       WHOLE, 'def f():\n    print("hello")\n    print("world")\n', DEFS)
# The line end must follow the colon; print stands there, place 5.
report("002 5.1 function g1", FIG51, "the body begins on the header's line", "failure 5", DEF_KEYS, WHOLE,
       'def g1(): print("hello")\n          print("world")\n', DEFS)
# print0, place 6, is not in 1..: the list is empty, and eof finds print.
report("002 5.1 function g2", FIG51, "the body is not indented", "failure 6", DEF_KEYS, WHOLE,
       'def g2():\nprint("hello")\nprint("world")\n', DEFS)
# print6, place 11, is not in 4..4, and eof finds it.
report("002 5.1 function g3", FIG51, "the statements are not aligned", "failure 11", DEF_KEYS, WHOLE,
       'def g3():\n    print("hello")\n      print("world")\n', DEFS)
# The same without eof: 6 + 5 read, 4..4, out 0..0.
report("002 5.1 function g3 without eof", FIG51, "an unaligned line ends the block", "success 11 0 0 clear 11",
       DEF_KEYS, "align def", 'def g3():\n    print("hello")\n      print("world")\n', DEFS)
# Figure 7.1: the line end behind the colon is optional. def0 0..0, g1 4, (6 )7 :8; in 1.., flag: print10
# 10..10, (15 "hello"16 )23, end; print10; out 0..0 with 0..9. 10 + 5 read.
report("002 7.3 function g1", "002 section 7.3, figure 7.1", "a block that begins behind the colon",
       "success 15 0 0 clear 15", DEF_KEYS, WHOLE, 'def g1(): print("hello")\n          print("world")\n',
       dict(DEFS, stmts="(position any eol)? indent greater (align stmt)*"))
# Figure 5.4, a blank before the joining sign (the scanner would take print\ as one word); what follows
# the joined break may stand anywhere: mode any. print4 4..4, \10, end, (0 "hello1 world"8 )14 any, end.
# Out 0..0.
JOINED = dict(DEFS, stmt='"print" ("\\" position any eol)? (position any ("(" word+ ")")) (position any eol)')
report("002 5.4 joined line", "002 section 5.4, figure 5.4, and section 4.1.3", "a joined line at any column",
       "success 14 0 0 clear 14", DEF_KEYS, WHOLE, 'def f():\n    print \\\n("hello world")\n', JOINED)

# NB ::= S IB S: one line, an indented block, a line under the first.
LINE = "(align (word position any eol))"
NB = f"{LINE} (indent greater {LINE}+) {LINE}"
# flag: one3 3..3; in 4.., flag: two5 5..5, three5; four3 is not in it; out 3..3 with 0..4 = 3..3; four3
# in it; nothing is tried behind its line end.
report("002 5.3 nested block", "002 section 5.3.6, NB1", "the last line takes up the outer baseline",
       "success 8 3 3 clear 7", "let", NB, "   one\n     two\n     three\n   four\n")
# four4, place 6, is neither in 5..5 nor in 3..3.
report("002 5.3 nested block badly dedented", "002 section 4.1.6 and 5.3.6",
       "a column between the two baselines", "failure 6", "let", NB, "   one\n     two\n     three\n    four\n")

# module M where, keywords module = 3, where = 4, : = 5; the block at least as far right as module.
MODULE_LINE = '(align (word ":" word position any eol))'
MODULE = f'align ("module" word "where" (position any eol) (indent at-least {MODULE_LINE}+))'
# module0 0..0, M7, where9, end; at least: in 0.., flag: f0 0..0, :2, Int4, end; out 0..0 with 0..0. A
# further line is tried, place 8.
report("002 7.2 module block at the margin", "002 section 7.2.1", "the module's block need not be indented",
       "success 8 0 0 clear 8", "module where :", MODULE, "module M where\nf : Int\n")
# f2 2..2, out 0..0 with 0..2 = 0..0.
report("002 7.2 module block indented", "002 section 7.2.1", "the module's block may be indented",
       "success 8 0 0 clear 8", "module where :", MODULE, "module M where\n  f : Int\n")
# Greater: in 1.. has no 0. f is place 4.
report("002 7.2 module block under greater", "002 section 7.2.1", "any other where needs an indented block",
       "failure 4", "module where :",
       f'align ("module" word "where" (position any eol) (indent greater {MODULE_LINE}+))',
       "module M where\nf : Int\n")

# StmtsLine2 ::= Stmt ";" | StmtsLine2 Stmt | StmtsLine2 Stmt ";". Nodes: 0 Stmt, 1 ;, 2 sequence, 3 the
# rule, 4 rule Stmt, 5 rule Stmt ;, 6 and 7 choices. 3 needs 7, 7 needs 4, 4 needs 3.
run("002 5.4 left recursive statement list", "002 section 5.4, figure 5.3, StmtsLine2", "left recursion", "refused 7 3",
    "L", "a0 b1", "L = a b / L a / L a b")

# ---- Haskell-like blocks for 002, 003 and 004 ----

# A statement is pieces and at most one block opened by do or of, or such a block, then perhaps where and
# a block. A line end may follow each piece. Blocks: `indent greater (align st)+` in mode greater. Braces and
# parentheses: contents under any in mode at least, closing sign in mode any. Behind a line end a further piece or
# statement is tried, so behind the last one the token count.
HASKELL_KEYS = "do of where { } ; ( ) = : ,"
HASKELL = {
    "piece": '(number / word / "=" / ":" / "," / paren) (position any eol)?',
    "paren": '"(" (position any eol)? (indent any (position at-least (piece* opened?))) (position any ")")',
    "opened": '("do" / "of") (position any eol)? body',
    "body": "braces / block",
    "block": "indent greater (position greater (align st)+)",
    "braces": '"{" (position any eol)? (indent any (position at-least (st (";" (position any eol)? st)*))) '
              '(position any "}") (position any eol)?',
    "st": '(piece+ opened? / opened) ("where" (position any eol)? body)?',
}
HASKELL_PROGRAM = "(align st)+"
HASKELL_EOF = eof((*SCANNED, *HASKELL_KEYS.split()))
HASKELL_WHOLE = f"{HASKELL_PROGRAM} {HASKELL_EOF}"


def haskell(label, source, shows, expected, text, start=HASKELL_PROGRAM, rules=HASKELL):
    """A report read with the Haskell keywords."""
    report(label, source, shows, expected, HASKELL_KEYS, start, text, rules)


# f0 0..0, : : IO ( ), end (7). f0 in 0..0, =2, do4; in 1.., flag: print7 7..7, "hello"13, end (6); print7
# is not in 8.. but in 7..7, "world"13, end (3). Out 0..0 with 0..6.
haskell("002 4.2 function f", "002 section 4.2, figure 4.1", "two aligned statements behind do",
        "success 16 0 0 clear 16", 'f :: IO ()\nf = do print "hello"\n       print "world"\n')
# fun0, =4, do6; print9 9..9, "hello"15, end; print7 is not in 9..9; out 0..0; it is not in 0..0. 7 + 6
# read.
haskell("002 4.2 function fun", "002 section 4.2, figure 4.1", "a longer name breaks the block off",
        "success 13 0 0 clear 13", 'fun :: IO ()\nfun = do print "hello"\n       print "world"\n')
# The same with eof in mode any: print is left over.
haskell("002 4.2 function fun with eof", "002 section 4.2, figure 4.1", "the renamed program is not valid",
        "failure 13", 'fun :: IO ()\nfun = do print "hello"\n       print "world"\n', HASKELL_WHOLE)

# ---- 003 (Erdweg and others 2012) ----

# Figure 1(a); keywords if = 3, else = 4, : = 5, = = 6. != is the word ! and the token =.
IFS = {
    "st": '"if" words suite ((align "else") suite)? / words position any eol',
    "suite": '":" (position any eol) (indent greater (align st)+)',
    "words": '(word / number / "=")+',
}
# if0 0..0, x3 !5 =6 y8 :9, end (7). In 1.., flag: if4 4..4, x7 >9 0 at 11, :12, end (6). In 5.., flag: y8
# 8..8, =10, x12, end (4). else0 is not in 4..4; out 0..0 with 0..3; else0 in 0..0, :4, end (3); in 1..,
# y4 4..4, =6, -x8, end (4).
report("003 1 dangling else", "003 section 1, figure 1(a)", "else belongs to the outer if", "success 24 0 0 clear 24",
       "if else : =", "(align st)+", "if x != y:\n    if x > 0:\n        y = x\nelse:\n    y = -x\n", IFS)
# else2 is neither in 4..4 nor in 0..0 and begins no statement: 7 + 6 + 4 read.
report("003 1 else between two ifs", "003 section 1, the core idea", "else must start at the column of an if",
       "success 17 0 0 clear 17", "if else : =", "(align st)+",
       "if x != y:\n    if x > 0:\n        y = x\n  else:\n    y = -x\n", IFS)
# do0 0..0; in 1.., input3 3..3, <-9 readInput12, end (5); case3, input8, of14, end (4); in 4.., Just5
# 5..5, txt10 ->14 do17; in 6.., putStrLn20 20..20 and two words, end (8); sendToServer20 txt, end (3);
# return20 True, end (3); Nothing5 is not in 20..20; out 5..5; in it, ->13 fail16 and two words, end (6).
# Out 3..3, out 0..0.
haskell("003 1 nested blocks", "003 section 1, figure 1(b)", "do, of and do again", "success 29 0 0 clear 29",
        'do input <- readInput\n   case input of\n     Just txt -> do putStrLn "thank you"\n'
        "                    sendToServer txt\n                    return True\n"
        '     Nothing -> fail "no input"\n')
# do0 0..0; in 1.., print3 3..3, 1 at 9, end (4); print3, (9; in N: 11 at 10 0..10, +13, 12 at 15; out
# 3..3; )17, end (7); print3, 42 at 9, end (3). Out 0..0. The first statement of the figure is lost; print
# 1 stands for it.
haskell("003 2 three statements", "003 section 2, figure 2(a)", "a block of three lines",
        "success 14 0 0 clear 14", "do print 1\n   print (11 + 12)\n   print 42\n")
# print5 is in 4..: the third line is part of the second statement. All read as before.
haskell("003 2 statement over two lines", "003 section 2, figure 2(c)", "a line further right goes on",
        "success 14 0 0 clear 14", "do print 1\n   print (11 + 12)\n     print 42\n")
# With a line end as the end of a statement: a piece takes no line end, print5 is not in 3..3: 4 + 7 read.
ONE_LINE = dict(HASKELL, piece='number / word / "=" / paren', st="(piece+ / opened) (position any eol)?")
haskell("003 2 single line statements", "003 section 2, figure 2(b)", "print 42 can not be a statement of its own",
        "success 11 0 0 clear 11", "do print 1\n   print (11 + 12)\n     print 42\n", rules=ONE_LINE)
# do0 0..0; in 1.., flag: (3 3..3; any: in N, mode at least: do4 0..4; in 1.., print7 7..7, 11, end;
# print7, ( ... ), and ) is no piece: the block ends; out 0..4 with 0..6 = 0..4; out 3..3; )22 any, end;
# print3 in 3..3. 6 + 8 + 3.
haskell("003 2 statement ends at a parenthesis", "003 section 2, figure 3(a)", "the block ends where no piece fits",
        "success 17 0 0 clear 17", "do (do print 11\n       print (11 + 12))\n   print 13\n")
ONE_ST = f"(align st) {HASKELL_EOF}"
# print0 0..0, (6 and its contents, )14, end (7); *4 in 1.., 13 at 6, end (3).
haskell("003 3 offside statement", "003 section 3, first print program", "a second line further right",
        "success 10 0 0 clear 10", "print (11 + 12)\n    * 13\n", ONE_ST)
# *0 is not in 1.., and eof finds it.
haskell("003 3 statement at the margin", "003 section 3, second print program", "a second line at the first column",
        "failure 7", "print (11 + 12)\n* 13\n", ONE_ST)
# do0 0..0; in 1..: print3 3..3 ( ... ), end (8 with do); print3 13, end (3); do3 in 3..3, {6; in N, mode
# at least: print8 0..8, 14; ;16, end (6); print1 0..1, 15 at 7; out 3..3 with N; }10, end (4); print3 16,
# end (3). Out 0..0.
haskell("003 3 explicit block", "003 section 3, third print program", "ignore-layout inside a block",
        "success 24 0 0 clear 24", "do print (11 + 12)\n   print 13\n   do { print 14;\n print 15 }\n   print 16\n")
NONDECREASING = "foo = do\n  print 16\n  do\n  print 17\n  print 18\n"
# foo0 =4 do6, end; in 1.., print2 2..2, 16, end; do2 in 2..2, end; in 3.. has no 2: the inner block fails
# and with it the statement; eof finds do. print, place 9, was tried.
haskell("003 5.3 nested block not indented", "003 section 5.3, NondecreasingIndentation",
        "the offside rule turns it down", "failure 9", NONDECREASING, HASKELL_WHOLE)
# print4 in 3.., 4..4, twice; out 2..2 with 0..3, out 0..0 with 0..1. 4 + 3 + 2 + 3 + 3.
haskell("003 5.3 nested block indented", "003 section 5.3, pretty-printed", "the pretty-printed form passes",
        "success 15 0 0 clear 15", "foo = do\n  print 16\n  do\n    print 17\n    print 18\n", HASKELL_WHOLE)
# At least in place of greater: in 0.., print2 2..2; do2, end; in 2.., print2 2..2 twice; out 2..2 with
# 0..2, out 0..0.
haskell("003 5.3 nondecreasing indentation", "003 section 5.3, NondecreasingIndentation",
        "at-least models the extension", "success 15 0 0 clear 15", NONDECREASING, HASKELL_WHOLE,
        dict(HASKELL, block="indent at-least (position greater (align st)+)"))

# ---- 004 (A Haskell pretty-printer, 2002) ----

# foo0 0..0, x4 =6 y8 +10 z12, end (7); where4 in 1..; in 1.., flag: y10 10..10, =12 2 at 14 *16 x18, end
# (7 with where); z10 in 10..10, five more, end (6). Out 0..0 with 0..9. The columns are the marks <5> and
# {11} less 1.
haskell("004 5.1 where block", "004 section 5.1, figure 59", "a where block on the keyword's line",
        "success 20 0 0 clear 20", "foo x = y + z\n    where y = 2 * x\n          z = x + 3\n")
# A tab moves to column 8: where8, y14, and z at 8 + 6 = 14: the same run.
haskell("004 3.5 where block with tabs", "004 section 3.5, figure 42", "tab stops 8 apart",
        "success 20 0 0 clear 20", "foo x = y + z\n\twhere y = 2 * x\n\t      z = x + 3\n")
# foo0 0..0 (6); where1, end (2); in 1.., bar1 at 2 2..2, five more (6); where3 in 3.., end (2); in 3..,
# bar1' at 4 4..4 (4); bar2 at 2 is not in 4..4; out 2..2 with 0..3; in it (4). Out 0..0 with 0..1.
# Leading blanks are lost in the text.
haskell("004 2.6 where inside where", "004 section 2.6.3, first program", "one blank a level",
        "success 24 0 0 clear 24",
        "foo = bar1 + bar2\n where\n  bar1 = 2 * bar1'\n   where\n    bar1' = 3\n  bar2 = 2\n")
# where2, bar1 at 8 8..8 (7); where10 in 9.., bar1' at 16 16..16 (5); bar2 at 8 in 8..8 (4); with line 1
# (6).
haskell("004 2.6 where on one line", "004 section 2.6.3, second program", "blocks behind where",
        "success 22 0 0 clear 22",
        "foo = bar1 + bar2\n  where bar1 = 2 * bar1'\n          where bar1' = 3\n        bar2 = 2\n")
# bar2 at 12 is in neither 16..16, 8..8 nor 0..0, and behind where's block no piece may follow: 6 + 7 + 5
# read.
haskell("004 2.6 where badly typeset", "004 section 2.6.3, second program typeset",
        "bar2 right of bar1 ends all blocks", "success 18 0 0 clear 18",
        "foo = bar1 + bar2\n  where bar1 = 2 * bar1'\n          where bar1' = 3\n            bar2 = 2\n")
# foo0 x4 =6 case8 x13 of15; in 1.., flag: 0 at 18 18..18, ->20, 0 at 23, end (10); _18 in it, end (4).
# Out 0..0.
haskell("004 2.6 case behind of", "004 section 2.6.3, case", "caselets behind of", "success 14 0 0 clear 14",
        "foo x = case x of 0 -> 0\n                  _ -> 1\n")
# of15, end (7); 0 at 10 10..10 (4); _10 (4).
haskell("004 2.6 case below of", "004 section 2.6.3, case", "caselets on lines of their own",
        "success 15 0 0 clear 15", "foo x = case x of\n          0 -> 0\n          _ -> 1\n")
# _12 is not in 18..18, not in 0..0: 10 read.
haskell("004 2.6 case badly typeset", "004 section 2.6.3, case typeset", "the second caselet is not aligned",
        "success 10 0 0 clear 10", "foo x = case x of 0 -> 0\n            _ -> 1\n")
# btype = [btype] atype. Nodes: 0 the rule, 1 empty, 2 choice, 3 atype, 4 sequence. 0 needs 4, 4 needs 2,
# 2 needs 0.
run("004 3.7 left recursive btype", "004 section 3.7, figure 54(a)", "left recursion", "refused 7 0",
    "B", "a0 a2", "B = (B / empty) a")
# The list form of the same: two atypes, mode any. The repeat tries place 2 too.
run("004 3.7 btype as a list", "004 section 3.7, figure 54(b)", "one or more atypes", "success 2 0 inf clear 2",
    "a a*", "a0 a2", mode=ANY)


if __name__ == "__main__":
    CASES.write()
    write({"docs/PUBLISHED.md": page().encode()})

#!/usr/bin/env python3
"""Tests of trials/handbook.py: what is not as written is told, with its line.

    python3 trials/test_handbook.py LIBRARY

LIBRARY is the reader as a shared library (trials/library.py says how it is made).
"""

import copy
import sys
import unittest

import handbook
import handbook_cases
import library

RIGHT = """\
An entry:

```grammar
# entry.grammar
keywords "loss" ":"
start entry
mode greater

entry = "loss" ":" number eol
```

```report
  loss: 0.03

(1) -> success 4 0 1 clear 3
(2) mode equal -> failure 1
(3) rule entry, from 0 to 9, flag set -> success 4 2 2 clear 3
```

Aligned it is 2 to 2 (3).

```grammar
# left.grammar
start left
mode any

left = left word

-> left.grammar:5:1: rule left is left recursive: it comes back to itself before a token is read, left -> left \
(the reader would answer: refused 7 0)
```
"""


class Told(unittest.TestCase):
    def says(self, old, new, message, right=RIGHT):
        """With one change, the first thing told is this."""
        self.assertEqual(right.count(old), 1)
        with self.assertRaises(handbook.Wrong) as wrong:
            handbook.read_handbook(READER, right.replace(old, new))
        self.assertEqual(str(wrong.exception), f"docs/HANDBOOK.md:{message}")

    def test_answers(self):
        self.says("success 4 0 1 clear 3", "success 4 0 2 clear 3", "15: the reader answers: success 4 0 1 clear 3")
        self.says("success 4 0 1 clear 3", "success 4 0 1 clear 4", "15: the reader answers: success 4 0 1 clear 3")
        self.says("equal -> failure 1", "equal -> success 1 2 2 clear 1", "16: the reader answers: failure 1")
        self.says("equal -> failure 1", "equal -> failure 0", "16: the reader answers: failure 1")
        self.says("9, flag set ->", "9 ->", "17: the reader answers: success 4 0 1 clear 3")
        self.says("  loss: 0.03", "   loss: 0.03", "15: the reader answers: success 4 0 2 clear 3")
        self.says('":" number', '":" word', "15: the reader answers: failure 2")

    def test_forms(self):
        form = "a run is written `(NUMBER) START -> success N L H clear F` or `.. -> failure F`"
        self.says("(1) -> success 4", "(1) -> 4", f"15: {form}")
        self.says("success 4 0 1 clear 3", "success 4 0 1 clear", f"15: {form}")
        self.says("equal -> failure 1", "equal -> failure", f"16: {form}")
        self.says("rule entry", "rule other", "17: no such start: rule other")
        for mode in ("all", "+0", "+32", "+"):
            self.says("mode equal", f"mode {mode}", f"16: no such start: mode {mode}")
        self.says("# entry.grammar\n", "", "4: the first line of a grammar is `# NAME.grammar`")
        self.says("```report", "```text", "12: a block is a grammar, a report or sh")
        self.says("An entry:\n", "    entry = word\n", "1: a block is fenced, not indented")

    def test_names(self):
        with self.assertRaises(handbook.Wrong) as wrong:
            handbook.read_handbook(READER, RIGHT.replace("left.grammar", "entry.grammar"))
        self.assertEqual(str(wrong.exception), "docs/HANDBOOK.md:23: a grammar above has this name")

    def test_numbers(self):
        self.says("(2) mode", "(4) mode", "16: this is run 2")
        self.says("2 to 2 (3)", "2 to 2 (4)", "20: there is no run 4")
        swapped = RIGHT.replace("(1) ->", "(7) ->").replace("(2) mode", "(1) mode")
        self.assertEqual(handbook.numbered(swapped), RIGHT)

    def test_refused(self):
        self.says("7 0)", "7 1)", "29: the builder says:\n" + RIGHT.splitlines()[-2])
        self.says("left = left word", "left = word", "29: the builder says:\nnothing")

    def test_cases(self):
        """The cases of this small handbook."""
        cases = handbook_cases.file_of(*handbook.read_handbook(READER, RIGHT))
        self.assertEqual(cases[cases.index("unfoldable") :], CASES)

    def test_steps(self):
        """Steps in a grammar, as its mode and in a start: the cases have their amounts."""
        cases = handbook_cases.file_of(*handbook.read_handbook(READER, STEPS))
        self.assertIn("\n    terminal 1 ∷ position 0 (step 1) ∷ indent 1 (step 31) ∷ choice 0 2\n", cases)
        self.assertEqual(cases[cases.index("unfoldable") :], STEP_CASES)

    def test_readings(self):
        """Runs by 2014: an answer and a list of their own, a refusal, and the cases that name the reading."""
        cases = handbook_cases.file_of(*handbook.read_handbook(READER, READINGS))
        self.assertEqual(cases[cases.index("unfoldable") :], READING_CASES)
        self.says("(1) ->", "(1) by 2014 ->", "14: the reader answers: success 1 0 0 clear 0", READINGS)
        self.says("(2) by 2014, entries", "(2) entries", "15: the reader answers: failure 0", READINGS)
        self.says("(3) by 2014, mode", "(3) mode", "18: the reader answers: failure 0", READINGS)
        self.says("by 2014, entries", "by 2015, entries", "15: no such start: by 2015", READINGS)

    def lists(self, old, new, line, listed=None):
        """With one change, what the reader lists is told, with the first line that is wrong."""
        self.says(old, new, f"{line}: the reader lists:\n{listed or LIST}", LISTED)

    def test_entries(self):
        """A rule, a line, a column, a text, the captures around; and a list that changes with the report."""
        self.lists("     splice 1:1", "     report 1:1", 19)
        self.lists("entry 3:3 loss", "entry 2:3 loss", 22)
        self.lists("entry 3:3 loss", "entry 3:2 loss", 22)
        self.lists("entry 2:3 * loss: 0.03", "entry 2:3 * loss:", 20)
        self.lists("         mark 2:3", "       mark 2:3", 21)
        self.lists("         mark -", "         mark 3:3", 23)
        self.lists("     splice 1:1", "       splice 1:1", 19)
        self.lists("     splice 1:1", "    splice 1:1", 19)
        self.lists("  loss: 0.05\n\n", "  loss: 0.06\n\n", 22, LIST.replace("0.05", "0.06"))
        self.lists("\n  * loss: 0.03\n  l", "\n   * loss: 0.03\n   l", 20, LIST.replace(":3", ":4"))

    def test_count_of_entries(self):
        """An entry that is missing or too many, and those of a run that fails."""
        self.lists("         mark 2:3 *\n", "", 21)
        self.lists("         mark -\n", "", 23)
        self.lists("         mark -\n", "         mark -\n         mark -\n", 24)
        self.lists("entries -> failure 0\n", "entries -> failure 0\n     mark -\n", 25, FARTHEST)

    def test_farthest(self):
        """Where the farthest place is: after a failure and after a success that leaves tokens, and only there."""
        self.lists(f"{FARTHEST}\n", "", 25, FARTHEST)
        self.lists("farthest 1:1", "farthest 1:2", 25, FARTHEST)
        self.lists("farthest 1:1", "farthest end", 25, FARTHEST)
        self.lists("         mark -\n", "         mark -\n     farthest end\n", 24)
        left = "     loss 1:1 loss\n     farthest 1:1"
        self.says("     farthest 1:1\n", "", f"17: the reader lists:\n{left}", READINGS)
        entries = "19: entries stand below a run with the part `entries`"
        self.says("16\n", "16\n     farthest 1:1\n", entries, READINGS)
        for answer, lines in (("failure 1", ["farthest 2:3"]), ("failure 2", ["farthest end"]), ("refused 8", [])):
            self.assertEqual(handbook.farthest_lines(b"a\n  b", [(1, 0, 0, 1), (1, 2, 4, 1)], answer), lines)

    def test_forms_of_entries(self):
        form = "a run is written `(NUMBER) START -> success N L H clear F` or `.. -> failure F`"
        self.says("(3) -> success", "3 -> success", f"26: {form}", LISTED)
        self.says("(1) entries ->", "(1) ->", "19: entries stand below a run with the part `entries`", LISTED)
        self.says("(1) entries ->", "(1) entry ->", "18: no such start: entry", LISTED)
        answers = "18: the reader answers: success 12 0 0 clear 12"
        self.says("(1) entries -> success 12", "(1) entries -> success 11", answers, LISTED)

    def test_parts(self):
        """A run that lists, and the program's line, are asked for the same answer."""
        told = {"list": "the run that lists answers: failure 0", "line": "the program's line is not the answer of the run"}
        for part, says in told.items():
            other = copy.copy(READER)
            setattr(other, part, lambda *given, **reading: ("failure 0", []))
            with self.assertRaises(handbook.Wrong) as wrong:
                handbook.read_handbook(other, LISTED)
            self.assertEqual(str(wrong.exception), f"docs/HANDBOOK.md:18: {says}")

    def test_list_cases(self):
        """A run with entries is a case of both lists."""
        cases = handbook_cases.file_of(*handbook.read_handbook(READER, LISTED))
        self.assertEqual(cases[cases.index("unfoldable") :], LIST_CASES)

    def test_wide_lists(self):
        """Room for a list grows, and its words go over several lines."""
        grammar = "```grammar\n# wide.grammar\nstart all\nmode any\n\nall = one*\none = word\n```\n"
        entries = "".join(f"     one 1:{2 * i + 1} a\n" for i in range(30))
        entries += "     farthest 1:61\n"
        report = f"```report\n{'a ' * 30}\n\n(1) entries -> success 30 0 inf clear 30\n{entries}```\n"
        cases = handbook_cases.file_of(*handbook.read_handbook(READER, f"{grammar}\n{report}"))
        words = cases[cases.index("(nines 120) (counting 30 ") :]
        self.assertIn("\n    (capture 1 0 1 0 ++ capture 1 1 2 0 ++", words)
        self.assertIn(" ++ capture 1 29 30 0)\n    ∷ []\n", words)
        self.assertLessEqual(max(len(line.encode()) for line in words.splitlines()), handbook_cases.WIDEST)

    def test_shown(self):
        """The text of a capture with all its lines, that of one without a token, and one that is not there."""
        (grammar,), (report,) = handbook.read_handbook(READER, LISTED)
        given = (grammar.file, report.text.encode(), report.tokens)
        self.assertEqual(READER.shown(*given, (1, 0, 12, 0)), report.text.rstrip("\n").encode())
        self.assertEqual(READER.shown(*given, (3, 8, 8, 0)), b"mark")
        self.assertEqual([READER.rule_name(grammar.file, rule) for rule in (0, 3, 4)], [b"report", b"mark", b""])
        for capture in ((4, 0, 0, 0), (1, 0, 13, 0), (1, 2, 1, 0)):
            with self.assertRaises(library.Refused) as refused:
                READER.shown(*given, capture)
            self.assertEqual(refused.exception.number, 14)

    def test_written(self):
        """A grammar's own tables and start give its file again, another start only that, and a rule too many is refused."""
        (grammar,), _ = handbook.read_handbook(READER, LISTED)
        nodes, rules, node, mode = READER.read(grammar.file)
        self.assertEqual(READER.write(grammar.file, nodes, rules, node, mode), grammar.file)
        other = READER.write(grammar.file, nodes, rules, 0, 34)
        self.assertEqual(other, grammar.file[:-3] + b"\0\0\x22")
        self.assertEqual(READER.read(other), (nodes, rules, 0, 34))
        with self.assertRaises(library.Refused) as refused:
            READER.write(grammar.file, nodes, [*rules, 0], node, mode)
        self.assertEqual(refused.exception.number, 15)

    def test_commands(self):
        """What the programs print on the examples: one line, the entries before it, and a failure with its farthest place."""
        listed = handbook.printed(READER, "entries", handbook.ROOT / "examples" / "report.txt")
        self.assertEqual(listed[:2], ["heading 1:1 Fusion splicer, arc table 4", "splice 2:1 splice 1"])
        self.assertEqual(listed[-2:], ["  cleave 10:5 cleave: 0.5, 0.3", "success 58 0 0 clear 58"])
        right = ["../crates/reader/out/reader < report.txt", "# success 58 0 0 clear 58"]
        right += ["../crates/entries/out/entries < misplaced.txt", "# failure 52", "# farthest 10:3"]
        right += ["", "../crates/entries/out/entries < report.txt", *(f"# {line}" for line in listed)]
        handbook.read_commands(READER, handbook.Block("sh", 1, right))
        for missing, told in ((1, 1), (3, 3), (4, 3), (7, 7), (len(right) - 1, 7)):
            with self.assertRaises(handbook.Wrong) as wrong:
                handbook.read_commands(READER, handbook.Block("sh", 1, right[:missing] + right[missing + 1 :]))
            self.assertRegex(str(wrong.exception), rf"^docs/HANDBOOK\.md:{told}: this writes: ")


READINGS = """\
```grammar
# marked.grammar
keywords "note" "loss"
start marked
mode equal

marked = align "note"? indent greater loss
loss   = "loss"
```

```report
loss

(1) -> failure 0
(2) by 2014, entries -> success 1 0 0 clear 0
     loss 1:1 loss
     farthest 1:1
(3) by 2014, mode greater -> refused 16
```
"""

READING_CASES = """\
unfoldable pub handbook_cases : List Case
handbook_cases =
    -- 1. marked.grammar on |loss|
    run marked_nodes marked_rules report1 (from 6 equal) (fails 0)
    -- 2. marked.grammar, by 2014, entries, on |loss|
    ∷ run_by2014 marked_nodes marked_rules report1 (from 6 equal) (reads 1 0 (At 0) false 0)
    -- 3. marked.grammar, by 2014, mode greater, on |loss|
    ∷ run_by2014 marked_nodes marked_rules report1 (from 6 greater) (refused 16)
    -- Each grammar: it passes the check, or the builder tells that it does not.
    ∷ check marked_nodes marked_rules (given tt)
    ∷ []

unfoldable pub handbook_lists : List CaptureCase
handbook_lists =
    -- 2. marked.grammar, by 2014, entries, on |loss|
    lists_by2014 marked_nodes marked_rules report1 (from 6 equal) (nines 4) (counting 1 (reads 1 0 (At 0) false 0))
    (capture 1 0 1 0)
    ∷ []
"""

CASES = """\
unfoldable pub handbook_cases : List Case
handbook_cases =
    -- 1. entry.grammar on |  loss: 0.03|
    run entry_nodes entry_rules report1 (from 6 greater) (reads 4 0 (At 1) false 3)
    -- 2. entry.grammar, mode equal, on |  loss: 0.03|
    ∷ run entry_nodes entry_rules report1 (from 6 equal) (fails 1)
    -- 3. entry.grammar, rule entry, from 0 to 9, flag set, on |  loss: 0.03|
    ∷ run entry_nodes entry_rules report1 (within 6 greater (to 0 (At 9)) true) (reads 4 2 (At 2) false 3)
    -- Each grammar: it passes the check, or the builder tells that it does not.
    ∷ check entry_nodes entry_rules (given tt)
    ∷ check left_nodes left_rules (refused_at 7 0)
    ∷ []

unfoldable pub handbook_lists : List CaptureCase
handbook_lists =
    []
"""

STEPS = """\
```grammar
# stepped.grammar
start stepped
mode +2

stepped = word / indent +31 (position +1 word)
```

```report
  far

(1) -> success 1 0 0 clear 0
(2) mode +3 -> failure 0
(3) mode +1, from 1 to 1 -> success 1 1 1 clear 0
```
"""

STEP_CASES = """\
unfoldable pub handbook_cases : List Case
handbook_cases =
    -- 1. stepped.grammar on |  far|
    run stepped_nodes stepped_rules report1 (from 3 (step 2)) (reads 1 0 (At 0) false 0)
    -- 2. stepped.grammar, mode +3, on |  far|
    ∷ run stepped_nodes stepped_rules report1 (from 3 (step 3)) (fails 0)
    -- 3. stepped.grammar, mode +1, from 1 to 1, on |  far|
    ∷ run stepped_nodes stepped_rules report1 (within 3 (step 1) (to 1 (At 1)) false) (reads 1 1 (At 1) false 0)
    -- Each grammar: it passes the check, or the builder tells that it does not.
    ∷ check stepped_nodes stepped_rules (given tt)
    ∷ []

unfoldable pub handbook_lists : List CaptureCase
handbook_lists =
    []
"""

LIST = """\
     splice 1:1 splice 1
       entry 2:3 * loss: 0.03
         mark 2:3 *
       entry 3:3 loss: 0.05
         mark -"""

FARTHEST = "     farthest 1:1"

LISTED = f"""\
```grammar
# listed.grammar
keywords "splice" "*" "loss" ":"
start report
mode greater

report = (align splice)* end
splice = "splice" number eol indent greater (align entry)*
entry  = mark "loss" ":" number eol
mark   = "*"?
```

```report
splice 1
  * loss: 0.03
  loss: 0.05

(1) entries -> success 12 0 0 clear 12
{LIST}
(2) rule entry, entries -> failure 0
{FARTHEST}
(3) -> success 12 0 0 clear 12
```
"""

LIST_CASES = """\
unfoldable pub handbook_cases : List Case
handbook_cases =
    -- 1. listed.grammar, entries, on |splice 1|  * loss: 0.03|  loss: 0.05|
    run listed_nodes listed_rules report1 (from 19 greater) (reads 12 0 (At 0) false 12)
    -- 2. listed.grammar, rule entry, entries, on |splice 1|  * loss: 0.03|  loss: 0.05|
    ∷ run listed_nodes listed_rules report1 (from 31 greater) (fails 0)
    -- 3. listed.grammar on |splice 1|  * loss: 0.03|  loss: 0.05|
    ∷ run listed_nodes listed_rules report1 (from 19 greater) (reads 12 0 (At 0) false 12)
    -- Each grammar: it passes the check, or the builder tells that it does not.
    ∷ check listed_nodes listed_rules (given tt)
    ∷ []

unfoldable pub handbook_lists : List CaptureCase
handbook_lists =
    -- 1. listed.grammar, entries, on |splice 1|  * loss: 0.03|  loss: 0.05|
    lists listed_nodes listed_rules report1 (from 19 greater) (nines 20) (counting 5 (reads 12 0 (At 0) false 12))
    (capture 1 0 12 0 ++ capture 2 3 8 1 ++ capture 3 3 4 2 ++ capture 2 8 12 1 ++ capture 3 8 8 2)
    -- 2. listed.grammar, rule entry, entries, on |splice 1|  * loss: 0.03|  loss: 0.05|
    ∷ lists listed_nodes listed_rules report1 (from 31 greater) (nines 0) (counting 0 (fails 0))
    []
    ∷ []
"""


if __name__ == "__main__":
    if len(sys.argv) < 2:
        sys.exit("usage: test_handbook.py LIBRARY [TEST..]")
    READER = library.Reader(sys.argv.pop(1))
    unittest.main()

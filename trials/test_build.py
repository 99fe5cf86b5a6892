#!/usr/bin/env python3
"""Tests of tools/build.py: its messages, its nodes, and what it says of a grammar beside what the reader answers.

    python3 trials/test_build.py LIBRARY

LIBRARY is the reader as a shared library (trials/library.py says how it is made).
"""

import pathlib
import random
import re
import shutil
import subprocess
import sys
import tempfile
import unittest

import library

ROOT = pathlib.Path(__file__).resolve().parent.parent
sys.path.insert(0, str(ROOT / "tools"))
import build  # noqa: E402

HEAD = 'keywords "loss" ":"\nstart report\nmode greater\n'
SEED, GRAMMARS = 13, 600
RELATION = "a relation (equal, greater, at-least, any, or +1 to +31)"


def faults_of(text):
    """What the builder says of a grammar, a line for each fault."""
    try:
        build.built(text)
    except build.Faults as wrong:
        return [fault.line("x") for fault in wrong.faults]
    return []


def nodes_of(rules, keywords='"loss" ":"'):
    """The grammar of some rules."""
    return build.grammar_of(f"keywords {keywords}\nstart report\nmode greater\n{rules}")


def first_line(text):
    """The first fault of a grammar, or an empty line."""
    return (faults_of(text) or [""])[0]


class Messages(unittest.TestCase):
    def says(self, text, *lines):
        self.assertEqual(faults_of(text), list(lines))

    def test_signs(self):
        """A sign that no word has: the parser says what it expected. A keyword is told where one could be meant."""
        for sign, hints in (
            ("&", 'a keyword is written "&"'),
            (":", 'a keyword is written ":"'),
            (">=", 'a keyword is written ">" "="'),
            ("|", 'a choice is written with /; a keyword is written "|"'),
            ("[", 'once or not at all is written `(..)?`; a keyword is written "["'),
            ("{", 'any number of times is written `(..)*`; a keyword is written "{"'),
            ("*", '* stands behind an expression; a keyword is written "*"'),
            (",", 'keywords and expressions are parted by blanks; a keyword is written ","'),
            (";", 'no sign ends a statement, and a comment begins with #; a keyword is written ";"'),
            ("%", 'a comment begins with #; a keyword is written "%"'),
            ("=", 'a rule is written `NAME = ..`, its name without quotes; a keyword is written "="'),
            ("\\", 'a rule goes on in the next line without a sign; a keyword is written "\\"'),
            ("1.5", 'a name begins with a letter from a to z; a keyword is written "1.5"'),
            ("_report", 'a name begins with a letter from a to z; a keyword is written "_report"'),
            ("\u00e4rger", 'a name begins with a letter from a to z; a keyword is written "\u00e4rger"'),
            *((sign, "a comment begins with #") for sign in ("//", "/*", "(*", "--")),
            *((sign, "a rule is written `NAME = ..`") for sign in (":=", "::=", "==", "=>", "<-", "->")),
        ):
            self.says(HEAD + f"report = !{sign} word", f"x:4:11: an expression expected, not '{sign}'; {hints}")
        self.says(HEAD + "report = word \x07", "x:4:15: an expression expected, not '\\x07'")

    def test_quotes(self):
        quotes = "a keyword is written in double quotes, as"
        for written, meant in (("'arc'", '"arc"'), ("'arc:'", '"arc" ":"'), ("\u201carc\u201d", '"arc"'), ("`", '"loss"')):
            self.says(HEAD + f"report = {written} word", f"x:4:10: an expression expected, not {written}; {quotes} {meant}")
        self.says("keywords 'arc'", f"x:1:10: a keyword in quotes, as \"loss\", expected, not 'arc'; {quotes} \"arc\"")
        closed = 'this keyword is not closed: a second " is expected on its line'
        self.says(HEAD + 'report = "loss', f"x:4:10: {closed}")
        self.says('keywords "loss" ":\nstart report', f"x:1:17: {closed}")
        self.says('start "', f"x:1:7: {closed}")
        self.says(HEAD + 'report = & "loss', "x:4:10: an expression expected, not '&'; a keyword is written \"&\"")

    def test_no_sign_goes_unseen(self):
        """A sign that no word has is a fault, at its place or at the word before, wherever it is put."""
        rules = 'report = (align entry)* !word / indent any (eol?) end\nentry = "loss" ":" line+\n'
        words = [word.text for word in build.words_of(HEAD + rules)]
        self.says("\n".join(words))
        for sign in "&:;,.<>[]{}|%$@^~\\-'`_0\u00e4\x07":
            for at in range(len(words)):
                told = first_line("\n".join([*words[:at], sign, *words[at:]]))
                self.assertRegex(told, f"^x:({at}|{at + 1}):1: .* expected, not ", sign)

    def test_statements(self):
        statement = "keywords, start, mode or a rule `NAME = ..` expected, not"
        self.says(HEAD + "report word", f"x:4:1: {statement} report")
        self.says("start report;", f"x:1:13: {statement} ';'; no sign ends a statement, and a comment begins with #")
        self.says("// fibre", f"x:1:1: {statement} '//'; a comment begins with #")
        for written, meant in (("Keywords", "keywords"), ("keyword", "keywords"), ("Start", "start"), ("modes", "mode")):
            self.says(f"{written} x", f"x:1:1: {statement} {written}; is it {meant}?")
        self.says("start report\nreport = word", "x:2:14: there is no mode: a line `mode RELATION` is expected")
        self.says("mode any\nreport = word\n", "x:3:1: there is no start: a line `start NAME` is expected")
        self.says("mode any\nreport = word\nStart report",
                  "x:3:13: there is no start: a line `start NAME` is expected; Start at 3:1 is written start")
        self.says("", "x:1:1: there is no start: a line `start NAME` is expected")
        self.says("mode any\nmode any", "x:2:1: mode is there twice; the first is at 1:1; in a rule it is position")
        self.says("start a\nstart b", "x:2:1: start is there twice; the first is at 1:1")
        self.says("start (", "x:1:7: the name of the start rule expected, not '('")
        self.says("start\nreport = word", "x:2:1: the name of the start rule expected, not the next rule, report")
        for line, what in (("mode", RELATION), ("start", "the name of the start rule"),
                           ("keywords", 'a keyword in quotes, as "loss",')):
            for sign in ("=", ":", ":="):
                hint = f"{line} is written without {sign}, and no rule can be named {line}"
                self.says(f"{line} {sign} any", f"x:1:{len(line) + 2}: {what} expected, not '{sign}'; {hint}")
                self.says(f"r = word\n{line} {sign} any", f"x:2:{len(line) + 2}: {what} expected, not '{sign}'; {hint}")

    def test_keyword_lists(self):
        more = "a keyword in quotes, keywords, start, mode or a rule `NAME = ..` expected, not"
        self.says("keywords loss", 'x:1:10: a keyword in quotes, as "loss", expected, not loss')
        self.says("keywords\nreport = word", 'x:2:1: a keyword in quotes, as "loss", expected, not the next rule, report')
        self.says('keywords "loss", ":"', f"x:1:16: {more} ','; keywords and expressions are parted by blanks")
        self.says('keywords "loss" :', f"x:1:17: {more} ':'; a keyword is written \":\"")
        self.says('keywords "loss" gain', f"x:1:17: {more} gain")
        self.says('keywords "a"\nStart r', "x:2:1: keywords, start, mode or a rule `NAME = ..` expected, not Start; "
                  "is it start?")
        self.says('keywords "a"\n"r" = word', f"x:2:5: {more} '='; a rule is written `NAME = ..`, its name without quotes")
        behind = lambda keyword: f'right behind the keyword "{keyword}": no keyword holds a "'
        self.says('keywords "say"hi""', f"x:1:15: {more} hi, {behind('say')}")
        self.says('keywords "loss ":"', f"x:1:17: {more} ':', {behind('loss ')}; a keyword is written \":\"")

    def test_rule_begins(self):
        """A rule that is written with another sign, behind each kind of statement."""
        for before in (HEAD, HEAD + "report = word\n", HEAD + "report = (word / eol)*\n", HEAD + 'keywords "gain"\n'):
            line = before.count("\n") + 1
            for sign in (":=", "::=", "==", "=>", "<-", "->"):
                told = f"x:{line}:7: = expected, not '{sign}'; a rule is written `entry = ..`"
                self.says(before + f"entry {sign} word", told)
            told = f"x:{line}:6: = expected, not ':'; a rule is written `entry = ..`; a keyword is written \":\""
            self.says(before + "entry: word", told)
            for name in ("2entry", "_entry"):
                told = f"the name of a rule expected, not '{name}'; a name begins with a letter from a to z"
                self.says(before + f"{name} = word", f"x:{line}:1: {told}")
        for name, meant in (("Keywords", "keywords"), ("Start", "start"), ("mode-s", "mode")):
            self.says(f"{name}: any", f"x:1:{len(name) + 1}: = expected, not ':'; is it {meant}, without :?")
        start = "x:1:7: the name of the start rule expected, not"
        self.says("start 2report", f"{start} '2report'; a name begins with a letter from a to z")
        self.says('start "report"', f'{start} the keyword "report"; a name is written without quotes')
        self.says(HEAD + "report = word loss: number", "x:4:19: an expression expected, not ':'; a keyword is written \":\"")

    def test_relations(self):
        relation = f"{RELATION} expected, not"
        for written, meant in ((">", "greater"), (">=", "at-least"), ("=>", "at-least"), ("=", "equal"), ("==", "equal")):
            for before in ("", "word "):
                told = f"x:4:{17 + len(before)}: {relation} '{written}'; is it {meant}?"
                self.says(HEAD + f"report = {before}indent {written} word", told)
        for written, meant in (("at least", "at-least"), ("at_least", "at-least"), ("Any", "any"), ("equals", "equal")):
            self.says(f"mode {written}", f"x:1:6: {relation} {written.split()[0]}; is it {meant}?")
            self.says(HEAD + f"report = position {written} eol", f"x:4:19: {relation} {written.split()[0]}; is it {meant}?")
        self.says("mode all", f"x:1:6: {relation} all")
        self.says('mode "greater"', f'x:1:6: {relation} the keyword "greater"; is it greater?')
        for sign in "=:(":
            told = f"x:4:22: {relation} '{sign}'; write any without {sign}"
            self.says(HEAD + f"report = word indent {sign} any eol", told)
        self.says("mode // any", f"x:1:6: {relation} '//'; a comment begins with #")
        self.says("mode\nreport = word", f"x:2:1: {relation} the next rule, report")
        self.says(HEAD + "report = indent word", f"x:4:17: {relation} the reserved word word")
        self.says(HEAD + "report = indent (word)", f"x:4:17: {relation} '('")
        self.says(HEAD + 'report = position "loss"', f'x:4:19: {relation} the keyword "loss"')

    def test_no_steps(self):
        """What is no step: told with its place, and how a step is written."""
        relation, written = f"{RELATION} expected, not", "a step is written like +2, without a blank"
        over, apart = "no step is over +31", "a step is + and a number from 1 to 31, with a blank behind it"
        for word, told, hint in (
            *((zero, f"'{zero}'", "for no step write equal") for zero in ("+0", "+00", "0")),
            *((far, f"'{far}'", over) for far in ("+32", "+310", "+032", "32", "+" + "9" * 5000)),
            *((step, f"'{step}'", "is it +2?") for step in ("+02", "+002", "2")),
            ('"+2"', 'the keyword "+2"', "is it +2?"),
            ("'+2'", "'+2'", "is it +2?"),
            *((plus, "'+'", written) for plus in ("+", "+ 2", "++2", "+-2", "+\u0662")),
            *((other, f"'{other}'", apart) for other in ("+2x", "+2.5", "+2-3", "+2eol")),
            *((left, f"'{left}'", "a step goes to the right, as +2") for left in ("-2", "-0", "-")),
            ("--2", "'--'", "a comment begins with #"),
            ("=+2", "'='", "write +2 without ="),
            ("(+31)", "'('", "write +31 without ("),
        ):
            add_up = "; those of indents one in the other add up" if hint == over else ""
            self.says(HEAD + f"report = word indent {word} eol", f"x:4:22: {relation} {told}; {hint}{add_up}")
            self.says(HEAD + f"report = position\n {word} eol", f"x:5:2: {relation} {told}; {hint}")
            if word != "=+2":  # this is told as any other = behind mode
                self.says(f"mode {word}", f"x:1:6: {relation} {told}; {hint}")

    def test_steps_elsewhere(self):
        """A step where none can stand, one with a wrong number too."""
        behind = "a step stands behind indent, position or mode"
        for rule, column in (("word +2", 15), ("word+2", 14), ("+2 word", 10), ("(word +2)", 16), ("indent greater +2 eol", 25),
                             ("indent +31 +2 eol", 21), ("!+2", 11), ("align +2 eol", 16)):
            told = f'{behind}; a keyword is written "+2"'
            self.says(HEAD + f"report = {rule}", f"x:4:{column}: an expression expected, not the step +2; {told}")
        for word in ("+0", "+32", "+2x"):
            told = f"an expression expected, not '{word}'; {behind}; a keyword is written \"{word}\""
            self.says(HEAD + f"report = word{word}", f"x:4:14: {told}")
        self.says(HEAD + "report = word -2", "x:4:15: an expression expected, not '-2'; a keyword is written \"-2\"")
        statement = "keywords, start, mode or a rule `NAME = ..` expected, not the step +2;"
        self.says("mode greater +2", f"x:1:14: {statement} {behind}")
        self.says("start +2", f"x:1:7: the name of the start rule expected, not the step +2; {behind}")
        self.says('keywords "a" +2', f'x:1:14: a keyword in quotes, {statement} a keyword is written "+2"')
        words = [word.text for word in build.words_of(HEAD + 'report = align (indent any eol+ / position +2 word)* end')]
        self.says("\n".join(words))
        for at in range(len(words)):
            told = first_line("\n".join([*words[:at], "+2", *words[at:]]))
            self.assertRegex(told, f"^x:({at}|{at + 1}|{at + 2}):1: .* expected, not ")

    def test_expressions(self):
        none, nothing = "an expression expected, not", "for nothing write empty"
        behind = "stands behind indent, position or mode"
        self.says(HEAD + "report = ", f"x:4:10: {none} the end of the file")
        self.says(HEAD + "report =\nentry = word", f"x:5:1: {none} the next rule, entry; {nothing}")
        self.says(HEAD + "report = word /\nentry = word", f"x:5:1: {none} the next rule, entry; {nothing}")
        self.says(HEAD + "report =\ntoken = word", f"x:5:1: {none} the next rule, token; {nothing}")
        self.says(HEAD + "report = loss = eol", f'x:4:10: {none} the next rule, loss; {nothing}; a keyword is written "="')
        self.says(HEAD + "report =\n2entry = word", f"x:5:1: {none} '2entry'; a name begins with a letter from a to z; "
                  'a keyword is written "2entry"')
        self.says(HEAD + 'report = word "loss" = eol', f"x:4:22: {none} '='; a rule is written `NAME = ..`, its name without "
                  'quotes; a keyword is written "="')
        self.says(HEAD + "report =\nstart report", f"x:5:1: {none} the reserved word start")
        self.says(HEAD + "report = ()", f"x:4:11: {none} ')'; {nothing}; a keyword is written \")\"")
        self.says(HEAD + "report = / word", f"x:4:10: {none} '/'; {nothing}; a keyword is written \"/\"")
        self.says(HEAD + "report = word greater", f"x:4:15: {none} the reserved word greater; a relation {behind}")
        self.says(HEAD + "report = any*", f"x:4:10: {none} the reserved word any; any one token is written token, "
                  f"and the relation any {behind}")
        self.says(HEAD + "report = mode any line", f"x:4:10: {none} the reserved word mode; in a rule it is position")
        self.says(HEAD + "report = (word eol", "x:4:19: / or the closing bracket of 4:10 expected, not the end of the file")
        self.says(HEAD + "report = (word\nb = eol", "x:5:1: / or the closing bracket of 4:10 expected, not the next rule, b")
        self.says(HEAD + "report = word) eol", "x:4:14: / or the next statement expected, not ')'; no bracket is open here")

    def test_depth(self):
        """The place where an expression gets too deep, whatever it is nested by."""
        deep = "an expression is nested over 1024 deep here; write what is inside as a rule"
        for column, count, before, after in ((1034, 9000, "(", ")"), (1034, 9000, "!", ""), (1039, 9000, "", "+"),
                                             (1880, 500, "(", "+++)")):
            self.says(HEAD + "report = " + before * count + "word" + after * count, f"x:4:{column}: {deep}")
        for before, after, count in (("(", ")", 1023), ("!(", ")", 511), ("", "?", 510), ("", "+", 255)):
            self.says(HEAD + "report = " + before * count + "word" + after * count)
        self.says(HEAD + "report = word\n" + "\n".join(f"r{i} = " + "word " * 300 for i in range(5)))

    def test_reserved(self):
        reserved = (
            "reserved are: keywords, start, mode, align, indent, position, empty, number, word, eol, "
            "token, line, end, equal, greater, at-least, any"
        )
        expected = "the name of a rule expected, not the reserved word"
        self.says(HEAD + "report = word\ntoken = word", f"x:5:1: {expected} token; {reserved}")
        self.says(HEAD + "report = word\nindent = word", f"x:5:1: {expected} indent; {reserved}")
        self.says("start end", f"x:1:7: the name of the start rule expected, not the reserved word end; {reserved}")
        colon = f'x:5:2: {expected} word; a keyword is written ":"; {reserved}'
        self.says(HEAD + "report = word\n word : number", colon)

    def test_rules_not_there(self):
        declared = lambda name: f"rule is declared by a line `{name} = ..`"
        like = f"is it entry? A {declared('entri')}"
        self.says(HEAD + "report = entri eol\nentry = word", f"x:4:10: no rule is named entri; {like}")
        other = lambda name: f"a {declared(name)}, and a keyword is written \"{name}\""
        self.says(HEAD + "report = other", f"x:4:10: no rule is named other; {other('other')}")
        for name in ("loss", "Loss"):
            self.says(HEAD + f"report = {name}", f'x:4:10: no rule is named {name}; the keyword is written "loss"')
        self.says('keywords "loss"\nstart loss\nmode any\nreport = word',
                  f"x:2:7: no rule is named loss; a {declared('loss')}")
        like = f"is it report? A {declared('repot')}"
        self.says("start repot\nmode any\nreport = word", f"x:1:7: no rule is named repot; {like}")
        both = [f"x:4:{c}: no rule is named {name}; {other(name)}" for c, name in ((10, "one"), (14, "two"))]
        self.says(HEAD + "report = one two", *both)
        twice = "x:5:1: rule report is there twice; the first is at 4:1 (the reader would answer: refused 2)"
        self.says(HEAD + "report = word\nreport = eol", twice)

    def test_rules_like_words(self):
        """What could be a word or a sign of the notation is told as that, but not as the start."""
        declared = lambda name: f"rule is declared by a line `{name} = ..`"
        for name, meant in (
            ("Number", "the reserved word number"),
            ("numbers", "the reserved word number"),
            ("EOL", "the reserved word eol"),
            ("eof", "the reserved word end"),
            ("newline", "the reserved word eol"),
            ("Tokens", "the reserved word token"),
            ("idnent", "the reserved word indent"),
            ("not", "the sign `!`"),
            ("or", "the sign `/`"),
            ("repeat", "the sign `*` behind an expression"),
            ("Optional", "the sign `?` behind an expression"),
            ("then", "a blank, as in `number eol`"),
            ("Lines", "lines"),
            ("line-s", "lines"),
        ):
            told = f"x:4:10: no rule is named {name}; is it {meant}? A {declared(name)}"
            self.says(HEAD + f"report = {name} lines\nlines = word", told)
        told = f"x:4:10: no rule is named entry; a {declared('entry')}, and a keyword is written \"entry\""
        self.says(HEAD + "report = entry", told)
        self.says("start numbers\nmode any\nreport = word", f"x:1:7: no rule is named numbers; a {declared('numbers')}")

    def test_keywords_not_there(self):
        missing, add = "is not among the keywords;", "add it to the keywords of line 1"
        self.says(HEAD + 'report = "arc"', f'x:4:10: "arc" {missing} {add}')
        self.says(HEAD + 'report = "los"', f'x:4:10: "los" {missing} is it "loss"? Otherwise {add}')
        self.says('start r\nmode any\nr = "arc"', f'x:3:5: "arc" {missing} declare it by a line `keywords "arc"`')
        for name in ("number", "end", "entry"):
            quotes = f"is it {name}, without quotes? Otherwise {add}"
            self.says(HEAD + f'report = "{name}"\nentry = word', f'x:4:10: "{name}" {missing} {quotes}')

    def test_keywords_that_cannot_be(self):
        """No spelling is told that the reader would refuse."""
        cannot = "is not among the keywords and cannot be: it"
        single = "holds ':', which is a token by itself; write"
        self.says(HEAD + 'report = "loss:"', f'x:4:10: "loss:" {cannot} {single} "loss" ":"')
        self.says(HEAD + 'report = "a:b:"', f'x:4:10: "a:b:" {cannot} {single} "a" ":" "b" ":"')
        self.says(HEAD + 'report = ""', f'x:4:10: "" {cannot} is empty, and no keyword holds a "')
        self.says(HEAD + 'report = "a b"', f'x:4:10: "a b" {cannot} holds a blank or a control character; write "a" "b"')
        self.says(HEAD + 'report = " "', f'x:4:10: " " {cannot} holds a blank or a control character')
        self.says('keywords "loss:"\nstart r\nmode any\nr = "loss"',
                  f'x:1:10: the keyword "loss:" {single} "loss" ":" (the reader would answer: refused 2)',
                  'x:4:5: "loss" is not among the keywords; add it to the keywords of line 1')

    def test_parts_once(self):
        """Where several keywords are cut, each part is told once, and none that is there."""
        def told(keywords):
            lines = faults_of(f"keywords {keywords}\nstart r\nmode any\nr = word")
            return [line.partition("by itself; ")[2].partition(" (the")[0] for line in lines]

        self.assertEqual(told('"loss:" "gain:"'), ['write "loss" ":"', 'write "gain"'])
        self.assertEqual(told('"a:b:c" "b"'), ['write "a" ":" "c"'])
        self.assertEqual(told('":" "loss:"'), ['write "loss"'])
        self.assertEqual(told('"loss" ":" "loss:"'), ["leave it out, its parts are keywords"])

    def test_unused(self):
        source = nodes_of("report = entry\nentry = word\nother = more\nmore = last\nlast = word").source
        told = [fault.line("x") for fault in build.unused(source)]
        warning = "is not used; the start, report, does not lead to it"
        rules = ((6, "other"), (7, "more"), (8, "last"))
        self.assertEqual(told, [f"x:{line}:1: warning: rule {rule} {warning}" for line, rule in rules])


class Nodes(unittest.TestCase):
    def test_same_as_spelled_out(self):
        for short, long in (
            ("word?", "word / empty"),
            ("word+", "word word*"),
            ("(word eol)+", "(word eol) (word eol)*"),
            ("!word? eol", "!(word / empty) eol"),
            ("align word+", "align (word word*)"),
            ("word+?", "(word word*) / empty"),
            ("end", "!(indent any (position any token))"),
            ('token', 'eol / (number / (word / ("loss" / ":")))'),
            ('line', '(number / word / "loss" / ":")* eol'),
        ):
            short, long = nodes_of(f"report = {short}"), nodes_of(f"report = {long}")
            spelled = lambda g, n: (g.nodes[n][0], g.nodes[n][3], *children(g, n, spelled))
            self.assertEqual(spelled(short, short.start), spelled(long, long.start))

    def test_counts(self):
        for n in (0, 1, 2, 8, 40):
            keywords = "keywords " + " ".join(f'"k{i}"' for i in range(n)) + "\n" if n else ""
            of = lambda words: build.grammar_of(f"{keywords}start report\nmode any\nreport = {words}")
            self.assertEqual(len(of("token").nodes), 2 * n + 5)
            self.assertEqual(len(of("token / token").nodes), 2 * n + 6)
            self.assertEqual(len(of("end").nodes), 2 * n + 8)
            self.assertEqual(len(of("line").nodes), 2 * n + 6)
            self.assertEqual(len(of("line end").nodes), 2 * n + 11)
            self.assertEqual(len(of("line token end").nodes), 2 * n + 12)
            self.assertEqual(len(of("word").nodes), 1)
            self.assertEqual(list(of("line token end").rules), ["report"])
            self.assertFalse(any(node[0] == build.RULE for node in of("line token end").nodes))

    def test_relations(self):
        """The number of each relation, in a node and as the mode: the names are 0 to 3, and a step is its amount and 3."""
        written = {"equal": 0, "greater": 1, "at-least": 2, "any": 3, "+1": 4, "+2": 5, "+9": 12, "+10": 13, "+31": 34}
        for relation, number in written.items():
            for rule, node in ((f"indent {relation} word", (build.INDENT, 0, 0, number)),
                               (f"position {relation} (word)", (build.POSITION, 0, 0, number)),
                               (f"indent {relation}(word)", (build.INDENT, 0, 0, number))):
                self.assertEqual(nodes_of(f"report = {rule}").nodes, [(build.TERMINAL, 1, 0, 0), node])
            for line in (f"mode {relation}", f"mode\n {relation} # comment"):
                self.assertEqual(build.grammar_of(f"start r\n{line}\nr = word").mode, number)
        self.assertEqual(len(build.RELATIONS), 35)
        self.assertEqual(nodes_of("report = indent+2 word").nodes, nodes_of("report = indent +2 word").nodes)

    def test_plus(self):
        """A + behind an expression is no step, whatever follows it."""
        for rule in ("word+ eol", "word+eol", "(word)+ eol", "word+(eol)"):
            self.assertEqual(nodes_of(f"report = {rule}").nodes, nodes_of("report = (word word*) eol").nodes)
        twice = nodes_of("report = indent +2 word+ indent +2 (word+)")
        self.assertEqual([node[3] for node in twice.nodes if node[0] == build.INDENT], [5])

    def test_keywords_anywhere(self):
        last = build.grammar_of('start report\nmode any\nreport = "a" token\nkeywords "a"\nkeywords "b"')
        first = build.grammar_of('keywords "a" "b"\nstart report\nmode any\nreport = "a" token')
        self.assertEqual((last.nodes, last.keywords), (first.nodes, first.keywords))
        self.assertEqual(len(last.nodes), 2 * 2 + 5 + 1)

    def test_origins(self):
        grammar = nodes_of('entry = "loss" ":"\n  number eol\nreport = entry* end')
        self.assertEqual([str(o.place) for o in grammar.origins[:4]], ["4:9", "4:16", "5:3", "5:10"])
        self.assertEqual({o.rule for o in grammar.origins[:7]}, {"entry"})
        last = grammar.origins[-2]
        self.assertEqual((last.rule, str(last.place), last.built_in), ("report", "6:17", "end"))

    def test_texts(self):
        """An expression in the notation reads as the same expression; random ones too."""
        chance = random.Random(SEED)
        for _ in range(GRAMMARS):
            grammar = build.grammar_of(random_grammar(chance))
            rules = "\n".join(f"{rule.name} = {build.text_of(rule.expression)}" for rule in grammar.source.rules)
            again = build.grammar_of(f'keywords "a" "b"\nstart r0\nmode any\n{rules}\n')
            self.assertEqual((again.nodes, again.rules), (grammar.nodes, grammar.rules), rules)

    def test_step_texts(self):
        for text in ("indent +1 word", "position +31 (word eol)", "align indent +2 (word+ / eol)", "(indent +2 word)+ eol"):
            self.assertEqual(build.text_of(nodes_of(f"report = {text}").source.rules[0].expression), text)


def children(grammar, number, spelled):
    kind, a, b, _ = grammar.nodes[number]
    if kind in (build.SEQUENCE, build.CHOICE):
        return spelled(grammar, a), spelled(grammar, b)
    return (spelled(grammar, a),) if kind > build.CHOICE else (a,)


class Written(unittest.TestCase):
    def test_same_bytes(self):
        """The reader writes what it reads of the builder's files, with the file lending, as the same bytes; random ones too."""
        chance = random.Random(SEED)
        texts = [random_grammar(chance) for _ in range(GRAMMARS)]
        texts += [path.read_text(encoding="utf-8") for path in sorted((ROOT / "examples").glob("*.grammar"))]
        for text in texts:
            file = build.file_of(build.grammar_of(text))
            self.assertEqual(READER.write(file, *READER.read(file)), file, text)


class Refusals(unittest.TestCase):
    """The first number that the builder tells, with its node, is the reader's answer to the file that would be written."""

    def answer(self, grammar):
        """What the reader answers to a grammar's file."""
        try:
            nodes, rules, _, _ = READER.read(build.file_of(grammar))
            READER.check(nodes, rules)
        except library.Refused as refused:
            return str(refused)
        return "passed"

    def told(self, grammar):
        faults = build.refusals(grammar)
        self.assertEqual(len({fault.answer() for fault in faults}), min(1, len(faults)))
        return faults[0].answer() if faults else "passed"

    def same(self, text, answer):
        grammar = build.grammar_of(text)
        self.assertEqual(self.told(grammar), answer)
        self.assertEqual(self.answer(grammar), answer)

    def keywords(self, *spellings):
        return "keywords " + " ".join(f'"{s}"' for s in spellings) + "\nstart report\nmode any\nreport = word"

    def test_1(self):
        self.same(self.keywords(*(f"k{i}" for i in range(253))), "passed")
        self.same(self.keywords(*(f"k{i}" for i in range(254))), "refused 1")
        self.assertEqual(first_line(self.keywords(*(f"k{i}" for i in range(254)))),
                         "x:1:1671: 254 keywords, and at most 253 can be (the reader would answer: refused 1)")
        self.same(self.keywords("k" * 65502), "refused 2")
        self.same(self.keywords("k" * 65503), "refused 1")
        self.assertEqual(first_line(self.keywords("k" * 65503)),
                         "x:2:7: the grammar file would have 65536 bytes, and at most 65535 can be "
                         "(the reader would answer: refused 1)")
        for length, place in ((65529, "1:10"), (65528, "1:65541"), (65515, "4:1"), (65505, "4:10"), (65500, "4:15")):
            text = self.keywords("k" * length, "l").replace("= word", "= word eol")
            self.assertRegex(first_line(text), f"^x:{place}: the grammar file would have 655.. bytes, ")
        self.same(self.keywords("a b", *(f"k{i}" for i in range(254))), "refused 1")
        # With 254 keywords the reader would answer 1, so a rule that is there twice is told without a number.
        twice = self.keywords(*(f"k{i}" for i in range(254))) + "\nx = word\nx = eol\n"
        self.assertEqual(first_line(twice), "x:6:1: rule x is there twice; the first is at 5:1")

    def test_2(self):
        for spelling, wrong in (
            ("", "is empty"),
            ("k" * 33, "has 33 bytes, and at most 32 can be"),
            ("µ" * 17, "has 34 bytes, and at most 32 can be"),
            ("a b", 'holds a blank or a control character; write "a" "b"'),
            ("a\tb", 'holds a blank or a control character; write "a" "b"'),
            ("a\x7f", 'holds a blank or a control character; write "a"'),
            (" ", "holds a blank or a control character"),
            ("k" * 32 + ":", 'has 33 bytes, and at most 32 can be; write "' + "k" * 32 + '" ":"'),
            ("k" * 33 + ":", "has 34 bytes, and at most 32 can be"),
            ("loss:", "holds ':', which is a token by itself; write \"loss\" \":\""),
            ("a(b", "holds '(', which is a token by itself; write \"a\" \"(\" \"b\""),
            ("%%", "holds '%', which is a token by itself; write \"%\""),
            ("a:b:c", "holds ':', which is a token by itself; write \"a\" \":\" \"b\" \"c\""),
        ):
            text = self.keywords(spelling)
            self.same(text, "refused 2")
            self.assertEqual(first_line(text), f'x:1:10: the keyword "{spelling}" {wrong} (the reader would answer: refused 2)')
        self.assertEqual(first_line(self.keywords("a", "b", "a")),
                         'x:1:18: the keyword "a" is there twice; the first is at 1:10 (the reader would answer: refused 2)')
        for right in ("k" * 32, "µ" * 16, "°", "\u00a0", *":,()[]=;%", "loss-", "*", "#"):
            self.same(self.keywords(right), "passed")
        name = "r" * 33
        text = f"start {name}\nmode any\n{name} = word"
        self.same(text, "refused 2")
        self.assertEqual(first_line(text), f"x:3:1: the name {name} has 33 bytes, and at most 32 can be "
                         "(the reader would answer: refused 2)")
        self.same(text.replace(name, "r" * 32), "passed")

    def rules(self, count):
        return "start r0\nmode any\n" + "\n".join(f"r{i} = word" for i in range(count))

    def test_3(self):
        self.same(self.rules(128), "passed")
        self.same(self.rules(129), "refused 3")
        self.assertEqual(first_line(self.rules(129)),
                         "x:131:1: rule r128: 129 rules, and at most 128 can be (the reader would answer: refused 3)")
        self.same("start r\nmode any\nr = " + "!" * 511 + "word", "passed")
        self.same("start r\nmode any\nr = " + "!" * 512 + "word", "refused 3")
        self.assertEqual(first_line("start r\nmode any\nr = " + "!" * 512 + "word"),
                         "x:3:5: rule r: 513 nodes, and at most 512 can be (the reader would answer: refused 3)")
        for count, answer in ((252, "passed"), (253, "refused 3")):
            text = self.keywords(*(f"k{i}" for i in range(count))).replace("= word", "= end")
            self.same(text, answer)
        self.assertEqual(first_line(text), "x:4:10: rule report: 514 nodes, and at most 512 can be; "
                         "token, line and end take 514 of them, for 253 keywords (the reader would answer: refused 3)")
        text = self.keywords("a").replace("= word", "= end " + "!" * 511 + "word")
        self.assertIn("take 10 of them, for 1 keyword (", first_line(text))

    def test_relations(self):
        """The reader takes each relation that can be written, as the mode too, and no number behind the last."""
        for relation in build.RELATIONS:
            self.same(f"start r\nmode {relation}\nr = indent {relation} position {relation} word", "passed")
        grammar = build.grammar_of("start r\nmode +31\nr = indent +31 word")
        self.assertEqual(build.file_of(grammar)[-12:], bytes([7, 0, 0, 0, 0, 34, 5, 0, 3, 0, 1, 34]))
        grammar.mode += 1
        self.assertEqual(self.answer(grammar), "refused 5")
        kind, a, b, relation = grammar.nodes[-1]
        grammar.nodes[-1] = kind, a, b, relation + 1
        self.assertEqual(self.answer(grammar), "refused 4")

    def test_7(self):
        reads = "repeats what may succeed without reading a token"
        comes = "is left recursive: it comes back to itself before a token is read,"
        for rules, place, text, answer in (
            ("report = empty*", "4:10", f"rule report: empty* {reads}", "refused 7 1"),
            ("report = end*", "4:10", f"rule report: end* {reads}", "refused 7 12"),
            ("report = (word?\n eol?)+", "4:11", f"rule report: (word? eol?)+ {reads}", "refused 7 6"),
            ("report = report word", "4:1", f"rule report {comes} report -> report", "refused 7 0"),
            ("report = word b\nb = word? c\nc = !eol b", "5:1", f"rule b {comes} b -> c -> b", "refused 7 1"),
            ("report = word b\nb = word (eol?)*", "5:11", f"rule b: (eol?)* {reads}", "refused 7 6"),
            ("report = word b\nb = (eol / !word)* word", "5:6", f"rule b: (eol / !word)* {reads}", "refused 7 1"),
            ("report = word\nb = align (indent any b)", "5:1", f"rule b {comes} b -> b", "refused 7 1"),
        ):
            self.same(HEAD + rules, answer)
            self.assertEqual(first_line(HEAD + rules), f"x:{place}: {text} (the reader would answer: {answer})")
        self.same(HEAD + "report = (!empty)*", "passed")
        self.same(HEAD + "report = word report / empty", "passed")

    def test_7_all(self):
        """Each cause is told once, at its place, all with the reader's node; a rule that only leads to one is not told."""
        reads = "repeats what may succeed without reading a token"
        left = "is left recursive: it comes back to itself before a token is read,"
        comes = lambda way: f"rule {way[0]} {left} {' -> '.join(way)}"
        for rules, answer, *told in (
            ("report = b c d e\nb = b word\nc = c eol\nd = (word?)*\ne = !b d", "refused 7 0",
             f"5:1: {comes('bb')}", f"6:1: {comes('cc')}", f"7:6: rule d: (word?)* {reads}"),
            ("report = b\nb = c\nc = d b\nd = word?\ne = b", "refused 7 0", f"5:1: {comes('bcb')}"),
            ("report = b\nb = c / d / b word\nc = !word b\nd = b", "refused 7 0",
             f"5:1: {comes('bb')}", f"5:1: {comes('bcb')}", f"5:1: {comes('bdb')}"),
            ("report = b c\nb = (eol?)* c\nc = (eol?)+", "refused 7 0",
             f"5:6: rule b: (eol?)* {reads}", f"6:6: rule c: (eol?)+ {reads}"),
            ("report = word\nb = (word? / (eol?)*)* word", "refused 7 5",
             f"5:6: rule b: (word? / (eol?)*)* {reads}", f"5:15: rule b: (eol?)* {reads}"),
        ):
            self.same(HEAD + rules, answer)
            self.assertEqual(faults_of(HEAD + rules), [f"x:{line} (the reader would answer: {answer})" for line in told])

    def test_7_none_is_missed(self):
        """Where all rules that are told of random grammars read a word instead, the rest passes."""
        chance, mended = random.Random(SEED), 0
        for _ in range(GRAMMARS):
            text = random_grammar(chance)
            told = " ".join(faults_of(text))
            for name in set(re.findall(r"(?:rule|->) (r\d)", told)):
                text = re.sub(f"(?m)^{name} = .*$", f"{name} = word", text)
            self.assertEqual(faults_of(text), [], text)
            mended += "rule" in told
        self.assertGreater(mended, GRAMMARS // 5)

    def test_random(self):
        """Random grammars: the verdict and the node are the reader's."""
        chance, answers = random.Random(SEED), []
        for _ in range(GRAMMARS):
            text = random_grammar(chance)
            grammar = build.grammar_of(text)
            answers.append(self.told(grammar))
            self.assertEqual((answers[-1], text), (self.answer(grammar), text))
        refused = [answer for answer in answers if answer != "passed"]
        self.assertGreater(len(refused), GRAMMARS // 5)
        self.assertLess(len(refused), GRAMMARS - GRAMMARS // 5)
        self.assertGreater(len(set(refused)), 10)


def random_grammar(chance):
    names = [f"r{i}" for i in range(chance.randint(1, 5))]
    rules = "\n".join(f"{name} = {random_expression(chance, names, chance.randint(0, 4))}" for name in names)
    return f'keywords "a" "b"\nstart r0\nmode any\n{rules}\n'


def random_expression(chance, names, depth):
    if depth == 0:
        return chance.choice(['"a"', '"b"', "number", "eol", "empty", "token", "line", "end", *names, '"a"', '"b"'])
    inner = lambda: random_expression(chance, names, depth - chance.randint(1, depth))
    form = chance.randrange(8)
    if form < 2:
        return f"({inner()} {inner()})"
    if form < 4:
        return f"({inner()} / {inner()})"
    if form < 6:
        return f"({inner()}){chance.choice('*+?')}"
    relation = ("greater", "+2", "any", "+31")[depth - 1]
    return f"{chance.choice(['!', 'align ', f'indent {relation} ', f'position {relation} '])}({inner()})"


class Command(unittest.TestCase):
    """The builder as it is started."""

    def start(self, *words, builder=ROOT / "tools/build.py"):
        command = [sys.executable, str(builder), *words]
        done = subprocess.run(command, capture_output=True, text=True, cwd=self.folder.name)
        return done.returncode, done.stdout, done.stderr

    def setUp(self):
        self.folder = tempfile.TemporaryDirectory()
        self.addCleanup(self.folder.cleanup)

    def write(self, text, name="x.grammar"):
        path = pathlib.Path(self.folder.name) / name
        path.write_bytes(text if isinstance(text, bytes) else text.encode())
        return path

    def test_builds(self):
        self.write("\ufeff" + HEAD + "report = entry* end\nentry = \"loss\" \":\" number eol\nother = word")
        status, out, err = self.start("x.grammar", "x.bin")
        self.assertEqual((status, out), (0, "x.bin: 18 nodes, 3 rules, 2 keywords, 214 bytes\n"))
        self.assertEqual(err, "x.grammar:6:1: warning: rule other is not used; the start, report, does not lead to it\n")
        self.assertEqual((pathlib.Path(self.folder.name) / "x.bin").stat().st_size, 214)

    def test_refuses(self):
        self.write(HEAD + "report = report")
        status, out, err = self.start("x.grammar", "x.bin")
        self.assertEqual((status, out), (1, ""))
        self.assertEqual(err, "x.grammar:4:1: rule report is left recursive: it comes back to itself before a token is read, "
                         "report -> report (the reader would answer: refused 7 0)\n")
        self.assertFalse((pathlib.Path(self.folder.name) / "x.bin").exists())

    def test_writes_over(self):
        """A grammar file is written over, and an empty file; another is not."""
        grammar = HEAD + "report = word"
        left = "is there already and is no grammar file; it stays as it is"
        path = self.write(grammar)
        self.assertEqual(self.start("x.grammar", "x.grammar"), (1, "", f"x.grammar: {left}\n"))
        self.assertEqual(path.read_text(), grammar)
        for old, status in ((b"", 0), (b"\x01\x00\x01\x01", 0), (b"\x01\x00\x01", 1), (b"\x01\x00\x01\x02", 1)):
            path = self.write(old, "x.bin")
            self.assertEqual(self.start("x.grammar", "x.bin")[0], status)
            self.assertEqual(path.read_bytes(), old if status else build.built(grammar)[1])
        self.assertEqual(self.start("x.grammar", "x.bin")[2], f"x.bin: {left}\n")

    def test_nodes(self):
        self.write(HEAD + "report = empty* line")
        status, out, err = self.start("--nodes", "x.grammar")
        lines = out.splitlines()
        self.assertEqual(lines[0], "node  kind       a     b     relation  rule    place    in words")
        self.assertEqual(lines[2], "1     repeat     0     0     0         report  4:10     0*")
        self.assertEqual(lines[4], "3     terminal   1     0     0         report  4:17     word  (of line)")
        self.assertEqual(lines[-1], "rule 0, report, is node 12")
        self.assertEqual((status, err[:16]), (1, "x.grammar:4:10: "))
        self.write("start r\nmode any\nr = word")
        self.assertEqual(self.start("--nodes", "x.grammar"), (0, "\n".join((
            "node  kind       a     b     relation  rule  place    in words",
            "0     terminal   1     0     0         r     3:5      word",
            "rule 0, r, is node 0\n")), ""))
        self.write("start r\nmode +2\nr = indent +2 (position +31 word)")
        self.assertEqual(self.start("--nodes", "x.grammar")[1].splitlines()[2:4], [
            "1     position   0     0     34        r     3:16     +31 0",
            "2     indent     1     0     5         r     3:5      +2 1"])

    def test_counts(self):
        for rules, says in (
            ("r = word", "1 node, 1 rule, 0 keywords"),
            ('r = "a"\nkeywords "a"', "1 node, 1 rule, 1 keyword"),
            ("r = word eol\ns = r", "4 nodes, 2 rules, 0 keywords"),
        ):
            self.write(f"start r\nmode any\n{rules}")
            self.assertRegex(self.start("x.grammar", "x.bin")[1], f"^x.bin: {says}, [0-9]+ bytes\n$")

    def test_line_ends(self):
        """Line ends of other systems count as line ends, in comments and in places too."""
        grammar = "# one\n" + HEAD + "report = word # two\nentry = &\n"
        for end in ("\n", "\r\n", "\r"):
            self.write(grammar.replace("\n", end))
            self.assertEqual(self.start("x.grammar", "x.bin")[2],
                             "x.grammar:6:9: an expression expected, not '&'; a keyword is written \"&\"\n")
            self.write(grammar.replace("&", "eol").replace("\n", end))
            self.assertEqual(self.start("x.grammar", "x.bin")[0], 0)

    def test_no_text(self):
        save = "save the file as UTF-8"
        for file, place, byte in ((b"\xff\xfe", "1:1", 255), (b"start r\n# \xc3\xa4 \xe4", "2:5", 228),
                                  (b"\xef\xbb\xbf\xff", "1:1", 255), (b"\r\n\r\r\n \xc3", "4:2", 195)):
            self.write(file)
            told = f"x.grammar:{place}: text in UTF-8 expected, not the byte {byte}; {save}\n"
            self.assertEqual(self.start("x.grammar", "x.bin"), (1, "", told))
        self.write(build.built(HEAD + "report = word")[1])
        told = "x.grammar:1:1: a grammar in words expected, not a grammar file; GRAMMAR comes before FILE\n"
        self.assertEqual(self.start("x.grammar", "x.bin"), (1, "", told))
        self.write(bytes(range(256)))
        self.assertRegex(self.start("x.grammar", "x.bin")[2], "^x.grammar:[0-9]+:[0-9]+: ")
        self.assertEqual(self.start(".", "x.bin"), (1, "", ".: Is a directory\n"))

    def test_copied_alone(self):
        """The builder without the rest of the repository builds, and does not know its version."""
        copy = pathlib.Path(self.folder.name) / "copy.py"
        shutil.copy(ROOT / "tools/build.py", copy)
        told = "the version is not known: include/saktroum.h, where it stands, is not beside the folder of this build.py\n"
        self.assertEqual(self.start("--version", builder=copy), (1, "", told))
        self.write(HEAD + "report = word")
        self.assertEqual(self.start("x.grammar", "x.bin", builder=copy)[0], 0)

    def test_words(self):
        header = (ROOT / "include/saktroum.h").read_text()
        status, out, err = self.start("--version")
        self.assertEqual((status, out[:9], err), (0, "saktroum ", ""))
        self.assertIn(f'\n#define SAKTROUM_VERSION "{out[9:].strip()}"\n', header)
        self.assertEqual(self.start("--help"), (0, build.__doc__.strip() + "\n", ""))
        self.assertEqual(self.start()[0], 2)
        self.assertEqual(self.start("x.grammar")[0], 2)
        self.assertEqual(self.start("--nodes", "x.grammar", "x.bin")[0], 2)
        self.assertEqual(self.start("x.grammar", "x.bin"), (1, "", "x.grammar: No such file or directory\n"))
        self.write(HEAD + "report = word")
        self.assertEqual(self.start("x.grammar", "no/x.bin"), (1, "", "no/x.bin: No such file or directory\n"))


if __name__ == "__main__":
    if len(sys.argv) < 2:
        sys.exit("usage: test_build.py LIBRARY [TEST..]")
    READER = library.Reader(sys.argv.pop(1))
    unittest.main()

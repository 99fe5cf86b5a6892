#!/usr/bin/env python3
"""Turns a grammar in words into a grammar file.

    python3 tools/build.py GRAMMAR FILE       writes FILE and says how large it is
    python3 tools/build.py --nodes GRAMMAR    lists the nodes, each with its rule and place
    python3 tools/build.py --version

A grammar in words, where `#` begins a comment:

    keywords "loss" ":"       spellings that are tokens of their own kind; numbered in this order, from 0
    start NAME                the rule that a run begins with
    mode RELATION             the mode that it begins in
    NAME = expression         a rule; numbered in this order, from 0

    a*  a+  a?                any number of times, at least once, once or not at all; these bind closest
    !a                        not: a cannot be read here, and nothing is read
    align a                   the first token of a stands on the baseline
    indent RELATION a         a has a baseline of its own
    position RELATION a       the token mode inside a
    a b                       a, then b
    a / b                     a, or if a fails b; binds least
    "loss"  number  word  eol a keyword, a number, any other word, the end of a line
    token  line  end          any one token; the rest of a line; no token stays unread, at whatever column
    empty  NAME  (a)          nothing, a rule, an expression

RELATION says how an inner column, or a token's, stands to the baseline: equal, greater, at-least or any; or it is a step,
+1 to +31, without a blank behind +: exactly so many columns right of the baseline.

A grammar that the reader would refuse is told so with its place, and then nothing is written. A FILE that is there
already is written over only if it is a grammar file, or empty.
"""

import argparse
import difflib
import errno
import itertools
import re
import sys
from pathlib import Path
from typing import NamedTuple, Optional, Tuple

# The table: kinds, relations and terminals have the numbers that the reader knows them by.
KINDS = ("empty", "terminal", "rule", "sequence", "choice", "not", "repeat", "indent", "position", "align")
EMPTY, TERMINAL, RULE, SEQUENCE, CHOICE, NOT, REPEAT, INDENT, POSITION, ALIGN = range(10)
NAMED = ("equal", "greater", "at-least", "any")
STEPS = tuple(f"+{amount}" for amount in range(1, 32))
RELATIONS = (*NAMED, *STEPS)  # each as it is written
ANY = RELATIONS.index("any")
TERMINALS = ("number", "word", "eol")
EOL, FIRST_KEYWORD = 2, 3

# The limits of a grammar file.
MOST_BYTES, MOST_KEYWORDS, MOST_SPELLING, MOST_NODES, MOST_RULES = 65535, 253, 32, 512, 128
SINGLES = ":,()[]=;%"
FIRST_FIELD = b"\x01\x00\x01\x01"

# The words of the notation.
STATEMENTS = ("keywords", "start", "mode")
BUILT_IN = ("token", "line", "end")
IN_EXPRESSIONS = ("align", "indent", "position", "empty", *TERMINALS, *BUILT_IN)
RESERVED = (*STATEMENTS, *IN_EXPRESSIONS, *NAMED)

# What other notations write, and what it is called here.
ELSEWHERE = {
    "not": "the sign `!`",
    "or": "the sign `/`",
    "repeat": "the sign `*` behind an expression",
    "optional": "the sign `?` behind an expression",
    "then": "a blank, as in `number eol`",
    "eof": "the reserved word end",
    "newline": "the reserved word eol",
}
RELATIONS_ELSEWHERE = {">": "greater", ">=": "at-least", "=>": "at-least", "=": "equal", "==": "equal", "at": "at-least"}
EQUALS_ELSEWHERE = (":=", "::=", "==", "=>", "<-", "->")

# What is told of a sign where it cannot stand: anywhere, and where an expression is expected.
SIGNS = {
    **dict.fromkeys(EQUALS_ELSEWHERE, "a rule is written `NAME = ..`"),
    **dict.fromkeys(("//", "/*", "(*", "--", "%"), "a comment begins with #"),
    "=": "a rule is written `NAME = ..`, its name without quotes",
    ",": "keywords and expressions are parted by blanks",
    ";": "no sign ends a statement, and a comment begins with #",
    "\\": "a rule goes on in the next line without a sign",
}
INSTEAD_OF_EXPRESSIONS = {
    "|": "a choice is written with /",
    "[": "once or not at all is written `(..)?`",
    "{": "any number of times is written `(..)*`",
    **{sign: f"{sign} stands behind an expression" for sign in "*+?"},
    **dict.fromkeys("/)", "for nothing write empty"),
    **dict.fromkeys(NAMED, "a relation stands behind indent, position or mode"),
    "any": "any one token is written token, and the relation any stands behind indent, position or mode",
    "mode": "in a rule it is position",
}

# How deep an expression may be nested: enough for a table's 512 nodes one in the other, each in brackets.
DEEPEST = 1024


# Faults


class Place(NamedTuple):
    """A place in a grammar in words; lines and columns count from 1."""

    line: int
    column: int

    def __str__(self):
        return f"{self.line}:{self.column}"


class Fault(NamedTuple):
    """What is wrong, where, and by which number the reader would refuse it (0: it is no grammar at all)."""

    place: Place
    text: str
    number: int = 0
    node: Optional[int] = None

    def line(self, path):
        """The message of a fault, as a line."""
        answer = f" (the reader would answer: {self.answer()})" if self.number else ""
        return f"{path}:{self.place}: {self.text}{answer}"

    def answer(self):
        return f"refused {self.number}" + ("" if self.node is None else f" {self.node}")


class Faults(Exception):
    """A grammar that cannot be built, with all that is known to be wrong."""

    def __init__(self, *faults):
        super().__init__(*faults)
        self.faults = faults


# Lexer


QUOTES = "'`\u2018\u2019\u201c\u201d\u201e"
LEXEME = re.compile(
    rf'\s+|#[^\n]*|(?P<word>"[^"\n]*"?|[A-Za-z][\w-]*|\w[\w.-]*|[{QUOTES}][^\s"{QUOTES}]*[{QUOTES}]?'
    r"|[+-][0-9][\w.-]*|//|/\*|\(\*|--|::?=|[<>=]=|=>|<-|->|.)"
)


class Word(NamedTuple):
    """A word of the notation, or what stands in the place of one. The last one of a grammar is empty."""

    text: str
    place: Place

    def is_keyword(self):
        return len(self.text) > 1 and self.text[0] == self.text[-1] == '"'

    def is_open(self):
        """Whether it is a keyword without its second quote."""
        return self.text.startswith('"') and not self.is_keyword()

    def is_name(self):
        return bool(re.match("[A-Za-z]", self.text))

    def is_like_name(self):
        """Whether it is a name, or would be one if it began with another letter."""
        return bool(re.match(r"\w", self.text))

    def as_name(self):
        """Why a word is no name, where one could be meant."""
        if self.is_keyword():
            return "a name is written without quotes"
        return "a name begins with a letter from a to z" if self.is_like_name() and not self.is_name() else None

    def as_step(self):
        """Where a step stands, if the word is one, or would be one with another number."""
        return "a step stands behind indent, position or mode" if re.match(r"\+[0-9]", self.text) else None

    def told(self):
        """The word as a message shows it."""
        if not self.text:
            return "the end of the file"
        if self.is_keyword():
            return f"the keyword {self.text}"
        if self.text in RESERVED:
            return f"the reserved word {self.text}"
        if self.text in STEPS:
            return f"the step {self.text}"
        if self.is_name() or self.text[0] in QUOTES:
            return self.text
        return f"'{self.text}'" if self.text.isprintable() else repr(self.text)

    def as_keyword(self):
        """How the keyword is written that could be meant by a sign, if one could be."""
        if not self.text or not self.text.isprintable() or self.is_name() or (self.text in SIGNS and len(self.text) > 1):
            return None
        spelling = self.text.strip(QUOTES)
        parts = ["loss"] if wrong_spelling(spelling) else parts_of(spelling)
        return f"a keyword is written {'in double quotes, as ' if self.text[0] in QUOTES else ''}{quoted(parts)}"


def words_of(text):
    """The words of a grammar, with an empty one behind the last."""
    words, at, line, line_at = [], 0, 1, 0
    while at < len(text):
        found = LEXEME.match(text, at)
        if found["word"]:
            words.append(Word(found["word"], Place(line, at - line_at + 1)))
        breaks = text.count("\n", at, found.end())
        at = found.end()
        if breaks:
            line, line_at = line + breaks, text.rindex("\n", 0, at) + 1
    return [*words, Word("", Place(line, at - line_at + 1))]


# Parser


class Expression(NamedTuple):
    """An expression: its form, where it stands, its parts, a relation or a spelling, and how deep it is nested."""

    form: str
    place: Place
    parts: Tuple["Expression", ...] = ()
    value: object = None
    deep: int = 0


LOOSE = ("sequence", "choice", "not", "align", "indent", "position")


def text_of(expression, tight=False):
    """An expression in the notation. Tight: a sequence or choice stands in brackets."""
    form, _, parts, value, _ = expression
    if form in ("sequence", "choice"):
        inner = [text_of(part, form == "sequence" or part.form == "choice") for part in parts]
        joined = (" " if form == "sequence" else " / ").join(inner)
        return f"({joined})" if tight else joined
    if form in ("*", "+", "?"):
        loose = parts[0].form in (*LOOSE, "*", "+", "?")
        return (f"({text_of(parts[0])})" if loose else text_of(parts[0])) + form
    if form in LOOSE:
        relation = "" if value is None else f" {RELATIONS[value]}"
        return ("!" if form == "not" else f"{form}{relation} ") + text_of(parts[0], True)
    if form == "keyword":
        return f'"{value}"'
    return value if form == "rule" else form


class Rule(NamedTuple):
    """A rule: its name, where it stands, and the expression that it stands for."""

    name: str
    place: Place
    expression: Expression


class Parser:
    """Reads the words of a grammar from front to back and collects its statements."""

    def __init__(self, words):
        self.words, self.at, self.depth = words, 0, 0
        self.keywords, self.rules = [], []
        self.start = self.mode = None
        self.first = {}  # where start and mode stand
        while self.word().text:
            self.statement()
        for name, form in (("start", "start NAME"), ("mode", "mode RELATION")):
            if name not in self.first:
                capital = [f"; {word.text} at {word.place} is written {name}" for word in words if word.text.lower() == name]
                text = f"there is no {name}: a line `{form}` is expected{''.join(capital[:1])}"
                raise Faults(Fault(self.word().place, text))

    def word(self, ahead=0):
        """The next word, or one further ahead."""
        return self.words[min(self.at + ahead, len(self.words) - 1)]

    def before(self):
        """The word before the next one; before the first one it is empty."""
        return self.words[self.at - 1]

    def take(self):
        self.at += 1
        return self.words[self.at - 1]

    def expected(self, what, *hints):
        """Says what was expected in the place of the next word, and what could be meant by it."""
        word, before = self.word(), self.before()
        if word.is_open():
            return Faults(Fault(word.place, 'this keyword is not closed: a second " is expected on its line'))
        hints = [hint for hint in hints if hint] or [SIGNS.get(word.text) or word.as_step()]
        if before.text in STATEMENTS and word.text in ("=", ":", *EQUALS_ELSEWHERE):
            hints = [f"{before.text} is written without {word.text}, and no rule can be named {before.text}"]
        told = f"the next rule, {word.text}" if word.is_name() and self.begins_rule() else word.told()
        if self.touches_keyword():
            told += f', right behind the keyword {before.text}: no keyword holds a "'
        return Faults(Fault(word.place, "; ".join(filter(None, [f"{what} expected, not {told}", *hints]))))

    def touches_keyword(self):
        """Whether the next word stands right behind a keyword that seems to end too early."""
        before, word = self.before(), self.word()
        early = before.is_keyword() and (word.is_name() or " " in before.text)
        return early and word.place == Place(before.place.line, before.place.column + len(before.text))

    def begins_line(self):
        return self.at == 0 or self.before().place.line < self.word().place.line

    def begins_rule(self):
        """Whether a rule begins here: a name and =, or first on a line a name and a sign that others write for =."""
        word, sign = self.word(), self.word(1).text
        if sign == "=":
            return word.is_like_name() and (self.begins_line() or word.text not in ("indent", "position"))
        return self.begins_line() and word.is_name() and sign in (":", *EQUALS_ELSEWHERE)

    def ends(self):
        """Whether the next word begins a statement, or there is none."""
        return self.word().text in ("", *STATEMENTS) or self.begins_rule()

    def statement(self):
        word = self.word()
        if word.text == "keywords":
            self.take()
            if not self.word().is_keyword():
                raise self.expected('a keyword in quotes, as "loss",', self.word().as_keyword())
            while self.word().is_keyword():
                self.keywords.append(self.take())
        elif word.text in STATEMENTS:
            self.setting()
        elif self.begins_rule():
            self.rule()
        else:
            raise self.no_statement()

    def no_statement(self):
        """What is told where no statement begins. Behind keywords, one more of them could be meant."""
        word, what = self.word(), "keywords, start, mode or a rule `NAME = ..`"
        like = near(word.text, STATEMENTS, 0.8) if word.is_name() else None
        if like:
            return self.expected(what, f"is it {like}?")
        if self.before().is_keyword():
            return self.expected(f"a keyword in quotes, {what}", SIGNS.get(word.text) or word.as_keyword())
        return self.expected(what)

    def setting(self):
        """`start NAME` or `mode RELATION`, once."""
        word, what = self.take(), "the name of the start rule"
        if word.text == "mode":
            self.mode = self.relation()
        elif self.begins_rule():
            raise self.expected(what)
        else:
            self.start = self.name(what)
        if word.text in self.first:
            other = "; in a rule it is position" if word.text == "mode" else ""
            text = f"{word.text} is there twice; the first is at {self.first[word.text]}{other}"
            raise Faults(Fault(word.place, text))
        self.first[word.text] = word.place

    def rule(self):
        """`NAME = expression`. What follows must begin a statement."""
        name = self.name("the name of a rule")
        if self.word().text != "=":
            raise self.no_equals(name.text)
        self.take()
        self.rules.append(Rule(name.text, name.place, self.choice()))
        if not self.ends():
            raise self.expected("/ or the next statement", "no bracket is open here")

    def no_equals(self, name):
        """What is told where = is missing behind the name of a rule."""
        like, word = near(name, STATEMENTS, 0.8), self.word()
        if like:
            return self.expected("=", f"is it {like}, without {word.text}?")
        return self.expected("=", f"a rule is written `{name} = ..`", word.as_keyword())

    def name(self, what):
        """The next word as the name of a rule, which is no reserved word."""
        word = self.word()
        if word.text in RESERVED:
            colon = '; a keyword is written ":"' if self.word(1).text == ":" else ""
            text = f"{what} expected, not {word.told()}{colon}; reserved are: {', '.join(RESERVED)}"
            raise Faults(Fault(word.place, text))
        if not word.is_name():
            raise self.expected(what, word.as_name())
        return self.take()

    def relation(self):
        word, after = self.word(), self.word(1).text
        if word.text not in RELATIONS:
            like = RELATIONS_ELSEWHERE.get(word.text) or near(word.text, NAMED)
            apart = word.text in ("=", ":", "(") and after in RELATIONS
            hint = f"write {after} without {word.text}" if apart else like and f"is it {like}?"
            what = f"a relation ({', '.join(NAMED)}, or {STEPS[0]} to {STEPS[-1]})"
            raise self.expected(what, hint or step_meant(word.text, self.before().text))
        return RELATIONS.index(self.take().text)

    def too_deep(self):
        text = f"an expression is nested over {DEEPEST} deep here; write what is inside as a rule"
        return Faults(Fault(self.word().place, text))

    def around(self, form, place, parts, value=None):
        """An expression around others."""
        deep = 1 + max(part.deep for part in parts)
        if deep > DEEPEST:
            raise self.too_deep()
        return Expression(form, place, tuple(parts), value, deep)

    def joined(self, form, parts):
        return parts[0] if len(parts) == 1 else self.around(form, parts[0].place, parts)

    def choice(self):
        parts = [self.sequence()]
        while self.word().text == "/":
            self.take()
            parts.append(self.sequence())
        return self.joined("choice", parts)

    def sequence(self):
        parts = [self.prefixed()]
        while not self.ends() and self.word().text not in ("/", ")"):
            parts.append(self.prefixed())
        return self.joined("sequence", parts)

    def prefixed(self):
        """`!`, `align`, `indent` and `position` before an expression."""
        self.depth += 1
        if self.depth > DEEPEST:
            raise self.too_deep()
        word = self.word()
        if word.text in ("!", "align", "indent", "position"):
            self.take()
            relation = self.relation() if word.text in ("indent", "position") else None
            form = "not" if word.text == "!" else word.text
            expression = self.around(form, word.place, (self.prefixed(),), relation)
        else:
            expression = self.postfixed()
        self.depth -= 1
        return expression

    def postfixed(self):
        """`*`, `+` and `?` behind an expression."""
        inner = self.single()
        while self.word().text in ("*", "+", "?"):
            inner = self.around(self.take().text, inner.place, (inner,))
        return inner

    def single(self):
        word = self.word()
        if self.ends():
            raise self.no_expression()
        if word.text == "(":
            return self.bracketed()
        if word.is_keyword():
            return Expression("keyword", word.place, value=self.take().text[1:-1])
        if word.text in (*TERMINALS, *BUILT_IN, "empty"):
            return Expression(self.take().text, word.place)
        if word.is_name() and word.text not in RESERVED:
            return Expression("rule", word.place, value=self.take().text)
        raise self.no_expression()

    def no_expression(self):
        """What is told where no expression begins."""
        word, what = self.word(), "an expression"
        if word.is_name() and self.begins_rule():
            equals = None if self.begins_line() else 'a keyword is written "="'
            return self.expected(what, "for nothing write empty", equals)
        signs = SIGNS.get(word.text), INSTEAD_OF_EXPRESSIONS.get(word.text)
        return self.expected(what, *signs, word.as_step(), word.as_name(), word.as_keyword())

    def bracketed(self):
        opening = self.take()
        inner = self.choice()
        if self.word().text != ")":
            raise self.expected(f"/ or the closing bracket of {opening.place}")
        self.take()
        return inner


# Names


def near(name, names, least=0.6):
    """The name that is most like this one, whatever the capitals, if there is one."""
    others = {other.lower(): other for other in names}
    return next((others[found] for found in difflib.get_close_matches(name.lower(), others, 1, least)), None)


def step_meant(text, before):
    """What is told of a word that is no relation, if a step could be meant by it; before it stands indent, position or mode."""
    text = text.strip(QUOTES + '"')
    number = re.fullmatch(r"\+?0*([0-9]+)", text)
    if number and number[1] == "0":
        return "for no step write equal"
    if number:
        add_up = "; those of indents one in the other add up" if before == "indent" else ""
        over = f"no step is over {STEPS[-1]}{add_up}"
        return f"is it +{number[1]}?" if f"+{number[1]}" in STEPS else over
    if re.match(r"\+[0-9]", text):
        return "a step is + and a number from 1 to 31, with a blank behind it"
    if text.startswith("+"):
        return "a step is written like +2, without a blank"
    return "a step goes to the right, as +2" if re.fullmatch("-[0-9]*", text) else None


def unknown_rule(source, name, place, reserved=()):
    """A rule that is not there. Reserved: the words of the notation that could have been meant; none as the start."""
    names, spellings = [rule.name for rule in source.rules], [word.text[1:-1] for word in source.keywords]
    keyword = name if name in spellings else near(name, spellings, 1)
    like = near(name, filter(None, (near(name, reserved, 0.8), near(name, names))))
    declared = f"rule is declared by a line `{name} = ..`"
    if reserved and keyword:
        hint = f'the keyword is written "{keyword}"'
    elif reserved and name.lower() in ELSEWHERE:
        hint = f"is it {ELSEWHERE[name.lower()]}? A {declared}"
    elif like:
        hint = f"is it {like if like in names else f'the reserved word {like}'}? A {declared}"
    else:
        hint = f"a {declared}" + (f', and a keyword is written "{name}"' if reserved else "")
    return Fault(place, f"no rule is named {name}; {hint}")


def unknown_keyword(source, spelling, place):
    """A keyword that is not there, and how it could be; where its spelling is wrong, that it cannot be."""
    spellings, names = [word.text[1:-1] for word in source.keywords], [rule.name for rule in source.rules]
    missing, wrong, cut = f'"{spelling}" is not among the keywords', wrong_keyword(spelling), cut_of(spelling)
    if wrong:
        hint = f"; write {quoted(cut)}" if cut else "" if spelling else ', and no keyword holds a "'
        return Fault(place, f"{missing} and cannot be: it {wrong}{hint}")
    like = near(spelling, [other for other in spellings if not wrong_keyword(other)])
    if source.keywords:
        hint = f"add it to the keywords of line {source.keywords[0].place.line}"
    else:
        hint = f'declare it by a line `keywords "{spelling}"`'
    if spelling in (*IN_EXPRESSIONS, *names):
        hint = f"is it {spelling}, without quotes? Otherwise {hint}"
    elif like:
        hint = f'is it "{like}"? Otherwise {hint}'
    return Fault(place, f"{missing}; {hint}")


def expressions_of(expression):
    """An expression and all inside it, from front to back."""
    yield expression
    for part in expression.parts:
        yield from expressions_of(part)


def name_faults(source):
    """Rules and keywords that are not there, and rules that are there twice."""
    first, faults = {}, []
    for rule in source.rules:
        if rule.name in first:
            faults.append(Fault(rule.place, f"rule {rule.name} is there twice; the first is at {first[rule.name]}", 2))
        first.setdefault(rule.name, rule.place)
    if source.start.text not in first:
        faults.append(unknown_rule(source, source.start.text, source.start.place))
    spellings = {word.text[1:-1] for word in source.keywords}
    for inner in (inner for rule in source.rules for inner in expressions_of(rule.expression)):
        if inner.form == "rule" and inner.value not in first:
            faults.append(unknown_rule(source, inner.value, inner.place, IN_EXPRESSIONS))
        if inner.form == "keyword" and inner.value not in spellings:
            faults.append(unknown_keyword(source, inner.value, inner.place))
    return faults


def rules_in(expression):
    return {inner.value for inner in expressions_of(expression) if inner.form == "rule"}


def unused(source):
    """Rules that the start does not lead to."""
    uses = {rule.name: rules_in(rule.expression) for rule in source.rules}
    reached, ahead = set(), [source.start.text]
    while ahead:
        name = ahead.pop()
        if name not in reached:
            reached.add(name)
            ahead += uses[name]
    return [
        Fault(rule.place, f"warning: rule {rule.name} is not used; the start, {source.start.text}, does not lead to it")
        for rule in source.rules
        if rule.name not in reached
    ]


# Nodes


class Origin(NamedTuple):
    """Where a node was first made: in which rule, for which expression, and by which of token, line and end, if by one."""

    rule: str
    expression: Expression
    built_in: Optional[str] = None

    @property
    def place(self):
        return self.expression.place


class Grammar:
    """The table of a grammar: keywords, nodes, rules and the start. What is spelled the same is one node."""

    def __init__(self, source):
        self.source = source
        self.keywords = [word.text[1:-1] for word in source.keywords]
        self.names = [rule.name for rule in source.rules]
        self.nodes, self.origins, self.numbers, self.taken = [], [], {}, set()
        self.rules = {}
        for rule in source.rules:
            self.rules[rule.name] = self.number(rule.name, rule.expression)
        self.start, self.mode = self.rules[source.start.text], source.mode

    def node(self, origin, kind, a=0, b=0, relation=0):
        """The number of a node. One that is there already is used again."""
        words = (kind, a, b, relation)
        if words not in self.numbers:
            self.numbers[words] = len(self.nodes)
            self.nodes.append(words)
            self.origins.append(origin)
        if origin.built_in:
            self.taken.add(self.numbers[words])
        return self.numbers[words]

    def folded(self, kind, numbers, origins):
        """A sequence or choice of several nodes: the first, and the rest."""
        number = numbers[-1]
        for first, origin in zip(numbers[-2::-1], origins[-2::-1]):
            number = self.node(origin, kind, first, number)
        return number

    def number(self, rule, expression):
        """The number of an expression's node. Those inside it have lower ones."""
        form, _, parts, value, _ = expression
        origin = Origin(rule, expression)
        inner = [self.number(rule, part) for part in parts]
        if form in ("sequence", "choice"):
            return self.folded(KINDS.index(form), inner, [Origin(rule, part) for part in parts])
        if form in ("not", "align"):
            return self.node(origin, KINDS.index(form), inner[0])
        if form in ("indent", "position"):
            return self.node(origin, KINDS.index(form), inner[0], relation=value)
        if form in ("*", "+"):
            many = self.node(origin, REPEAT, inner[0])
            return many if form == "*" else self.node(origin, SEQUENCE, inner[0], many)
        if form == "?":
            return self.node(origin, CHOICE, inner[0], self.node(origin, EMPTY))
        return self.leaf(origin, form, value)

    def leaf(self, origin, form, value):
        if form in BUILT_IN:
            return getattr(self, form)(origin._replace(built_in=form))
        if form == "empty":
            return self.node(origin, EMPTY)
        if form == "rule":
            return self.node(origin, RULE, self.names.index(value))
        terminal = TERMINALS.index(form) if form in TERMINALS else FIRST_KEYWORD + self.keywords.index(value)
        return self.node(origin, TERMINAL, terminal)

    def no_eol(self, origin):
        """Any one token but the end of a line: a choice of all other terminals."""
        terminals = range(FIRST_KEYWORD + len(self.keywords))
        numbers = [self.node(origin, TERMINAL, terminal) for terminal in terminals if terminal != EOL]
        return self.folded(CHOICE, numbers, [origin] * len(numbers))

    def token(self, origin):
        """eol / any other token: with n keywords 2n + 5 nodes."""
        return self.node(origin, CHOICE, self.node(origin, TERMINAL, EOL), self.no_eol(origin))

    def line(self, origin):
        """The tokens up to the end of the line, and this: all in the mode that holds here."""
        many = self.node(origin, REPEAT, self.no_eol(origin))
        return self.node(origin, SEQUENCE, many, self.node(origin, TERMINAL, EOL))

    def end(self, origin):
        """!(indent any (position any token)): the indent so that a set flag asks for no column."""
        position = self.node(origin, POSITION, self.token(origin), relation=ANY)
        return self.node(origin, NOT, self.node(origin, INDENT, position, relation=ANY))

    def sizes(self):
        """How many bytes each field of the grammar file has: the first one, keywords, rules, nodes, the start."""
        keywords = [3 + len(spelling.encode()) for spelling in self.keywords]
        return [4, *keywords, *(5 + len(name.encode()) for name in self.rules), *[9] * len(self.nodes), 6]

    def bytes(self):
        """How many bytes the grammar file has."""
        return sum(self.sizes())

    def summary(self):
        nodes, rules = counted(len(self.nodes), "node"), counted(len(self.rules), "rule")
        return f"{nodes}, {rules}, {counted(len(self.keywords), 'keyword')}, {self.bytes()} bytes"


def counted(count, what):
    return f"{count} {what}" if count == 1 else f"{count} {what}s"


# Checks: what the reader refuses by 1, 2, 3 and 7. What is built here never gives 4 or 5.


def file_faults(grammar):
    """1: too many keywords, or too long a file."""
    faults = []
    if len(grammar.keywords) > MOST_KEYWORDS:
        place = grammar.source.keywords[MOST_KEYWORDS].place
        faults.append(Fault(place, f"{len(grammar.keywords)} keywords, and at most {MOST_KEYWORDS} can be", 1))
    if grammar.bytes() > MOST_BYTES:
        text = f"the grammar file would have {grammar.bytes()} bytes, and at most {MOST_BYTES} can be"
        faults.append(Fault(too_far(grammar), text, 1))
    return faults


def too_far(grammar):
    """The place of the first field that ends behind the last byte that can be."""
    source = grammar.source
    fields = [source.start, *source.keywords, *source.rules, *grammar.origins, source.start]
    ends = itertools.accumulate(grammar.sizes())
    return next(field.place for field, end in zip(fields, ends) if end > MOST_BYTES)


def spelling_faults(source):
    """2: keywords and names that break their rules."""
    faults, first, named = [], {}, {word.text[1:-1] for word in source.keywords}
    for word in source.keywords:
        spelling = word.text[1:-1]
        wrong = wrong_keyword(spelling)
        if wrong:
            wrong += instead(spelling, named)
        if spelling in first:
            wrong = f"is there twice; the first is at {first[spelling]}"
        first.setdefault(spelling, word.place)
        if wrong:
            faults.append(Fault(word.place, f'the keyword "{spelling}" {wrong}', 2))
    for rule in source.rules:
        wrong = wrong_spelling(rule.name)
        if wrong:
            faults.append(Fault(rule.place, f"the name {rule.name} {wrong}", 2))
    return faults


def wrong_spelling(spelling):
    """What is wrong with a keyword or a name, if anything is."""
    encoded = spelling.encode()
    if not encoded:
        return "is empty"
    if len(encoded) > MOST_SPELLING:
        return f"has {len(encoded)} bytes, and at most {MOST_SPELLING} can be"
    if any(byte <= 32 or byte == 127 for byte in encoded):
        return "holds a blank or a control character"
    return None


def wrong_keyword(spelling):
    """What is wrong with a keyword, if anything is."""
    single = next((sign for sign in spelling if sign in SINGLES), None)
    if wrong_spelling(spelling) or not single or len(spelling) == 1:
        return wrong_spelling(spelling)
    return f"holds '{single}', which is a token by itself"


def parts_of(spelling):
    """The tokens that the scanner cuts a spelling into: each of the nine single bytes is one by itself."""
    return re.findall(r"[:,()\[\]=;%]|[^:,()\[\]=;%\x00-\x20\x7f]+", spelling)


def cut_of(spelling):
    """What can be written for a wrong keyword: its parts, if they are right."""
    parts = parts_of(spelling)
    return [] if any(map(wrong_spelling, parts)) else parts


def instead(spelling, named):
    """What is told of a wrong keyword: those of its parts that are not named. They count as named from then on."""
    parts = cut_of(spelling)
    missing = [part for part in dict.fromkeys(parts) if part not in named]
    named.update(missing)
    if missing:
        return f"; write {quoted(missing)}"
    return "; leave it out, its parts are keywords" if parts else ""


def quoted(spellings):
    return " ".join(f'"{spelling}"' for spelling in spellings)


def size_faults(grammar):
    """3: too many nodes or rules."""
    faults = []
    if len(grammar.nodes) > MOST_NODES:
        origin = grammar.origins[MOST_NODES]
        text = f"rule {origin.rule}: {len(grammar.nodes)} nodes, and at most {MOST_NODES} can be"
        if grammar.taken:
            taken, keywords = len(grammar.taken), counted(len(grammar.keywords), "keyword")
            text += f"; token, line and end take {taken} of them, for {keywords}"
        faults.append(Fault(origin.place, text, 3))
    if len(grammar.rules) > MOST_RULES:
        rule = grammar.source.rules[MOST_RULES]
        faults.append(Fault(rule.place, f"rule {rule.name}: {len(grammar.rules)} rules, and at most {MOST_RULES} can be", 3))
    return faults


class Facts:
    """Ford's three facts of each node, and whether it is well formed: each the least such relation."""

    def __init__(self, nodes, rules):
        self.nodes, self.rules = nodes, rules
        count = len(nodes)
        self.nothing, self.something, self.fails = [False] * count, [False] * count, [False] * count
        self.well = [False] * count
        while self.round(self.fact_changes):
            pass
        while self.round(self.well_changes):
            pass

    def round(self, changes):
        """Goes once over all nodes, and says whether anything was new."""
        return any([changes(number) for number in range(len(self.nodes))])

    def fact_changes(self, number):
        facts = (self.nothing, self.something, self.fails)
        known, new = [fact[number] for fact in facts], self.facts(number)
        for fact, holds in zip(facts, new):
            fact[number] = fact[number] or holds
        return known != [fact[number] for fact in facts]

    def child(self, number):
        kind, a = self.nodes[number][:2]
        return self.rules[a] if kind == RULE else a

    def facts(self, number):
        """May read nothing, may read something, may fail: by what is known so far."""
        kind, _, b, _ = self.nodes[number]
        if kind == EMPTY:
            return True, False, False
        if kind == TERMINAL:
            return False, True, True
        a = self.child(number)
        nothing, something, fails = self.nothing[a], self.something[a], self.fails[a]
        succeeds, b_succeeds = nothing or something, self.nothing[b] or self.something[b]
        if kind == SEQUENCE:
            both = succeeds and b_succeeds
            reads = both and (something or self.something[b])
            return nothing and self.nothing[b], reads, fails or (succeeds and self.fails[b])
        if kind == CHOICE:
            second = [fails and fact[b] for fact in (self.nothing, self.something, self.fails)]
            return nothing or second[0], something or second[1], second[2]
        if kind == NOT:
            return fails, False, succeeds
        return (fails, something, False) if kind == REPEAT else (nothing, something, fails)

    def well_changes(self, number):
        known = self.well[number]
        self.well[number] = known or self.is_well(number)
        return known != self.well[number]

    def needs(self, number):
        """The nodes that a node may come to before a token is read: they must be well formed for it to be."""
        kind, _, b, _ = self.nodes[number]
        if kind in (EMPTY, TERMINAL):
            return ()
        a = self.child(number)
        return (a, b) if kind == CHOICE or (kind == SEQUENCE and self.nothing[a]) else (a,)

    def is_well(self, number):
        repeats_nothing = self.nodes[number][0] == REPEAT and self.nothing[self.child(number)]
        return not repeats_nothing and all(self.well[node] for node in self.needs(number))

    def called(self, rule):
        """The rules that a rule may come to before a token is read, not through others."""
        found, seen, ahead = set(), set(), [self.rules[rule]]
        while ahead:
            number = ahead.pop()
            if self.nodes[number][0] == RULE:
                found.add(self.nodes[number][1])
            elif number not in seen:
                ahead += self.needs(number)
            seen.add(number)
        return sorted(found)


def empty_repeats(grammar, facts):
    """Each repeat of what may read nothing: its place, and what is told of it."""
    for rule in grammar.source.rules:
        for inner in expressions_of(rule.expression):
            if inner.form in ("*", "+") and facts.nothing[grammar.number(rule.name, inner.parts[0])]:
                text = f"{text_of(inner)} repeats what may succeed without reading a token"
                yield inner.place, f"rule {rule.name}: {text}"


def way_back(called, rule):
    """The shortest way from a rule to itself, from its lowest rule on; none if there is no way."""
    ways, seen = [(rule,)], set()
    for way in ways:
        if rule in called[way[-1]]:
            lowest = way.index(min(way))
            return way[lowest:] + way[:lowest]
        ways += [(*way, other) for other in called[way[-1]] if other not in seen]
        seen.update(called[way[-1]])
    return None


def left_recursions(grammar, facts):
    """For each rule that comes back to itself before a token is read the shortest way, each way once."""
    called = [facts.called(rule) for rule in range(len(facts.rules))]
    for way in {way_back(called, rule) for rule in range(len(called))} - {None}:
        names = [grammar.names[rule] for rule in (*way, way[0])]
        text = f"it comes back to itself before a token is read, {' -> '.join(names)}"
        yield grammar.source.rules[way[0]].place, f"rule {names[0]} is left recursive: {text}"


def well_formed_faults(grammar):
    """7: all causes why nodes are not well formed, and the lowest such node."""
    facts = Facts(grammar.nodes, list(grammar.rules.values()))
    if all(facts.well):
        return []
    causes = sorted([*empty_repeats(grammar, facts), *left_recursions(grammar, facts)])
    return [Fault(place, text, 7, facts.well.index(False)) for place, text in causes]


def refusals(grammar):
    """What the reader would refuse in a grammar, by the lowest number that applies."""
    for faults in (file_faults, lambda grammar: spelling_faults(grammar.source), size_faults, well_formed_faults):
        found = faults(grammar)
        if found:
            return found
    return []


# Grammar files


def pair(number):
    return number.to_bytes(2, "big")


def field(tag, value):
    """A tag, a length of two bytes, a value."""
    return bytes([tag]) + pair(len(value)) + value


def file_of(grammar):
    """The bytes of the grammar file.

    They are put together here: saktroum_write asks for a grammar file that lends keywords and names, and a grammar in words
    has none yet. trials/test_build.py writes what the reader reads of such a file, and asks for the same bytes.
    """
    fields = [field(1, b"\x01")]
    fields += [field(2, spelling.encode()) for spelling in grammar.keywords]
    fields += [field(3, pair(node) + name.encode()) for name, node in grammar.rules.items()]
    for kind, a, b, relation in grammar.nodes:
        fields.append(field(4, bytes([kind]) + pair(a) + pair(b) + bytes([relation])))
    return b"".join([*fields, field(5, pair(grammar.start) + bytes([grammar.mode]))])


def grammar_of(text):
    """The grammar of a text in words, not yet checked by the reader's numbers."""
    sys.setrecursionlimit(max(sys.getrecursionlimit(), 8 * DEEPEST))
    source = Parser(words_of(text))
    faults = name_faults(source)
    if faults:
        faults += spelling_faults(source)
        if len(source.keywords) > MOST_KEYWORDS:  # the reader would answer 1
            faults = [fault._replace(number=0) for fault in faults]
        raise Faults(*sorted(faults, key=lambda fault: fault.place))
    return Grammar(source)


def built(text):
    """The grammar of a text in words and its grammar file, if the reader takes it."""
    grammar = grammar_of(text)
    faults = refusals(grammar)
    if faults:
        raise Faults(*faults)
    return grammar, file_of(grammar)


# Command


def spelled(grammar, words):
    """A node in a few words."""
    kind, a, b, relation = words
    if kind == TERMINAL:
        return TERMINALS[a] if a < FIRST_KEYWORD else f'"{grammar.keywords[a - FIRST_KEYWORD]}"'
    if kind == RULE:
        return grammar.names[a]
    if kind in (INDENT, POSITION):
        return f"{RELATIONS[relation]} {a}"
    return {EMPTY: "", SEQUENCE: f"{a} {b}", CHOICE: f"{a} / {b}", NOT: f"!{a}", REPEAT: f"{a}*", ALIGN: f"{a}"}[kind]


def node_lines(grammar):
    """A line for each node, then one for each rule."""
    width = max(len(name) for name in ("rule", *grammar.rules))
    yield f"node  kind       a     b     relation  {'rule':{width}}  place    in words"
    for number, (words, origin) in enumerate(zip(grammar.nodes, grammar.origins)):
        kind, a, b, relation = words
        by = f"  (of {origin.built_in})" if origin.built_in else ""
        table = f"{number:<5} {KINDS[kind]:9}  {a:<5} {b:<5} {relation:<8}"
        yield f"{table}  {origin.rule:{width}}  {str(origin.place):7}  {spelled(grammar, words)}{by}"
    for number, (name, node) in enumerate(grammar.rules.items()):
        yield f"rule {number}, {name}, is node {node}"


def version():
    """The version, which stands in the header of the C interface."""
    header = Path(__file__).resolve().parent.parent / "include" / "saktroum.h"
    text = header.read_text(encoding="utf-8") if header.is_file() else ""
    found = re.search(r'^#define SAKTROUM_VERSION "(.*)"$', text, re.MULTILINE)
    if not found:
        sys.exit("the version is not known: include/saktroum.h, where it stands, is not beside the folder of this build.py")
    return found[1]


def options():
    parser = argparse.ArgumentParser(
        usage="build.py GRAMMAR FILE | --nodes GRAMMAR | --version | --help",
        description=__doc__,
        formatter_class=argparse.RawDescriptionHelpFormatter,
        add_help=False,
    )
    parser.add_argument("grammar", metavar="GRAMMAR", nargs="?")
    parser.add_argument("file", metavar="FILE", nargs="?")
    parser.add_argument("--nodes", action="store_true")
    parser.add_argument("--version", action="store_true")
    parser.add_argument("--help", action="store_true")
    given = parser.parse_args()
    if not (given.version or given.help) and (given.grammar is None or (given.file is None) != given.nodes):
        parser.error("GRAMMAR and FILE are expected, or --nodes and GRAMMAR")
    return given


def text_in(file):
    """The text of a file. Each kind of line end is one."""
    if file.startswith(FIRST_FIELD):
        raise Faults(Fault(Place(1, 1), "a grammar in words expected, not a grammar file; GRAMMAR comes before FILE"))
    try:
        return re.sub("\r\n?", "\n", file.decode("utf-8-sig"))
    except UnicodeDecodeError as wrong:
        before = re.sub("\r\n?", "\n", wrong.object[: wrong.start].decode())
        place = Place(before.count("\n") + 1, len(before) - before.rfind("\n"))
        byte = wrong.object[wrong.start]
        raise Faults(Fault(place, f"text in UTF-8 expected, not the byte {byte}; save the file as UTF-8")) from None


def build(given):
    """Lists the nodes, or builds the file."""
    grammar = grammar_of(text_in(Path(given.grammar).read_bytes()))
    for warning in unused(grammar.source):
        print(warning.line(given.grammar), file=sys.stderr)
    if given.nodes:
        print("\n".join(node_lines(grammar)))
    faults = refusals(grammar)
    if faults:
        raise Faults(*faults)
    if not given.nodes:
        write(Path(given.file), file_of(grammar))
        print(f"{given.file}: {grammar.summary()}")


def write(path, file):
    """Writes a grammar file. Another file that is there already is not written over."""
    if path.is_file() and path.stat().st_size and path.read_bytes()[:4] != FIRST_FIELD:
        raise FileExistsError(errno.EEXIST, "is there already and is no grammar file; it stays as it is", str(path))
    path.write_bytes(file)


def main():
    given = options()
    try:
        if given.help:
            print(__doc__.strip())
        elif given.version:
            print(f"saktroum {version()}")
        else:
            build(given)
    except Faults as wrong:
        sys.exit("\n".join(fault.line(given.grammar) for fault in wrong.faults))
    except OSError as wrong:
        sys.exit(f"{wrong.filename or 'standard output'}: {wrong.strerror}")


if __name__ == "__main__":
    main()

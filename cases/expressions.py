"""Expressions as trees, how they are written, and how a table is laid out from them.

They are written in the notation of `tools/build.py` and bind as there (README.md, "How expressions are written"). Two
things are shorter: a letter from a to z needs no quotes, and the name of a rule may end in a prime.
"""

import re
import string

import table_nodes

RELATIONS = {
    "equal": table_nodes.EQUAL,
    "greater": table_nodes.GREATER,
    "at-least": table_nodes.AT_LEAST,
    "any": table_nodes.ANY,
}


def relation_number(word):
    """A relation or mode by its name. A step is written as its amount behind a plus."""
    return table_nodes.step(int(word[1:])) if word[0] == "+" else RELATIONS[word]


def numbered(names, first=0):
    """Terminals by their names, numbered in this order."""
    return {name: number for number, name in enumerate(names, first)}


# Plain terminals a to z.
LETTERS = numbered(string.ascii_lowercase, 1)
# The terminals of the scanner, before those of the keywords.
SCANNED = ("number", "word", "eol")

EMPTY = ("empty",)


class Table:
    """The nodes of expressions: children first, left before right; the rules in their order, then the start.

    With `once` equal expressions are one node. The leaves given stand before all.
    """

    FORMS = {
        "empty": lambda: table_nodes.EMPTY,
        "terminal": table_nodes.terminal,
        "rule": table_nodes.rule,
        "sequence": table_nodes.sequence,
        "choice": table_nodes.choice,
        "not": table_nodes.not_,
        "repeat": table_nodes.repeat,
        "indent": table_nodes.indent,
        "position": table_nodes.position,
        "align": table_nodes.align,
    }

    def __init__(self, rules, start, once=False, leaves=()):
        self.nodes, self.seen, self.once = [], {}, once
        self.numbers = {name: number for number, name in enumerate(rules)}
        for leaf in leaves:
            self.put(leaf)
        self.rules = [self.put(e) for e in rules.values()]
        self.start = self.put(start)

    def put(self, e):
        if not self.once or e not in self.seen:
            kind, *parts = e
            words = [self.numbers[part] if kind == "rule" else self.word(part) for part in parts]
            self.seen[e] = len(self.nodes)
            self.nodes.append(self.FORMS[kind](*words))
        return self.seen[e]

    def word(self, part):
        """A child's node, or the number itself."""
        return self.put(part) if isinstance(part, tuple) else part


class Written:
    """A written expression, read word by word."""

    WORDS = re.compile(r"""\s*("[^"]*"|[A-Za-z][\w-]*'?|\+\d+|[/!*+?()])""")

    def __init__(self, text, terminals):
        self.terminals = terminals
        self.left = self.WORDS.findall(text)
        assert "".join(self.left) == re.sub(r"\s", "", text), text
        self.tree = self.choice()
        assert not self.left, text

    def take(self, *words):
        """The next word if it is one of these, or any if none is given."""
        if self.left and (not words or self.left[0] in words):
            return self.left.pop(0)
        return ""

    def choice(self):
        first = self.sequence()
        return ("choice", first, self.choice()) if self.take("/") else first

    def sequence(self):
        first = self.prefixed()
        return ("sequence", first, self.sequence()) if self.left and self.left[0] not in "/)" else first

    def prefixed(self):
        """`!`, `align`, `indent` and `position` before an expression."""
        if self.take("!"):
            return ("not", self.prefixed())
        if self.take("align"):
            return ("align", self.prefixed())
        if form := self.take("indent", "position"):
            by = relation_number(self.take())
            return (form, self.prefixed(), by)
        return self.postfixed()

    def postfixed(self):
        """`*`, `+` and `?` behind an expression."""
        tree = self.single()
        while sign := self.take("*", "+", "?"):
            if sign == "?":
                tree = ("choice", tree, EMPTY)
            else:
                tree = ("repeat", tree) if sign == "*" else ("sequence", tree, ("repeat", tree))
        return tree

    def single(self):
        word = self.take()
        if word == "(":
            tree = self.choice()
            assert self.take() == ")"
            return tree
        if word == "empty":
            return EMPTY
        if word in SCANNED or word in LETTERS or word.startswith('"'):
            return ("terminal", self.terminals[word.strip('"')])
        assert word[:1].isalpha(), word
        return ("rule", word)


def written(text, terminals=LETTERS):
    return Written(text, terminals).tree


def written_rules(rules, terminals=LETTERS):
    """Rules by their names, in their order. They may also be written in a row, as `X = a X / empty; Y = b`."""
    if isinstance(rules, str):
        rules = dict(map(str.strip, rule.split("=")) for rule in rules.split(";") if rule)
    return {name: written(body, terminals) for name, body in rules.items()}


def named_columns(text):
    """Tokens written as `a2 b3`: pairs of a name and a column."""
    pairs = [re.fullmatch(r"(.*?)(\d+)", token).groups() for token in text.split()]
    return [(name, int(column)) for name, column in pairs]

"""Inputs with chosen faults, one of each number, for "Checks run in rising number": the answer is the lowest number
chosen, or the first where the numbers stand in another order. In the late ones the faults of lower numbers mostly stand
later in the input, in the early ones earlier."""

import itertools

import table_nodes
from grammar_fields import EMPTY, START, VERSION, field, keyword, node, rule, rules, start
from records import spaced
from table_nodes import ANY, RELATION_COUNT, flat, repeat, terminal


def choices(*numbers):
    """Every choice from these numbers, none and all among them."""
    for taken in itertools.product((False, True), repeat=len(numbers)):
        yield tuple(number for number, there in zip(numbers, taken) if there)


def few(*numbers):
    """Of these choices none, each number by itself, every two, and all."""
    return [chosen for chosen in choices(*numbers) if len(chosen) in (0, 1, 2, len(numbers))]


def places(items, extra):
    """Each place that an extra item can have among the items, and the items with it there."""
    for place in range(len(items) + 1):
        yield place, [*items[:place], extra, *items[place:]]


def counts(refused, passes, nodes, rules):
    """ "node words no multiple of 4, node or rule count ..", 3: the numbers of nodes and of rules that pass are given."""
    empty = table_nodes.EMPTY
    for count in (1, 2, 3, 5, 6, 7, 2045, 2046, 2047, 2049, 2050, 2051):
        refused(f"{count} node words", 3, [0] * count)
    for count in nodes:
        passes(f"{count} nodes", [empty] * count)
    for count in (513, 514, 525):
        refused(f"{count} nodes", 3, [empty] * count)
    for count in rules:
        passes(f"{count} rules", [empty], [0] * count)
    for count in (129, 130, 200):
        refused(f"{count} rules", 3, [empty], [0] * count)


def label(said, chosen):
    return spaced(f"{said} faults", sorted(chosen) or ("none",))


def late_file(chosen):
    """A grammar file with faults of 1 to 5. With none: 2 nodes, 4 rules, 1 keyword, start node 0, mode 0."""
    return (
        VERSION
        + keyword(b"k")
        + rule(7 if 5 in chosen else 0, b"first")
        + rules((0, b"rule%d" % i) for i in range(127 if 3 in chosen else 2))
        + rule(0, b"" if 2 in chosen else b"last")
        + node(200 if 4 in chosen else 0)
        + EMPTY
        + (START[:-1] if 1 in chosen else START)
    )


def early_file(chosen):
    """The same. With none: 3 nodes, 1 rule, 1 keyword, start node 0, mode 3."""
    return (
        field(1, b"\x02" if 1 in chosen else b"\x01")
        + keyword(b"a:" if 2 in chosen else b"a")
        + rule(1, b"r")
        + EMPTY * (512 if 3 in chosen else 2)
        + node(8, 0, 0, RELATION_COUNT if 4 in chosen else ANY)
        + start(0, RELATION_COUNT if 5 in chosen else ANY)
    )


def late_table(chosen, *more):
    """The words of a table with faults of 3, 4, 5 and 7, which is at node 0. With none: terminals 1 and 2, the nodes
    given, and a rule of each terminal."""
    nodes = [table_nodes.rule(0) if 7 in chosen else terminal(1), (10, 0, 0, 0) if 4 in chosen else terminal(2), *more]
    return flat(nodes) + [0] * (3 in chosen), [0, len(nodes) if 5 in chosen else 1]


def early_table(chosen, number, *more):
    """The same, 7 at node 2. With none: terminal `number`, empty, a repeat of the terminal, the nodes given, and two
    rules, of the repeat and of the terminal."""
    nodes = [terminal(256 if 4 in chosen else number), table_nodes.EMPTY, repeat(1 if 7 in chosen else 0), *more]
    return flat(nodes), [len(nodes) if 5 in chosen else 2] + [0] * (128 if 3 in chosen else 1)

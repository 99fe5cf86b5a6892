"""Nodes of a grammar table: four words a node (01, "The grammar table")."""

# "Relations: 0 equal, 1 greater, 2 at least, 3 any"; "The same four numbers are token modes."
EQUAL, GREATER, AT_LEAST, ANY = 0, 1, 2, 3

# 02, Note 1: "Relations and modes 4 to 34 now mean ..", "Numbers 4, 5 and 12 begin at relation or mode 35."
RELATION_COUNT = 35


def step(amount):
    """The relation or mode of a step: "the inner column is the outer one plus 1 to 31, the value less 3"."""
    assert ANY < ANY + amount < RELATION_COUNT, amount
    return ANY + amount


# "Unused words are 0."
EMPTY = (0, 0, 0, 0)


def terminal(number):
    return (1, number, 0, 0)


def rule(number):
    return (2, number, 0, 0)


def sequence(a, b):
    return (3, a, b, 0)


def choice(a, b):
    return (4, a, b, 0)


def not_(a):
    return (5, a, 0, 0)


def repeat(a):
    return (6, a, 0, 0)


def indent(a, relation=GREATER):
    return (7, a, 0, relation)


def position(a, relation=GREATER):
    return (8, a, 0, relation)


def align(a):
    return (9, a, 0, 0)


def flat(nodes):
    """The words of these nodes; a single word may stand among them."""
    return [word for node in nodes for word in (node if isinstance(node, tuple) else [node])]


def over(nodes, form, upto=512):
    """The nodes, then the form over the one before, up to that many."""
    return nodes + [form(number) for number in range(len(nodes) - 1, upto - 1)]


def slow_rules(count, first, second):
    """02, Note 8: rule 0 is the first node given, and each of so many others "(the rule before it, then b) or the rule
    before it", b being the second. The nodes, the last of which names the last rule, and the nodes of the rules."""
    nodes, rules = [first, second], [0]
    for number in range(count):
        at = len(nodes)
        nodes += [rule(number), sequence(at, 1), choice(at + 1, at)]
        rules.append(at + 2)
    return [*nodes, rule(count)], rules

#!/usr/bin/env python3
"""Writes the calls that the program well_formed_cases makes, and the lines that it must print (README.md).

Nothing here decides whether a table is well formed. Each table has its verdict written beside it; a
family of tables has one verdict for all, or the rule that gives each, in its loop or function. A
comment quotes the words of document 01 that decide it. N, S and F stand for the three facts: may succeed reading
nothing, may succeed reading something, may fail. Capitals are rules, a and b terminals; labels are written as
README.md says.
"""

import faults
from expressions import RELATIONS
from records import Cases, Payloads, wide
from table_nodes import EMPTY, RELATION_COUNT
from table_nodes import align, choice, flat, indent, not_, over, position, repeat, rule, sequence, step, terminal

CASES = Cases("well_formed_cases")
BEFORE = Payloads()


# --- Records and lines ---------------------------------------------------------------------------


def record(label, nodes, rules, line, again=0):
    """One call, made again so many times, and the line expected of it. The layout is that of the program's first
    comment."""
    node_words = flat(nodes)
    same, rest = BEFORE.front(wide(2, *node_words, *rules))
    CASES.add(label, line, "c", wide(2, again, len(node_words), len(rules), same), rest)


def passes(label, nodes, rules=(), again=0):
    """ "The grammar passes if every node does, reachable or not" """
    record(label, nodes, rules, "passes", again)


def bad(label, node, nodes, rules=(), again=0):
    """ "otherwise the lowest that doesn't is named", "The answer is the number, with the node for 7" """
    record(label, nodes, rules, f"refused 7 {node}", again)


def refused(label, number, nodes, rules=()):
    """Refused by 3, 4 or 5. Single words may stand among the nodes, as their number may be odd."""
    assert number in (3, 4, 5)
    record(label, nodes, rules, f"refused {number}")


def verdict(label, is_bad, node, nodes, rules=()):
    """For families: bad at the node, or passes."""
    if is_bad:
        bad(label, node, nodes, rules)
    else:
        passes(label, nodes, rules)


# --- Nodes ---------------------------------------------------------------------------------------

A, B = terminal(1), terminal(2)
FORMS = (("align", align), ("indent greater", indent), ("position greater", position))


def moved(nodes, by):
    """The nodes with every child's number raised."""
    out = []
    for kind, a, b, relation in nodes:
        if kind in (3, 4):
            out.append((kind, a + by, b + by, relation))
        elif kind >= 5:
            out.append((kind, a + by, b, relation))
        else:
            out.append((kind, a, b, relation))
    return out


# --- Case j and the small inputs of the table of numbers -----------------------------------------

# "j. Check: repeat of empty .. repeat of not-empty .. bad at node 3."
bad("case j, repeat of empty", 1, [EMPTY, repeat(0)])
passes("case j, repeat of not-empty", [EMPTY, not_(0), repeat(1)])
bad("case j, X = (a / empty) X", 3, [A, EMPTY, choice(0, 1), rule(0), sequence(2, 3)], [4])

# The column "small input", rows 3, 4, 5 and 7.
refused("small 3, no node", 3, [])
refused("small 4, node 0 a repeat of 0", 4, [repeat(0)])
refused("small 5, rule 0 = node 1 of 1", 5, [EMPTY], [1])
bad("small 7, rule 0 = node 0 = rule 0", 0, [rule(0)], [0])

# The same with the fault put right.
passes("one node", [EMPTY])
passes("node 1 a repeat of 0", [A, repeat(0)])
passes("rule 0 = node 0 of 1", [EMPTY], [0])
passes("rule 0 = node 0 = a", [A], [0])


# --- Number 3 ------------------------------------------------------------------------------------

# "node words no multiple of 4, node or rule count .."; "1 to 512 nodes, 0 to 128 rules".
faults.counts(refused, passes, nodes=(1, 2, 511, 512), rules=(0, 1, 127, 128))
refused("no node and a rule", 3, [], [0])
refused("no node and 128 rules", 3, [], [0] * 128)
refused("513 nodes and 129 rules", 3, [EMPTY] * 513, [0] * 129)


# --- Number 4 ------------------------------------------------------------------------------------

# "kind over 9, child not lower .. unused word not 0". The node stands behind a and b, with two rules;
# alone, then as the middle one of three.
ALLOWED = [
    (0, 0, 0, 0), (1, 0, 0, 0), (1, 3, 0, 0), (1, 254, 0, 0), (1, 255, 0, 0), (2, 0, 0, 0), (2, 1, 0, 0),
    (3, 0, 0, 0), (3, 1, 0, 0), (3, 1, 1, 0), (4, 0, 0, 0), (4, 0, 1, 0), (4, 1, 1, 0), (5, 0, 0, 0), (5, 1, 0, 0),
    (6, 0, 0, 0), (6, 1, 0, 0), (7, 0, 0, 0), (7, 1, 0, 1), (7, 1, 0, 2), (7, 1, 0, 3), (7, 1, 0, 4), (7, 1, 0, 34),
    (8, 0, 0, 0), (8, 1, 0, 1), (8, 1, 0, 2), (8, 1, 0, 3), (8, 1, 0, 4), (8, 1, 0, 34), (9, 0, 0, 0), (9, 1, 0, 0),
]
for node in ALLOWED:
    passes(f"allowed node {node}", [A, B, node], [0, 1])
    passes(f"allowed node {node} before another", [A, B, node, A], [0, 1])

NOT_ALLOWED = [
    # "kind over 9"
    (10, 0, 0, 0), (11, 0, 0, 0), (15, 1, 0, 0), (255, 0, 0, 0), (256, 0, 0, 0), (257, 0, 0, 0), (265, 1, 0, 0),
    (32768, 0, 0, 0), (65535, 0, 0, 0),
    # "terminal over 255"
    (1, 256, 0, 0), (1, 257, 0, 0), (1, 511, 0, 0), (1, 32768, 0, 0), (1, 65535, 0, 0),
    # "no such rule": rules 0 and 1 are there
    (2, 2, 0, 0), (2, 3, 0, 0), (2, 127, 0, 0), (2, 128, 0, 0), (2, 256, 0, 0), (2, 65535, 0, 0),
    # "child not lower": the node itself is 2
    (3, 2, 0, 0), (3, 0, 2, 0), (3, 2, 2, 0), (3, 3, 0, 0), (3, 0, 3, 0), (3, 256, 0, 0), (3, 0, 256, 0),
    (3, 65535, 0, 0), (3, 0, 65535, 0), (4, 2, 0, 0), (4, 0, 2, 0), (4, 2, 2, 0), (4, 3, 0, 0), (4, 0, 3, 0),
    (4, 256, 0, 0), (4, 0, 256, 0), (5, 2, 0, 0), (5, 3, 0, 0), (5, 256, 0, 0), (5, 65535, 0, 0), (6, 2, 0, 0),
    (6, 3, 0, 0), (6, 256, 0, 0), (7, 2, 0, 0), (7, 3, 0, 1), (7, 256, 0, 2), (8, 2, 0, 0), (8, 3, 0, 1),
    (8, 256, 0, 2), (9, 2, 0, 0), (9, 3, 0, 0), (9, 65535, 0, 0),
    # 02, Note 1: "Numbers 4, 5 and 12 begin at relation or mode 35."
    (7, 0, 0, 35), (7, 0, 0, 36), (7, 0, 0, 256), (7, 0, 0, 65535), (8, 0, 0, 35), (8, 0, 0, 36), (8, 0, 0, 257),
    (8, 0, 0, 65535),
    # "unused word not 0": empty uses none
    (0, 1, 0, 0), (0, 0, 1, 0), (0, 0, 0, 1), (0, 256, 0, 0), (0, 0, 256, 0), (0, 0, 0, 256),
    # terminal and rule use a
    (1, 0, 1, 0), (1, 0, 0, 1), (1, 0, 256, 0), (1, 0, 0, 256), (2, 0, 1, 0), (2, 0, 0, 1), (2, 0, 256, 0),
    (2, 0, 0, 65535),
    # sequence and choice use a and b
    (3, 0, 1, 1), (3, 0, 1, 256), (4, 0, 1, 1), (4, 0, 1, 65535),
    # not, repeat and align use a
    (5, 0, 1, 0), (5, 0, 0, 1), (5, 0, 256, 0), (6, 0, 1, 0), (6, 0, 0, 1), (6, 0, 0, 256), (9, 0, 1, 0),
    (9, 0, 0, 1), (9, 0, 256, 0),
    # indent and position use a and the relation
    (7, 0, 1, 0), (7, 0, 1, 3), (7, 0, 256, 3), (8, 0, 1, 0), (8, 0, 1, 3), (8, 0, 65535, 3),
]
for node in NOT_ALLOWED:
    refused(f"node {node}", 4, [A, B, node], [0, 1])
    refused(f"node {node} before another", 4, [A, B, node, A], [0, 1])

# "A child node has a lower number than its parent": node 0 has no lower one.
for kind in (3, 4, 5, 6, 7, 8, 9):
    refused(f"kind {kind} as node 0", 4, [kind, 0, 0, 0])
    refused(f"kind {kind} as node 0 of 2", 4, [kind, 0, 0, 0, 0, 0, 0, 0])
    refused(f"kind {kind} as node 0, child 1", 4, [kind, 1, 0, 0, 0, 0, 0, 0])

# "no such rule": with n rules the last is n - 1.
refused("rule 0 of none", 4, [rule(0)])
refused("rule 0 of none, second node", 4, [A, rule(0)])
for count in (1, 2, 3, 127, 128):
    passes(f"rule {count - 1} of {count}", [A, rule(count - 1)], [0] * count)
    refused(f"rule {count} of {count}", 4, [A, rule(count)], [0] * count)

# At the end of the largest table, and at its start.
passes("terminal 255 as node 511", [EMPTY] * 511 + [(1, 255, 0, 0)])
refused("terminal 256 as node 511", 4, [EMPTY] * 511 + [(1, 256, 0, 0)])
refused("kind 10 as node 511", 4, [EMPTY] * 511 + [(10, 0, 0, 0)])
refused("kind 10 as node 0 of 512", 4, [(10, 0, 0, 0)] + [EMPTY] * 511)
passes("align of 510 as node 511", [EMPTY] * 511 + [align(510)])
refused("align of 511 as node 511", 4, [EMPTY] * 511 + [align(511)])
refused("sequence of 0 and 511 as node 511", 4, [EMPTY] * 511 + [sequence(0, 511)])
passes("indent of relation 34 as node 511", [EMPTY] * 511 + [indent(0, 34)])
refused("indent of relation 35 as node 511", 4, [EMPTY] * 511 + [indent(0, 35)])


# --- Number 5 ------------------------------------------------------------------------------------

# "a rule's node .. not in the table".
for count in (1, 2, 3, 255, 256, 257, 511, 512):
    passes(f"rule of node {count - 1} of {count}", [EMPTY] * count, [count - 1])
    refused(f"rule of node {count} of {count}", 5, [EMPTY] * count, [count])
for number in (2, 255, 256, 257, 512, 32768, 65535):
    refused(f"rule of node {number} of 1", 5, [EMPTY], [number])
for place in range(3):
    rules = [0, 1, 0]
    rules[place] = 2
    refused(f"rule {place} of 3 is node 2 of 2", 5, [EMPTY] * 2, rules)
passes("3 rules of 2 nodes", [EMPTY] * 2, [0, 1, 0])
refused("rule 127 of 128 is node 1 of 1", 5, [EMPTY], [0] * 127 + [1])
refused("rule 0 of 128 is node 1 of 1", 5, [EMPTY], [1] + [0] * 127)
refused("rule of node 5, named by node 0", 5, [rule(0)], [5])


# --- Rising order --------------------------------------------------------------------------------

# "Checks run in rising number", each over the whole table: all of 3 before any of 4, and so on.
KIND_10 = (10, 0, 0, 0)
for number, said, nodes, rules in (
    (3, "3 before 4, 5 words and kind 10", [10, 0, 0, 0, 0], []),
    (3, "3 before 4, 3 words and kind 10", [10, 0, 0], []),
    (3, "3 before 4, 513 nodes, the first of kind 10", [KIND_10] + [EMPTY] * 512, []),
    (3, "3 before 4, 513 nodes, the last of kind 10", [EMPTY] * 512 + [KIND_10], []),
    (3, "3 before 4, 129 rules and kind 10", [KIND_10], [0] * 129),
    (3, "3 before 4, 129 rules and rule 129 named", [rule(129)], [0] * 129),
    (3, "3 before 5, no node and a rule of node 9", [], [9]),
    (3, "3 before 5, 3 words and a rule of node 9", [0] * 3, [9]),
    (3, "3 before 5, 129 rules of node 1 of 1", [EMPTY], [1] * 129),
    (3, "3 before 5, 513 nodes and a rule of node 513", [EMPTY] * 513, [513]),
    (3, "3 before 7, X = X and a word more", [rule(0), 0], [0]),
    (3, "3 before 7, X = X and 129 rules", [rule(0)], [0] * 129),
    (3, "3 before 7, X = X and 513 nodes", [rule(0)] + [EMPTY] * 512, [0]),
    (3, "3 before 7, repeat of empty and 2 words more", [EMPTY, repeat(0), 0, 0], []),
    (4, "4 before 5, kind 10 and a bad rule node", [KIND_10], [1]),
    (4, "4 before 5, last node bad, first rule bad", [EMPTY, align(1)], [2, 0]),
    (4, "4 before 5, terminal 256 and rule 127 bad", [(1, 256, 0, 0)], [0] * 127 + [1]),
    (4, "4 before 7, X = X and kind 10", [rule(0), KIND_10], [0]),
    (4, "4 before 7, kind 10 and X = X", [KIND_10, rule(0)], [1]),
    (4, "4 before 7, repeat of empty, terminal 256", [EMPTY, repeat(0), (1, 256, 0, 0)], []),
    (4, "4 before 7, repeat of empty with b = 1", [EMPTY, (6, 0, 1, 0)], []),
    (4, "4 before 7, X = X with b = 1", [(2, 0, 1, 0)], [0]),
    (4, "4 before 7, 512 nodes, the last of kind 10", [rule(0)] * 511 + [KIND_10], [0]),
    (5, "5 before 7, X = X and rule 1 of node 1 of 1", [rule(0)], [0, 1]),
    (5, "5 before 7, X = X as rule 1, rule 0 bad", [rule(1)], [1, 0]),
    (5, "5 before 7, repeat of empty and a bad rule node", [EMPTY, repeat(0)], [2]),
    (5, "5 before 7, X = X and rule 127 bad", [rule(0)], [0] * 127 + [1]),
):
    refused(said, number, nodes, rules)

# Every choice of faults from four, one of each number: the answer is the lowest number chosen. In the
# first set the faults of lower numbers stand later in the words, in the second earlier.


def ordered(said, chosen, ill, table):
    """A table with the faults chosen; for 7 the node is `ill`."""
    label = faults.label(said, chosen)
    if chosen and chosen[0] != 7:
        refused(label, chosen[0], *table)
    else:
        verdict(label, bool(chosen), ill, *table)


for chosen in faults.choices(3, 4, 5, 7):
    ordered("late", chosen, 0, faults.late_table(chosen))
for chosen in faults.choices(3, 4, 5, 7):
    ordered("early", chosen, 2, faults.early_table(chosen, 255))


# --- Leaves and one form over them ---------------------------------------------------------------

# "Well formed is also least: empty and terminal".
passes("empty", [EMPTY])
passes("a", [A])
passes("terminal 0", [(1, 0, 0, 0)])
passes("terminal 255", [(1, 255, 0, 0)])
# "a repeat whose child is and may not succeed reading nothing". "Terminal: second and third."
passes("a*", [A, repeat(0)])
# "Repeat: .. nothing if it may fail": a may, so a* may succeed reading nothing.
bad("(a*)*", 2, [A, repeat(0), repeat(1)])
# "Not: nothing if the child may fail".
bad("(!a)*", 2, [A, not_(0), repeat(1)])
bad("(!!a)*", 3, [A, not_(0), not_(1), repeat(2)])
# !empty only fails; so "nothing if the child may fail" makes !!empty succeed again.
bad("(!!empty)*", 3, [EMPTY, not_(0), not_(1), repeat(2)])
passes("(!!!empty)*", [EMPTY, not_(0), not_(1), not_(2), repeat(3)])
# (!empty)* may read nothing, as its child may fail.
bad("((!empty)*)*", 3, [EMPTY, not_(0), repeat(1), repeat(2)])
# a* "may fail" by no rule, so not of it has no success.
passes("(!a*)*", [A, repeat(0), not_(1), repeat(2)])
bad("(!!a*)*", 4, [A, repeat(0), not_(1), not_(2), repeat(3)])
# "Rule, indent, position, align: those of their child."
for name, relation in RELATIONS.items():
    bad(f"(indent {name} empty)*", 2, [EMPTY, indent(0, relation), repeat(1)])
    passes(f"(indent {name} a)*", [A, indent(0, relation), repeat(1)])
    bad(f"(position {name} empty)*", 2, [EMPTY, position(0, relation), repeat(1)])
    passes(f"(position {name} a)*", [A, position(0, relation), repeat(1)])
bad("(indent +2 empty)*", 2, [EMPTY, indent(0, step(2)), repeat(1)])
passes("(indent +2 a)*", [A, indent(0, step(2)), repeat(1)])
bad("(align empty)*", 2, [EMPTY, align(0), repeat(1)])
passes("(align a)*", [A, align(0), repeat(1)])
bad("X* where X = empty", 2, [EMPTY, rule(0), repeat(1)], [0])
passes("X* where X = a", [A, rule(0), repeat(1)], [0])
# "Sequence: nothing if both".
bad("(empty empty)*", 2, [EMPTY, sequence(0, 0), repeat(1)])
passes("(empty a)*", [EMPTY, A, sequence(0, 1), repeat(2)])
passes("(a empty)*", [EMPTY, A, sequence(1, 0), repeat(2)])
passes("(a a)*", [A, sequence(0, 0), repeat(1)])
bad("(a* a*)*", 3, [A, repeat(0), sequence(1, 1), repeat(2)])
passes("(a* a)*", [A, repeat(0), sequence(1, 0), repeat(2)])
passes("(a a*)*", [A, repeat(0), sequence(0, 1), repeat(2)])
# "Choice: a's successes, and if a may fail all of b's facts."
bad("(a / empty)*", 3, [A, EMPTY, choice(0, 1), repeat(2)])
bad("(empty / a)*", 3, [A, EMPTY, choice(1, 0), repeat(2)])
passes("(a / b)*", [A, B, choice(0, 1), repeat(2)])
passes("(!empty / a)*", [EMPTY, A, not_(0), choice(2, 1), repeat(3)])
bad("(!empty / empty)*", 3, [EMPTY, not_(0), choice(1, 0), repeat(2)])
# empty / b and a* / b may not fail, as a may not, so b's "may fail" does not count.
passes("(!(empty / b))*", [EMPTY, B, choice(0, 1), not_(2), repeat(3)])
bad("(!(b / empty b))*", 5, [EMPTY, B, sequence(0, 1), choice(1, 2), not_(3), repeat(4)])
passes("(!(a* / b))*", [A, B, repeat(0), choice(2, 1), not_(3), repeat(4)])
passes("(!(a* / empty))*", [A, EMPTY, repeat(0), choice(2, 1), not_(3), repeat(4)])
bad("(a* / empty)*", 4, [A, EMPTY, repeat(0), choice(2, 1), repeat(3)])
bad("(a* / b)*", 4, [A, B, repeat(0), choice(2, 1), repeat(3)])
# a / empty may not fail: "if a may fail all of b's facts", and empty has the first only.
passes("(!(a / empty))*", [A, EMPTY, choice(0, 1), not_(2), repeat(3)])
# A repeat's own wellness asks for its child's: "a repeat whose child is".
bad("(empty*)*", 1, [EMPTY, repeat(0), repeat(1)])


# --- Left recursion and what hides it ------------------------------------------------------------

# "a sequence whose a is, and b too .."; "Well formed is also least". A rule that comes back to itself
# with nothing read has no ground to stand on.
bad("X = X a", 1, [A, rule(0), sequence(1, 0)], [2])
passes("X = a X", [A, rule(0), sequence(0, 1)], [2])
passes("X = a X b", [A, B, rule(0), sequence(2, 1), sequence(0, 3)], [4])
bad("X = empty X", 1, [EMPTY, rule(0), sequence(0, 1)], [2])
bad("X = X empty", 1, [EMPTY, rule(0), sequence(1, 0)], [2])
bad("X = X X", 0, [rule(0), sequence(0, 0)], [1])
passes("X = a (X X)", [A, rule(0), sequence(1, 1), sequence(0, 2)], [3])
bad("X = (X X) a", 1, [A, rule(0), sequence(1, 1), sequence(2, 0)], [3])
bad("X = a* X", 2, [A, repeat(0), rule(0), sequence(1, 2)], [3])
bad("X = !a X", 2, [A, not_(0), rule(0), sequence(1, 2)], [3])
# !empty may not succeed at all, so what stands behind it is not asked.
passes("X = !empty X", [EMPTY, not_(0), rule(0), sequence(1, 2)], [3])
bad("X = !!a X", 3, [A, not_(0), not_(1), rule(0), sequence(2, 3)], [4])
bad("X = !!empty X", 3, [EMPTY, not_(0), not_(1), rule(0), sequence(2, 3)], [4])
passes("X = !a* X", [A, repeat(0), not_(1), rule(0), sequence(2, 3)], [4])
bad("X = (empty / a) X", 3, [EMPTY, A, choice(0, 1), rule(0), sequence(2, 3)], [4])
passes("X = (a / b) X", [A, B, choice(0, 1), rule(0), sequence(2, 3)], [4])
bad("X = (a / b*) X", 4, [A, B, repeat(1), choice(0, 2), rule(0), sequence(3, 4)], [5])
passes("X = (!empty / a) X", [EMPTY, A, not_(0), choice(2, 1), rule(0), sequence(3, 4)], [5])
bad("X = (!empty / empty) X", 3, [EMPTY, not_(0), choice(1, 0), rule(0), sequence(2, 3)], [4])
passes("X = (a* b) X", [A, B, repeat(0), sequence(2, 1), rule(0), sequence(3, 4)], [5])
bad("X = (a* b*) X", 5, [A, B, repeat(0), repeat(1), sequence(2, 3), rule(0), sequence(4, 5)], [6])
# Bracketed the other way: a* (b X) has b before X.
passes("X = a* (b X)", [A, B, repeat(0), rule(0), sequence(1, 3), sequence(2, 4)], [5])
bad("X = a* (b* X)", 4, [A, B, repeat(0), repeat(1), rule(0), sequence(3, 4), sequence(2, 5)], [6])
# "a choice of two": both, whatever a's facts are.
bad("X = X / a", 1, [A, rule(0), choice(1, 0)], [2])
bad("X = a / X", 1, [A, rule(0), choice(0, 1)], [2])
bad("X = empty / X", 1, [EMPTY, rule(0), choice(0, 1)], [2])
bad("X = X / X", 0, [rule(0), choice(0, 0)], [1])
passes("X = a X / empty", [A, rule(0), sequence(0, 1), EMPTY, choice(2, 3)], [4])
passes("X = empty / a X", [EMPTY, A, rule(0), sequence(1, 2), choice(0, 3)], [4])
bad("X = a X / X b", 2, [A, B, rule(0), sequence(0, 2), sequence(2, 1), choice(3, 4)], [5])
bad("X = X a / b", 2, [A, B, rule(0), sequence(2, 0), choice(3, 1)], [4])
# "else the child": not, indent, position, align and rule; a repeat asks for its child too.
bad("X = !X", 0, [rule(0), not_(0)], [1])
bad("X = X*", 0, [rule(0), repeat(0)], [1])
bad("X = align X", 0, [rule(0), align(0)], [1])
for name, relation in RELATIONS.items():
    bad(f"X = indent {name} X", 0, [rule(0), indent(0, relation)], [1])
    bad(f"X = position {name} X", 0, [rule(0), position(0, relation)], [1])
bad("X = !X a", 1, [A, rule(0), not_(1), sequence(2, 0)], [3])
bad("X = X* a", 1, [A, rule(0), repeat(1), sequence(2, 0)], [3])
for said, form in FORMS:
    bad(f"X = ({said} X) a", 1, [A, rule(0), form(1), sequence(2, 0)], [3])
passes("X = a !X", [A, rule(0), not_(1), sequence(0, 2)], [3])
# a X* : X may fail and reads something where it succeeds, so the repeat stands.
passes("X = a X*", [A, rule(0), repeat(1), sequence(0, 2)], [3])
for said, form in FORMS:
    passes(f"X = a ({said} X)", [A, rule(0), form(1), sequence(0, 2)], [3])
for said, form in FORMS:
    bad(f"X = ({said} empty) X", 2, [EMPTY, form(0), rule(0), sequence(1, 2)], [3])
for said, form in FORMS:
    passes(f"X = ({said} a) X", [A, form(0), rule(0), sequence(1, 2)], [3])
bad("X = align (indent greater (position greater X))", 0, [rule(0), position(0), indent(1), align(2)], [3])
bad("X = a / align (indent greater (position greater (empty X)))", 2,
    [A, EMPTY, rule(0), sequence(1, 2), position(3), indent(4), align(5), choice(0, 6)], [7])
# (a X / empty)* as X: the choice may read nothing, so the repeat, node 5, is bad; rule X, node 1,
# stands for it and is lower. The sequence, node 2, passes.
bad("X = (a X / empty)*", 1, [A, rule(0), sequence(0, 1), EMPTY, choice(2, 3), repeat(4)], [5])
# (a X)* : a X reads something or fails.
passes("X = (a X)*", [A, rule(0), sequence(0, 1), repeat(2)], [3])
passes("X = (a X / b)*", [A, rule(0), sequence(0, 1), B, choice(2, 3), repeat(4)], [5])


# --- Rules among themselves ----------------------------------------------------------------------

bad("X = Y; Y = X", 0, [rule(1), rule(0)], [0, 1])
bad("X = Y; Y = Y", 0, [rule(1), rule(1)], [0, 1])
passes("X = Y; Y = a", [rule(1), A], [0, 1])
passes("X = a; Y = X", [A, rule(0)], [0, 1])
passes("X = a Y; Y = X", [A, rule(1), sequence(0, 1), rule(0)], [2, 3])
passes("X = a Y; Y = b X", [A, B, rule(1), rule(0), sequence(0, 2), sequence(1, 3)], [4, 5])
bad("X = Y a; Y = X b", 2, [A, B, rule(1), rule(0), sequence(2, 0), sequence(3, 1)], [4, 5])
# Y = b X rests on b alone, and X on Y.
passes("X = Y a; Y = b X", [A, B, rule(1), rule(0), sequence(2, 0), sequence(1, 3)], [4, 5])
passes("X = Y / a; Y = b X", [A, B, rule(1), rule(0), choice(2, 0), sequence(1, 3)], [4, 5])
bad("X = Y / a; Y = b* X", 3, [A, B, repeat(1), rule(1), rule(0), choice(3, 0), sequence(2, 4)], [5, 6])
# Facts through the other rule: Y = empty lets X's second part come first.
bad("X = Y X; Y = empty", 1, [rule(1), rule(0), sequence(0, 1), EMPTY], [2, 3])
passes("X = Y X; Y = a", [rule(1), rule(0), sequence(0, 1), A], [2, 3])
bad("X = Y X; Y = a / empty", 1, [rule(1), rule(0), sequence(0, 1), A, EMPTY, choice(3, 4)], [2, 5])
bad("X = Y X; Y = a Y / empty", 1, [rule(1), rule(0), sequence(0, 1), A, sequence(3, 0), EMPTY, choice(4, 5)], [2, 6])
passes("X = Y X; Y = a Y / b", [rule(1), rule(0), sequence(0, 1), A, sequence(3, 0), B, choice(4, 5)], [2, 6])
# Y = a Y may only fail: it succeeds by no finite reading, and the facts "are the least ones".
passes("X = Y X; Y = a Y", [rule(1), rule(0), sequence(0, 1), A, sequence(3, 0)], [2, 4])
bad("X = !Y X; Y = a Y", 2, [rule(1), not_(0), rule(0), sequence(1, 2), A, sequence(4, 0)], [3, 5])
passes("X = !!Y X; Y = a Y", [rule(1), not_(0), not_(1), rule(0), sequence(2, 3), A, sequence(5, 0)], [4, 6])
# Three rules: X = Y, Y = Z, Z = X, with one step that reads, in each place.
bad("X = Y; Y = Z; Z = X", 0, [rule(1), rule(2), rule(0)], [0, 1, 2])
passes("X = Y; Y = Z; Z = a X", [rule(1), rule(2), A, rule(0), sequence(2, 3)], [0, 1, 4])
passes("X = Y; Y = a Z; Z = X", [rule(1), A, rule(2), sequence(1, 2), rule(0)], [0, 3, 4])
passes("X = a Y; Y = Z; Z = X", [A, rule(1), sequence(0, 1), rule(2), rule(0)], [2, 3, 4])
bad("X = Y; Y = Z; Z = empty X", 0, [rule(1), rule(2), EMPTY, rule(0), sequence(2, 3)], [0, 1, 4])
bad("X = Y; Y = a* Z; Z = X", 0, [rule(1), A, repeat(1), rule(2), sequence(2, 3), rule(0)], [0, 4, 5])
# X = a Y passes, but Y = Z a with Z = Y does not; node 1 is rule Y.
bad("X = a Y; Y = Z a; Z = Y", 1, [A, rule(1), sequence(0, 1), rule(2), sequence(3, 0)], [2, 4, 1])
# Two ways back to Z, each behind a step that reads.
passes("Z = X / Y; X = a Z; Y = b Z",
       [rule(1), rule(2), choice(0, 1), A, B, rule(0), sequence(3, 5), sequence(4, 5)], [2, 6, 7])
# Rule X, node 0, passes by its a; rule Y, node 1, needs Z, and Z needs Y.
bad("Z = X / Y; X = a Z; Y = Z b", 1,
    [rule(1), rule(2), choice(0, 1), A, B, rule(0), sequence(3, 5), sequence(5, 4)], [2, 6, 7])
# X = !Y; Y = a X: Y may fail, so X may read nothing; then Y succeeds, and X may fail.
passes("X = !Y; Y = a X", [rule(1), not_(0), A, rule(0), sequence(2, 3)], [1, 4])
bad("(!Y)* where X = !Y; Y = a X", 5, [rule(1), not_(0), A, rule(0), sequence(2, 3), repeat(1)], [1, 4])
bad("(!!Y)* where X = !Y; Y = a X", 6, [rule(1), not_(0), A, rule(0), sequence(2, 3), not_(1), repeat(5)], [1, 4])
# A grammar of sums: sum = product "+" sum / product, product = unit "*" product / unit, unit = a / "(" sum ")".
SUMS = [
    (1, 4, 0, 0), (1, 5, 0, 0), (1, 6, 0, 0), (1, 7, 0, 0), A, rule(0), rule(1), rule(2), sequence(0, 5), sequence(6, 8),
    choice(9, 6), sequence(1, 6), sequence(7, 11), choice(12, 7), sequence(5, 3), sequence(2, 14), choice(4, 15),
]
passes("sums", SUMS, [10, 13, 16])
# The same with unit = a / sum ")": sum, product and unit stand on each other, from node 5 on.
bad('sums, unit = a / sum ")"', 5, SUMS[:15] + [choice(4, 14)], [10, 13, 15])
# The same with unit = a* / "(" sum ")": repeats of a may read nothing, but no rule comes first again.
passes('sums, unit = a* / "(" sum ")"', SUMS + [repeat(4), choice(17, 15)], [10, 13, 18])
# sum = sum "+" product / product: the textbook left recursion; product and unit refer to sum only
# behind "(", and pass. Node 5 is rule sum.
bad("sums, left recursive", 5, SUMS[:8] + [sequence(0, 6), sequence(5, 8), choice(9, 6)] + SUMS[11:], [10, 13, 16])
# Unused rules, and two rules for one node.
passes("unused rules", [A, EMPTY, repeat(0)], [2, 1, 0])
passes("two rules for one node", [A, rule(0), rule(1), sequence(1, 2)], [0, 0])
bad("unused rule of a bad node", 1, [EMPTY, repeat(0), A], [2, 1])
bad("X = X unused", 1, [A, rule(0)], [1, 0])
passes("rule 127 named, all of node 0", [A, rule(127), repeat(1)], [0] * 128)
bad("rule 127 named, all of node 1", 1, [A, rule(127), repeat(1)], [1] * 128)
bad("rule 127 of empty, others a", 2, [A, rule(127), repeat(1), EMPTY], [0] * 127 + [3])
passes("rule 126 named, rule 127 empty", [A, rule(126), repeat(1), EMPTY], [0] * 127 + [3])


# --- The lowest one is named, reachable or not ---------------------------------------------------

# "if every node does, reachable or not; otherwise the lowest ..".
bad("unreachable empty*", 2, [A, EMPTY, repeat(1)], [0])
bad("unreachable empty* before the rest", 1, [EMPTY, repeat(0), A, sequence(2, 2)], [3])
bad("unreachable X = X X", 2, [A, EMPTY, rule(1), sequence(2, 2)], [0, 3])
bad("two bad repeats", 1, [EMPTY, repeat(0), repeat(0)])
bad("bad repeats 2 and 4", 2, [A, EMPTY, repeat(1), not_(0), repeat(3)])
bad("bad repeat under good forms", 1, [EMPTY, repeat(0), A, sequence(2, 1), choice(3, 2), align(4)])
bad("repeat 2, X = X 3", 2, [A, EMPTY, repeat(1), rule(0)], [3])
bad("X = X 2, repeat 3", 2, [A, EMPTY, rule(0), repeat(1)], [2])
bad("bad last of many", 6, [A, EMPTY, B, choice(0, 2), repeat(3), sequence(0, 4), repeat(1)])
# A rule that stands for a bad higher node is bad itself: "else the child".
bad("X where X = empty*", 0, [rule(0), EMPTY, repeat(1)], [2])
bad("a X where X = empty*", 1, [A, rule(0), sequence(0, 1), EMPTY, repeat(3)], [4])
# A sequence can pass while its b does not; then b itself is named. Node 0 stands for the sequence
# and passes with it where a reads; node 2 is b.
bad("Y = a X passes; X = empty*", 2, [rule(1), A, rule(0), sequence(1, 2), EMPTY, repeat(4)], [5, 3])
bad("Y = empty X; X = empty*", 0, [rule(1), EMPTY, rule(0), sequence(1, 2), repeat(1)], [4, 3])
bad("Y = a* X; X = empty*", 0, [rule(1), A, repeat(1), rule(0), sequence(2, 3), EMPTY, repeat(5)], [6, 4])
bad("Y = !empty X passes; X = empty*", 3, [rule(1), EMPTY, not_(1), rule(0), sequence(2, 3), repeat(1)], [5, 4])
bad("Y = X a; X = empty*", 0, [rule(1), A, rule(0), sequence(2, 1), EMPTY, repeat(4)], [5, 3])
# "a choice of two": bad with either.
bad("Y = a / X; X = empty*", 0, [rule(1), A, rule(0), choice(1, 2), EMPTY, repeat(4)], [5, 3])
bad("Y = empty / X; X = empty*", 0, [rule(1), EMPTY, rule(0), choice(1, 2), repeat(1)], [4, 3])
bad("Y = X / a; X = empty*", 0, [rule(1), A, rule(0), choice(2, 1), EMPTY, repeat(4)], [5, 3])
# The passing sequence under every other form: all of them pass with it, and b, node 3, is named.
for said, form in (
    ("!Y", not_(0)),
    ("Y*", repeat(0)),
    ("indent greater Y", indent(0)),
    ("position greater Y", position(0)),
    ("align Y", align(0)),
    ("Y Y", sequence(0, 0)),
    ("Y / Y", choice(0, 0)),
):
    nodes = [rule(1), form, A, rule(0), sequence(2, 3), EMPTY, repeat(5)]
    bad(f"{said} passes where Y = a X; X = empty*", 3, nodes, [6, 4])
    # With empty for a, node 0 is bad at once.
    nodes = [rule(1), form, EMPTY, rule(0), sequence(2, 3), EMPTY, repeat(5)]
    bad(f"{said} where Y = empty X; X = empty*", 0, nodes, [6, 4])
# Only node 3, rule X, and the repeat are bad: b stands before X, and a before b.
bad("Y = a (b X); X = empty*", 3, [rule(1), A, B, rule(0), sequence(2, 3), sequence(1, 4), EMPTY, repeat(6)], [7, 5])


# --- Ford's rules fact by fact -------------------------------------------------------------------

# Six well-formed nodes with different facts.
BASE = [EMPTY, A, not_(0), not_(1), choice(1, 0), choice(1, 3)]
SETS = (
    # "Empty: the first."
    (0, "empty", "N"),
    # "Terminal: second and third."
    (1, "a", "SF"),
    # "Not: nothing if the child may fail; fails if it may succeed." Empty may only succeed.
    (2, "!empty", "F"),
    # a may both.
    (3, "!a", "NF"),
    # "Choice: a's successes, and if a may fail all of b's facts." S of a, N of empty.
    (4, "a / empty", "NS"),
    # S of a; N and F of !a.
    (5, "a / !a", "NSF"),
)


def bracketed(expression):
    """An expression as a part of another one."""
    return expression if expression.isalpha() else f"({expression})"


def shown(expression, facts, last, number):
    """Four forms over node `last`, which is well formed, that show its facts: the form written, whether it is bad, at
    which node, the nodes behind the last, and what their rule, of this number, stands for.

    A repeat of it is bad exactly if it has N: "a repeat whose child is and may not succeed reading
    nothing". Not of it has N exactly if it may fail, and not of that exactly if it may succeed. A
    rule behind it in its own sequence is bad exactly if it has N: "b too if a may read nothing".
    """
    part, succeeds = bracketed(expression), "N" in facts or "S" in facts
    yield f"{part}*", "N" in facts, last + 1, [repeat(last)], []
    yield f"(!{part})*", "F" in facts, last + 2, [not_(last), repeat(last + 1)], []
    yield f"(!!{part})*", succeeds, last + 3, [not_(last), not_(last + 1), repeat(last + 2)], []
    yield f"W = {part} W", "N" in facts, last + 1, [rule(number), sequence(last, last + 1)], [last + 2]


def seen(expression, facts, nodes, rules=(), where=""):
    """Four tables that show the facts of the last node, which is the expression. `where` tells its rules, or more."""
    for said, is_bad, ill, more, own in shown(expression, facts, len(nodes) - 1, len(rules)):
        verdict(f"{facts}: {said}{where}", is_bad, ill, nodes + more, [*rules, *own])


# The six themselves, each with only the nodes up to it.
for number, said, facts in SETS:
    seen(said, facts, BASE[: number + 1], where=", one of the six")

# "Sequence: nothing if both; something .. fails if a may fail, or .." A row for each a, a column for
# each b, in the order of SETS.
SEQUENCE = (
    ("N", "SF", "F", "NF", "NS", "NSF"),
    ("SF", "SF", "F", "SF", "SF", "SF"),
    ("F", "F", "F", "F", "F", "F"),
    ("NF", "SF", "F", "NF", "NSF", "NSF"),
    ("NS", "SF", "F", "NSF", "NS", "NSF"),
    ("NSF", "SF", "F", "NSF", "NSF", "NSF"),
)
# "Choice: a's successes, and if a may fail all of b's facts."
CHOICE = (
    ("N", "N", "N", "N", "N", "N"),
    ("NS", "SF", "SF", "NSF", "NS", "NSF"),
    ("N", "SF", "F", "NF", "NS", "NSF"),
    ("N", "NSF", "NF", "NF", "NS", "NSF"),
    ("NS", "NS", "NS", "NS", "NS", "NS"),
    ("NS", "NSF", "NSF", "NSF", "NS", "NSF"),
)
for (a, said_a, _), row, row_choice in zip(SETS, SEQUENCE, CHOICE):
    for (b, said_b, _), facts, facts_choice in zip(SETS, row, row_choice):
        seen(f"{bracketed(said_a)} {bracketed(said_b)}", facts, BASE + [sequence(a, b)])
        seen(f"{bracketed(said_a)} / {bracketed(said_b)}", facts_choice, BASE + [choice(a, b)])

# "Not: nothing if the child may fail; fails if it may succeed.", once, twice and three times.
NOT = ("F", "NF", "N", "NF", "F", "NF")
NOT_NOT = ("N", "NF", "F", "NF", "N", "NF")
NOT_NOT_NOT = ("F", "NF", "N", "NF", "F", "NF")
for (a, said, _), once, twice, thrice in zip(SETS, NOT, NOT_NOT, NOT_NOT_NOT):
    part, where = bracketed(said), f", over node {a} of the six"
    seen(f"!{part}", once, BASE + [not_(a)], where=where)
    seen(f"!!{part}", twice, BASE + [not_(a), not_(6)], where=where)
    seen(f"!!!{part}", thrice, BASE + [not_(a), not_(6), not_(7)], where=where)

# "Repeat: something if the child reads something; nothing if it may fail." Only the children without
# N make a well-formed repeat; the others are bad at the repeat, node 6.
seen("a*", "NS", BASE + [repeat(1)])
seen("(!empty)*", "N", BASE + [repeat(2)])
for number in (0, 3, 4, 5):
    bad(f"repeat of node {number} of the six", 6, BASE + [repeat(number)])
    bad(f"not of repeat of node {number} of the six", 6, BASE + [repeat(number), not_(6)])
    bad(f"a, then repeat of node {number} of the six", 6, BASE + [repeat(number), sequence(1, 6)])

# "Rule, indent, position, align: those of their child."
for a, said, facts in SETS:
    part = bracketed(said)
    seen(f"align {part}", facts, BASE + [align(a)])
    for name, relation in RELATIONS.items():
        seen(f"indent {name} {part}", facts, BASE + [indent(a, relation)])
        seen(f"position {name} {part}", facts, BASE + [position(a, relation)])
    seen("X", facts, BASE + [rule(0)], [a], f" where X = {said}")
    seen("Y", facts, BASE + [rule(0), rule(1)], [a, 6], f" where X = {said}; Y = X")
    seen(f"align (indent any (position equal {part}))", facts, BASE + [position(a, 0), indent(6, 3), align(7)])


def seen_early(facts, number, hops, where):
    """As `seen` of rule X, where BASE stands last and `hops` rules in a row lead to its node of this number."""

    for said, is_bad, ill, more, own in shown("X", facts, 0, hops):
        # Node 0 is rule 0. Each rule but the last stands for a node that names the next.
        probe = [rule(0)] + more
        base = len(probe) + hops - 1
        nodes = probe + [rule(i) for i in range(1, hops)] + moved(BASE, base)
        verdict(f"{facts}: {said} where {where}, later", is_bad, ill, nodes, [*range(len(probe), base), base + number, *own])


# "a rule may stand for any node": also a higher one, and through rules in a row.
for number, said, facts in SETS:
    for hops, where in enumerate(("X = ", "X = Y; Y = ", "X = Y; Y = Z; Z = "), 1):
        seen_early(facts, number, hops, where + said)

# Facts of rules that name themselves, each a well-formed rule X of these nodes; the last is X.
for said, facts, nodes in (
    # a X may succeed only if X may: by least facts it only fails.
    ("a X", "F", [A, rule(0), sequence(0, 1)]),
    ("(a X) b", "F", [A, B, rule(0), sequence(0, 2), sequence(3, 1)]),
    # N of empty; then a X may succeed. Empty may not fail, so X may not.
    ("a X / empty", "NS", [A, rule(0), sequence(0, 1), EMPTY, choice(2, 3)]),
    # empty may not fail, so a X counts for nothing.
    ("empty / a X", "N", [A, rule(0), sequence(0, 1), EMPTY, choice(3, 2)]),
    ("a X / b", "SF", [A, rule(0), sequence(0, 1), B, choice(2, 3)]),
    # S of b; then a X may succeed too, and both may fail.
    ("b / a X", "SF", [A, rule(0), sequence(0, 1), B, choice(3, 2)]),
    # S of a X once !b gives N; F as both may fail.
    ("a X / !b", "NSF", [A, rule(0), sequence(0, 1), B, not_(3), choice(2, 4)]),
    # Both sides only fail.
    ("a X / b X", "F", [A, rule(0), sequence(0, 1), B, sequence(3, 1), choice(2, 4)]),
    # a X may fail, so X has N; with N, a X succeeds, and X may fail.
    ("!(a X)", "NF", [A, rule(0), sequence(0, 1), not_(2)]),
    # a X may fail, so !(a X) has N, and X may fail. X succeeds only if a X does, and so only if X
    # does: never, by least facts.
    ("!!(a X)", "F", [A, rule(0), sequence(0, 1), not_(2), not_(3)]),
    # a !X: X may fail by a; so !X has N, and X has S.
    ("a !X", "SF", [A, rule(0), not_(1), sequence(0, 2)]),
    # a X* : X may fail by a; so X* has N, and X has S.
    ("a X*", "SF", [A, rule(0), repeat(1), sequence(0, 2)]),
    # a X may fail, so (a X)* has N; then a X has S, and (a X)* too. No repeat may fail.
    ("(a X)*", "NS", [A, rule(0), sequence(0, 1), repeat(2)]),
    # !empty only fails, and X behind it adds nothing.
    ("!empty X", "F", [EMPTY, not_(0), rule(0), sequence(1, 2)]),
    # The first of the choice only fails: X has b's facts.
    ("!empty X / b", "SF", [EMPTY, not_(0), rule(0), sequence(1, 2), B, choice(3, 4)]),
    # Indent, position and align on the way change no fact.
    ("align (a (indent greater X)) / empty", "NS", [A, rule(0), indent(1), sequence(0, 2), align(3), EMPTY, choice(4, 5)]),
    ("position at-least (a X / b)", "SF", [A, rule(0), sequence(0, 1), B, choice(2, 3), position(4, 2)]),
):
    seen(said, facts, nodes, [len(nodes) - 1], f" where X = {said}")


# --- Facts of nodes that are not well formed -----------------------------------------------------

# The facts know nothing of well-formedness, and are "the least ones". A sequence a E passes while its
# b, E, does not, and it may succeed exactly if E may; a !E may succeed exactly if E may fail.
# Rule 0 is that sequence, seen by node 3, (!!X)* with X for rule 0, which is bad if it may succeed. If it
# may not, node 3 passes, and the lowest that does not is node 5, which names rule 1, E.


def ill_formed(label, facts, nodes):
    """E is rule 1 and stands for the last of the nodes, whose numbers here start at 5."""
    front = [rule(0), not_(0), not_(1), repeat(2), A]
    whole = front + nodes
    last = len(whole) - 1
    node = 3 if "N" in facts or "S" in facts else 5
    bad(f"a E where E = {label}", node, whole + [sequence(4, 5)], [last + 1, last])
    node = 3 if "F" in facts else 5
    bad(f"a !E where E = {label}", node, whole + [not_(5), sequence(4, last + 1)], [last + 2, last])


# a is node 4, and rule E is node 5.
E = rule(1)
for said, facts, nodes in (
    # No rule gives a first fact.
    ("E", "", [E]),
    ("!E", "", [E, not_(5)]),
    ("!!E", "", [E, not_(5), not_(6)]),
    ("E*", "", [E, repeat(5)]),
    ("E E", "", [E, sequence(5, 5)]),
    ("E / E", "", [E, choice(5, 5)]),
    ("align E", "", [E, align(5)]),
    ("indent greater E", "", [E, indent(5)]),
    ("position greater E", "", [E, position(5)]),
    # "both may succeed": E may not; "a may fail, or a may succeed and b fail": E may neither.
    ("E a", "", [E, sequence(5, 4)]),
    ("E empty", "", [E, EMPTY, sequence(5, 6)]),
    # empty E has E's facts, so none.
    ("empty E", "", [E, EMPTY, sequence(6, 5)]),
    # a* may not fail; a* E fails only if E does, and succeeds only if E does.
    ("a* E", "", [E, repeat(4), sequence(6, 5)]),
    # "fails if a may fail": !a may.
    ("!a E", "F", [E, not_(4), sequence(6, 5)]),
    # "if a may fail all of b's facts": E may not fail, so a does not count.
    ("E / a", "", [E, choice(5, 4)]),
    ("E a / a", "", [E, sequence(5, 4), choice(6, 4)]),
    ("empty E / a", "", [E, EMPTY, sequence(6, 5), choice(7, 4)]),
    # S of a. a may fail, so E's facts are E's: "may fail" is not among the least.
    ("a / E", "S", [E, choice(4, 5)]),
    # S of a; then E E may succeed. It fails only if E does.
    ("a / E E", "S", [E, sequence(5, 5), choice(4, 6)]),
    # S of a; then E a may succeed in E and fail in a.
    ("a / E a", "SF", [E, sequence(5, 4), choice(4, 6)]),
    # E may fail by its first part; then a counts: S and F.
    ("!a E / a", "SF", [E, not_(4), sequence(6, 5), choice(7, 4)]),
    ("empty / E", "N", [E, EMPTY, choice(6, 5)]),
    # N of !a, which may fail; then E's facts, and no F among the least.
    ("!a / E", "N", [E, not_(4), choice(6, 5)]),
    # !E has no fact, so neither has the sequence.
    ("!E a", "", [E, not_(5), sequence(6, 4)]),
    # S of a; then !E may fail ("fails if it may succeed"), and so may E.
    ("a / !E", "NSF", [E, not_(5), choice(4, 6)]),
    # S of a, so S of E*. No repeat may fail, so E may not, and E* has no N.
    ("a / E*", "S", [E, repeat(5), choice(4, 6)]),
):
    ill_formed(said, facts, nodes)

# Bad repeats, and what is built on them: "something if the child reads something; nothing if it may
# fail".
for said, facts, nodes in (
    ("empty*", "", [E, EMPTY, repeat(6)]),
    ("(!a)*", "N", [E, not_(4), repeat(6)]),
    ("(a / empty)*", "S", [E, EMPTY, choice(4, 6), repeat(7)]),
    ("(a / !a)*", "NS", [E, not_(4), choice(4, 6), repeat(7)]),
    # a* has S and N and no F: its repeat has S; and the repeat of that, S again.
    ("(a*)*", "S", [E, repeat(4), repeat(6)]),
    ("((a*)*)*", "S", [E, repeat(4), repeat(6), repeat(7)]),
    # empty* has no fact, nor has what is built on it alone.
    ("(empty*)*", "", [E, EMPTY, repeat(6), repeat(7)]),
    ("!empty*", "", [E, EMPTY, repeat(6), not_(7)]),
    ("!!empty*", "", [E, EMPTY, repeat(6), not_(7), not_(8)]),
    ("empty* / a", "", [E, EMPTY, repeat(6), choice(7, 4)]),
    ("a / empty*", "S", [E, EMPTY, repeat(6), choice(4, 7)]),
    ("empty* a", "", [E, EMPTY, repeat(6), sequence(7, 4)]),
    # A bad repeat with S only: not of it fails and does not succeed.
    ("!(a*)*", "F", [E, repeat(4), repeat(6), not_(7)]),
    ("!!(a*)*", "N", [E, repeat(4), repeat(6), not_(7), not_(8)]),
    ("(a*)* a", "SF", [E, repeat(4), repeat(6), sequence(7, 4)]),
    ("(a*)* / a", "S", [E, repeat(4), repeat(6), choice(7, 4)]),
    # empty may only read nothing, so the sequence has the facts of the repeat: none.
    ("empty empty*", "", [E, EMPTY, repeat(6), sequence(6, 7)]),
    ("!a empty*", "F", [E, EMPTY, repeat(6), not_(4), sequence(8, 7)]),
):
    ill_formed(said, facts, nodes)


def reads_something(expression, facts, form):
    """Shows S beside N, where F is not there, of a form over BASE, whose nodes here start at 6.

    E is the repeat of the form, bad as that has N; E may succeed only with S: "something if the child
    reads something; nothing if it may fail".
    """
    assert facts in ("N", "NS")
    ill_formed(f"({expression})*, over the six", facts[1:], [E] + moved(BASE + [form, repeat(6)], 6))


# The entries N and NS of the rules above. The rows of SEQUENCE and CHOICE are read again.
for (a, said_a, _), row, row_choice in zip(SETS, SEQUENCE, CHOICE):
    for (b, said_b, _), facts, facts_choice in zip(SETS, row, row_choice):
        if facts in ("N", "NS"):
            reads_something(f"{bracketed(said_a)} {bracketed(said_b)}", facts, sequence(a, b))
        if facts_choice in ("N", "NS"):
            reads_something(f"{bracketed(said_a)} / {bracketed(said_b)}", facts_choice, choice(a, b))
for a, said, facts in SETS:
    if facts in ("N", "NS"):
        for form, node in FORMS:
            reads_something(f"{form} {bracketed(said)}", facts, node(a))
# A repeat that is well formed, of a: NS; and of !empty: N. Not of !empty: N.
reads_something("a*", "NS", repeat(1))
reads_something("(!empty)*", "N", repeat(2))
reads_something("!!empty", "N", not_(2))


# --- The largest tables --------------------------------------------------------------------------

# "1 to 512 nodes, 0 to 128 rules." 127 rules that no node names fill up the rules.
UNUSED = [4 * i + 3 for i in range(127)]
# The core: X = a X / empty, where X stands for the last node of all.
CORE = [A, rule(0), sequence(0, 1), EMPTY, choice(2, 3)]
# empty X instead: X comes back with nothing read. Node 0 is empty, node 1 rule X, the lowest bad one.
CORE_BAD = [EMPTY, rule(0), sequence(0, 1), EMPTY, choice(2, 3)]


def any_indent(i):
    return indent(i, i % RELATION_COUNT)


def any_position(i):
    return position(i, i % RELATION_COUNT)


def any_form(i):
    """Align, indent, position and not in turn."""
    return (align(i), indent(i, 1), position(i, 2), not_(i))[i % 4]


# "else the child", 507 times.
for said, form in (
    ("aligns", align),
    ("indents", any_indent),
    ("positions", any_position),
    ("nots", not_),
    ("forms in turn", any_form),
):
    passes(f"X = 507 {said} over (a X / empty)", over(CORE, form), [511])
    passes(f"X = 507 {said} over (a X / empty), 128 rules", over(CORE, form), [511] + UNUSED)
    bad(f"X = 507 {said} over (empty X / empty)", 1, over(CORE_BAD, form), [511])
    bad(f"X = 507 {said} over (empty X / empty), 128 rules", 1, over(CORE_BAD, form), [511] + UNUSED)
    # a* X and !a X: hidden behind what may read nothing; rule X is node 2.
    core = [A, repeat(0), rule(0), sequence(1, 2), EMPTY, choice(3, 4)]
    bad(f"X = 506 {said} over (a* X / empty)", 2, over(core, form), [511])
    core = [A, not_(0), rule(0), sequence(1, 2), EMPTY, choice(3, 4)]
    bad(f"X = 506 {said} over (!a X / empty)", 2, over(core, form), [511])
    # !empty X: X is never reached.
    core = [EMPTY, not_(0), rule(0), sequence(1, 2), choice(3, 0)]
    passes(f"X = 507 {said} over (!empty X / empty)", over(core, form), [511])
    # The forms between the rule and the rest: bad at the rule.
    bad(f"X = 511 {said} over X", 0, over([rule(0)], form), [511])
    bad(f"X = (509 {said} over X) a", 1, over([A, rule(0)], form, 511) + [sequence(510, 0)], [511])
    passes(f"X = a (509 {said} over X)", over([A, rule(0)], form, 511) + [sequence(0, 510)], [511])
    bad(f"X = empty (509 {said} over X)", 1, over([EMPTY, rule(0)], form, 511) + [sequence(0, 510)], [511])
    bad(f"X = a / (509 {said} over X)", 1, over([A, rule(0)], form, 511) + [choice(0, 510)], [511])
    # 255 forms over a, then rule X as node 256 and 254 forms over it.
    half = over(over([A], form, 256) + [rule(0)], form, 511)
    bad(f"X = a / (254 {said} over X), X is node 256", 256, half + [choice(0, 510)], [511])
    passes(f"X = a (254 {said} over X), X is node 256", half + [sequence(0, 510)], [511])

# A repeat at the end shows the facts through 510 forms: those of the child.
for said, form in (("aligns", align), ("indents", any_indent), ("positions", any_position)):
    bad(f"repeat of 510 {said} over empty", 511, over([EMPTY], form, 511) + [repeat(510)])
    passes(f"repeat of 510 {said} over a", over([A], form, 511) + [repeat(510)])
    bad(f"repeat of 509 {said} over a*", 511, over([A, repeat(0)], form, 511) + [repeat(510)])
    passes(f"repeat of 509 {said} over !empty", over([EMPTY, not_(0)], form, 511) + [repeat(510)])

# Nots in a row: over what may only succeed an odd number only fails, an even number may read nothing;
# over a, which may both, any number may read nothing. a X / empty with X that choice may not fail.
bad("repeat of 510 nots over empty", 511, over([EMPTY], not_, 511) + [repeat(510)])
passes("repeat of 509 nots over empty", over([EMPTY], not_, 510) + [repeat(509), align(510)])
bad("repeat of 510 nots over a", 511, over([A], not_, 511) + [repeat(510)])
bad("repeat of 509 nots over a", 510, over([A], not_, 510) + [repeat(509), align(510)])
bad("repeat of 506 nots over X = a X / empty", 511, over(CORE, not_, 511) + [repeat(510)], [4])
passes("repeat of 505 nots over X = a X / empty", over(CORE, not_, 510) + [repeat(509), align(510)], [4])

# Repeats: "a repeat whose child is and may not succeed reading nothing".
bad("511 repeats over each other", 2, over([A], repeat))
passes("511 repeats of a", [A] + [repeat(0)] * 511)
bad("510 repeats of a and one of the last", 511, [A] + [repeat(0)] * 510 + [repeat(510)])
bad("511 repeats of empty", 1, [EMPTY] + [repeat(0)] * 511)
bad("node 511 a repeat of empty", 511, [EMPTY] * 511 + [repeat(510)])

# Sequences and choices in a row, with a repeat as node 511.
passes("a (a (a ..))", over([A], lambda i: sequence(0, i)))
passes("((a a) a) ..", over([A], lambda i: sequence(i, 0)))
passes("repeat of 510 sequences of a", over([A], lambda i: sequence(i, i), 511) + [repeat(510)])
bad("repeat of 510 sequences of empty", 511, over([EMPTY], lambda i: sequence(i, i), 511) + [repeat(510)])
passes("repeat of 510 choices of a", over([A], lambda i: choice(i, i), 511) + [repeat(510)])
bad("repeat of 510 choices of empty", 511, over([EMPTY], lambda i: choice(i, i), 511) + [repeat(510)])
# a* (a* (.. a)) reads something or fails; a* (a* (.. a*)) may read nothing.
nodes = over([A, repeat(0), sequence(1, 0)], lambda i: sequence(1, i), 511)
passes("(a* (a* (.. a)))*", nodes + [repeat(510)])
nodes = over([A, repeat(0), sequence(1, 1)], lambda i: sequence(1, i), 511)
bad("(a* (a* (.. a*)))*", 511, nodes + [repeat(510)])
# a / (a / (.. empty)) may read nothing; from the left likewise.
nodes = over([A, EMPTY, choice(0, 1)], lambda i: choice(0, i), 511)
bad("(a / (.. / empty))*", 511, nodes + [repeat(510)])
nodes = over([A, EMPTY, choice(1, 0)], lambda i: choice(i, 0), 511)
bad("((empty / a) / ..)*", 511, nodes + [repeat(510)])
# Sequences over rule X first: X = ((X a) a) .. is bad, X = a (a (.. X)) passes.
bad("X = ((X a) a) ..", 1, over([A, rule(0)], lambda i: sequence(i, 0)), [511])
passes("X = a (a (.. X))", over([A, rule(0)], lambda i: sequence(0, i)), [511])
bad("X = empty (empty (.. X))", 1, over([EMPTY, rule(0)], lambda i: sequence(0, i)), [511])
bad("X = (.. (X / a) ..) / a", 1, over([A, rule(0)], lambda i: choice(i, 0)), [511])
# !a X needs X, and X passes by the a at its start.
passes("X = a (!a (.. (!a X)))", over([A, not_(0), rule(0)], lambda i: sequence(1, i), 511) + [sequence(0, 510)], [511])

# Leaves and rules only.
passes("512 terminals", [(1, i % 256, 0, 0) for i in range(512)], list(range(384, 512)))
passes("511 rules of a", [A] + [rule(i % 128) for i in range(511)], [0] * 128)
bad("512 rules, each its own node", 0, [rule(i % 128) for i in range(512)], list(range(128)))
bad("384 terminals, then X = X", 384, [A] * 384 + [rule(i) for i in range(128)], list(range(384, 512)))
bad("511 terminals, then X = X", 511, [A] * 511 + [rule(127)], [511] * 128)


# --- Rules in a row ------------------------------------------------------------------------------


def upward(last):
    """Rule i is node i, which names rule i + 1; node 127 is the given one."""
    return [rule(i + 1) for i in range(127)] + [last]


def downward(first):
    """Rule i is node i, which names rule i - 1; node 0 is the given one."""
    return [first] + [rule(i - 1) for i in range(1, 128)]


OWN = list(range(128))
NEXT = list(range(1, 129))

# "else the child", 128 times: the end decides, and a cycle has none. "Well formed is also least".
for said, end in (("a", A), ("empty", EMPTY)):
    passes(f"128 rules upward to {said}", upward(end), OWN)
    passes(f"128 rules downward to {said}", downward(end), OWN)
bad("128 rules upward in a cycle", 0, upward(rule(0)), OWN)
bad("128 rules downward in a cycle", 0, downward(rule(127)), OWN)
for number in (1, 64, 126, 127):
    bad(f"128 rules upward, the last names rule {number}", 0, upward(rule(number)), OWN)
for number in (0, 1, 63, 126):
    bad(f"128 rules downward, the first names rule {number}", 0, downward(rule(number)), OWN)
# The same behind a terminal, so that the lowest bad node is 1.
bad("a, then 128 rules upward in a cycle", 1, [A] + upward(rule(0)), NEXT)
bad("a, then 128 rules downward in a cycle", 1, [A] + downward(rule(127)), NEXT)
bad("a, then 128 rules upward, the last names rule 127", 1, [A] + upward(rule(127)), NEXT)
# A cycle in one half only.
UP = upward(A)
bad("rules 64 to 127 in a cycle, 0 to 63 to a", 64, UP[:63] + [A] + UP[64:127] + [rule(64)], OWN)
bad("rules 0 to 63 in a cycle, 64 to 127 to a", 0, UP[:63] + [rule(0)] + UP[64:127] + [A], OWN)
bad("rule 127 alone names itself, the rest to a", 127, UP[:126] + [A, rule(127)], OWN)
bad("rules 126 and 127 name each other", 126, UP[:125] + [A, rule(127), rule(126)], OWN)
DOWN = downward(A)
bad("rule 64 names itself, 65 to 127 lead to it", 64, DOWN[:64] + [rule(64)] + DOWN[65:], OWN)
# In another order: rule i names rule 5 i + 1, less whole 128s, which comes through all 128 in turn.
TURN = [rule((5 * i + 1) % 128) for i in range(128)]
bad("128 rules in turn by 5 i + 1", 0, TURN, OWN)
for number in (0, 1, 77, 127):
    passes(f"128 rules in turn by 5 i + 1, rule {number} is a", TURN[:number] + [A] + TURN[number + 1 :], OWN)
# Facts through 128 rules: those of the end, seen by a repeat as the last node.
for said, chain, top in (("upward", upward, 0), ("downward", downward, 127)):
    bad(f"repeat of 128 rules {said} to empty", 128, chain(EMPTY) + [repeat(top)], OWN)
    passes(f"repeat of 128 rules {said} to a", chain(A) + [repeat(top)], OWN)
    # a may fail, empty may not.
    bad(f"repeat of not of 128 rules {said} to a", 129, chain(A) + [not_(top), repeat(128)], OWN)
    passes(f"repeat of not of 128 rules {said} to empty", chain(EMPTY) + [not_(top), repeat(128)], OWN)
# 128 rules in a cycle with one step of another kind at rule k. Node 1 + i names the rule after rule i,
# and is rule i but for k, which is node 129.
ROUND = [rule((i + 1) % 128) for i in range(128)]
for k in (0, 1, 64, 126, 127):
    rules = NEXT[:k] + [129] + NEXT[k + 1 :]
    passes(f"128 rules in a cycle, a before at {k}", [A] + ROUND + [sequence(0, 1 + k)], rules)
    bad(f"128 rules in a cycle, empty before at {k}", 1, [EMPTY] + ROUND + [sequence(0, 1 + k)], rules)
    bad(f"128 rules in a cycle, a behind at {k}", 1, [A] + ROUND + [sequence(1 + k, 0)], rules)
    bad(f"128 rules in a cycle, choice with a at {k}", 1, [A] + ROUND + [choice(0, 1 + k)], rules)
    bad(f"128 rules in a cycle, not at {k}", 1, [A] + ROUND + [not_(1 + k)], rules)
    bad(f"128 rules in a cycle, align at {k}", 1, [A] + ROUND + [align(1 + k)], rules)


# --- 512 nodes and 128 rules ---------------------------------------------------------------------


def blocks(*makers):
    """128 blocks of four nodes; each maker gets the number of the block's first node and its rule."""
    nodes = []
    for i in range(128):
        nodes += makers[min(i, len(makers) - 1)](4 * i, i)
    return nodes


# Rule i is the last node of block i.
LAST = [4 * i + 3 for i in range(128)]


def named(at, number):
    """Rule `number` under position, indent and align."""
    return [rule(number), position(at, 2), indent(at + 1, 3), align(at + 2)]


def leaf(at, node):
    return [node, position(at, 2), indent(at + 1, 3), align(at + 2)]


def before(at, node, number):
    """The node, then rule `number`, in a sequence under align."""
    return [node, rule(number), sequence(at, at + 1), align(at + 2)]


def repeated(at, number):
    """a* and rule `number` behind it."""
    return [A, repeat(at), rule(number), sequence(at + 1, at + 2)]


UPWARD = blocks(lambda at, i: named(at, (i + 1) % 128))
DOWNWARD = blocks(lambda at, i: named(at, (i + 127) % 128))
bad("128 blocks upward in a cycle", 0, UPWARD, LAST)
bad("128 blocks downward in a cycle", 0, DOWNWARD, LAST)
for said, end in (("a", A), ("empty", EMPTY)):
    passes(f"128 blocks upward to {said}", UPWARD[:508] + leaf(508, end), LAST)
    passes(f"128 blocks downward to {said}", leaf(0, end) + DOWNWARD[4:], LAST)
# Block 0 leads to a leaf, the others are a cycle: rule 127 names rule 1. The lowest bad node is 4.
bad("blocks 1 to 127 in a cycle", 4, leaf(0, A) + UPWARD[4:508] + named(508, 1), LAST)
bad("blocks 64 to 127 in a cycle", 256, UPWARD[:252] + leaf(252, A) + UPWARD[256:508] + named(508, 64), LAST)
# Rules that all read before the next, none that does, and one of 128 that does.
passes("128 rules, each a before the next", blocks(lambda at, i: before(at, A, (i + 1) % 128)), LAST)
EMPTIES = blocks(lambda at, i: before(at, EMPTY, (i + 1) % 128))
bad("128 rules, each empty before the next", 1, EMPTIES, LAST)
for k in (0, 50, 127):
    passes(f"128 rules, empty before the next but a at {k}",
           EMPTIES[: 4 * k] + before(4 * k, A, (k + 1) % 128) + EMPTIES[4 * k + 4 :], LAST)
# a* before the next: left recursion in a cycle, and none to an end. Node 2 is the first rule named.
REPEATS = blocks(lambda at, i: repeated(at, (i + 1) % 128))
bad("128 rules, each a* before the next", 2, REPEATS, LAST)
passes("128 rules, a* before the next, the last a", REPEATS[:508] + leaf(508, A), LAST)
# The last is empty*, as node 509: every rule on the way needs it, as a* may read nothing.
bad("128 rules, a* before the next, the last empty*", 2, REPEATS[:508] + [EMPTY, repeat(508), align(509), align(510)],
    LAST)
# With a for a* each passes for itself; only the node that names rule 127, node 505, and the repeat
# are bad.
bad("128 rules, a before the next, the last empty*", 505,
    blocks(lambda at, i: before(at, A, (i + 1) % 128))[:508] + [EMPTY, repeat(508), align(509), align(510)], LAST)
# Three nots a rule, upward to empty: rule 127 may only succeed, rule 126 only fail, rule 125 only
# succeed, and so on: rule 0 only fails, rule 1 only succeeds, and with nothing read.
NOTS = blocks(lambda at, i: [rule((i + 1) % 128), not_(at), not_(at + 1), not_(at + 2)])
SHORT = LAST[:127] + [509]
nodes = NOTS[:508] + [EMPTY, align(508)]
passes("rule 0 of 381 nots over empty, repeated", nodes + [rule(0), repeat(510)], SHORT)
bad("rule 1 of 378 nots over empty, repeated", 511, nodes + [rule(1), repeat(510)], SHORT)
nodes = NOTS[:508] + [A, align(508)]
bad("rule 0 of 381 nots over a, repeated", 511, nodes + [rule(0), repeat(510)], SHORT)
bad("128 rules of three nots in a cycle", 0, NOTS, LAST)


def waves(extra=0, first=A):
    """Facts that come one after the other through all rules; the last rule waits for each at rule 0.

    Rules 0 to 124 have four nodes, rule 125 three, less the extra ones that are put behind, rule 126
    one, and rule 127 eight: a !X / !!(a X), X being rule 0. Both sides may fail, by a. Once rule 0 may
    fail, !X has N, and a !X has S. Once rule 0 has S, a X may succeed, !(a X) fail, and !!(a X) has N.
    So each rule has F, then S, then N.
    """
    nodes = blocks(lambda at, i: named(at, i + 1))[: 503 - extra] + [rule(127)]
    at = len(nodes)
    nodes += [first, rule(0), not_(at + 1), sequence(at, at + 2)]
    nodes += [sequence(at, at + 1), not_(at + 4), not_(at + 5), choice(at + 3, at + 6)]
    return nodes, LAST[:125] + [502 - extra, at - 1, at + 7], at


nodes, rules, at = waves()
passes("three waves of facts", nodes, rules)
# Node at + 1 is rule 0, node at + 2 not rule 0.
nodes, rules, at = waves(1)
bad("three waves of facts, rule 0 repeated", 511, nodes + [repeat(at + 1)], rules)
bad("three waves of facts, not rule 0 repeated", 511, nodes + [repeat(at + 2)], rules)
nodes, rules, at = waves(2)
bad("three waves of facts, not not rule 0 repeated", 511, nodes + [not_(at + 2), repeat(510)], rules)
# Z = X Z is left recursive once rule 0 has N; node 510 is rule Z, which takes rule 126's place: rule
# 125 names rule 127 instead.
nodes, rules, at = waves(2)
nodes[at - 2 : at] = [rule(127), align(at - 2)]
bad("three waves of facts, Z = X Z", 510, nodes + [rule(126), sequence(at + 1, 510)], rules[:126] + [511, at + 7])
# empty for a: rule 0 stands on itself through all the rules.
nodes, rules, at = waves(0, EMPTY)
bad("three waves, empty for a", 0, nodes, rules)


# --- Many times ----------------------------------------------------------------------------------

# The same call 100 times, for the time of the largest tables; the answer is printed once. Where each
# rule names a later one, facts have the longest way to go: these tables are checked less often.
passes("100 times, one node", [EMPTY], [], 99)
passes("100 times, X = 507 aligns over (a X / empty)", over(CORE, align), [511] + UNUSED, 99)
passes("100 times, X = 507 forms over (a X / empty)", over(CORE, any_form), [511] + UNUSED, 99)
bad("100 times, X = 507 aligns over (empty X / empty)", 1, over(CORE_BAD, align), [511] + UNUSED, 99)
passes("100 times, 128 blocks downward to a", leaf(0, A) + DOWNWARD[4:], LAST, 99)
passes("10 times, 128 blocks upward to a", UPWARD[:508] + leaf(508, A), LAST, 9)
nodes, rules, at = waves()
passes("5 times, three waves of facts", nodes, rules, 4)


if __name__ == "__main__":
    CASES.write()

#!/usr/bin/env python3
"""Measures how much stack the interpreter needs for deep nesting.

Run it at the top of the repository after `rt ci`, or after `rt run < /dev/null` in crates/depth and in
crates/reader. For each grammar below it finds, by halving, the least stack with which the program depth
ends with the right answer, and prints it with the nested calls, the bytes of one of them and the time of
a run. Then it does the same with the program reader, for the list and for a chain of indents, on a
report of one line with 4,095 words.
The exit status is 1 if a grammar needs more than its limit.

A nested call is one of the expression walk, at the deepest point of a run; a rule's call is counted
with that of its node. A run over 4,096 tokens has 4,097 rounds, one over no token has one, with the
same calls in each: the bytes of a call are the stack between the two runs, divided by the calls of
4,096 rounds.
"""

import pathlib
import resource
import statistics
import subprocess
import sys
import tempfile
import time

ROOT = pathlib.Path(__file__).resolve().parent.parent
sys.path.insert(0, str(ROOT / "cases"))

import depth  # noqa: E402
import grammar_fields  # noqa: E402
from depth import LIST, TOKENS  # noqa: E402
from table_nodes import ANY, AT_LEAST, EMPTY, EQUAL, step  # noqa: E402

PROGRAM = ROOT / "crates" / "depth" / "out" / "depth"
READER = ROOT / "crates" / "reader" / "out" / "reader"

KIB, MIB = 1024, 1024 * 1024
NODES, RULES = 512, 128
EMPTY_NODE = LIST.index(EMPTY)
# The last number is the farthest place: a is tried behind the last token too.
ALL_READ = f"success {TOKENS} 0 0 clear {TOKENS}"
NONE_READ = "success 0 0 inf clear 0"
LOOKED = f"success 0 0 inf clear {TOKENS}"
# X behind each of the tokens; the start is the node that X stands for, and no capture.
LISTED, NONE_LISTED = f"captures {TOKENS}", "captures 0"
ALL_READ_ENDLESS = f"success {TOKENS} 0 inf clear {TOKENS}"
ALL_READ_SET = f"success {TOKENS} 0 0 set {TOKENS}"


def chain(kind, count, b=0, relation=0, nodes=LIST):
    """The nodes with one form laid over the last of them that many times."""
    nodes = list(nodes)
    for _ in range(count):
        nodes.append((kind, len(nodes) - 1, b, relation))
    return nodes


def linked(count):
    """The list under that many rules that each stand for the node below, and their nodes."""
    nodes, targets = list(LIST), []
    for number in range(1, count + 1):
        targets.append(len(nodes) - 1)
        nodes.append((2, number, 0, 0))
    return nodes, targets


def grammar_file(nodes):
    """The file of the list's grammar for words, whose rule 0 stands for the last node, in mode any."""
    last = len(nodes) - 1
    fields = [grammar_fields.VERSION, grammar_fields.rule(last, b"list")]
    fields += [grammar_fields.node(1, 1) if node == LIST[0] else grammar_fields.node(*node) for node in nodes]
    return b"".join([*fields, grammar_fields.start(last, ANY)])


class Shape:
    """A grammar whose rule 0 stands for its last node, with the answer of a run and a limit in MiB."""

    def __init__(self, name, nodes, answer=ALL_READ, rules=(), mode=AT_LEAST, limit=1024, listing=False, by_2014=False):
        self.name, self.nodes, self.answer, self.mode, self.limit = name, nodes, answer, mode, limit
        self.rules, self.listing, self.by_2014 = rules, listing, by_2014
        # A run over no token leaves the flag as one over all does.
        self.none = NONE_LISTED if listing else NONE_READ.replace("clear", answer.split()[4])
        # Every node calls the next but a, X behind a (a tail, walked by its sequence's call) and empty.
        self.round = len(nodes) - 3

    def words(self, tokens=TOKENS):
        return depth.shape(self.nodes, self.rules, self.mode, tokens, self.listing, self.by_2014)


def shapes():
    free = NODES - len(LIST)
    nodes, targets = linked(RULES - 1)
    return [
        Shape("list: X = (a X) / empty", LIST, limit=4),
        Shape("repeat: X = (a X)*", [*LIST[:4], (6, 2, 0, 0)], limit=4),
        Shape("list, and its captures", LIST, LISTED, limit=4, listing=True),
        Shape("aligns", chain(9, free)),
        Shape("aligns, and captures", chain(9, free), LISTED, listing=True),
        # By 2014 an align that read nothing, as the last ones do, leaves the flag set.
        Shape("list, by 2014", LIST, mode=EQUAL, limit=4, by_2014=True),
        Shape("aligns, by 2014", chain(9, free), ALL_READ_SET, mode=EQUAL, by_2014=True),
        Shape("indents, at least", chain(7, free, relation=2)),
        Shape("indents, any", chain(7, free, relation=3), ALL_READ_ENDLESS),
        Shape("indents, greater", chain(7, free, relation=1), ALL_READ_ENDLESS, mode=ANY),
        Shape("indents by 31", chain(7, free, relation=step(31)), ALL_READ_ENDLESS, mode=ANY),
        # An even number of nots over the list looks ahead behind the last token and reads none.
        Shape("nots", chain(5, free // 2 * 2), LOOKED),
        Shape("choices", chain(4, free, b=EMPTY_NODE)),
        Shape("sequences", chain(3, free, b=EMPTY_NODE)),
        Shape("rules, aligns", chain(9, NODES - len(nodes), nodes=nodes), rules=targets),
    ]


def run(program, folder, stack):
    """What a program prints with that much stack, in bytes; nothing where it ends by a signal. It reads the
    file `report` if there is one."""

    def limited():
        hard = resource.getrlimit(resource.RLIMIT_STACK)[1]
        soft = stack if hard == resource.RLIM_INFINITY else min(stack, hard)
        resource.setrlimit(resource.RLIMIT_STACK, (soft, hard))
        resource.setrlimit(resource.RLIMIT_CORE, (0, 0))

    report = folder / "report"
    given = report.read_bytes() if report.exists() else b""
    done = subprocess.run(
        [program], cwd=folder, env={}, preexec_fn=limited, input=given, stdout=subprocess.PIPE, check=False
    )
    return done.stdout.decode().strip() if done.returncode == 0 else ""


def least(program, folder, answer, limit):
    """The least stack that suffices, to a 1,024th of the limit, or None if twice the limit does not."""
    low, high = 16 * KIB, 2 * limit
    if run(program, folder, high) != answer:
        return None
    while high - low > limit // 1024:
        middle = (low + high) // 2
        if run(program, folder, middle) == answer:
            high = middle
        else:
            low = middle
    return high


def seconds(program, folder, stack):
    """The median time of five runs."""
    times = []
    for _ in range(5):
        before = time.perf_counter()
        run(program, folder, stack)
        times.append(time.perf_counter() - before)
    return statistics.median(times)


def measure(shape, folder):
    """Prints a line for a shape, and answers whether it keeps its limit."""
    file = folder / "shape"
    file.write_bytes(shape.words(0))
    base = least(PROGRAM, folder, shape.none, MIB)
    file.write_bytes(shape.words())
    need = least(PROGRAM, folder, shape.answer, shape.limit * MIB)
    if base is None or need is None:
        print(f"{shape.name:26} no right answer with {2 * shape.limit} MiB")
        return False
    calls = (TOKENS + 1) * shape.round
    each = (need - base) / (TOKENS * shape.round)
    spent = seconds(PROGRAM, folder, 2 * shape.limit * MIB)
    print(f"{shape.name:26} {calls:>12,} {need / MIB:>8.2f} {each:>12.0f} {spent:>8.3f}", flush=True)
    return need <= shape.limit * MIB


def measure_reader(name, nodes, limit, folder):
    """Prints a line for a grammar that the program reader runs on a line of words, and answers whether it
    keeps its limit."""
    words = TOKENS - 1
    (folder / "grammar.bin").write_bytes(grammar_file(nodes))
    (folder / "report").write_bytes(b"a " * words)
    # The farthest place is that of the line end, behind the words.
    need = least(READER, folder, f"success {words} 0 inf clear {words}", limit * MIB)
    if need is None:
        print(f"{name:26} no right answer with {2 * limit} MiB")
        return False
    calls = TOKENS * (len(nodes) - 3)
    spent = seconds(READER, folder, 2 * limit * MIB)
    print(f"{name:26} {calls:>12,} {need / MIB:>8.2f} {'':>12} {spent:>8.3f}", flush=True)
    return need <= limit * MIB


def main():
    if not (PROGRAM.exists() and READER.exists()):
        sys.exit("a program is not there: run `rt run < /dev/null` in crates/depth and in crates/reader first")
    print(f"{'grammar':26} {'nested calls':>12} {'MiB':>8} {'bytes a call':>12} {'seconds':>8}")
    with tempfile.TemporaryDirectory() as folder:
        kept = [measure(shape, pathlib.Path(folder)) for shape in shapes()]
    with tempfile.TemporaryDirectory() as folder:
        deep = chain(7, NODES - len(LIST), relation=ANY)
        kept.append(measure_reader("reader: list", LIST, 4, pathlib.Path(folder)))
        kept.append(measure_reader("reader: indents, any", deep, 1024, pathlib.Path(folder)))
    return 0 if all(kept) else 1


if __name__ == "__main__":
    sys.exit(main())

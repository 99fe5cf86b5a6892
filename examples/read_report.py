#!/usr/bin/env python3
"""Reads a report through ctypes and prints the grammar's names, the outcome and, as a tree, what each rule read.

    python3 examples/read_report.py LIBRARY GRAMMAR REPORT [--json] [--by-2014]

A line of the tree is `NAME LINE:COLUMN TEXT`, both counted from 1, with the text up to its first line break, or `NAME -`
if the rule read no token. Before it stand two blanks for each rule around it. After a failure, or a success that leaves
tokens, the line below the outcome says where the farthest token is that the run tried: `farthest LINE:COLUMN`, or
`farthest end` behind the last one.

With --json only JSON lines are printed, one an entry: its number, from 0 on, the name of its rule, its first and last
line, its whole text, and the number of the entry around it or null. If it read no token, both lines are null and the text
is empty. A failure has no entries; it and its farthest token are told on standard error, and the exit status is 1.

With --by-2014 the report is read by the rules of 2014, for data sets that were read so; otherwise by those of 2017.
"""

import concurrent.futures
import ctypes
import json
import pathlib
import signal
import sys
import threading
from ctypes import byref, c_bool, c_size_t, c_uint8, c_uint16, c_uint32
from typing import NamedTuple, Optional

NODE_WORDS, RULE_WORDS, TOKEN_WORDS, NAME_BYTES = 2048, 128, 16384, 32
PARTS = ("saktroum_read", "saktroum_check", "saktroum_scan", "saktroum_list", "saktroum_shown")
NAMES = ("saktroum_rule_name", "saktroum_keyword")

# For captures no length is always enough: after 13 twice as many words are lent, up to this many.
MOST_CAPTURE_WORDS = 1 << 24

# What the deepest runs need fits into 1 GiB; only what is used is taken.
STACK_BYTES = 1 << 30


ILL_FORMED, CAPTURE_ROOM = 7, 13

# What to do about each number (enum saktroum_refusal of include/saktroum.h).
ADVICE = {
    1: "this is no grammar file: build it anew",
    2: "look at the keywords and rule names: 1 to 32 bytes, no blanks, none there twice",
    3: "make the grammar smaller: it may have 512 nodes and 128 rules, and needs a node",
    4: "mend the tool that wrote the nodes",
    5: "mend the tool that wrote the rules and the start",
    6: "lend more words for the nodes and the rules",
    ILL_FORMED: "there a rule comes back to itself, or a repeat goes on, without reading a token",
    8: "split the report, or look how it was recorded: it is too long, or has a byte that is no text",
    9: "look for a very long line in the report",
    10: "split the report: it may have 4,096 tokens",
    11: "lend the tokens as a scan wrote them",
    12: "look at the start: its node, place, interval and mode",
    CAPTURE_ROOM: "split the report, or name fewer rules: the list of what they read is too long",
    14: "lend the capture as a list wrote it, with the report and the tokens of that run",
    16: "by 2014 there is no position (`end` is one) and only mode equal: rewrite it, or read by 2017",
}


class Entry(NamedTuple):
    """What is shown of a capture. If it read no token, it has no line and no column."""

    around: int  # the number of captures around it
    rule: str
    line: Optional[int] = None
    last_line: Optional[int] = None
    column: Optional[int] = None
    text: str = ""


def loaded(library):
    """The library: the answers of the parts have 32 bits and no sign, those of the names are lengths."""
    reader = ctypes.CDLL(str(pathlib.Path(library).resolve()))
    for part in PARTS:
        getattr(reader, part).restype = c_uint32
    for name in NAMES:
        getattr(reader, name).restype = c_size_t
    return reader


def given(values, kind):
    """The slice of some values: a pointer that is not null and a length."""
    return (kind * max(1, len(values)))(*values), c_size_t(len(values))


def passed(answer, part):
    """Ends with the number, with the node for 7, and what to do, unless the answer is 0."""
    number, node = answer & 65535, answer >> 16
    if number:
        at = f", node {node}" if number == ILL_FORMED else ""
        sys.exit(f"{part}: refused {number}{at}: {ADVICE[number]}")


def names(call, file, count):
    """The rule names or keywords of a file."""
    out = (c_uint8 * NAME_BYTES)()
    return [bytes(out[: call(*file, c_size_t(i), out, c_size_t(NAME_BYTES))]).decode("utf-8", "replace") for i in range(count)]


def read_grammar(reader, file):
    """The table of a grammar file; the number of its nodes, rules and keywords, its start node and mode."""
    nodes, rules, read = (c_uint16 * NODE_WORDS)(), (c_uint16 * RULE_WORDS)(), (c_size_t * 5)()
    room = (nodes, c_size_t(NODE_WORDS), rules, c_size_t(RULE_WORDS))
    passed(reader.saktroum_read(*file, *room, byref(read)), "read")
    return (nodes, c_size_t(read[0] * 4), rules, c_size_t(read[1])), list(read)


def scan(reader, file, report):
    """The slice of a report's tokens, four words each, and their number."""
    tokens, count = (c_uint32 * TOKEN_WORDS)(), (c_size_t * 1)()
    passed(reader.saktroum_scan(*file, *report, tokens, c_size_t(TOKEN_WORDS), byref(count)), "scan")
    return (tokens, c_size_t(count[0] * 4)), count[0]


def run(reader, table, tokens, node, mode, by_2014):
    """The words of a run from token 0, interval 0 without end, flag clear, and its captures, four words each."""
    start = (c_uint16(node), c_uint32(0), c_uint32(0), c_uint32(0), c_bool(True), c_bool(False), c_uint16(mode))
    start += (c_bool(by_2014),)
    ran, words = (c_size_t * 8)(), TOKEN_WORDS
    while True:
        captures = (c_uint32 * words)()
        # saktroum_run does the same without the captures.
        answer = reader.saktroum_list(*table, *tokens, *start, captures, c_size_t(words), byref(ran))
        if answer != CAPTURE_ROOM or words >= MOST_CAPTURE_WORDS:
            break
        words *= 2
    passed(answer, "run")
    return ran, [captures[4 * i : 4 * i + 4] for i in range(ran[7])]


def outcome(report, tokens, count, ran):
    """The lines of a run: its outcome and, unless every token was read, where the farthest token is, or the end."""
    told = f"success, {ran[1]} of {count} tokens read" if ran[0] else "failure"
    if ran[0] and ran[1] == count:
        return told
    if ran[6] == count:
        return f"{told}\nfarthest end"
    column, offset = tokens[0][4 * ran[6] + 1 : 4 * ran[6] + 3]
    line = 1 + bytes(report[0]).count(b"\n", 0, offset)
    return f"{told}\nfarthest {line}:{1 + column}"


def shown_part(reader, file, report, tokens, capture):
    """Where the text shown for a capture lies: offset, length, and 1 if in the grammar file, 0 if in the report."""
    part = (c_size_t * 3)()
    passed(reader.saktroum_shown(*file, *report, *tokens, *map(c_uint32, capture), byref(part)), "shown")
    return part


def entries(reader, file, report, tokens, rules, captures):
    """What is shown of each capture."""
    text = bytes(report[0])
    for capture in captures:
        rule, first, _, around = capture
        offset, length, in_file = shown_part(reader, file, report, tokens, capture)
        if in_file:
            yield Entry(around, rules[rule])
        else:
            read, line = text[offset : offset + length], 1 + text.count(b"\n", 0, offset)
            places = (line, line + read[:-1].count(b"\n"), 1 + tokens[0][4 * first + 1])
            yield Entry(around, rules[rule], *places, read.decode("utf-8", "replace"))


def print_tree(listed):
    """A line for each entry."""
    for entry in listed:
        read = "-" if entry.line is None else f"{entry.line}:{entry.column} " + entry.text.split("\n")[0]
        print(f"{'  ' * entry.around}{entry.rule} {read}")


def print_json(listed):
    """A JSON line for each entry. Those around it stand before it, and the innermost of them is the last one."""
    within = []
    for number, entry in enumerate(listed):
        del within[entry.around :]
        fields = {"number": number, "rule": entry.rule, "first_line": entry.line, "last_line": entry.last_line}
        print(json.dumps({**fields, "text": entry.text, "around": within[-1] if within else None}))
        within.append(number)


def read_report(library, grammar, report, as_json, by_2014):
    reader = loaded(library)
    file, report = (given(pathlib.Path(path).read_bytes(), c_uint8) for path in (grammar, report))
    table, (_, rule_count, keyword_count, *start) = read_grammar(reader, file)
    rules = names(reader.saktroum_rule_name, file, rule_count)
    if not as_json:
        print("rules:", *rules)
        print("keywords:", *names(reader.saktroum_keyword, file, keyword_count))
    passed(reader.saktroum_check(*table), "check")
    tokens, count = scan(reader, file, report)
    ran, captures = run(reader, table, tokens, *start, by_2014)
    if as_json and not ran[0]:
        sys.exit(outcome(report, tokens, count, ran))
    if not as_json:
        print(outcome(report, tokens, count, ran))
    (print_json if as_json else print_tree)(entries(reader, file, report, tokens, rules, captures))


def main():
    arguments, options = sys.argv[1:4], sys.argv[4:]
    if len(arguments) != 3 or sorted(options) not in ([], ["--json"], ["--by-2014"], ["--by-2014", "--json"]):
        sys.exit("usage: read_report.py LIBRARY GRAMMAR REPORT [--json] [--by-2014]")
    # A reader of the output, like `head`, may stop before its end.
    signal.signal(signal.SIGPIPE, signal.SIG_DFL)
    # On a thread of its own: a run may need more stack than a program usually has. What ends the thread ends the program.
    threading.stack_size(STACK_BYTES)
    with concurrent.futures.ThreadPoolExecutor(1) as thread:
        thread.submit(read_report, *arguments, "--json" in options, "--by-2014" in options).result()


if __name__ == "__main__":
    main()

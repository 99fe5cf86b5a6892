#!/usr/bin/env python3
"""Builds and runs every block of docs/HANDBOOK.md, and keeps the cases that are proved the same as the blocks.

    python3 trials/handbook.py LIBRARY            compares; exit status 1 and a line for the first difference
    python3 trials/handbook.py LIBRARY --write    also writes crates/clauses/specs/HandbookCases.antt
    python3 trials/handbook.py --number           numbers the runs anew, where some were put in between

LIBRARY is the reader as a shared library (trials/library.py says how it is made). A block of the handbook is fenced:

    grammar    `# NAME.grammar`, then the grammar. It builds; or below it stands, behind `->`, each line that the builder says
    report     a report, and below it a line for each run: `(NUMBER) START -> ANSWER`, by the grammar above it
    sh         commands; what a call of tools/build.py or of the program writes stands on the next line, behind `# `

START is empty or parts with commas between them: `rule NAME`, `mode RELATION`, `from L to H`, `from L on`, `flag set`,
`by 2014` (the reading) and `entries`. A run by 2014 that is refused has the answer `refused 16`. Below a run with `entries`
stand its captures as the program `entries` prints them, a line for each, behind five blanks and two more for each capture
around it: `NAME LINE:COLUMN TEXT`, or `NAME -` for one that read no token. Below them, if the run failed or left tokens, stands
where the farthest place is, as that program prints it too: `farthest LINE:COLUMN`, or `farthest end`.
"""

import itertools
import pathlib
import re
import sys
from typing import NamedTuple, Optional

import handbook_cases
import library

ROOT = pathlib.Path(__file__).resolve().parent.parent
sys.path.insert(0, str(ROOT / "tools"))
import build  # noqa: E402

HANDBOOK = ROOT / "docs" / "HANDBOOK.md"
CASES = ROOT / "crates" / "clauses" / "specs" / "HandbookCases.antt"

CASE = re.compile(r"\((?P<number>\d+)\) (?:(?P<start>.+?) )?-> (?P<answer>.+)")
ENTRY = " " * 5  # before each line of a list
ANSWER = re.compile(r"failure \d+|refused 16|success \d+ \d+ (\d+|inf) (clear|set) \d+")
BUILDS = re.compile(r"python3 tools/build\.py (?P<grammar>[^-\s]\S*) (?P<file>\S+)")
READS = re.compile(r"\.\./crates/(?P<program>reader|entries)/out/(?P=program) < (?P<report>\S+)")
WRITES = re.compile(r"target/write_grammar (?P<lending>\S+) (?P<table>\S+) \S+")


class Wrong(Exception):
    """Something that is not as the handbook says, with its line there."""

    def __init__(self, line, text):
        super().__init__(f"docs/HANDBOOK.md:{line}: {text}")


class Block(NamedTuple):
    """A fenced block: its language, the line of its first line, its lines."""

    language: str
    line: int
    lines: list


class Grammar(NamedTuple):
    """A grammar that was built: its name, its table, its file (none if the reader refuses it) and the refusal."""

    name: str
    table: build.Grammar
    file: Optional[bytes]
    refusal: Optional[build.Fault]


class Case(NamedTuple):
    """A run: its number, how its start is written, the start, the answer that the handbook gives, and its captures."""

    line: int
    number: int
    written: str
    node: int
    mode: int
    lower: int
    upper: Optional[int]
    flag: bool
    by_2014: bool
    entries: bool
    answer: str
    captures: Optional[list] = None

    def usual(self):
        """Whether the program starts so."""
        return self.written in ("", "entries")


class Report(NamedTuple):
    """A report, its tokens by a grammar, and its runs."""

    grammar: Grammar
    text: str
    tokens: list
    cases: list


# Blocks


def blocks_of(text):
    """The fenced blocks of the handbook, and its other lines with their numbers."""
    blocks, prose, inside = [], [], None
    for number, line in enumerate(text.splitlines(), 1):
        if line.startswith("```") and inside is None:
            inside = Block(line[3:], number + 1, [])
        elif line.startswith("```"):
            blocks.append(inside)
            inside = None
        elif inside is not None:
            inside.lines.append(line)
        else:
            prose.append((number, line))
    if inside is not None:
        raise Wrong(inside.line - 1, "this block is not closed")
    return blocks, prose


def answered(block, begins):
    """The lines of a block above its answers, and the answers with their line numbers."""
    first = next((i for i, line in enumerate(block.lines) if begins(line)), len(block.lines))
    body = block.lines[:first]
    while body and not body[-1]:
        body.pop()
    return body, list(enumerate(block.lines[first:], block.line + first))


# Grammars


def read_grammar(reader, block):
    """Builds a grammar block, and asks that the builder says what stands there and that the reader takes the file."""
    body, messages = answered(block, lambda line: line.startswith("-> "))
    named = re.fullmatch(r"# (\w+)\.grammar", body[0] if body else "")
    if not named:
        raise Wrong(block.line, "the first line of a grammar is `# NAME.grammar`")
    text, said, table, faults = "\n".join(body) + "\n", [], None, ()
    try:
        table = build.grammar_of(text)
        faults = build.refusals(table)
    except build.Faults as wrong:
        faults = wrong.faults
    said = [f"-> {fault.line(named[1] + '.grammar')}" for fault in faults]
    if said != [line for _, line in messages]:
        raise Wrong(messages[0][0] if messages else block.line, "the builder says:\n" + "\n".join(said or ["nothing"]))
    if faults:
        return Grammar(named[1], table, None, faults[0] if table else None)
    grammar = Grammar(named[1], table, build.file_of(table), None)
    read = reader.read(grammar.file)
    if read != (table.nodes, list(table.rules.values()), table.start, table.mode):
        raise Wrong(block.line, "the reader finds another table in the grammar file")
    reader.check(*read[:2])
    return grammar


# Lists


def place_of(report, token):
    """The line and the column of a token, both from 1."""
    _, column, offset, _ = token
    line = report.count(b"\n", 0, offset) + 1
    return f"{line}:{column + 1}"


def entry_line(reader, file, report, tokens, capture):
    """The line of a capture, as the program `entries` prints it."""
    rule, first, after, around = capture
    text = reader.shown(file, report, tokens, capture).decode()
    if first == after:
        return f"{'  ' * around}{text} -"
    first_line = text.split("\n")[0]
    return f"{'  ' * around}{reader.rule_name(file, rule).decode()} {place_of(report, tokens[first])} {first_line}"


def entry_lines(reader, file, report, tokens, captures):
    return [entry_line(reader, file, report, tokens, capture) for capture in captures]


def farthest_lines(report, tokens, answer):
    """The line that says where the farthest place of an answer is; none after a refusal, or where every token was read."""
    kind, *words = answer.split()
    if kind == "refused" or kind == "success" and int(words[0]) == len(tokens):
        return []
    place = int(words[-1])
    return [f"farthest {place_of(report, tokens[place]) if place < len(tokens) else 'end'}"]


def check_entries(case, written, listed):
    """The lines below a run are those of its captures and of its farthest place. A run without `entries` has none."""
    if written and not case.entries:
        raise Wrong(case.line + 1, "entries stand below a run with the part `entries`")
    listed = [ENTRY + line for line in listed]
    for number, (stands, lists) in enumerate(itertools.zip_longest(written, listed), case.line + 1):
        if stands != lists:
            raise Wrong(number, "the reader lists:\n" + "\n".join(listed or ["nothing"]))


# Reports


def read_case(grammar, number, line):
    """A line below a report: number, start and answer."""
    found = CASE.fullmatch(line)
    if not found or not ANSWER.fullmatch(found["answer"]):
        raise Wrong(number, "a run is written `(NUMBER) START -> success N L H clear F` or `.. -> failure F`")
    table = grammar.table
    start = {"node": table.start, "mode": table.mode, "lower": 0, "upper": None, "flag": False}
    start |= {"by_2014": False, "entries": False}
    for part in (found["start"] or "").split(", ") if found["start"] else []:
        start.update(start_part(table, number, part))
    return Case(number, int(found["number"]), found["start"] or "", answer=found["answer"], **start)


def start_part(table, number, part):
    """What a part of a start sets."""
    words = part.split()
    if words[0] == "rule" and words[1:] and words[1] in table.rules:
        return {"node": table.rules[words[1]]}
    if words[0] == "mode" and words[1:] and words[1] in build.RELATIONS:
        return {"mode": build.RELATIONS.index(words[1])}
    if re.fullmatch(r"from \d+ (to \d+|on)", part):
        return {"lower": int(words[1]), "upper": None if words[2] == "on" else int(words[3])}
    if part == "flag set":
        return {"flag": True}
    if part == "by 2014":
        return {"by_2014": True}
    if part == "entries":
        return {"entries": True}
    raise Wrong(number, f"no such start: {part}")


def read_report(reader, grammar, block):
    """Runs the cases of a report block, and asks for the answers and the lists that stand there."""
    if grammar is None or grammar.file is None:
        raise Wrong(block.line, "no grammar that builds stands above this report")
    body, lines = answered(block, CASE.match)
    if not lines:
        raise Wrong(block.line, "no run stands below this report")
    text = "".join(f"{line}\n" for line in body)
    report = Report(grammar, text, reader.scan(grammar.file, text.encode()), [])
    while lines:
        case = read_case(grammar, *lines.pop(0))
        written = []
        while lines and lines[0][1].startswith(ENTRY):
            written.append(lines.pop(0)[1])
        report.cases.append(run_case(reader, report, case, written))
    return report


def run_case(reader, report, case, written):
    """A run with its captures, whose answer and list are as written."""
    file, text, table = report.grammar.file, report.text.encode(), report.grammar.table
    run = (table.nodes, list(table.rules.values()), report.tokens)
    run += (case.node, case.mode, case.lower, case.upper, case.flag)
    answer, with_memory, with_list, captures = answers_of(reader, run, case.by_2014)
    if case.usual() and reader.line(file, text) != answer:
        raise Wrong(case.line, "the program's line is not the answer of the run")
    if answer != case.answer:
        raise Wrong(case.line, f"the reader answers: {answer}")
    if with_memory != answer:
        raise Wrong(case.line, f"the run that remembers answers: {with_memory}")
    if with_list != answer:
        raise Wrong(case.line, f"the run that lists answers: {with_list}")
    listed = []
    if case.entries:
        listed = entry_lines(reader, file, text, report.tokens, captures) + farthest_lines(text, report.tokens, answer)
    check_entries(case, written, listed)
    return case._replace(captures=captures if case.entries else None)


def answers_of(reader, run, by_2014):
    """The answers of a run, of one that remembers and of one that lists, and its captures. A refusal is an answer too."""
    answers = []
    for call in (reader.run, reader.remember):
        try:
            answers.append(call(*run, by_2014=by_2014))
        except library.Refused as refused:
            answers.append(str(refused))
    try:
        return *answers, *reader.list(*run, by_2014=by_2014)
    except library.Refused as refused:
        return *answers, str(refused), []


# Commands


def read_commands(reader, block):
    """What the builder, the writer and the programs write stands below each call of them."""
    for number, line in enumerate(block.lines, block.line):
        builds, writes, reads = (pattern.fullmatch(line) for pattern in (BUILDS, WRITES, READS))
        if builds:
            grammar, file = build.built((ROOT / builds["grammar"]).read_text(encoding="utf-8"))
            says = [f"{builds['file']}: {grammar.summary()}"]
            if (ROOT / builds["file"]).read_bytes() != file:
                raise Wrong(number, f"{builds['file']} is not what {builds['grammar']} builds")
        elif writes:
            says = [written(reader, ROOT / writes["lending"], ROOT / writes["table"])]
        elif reads:
            says = printed(reader, reads["program"], ROOT / "examples" / reads["report"])
        else:
            continue
        below = itertools.takewhile(lambda under: under.startswith("# "), block.lines[number + 1 - block.line :])
        if list(below) != [f"# {said}" for said in says]:
            raise Wrong(number, "this writes: " + "\n".join(says))


def written(reader, lending, table):
    """The line that examples/write_grammar.c prints for a table in numbers, which is read back as it was written."""
    lines = [line.split("#")[0].split() for line in table.read_text(encoding="utf-8").splitlines()]
    rows = {word: [tuple(map(int, line[1:])) for line in lines if line[:1] == [word]] for word in ("node", "rule", "start")}
    nodes, rules, start = rows["node"], [rule for rule, in rows["rule"]], rows["start"][0]
    file = reader.write(lending.read_bytes(), nodes, rules, *start)
    if reader.read(file) != (nodes, rules, *start):
        raise Wrong(1, f"{table.name} is not read back as it was written")
    return f"{len(nodes)} nodes, {len(rules)} rules, {len(file)} bytes"


def printed(reader, program, path):
    """The lines that a program prints on a report of the examples."""
    file, report = (ROOT / "examples" / "grammar.bin").read_bytes(), path.read_bytes()
    says = reader.line(file, report)
    if program == "reader" or says.startswith("refused"):
        return [says]
    nodes, rules, *start = reader.read(file)
    tokens = reader.scan(file, report)
    _, captures = reader.list(nodes, rules, tokens, *start)
    return [*entry_lines(reader, file, report, tokens, captures), says, *farthest_lines(report, tokens, says)]


# The whole


def read_handbook(reader, text):
    """The grammars and reports of the handbook, all built and run."""
    blocks, prose = blocks_of(text)
    grammars, reports = [], []
    for block in blocks:
        if block.language == "grammar":
            grammars.append(read_grammar(reader, block))
            if grammars[-1].name in [grammar.name for grammar in grammars[:-1]]:
                raise Wrong(block.line, "a grammar above has this name")
        elif block.language == "report":
            reports.append(read_report(reader, grammars[-1] if grammars else None, block))
        elif block.language == "sh":
            read_commands(reader, block)
        else:
            raise Wrong(block.line - 1, "a block is a grammar, a report or sh")
    check_numbers([case for report in reports for case in report.cases], prose)
    return grammars, reports


def check_numbers(cases, prose):
    """The cases count from 1, a number in brackets is that of a case, and no other block is among the prose."""
    for expected, case in enumerate(cases, 1):
        if case.number != expected:
            raise Wrong(case.line, f"this is run {expected}")
    for number, line in prose:
        if line.startswith(("    ", "\t")):
            raise Wrong(number, "a block is fenced, not indented")
        for named in re.findall(r"\((\d+)\)", line):
            if not 1 <= int(named) <= len(cases):
                raise Wrong(number, f"there is no run {named}")


def numbered(text):
    """The handbook with its runs numbered in order. A run that is new has any number that no other has."""
    numbers = [found["number"] for found in map(CASE.fullmatch, text.splitlines()) if found]
    if len(set(numbers)) < len(numbers):
        raise Wrong(1, "two runs have one number")
    new = {old: str(number) for number, old in enumerate(numbers, 1)}
    return re.sub(r"\((\d+)\)", lambda found: f"({new.get(found[1], found[1])})", text)


def main():
    if sys.argv[1:] == ["--number"]:
        HANDBOOK.write_text(numbered(HANDBOOK.read_text(encoding="utf-8")), encoding="utf-8")
        return
    if len(sys.argv) not in (2, 3) or sys.argv[2:] not in ([], ["--write"]):
        sys.exit("usage: handbook.py LIBRARY [--write] | --number")
    try:
        grammars, reports = read_handbook(library.Reader(sys.argv[1]), HANDBOOK.read_text(encoding="utf-8"))
    except Wrong as wrong:
        sys.exit(str(wrong))
    written = handbook_cases.file_of(grammars, reports)
    if sys.argv[2:]:
        CASES.write_text(written, encoding="utf-8")
    if CASES.read_text(encoding="utf-8") != written:
        sys.exit(f"{CASES.relative_to(ROOT)}: not what the handbook's blocks make; --write writes it")
    runs = [case for report in reports for case in report.cases]
    lists = sum(case.entries for case in runs)
    counts = f"{len(grammars)} grammars, {len(reports)} reports, {len(runs)} runs, {lists} with entries"
    print(f"docs/HANDBOOK.md: {counts}, all as written")


if __name__ == "__main__":
    main()

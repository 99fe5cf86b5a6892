"""The file of cases that trials/handbook.py makes of the handbook's blocks, in the layout of `rt fmt`."""

import pathlib
import re
import sys

ROOT = pathlib.Path(__file__).resolve().parent.parent
sys.path.insert(0, str(ROOT / "tools"))
import build  # noqa: E402

WIDEST = 120  # in bytes

HEAD = """\
-- The blocks of docs/HANDBOOK.md as cases: each run of a report by a grammar, then a check of each grammar, and the runs whose
-- entries the handbook has once more, with their captures. This file is made from the handbook by trials/handbook.py: nodes as
-- tools/build.py numbers them, tokens as the scanner gives them, the answers as the handbook has them, where they follow from
-- 01, "Columns and states", 02, notes 1, 2, 5 and 7, 001, section 2.1, and 000, figure 6, by hand; the words of captures as the
-- reader lists them, for the entries that the handbook has. `HandbookHold`, in proofs, computes them all.
use Rattle.std.specs.Prelude.{ℕ, Bool, true, false, List, [], ◌∷◌, ◌++◌}
use Rattle.table.specs.Answer.{given, refused, refused_at}
use Rattle.table.specs.Form.{Form, empty, terminal, rule, sequence, choice, not, repeat, indent, position, align}
use Rattle.columns.specs.Relations.{equal, greater, at_least, any, step}
use Rattle.columns.specs.Intervals.{to}
use Rattle.columns.specs.declared.Upper.TheVariants.{At, Endless}
use Rattle.columns.specs.declared.Interval.{Interval}
use Rattle.columns.specs.declared.Start.{Start}
use Rattle.clauses.specs.Cases.{TokenAt, ◌at◌, reads, fails, Case, run, run_by2014, check, from}
use Rattle.clauses.specs.CaptureCases.{CaptureCase, lists, lists_by2014, counting, nines, capture}

-- A start at the first token: node, mode, interval, flag.
abbrev pub within : ℕ → ℕ → Interval → Bool → Start
within node mode interval flag = record { node = node; place = 0; interval = interval; flag = flag; mode = mode }

-- Terminals: 0 a number, 1 another word, 2 a line end, 3 + k keyword k of the grammar. A report's tokens stand below its
-- lines, a grammar's nodes below the rule that first has them.
"""

NAMED = ("equal", "greater", "at_least", "any")


def wrapped(items, first, sign="∷"):
    """Items with a sign between them, in lines that are not too wide; the first begins the list or goes on with it."""
    lines, line = [], ""
    for item in items:
        part = item if not line and first and not lines else f"{sign} {item}"
        if line and len(f"{line} {part}".encode()) > WIDEST - 4:
            lines.append(line)
            line = part
        else:
            line = f"{line} {part}" if line else part
    return [*lines, line] if line else lines


def listed(name, kind, groups):
    """A definition of a list: groups of items, each below its comment."""
    lines = []
    for comment, items in groups:
        lines.append(f"-- {comment}")
        lines += wrapped(items, first=not any(not line.startswith("--") for line in lines))
    body = "\n".join(f"    {line}" for line in [*lines, "∷ []"])
    return f"abbrev pub {name} : List {kind}\n{name} =\n{body}\n"


def relation(number):
    """A relation by its name, or as a step of its amount."""
    return NAMED[number] if number < len(NAMED) else f"(step {number - build.ANY})"


def form(words):
    """A node as a form."""
    kind, a, b, number = words
    name = build.KINDS[kind]
    if kind == build.EMPTY:
        return name
    if kind in (build.SEQUENCE, build.CHOICE):
        return f"{name} {a} {b}"
    return f"{name} {a} {relation(number)}" if kind in (build.INDENT, build.POSITION) else f"{name} {a}"


def rule_texts(table):
    """Each rule as it is written, on one line."""
    return {rule.name: f"{rule.name} = {build.text_of(rule.expression)}" for rule in table.source.rules}


def grammar_part(grammar):
    """The definitions of a grammar: its nodes and its rules."""
    table, texts = grammar.table, rule_texts(grammar.table)
    keywords = ", ".join(f"{number} {spelling}" for number, spelling in enumerate(table.keywords, build.FIRST_KEYWORD))
    groups = [
        (texts[name], [form(words) for words, origin in zip(table.nodes, table.origins) if origin.rule == name])
        for name in table.rules
    ]
    numbers = " ∷ ".join(str(node) for node in table.rules.values())
    nodes = listed(f"{grammar.name}_nodes", "Form", groups)
    rules = f"abbrev pub {grammar.name}_rules : List ℕ\n{grammar.name}_rules = {numbers} ∷ []\n"
    return f"-- {grammar.name}.grammar. Keywords: {keywords or 'none'}.\n{nodes}\n{rules}"


def report_part(name, report):
    """The definition of a report's tokens, a line for each line."""
    groups, offset = [], 0
    for line in report.text.encode().splitlines(keepends=True):
        items = [f"{t} at {column}" for t, column, at, _ in report.tokens if offset <= at < offset + len(line)]
        groups.append((f"|{line.decode().rstrip()}|", items))
        offset += len(line)
    return listed(name, "TokenAt", groups)


def answer(text):
    """An answer of the handbook."""
    kind, *words = text.split()
    if kind == "refused":
        return f"({text})"
    if kind == "failure":
        return f"(fails {words[0]})"
    read, lower, upper, flag, farthest = words
    end = "Endless" if upper == "inf" else f"(At {upper})"
    return f"(reads {read} {lower} {end} {'true' if flag == 'set' else 'false'} {farthest})"


def start(case):
    """The start of a run."""
    if (case.lower, case.upper, case.flag) == (0, None, False):
        return f"(from {case.node} {relation(case.mode)})"
    upper = "Endless" if case.upper is None else f"(At {case.upper})"
    return f"(within {case.node} {relation(case.mode)} (to {case.lower} {upper}) {'true' if case.flag else 'false'})"


def call(report, case, names):
    """The arguments of a run: grammar, tokens and start."""
    name = report.grammar.name
    return f"{name}_nodes {name}_rules {names[tokens_of(report)]} {start(case)}"


def titled(report, case):
    """A comment with the number of a run and how it is written."""
    written, text = f", {case.written}," if case.written else "", "|".join(report.text.splitlines())
    return f"-- {case.number}. {report.grammar.name}.grammar{written} on |{text}|"


def case_list(name, kind, lines):
    """A list of cases; each begins with ∷, which the first does not need."""
    first = next((i for i, line in enumerate(lines) if line.startswith("∷ ")), None)
    lines = [line[2:] if i == first else line for i, line in enumerate(lines)]
    body = "\n".join(f"    {line}" for line in [*lines, "[]" if first is None else "∷ []"])
    return f"unfoldable pub {name} : List {kind}\n{name} =\n{body}\n"


def cases_part(grammars, reports, names):
    """The list of all cases: runs, then checks."""
    lines = []
    for report in reports:
        for case in report.cases:
            lines.append(titled(report, case))
            kind = "run_by2014" if case.by_2014 else "run"
            lines.append(f"∷ {kind} {call(report, case, names)} {answer(case.answer)}")
    lines.append("-- Each grammar: it passes the check, or the builder tells that it does not.")
    for grammar in grammars:
        refusal = grammar.refusal
        verdict = f"(refused_at 7 {refusal.node})" if refusal else "(given tt)"
        lines.append(f"∷ check {grammar.name}_nodes {grammar.name}_rules {verdict}")
    return case_list("handbook_cases", "Case", lines)


def capture_words(captures):
    """The words of captures one behind the other, in lines."""
    lines = wrapped([f"capture {' '.join(map(str, capture))}" for capture in captures], True, "++")
    if not lines:
        return ["[]"]
    return ("(" + "\n".join(lines) + ")").split("\n")


def lists_part(reports, names):
    """The list of runs with their captures, each into as many words as they take."""
    lines = []
    for report in reports:
        for case in report.cases:
            if case.captures is None:
                continue
            count = len(case.captures)
            lines.append(titled(report, case))
            kind, expected = "lists_by2014" if case.by_2014 else "lists", f"(counting {count} {answer(case.answer)})"
            lines.append(f"∷ {kind} {call(report, case, names)} (nines {4 * count}) {expected}")
            lines += capture_words(case.captures)
    return case_list("handbook_lists", "CaptureCase", lines)


def tokens_of(report):
    """What the clauses read of a report: terminals and columns."""
    return tuple(token[:2] for token in report.tokens)


def with_names_used(text):
    """The text with its `use` lines cut to the names that stand below them."""
    below = "\n".join(line for line in text.split("\n") if not line.lstrip().startswith(("use ", "--")))

    def cut(match):
        names = [name for name in match.group(2).split(", ") if "◌" in name or re.search(rf"(?<![\w.]){re.escape(name)}(?!\w)", below)]
        return f"{match.group(1)}{{{', '.join(names)}}}"

    return re.sub(r"(?m)^(use \S+\.)\{([^}]*)\}", cut, text)


def file_of(grammars, reports):
    """The whole file. A grammar that is no table has no part in it, nor has one refused by another number than 7."""
    tables = [grammar for grammar in grammars if grammar.table and (not grammar.refusal or grammar.refusal.number == 7)]
    names, parts = {}, []
    for grammar in tables:
        parts.append(grammar_part(grammar))
        for report in (report for report in reports if report.grammar is grammar):
            if tokens_of(report) not in names:
                names[tokens_of(report)] = f"report{len(names) + 1}"
                parts.append(report_part(names[tokens_of(report)], report))
    return with_names_used("\n".join([HEAD, *parts, cases_part(tables, reports, names), lists_part(reports, names)]))

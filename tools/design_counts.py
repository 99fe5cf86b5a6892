#!/usr/bin/env python3
"""Counts places of an older form in the sources, for docs/DESIGN-PASS.md.

    python3 tools/design_counts.py [COMMIT] [--list]

Without COMMIT the files as they stand; --list prints each place. A place is a line (or a function's head) that fits one of the
patterns below; the page tells what is not a place though it fits.
"""
import re
import subprocess
import sys
from pathlib import Path


def sources(commit):
    """The source files, comments cut off: path and lines."""
    if commit is None:
        names = sorted(str(path) for path in Path("crates").glob("*/src/*.rt"))
        texts = [(name, Path(name).read_text()) for name in names]
    else:
        names = subprocess.run(["git", "ls-tree", "-r", "--name-only", commit, "crates"], check=True, text=True, capture_output=True).stdout.split()
        names = sorted(name for name in names if re.fullmatch(r"crates/[^/]+/src/[^/]+\.rt", name))
        texts = [(name, subprocess.run(["git", "show", f"{commit}:{name}"], check=True, text=True, capture_output=True).stdout) for name in names]
    return [(name, [re.sub(r"\s*//.*", "", line) for line in text.split("\n")]) for name, text in texts]


def heads(lines):
    """The heads of functions: line number, name and the text up to the parameters' end."""
    text = "\n".join(lines)
    for found in re.finditer(r"\bfn (\w+)(<[^(]*>)?\(([^)]*)\)", text):
        yield text.count("\n", 0, found.start()) + 1, found[1], re.sub(r"\s+", " ", found[3])


def fitting(pattern):
    return lambda path, lines: [(n, line.strip()) for n, line in enumerate(lines, 1) if re.search(pattern, line)]


def constants(modules):
    """A constant of one of these modules, where it is declared and where it is used."""

    def places(path, lines):
        pattern = r"^pub const \w+: u\d+ =" if re.search(rf"/({modules})\.rt$", path) else rf"\b({modules})::[A-Z]"
        return fitting(pattern)(path, lines)

    return places


def with_parameters(*names):
    def places(path, lines):
        return [(n, name) for n, name, parameters in heads(lines) if all(re.search(rf"\b{one}:", parameters) for one in names)]

    return places


def named(pattern):
    return lambda path, lines: [(n, name) for n, name, _ in heads(lines) if re.fullmatch(pattern, name)]


POINTS = [
    (1, "a case of an own enum for a refusal or for nothing", fitting(r"^    (Refused\(u8\)|IllFormed\(u16\)|Nothing|Passes),")),
    (1, "a number for a refusal: its constant or a use", constants("refusals")),
    (1, "a number for a kind of node", constants("kinds")),
    (1, "a number for a relation, a terminal or a tag", constants("relations|terminals|tags")),
    (1, "a flag for a reading, or with a value beside it", fitting(r"\b(by_2014|any|right|over): bool\b")),
    (2, "functions by the width of a word, or by the room they make", named(r"\w+_(8|16|32)|room_for_\w+")),
    (2, "functions that report an answer word for word alike", named(r"report_\w+|read_grammar|read_word\w*")),
    (3, "a loop that counts by hand", fitting(r"^\s+\w+ [+-]= 1;")),
    (3, "a while or a loop", fitting(r"^\s+(while\b|loop \{)")),
    (4, "min, max or a difference that stops at 0 by hand", fitting(r"if (\w+(?:\.\w+\(\))?) <=? (\w+(?:\.\w+\(\))?) \{ (\1|\2|0) \} else|if \w+ < \w+ \{ 0 \} else \{ \w+ - \w+ \}")),
    (4, "a truth value by a match or an if", fitting(r"=> (true|false),|\{ (true|false) \} else|else \{ (true|false) \}")),
    (4, "bytes of a number by hand", fitting(r"\* 256|/ 256|% 256|65536 \+|16777216 \+")),
    (4, "an element or 0, by an if", fitting(r"if (\w+) < \w+\.len\(\) \{ .*\w+\[\1\].* \} else")),
    (5, "node words and rules as two parameters", with_parameters("nodes", "rules")),
    (5, "a fact of a struct in the requires of several functions", fitting(r"^\s+requires.*\{ (Parts|Lends|Indexed|Room|Remembering|Admitted|FactsReady|WellReady) ")),
    (5, "an offset, a column and a mark as three parameters", with_parameters("at|first", "column|start", "mark")),
    (6, "an array with a length, or arrays side by side", fitting(r"let (mut )?\w+ = \[\w+; [\w:]+\];")),
    (7, "a letter or a number that says which call to make", fitting(r"^\s+(b'.'|\d+) => \w+\(")),
]


def main():
    commit = next((word for word in sys.argv[1:] if not word.startswith("--")), None)
    files = sources(commit)
    for point, what, places in POINTS:
        found = [(name, n, text) for name, lines in files for n, text in places(name, lines)]
        print(f"{point}  {len(found):4}  {what}")
        if "--list" in sys.argv:
            for name, n, text in found:
                print(f"        {name}:{n}: {text}")


main()

#!/usr/bin/env python3
"""Tries the first page of README.md: its report and its rules are those of examples/, the builder builds the grammar file
that stands there, and the program `entries` prints what the page says of both reports, last what `reader` does.

    python3 trials/check_readme.py crates/reader/out/reader crates/entries/out/entries
"""

import pathlib
import re
import subprocess
import sys
import tempfile

ROOT = pathlib.Path(__file__).resolve().parent.parent
EXAMPLES = ROOT / "examples"
# What is run here, with the program that is there already.
COMMAND = """\
(cd crates/entries && rt run < /dev/null > /dev/null) && (cd examples && ../crates/entries/out/entries < report.txt)
"""


def blocks(text):
    """The blocks of a page: lines behind four blanks."""
    found = re.findall(r"(?:^    .*\n)+", text, re.MULTILINE)
    return [re.sub(r"^    ", "", block, flags=re.MULTILINE) for block in found]


def rules(grammar):
    """The rules of a grammar in words, each on one line with single blanks."""
    lines = [line for line in grammar.splitlines() if not line.startswith("#")]
    found = re.findall(r"^\w+ *=.*(?:\n +\S.*)*", "\n".join(lines), re.MULTILINE)
    return [" ".join(rule.split()) for rule in found]


def printed(program, report):
    """What a program prints of a report, where the examples stand."""
    with open(EXAMPLES / report, "rb") as text:
        return subprocess.run([program], cwd=EXAMPLES, stdin=text, stdout=subprocess.PIPE, check=True).stdout.decode()


def built():
    """The grammar file that the builder builds from the example."""
    with tempfile.TemporaryDirectory() as name:
        file = pathlib.Path(name) / "grammar.bin"
        build = [sys.executable, ROOT / "tools/build.py", EXAMPLES / "splices.grammar", file]
        subprocess.run(build, check=True, stdout=subprocess.DEVNULL)
        return file.read_bytes()


def main():
    if len(sys.argv) != 3:
        sys.exit("usage: check_readme.py READER ENTRIES")
    reader, entries = (pathlib.Path(program).resolve() for program in sys.argv[1:])
    text = (ROOT / "README.md").read_text(encoding="utf-8")
    report, grammar, command, answer = blocks(text)[:4]
    told = re.search(r"With `misplaced\.txt`.*?it prints `(failure \d+)`.*?`entries` prints .*?`(farthest [^`]+)`", text)
    failed, farthest = told.groups() if told else ("", "")
    compared = {
        "its report": (report, (EXAMPLES / "report.txt").read_text(encoding="utf-8")),
        "the lines of its rules": (len(grammar.splitlines()), len(rules(grammar))),
        "its rules": (rules(grammar), rules((EXAMPLES / "splices.grammar").read_text(encoding="utf-8"))),
        "its command": (command, COMMAND),
        "examples/grammar.bin": ((EXAMPLES / "grammar.bin").read_bytes(), built()),
        "what entries prints of report.txt": (answer, printed(entries, "report.txt")),
        "its last line": (answer.splitlines()[-1] + "\n", printed(reader, "report.txt")),
        "what entries prints of misplaced.txt": (f"{failed}\n{farthest}\n", printed(entries, "misplaced.txt")),
        "what reader prints of misplaced.txt": (f"{failed}\n", printed(reader, "misplaced.txt")),
    }
    for name, (written, found) in compared.items():
        if written != found:
            sys.exit(f"README.md: {name} differs:\n{written!r}\n{found!r}")
    print(f"README.md: {len(rules(grammar))} rules, {len(answer.splitlines()) - 1} entries, as written")


if __name__ == "__main__":
    main()

#!/usr/bin/env python3
"""Asks that what docs/CORRESPONDENCE.md, docs/TRUST.md and the other pages name in `crates/` is there.

    python3 trials/check_pages.py             exit status 1, and a line for each name that is not there
    python3 trials/check_pages.py --counts    also writes the counts of lines in docs/TRUST.md anew

Looked at are the pages' words between backticks: a path; `crate: File.name`, where a file of `specs/` or `proofs/` has that name;
`File.name` of any crate; `crate/edit`, a must-fail edit; and each other name, which must stand somewhere in the repository. The
table of must-fail edits has all that there are, and docs/TRUST.md has each file of definitions, with as many lines as it has.
"""

import pathlib
import re
import sys

ROOT = pathlib.Path(__file__).resolve().parent.parent
TRUST, CORRESPONDENCE = ROOT / "docs" / "TRUST.md", ROOT / "docs" / "CORRESPONDENCE.md"
PAGES = [CORRESPONDENCE, TRUST, ROOT / "docs" / "HANDBOOK.md", ROOT / "docs" / "FORMAT.md", ROOT / "docs" / "DECISIONS.md", ROOT / "README.md"]
NAME = re.compile(r"[^\W\d][\w']*")
PLACE = re.compile(r"(\w+): ([A-Z]\w*)((?:\.[^\W\d][\w']*)*)")
IN_FILE = re.compile(r"([A-Z]\w*)\.([^\W\d][\w']*)")
EDIT = re.compile(r"(\w+)/(\w+)")
PATH = re.compile(r"(?:crates|docs|tools|trials|cases|examples|include)/[\w./-]+")
# Words of commands, and names that stand for any other.
ELSEWHERE = {"NAME", "SEED", "RUNS", "FILES", "cargo", "release", "ulimit", "wc", "trusted", "incremental", "anew"}
ROW = re.compile(r"^\| `(\w+): (\w+)` \| (\d+) \|", re.M)
COUNT = re.compile(r"`(\w+): (\w+)` \((\d+)\)")
SUM = re.compile(r"^(\d+) files, ([\d,]+) lines", re.M)


class Repository:
    """The names that the repository has."""

    def __init__(self):
        crates = sorted(path for path in (ROOT / "crates").iterdir() if path.is_dir())
        self.crates = {crate.name: crate for crate in crates}
        self.files, self.edits, self.names = {}, {}, set(ELSEWHERE)
        for crate in crates:
            self.edits[crate.name] = {path.stem for path in (crate / "must-fail").glob("*.edit")}
            self.names |= self.edits[crate.name] | {crate.name}
            for part in ("src", "specs", "proofs"):
                for path in sorted((crate / part).rglob("*")):
                    self.names |= {path.name, path.stem}
                    if path.suffix in (".rt", ".antt"):
                        self.add(crate.name, path)
        for folder in ("include", "examples", "trials", "tools", "cases", "docs"):
            for path in (ROOT / folder).rglob("*"):
                self.names |= {path.name, path.stem}
                if path.suffix in (".py", ".c", ".h", ".rs", ".grammar"):
                    self.names |= set(NAME.findall(path.read_text(encoding="utf-8")))

    def add(self, crate, path):
        names = set(NAME.findall(path.read_text(encoding="utf-8")))
        self.names |= names
        if path.suffix == ".antt" and path.parent.name in ("specs", "proofs"):
            self.files.setdefault(path.stem, {}).setdefault(crate, set()).update(names)

    def lacks(self, said):
        """What is not there of the words between two backticks, or None."""
        place, in_file, edit = PLACE.fullmatch(said), IN_FILE.fullmatch(said), EDIT.fullmatch(said)
        if PATH.fullmatch(said):
            return None if "NAME" in said or "/out/" in said or (ROOT / said).exists() else "no such file"
        if place and place[1] in self.crates:
            names = self.files.get(place[2], {}).get(place[1])
            if names is None:
                return f"{place[1]} has no such file"
            return next((f"the file has no {name}" for name in place[3].split(".")[1:] if name not in names), None)
        if in_file and in_file[1] in self.files and in_file[2] != "antt":
            return None if any(in_file[2] in names for names in self.files[in_file[1]].values()) else "no such file has that name"
        if edit and edit[1] in self.crates:
            return None if edit[2] in self.edits[edit[1]] or (ROOT / "crates" / said).exists() else "no such edit"
        whole = len(said) > 1 and NAME.fullmatch(said)
        names = [name for name in NAME.findall(said) if not name.endswith("_") and (whole or "_" in name)]
        missing = [name for name in names if name not in self.names]
        return f"there is no {missing[0]}" if missing else None

    def lines(self, crate, file):
        """How many lines a file of definitions has."""
        path = ROOT / "crates" / crate / "specs" / f"{file}.antt"
        return path.read_text(encoding="utf-8").count("\n") if path.exists() else 0


def told(repository):
    """What is not there, page by page."""
    for page in PAGES:
        inside = False
        for number, line in enumerate(page.read_text(encoding="utf-8").splitlines(), 1):
            inside ^= line.startswith("```")
            for said in re.findall(r"`([^`]+)`", "" if inside else line):
                why = repository.lacks(said)
                if why:
                    yield f"{page.relative_to(ROOT)}:{number}: `{said}`: {why}"


def edits_left(repository):
    """The edits that the table of must-fail edits lacks."""
    table = CORRESPONDENCE.read_text(encoding="utf-8").partition("\n## Must-fail edits\n")[2]
    listed = set()
    for row in re.findall(r"^\| (`[^|]*) \|", table, re.M):
        crate = None
        for said in re.findall(r"`([^`]+)`", row):
            crate, edit = said.split("/") if "/" in said else (crate, said)
            listed.add((crate, edit))
    there = {(crate, edit) for crate, edits in repository.edits.items() for edit in edits}
    for crate, edit in sorted(there - listed):
        yield f"docs/CORRESPONDENCE.md: the table of must-fail edits lacks {crate}/{edit}"
    for crate, edit in sorted(listed - there):
        yield f"docs/CORRESPONDENCE.md: the table of must-fail edits has {crate}/{edit}, which is not there"


def definitions_left(text):
    """The files of definitions that docs/TRUST.md lacks."""
    listed = {found[:2] for found in ROW.findall(text) + COUNT.findall(text)}
    for path in sorted((ROOT / "crates").glob("*/specs/*.antt")):
        crate, file = path.parent.parent.name, path.stem
        if file != "Lib" and (crate, file) not in listed and f"`{crate}: {file}`" not in text:
            yield f"docs/TRUST.md: no word of `{crate}: {file}`"


def counted(repository, text):
    """The text of docs/TRUST.md with the counts that are right."""
    text = ROW.sub(lambda row: f"| `{row[1]}: {row[2]}` | {repository.lines(row[1], row[2])} |", text)
    text = COUNT.sub(lambda one: f"`{one[1]}: {one[2]}` ({repository.lines(one[1], one[2])})", text)
    rows = [int(row[3]) for row in ROW.finditer(text)]
    return SUM.sub(f"{len(rows)} files, {sum(rows):,} lines", text)


def main():
    if sys.argv[1:] not in ([], ["--counts"]):
        sys.exit(__doc__)
    repository, text = Repository(), TRUST.read_text(encoding="utf-8")
    right = counted(repository, text)
    if sys.argv[1:]:
        TRUST.write_text(right, encoding="utf-8")
        text = right
    wrong = [*told(repository), *edits_left(repository), *definitions_left(text)]
    if text != right:
        wrong.append("docs/TRUST.md: a count of lines is another; --counts writes it")
    if wrong:
        sys.exit("\n".join(wrong))
    print(f"{len(PAGES)} pages name what is there; {sum(map(len, repository.edits.values()))} edits are listed")


if __name__ == "__main__":
    main()

#!/usr/bin/env python3
"""Brings the names of this repository's own definitions, constructors, fields and lemmas to today's spelling.

usage: python3 tools/respell.py [--list]      at the top of the repository, once, after the toolchain's port.py

A name that an .antt file of crates/ declares, or a variable that it binds, is turned from `runAnswer` or `run-answer` to
`run_answer`: in .antt files, in the clauses and `ghost use` lines of .rt files, in must-fail edits, and in comments where it
stands there. Names of types and modules keep their capitals. Names that a file imports from a library of the toolchain, names
that the toolchain makes (`Need-..`, `tie.`, `goal.`), text between quotes and names of Rust code stay. A lemma whose name
would be that of a definition gets `_lem` behind it. --list prints each name with its new form and changes nothing.
"""
import os
import re
import sys

WORD = re.compile(r"[A-Za-zα-ωΑ-ΩκℓμΣλ_][\w'₀-₉-]*[\w'₀-₉]|[A-Za-z]")
CAMEL = re.compile(r"^[a-z][a-z0-9]*(?:[A-Z][a-z0-9]*)+[₀-₉']*$")
USE = re.compile(r"(?:ghost )?use ([\w.+'\-]+)\.\{([^}]*)\}", re.S)
KEEP = {"dB"}


def files(root):
    for folder, dirs, names in os.walk(os.path.join(root, "crates")):
        dirs[:] = sorted(d for d in dirs if d not in ("out", "data"))
        for name in sorted(names):
            if name.endswith((".antt", ".rt", ".edit")):
                yield os.path.join(folder, name)


def own_crates(root):
    return set(os.listdir(os.path.join(root, "crates")))


def turned(name):
    parts = name.split("-")
    out = []
    for part in parts:
        if CAMEL.match(part):
            part = re.sub(r"(?<=[a-z0-9])(?=[A-Z])", "_", part)
            part = re.sub(r"(?<=[A-Z])(?=[A-Z][a-z])", "_", part).lower()
        out.append(part)
    return "_".join(out)


def without_comments(text):
    return re.sub(r"--(?!\w).*|\"[^\"\n]*\"", "", text)


def declared(path, text):
    """The names that a file declares at the head of a line, as fields, constructors and functions of a `where` too."""
    code = without_comments(text)
    found = set()
    for match in re.finditer(r"(?m)^[ \t]*(?:(?:abbrev|unfoldable|pub|data|record|ruleset|irreducible) +)*([\w'₀-₉-]+(?:, *[\w'₀-₉-]+)*|[\w'₀-₉-]+(?: +[\w'₀-₉-]+)*) *:(?![:=])", code):
        line = code[match.start():code.find("\n", match.start())]
        if re.search(r": *tie\.", line):
            continue
        for name in re.split(r"[, ]+", match.group(1)):
            found.add(name)
    for match in re.finditer(r"(?m)^[ \t]*(?:pub )?(?:abbrev|unfoldable|ruleset|record|data) +(?:pub +)?([\w'₀-₉-]+)", code):
        found.add(match.group(1))
    # constructors that stand on one line behind `;` or `where`
    for match in re.finditer(r"(?:where|;) +([\w'₀-₉-]+) +:", code):
        found.add(match.group(1))
    # bound variables
    for match in re.finditer(r"[({]([\w'₀-₉-]+(?: +[\w'₀-₉-]+)*) *:", code):
        found.update(match.group(1).split())
    for match in re.finditer(r"\blet +([\w'₀-₉-]+)", code):
        found.add(match.group(1))
    for match in re.finditer(r"λ +([\w'₀-₉-]+(?: +[\w'₀-₉-]+)*)\.", code):
        found.update(match.group(1).split())
    return {name for name in found if turned(name) != name and name not in KEEP}


def foreign(text, crates):
    found = set()
    for match in USE.finditer(text):
        parts = match.group(1).split(".")
        if parts[0] == "Rattle" and len(parts) > 1 and parts[1] in crates:
            continue
        for name in match.group(2).split(","):
            found.add(name.split(" as ")[0].strip())
    return found


def made(name):
    return name.startswith(("Need-", "invariant-", "decreases-", "returns-", "loop-")) or name.endswith("-lts") or name.endswith("-kinds")


# Lemmas whose name is that of a definition, once that has today's spelling: the lemma's is told apart.
LEMMAS = ("first_field", "handed_out", "in_order", "mid_run", "one_more", "same_bytes")


def lemma_apart(path, text, name):
    """The text with the lemma `name` told apart, where the file declares it or imports it from proofs/."""
    code = without_comments(text)
    declares = "/proofs/" in path and re.search(r"(?m)^(?:pub )?" + name + r" *:", code)
    imports = any(".proofs." in match.group(1) and re.search(r"(?<![\w-])" + name + r"(?![\w-])", match.group(2))
                  for match in USE.finditer(text))
    if not declares and not imports:
        return text
    return re.sub(r"(?<![\w.'-])" + name + r"(?![\w'-])", name + "_lem", text)


def pieces(path, text):
    """The text in pieces, each code ('code'), a comment ('comment') or quoted ('quoted')."""
    if path.endswith(".edit"):
        pattern = r"(?m)(^#.*$)|(\"(?:[^\"\\\n]|\\.)*\")"
    elif path.endswith(".rt"):
        pattern = r"(//.*)|(\"(?:[^\"\\\n]|\\.)*\")"
    else:
        pattern = r"(--(?![\w-]).*)|(\"[^\"\n]*\")"
    at = 0
    for match in re.finditer(pattern, text):
        yield "code", text[at:match.start()]
        yield ("comment" if match.group(1) is not None else "quoted"), match.group(0)
        at = match.end()
    yield "code", text[at:]


def main():
    if sys.argv[1:] not in ([], ["--list"]):
        print(__doc__)
        return 2
    root = os.getcwd()
    crates = own_crates(root)
    texts = {path: open(path, encoding="utf-8").read() for path in files(root)}
    if any(path.endswith("/Answers.antt") for path in texts):
        print("the proofs here have today's form already: nothing was changed", file=sys.stderr)
        return 1
    was = dict(texts)
    for path in texts:
        if path.endswith(".antt"):
            for name in LEMMAS:
                texts[path] = lemma_apart(path, texts[path], name)
    beneath = {path: {name for name in declared(path, text) if not made(name)} for path, text in texts.items() if path.endswith(".antt")}
    own = set().union(*(names for path, names in beneath.items() if not path.endswith("/Proof.antt")))
    every = set().union(*beneath.values())
    camel = {turned(name) for name in every if CAMEL.match(name)}
    plain = {name for text in texts.values() for name in WORD.findall(text) if "-" not in name and not CAMEL.match(name)}
    new = {}
    for name in every:
        form = turned(name)
        if "-" in name and (form in camel or form in ("so_far",)):
            form += "_lem"
        new[name] = form
    new["rule-node"] = "rule_node"
    if "--list" in sys.argv:
        for name in sorted(every):
            print(name, new[name])
        return 0
    changed = 0
    for path, text in texts.items():
        names = (own | beneath.get(path, set())) - foreign(text, crates)
        out = []
        for kind, piece in pieces(path, text):
            if kind == "quoted":
                out.append(piece)
                continue

            def swap(match):
                name = match.group(0)
                if name not in names or piece[max(0, match.start() - 4):match.start()] == "tie.":
                    return name
                if kind == "comment" and "-" in name and piece[match.start() - 1:match.start()] != "`":
                    return name
                return new[name]

            out.append(WORD.sub(swap, piece))
        text = "".join(out)
        if text != was[path]:
            with open(path, "w", encoding="utf-8") as file:
                file.write(text)
            changed += 1
    print(f"{changed} files changed")
    return 0


if __name__ == "__main__":
    raise SystemExit(main())

#!/usr/bin/env python3
"""Compares every public promise and definition with those of an earlier commit.

    python3 tools/promises.py BASE [LATER]

A promise is a public function's signature with its `requires` and `ensures`, each with its name, or a ghost member (a law, an
invariant, a model) of a type or trait; a definition is a paragraph of a file in `specs/` that is not called Internal... Line
breaks, white space, comments, `use` lines and the files and crates that things stand in do not count. Prints what stands at BASE
and not at LATER (-), and at LATER and not at BASE (+); LATER is the present commit if it is left out. The exit status is 0 where
nothing is printed. With `--all` private functions and internal definitions count too. Before the port to this toolchain
(docs/PORT.md) clauses and names were spelled otherwise, so both commits are after it, or both before.
"""

import collections
import re
import subprocess
import sys

HEAD = r'(?:pub(?:\(crate\))? )?(?:extern "C" )?fn '
# Up to the body's bracket, on a line of its own or behind the parameters, or to the end where a trait has no body.
FUNCTION = re.compile(rf"^( *)({HEAD}.*?(?:(?=^\1\{{\n)|^\1\)[^\n]* (?=\{{\n)|(?=;\n)))", re.M | re.S)
FUNCTION_ON_ONE_LINE = re.compile(rf"^ *({HEAD}[^\n]*[^\s]) \{{\n", re.M)
GHOST = re.compile(r"^ *((?:pub )?ghost (?!use\b)\w+(?::| =) \{.*?\})[;,]$", re.M | re.S)


def git(*words):
    return subprocess.run(["git", *words], check=True, capture_output=True, text=True).stdout


def folded(text):
    """The text on one line, without the marks that a line break leaves behind."""
    text = " ".join(text.split())
    text = re.sub(r"([(\[]) ", r"\1", text)
    text = re.sub(r"[,;]? ([)\]}])", r" \1", text)
    return re.sub(r" ([)\]])", r"\1", text)


def promises(text, all_of_them):
    """The functions of a file of source, each with its contract, and the ghost members."""
    text = re.sub(r"^\s*//.*\n", "", text, flags=re.M)
    one_line = [found[1] for found in FUNCTION_ON_ONE_LINE.finditer(text)]
    rest = FUNCTION_ON_ONE_LINE.sub("", text)
    found = [folded(found) for found in one_line + [found[2] for found in FUNCTION.finditer(rest)]]
    ghosts = [folded(found[1]) for found in GHOST.finditer(text)]
    return [text for text in found if all_of_them or re.match(r"pub (extern|fn)", text)] + ghosts


def definitions(text):
    """The paragraphs of a file of definitions."""
    text = re.sub(r"^[ \t]*--.*\n", "", text, flags=re.M)
    text = re.sub(r"[ \t]*--.*", "", text)
    text = re.sub(r"^(?:pub )?use [^\n]*\{[^}]*\}\n", "", text, flags=re.M)
    text = re.sub(r"^(?:pub )?(?:use|mod) .*\n?", "", text, flags=re.M)
    return [folded(part) for part in re.split(r"\n\s*\n", text) if part.strip()]


def said(commit, all_of_it):
    """What a commit promises and defines."""
    found = collections.Counter()
    for path in git("ls-tree", "-r", "--name-only", commit, "crates").splitlines():
        if path.endswith(".rt"):
            found.update(promises(git("show", f"{commit}:{path}"), all_of_it))
        elif path.endswith(".antt") and "/specs/" in path and (all_of_it or "/Internal" not in path):
            found.update(definitions(git("show", f"{commit}:{path}")))
    return found


def main():
    words = [word for word in sys.argv[1:] if word != "--all"]
    if len(words) not in (1, 2):
        sys.exit(__doc__)
    before, now = (said(commit, "--all" in sys.argv) for commit in [*words, "HEAD"][:2])
    rows = [f"- {text}" for text in (before - now).elements()] + [f"+ {text}" for text in (now - before).elements()]
    print("\n".join(rows) if rows else "every promise and definition is as it was")
    sys.exit(1 if rows else 0)


if __name__ == "__main__":
    main()

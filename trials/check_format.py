#!/usr/bin/env python3
"""Tries the worked file of docs/FORMAT.md: its bytes are what the builder builds from its grammar, and the program prints
the answer that is written below them.

    python3 trials/check_format.py crates/reader/out/reader
"""

import pathlib
import re
import subprocess
import sys
import tempfile

ROOT = pathlib.Path(__file__).resolve().parent.parent
FIELD = re.compile(r" *(\d+)  ((?:[0-9a-f]{2} )*[0-9a-f]{2})  +\S")


def blocks(text):
    """The blocks of the last chapter: lines behind four blanks, blank lines between them too."""
    chapter = text[text.index("## A file, byte by byte") :]
    found = re.findall(r"(?:^    .*\n|^\n(?=    ))+", chapter, re.MULTILINE)
    return [re.sub(r"^    ", "", block, flags=re.MULTILINE).strip("\n") + "\n" for block in found]


def bytes_of(dump):
    """The bytes of a dump, whose lines begin with the offset that they have."""
    file = b""
    for line in dump.splitlines():
        field = FIELD.match(line)
        if not field or int(field[1]) != len(file):
            sys.exit(f"FORMAT.md: {line!r} is no field at offset {len(file)}")
        file += bytes.fromhex(field[2])
    return file


def main():
    if len(sys.argv) != 2:
        sys.exit("usage: check_format.py READER")
    text = (ROOT / "docs/FORMAT.md").read_text(encoding="utf-8")
    grammar, dump, answer = blocks(text)
    file = bytes_of(dump)
    report = re.search(r"the report `(.*?)`, without a line break", text)[1]
    with tempfile.TemporaryDirectory() as name:
        folder = pathlib.Path(name)
        (folder / "words").write_text(grammar, encoding="utf-8")
        build = [sys.executable, ROOT / "tools/build.py", folder / "words", folder / "grammar.bin"]
        subprocess.run(build, check=True, stdout=subprocess.DEVNULL)
        if (folder / "grammar.bin").read_bytes() != file:
            sys.exit("FORMAT.md: the builder builds other bytes")
        (folder / "grammar.bin").write_bytes(file)
        reader = pathlib.Path(sys.argv[1]).resolve()
        ran = subprocess.run([reader], cwd=folder, input=report.encode(), stdout=subprocess.PIPE, check=True)
    if ran.stdout.decode() != answer:
        sys.exit(f"FORMAT.md: the program prints {ran.stdout.decode()!r}")
    print(f"docs/FORMAT.md: {len(file)} bytes, {answer}", end="")


if __name__ == "__main__":
    main()

#!/usr/bin/env python3
"""Writes every stored case anew, or with --check only compares: `python3 cases/all.py [--check]`.

A script writes where it stands, so for a check copies of the scripts run in an empty folder; nothing is written here.
The exit status is 1 if a file that a script gives differs from the stored one, and the names are printed.
"""

import concurrent.futures
import pathlib
import shutil
import subprocess
import sys
import tempfile

CASES = pathlib.Path(__file__).resolve().parent

# Every script here that can be run by itself.
SCRIPTS = sorted(path.name for path in CASES.glob("*.py") if path.name != "all.py" and "__main__" in path.read_text())


def run(folder, out=None):
    """Runs the scripts of a folder, two at a time. The answer is whether all ended well."""

    def one(script):
        call = [sys.executable, "-B", folder / script]
        return subprocess.run(call, check=False, stdout=out).returncode == 0

    with concurrent.futures.ThreadPoolExecutor(2) as pool:
        return all(list(pool.map(one, SCRIPTS)))


def check():
    with tempfile.TemporaryDirectory() as top:
        top = pathlib.Path(top)
        shutil.copytree(CASES, top / "cases", ignore=shutil.ignore_patterns("__pycache__"))
        good = run(top / "cases", subprocess.DEVNULL)
        for path in sorted(top.rglob("*")):
            name = path.relative_to(top)
            stored = CASES.parent / name
            if path.is_file() and not (stored.is_file() and stored.read_bytes() == path.read_bytes()):
                print(f"differs from what its script gives: {name}")
                good = False
    return good


def main():
    if sys.argv[1:] not in ([], ["--check"]):
        sys.exit(__doc__)
    sys.exit(0 if (check() if sys.argv[1:] else run(CASES)) else 1)


if __name__ == "__main__":
    main()

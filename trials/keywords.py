#!/usr/bin/env python3
"""Times of two builds on grammars with 200 keywords that are alike, both builds in turn.

    python3 trials/keywords.py BEFORE AFTER [ROUNDS]

BEFORE and AFTER are folders of this repository, in each of which these have been run:

    (cd crates/scanner_cases && rt run < /dev/null) && (cd crates/saktroum && rt lib)

The keywords have 32 bytes and differ in the last, in the one in the middle or in the first; or they are short, `ch1` to
`ch200`. A scan is of a report with these keywords, eight a line, of 64,000 bytes or 455 lines, through the C interface.
A step is one of a scanner's value, on a report that has each keyword once, in 25 lines: the program `scanner_cases`
takes all but the last, 224 of them, 40 times a round; its start, about a millisecond, counts too. Both builds must give
the tokens of the report. Each figure is the median of the rounds, 21 if nothing is said, in microseconds.
"""

import ctypes
import pathlib
import statistics
import subprocess
import sys
import tempfile
import time
from ctypes import byref, c_size_t, c_uint8, c_uint32

import library

ROOT = pathlib.Path(__file__).resolve().parent.parent
sys.path.insert(0, str(ROOT / "cases"))
from grammar_fields import alike, with_keywords  # noqa: E402
from records import Pairs, wide  # noqa: E402

COMMAND = "(cd crates/scanner_cases && rt run < /dev/null) && (cd crates/saktroum && rt lib)"
BUILT = ("scanner_cases/out/scanner_cases", "saktroum/out/libsaktroum.a")
LINE = 8
LISTS = [(said, alike(place)) for said, place in (("last byte", 31), ("middle byte", 16), ("first byte", 0))]
LISTS.append(("short", [b"ch%d" % number for number in range(1, 201)]))
SCANS, WALKS = 50, 40  # in a round


def report(spellings, room):
    """Lines of these spellings, over and over as long as there is room for a line and for its tokens."""
    lines = [b" ".join(spellings[at : at + LINE]) + b"\n" for at in range(0, len(spellings), LINE)]
    text = b""
    for number in range(library.TOKEN_WORDS // 4 // (LINE + 1)):
        text += lines[number % len(lines)]
        if len(text) + len(lines[0]) > room:
            break
    return text


def terminals(count, tokens):
    """The terminals of so many tokens of such a report: keywords in their order, and behind eight a line end."""
    return [2 if i % (LINE + 1) == LINE else 3 + (i - i // (LINE + 1)) % count for i in range(tokens)]


def once(work):
    """The seconds that some work takes."""
    begin = time.perf_counter()
    work()
    return time.perf_counter() - begin


class Build:
    """One build of the reader."""

    def __init__(self, folder, work):
        self.program, archive = ((folder / "crates" / built).resolve() for built in BUILT)
        for path in (self.program, archive):
            if not path.exists():
                sys.exit(f"{path} is not there: run `{COMMAND}` in {folder}")
        shared = work / "reader.so"
        whole = ["-Wl,--whole-archive", archive, "-Wl,--no-whole-archive"]
        subprocess.run(["gcc", "-shared", "-o", shared, *whole], check=True)
        self.scan_of = ctypes.CDLL(str(shared)).saktroum_scan
        self.scan_of.restype = c_uint32

    def scans(self, file, text):
        """A function that scans a report so many times, and the terminals of its tokens."""
        words, count = (c_uint32 * library.TOKEN_WORDS)(), (c_size_t * 1)()
        slices = (*library.slice_of(file, c_uint8), *library.slice_of(text, c_uint8), words, c_size_t(len(words)))
        library.passed(self.scan_of(*slices, byref(count)))

        def work():
            for _ in range(SCANS):
                self.scan_of(*slices, byref(count))

        return work, words[: 4 * count[0] : 4]

    def steps(self, folder):
        """A function that makes the calls of a folder, and what they print."""
        command = {"args": [self.program], "cwd": folder, "check": True, "stdout": subprocess.PIPE}
        return lambda: subprocess.run(**command), subprocess.run(**command).stdout


def walks(folder, file, text, last):
    """Writes the calls for so many walks of a scanner's value over a report, each to the step of this number."""
    pairs = Pairs(60, (1,))
    records = []
    for walk in range(WALKS):
        name = b"%d" % walk
        numbers, *stored = pairs.stretch(file, text)
        records.append(b"v" + wide(1, len(name), 0) + wide(3, last, 0) + numbers + name + b"".join(stored))
    folder.mkdir()
    (folder / "cases").write_bytes(b"".join(records))


def compared(name, before, after, expected, calls, rounds):
    """Prints the medians of both, taken in turn, where both have said what is expected."""
    for _, said in (before, after):
        if said != expected:
            sys.exit(f"{name}: a build gives other tokens than the report has")
    times = [(once(before[0]), once(after[0])) for _ in range(rounds)]
    old, new = (statistics.median(side) / calls * 1e6 for side in zip(*times))
    print(f"| {name} | {old:.1f} | {new:.1f} | {new / old:.2f} |", flush=True)


def measured(said, spellings, builds, work, rounds):
    """Prints a scan and a step on a list of keywords."""
    file, long = with_keywords(*spellings), report(spellings, 64000)
    scans = [build.scans(file, long) for build in builds]
    compared(f"scan, {said}", *scans, terminals(len(spellings), len(scans[0][1])), SCANS, rounds)
    # The last step but one hands out the last keyword.
    short = report(spellings, sum(map(len, spellings)) + len(spellings))
    steps = len(spellings) // LINE * (LINE + 1) - 1
    walks(work, file, short, steps - 1)
    at, last = len(short) - 1 - len(spellings[-1]), spellings[-1]
    column = sum(byte not in range(128, 192) for byte in short[short.rindex(b"\n", 0, at) + 1 : at])
    token = f"token {2 + len(spellings)} {column} {at} {len(last)}"
    printed = "".join(f"{walk}: {token}\n" for walk in range(WALKS)).encode()
    compared(f"step, {said}", *(build.steps(work) for build in builds), printed, WALKS * steps, rounds)


def main():
    if len(sys.argv) not in (3, 4):
        sys.exit("usage: " + __doc__.split("\n\n")[1].strip())
    rounds = int(sys.argv[3]) if len(sys.argv) == 4 else 21
    with tempfile.TemporaryDirectory() as name:
        work = pathlib.Path(name)
        builds = []
        for number, folder in enumerate(sys.argv[1:3]):
            (work / str(number)).mkdir()
            builds.append(Build(pathlib.Path(folder), work / str(number)))
        print("| work | before, µs | after, µs | ratio |\n|---|---|---|---|")
        for said, spellings in LISTS:
            measured(said, spellings, builds, work / said, rounds)


if __name__ == "__main__":
    main()

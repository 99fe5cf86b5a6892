#!/usr/bin/env python3
"""Where the time of a gate run goes, by crate.

    bash .ci/run | python3 tools/gate_times.py

It hands on each line as it comes and then prints, for each crate, at which second of the run it was proved, and at which its
must-fail edits were begun, with their number; then when the last edit was done, and the whole. `rt ci` works at several crates
side by side and tells no times itself: the seconds are those at which its lines came, so what a crate took by itself is not
told, nor what an edit took. What an earlier run on the same machine proved is kept, and takes next to nothing.
"""

import re
import sys
import time

PROVED = re.compile(r"rt: (\w+) proved$")
KEPT = re.compile(r"rt: (\w+) is kept: ")
BEGUN = re.compile(r"rt: (\w+): trying its must-fail edits \((\d+)\)$")
EDIT = re.compile(r"rt: must-fail \w+/")


class Times:
    """The seconds at which the lines of a run came."""

    def __init__(self):
        self.proved, self.kept, self.begun = {}, set(), {}
        self.edits = self.whole = 0

    def take(self, line, second):
        """Takes what a line tells, and the second at which it came."""
        self.whole = second
        if found := KEPT.match(line) or PROVED.match(line):
            self.proved[found[1]] = second
            if " is kept: " in line:
                self.kept.add(found[1])
        elif found := BEGUN.match(line):
            self.begun[found[1]] = (second, int(found[2]))
        elif EDIT.match(line):
            self.edits = self.edits or second

    def table(self):
        """The rows of the table, in the order in which the crates were proved."""
        yield "| crate | proved at, s | its edits begun at, s | edits tried |"
        yield "|---|---|---|---|"
        for name, second in self.proved.items():
            begun, count = self.begun.get(name, ("-", 0))
            yield f"| `{name}` | {'kept' if name in self.kept else second} | {begun} | {count} |"
        yield f"\nThe last edit was done by second {self.edits}, and the whole run took {self.whole} s."


def main():
    if len(sys.argv) != 1 or sys.stdin.isatty():
        sys.exit(__doc__)
    sys.stdin.reconfigure(errors="replace")
    times, begin = Times(), time.monotonic()
    for line in sys.stdin:
        print(line, end="", flush=True)
        times.take(line.rstrip("\n"), round(time.monotonic() - begin))
    print()
    print("\n".join(times.table()))


if __name__ == "__main__":
    main()

"""The records of a case program and the lines that it must print: how they are put together, stored and written.

README.md tells what stands in a record; the first comment of each program tells its header.
"""

import pathlib
import re
import sys

TOP = pathlib.Path(__file__).resolve().parent.parent

# The room that the programs have: `room_for_cases`, `room_for_part` and MOST_RECORDS of crates/stored_cases/src/lib.rt.
FILE_ROOM, PAYLOAD_ROOM, MOST_RECORDS = 1_000_000, 140_000, 100_000


def wide(size, *numbers):
    """The numbers in so many bytes each, high byte first."""
    return b"".join(number.to_bytes(size, "big") for number in numbers)


def spaced(head, numbers):
    return " ".join([head, *map(str, numbers)])


def begin(node=0, place=0, lower=0, upper=None, flag=False, mode=0):
    """The start of a run as headers have it. An upper end of None is without end."""
    return wide(1, flag, upper is not None) + wide(2, node, mode) + wide(4, place, lower, upper or 0)


def write(files):
    """Writes files, given by their paths from the top of the repository."""
    for path, content in files.items():
        out = TOP / path
        out.parent.mkdir(parents=True, exist_ok=True)
        out.write_bytes(content)


def refuse_over(room, size, what, parts):
    """Ends the script where a program would have no room for so many parts."""
    if size > room:
        sys.exit(f"{what} has {size:,} {parts}; the programs have room for {room:,} (crates/stored_cases/src/lib.rt)")


class Cases:
    """The calls of one case program, in order, and the line that is expected of each."""

    def __init__(self, program):
        self.program, self.records, self.lines, self.labels = program, [], [], set()

    def add(self, label, line, kind, header, *payloads):
        """A record: the kind, a letter, the label's length, the rest of the header, the label, the payloads as they are
        stored."""
        name = label.encode()
        assert kind.isascii() and kind.isalpha() and len(kind) == 1, kind
        assert 0 < len(name) < 256 and label not in self.labels, label
        self.labels.add(label)
        self.records.append(kind.encode() + wide(1, len(name)) + header + name + b"".join(payloads))
        self.lines.append(f"{label}: {line}\n")

    def write(self):
        data = b"".join(self.records)
        refuse_over(FILE_ROOM, len(data), f"the file of cases of {self.program}", "bytes")
        refuse_over(MOST_RECORDS, len(self.records), f"the file of cases of {self.program}", "records")
        crate = f"crates/{self.program}"
        write({f"{crate}/data/cases": data, f"{crate}/stdout": "".join(self.lines).encode()})
        print(f"{self.program}: {len(self.records)} calls, {len(data)} bytes")


class Payloads:
    """Payloads of one sort, each stored by what it shares with the one before, the first with no bytes.

    In `stretch` also by one stretch whose bytes are each a copy of the one at a distance before it. It is looked for
    at the distances given, where more than `least` bytes are new. `all` has them in their order.
    """

    def __init__(self, least=0, distances=()):
        self.before, self.least, self.distances, self.all = b"", least, distances, []

    def front(self, payload):
        """How many bytes are those of the one before, at the start of both, and the bytes to be stored."""
        refuse_over(PAYLOAD_ROOM, len(payload), "a payload", "bytes")
        size = min(len(self.before), len(payload))
        same = size - (apart(self.before[:size], payload[:size]).bit_length() + 7) // 8
        self.before = payload
        self.all.append(payload)
        return same, payload[same:]

    def stretch(self, payload):
        """The five numbers that tell how a payload is stored, and the bytes to be stored."""
        same, rest = self.front(payload)
        best = (same, 0, same)
        for distance in self.distances if len(rest) > self.least else ():
            for first, end in copies(payload, max(same, distance), distance):
                if end - first > best[2] - best[0]:
                    best = (first, distance, end)
        head, distance, middle = best
        return (same, head, distance, middle, len(payload)), payload[same:head] + payload[middle:]


class Pairs:
    """Pairs of a grammar file and a report, each of the two stored as in `stretch`."""

    def __init__(self, least, distances):
        self.files, self.reports = Payloads(least, distances), Payloads(least, distances)

    def stretch(self, file, report):
        """The ten numbers, three bytes each, and the bytes to be stored of the two."""
        (numbers, file_bytes), (more, report_bytes) = self.files.stretch(file), self.reports.stretch(report)
        return wide(3, *numbers, *more), file_bytes, report_bytes


def apart(these, those):
    """A number whose bytes are 0 where bytes of equal number are the same."""
    return int.from_bytes(these, "big") ^ int.from_bytes(those, "big")


def copies(payload, first, distance):
    """The longest stretches from `first` on, by their two ends, of bytes that repeat the one at the distance before."""
    size = len(payload) - first
    if size > 0:
        differ = apart(payload[first:], payload[first - distance : -distance]).to_bytes(size, "big")
        for run in re.finditer(b"\0+", differ):
            yield first + run.start(), first + run.end()

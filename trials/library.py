"""The reader through ctypes, for the scripts beside this one.

The library is the archive as a shared one:

    cd crates/saktroum && rt lib
    gcc -shared -o out/libsaktroum.so -Wl,--whole-archive out/libsaktroum.a -Wl,--no-whole-archive
"""

import ctypes
import pathlib
from ctypes import byref, c_bool, c_size_t, c_uint8, c_uint16, c_uint32

NODE_WORDS, RULE_WORDS, TOKEN_WORDS, LINE_BYTES, NAME_BYTES = 2048, 128, 16384, 64, 32
FILE_BYTES = 18209  # of a written file
MEMORY_WORDS = 65536  # to remember outcomes in
CAPTURE_ROOM = 13  # the number of a list that needs more words


class Refused(Exception):
    """A call that was refused: its number, and the node for 7."""

    def __init__(self, answer):
        self.number, self.node = answer & 65535, answer >> 16
        super().__init__(f"refused {self.number}" + (f" {self.node}" if self.number == 7 else ""))


def slice_of(values, kind):
    """The slice of some values: a pointer that is not null and a length."""
    return (kind * max(1, len(values)))(*values), c_size_t(len(values))


def fours(words, count):
    return [tuple(words[4 * i : 4 * i + 4]) for i in range(count)]


def passed(answer):
    if answer:
        raise Refused(answer)


def start_of(node, mode, lower=0, upper=None, flag=False):
    """A start at the first token; an upper end of none is without end."""
    columns = (c_uint32(lower), c_uint32(upper or 0), c_bool(upper is None))
    return c_uint16(node), c_uint32(0), *columns, c_bool(flag), c_uint16(mode)


def ran_line(ran):
    """The line of a run's seven words."""
    if not ran[0]:
        return f"failure {ran[6]}"
    return f"success {ran[1]} {ran[2]} {'inf' if ran[4] else ran[3]} {'set' if ran[5] else 'clear'} {ran[6]}"


class Reader:
    def __init__(self, path):
        self.library = ctypes.CDLL(str(pathlib.Path(path).resolve()))
        for part in ("read", "write", "check", "scan", "run", "remember", "list", "shown"):
            getattr(self.library, f"saktroum_{part}").restype = c_uint32
        for part in ("line", "rule_name"):
            getattr(self.library, f"saktroum_{part}").restype = c_size_t

    def read(self, file):
        """The nodes, rules, start node and mode of a grammar file."""
        nodes, rules, read = (c_uint16 * NODE_WORDS)(), (c_uint16 * RULE_WORDS)(), (c_size_t * 5)()
        room = (nodes, c_size_t(NODE_WORDS), rules, c_size_t(RULE_WORDS))
        passed(self.library.saktroum_read(*slice_of(file, c_uint8), *room, byref(read)))
        return fours(nodes, read[0]), list(rules[: read[1]]), read[3], read[4]

    def table(self, nodes, rules):
        words = [word for node in nodes for word in node]
        return *slice_of(words, c_uint16), *slice_of(rules, c_uint16)

    def write(self, lending, nodes, rules, node, mode):
        """The grammar file of a table, its rules and a start, with the keywords and rule names of a lending file."""
        out, count = (c_uint8 * FILE_BYTES)(), (c_size_t * 1)()
        given = (*slice_of(lending, c_uint8), *self.table(nodes, rules), c_uint16(node), c_uint16(mode))
        passed(self.library.saktroum_write(*given, out, c_size_t(FILE_BYTES), byref(count)))
        return bytes(out[: count[0]])

    def token_words(self, tokens):
        return slice_of([word for token in tokens for word in token], c_uint32)

    def check(self, nodes, rules):
        passed(self.library.saktroum_check(*self.table(nodes, rules)))

    def scan(self, file, report):
        """The tokens of a report: terminal, column, offset and length of each."""
        tokens, count = (c_uint32 * TOKEN_WORDS)(), (c_size_t * 1)()
        given = (*slice_of(file, c_uint8), *slice_of(report, c_uint8))
        passed(self.library.saktroum_scan(*given, tokens, c_size_t(TOKEN_WORDS), byref(count)))
        return fours(tokens, count[0])

    def run(self, nodes, rules, tokens, *start, by_2014=False):
        """The line of a run from the first token; the start is a node, a mode and, if not as usual, two ends and a flag."""
        ran = (c_size_t * 7)()
        words = self.token_words(tokens)
        passed(self.library.saktroum_run(*self.table(nodes, rules), *words, *start_of(*start), c_bool(by_2014), byref(ran)))
        return ran_line(ran)

    def remember(self, nodes, rules, tokens, *start, by_2014=False, words=MEMORY_WORDS):
        """The line of such a run that remembers outcomes in so many words, whatever they hold; they are 0 afterwards."""
        ran, memory = (c_size_t * 7)(), (c_uint32 * max(1, words))()
        ctypes.memset(memory, 9, 4 * words)
        given = (*self.table(nodes, rules), *self.token_words(tokens), *start_of(*start), c_bool(by_2014))
        passed(self.library.saktroum_remember(*given, memory, c_size_t(words), byref(ran)))
        if any(bytes(memory)):
            raise ValueError("a word is left in the memory of a run")
        return ran_line(ran)

    def list(self, nodes, rules, tokens, *start, by_2014=False):
        """The line of such a run and its captures: rule, first token, token after the last and number around, of each."""
        ran, room = (c_size_t * 8)(), 4
        given = (*self.table(nodes, rules), *self.token_words(tokens), *start_of(*start), c_bool(by_2014))
        while True:
            captures = (c_uint32 * room)()
            answer = self.library.saktroum_list(*given, captures, c_size_t(room), byref(ran))
            if answer != CAPTURE_ROOM:
                break
            room *= 2
        passed(answer)
        return ran_line(ran), fours(captures, ran[7])

    def shown(self, file, report, tokens, capture):
        """The text shown for a capture: a part of the report, or the name of its rule."""
        part = (c_size_t * 3)()
        given = (*slice_of(file, c_uint8), *slice_of(report, c_uint8), *self.token_words(tokens))
        passed(self.library.saktroum_shown(*given, *map(c_uint32, capture), byref(part)))
        offset, length, in_file = part
        return (file if in_file else report)[offset : offset + length]

    def rule_name(self, file, rule):
        name = (c_uint8 * NAME_BYTES)()
        given = (*slice_of(file, c_uint8), c_size_t(rule))
        return bytes(name[: self.library.saktroum_rule_name(*given, name, c_size_t(NAME_BYTES))])

    def line(self, file, report):
        """The line that the program prints."""
        line = (c_uint8 * LINE_BYTES)()
        given = (*slice_of(file, c_uint8), *slice_of(report, c_uint8))
        return bytes(line[: self.library.saktroum_line(*given, line, c_size_t(LINE_BYTES))]).decode().rstrip("\n")

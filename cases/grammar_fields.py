"""The bytes of grammar files, field by field (01, "The grammar file")."""


def field(tag, value):
    """ "tagged fields: one-byte tag, two-byte length (high byte first), value" """
    return bytes([tag]) + len(value).to_bytes(2, "big") + value


def keyword(spelling):
    return field(2, spelling)


def rule(node_number, name):
    return field(3, node_number.to_bytes(2, "big") + name)


def node(kind, a=0, b=0, relation=0):
    return field(4, bytes([kind]) + a.to_bytes(2, "big") + b.to_bytes(2, "big") + bytes([relation]))


def start(node_number=0, mode=0):
    return field(5, node_number.to_bytes(2, "big") + bytes([mode]))


def keywords(spellings):
    return b"".join(map(keyword, spellings))


def rules(pairs):
    """Rules from pairs of a node number and a name."""
    return b"".join(rule(number, name) for number, name in pairs)


def nodes(rows):
    """Nodes from rows of four words."""
    return b"".join(node(*row) for row in rows)


VERSION = field(1, b"\x01")
EMPTY = node(0)
START = start()
TAIL = EMPTY + START


def file(rows, first=0, mode=0, spellings=(), pairs=()):
    """A file of these nodes, the start at `first` in this mode, with these keywords and rules."""
    return VERSION + keywords(spellings) + rules(pairs) + nodes(rows) + start(first, mode)


def with_keywords(*spellings):
    """A file of one empty node and these keywords."""
    return VERSION + keywords(spellings) + TAIL


def with_names(*names):
    """A file of one empty node and a rule for each name, all of them node 0."""
    return VERSION + rules((0, name) for name in names) + TAIL


# The nine bytes that are tokens by themselves (01, "The scanner").
NINE = b":,()[]=;%"
# Those that stand in longer tokens, and so in keywords of any length.
RUN = [byte for byte in range(33, 256) if byte != 127 and byte not in NINE]


def alike(place):
    """200 keywords of 32 bytes that differ in the one at a place only (02, Note 6)."""
    return [b"k" * place + bytes([byte]) + b"k" * (31 - place) for byte in RUN[:200]]


# Twelve nodes, every kind among them; with three rules they pass the checks of a table.
EVERY_KIND = [
    (0, 0, 0, 0), (1, 3, 0, 0), (2, 2, 0, 0), (3, 1, 2, 0), (4, 3, 0, 0), (5, 1, 0, 0),
    (6, 1, 0, 0), (7, 4, 0, 1), (8, 7, 0, 2), (9, 8, 0, 0), (7, 9, 0, 3), (8, 10, 0, 0),
]


def largest(rows):
    """The most keywords and rules, their spellings of 32 bytes, over 512 nodes; the start is the last, in mode any."""
    names = [b"%032d" % i for i in range(253)]
    return file(rows, 511, 3, names, [(511 - i, names[i]) for i in range(128)])

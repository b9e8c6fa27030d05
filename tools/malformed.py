"""Grows rows of malformed input for the program tests/trees: encodings in forms chosen at random, with random faults.

A fault changes a code, a size, a count or the content of a payload. The sizes of the compounds around it are computed
afterwards, so that the fault is met where it is and not at the outermost size. An encoding has no fault or several. Then it
may be cut, or bytes may be left over.
"""

from decoding import LEVELS, SCALARS, SIZED, decoded
from definitions import COMPOUNDS, FIXED, LONG, SHORT, SIGNED, TEXTS, Refused, number, raw, written
from nodes import LIMIT

CODES = [0, *SCALARS, *SIZED]
SHORTER = {kind: [(code, width) for code, (name, width, _) in SHORT.items() if name == kind] for kind in FIXED}
WITHOUT_BYTES = [code for code, (_, width, _) in SCALARS.items() if width == 0]
COUNTS = [1, LIMIT - 1, LIMIT, LIMIT, LIMIT + 1, 2 ** 32 - 1]
# About these numbers of elements or entries, memory is reserved or keys are compared in another way.
LENGTHS = [4, 8, 16, 31, 48, 64, 96, 128]

# Contents on both sides of the limits of UTF-8 and of the Unicode scalar values.
EDGE_TEXTS = [bytes.fromhex(digits) for digits in (
    "ff", "80", "c080", "c1bf", "c280", "e08080", "e09fbf", "e0a080", "e282", "ed9fbf", "eda080", "edbfbf", "ee8080",
    "f0808080", "f08fbfbf", "f0908080", "f48fbfbf", "f4908080", "f09f98", "61c3",
)]
EDGE_CHARS = [number(code, 4) for code in (0xD7FF, 0xD800, 0xDFFF, 0xE000, 0x10FFFF, 0x110000, 0x80000061)]

# Encodings with a fault, which are put on about the last level.
DEEP_FAULTS = [bytes.fromhex(digits) for digits in (
    "c00101", "c0020146", "c10102", "c1020246", "e00101", "e0020100", "e0020146", "e0020150", "e00201a1", "00", "0046",
    "00a10161", "0044", "004446",
)]

# Three descriptors, and trees that are none.
DESCRIPTORS = [
    ("ulong", 7), ("ulong", 2 ** 32), ("symbol", b"a:b"), ("uint", 7), ("null", 0), ("string", b"a"), ("symbol", b"\xff"),
    ("list", []), ("list", [("null", 0)]), ("array", []), ("map", []), ("described", [("ulong", 7), ("null", 0)]),
]


class Encoder:
    """Encodes values. Each part of an encoding has a fault with the probability `rate`."""

    def __init__(self, grower):
        self.below, self.bytes = grower.below, grower.raw
        self.random, self.rate = grower.random, 0.0

    def one(self, choices):
        return choices[self.below(len(choices))]

    def has_fault(self):
        return self.random.random() < self.rate

    # Parts that may have a fault.

    def code(self, code):
        """The byte of a code; with a fault, another byte, or the bytes of a described constructor."""
        if not self.has_fault():
            return bytes([code])
        return self.one((bytes([code ^ 0x10]), bytes([self.one(CODES)]), b"\0", self.bytes(1), bytes([0, 0x53, 7, code])))

    def number(self, value, width):
        """A size or a count."""
        if self.has_fault():
            near = self.one((-1, 1, 2, -self.below(8), self.below(8)))
            value = self.one((value + near, value ^ 1 << self.below(8 * width), 0, -1, LIMIT + near)) % 256 ** width
        return number(value, width)

    def content(self, data, edge=()):
        """The content of a payload; with a fault, bytes are missing, added or changed, or it is one of `edge`."""
        if not self.has_fault():
            return data
        at = self.below(len(data) + 1)
        return self.one((
            data[:at], data + self.bytes(1 + self.below(4)), data[:at] + data[at + 1:],
            data[:at] + self.bytes(1) + data[at + self.below(2):], *((self.one(edge),) * 2 if edge else ()),
        ))

    # Encodings.

    def encoding(self, tree):
        """An encoding of the tree."""
        kind, content = tree
        if kind == "lazy":
            return content
        if kind == "described":
            descriptor = self.one(DESCRIPTORS) if self.has_fault() else content[0]
            return self.code(0) + self.encoding(descriptor) + self.encoding(content[1])
        code, (payload,) = self.payloads([tree])
        return self.code(code) + payload

    def payloads(self, trees):
        """A code of these trees, which have one kind, and the payload of each."""
        kind, contents = trees[0][0], [content for _, content in trees]
        if kind in TEXTS:
            edge = () if kind == "binary" else EDGE_TEXTS
            return self.sized(kind, [(None, self.content(content, edge)) for content in contents])
        if kind in COMPOUNDS:
            return self.sized(kind, [self.body(kind, parts) for parts in contents])
        return self.fixed(kind, contents)

    def fixed(self, kind, contents):
        """A code of scalars of fixed width, and the payload of each."""
        code, width = self.one([FIXED[kind], *SHORTER.get(kind, ())])
        least = -128 if kind in SIGNED else 0
        if code in SHORT and not all(
            each == SHORT[code][2] if width == 0 else least <= each < least + 256 for each in contents
        ):
            code, width = FIXED[kind]
        edge = EDGE_CHARS if kind == "char" else (b"\2",) if kind == "bool" and width else ()
        if width == FIXED[kind][1]:
            bodies = [raw(kind, each) for each in contents]
        else:
            bodies = [number(each, width) if width else b"" for each in contents]
        return code, [self.content(each, edge) for each in bodies]

    def sized(self, kind, bodies):
        """A code of texts or compounds, and the payload of each, from its count and the bytes after that."""
        if kind == "list" and not any(body for _, body in bodies) and self.below(2):
            return 0x45, [b""] * len(bodies)
        short = all((count or 0) < 256 and len(body) + (count is not None) < 256 for count, body in bodies)
        width = 1 if short and self.below(2) else 4
        payloads = []
        for count, body in bodies:
            inner = body if count is None else self.number(count, width) + body
            payloads.append(self.number(len(inner), width) + inner)
        return {**TEXTS, **COMPOUNDS}[kind] | (0 if width == 1 else 0x10), payloads

    def body(self, kind, parts):
        """The count of these parts, and the bytes after it."""
        if kind != "array":
            return len(parts), self.content(b"".join(map(self.encoding, parts)))
        if not parts:
            return 0, self.one((b"", self.code(self.one(CODES[1:]))))
        code, payloads = self.payloads(parts)
        return len(parts), self.content(self.code(code) + b"".join(payloads))

    # Trees.

    def many(self, tree):
        """A list or a map with many elements or entries, the last of which has this tree. A key may be repeated."""
        count = self.one(LENGTHS) + self.below(5) - 2
        kind, key = self.one((
            ("uint", lambda at: at), ("string", lambda at: b"%d" % at), ("symbol", lambda at: b"%040d" % at),
            ("uuid", lambda at: bytes([at]) * 16),
        ))
        keys = [(kind, key(at)) for at in range(count)]
        if self.below(2):
            return ("list", keys + [tree])
        if self.below(2):
            keys[-1] = self.one(keys)
        return ("map", [each for key in keys for each in (key, ("null", 0))][:-1] + [tree])

    def nested(self, tree):
        """The tree, or an encoding with a fault, in compounds that make about as many levels as are permitted."""
        if self.below(4):
            tree = ("lazy", self.one(DEEP_FAULTS))
        for _ in range(LEVELS - levels(tree) + self.below(4) - 1):
            tree = self.one((
                ("list", [tree]), ("map", [tree, ("null", 0)]), ("map", [("null", 0), tree]),
                ("described", [("ulong", 7), tree]), ("list" if tree[0] in ("described", "lazy") else "array", [tree]),
            ))
        return tree

    def without_bytes(self, tree):
        """The tree and an array whose elements have no bytes, or which has no elements and any constructor."""
        count = self.one(COUNTS) if self.below(4) else 0
        code = self.one(WITHOUT_BYTES) if count else self.one((0, self.one(CODES), self.below(256)))
        array = ("lazy", b"\xf0" + number(5, 4) + number(count, 4) + bytes([code]))
        return ("list", [array, tree] if self.below(2) else [tree, array])

    def made_of(self, tree, other):
        """A tree that is made of the first, or of both."""
        case = self.below(64)
        if case < 2:
            return self.nested(tree)
        if case < 5:
            return self.without_bytes(tree)
        if case < 8:
            return self.many(tree)
        if case < 15:
            return ("described", [self.one(DESCRIPTORS[:3]), tree])
        return (("list" if case < 30 else "map"), [tree, other]) if case < 45 else tree

    # Rows.

    def data(self, tree):
        """An encoding of the tree, whole, cut, or with bytes left over."""
        # A node has two or three parts that may have a fault.
        self.rate = self.one((0, 1, 2, 4)) / (3 * nodes(tree))
        data = self.encoding(tree)
        case = self.below(6)
        if case == 0:
            return data[:self.below(len(data) + 1)]
        return data + self.bytes(1 + self.below(4)) if case == 1 else data

    def row(self, tree, other):
        """A row of one encoding of a tree made of these: decoded, decoded with a limit, or as a lazy value."""
        data = self.data(self.made_of(tree, other))
        token = self.one(("", "limited:", "limited:", "lazy:"))
        # Without a limit, a false count could take gigabytes. An empty row is no row.
        if not data or refusal(lambda: decoded(data, LIMIT)) == LONG:
            token = "limited:"
        return token + data.hex()


def nodes(tree):
    return 1 + (sum(map(nodes, tree[1])) if isinstance(tree[1], list) else 0)


def levels(tree):
    return 1 + max(map(levels, tree[1]), default=0) if isinstance(tree[1], list) else 1


def refusal(make):
    try:
        make()
    except Refused as refused:
        return refused.args[0]


def value_of(tree):
    """The value that the bytes of the tree encode, None if they encode none."""
    try:
        return decoded(written(tree), LIMIT)
    except Refused:
        return None


def malformed(grower, trees, count):
    """So many rows, some for each of the trees whose bytes encode a value."""
    values = [value for value in map(value_of, trees) if value is not None] or [("null", 0)]
    encoder = Encoder(grower)
    return [encoder.row(values[at % len(values)], values[at // 2 % len(values)]) for at in range(count)]

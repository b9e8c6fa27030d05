"""Grows random trees, each with its row for the program tests/trees.

A row has the tokens of a tree in reverse Polish notation (tests/trees/main.rt.in). Lengths are often near the
limits of the short forms, numbers near the boundaries of their widths, and characters often those that a text escapes.
"""

from decoding import frame_len
from definitions import FIXED, RAW, SIGNED, Refused, encoding, written
from nodes import BY_CALLS, MARKS, combined, compound, image_or_itself

# The kinds of scalars. Those before `float` are numbers, those from `char` on have any length.
KINDS = (
    "null", "bool", "ubyte", "ushort", "uint", "ulong", "byte", "short", "int", "long", "timestamp", "float", "double",
    "decimal32", "decimal64", "decimal128", "uuid", "char", "binary", "symbol", "string",
)
NUMBERS, FIXED_WIDTH = KINDS[:11], KINDS[:17]

# Encodings that `to_vec` does not write, and payloads that encode no value.
LAZY_BYTES = [bytes.fromhex(digits) for digits in (
    "5601", "5602", "5200", "7000000000", "800000000000000007", "b10000000161", "b30000000161", "a101ff", "730000d800",
    "46", "c00100", "d00000000400000000", "d000000006000000015007", "c003025001", "c00401500140", "c1020140",
    "c10704405001405002", "e00100", "e0020050", "e0020341", "e0020245", "e0020100", "f000000006000000015007",
    "0080000000000000000740",
)]

# The names of the ways of `combined`.
WAYS, MARKERS = tuple(BY_CALLS), tuple(MARKS)


class Grower:
    """A source of random trees. A grown tree is a pair of the tree and the list of its tokens."""

    def __init__(self, random):
        self.random = random
        self.pile = []

    def below(self, end):
        """A number below `end`."""
        return int(self.random.random() * end)

    # Numbers, lengths and contents.

    def number(self):
        """A number of 64 bits, often at a boundary of the widths."""
        near = self.below(8)
        return (
            near & 1, 124 + near, 252 + near, 65_532 + near, 4_294_967_292 + near, (near - 4) % 2 ** 64,
            self.random.getrandbits(64),
        )[self.below(7)]

    def length(self):
        """The length of a text or a list: mostly small, at times near the limit of the short forms."""
        case = self.below(16)
        if case == 0:
            return 250 + self.below(9)
        if case == 1:
            return 236 + self.below(24)
        return 120 + self.below(10) if case == 2 else self.below(4)

    def character(self):
        """The code of a character, often one that is escaped in a text."""
        code = (
            self.below(32), 127, 128 + self.below(2000), 0xD7F0 + self.below(0x820), 0x10000 + self.below(0x100000),
            32 + self.below(96), 32 + self.below(96), 32 + self.below(96),
        )[self.below(8)]
        return ord("\\") if 0xD800 <= code < 0xE000 else code

    def text(self):
        length, ascii_only = self.length(), self.below(3) > 0
        return "".join("a" if ascii_only else chr(self.character()) for _ in range(length)).encode()

    def raw(self, length):
        return bytes(self.below(256) for _ in range(length))

    def binary(self):
        """Bytes of a length that is often 4, 8 or 16."""
        case = self.below(6)
        return self.raw((4, 8, 16)[case] if case < 3 else self.length())

    def content(self, kind):
        """The content of a scalar of this kind."""
        if kind in NUMBERS:
            width = FIXED[kind][1]
            low = self.number() % 2 ** (8 * width)
            if kind == "bool":
                return low & 1
            return low - 2 ** (8 * width) if kind in SIGNED and low >> (8 * width - 1) else low
        if kind in RAW:
            return self.raw(FIXED[kind][1])
        if kind in FIXED_WIDTH:
            return self.random.getrandbits(8 * FIXED[kind][1])
        if kind == "char":
            return self.character()
        return self.binary() if kind == "binary" else self.text()

    # Trees. Those that are made of others take them from the end of the pile.

    def scalar(self, kind):
        tree = (kind, self.content(kind))
        return tree, [encoding(tree).hex()]

    def leaf(self):
        return self.scalar(KINDS[self.below(21)])

    def taken(self):
        """The last tree of the pile, or a leaf if it is empty."""
        return self.pile.pop() if self.pile else self.leaf()

    def compound(self, count):
        parts = [self.taken() for _ in range(count)]
        return whole(("array", "transparent", "map", "list", "list")[self.below(5)], parts)

    def wrapped(self):
        """An array of compounds of one kind, each with one element."""
        kind = ("list", "map", "array", "list")[self.below(4)]
        return whole("array", [whole(kind, [self.taken()]) for _ in range(self.below(4))])

    def alike(self):
        """A compound of scalars of one kind, often near the limit of the short forms."""
        kind = KINDS[self.below(21)]
        count = self.length() if kind in FIXED_WIDTH else self.below(4)
        parts = [self.scalar(kind) for _ in range(count)]
        return whole(("array", "transparent", "map", "list")[self.below(4)], parts)

    def lazy(self):
        """The lazy value of a tree, possibly with one bit flipped; the tree itself if it has none."""
        tree, tokens = self.taken()
        try:
            data = written(tree)
        except Refused:
            return tree, tokens
        if frame_len(data) != len(data):
            return tree, tokens
        if self.below(2):
            data = self.altered(data)
        return lazy_of(data)

    def altered(self, data):
        """The bytes with one bit flipped; unaltered if these are not exactly one encoded value.

        Bytes that may contain an array are unaltered too: with another count it could represent gigabytes.
        """
        if 0xE0 in data or 0xF0 in data:
            return data
        other = bytearray(data)
        other[self.below(len(data))] ^= 1 << self.below(8)
        return bytes(other) if frame_len(other) == len(other) else data

    def image(self):
        tree, tokens = self.taken()
        return image_or_itself(tree), tokens + ["image"]

    def fed(self):
        """Three trees combined with explicit serializer calls."""
        case = self.below(24)
        way = WAYS[case] if case < len(WAYS) else MARKERS[self.below(len(MARKERS))]
        parts = [self.taken() for _ in range(3)]
        return combined(way, *(tree for tree, _ in parts)), tokens_of(parts, way)

    def step(self):
        """A leaf, or one tree made of some trees of the pile."""
        case = self.below(12)
        if case < 2:
            return self.compound(self.below(4))
        if case == 5:
            return lazy_of(LAZY_BYTES[self.below(len(LAZY_BYTES))])
        if case < 10:
            made = {2: self.wrapped, 3: self.alike, 4: self.lazy, 6: self.image}
            return made.get(case, self.fed)()
        return self.leaf()

    def tree(self):
        """The last of some trees, or a compound of all that are left of them."""
        self.pile = []
        for _ in range(1 + self.below(12)):
            self.pile.append(self.step())
        return self.taken() if self.below(3) else self.compound(len(self.pile))


def tokens_of(parts, last):
    return [token for _, tokens in parts for token in tokens] + [last]


def whole(name, parts):
    return compound(name, [tree for tree, _ in parts]), tokens_of(parts, f"{name}:{len(parts)}")


def lazy_of(data):
    return ("lazy", data), ["lazy:" + data.hex()]


def rows(grower, count):
    """Random trees, each with its row."""
    for _ in range(count):
        tree, tokens = grower.tree()
        yield tree, " ".join(tokens)

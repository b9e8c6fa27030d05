"""The encodings of AMQP 1.0 part 1, section 1.6: the codes, and the bytes of a tree. decoding.py reads them.

A tree is a tuple of its kind and its content; None has no tree.
"""

INVALID, EOF, CODE = "<invalid value>", "<unexpected end of input>", "<invalid format code>"
FAULTS = (INVALID, EOF, CODE)
LONG = "<too long>"

# Kind: code in an array, and the bytes of its payload there; texts and compounds stand apart.
FIXED = {
    "null": (0x40, 0), "bool": (0x56, 1), "ubyte": (0x50, 1), "ushort": (0x60, 2), "uint": (0x70, 4), "ulong": (0x80, 8),
    "byte": (0x51, 1), "short": (0x61, 2), "int": (0x71, 4), "long": (0x81, 8), "float": (0x72, 4), "double": (0x82, 8),
    "decimal32": (0x74, 4), "decimal64": (0x84, 8), "decimal128": (0x94, 16), "char": (0x73, 4),
    "timestamp": (0x83, 8), "uuid": (0x98, 16),
}
SIGNED = {"byte", "short", "int", "long", "timestamp"}
RAW = {"decimal32", "decimal64", "decimal128", "uuid"}
TEXTS = {"binary": 0xA0, "string": 0xA1, "symbol": 0xA3}
COMPOUNDS = {"list": 0xC0, "map": 0xC1, "array": 0xE0}

# Code of a shorter form of a scalar, or of the empty list: kind, bytes of its payload, and the content if it has none.
SHORT = {
    0x41: ("bool", 0, 1), 0x42: ("bool", 0, 0), 0x43: ("uint", 0, 0), 0x44: ("ulong", 0, 0), 0x45: ("list", 0, []),
    0x52: ("uint", 1, None), 0x53: ("ulong", 1, None), 0x54: ("int", 1, None), 0x55: ("long", 1, None),
}


class Refused(Exception):
    """A refusal, with its text."""


# The bytes of a tree.


def number(n, width):
    return n.to_bytes(width, "big", signed=n < 0)


def raw(kind, content):
    return content if kind in RAW else number(content, FIXED[kind][1])


def constructor(tree):
    kind = tree[0]
    if kind in FIXED:
        return FIXED[kind][0]
    if kind in TEXTS:
        return TEXTS[kind] | 0x10
    if kind in COMPOUNDS:
        return COMPOUNDS[kind] | 0x10
    if kind == "variant":
        return 0xD1
    raise Refused(INVALID)


def body(kind, parts):
    """The bytes after the count, and the count."""
    if kind != "array":
        return b"".join(map(encoding, parts)), len(parts)
    if not parts:
        return b"", 0
    codes = {constructor(part) for part in parts}
    if len(codes) > 1:
        raise Refused(INVALID)
    return bytes(codes) + b"".join(map(payload, parts)), len(parts)


def payload(tree):
    """A tree as an array's element, without its constructor."""
    kind, content = tree
    if kind == "null":
        return b""
    if kind in FIXED:
        return raw(kind, content)
    if kind in TEXTS:
        return number(len(content), 4) + content
    inner, count = body("map" if kind == "variant" else kind, content)
    return number(len(inner) + 4, 4) + number(count, 4) + inner


def encoding(tree):
    kind, content = tree
    if kind == "bool":
        return b"\x41" if content else b"\x42"
    if kind in ("uint", "ulong") and content < 256:
        zero, small = (0x43, 0x52) if kind == "uint" else (0x44, 0x53)
        return bytes([small, content] if content else [zero])
    if kind in ("int", "long") and -128 <= content < 128:
        return bytes([0x54 if kind == "int" else 0x55]) + number(content, 1)
    if kind in FIXED:
        return bytes([FIXED[kind][0]]) + (raw(kind, content) if FIXED[kind][1] else b"")
    if kind in TEXTS:
        short = len(content) < 255
        return bytes([TEXTS[kind] if short else TEXTS[kind] | 0x10]) + number(len(content), 1 if short else 4) + content
    if kind == "lazy":
        return content
    if kind == "transparent":
        raise Refused(INVALID)
    if kind == "described":
        return b"\0" + encoding(content[0]) + encoding(content[1])
    kind = "map" if kind == "variant" else kind
    inner, count = body(kind, content)
    if kind == "list" and not inner:
        return b"\x45"
    if len(inner) < 255 and count < 256:
        return bytes([COMPOUNDS[kind], len(inner) + 1, count]) + inner
    return bytes([COMPOUNDS[kind] | 0x10]) + number(len(inner) + 4, 4) + number(count, 4) + inner


def written(tree):
    """The bytes of a tree by itself: only there are transparent trees written, and directly in one another."""
    if tree is None:
        raise Refused(INVALID)
    if tree[0] == "transparent":
        return b"".join(map(written, tree[1]))
    return encoding(tree)

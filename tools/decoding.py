"""Decodes bytes (AMQP 1.0 part 1, sections 1.2 and 1.6): the value that they encode, or the error of the first fault.

No contract and no page says which error is returned for bytes with several faults. `decode_value` reads the bytes once, from
the first to the last, and returns the error of the first fault that it meets. Its tests, in their order:

A value. The root is on level 1, an element, a key or a value of a compound one level below it.
1. Invalid value if its level is over 256, even if no bytes are left.
2. Unexpected end if no byte is left for the code. Only the bytes of the innermost compound are left, whatever follows it.
3. Invalid format code if the byte is none.
4. Unexpected end if fewer bytes are left than the size has, and then if fewer are left than the payload has. The payload is
   cut off before anything in it is read.
5. The content of the payload, below.

A described value, after the code 00. Its descriptor has no level of its own.
1. The code of the descriptor: unexpected end if there is none, invalid value if it is 00, invalid format code if it is none.
2. Its size and its payload, as for a value.
3. Invalid value if it is neither a ulong nor a symbol, whatever is in its payload, or if the symbol is not UTF-8.
4. The value, one level below, from its test 1 on. So a fault of the descriptor comes before a level over 256.

A scalar. Invalid value for a text that is not UTF-8, a boolean that is neither 00 nor 01, and a char that is no Unicode
scalar value.

A list, a map or an array.
1. Unexpected end if its payload is shorter than the count.
2. Invalid value if the count of a map is odd, before the first key is read. A count is not compared with the size.
3. The constructor of an array: unexpected end if there is none, unless the count is 0; invalid value if it is 00;
   invalid format code if it is none. With a count of 0 it is tested too, if there is one.
4. Too long if an array has more elements than the arrays before it leave of the limit, and these have no bytes.
   `decode_value` has no limit.
5. The elements in their order, a key before its value. An element of an array has the tests 1, 4 and 5 of a value.
6. Invalid value if bytes of the payload are left.

The whole: invalid value if bytes are left after the first value.
"""

from definitions import CODE, COMPOUNDS, EOF, FIXED, INVALID, LONG, RAW, SHORT, SIGNED, TEXTS, Refused

# Code: kind, bytes of the payload, and the content if it has none.
SCALARS = {**{code: (kind, width, None) for kind, (code, width) in FIXED.items()}, **SHORT}
# Code: kind, bytes of the size and of the count.
SIZED = {
    code | long: (kind, width)
    for kind, code in {**TEXTS, **COMPOUNDS}.items() for long, width in ((0, 1), (0x10, 4))
}
LEVELS = 256


def frozen(tree):
    kind, content = tree
    return (kind, tuple(map(frozen, content)) if isinstance(content, list) else content)


def gathered(parts):
    """A map: a present key keeps its place and takes the new value."""
    entries = {}
    for key, value in zip(parts[::2], parts[1::2]):
        name = frozen(key)
        entries[name] = (entries[name][0] if name in entries else key, value)
    return ("map", [each for entry in entries.values() for each in entry])


def frame_len(data):
    """The length of the first encoded value, None where there is none. Payloads are not looked into."""
    at, wanted = 0, 1
    while wanted:
        if at >= len(data):
            return None
        code, at, wanted = data[at], at + 1, wanted - 1
        if code == 0:
            wanted += 2
            continue
        if code < 0x40 or code & 15 == 15:
            return None
        high = code >> 4
        width = {0xA: 1, 0xC: 1, 0xE: 1, 0xB: 4, 0xD: 4, 0xF: 4}.get(high, 0)
        if at + width > len(data):
            return None
        length = int.from_bytes(data[at:at + width], "big") if width else {4: 0, 5: 1, 6: 2, 7: 4, 8: 8, 9: 16}[high]
        at += width + length
        if at > len(data):
            return None
    return at


def decoded(data, limit=None):
    """The value that the bytes stand for, in whose arrays are at most `limit` elements without bytes."""
    left = None if limit is None else [limit]
    tree, at = value(data, 0, LEVELS, left)
    if at != len(data):
        raise Refused(INVALID)
    return tree


def take(data, at, count):
    if at + count > len(data):
        raise Refused(EOF)
    return data[at:at + count], at + count


def primitive(code):
    """Refuses a code that is none of a primitive type."""
    if code == 0:
        raise Refused(INVALID)
    if code not in SCALARS and code not in SIZED:
        raise Refused(CODE)


def value(data, at, depth, left):
    """The value at this place, which may have so many levels, and the place after it."""
    if depth == 0:
        raise Refused(INVALID)
    (code,), at = take(data, at, 1)
    if code:
        primitive(code)
        return contents(code, data, at, depth, left)
    descriptor, at = descriptor_at(data, at)
    tree, at = value(data, at, depth - 1, left)
    return ("described", [descriptor, tree]), at


def descriptor_at(data, at):
    (code,), at = take(data, at, 1)
    primitive(code)
    inner, at = payload(code, data, at)
    kind = (SCALARS.get(code) or SIZED[code])[0]
    if kind not in ("ulong", "symbol"):
        raise Refused(INVALID)
    return scalar(code, inner), at


def payload(code, data, at):
    """The payload of this code at this place, without its size, and the place after it."""
    if code in SCALARS:
        return take(data, at, SCALARS[code][1])
    size, at = take(data, at, SIZED[code][1])
    return take(data, at, int.from_bytes(size, "big"))


def contents(code, data, at, depth, left):
    """The value of this code whose payload is at this place, and the place after it."""
    inner, at = payload(code, data, at)
    if code in SIZED and SIZED[code][0] in COMPOUNDS:
        return compound(*SIZED[code], inner, depth, left), at
    return scalar(code, inner), at


def scalar(code, inner):
    if code in SIZED:
        kind = SIZED[code][0]
        if kind != "binary":
            utf8(inner)
        return (kind, inner)
    kind, _, content = SCALARS[code]
    if content is not None:
        return (kind, content)
    content = inner if kind in RAW else int.from_bytes(inner, "big", signed=kind in SIGNED)
    if kind == "bool" and content > 1 or kind == "char" and (content > 0x10FFFF or 0xD800 <= content < 0xE000):
        raise Refused(INVALID)
    return (kind, content)


def utf8(data):
    try:
        return data.decode("utf-8")
    except UnicodeDecodeError:
        raise Refused(INVALID) from None


def compound(kind, width, inner, depth, left):
    """The list, map or array of this payload, whose elements may have `depth - 1` levels."""
    count, at = take(inner, 0, width)
    count = int.from_bytes(count, "big")
    if kind == "map" and count % 2:
        raise Refused(INVALID)
    code = None
    if kind == "array" and (count or at < len(inner)):
        (code,), at = take(inner, at, 1)
        primitive(code)
        if left is not None and code in SCALARS and SCALARS[code][1] == 0:
            if count > left[0]:
                raise Refused(LONG)
            left[0] -= count
    parts = []
    for _ in range(count):
        part, at = element(code, inner, at, depth - 1, left)
        parts.append(part)
    if at != len(inner):
        raise Refused(INVALID)
    return gathered(parts) if kind == "map" else (kind, parts)


def element(code, data, at, depth, left):
    """The element at this place, and the place after it. An element of an array has the code of the constructor."""
    if code is None:
        return value(data, at, depth, left)
    if depth == 0:
        raise Refused(INVALID)
    return contents(code, data, at, depth, left)

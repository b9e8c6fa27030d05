"""The trees of the nodes that the program tests/trees makes, their images, and the tree of a row.

A tree is a tuple of its kind and its content (definitions.py). A node that has no tree is None. The image of a lazy part
is the value that its bytes encode, at most 256 deep.
"""

from decoding import decoded, frame_len, gathered
from definitions import INVALID, Refused


# The limit of the token `limited` (tests/trees/row.rt.in).
LIMIT = 1000


def of(kind, parts):
    return None if None in parts else (kind, parts)


def pairs(parts):
    return None if None in parts or len(parts) % 2 else ("map", parts)


def described(descriptor, tree):
    if descriptor is None or tree is None or descriptor[0] not in ("ulong", "symbol"):
        return None
    return ("described", [descriptor, tree])


def variant(index, tree):
    return None if tree is None else ("variant", [("uint", index), tree])


def named(name):
    return ("string", name)


# Way to combine three nodes: the tree.
BY_CALLS = {
    "described": lambda a, b, c: described(a, b),
    "newtype": lambda a, b, c: variant(1, a),
    "bare": lambda a, b, c: a,
    "nameless": lambda a, b, c: None,
    "variant": lambda a, b, c: variant(256, of("list", [a, b])),
    "entry": lambda a, b, c: pairs([a, b]),
    "entries": lambda a, b, c: pairs([a, b, c, a]),
    "key_alone": lambda a, b, c: None,
    "value_first": lambda a, b, c: pairs([a, b]),
    "two_keys": lambda a, b, c: pairs([a, b]),
    "entry_within": lambda a, b, c: pairs([a, b]),
    "list_composite": lambda a, b, c: described(a, of("list", [b, c])),
    "map_composite": lambda a, b, c: described(a, pairs([named(b"a"), b, named(b"b"), c])),
    "basic": lambda a, b, c: described(a, b),
    "wrong_descriptor": lambda a, b, c: described(a, of("list", [b])),
}

# Marker: the kind that it is put on, the kind that it makes, and the length of its bytes.
MARKS = {
    "SYMBOL": ("string", "symbol", None), "TIMESTAMP": ("long", "timestamp", None),
    "DECIMAL32": ("binary", "decimal32", 4), "DECIMAL64": ("binary", "decimal64", 8),
    "DECIMAL128": ("binary", "decimal128", 16), "UUID": ("binary", "uuid", 16),
    "ARRAY": ("list", "array", None), "TRANSPARENT_VEC": ("list", "transparent", None),
    "LAZY_VALUE": ("binary", "lazy", None), "OTHER": (None, None, None),
}


def marked(mark, tree):
    over, made, length = MARKS[mark]
    if tree is None or over is None:
        return tree
    kind, content = tree
    if kind != over or (length is not None and len(content) != length):
        return None
    if made == "lazy" and frame_len(content) != len(content):
        return None
    return (made, content)


def compound(name, parts):
    """The tree of the list, array, map or transparent vector of these trees."""
    if name == "map":
        return pairs([each for key, part in enumerate(parts) for each in (("uint", key), part)])
    return of(name, parts)


def combined(way, first, second, third):
    """The tree of three trees that are combined in this way."""
    return BY_CALLS[way](first, second, third) if way in BY_CALLS else marked(way, first)


def image(tree):
    if tree is None:
        raise Refused(INVALID)
    kind, content = tree
    if kind == "lazy":
        return decoded(content)
    if kind in ("list", "array", "transparent"):
        return ("array" if kind == "array" else "list", [image(part) for part in content])
    if kind in ("map", "variant"):
        return gathered([image(part) for part in content])
    if kind == "described":
        return ("described", [content[0], image(content[1])])
    return tree


def image_or_itself(tree):
    try:
        return image(tree)
    except Refused:
        return tree


# The tree of a row.


def popped(stack, count):
    """The last trees of the stack, which leave it, in the order in which they were pushed."""
    if len(stack) < count:
        raise Refused("<too few nodes>")
    at = len(stack) - count
    parts = stack[at:]
    del stack[at:]
    return parts


def bytes_of(digits):
    try:
        return bytes.fromhex(digits)
    except ValueError:
        raise Refused("<no hexadecimal>") from None


def with_argument(stack, name, argument):
    if name == "lazy":
        content = bytes_of(argument)
        if frame_len(content) != len(content):
            raise Refused(INVALID)
        return ("lazy", content)
    if name == "limited":
        return decoded(bytes_of(argument), LIMIT)
    if not argument.isdecimal():
        raise Refused("<no number>")
    parts = popped(stack, int(argument))
    if name not in ("list", "array", "map", "transparent"):
        raise Refused("<no such compound>")
    return compound(name, parts)


def pushed(stack, token):
    name, colon, argument = token.partition(":")
    if colon:
        return with_argument(stack, name, argument)
    if name in BY_CALLS or name in MARKS:
        return combined(name, *popped(stack, 3))
    if name == "image":
        return image_or_itself(*popped(stack, 1))
    return decoded(bytes_of(name))


def tree_of(row):
    """The tree of a row in reverse Polish notation (tests/trees/main.rt.in)."""
    stack = []
    for token in row.split(" "):
        stack.append(pushed(stack, token))
    (tree,) = popped(stack, 1)
    if stack:
        raise Refused("<several nodes>")
    return tree

"""Families of bytes that a stranger may send: each has a group, and is made in any size.

`FAMILIES` has for each name its group and a function from a size, which the bytes have within a few hundred.
"""

import struct

NULL = b"\x40"
# The state of the kit's hasher at its start, and after the number of the variant `Value::Ulong`.
START, ULONG = 0x243F6A8885A308D3, 6
PRODUCT = (START ^ ULONG) * (0x9E3779B97F4A7C15 ^ 16)
AFTER_KIND = (PRODUCT & 0xFFFFFFFFFFFFFFFF) ^ (PRODUCT >> 64)
FAMILIES = {}
# Prints numbers of one bucket: a function from a state and how many, which tools/costs sets.
keys_of = None


def compound(code, body, count):
    return bytes([code]) + struct.pack(">II", len(body) + 4, count) + body


def list_of(items, count=None):
    return compound(0xD0, b"".join(items), len(items) if count is None else count)


def short_list(items):
    body = b"".join(items)
    return b"\xc0" + bytes([len(body) + 1, len(items)]) + body


def map_of(pairs, count=None):
    return compound(0xD1, b"".join(k + v for k, v in pairs), 2 * len(pairs) if count is None else count)


def array_of(code, payloads, count=None):
    return compound(0xF0, bytes([code]) + b"".join(payloads), len(payloads) if count is None else count)


def long(code, content):
    return bytes([code]) + struct.pack(">I", len(content)) + content


def short(code, content):
    return bytes([code, len(content)]) + content


def uint(n):
    return b"\x70" + struct.pack(">I", n)


def ulong(n):
    return b"\x80" + struct.pack(">Q", n)


def fill(item, size):
    """As many of these as fit beside the head of a compound."""
    return [item] * max(1, (size - 9) // len(item))


def levels(count, wrap, inner=NULL):
    for _ in range(count):
        inner = wrap(inner)
    return inner


def in_list(it):
    return short_list([it]) if len(it) < 253 else list_of([it])


def in_map(it):
    return map_of([(NULL, it)])


def as_key(it):
    return map_of([(it, NULL)])


DESCRIBED = b"\x00\x44" * 250
NULLS_255, NULLS_65535 = b"\xe0\x02\xff\x40", b"\xf0\x00\x00\x00\x05\x00\x00\xff\xff\x40"
LISTS = {
    "small": {
        "nulls": NULL,
        "list0s": b"\x45",
        "list8_empty": b"\xc0\x01\x00",
        "lists_of_one": b"\xc0\x02\x01\x40",
        "maps_of_none": b"\xc1\x01\x00",
        "maps_of_one": b"\xc1\x03\x02\x40\x40",
        "arrays_empty": b"\xe0\x01\x00",
        "arrays_of_one": b"\xe0\x02\x01\x40",
    },
    "described": {
        "described_small": b"\x00\x44\x40",
        "described_symbol": b"\x00\xa3\x01a\x40",
        "described_long_symbol": b"\x00" + short(0xA3, b"amqp:" + b"x" * 200) + NULL,
        "described_type": b"\x00\x53\x73\x45",
        "properties": b"\x00\x53\x73" + short_list([NULL] * 13),
        "attach_states": b"\x00\x53\x34" + short_list([b"\xa0\x01a", b"\x00\x53\x24\x45"]),
    },
    "empty": {"arrays_of_255_nulls": NULLS_255, "arrays_of_255_lists": b"\xe0\x02\xff\x45", "arrays_of_65535_nulls": NULLS_65535},
    "scalars": {
        "doubles_near_zero": b"\x82" + struct.pack(">d", 5e-324),
        "doubles_large": b"\x82" + struct.pack(">d", 1.7976931348623157e308),
        "doubles_between": b"\x82" + struct.pack(">d", 9007199254740993e-150),
        "floats": b"\x72" + struct.pack(">f", 1e-45),
        "timestamps_first": b"\x83" + struct.pack(">q", -(1 << 63)),
        "timestamps": b"\x83" + struct.pack(">q", 1764400000123),
        "ulongs": b"\x80" + b"\xff" * 8,
        "longs": b"\x81\x80" + b"\0" * 7,
        "uuids": b"\x98" + b"\xab" * 16,
        "decimals": b"\x94" + b"\xab" * 16,
        "chars": b"\x73\x00\x01\xf6\x00",
    },
    "texts": {"strings_empty": b"\xa1\x00", "strings_of_one": b"\xa1\x01a", "symbols_of_one": b"\xa3\x01a", "binaries_of_one": b"\xa0\x01a"},
    "levels": {
        "descriptors_deep": DESCRIBED + NULL,
        "lists_deep": levels(250, in_list),
        "maps_deep": levels(120, in_map),
        "keys_deep": levels(120, as_key),
    },
}
ARRAYS = {
    "maps_of_one": (0xC1, b"\x03\x02\x40\x40"),
    "empty_lists": (0xC0, b"\x01\x00"),
    "lists_of_one": (0xC0, b"\x02\x01\x40"),
    "ulongs": (0x53, b"\x01"),
    "ubytes": (0x50, b"\x01"),
    "booleans": (0x56, b"\x01"),
    "empty_symbols": (0xA3, b"\x00"),
    "symbols_of_one": (0xA3, b"\x01a"),
    "empty_binaries": (0xA0, b"\x00"),
}
TEXTS = {
    "ascii": (0xB1, b"a"),
    "control": (0xB1, b"\x01"),
    "quotes": (0xB1, b'"'),
    "of_2_bytes": (0xB1, "é".encode()),
    "of_4_bytes": (0xB1, "\U0001f600".encode()),
    "reversing": (0xB1, "\u202e".encode()),
    "symbol": (0xB3, b"a"),
    "binary": (0xB0, b"\xff"),
}
# A list of these, and one byte that is no constructor.
BAD_AT_THE_END = {"nulls": NULL, "lists_deep": levels(250, in_list), "maps_of_one": b"\xc1\x03\x02\x40\x40"}
BAD_AFTER_EMPTY = {"arrays_of_255_nulls": NULLS_255, "arrays_of_65535_nulls": NULLS_65535}
# What is repeated without a compound around it.
REPEATED = {
    "many": {"nulls": NULL, "data_sections": b"\x00\x53\x75\xa0\x00", "sequence_sections": b"\x00\x53\x76\x45", "lists_deep": levels(250, in_list)},
    "frames": {
        "heartbeats": b"\x00\x00\x00\x08\x02\x00\x00\x00",
        "ends": b"\x00\x00\x00\x0c\x02\x00\x00\x00\x00\x53\x17\x45",
        "far_offsets": b"\x00\x00\x03\xfc\xff\x00\x00\x00" + b"\0" * 1012,
        "bad_performatives": b"\x00\x00\x00\x09\x02\x00\x00\x00\x46",
        "transfers": b"\x00\x00\x00\x10\x02\x00\x00\x00\x00\x53\x14\xc0\x03\x01\x52\x01",
        "protocols": b"AMQP\x00\x01\x00\x00",
    },
    "lines": {"hexadecimal": b"d0", "spaces": b" ", "lines": b"a\n", "letters": b"a", "words": b"/0", "dots": b"a."},
    "levels": {"zeros": b"\x00"},
}


def map_of_map_keys(n):
    def made(depth, last):
        return map_of([(made(depth - 1, last), NULL), (made(depth - 1, last - 1), NULL)]) if depth else uint(last)

    depth = 1
    while len(made(depth + 1, 1 << 20)) < n:
        depth += 1
    return made(depth, 1 << 20)


def short_keys(code, count):
    """Different keys of four letters, the last one first."""
    letters = [bytes([97 + i % 26, 97 + i // 26 % 26, 97 + i // 676 % 26, 97 + i // 17576]) for i in range(count)]
    return [short(code, it) for it in reversed(letters)]


def map_with_a_long_key(n, code, is_repeated=False):
    keys = [long(code | 0x10, b"b" * 300), *short_keys(code, (n - 330) // 7)]
    return map_of([(it, NULL) for it in [*keys, *keys[1:2] * is_repeated]])


def map_to_nulls(keys):
    return map_of([(it, NULL) for it in keys])


def one_hash(n):
    return map_to_nulls(ulong(it) for it in reversed(keys_of(AFTER_KIND, n // 10)))


def frame(body):
    return struct.pack(">IBBH", len(body) + 8, 2, 0, 0) + body


def opening(fields):
    return frame(b"\x00\x53\x10" + list_of([b"\xa1\x01a", *fields]))


def message(code, section):
    return b"\x00\x53" + bytes([code]) + section + b"\x00\x53\x77\x40"


MADE = {
    "refused": {
        "text_bad_at_its_end": lambda n: long(0xB1, "é".encode() * (n // 2) + b"\xc3"),
        "strings_then_bad": lambda n: list_of([*fill(b"\xa1\x01a", n), b"\xa1\x01\xc3"]),
        "list_of_false_count": lambda n: list_of(fill(NULL, n), 0xFFFFFFFF),
        "map_of_false_count": lambda n: map_of([(uint(i), NULL) for i in range(n // 6)], 0xFFFFFFFE),
        "map_of_odd_count": lambda n: map_of([(uint(i), NULL) for i in range(n // 6)], 1),
    },
    "levels": {
        "descriptors_then_list": lambda n: DESCRIBED + list_of(fill(NULL, n - 600)),
        "lists_then_nulls": lambda n: levels(250, in_list, list_of(fill(NULL, n - 2300))),
        "zeros_then_nulls": lambda n: b"\x00" * (n // 2) + NULL * (n // 2),
    },
    "empty": {
        "array_of_arrays_of_nulls": lambda n: array_of(0xE0, fill(b"\x02\xff\x40", n)),
        "array_of_zeros": lambda _: array_of(0x44, [], 65535),
        "maps_then_arrays": lambda n: levels(250, in_map, list_of(fill(NULLS_255, n - 2800))),
        "lists_then_arrays": lambda n: levels(250, in_list, list_of(fill(NULLS_255, n - 2300))),
        "descriptors_then_arrays": lambda n: DESCRIBED + list_of(fill(NULLS_255, n - 600)),
        "open_with_nulls": lambda _: opening([NULL] * 8 + [array_of(0x40, [], 0xFFFFF)]),
        "body_of_nulls": lambda _: b"\x00\x53\x77" + array_of(0x40, [], 0xFFFFF),
    },
    "maps": {
        "map_ascending": lambda n: map_to_nulls(uint(i + 1) for i in range(n // 6)),
        "map_descending": lambda n: map_to_nulls(uint((1 << 30) - i) for i in range(n // 6)),
        "map_of_equal_keys": lambda n: map_to_nulls([NULL] * (n // 2)),
        "map_of_equal_long_keys": lambda n: map_to_nulls([long(0xB1, b"a" * 300)] * (n // 306)),
        "map_of_long_prefixes": lambda n: map_to_nulls(long(0xB1, b"a" * 296 + b"%04d" % (9999 - i)) for i in range(n // 306)),
        "map_of_prefixes": lambda n: map_to_nulls(short(0xA1, b"a" * 246 + b"%04d" % (9999 - i)) for i in range(n // 253)),
        "map_of_list_keys": lambda n: map_to_nulls(short_list([NULL] * 56 + [uint(9999 - i)]) for i in range(n // 70)),
        "map_of_binary_keys": lambda n: map_to_nulls(short(0xA0, b"a" * 28 + uint((1 << 30) - i)[1:]) for i in range(n // 36)),
        "map_of_long_binary_keys": lambda n: map_to_nulls(long(0xB0, b"a" * 286 + uint((1 << 30) - i)[1:]) for i in range(n // 300)),
        "map_of_map_keys": map_of_map_keys,
    },
    "long_key": {
        "map_of_uints_and_a_long_key": lambda n: map_to_nulls([long(0xB1, b"a" * 300), *(uint((1 << 30) - i) for i in range((n - 310) // 6))]),
        "map_of_strings_and_a_long_key": lambda n: map_with_a_long_key(n, 0xA1),
        "map_of_symbols_and_a_long_key": lambda n: map_with_a_long_key(n, 0xA3),
        "map_with_a_repeated_key": lambda n: map_with_a_long_key(n, 0xA1, True),
    },
    "one_hash": {
        "map_of_one_hash": one_hash,
        "map_of_one_hash_ascending": lambda n: map_to_nulls(ulong(it) for it in keys_of(AFTER_KIND, n // 10)),
        "map_of_numbers_of_one_hash": lambda n: map_of([(ulong(it), b"\x53\x01") for it in reversed(keys_of(START, n // 11))]),
    },
    "frames": {
        "frame_of_zeros": lambda n: frame(b"\x00" * n),
        "open_with_a_map": lambda n: opening([NULL] * 8 + [map_with_a_long_key(n - 60, 0xA3)]),
        "open_with_symbols": lambda n: opening([NULL] * 6 + [array_of(0xA3, fill(b"\x00", n - 60))]),
        "open_with_more_fields": lambda n: opening([NULL] * 9 + fill(NULL, n - 60)),
    },
    "messages": {
        "properties_with_a_long_key": lambda n: message(0x74, map_with_a_long_key(n, 0xA1, True)),
        "properties_of_prefixes": lambda n: message(0x74, MADE["maps"]["map_of_prefixes"](n)),
        "annotations_with_a_long_key": lambda n: message(0x72, map_with_a_long_key(n, 0xA3)),
        "annotations_of_one_hash": lambda n: message(0x72, one_hash(n)),
    },
}


def note_tables():
    """Notes the families of the tables."""

    def note(group, name, made):
        FAMILIES[name] = (group, made)

    for group, items in LISTS.items():
        for name, item in items.items():
            note(group, name, lambda n, item=item: list_of(fill(item, n)))
    for name, (code, payload) in ARRAYS.items():
        note("arrays", f"array_of_{name}", lambda n, code=code, payload=payload: array_of(code, fill(payload, n)))
    for name, (code, letter) in TEXTS.items():
        note("texts", f"text_{name}", lambda n, code=code, letter=letter: long(code, letter * (n // len(letter))))
    for group, items in (("refused", BAD_AT_THE_END), ("empty", BAD_AFTER_EMPTY)):
        for name, item in items.items():
            note(group, f"{name}_then_bad", lambda n, item=item: list_of([*fill(item, n), b"\x46"]))
    for group, items in REPEATED.items():
        for name, item in items.items():
            note(group, f"only_{name}", lambda n, item=item: item * max(1, n // len(item)))
    for group, items in MADE.items():
        for name, made in items.items():
            note(group, name, made)


note_tables()

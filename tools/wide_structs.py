"""Random structs for tools/widths: their annotated text, and encodings of their values."""

import re

from definitions import encoding

MOST_FIELDS = 32
UNSIGNED = {"u8": ("ubyte", 8), "u16": ("ushort", 16), "u32": ("uint", 32), "u64": ("ulong", 64)}
SIGNED = {"i8": ("byte", 8), "i16": ("short", 16), "i32": ("int", 32), "i64": ("long", 64), "Timestamp": ("timestamp", 64)}
BYTES = {"Dec32": ("decimal32", 4), "Dec64": ("decimal64", 8), "Dec128": ("decimal128", 16), "Uuid": ("uuid", 16)}
TEXTS = {"String": "string", "Symbol": "symbol", "ByteBuf": "binary"}
BITS = {"F32Bits": ("float", 4), "F64Bits": ("double", 8)}
PLAIN = [*UNSIGNED, *SIGNED, *BYTES, *TEXTS, *BITS, "bool", "char"]
HOLDERS = ("Vec<{}>", "Array<{}>", "OrderedMap<Symbol, {}>", "Box<{}>")
OTHERS = ("Value", "Place", "Side")
IMPORTS = (
    ("crate::held", "Place Side"), ("serde_amqp", "Value"),
    ("serde_amqp::primitives", "Array ByteBuf Dec32 Dec64 Dec128 F32Bits F64Bits OrderedMap Symbol Timestamp Uuid"))
HELD = """//! The types of fields.

use serde_amqp::primitives::Symbol;

/// A place.
// amqp: encoding = "list"
#[derive(Debug, PartialEq, Drop)]
pub struct Place {
    pub x: i32,
    pub name: Symbol,
    pub level: Option<u8>,
}

/// One of two symbols.
// amqp: encoding = "restricted", source = "Symbol", values = ["east", "west"]
#[derive(Debug, PartialEq, Drop)]
pub enum Side {
    East,
    West,
}
"""


class Struct:
    """A random struct: its annotation, and of each field its type, whether it is optional, and its default."""

    def __init__(self, chance, name, count):
        self.chance, self.name = chance, name
        self.is_map = chance.random() < 0.4
        self.code, self.symbol = chance.choice((None, 0x70 + count)), chance.choice((None, f"test:{name.lower()}"))
        self.full = not self.is_map and chance.random() < 0.3
        self.by_name = not self.is_map and chance.random() < 0.3
        self.fields = [self.field() for _ in range(count)]
        self.new = any(not optional and default is None for _, optional, default in self.fields) and chance.random() < 0.5

    def field(self):
        kind, optional, default = self.chance.choice(PLAIN), self.chance.random() < 0.4, None
        if self.chance.random() < 0.2:
            kind, default = self.chance.choice([*UNSIGNED, "bool"]), self.chance.randrange(200)
            default = default % 2 if kind == "bool" else default
        elif self.chance.random() < 0.3:
            kind = self.chance.choice(OTHERS) if self.chance.random() < 0.4 else self.chance.choice(HOLDERS).format(kind)
        return kind, optional, default

    def text(self):
        said = [f'encoding = "{"map" if self.is_map else "list"}"'] + [f"code = {self.code}"] * bool(self.code)
        said += [f'name = "{self.symbol}"'] * bool(self.symbol) + ["full"] * self.full + ["by_name"] * self.by_name + ["new"] * self.new
        rows = ""
        for at, (kind, optional, default) in enumerate(self.fields):
            if default is not None:
                rows += f"    // amqp: default = {('false', 'true')[default] if kind == 'bool' else default}\n"
            rows += f"    pub f{at}: {f'Option<{kind}>' if optional else kind},\n"
        return f"/// A struct of {len(self.fields)} fields.\n// amqp: {', '.join(said)}\n#[derive(Debug, PartialEq, Drop)]\npub struct {self.name} {{\n{rows}}}\n"

    def file(self):
        names = {name for kind, _, _ in self.fields for name in re.findall(r"\w+", kind)}
        found = [(path, [it for it in held.split() if it in names]) for path, held in IMPORTS]
        uses = "".join(f"use {path}::{{{', '.join(held)}}};\n" if held[1:] else f"use {path}::{held[0]};\n" for path, held in found if held)
        return f"//! A random struct.\n\n{uses}\n{self.text()}"

    def row(self):
        """An encoding, and the encoding that is written after it is read."""
        given, wanted = [], []
        for at, (kind, optional, default) in enumerate(self.fields):
            value = None if optional and self.chance.random() < 0.4 else self.value(kind)
            wanted.append((f"f{at}", value))
            if default is not None and not optional and self.chance.random() < 0.4:
                wanted[-1] = (f"f{at}", ("bool", default) if kind == "bool" else (UNSIGNED[kind][0], default))
                value = None
            given.append((f"f{at}", value))
        as_map = self.is_map or self.by_name and self.chance.random() < 0.5
        return encoding(self.described(self.tree(given, as_map))), encoding(self.described(self.tree(wanted, self.is_map)))

    def tree(self, values, as_map):
        if as_map:
            return "map", [it for name, value in values if value is not None for it in (("string", name.encode()), value)]
        while values and values[-1][1] is None and not self.full:
            values = values[:-1]
        return "list", [("null", 0) if value is None else value for _, value in values]

    def described(self, tree):
        if not (self.code or self.symbol):
            return tree
        return "described", [("ulong", self.code) if self.code else ("symbol", self.symbol.encode()), tree]

    def value(self, kind):
        """The tree of a random value of a type."""
        of = self.chance.randrange
        if kind in UNSIGNED:
            return UNSIGNED[kind][0], of(1 << of(1, UNSIGNED[kind][1] + 1))
        if kind in SIGNED:
            return SIGNED[kind][0], of(1 << of(1, SIGNED[kind][1])) - of(2) * (1 << of(SIGNED[kind][1] - 1))
        if kind in BYTES:
            return BYTES[kind][0], self.chance.randbytes(BYTES[kind][1])
        if kind in BITS:
            return BITS[kind][0], int.from_bytes(self.chance.randbytes(BITS[kind][1]), "big")
        if kind in TEXTS:
            return TEXTS[kind], bytes(97 + of(26) for _ in range(of(12)))
        if kind in ("bool", "char"):
            return kind, of(2) if kind == "bool" else 32 + of(0xD000)
        if kind == "Side":
            return "symbol", (b"east", b"west")[of(2)]
        if kind == "Place":
            return "list", [self.value("i32"), self.value("Symbol")] + [self.value("u8")] * of(2)
        if kind == "Value":
            return self.value(self.chance.choice(PLAIN))
        holder, _, inner = kind[:-1].partition("<")
        if holder == "Box":
            return self.value(inner)
        if holder == "OrderedMap":
            inner, keys = inner.split(", ")[1], {self.value("Symbol") for _ in range(of(4))}
            return "map", [it for key in sorted(keys) for it in (key, self.value(inner))]
        return "list" if holder == "Vec" else "array", [self.value(inner) for _ in range(of(3) + (holder == "Array"))]

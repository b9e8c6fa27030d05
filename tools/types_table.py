"""The table of AMQP's own types, tools/types_table.txt, as tools/types reads it."""

import re

KINDS = {"list": 4, "section": 5, "choice": 3, "scalar": 2, "described": 2}
PRIMITIVES = {
    "boolean": "bool", "ubyte": "u8", "ushort": "u16", "uint": "u32", "ulong": "u64", "string": "String", "symbol": "Symbol",
    "binary": "ByteBuf", "timestamp": "Timestamp", "uuid": "Uuid", "value": "Value", "values": "Vec<Value>",
    "map:symbol": "OrderedMap<Symbol, Value>", "map:string": "OrderedMap<String, Value>",
    "map:annotation-key": "OrderedMap<AnnotationKey, Value>",
    "unsettled-map": "OrderedMap<ByteBuf, Option<DeliveryState>>",
}
PARTS = {"2": "transport", "3": "messaging", "4": "transactions", "5": "security"}


class Wrong(Exception):
    """A line of the table that is refused."""


class Field:
    """A field of a composite, a choice of a restricted type, or a variant."""

    def __init__(self, words, comment):
        self.name, self.comment, self.words = words[0], comment, words[1:]
        self.type = words[1] if len(words) > 1 else words[0]
        self.mandatory, self.multiple = "mandatory" in words, "multiple" in words
        self.default = words[words.index("default") + 1] if "default" in words else None
        self.requires = words[words.index("for") + 1] if "for" in words else None

    @property
    def member(self):
        return self.name.replace("-", "_")


class Type:
    """A type of the table: `kind` is list, section, choice, scalar or described."""

    def __init__(self, words, section, comment):
        self.kind, self.name, self.section, self.comment, self.fields = words[0], words[1], section, comment, []
        self.rust = words[words.index("as") + 1] if "as" in words else pascal(self.name)
        self.code, self.symbol = (words[2], words[3]) if self.kind in ("list", "section") else (None, None)
        self.source = {"choice": 2, "section": 4}.get(self.kind) and words[{"choice": 2, "section": 4}[self.kind]]
        self.key, self.others = "key" in words[2:], "others" in words[2:]
        self.module = None

    @property
    def part(self):
        return self.section.split(".", 1)[0]


class Module:
    def __init__(self, crate, name, comment):
        self.crate, self.name, self.comment, self.types = crate, name, comment, []


class Table:
    def __init__(self):
        self.crates, self.modules, self.aliases, self.types = [], [], {}, {}

    def rust(self, type_):
        """The Rust type of a type of the table."""
        type_ = self.aliases.get(type_, type_)
        if type_ in PRIMITIVES:
            return PRIMITIVES[type_]
        return self.types[type_].rust


def pascal(name):
    return "".join(word.capitalize() for word in name.split("-"))


def read_table(path):
    table, open_ = Table(), None
    for number, line in enumerate(path.read_text(encoding="utf-8").split("\n"), 1):
        said, _, comment = line.partition("--")
        words, comment = said.split(), comment.strip()
        if not words or line.startswith("#"):
            continue
        if line.startswith(" "):
            if not open_:
                raise Wrong(f"{path}:{number}: a field without a type")
            open_.fields.append(Field(words, comment))
        elif words[0] == "alias":
            table.aliases[words[1]] = words[2]
        elif words[0] == "crate":
            table.crates.append(words[1])
        elif words[0] == "module" and table.crates:
            table.modules.append(Module(table.crates[-1], words[1], comment))
        elif words[0] in KINDS and len(words) >= KINDS[words[0]] and table.modules:
            section, _, comment = comment.partition(" ")
            if not re.fullmatch(r"[2-5](\.\d+)+", section):
                raise Wrong(f"{path}:{number}: {words[1]} has no section of the standard")
            open_ = Type(words, section, comment)
            open_.module = table.modules[-1]
            table.modules[-1].types.append(open_)
            table.types[open_.name] = open_
        else:
            raise Wrong(f"{path}:{number}: expected crate, module, alias, {', '.join(KINDS)}, or a field below a type")
    check(path, table)
    return table


def check(path, table):
    """Refuses a type that the table does not have, and a code that two types have."""
    known = {*PRIMITIVES, *table.aliases, *table.types}
    for t in table.types.values():
        for f in t.fields if t.kind != "choice" else []:
            if f.type not in known:
                raise Wrong(f"{path}: {t.name}.{f.name}: there is no type {f.type}")
        if t.source and t.source not in known:
            raise Wrong(f"{path}: {t.name}: there is no type {t.source}")
    codes = [t.code for t in table.types.values() if t.code]
    if len(set(codes)) != len(codes):
        raise Wrong(f"{path}: two types have one code")

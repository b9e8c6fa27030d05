"""The annotated types of a .rt file, as tools/derive reads them."""

import re

from derive_annotations import ENUM_ENCODINGS, STRUCT_ENCODINGS, RENAMES, Wrong, annotation, number_of, settings, split, text_of

DEFAULTED = ("bool", "u8", "u16", "u32", "u64")
# what to write in place of a type that AMQP does not have
INSTEAD = {
    "f32": "`F32Bits`", "f64": "`F64Bits`", "usize": "`u32` or `u64`", "isize": "`i32` or `i64`", "u128": "`u64`, or `Uuid`",
    "i128": "`i64`, or `Dec128`", "str": "`String`", "Instant": "`Timestamp`", "SystemTime": "`Timestamp`", "Duration": "`u64`",
    "HashSet": "`Vec`", "BTreeSet": "`Vec`", "VecDeque": "`Vec`", "IndexMap": "`OrderedMap`", "Rc": "`Box`", "Arc": "`Box`", "Cow": "`String`"}
PRIMITIVE = ("bool", "char", "u8", "u16", "u32", "u64", "i8", "i16", "i32", "i64")
SCALARS = DEFAULTED + ("i8", "i16", "i32", "i64", "char", "F32Bits", "F64Bits", "Dec32", "Dec64", "Dec128", "Timestamp", "Uuid", "ByteBuf", "String", "Symbol")
NO_ROUND_TRIP = ("HashMap", "LazyValue")
RESERVED = set("""data record deriving module where use mod pub package open as unfoldable abbrev axiom unfold unfolding
    ruleset mutual infix infixl infixr elim let in do""".split())


class Field:
    """A field of a struct or of a variant: `member` is its name or position, `var` the variable that holds it."""

    def __init__(self, line, member, var, name, type_, default=None):
        self.line, self.member, self.var, self.name, self.type, self.default = line, member, var, name, type_, default
        inner = re.fullmatch(r"Option<(.*)>", type_)
        self.optional = inner is not None
        self.inner = inner.group(1) if inner else type_

    @property
    def seed(self):
        """The type that reads the field: Required, Optional, or Defaulted for a plain field with a default."""
        return "Optional" if self.optional else "Defaulted" if self.default else "Required"

    def of(self, value):
        """The field of a value, as a term."""
        return f"{value}.«{self.member}»" if self.member in RESERVED else f"{value}.{self.member}"


class Variant:
    """A variant of an enum: `kind` is unit, newtype, tuple or struct; `value` is its value in a restricted type."""

    def __init__(self, name, kind, fields, value=None):
        self.name, self.kind, self.fields, self.value = name, kind, fields, value

    @property
    def type(self):
        return self.fields[0].type if self.fields else "()"


class Type:
    """A type with an annotation."""

    def __init__(self, line, name, is_enum, is_tuple, said, flags):
        self.line, self.name, self.is_enum, self.is_tuple, self.flags = line, name, is_enum, is_tuple, flags
        self.encoding, self.code, self.symbol = said["encoding"], said.get("code"), said.get("name")
        self.rename, self.source, self.values = said.get("rename_all"), said.get("source"), said.get("values")
        self.fields, self.variants = [], []
        self.reads, self.writes = "write_only" not in flags, "read_only" not in flags
        self.round_trips = self.reads and self.writes and "no_round_trip" not in flags
        # a list without the absent fields at its end, a map without the absent fields
        self.short = self.encoding in ("list", "map") and "full" not in flags
        # also read from a map by the names of the fields, which are distinct
        self.by_name = self.encoding == "map" or "by_name" in flags
        # read after its code or its name: the trait Composite
        self.composite = bool(self.code and self.symbol) and not is_enum
        # written and read as its only field
        self.transparent = self.encoding == "basic" and not (self.code or self.symbol)

    def descriptor(self):
        """The descriptor that is written, as a term."""
        return f"(code {self.code})" if self.code else f'(name (codes "{self.symbol}"))' if self.symbol else ""


def places_of(text, parts):
    """Where the parts are in the text."""
    at = 0
    for part in parts:
        at = text.index(part, at)
        yield at
        at += len(part)


def type_of(line, name, text):
    """The type of a field, which AMQP has."""
    text = re.sub(r"\s+", " ", text.strip())
    word = next((it for it in re.findall(r"(?<![:\w'])[a-z]\w*(?!\w*\s*::)", text) if it not in PRIMITIVE and it not in ("mut", "dyn", "fn")), None)
    if word:
        raise Wrong(line, f"{name}: `{word}` is no type of AMQP" + (f": write {INSTEAD[word]}" if word in INSTEAD else ""))
    if "&" in text:
        raise Wrong(line, f"{name}: `{text}` is a reference: write the type itself, such as `ByteBuf` for `&[u8]`")
    # as the module of the impls, which is one level down, names it
    return re.sub(r"(?<![\w:])(super|self)::", lambda it: "super::super::" if it.group(1) == "super" else "super::", text)


HEAD = re.compile(r"(?:\s*(?:#\[[^\n]*\]|//[^\n]*)\n|\s*\n)*\s*(?:pub(?:\([^)]*\))?\s+)?(struct|enum)\s+(\w+)(\s*<)?\s*([({;]?)")


def body_of(text, line):
    """The text up to the bracket that closes the body, without comments and attributes, and with the annotations and their lines in `@`."""
    own = lambda m: f"@{line + text[:m.start()].count(chr(10))} {m.group(1).strip().encode().hex()}@"
    marked = re.sub(r"//[^\n]*|#\[[^\n]*\]", "", re.sub(r"// amqp: ([^\n]*)", own, text))
    depth = 1
    for at, char in enumerate(marked):
        depth += char in "({["
        depth -= char in ")}]"
        if depth == 0:
            return marked[:at]
    return marked


OWN = re.compile(r"@(\d+) (\w*)@\s*")


def fields_of(t, text, is_tuple, start):
    """The fields in the text of a struct's or a variant's body, which begins at a line."""
    fields, at = [], 0
    for place, part in enumerate(split(text)):
        at = text.index(part, at)
        own, said, flags, own_line = OWN.match(part), {}, set(), 0
        if own:
            own_line, at, part = int(own.group(1)), at + own.end(), part[own.end():]
            said, flags = settings(own_line, bytes.fromhex(own.group(2)).decode(), ("name", "default"), ("default",))
            text_of(own_line, said, "name")
        line = start + text[:at].count("\n")
        if inside := OWN.search(part):
            raise Wrong(int(inside.group(1)), "an annotation is on the line above its field")
        if own and not part:
            raise Wrong(own_line, "this annotation is above no field")
        at += len(part)
        member, colon, type_ = (str(place), ":", part) if is_tuple else re.sub(r"^pub(\([^)]*\))?\s+", "", part).partition(":")
        if not re.fullmatch(r"\w+", member.strip()) or not type_.strip():
            raise Wrong(line, f"{t.name}: `{part}` is no field: expected `name: type`")
        member, type_ = member.strip(), type_of(line, f"{t.name}.{member.strip()}", re.sub(r"^pub(\([^)]*\))?\s+", "", type_.strip()))
        name = said.get("name") or (RENAMES[t.rename](member) if t.rename and not is_tuple else member)
        field = Field(line, member, f"part{place}" if is_tuple else member, name, type_)
        if "default" in said or flags:
            if field.inner not in DEFAULTED:
                raise Wrong(own_line, f"{t.name}.{member}: default is for {', '.join(DEFAULTED)} or an Option of one")
            default = said.get("default", "false" if field.inner == "bool" else "0")
            field.default = number_of(own_line, f"{t.name}.{member}: default", field.inner, default)
        fields.append(field)
    return fields


def variant_of(t, part, value, line):
    form = re.fullmatch(r"(\w+)\s*(?:([({])(.*)[)}])?", part.strip(), re.S)
    if not form:
        said = re.match(r"@(\d+)", part.strip())
        raise Wrong(int(said.group(1)) if said else t.line, f"{t.name}: an annotation is for a type or a field" if said else f"{t.name}: `{part.strip()}` is no variant")
    name, opens, inside = form.groups()
    fields = fields_of(t, inside, opens == "(", line + part[:form.start(3)].count("\n")) if opens else []
    kind = "unit" if not opens else "struct" if opens == "{" else "newtype" if len(fields) == 1 else "tuple"
    if t.encoding == "restricted" and kind != "unit":
        raise Wrong(t.line, f"{t.name}::{name}: a variant of a restricted type holds nothing")
    if t.encoding in ("described", "scalar") and kind != "newtype":
        raise Wrong(t.line, f'{t.name}::{name}: a variant of encoding = "{t.encoding}" holds one value')
    if t.encoding == "scalar" and fields[0].type not in SCALARS:
        raise Wrong(fields[0].line, f"{t.name}::{name}: {fields[0].type} is no scalar")
    return Variant(name, kind, fields, value)


def check(t):
    """Refuses a type whose parts do not fit its annotation."""
    line, n = t.line, t.name
    if t.encoding == "basic" and len(t.fields) != 1:
        raise Wrong(line, f'{n}: encoding = "basic" is for one field, and it has {len(t.fields)}')
    if twice := next((f.member for at, f in enumerate(t.fields) if f.member in {it.member for it in t.fields[:at]}), None):
        raise Wrong(line, f"{n} has two fields `{twice}`")
    if t.by_name and len({f.name for f in t.fields}) != len(t.fields):
        raise Wrong(line, f"{n} has two fields of one name")
    if t.is_enum and not t.variants:
        raise Wrong(line, f"{n} has no variants")
    if t.encoding == "scalar" and len({v.type for v in t.variants}) != len(t.variants):
        raise Wrong(line, f"{n} has two variants of one type")
    if "new" in t.flags and (not t.reads or t.is_tuple or t.encoding == "basic" or all(f.seed != "Required" for f in t.fields)):
        raise Wrong(line, "new is for a list or a map that is read, with names and a required field: without one, derive Default")
    if "map_key" in t.flags and t.encoding != "scalar" and not t.transparent:
        raise Wrong(line, 'map_key is for encoding = "scalar", and for "basic" without a descriptor')
    for f in t.fields + [f for v in t.variants for f in v.fields]:
        if t.round_trips and any(re.search(rf"\b{name}\b", f.type) for name in NO_ROUND_TRIP):
            raise Wrong(f.line, f"{n}: {f.type} does not round-trip: add no_round_trip")


def type_at(number, text, said, flags):
    """The annotated type that begins the text, which follows the line of its annotation, and the line of its end."""
    head = HEAD.match(text)
    if not head:
        raise Wrong(number, "expected a struct or an enum after the annotation")
    is_enum, name, opens = head.group(1) == "enum", head.group(2), head.group(4)
    if head.group(3):
        raise Wrong(number, f"{name} has type parameters: write its impls by hand")
    t = Type(number, name, is_enum, opens == "(", said, flags)
    if is_enum != (t.encoding in ENUM_ENCODINGS):
        known = " or ".join(ENUM_ENCODINGS if is_enum else STRUCT_ENCODINGS)
        raise Wrong(number, f'{name} is {"an enum" if is_enum else "a struct"}, whose encoding is {known}, not "{t.encoding}"')
    start = number + 1 + head.group(0).count("\n")
    body = body_of(text[head.end():], start) if opens in ("(", "{") else ""
    if is_enum:
        parts = split(body)
        if t.values and len(t.values) != len(parts):
            raise Wrong(number, f"{name} has {len(parts)} variants and {len(t.values)} values")
        lines = [start + body[:at].count("\n") for at in places_of(body, parts)]
        t.variants = [variant_of(t, part, t.values and t.values[at], lines[at]) for at, part in enumerate(parts)]
    else:
        t.fields = fields_of(t, body, t.is_tuple, start)
    check(t)
    return t, start + body.count("\n")


def types_of(text):
    """The annotated types of a file, in order."""
    lines, found, end = text.split("\n"), [], 0
    for number, line in enumerate(lines, 1):
        if not re.match(r"\s*//[/!]*\s*amqp\s*:", line):
            continue
        if not re.match(r"\s*// amqp: \S", line):
            raise Wrong(number, 'an annotation is written as `// amqp: ..`, with these blanks')
        if number > end and line.startswith(" "):
            raise Wrong(number, "this annotation is above no type and no field of an annotated type")
        if number > end:
            t, end = type_at(number, "\n".join(lines[number:]), *annotation(number, line[9:]))
            found.append(t)
    of_file = {t.name: t for t in found}
    for t in found:
        for v in t.variants if t.encoding == "described" else []:
            if v.type in of_file and not of_file[v.type].composite:
                raise Wrong(of_file[v.type].line, f"{v.type} is a variant of {t.name}: it needs a code and a name")
    return found

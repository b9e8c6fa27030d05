"""The annotations `// amqp: ..` of types and fields, as tools/derive reads them."""

import re

STRUCT_ENCODINGS = ("list", "map", "basic")
ENUM_ENCODINGS = ("described", "restricted", "scalar", "index")
SOURCES = ("bool", "u8", "u16", "u32", "u64", "String", "Symbol")
FLAGS = ("full", "by_name", "map_key", "others", "new", "no_round_trip", "write_only", "read_only")
KEYS = ("encoding", "code", "name", "rename_all", "source", "values")
MOST_PLAIN = 255


class Wrong(Exception):
    """An annotation that is refused: its line, and what was expected."""

    def __init__(self, line, message):
        super().__init__(message)
        self.line = line


def split(text):
    """The parts of the text between commas that are in no bracket."""
    parts, depth, start = [], 0, 0
    for at, char in enumerate(text):
        depth += char in "<([{"
        depth -= char in ")]}" or char == ">" and text[at - 1:at] not in ("-", "=")
        if char == "," and depth == 0:
            parts.append(text[start:at])
            start = at + 1
    return [part.strip() for part in parts + [text[start:]] if part.strip()]


def words_of(name):
    return [w.lower() for w in re.findall(r"[A-Z]+(?![a-z])|[A-Z]?[a-z0-9]+", name)]


RENAMES = {
    "kebab-case": lambda name: "-".join(words_of(name)),
    "snake_case": lambda name: "_".join(words_of(name)),
    "lowercase": lambda name: "".join(words_of(name)),
    "camelCase": lambda name: "".join(w.capitalize() if at else w for at, w in enumerate(words_of(name))),
    "PascalCase": lambda name: "".join(w.capitalize() for w in words_of(name)),
    "SCREAMING_SNAKE_CASE": lambda name: "_".join(words_of(name)).upper(),
}


def code_of(line, text):
    """The number of a code: 0x73, 115, or "0x0000_0000:0x0000_0073", the domain and the number in it."""
    text = text.strip('"')
    if not re.fullmatch(r"(0x[0-9a-fA-F_]+|\d[\d_]*)(:(0x[0-9a-fA-F_]+|\d[\d_]*))?", text):
        raise Wrong(line, f'code = {text} is no number, such as 0x73 or "0x0000_0000:0x0000_0073"')
    high, _, low = text.rpartition(":")
    number = int(high.replace("_", "") or "0", 0) << 32 | int(low.replace("_", ""), 0)
    if number >= 1 << 64:
        raise Wrong(line, f"code = {text} is more than a ulong")
    return f"{number:#04x}"


def settings(line, text, keys, flags):
    """The settings `key = value` and the flags of an annotation."""
    said, set_ = {}, set()
    for part in split(text):
        key, equals, value = (p.strip() for p in part.partition("="))
        if equals and key in keys and key not in said:
            said[key] = value
        elif not equals and part in flags:
            set_.add(part)
        else:
            known = ", ".join([f"{k} = .." for k in keys] + list(flags))
            raise Wrong(line, f"`{part}` is not one of {known}" if key not in said else f"`{key}` is set twice")
    return said, set_


def number_of(line, what, type_, text):
    """A number of this type, as it is printed."""
    number = text.replace("_", "")
    if not re.fullmatch("true|false" if type_ == "bool" else r"\d+", number) or type_ != "bool" and int(number) >= 1 << int(type_[1:]):
        raise Wrong(line, f"{what} = {text} is no {type_}")
    return number if type_ == "bool" else str(int(number))


def text_of(line, said, key):
    if key in said:
        if not re.fullmatch(r'"[^"\\]*"', said[key]):
            raise Wrong(line, f'{key} = {said[key]} is no text in quotation marks')
        said[key] = said[key].strip('"')


def annotation(line, text):
    said, flags = settings(line, text, KEYS, FLAGS)
    for key in ("encoding", "name", "rename_all", "source"):
        text_of(line, said, key)
    known = ", ".join(STRUCT_ENCODINGS) + " (structs), " + ", ".join(ENUM_ENCODINGS) + " (enums)"
    encoding = said.get("encoding")
    if encoding not in STRUCT_ENCODINGS + ENUM_ENCODINGS:
        raise Wrong(line, f'encoding = "{encoding}" is not one of {known}' if encoding else f"expected encoding = .., one of {known}")
    if "code" in said:
        said["code"] = code_of(line, said["code"])
    if encoding in ENUM_ENCODINGS and ("code" in said or "name" in said):
        raise Wrong(line, f'encoding = "{encoding}" has no descriptor of its own')
    if said.get("rename_all", "snake_case") not in RENAMES:
        raise Wrong(line, f'rename_all = "{said["rename_all"]}" is not one of {", ".join(RENAMES)}')
    if (encoding == "restricted") != ("source" in said and "values" in said):
        raise Wrong(line, 'source = .. and values = [..] belong to encoding = "restricted", which needs both')
    if encoding == "restricted":
        if said["source"] not in SOURCES:
            raise Wrong(line, f'source = "{said["source"]}" is not one of {", ".join(SOURCES)}')
        said["values"] = values_of(line, said["source"], said["values"])
    if encoding == "map" and "full" in flags:
        raise Wrong(line, "a map is written without absent fields: `full` is for a list")
    if "others" in flags and encoding != "described":
        raise Wrong(line, 'others is for encoding = "described"')
    if {"write_only", "read_only"} <= flags:
        raise Wrong(line, "a type is either write_only or read_only")
    return said, flags


def values_of(line, source, text):
    values = split(text[1:-1]) if text.startswith("[") and text.endswith("]") else []
    texts = source in ("String", "Symbol")
    if not values or texts and not all(re.fullmatch(r'"[^"\\]*"', value) for value in values):
        raise Wrong(line, f"values = {text} is no list of values of type {source}, in brackets")
    if not texts:
        values = [number_of(line, "values: a value", source, value) for value in values]
    elif wrong := next((value for value in values if not value.isascii() or len(value) > MOST_PLAIN + 2), None):
        raise Wrong(line, f"values: {wrong} is no text of at most {MOST_PLAIN} characters of ASCII")
    if len(set(values)) != len(values):
        raise Wrong(line, f"values = {text} has a value twice")
    return values

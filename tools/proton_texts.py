"""The text by which the program tests/types shows a value, from the value as Qpid Proton decodes it and the standard's table."""

from pathlib import Path

from proton import Array, Data, Described, byte, char, float32, int32, short, symbol, timestamp, ubyte, uint, ulong, ushort
from types_table import pascal, read_table

TABLE = read_table(Path(__file__).resolve().parent / "types_table.txt")
BY_CODE = {int(type_.code, 16): name for name, type_ in TABLE.types.items() if type_.code}
NUMBERS = {ubyte: "Ubyte", ushort: "Ushort", uint: "Uint", ulong: "Ulong", byte: "Byte", short: "Short", int32: "Int", int: "Long"}


def decoded(bytes_):
    """The value that Proton reads from the bytes, all of which it takes."""
    data = Data()
    assert data.decode(bytes_) == len(bytes_), f"{bytes_.hex()} is not read whole"
    return held(data)


def held(data):
    """The value in Proton's data; None if there is none."""
    data.rewind()
    return data.get_object() if data.next() is not None else None


def quoted(text):
    assert text.isascii() and text.isprintable() and '"' not in text and "\\" not in text, text
    return f'"{text}"'


def numbers(bytes_):
    return f"[{', '.join(str(one) for one in bytes(bytes_))}]"


def listed(parts):
    return f"[{', '.join(parts)}]"


def map_of(entries):
    return f"OrderedMap {{ entries: {listed(f'({key}, {value})' for key, value in entries)} }}"


def untyped(value):
    """The text of a `Value`."""
    if value is None:
        return "Null"
    if isinstance(value, bool):
        return f"Bool({str(value).lower()})"
    if isinstance(value, symbol):
        return f"Symbol(Symbol({quoted(value)}))"
    if isinstance(value, timestamp):
        return f"Timestamp(Timestamp({int(value)}))"
    if type(value) in NUMBERS:
        return f"{NUMBERS[type(value)]}({int(value)})"
    if isinstance(value, str) and not isinstance(value, char):
        return f"String({quoted(value)})"
    if isinstance(value, (bytes, memoryview)):
        return f"Binary(ByteBuf({numbers(value)}))"
    if isinstance(value, list):
        return f"List({listed(map(untyped, value))})"
    if isinstance(value, dict):
        return f"Map({map_of((untyped(key), untyped(one)) for key, one in value.items())})"
    if isinstance(value, Described):
        return f"Described({described(value)})"
    assert isinstance(value, float32), f"a value of {type(value)}"
    return f"Float(F32Bits({int.from_bytes(bits_of(value), 'big')}))"


def bits_of(value):
    """The bytes of a scalar without its code."""
    data = Data()
    data.put_object(value)
    return data.encode()[1:]


def described(value):
    name = value.descriptor
    descriptor = f"Name(Symbol({quoted(name)}))" if isinstance(name, symbol) else f"Code({int(name)})"
    return f"Described {{ descriptor: {descriptor}, value: {untyped(value.value)} }}"


def primitive(type_, value):
    """The text of a value of a primitive type of the table."""
    simple = {"boolean": lambda: str(value).lower(), "string": lambda: quoted(value), "symbol": lambda: f"Symbol({quoted(value)})",
              "binary": lambda: f"ByteBuf({numbers(value)})", "timestamp": lambda: f"Timestamp({int(value)})",
              "uuid": lambda: f"Uuid({numbers(value.bytes)})", "value": lambda: untyped(value), "values": lambda: listed(map(untyped, value)),
              "unsettled-map": lambda: map_of((primitive("binary", key), optional("delivery-state", one)) for key, one in value.items())}
    if type_ in simple:
        return simple[type_]()
    if type_.startswith("map:"):
        return map_of((text_of(type_[4:], key), untyped(one)) for key, one in value.items())
    return str(int(value))


def optional(type_, value):
    return "None" if value is None else f"Some({text_of(type_, value)})"


def fields_of(type_, values):
    """The text of the fields of a composite."""
    values = values + [None] * (len(type_.fields) - len(values))
    for field, value in zip(type_.fields, values, strict=True):
        if field.multiple and isinstance(value, Array):
            text = f"Many(Array({listed(text_of(field.type, one) for one in value.elements)}))"
        elif field.multiple and value is not None:
            text = f"One({text_of(field.type, value)})"
        else:
            text = None if value is None else text_of(field.type, value)
        yield f"{field.member}: " + (text if field.mandatory else "None" if text is None else f"Some({text})")


def text_of(type_, value):
    """The text of a value of a type of the table."""
    type_ = TABLE.aliases.get(type_, type_)
    if type_ not in TABLE.types:
        return primitive(type_, value)
    type_ = TABLE.types[type_]
    if type_.kind == "list":
        assert int(value.descriptor) == int(type_.code, 16), f"{type_.name}: {value}"
        return f"{type_.rust} {{ {', '.join(fields_of(type_, value.value))} }}" if type_.fields else type_.rust
    if type_.kind == "section":
        return f"{type_.rust}({text_of(type_.source, value.value)})"
    if type_.kind == "choice":
        said = str(value).lower() if isinstance(value, (bool, str)) else str(int(value))
        return pascal(*(choice.name for choice in type_.fields if choice.type == said))
    if type_.kind == "scalar":
        found, = (variant for variant in type_.fields if untyped_kind(value) == variant.type)
        return f"{pascal(found.name)}({text_of(found.type, value)})"
    name = BY_CODE.get(int(value.descriptor)) if not isinstance(value.descriptor, symbol) else None
    if name in [one.name for one in type_.fields]:
        return f"{TABLE.types[name].rust}({text_of(name, value)})"
    return f"Other(Unknown({described(value)}))"


def untyped_kind(value):
    """The table's name of the type of a scalar."""
    kinds = ((symbol, "symbol"), (ulong, "ulong"), (str, "string"), ((bytes, memoryview), "binary"))
    return next((name for kind, name in kinds if isinstance(value, kind)), "uuid")

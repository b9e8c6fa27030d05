"""The page of all types, crates/amqp_types/README.md."""

from types_table import PARTS

PAGE = """# AMQP's own types

The crate [amqp_types](src/lib.rt) has these types, most from the crates below it, which `tools/types` writes from [types_table.txt](../../tools/types_table.txt). Each is written and read, after the code of its descriptor or after its name. `!` marks a mandatory field, `[]` one with several values, an `Option<Multiple<T>>`, and `=` the default, which the method `FIELD_or_default` returns for `None`. A type with mandatory fields has a function `new` of these, any other list has `Default`; the other fields are `None`: `Open { channel_max: Some(7), ..Open::new(id) }`. All have `Clone`. `Unknown` keeps a value with another descriptor. The check proves of each type that it is read back from what is written (`RoundTrip::law`).

[`Message`](../amqp_messaging/README.md) is read from and written as its sections, `LazyMessage` without decoding the body. [amqp_transport](../amqp_transport/src/lib.rt) has the frames that carry messages, and protocol headers.
"""


def page(table):
    out = PAGE
    for part, name in PARTS.items():
        types = sorted((t for t in table.types.values() if t.part == part), key=by_section)
        out += f"\n## Part {part}: {name}\n"
        described = [t for t in types if t.code]
        if described:
            out += "\n|Type|Code|Section|Fields|\n|---|---|---|---|\n"
        for t in described:
            out += f"|`{t.rust}`|{t.code}|{t.section}|{fields(table, t)}|\n"
        others = [t for t in types if not t.code]
        if others:
            out += "\n|Type|Section|Values|\n|---|---|---|\n"
            for t in others:
                out += f"|`{t.rust}`|{t.section}|{values(table, t)}|\n"
    rows = ", ".join(f"`{name}` is `{table.rust(name)}`" for name in table.aliases)
    return f"{out}\n## Other names\n\nOf the types of fields, {rows}.\n"


def by_section(t):
    return [int(number) for number in t.section.split(".")]


def fields(table, t):
    if t.kind == "section":
        return f"`{table.rust(t.source)}`"
    said = [f.name + ":" + f.type + "[]" * f.multiple + "!" * f.mandatory + (f"={f.default}" if f.default else "") for f in t.fields]
    return f"`{', '.join(said)}`" if said else "none"


def values(table, t):
    if t.kind == "choice":
        return f"{t.source} `{', '.join(f.type if t.source == 'symbol' else f'{f.name}={f.type}' for f in t.fields)}`"
    return "one of " + ", ".join(f"`{table.rust(f.type)}`" for f in t.fields) + (", or `Unknown`" if t.others else "")

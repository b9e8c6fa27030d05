"""The annotated types of a module, as tools/types prints them."""

import re
import textwrap

# the crate of the type that keeps values with other descriptors
COMMON = "amqp_messaging"
PRIMITIVES = ("ByteBuf", "Multiple", "OrderedMap", "Symbol", "Timestamp", "Uuid")


def doc(text, indent=""):
    """A doc comment of lines that fit."""
    return "".join(f"{indent}/// {line}\n" for line in textwrap.wrap(text, 96 - len(indent)))


def said(t):
    """The comment of a type: what it is, where the standard has it, and how it is encoded."""
    text = t.comment.rstrip(".")
    out = doc(f"{text} (AMQP 1.0 part {t.part}, section {t.section}).")
    encoding = {
        "list": f"A list of the fields, described by the code {t.code}.",
        "section": f"The value, described by the code {t.code}.",
    }.get(t.kind)
    return out + ("///\n/// # Encoding\n" + doc(encoding) if encoding else "")


def derive(t):
    traits = ["Debug", "Clone", "Copy" * (t.kind == "choice"), "Default" * (t.kind == "list" and not has_mandatory(t)), "PartialEq",
              "Eq" * (t.kind == "choice" or t.key), "Hash" * t.key, "Drop" * (t.kind != "choice")]
    return f"#[derive({', '.join(filter(None, traits))})]\n"


def has_mandatory(t):
    return any(f.mandatory for f in t.fields)


def field_type(table, f):
    type_ = table.rust(f.type)
    type_ = f"Multiple<{type_}>" if f.multiple else type_
    return type_ if f.mandatory else f"Option<{type_}>"


def is_plain(f):
    """Whether the default is a number or a truth value, and no choice."""
    return re.fullmatch(r"\d+|true|false", f.default) is not None


def struct(table, t):
    rename = ', rename_all = "kebab-case"' * bool(t.fields) + ", new" * has_mandatory(t)
    out = f'// amqp: encoding = "list", code = {t.code}, name = "{t.symbol}"{rename}\n{derive(t)}'
    if not t.fields:
        return out + f"pub struct {t.rust};\n"
    rows = ""
    for f in t.fields:
        rows += doc(f.comment, "    ")
        if f.default and is_plain(f):
            rows += f"    // amqp: default = {f.default}\n"
        rows += f"    pub {f.member}: {field_type(table, f)},\n"
    return out + f"pub struct {t.rust} {{\n{rows}}}\n"


def choice(table, t):
    values = [f'"{f.type}"' if t.source == "symbol" else f.type for f in t.fields]
    line = ", ".join(values)
    source = {"boolean": "bool", "ubyte": "u8", "uint": "u32", "symbol": "Symbol"}[t.source]
    rows = "".join(doc(f.comment, "    ") + f"    {variant(f)},\n" for f in t.fields)
    return f'// amqp: encoding = "restricted", source = "{source}", values = [{line}]\n{derive(t)}pub enum {t.rust} {{\n{rows}}}\n'


def variant(f):
    return "".join(word.capitalize() for word in f.name.split("-"))


def enum(table, t):
    flags = ", map_key, write_only" if t.key else ", others" if t.others else ""
    rows = ""
    for f in t.fields:
        comment = f.comment or table.types[f.type].comment
        rows += doc(comment, "    ") + f"    {variant(f)}({table.rust(f.type)}),\n"
    if t.others:
        rows += doc("A described value of another type, which is kept.", "    ") + "    Other(Unknown),\n"
    return f'// amqp: encoding = "{t.kind}"{flags}\n{derive(t)}pub enum {t.rust} {{\n{rows}}}\n'


def section(table, t):
    return f'// amqp: encoding = "basic", code = {t.code}, name = "{t.symbol}"\n{derive(t)}pub struct {t.rust}(pub {table.rust(t.source)});\n'


def defaults(table, t):
    """Methods that return the choice which is the default of a field."""
    out, uses = [], {}
    for f in (f for f in t.fields if t.kind == "list" and f.default and not is_plain(f)):
        of = table.types[f.type]
        value = "".join(word.capitalize() for word in f.default.split("-"))
        uses[of.rust] = f"    ghost use Rattle.{of.module.crate}.specs.declared.{of.module.name}.{of.rust}.TheVariants as {snake(of.rust)};\n"
        out.append(doc(f"Returns `{f.member}`, or `{of.rust}::{value}` if it is absent.", "    ") +
                   f"    pub fn {f.member}_or_default(&self) -> {of.rust}\n"
                   f"        ensures {{ result ≡ value_or {snake(of.rust)}.{value} self.now.{f.member} }}\n    {{\n"
                   f"        self.{f.member}.unwrap_or({of.rust}::{value})\n    }}\n")
    if not out:
        return ""
    known = "    ghost use Rattle.std.specs.Prelude.{◌≡◌};\n    ghost use Rattle.serde_amqp.specs.Derive.{value_or};\n"
    return f"\nimpl {t.rust} {{\n{known}{''.join(uses.values())}\n" + "\n".join(out) + "}\n"


def snake(name):
    return re.sub(r"(?<!^)([A-Z])", r"_\1", name).lower()


def import_of(path, names):
    if len(names) > 1:
        return f"use {path}::{{{', '.join(sorted(names))}}};\n"
    return f"use {path}::{names[0]};\n" if names else ""


def module_file(table, module):
    """The file of a module, without the impls."""
    print_ = {"list": struct, "choice": choice, "scalar": enum, "described": enum, "section": section}
    body = "\n".join(said(t) + print_[t.kind](table, t) + defaults(table, t) for t in module.types)
    used = set(re.findall(r"\w+", re.sub(r"//[^\n]*", "", body)))
    names = {"serde_amqp": ["Value"], "serde_amqp::primitives": PRIMITIVES,
             "crate::unknown" if module.crate == COMMON else COMMON: ["Unknown"]}
    for m in table.modules:
        if m is not module:
            path = f"crate::{m.name}" if m.crate == module.crate else m.crate
            names[path] = [*names.get(path, []), *(t.rust for t in m.types)]
    uses = "".join(sorted(import_of(path, [name for name in of if name in used]) for path, of in names.items()))
    return f"//! {module.comment}\n\nmod derived;\n\n{uses}" + ("\n" if uses else "") + body

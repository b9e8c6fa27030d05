"""The impls of annotated enums: fixed values, one scalar of several kinds, composites and variants by their index."""

from types import SimpleNamespace

from derive_structs import field_aliases, field_rows, named, shape_tree, tree_of
from derive_terms import N, aliases, built, cases, filled, function, impl, law, macro, parts, quote, reading, serialize, uses, words_in

# of a scalar type: the variant of Value, its kind in a tree, and what the kind contains
SCALARS = {
    "bool": ("Bool", "bool", ""), "u8": ("Ubyte", "ubyte", ""), "u16": ("Ushort", "ushort", ""), "u32": ("Uint", "uint", ""),
    "u64": ("Ulong", "ulong", ""), "i8": ("Byte", "byte", ""), "i16": ("Short", "short", ""), "i32": ("Int", "int", ""),
    "i64": ("Long", "long", ""), "char": ("Char", "char", ""), "F32Bits": ("Float", "float", "f32_bits"),
    "F64Bits": ("Double", "double", "f64_bits"), "Dec32": ("Decimal32", "decimal32", "dec32_bytes"),
    "Dec64": ("Decimal64", "decimal64", "dec64_bytes"), "Dec128": ("Decimal128", "decimal128", "dec128_bytes"),
    "Timestamp": ("Timestamp", "timestamp", "milliseconds_of"), "Uuid": ("Uuid", "uuid", "uuid_bytes"),
    "ByteBuf": ("Binary", "binary", "byte_buf_bytes"), "String": ("String", "string", "string_bytes"),
    "Symbol": ("Symbol", "symbol", "symbol_text")}
PLACES = "first second third fourth fifth sixth seventh eighth ninth tenth".split()
# with more texts than these, `from_text` selects the variant
MOST_TESTS = 8
OPENED = "            Ok(read) => read,\n            Err(fault) => return Err(fault),\n        };\n"


def match_on(value, arms):
    rows = [f"            {arm} => {body},\n" for arm, body in arms]
    return f"        match {value} {{\n{''.join(rows)}        }}\n"


def place(at, value, is_rest=False):
    """The pattern of the alternative at a place, or of those after the first ones, and the same as a term."""
    if at > 10 or at == 10 and not is_rest:
        inner = place(at - 10, value, is_rest)
        return f"{N.place}!(rest 10, {inner[0]})", f"rest10 ({inner[1]})"
    if is_rest:
        return f"{N.place}!(rest {at}, {value})", f"rest{at} {value}"
    return f"{N.place}!({at}, {value})", f"{PLACES[at]} {value}"


def enum_record(t, arms):
    """The impl of Record of an enum. An arm is the variant in the logic, its values, the pattern and the body of its way back."""
    term = "λ x. " + cases([(arm, place(at, values, rest)[1]) for at, (arm, values, _, _, rest) in enumerate(arms)])
    back = [(place(at, pattern, rest)[0], body) for at, (_, _, pattern, body, rest) in enumerate(arms)]
    back += [] if arms[-1][-1] else [(place(len(arms), "never", True)[0], "match never {}")]
    shape = f"<{t.name}Shape as {N.Shape}>::Value"
    return impl(N.Record, t, {"parts": term}, function("from_parts", [f"values: {shape}"], t.name, match_on("values", back)),
                types=[("Values", shape)])


def read_parts(t, seed, before=""):
    laws = f"by_parts {quote(t.name + 'Shape', N.Shape, 'laws')} {parts(t)}"
    return impl(N.Readable, t, {"laws": laws}, reading(t, "read_value", f"{before}        {N.read_shaped}(alloc, source, {seed})\n"))


def described(t):
    """One of several composites, which the descriptor selects. With `others`, the last variant has all other descriptors."""
    others = "others" in t.flags
    types = [v.type for v in t.variants]
    steps = [f"{N.Either}<{it}, " for it in types[:len(types) - others]]
    out = ["\n".join(aliases(f"{t.name}Shape", f"{N.OneOfTypes}<", ">", f"{t.name}Types", steps, types[-1] if others else N.Never)),
           enum_record(t, [(f"{v.name} v", "v", "value", f"{t.name}::{v.name}(value)", others and v is t.variants[-1]) for v in t.variants])]
    if t.reads:
        out.append(read_parts(t, f"{N.OneOfTypes}({N.PhantomData})"))
    if t.writes:
        arms = [(f"{t.name}::{v.name}(value)", "value.serialize(serializer)") for v in t.variants]
        out.append(impl(N.Serialize, t, {"tree": shape_tree(t)}, serialize(match_on("self", arms))))
    return out + ([law(t, N.RoundTripReadable, "readable_law", f"{N.parts_return}::<{t.name}, {t.name}Shape>()")] if t.round_trips else [])


def image(t, content, x):
    """The only tree that is read as a value: by the laws of reading, or if these are not printed by its content."""
    return f"{quote(t.name, N.Readable, 'laws')}.image {x}" if t.reads else f"scalar ({content(x)})"


def texts(t, content):
    """The methods between the values of an enum and their texts."""
    tree = lambda text, x: f"scalar ({SCALARS[t.source][1]} {text}.now) ≡ " + image(t, content, x).replace("\n", "\n    ")
    said = ["ensures { " + tree("result", "self.now") + " }", f"ensures some {{ IfSome result (λ x. {tree('text', 'x')}) }}",
            f"ensures none {{ IfNone result ((x : {t.name}) → {tree('text', 'x')} → ⊥) }}"][:3 if len(t.variants) > MOST_TESTS else 1]
    lines = [f"        {it}\n" if "\n" in it else filled(words_in(it), " " * 12, " " * 8) + "\n" for it in said]
    arms = match_on("self", [(f"{t.name}::{v.name}", v.value) for v in t.variants])
    out = f"    /// Returns the text of the value.\n    pub fn as_str(&self) -> &'static str\n{lines[0]}    {{\n{arms}    }}\n"
    more = ""
    if lines[1:]:
        tests = "".join(f"        if text == {v.value} {{\n            return Some({t.name}::{v.name});\n        }}\n" for v in t.variants)
        out += f"\n    /// Returns the value with this text, if there is one.\n    pub fn from_text(text: &str) -> Option<{t.name}>\n" \
            f"{''.join(lines[1:])}    {{\n{tests}        None\n    }}\n"
        more = f"    ghost use Rattle.{t.module}.{t.name}.{{{t.name}}};\n"
    used = uses(" ".join(said), t) + more
    return f"impl {t.name} {{\n{used}" + "\n" * bool(used) + f"{out}}}\n"


def other(t):
    """The error for another value of the type whose values are restricted."""
    return f"{N.Fault}::other(None, {N.ValueKind}::{SCALARS[t.source][0]})"


def select_text(t):
    """The statements that select the variant by a text."""
    if len(t.variants) > MOST_TESTS:
        return f"        match {t.name}::from_text(text) {{\n            Some(value) => Ok((value, rest)),\n" \
            f"            None => Err({other(t)}),\n        }}\n"
    tests = "".join(f"        if text == {v.value} {{\n            return Ok(({t.name}::{v.name}, rest));\n        }}\n" for v in t.variants)
    return f"{tests}        Err({other(t)})\n"


def restricted(t):
    """Fixed values of one scalar type. Others are refused."""
    kind, text = SCALARS[t.source][1], t.source in ("String", "Symbol")
    type_ = "List ℕ" if text else "Bool" if t.source == "bool" else "ℕ"
    value = lambda x: cases([(v.name, f"codes {v.value}" if text else v.value) for v in t.variants], x, type_)
    content = lambda x: f"{kind} ({value(x)})"
    out = [texts(t, content)] if text else []
    if t.reads and text:
        call, word, of = ("read_symbol", "by_text", "text.as_inner().as_str()") if t.source == "Symbol" else ("read_string", "by_string", "text.as_str()")
        body = f"        let (text, rest) = match {getattr(N, call)}(alloc, source) {{\n{OPENED}        let text = {of};\n{select_text(t)}"
        out.append(impl(N.Readable, t, {"laws": f"{word} (λ x. {value('x')})"}, reading(t, "read_value", body)))
    elif t.reads:
        arms = [(f"Ok(({v.value}, rest))", f"Ok(({t.name}::{v.name}, rest))") for v in t.variants]
        arms += [] if {v.value for v in t.variants} == {"true", "false"} else [("Ok(_)", f"Err({other(t)})")]
        body = match_on(f"source.scalar::<{t.source}>(alloc)", [*arms, ("Err(fault)", "Err(fault)")])
        out.append(impl(N.Readable, t, {"laws": f"by_image (λ x. scalar ({content('x')}))"}, reading(t, "read_value", body)))
    if t.writes:
        suffix = "" if t.source == "bool" else t.source
        body = match_on("self", [(f"{t.name}::{v.name}", f"{v.value}{suffix}.serialize(serializer)") for v in t.variants]) if not text else \
            f"        {f'{N.Name}(self.as_str())' if t.source == 'Symbol' else 'self.as_str()'}.serialize(serializer)\n"
        out.append(impl(N.Serialize, t, {"tree": f"λ x. Some ({image(t, content, 'x')})"}, serialize(body)))
    return out + ([law(t, N.RoundTripReadable, "readable_law")] if t.round_trips else [])


def scalar(t):
    """One scalar, whose type selects the variant."""
    held = lambda v: " ".join([SCALARS[v.type][1], f"({SCALARS[v.type][2]} v)" if SCALARS[v.type][2] else "v"])
    content, out = lambda x: cases([(f"{v.name} v", held(v)) for v in t.variants], x, "Scalar"), []
    if t.reads:
        arms = [(f"{N.Value}::{SCALARS[v.type][0]}(value)", f"Ok(({t.name}::{v.name}(value), rest))") for v in t.variants]
        body = f"        let (value, rest) = match source.untyped(alloc) {{\n{OPENED}"
        body += match_on("value", [*arms, ("other", f"Err({N.Fault}::unexpected(other))")])
        out.append(impl(N.Readable, t, {"laws": f"by_scalar (λ x. {content('x')})"}, reading(t, "read_value", body)))
    if t.writes:
        body = match_on("self", [(f"{t.name}::{v.name}(value)", "value.serialize(serializer)") for v in t.variants])
        out.append(impl(N.Serialize, t, {"tree": f"λ x. Some ({image(t, content, 'x')})"}, serialize(body)))
    out += [law(t, N.RoundTripReadable, "readable_law")] if t.round_trips else []
    return out + ([law(t, N.MapKey, "image_is_injective")] if "map_key" in t.flags else [])


def index_tree(t):
    """The tree of a variant: its index, or the map from the index to its value."""
    def of(at, v):
        if v.kind == "unit":
            return f"Some (scalar (uint {at}))"
        if v.kind == "newtype":
            return f"tree_of_parts (NewtypeVariant {at}) ({tree_of(v.fields[0], 'v0')} ∷ [])"
        trees = [tree_of(f, f"v{n}") for n, f in enumerate(v.fields)]
        return f"variant_of {at} ({' ∷ '.join([*trees, '[]'])})"
    return "λ x. " + cases([(" ".join([v.name, *(f"v{n}" for n in range(len(v.fields)))]), of(at, v)) for at, v in enumerate(t.variants)],
                           type_="Option Tree")


def index_writes(t):
    """The arms that serialize a variant."""
    arms = []
    for at, v in enumerate(t.variants):
        members = ", ".join(f.var for f in v.fields)
        pattern = f"{t.name}::{v.name}" + {"unit": "", "struct": f" {{ {members} }}"}.get(v.kind, f"({members})")
        if v.kind in ("unit", "newtype"):
            N.SerializeScalars if v.kind == "unit" else N.SerializeCompounds  # the trait of the method
            body = f'serializer.serialize_{v.kind}_variant("{t.name}", {at}, "{v.name}"{", " + members if members else ""})'
        else:
            rows = field_rows(v.fields, [f.var for f in v.fields], False)
            body = macro(f"{N.VariantOf}({at}, {N.fields}!", rows, ").serialize(serializer)", " " * 16).strip()
        arms.append((pattern, body))
    return match_on("self", arms)


def variant_shape(t, v):
    """The shape of the fields of a variant: a type of its own, since the borrow checker allows the texts of one variant alone."""
    name = f"{t.name}{v.name}"
    fields = f"<{name}Fields as {N.Shape}>"
    seed = SimpleNamespace(name=name, module=t.module)
    laws = {"names": "λ _. []", "fits": "λ _. Unit {0}", "laws": f"⟦{fields}⟧.laws"}
    read = lambda call, body: function(f"{call}<S: {N.Source}>", ["self", f"alloc: {N.Global}", "source: S"],
                                       f"Result<({fields}::Value, S::Rest), {N.Fault}>", body)
    body = macro(f"let fields = {N.named}!", named(v.fields), ";", " " * 8) + f"        {N.Shape}::read_parts({N.FullListOf}(fields), alloc, source)\n"
    return [f"/// The fields of [`{t.name}::{v.name}`].\n" + "\n".join(field_aliases(f"{name}Fields", f"{N.FullListOf}<", ">", v.fields)),
            f"/// Reads the fields of [`{t.name}::{v.name}`].\n#[derive(Drop)]\npub struct {name};\n",
            impl(N.Shape, seed, laws, read("read_parts", body), types=[("Value", f"{fields}::Value")]),
            impl(N.Nameless, seed, {}, read("read_nameless", f"        {N.Shape}::read_parts(self, alloc, source)\n"))]


def index(t):
    """Variants by their index: the index of a unit variant, and a map from the index to the value of another."""
    steps, rows, arms, out = [], [], [], []
    for v in t.variants:
        has_fields = v.kind in ("tuple", "struct")
        if has_fields and t.reads:
            out += variant_shape(t, v)
        steps.append(f"{N.UnitVariant}<" if v.kind == "unit" else
                     f"{N.DataVariant}<{t.name + v.name if has_fields else f'{N.Of}<{v.type}>'}, ")
        rows.append(f"shape {t.name}{v.name}" if has_fields else v.kind)
        held = [f"v{n}" for n in range(len(v.fields))]
        values, pattern, body = {
            "unit": ("tt", "()", f"{t.name}::{v.name}"), "newtype": ("v0", "value", f"{t.name}::{v.name}(value)")}.get(
            v.kind, (f"({' ▸ '.join([*held, 'tt'])})", "values", ""))
        body = body or built(f"{t.name}::{v.name}", v.fields, v.kind == "tuple", " " * 12).strip()
        arms.append((" ".join([v.name, *held]), values, pattern, body, False))
    if t.reads:
        out += ["\n".join(aliases(f"{t.name}Shape", f"{N.ByIndex}<", ">", f"{t.name}Variants", steps, "()")),
                enum_record(t, arms),
                read_parts(t, f"{N.ByIndex}(variants)", macro(f"let variants = {N.variants}!", rows, ";", " " * 8))]
    if t.writes:
        out.append(impl(N.Serialize, t, {"tree": index_tree(t)}, serialize(index_writes(t))))
    types = dict.fromkeys(f.type for v in t.variants for f in v.fields if f.type not in SCALARS) if t.round_trips else []
    calls = [f"<{type_} as {N.RoundTrip}>::law()" for type_ in types]
    return out + ([law(t, N.RoundTripReadable, "readable_law", f"{N.laws}::variants_return()", *calls)] if t.round_trips else [])


def enum_impls(t):
    return {"restricted": restricted, "scalar": scalar, "described": described, "index": index}[t.encoding](t)

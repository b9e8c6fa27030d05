"""The impls of annotated structs: lists, maps and single values, with or without a descriptor."""

from derive_terms import N, WIDTH, aliases, built, filled, function, impl, law, macro, parts, quote, reading, serialize, uses, words_in
from derive_types import RESERVED


def fields_shape(t, opens, fields, closes):
    """The shape of the fields, or its value."""
    inner = f'{N.MapOf if t.encoding == "map" else N.ListOf if t.short else N.FullListOf}{opens}{fields}{closes}'
    return f"{N.AnyOf}{opens}{inner}{closes}" if t.by_name else inner


def inner_shape(t, fields):
    """The shape without the descriptor."""
    return f"{N.Of}<{t.fields[0].type}>" if t.encoding == "basic" else fields_shape(t, "<", fields, ">")


def field_aliases(first, before, after, fields):
    """The types that name a shape and its fields: rows of four, and then one by one. In a row that is too long for a line, the longest
    kinds have names."""
    rows, kinds, out = len(fields) // 4 * 4, [kind(f) for f in fields], []
    for at in range(0, rows, 4):
        rest = f"{N.row}00" if at + 4 < len(fields) else "()"
        kinds[at:at + 4] = [N.kinds.get(it, it) for it in kinds[at:at + 4]]
        while len(f"type {N.row}00 = {row(kinds[at:at + 4])}{rest}>;") >= WIDTH:
            longest = max(kinds[at:at + 4], key=lambda it: "<" in it and len(it))
            if len(longest) < len(N.kind) + 2:
                break
            N.kinds[longest] = N.new(N.kind)
            out.append(f"type {N.kinds[longest]} = {longest};\n")
            kinds[at:at + 4] = [N.kinds.get(it, it) for it in kinds[at:at + 4]]
    steps = [*(row(kinds[at:at + 4]) for at in range(0, rows, 4)), *(f"{N.One}<{it}, " for it in kinds[rows:])]
    return [*aliases(first, before, after, N.row, steps, "()"), *out]


def row(kinds):
    """The type of four fields before that of the fields after them."""
    return f"{N.Four}<{', '.join(kinds)}, "


def kind(f):
    """The kind of a field, which determines how it is read."""
    if f.seed == "Optional":
        return f.type
    return f"{N.Defaulted}<{f.type}, {number(f)}>" if f.seed == "Defaulted" else f"{N.Of}<{f.type}>"


def number(f):
    """The number of a default."""
    return {"false": "0", "true": "1"}.get(f.default, f.default)


def shape(t):
    """The types that name the shape."""
    whole = inner_shape(t, "\0" if t.fields else "()")
    if not t.composite:
        whole = f"{N.AfterCode}<{whole}, {t.code}>" if t.code else f"{N.AfterName}<{whole}>" if t.symbol else whole
    before, fields, after = whole.partition("\0")
    return "\n".join(field_aliases(f"{t.name}Shape", before, after, t.fields) if fields else
                     [f"type {t.name}Shape = {whole};\n"])


def holding(t, value):
    """The struct of one field that holds the value of a variable."""
    name = t.fields[0].member
    return f"{t.name}({value})" if t.is_tuple else f"{t.name} {{ {value} }}" if name == value else f"{t.name} {{ {name}: {value} }}"


def record(t):
    values = t.fields[0].type if t.encoding == "basic" else f"<{t.name}Shape as {N.Shape}>::Value"
    term = "λ x. " + (t.fields[0].of("x") if t.encoding == "basic" else " ▸ ".join([*(f.of("x") for f in t.fields), "tt"]))
    if t.encoding == "basic":
        body = f"        {holding(t, 'values')}\n"
    else:
        body = built(t.name, t.fields, t.is_tuple and t.fields, " " * 8)
    return impl(N.Record, t, {"parts": term if t.fields else "λ _. tt"}, function("from_parts", [f"values: {values}"], t.name, body),
                types=[("Values", values)])


def names_of(t):
    """The names that determine the parts: that of a descriptor that is a name alone, and those of the fields of a map."""
    names = quote(t.name, N.Named, "names") if t.by_name else ""
    return f'(codes "{t.symbol}" ∷ {names or "[]"})' if t.symbol and not t.code else names


def named_impl(t):
    names = " ∷ ".join([*(f'codes "{f.name}"' for f in t.fields), "[]"])
    return [impl(N.Named, t, {"names": names}, function("names_are_distinct", [], "", ""))] if t.by_name else []


def named(fields):
    """The rows of `named!`."""
    return [f'"{f.name}"' + {"Required": "", "Optional": "?", "Defaulted": f" = {number(f)}"}[f.seed] for f in fields]


def read_fields(t):
    """The statements that read the fields, or the single value."""
    if t.encoding == "basic":
        out, seed = "", f"{N.Of}({N.PhantomData})"
    else:
        out = f"        {t.name}::names_are_distinct();\n" if t.by_name else ""
        out += macro(f"let fields = {N.named}!", named(t.fields), ";", " " * 8) if t.fields else ""
        seed = fields_shape(t, "(", "fields" if t.fields else "()", ")")
    if not t.composite:
        seed = f"{N.AfterCode}::<_, {t.code}>({seed})" if t.code else f'{N.AfterName}("{t.symbol}", {seed})' if t.symbol else seed
    return out + f"        {N.read_shaped}(alloc, source, {seed})\n"


def read(t):
    """The impls of a type that is read."""
    of = f"{quote(t.name + 'Shape', N.Shape, 'laws')} {parts(t)}"
    laws = f"by_names {names_of(t)} {of}" if names_of(t) else f"by_parts {of}"
    out = [shape(t), record(t), *named_impl(t)]
    if not t.composite:
        return [*out, impl(N.Readable, t, {"laws": laws}, reading(t, "read_value", read_fields(t)))]
    descriptor = function("descriptor", [], "(u64, &'static str)", f'        ({t.code}, "{t.symbol}")\n')
    members = {"descriptor_code": t.code, "descriptor_name": f'codes "{t.symbol}"', "body": laws}
    return [*out, impl(N.Composite, t, members, descriptor, reading(t, "read_body", read_fields(t)))]


def shape_tree(t):
    """The tree of a value, by its shape."""
    of = f'{quote(t.name + "Shape", N.ShapeTree, "tree")} {parts(t)}'
    if t.composite:
        return f"after_code_by_names {t.code} {names_of(t)} {of}" if names_of(t) else f"after_code {t.code} {of}"
    return f"tree_by_names {names_of(t)} {of}" if names_of(t) else f"tree_by_parts {of}"


def tree_in_words(t):
    """The tree of a value, for a type without a round trip."""
    described = f"(code {t.code})" if t.code else f'(name (codes "{t.symbol}"))' if t.symbol else ""
    values = [f.of("x") for f in t.fields]
    if t.encoding == "basic":
        tree = tree_of(t.fields[0], values[0])
    else:
        trees = [field_tree(f, value, t.short) for f, value in zip(t.fields, values)]
        trees = [f'(codes "{f.name}", {tree})' for f, tree in zip(t.fields, trees)] if t.encoding == "map" else trees
        rows = "\n        " * bool(trees) + "\n        ∷ ".join([*trees, "[]"])
        tree = f'{"short_" * t.short}{"map" if t.encoding == "map" else "list"}_of ({rows})'
    return f'λ {"x" if t.fields else "_"}. ' + (f"as_described (Some {described}) ({tree})" if described else tree)


def tree_of(f, value):
    return f"{'optional ' if f.optional else ''}{quote(f.inner, N.Serialize, 'tree')} {value}"


def field_tree(f, value, short):
    return tree_of(f, value) if not short else f"optional_value {tree_of(f, value)[9:]}" if f.optional else f"required_value ({tree_of(f, value)})"


def field_rows(fields, values, short):
    """The rows of `fields!`."""
    return [f'"{f.name}"{"?" if f.optional and short else ""}: {value}' for f, value in zip(fields, values)]


def write_fields(t):
    """The statement that serializes the fields, or the single value."""
    said, method = (f"&{t.code}u64" if t.code else f'&{N.Name}("{t.symbol}")'), " " * 8 + "serializer.serialize_described("
    if t.encoding == "basic":
        return f"{method}{said}, &self.{t.fields[0].member})\n"
    rows = field_rows(t.fields, [f"&self.{f.member}" for f in t.fields], t.short)
    list_ = f"{N.MapOf if t.encoding == 'map' else N.ListOf}({N.fields}!"
    if not (t.code or t.symbol):
        out = macro(list_, rows, ").serialize(serializer)", " " * 8)
        return out if out.count("\n") == 1 else macro(list_, rows, ")", " " * 8) + " " * 8 + ".serialize(serializer)\n"
    out = macro(f"{method.strip()}{said}, &{list_}", rows, "))", " " * 8)
    return out if out.count("\n") == 1 else f"{method}\n            {said},\n{macro('&' + list_, rows, '),', ' ' * 12)}        )\n"


def write(t):
    if t.code or t.symbol:
        N.SerializeCompounds  # the trait of serialize_described
    return impl(N.Serialize, t, {"tree": shape_tree(t) if t.round_trips else tree_in_words(t)}, serialize(write_fields(t)))


def round_trip(t):
    of = "composite_returns" if t.composite else "after_name_returns" if t.symbol and not t.code else "parts_return"
    call = f'{getattr(N, f"named_{of}" if t.by_name else of)}::<{t.name}, {t.name}Shape>(' + (f'"{t.symbol}")' if "name_" in of else ")")
    first = [f"{t.name}::names_are_distinct()"] if t.by_name else []
    return law(t, *((N.RoundTripComposite, "composite_law") if t.composite else (N.RoundTripReadable, "readable_law")), *first, call)


def constructor(t):
    """The function that takes the required fields."""
    word = lambda f: f"«{f.member}»" if f.member in RESERVED else f.member
    absent = lambda f: f.default if f.seed == "Defaulted" else "None"
    arguments = ", ".join(f"{f.member}: {f.type}" for f in t.fields if f.seed == "Required")
    values = " ▸ ".join([*(word(f) if f.seed == "Required" else absent(f) for f in t.fields), "tt"])
    uses("≡ ▸ " + " ".join(absent(f) for f in t.fields if f.seed != "Required"), t)
    ensures = filled(words_in(f"ensures {{ {parts(t)} result ≡ {values} }}"), " " * 12, " " * 8)
    rows = "".join(f"            {f.member}{'' if f.seed == 'Required' else f': {absent(f)}'},\n" for f in t.fields)
    seeds = {f.seed for f in t.fields}
    said = "Returns a value with these fields." + " The others are `None`." * (seeds == {"Required", "Optional"}) + \
        " The others are `None`, or have their default." * ("Defaulted" in seeds)
    return f"    /// {said}\n    pub fn new({arguments}) -> {t.name}\n" \
        f"{ensures}\n    {{\n        {t.name} {{\n{rows}        }}\n    }}\n"


def defaults(t):
    """Methods that return the default of a field that is absent."""
    out = []
    for f in (f for f in t.fields if f.default and f.optional):
        said = f"result ≡ value_or {f.default} {f.of('self.now')}"
        uses(said, t)
        out.append(f"    /// Returns `{f.member}`, or `{f.default}` if it is absent.\n    pub fn {f.member}_or_default(&self) -> {f.inner}\n"
                   f"        ensures {{ {said} }}\n    {{\n"
                   f"        self.{f.member}.unwrap_or({f.default})\n    }}\n")
    return out


def write_newtype(t):
    f = t.fields[0]
    tree = shape_tree(t) if t.round_trips else f"λ x. {tree_of(f, f.of('x'))}"
    return impl(N.Serialize, t, {"tree": tree}, serialize(f"        self.{f.member}.serialize(serializer)\n"))


def struct_impls(t):
    out = read(t) if t.reads else []
    if t.writes:
        out.append(write_newtype(t) if t.transparent else write(t))
    out += [round_trip(t)] if t.round_trips else []
    if "map_key" in t.flags:
        out.append(law(t, N.MapKey, "image_is_injective", f"<{t.fields[0].type} as {N.MapKey}>::image_is_injective()"))
    own = [constructor(t)] * ("new" in t.flags) + defaults(t)
    return out + ([f"impl {t.name} {{\n" + "\n".join(own) + "}\n"] if own else [])

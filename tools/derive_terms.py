"""The text of impls: names of the library, terms of the logic, types, calls and functions."""

import re
import textwrap

WIDTH = 100
# where the definitions are that a ghost member may name
PLACES = (
    ("std.specs.Prelude", "◌≡◌ Some None [] ◌∷◌ List Option Bool ℕ true false codes string_bytes IfSome IfNone"),
    ("serde_amqp.specs.Derive",
     "symbol_text byte_buf_bytes f32_bits f64_bits dec32_bytes dec64_bytes dec128_bytes milliseconds_of uuid_bytes optional Tree Scalar "
     "code name scalar bool ubyte ushort uint ulong byte short int long char float double decimal32 decimal64 decimal128 timestamp uuid "
     "binary string symbol as_described short_list_of list_of short_map_of required_value optional_value value_or ◌▸◌ by_parts by_names "
     "by_image by_text by_string by_scalar tree_by_parts tree_by_names after_code after_code_by_names variant_of tree_of_parts "
     "NewtypeVariant first second third fourth fifth sixth seventh eighth ninth tenth rest1 rest2 rest3 rest4 rest5 rest6 rest7 rest8 "
     "rest9 rest10"),
)
# the types that every crate has
PRELUDE = ("Box", "Option", "Result", "String", "Vec")
SIGNS = {"◌≡◌": "≡", "◌∷◌": "∷", "◌▸◌": "▸", "[]": "[]"}


class Library:
    """Names of `serde_amqp::derive`, as `N.Source`: imported by the printed file, unless its types are or hold other items of the name."""

    def begin(self, text, types):
        """Begins the file of the impls of these types, which the text of their file declares."""
        uses = re.findall(r"^(?:pub(?:\([^)]*\))? )?use ([^;]*);", text, re.M)
        words = lambda uses: {it for use in uses for it in re.findall(r"(?<=[\s:{,])\w+", use)}
        known = words(uses) | set(re.findall(r"\b(?:struct|enum|type|trait|const|static|mod)\s+(\w+)", text))
        fields = [f for t in types for f in t.fields + [f for v in t.variants for f in v.fields]]
        held = {it for f in fields for it in re.findall(r"(?<![\w:])[A-Za-z_]\w*", f.type)}
        self.of_file = {t.name for t in types} | {it for it in held if it in known or it[0].isupper() and it not in PRELUDE}
        self.others = self.of_file - words(use for use in uses if use.startswith("serde_amqp::"))
        self.used, self.terms = set(), ""
        # how many aliases have each name with a number, and the aliases of kinds of fields
        self.counts, self.kinds = {}, {}
        self.row, self.kind = self.free("Row"), self.free("Kind")

    def free(self, name):
        """A name that no type of the file has, with or without a number behind it."""
        return name if not any(re.fullmatch(rf"{name}\d*", it) for it in self.of_file) else self.free(f"Field{name}")

    def new(self, name):
        """The next alias of this name: NAME, NAME2 and so on."""
        self.counts[name] = self.counts.get(name, 0) + 1
        return f"{name}{self.counts[name] if self.counts[name] > 1 else ''}"

    def __getattr__(self, name):
        if name in self.others:
            return f"serde_amqp::derive::{name}"
        self.used.add(name)
        return name

    def imports(self, impls):
        """The lines that import what the impls name: of the annotated file, and of the library."""
        code = code_in(impls)
        of_file = sorted(it for it in self.of_file if re.search(rf"(?<![\w:]){it}\b", code))
        of_library = ", ".join(sorted(self.used - self.of_file))
        return f"{self.imports_of_terms()}\nuse super::{{{', '.join(of_file)}}};\nuse serde_amqp::derive::{{{of_library}}};\n"

    def imports_of_terms(self):
        """The lines that import what the terms name."""
        bare = re.sub(r'⟦[^⟧]*⟧(\.\w+)+|"[^"]*"', "", self.terms)
        has = lambda n: SIGNS[n] in bare if n in SIGNS else re.search(rf"(?<![\w.«]){n}(?![\w»])", bare)
        out = ""
        for place, names in PLACES:
            head = f"ghost use Rattle.{place}.{{"
            found = rows_of([n for n in names.split() if has(n)], " " * len(head))
            out += "".join(f"{head}{line.strip().rstrip(',')}}};\n" for line in found.split("\n") if line.strip())
        return out


def code_in(text):
    """The code of a printed text, without comments, texts and terms, but with what terms have in ⟦⟧."""
    text = re.sub(r'//[^\n]*|"[^"]*"', "", text)
    return re.sub(r"ghost use [^;]*;|ghost \w+ = \{.*?\};", lambda it: " ".join(re.findall("⟦[^⟧]*⟧", it.group())), text, flags=re.S)


N = Library()


def filled(words, indent, first=None):
    """The words on lines of at most 100 columns."""
    text = " ".join(word.replace(" ", "\0") for word in words)
    return textwrap.fill(text, WIDTH, initial_indent=indent if first is None else first, subsequent_indent=indent,
                         break_long_words=False, break_on_hyphens=False).replace("\0", " ")


def words_in(term):
    """The words of a term: what is in ⟦⟧ is one, and so are a tree and its value, and a text and the word before it."""
    return re.findall(r"\(*⟦[^⟧]*⟧(?:\.tree (?=[vx]))?\S*(?: };)?|\(*codes \"[^\"]*\"\S*|\S+ };|\S+", term)


def rows_of(rows, indent):
    return filled([row + "," for row in rows], indent)[:-1]


def uses(terms, t):
    """The line that imports the variants of an enum, if the terms name them. The file imports what else they name."""
    N.terms += f"{terms}\n"
    return f"    ghost use Rattle.{t.module}.{t.name}.TheVariants as variant;\n" if "variant." in terms else ""


def member(name, term):
    """A ghost member: on one line, or on several. What is in ⟦⟧ stays together, and so does a term by cases."""
    line = f"    ghost {name} = {{ {term} }};"
    return (line if "\n" in term or len(line) <= WIDTH else filled(words_in(line), " " * 8, "    ")) + "\n"


def impl(trait, t, members, *functions, types=()):
    """An impl: what imports the variants, its types, its ghost members and its functions."""
    items = [used] if (used := uses("\n".join(members.values()), t)) else []
    items += [f"    type {name} = {value};\n" for name, value in types] + [member(*it) for it in members.items()]
    return f"impl {trait} for {t.name} {{\n" + "\n".join([*items, *functions]) + "}\n"


def function(name, arguments, result, body):
    """A function of an impl."""
    arrow = f" -> {result}" if result else ""
    return f"    fn {name}({', '.join(arguments)}){arrow} {{" + (f"\n{body}    }}\n" if body else "}\n")


def serialize(body):
    return function(f"serialize<S: {N.Serializer}>", ["&self", "serializer: &mut S"], "Result<S::Ok, S::Error>", body)


def reading(t, name, body):
    """The function that reads a value, or what follows its descriptor. In line, the parts are not copied from call to call."""
    hint = "    #[inline(always)]\n" * ("read_shaped" in body)
    return hint + function(f"{name}<S: {N.Source}>", [f"alloc: {N.Global}", "source: S"], f"Result<({t.name}, S::Rest), {N.Fault}>", body)


def law(t, trait, name, *calls):
    return impl(trait, t, {}, function(name, [], "", "".join(f"        {call};\n" for call in calls)))


def quote(type_, trait, name):
    return f"⟦<{type_} as {trait}>⟧.{name}"


def parts(t):
    return quote(t.name, N.Record, "parts")


def cases(arms, of="x", type_="_"):
    """A term by cases on a value of the enum."""
    rows = "".join(filled(words_in(f"| variant.{arm} ↦ {term}"), " " * 10, " " * 6) + "\n" for arm, term in arms)
    return f"elim {of} as (λ _. {type_}) [\n{rows}    ]"


def aliases(first, before, after, name, steps, last):
    """`type FIRST = BEFORE A<B, NAME> AFTER;`, `type NAME = C<D, NAME2>;` and so on: as many aliases as lines of 100 columns need. A step
    is the text before the rest."""
    group, out = [], []
    line = lambda group, rest: f"type {first} = {before}{''.join(group)}{rest}{'>' * len(group)}{after};\n"
    for at, step in enumerate(steps):
        if len(line(group + steps[at:], last)) <= WIDTH:
            return [*out, line(group + steps[at:], last)]
        if (group or before) and len(line([*group, step], f"{name}00")) > WIDTH:
            rest = N.new(name)
            out.append(line(group, rest))
            first, before, after, group = rest, "", "", []
        group.append(step)
    return [*out, line(group, last)]


def macro(head, rows, tail, indent):
    """`head { rows }tail`, on one line or on several."""
    line = f"{indent}{head} {{ {', '.join(rows)} }}{tail}" if rows else f"{indent}{head} {{}}{tail}"
    return (line if len(line) <= WIDTH else f"{indent}{head} {{\n{rows_of(rows, indent + '    ')}\n{indent}}}{tail}") + "\n"


def built(name, fields, is_tuple, indent, before="", after=""):
    """The value of a struct or a variant, from the values of its fields."""
    opens, closes = ("(", ")") if is_tuple else (" { ", " }") if fields else (" {", "}")
    line = f"{indent}{before}{N.built}! {{ values => {name}{opens}{', '.join(f.var for f in fields)}{closes} }}{after}"
    if len(line) > WIDTH:
        line = f"{indent}{before}{N.built}! {{ values => {name}{opens.rstrip()}\n" \
            f"{rows_of([f.var for f in fields], indent + '    ')}\n{indent}{closes.lstrip()} }}{after}"
    return line + "\n"

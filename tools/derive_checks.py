"""What tools/derive refuses beside wrong annotations: what would be lost, and types of fields that no impl reads or writes."""

import re

from derive_annotations import Wrong, split
from derive_types import INSTEAD

ANNOTATION = re.compile(r"//[/!]*\s*amqp\s*:")
FOREIGN = re.compile(r"#!?\[\s*(amqp_contract|serde)\b")
LIBRARY = set("""Array BTreeMap Box ByteBuf Dec32 Dec64 Dec128 Described Descriptor F32Bits F64Bits HashMap LazyValue Multiple Option OrderedMap
    String Symbol Timestamp TransparentVec Uuid Value Vec""".split())
# the crates whose other types have no impls
KNOWN_CRATES = ("std", "core", "alloc", "serde_amqp")
MOST_IN_TUPLE = 4


def check_lines(text):
    """Refuses annotations below another one or behind code, and attributes of crates that are not here."""
    lines, above = text.split("\n"), 0
    for number, line in enumerate(lines, 1):
        code = line.strip()
        if code.startswith("//"):
            if ANNOTATION.match(code):
                if above:
                    raise Wrong(number, f"an annotation is one line: append this to that of line {above}, after a comma")
                above = number
            continue
        bare = re.sub(r'"(?:[^"\\]|\\.)*"', '""', code)
        if ANNOTATION.search(bare):
            raise Wrong(number, "this annotation is behind code: write it on a line of its own, above the type or the field")
        if foreign := FOREIGN.match(code):
            raise Wrong(number, foreign_said(foreign.group(1), "\n".join(lines[number - 1:])))
        if code and not (code.startswith("#[") and code.endswith("]")):
            above = 0


def foreign_said(name, text):
    """What to write in place of an attribute, which begins the text."""
    inside = re.match(r"[^(\]]*\(([^)]*)\)", text)
    settings = re.sub(r"\s+", " ", inside.group(1)).strip().rstrip(",") if inside and name == "amqp_contract" else ".."
    return f"the attribute `{name}` has no effect here: write `// amqp: {settings}` in its place"


def imports(text):
    """The crate or module from which each name is imported."""
    out = {}
    for whole in re.findall(r"\buse\s+([^;]*);", text):
        root = re.match(r"\w*", whole.lstrip(": ")).group()
        for name, other in re.findall(r"(\w+|\*)(?:\s+as\s+(\w+))?\s*(?=[,}]|$)", whole):
            out[other or name] = (root, name)
    return out


class Names:
    """The names of a file's types: those with annotations, those that it declares, and those that it imports."""

    def __init__(self, text, types, has_impl):
        code = re.sub(r"//[^\n]*", "", text)
        self.types, self.has_impl = {t.name: t for t in types}, has_impl
        self.declared = {name: kind for kind, name in re.findall(r"\b(struct|enum|type)\s+(\w+)", code)}
        self.imported = imports(code)

    def fault(self, t, path):
        """What is wrong with the type of this path as a part of a field, or None."""
        *way, name = path.split("::")
        root, name = (way[0], name) if way else self.imported.get(name, ("", name))
        if t.reads and path == t.name:
            return f"`{name}` contains itself: add write_only, and read it level by level (docs/TYPES.md)"
        if not way and path in self.types:
            return self.lacks(t, self.types[path])
        if not way and path in self.declared:
            known = self.declared[path] == "type" or self.has_impl(path)
            return None if known else f"no impl reads or writes `{path}`: annotate it, or write its impls by hand"
        if name in LIBRARY or root not in ("", *KNOWN_CRATES) or not root and "*" in self.imported:
            return None
        if root or name in INSTEAD:
            return f"no impl reads or writes `{path}`" + (f": write {INSTEAD[name]}" if name in INSTEAD else ": write a type of docs/TYPES.md")
        return f"`{path}` is not in this file: import it by `use`"

    @staticmethod
    def lacks(t, held):
        """What another annotated type lacks as the type of a field, or None."""
        if t.reads and not held.reads or t.writes and not held.writes:
            return f"`{held.name}` is only {'written' if held.writes else 'read'}: so must {t.name} be"
        if t.round_trips and not held.round_trips:
            return f"`{held.name}` does not round-trip: add no_round_trip to {t.name}"
        return None


def check_types(text, types, has_impl):
    """Refuses the types of fields that no impl reads or writes, at the field. `has_impl` tells whether a type has an impl by hand."""
    names = Names(text, types, has_impl)
    for t in types:
        for f in [*t.fields, *(f for v in t.variants for f in v.fields)]:
            wide = next((it for it in re.findall(r"\(([^()]*)\)", f.type) if len(split(it)) > MOST_IN_TUPLE), None)
            if wide:
                raise Wrong(f.line, f"{t.name}.{f.member}: no impl reads a tuple of more than {MOST_IN_TUPLE} values: write a struct")
            for path in re.findall(r"(?<![\w:'])(?:\w+::)*[A-Z]\w*", f.type):
                if fault := names.fault(t, path):
                    raise Wrong(f.line, f"{t.name}.{f.member}: {fault}")

"""The items of a source file: kind, name, comment, signature, clauses and members. It relies on the layout of `rt fmt`."""

import re

KINDS = "fn|struct|enum|union|trait|type|const|static|mod|macro_rules!|impl|use"
ITEM = re.compile(rf"(pub(?:\([^)]+\))? )?((?:unsafe |const (?=fn|unsafe)|final |ghost |extern \"C\" )*)(?:({KINDS})(?!\w) ?(\w*)|(\w+)(?=:| =))")
VARIANT = re.compile(r"([A-Z]\w*)")
FIELD = re.compile(r"(pub(?:\([a-z]+\))? )?(?:ghost )?(\w+): ")
CLAUSE = re.compile(r"\s*(ensures|requires)(\*?) (?:(\w+) )?\{")


class Item:
    """An item of a module, a member of a trait or an impl, a variant or a field."""

    def __init__(self, kind, name, public, line):
        self.kind, self.name, self.public, self.line = kind, name, public, line
        self.comment, self.attributes = [], []
        # The text before the clauses and the body, the lines of the clauses, and whether there is a body.
        self.signature, self.clauses, self.has_body, self.members = "", [], False, []
        # The patterns of a macro, and for a method the signature of an `impl` with bounds.
        self.patterns, self.within = [], ""

    def labels(self):
        """Returns the labels of the clauses, in order; a clause without a label has its first word."""
        found = (CLAUSE.match(line) for line in self.clauses)
        return [it[3] or it[1] for it in found if it and it[1] == "ensures"]

    def requires(self):
        return any(re.match(r"\s*requires\b", line) for line in self.clauses)

    def derived(self):
        """Returns the traits that the item derives."""
        found = re.findall(r"#\[derive\(([^)]*)\)\]", " ".join(self.attributes))
        return [it for it in re.split(r",\s*", " ".join(found).strip(", ")) if it]

    def is_test(self):
        return any("cfg(test)" in it or it == "#[test]" for it in self.attributes)


def code(line):
    """Returns the line without the content of characters and strings, and without a comment."""
    line = re.sub(r"'(?:\\[^']+|[^'\\])'", "''", line)
    return re.sub(r"//.*", "", re.sub(r'"(?:\\.|[^"\\])*"', '""', line)).rstrip()


def depth_of(line):
    return sum(line.count(it) for it in "([{") - sum(line.count(it) for it in ")]}")


def end_of(lines, first, last, indent, marks):
    """Returns the number of the last line of the item that begins at this line. It ends by one of the marks, outside brackets, or with its body."""
    depth = 0
    for at in range(first, last):
        text = code(lines[at])
        depth += depth_of(text)
        is_body = text.startswith((f"{indent}}}", f"{indent}{{}}")) or text.endswith("}" if at == first else " {}") and not CLAUSE.match(text)
        if depth == 0 and (text.endswith(marks) or is_body):
            return at
    raise ValueError(f"line {first + 1}: the item has no end")


def clauses_start(lines):
    """Returns how many lines are before the clauses, and how many before the body."""
    depth, indent = 0, re.match(" *", lines[0])[0]
    for at, line in enumerate(lines):
        if at and depth == 0 and (CLAUSE.match(line) or line.strip().startswith("//")):
            body = next((it for it in range(at, len(lines)) if re.fullmatch(rf"{indent}\{{\}}?", lines[it])), len(lines))
            return at, body
        if line in (f"{indent}{{", f"{indent}{{}}"):
            return at, at
        depth += depth_of(code(line))
        if depth == 1 and code(line).endswith("{") or depth == 0 and code(line).endswith(("{}", ";")):
            return at + 1, at + 1
    return len(lines), len(lines)


def without_indent(lines):
    indent = min((len(it) - len(it.lstrip()) for it in lines if it), default=0)
    return [it[indent:] for it in lines]


def read_text(item, lines):
    """Fills the signature and the clauses of the item from its lines, and returns how many lines are before its members."""
    if item.kind in ("const", "type", "use", "ghost", "variant", "field", "static"):
        item.signature = "\n".join(without_indent(lines)).rstrip(",")
        return len(lines)
    if item.kind == "macro_rules!":
        item.signature, item.public = f"{item.name}!", any("macro_export" in it for it in item.attributes)
        item.patterns = [it[1] for it in (re.match(r"    (\(.*\)) => \{", line) for line in lines) if it]
        return len(lines)
    head, body = clauses_start(lines)
    text = "\n".join(without_indent(lines[:head]))
    item.has_body = not re.search(r";$", code(lines[-1])) or item.kind == "impl"
    item.signature = re.sub(r"\s*(\{\}?|;)$", "", text)
    clauses = without_indent(lines[head:body])
    item.clauses = clauses[:-1] + [re.sub(r";$", "", it) for it in clauses[-1:]]
    return max(body, 1) + (lines[body : body + 1] == [re.match(" *", lines[0])[0] + "{"])


def start_of(text, inside):
    """Returns the item that begins with this text, without its line, or None."""
    if inside == "enum":
        found = VARIANT.match(text)
        return found and Item("variant", found[1], True, 0)
    if inside == "struct":
        found = FIELD.match(text)
        return found and Item("field", found[2], found[1] == "pub ", 0)
    found = ITEM.match(text)
    if not found:
        return None
    kind = "ghost" if found[5] or "ghost" in found[2] else found[3]
    return Item(kind, found[5] or found[4], found[1] == "pub ", 0)


def read_items(lines, first, last, indent="", inside=""):
    """Yields the items in these lines that have this indentation."""
    comment, attributes, at = [], [], first
    while at < last:
        text, end = lines[at].strip(), at
        if text.startswith("///"):
            comment.append(re.sub(r"^/// ?", "", text))
        elif text.startswith("#[") or text.startswith("#!["):
            while depth_of("".join(map(code, lines[at : end + 1]))):
                end += 1
            attributes.append(" ".join(map(str.strip, lines[at : end + 1])))
        elif text and not text.startswith("//") and (item := start_of(text, inside)):
            item.line, item.comment, item.attributes = at + 1, comment, attributes
            end = end_of(lines, at, last, indent, (",",) if inside in ("enum", "struct") else (";",))
            body = at + read_text(item, lines[at : end + 1])
            if item.kind in ("trait", "impl", "enum", "struct"):
                item.members = [*read_items(lines, body, end, f"{indent}    ", item.kind)]
            yield item
        elif text and not text.startswith("//"):
            raise ValueError(f"line {at + 1}: no item: {text}")
        if text and not text.startswith(("///", "#", "//")):
            comment, attributes = [], []
        at = end + 1


def read_file(path):
    """Returns the comment of the module and its items."""
    lines = path.read_text("utf-8").splitlines()
    comment = [re.sub(r"^//! ?", "", it) for it in lines if it.startswith("//!")]
    try:
        return comment, [*read_items(lines, 0, len(lines))]
    except ValueError as error:
        raise ValueError(f"{path}: {error}") from None

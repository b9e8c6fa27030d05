"""Reads the edits of a crate, in must-fail/, audit/ and harmless/, and finds the functions that each of them changes.

An edit has lines 'file: PATH', 'old: TEXT' and 'new: TEXT'. The old text is in the file exactly once when its pair is applied.
"""

import re
from dataclasses import dataclass


class BadEdit(Exception):
    """The edit cannot be applied."""


def pairs(edit):
    """Yields the file, the old text and the new text of each pair of the edit."""
    path = old = None
    with open(edit, encoding="utf-8") as lines:
        for line in lines.read().split("\n"):
            word, _, text = line.partition(":")
            text = text[1:] if text.startswith(" ") else text
            if word == "file":
                path = text.strip()
            elif word == "old":
                old = text
            elif word == "new":
                if not path or not old:
                    raise BadEdit("a line 'new:' without 'file:' or 'old:' before it")
                yield path, old, text
                old = None


def only(edit):
    """Returns the function that a line 'only: NAME' of the edit names, below the crate: the one to check. The kit does not read the line."""
    with open(edit, encoding="utf-8") as lines:
        return next((it[len("only:") :].strip() for it in lines if it.startswith("only:")), None)


def applied(edit, texts, read):
    """Returns the texts, by path, after the edit. `read` gives the text of a file that is not in `texts`."""
    texts = dict(texts)
    for path, old, new in pairs(edit):
        if not path.startswith(("src/", "specs/", "proofs/")) or ".." in path.split("/"):
            raise BadEdit(f"{path} is not in src/, specs/ or proofs/")
        try:
            text = texts[path] if path in texts else read(path)
        except OSError:
            raise BadEdit(f"there is no file {path}") from None
        if text.count(old) != 1:
            raise BadEdit(f"the old text is in {path} {text.count(old)} times: {old.strip()}")
        texts[path] = text.replace(old, new)
    if not texts:
        raise BadEdit("it has no 'old:' and 'new:'")
    return texts


@dataclass(frozen=True)
class Function:
    """A function with a body: its name, the header of its impl or trait if it has one, its cycle of calls, and where its text begins and ends."""

    name: str
    owner: str
    cycle: str
    start: int
    body: int
    end: int


NO_CODE = r'//[^\n]*|/\*.*?\*/|"(?:\\.|[^"\\])*"|\'(?:\\[^\']+|[^\'\\\n])\''
CLAUSE = r"\b(requires|ensures|ghost)\b\*?\s*(\w+\s*:?\s*)?$"


def blanked(text):
    """Returns the text with spaces for its comments, strings and characters."""
    return re.sub(NO_CODE, lambda found: re.sub(r"[^\n]", " ", found[0]), text, flags=re.S)


def closing(text, at):
    """Returns the position after the brace that closes the one at `at`."""
    depth = 0
    for i in range(at, len(text)):
        depth += {"{": 1, "}": -1}.get(text[i], 0)
        if depth == 0:
            return i + 1
    return len(text)


def body_after(code, at):
    """Returns where the body of the function declared at `at` begins, if it has one: the first brace that belongs to no clause."""
    depth, since = 0, at
    while at < len(code):
        if code[at] in "([":
            depth += 1
        elif code[at] in ")]":
            depth -= 1
        elif code[at] == ";" and depth == 0:
            return None
        elif code[at] == "{":
            if depth == 0 and not re.search(CLAUSE, code[since:at]):
                return at
            at = since = closing(code, at)
            continue
        at += 1
    return None


def functions(text):
    """Returns the functions with a body, those inside another function's body left out."""
    code = blanked(text)
    owners = []
    for found in re.finditer(r"(?:^|[;}])[ \t]*(?:pub(?:\([^)]*\))? )?(?:unsafe )?((?:impl|trait)\b(?:[^{;\[]|\[[^\]]*\])*)\{", code, re.M):
        owners.append((found.end(), closing(code, found.end() - 1), found[1]))
    made, last = [], 0
    for found in re.finditer(r"\bfn\s+(\w+)", code):
        body = body_after(code, found.end()) if found.start() >= last else None
        if body is None:
            continue
        last = closing(code, body)
        around = [header for start, end, header in owners if start <= found.start() < end]
        above = re.search(r"#\[cycle\((\w+)\)\](?:\s*#\[[^\]]*\])*\s*(?:pub(?:\([^)]*\))?\s+)?$", code[: found.start()])
        made.append(Function(found[1], " ".join(around[-1].split()) if around else "", above[1] if above else "", found.start(), body, last))
    return made


def changed_functions(old, new):
    """Returns the functions of `old` whose bodies differ in `new`, or None where more than bodies differ. A parameter may become `mut`."""
    before, after = functions(old), functions(new)
    if outside(old, before) != outside(new, after):
        return None
    return [a for a, b in zip(before, after) if old[a.body : a.end] != new[b.body : b.end]]


def outside(text, its_functions):
    """Returns the text without the bodies of its functions and without `mut` before parameters."""
    parts, at = [], 0
    for function in its_functions:
        parts += [text[at : function.start], re.sub(r"([(,]\s*)mut\s+", r"\1", text[function.start : function.body])]
        at = function.end
    return parts + [text[at:]]


def owner_words(header):
    """Returns the words of the name that rattle makes of an impl: of its type, of its trait, and of the trait's arguments."""
    rest, parameters = header[len("impl") :].strip(), ""
    if rest.startswith("<"):
        parameters, rest = split_brackets(rest)
    parameters = set(re.findall(r"(?:^|,)\s*(?:const )?(\w+)", parameters[1:-1]))
    rest = rest.split(" where ")[0]
    trait, _, its_type = rest.rpartition(" for ")
    bare, _, arguments = trait.strip().partition("<")
    return [words(its_type, parameters), bare.split("::")[-1], "".join(words(it, parameters) for it in listed(arguments[:-1]))]


def split_brackets(text):
    """Returns the text up to the bracket that closes its first one, and the rest."""
    depth = 0
    for at, c in enumerate(text):
        depth += {"<": 1, ">": -1}.get(c, 0)
        if depth == 0:
            return text[: at + 1], text[at + 1 :].strip()
    return text, ""


def listed(text):
    """Returns the parts between the commas that are in no bracket."""
    parts, depth = [""], 0
    for c in text:
        depth += {"<": 1, "(": 1, "[": 1, ">": -1, ")": -1, "]": -1}.get(c, 0)
        if c == "," and depth == 0:
            parts.append("")
        else:
            parts[-1] += c
    return [it.strip() for it in parts if it.strip()]


def words(text, parameters):
    """Returns the words that rattle makes of a type: RefSliceU8 of &[u8], ArrayU84 of [u8; 4], VecU8 of Vec<u8>, and nothing of a parameter."""
    text = text.strip()
    if text in parameters or text.startswith("'"):
        return ""
    if text.startswith("&"):
        mutable, of = re.match(r"&\s*(?:'\w+\s*)?(mut\s+)?(.*)", text, re.S).groups()
        return ("RefMut" if mutable else "Ref") + words(of, parameters)
    if text.startswith("["):
        of, _, length = text[1:-1].partition(";")
        return ("Array" if length else "Slice") + words(of, parameters) + words(length, parameters)
    if text.startswith("("):
        parts = listed(text[1:-1])
        return (f"Tuple{len(parts)}" if parts else "Unit") + "".join(words(it, parameters) for it in parts)
    path, _, arguments = text.partition("<")
    name = path.split("::")[-1].strip()
    return name[:1].upper() + name[1:] + "".join(words(it, parameters) for it in listed(arguments[:-1]))

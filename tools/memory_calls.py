"""Fails where a public call takes memory and the table at the head of the program tests/memory does not have it.

A call takes memory

- where an allocator is passed to it,
- where it may be refused and its comment names `OutOfMemory`, `AllocError` or `ConvertFault::Memory`, or says "out of memory",
- where it may be refused as another call of its trait that takes memory, so its comment says,
- where it serializes into a serializer, or ends a compound: so much as the serializer takes.

A visitor, a reader and a writer are the caller's own: a call that hands them something takes what they take.
It is public where its crate's root, or a public module of it, hands out its name, or that of its type or trait.
"""

import re
import sys
from pathlib import Path

ROOT = Path(__file__).resolve().parent.parent / "crates"
LIBRARIES = (
    "amqp_calendar amqp_data amqp_frame amqp_ser amqp_size amqp_wire amqp_value amqp_to_value amqp_decode "
    "amqp_de amqp_visit amqp_from_value serde_amqp"
).split()


def exported(crate):
    """The names that the crate's root and its public modules hand out."""
    source = ROOT / crate / "src"
    files, names = [source / "lib.rt"], set()
    while files:
        path = files.pop()
        text = path.read_text()
        for use in re.findall(r"^pub use ([^;]+);", text, re.M):
            names.update(re.findall(r"\b\w+\b(?!::)", use))
        names.update(re.findall(r"^pub (?:struct|enum|trait|fn) (\w+)", text, re.M))
        folder = source if path.name == "lib.rt" else path.with_suffix("")
        for module in re.findall(r"^pub mod (\w+);", text, re.M):
            if module != "laws":
                files.append(folder / f"{module}.rt")
    return names


def items(text):
    """Each function with its comment, its holder (`""`, or what an `impl` or a `trait` is of) and its signature."""
    holder, comment, lines = "", [], text.split("\n")
    for at, line in enumerate(lines):
        if line.startswith("}"):
            holder = ""
        found = re.match(r"(?:pub )?(impl|trait)\b(.*)", line)
        if found:
            head = " ".join(lines[at:at + 12]).split("{")[0]
            head = re.sub(r"\b(?:where|ghost)\b.*", "", head)
            holder = head.split(" for ")[-1] if found[1] == "impl" else head
            trait_impl = found[1] == "impl" and " for " in head
        if line.strip().startswith("///"):
            comment.append(line)
            continue
        found = re.match(r"( {4})?(?:final )?(pub )?(?:final )?(?:const )?fn (\w+)", line)
        if found:
            rest = "\n".join(lines[at:at + 30])
            signature = re.split(r"\n\s*(?:requires|ensures)\b|\{\}?\n|;\n", rest)[0]
            inherent = holder and not trait_impl and "trait" not in holder
            if found[2] or (found[1] and not inherent):
                yield holder if found[1] else "", found[3], signature, "\n".join(comment)
        if not line.strip().startswith("#["):
            comment = []


def type_name(holder):
    name = re.sub(r"<.*?>+", "", re.sub(r"^(?:pub )?(?:impl|trait)\s*", "", holder)).strip()
    found = re.search(r"(\w+)", name.lstrip("&"))
    return found[1] if found else ""


def takes_memory(signature, comment):
    arguments, _, answer = signature.rpartition(") ->")
    if re.search(r"\bGlobal\b", arguments):
        return True
    if "Result" not in answer:
        return False
    if re.search(r"OutOfMemory|AllocError|ConvertFault::Memory|out of memory", comment):
        return True
    return serializes_into(arguments, answer)


def serializes_into(arguments, answer):
    """Whether the call gives a value or a part to a serializer, or ends a compound."""
    given = r"\bT: Serialize\b|\bK: Serialize\b|\bS: Serializer\b|: (?:&mut )?Self::Open|fn end\("
    return bool(re.search(r"\b(S|Self)::Error\b", answer) and re.search(given, arguments))


def same_as(comment):
    """The calls as which this one is refused, in its comment's words."""
    errors = comment.partition("# Errors")[2].partition("///\n")[0]
    return set(re.findall(r"(?:[Aa]s|[Ll]ike|errors[\s/]+of)[\s/]+`(\w+)`", errors))


def conversions(text):
    """The containers that a value is turned into: their impls have no comment of their own."""
    found = re.findall(r"TryFrom<Value> for (\w+)<", text)
    return {f"{name}::try_from" for name in found}


def wanted():
    calls, others = set(), []
    for crate in LIBRARIES:
        names = exported(crate)
        for path in sorted((ROOT / crate / "src").rglob("*.rt")):
            if "tests" in path.relative_to(ROOT).parts or path.name == "tests.rt":
                continue
            calls |= conversions(path.read_text())
            for holder, name, signature, comment in items(path.read_text()):
                of = type_name(holder)
                call = f"{of}::{name}" if of else name
                if of == "Visitor":
                    continue
                if (of or name) in names and takes_memory(signature, comment):
                    calls.add(call)
                elif (of or name) in names and "Result" in signature:
                    others.append((call, {f"{of}::{other}" for other in same_as(comment)}))
    while more := {call for call, same in others if same & calls} - calls:
        calls |= more
    return calls


def table():
    text = (ROOT.parent / "tests/memory/main.rt.in").read_text()
    return {call for row in re.findall(r"^//! \| (.*) \|", text, re.M) for call in re.findall(r"`([\w:]+)`", row)}


def main():
    calls, known = wanted(), table()
    missing, gone = sorted(calls - known), sorted(known - calls)
    for call in missing:
        print(f"{call} takes memory, and is not in the table of tests/memory")
    for call in gone:
        print(f"{call} stands in the table of tests/memory, and is no public call that takes memory")
    if missing or gone:
        sys.exit(1)
    print(f"{len(calls)} public calls that take memory stand in the table of tests/memory")


main()

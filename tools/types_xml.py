"""Compares tools/types_table.txt with the standard's XML, which Debian has in its package `amqp-specs`."""

import xml.etree.ElementTree
from pathlib import Path

STANDARD = Path("/usr/share/amqp/specs/1-0")
PARTS = ["transport", "messaging", "transactions", "security"]
NAMESPACE = "{http://www.amqp.org/schema/amqp.xsd}"
# The defaults of the header are in the text of section 3.2.1 alone.
DEFAULTS = {"durable": "false", "priority": "4", "first-acquirer": "false", "delivery-count": "0"}
# Types of the table for which the XML has a less restricted type, or what a type must provide.
NAMES = {"unsettled-map": "map", "value": "global-tx-id", "transaction-id": "txn-id"}


def standard():
    """The types of the standard by their names: elements of its XML."""
    roots = [xml.etree.ElementTree.parse(STANDARD / f"{part}.bare.xml").getroot() for part in PARTS]
    return {it.get("name"): it for root in roots for it in root.iter(f"{NAMESPACE}type")}


def field(it):
    """A field of the XML: its name, its type or what the type must provide, its flags and its default."""
    type_, requires = it.get("type"), it.get("requires")
    return it.get("name"), requires if type_ == "*" else type_, it.get("mandatory") == "true", it.get("multiple") == "true", it.get("default")


def table_field(type_, it):
    """The same of a field of the table."""
    named = "symbol" if it.requires in ("distribution-mode", "error-condition", "txn-capability") else it.requires or it.type
    default = None if type_.name == "header" and DEFAULTS.get(it.name) == it.default else it.default
    return it.name, NAMES.get(named, named), it.mandatory, it.multiple, default


def differences(table):
    """Yields a line for each difference."""
    found = standard()
    described = {name: it.find(f"{NAMESPACE}descriptor") for name, it in found.items()}
    for name, it in described.items():
        if it is not None and name not in table.types:
            yield f"{name}: not in the table"
    for name, type_ in table.types.items():
        if type_.kind not in ("list", "section", "choice"):
            continue
        it = found.get(name)
        if it is None:
            yield f"{name}: not in the standard"
            continue
        if type_.code:
            high, low = (int(part, 16) for part in described[name].get("code").split(":"))
            if (high << 32 | low, described[name].get("name")) != (int(type_.code, 16), type_.symbol):
                yield f"{name}: descriptor"
        if type_.kind == "choice":
            wanted = [(one.get("name"), one.get("value")) for one in it.iter(f"{NAMESPACE}choice")]
            same = wanted == [(one.name, one.words[0]) for one in type_.fields] and it.get("source") == type_.source
        else:
            same = [field(one) for one in it.iter(f"{NAMESPACE}field")] == [table_field(type_, one) for one in type_.fields]
        if not same:
            yield f"{name}: fields or choices"


def compared(table):
    """What a comparison found: a line, and whether they agree."""
    if not STANDARD.is_dir():
        return f"not compared with the standard: {STANDARD} is not there (Debian's package amqp-specs has it)", True
    found = [*differences(table)]
    return "\n".join(found) or f"the table has the types of {STANDARD}", not found

"""The table of amqp_dump, as tools/types prints it."""

HEAD = """//! The described types of the standard: their names, descriptors and fields.

use crate::names::Type;

/// The types, in the order of their numeric descriptors.
pub(crate) static TYPES: [Type; %d] = [
"""


def dump_file(table):
    """The text of the table, before its layout."""
    found = sorted((it for it in table.types.values() if it.code), key=lambda it: int(it.code, 16))
    fields = lambda it: ", ".join(f'"{one.name}"' for one in it.fields)
    rows = (f'Type {{ code: {it.code.lower()}, name: "{it.name}", form: "{it.symbol.split(":")[-1]}", fields: &[{fields(it)}] }},\n' for it in found)
    return HEAD % len(found) + "".join(rows) + "];\n"

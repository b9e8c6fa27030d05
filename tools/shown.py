"""The text of a value."""

from datetime import date, timedelta

from definitions import RAW, raw

ESCAPES = {0: "\\0", 9: "\\t", 10: "\\n", 13: "\\r", 92: "\\\\"}


def escaped(text, quote):
    return quote + "".join(
        ESCAPES.get(ord(c)) or ("\\" + c if c == quote else f"\\u{{{ord(c):x}}}" if ord(c) < 32 or ord(c) == 127 else c)
        for c in text
    ) + quote


def moment(milliseconds):
    days, left = divmod(milliseconds, 86_400_000)
    # The calendar comes back after 400 years, which have 146,097 days.
    cycles, day = divmod(days, 146_097)
    found = date(1970, 1, 1) + timedelta(day)
    year = found.year + 400 * cycles
    year_text = f"{year:04}" if 0 <= year <= 9999 else f"{'-' if year < 0 else '+'}{abs(year):06}"
    seconds, millis = divmod(left, 1000)
    clock = f"{seconds // 3600:02}:{seconds // 60 % 60:02}:{seconds % 60:02}.{millis:03}"
    return f"{year_text}-{found.month:02}-{found.day:02}T{clock}Z"


def shown(tree):
    kind, content = tree
    if kind == "null":
        return "null"
    if kind == "bool":
        return "true" if content else "false"
    if kind in ("float", "double"):
        return f"0x[{raw(kind, content).hex()}]"
    if kind == "uuid":
        text = content.hex()
        return "-".join((text[:8], text[8:12], text[12:16], text[16:20], text[20:]))
    if kind == "binary" or kind in RAW:
        return f"0x[{content.hex()}]"
    if kind == "char":
        return escaped(chr(content), "'")
    if kind == "string":
        return escaped(content.decode(), '"')
    if kind == "symbol":
        return ":" + content.decode()
    if kind == "timestamp":
        return moment(content)
    if kind in ("list", "array"):
        return "[" + ", ".join(map(shown, content)) + "]"
    if kind == "map":
        texts = [shown(part) for part in content]
        return "{" + ", ".join(f"{key}: {value}" for key, value in zip(texts[::2], texts[1::2])) + "}"
    if kind == "described":
        descriptor, value = content
        return (f"0x{descriptor[1]:x}" if descriptor[0] == "ulong" else shown(descriptor)) + " -> " + shown(value)
    return str(content)

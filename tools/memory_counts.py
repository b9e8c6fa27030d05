"""Compares what the lines of tests/memory and the rows of tests/rows take of memory with tools/memory_counts.txt.

    python3 tools/memory_counts.py SHIM [--write]    SHIM is tools/refuse_alloc.c, compiled

A line of tools/memory_counts.txt has the number of requests for memory, the bytes that they ask for in all, and what makes them:
a line of the part `calls` or `large` of tests/memory, or a row of tests/memory/rows or optional_rows or of `COUNTED`. A line
or a row that makes more requests, or asks for more bytes, fails, as does one that the file does not have. Less passes: --write
notes it, and what is new. A row is run alone, and what the program takes without it is subtracted.

Each line and each row must free what it took.

The calls of the part `large` are those of `calls` with about a mebibyte. The rows of `GROWTH` are run with 1,000 and with 16,000
parts. Each call of a row may then make `STEPS` requests more: a block that grows by doubling grows four times more. A call that
keeps a block for a few parts each, as a `BTreeMap` does, may make a fifth of a request more for each part.
"""

import os
import subprocess
import sys
from pathlib import Path

ROOT = Path(__file__).resolve().parent.parent
KNOWN = ROOT / "tools/memory_counts.txt"
SMALL, LARGE = 1_000, 16_000
# Six blocks that double four times; and how many calls a row of `read` makes.
STEPS, CALLS = 24, 4


def header(code, body, count):
    """The header of a compound in its long form, in hexadecimal."""
    return f"{code}{body + 4:08x}{count:08x}"


def scalars(code, part):
    """A list of equal scalars."""
    return lambda n: f"{header('d0', n * len(part) // 2, n)}+{part}*{n}"


def array(part):
    """An array of uints, ints or ubytes."""
    return lambda n: f"{header('f0', 1 + n * (len(part) // 2 - 1), n)}{part[:2]}+{part[2:]}*{n}"


def numbered(n):
    """A map from different uints to `true`."""
    return f"{header('d1', 6 * n, 2 * n)}+7000000000+4170#{n - 1}+41"


def equal_keys(n):
    """A map of one key with many values, of which the last one remains."""
    return f"{header('d1', 5 * n, 2 * n)}+5001a10161*{n}"


def parts(code, constructor, part):
    """A list of equal parts, or an array of them after their constructor."""
    return lambda n: f"{header(code, len(constructor) // 2 + n * len(part) // 2, n)}{'+' if constructor else ''}{constructor}+{part}*{n}"


def text(code):
    """A binary, string or symbol."""
    return lambda n: f"{code}{n:08x}+61*{n}"


LONG_KEY = "a040" + "00" * 60
# Rows that are counted, and of which no request is refused. Some answer invalid, and free what they read before, as the string that is
# no descriptor; one map has a key twice, whose first value is a string; the other has long keys, the first one once more at its end; and
# two values have four and nine descriptors.
COUNTED = [
    "cut 0080000000000000007545",
    "decode c004015001ff",
    "decode 00a1016140",
    "decode c109045001a10161500141",
    "read Value 0053010053020053030053045001",
    "read String a00161",
    f"decode {header('d1', 41 * 67, 82)}+{LONG_KEY}00000000+41{LONG_KEY}#39+41{LONG_KEY}0000000041",
    f"after {''.join(f'00530{n}' for n in range(1, 10))}a10161",
]
# The call of the row, the value by the number of its parts, and how many requests of each call are allowed for each part.
GROWTH = [
    ("decode", scalars("d0", "5001"), 0),
    ("decode", array("7100000001"), 0),
    ("decode", numbered, 0),
    ("decode", equal_keys, 1),
    ("decode", parts("f0", "b1", "0000000161"), 1),
    ("decode", parts("f0", "c0", "03015001"), 1),
    ("decode", parts("d0", "", "c003015001"), 1),
    ("decode", text("b0"), 0),
    ("decode", text("b1"), 0),
    ("hold", scalars("d0", "5001"), 0),
    ("hold", numbered, 0),
    ("lazy", scalars("d0", "5001"), 0),
    ("cut", scalars("d0", "5001"), 0),
    ("array_of", scalars("d0", "5001"), 0),
    ("read Value", scalars("d0", "5001"), 0),
    ("read LazyValue", numbered, 0),
    ("read Vec<u8>", scalars("d0", "5001"), 0),
    ("read Vec<u32>", scalars("d0", "7000000100"), 0),
    ("read Array<u8>", array("5001"), 0),
    ("read Array<u32>", array("7000000100"), 0),
    ("read Vec<String>", parts("d0", "", "a10161"), 2),
    ("read Vec<LazyValue>", parts("d0", "", "5001"), 2),
    ("read Array<String>", parts("f0", "b1", "0000000161"), 2),
    ("read TransparentVec<bool>", scalars("d0", "41"), 0),
    ("read String", text("b1"), 0),
    ("read Symbol", text("b3"), 0),
    ("read ByteBuf", text("b0"), 0),
    ("read OrderedMap<u32,bool>", numbered, 0),
    ("read BTreeMap<u32,bool>", numbered, 0.2),
    ("marked SYMBOL", text("b1"), 0),
    ("after", text("b3"), 0),
]


def run(program, rows, *words):
    """The numbers that the shim prints for each line of output, and at the end."""
    shim = os.environ | {"LD_PRELOAD": sys.argv[1], "COUNT": "1"}
    done = subprocess.run([ROOT / "out/tests" / program, *words], input=rows, capture_output=True, text=True, env=shim)
    if done.returncode:
        sys.exit(f"{program} ends with the status {done.returncode}: {rows[:80]}")
    return done.stdout.splitlines(), [tuple(map(int, line.split())) for line in done.stderr.splitlines()]


def of_row(row):
    """What the row takes: requests, bytes, and bytes that are not freed."""
    with_row, without = (run("rows", f"{line}\n")[1][-1] for line in (row, "#" + row[1:]))
    return tuple(one - other for one, other in zip(with_row, without))


def taken():
    """What each line and each row takes."""
    found = {}
    for part in ("calls", "large"):
        lines, ends = run("memory", "", part)
        before = (0, 0, 0)
        for line, end in zip(lines, ends):
            found[line] = tuple(now - then for now, then in zip(end, before))
            before = end
    for name in ("rows", "optional_rows"):
        for row in (ROOT / "tests/memory" / name).read_text().splitlines():
            found[row] = of_row(row)
    return found | {row: of_row(row) for row in COUNTED}


def known():
    """What the file has of each line and row."""
    split = (line.split(" ", 2) for line in KNOWN.read_text().splitlines()) if KNOWN.exists() else ()
    return {name: (int(requests), int(size)) for requests, size, name in split}


def grows(call, value, each):
    """What is wrong about the requests of a row of more parts, if anything is."""
    small, large = (of_row(f"{call} {value(count)}") for count in (SMALL, LARGE))
    calls = CALLS if call.startswith("read ") else 1
    more, allowed = large[0] - small[0], calls * (STEPS + each * (LARGE - SMALL))
    if more > allowed:
        return [f"{call} {value(LARGE)[:40]}: {more} requests more for {LARGE} parts than for {SMALL}, not {allowed}"]
    return [f"{call} {value(LARGE)[:40]}: {large[2]} bytes are not freed"] if large[2] else []


def main():
    found, before, faults = taken(), known(), []
    less = {}
    for name, (requests, size, kept) in found.items():
        wanted = before.get(name)
        if kept:
            faults.append(f"{name[:80]}: {kept} bytes are not freed")
        if not wanted:
            less[name] = (requests, size)
        elif requests > wanted[0] or size > wanted[1]:
            faults.append(f"{name[:80]}: {requests} requests for {size} bytes, more than {wanted[0]} for {wanted[1]}")
        elif (requests, size) != wanted:
            less[name] = (requests, size)
    for row in GROWTH:
        faults += grows(*row)
    if "--write" in sys.argv:
        noted = {name: less.get(name, before.get(name)) for name in found}
        KNOWN.write_text("".join(f"{requests} {size} {name}\n" for name, (requests, size) in noted.items()))
    else:
        faults += [f"{name[:80]}: not in tools/memory_counts.txt (--write)" for name in less if name not in before]
    if faults:
        sys.exit("\n".join(faults))
    known_less = sum(name in before for name in less)
    print(f"{len(found)} lines and rows take no more memory than noted, {known_less} take less; {len(GROWTH)} rows grow slowly")


main()

"""Runs the program tests/rows once for each of its allocations, with that one failing.

    python3 tools/memory_rows.py SHIM    SHIM is tools/refuse_alloc.c, compiled

The input is tests/memory/rows. Each of its lines is a row of tests/rows/stdin or crates/test_rows/stdin too, and must have the
result of the file stdout beside it while no allocation fails. Each row is run alone. The first allocations hold the input and the
output as a whole: while one of them fails, the program must print nothing and end with status 1. While any other one fails, it must
end with status 0, and its line must have `<out of memory>` in place of its result or of a part of it.

While an allocation for the headers of a `Value` fails, which a call of `to_vec` makes for the value as a whole, no line may differ: the
headers are recorded part by part then. `HEADERS` is the number of these. While an allocation fails that a call which reads a type from
bytes makes in one pass, no line may differ either: the call reads the type from an untyped value then. `ONE_PASS` is the number of these.
Nor while the room for the entries of an `OrderedMap` that is read cannot be reserved at once: `RESERVED`.

The rows of tests/memory/optional_rows make calls that go on without some of their allocations: the hashes of keys, the index of
a map, the capacity of a list. They are run likewise, with `OPTIONAL` allocations that may fail without a change.

The rows of tests/memory/deep_rows read deep and wide values of about a mebibyte. They must have their results while each
allocation of more than 16 MiB fails.

Each run must free all that it took, whatever allocation fails.
"""

import os
import subprocess
import sys
from pathlib import Path

ROOT = Path(__file__).resolve().parent.parent
REFUSED = "<out of memory>"
# Of the table of headers of each `Value` that is written, also inside a typed value: one for 4 headers, and one whenever it grows.
HEADERS = 167
# The requests that the calls of the rows of `read` make in one pass, and for the tables of headers of the lazy values that are read
# and written on the way.
ONE_PASS = 297
# Of the rows of `read` whose type has an `OrderedMap`: one for each that is read from an untyped value.
RESERVED = 7
# Two for the hashes of each of two maps that are decoded. For each of the four calls of the rows of `read`: two for the hashes of each
# of two maps, decoded or made by `to_value`; two for the hashes of an `OrderedMap`; one for each of two lists. One for the room of an
# `OrderedMap`. And 14 of tables of headers, and 5 in each of three passes over the list of lists. And the requests of the calls of the
# rows of `read` that read in one pass.
OPTIONAL = 66 + 296


def run(rows, **refused):
    """The status and the standard output of the program, and how many allocations it made. All must be freed at its end."""
    shim = os.environ | {"LD_PRELOAD": sys.argv[1], "COUNT": "1"} | refused
    done = subprocess.run([ROOT / "out/tests/rows"], input=rows, capture_output=True, text=True, env=shim)
    requests, _, kept = map(int, done.stderr.splitlines()[-1].split())
    if kept:
        wrong(f"{kept} bytes are not freed with {refused}")
    return done.returncode, done.stdout, requests


def wrong(words):
    sys.exit(f"tests/rows: {words}")


def rows_of(name):
    """The rows of a file of tests/memory, and the lines that they must print."""
    result = {}
    for folder in ("tests/rows", "crates/test_rows"):
        result |= zip(*((ROOT / folder / part).read_text().splitlines() for part in ("stdin", "stdout")))
    rows = (ROOT / "tests/memory" / name).read_text().splitlines()
    for row in rows:
        if row not in result:
            wrong(f"{row} stands in tests/memory/{name}, and in no file stdin of rows")
    return "".join(f"{row}\n" for row in rows), "".join(f"{result[row]}\n" for row in rows)


def results_of(line):
    """The row of a line, and its results: more than one for a row of `read` or `read_within` whose calls have different ones."""
    row, _, result = line.partition(" = ")
    first, _, others = result.partition(", but ")
    more = others.removeprefix("from_slice ").removeprefix("from_reader_limited ").split(" and ") if others else []
    return row, [first, *more]


def is_refused(line, full):
    """Whether the line is the full one with out of memory in place of its result or of a part of it.

    Of a row of `read` or `read_within`, one of the calls may have such a result, and the others the full one.
    """
    (row, results), (wanted, (expected, *_)) = results_of(line), results_of(full)
    refused = 0
    for result in results:
        before, found, after = result.partition(REFUSED)
        is_whole = expected.startswith(before) and expected.endswith(after) and len(before) + len(after) <= len(expected)
        if not (result == expected or found and is_whole):
            return False
        refused += bool(found)
    return row == wanted and refused == 1


def fail_row(row, full):
    """Runs a row with each allocation failing in turn. Returns how many there are, how many end the program, and how many change
    nothing."""
    status, printed, requests = run(row, REFUSE="0")
    first, unchanged = 0, 0
    if (status, printed) != (0, full):
        wrong(f"with no allocation failing the result is wrong (status {status}): {printed}")
    for number in range(1, requests + 1):
        status, printed, _ = run(row, REFUSE=str(number))
        if (status, printed, first) == (1, "", number - 1):
            first = number
        elif (status, printed) == (0, full):
            unchanged += 1
        elif status or printed.count("\n") != 1 or not is_refused(printed.rstrip("\n"), full.rstrip("\n")):
            wrong(f"allocation {number} failed, and the line that came is wrong (status {status}): {printed} in place of {full}")
    return requests, first, unchanged


def fail_each(name, optional):
    """Runs each row of a file with each allocation failing in turn; `optional` of them in all may fail without a change."""
    found = [fail_row(*both) for both in zip(*(text.splitlines(True) for text in rows_of(name)))]
    requests, first, unchanged = map(sum, zip(*found))
    if unchanged != optional:
        wrong(f"{unchanged} allocations of {name} failed without a change, not {optional}")
    ended = f"{first} ended the program, {unchanged} changed nothing and all others ended one call"
    print(f"of {requests} allocations of {len(found)} rows of {name}, each failing in turn, {ended}")


def main():
    rows, expected = rows_of("deep_rows")
    if run(rows, REFUSE_PAST="16777216")[:2] != (0, expected):
        wrong("deep or wide values of a mebibyte take more than 16 MiB at once, or have other results")
    fail_each("rows", HEADERS + ONE_PASS + RESERVED)
    fail_each("optional_rows", OPTIONAL)


main()

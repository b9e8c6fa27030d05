"""Compares the results that the program tests/trees prints with those of an evaluator in plain Python.

    differential.py PROGRAM SEED COUNT    runs the program once on random rows (grow.py) and as many rows of one encoding,
                                          most of which is malformed (malformed.py), and prints the first that differs
    differential.py --expected            reads rows, and prints what the program has to print for them

The encodings are in definitions.py, what bytes stand for, with the order of faults, in decoding.py, the text of a value in
shown.py, and the trees of nodes and of rows in nodes.py.
Several errors may come first for some rows. --expected then prints one of them: if a row of its input is followed by
results of the program, the error there if it is permitted, else the first one.
"""

import subprocess
import sys
import tempfile
from itertools import zip_longest
from random import Random
from resource import RLIMIT_AS, setrlimit

from decoding import decoded, frame_len, frozen
from definitions import FAULTS, INVALID, LONG, Refused, written
from grow import Grower, rows
from malformed import malformed
from nodes import image, tree_of
from shown import shown

SIGN = " = "

# How many bytes the program may have, beside eight for each of its input.
MEMORY_LIMIT = 2 ** 26


def answer(make):
    try:
        return make(), None
    except Refused as refused:
        return None, refused.args[0]


def on_one_line(tree):
    return shown(tree).replace("\n", "\\n").replace("\t", "\\t")


def faults_on_none(row):
    """The errors that may come first if there is no tree: that there is none, and what is wrong with a lazy part."""
    tokens = row.split(" ")
    if "LAZY_VALUE" in tokens:
        return FAULTS
    parts = [bytes.fromhex(token[5:]) for token in tokens if token.startswith("lazy:")]
    faults = [answer(lambda: decoded(part))[1] for part in parts]
    return [INVALID] + [fault for fault in faults if fault is not None]


def results(tree, row):
    """The fields of the results, each a text, or a choice of errors if one of several may come first."""
    data, refusal = answer(lambda: written(tree))
    fields = [refusal, refusal, "", "", ""]
    meant = None
    if data is not None:
        length = frame_len(data)
        meant, no_meaning = answer(lambda: decoded(data))
        lazy = "=" if length == len(data) else INVALID
        text = no_meaning or on_one_line(meant)
        fields = [str(len(data)), data.hex(), "none" if length is None else str(length), lazy, text]
    value, refusal = answer(lambda: image(tree))
    if value is None:
        return fields + [faults_on_none(row) if tree is None else refusal, "", "", "", ""]
    again, refusal = answer(lambda: written(value))
    same = "none" if meant is None else "=" if frozen(meant) == frozen(value) else "other"
    return fields + [on_one_line(value), refusal or again.hex(), same, "=", "="]


def answers(row):
    """The fields of the results of a row, or its only field if it is not well formed."""
    try:
        return results(tree_of(row), row)
    except Refused as refused:
        return [refused.args[0]]


def holds(found, wanted):
    return found == wanted or isinstance(wanted, (list, tuple)) and found in wanted


# Random rows.


def printed(program, given):
    """The lines that the program prints for these rows. Exits if it fails, or prints more or fewer lines.

    Its memory is limited, so that a call fails which allocates what a false count says.
    """
    text = "".join(row + "\n" for row in given).encode()
    most = MEMORY_LIMIT + 8 * len(text)
    with tempfile.TemporaryFile() as file:
        file.write(text)
        file.seek(0)
        ran = subprocess.run(
            [program], stdin=file, stdout=subprocess.PIPE, preexec_fn=lambda: setrlimit(RLIMIT_AS, (most, most))
        )
    lines = ran.stdout.decode().split("\n")
    if ran.returncode != 0 or lines.pop() != "" or len(lines) != len(given):
        sys.exit(f"tests/trees ended with status {ran.returncode} after {len(lines)} lines for {len(given)} rows")
    return lines


def compare(program, seed, count):
    grower = Grower(Random(seed))
    grown = list(rows(grower, count))
    encodings = malformed(grower, [tree for tree, _ in grown], count)
    lines = printed(program, [row for _, row in grown] + encodings)
    refused = sum(compare_row(row, line, results(tree, row)) for (tree, row), line in zip(grown, lines))
    faulty = sum(compare_row(row, line, answers(row)) for row, line in zip(encodings, lines[count:]))
    print(
        f"of {count} random trees, {refused} of which are refused, "
        f"and {count} encodings, {faulty} of which are refused, each answer is the evaluator's"
    )


def compare_row(row, line, fields):
    """Whether the row is refused. Exits if the program's line does not have these results."""
    given, _, printed_fields = line.partition(SIGN)
    found, wanted = [given, *printed_fields.split("\t")], [row, *fields]
    if len(found) != len(wanted) or not all(map(holds, found, wanted)):
        print("tests/trees and the evaluator differ:")
        for ours, other in zip_longest(found, wanted, fillvalue=""):
            print("  " + ours if holds(ours, other) else f"! {ours}\n  {other}")
        sys.exit(1)
    return fields[0] in (*FAULTS, LONG)


# Rows that are given.


def chosen(wanted, found):
    if isinstance(wanted, str):
        return wanted
    return found if found in wanted else wanted[0]


def expected(line):
    """What the program prints for this line of its input, which may have the results that it printed."""
    if not line or line.startswith("#"):
        return line
    row, _, found = line.partition(SIGN)
    wanted = answers(row)
    found = found.split("\t") + [""] * len(wanted)
    return row + SIGN + "\t".join(map(chosen, wanted, found))


def main():
    # A value has up to 256 levels, each of which takes some calls.
    sys.setrecursionlimit(10_000)
    if sys.argv[1:] == ["--expected"]:
        lines = sys.stdin.buffer.read().decode().split("\n")
        sys.stdout.buffer.write("\n".join(map(expected, lines)).encode())
    else:
        program, seed, count = sys.argv[1:]
        compare(program, int(seed), int(count))


main()

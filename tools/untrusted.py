"""Builds the calls of bench/untrusted with a driver in C."""

import hashlib
import os
from pathlib import Path

import lowering
import native

ROOT = Path(__file__).resolve().parent.parent
FOLDER, OUT = ROOT / "bench/untrusted", ROOT / "out/untrusted"


def rows():
    """Yields the case of each row, its bytes, and the answer."""
    for line in (FOLDER / "rows.txt").read_text(encoding="utf-8").splitlines()[1:]:
        given, answer = line.split(" = ")
        case, _, digits = given.rpartition(" ")
        yield case, bytes.fromhex(digits), int(answer)


def digest(words):
    """A sum of these words and of all that the calls are built from."""
    files = [ROOT / "crates.txt", *(ROOT / "tools" / it for it in ("lowering.py", "native.py", "untrusted.py"))]
    files += [*ROOT.glob("crates/*/src/**/*.rt"), *FOLDER.glob("*.rt.in"), *FOLDER.glob("*.[ch]"), *ROOT.glob("tests/example_types/*.in")]
    found = hashlib.sha256(f"{words} {native.run(['rt', 'version'])}".encode())
    for file in sorted(files):
        found.update(f"{file.relative_to(ROOT)}\n".encode() + file.read_bytes())
    return found.hexdigest()


def is_new(file, made):
    """Whether a file was made from what has this sum."""
    stamp = Path(f"{file}.built")
    return Path(file).exists() and stamp.exists() and stamp.read_text(encoding="utf-8") == made


def lowered():
    """Lowers the calls and the libraries below them, unless that is done. Returns the file, and the words for clang."""
    text, words, made = OUT / "calls.ll", OUT / "calls.words", digest([])
    if not is_new(text, made):
        OUT.mkdir(parents=True, exist_ok=True)
        module = f"{OUT}/calls.bc"
        with native.assembled() as room:
            given = native.module(room, "untrusted", module)
            lines = native.bare(room, module)
        with open(text, "w", encoding="utf-8") as file:
            file.writelines(f"{line}\n" for line in lines)
        os.remove(module)
        words.write_text("\n".join(it for it in given if not it.startswith("--sysroot=")), encoding="utf-8")
        Path(f"{text}.built").write_text(made, encoding="utf-8")
    return text, words.read_text(encoding="utf-8").split("\n")


def build(driver, call, flags, link):
    """Builds a driver of a C function, unless it is built: `flags` are for the calls, `link` is the command that links, with its words.
    Returns the program."""
    program, made = OUT / driver, digest([driver, call, flags, link])
    if not is_new(program, made):
        text, words = lowered()
        lines = text.read_text(encoding="utf-8").splitlines()
        with open(f"{program}.ll", "w", encoding="utf-8") as file:
            file.writelines(f"{line}\n" for line in lowering.exported(lines, "untrusted", [call]))
        native.compiled([*words, *flags], f"{program}.ll", f"{program}.o", 3)
        native.run([*link, "-O2", FOLDER / f"{driver}.c", f"{program}.o", "-Wl,--gc-sections", "-o", program])
        Path(f"{program}.built").write_text(made, encoding="utf-8")
    return program

"""Puts all tests together as one program, so that the libraries are read and compiled once.

Each folder of tests/crates.txt.in, and each program of crates/ that such a folder depends on, becomes a module of the program: a
program of rows under its name, and a library with #[test] functions, which become functions that print `failed: ` and a message for
each assertion that does not hold. A copy of a library with tests inside stays a crate of its own (tools/native.py).

The program runs what its first argument names, or what the name says under which it is called, as one of those that `tools/tests`
gives it in out/tests/.
"""

import re
import shutil
from pathlib import Path

import native

NAME = "tests"
HEAD = """//! All tests as one program.
#![tactic(auto)]

{modules}
use std::env::Env;
use std::process::ExitCode;
use std::test::Fail;

fn main(rt: HostRuntime) -> Result<ExitCode, Fail> {{
    let mut first = [0; 4096];
    let mut second = [0; 256];
    let mut name = b"".as_slice();
    if let Ok(len) = rt.arg(0, &mut first) {{
        name = last_part(&first[..len]);
    }}
    if name == b"{program}".as_slice() {{
        if let Ok(len) = rt.arg(1, &mut second) {{
            name = &second[..len];
        }}
    }}
{calls}    Ok(ExitCode::from(2))
}}

// Returns what follows the last slash.
fn last_part(path: &[u8]) -> &[u8] {{
    let mut start = 0;
    for (at, byte) in path.iter().enumerate() {{
        if *byte == b'/' {{
            start = at + 1;
        }}
    }}
    &path[start..]
}}
"""
# How the program calls a function, by what the function returns.
CALLS = {
    "": "{call};\n        return Ok(ExitCode::SUCCESS);",
    "ExitCode": "return Ok({call});",
    "Fail": "return match {call} {{\n            Ok(()) => Ok(ExitCode::SUCCESS),\n            Err(fail) => Err(fail),\n        }};",
    "Result": "return Ok(match {call} {{\n            Ok(()) => ExitCode::SUCCESS,\n            Err(_) => ExitCode::from(1),\n        }});",
}
TEST = re.compile(r"#\[test\]\n *(?:pub )?fn (\w+)\(\w+: HostRuntime\)(?: -> Result<\(\), (\w+)>)?")


def end_of(text, at):
    """The index of the bracket that closes what is open at `at`, and those of the commas on the way that are in no other bracket."""
    depth, commas = 0, []
    while True:
        if text[at] in "([{":
            depth += 1
        elif text[at] in ")]}":
            if not depth:
                return at, commas
            depth -= 1
        elif text[at] == "," and not depth:
            commas.append(at)
        elif found := re.compile(r'"(?:[^"\\]|\\.)*"|b?\'(?:[^\'\\]|\\.)[^\']{0,8}?\'', re.S).match(text, at):
            at = found.end() - 1
        at += 1


def as_calls(text):
    """The text with its #[test] functions as functions that can be called, and their assertions as output."""
    parts, at = [], 0
    for found in re.finditer(r"\bassert!\((\w+);", text):
        end, commas = end_of(text, found.end())
        ends = [*commas, end][:2]
        message = text[ends[0] + 1 : ends[1]].strip().strip(",").strip() if commas else '"an assertion"'
        held = f'if !({text[found.end() : ends[0]].strip()}) {{\n        let _ = println!({found[1]}; "failed: {message[1:]});\n    }}'
        parts += [text[at : found.start()], held]
        at = end + 2
    return TEST.sub(lambda it: it[0].partition("\n")[2].replace("pub fn", "fn").replace("fn ", "pub fn ", 1), "".join([*parts, text[at:]]))


def as_module(text, name, below):
    """The text of a file of a crate as that of a module; `below` are the modules that it uses as crates."""
    text = re.sub(r"(?m)^#!\[tactic\(auto\)\]\n|^#\[cfg\(test\)\]\n", "", text)
    text = re.sub(r"(?m)^( *)(?:pub )?mod (\w+);", r"\1pub mod \2;", text)
    text = re.sub(r"(?m)^fn main\(", "pub fn main(", text)
    text = re.sub(r"\bcrate::", f"crate::{name}::", text)
    for other in below:
        text = re.sub(rf"(?<![\w:.]){other}::", f"crate::{other}::", text)
    return text


def functions(text, path):
    """The functions of a file that the program can run, and what they return: `main`, and those that are tests."""
    found = re.search(r"(?m)^fn main\(\w+: HostRuntime\)(?: -> (?:io::)?(\w+))?", text)
    if found:
        yield path[0], "::".join([*path, "main"]), found[1] or ""
    for it in TEST.finditer(text):
        yield "::".join([*path, it[1]]), "::".join([*path, it[1]]), "" if not it[2] else "Fail" if it[2] == "Fail" else "Result"


def take(src, name, to, below):
    """Puts the files of a crate of the assembled repository into the program, and returns the functions that it can run."""
    found = []
    for file in sorted(src.rglob("*.rt")):
        inside = file.relative_to(src)
        path = [name, *inside.with_suffix("").parts]
        path = path[:1] if path[1:] in (["main"], ["lib"]) else path
        text = file.read_text(encoding="utf-8")
        found += functions(text, path)
        made = to.joinpath(*path).with_suffix(".rt")
        made.parent.mkdir(parents=True, exist_ok=True)
        made.write_text(as_calls(as_module(text, name, below)), encoding="utf-8")
    return found


def take_inside(src, name):
    """The same for the tests inside a copy of a library, which stay there."""
    found = []
    for file in [src / "tests.rt", *sorted((src / "tests").rglob("*.rt"))]:
        text = file.read_text(encoding="utf-8")
        found += functions(text, [name, *file.relative_to(src).with_suffix("").parts])
        file.write_text(as_calls(re.sub(r"(?m)^mod (\w+);", r"pub mod \1;", text)), encoding="utf-8")
    return found


def assemble(room):
    """Adds the program to the assembled repository, and returns its folders and the names of its tests."""
    room = Path(room)
    lines, own = native.lines_of(f"{room}/crates.txt"), native.lines_of(f"{native.ROOT}/tests/crates.txt.in")
    inside = [name for name, (words, _) in own.items() if words]
    programs = [it for name in own for it in lines[name][1] if (room / "crates" / it / "src/main.rt").exists()]
    modules = list(dict.fromkeys([*programs, *(it for it in own if it not in inside)]))
    to, found, below = room / "crates" / NAME / "src", [], list(inside)
    to.mkdir(parents=True)
    for name in modules:
        found += take(room / "crates" / name / "src", name, to, [it for it in lines[name][1] if it in modules])
        below += [it for it in lines[name][1] if it not in modules]
    for name in inside:
        found += take_inside(room / "crates" / name / "src", name)
    calls = [f'    if name == b"{name}".as_slice() {{\n        {CALLS[kind].format(call=f"{call}(rt)")}\n    }}\n' for name, call, kind in found]
    top = HEAD.format(modules="".join(f"pub mod {it};\n" for it in modules), program=NAME, calls="".join(calls))
    (to / "main.rt").write_text(top, encoding="utf-8")
    for name in modules:
        shutil.rmtree(room / "crates" / name)
    kept = [it for it in lines.items() if not {it[0], *it[1][1]} & {*modules}]
    kept = [f"{' '.join([name, *words])}: {' '.join(needed)}\n" for name, (words, needed) in kept]
    (room / "crates.txt").write_text("".join([*kept, f"{NAME}: {' '.join(dict.fromkeys(below))}\n"]), encoding="utf-8")
    return modules, [name for name, _, _ in found if name not in modules]

"""Copies the libraries into another repository, and compares a copy with what was copied."""

import re
from hashlib import sha256
from pathlib import Path
from subprocess import DEVNULL, PIPE, run

ROOT = Path(__file__).resolve().parent.parent
TOP = "serde_amqp"
# the libraries that can be copied are these and those below them
TOPS = (TOP, "amqp_jiff", "amqp_cursor", "amqp_dump", "amqp_types")
PARTS = {"src": ".rt", "specs": ".antt", "proofs": ".antt"}
OWN = "fimoruke"
LIST = f"{OWN}/COPIED"
HEAD = """\
# Fimoruke {version}, commit {commit}
# Written by tools/vendor: change neither this file nor the files below. A check: sha256sum -c --quiet {file}
# crates: {crates}
"""


class Refused(Exception):
    """What is wrong with DEST or with the arguments; nothing was written."""


def lines_of(path):
    """Returns the lines of a crates.txt by the name of their crate, and all its lines."""
    text = path.read_text("utf-8").splitlines() if path.is_file() else []
    named = (re.match(r"\s*(\w+)(?:\s+staticlib)?\s*:", line) for line in text)
    return {it[1]: line for it, line in zip(named, text) if it}, text


def same_line(one, other):
    """Returns whether two lines of a crates.txt, or none, have the same meaning."""
    words = [set(re.findall(r"[\w:]+", re.sub(r"\s*:", ":", it.partition("#")[0]))) for it in (one or "", other or "")]
    return words[0] == words[1]


def digest(path):
    return sha256(path.read_bytes()).hexdigest() if path.is_file() else None


class Copied:
    """What is copied, or was: the version, the commit, the names, and the lines of crates.txt and the sums of the files by their name."""

    def __init__(self, version="", commit="", roots=(), lines=None, sums=None):
        self.version, self.commit, self.roots, self.lines, self.sums = version, commit, list(roots), lines or {}, sums or {}

    def text(self):
        head = HEAD.format(version=self.version, commit=self.commit, file=LIST, crates=" ".join(self.roots))
        return head + "".join(f"# line: {it}\n" for it in self.lines.values()) + "".join(f"{it}  {path}\n" for path, it in sorted(self.sums.items()))

    def folders(self):
        return [f"crates/{name}/{part}" for name in self.lines for part in PARTS]


def read_copied(dest):
    """Returns what an earlier run wrote to DEST, or an empty list."""
    path = dest / LIST
    if not path.exists():
        return Copied()
    text = path.read_text("utf-8")
    head = re.match(r"# Fimoruke (\S+), commit (.+)\n.*\n# crates: (.+)\n", text)
    sums = {path: it for it, path in re.findall(r"(?m)^([0-9a-f]{64})  (.+)$", text)}
    lines = {it.split(":")[0].split()[0]: it for it in re.findall(r"(?m)^# line: (\w+.*:.*)$", text)}
    if not head or len(sums) + len(lines) + 3 != text.count("\n"):
        raise Refused(f"{path} is damaged: restore it, or copy to an empty repository")
    return Copied(head[1], head[2], head[3].split(), lines, sums)


def below(names, lines):
    """Returns these crates and those of the repository that they depend on, lowest first."""
    found = []
    for name in names:
        uses = lines[name].partition(":")[2].partition("#")[0].split()
        found += [it for it in [*below([it for it in uses if it in lines], lines), name] if it not in found]
    return found


def git(root, *words):
    ran = run(["git", "-C", root, *words], stdout=PIPE, stderr=DEVNULL, text=True)
    return ran.stdout.strip() if ran.returncode == 0 else None


def commit_of(root, names):
    commit = git(root, "rev-parse", "HEAD") or "unknown"
    changed = git(root, "status", "--porcelain", "--", "crates.txt", "LICENSE", "NOTICE", *(f"crates/{it}/{part}" for it in names for part in PARTS))
    return f"{commit} and later changes" if changed else commit


def offered(root, names):
    """Returns what a copy of these libraries has, and for each of its files the file of this repository."""
    lines, _ = lines_of(root / "crates.txt")
    libraries = below(TOPS, lines)
    unknown = [it for it in names if it not in libraries]
    if unknown:
        raise Refused(f"no library has the name {unknown[0]}; the libraries: {' '.join(libraries)}")
    crates = below(names, lines)
    files = {f"{OWN}/{it}": root / it for it in ("LICENSE", "NOTICE")}
    for name in crates:
        for part, suffix in PARTS.items():
            found = sorted((root / "crates" / name / part).rglob(f"*{suffix}"))
            files.update((it.relative_to(root).as_posix(), it) for it in found)
    version = re.search(r'pub const VERSION: &str = "(.+)";', (root / f"crates/{TOP}/src/lib.rt").read_text("utf-8"))[1]
    sums = {path: digest(it) for path, it in files.items()}
    return Copied(version, commit_of(root, crates), names, {it: lines[it] for it in crates}, sums), files


def present(dest, *copies):
    """Returns the paths of the files that these copies have, or that are in their folders of DEST."""
    found = {path for copied in copies for path in copied.sums}
    for folder in {it for copied in copies for it in copied.folders()}:
        found.update(it.relative_to(dest).as_posix() for it in (dest / folder).rglob("*") if it.is_file())
    return sorted(found)


def changes(dest, old):
    """Yields what was changed in DEST since the files and lines of `old` were copied."""
    for path in present(dest, old):
        now = digest(dest / path)
        if now != old.sums.get(path):
            yield f"{'added' if path not in old.sums else 'changed' if now else 'missing'}: {path}"
    lines, _ = lines_of(dest / "crates.txt")
    for name, line in old.lines.items():
        if not same_line(lines.get(name), line):
            yield f"{'changed' if name in lines else 'missing'}: the line {name} of crates.txt"


def conflicts(dest, old, new):
    """Yields what was changed in DEST that a copy of `new` would overwrite or remove."""
    lines, _ = lines_of(dest / "crates.txt")
    there = {name: dest / "crates" / name for name in new.lines if name not in old.lines}
    foreign = {name for name, it in there.items() if name in lines and not same_line(lines[name], new.lines[name]) or it.is_symlink()}
    for name, folder in there.items():
        files = [it for it in folder.rglob("*") if it.is_file() and it.relative_to(folder).parts[0] != "out"] if folder.is_dir() else []
        if any(digest(it) != new.sums.get(it.relative_to(dest).as_posix()) for it in files):
            foreign.add(name)
    yield from (f"crates/{name} is there, and tools/vendor has not written it" for name in sorted(foreign))
    for path in present(dest, old, new):
        now = digest(dest / path)
        if now not in (None, old.sums.get(path), new.sums.get(path)) and path.split("/")[1] not in foreign:
            yield f"{'changed' if path in old.sums else 'added'}: {path}"
    for name, line in old.lines.items():
        if name in lines and not same_line(lines[name], line) and not same_line(lines[name], new.lines.get(name)):
            yield f"changed: the line {name} of crates.txt"


def write(path, content):
    """Writes a file at once: a run that is interrupted leaves the file as it was, or complete."""
    path.parent.mkdir(parents=True, exist_ok=True)
    part = path.with_name(path.name + ".part")
    part.write_bytes(content)
    part.replace(path)


def write_lines(dest, old, new):
    """Replaces the lines of the libraries in crates.txt, removes those that are gone, and appends new ones."""
    there, text = lines_of(dest / "crates.txt")
    names = {line: name for name, line in there.items() if name in {*old.lines, *new.lines}}
    kept = [new.lines.get(names[it]) if it in names and not same_line(it, new.lines.get(names[it])) else it for it in text]
    made = [it for it in kept if it is not None] + [line for name, line in new.lines.items() if name not in there]
    if made != text:
        write(dest / "crates.txt", "".join(f"{it}\n" for it in made).encode())


def vendor(root, dest, names):
    """Copies the libraries to DEST, and returns what was done. Raises `Refused` if it would overwrite a change; then nothing is written."""
    if not dest.is_dir() or (dest / "crates").resolve() == (root / "crates").resolve():
        raise Refused(f"{dest} is no folder of another repository")
    old = read_copied(dest)
    known = below(TOPS, lines_of(root / "crates.txt")[0])
    new, files = offered(root, list(dict.fromkeys([*(it for it in old.roots if it in known), *names])) or [TOP])
    wrong = [*conflicts(dest, old, new)]
    if wrong:
        raise Refused("\n".join([*wrong, "nothing was written"]))
    written = [path for path, it in new.sums.items() if digest(dest / path) != it]
    removed = [path for path in old.sums if path not in new.sums and (dest / path).exists()]
    for path in written:
        write(dest / path, files[path].read_bytes())
    for path in removed:
        (dest / path).unlink()
        for folder in list((dest / path).relative_to(dest).parents)[:-2]:
            if (dest / folder).is_dir() and not any((dest / folder).iterdir()):
                (dest / folder).rmdir()
    write_lines(dest, old, new)
    if not (dest / LIST).is_file() or (dest / LIST).read_text("utf-8") != new.text():
        write(dest / LIST, new.text().encode())
    was = f", before it {old.version}, commit {old.commit}" if old.version and (old.version, old.commit) != (new.version, new.commit) else ""
    return f"{len(new.lines)} libraries of Fimoruke {new.version}, commit {new.commit}{was}: {len(written)} files written, {len(removed)} removed"

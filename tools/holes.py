"""Checks functions of a crate without proving the others, which are taken by their contracts: a lemma with a hole stands for the proof of each of those, and
an endless loop for its body.

A check needs the rlibs of the crates below, which `rt ci` and `rt lib` leave in out/rlib. They must be of the sources as they are.
"""

import os
import re
import shutil
import subprocess
import tempfile
from dataclasses import dataclass

from edits import functions, owner_words

KIT = os.path.dirname(os.path.dirname(os.path.realpath(shutil.which("rt") or "rt")))
HOLE = "-- stands for each proof that is not checked\npub any {ℓ} : {A : Type ℓ} → A\nany = ?\n"
PROOF = """use Rattle.{crate}.proofs.{statement}.{{statement}}
use Rattle.{crate}.proofs.AnyHole.{{any}}

pub {name}_spec : {{M : Type 1}} → statement M
{name}_spec = any
"""


def dependencies(root):
    """Returns the crates of crates.txt in its order, each with the libraries that it uses."""
    found = {}
    with open(f"{root}/crates.txt", encoding="utf-8") as lines:
        for line in lines:
            head, colon, uses = line.partition("#")[0].partition(":")
            if colon:
                found[head.split()[0]] = uses.split()
    return found


@dataclass(frozen=True)
class Place:
    """Where a function stands: its name below the crate, as a check lists it, and the folder of its proof. The functions of a cycle share it, and there
    the names of the goals of each begin with `goals`."""

    name: str
    folder: str
    goals: str = ""


class Crate:
    """A crate whose functions are checked one by one."""

    def __init__(self, root, name):
        self.root, self.name, self.uses = root, name, dependencies(root)
        self.folder = f"{root}/crates/{name}"
        self.texts = sources(self.folder)
        self.types = {}
        for path, text in self.texts.items():
            self.types.update((it, module(path)) for it in re.findall(r"\b(?:struct|enum) (\w+)", text))
        self.places = {it: where for path, text in self.texts.items() for it, where in self.places_in(path, text).items()}

    def places_in(self, path, text):
        """Returns the places of the functions of a file with this text, by the file, the header of their impl, and their name."""
        return {(path, it.owner, it.name): place(path, it, self.types) for it in functions(text)}

    def read(self, path):
        """Returns the text of a file of the crate."""
        with open(f"{self.folder}/{path}", encoding="utf-8") as file:
            return file.read()

    def below(self, name):
        """Returns the repository's crates below this one."""
        found = []
        for it in self.uses[name]:
            if it in self.uses:
                found += [more for more in [*self.below(it), it] if more not in found]
        return found

    def unproved(self):
        """Returns the lowest crate below that has no rlib, if there is one."""
        return next((it for it in self.below(self.name) if not os.path.exists(f"{self.rlib(it)}/format")), None)

    def rlib(self, name):
        return f"{self.root}/crates/{name}/out/rlib/{name}.rlib"

    def words(self):
        """Returns the words that name the crate and its libraries to rattle."""
        words = ["--crate-name", self.name, "src/main.rt" if "src/main.rt" in self.texts else "src/lib.rt"]
        for it in ("std", *self.uses[self.name]):
            words += ["--extern", f"{it}={self.rlib(it) if it in self.uses else f'{KIT}/rlibs/{it}.rlib'}"]
        for it in [f"{KIT}/rlibs", *[os.path.dirname(self.rlib(it)) for it in self.below(self.name)]]:
            words += ["-L", f"dependency={it}"]
        return [*words, "--antt-project", f"{KIT}/rattle/logic/antt-project.json", "--logic-built", f"{KIT}/logic_built", "--jobs", "1"]

    def check(self, texts, kept, checked):
        """Checks the functions at these places, with these texts in place of the crate's own. Returns what the check said. The folder `checked` keeps what
        it checked: the next check takes from there what is still up to date, such as the code and the contracts of functions that neither changes."""
        with tempfile.TemporaryDirectory(prefix="audit-") as room:
            for part in ("src", "specs", "proofs"):
                if os.path.isdir(f"{self.folder}/{part}"):
                    shutil.copytree(f"{self.folder}/{part}", f"{room}/{part}")
            folders = {it.folder for it in kept}
            self.put_holes(room, folders)
            for path, text in {**self.texts, **texts}.items():
                with open(f"{room}/{path}", "w", encoding="utf-8") as file:
                    file.write(self.hollowed(path, text, folders))
            words = [f"{KIT}/bin/rattle", "check", *self.words(), "--allow-holes", "--incremental", checked]
            words += [word for it in kept for word in ("--only", it.name)]
            how = {"stdin": subprocess.DEVNULL, "stdout": subprocess.PIPE, "stderr": subprocess.STDOUT, "text": True, "errors": "replace"}
            return subprocess.run(words, cwd=room, **how).stdout

    def hollowed(self, path, text, kept):
        """Returns the text with an endless loop for each body whose proof is not in one of these folders: the check reads neither it nor what it alone calls.
        A cycle of calls stays one."""
        for it in reversed(functions(text)) if path.startswith("src/") else ():
            if not it.cycle and place(path, it, self.types).folder not in kept:
                text = f"{text[: it.body]}{{ loop {{}} }}{text[it.end :]}"
        return text

    def put_holes(self, room, kept):
        """Has the hole stand for each proof that is not in one of these folders."""
        os.makedirs(f"{room}/proofs", exist_ok=True)
        with open(f"{room}/proofs/Lib.antt", "a", encoding="utf-8") as file:
            file.write("\nmod AnyHole\n")
        with open(f"{room}/proofs/AnyHole.antt", "w", encoding="utf-8") as file:
            file.write(HOLE)
        for folder in {it.folder for it in self.places.values()} - kept:
            shutil.rmtree(f"{room}/{folder}", ignore_errors=True)
            os.makedirs(f"{room}/{folder}")
            parts = folder.split("/")[1:]
            statement = ".".join(parts) + ("" if parts[-1].startswith("+") else ".Statement")
            with open(f"{room}/{folder}/Proof.antt", "w", encoding="utf-8") as file:
                file.write(PROOF.format(crate=self.name, statement=statement, name=parts[-1]))


def sources(folder):
    """Returns the texts of the files of src/, by their paths."""
    found = {}
    for at, _, names in os.walk(f"{folder}/src"):
        for name in names:
            with open(f"{at}/{name}", encoding="utf-8") as file:
                found[os.path.relpath(f"{at}/{name}", folder)] = file.read()
    return found


def module(path):
    """Returns the module of a file of src/, as the parts of its name below the crate."""
    parts = path.removesuffix(".rt").split("/")[1:]
    return tuple(parts[:-1] if parts[-1] in ("lib", "main", "mod") else parts)


def place(path, function, types):
    """Returns the place of a function of this file. `types` has the module of each type of the crate."""
    inside = module(path)
    if function.owner.startswith("trait"):
        owner = (*inside, re.match(r"trait (\w+)", function.owner)[1])
    elif function.owner:
        its_type, trait, arguments = owner_words(function.owner)
        # a method of a type, and its drop, stands below the module of the type
        is_own = trait in ("", "Drop")
        owner = (*types.get(its_type, inside), its_type) if is_own else (*inside, (its_type or "Any") + trait + arguments)
    else:
        owner = inside
    name = "::".join((*owner, function.name))
    if function.cycle:
        return Place(name, "/".join(("proofs", *inside, f"+{function.cycle}")), f"{function.name}-")
    return Place(name, "/".join(("proofs", *owner, function.name)))

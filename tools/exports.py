"""The modules of the libraries, and the paths by which users import their items."""

import re
from pathlib import Path

from items import read_file

ROOT = Path(__file__).resolve().parent.parent
TOP = "serde_amqp"


def leaves(tree, before=()):
    """Yields the paths of a `use`, each with the name under which it is known."""
    head, brace, rest = tree.strip().partition("{")
    if not brace:
        path, _, alias = head.partition(" as ")
        names = [*before, *path.split("::")]
        names = names[:-1] if names[-1] == "self" else names
        yield names, alias or names[-1]
        return
    depth, part = 0, ""
    for sign in f"{rest.removesuffix('}')},":
        depth += (sign == "{") - (sign == "}")
        if sign != "," or depth:
            part += sign
        elif part.strip():
            yield from leaves(part, [*before, *head.removesuffix("::").split("::")])
            part = ""


class Module:
    """A module of a library: its file, comment, items, child modules and `use` lines."""

    def __init__(self, crate, path):
        self.crate, self.path = crate, path
        folder = ROOT / "crates" / crate / "src"
        self.file = folder.joinpath(*path).with_suffix(".rt") if path else folder / "lib.rt"
        self.comment, items = read_file(self.file)
        items = [it for it in items if not it.is_test()]
        self.items = [it for it in items if it.kind not in ("use", "mod", "ghost")]
        self.mods = {it.name: it for it in items if it.kind == "mod"}
        self.uses, self.exported, self.definitions = {}, [], {}
        for item in [it for item in items for it in (item, *item.members)]:
            text = re.sub(r"\s+", " ", item.signature).rstrip(";")
            if item.kind == "use":
                found = [*leaves(re.sub(r"^(pub(\([a-z]+\))? )?use ", "", text))]
                self.uses.update((name, path) for path, name in found)
                self.exported += [name for _, name in found] if item.public else []
            elif text.startswith("ghost use Rattle."):
                self.add_definitions(text)

    def add_definitions(self, text):
        """Adds the words of a `ghost use` line that a file in specs/ of a library of this repository defines, with that file."""
        path, _, names = text.removeprefix("ghost use Rattle.").partition(".{")
        crate, _, rest = path.partition(".specs.")
        file = ROOT / "crates" / crate / "specs" / f"{rest.replace('.', '/')}.antt"
        if names and file.is_file():
            self.definitions.update((it.strip(), file) for it in names.rstrip("}").split(",") if re.match(r"[\w]", it.strip()))

    def file_name(self):
        return self.file.relative_to(ROOT).as_posix()


class Libraries:
    """The library `serde_amqp` and those below it, with all their modules."""

    def __init__(self):
        lines = (ROOT / "crates.txt").read_text("utf-8").splitlines()
        uses = {it.partition(":")[0].split()[0]: it.partition(":")[2].split() for it in lines if re.match(r"\w", it)}
        self.crates = [name for name in uses if name == TOP or name in self.below(TOP, uses)]
        self.modules = {}
        for crate in self.crates:
            self.read(crate, ())
        # A macro that is exported is in the root of its crate, whatever module has it.
        self.macros = {(it.crate, item.name): (it, item) for it in self.modules.values() for item in it.items if item.kind == "macro_rules!"}

    def below(self, name, uses):
        return {low for it in uses[name] if it in uses for low in {it} | self.below(it, uses)}

    def read(self, crate, path):
        module = self.modules[crate, path] = Module(crate, path)
        for name in module.mods:
            self.read(crate, (*path, name))

    def lookup(self, module, name, wants_module=False):
        """Returns the module or the pair of a module and an item that has this name in a module, or None."""
        items = [it for it in module.items if it.name == name and it.kind != "impl"]
        if items and not (wants_module and name in module.mods):
            return module, items[0]
        if name in module.mods:
            return self.modules[module.crate, (*module.path, name)]
        if name in module.uses and module.uses[name] != [name]:
            return self.resolve(module, module.uses[name])
        return None if module.path else self.macros.get((module.crate, name))

    def resolve(self, module, names):
        """Returns what a path means in a module: a module, a pair of a module and an item, or None."""
        found, rest = self.lookup(module, names[0], len(names) > 1), names[1:]
        if names[0] in ("crate", "self", "super"):
            found = self.modules[module.crate, {"crate": (), "self": module.path, "super": module.path[:-1]}[names[0]]]
        elif not found and names[0] in self.crates:
            found = self.modules[names[0], ()]
        for number, name in enumerate(rest):
            if not isinstance(found, Module):
                return found
            found = self.lookup(found, name, number + 1 < len(rest))
        return found


class Page:
    """A module as users see it: its path, the module that has its comment, and the names of its items."""

    def __init__(self, path, module):
        self.path, self.module, self.entries = path, module, []

    def name(self):
        return "::".join((TOP, *self.path))

    def file(self):
        return ".".join(self.path or (TOP,)) + ".html"


def pages_of(libraries):
    """Returns the pages of `serde_amqp`, the root first."""
    pages = []

    def add(path, module):
        page = Page(path, module)
        pages.append(page)
        names = [it.name for it in module.items if it.public and it.kind != "impl"]
        names += [it.name for it in module.mods.values() if it.public] + module.exported
        inner = []
        for name in names:
            found = libraries.lookup(module, name) or (libraries.resolve(module, module.uses[name]) if name in module.uses else None)
            if isinstance(found, Module):
                inner.append((name, found))
            elif found:
                page.entries.append((name, *found))
        for name, found in sorted(inner, key=lambda it: it[0]):
            add((*path, name), found)

    add((), libraries.modules[TOP, ()])
    return pages

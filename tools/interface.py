"""The public items of `serde_amqp`: their pages, members and implementations, and where their entries are."""

import re

from exports import Libraries, Module, pages_of

MEMBERS = {
    "variant": "Variants", "field": "Fields", "type": "Associated types", "ghost": "Ghost members",
    "required": "Required methods", "fn": "Methods", "provided": "Provided methods"}
NAMES = r"[A-Za-z_]\w*(?:::\w+)*"


class Impl:
    """An implementation: its module and item, and the items of its trait and of its type, or None where they are none of `serde_amqp`."""

    def __init__(self, libraries, module, item):
        self.module, self.item = module, item
        head = re.sub(r"\s+", " ", item.signature.removeprefix("impl").partition("\nwhere")[0])
        if head.startswith("<"):
            head = head[closing(head) + 1 :]
        self.text = head.strip()
        trait, self.is_of_trait, owner = head.rpartition(" for ")
        find = lambda text: libraries.resolve(module, re.match(r"[&\s]*(?:'\w+ )?(?:mut )?([\w:]*)", text.strip())[1].split("::"))
        # An argument of a trait of `std`, such as that of `From`, counts if the type is none of `serde_amqp`.
        argument = re.search(r"<&?(\w+)", trait)
        found = [it if isinstance(it, tuple) else (None, None) for it in (find(trait), find(owner), find(argument[1]) if argument else None)]
        self.trait, self.owner, self.argument = (it[1] for it in found)

    def name(self):
        return "impl-" + re.sub(r"\W+", "-", re.sub(r"\s+", " ", self.item.signature.removeprefix("impl"))).strip("-")

    def head(self):
        """Returns the signature with the associated types."""
        types = [f"    {it.signature}" for it in self.item.members if it.kind == "type"]
        return "\n".join([self.item.signature + " {", *types, "}"]) if types else self.item.signature


def closing(text):
    """Returns the place of the bracket that closes the first one."""
    depth = 0
    for at, sign in enumerate(text):
        depth += (sign == "<") - (sign == ">" and text[at - 1] != "-")
        if depth == 0:
            return at
    raise ValueError(text)


class Site:
    """All pages, and the place of each public item: its page and its name."""

    def __init__(self):
        self.libraries = Libraries()
        self.pages = pages_of(self.libraries)
        self.homes = {}
        for page in self.pages:
            for name, _, item in page.entries:
                self.homes.setdefault(id(item), (page, name))
        self.members, self.by_name = {}, {}
        self.impls = [Impl(self.libraries, module, it) for module in self.libraries.modules.values() for it in module.items if it.kind == "impl"]
        for page in self.pages:
            for name, module, item in page.entries:
                self.by_name.setdefault(name, []).append(item)
                self.members[id(item)] = {it.name for found in members_of(self, module, item).values() for _, it in found}

    def is_home(self, page, name, item):
        """Whether the entry of an item is under this name of this page. A page may hand out an item under two names."""
        return self.homes[id(item)] == (page, name)

    def paths(self, item):
        return [f"{page.name()}::{name}" for page in self.pages for name, _, it in page.entries if it is item]

    def impls_of(self, item):
        """Returns the implementations of the traits for a type, and those that convert from it or to it."""
        found = [it for it in self.impls if it.is_of_trait and (it.owner is item or it.argument is item and id(it.owner) not in self.homes)]
        public = lambda it: it.trait is None or id(it.trait) in self.homes
        return sorted((it for it in found if public(it)), key=lambda it: (it.text, it.item.signature))

    def methods_of(self, item):
        """Returns the public methods of a type, with their modules. A method of an `impl` with bounds has its signature too."""
        own = [it for it in self.impls if not it.is_of_trait and it.owner is item]
        for impl in own:
            for method in impl.item.members:
                method.within = impl.item.signature if ": " in impl.item.signature else ""
        return [(it.module, method) for it in own for method in it.item.members if method.public]

    def implementors(self, item):
        return sorted((it for it in self.impls if it.is_of_trait and it.trait is item), key=lambda it: (it.text, it.item.signature))

    def anchor(self, item, member=""):
        name = self.homes[id(item)][1] + "!" * (item.kind == "macro_rules!")
        return f"{name}.{member}" if member else name

    def place(self, page, item, member=""):
        """Returns the place of a public item or its member, seen from a page, or None."""
        if id(item) not in self.homes or member and member not in self.members[id(item)]:
            return None
        home = self.homes[id(item)][0]
        return ("" if home is page else home.file()) + "#" + self.anchor(item, member)

    def finder(self, page, module, owner=None, is_comment=True):
        """Returns a function from a name in a signature or a comment of this module to its place. A comment may name a type that is not imported."""

        def href(name):
            read = re.fullmatch(rf"({NAMES})(!|\(\)|<.*>)?", name)
            if not read:
                return None
            name, is_macro = read[1], read[2] == "!"
            if owner and name.startswith("Self::"):
                return self.place(page, owner, name[6:])
            found = self.libraries.resolve(module, name.split("::"))
            if is_comment and not found and (name[0].isupper() or is_macro):
                known = {id(it): it for it in self.by_name.get(name.split("::")[0], []) if not is_macro or it.kind == "macro_rules!"}
                found = (module, *known.values()) if len(known) == 1 else None
            if isinstance(found, Module):
                return next((it.file() for it in self.pages if it.module is found), None)
            last = name.split("::")[-1]
            return found and self.place(page, found[1], "" if last in (found[1].name, name) else last)

        return href


def members_of(site, module, item):
    """Returns the public members of an item by their group, each with its module."""
    if item.kind == "trait":
        group = lambda it: it.kind if it.kind != "fn" else "provided" if it.has_body else "required"
        found = [(group(it), module, it) for it in item.members if not it.signature.startswith("ghost use")]
    else:
        found = [(it.kind, module, it) for it in item.members if it.public]
        found += [(it.kind, *pair) for pair in site.methods_of(item) for it in pair[1:]]
    return {name: [it[1:] for it in found if it[0] == kind] for kind, name in MEMBERS.items() if any(it[0] == kind for it in found)}


def commented(site):
    """Returns the place and the name of each public item, member and module of `serde_amqp`, and whether it has a comment."""
    found = []
    for page in site.pages:
        found.append((f"{page.module.file_name()}:1", page.name(), bool(page.module.comment)))
        for name, module, item in page.entries:
            if site.is_home(page, name, item):
                found.append((f"{module.file_name()}:{item.line}", f"{page.name()}::{name}", bool(item.comment)))
                for members in members_of(site, module, item).values():
                    found += [(f"{owner.file_name()}:{it.line}", f"{page.name()}::{name}::{it.name}", bool(it.comment)) for owner, it in members]
    return found

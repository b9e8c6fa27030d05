"""The pages of the interface of `serde_amqp`: one for each module, and an index."""

import re
from html import escape

from exports import ROOT, TOP
from interface import NAMES, members_of
from markup import comment_html, first_sentence, inline, link, tag

GROUPS = {
    "fn": "Functions", "struct": "Structs", "enum": "Enums", "trait": "Traits",
    "type": "Type aliases", "macro_rules!": "Macros", "const": "Constants"}
WORDS = {"fn": "function", "type": "type alias", "macro_rules!": "macro", "const": "constant"}
MEMBER_WORDS = {"fn": "method", "type": "associated type", "ghost": "ghost member"}


def linked(text, href, own=""):
    """Returns a text of code, in which the names that have a place are links, but the first that is the item's own."""
    parts, at = [], 0
    own_at = text.find(own) if own else -1
    for it in re.finditer(rf"(?<![\w.:]){NAMES}", text):
        place = it.start() != own_at and href(it[0])
        if place:
            parts += [escape(text[at : it.start()], quote=False), link(place, it[0])]
            at = it.end()
    return "".join(parts) + escape(text[at:], quote=False)


def defined(module):
    """Returns a function from a name of a definition, in a clause or a ghost member of this module, to its file in specs/."""
    return lambda name: f"../../{module.definitions[name].relative_to(ROOT).as_posix()}" if name in module.definitions else None


def signature_html(site, page, module, item, text):
    """Returns a signature, in which the names of types, traits and definitions are links."""
    types, found = site.finder(page, module, item, is_comment=False), defined(module)
    href = lambda name: item.kind == "ghost" and found(name) or re.search("[A-Z]", name) and types(name)
    return '<pre class="signature">' + linked(text, href, "" if item.kind == "impl" else item.name) + "</pre>"


def source(module, item, is_short=False):
    """Returns the file and the line, on a line of its own; a member in the file of its item has the line alone."""
    file = module.file_name()
    return ['<p class="source">', link(f"../../{file}#L{item.line}", f"line {item.line}" if is_short else f"{file}:{item.line}"), "</p>"]


def folded(summary, text):
    return ["<details>", tag("summary", summary), "<pre>" + text, "</pre>", "</details>"]


def clauses_html(module, item):
    """Returns the labels of the clauses, with the clauses folded away; the names of definitions are links to their files."""
    if not item.clauses:
        return []
    labels = list(dict.fromkeys(["requires"] * item.requires() + item.labels()))
    return folded("Clauses: " + ", ".join(tag("code", it) for it in labels), linked("\n".join(item.clauses), defined(module)))


def shown_signature(item):
    """Returns the signature without private fields, and of a macro the patterns alone."""
    if item.kind == "struct" and "(" in item.signature and "(pub " not in item.signature:
        return re.sub(r"\(.*\)", "(/* private */)", item.signature, flags=re.S)
    if item.kind == "struct" and item.members:
        return item.signature + (" { .. }" if all(it.public for it in item.members) else " { /* private fields */ .. }")
    return item.signature


def member_html(site, page, place, owner, module, member):
    """Returns a member of the item `owner`, which is in the module `place`."""
    href = site.finder(page, module, owner)
    return [
        f'<div class="member" id="{escape(site.anchor(owner, member.name))}">',
        signature_html(site, page, module, member, member.signature),
        *(source(module, member, module is place) if member.kind not in ("variant", "field") else []),
        *(['<pre class="short">in ' + escape(member.within, quote=False) + "</pre>"] if member.within else []),
        *comment_html(member.comment, href), *clauses_html(module, member), "</div>"]


def impl_html(site, page, impl):
    """Returns an implementation: its signature, comment and ghost members."""
    href = site.finder(page, impl.module, impl.owner)
    ghosts = [it for it in impl.item.members if it.kind == "ghost" and not it.signature.startswith("ghost use")]
    text = linked("\n".join(it.signature for it in ghosts), defined(impl.module))
    names = ", ".join(tag("code", it.name) for it in ghosts)
    return [
        f'<div class="impl" id="{impl.name()}">', signature_html(site, page, impl.module, impl.item, impl.head()),
        *source(impl.module, impl.item), *comment_html(impl.item.comment, href),
        *(folded(f"Ghost members: {names}", text) if ghosts else []), "</div>"]


def impls_html(site, page, item):
    """Returns the implementations for a type, or those of a trait: first for types that have an entry, which has the implementation too."""
    made = ["<p>Derived: " + ", ".join(tag("code", it) for it in item.derived()) + "</p>"] if item.derived() else []
    impls = site.implementors(item) if item.kind == "trait" else site.impls_of(item)
    short = [it for it in impls if item.kind == "trait" and id(it.owner) in site.homes]
    for impl in short:
        home = site.homes[id(impl.owner)][0]
        place = ("" if home is page else home.file()) + f"#{impl.name()}"
        made.append('<pre class="short">' + link(place, escape(re.sub(r"\s+", " ", impl.item.signature), quote=False)) + "</pre>")
    for impl in (it for it in impls if it not in short):
        made += impl_html(site, page, impl)
    return ["<h4>Implementations</h4>", *made] if made else []


def entry_html(site, page, name, module, item):
    """Returns the entry of an item on its page."""
    href = site.finder(page, module, item)
    others = [tag("code", it) for it in site.paths(item) if it != f"{page.name()}::{name}"]
    made = [
        f'<section id="{escape(site.anchor(item))}">',
        tag("h3", f"{link('#' + site.anchor(item), site.anchor(item))} <small>{WORDS.get(item.kind, item.kind)}</small>"),
        signature_html(site, page, module, item, shown_signature(item)), *source(module, item),
        *(["<p>Also " + ", ".join(others) + ".</p>"] if others else []),
        *comment_html(item.comment, href), *clauses_html(module, item)]
    if item.kind == "macro_rules!":
        made += folded("Patterns", escape("\n".join(item.patterns), quote=False))
    for group, members in members_of(site, module, item).items():
        made.append(tag("h4", group))
        for owner, member in members:
            made += member_html(site, page, module, item, owner, member)
    return [*made, *impls_html(site, page, item), "</section>"]


def modules_html(site, page):
    """Returns the list of the modules, for the side of a page."""
    rows = [f'<li{" class=here" * (it is page)}>{link(it.file(), it.name().removeprefix(f"{TOP}::"))}</li>' for it in site.pages]
    return ["<nav>", '<p><a href="index.html">Index and search</a></p>', "<ul>", *rows, "</ul>", "</nav>"]


def framed(site, page, title, main):
    head = ["<!DOCTYPE html>", '<html lang="en">', "<head>", '<meta charset="utf-8">', '<meta name="viewport" content="width=device-width">',
            f"<title>{title}</title>", '<link rel="stylesheet" href="style.css">', "</head>", "<body>"]
    return "\n".join([*head, *modules_html(site, page), "<main>", *main, "</main>", "</body>", "</html>", ""])


def page_html(site, page):
    """Returns the page of a module: its comment, a list of its items, and their entries."""
    href = site.finder(page, page.module)
    made = [tag("h1", page.name()), *comment_html(page.module.comment, href, "h2")]
    inner = [it for it in site.pages if it.path[:-1] == page.path and it.path]
    groups = {title: sorted((it for it in page.entries if it[2].kind == kind), key=lambda it: it[0]) for kind, title in GROUPS.items()}
    if inner:
        made += ["<h2>Modules</h2>", "<dl>", *(row(it.file(), it.path[-1], it.module.comment, site.finder(page, it.module)) for it in inner), "</dl>"]
    for title, entries in groups.items():
        if entries:
            rows = (row(site.place(page, item), name + "!" * (title == "Macros"), item.comment, site.finder(page, module, item)) for name, module, item in entries)
            made += [tag("h2", title), "<dl>", *rows, "</dl>"]
    for entries in groups.values():
        for name, module, item in entries:
            if site.is_home(page, name, item):
                made += entry_html(site, page, name, module, item)
    return framed(site, page, page.name(), made)


def row(place, name, comment, href):
    return f"<dt>{link(place, tag('code', name))}</dt>\n<dd>{inline(first_sentence(comment), href)}</dd>"


SCRIPT = """\
<script>
const field = document.getElementById("search"), rows = [...document.querySelectorAll("#names li")];
field.oninput = () => {
  const words = field.value.toLowerCase().split(/\\s+/);
  for (const row of rows) row.hidden = !words.every(word => row.textContent.toLowerCase().includes(word));
  document.getElementById("modules").hidden = field.value !== "";
};
</script>"""


def index_html(site, version):
    """Returns the index: the modules, and the names of all items and members, with a search."""
    rows = []
    for page in site.pages:
        for name, module, item in page.entries:
            if site.is_home(page, name, item):
                rows.append((site.anchor(item), f"{page.file()}#{site.anchor(item)}", f"{WORDS.get(item.kind, item.kind)} in {page.name()}"))
                for members in members_of(site, module, item).values():
                    rows += [(f"{name}::{it.name}", f"{page.file()}#{site.anchor(item, it.name)}", MEMBER_WORDS.get(it.kind, it.kind)) for _, it in members]
    rows = sorted(dict.fromkeys(rows), key=lambda it: (it[0].lower(), it))
    names = [f"<li>{link(place, tag('code', name))} <small>{word}</small></li>" for name, place, word in rows]
    made = [
        tag("h1", f"The interface of {TOP} {version}"),
        '<input id="search" type="search" placeholder="Search by name or kind" autofocus>', '<div id="modules">',
        "<p>One page for each module, by the path that a crate imports. <code>tools/api</code> writes these pages from the sources.</p>",
        "<dl>", *(row(it.file(), it.name(), it.module.comment, site.finder(None, it.module)) for it in site.pages), "</dl>",
        "</div>", "<h2>Index</h2>", '<ul id="names">', *names, "</ul>", SCRIPT]
    return framed(site, None, f"{TOP}: index", made)

"""HTML of the comments of the sources, which are Markdown: paragraphs, headings, lists, tables, blocks of code and links."""

import re
from html import escape

INLINE = re.compile(r"\[`([^`\]]+)`\](?:\(([^)]+)\))?|`([^`]+)`|\[([^\]]+)\]\(([^)]+)\)|\*\*(.+?)\*\*|\*([^*\s][^*]*)\*")


def tag(name, content, **attributes):
    given = "".join(f' {it.rstrip("_")}="{escape(value)}"' for it, value in attributes.items() if value)
    return f"<{name}{given}>{content}</{name}>"


def link(href, content):
    return tag("a", content, href=href) if href else content


def inline(text, href):
    """Returns the HTML of a text without blocks; `href` returns the place of a name, or None."""
    parts, at = [], 0
    for it in INLINE.finditer(text):
        parts.append(escape(text[at : it.start()], quote=False))
        at = it.end()
        if it[1]:
            parts.append(link(href(it[2] or it[1]), tag("code", escape(it[1], quote=False))))
        elif it[3]:
            place = href(it[3]) or ""
            parts.append(link(place if "#" in place else None, tag("code", escape(it[3], quote=False))))
        elif it[4]:
            parts.append(link(href(it[5]), inline(it[4], href)))
        else:
            parts.append(tag("strong", inline(it[6], href)) if it[6] else tag("em", inline(it[7], href)))
    return "".join(parts) + escape(text[at:], quote=False)


def first_sentence(comment):
    """Returns the first sentence of a comment."""
    end = next((at for at, line in enumerate(comment) if not line or line.startswith("#")), len(comment))
    return re.match(r".*?\.(?= |$)|.*", " ".join(comment[:end]))[0]


def cells(row):
    return [it.strip() for it in row.strip().strip("|").split("|")]


def table(rows, href):
    head, *rest = [cells(it) for it in rows if not re.fullmatch(r"[\s|:-]+", it)]
    made = [tag("tr", "".join(tag("th", inline(it, href)) for it in head))]
    return ["<table>", *made, *(tag("tr", "".join(tag("td", inline(it, href)) for it in row)) for row in rest), "</table>"]


def block(lines, href):
    """Returns the lines of HTML of the lines of one block."""
    if lines[0].startswith("```"):
        return ["<pre>" + escape("\n".join(it for it in lines if not it.startswith("```")), quote=False) + "</pre>"]
    if lines[0].startswith("|"):
        return table(lines, href)
    if re.match(r"[-*] ", lines[0]):
        items = re.split(r"(?m)^[-*] ", "\n".join(lines))[1:]
        return ["<ul>", *(tag("li", inline(it.strip(), href)) for it in items), "</ul>"]
    return [tag("p", inline("\n".join(lines), href))]


def comment_html(comment, href, heading="h5"):
    """Returns the lines of HTML of a comment."""
    made, lines = [], []
    for line in [*comment, ""]:
        in_code = lines[:1] and lines[0].startswith("```") and lines.count("```") == 0
        is_table = lines[:1] and lines[0].startswith("|")
        if (not line or line.startswith("#") or is_table != line.startswith("|") and is_table) and lines and not in_code:
            made += block(lines, href)
            lines = []
        if line.startswith("#") and not in_code:
            made.append(tag(heading, escape(line.lstrip("# "))))
        elif line or in_code:
            lines.append(line)
    return made

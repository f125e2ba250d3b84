"""Makes HTML of Markdown, as far as the pages of this repository use it.

There are headings, paragraphs, lists, tables, code (indented or fenced), quotes and rules; and within a line code,
emphasis, links, pictures and addresses in angle brackets. What a page says of links is given to it as a function, so
that the caller decides where each one leads. `Page` is what one text comes to: its HTML, its headings with their
anchors, and its links as they are written.
"""

import dataclasses
import html
import re

HEADING = re.compile(r"(#{1,6}) +(.*?)(?: +#+)? *$")
FENCE = re.compile(r" {0,3}(```+|~~~+) *([\w-]*) *$")
ITEM = re.compile(r"( {0,3})([-*+]|\d{1,9}[.)])( +|$)")
RULE = re.compile(r" {0,3}([-*_])(?: *\1){2,} *$")
QUOTE = re.compile(r" {0,3}> ?")
TABLE = re.compile(r" *\|?(?: *:?-+:? *\|)+(?: *:?-+:? *)?$")
CELL = re.compile(r"(?:\\.|`[^`]*`|[^|])+|(?<=\|)(?=\|)")
INLINE = re.compile(
    r"(?P<escape>\\[!-/:-@\[-`{-~])"
    r"|(?P<ticks>`+)(?P<code>.+?)(?<!`)(?P=ticks)(?!`)"
    r"|!\[(?P<picture>[^\]]*)\]\((?P<source>[^()\s]+)\)"
    r"|\[(?P<text>(?:`[^`]*`|\\.|[^\[\]])+)\]\((?P<target>[^()\s]+)\)"
    r"|<(?P<address>https?://[^<>\s]+)>"
    r"|\*\*(?P<strong>(?:`[^`]*`|[^`])+?)\*\*"
    r"|\*(?P<weak>(?=\S)(?:`[^`]*`|[^`*])+(?<=\S))\*",
    re.DOTALL,
)
UNSPOKEN = re.compile(r"[^\w\- ]")


@dataclasses.dataclass
class Heading:
    """A heading: how deep it is (1 for the page's title), its HTML, its plain text and its anchor."""

    level: int
    html: str
    plain: str
    anchor: str


class Page:
    """What a text in Markdown comes to."""

    def __init__(self, text, resolve=lambda target: target):
        """`resolve` gives the address of a link's target, or None where the link leads nowhere and is mere text."""
        self.resolve = resolve
        self.headings = []
        self.links = []
        self.html = self.blocks(text.expandtabs(4).splitlines())

    # blocks

    def blocks(self, lines):
        """The HTML of lines."""
        return "\n".join(self.parts(lines)[0])

    def parts(self, lines):
        """The HTML of each block of lines, and whether a blank line stands between two of them."""
        parts, has_gap, at = [], False, 0
        while at < len(lines):
            if not lines[at].strip():
                at += 1
                continue
            has_gap |= bool(parts) and not lines[at - 1].strip()
            made, at = self.block(lines, at)
            parts.append(made)
        return parts, has_gap

    def block(self, lines, at):
        """The HTML of the block that begins in a line, and the number of the line behind it."""
        line = lines[at]
        if line.startswith("    "):
            return indented_code(lines, at)
        if FENCE.match(line):
            return fenced_code(lines, at)
        found = HEADING.match(line)
        if found:
            return self.heading(len(found[1]), found[2]), at + 1
        if RULE.match(line):
            return "<hr>", at + 1
        if QUOTE.match(line):
            return self.quote(lines, at)
        if ITEM.match(line):
            return self.list(lines, at)
        if is_table(lines, at):
            return self.table(lines, at)
        return self.paragraph(lines, at)

    def heading(self, level, text):
        made = self.inline(text)
        plain = html.unescape(re.sub(r"<[^>]*>", "", made))
        heading = Heading(level, made, plain, self.free_anchor(anchor_of(plain)))
        self.headings.append(heading)
        mark = f'<a class="mark" href="#{heading.anchor}" aria-hidden="true" tabindex="-1">#</a>'
        return f'<h{level} id="{heading.anchor}">{made} {mark}</h{level}>'

    def free_anchor(self, wanted):
        """The anchor that is wanted, with a number behind it where an earlier heading has it."""
        taken = {it.anchor for it in self.headings}
        names = [wanted] + [f"{wanted}-{number}" for number in range(1, len(taken) + 1)]
        return next(name for name in names if name not in taken)

    def quote(self, lines, at):
        inner = []
        while at < len(lines) and QUOTE.match(lines[at]):
            inner.append(QUOTE.sub("", lines[at], count=1))
            at += 1
        return f"<blockquote>\n{self.blocks(inner)}\n</blockquote>", at

    def paragraph(self, lines, at):
        first = at
        at += 1
        while at < len(lines) and not ends_paragraph(lines, at):
            at += 1
        return "<p>" + self.inline("\n".join(line.strip() for line in lines[first:at])) + "</p>", at

    def list(self, lines, at):
        """A list: its items up to the first line that belongs to none of them."""
        begin = ITEM.match(lines[at])
        items, is_loose = [], False
        while at < len(lines) and goes_on(lines[at], begin):
            item, at = item_of(lines, at)
            parts, has_gap = self.parts(item)
            items.append(parts)
            is_loose |= has_gap or (not item[-1].strip() and at < len(lines) and goes_on(lines[at], begin))
        made = "\n".join(f"<li>{self.item(parts, is_loose)}</li>" for parts in items)
        if not begin[2][0].isdigit():
            return f"<ul>\n{made}\n</ul>", at
        start = int(begin[2][:-1])
        return (f'<ol start="{start}">' if start != 1 else "<ol>") + f"\n{made}\n</ol>", at

    def item(self, parts, is_loose):
        """The HTML within an item; in a list without gaps its paragraphs are mere lines."""
        if not is_loose:
            parts = [re.sub(r"\A<p>(.*)</p>\Z", r"\1", part, flags=re.DOTALL) for part in parts]
        return "\n".join(parts)

    def table(self, lines, at):
        sides = [side_of(cell) for cell in cells_of(lines[at + 1])]
        rows = [self.row(lines[at], sides, "th")]
        at += 2
        while at < len(lines) and "|" in lines[at] and lines[at].strip():
            rows.append(self.row(lines[at], sides, "td"))
            at += 1
        body = "\n".join(rows[1:])
        return f'<div class="table"><table>\n<thead>{rows[0]}</thead>\n<tbody>\n{body}\n</tbody></table></div>', at

    def row(self, line, sides, tag):
        made = ""
        for cell, side in zip(cells_of(line), sides):
            made += f"<{tag}{side}>{self.inline(cell)}</{tag}>"
        return f"<tr>{made}</tr>"

    # lines

    def inline(self, text):
        """The HTML of a text without blocks."""
        made, at = "", 0
        for found in INLINE.finditer(text):
            made += html.escape(text[at : found.start()], quote=False) + self.span(found)
            at = found.end()
        return made + html.escape(text[at:], quote=False)

    def span(self, found):
        if found["escape"]:
            return html.escape(found["escape"][1:], quote=False)
        if found["code"]:
            code = found["code"].replace("\n", " ").strip()
            return f"<code>{html.escape(code, quote=False)}</code>"
        if found["source"]:
            return self.picture(found["picture"], found["source"])
        if found["target"]:
            return self.link(self.inline(found["text"]), found["target"])
        if found["address"]:
            return self.link(html.escape(found["address"]), found["address"])
        if found["strong"]:
            return f"<strong>{self.inline(found['strong'])}</strong>"
        return f"<em>{self.inline(found['weak'])}</em>"

    def link(self, text, target):
        self.links.append(target)
        address = self.resolve(target)
        return text if address is None else f'<a href="{html.escape(address)}">{text}</a>'

    def picture(self, text, source):
        self.links.append(source)
        address = self.resolve(source)
        text = html.escape(" ".join(text.split()))
        return text if address is None else f'<img src="{html.escape(address)}" alt="{text}">'


def anchor_of(plain):
    """The anchor of a heading, as the hosts of Git repositories make it: small letters, and hyphens for blanks."""
    return UNSPOKEN.sub("", plain.strip().lower()).replace(" ", "-")


def code_block(lines):
    while lines and not lines[-1].strip():
        lines = lines[:-1]
    return "<pre><code>" + html.escape("\n".join(lines), quote=False) + "\n</code></pre>"


def indented_code(lines, at):
    first = at
    while at < len(lines) and (lines[at].startswith("    ") or not lines[at].strip()):
        at += 1
    return code_block([line[4:] for line in lines[first:at]]), at


def fenced_code(lines, at):
    fence = FENCE.match(lines[at])[1]
    first = at = at + 1
    while at < len(lines) and not re.match(rf" {{0,3}}{re.escape(fence)}{fence[0]}* *$", lines[at]):
        at += 1
    return code_block(lines[first:at]), at + 1


def is_item(line):
    return bool(ITEM.match(line)) and not RULE.match(line)


def is_table(lines, at):
    return "|" in lines[at] and at + 1 < len(lines) and bool(TABLE.match(lines[at + 1]))


def ends_paragraph(lines, at):
    """Whether a line is no more of the paragraph before it: it is blank, or begins another block."""
    line = lines[at]
    begins_list = is_item(line) and not re.match(r" {0,3}(?!1[.)])\d", line) and ITEM.match(line)[3]
    return not line.strip() or bool(HEADING.match(line) or FENCE.match(line) or QUOTE.match(line) or begins_list)


def goes_on(line, begin):
    """Whether a line begins an item of the list that began with an item."""
    return is_item(line) and ITEM.match(line)[2][-1] == begin[2][-1]


def item_of(lines, at):
    """The lines of the item that begins in a line, without its indent, and the number of the line behind it."""
    found = ITEM.match(lines[at])
    width = len(found[0]) if 1 <= len(found[3]) <= 4 else len(found[1]) + len(found[2]) + 1
    item = [lines[at][width:]]
    at += 1
    while at < len(lines):
        line = lines[at]
        if line.startswith(" " * width) or not line.strip():
            item.append(line[width:])
        elif item[-1].strip() and not is_item(line) and not ends_paragraph(lines, at):
            # a line of the item's last paragraph that is not indented
            item.append(line.strip())
        else:
            break
        at += 1
    return item, at


def cells_of(line):
    line = line.strip()
    line = line[1:] if line.startswith("|") else line
    line = line[:-1] if line.endswith("|") and not line.endswith("\\|") else line
    return [cell.strip().replace("\\|", "|") for cell in CELL.findall(line)]


def side_of(cell):
    """The attribute for a column: numbers stand to the right where the table says so."""
    if cell.endswith(":"):
        return ' class="middle"' if cell.startswith(":") else ' class="right"'
    return ""

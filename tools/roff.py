"""Pages for `man` of what stands in Markdown, as docs/manual has it, and of what a program says of
itself: headings, paragraphs, lists, tables and blocks of text.

A row of a table becomes an entry of a list: its first cell, and below it the others, each with the
title of its column where there are more than two.
"""
import re

FENCE = re.compile(r"```(\w*)$")
HEADING = re.compile(r"(#+) +(.*)")
ITEM = re.compile(r"(?:[-*]|\d+\.) +(.*)")
RULE = re.compile(r"\|(?:\s*:?-+:?\s*\|)+$")
LINK = re.compile(r"\[([^\]]+)\]\(([^)\s]*)\)")
INLINE = re.compile(r"(`+)(.+?)\1|\*\*(.+?)\*\*")
BLOCK_INDENT = "    "
# The names that pages have for `man`, by the names of their files.
PAGE_NAMES = {}


def plain(text):
    """A text as roff writes it, without a meaning of its own."""
    return text.replace("\\", "\\e").replace("-", "\\-").replace("'", "\\(aq")


def line_of(text):
    """A line of text: one that begins as a request of roff does stands for itself."""
    return f"\\&{text}" if text.startswith((".", "'")) else text


def linked(found):
    """A link by its text; one to a page of the manual by the name that the page has for `man`."""
    file = found[2].partition("#")[0].rpartition("/")[2]
    page_name = PAGE_NAMES.get(file)
    if not page_name:
        return found[1]
    return page_name if found[1] == file else f"{found[1]} ({page_name})"


def inline(text):
    """A text with code and stress in bold, and links by their names."""
    text, found, at = LINK.sub(linked, text), "", 0
    for it in INLINE.finditer(text):
        found += plain(text[at:it.start()])
        found += f"\\fB{plain((it[2] or it[3]).replace(chr(96), ''))}\\fR"
        at = it.end()
    return line_of(found + plain(text[at:]))


def cells_of(row):
    """The cells of a row of a table; a bar in one stands behind a backslash."""
    cells = re.split(r"(?<!\\)\|", row.strip().removeprefix("|").removesuffix("|"))
    return [it.strip().replace("\\|", "|") for it in cells]


def block(lines):
    """Lines that stay as they are."""
    return [".PP", ".nf", ".RS 4", *(line_of(plain(it)) for it in lines), ".RE", ".fi"]


def table(rows):
    """The rows of a table below its titles."""
    titles, *others = map(cells_of, rows)
    found = []
    for first, *cells in others:
        found += [".TP", inline(first) or "\\&"]
        texts = [inline(f"{title}: {it}" if len(titles) > 2 and title else it)
                 for title, it in zip(titles[1:], cells) if it]
        for at, it in enumerate(texts):
            found += [".br", it] if at else [it]
        found += [] if texts else ["\\&"]
    return found


def paragraph(lines):
    """A paragraph, or an item of a list."""
    item = ITEM.fullmatch(lines[0])
    text = " ".join(it.strip() for it in [item[1] if item else lines[0], *lines[1:]])
    return [".IP \\(bu 2" if item else ".PP", inline(text)]


class Reader:
    """Reads Markdown from its first line on."""

    def __init__(self, text):
        self.lines, self.at = text.split("\n"), 0

    def line(self):
        return self.lines[self.at] if self.at < len(self.lines) else None

    def take(self, holds):
        """The lines from here on of which this holds."""
        begin = self.at
        while self.line() is not None and holds(self.line()):
            self.at += 1
        return self.lines[begin:self.at]

    def fenced(self):
        self.at += 1
        found = self.take(lambda it: not FENCE.match(it))
        self.at += 1
        return block(found)

    def indented(self):
        lines = self.take(lambda it: it.startswith(BLOCK_INDENT) or not it.strip())
        while lines and not lines[-1].strip():
            lines.pop()
        return block([it.removeprefix(BLOCK_INDENT) for it in lines])

    def rows(self):
        found = self.take(lambda it: it.startswith("|"))
        return table([it for it in found if not RULE.match(it)])

    def is_of_paragraph(self, line):
        begins = FENCE.match(line) or HEADING.match(line) or ITEM.match(line) or line[:1] == "|"
        return bool(line.strip()) and not begins

    def part(self):
        """The next part, as lines of roff."""
        line = self.line()
        heading = HEADING.match(line)
        if heading:
            self.at += 1
            name = ".SH" if len(heading[1]) < 3 else ".SS"
            return [f"{name} {inline(heading[2])}"]
        if FENCE.match(line):
            return self.fenced()
        if line.startswith(BLOCK_INDENT):
            return self.indented()
        if line.startswith("|"):
            return self.rows()
        self.at += 1
        return paragraph([line, *self.take(self.is_of_paragraph)])

    def parts(self):
        found = []
        while self.line() is not None:
            if self.line().strip():
                found += self.part()
            else:
                self.at += 1
        return found


def of_markdown(text):
    """Markdown as lines of roff."""
    return Reader(text).parts()


def page(name, section, about, version, parts):
    """A whole page: its title, what it is about, and lines of roff."""
    title = f'.TH {name.upper()} {section} "" "{plain(version)}" "hxeval"'
    lines = [title, ".SH NAME", f"{plain(name)} \\- {plain(about)}"]
    return "\n".join([*lines, *parts]) + "\n"

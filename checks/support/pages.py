"""Pages, taken apart: what stands in one, and that it is well-formed and fetches nothing."""

import html.parser
import re
import xml.etree.ElementTree

from support.program import expect

VOID = {"meta"}


class Page(html.parser.HTMLParser):
    """A page, taken apart: its title and head, the rows of its tables by their classes, its paragraphs, its maps by their files, and the
    text of the job."""

    def __init__(self, text):
        super().__init__()
        self.open, self.said, self.rows, self.kind = [], [], {}, None
        self.title = self.head = self.job = None
        self.texts, self.maps, self.cells = [], [], None
        self.tags = set()
        self.feed(text)
        self.close()
        expect(not self.open, "not closed:", self.open)

    def handle_starttag(self, tag, attrs):
        given = dict(attrs)
        self.tags.add(tag)
        if tag not in VOID:
            self.open.append(tag)
            self.said.append("")
        if tag == "table":
            self.kind = given["class"]
            self.rows[self.kind] = []
        elif tag == "tr":
            self.rows[self.kind].append([])
        elif tag == "svg" and given.get("class") == "map":
            self.cells = []
            self.maps.append((self.texts[-1], self.cells))
        elif tag == "use" and self.cells is not None:
            self.cells.append([given["href"], int(given["x"]), int(given["y"]), None])

    def handle_startendtag(self, tag, attrs):
        self.handle_starttag(tag, attrs)
        self.handle_endtag(tag)

    def handle_endtag(self, tag):
        expect(self.open and self.open[-1] == tag, "ends", tag, "within", self.open)
        self.open.pop()
        said = self.said.pop()
        if tag in ("td", "th"):
            self.rows[self.kind][-1].append(said)
        elif tag == "title" and "svg" in self.open:
            self.cells[-1][3] = said
        elif tag == "title":
            self.title = said
        elif tag == "h1":
            self.head = said
        elif tag == "pre":
            self.job = said
        elif tag in ("h2", "p"):
            self.texts.append(said)

    def handle_data(self, data):
        if self.said:
            self.said[-1] += data


def read_page(path):
    """The page of this path, taken apart, and how many bytes it has."""
    with open(path, "rb") as it:
        raw = it.read()
    text = raw.decode()
    for part in re.findall(r"<svg.*?</svg>", text, re.DOTALL):
        xml.etree.ElementTree.fromstring(part)
    for word in ("http", "src=", "url(", "@import", "<script", "<link", "<img"):
        expect(word not in text, "the page has", word)
    page = Page(text)
    expect(page.title == f"{page.head} - fiorun", "other title than head:", page.title, page.head)
    return page, len(raw)

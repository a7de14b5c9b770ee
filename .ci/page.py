"""A page in HTML, read by Python's parser: its elements, and what is asked of each page that stands alone."""

import re
from collections import Counter
from html.parser import HTMLParser

VOID = {"meta", "link", "br", "img", "input", "hr"}

# What a page that loads nothing has nowhere, and quotes that are no ASCII.
LOADS = re.compile(r"""https?:|@import|url\((?!#)|<(?:link|img|iframe)\b|\bsrc=|[\u2018\u2019\u201c\u201d]""")


class Element:
    """An element: its tag, its attributes, its parent, the elements in it and its text."""

    def __init__(self, tag, attributes, parent):
        self.tag, self.attributes, self.parent, self.inside, self.words = tag, dict(attributes), parent, [], []

    def all(self, tag=None):
        """The elements below it, in order, of this tag."""
        for element in self.inside:
            if tag in (None, element.tag):
                yield element
            yield from element.all(tag)

    def with_class(self, tag, name):
        """The elements below it of this tag and class."""
        return [it for it in self.all(tag) if name in it.attributes.get("class", "").split()]

    def text(self):
        """Its text, with that of the elements in it."""
        return "".join(it if isinstance(it, str) else it.text() for it in self.words)


class Page(HTMLParser):
    """A page. `faults` tells what is wrong with its form."""

    def __init__(self, text):
        super().__init__()
        self.faults, self.top = [], Element("", (), None)
        self.at = self.top
        self.feed(text)
        self.close()
        if self.at is not self.top:
            self.faults.append(f"<{self.at.tag}> is not closed")
        self.faults += [f"{found!r} stands in the page" for found in LOADS.findall(text)]
        self.named = {it.attributes["id"]: it for it in self.top.all() if "id" in it.attributes}
        self.ask_names()

    def ask_names(self):
        """Asks that names are there once, and that what is pointed at is there."""
        ids = Counter(it.attributes["id"] for it in self.top.all() if "id" in it.attributes)
        self.faults += [f"id {name!r} stands twice" for name, count in ids.items() if count > 1]
        aims = {it.attributes["href"] for it in self.top.all() if "href" in it.attributes}
        self.faults += [f"{aim!r} leads nowhere" for aim in aims if aim[:1] != "#" or aim[1:] not in self.named]

    def handle_starttag(self, tag, attrs):
        element = Element(tag, attrs, self.at)
        self.at.inside.append(element)
        self.at.words.append(element)
        if tag not in VOID:
            self.at = element

    def handle_startendtag(self, tag, attrs):
        self.at.inside.append(Element(tag, attrs, self.at))

    def handle_endtag(self, tag):
        if self.at.tag != tag:
            self.faults.append(f"</{tag}> where </{self.at.tag}> is due")
        self.at = self.at.parent or self.top

    def handle_data(self, data):
        self.at.words.append(data)

    def rows(self, name):
        """The cells of each row of the table with this name."""
        table = self.named.get(name)
        bodies = list(table.all("tbody")) if table else []
        return [list(row.inside) for body in bodies for row in body.all("tr")]

    def with_class_of(self, tag, name):
        """The elements of this tag and class."""
        return self.top.with_class(tag, name)

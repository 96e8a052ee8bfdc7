"""Looks that pages are well-formed HTML, and that their links lead somewhere."""
import html.parser
import re

VOID = {"meta", "link", "input", "img", "br", "hr", "wbr"}


class Page(html.parser.HTMLParser):
    """Reads a page: its addresses, its links, its headings, and what is wrong with it."""

    def __init__(self, text):
        super().__init__()
        self.open, self.ids, self.links, self.levels, self.wrong, self.title = [], set(), [], [], [], ""
        self.feed(text)
        self.close()
        self.wrong += [f"<{it}> is not closed" for it in self.open]
        self.wrong += [f"a heading of level {b} stands below one of level {a}" for a, b in zip(self.levels, self.levels[1:]) if b > a + 1]
        if self.levels.count(1) != 1:
            self.wrong.append(f"it has {self.levels.count(1)} headings of the first level")
        if not self.title.strip():
            self.wrong.append("it has no title")

    def handle_starttag(self, tag, attributes):
        given = dict(attributes)
        if tag not in VOID:
            self.open.append(tag)
        if "id" in given:
            self.wrong += [f"two places have the address {given['id']}"] * (given["id"] in self.ids)
            self.ids.add(given["id"])
        self.links += [given[it] for it in ("href", "src") if it in given]
        if tag == "img" and not given.get("alt"):
            self.wrong.append("a picture has no text")
        if re.fullmatch("h[1-6]", tag) and "nav" not in self.open:
            self.levels.append(int(tag[1]))

    def handle_endtag(self, tag):
        if not self.open or self.open[-1] != tag:
            self.wrong.append(f"</{tag}> closes <{self.open[-1] if self.open else 'nothing'}>")
        if tag in self.open:
            while self.open.pop() != tag:
                pass

    def handle_data(self, data):
        self.title += data if self.open[-1:] == ["title"] else ""


def wrong_in(pages, files):
    """What is wrong with pages, by their names, beside which these files are."""
    read = {name: Page(text) for name, text in pages.items()}
    wrong = [f"{name}: {it}" for name, page in read.items() for it in page.wrong]
    for name, page in read.items():
        for to in page.links:
            if re.match(r"\w+:", to):
                continue
            file, _, anchor = to.partition("#")
            file = file or name
            if file not in read and file not in files:
                wrong.append(f"{name}: leads to {to}, which is not there")
            elif anchor and anchor not in read[file].ids:
                wrong.append(f"{name}: leads to {to}, where no such place is")
    return wrong

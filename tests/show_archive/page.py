"""Whether an HTML page of show_archive is well formed, self-contained, and has every line of the text in its order.

usage: page.py TEXT PAGE
"""
import sys
from html.parser import HTMLParser
from xml.etree import ElementTree

VOID = {"meta"}


class Page(HTMLParser):
    def __init__(self):
        super().__init__(convert_charrefs=True)
        self.open, self.parts, self.wrong = [], [], []

    def handle_starttag(self, tag, attributes):
        if tag in ("script", "link", "img", "iframe", "object", "base"):
            self.wrong.append(f"<{tag}> in the page")
        for name, _ in attributes:
            if name in ("src", "href", "style") or name.startswith("on"):
                self.wrong.append(f"<{tag} {name}=…> in the page")
        if tag not in VOID:
            self.open.append(tag)

    def handle_startendtag(self, tag, attributes):
        self.handle_starttag(tag, attributes)

    def handle_endtag(self, tag):
        if not self.open or self.open.pop() != tag:
            self.wrong.append(f"</{tag}> closes what is not open")

    def handle_data(self, data):
        if not {"style", "title", "thead"} & set(self.open):
            self.parts.append(data)


def main(text, page):
    source = open(page, encoding="utf-8").read()
    parsed = Page()
    parsed.feed(source)
    parsed.close()
    wrong = parsed.wrong + [f"<{tag}> is left open" for tag in parsed.open]
    ElementTree.fromstring(source)
    if "url(" in source or "@import" in source:
        wrong.append("the style names another file")
    if "@media print" not in source:
        wrong.append("there is no style for the printer")
    wanted = [line for line in open(text, encoding="ascii").read().split("\n") if line]
    had = [line for line in "".join(parsed.parts).split("\n") if line]
    if wanted != had:
        lost = [line for line in wanted if line not in had]
        wrong.append(f"the page's text is not the text; lost: {lost[:3]}")
    for what in wrong:
        print(what)
    return 1 if wrong else 0


if __name__ == "__main__":
    if len(sys.argv) != 3:
        sys.exit(__doc__)
    sys.exit(main(sys.argv[1], sys.argv[2]))

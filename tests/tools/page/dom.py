"""Prints a part of a page as Chromium dumped it: the text of an element, or the names of all elements.

dom.py text ID       the text of the element with this id, or of the first with this class
dom.py elements      the names of the elements, each once, with a space between two
"""

import sys
from html.parser import HTMLParser

VOID = {"meta", "input", "br", "link"}


class Page(HTMLParser):
    """Collects the names of elements, and the text of those with this id or class."""

    def __init__(self, wanted=None):
        super().__init__(convert_charrefs=True)
        self.wanted = wanted
        self.names = set()
        self.depth = 0
        self.texts = []

    def handle_starttag(self, tag, attrs):
        self.names.add(tag)
        if tag in VOID:
            return
        if self.depth:
            self.depth += 1
        elif self.wanted and self.wanted in [dict(attrs).get("id"), dict(attrs).get("class")]:
            self.depth = 1
            self.texts.append("")

    def handle_endtag(self, tag):
        if self.depth and tag not in VOID:
            self.depth -= 1

    def handle_data(self, data):
        if self.depth:
            self.texts[-1] += data


def main(verb, wanted=None):
    page = Page(wanted)
    page.feed(sys.stdin.read())
    if verb == "elements":
        print(*sorted(page.names))
    elif page.texts:
        sys.stdout.write(page.texts[0])
    else:
        sys.exit(f"no element {wanted}")


if __name__ == "__main__":
    main(*sys.argv[1:])

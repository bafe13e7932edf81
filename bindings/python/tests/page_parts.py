"""What a page of goref-tools holds, by the standard library's reader of HTML."""

import json
from html.parser import HTMLParser


class Page(HTMLParser):
    """The elements of a page, with their attributes and their text."""

    VOID = {"meta", "input", "br"}

    def __init__(self, text):
        super().__init__(convert_charrefs=True)
        self.open = []
        self.elements = []
        self.text = text
        self.feed(text)
        self.close()

    def handle_starttag(self, tag, attributes):
        element = {"tag": tag, "attributes": dict(attributes), "text": ""}
        self.elements.append(element)
        if tag not in self.VOID:
            self.open.append(element)

    def handle_endtag(self, tag):
        assert self.open and self.open[-1]["tag"] == tag, f"</{tag}> ends no element"
        self.open.pop()

    def handle_data(self, text):
        if self.open:
            self.open[-1]["text"] += text

    def all(self, tag):
        return [element for element in self.elements if element["tag"] == tag]

    def by_id(self, name):
        [element] = [element for element in self.elements if element["attributes"].get("id") == name]
        return element

    def games(self):
        """What the script is given."""
        return json.loads(self.by_id("games")["text"])

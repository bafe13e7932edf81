"""What stands where in the canonical spelling of a record, as `goref.tidy` gives it.

Nothing is ambiguous there: no white space stands between the parts, names have capitals alone, and a `]` that ends no
value follows a `\\`. So this reads no other text.
"""

import re
from typing import Iterator, List, NamedTuple, Optional, Tuple

_NAME = re.compile(rb"[A-Z]+")
_PROPERTY = re.compile(rb"([A-Z]+)((?:\[[^\]\\]*(?:\\.[^\]\\]*)*\])+)", re.S)
_STOP = re.compile(rb"\\.|\]", re.S)
_PART = re.compile("\\\\(\r\n|\n\r|.)|(\r\n|\n\r|\r|\n)|[\t\v\f]", re.S)
COLUMNS = "ABCDEFGHJKLMNOPQRSTUVWXYZ"


class Property(NamedTuple):
    """A property of a node."""

    name: str
    values: List[bytes]
    """What stands between the brackets, with its escapes."""
    begin: int
    """The place of the first letter of its name in the spelling, in bytes from 0."""
    end: int
    """The place after its last `]`."""


class Node(NamedTuple):
    """A node of a game tree."""

    begin: int
    """The place of its `;`."""
    end: int
    """The place after its last property."""
    properties: List[Property]

    def first(self, name: str) -> Optional[bytes]:
        """The first value of the first property of a name."""
        return next((one.values[0] for one in self.properties if one.name == name), None)


def main_line(spelling: bytes) -> List[Node]:
    """The nodes of the main line of the first game: the first variation is taken everywhere."""
    return list(nodes_on(spelling, 0))


def nodes_on(spelling: bytes, begin: int) -> Iterator[Node]:
    """The nodes of the main line of the game tree that begins at a place, one after another."""
    place = begin
    while spelling[place : place + 1] in (b"(", b";"):
        if spelling[place : place + 1] == b"(":
            place += 1
        else:
            node = _node_at(spelling, place)
            yield node
            place = node.end


def first_in(spelling: bytes, name: bytes) -> Optional[bytes]:
    """The first value of the first property of a name in the first node. It looks no further, so it is quick."""
    one = _PROPERTY.match(spelling, len(b"(;"))
    while one and one[1] != name:
        one = _PROPERTY.match(spelling, one.end())
    return None if one is None else spelling[one.start(2) + 1 : _end_of_value(spelling, one.start(2) + 1)]


def _node_at(spelling: bytes, begin: int) -> Node:
    """The node whose `;` stands at a place."""
    properties = []
    place = begin + 1
    name = _NAME.match(spelling, place)
    while name:
        values, end = _values_at(spelling, name.end())
        properties.append(Property(name[0].decode("ascii"), values, place, end))
        place = end
        name = _NAME.match(spelling, place)
    return Node(begin, place, properties)


def _values_at(spelling: bytes, place: int) -> Tuple[List[bytes], int]:
    """The values that begin at a place, and the place after their last `]`."""
    values = []
    while spelling.startswith(b"[", place):
        end = _end_of_value(spelling, place + 1)
        values.append(spelling[place + 1 : end])
        place = end + 1
    return values, place


def _end_of_value(spelling: bytes, place: int) -> int:
    """The place of the `]` that ends the value which a place is in."""
    for stop in _STOP.finditer(spelling, place):
        if stop[0] == b"]":
            return stop.start()
    raise ValueError("a value without an end")


def text_of(value: bytes) -> str:
    """What a value says as Text: line breaks stay, those after a `\\` vanish, and other white space is a space."""
    return _plain(value, "\n").rstrip()


def simple_text_of(value: bytes) -> str:
    """What a value says as SimpleText: line breaks are spaces too."""
    return _plain(value, " ").strip()


def _plain(value: bytes, line_break: str) -> str:
    def said(part: "re.Match[str]") -> str:
        escaped, broken = part[1], part[2]
        if escaped:
            return "" if escaped[0] in "\r\n" else " " if escaped in "\t\v\f" else escaped
        return line_break if broken else " "

    return _PART.sub(said, value.decode("utf-8", "replace"))


def vertex_of(value: bytes, size: int) -> str:
    """The vertex of a move's value as GTP names it, or `pass`. Raises ValueError where it names no point."""
    letters = value.strip(b" \t\n\v\f\r")
    if letters == b"" or (letters == b"tt" and size <= 19):
        return "pass"
    if len(letters) == 2 and all(97 <= letter < 97 + size for letter in letters):
        return f"{COLUMNS[letters[0] - 97]}{size - (letters[1] - 97)}"
    raise ValueError(f"no point on {size} lines: {letters!r}")

"""Pieces of a record on a terminal: controls are escaped, long ones are cut, and a mark stands under a place."""

import re
import unicodedata
from typing import List

from goref._tools.spelling import Node, Property

_BREAK = re.compile("\r\n|\r|\n")
_BEFORE = 40
_AFTER = 24


def printable(text: str) -> str:
    """A text on one line, in which no character moves the cursor or turns the line."""
    return "".join(letter if letter.isprintable() else ascii(letter)[1:-1] for letter in text)


def shortened(text: str, most: int) -> str:
    """The first characters of a text, and how many more there are."""
    return text if len(text) <= most else f"{text[:most]}{more(len(text) - most, 'character')}"


def more(number: int, what: str) -> str:
    """What stands for the rest of a list or of a text."""
    return f".. ({number:,} {what}{'' if number == 1 else 's'} more)"


def value_shown(name: str, value: bytes, most: int = 60) -> str:
    """A property with one value."""
    return f"{name}[{shortened(printable(value.decode('utf-8', 'backslashreplace')), most)}]"


def property_shown(one: Property) -> str:
    """A property with its values, of which many are cut."""
    shown = [value_shown("", value) for value in one.values[:12]]
    left = len(one.values) - len(shown)
    return one.name + "".join(shown) + (more(left, "value") if left else "")


def node_shown(node: Node) -> str:
    """A node with its properties, of which many are cut."""
    return ";" + shortened("".join(property_shown(one) for one in node.properties), 400)


def marked(text: bytes, place: int) -> List[str]:
    """Where a byte stands in a text: the number of its line and of its column, and what is around it with a mark."""
    before = text[:place].decode("utf-8", "replace")
    lines = _BREAK.split(before)
    line = f"It is in line {len(lines)}, column {len(lines[-1]) + 1}."
    # A blank line says nothing, so what stands before it is shown with its line end.
    lead = printable(lines[-1] if lines[-1].strip() else before[-_BEFORE:])[-_BEFORE:]
    tail = text[place : place + 4 * _AFTER].decode("utf-8", "replace")
    # The byte itself may be a line end, which is shown then.
    rest = printable(tail[:1] + _BREAK.split(tail[1:])[0])[:_AFTER]
    return [line, f"    {lead}{rest}", f"    {' ' * _width(lead)}^"]


def _width(text: str) -> int:
    """How many columns a terminal takes for a text."""
    return sum(
        0 if unicodedata.combining(letter) else 2 if unicodedata.east_asian_width(letter) in "WF" else 1
        for letter in text
    )

"""The canonical spelling of all games of a file."""

import codecs
import re
from typing import List, NamedTuple, Optional

import goref
from goref._tools import spelling
from goref._tools.charset import Converted, WrongCharset, converted, readings
from goref._tools.records import Found, found_in

_SPACE = b" \t\n\v\f\r"
_INSIDE = re.compile(rb"\[[^\]\\]*(?:\\.[^\]\\]*)*\]", re.S)


class Untidy(Exception):
    """A file that has no spelling. Its text is the reason."""


class InDoubt(Exception):
    """A file that may have more than one spelling. Its text is the reason, with the option that settles it."""


class Tidied(NamedTuple):
    """The spelling of a file."""

    spelling: bytes
    text: Converted
    dropped: Optional[int]
    """The place in the file of the first byte outside of its games that isn't white space."""


def tidied(data: bytes, charset: Optional[str]) -> Tidied:
    """The spelling of the games of a file, one after another.

    Raises Untidy if a game is refused, and InDoubt if the spelling depends on the charset.
    """
    try:
        text = converted(data, charset)
    except WrongCharset as why:
        raise Untidy(str(why)) from None
    if text.others:
        raise InDoubt(f"is in {text.charset or 'utf-8'}, or in {' or '.join(text.others)}; say --charset")
    games = list(found_in("", text))
    spelled = [_spelled(found) for found in games]
    for name, other in readings(data, text):
        if _shape(b"".join(spelled)) != _shape_of(other):
            raise InDoubt(f"depends on the charset: {_reading(text)} and {name} it is two records; say --charset")
    is_known = text.how not in ("", "unknown") and not data.removeprefix(codecs.BOM_UTF8).isascii()
    if text.charset is not None or is_known:
        spelled = [_in_utf8(one) for one in spelled]
    return Tidied(b"".join(spelled), text, _dropped(games))


def _reading(text: Converted) -> str:
    return f"in {text.charset}" if text.charset else "byte for byte"


def _spelled(found: Found) -> bytes:
    try:
        return goref.tidy(found.game.text)
    except goref.Refused as why:
        raise Untidy(found.reason(str(why))) from None


def _shape_of(text: Converted) -> Optional[bytes]:
    """What there is of a text without its values; nothing where a game is refused."""
    try:
        return _shape(b"".join(map(_spelled, found_in("", text))))
    except Untidy:
        return None


def _shape(spelled: bytes) -> bytes:
    return _INSIDE.sub(b"[]", spelled)


def _dropped(games: List[Found]) -> Optional[int]:
    """The first place outside of the games where a byte stands that isn't white space."""
    text = games[0].text
    place = len(codecs.BOM_UTF8) if text.utf8.startswith(codecs.BOM_UTF8) else 0
    ends = [*((found.game.begin, found.game.end) for found in games), (len(text.utf8), len(text.utf8))]
    for begin, end in ends:
        between = text.utf8[place:begin]
        if between.strip(_SPACE):
            return text.place(place + len(between) - len(between.lstrip(_SPACE)))
        place = end
    return None


def _in_utf8(spelled: bytes) -> bytes:
    """The spelling of a game whose first node says that it is in UTF-8."""
    node = next(spelling.nodes_on(spelled, 0))
    stated = [one for one in node.properties if one.name == "CA"]
    if not stated:
        return b"(;CA[UTF-8]" + spelled[2:]
    rest = b"".join(spelled[one.begin : one.end] for one in node.properties if one.name != "CA")
    return b"(;CA[UTF-8]" + rest + spelled[node.end :]

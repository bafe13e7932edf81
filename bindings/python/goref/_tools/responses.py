"""Responses of the Go Text Protocol, as they come out of what an engine writes."""

import re
from typing import NamedTuple, Optional

MOST = 1_000_000
"""How many bytes an engine may write from one line to the response to it."""

_CONTROLS = bytes(code for code in range(32) if code not in (9, 10)) + b"\x7f"
_HEAD = re.compile(rb"([=?])[0-9]*[ \t]*")


class BadResponse(Exception):
    """What an engine writes is no response. The text says what it did, to be read after its name."""


class Response(NamedTuple):
    """What an engine answers to a line."""

    is_success: bool
    text: str


class Incoming:
    """What an engine writes, in the pieces that come: a response for each line that it was asked, and nothing else."""

    def __init__(self, most: int = MOST) -> None:
        self._most = most
        self._kept = bytearray()
        self._count = 0
        self._is_asked = False

    def ask(self) -> None:
        """From here on one response is awaited. Raises BadResponse where something stands there already."""
        if self._kept:
            raise BadResponse(f"wrote `{_first_line(self._kept)}` without being asked")
        self._count = 0
        self._is_asked = True

    def feed(self, data: bytes) -> Optional[Response]:
        """Takes a piece, and gives the response once it is whole. Raises BadResponse."""
        self._count += len(data)
        if self._count > self._most:
            raise BadResponse(f"wrote more than {self._most:,} bytes")
        looked_at = max(len(self._kept) - 1, 0)
        self._kept += data.translate(None, _CONTROLS)
        if self._kept[:1] == b"\n":
            self._kept = self._kept.lstrip(b"\n")
            looked_at = 0
        if not self._kept:
            return None
        if not self._is_asked:
            raise BadResponse(f"wrote `{_first_line(self._kept)}` without being asked")
        if self._kept[:1] not in (b"=", b"?"):
            raise BadResponse(f"wrote `{_first_line(self._kept)}`, which is no response,")
        end = self._kept.find(b"\n\n", looked_at)
        return None if end < 0 else self._cut(end)

    def _cut(self, end: int) -> Response:
        """The response that ends at a place."""
        whole = bytes(self._kept[:end])
        self._kept = self._kept[end:].lstrip(b"\n")
        self._is_asked = False
        head = _HEAD.match(whole)
        assert head
        return Response(head[1] == b"=", whole[head.end() :].decode("utf-8", "replace").strip())


def in_short(text: str, most: int = 80) -> str:
    """The first line of a text, cut where it is long, and with escapes for what can't be printed."""
    line = text.split("\n", 1)[0].strip()[: most + 1]
    line = "".join(c if c.isprintable() else ascii(c)[1:-1] for c in line)
    return line if len(line) <= most else line[:most] + ".."


def _first_line(data: bytearray) -> str:
    return in_short(bytes(data[:400]).decode("utf-8", "replace"))

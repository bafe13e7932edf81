"""What the calls give, and what they raise."""

from typing import NamedTuple, Union

Bytes = Union[bytes, bytearray, memoryview]


class GorefError(Exception):
    """A call that came to no answer."""


class Refused(GorefError):
    """What is no record, a record without a game, or a command that a session refused. Its text is goref's reason."""


class BadSize(GorefError, ValueError):
    """A number of lines that no board has."""


class OutOfMemory(GorefError, MemoryError):
    """There was no memory for an answer. `text` is what there is of the answers, which end within one."""

    def __init__(self, reason: str, text: bytes = b"") -> None:
        super().__init__(reason)
        self.text = text


class SessionOver(GorefError):
    """A session that was closed, or that answered `quit`."""


class Verdict(NamedTuple):
    """What a record comes to."""

    moves: int
    """How many moves its main line has."""
    score: str
    """The score after them, as `B+3.5`, `W+1` or `0`."""
    stated: str
    """Whether the record states that score: `none`, `agrees` or `differs`."""


class Game(NamedTuple):
    """A game tree of a text."""

    begin: int
    """The number of its first byte in the text, from 0."""
    end: int
    """The number of the byte after its last."""
    text: bytes
    """Its bytes. Of one that is broken these end with the byte that breaks it, so `judge` refuses them for that."""
    is_whole: bool
    """Whether it is a game tree from its `(` to its `)`."""


def bytes_of(name: str, value: object) -> bytes:
    """The bytes of an argument."""
    if isinstance(value, bytes):
        return value
    if isinstance(value, (bytearray, memoryview)):
        return bytes(value)
    if isinstance(value, str):
        raise TypeError(f"{name} is text, and bytes are wanted: encode it, as {name}.encode('utf-8')")
    raise TypeError(f"{name} is of type {type(value).__name__}, and bytes are wanted")


def lines_of_board(size: object) -> int:
    """The number of lines of a board."""
    if not isinstance(size, int):
        raise TypeError(f"size is of type {type(size).__name__}, and a number is wanted")
    if not 1 <= size <= 25:
        raise BadSize(f"size is {size}: a board has 1 to 25 lines")
    return size

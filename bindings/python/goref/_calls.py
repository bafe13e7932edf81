"""Calls that keep nothing: answers, verdicts, spellings, and the games of a text."""

import ctypes
from typing import Any, Iterator

from goref._library import library, text_in_room
from goref._types import Bytes, Game, GorefError, OutOfMemory, Refused, Verdict, bytes_of, lines_of_board


def _text(function: Any, place: int, source: bytes, *first: int) -> bytes:
    """What a call puts into a room, which has `place` bytes at first."""
    status, text = text_in_room(place, function, *first, source, len(source))
    if status == 0:
        return text
    reason = text.decode("ascii")
    if status == 1:
        raise Refused(reason)
    if status == 3:
        raise OutOfMemory(reason)
    raise GorefError(f"libgoref answered with the status {status}")


def answers(lines: Bytes, size: int = 19) -> bytes:
    """The answers to lines of GTP, from an empty board of `size` lines on, up to `quit` or the last line.

    There are no files: `loadsgf` is answered by `? cannot load file`. Raises `BadSize` where no board has `size` lines,
    and `OutOfMemory`.
    """
    size = lines_of_board(size)
    source = bytes_of("lines", lines)
    return _text(library().goref_answers, 4096 + 4 * len(source), source, size)


def judge(record: Bytes) -> Verdict:
    """The verdict on the first game of a record. Raises `Refused` where there is none, and `OutOfMemory`."""
    moves, score, stated = _text(library().goref_judge, 256, bytes_of("record", record)).decode("ascii").splitlines()
    return Verdict(int(moves.split()[1]), score.split()[1], stated.split()[1])


def tidy(record: Bytes) -> bytes:
    """The canonical spelling of a record. Raises `Refused` where it is none, and `OutOfMemory`."""
    source = bytes_of("record", record)
    return _text(library().goref_tidy, len(source) + 256, source)


def games(text: Bytes) -> Iterator[Game]:
    """The game trees of a text, one after another, each as it is asked for; also those after a stray byte.

    After a broken one the next tree is looked for from the byte on that broke it.
    """
    return _games(bytes_of("text", text))


def _games(source: bytes) -> Iterator[Game]:
    begin, end = ctypes.c_size_t(), ctypes.c_size_t()
    place = 0
    while True:
        status = library().goref_next_game(source, len(source), place, ctypes.byref(begin), ctypes.byref(end))
        if status == 1:
            return
        if status == 0:
            yield Game(begin.value, end.value, source[begin.value : end.value], True)
        else:
            yield Game(begin.value, end.value, source[begin.value : end.value + 1], False)
        place = end.value

"""The openings of a match, from the records of a folder."""

import os
from typing import List, Tuple

import goref
from goref._tools.doubts import doubt_of
from goref._tools.faults import Fault, shown
from goref._tools.files import records_in
from goref._tools.match_settings import BLACK, WHITE, Opening
from goref._tools.passed import Passed
from goref._tools.records import games_in
from goref._tools.spelling import main_line, vertex_of


def openings_in(folder: str, size: int, hidden: bool, passed: Passed) -> List[Opening]:
    """The main lines of a folder's records, in a fixed order. Raises a Fault that names the first wrong one.

    What is hidden is left out without `hidden`. What isn't read is added to `passed`.
    """
    if not os.path.isdir(folder):
        raise Fault(f"{shown(folder)}: no folder")
    openings = []
    for path in records_in(folder, hidden, passed):
        if isinstance(path, Fault):
            raise path
        try:
            moves = moves_of(_text_of(path), size)
        except ValueError as why:
            raise Fault(f"{shown(path)}: {why}") from None
        openings.append(Opening(os.path.relpath(path, folder), moves))
    return openings


def _text_of(path: str) -> bytes:
    """The text of a record, in UTF-8. Raises ValueError where its moves may be others in another charset."""
    game = next(games_in(path))
    if doubt_of(game):
        raise ValueError("its moves depend on the charset, which is a guess")
    return game.text.utf8


def moves_of(record: bytes, size: int) -> List[Tuple[str, str]]:
    """The moves of a record's game, as goref replays it. Raises ValueError where it is no opening on such a board."""
    with goref.Session() as session:
        try:
            session.ask("loadsgf opening", {b"opening": record})
        except goref.Refused:
            raise ValueError(_why(record)) from None
        start, *moves = main_line(session.ask("goref-printsgf").encode("utf-8"))
    if start.first("SZ") != str(size).encode("ascii"):
        raise ValueError(f"its board isn't of {size} lines")
    if start.first("AB") is not None or start.first("AW") is not None:
        raise ValueError("stones are set up before its first move")
    found = [(node.properties[0].name.lower(), vertex_of(node.properties[0].values[0], size)) for node in moves]
    if not found:
        raise ValueError("it has no move")
    if [vertex for _, vertex in found[-2:]] == ["pass", "pass"]:
        raise ValueError("it ends by two passes")
    assert all(colour in (BLACK, WHITE) for colour, _ in found)
    return found


def _why(record: bytes) -> str:
    """Why goref refuses a record."""
    try:
        goref.judge(record)
    except goref.Refused as why:
        return str(why)
    return "goref can't load it"

"""Boards along a game, as a session of goref shows them."""

import re
from contextlib import contextmanager
from typing import Iterator, List, NamedTuple, Optional, Tuple

import goref
from goref._tools.spelling import COLUMNS, main_line, vertex_of

_HEADING = re.compile(r"size (\d+) komi (\S+) prisoners B (\d+) W (\d+) moves (\d+) next ([BW])")


class Board(NamedTuple):
    """A board, and what its heading tells."""

    size: int
    komi: str
    black_taken: int
    """How many black stones were taken."""
    white_taken: int
    moves: int
    """How many moves stand."""
    to_move: str
    """`B` or `W`."""
    stones: str
    """A character a point, `X`, `O` or `.`, row by row from the top, each from the left."""
    diagram: str
    """The lines of goref, the heading among them."""


class Move(NamedTuple):
    """A move that stands."""

    colour: str
    """`B` or `W`."""
    vertex: str
    """As GTP names it, or `pass`."""


def board_of(diagram: str) -> Board:
    """The board that an answer to `showboard` shows."""
    heading, *lines = diagram.splitlines()
    told = _HEADING.fullmatch(heading)
    if told is None:
        raise ValueError(f"no heading of a board: {heading}")
    size, black, white, moves = (int(told[number]) for number in (1, 3, 4, 5))
    stones = "".join("".join(line.split()[1:]) for line in lines[:size])
    return Board(size, told[2], black, white, moves, told[6], stones, diagram)


@contextmanager
def playing(record: bytes, moves: Optional[int] = None) -> Iterator[goref.Session]:
    """A session in which the first moves of a record stand, or all. Raises Refused where goref can't load them."""
    line = "loadsgf game" if moves is None else f"loadsgf game {moves + 1}"
    with goref.Session() as session:
        session.ask(line, {b"game": record})
        yield session


def shown(session: goref.Session) -> Board:
    """The board that stands."""
    return board_of(session.ask("showboard"))


def played(session: goref.Session) -> List[Move]:
    """The moves that stand."""
    nodes = main_line(session.ask("goref-printsgf").encode("utf-8"))
    size = int(nodes[0].first("SZ") or b"19")
    return [
        Move(one.name, vertex_of(one.values[0], size)) for node in nodes for one in node.properties if one.name in "BW"
    ]


def position(record: bytes, moves: Optional[int] = None) -> Tuple[Board, List[Move]]:
    """The board after the first moves of a record, and these moves."""
    with playing(record, moves) as session:
        return shown(session), played(session)


def boards_back(session: goref.Session) -> Iterator[Board]:
    """The boards from the one that stands back to the start, which then stands."""
    board = shown(session)
    yield board
    while board.moves:
        session.ask("undo")
        board = shown(session)
        yield board


def point_of(vertex: str, size: int) -> Optional[int]:
    """The place of a vertex among a board's stones, and nothing for a pass."""
    if vertex == "pass":
        return None
    return (size - int(vertex[1:])) * size + COLUMNS.index(vertex[0])


def columns_of(size: int) -> str:
    """The letters of the columns."""
    return COLUMNS[:size]


def stars_of(size: int) -> List[str]:
    """The vertices of a board's star points: goref's places for handicaps, of which 9 and 13 lines show five."""
    with goref.Session(size) as session:
        for number in (5 if size in (9, 13) else 9, 4):
            try:
                return session.ask(f"fixed_handicap {number}").split()
            except goref.Refused:
                continue
    return []

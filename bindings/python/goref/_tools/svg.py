"""A board as SVG: a picture that scales, with the coordinates of GTP."""

from html import escape
from typing import Dict, Iterator, List, Optional

from goref._tools.boards import Board, Move, columns_of, point_of, stars_of

_STEP = 40
_EDGE = 60
"""From the outermost lines to the edge of the picture, where the coordinates stand."""

_STYLE = (
    "text{font-family:sans-serif;text-anchor:middle;dominant-baseline:central}"
    ".b{fill:#161616;stroke:#000}.w{fill:#fbfbf7;stroke:#333}"
    ".bn{fill:#fff}.wn{fill:#000}"
)


def picture(board: Board, title: str, last: Optional[Move] = None, numbers: Optional[Dict[str, int]] = None) -> str:
    """The SVG of a board, with its last move marked, and with numbers on stones."""
    width = 2 * _EDGE + _STEP * (board.size - 1)
    head = (
        f'<svg xmlns="http://www.w3.org/2000/svg" role="img" viewBox="0 0 {width} {width}" width="{width}"'
        f' height="{width}">'
    )
    numbers = numbers or {}
    parts = [head, f"<title>{clean(escape(title))}</title>", f"<style>{_STYLE}</style>"]
    parts += [*_grid(board.size, width), *_coordinates(board.size, width)]
    parts += [*_stones(board), *_numbers(board, numbers)]
    if last is not None and last.vertex not in numbers:
        parts += _mark(board, last)
    return "\n".join([*parts, "</svg>", ""])


def numbers_on(board: Board, moves: List[Move], most: int) -> Dict[str, int]:
    """The numbers of the last moves, by vertex, where a stone of the move's colour still stands.

    A point that was played twice has the number of the later move.
    """
    numbers = {}
    for number, move in list(enumerate(moves, 1))[max(len(moves) - most, 0) :]:
        point = point_of(move.vertex, board.size)
        if point is not None and board.stones[point] == _sign(move.colour):
            numbers[move.vertex] = number
    return numbers


def clean(text: str) -> str:
    """A text without the characters that no XML can have."""
    return "".join("\ufffd" if _is_foreign(ord(letter)) else letter for letter in text)


def _is_foreign(code: int) -> bool:
    return (code < 32 and code not in (9, 10, 13)) or 0xD800 <= code < 0xE000 or code in (0xFFFE, 0xFFFF)


def _sign(colour: str) -> str:
    return "X" if colour == "B" else "O"


def _at(index: int) -> int:
    """Where a line stands, counted from the left or the top."""
    return _EDGE + _STEP * index


def _grid(size: int, width: int) -> Iterator[str]:
    """The lines and the star points on their wood."""
    first, last = _at(0), _at(size - 1)
    yield f'<rect width="{width}" height="{width}" fill="#e2b871"/>'
    lines = "".join(f"M{first} {_at(at)}H{last}M{_at(at)} {first}V{last}" for at in range(size))
    yield f'<path d="{lines}" stroke="#5a4322" stroke-width="1.5" stroke-linecap="square" fill="none"/>'
    for vertex in stars_of(size):
        x, y = _place(vertex, size)
        yield f'<circle cx="{x}" cy="{y}" r="5" fill="#5a4322"/>'


def _coordinates(size: int, width: int) -> Iterator[str]:
    """The letters above and below the lines, and the numbers at both sides."""
    near, far = _EDGE - 36, width - _EDGE + 36
    yield '<g font-size="17" fill="#4a3416">'
    for index, letter in enumerate(columns_of(size)):
        along, number = _at(index), size - index
        yield f'<text x="{along}" y="{near}">{letter}</text><text x="{along}" y="{far}">{letter}</text>'
        yield f'<text x="{near}" y="{along}">{number}</text><text x="{far}" y="{along}">{number}</text>'
    yield "</g>"


def _place(vertex: str, size: int) -> "tuple[int, int]":
    """The middle of a vertex in the picture."""
    point = point_of(vertex, size)
    assert point is not None
    return _at(point % size), _at(point // size)


def _stones(board: Board) -> Iterator[str]:
    for point, sign in enumerate(board.stones):
        if sign != ".":
            x, y = _at(point % board.size), _at(point // board.size)
            yield f'<circle class="{"b" if sign == "X" else "w"}" cx="{x}" cy="{y}" r="18.5"/>'


def _numbers(board: Board, numbers: Dict[str, int]) -> Iterator[str]:
    for vertex, number in numbers.items():
        x, y = _place(vertex, board.size)
        point = point_of(vertex, board.size)
        colour = "bn" if point is not None and board.stones[point] == "X" else "wn"
        size = {1: 20, 2: 19, 3: 16}.get(len(str(number)), 12)
        yield f'<text class="{colour}" x="{x}" y="{y}" font-size="{size}">{number}</text>'


def _mark(board: Board, last: Move) -> Iterator[str]:
    """A ring on the last move's stone, in the other colour; red where the move took its own stones."""
    point = point_of(last.vertex, board.size)
    if point is not None:
        x, y = _place(last.vertex, board.size)
        ring = {"X": "#fff", "O": "#000"}.get(board.stones[point], "#b00020")
        yield f'<circle cx="{x}" cy="{y}" r="9" fill="none" stroke="{ring}" stroke-width="2.5"/>'

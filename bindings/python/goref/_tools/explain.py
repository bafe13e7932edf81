"""Why goref refuses a game, in lines for people."""

import re
from typing import Callable, Dict, Iterator, List, NamedTuple, Optional, Tuple

import goref
from goref._tools.boards import Board, Move, point_of, position
from goref._tools.excerpt import marked, more, node_shown, property_shown, shortened, value_shown
from goref._tools.guesses import game_by, guess
from goref._tools.records import Found
from goref._tools.refusals import Refusal, move_of, playable, refusal_of
from goref._tools.spelling import Node, Property, main_line, vertex_of

_SET_UP = ("AB", "AW", "AE")
_NAMES = {"X": "Black", "O": "White"}

# What follows a `]` that ends a value too early: words, and then a `]` that ends none.
_OPEN = re.compile(rb"\][A-Za-z\s]*\Z")
_CLOSE = re.compile(rb"[^][]*\]")


class Game(NamedTuple):
    """A refused game whose text is well spelled."""

    refusal: Refusal
    spelling: bytes
    nodes: List[Node]

    def size(self) -> bytes:
        """The value of its size, as a record of its own may have it."""
        return self.nodes[0].first("SZ") or b""

    def before(self) -> Optional[Tuple[Board, List[Move]]]:
        """The board before what is refused, and its moves."""
        there = playable(self.refusal, self.spelling, self.nodes)
        return None if there is None else _position(*there)


def _position(record: bytes, moves: int) -> Optional[Tuple[Board, List[Move]]]:
    try:
        return position(record, moves)
    except goref.Refused:
        return None


def explained(found: Found) -> Iterator[str]:
    """The lines that tell why goref refuses a game. The reason itself isn't among them."""
    try:
        goref.judge(found.game.text)
        return
    except goref.Refused as why:
        refusal = refusal_of(str(why))
    try:
        spelling = goref.tidy(found.game.text)
    except goref.Refused:
        yield from _of_text(found, refusal)
        return
    yield from _of_game(Game(refusal, spelling, main_line(spelling)))


def _of_text(found: Found, refusal: Refusal) -> Iterator[str]:
    """Of what is no record."""
    if refusal.byte is not None:
        yield from marked(found.text.utf8, found.game.begin + refusal.byte)
        yield from _hints(found.text.utf8[found.game.begin :], refusal)
    elif refusal.reason == "record too long":
        yield f"goref reads records of at most 16,777,216 bytes, and this one has {len(found.game.text):,}."
    elif not found.text.data:
        yield "The file is empty."
    elif not found.text.data.strip():
        yield "The file has white space alone."
    else:
        yield "A game tree begins with `(` and `;`, which stand nowhere in the file one after the other."
        perhaps = guess(found.text.data)
        if perhaps:
            yield f"Perhaps it is {perhaps}."


def _hints(text: bytes, refusal: Refusal) -> Iterator[str]:
    """What may be missing where a text breaks, told as a guess; goref says whether it would help."""
    if refusal.reason.startswith("too deep"):
        yield "goref reads trees that are nested at most 1,000 deep."
    elif refusal.reason.startswith("record ends"):
        for what, missing in (("`)` at the end is", b")" * 1000), ("`]` at the end of a value is", b"]" + b")" * 1000)):
            if _is_record(text + missing):
                yield f"Perhaps a {what} missing, or the file is cut off."
                return
    elif _OPEN.search(text[: refusal.byte]) and _CLOSE.match(text[refusal.byte :]):
        yield "Perhaps the value before it has a `]` that wants a `\\` in front of it."


def _is_record(text: bytes) -> bool:
    try:
        goref.tidy(text)
        return True
    except goref.Refused:
        return False


def _of_game(game: Game) -> Iterator[str]:
    """Of a game that is refused for its moves, its values or its stones."""
    for begin, lines in _TELLERS.items():
        if game.refusal.reason.startswith(begin):
            yield from lines(game)
            return
    if game.refusal.move is not None:
        yield from _of_move(game, game.refusal.move)


def _of_kind(game: Game) -> Iterator[str]:
    value = game.nodes[0].first("GM") or b""
    name = game_by(value)
    stands = f" stands for {name}" if name else " stands for no game of the format"
    yield f"{value_shown('GM', value)}{stands}, and Go has GM[1]."


def _of_size(game: Game) -> Iterator[str]:
    yield f"{value_shown('SZ', game.size())} is no size: that is a number of lines from 1 to 25, as SZ[19]."


def _of_komi(game: Game) -> Iterator[str]:
    value = value_shown("KM", game.nodes[0].first("KM") or b"")
    yield f"{value} is no komi: that is a number with at most two decimals after a point, as KM[6.5]."


def _of_value(game: Game) -> Iterator[str]:
    node = game.nodes[game.refusal.node or 0]
    yield f"Node {game.refusal.node}: {node_shown(node)}"
    for one in node.properties:
        yield from _malformed(one.name, one.values, game.size())
    yield from _board_before(game, f"node {game.refusal.node}")


def _malformed(name: str, values: List[bytes], size: bytes) -> Iterator[str]:
    """The values of a property that goref refuses each by itself."""
    wanted = _WANTED.get(name)
    if wanted is None:
        return
    looked_at = values if name in _SET_UP else values[:1]
    bad = [value for value in looked_at if _is_malformed(name, value, size)]
    if bad:
        shown = shortened(" ".join(value_shown(name, value) for value in bad[:12]), 400)
        yield f"{shown} {'is' if len(bad) == 1 else 'are'} malformed: {wanted}."


def _is_malformed(name: str, value: bytes, size: bytes) -> bool:
    """Whether goref takes a value for malformed on a board of that size."""
    try:
        goref.judge(b"(;SZ[" + size + b"];" + name.encode("ascii") + b"[" + value + b"])")
    except goref.Refused as why:
        return str(why) == "bad value in node 1"
    return False


def _of_set_up(game: Game) -> Iterator[str]:
    node = game.nodes[game.refusal.node or 0]
    before = game.before()
    yield f"Node {game.refusal.node}: {node_shown(node)}"
    if before is not None:
        points = [_points(one, before[0].size) for one in node.properties if one.name in _SET_UP]
        yield f"It sets up {', '.join(points)}."
    yield "goref sets stones up before the first move alone."
    yield from _board_before(game, f"node {game.refusal.node}")


def _points(one: Property, size: int) -> str:
    """A property with its points as GTP names them, of which many are cut."""
    points = [_point(value, size) for value in one.values[:12]]
    left = len(one.values) - len(points)
    return " ".join([one.name, *points]) + (more(left, "value") if left else "")


def _point(value: bytes, size: int) -> str:
    """A point of a list as GTP names it; a rectangle, and what is no point, as it stands."""
    try:
        vertex = vertex_of(value, size)
    except ValueError:
        return value_shown("", value)
    return value_shown("", value) if vertex == "pass" else vertex


def _of_start(game: Game) -> Iterator[str]:
    yield f"The stone at {game.refusal.vertex} and its chain have no liberty before the first move."
    for number, node in enumerate(game.nodes):
        if any(one.name in ("B", "W") for one in node.properties):
            return
        stones = [property_shown(one) for one in node.properties if one.name in _SET_UP]
        if stones:
            yield f"Node {number} sets up {' '.join(stones)}"


def _of_move(game: Game, number: int) -> Iterator[str]:
    at, one = move_of(game.nodes, number)
    yield f"Node {at}: {node_shown(game.nodes[at])}"
    before = game.before()
    if before is None:
        return
    board, moves = before
    vertex = vertex_of(one.values[0], board.size)
    yield f"Move {number} is {one.name} {vertex}."
    yield from _of_stone(board, moves, vertex) if game.refusal.after is None else _of_repetition(moves, game.refusal)
    yield from _board(f"The board before move {number}:", board)
    if game.refusal.after is not None:
        there = _position(game.spelling, game.refusal.after)
        if there is not None:
            yield from _board("The position that it repeats:", there[0])


def _of_stone(board: Board, moves: List[Move], vertex: str) -> Iterator[str]:
    """Whose stone stands at a vertex, and since when."""
    point = point_of(vertex, board.size)
    if point is None or board.stones[point] == ".":
        return
    numbers = [number for number, move in enumerate(moves, 1) if move.vertex == vertex]
    since = f"since move {numbers[-1]}" if numbers else "from the start"
    yield f"A stone of {_NAMES[board.stones[point]]} stands at {vertex} {since}."


def _of_repetition(moves: List[Move], refusal: Refusal) -> Iterator[str]:
    """The move after which the position stood."""
    if refusal.after:
        last = moves[refusal.after - 1]
        yield f"The position that it would leave stood after move {refusal.after}, {last.colour} {last.vertex}."
    else:
        yield "The position that it would leave stood at the start."


def _board_before(game: Game, what: str) -> Iterator[str]:
    before = game.before()
    if before is not None:
        yield from _board(f"The board before {what}:", before[0])


def _board(heading: str, board: Board) -> Iterator[str]:
    yield ""
    yield heading
    yield from board.diagram.splitlines()


_TELLERS: Dict[str, Callable[[Game], Iterator[str]]] = {
    "not a Go record": _of_kind,
    "bad board size": _of_size,
    "bad komi": _of_komi,
    "bad value": _of_value,
    "set-up after": _of_set_up,
    "set-up without": _of_start,
}

_POINT = "a point is two small letters on the board, the column from the left and the row from the top"

_WANTED = {
    "B": f"{_POINT}, and a pass is an empty value",
    "W": f"{_POINT}, and a pass is an empty value",
    "AB": f"{_POINT}, and a rectangle is two corners with `:` between them",
    "AW": f"{_POINT}, and a rectangle is two corners with `:` between them",
    "AE": f"{_POINT}, and a rectangle is two corners with `:` between them",
    "PL": "a colour is B or W",
}

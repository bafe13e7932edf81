"""What goref's reasons name: a node, a move, a vertex, a byte."""

import re
from typing import Any, Dict, List, NamedTuple, Optional, Tuple

from goref._tools.spelling import Node, Property

_SHAPES = (
    r"(?:bad value|set-up after a move) in node (?P<node>\d+)",
    r"set-up without liberty at (?P<vertex>[A-Z]\d+)",
    r"move (?P<move>\d+) is on a stone",
    r"move (?P<move>\d+) repeats the position after (?P<after>\d+) moves",
    r"(?:record ends inside a tree|too deep) at byte (?P<byte>\d+)",
    r"unexpected byte at (?P<byte>\d+)",
)


class Refusal(NamedTuple):
    """A reason of goref's, and what it names."""

    reason: str
    node: Optional[int] = None
    """The number of a node of the main line, from 0."""
    move: Optional[int] = None
    """The number of a move, from 1."""
    after: Optional[int] = None
    """How many moves had been played when the position stood before."""
    vertex: Optional[str] = None
    byte: Optional[int] = None
    """The number of a byte, from 0."""


def refusal_of(reason: str) -> Refusal:
    """What a reason names."""
    for shape in _SHAPES:
        told = re.fullmatch(shape, reason)
        if told is not None:
            named: Dict[str, Any] = told.groupdict()
            return Refusal(reason, **{name: value if name == "vertex" else int(value) for name, value in named.items()})
    return Refusal(reason)


def moves_in(nodes: List[Node]) -> int:
    """How many moves some nodes have."""
    return sum(one.name in ("B", "W") for node in nodes for one in node.properties)


def move_of(nodes: List[Node], number: int) -> Tuple[int, Property]:
    """The number of the node that has a move, and the move's property. Moves are counted from 1."""
    for at, node in enumerate(nodes):
        moves = [one for one in node.properties if one.name in ("B", "W")]
        if number <= len(moves):
            return at, moves[number - 1]
        number -= len(moves)
    raise ValueError("no such move")


def playable(refusal: Refusal, spelling: bytes, nodes: List[Node]) -> Optional[Tuple[bytes, int]]:
    """A record of what comes before the refusal, and how many of its moves goref can play; nothing where none stands.

    Of a refused node it has the nodes before, since goref looks at set-up before it stops at a move.
    """
    if refusal.move is not None:
        return spelling, refusal.move - 1
    if refusal.node:
        before = nodes[: refusal.node]
        text = b"".join(spelling[node.begin : node.end] for node in before)
        return b"(" + text + b")", moves_in(before)
    return None

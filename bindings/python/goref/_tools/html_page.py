"""The games of a record as one HTML page, with what its script is given of them."""

import base64
import hashlib
import json
import os
from html import escape
from typing import Any, Dict, Iterator, List, NamedTuple, Optional, Tuple, Union

import goref
from goref._tools.boards import Board, boards_back, played, playing, point_of, stars_of
from goref._tools.doubts import doubt_of
from goref._tools.records import Found
from goref._tools.refusals import moves_in, playable, refusal_of
from goref._tools.spelling import Node, main_line, simple_text_of, text_of
from goref._tools.svg import clean

_FACTS = {
    "EV": "Event",
    "RO": "Round",
    "DT": "Date",
    "PC": "Place",
    "RU": "Rules",
    "HA": "Handicap",
    "KM": "Komi",
    "TM": "Time limit",
    "OT": "Overtime",
    "RE": "Stated result",
}

_STATED = {
    "agrees": "The record states that score.",
    "differs": "The record states another score.",
    "none": "The record states no score in points.",
}


class Told(NamedTuple):
    """A game as the page has it."""

    data: Dict[str, Any]
    """What the script is given."""
    diagram: str
    """goref's diagram of the last board, and nothing where there is no board."""


def told_of(found: Found) -> Told:
    """What the page tells of a game."""
    verdict = found.verdict()
    data: Dict[str, Any] = {"number": found.number, **_said_of(verdict), "notes": [], "facts": [], "size": 0}
    for line in (found.text.told(), doubt_of(found)):
        if line:
            data["notes"].append(f"{line[0].upper()}{line[1:]}.")
    try:
        spelling = goref.tidy(found.game.text)
    except goref.Refused:
        return Told(data, "")
    nodes = main_line(spelling)
    data.update(_players(nodes[0]), facts=_facts(nodes[0]))
    if spelling[nodes[-1].end :].strip(b")\n"):
        data["notes"].append("The record has variations, and this page shows its main line alone.")
    before: Optional[Tuple[bytes, Optional[int]]] = (found.game.text, None)
    if isinstance(verdict, str):
        refusal = refusal_of(verdict)
        before = playable(refusal, spelling, nodes)
        nodes = nodes[: refusal.node]
    diagram = _add_boards(data, *before) if before else ""
    data["comments"] = comments_of(nodes, len(data.get("steps", ())))
    return Told(data, diagram)


def _said_of(verdict: Union[goref.Verdict, str]) -> Dict[str, Any]:
    """The verdict in words."""
    if isinstance(verdict, str):
        return {"refused": True, "verdict": f"goref refuses this game: {verdict}."}
    moves = "1 move" if verdict.moves == 1 else f"{verdict.moves} moves"
    score = "even" if verdict.score == "0" else verdict.score
    return {"refused": False, "verdict": f"Score by area after {moves}: {score}. {_STATED[verdict.stated]}"}


def _players(first: Node) -> Dict[str, str]:
    """The names of the players with their ranks."""
    names = {}
    for colour, name, rank in (("black", "PB", "BR"), ("white", "PW", "WR")):
        said = [simple_text_of(first.first(one) or b"") for one in (name, rank)]
        names[colour] = " ".join(one for one in said if one)
    return {**names, "title": simple_text_of(first.first("GN") or b"")}


def _facts(first: Node) -> List[Tuple[str, str]]:
    """What the first node says of the game."""
    said = [(label, simple_text_of(first.first(name) or b"")) for name, label in _FACTS.items()]
    return [(label, text) for label, text in said if text]


def _add_boards(data: Dict[str, Any], record: bytes, moves: Optional[int]) -> str:
    """Adds the boards of a record's first moves, and gives goref's diagram of the last; nothing where there is none."""
    try:
        with playing(record, moves) as session:
            moved = played(session)
            steps: List[Dict[str, Any]] = []
            boards = boards_back(session)
            later = last = next(boards)
            for board, move in zip(boards, reversed(moved)):
                steps.append({"by": move.colour, "at": move.vertex, **_change(board, later)})
                later = board
    except goref.Refused:
        return ""
    steps.reverse()
    stars = [point_of(vertex, last.size) for vertex in stars_of(last.size)]
    data.update(size=last.size, stars=stars, start=later.stones, steps=steps)
    return last.diagram


def _change(before: Board, after: Board) -> Dict[str, Any]:
    """What a move changed: points with what stands there now, and the prisoners where they became more."""
    points = {str(at): new for at, (old, new) in enumerate(zip(before.stones, after.stones)) if old != new}
    change: Dict[str, Any] = {"set": points}
    taken = (after.black_taken, after.white_taken)
    if taken != (before.black_taken, before.white_taken):
        change["taken"] = taken
    return change


def comments_of(nodes: List[Node], most: int) -> Dict[str, str]:
    """The comments by the number of moves that their nodes and the nodes before these have, up to a number."""
    comments: Dict[str, str] = {}
    moves = 0
    for node in nodes:
        moves += moves_in([node])
        if moves > most:
            break
        said = text_of(node.first("C") or b"")
        if said:
            earlier = comments.get(str(moves))
            comments[str(moves)] = f"{earlier}\n\n{said}" if earlier else said
    return comments


def page_of(name: str, games: List[Told]) -> str:
    """The page of some games; `name` is that of the file."""
    style, script = _part("page.css"), _part("page.js")
    policy = f"default-src 'none'; style-src '{_hash(style)}'; script-src '{_hash(script)}'; base-uri 'none'"
    values = {
        "policy": f"{policy}; form-action 'none'",
        "title": clean(escape(title_of(name, games))),
        "style": style,
        "script": script,
        "games": json_in_html([told.data for told in games]),
        "plain": "\n".join(_plain(games)),
    }
    page = _part("page.html")
    # In one walk, so that nothing in a value is taken for a place of another.
    head, *parts = page.split("{{")
    return head + "".join(values[name] + rest for name, rest in (part.split("}}", 1) for part in parts))


def title_of(name: str, games: List[Told]) -> str:
    """The title of the page: the players of a single game, else the name of the file."""
    data = games[0].data
    if len(games) == 1 and data.get("black") and data.get("white"):
        return f"{data['black']} - {data['white']}"
    return "A record of Go" if name == "-" else os.fsencode(os.path.basename(name)).decode("utf-8", "replace")


def json_in_html(value: object) -> str:
    """JSON that ends no element and begins no comment in HTML, and no line in a script."""
    text = json.dumps(value, ensure_ascii=False, separators=(",", ":"))
    for letter in "<>&\u2028\u2029":
        text = text.replace(letter, f"\\u{ord(letter):04x}")
    return text


def _plain(games: List[Told]) -> Iterator[str]:
    """The games for who has no script: verdicts and the last boards."""
    for told in games:
        data = told.data
        players = " - ".join(data.get(colour) or colour.capitalize() for colour in ("black", "white"))
        yield f"<h2>Game {data['number']}: {clean(escape(players))}</h2>"
        yield f"<p>{clean(escape(data['verdict']))}</p>"
        if told.diagram:
            yield f"<pre>{escape(told.diagram)}</pre>"


def _part(name: str) -> str:
    """A file of the package that goes into the page."""
    with open(os.path.join(os.path.dirname(os.path.abspath(__file__)), name), encoding="utf-8") as file:
        return file.read()


def _hash(text: str) -> str:
    """What a browser compares an element's text with before it runs or applies it."""
    return "sha256-" + base64.b64encode(hashlib.sha256(text.encode("utf-8")).digest()).decode("ascii")

"""How a game of a match ended, and the line that a log has of it."""

import json
import re
from typing import Any, Dict, NamedTuple, Optional

from goref._tools.match_settings import BLACK, NAMES, WHITE

ENDS = ("score", "resignation", "time", "forfeit", "length", "none")
"""How games end. `length` is a game that was too long; `none` one that couldn't begin or go on."""

_SCORE = re.compile(r"0|[BW]\+[0-9.]+")
_KINDS = {"resignation": "R", "time": "T", "forfeit": "F"}


class Times(NamedTuple):
    """How long the moves of a colour took, those of openings left out."""

    moves: int = 0
    mean: float = 0.0
    greatest: float = 0.0

    def and_one(self, seconds: float) -> "Times":
        """With one more move."""
        moves = self.moves + 1
        return Times(moves, self.mean + (seconds - self.mean) / moves, max(self.greatest, seconds))

    def and_those(self, more: "Times") -> "Times":
        """With those of another game."""
        moves = self.moves + more.moves
        mean = (self.mean * self.moves + more.mean * more.moves) / moves if moves else 0.0
        return Times(moves, mean, max(self.greatest, more.greatest))


class Outcome(NamedTuple):
    """How a game ended."""

    number: int
    players: Dict[str, str]
    """The command line of each colour."""
    result: Optional[str]
    """As `RE` of a record has it. None where there is none."""
    end: str
    """One of ENDS."""
    reason: Optional[str]
    moves: int
    times: Dict[str, Times]
    date: str
    seed: Optional[int] = None
    """None in a log of version 1."""
    sum: Optional[str] = None
    """A short sum over the moves. None where no board was set up, and in a log of version 1."""
    claims: Optional[Dict[str, Optional[str]]] = None
    """The score that the engine of each colour claims, of a game that ended by score."""

    @property
    def is_final(self) -> bool:
        """Whether the game is played. One that couldn't begin or go on is played anew when the match goes on."""
        return self.end != "none"

    @property
    def winner(self) -> Optional[str]:
        """`B`, `W`, or `0` for a draw; None where there is no result."""
        return None if self.result is None else self.result[0]

    def is_disputed(self) -> bool:
        """Whether an engine claims another winner than goref has."""
        claimed = [winner_of(claim) for claim in (self.claims or {}).values()]
        return any(winner not in (None, self.winner) for winner in claimed)


def winner_of(claim: Optional[str]) -> Optional[str]:
    """Who has won by a score that an engine claims: `B`, `W`, or `0` for a draw; None where it says none of these."""
    told = re.match(r"([BW])\+|(0|draw|jigo)", claim or "", re.I)
    return None if told is None else told[1].upper() if told[1] else "0"


def line_of(outcome: Outcome) -> str:
    """A JSON object on one line."""
    told: Dict[str, Any] = {
        "game": outcome.number,
        "black": outcome.players[BLACK],
        "white": outcome.players[WHITE],
        "result": outcome.result,
        "end": outcome.end,
        "reason": outcome.reason,
        "moves": outcome.moves,
        "times": {},
        "date": outcome.date,
        "seed": outcome.seed,
        "sum": outcome.sum,
        "claims": outcome.claims and {NAMES[colour].lower(): claim for colour, claim in outcome.claims.items()},
    }
    for colour, times in outcome.times.items():
        told["times"][NAMES[colour].lower()] = {
            "moves": times.moves,
            "mean": round(times.mean, 6),
            "greatest": round(times.greatest, 6),
        }
    return json.dumps(told)


def outcome_of(line: str) -> Outcome:
    """The outcome that a line tells. Raises ValueError where it tells none.

    A line of version 1 has no seed, sum and claims, and tells of a game that was too long only in its reason.
    """
    told = json.loads(line)
    try:
        outcome = Outcome(
            _number(told["game"]),
            {BLACK: _text(told["black"]), WHITE: _text(told["white"])},
            _text_or_none(told["result"]),
            _end_of(told),
            _text_or_none(told["reason"]),
            _number(told["moves"]),
            {colour: _times(told["times"][name.lower()]) for colour, name in NAMES.items()},
            _text(told["date"]),
            None if told.get("seed") is None else _number(told["seed"]),
            _text_or_none(told.get("sum")),
            _claims(told.get("claims")),
        )
    except (KeyError, TypeError):
        raise ValueError("no game") from None
    if not _agrees(outcome):
        raise ValueError("no result")
    return outcome


def _agrees(outcome: Outcome) -> bool:
    """Whether a result may come of such an end."""
    if outcome.number < 1 or outcome.end not in ENDS:
        return False
    if outcome.result is None or outcome.end in ("length", "none"):
        return outcome.result is None and outcome.end in ("length", "none")
    if outcome.end == "score":
        return _SCORE.fullmatch(outcome.result) is not None
    return outcome.result in ("B+" + _KINDS[outcome.end], "W+" + _KINDS[outcome.end])


def _end_of(told: Dict[str, Any]) -> str:
    end = _text(told["end"])
    was_too_long = end == "none" and "sum" not in told and str(told["reason"]).startswith("the game had no end after ")
    return "length" if was_too_long else end


def _claims(told: Any) -> Optional[Dict[str, Optional[str]]]:
    if told is None:
        return None
    return {colour: _text_or_none(told[name.lower()]) for colour, name in NAMES.items()}


def _times(told: Any) -> Times:
    return Times(_number(told["moves"]), _seconds(told["mean"]), _seconds(told["greatest"]))


def _number(told: Any) -> int:
    if not isinstance(told, int) or isinstance(told, bool) or told < 0:
        raise TypeError
    return told


def _seconds(told: Any) -> float:
    if not isinstance(told, (int, float)) or isinstance(told, bool) or not 0 <= told < float("inf"):
        raise TypeError
    return float(told)


def _text(told: Any) -> str:
    if not isinstance(told, str):
        raise TypeError
    return told


def _text_or_none(told: Any) -> Optional[str]:
    return None if told is None else _text(told)

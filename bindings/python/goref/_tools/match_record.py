"""The record of a game of a match."""

from typing import Dict

import goref
from goref._tools.faults import shown
from goref._tools.match_outcome import Outcome
from goref._tools.match_settings import BLACK, WHITE, Settings
from goref._tools.spelling import main_line, simple_text_of

_RULES = {"positional": "Tromp-Taylor", "situational": "Tromp-Taylor, situational superko"}

_ORDER = ("GM", "FF", "CA", "PB", "PW", "RE", "DT", "RU", "SZ", "KM", "HA", "AB", "AW", "AE", "PL")
"""How a record begins. At `PL` GNU Go puts the stones of `HA` itself, if none stand there yet."""

_MOST_OF_GNU_GO = 19
_OTHER_IN_GNU_GO = 12
"""GNU Go has no larger boards, and on 12 lines it puts handicap stones on other points than goref and the protocol."""


class Differs(Exception):
    """A record whose game doesn't have the score that it states."""


def record_of(printed: str, outcome: Outcome, settings: Settings) -> bytes:
    """The record that goref printed of a game, with who played it, and how it ended. Raises Differs."""
    source = printed.encode("utf-8")
    start = main_line(source)[0]
    said = {one.name: source[one.begin : one.end] for one in start.properties}
    said.update((name, _property(name, text)) for name, text in _told(outcome, settings).items())
    names = [name for name in _ORDER if name in said]
    names += [name for name in said if name not in _ORDER]
    record = goref.tidy(source[: start.begin + 1] + b"".join(said[name] for name in names) + source[start.end :])
    if outcome.end == "score" and settings.superko == "positional":
        _check(record)
    return record


def _told(outcome: Outcome, settings: Settings) -> Dict[str, str]:
    """What a record says of a game beside its moves."""
    told = {
        "CA": "UTF-8",
        "PB": shown(outcome.players[BLACK]),
        "PW": shown(outcome.players[WHITE]),
        "RE": _result_of(outcome),
        "DT": outcome.date,
        "RU": _RULES[settings.superko],
    }
    # A reader that puts the stones of HA itself is to put those that were played with.
    if settings.handicap and settings.size <= _MOST_OF_GNU_GO and settings.size != _OTHER_IN_GNU_GO:
        told["HA"] = str(settings.handicap)
    return told


def _result_of(outcome: Outcome) -> str:
    return outcome.result or "Void"


def _property(name: str, text: str) -> bytes:
    return name.encode("ascii") + b"[" + value_of(text) + b"]"


def value_of(text: str) -> bytes:
    """A text between the brackets of a value. What is no UTF-8 becomes `?`."""
    return text.replace("\\", "\\\\").replace("]", "\\]").encode("utf-8", "replace")


def is_record_of(spelling: bytes, outcome: Outcome) -> bool:
    """Whether a record, in its canonical spelling, may be that of a game: by its players, its date and its result."""
    nodes = main_line(spelling)
    values = [nodes[0].first(name) for name in ("PB", "PW", "DT", "RE")] if nodes else []
    wanted = [shown(outcome.players[BLACK]), shown(outcome.players[WHITE]), outcome.date, _result_of(outcome)]
    said = [None if value is None else simple_text_of(value) for value in values]
    return said == [text.encode("utf-8", "replace").decode("utf-8") for text in wanted]


def _check(record: bytes) -> None:
    verdict = goref.judge(record)
    if verdict.stated != "agrees":
        raise Differs(f"the record states another score than {verdict.score}")

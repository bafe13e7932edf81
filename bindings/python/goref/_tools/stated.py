"""The result that a record states, and how far it is from goref's score."""

import re
from decimal import Decimal
from typing import NamedTuple, Optional, Union

import goref
from goref._tools import spelling
from goref._tools.excerpt import printable, shortened

# A property RE in any spelling: small letters in names say nothing.
_PERHAPS = re.compile(rb"R[a-z]*E[a-z]*\s*\[")
# Where the first node may end: a value does, before another node or a variation.
_END = re.compile(rb"\]\s*[;(]")


class StatedResult(NamedTuple):
    """What a record says of its end."""

    result: Optional[str] = None
    """The first RE of the first node, as text; none where there is none."""
    difference: Union[int, float, None] = None
    """How many points the score that it states is away from goref's; none where it states no score."""

    def told(self) -> str:
        """A score that differs, in words, for people; nothing where none does."""
        if not self.difference:
            return ""
        return f"RE[{shortened(printable(self.result or ''), 60)}], {self.difference} apart"


def result_in(record: bytes) -> Optional[str]:
    """The result that a game states, as text. A game whose first node goref can't read states none."""
    if _PERHAPS.search(record) is None:
        return None
    end = _END.search(record)
    # A text is read from left to right: if goref takes the beginning for a record, that has the whole first node.
    spelled = (_spelled(record[: end.start() + 1] + b")") if end else None) or _spelled(record)
    value = spelling.first_in(spelled, b"RE") if spelled else None
    return None if value is None else spelling.simple_text_of(value)


def _spelled(record: bytes) -> Optional[bytes]:
    """A record as goref spells it; none where goref refuses it."""
    try:
        return goref.tidy(record)
    except goref.Refused:
        return None


def stated_in(record: bytes, verdict: Union[goref.Verdict, str]) -> StatedResult:
    """What a game states beside goref's verdict, or the reason why there is none."""
    result = result_in(record)
    if result is None or isinstance(verdict, str) or verdict.stated == "none":
        return StatedResult(result)
    return StatedResult(result, _number(abs(_points(verdict.score) - _points(result))))


def _points(score: str) -> Decimal:
    """A score, which is `0`, `Draw`, or B+ or W+ and a number, as points for Black."""
    if "+" not in score:
        return Decimal(0)
    return Decimal(score[2:]) * (1 if score[0] == "B" else -1)


def _number(points: Decimal) -> Union[int, float]:
    return int(points) if points == int(points) else float(points)

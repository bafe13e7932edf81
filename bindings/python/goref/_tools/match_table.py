"""The table at the end of a match."""

import math
from typing import Dict, Iterable, List, NamedTuple, Sequence, Tuple

from goref._tools.faults import shown
from goref._tools.match_outcome import ENDS, Outcome, Times
from goref._tools.match_settings import BLACK, WHITE, Settings

_NORMAL_975 = 1.959963984540054
"""The 97.5 % quantile of the normal distribution."""

_HEADS = ("wins", "as B", "as W", "draws", "share", "95 % interval", "mean s", "greatest s", "engine")


class Tally(NamedTuple):
    """What the games of a match came to for one of its players."""

    games: int = 0
    """Those that have a result."""
    wins_as_black: int = 0
    wins_as_white: int = 0
    draws: int = 0
    times: Times = Times()

    @property
    def wins(self) -> int:
        """Wins with either colour."""
        return self.wins_as_black + self.wins_as_white

    @property
    def points(self) -> float:
        """A point for a win, half a point for a draw."""
        return self.wins + self.draws / 2

    def and_game(self, outcome: Outcome, colour: str) -> "Tally":
        """With one more game, in which the player has a colour."""
        result = outcome.result
        has_won = result is not None and result.startswith(colour.upper() + "+")
        return Tally(
            self.games + (result is not None),
            self.wins_as_black + (has_won and colour == BLACK),
            self.wins_as_white + (has_won and colour == WHITE),
            self.draws + (result == "0"),
            self.times.and_those(outcome.times[colour]),
        )


def wilson(points: float, games: int) -> Tuple[float, float]:
    """The 95 % interval of a share, by Wilson's score."""
    if games == 0:
        return 0.0, 1.0
    square = _NORMAL_975 * _NORMAL_975
    share = points / games
    middle = share + square / (2 * games)
    reach = _NORMAL_975 * math.sqrt(share * (1 - share) / games + square / (4 * games * games))
    whole = 1 + square / games
    return max(0.0, (middle - reach) / whole), min(1.0, (middle + reach) / whole)


def tallies_of(outcomes: Iterable[Outcome], settings: Settings) -> List[Tally]:
    """The tally of each player."""
    tallies = [Tally(), Tally()]
    for outcome in outcomes:
        for colour, player in settings.players_of(outcome.number).items():
            tallies[player] = tallies[player].and_game(outcome, colour)
    return tallies


def distinct(outcomes: Iterable[Outcome]) -> List[Outcome]:
    """The games that have a result, without copies: each with the moves, the colours and the result of no earlier one.

    A game of which the log has no sum, as those of version 1, is none.
    """
    found: Dict[Tuple[object, ...], Outcome] = {}
    for outcome in outcomes:
        if outcome.result is not None:
            key = (outcome.number % 2, outcome.sum, outcome.result) if outcome.sum is not None else (outcome.number,)
            found.setdefault(key, outcome)
    return list(found.values())


def table_of(outcomes: Sequence[Outcome], settings: Settings) -> str:
    """The lines of the table."""
    singles = distinct(outcomes)
    names = settings.players
    tallies = zip(tallies_of(outcomes, settings), tallies_of(singles, settings), names)
    rows = [_row(tally, single, name) for tally, single, name in tallies]
    return "\n".join([*_summary(outcomes, singles, settings), *_aligned([_HEADS, *rows])])


def _summary(outcomes: Sequence[Outcome], singles: Sequence[Outcome], settings: Settings) -> List[str]:
    """The lines above the rows of the players."""
    played = [outcome for outcome in outcomes if outcome.result is not None]
    ends = [outcome.end for outcome in outcomes]
    counts = [f"{end} {ends.count(end)}" for end in ENDS if end not in ("length", "none")]
    at_most = "at most " if any(outcome.sum is None for outcome in played) else ""
    lines = [
        f"games {len(ends)}, with a result {len(played)}, distinct {at_most}{len(singles)}",
        "ended by " + ", ".join(counts),
    ]
    claimed = [outcome for outcome in played if any((outcome.claims or {}).values())]
    if claimed:
        disputed = sum(outcome.is_disputed() for outcome in claimed)
        lines.append(f"another winner is claimed by an engine in {disputed} of {len(claimed)} games with a claim")
    if len(singles) < len(played):
        lines.append("the interval is over the distinct games: the others are copies of these")
    if any(map(settings.is_of_one_game, (0, 1))):
        lines.append(f"seed {settings.seed}")
    return lines


def _aligned(rows: Sequence[Tuple[str, ...]]) -> List[str]:
    """Rows whose columns are aligned at the right, and the last at the left."""
    widths = [max(map(len, column)) for column in zip(*rows)][:-1]
    return ["  ".join([*map(str.rjust, row, widths), row[-1]]) for row in rows]


def _row(tally: Tally, single: Tally, name: str) -> Tuple[str, ...]:
    """The row of a player, by all games and by the distinct ones."""
    low, high = wilson(single.points, single.games)
    return (
        str(tally.wins),
        str(tally.wins_as_black),
        str(tally.wins_as_white),
        str(tally.draws),
        f"{100 * tally.points / tally.games:.1f} %" if tally.games else "-",
        f"{100 * low:.1f} to {100 * high:.1f} %" if single.games else "-",
        f"{tally.times.mean:.3f}" if tally.times.moves else "-",
        f"{tally.times.greatest:.3f}" if tally.times.moves else "-",
        shown(name),
    )

"""What a match is played by: its players, its rules and its openings."""

import hashlib
import math
import re
import shlex
from typing import Any, Dict, List, NamedTuple, Optional, Sequence, Tuple

from goref import BadSize, Refused, Session
from goref._tools.faults import WrongWords

BLACK, WHITE = "b", "w"
NAMES = {BLACK: "Black", WHITE: "White"}
_KOMI = re.compile(r"KM\[([^]]*)\]")

_SEEDS = 2**31 - 1
"""How many seeds games have, from 1 on: any engine reads these, and to some 0 means the time of day."""


def other(colour: str) -> str:
    """The opponent."""
    return WHITE if colour == BLACK else BLACK


def sum_of(moves: List[Tuple[str, str]]) -> str:
    """A short sum over moves, the colour and the vertex of each, by which a log knows them."""
    return hashlib.sha256(repr(moves).encode("ascii")).hexdigest()[:16]


class Opening(NamedTuple):
    """Moves that are played before the engines are asked for any."""

    name: str
    moves: List[Tuple[str, str]]
    """The colour and the vertex of each."""

    def sum(self) -> str:
        """The sum over the moves."""
        return sum_of(self.moves)


class Settings(NamedTuple):
    """The settings of a match."""

    players: Tuple[str, str]
    """The command lines. The first plays Black in odd games, the second in even ones."""
    size: int
    komi: str
    handicap: int
    superko: str
    seconds: Optional[float]
    """The time for a move."""
    openings: Sequence[Opening] = ()
    seed: int = 0
    """What the seeds of games are drawn by."""

    @property
    def most_moves(self) -> int:
        """After how many moves a game ends without a result."""
        return 4 * self.size * self.size

    @property
    def told_seconds(self) -> int:
        """The time for a move as engines are told it, in whole seconds and never more than there is; 0 is not told."""
        return math.floor(self.seconds or 0)

    def players_of(self, number: int) -> Dict[str, int]:
        """Which player has which colour in the game of a number, which counts from 1."""
        return {BLACK: 0, WHITE: 1} if number % 2 else {BLACK: 1, WHITE: 0}

    def seed_of(self, number: int) -> int:
        """The seed of a game, the same at each run of a match."""
        drawn = hashlib.sha256(f"{self.seed} {number}".encode("ascii")).digest()
        return 1 + int.from_bytes(drawn[:8], "big") % _SEEDS

    def words_of(self, player: int, number: int) -> List[str]:
        """The words of a player's command line in a game."""
        seed = str(self.seed_of(number))
        words = shlex.split(self.players[player])
        return [word.replace("{game}", str(number)).replace("{seed}", seed) for word in words]

    def is_of_one_game(self, player: int) -> bool:
        """Whether the command line of a player differs from game to game."""
        return "{game}" in self.players[player] or "{seed}" in self.players[player]

    def opening_of(self, number: int) -> Optional[Opening]:
        """The opening of a game. Two games have it, one with each colour."""
        return self.openings[(number - 1) // 2 % len(self.openings)] if self.openings else None

    def as_logged(self) -> Dict[str, Any]:
        """The settings as a log has them, without the seed."""
        return {
            "players": list(self.players),
            "size": self.size,
            "komi": self.komi,
            "handicap": self.handicap,
            "superko": self.superko,
            "seconds": self.seconds,
            "openings": [[opening.name, opening.sum()] for opening in self.openings],
        }


def session_of(settings: Settings) -> Session:
    """A session with the size, the komi and the superko rule of a match. Raises Refused, or BadSize."""
    session = Session(settings.size)
    session.ask(f"komi {settings.komi}")
    session.ask(f"goref-superko {settings.superko}")
    return session


def checked(settings: Settings) -> Settings:
    """The same settings with the komi as goref spells it. Raises WrongWords where goref refuses one of them."""
    if len(settings.komi.split()) != 1:
        raise WrongWords(f"--komi {settings.komi!r} is no komi")
    settings = settings._replace(komi=settings.komi.strip())
    try:
        session = session_of(settings._replace(komi="0"))
    except BadSize as why:
        raise WrongWords(f"--size {settings.size}: {why}") from None
    with session:
        _ordered(session, f"komi {settings.komi}", f"--komi {settings.komi}")
        if settings.handicap:
            _ordered(session, f"fixed_handicap {settings.handicap}", f"--handicap {settings.handicap}")
        komi = _KOMI.search(session.ask("goref-printsgf"))
    assert komi
    return settings._replace(komi=komi[1])


def _ordered(session: Session, line: str, words: str) -> None:
    """Has goref answer a line, or tells which words of the command line it refuses."""
    try:
        session.ask(line)
    except Refused as why:
        raise WrongWords(f"{words}: {why}") from None

"""A game of a match, between two engines, with a session of goref as the referee."""

import asyncio
import datetime
import re
from typing import Awaitable, Callable, Dict, List, NamedTuple, Optional, Set, Tuple

import goref
from goref._tools.engine import Engine, EngineFailed, EngineLate
from goref._tools.faults import shown
from goref._tools.match_claims import claim_of
from goref._tools.match_outcome import Outcome, Times
from goref._tools.match_settings import BLACK, NAMES, WHITE, Settings, other, session_of, sum_of
from goref._tools.responses import Response, in_short
from goref._tools.spelling import COLUMNS

_WORD = re.compile("[A-Za-z0-9]+")


class Patience(NamedTuple):
    """How many seconds a response may take, where the match sets no time."""

    line: float = 60.0
    move: float = 3600.0


class Played(NamedTuple):
    """A game that has ended."""

    outcome: Outcome
    printed: Optional[str]
    """The record of its moves, where both boards were set up."""
    failed: Set[str]
    """The colours of the engines that are to be started anew."""


class _End(Exception):
    """The end of a game. `failed` has the colours of engines that failed."""

    def __init__(self, result: Optional[str], end: str, reason: Optional[str] = None, failed: str = "") -> None:
        super().__init__(result, end, reason, failed)
        self.result, self.end, self.reason, self.failed = result, end, reason, failed


class Game:
    """A game of a match, by its number."""

    def __init__(self, settings: Settings, number: int, patience: Patience = Patience()) -> None:
        self._settings = settings
        self._number = number
        self._patience = patience
        self._commands = {colour: settings.players[one] for colour, one in settings.players_of(number).items()}
        self._engines: Dict[str, Engine] = {}
        self._session = session_of(settings)
        self._next = BLACK
        self._moves: List[Tuple[str, str]] = []
        self._claims: Optional[Dict[str, Optional[str]]] = None
        self._times = {BLACK: Times(), WHITE: Times()}
        self._is_set_up = False

    async def play(self, ready: Callable[[str], Awaitable[Engine]]) -> Played:
        """Has engines play it; `ready` has that of a colour there, or raises EngineFailed."""
        date = datetime.date.today().isoformat()
        with self._session:
            try:
                await self._set_up(ready)
                self._is_set_up = True
                ended = await self._play()
            except _End as end:
                ended = end
            printed = self._session.ask("goref-printsgf") if self._is_set_up else None
        return Played(self._outcome(ended, date), printed, set(ended.failed))

    def _outcome(self, ended: _End, date: str) -> Outcome:
        return Outcome(
            self._number,
            self._commands,
            ended.result,
            ended.end,
            ended.reason,
            len(self._moves),
            self._times,
            date,
            self._settings.seed_of(self._number),
            sum_of(self._moves) if self._is_set_up else None,
            self._claims,
        )

    async def _set_up(self, ready: Callable[[str], Awaitable[Engine]]) -> None:
        """Sets all boards up. An engine that fails or refuses to leaves the game without a result."""
        settings = self._settings
        stones = []
        if settings.handicap:
            stones.append("set_free_handicap " + self._session.ask(f"fixed_handicap {settings.handicap}"))
            self._next = WHITE
        stones += self._opened()
        ends: List[_End] = []
        for came in await asyncio.gather(
            *(self._set_up_one(colour, ready, stones) for colour in (BLACK, WHITE)), return_exceptions=True
        ):
            if isinstance(came, _End):
                ends.append(came)
            elif came is not None:
                raise came
        if ends:
            reasons = [end.reason or "" for end in ends]
            raise _End(None, "none", "; ".join(reasons), "".join(end.failed for end in ends))

    async def _set_up_one(self, colour: str, ready: Callable[[str], Awaitable[Engine]], stones: List[str]) -> None:
        """Sets the board of an engine up. Both do so at once, for some take long to start."""
        settings = self._settings
        try:
            self._engines[colour] = await ready(colour)
        except EngineFailed as why:
            raise self._lost(colour, "forfeit", str(why)) from None
        await self._order_all(colour, [f"boardsize {settings.size}", "clear_board", f"komi {settings.komi}"])
        if settings.told_seconds:
            await self._ask(colour, f"time_settings 0 {settings.told_seconds} 1")
        await self._order_all(colour, stones)

    def _opened(self) -> List[str]:
        """The lines of the game's opening, which the referee has played then."""
        opening = self._settings.opening_of(self._number)
        lines = []
        for colour, vertex in opening.moves if opening else ():
            self._session.ask(f"play {colour} {vertex}")
            self._moves.append((colour, vertex))
            self._next = other(colour)
            lines.append(f"play {colour} {vertex}")
        return lines

    async def _order_all(self, colour: str, lines: List[str]) -> None:
        for line in lines:
            await self._order(colour, line)

    async def _order(self, colour: str, line: str) -> None:
        """Has an engine answer a line that it must not refuse."""
        response = await self._ask(colour, line)
        if not response.is_success:
            why = f": {in_short(response.text)}" if response.text else ""
            raise _End(None, "none", f"{self._name(colour)} refused `{line}`{why}", colour)

    async def _ask(self, colour: str, line: str) -> Response:
        """The response of an engine, which loses by forfeit if it fails."""
        try:
            return (await self._engines[colour].ask(line, self._patience.line))[0]
        except EngineFailed as why:
            raise self._lost(colour, "forfeit", f"{why}") from None

    def _lost(self, colour: str, end: str, why: str) -> _End:
        """The end of a game that a colour loses, if it had begun."""
        reason = shown(f"{self._name(colour)} {why}")
        if not self._is_set_up:
            return _End(None, "none", reason, colour)
        sign = "T" if end == "time" else "F"
        return _End(f"{other(colour).upper()}+{sign}", end, reason, colour)

    def _name(self, colour: str) -> str:
        return f"{NAMES[colour]} ({shown(self._commands[colour])})"

    async def _play(self) -> _End:
        """Has the players move in turn."""
        colour = self._next
        while len(self._moves) < self._settings.most_moves:
            vertex = await self._move(colour)
            if vertex == "resign":
                return _End(f"{other(colour).upper()}+R", "resignation")
            if [vertex for _, vertex in self._moves[-2:]] == ["pass", "pass"]:
                return await self._score()
            colour = other(colour)
            await self._order(colour, f"play {other(colour)} {vertex}")
        return _End(None, "length", f"the game had no end after {len(self._moves)} moves")

    async def _score(self) -> _End:
        """The end by goref's score. An engine that fails when it is asked for its own changes nothing."""
        colours = (BLACK, WHITE)
        claims = await asyncio.gather(*(claim_of(self._engines[colour], self._patience.line) for colour in colours))
        self._claims = {colour: claim.score for colour, claim in zip(colours, claims)}
        failures = {colour: claim.failure for colour, claim in zip(colours, claims) if claim.failure}
        reasons = [shown(f"{self._name(colour)} {failure}") for colour, failure in failures.items()]
        return _End(self._session.ask("final_score"), "score", "; ".join(reasons) or None, "".join(failures))

    async def _move(self, colour: str) -> str:
        """What an engine chose: a vertex, which the referee has played then, `pass`, or `resign`."""
        line = f"genmove {colour}"
        limit = self._settings.seconds
        try:
            response, seconds = await self._engines[colour].ask(line, self._patience.move if limit is None else limit)
        except EngineLate as why:
            raise self._lost(colour, "forfeit" if limit is None else "time", str(why)) from None
        except EngineFailed as why:
            raise self._lost(colour, "forfeit", str(why)) from None
        if not response.is_success:
            raise self._lost(colour, "forfeit", f"refused `{line}`: {in_short(response.text)}")
        vertex = response.text.lower() if response.text.lower() in ("pass", "resign") else response.text.upper()
        if vertex != "resign":
            self._judge(colour, vertex, response.text)
            self._times[colour] = self._times[colour].and_one(seconds)
        return vertex

    def _judge(self, colour: str, vertex: str, said: str) -> None:
        """Has the referee play a move."""
        # The referee reads the first word of several, and nothing from a `#` on.
        if not _WORD.fullmatch(vertex):
            raise self._no_vertex(colour, said)
        try:
            self._session.ask(f"play {colour} {vertex}")
        except goref.Refused as why:
            if str(why) == "syntax error":
                raise self._no_vertex(colour, said) from None
            raise self._lost(colour, "forfeit", f"played {vertex}: {self._why(colour, vertex) or why}") from None
        self._moves.append((colour, vertex))

    def _no_vertex(self, colour: str, said: str) -> _End:
        return self._lost(colour, "forfeit", f"answered `genmove {colour}` by no vertex: `{in_short(said)}`")

    def _why(self, colour: str, vertex: str) -> Optional[str]:
        """Why a move is illegal, where a record with it tells that: by the positional rule."""
        if self._settings.superko != "positional":
            return None
        value = _value_of(vertex, self._settings.size)
        if value is None:
            return "off the board"
        record = self._session.ask("goref-printsgf")[:-1] + f";{colour.upper()}[{value}])"
        try:
            goref.judge(record.encode("utf-8"))
        except goref.Refused as why:
            return str(why)
        return None


def _value_of(vertex: str, size: int) -> Optional[str]:
    """The value that a record has for a vertex, if that is on the board."""
    column, row = COLUMNS.find(vertex[:1]), vertex[1:]
    if not 0 <= column < size or not row.isdigit() or not 1 <= int(row) <= size:
        return None
    return chr(97 + column) + chr(97 + size - int(row))

"""The games of a match, several at once."""

import asyncio
import signal
from contextlib import contextmanager
from typing import Iterator, List, Optional, Sequence

from goref._tools.engine import Engine, EngineFailed
from goref._tools.match_game import Game, Patience
from goref._tools.match_keeper import Keeper
from goref._tools.match_settings import Settings

_SIGNALS = (signal.SIGINT, signal.SIGTERM, signal.SIGHUP)


class _Ended(Exception):
    """The match is to end, as its keeper says."""


class Match:
    """The games that are to be played."""

    def __init__(self, settings: Settings, games: int, jobs: int, keeper: Keeper, patience: Patience) -> None:
        self._settings = settings
        self._patience = patience
        self._keeper = keeper
        played = {number for number, outcome in keeper.outcomes.items() if outcome.is_final}
        self._left = (number for number in range(1, games + 1) if number not in played)
        self._jobs = min(jobs, games)
        self._signal: Optional[int] = None
        self._pairs: List[List[Optional[Engine]]] = []

    def hold(self) -> Optional[int]:
        """Plays them, and gives the signal that put an end to that, if one did."""
        return asyncio.run(self._hold())

    async def _hold(self) -> Optional[int]:
        workers = [asyncio.ensure_future(self._work()) for _ in range(self._jobs)]
        with self._cancelled_by_signals(workers):
            try:
                await asyncio.wait(workers, return_when=asyncio.FIRST_EXCEPTION)
            finally:
                for worker in workers:
                    worker.cancel()
                await asyncio.gather(*workers, return_exceptions=True)
                await self._end_all()
                await self._keeper.finish()
        for worker in workers:
            if not worker.cancelled() and not isinstance(worker.exception(), _Ended):
                worker.result()
        return self._signal

    @contextmanager
    def _cancelled_by_signals(self, workers: "Sequence[asyncio.Future[None]]") -> Iterator[None]:
        """Has a signal cancel the workers, unless the process is to ignore it."""
        loop = asyncio.get_running_loop()
        heeded = [number for number in _SIGNALS if signal.getsignal(number) != signal.SIG_IGN]
        for number in heeded:
            loop.add_signal_handler(number, self._stop, number, workers)
        try:
            yield
        finally:
            for number in heeded:
                loop.remove_signal_handler(number)

    def _stop(self, number: int, workers: "Sequence[asyncio.Future[None]]") -> None:
        if self._signal is None:
            self._signal = number
            for worker in workers:
                worker.cancel()

    async def _work(self) -> None:
        """Plays one game after another, with a pair of engines of its own."""
        pair: List[Optional[Engine]] = [None, None]
        self._pairs.append(pair)
        try:
            for number in self._left:
                await self._play(number, pair)
        finally:
            await asyncio.gather(*(engine.leave() for engine in pair if engine))

    async def _play(self, number: int, pair: List[Optional[Engine]]) -> None:
        """Plays a game, and keeps it. Engines that fail in it leave the pair."""
        players = self._settings.players_of(number)
        game = Game(self._settings, number, self._patience)
        played = await game.play(lambda colour: self._ready(players[colour], number, pair))
        await self._keeper.keep(played)
        if self._keeper.end is not None:
            raise _Ended
        for colour in played.failed:
            await self._end(players[colour], pair)
        await self._leave_of_one_game(pair)

    async def _leave_of_one_game(self, pair: List[Optional[Engine]]) -> None:
        """Ends the engines whose command lines are for one game."""
        players = [player for player in (0, 1) if self._settings.is_of_one_game(player)]
        await asyncio.gather(*(engine.leave() for engine in map(pair.__getitem__, players) if engine))
        for player in players:
            pair[player] = None

    async def _ready(self, player: int, number: int, pair: List[Optional[Engine]]) -> Engine:
        """Has an engine there. One that ended between two games is started anew."""
        engine = pair[player]
        if engine is not None:
            try:
                await engine.ask("clear_board", self._patience.line)
                return engine
            except EngineFailed:
                await self._end(player, pair)
        engine = pair[player] = Engine(self._settings.words_of(player, number))
        await engine.start()
        return engine

    async def _end_all(self) -> None:
        """Ends the engines whose farewell was broken off."""
        await asyncio.gather(*(engine.kill() for pair in self._pairs for engine in pair if engine))

    async def _end(self, player: int, pair: List[Optional[Engine]]) -> None:
        """Ends an engine that failed."""
        engine = pair[player]
        if engine is not None:
            await engine.kill()
            pair[player] = None

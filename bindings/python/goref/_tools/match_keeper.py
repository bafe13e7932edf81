"""What came of the games of a match: kept in records and in the log, and told."""

import asyncio
from concurrent.futures import ThreadPoolExecutor
from typing import Dict, Optional, Set

from goref._tools.faults import Fault, shown, tell
from goref._tools.match_folder import Folder
from goref._tools.match_game import Played
from goref._tools.match_log import Log
from goref._tools.match_outcome import Outcome
from goref._tools.match_output import Output
from goref._tools.match_record import Differs, record_of
from goref._tools.match_settings import BLACK, WHITE, Settings


class Keeper:
    """Keeps what came of games. A thread does that, so no clock waits."""

    def __init__(self, settings: Settings, log: Optional[Log], folder: Optional[Folder], most_void: int = 3) -> None:
        self.outcomes: Dict[int, Outcome] = dict(log.outcomes) if log else {}
        self.output = Output()
        self.end: Optional[str] = None
        """Why the match is to end before its games are played."""
        self._settings = settings
        self._log = log
        self._folder = folder
        self._void = 0
        self._most_void = most_void
        self._thread = ThreadPoolExecutor(1)
        self._pending: "Set[asyncio.Future[None]]" = set()

    async def keep(self, played: Played) -> None:
        """Keeps a game. Where the waiting is cancelled, it is kept all the same."""
        work = asyncio.get_running_loop().run_in_executor(self._thread, self._keep, played)
        self._pending.add(work)
        await asyncio.shield(work)
        self._pending.discard(work)

    async def finish(self) -> None:
        """Waits until all is kept."""
        await asyncio.gather(*self._pending, return_exceptions=True)
        self._thread.shutdown()

    def _keep(self, played: Played) -> None:
        outcome = played.outcome
        if outcome.reason:
            tell(f"game {outcome.number}: {outcome.reason}")
        if not self._write(played):
            return
        self.outcomes[outcome.number] = outcome
        self.output.say(line_told(outcome))
        self._void = self._void + 1 if outcome.end == "none" else 0
        if self._void == self._most_void and self.end is None:
            games = "a game" if self._void == 1 else f"{self._void} games one after another"
            self.end = f"{games} couldn't begin or go on; the last: {outcome.reason}"

    def _write(self, played: Played) -> bool:
        """Whether a game is in the folder and in the log. One that isn't there ends the match."""
        try:
            # The record first: a game that the log has is never played anew.
            if self._folder and played.printed is not None:
                record = record_of(played.printed, played.outcome, self._settings)
                self._folder.write(played.outcome.number, record)
            if self._log:
                self._log.add(played.outcome)
            return True
        except (Fault, Differs) as why:
            tell(str(why))
            tell(f"this isn't kept: {line_told(played.outcome)}")
            self.end = "a game can't be kept"
            return False


def line_told(outcome: Outcome) -> str:
    """The line that is printed of a game."""
    result = outcome.result or "no result"
    black, white = (shown(outcome.players[colour]) for colour in (BLACK, WHITE))
    return f"game {outcome.number}: {result} after {outcome.moves} moves, B {black}, W {white}"

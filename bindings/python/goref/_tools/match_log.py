"""The log of a match: a line with its settings, and then a line for each game that has ended."""

import fcntl
import json
import os
import stat
from types import TracebackType
from typing import Any, Dict, List, Optional, Tuple, Type

from goref._tools.faults import Fault, WrongWords, fault_of, shown
from goref._tools.files import sync_names
from goref._tools.match_outcome import Outcome, line_of, outcome_of
from goref._tools.match_settings import BLACK, WHITE, Settings

VERSION = 2
"""What the first line says since logs have seeds and sums. That of version 1 has no number."""

_VERSIONED = b'{"version": '
"""How a line begins that has a version: the first one, or the first after the lines of version 1."""

_BEGIN = f'{{"version": {VERSION}, "match": "'.encode("ascii")


class Log:
    """A log that no other match writes to.

    `outcomes` has the games of earlier runs, and of a game that was played anew the last one. `match` is a name that no
    other match has, and `seed` what its games' seeds are drawn by. The file stays as it was until `begin`.
    """

    def __init__(self, path: str, settings: Settings, seed: Optional[int] = None) -> None:
        """Takes a log over. Raises WrongWords for the log of another match, and a Fault."""
        self.outcomes: Dict[int, Outcome] = {}
        self.match = os.urandom(8).hex()
        self.seed = drawn_seed() if seed is None else seed
        self._path = path
        self._settings = settings.as_logged()
        self._first = b""
        try:
            self._is_new = not os.path.exists(path)
            self._file = os.open(path, os.O_RDWR | os.O_CREAT | os.O_APPEND | os.O_NONBLOCK | os.O_CLOEXEC, 0o666)
        except OSError as why:
            raise fault_of(path, why) from None
        try:
            self._take(seed)
        except OSError as why:
            self.close()
            raise fault_of(path, why) from None
        except BaseException:
            self.close()
            raise

    def __enter__(self) -> "Log":
        return self

    def __exit__(
        self, kind: Optional[Type[BaseException]], why: Optional[BaseException], trace: Optional[TracebackType]
    ) -> None:
        self.close()

    def _take(self, seed: Optional[int]) -> None:
        """Reads what stands there."""
        if not stat.S_ISREG(os.fstat(self._file).st_mode):
            raise Fault(f"{shown(self._path)}: no regular file")
        self._lock()
        lines, self._end = _whole_lines(self._path)
        if lines:
            games = self._after_settings(lines)
            if seed is not None and seed != self.seed:
                raise self._other("seed", self.seed)
            for number, line in games:
                self._take_game(number, line)
        else:
            self._check_torn()
            self._first = self._line(self._settings)

    def _lock(self) -> None:
        try:
            fcntl.flock(self._file, fcntl.LOCK_EX | fcntl.LOCK_NB)
        except BlockingIOError:
            raise Fault(f"{shown(self._path)}: another match writes to it") from None

    def _line(self, more: Dict[str, Any]) -> bytes:
        """The line from which this version's lines follow."""
        told = {"version": VERSION, "match": self.match, "seed": self.seed, **more}
        return (json.dumps(told) + "\n").encode("ascii")

    def _after_settings(self, lines: List[bytes]) -> List[Tuple[int, bytes]]:
        """The lines of games, with their numbers. Refuses the settings of another match."""
        told = self._object(lines[0])
        versions = [told] if "version" in told else []
        versions += [self._object(line) for line in lines[1:] if line.startswith(_VERSIONED)]
        for version in versions:
            self._identify(version)
        if not versions:
            self._first = self._line({})
        if told.keys() != self._settings.keys():
            raise WrongWords(f"{shown(self._path)} is no log of a match")
        for name, value in self._settings.items():
            if told[name] != value:
                raise self._other(name, told[name])
        return [(number, line) for number, line in enumerate(lines[1:], 2) if not line.startswith(_VERSIONED)]

    def _object(self, line: bytes) -> Dict[str, Any]:
        try:
            told = json.loads(line)
        except (ValueError, RecursionError):
            told = None
        if not isinstance(told, dict):
            raise WrongWords(f"{shown(self._path)} is no log of a match")
        return told

    def _identify(self, told: Dict[str, Any]) -> None:
        """Takes version, name and seed out of a line."""
        version, match, seed = (told.pop(name, None) for name in ("version", "match", "seed"))
        if type(version) is int and version > VERSION:
            raise WrongWords(
                f"{shown(self._path)} is a log of version {version}, and this goref-tools reads versions up to {VERSION}"
            )
        if version != VERSION or not isinstance(match, str) or type(seed) is not int:
            raise WrongWords(f"{shown(self._path)} is no log of a match")
        self.match, self.seed = match, seed

    def _other(self, name: str, value: Any) -> WrongWords:
        return WrongWords(f"{shown(self._path)} is the log of another match: {name} {json.dumps(value)}")

    def _take_game(self, number: int, line: bytes) -> None:
        """Takes the game that a line tells. A game that stands there already must have been one without an end."""
        try:
            outcome = outcome_of(line.decode("utf-8"))
        except (ValueError, RecursionError):
            raise Fault(f"{shown(self._path)}: line {number} is no game of a match") from None
        black, white = self._settings["players"] if outcome.number % 2 else reversed(self._settings["players"])
        if outcome.players != {BLACK: black, WHITE: white}:
            raise Fault(f"{shown(self._path)}: line {number} is a game of other players")
        before = self.outcomes.get(outcome.number)
        if before is not None and before.is_final:
            raise Fault(f"{shown(self._path)}: a game stands in it twice")
        self.outcomes[outcome.number] = outcome

    def _check_torn(self) -> None:
        """Refuses a file without a whole line, unless that is the begin of a first line."""
        with open(self._path, "rb") as file:
            head = file.read(len(_BEGIN))
        if head != _BEGIN[: len(head)]:
            raise WrongWords(f"{shown(self._path)} is no log of a match")

    def begin(self) -> None:
        """Cuts off what an ended match left of a line, and writes the first line of this version. Raises a Fault."""
        try:
            os.ftruncate(self._file, self._end)
            if self._first:
                self._write(self._first)
                self._first = b""
            if self._is_new:
                sync_names(os.path.dirname(os.path.abspath(self._path)))
        except OSError as why:
            raise fault_of(self._path, why) from None

    def add(self, outcome: Outcome) -> None:
        """Keeps a game: its line is on the disk then. Raises a Fault, and then the log is as it was."""
        try:
            self._write((line_of(outcome) + "\n").encode("ascii"))
        except OSError as why:
            raise fault_of(self._path, why) from None
        self.outcomes[outcome.number] = outcome

    def _write(self, lines: bytes) -> None:
        """Writes lines and syncs them, or leaves the file as it was."""
        try:
            done = 0
            while done < len(lines):
                done += os.write(self._file, lines[done:])
            os.fsync(self._file)
        except OSError:
            os.ftruncate(self._file, self._end)
            raise
        self._end += len(lines)

    def close(self) -> None:
        """Lets others have it."""
        os.close(self._file)


def drawn_seed() -> int:
    """The seed of a match that is told none."""
    return int.from_bytes(os.urandom(4), "big")


def _whole_lines(path: str) -> Tuple[List[bytes], int]:
    """The lines that have an end, and the place after them. What an ended match left of one more is no line."""
    with open(path, "rb") as file:
        text = file.read()
    end = text.rfind(b"\n") + 1
    return text[:end].split(b"\n")[:-1], end

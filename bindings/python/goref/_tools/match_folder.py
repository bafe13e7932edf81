"""The folder of a match's records."""

import fcntl
import json
import os
import re
from itertools import count
from types import TracebackType
from typing import Dict, Iterator, List, Optional, Type

import goref
from goref._tools.faults import Fault, WrongWords, fault_of, shown, tell
from goref._tools.files import make_folder, open_new, replacing, sync_names
from goref._tools.left_overs import clear_left_overs, name_beside
from goref._tools.match_outcome import Outcome
from goref._tools.match_record import is_record_of
from goref._tools.reading import contents

_NAME = re.compile(r"game-([0-9]{4,})\.sgf")

CLAIM = "match.json"
"""The file in a folder that says of which match its records are, and where the log of that is."""

_BEGIN = b'{"match": "'


class Folder:
    """A folder that has the records of one match, and to which one process at a time writes."""

    def __init__(self, path: str, match: str, log: Optional[str], outcomes: Dict[int, Outcome], games: int) -> None:
        """Takes a folder for a match, by its name and its log. Raises WrongWords if it isn't for that, and a Fault."""
        self._path = path
        self._claim = (json.dumps({"match": match, "log": log and os.path.abspath(log)}) + "\n").encode("ascii")
        self._known = set(outcomes)
        _try_folder(path)
        try:
            self._file = os.open(os.path.join(path, CLAIM), os.O_RDWR | os.O_CREAT | os.O_CLOEXEC | os.O_NOFOLLOW, 0o666)
        except OSError as why:
            raise fault_of(os.path.join(path, CLAIM), why) from None
        try:
            self._lock()
            for line in clear_left_overs(path):
                tell(line)
            self._take(match, outcomes)
        except OSError as why:
            self.close()
            raise fault_of(os.path.join(path, CLAIM), why) from None
        except BaseException:
            self.close()
            raise
        # A match that goes on with more games names them as it named those before.
        self._digits = min(map(len, self._numbers()), default=max(4, len(str(games))))

    def __enter__(self) -> "Folder":
        return self

    def __exit__(
        self, kind: Optional[Type[BaseException]], why: Optional[BaseException], trace: Optional[TracebackType]
    ) -> None:
        self.close()

    def _lock(self) -> None:
        try:
            fcntl.flock(self._file, fcntl.LOCK_EX | fcntl.LOCK_NB)
        except BlockingIOError:
            raise Fault(f"{shown(self._path)}: another match keeps its records there") from None

    def _take(self, match: str, outcomes: Dict[int, Outcome]) -> None:
        """Has the folder be of this match, unless it has records of another one."""
        there = os.pread(self._file, 1_000_000, 0)
        claimed = _claim_of(there)
        if claimed is None and not _is_torn(there):
            raise WrongWords(f"{shown(os.path.join(self._path, CLAIM))} is there, and is no file of a match")
        if there == self._claim:
            return
        is_ours = claimed is not None and claimed["match"] == match
        if claimed is not None and not is_ours and any(self._numbers()):
            log = shown(str(claimed["log"])) if claimed["log"] else "none"
            raise WrongWords(f"{shown(self._path)} has the records of another match (its log: {log}): name another folder")
        if not is_ours:
            self._check_records(outcomes)
        os.ftruncate(self._file, 0)
        os.pwrite(self._file, self._claim, 0)
        os.fsync(self._file)
        sync_names(self._path)

    def _numbers(self) -> List[str]:
        """The numbers of the records that are there, as their names have them."""
        return sorted(told[1] for told in map(_NAME.fullmatch, os.listdir(self._path)) if told)

    def _check_records(self, outcomes: Dict[int, Outcome]) -> None:
        """Refuses records that the log doesn't have: earlier versions left no claim."""
        for digits in self._numbers():
            path = os.path.join(self._path, f"game-{digits}.sgf")
            outcome = outcomes.get(int(digits))
            if outcome is None or not is_record_of(_record_at(path), outcome):
                raise WrongWords(f"{shown(path)} is no record of this match: name another folder, or move it away")

    def missing(self, outcomes: Dict[int, Outcome]) -> List[int]:
        """The games that have ended and have no record here."""
        there = {int(digits) for digits in self._numbers()}
        return sorted(number for number, outcome in outcomes.items() if outcome.is_final and number not in there)

    def write(self, number: int, record: bytes) -> None:
        """Keeps the record of a game. Raises a Fault. One that the log doesn't know is never written over."""
        path = os.path.join(self._path, f"game-{number:0{self._digits}}.sgf")
        if number not in self._known and os.path.lexists(path):
            self._set_aside(path)
        with replacing(path) as file:
            file.write(record)
        self._known.add(number)

    def _set_aside(self, path: str) -> None:
        """Gives a record another name: what kept it ended before its game was in the log."""
        kept = next(name for name in _other_names(path) if not os.path.lexists(name))
        try:
            os.rename(path, kept)
        except OSError as why:
            raise fault_of(path, why) from None
        tell(f"{shown(path)} isn't in the log: it is kept as {shown(kept)}")

    def close(self) -> None:
        """Lets others have it."""
        os.close(self._file)


def _try_folder(folder: str) -> None:
    """Makes a folder if need be, and finds whether files can be written there. Raises a Fault."""
    make_folder(folder)
    try:
        with name_beside(os.path.join(folder, CLAIM)) as made:
            with os.fdopen(open_new(folder, made, 0o600), "wb") as file:
                file.write(b"\n")
    except OSError as why:
        raise fault_of(folder, why) from None


def refuse_records(folder: str) -> None:
    """Refuses a folder that has records, for a match that begins."""
    try:
        there = sorted(filter(_NAME.fullmatch, os.listdir(folder)))
    except FileNotFoundError:
        return
    except OSError as why:
        raise fault_of(folder, why) from None
    if there:
        path = shown(os.path.join(folder, there[0]))
        raise WrongWords(f"{path} is there: name another folder, or go on by the log of its match")


def _claim_of(text: bytes) -> Optional[Dict[str, object]]:
    """What a claim says, if it is a whole one."""
    try:
        told = json.loads(text)
    except ValueError:
        return None
    is_claim = isinstance(told, dict) and isinstance(told.get("match"), str) and "log" in told
    return told if is_claim else None


def _is_torn(text: bytes) -> bool:
    """Whether a file may be what an ended match left of a claim."""
    text = text.rstrip(b"\0")
    return b"\n" not in text and text[: len(_BEGIN)] == _BEGIN[: len(text)]


def _record_at(path: str) -> bytes:
    try:
        return goref.tidy(contents(path))
    except goref.Refused:
        return b""


def _other_names(path: str) -> Iterator[str]:
    return (f"{path[: -len('.sgf')]}-unlogged-{number}.sgf" for number in count(1))

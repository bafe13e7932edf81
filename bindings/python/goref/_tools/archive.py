"""Verdicts on many files: a row for each game, and what all of them come to."""

import csv
import io
import json
from typing import Callable, Dict, List, NamedTuple, Optional, Sequence, Tuple, Union

from goref._tools.charset import Converted, WrongCharset, converted, readings
from goref._tools.faults import Fault, many, shown
from goref._tools.passed import Passed
from goref._tools.reading import contents
from goref._tools.records import Found, found_in, in_words
from goref._tools.stated import StatedResult, stated_in


class Row(NamedTuple):
    """What a game comes to."""

    file: str
    game: int
    moves: Optional[int] = None
    score: Optional[str] = None
    stated: Optional[str] = None
    reason: Optional[str] = None
    """Why there is no verdict, in goref's words."""
    charset: Optional[str] = None
    """What the file was converted from."""
    how: Optional[str] = None
    """How that charset was known."""
    result: Optional[str] = None
    """The result that the record states, as text."""
    difference: Union[int, float, None] = None
    """How many points the score that it states is away from goref's."""


class Counts(NamedTuple):
    """What the files of a run come to."""

    files: int = 0
    games: int = 0
    refused: int = 0
    agreeing: int = 0
    differing: int = 0
    converted: int = 0
    faults: int = 0

    def plus(self, more: "Counts") -> "Counts":
        return Counts(*(one + other for one, other in zip(self, more)))

    def told(self, passed: Passed) -> str:
        """The counts in a line, as people read them, with what was passed over."""
        return (
            f"{many(self.files, 'file')}, {many(self.games, 'game')}: {self.refused} refused, {self.agreeing} agreeing,"
            f" {self.differing} differing; {many(self.converted, 'file')} converted"
            f"{f', {self.faults} failed' if self.faults else ''}{f'; {passed.told()}' if passed else ''}"
        )


class Told(NamedTuple):
    """What is written of some files."""

    text: str
    faults: List[str]
    counts: Counts


def judged(paths: Sequence[Union[str, Fault]], charset: Optional[str], kind: str) -> Told:
    """The rows of some files, in a format, and the lines of those that can't be read."""
    rows: List[Row] = []
    faults: List[str] = []
    for path in paths:
        try:
            rows += rows_of(path, charset)
        except Fault as why:
            faults.append(str(why))
        except MemoryError:
            faults.append(f"{shown(str(path))}: out of memory")
    return Told(FORMATS[kind](rows), faults, _counts(rows, len(paths) - len(faults), len(faults)))


def rows_of(path: Union[str, Fault], charset: Optional[str]) -> List[Row]:
    """A row for each game of a file. Raises a Fault where it can't be read."""
    if isinstance(path, Fault):
        raise path
    data = contents(path)
    try:
        text = converted(data, charset)
    except WrongCharset as why:
        return [Row(path, 1, reason=str(why))]
    rows = [_row(found) for found in found_in(path, text)]
    for name, other in readings(data, text):
        rows = _compared(path, rows, text, name, other)
    return rows


def _row(found: Found) -> Row:
    verdict = found.verdict()
    text = found.text
    stated = stated_in(found.game.text, verdict)
    if isinstance(verdict, str):
        return Row(found.path, found.number, None, None, None, verdict, *_how(text), *stated)
    return Row(found.path, found.number, *verdict, None, *_how(text), *stated)


def _compared(path: str, rows: List[Row], text: Converted, name: str, other: Converted) -> List[Row]:
    """The rows, where those that another reading of the file gives otherwise depend on the charset."""
    others = [_row(found) for found in found_in(path, other)]
    most = max(len(rows), len(others))
    return [
        _depending(row or Row(path, number), text, theirs, name) if _said(row) != _said(theirs) else row or Row(path, number)
        for number, (row, theirs) in enumerate(zip(_filled(rows, most), _filled(others, most)), 1)
    ]


def _filled(rows: List[Row], most: int) -> List[Optional[Row]]:
    return [*rows, *[None] * (most - len(rows))]


def _depending(row: Row, text: Converted, other: Optional[Row], name: str) -> Row:
    if row.reason is not None and row.reason.startswith("depends on the charset"):
        return row
    reading = f"in {text.charset}" if text.charset else "byte for byte"
    reason = f"depends on the charset: {_said(row)} {reading}, {_said(other)} {name}"
    return Row(row.file, row.game, None, None, None, reason, *_how(text), row.result)


def _how(text: Converted) -> Tuple[Optional[str], Optional[str]]:
    """The charset that a text was converted from, and how it was known."""
    return text.charset, text.how if text.charset is not None or text.how == "unknown" else None


def _said(row: Optional[Row]) -> str:
    """A verdict in words."""
    if row is None or (row.reason is None and row.moves is None):
        return "no game"
    return row.reason or in_words(row.moves, row.score, row.stated)


def _counts(rows: List[Row], files: int, faults: int) -> Counts:
    return Counts(
        files,
        games=len(rows),
        refused=sum(row.reason is not None for row in rows),
        agreeing=sum(row.stated == "agrees" for row in rows),
        differing=sum(row.stated == "differs" for row in rows),
        converted=sum(row.charset is not None and row.game == 1 for row in rows),
        faults=faults,
    )


def _text(rows: List[Row]) -> str:
    return "".join(f"{shown(row.file)}:{row.game}: {_said(row)}{_stated(row)}{_conversion(row)}\n" for row in rows)


def _stated(row: Row) -> str:
    told = StatedResult(row.result, row.difference).told()
    return f" ({told})" if told else ""


def _conversion(row: Row) -> str:
    if row.how is None:
        return ""
    return f" ({row.how})" if row.charset is None else f" (converted from {row.charset}, {row.how})"


def _csv(rows: List[Row]) -> str:
    text = io.StringIO()
    csv.writer(text, lineterminator="\n").writerows(
        row._replace(file=shown(row.file), result=row.result and shown(row.result)) for row in rows
    )
    return text.getvalue()


def _json(rows: List[Row]) -> str:
    return "".join(json.dumps(row._asdict()) + "\n" for row in rows)


FORMATS: Dict[str, Callable[[List[Row]], str]] = {"text": _text, "csv": _csv, "json": _json}


def heading(kind: str) -> str:
    """What a format begins with."""
    return ",".join(Row._fields) + "\n" if kind == "csv" else ""

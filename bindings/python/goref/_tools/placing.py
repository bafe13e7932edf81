"""Which files are read, and where the spelling of each goes."""

import argparse
import os
from typing import Iterator, NamedTuple, Optional, Set, Union

from goref._tools.faults import Fault, WrongWords, shown
from goref._tools.files import records_in
from goref._tools.passed import Passed


class Place(NamedTuple):
    """A file to read, and what is written for it."""

    source: str
    target: Optional[str]
    """The file for the spelling; none for the standard output."""
    is_over: bool
    """Whether that is the file itself."""
    backup: Optional[str]
    """The file for a copy of the source."""


def check_options(given: argparse.Namespace) -> None:
    """Raises WrongWords where options don't go together."""
    for option, name in (("--to", given.to), ("--backup", given.backup)):
        if name == "":
            raise WrongWords(f"{option} wants the name of a folder")
    if given.in_place and "-" in given.paths:
        raise WrongWords("the standard input has no place to write to: leave --in-place out")
    for option, is_given in (("--backup", given.backup), ("--break-links", given.break_links)):
        if is_given and not given.in_place:
            raise WrongWords(f"{option} wants --in-place")
    if given.dry_run and not (given.in_place or given.to):
        raise WrongWords("--dry-run wants --in-place or --to")
    if given.backup and any(_is_searched(given.backup, path, given.hidden) for path in given.paths):
        raise WrongWords("--backup wants a folder that isn't searched: the next run would write over the backups")


def _is_searched(folder: str, path: str, hidden: bool) -> bool:
    """Whether a search of a path comes into a folder."""
    if not os.path.isdir(path):
        return False
    inside = os.path.relpath(os.path.realpath(folder), os.path.realpath(path)).split(os.sep)
    is_hidden = any(name.startswith(".") for name in inside if name != os.curdir)
    return inside[0] != os.pardir and (hidden or not is_hidden)


def places_of(given: argparse.Namespace, passed: Passed) -> Iterator[Union[Place, Fault]]:
    """The files, each with the one that its spelling goes to."""
    taken: Set[str] = set()
    founds = [(path, found) for path in given.paths for found in records_in(path, given.hidden, passed)]
    sources = {os.path.realpath(found) for _, found in founds if isinstance(found, str) and found != "-"}
    for path, found in founds:
        if isinstance(found, Fault):
            yield found
            continue
        place = _place(path, found, given)
        target = str(place.target)
        if given.to and target in taken:
            yield Fault(f"{shown(found)}: {shown(target)} is taken by another file")
        elif given.to and os.path.realpath(target) in sources:
            yield Fault(f"{shown(found)}: {shown(target)} is one of the files to read: say --in-place for that")
        else:
            taken.add(target)
            yield place


def _place(path: str, found: str, given: argparse.Namespace) -> Place:
    if given.in_place:
        backup = os.path.join(given.backup, _name(path, found)) if given.backup else None
        return Place(found, found, True, backup)
    return Place(found, os.path.join(given.to, _name(path, found)) if given.to else None, False, None)


def _name(path: str, found: str) -> str:
    """The name of a file below the folder that it is written to."""
    if found == "-":
        return "stdin.sgf"
    return os.path.relpath(found, path) if os.path.isdir(path) else os.path.basename(found)

"""Writes the spelling of a file to its place."""

import os
import sys
from typing import List

from goref._tools.attributes import check_links
from goref._tools.backup import back_up, check_backup
from goref._tools.files import check_place, make_folder, replacing
from goref._tools.placing import Place
from goref._tools.reading import Content


def check(place: Place, content: Content, may_break_links: bool) -> None:
    """Raises Left or a Fault if a spelling may not be written, as far as that can be known before."""
    if place.is_over and not may_break_links:
        check_links(place.source, content.status)
    if place.target is not None:
        check_place(place.target, os.path.realpath(place.target))
    if place.backup is not None:
        check_backup(place.source, content, place.backup)


def write(place: Place, content: Content, spelling: bytes) -> None:
    """Writes a spelling. Raises Left if the file is left as it is, and a Fault if something fails."""
    if place.target is None:
        sys.stdout.buffer.write(spelling)
        return
    if not place.is_over:
        make_folder(os.path.dirname(place.target) or os.curdir)
    with replacing(place.target, content.status if place.is_over else None) as file:
        if place.backup is not None:
            back_up(place.source, content, place.backup)
        file.write(spelling)


def folders_of(place: Place) -> List[str]:
    """The folders that files are written to for a place."""
    paths = [path for path in (place.target, place.backup) if path is not None]
    return [os.path.dirname(os.path.realpath(path) if os.path.islink(path) else path) or os.curdir for path in paths]

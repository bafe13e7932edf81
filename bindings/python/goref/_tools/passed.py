"""What a search of folders passes over."""

import argparse
from collections import Counter
from typing import Iterator

from goref._tools.faults import many, shown

_LONGEST = 10
"""How many characters an ending has at most, so that it is named."""
_MOST = 6
"""How many endings are named."""

# Records of other formats, several records in one file, and packed files. Who keeps records looks for these first.
_RECORDS = {
    *(".sgfs", ".mgt", ".ngf", ".gib", ".ugf", ".ugi", ".nip"),
    *(".gz", ".tgz", ".zip", ".tar", ".bz2", ".xz", ".zst", ".7z", ".rar"),
}


def add_hidden(parser: argparse.ArgumentParser) -> None:
    """Adds the option that has nothing hidden passed over."""
    parser.add_argument(
        "--hidden", action="store_true", help="search also files and folders whose names begin with a dot, as .git"
    )


class Passed:
    """What a search didn't read."""

    def __init__(self) -> None:
        self._endings: "Counter[str]" = Counter()
        self._hidden = 0
        self._links = 0

    def __bool__(self) -> bool:
        return bool(self._endings or self._hidden or self._links)

    def add_file(self, name: str) -> None:
        """A file that isn't named *.sgf."""
        ending = "." + name.rpartition(".")[2].lower() if "." in name else ""
        self._endings[ending if 1 < len(ending) <= _LONGEST else "without ending"] += 1

    def add_hidden(self) -> None:
        """A folder, or a file named *.sgf, whose name begins with a dot."""
        self._hidden += 1

    def add_link(self) -> None:
        """A link to a folder."""
        self._links += 1

    def add(self, more: "Passed") -> None:
        """What another search didn't read."""
        self._endings += more._endings
        self._hidden += more._hidden
        self._links += more._links

    def told(self) -> str:
        """All of it on one line, for people; nothing if nothing was passed over."""
        return "; ".join(self._parts())

    def _parts(self) -> Iterator[str]:
        files = sum(self._endings.values())
        if files:
            yield f"{many(files, 'file')} not read: {', '.join(self._kinds(files))}"
        if self._hidden:
            yield f"{self._hidden:,} hidden not read (--hidden)"
        if self._links:
            yield f"{'1 link to a folder' if self._links == 1 else f'{self._links:,} links to folders'} not followed"

    def _kinds(self, left: int) -> Iterator[str]:
        """How many files have which ending: first those that may have records, and of each sort the commonest first."""
        kinds = sorted(self._endings.items(), key=lambda kind: (kind[0] not in _RECORDS, -kind[1], kind[0]))
        for ending, count in kinds[:_MOST]:
            left -= count
            yield f"{count:,} {shown(ending)}"
        if left:
            yield f"{left:,} of other kinds"

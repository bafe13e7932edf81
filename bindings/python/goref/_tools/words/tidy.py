"""Writes the canonical spelling of all games of each file: to the standard output, over the files, or to a folder.
Folders are searched for files named *.sgf. The last line counts other files that a folder has.

A file is left as it is, and named, if goref refuses it; if its spelling depends on its charset, unless --charset says
that; and if its charset is a guess, unless --charset or --guess is given. A file that is converted to UTF-8 gets
CA[UTF-8]. With --in-place a file is also left if bytes stand outside of its games, which have no place in the spelling,
unless --drop is given; if it has several hard links, unless --break-links is given; if it is another user's; if it was
changed while it was tidied; and if its group or its extended attributes can't be kept. A byte-order mark goes without a
word."""

import argparse
import sys
from typing import Set, Union

from goref._tools.charset import add_charset
from goref._tools.faults import DONE, FAULT, REFUSED, Fault, Left, shown
from goref._tools.left_overs import clear_left_overs
from goref._tools.passed import Passed, add_hidden
from goref._tools.placing import Place, check_options, places_of
from goref._tools.progress import Progress
from goref._tools.reading import Content, read
from goref._tools.writing import check, folders_of, write

EXAMPLE = """example:
  goref-tools tidy --in-place --dry-run archive/
  goref-tools tidy --in-place --backup old archive/
  goref-tools tidy --to tidied archive/ extra.sgf
  goref-tools tidy - < game.sgf > tidy.sgf

With --in-place a new file is written beside the old one, and takes its place when it is on the disk: at any moment the
name has the old record or the new one, whole. The mode, the group, the times and the extended attributes stay. A
read-only file is written too, if its folder may be. A new file that a killed run left, .goref-*.new, is named, and
removed by the next run on that host.

status: 0 all files are written, 1 one was refused or left, 2 wrong words,
3 a file, a stream or memory failed, or the library is missing"""


def add_arguments(parser: argparse.ArgumentParser) -> None:
    parser.add_argument("paths", metavar="PATH", nargs="+", help="a file, a folder, or - for the standard input")
    where = parser.add_mutually_exclusive_group()
    where.add_argument("--in-place", action="store_true", help="write over the files")
    where.add_argument("--to", metavar="FOLDER", help="write files of the same names to this folder")
    parser.add_argument(
        "--backup", metavar="FOLDER",
        help="with --in-place keep each old file in this folder first, which isn't searched; a file is left if another"
        " has its name there",
    )
    parser.add_argument("--dry-run", action="store_true", help="print which files would be written, and write none")
    parser.add_argument("--drop", action="store_true", help="drop bytes outside of games, also with --in-place")
    parser.add_argument("--guess", action="store_true", help="write files whose charset is a guess")
    parser.add_argument(
        "--break-links", action="store_true",
        help="write files with several hard links; their other names keep the old text",
    )
    add_hidden(parser)
    add_charset(parser)


class Ends:
    """How the files came out."""

    def __init__(self) -> None:
        self.written = self.same = self.refused = self.left = self.faults = 0

    def status(self) -> int:
        return FAULT if self.faults else REFUSED if self.refused or self.left else DONE

    def told(self, is_dry: bool, passed: Passed) -> str:
        written = f"{self.written} would be written" if is_dry else f"{self.written} written"
        counts = f"{written}, {self.same} as they were, {self.refused} refused, {self.left} left, {self.faults} failed"
        return f"{counts}; {passed.told()}" if passed else counts


def run(given: argparse.Namespace) -> int:
    from goref._library import library

    check_options(given)
    library()
    passed = Passed()
    places = list(places_of(given, passed))
    is_to_files = bool(given.in_place or given.to)
    # Where the spellings go to the standard output a bar would stand among them.
    progress = Progress(len(places) if is_to_files else None, "files")
    work = _Work(given, progress)
    try:
        for place in places:
            work.take(place)
            progress.step(1)
        sys.stdout.flush()
    finally:
        progress.close()
    if is_to_files or passed:
        print(work.ends.told(given.dry_run, passed), file=sys.stderr)
    return work.ends.status()


class _Work:
    """The work on one file after another."""

    def __init__(self, given: argparse.Namespace, progress: Progress) -> None:
        self.ends = Ends()
        self._given = given
        self._progress = progress
        self._cleared: Set[str] = set()

    def take(self, place: Union[Place, Fault]) -> None:
        """Tidies a file, counts how it came out, and tells what is to be told of it."""
        from goref._tools.tidying import InDoubt, Untidy

        name = str(place) if isinstance(place, Fault) else shown(place.source)
        try:
            if isinstance(place, Fault):
                raise place
            self._tidy(place)
        except Untidy as why:
            self.ends.refused += 1
            self._say(f"{name}: {why}")
        except InDoubt as why:
            self.ends.left += 1
            self._say(f"{name}: {why}")
        except Left as why:
            self.ends.left += 1
            self._say(str(why))
        except Fault as why:
            self.ends.faults += 1
            self._say(str(why))
        except MemoryError:
            self.ends.faults += 1
            self._say(f"{name}: out of memory")

    def _say(self, line: str) -> None:
        self._progress.write(f"goref-tools: {line}\n", is_fault=True)

    def _tidy(self, place: Place) -> None:
        """Writes the spelling of a file, and tells what was converted or dropped."""
        from goref._tools.tidying import InDoubt, tidied

        content = read(place.source)
        made = tidied(content.data, self._given.charset)
        if made.text.how == "guessed" and not self._given.guess:
            raise InDoubt(f"its charset is a guess, {made.text.charset}: say --charset, or --guess")
        first = f"the first at byte {made.dropped}"
        if made.dropped is not None and place.is_over and not self._given.drop:
            raise InDoubt(f"bytes outside of games, {first}, would be dropped: say --drop for that")
        is_written = self._write(place, content, made.spelling)
        told = list(filter(None, [made.text.told()]))
        if made.dropped is not None:
            told.append(f"bytes outside of games {'would be' if self._given.dry_run else 'were'} dropped, {first}")
        if is_written and self._given.dry_run:
            self._progress.write(f"{shown(place.source)}: {'; '.join(['would be written', *told])}\n")
        elif told:
            self._say(f"{shown(place.source)}: {'; '.join(told)}")

    def _write(self, place: Place, content: Content, spelling: bytes) -> bool:
        """Writes a spelling, and gives whether the file wasn't so before. A dry run looks only whether it may."""
        if place.is_over and spelling == content.data:
            self.ends.same += 1
            return False
        check(place, content, self._given.break_links)
        if not self._given.dry_run:
            self._clear(place)
            write(place, content, spelling)
        self.ends.written += 1
        return True

    def _clear(self, place: Place) -> None:
        """Names what killed runs left in the folders that a file is written to, and removes what may be removed."""
        for folder in folders_of(place):
            if folder not in self._cleared:
                self._cleared.add(folder)
                for line in clear_left_overs(folder):
                    self._say(line)

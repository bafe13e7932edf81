"""Files and folders that are named on the command line, and files that take another's place."""

import errno
import os
import stat
from contextlib import contextmanager
from typing import IO, Iterator, List, Optional, Union

from goref._tools.attributes import check_owner, check_unchanged, keep, keep_times
from goref._tools.faults import Fault, fault_of, shown
from goref._tools.left_overs import name_beside
from goref._tools.passed import Passed


def records_in(path: str, hidden: bool = False, passed: Optional[Passed] = None) -> Iterator[Union[str, Fault]]:
    """The files that a path names: itself, or each `*.sgf` of a folder and of the folders in it, in a fixed order.

    What can't be looked into comes as its fault in the place where it stands. It follows no link to a folder, and
    without `hidden` it leaves out files and folders below the path whose names begin with a dot. These, and files of
    other names, are added to `passed`.
    """
    if path == "-" or not os.path.isdir(path):
        yield path
        return
    walk = _Walk(hidden)
    found = False
    for one in walk.below(path):
        found = True
        yield one
    if not found:
        instead = f"; {walk.passed.told()}" if walk.passed else ""
        yield Fault(f"{shown(path)}: no file in it is named *.sgf{instead}")
    if passed is not None:
        passed.add(walk.passed)


class _Walk:
    """A search for records in a folder."""

    def __init__(self, hidden: bool) -> None:
        self.passed = Passed()
        self._hidden = hidden

    def below(self, top: str) -> Iterator[Union[str, Fault]]:
        """The records below a folder. It keeps what it has to look into, so that no depth is too great."""
        left: List[Union[str, "os.DirEntry[str]"]] = [top]
        while left:
            entry = left.pop()
            if isinstance(entry, str) or entry.is_dir(follow_symlinks=False):
                try:
                    left += self._inside(os.fspath(entry))
                except OSError as why:
                    yield fault_of(os.fspath(entry), why)
            else:
                # What the folder itself tells to be a file is not asked for once more.
                yield from (entry.path,) if entry.is_file(follow_symlinks=False) else self._record(entry.path)

    def _inside(self, folder: str) -> "List[os.DirEntry[str]]":
        """The folders and the files named *.sgf that a folder has, the last first."""
        with os.scandir(folder) as entries:
            wanted = [entry for entry in entries if self._is_wanted(entry)]
        return sorted(wanted, key=lambda entry: os.fsencode(entry.name), reverse=True)

    def _is_wanted(self, entry: "os.DirEntry[str]") -> bool:
        """Whether to look at what a folder has. What isn't looked at is counted."""
        if not entry.name.lower().endswith(".sgf") and not entry.is_dir(follow_symlinks=False):
            self._pass(entry)
            return False
        if entry.name.startswith(".") and not self._hidden:
            self.passed.add_hidden()
            return False
        return True

    def _pass(self, entry: "os.DirEntry[str]") -> None:
        """Counts what is neither a folder nor named *.sgf."""
        if entry.is_symlink() and os.path.isdir(entry.path):
            self.passed.add_link()
        else:
            self.passed.add_file(entry.name)

    def _record(self, path: str) -> Iterator[Union[str, Fault]]:
        """A file that a folder has, if it is one: to open a pipe might wait for ever. A link may lead to a folder."""
        try:
            mode = os.stat(path).st_mode
        except OSError as why:
            yield fault_of(path, why)
            return
        if stat.S_ISREG(mode):
            yield path
        elif stat.S_ISDIR(mode):
            self.passed.add_link()
        else:
            yield Fault(f"{shown(path)}: no regular file")


@contextmanager
def replacing(path: str, old: Optional[os.stat_result] = None) -> Iterator[IO[bytes]]:
    """A new file beside one, which takes its place when all was written and is on the disk.

    At any moment the path names the old file or the new one, whole. The mode, the group and the extended attributes
    stay; a link stays a link, and the file that it leads to is replaced. With `old`, which is what the file was when it
    was read, its times stay too, and a file that was changed since then is left.

    Raises Left if the file is left because it is another user's, was changed, or would lose more than its bytes; and a
    Fault that names the file if something fails.
    """
    target = os.path.realpath(path)
    try:
        with name_beside(target) as made:
            with _opened(path, target, made) as file:
                yield file
                file.flush()
                if old is not None:
                    keep_times(file.fileno(), old)
                os.fsync(file.fileno())
            if old is not None:
                check_unchanged(path, target, old)
            os.replace(made, target)
        sync_names(os.path.dirname(target))
    except OSError as why:
        raise fault_of(path, why) from None


@contextmanager
def _opened(path: str, target: str, made: str) -> Iterator[IO[bytes]]:
    """A new file that has what the file in its future place has beside its bytes."""
    old = check_place(path, target)
    number = open_new(path, made, 0o666 if old is None else 0o600)
    with os.fdopen(number, "wb") as file:
        if old is not None:
            keep(number, path, target, old)
        yield file


def check_place(path: str, target: str) -> Optional[os.stat_result]:
    """The status of the file that is to be replaced, if there is one. Raises Left or a Fault if it may not be."""
    try:
        old = os.stat(target)
    except (FileNotFoundError, NotADirectoryError):
        return None
    except OSError as why:
        raise fault_of(path, why) from None
    if not stat.S_ISREG(old.st_mode):
        raise Fault(f"{shown(path)}: no regular file")
    check_owner(path, old)
    return old


def open_new(path: str, made: str, mode: int) -> int:
    """A new file, as its number. Raises a Fault that names the folder if that takes none; `path` is the name told."""
    try:
        return os.open(made, os.O_WRONLY | os.O_CREAT | os.O_EXCL | os.O_CLOEXEC, mode)
    except OSError as why:
        if why.errno not in (errno.EACCES, errno.EPERM, errno.EROFS):
            raise
        folder = shown(os.path.dirname(made))
        raise Fault(f"{shown(path)}: the folder {folder} takes no new file: {why.strerror}") from None


def make_folder(folder: str) -> None:
    """Makes a folder, and those above it, whose names are on the disk then. Raises a Fault that names the folder."""
    if os.path.isdir(folder):
        return
    above = os.path.dirname(os.path.abspath(folder))
    make_folder(above)
    try:
        os.mkdir(folder)
        sync_names(above)
    except FileExistsError:
        # Another process may have made it meanwhile.
        if not os.path.isdir(folder):
            raise Fault(f"{shown(folder)}: it is no folder") from None
    except OSError as why:
        raise fault_of(folder, why) from None


def sync_names(folder: str) -> None:
    """Has the disk keep the names of a folder, where that may be read."""
    try:
        number = os.open(folder, os.O_RDONLY)
    except PermissionError:
        return
    try:
        os.fsync(number)
    finally:
        os.close(number)

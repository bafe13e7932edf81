"""Copies of files that are going to be written over."""

import errno
import os
import stat
from contextlib import suppress

from goref._tools.attributes import keep_times
from goref._tools.faults import Left, fault_of, shown
from goref._tools.files import make_folder, open_new, sync_names
from goref._tools.left_overs import name_beside
from goref._tools.reading import Content, contents

# How a file system says that it has no second name for a file.
_NO_LINKS = (errno.EPERM, errno.ENOTSUP, errno.ENOSYS)


def back_up(path: str, content: Content, target: str) -> None:
    """Writes what a file was to another, with its mode and its times. It is on the disk then.

    A file that is there stays. Raises Left if it is another one, and a Fault that names the copy if something fails.
    """
    if check_backup(path, content, target):
        return
    folder = os.path.dirname(target) or "."
    make_folder(folder)
    try:
        with name_beside(target) as made:
            _write(target, made, content)
            _take_name(made, target)
        sync_names(folder)
    except FileExistsError:
        raise _taken(path, target) from None
    except OSError as why:
        raise fault_of(target, why) from None


def check_backup(path: str, content: Content, target: str) -> bool:
    """Whether the copy is there, as after a run that was ended. Raises Left if another file has its name."""
    if not os.path.lexists(target):
        return False
    is_itself = os.path.realpath(target) == os.path.realpath(path)
    if is_itself or not os.path.isfile(target) or contents(target) != content.data:
        raise _taken(path, target)
    return True


def _taken(path: str, target: str) -> Left:
    return Left(f"{shown(path)}: no backup was made, since {shown(target)} is there already")


def _write(target: str, made: str, content: Content) -> None:
    with os.fdopen(open_new(target, made, 0o600), "wb") as file:
        file.write(content.data)
        file.flush()
        # Not each file system has modes.
        with suppress(PermissionError):
            os.fchmod(file.fileno(), stat.S_IMODE(content.status.st_mode))
        keep_times(file.fileno(), content.status)
        os.fsync(file.fileno())


def _take_name(made: str, target: str) -> None:
    """Gives a new file its name, and takes no other file's place."""
    try:
        os.link(made, target)
    except OSError as why:
        if why.errno not in _NO_LINKS:
            raise
        # Such a system has no call for it: a file that comes between the last look and this one is lost.
        os.rename(made, target)

"""What a file has beside its bytes: whose it is, its mode, its extended attributes and its times."""

import errno
import os
import stat
from typing import Callable, Dict, Tuple, Union

from goref._tools.faults import Left, shown


def check_owner(path: str, old: os.stat_result) -> None:
    """Raises Left if a file is another user's, since a new one would be this user's."""
    if old.st_uid != os.geteuid():
        raise Left(f"{shown(path)}: it is another user's (uid {old.st_uid}), and would become yours")


def check_links(path: str, old: os.stat_result) -> None:
    """Raises Left if a file has another name, since that would keep the old text."""
    if old.st_nlink > 1:
        links = f"it has {old.st_nlink} hard links, and the others would keep the old text"
        raise Left(f"{shown(path)}: {links}: say --break-links")


def check_unchanged(path: str, target: str, old: os.stat_result) -> None:
    """Raises Left if a file isn't any more what it was."""
    try:
        now = os.stat(target)
    except FileNotFoundError:
        raise Left(f"{shown(path)}: it is gone since it was read") from None
    if _traits(now) != _traits(old):
        raise Left(f"{shown(path)}: it was changed since it was read")


def _traits(file: os.stat_result) -> Tuple[int, ...]:
    """What changes if a file is written to, or if another takes its name."""
    return file.st_dev, file.st_ino, file.st_size, file.st_mtime_ns


def keep(number: int, path: str, target: str, old: os.stat_result) -> None:
    """Gives a new file the group, the extended attributes and the mode of an old one, `target`.

    `number` is that of the open new file, and `path` the name that is told. Raises Left if one of them can't be kept.
    """
    for what, give in _GIVERS.items():
        try:
            give(number, target, old)
        except OSError as why:
            if why.errno not in (errno.EPERM, errno.EACCES, errno.ENOTSUP):
                raise
            raise Left(f"{shown(path)}: its {what} can't be kept: {why.strerror}") from None


def keep_times(number: int, old: os.stat_result) -> None:
    """Gives a new file the times of an old one's last read and last change."""
    os.utime(number, ns=(old.st_atime_ns, old.st_mtime_ns))


def _give_owners(number: int, target: str, old: os.stat_result) -> None:
    new = os.fstat(number)
    if (new.st_uid, new.st_gid) != (old.st_uid, old.st_gid):
        os.fchown(number, old.st_uid, old.st_gid)


def _give_extended(number: int, target: str, old: os.stat_result) -> None:
    """Access control lists are such attributes too. A folder may have given the new file some that the old hasn't."""
    wanted, given = _extended(target), _extended(number)
    for name in given.keys() - wanted.keys():
        os.removexattr(number, name)
    for name, value in wanted.items():
        if given.get(name) != value:
            os.setxattr(number, name, value)


def _extended(file: Union[str, int]) -> Dict[str, bytes]:
    """The extended attributes of a file; none if its file system has no such."""
    try:
        return {name: os.getxattr(file, name) for name in os.listxattr(file)}
    except OSError as why:
        if why.errno == errno.ENOTSUP:
            return {}
        raise


def _give_mode(number: int, target: str, old: os.stat_result) -> None:
    os.fchmod(number, stat.S_IMODE(old.st_mode))


# In this order: another group takes bits from the mode, and a mode without writing keeps attributes out.
_GIVERS: Dict[str, Callable[[int, str, os.stat_result], None]] = {
    "owner and group": _give_owners,
    "extended attributes": _give_extended,
    "mode": _give_mode,
}

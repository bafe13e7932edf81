"""New files that a run was to put in the place of others, and that it left when it was killed.

The name of such a file has the host, the number of the process and the time of its start. So a later run knows whether
somebody is still at work on it.
"""

import os
import re
from contextlib import contextmanager, suppress
from typing import Iterator, List, NamedTuple, Optional

from goref._tools.faults import shown

_NAME = re.compile(r"\.goref-(?:(.+)-([0-9]{1,9})-([0-9]+)-)?[0-9a-f]{16}\.new")


class Maker(NamedTuple):
    """The process that made a file."""

    host: str
    process: int
    start: int
    """When it started, in ticks of the clock since the host did; 0 if that can't be known."""


@contextmanager
def name_beside(target: str) -> Iterator[str]:
    """A name for a new file in the folder of another. What still has the name at the end is removed."""
    host, process, start = _this_process()
    name = f".goref-{host}-{process}-{start}-{os.urandom(8).hex()}.new"
    made = os.path.join(os.path.dirname(target), name)
    try:
        yield made
    finally:
        with suppress(OSError):
            os.unlink(made)


def clear_left_overs(folder: str) -> List[str]:
    """Removes from a folder the files that processes of this host left and that have ended since.

    Gives a line for each file that is left over or that another process is at work on, also for those that stay. A
    folder that can't be read, or isn't there, gives none.
    """
    try:
        with os.scandir(folder) as entries:
            found = sorted(entry.path for entry in entries if _NAME.fullmatch(entry.name))
    except OSError:
        return []
    return [f"{shown(path)}: {_cleared(path)}" for path in found]


def _cleared(path: str) -> str:
    """Removes a file if nobody is at work on it, and tells what became of it."""
    maker = _maker_of(os.path.basename(path))
    if maker is None:
        return "an earlier version of goref-tools left it, or is at work on it; it stays"
    if maker.host != _host():
        return f"a process of the host {shown(maker.host)} left it, or is at work on it; it stays"
    if not _has_ended(maker):
        return f"the process {maker.process} is at work on it; it stays"
    try:
        os.unlink(path)
    except OSError as why:
        return f"a process that has ended left it, and it can't be removed: {why.strerror or why}"
    return "a process that has ended left it; it was removed"


def _maker_of(name: str) -> Optional[Maker]:
    """The process that a name tells; none if it is a name of an earlier version."""
    told = _NAME.fullmatch(name)
    return Maker(told[1], int(told[2]), int(told[3])) if told and told[1] else None


def _this_process() -> Maker:
    process = os.getpid()
    return Maker(_host(), process, _start_of(process) or 0)


def _host() -> str:
    return re.sub(r"[^A-Za-z0-9.-]", "_", os.uname().nodename)[:64] or "_"


def _has_ended(maker: Maker) -> bool:
    """Whether a process of this host is no more. One of another user may show that it is there, and no more of it."""
    if maker.start == 0:
        return False
    try:
        os.kill(maker.process, 0)
    except ProcessLookupError:
        return True
    except PermissionError:
        pass
    start = _start_of(maker.process)
    return start is not None and start != maker.start


def _start_of(process: int) -> Optional[int]:
    """When a process started, in ticks of the clock; none if that can't be seen."""
    try:
        with open(f"/proc/{process}/stat", "rb") as file:
            # The name before it, in parentheses, may have any bytes.
            return int(file.read().rpartition(b")")[2].split()[19])
    except (OSError, ValueError, IndexError):
        return None

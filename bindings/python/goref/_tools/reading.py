"""The bytes of files that are named on the command line."""

import os
import select
import stat
import sys
from typing import IO, NamedTuple, Optional

from goref._tools.faults import Fault, fault_of, shown

MOST = 268_435_456
"""How many bytes of a file are read at most; goref itself reads records of 16,777,216."""
_BLOCK = 65_536


class Content(NamedTuple):
    """What a file was when it was read."""

    data: bytes
    status: os.stat_result
    """As it was before the first byte was read."""


def contents(path: str) -> bytes:
    """All bytes of a file, and those of the standard input for `-`. Raises a Fault that names the file."""
    return read(path).data


def read(path: str) -> Content:
    """A file with its status, and the standard input for `-`. Raises a Fault that names the file."""
    try:
        if path == "-":
            if sys.stdin is None:
                raise Fault("standard input: it is closed")
            content = _read(sys.stdin.buffer)
        else:
            with open(path, "rb", buffering=0) as file:
                content = _read(file)
    except OSError as why:
        raise fault_of(path, why) from None
    except MemoryError:
        raise Fault(f"{shown(path)}: out of memory") from None
    if len(content.data) > MOST:
        raise Fault(f"{shown(path)}: longer than {MOST:,} bytes")
    return content


def _read(file: IO[bytes]) -> Content:
    """What a file, a pipe or a device has, and no more than is wanted. Only a read that gives nothing is at the end."""
    status = os.fstat(file.fileno())
    blocks = []
    left = MOST + 1
    # Most files come whole by the first read.
    size = status.st_size + 1 if stat.S_ISREG(status.st_mode) else _BLOCK
    while left:
        block = _block(file, min(left, size))
        if not block:
            break
        blocks.append(block)
        left -= len(block)
        size = _BLOCK
    return Content(b"".join(blocks), status)


def _block(file: IO[bytes], size: int) -> bytes:
    """The next bytes of a file. It waits for them if they are still to come."""
    block: Optional[bytes] = file.read(size)
    while block is None:
        select.select([file], [], [])
        block = file.read(size)
    return block

"""A record to tidy, and how it is then."""

import os

LOOSE = b" ( ; SZ [5] ;B[cc])\n"
TIDY = b"(;SZ[5];B[cc])\n"
OLD = (1_000_000_000_123_456_789, 1_100_000_000_987_654_321)
"""The times of the last read and of the last change, in nanoseconds."""
LEFT = "0 written, 0 as they were, 0 refused, 1 left, 0 failed"
"""What is told of a run whose only file was left."""


def old_record(folder):
    """A file from long ago, which isn't tidy."""
    path = folder / "a.sgf"
    path.write_bytes(LOOSE)
    os.utime(path, ns=OLD)
    return path


def times(path):
    """When a file was read last, and when it was changed last."""
    status = os.stat(path)
    return status.st_atime_ns, status.st_mtime_ns


def is_left(record, end, why):
    """Whether such a file was left as it was, and nothing beside it, with a line that says why."""
    assert (end.status, end.told) == (1, [f"{record}: {why}", LEFT])
    assert record.read_bytes() == LOOSE and times(record)[1] == OLD[1]
    assert list(record.parent.iterdir()) == [record]
    return True

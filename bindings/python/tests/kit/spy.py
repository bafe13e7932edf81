"""Stand-ins for calls of the system: some note what they are asked for, some give less or fail."""

import errno
import io
import os

from goref._tools import reading


def short_reads(monkeypatch, most):
    """Has a read of a file give at most some bytes, as on a network."""

    class Short(io.FileIO):
        def read(self, size=-1):
            return super().read(min(size, most) if size >= 0 else most)

    monkeypatch.setattr(reading, "open", lambda path, mode, buffering: Short(path), raising=False)


def disk(monkeypatch):
    """A list of what is put on the disk, with the bytes that a file has by then, and of the names that files take."""
    done = []
    fsync, replace = os.fsync, os.replace

    def noted_fsync(number):
        path = os.readlink(f"/proc/self/fd/{number}")
        done.append(("fsync", path, None if os.path.isdir(path) else open(path, "rb").read()))
        fsync(number)

    def noted_replace(old, new):
        done.append(("replace", os.fspath(old), os.fspath(new)))
        replace(old, new)

    monkeypatch.setattr(os, "fsync", noted_fsync)
    monkeypatch.setattr(os, "replace", noted_replace)
    return done


def before(monkeypatch, name, work):
    """Has something happen before each call of a function of `os`."""
    call = getattr(os, name)

    def first(*given, **named):
        work()
        return call(*given, **named)

    monkeypatch.setattr(os, name, first)


def failing(monkeypatch, name, number=errno.EPERM):
    """Has a function of `os` fail."""

    def fails(*given, **named):
        raise OSError(number, os.strerror(number))

    monkeypatch.setattr(os, name, fails)

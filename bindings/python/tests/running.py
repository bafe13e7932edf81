"""Runs words of goref-tools in the tests' own process, and tells whether processes have ended."""

import os
import time
from typing import NamedTuple

from goref._tools.main import main


class End(NamedTuple):
    status: int
    out: str
    err: str


def runner(capsys):
    """A function that runs goref-tools with its words."""

    def run(*words):
        capsys.readouterr()
        status = main([str(word) for word in words])
        return End(status, *capsys.readouterr())

    return run


def is_gone(number):
    """Whether a process has ended, or is about to."""
    try:
        with open(f"/proc/{number}/stat") as file:
            return file.read().rpartition(")")[2].split()[0] in "ZX"
    except (FileNotFoundError, ProcessLookupError):
        return True


def group(number):
    """The numbers of the processes of a group."""
    found = []
    for name in filter(str.isdigit, os.listdir("/proc")):
        try:
            if os.getpgid(int(name)) == number:
                found.append(int(name))
        except ProcessLookupError:
            pass
    return found


def is_group_gone(number, seconds):
    """Whether no process of a group is left within some seconds."""
    until = time.monotonic() + seconds
    while time.monotonic() < until:
        try:
            os.killpg(number, 0)
        except ProcessLookupError:
            return True
        time.sleep(0.1)
    return False

"""Matches between stand-ins for engines."""

import json
import os
import shlex
import signal
import sys
import time

import pytest

from kit.runner import run, started

ENGINES = os.path.join(os.path.dirname(os.path.dirname(os.path.abspath(__file__))), "engines.py")


def engine(*words):
    """The command line of a stand-in, with the words of engines.py."""
    return shlex.join([sys.executable, "-I", "-S", ENGINES, *map(str, words)])


PASS = engine()


class Match:
    """Matches on a small board, with a log and records."""

    def __init__(self, folder, capfd):
        self.log = folder / "log"
        self.records = folder / "records"
        self._capfd = capfd

    def __call__(self, *words, size=5):
        end = run(self._capfd, "match", "--size", size, "--log", self.log, "--records", self.records, *words)
        self.status, self.out, self.err = end
        return self

    @property
    def settings(self):
        return json.loads(self.log.read_text().splitlines()[0])

    @property
    def games(self):
        return [json.loads(line) for line in self.log.read_text().splitlines()[1:]]

    @property
    def results(self):
        return [game["result"] for game in self.games]

    @property
    def reasons(self):
        return [game["reason"] for game in self.games]

    def record(self, number=1):
        return (self.records / f"game-{number:04}.sgf").read_bytes()

    def names(self):
        """The names of the records, without the file that says of which match they are."""
        return sorted(set(os.listdir(self.records)) - {"match.json"})


@pytest.fixture
def match(tmp_path, capfd):
    return Match(tmp_path, capfd)


def command(*words, **options):
    """A match as a process of its own."""
    return started("match", "--size", "5", *words, **options)


def in_the_foreground():
    """Signals are heeded, as in a shell's foreground."""
    for number in (signal.SIGINT, signal.SIGTERM, signal.SIGHUP):
        signal.signal(number, signal.SIG_DFL)


def numbers_in(path):
    """The numbers of the processes that noted lines, in the order in which they first did."""
    return list(dict.fromkeys(int(line.split()[0]) for line in path.read_text().splitlines()))


def lines_in(path):
    """The lines that engines noted, without their numbers."""
    return [line.partition(" ")[2] for line in path.read_text().splitlines()]


def wait_for(done, seconds=40):
    until = time.monotonic() + seconds
    while not done():
        assert time.monotonic() < until, "it takes too long"
        time.sleep(0.01)

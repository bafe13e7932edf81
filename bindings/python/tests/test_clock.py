"""Time that counts while engines are waited for."""

import asyncio
import signal
import sys
import time

import pytest

from goref._tools import engine as engine_module
from goref._tools.engine import Engine, EngineLate
from goref._tools.match_clock import Clock
from kit.matches import ENGINES, PASS, command, engine, match, wait_for


class Seconds:
    """A clock that goes when it is told to."""

    def __init__(self):
        self.now = 1000.0

    def __call__(self):
        return self.now

    def go(self, clock, *steps):
        for step in steps:
            self.now += step
            clock.now()
        return round(clock.now(), 6)


def test_time_passes_by_looks():
    seconds = Seconds()
    clock = Clock(seconds)
    assert clock.now() == 0
    assert seconds.go(clock, 0.05, 0.1, 0.2) == 0.35


def test_of_a_long_time_without_a_look_a_fifth_of_a_second_counts():
    seconds = Seconds()
    clock = Clock(seconds)
    assert seconds.go(clock, 0.05, 3600, 0.05) == 0.3
    assert seconds.go(clock, 0.25, 0.19) == 0.69


def asked(clock, *words, seconds=20.0):
    async def ask():
        one = Engine([sys.executable, "-I", "-S", ENGINES, *words], clock)
        await one.start()
        try:
            return (await one.ask("genmove b", seconds))[0].text
        finally:
            await one.leave()

    return asyncio.run(ask())


class Late:
    """A clock by which an answer comes 5 seconds after its question."""

    def __init__(self):
        self._told = iter([0.0])

    def now(self):
        return next(self._told, 5.0)


def test_an_answer_that_comes_late_is_no_answer(monkeypatch):
    """Also if it is read before anybody has looked at the clock."""
    monkeypatch.setattr(engine_module, "BEAT", 1000)
    with pytest.raises(EngineLate, match="^wrote no response within 4 s at `genmove b`$"):
        asked(Late(), seconds=4.0)
    assert asked(Late(), seconds=6.0) == "pass"


def test_a_match_that_is_stopped_loses_no_time(match):
    note = match.log.parent / "note"
    process = command("--log", match.log, "--seconds", "3", engine(f"=note={note}", "genmove=slow=0.3"), PASS)
    wait_for(lambda: note.exists() and "genmove" in note.read_text())
    process.send_signal(signal.SIGSTOP)
    time.sleep(4)
    process.send_signal(signal.SIGCONT)
    out, err = process.communicate(timeout=40)
    assert (process.returncode, err) == (0, b"") and match.results == ["W+7.5"]
    assert match.games[0]["times"]["black"]["greatest"] < 3

"""An engine as a process that is asked lines."""

import asyncio
import os
import sys
import time

import pytest

from goref._tools import engine as module
from goref._tools.engine import Engine, EngineFailed, EngineLate
from running import is_gone

pytestmark = pytest.mark.no_library
WORDS = [sys.executable, "-I", "-S", os.path.join(os.path.dirname(os.path.abspath(__file__)), "engines.py")]


def asked(words, *lines, seconds=5.0, command=None):
    """The text of each response, and what the engine did where it failed."""

    async def ask():
        one = Engine(command or [*WORDS, *words])
        told = []
        try:
            await one.start()
            for line in lines:
                told.append((await one.ask(line, seconds))[0].text)
        except EngineFailed as why:
            assert one.has_failed or "started" in str(why)
            told.append(why)
        finally:
            await one.leave()
        return told

    return asyncio.run(ask())


def why(words, line="genmove b"):
    (failed,) = asked(words, line)
    assert isinstance(failed, EngineFailed)
    return str(failed)


def all_gone(numbers):
    until = time.monotonic() + 5
    while not all(map(is_gone, numbers)) and time.monotonic() < until:
        time.sleep(0.01)
    return all(map(is_gone, numbers))


def test_an_engine_answers():
    assert asked(["genmove=moves=A1,B2"], "name", "genmove b", "genmove w", "genmove b") == ["", "A1", "B2", "pass"]


def test_an_engine_that_ends():
    assert why(["genmove=end=3"]) == "ended with status 3 at `genmove b`"
    assert why(["genmove=crash"]) == "was ended by SIGKILL at `genmove b`"


def test_an_engine_that_ends_after_an_answer_has_answered():
    told = asked([], "one", "two", command=["sh", "-c", r"read line; printf '= first\n\n'; exit 5"])
    assert told[0] == "first" and str(told[1]) == "ended with status 5 at `two`"
    told = asked([], "one", command=["sh", "-c", r"read line; printf '= half\n'; exit 5"])
    assert str(told[0]) == "ended with status 5 at `one`"


def test_an_engine_that_ends_while_what_it_started_holds_its_output():
    (failed,) = asked([], "one", command=["sh", "-c", "sleep 1000 & read line; exit 5"])
    assert str(failed) == "ended with status 5 at `one`"


def test_an_engine_that_hangs():
    begun = time.monotonic()
    (failed,) = asked(["genmove=hang"], "genmove b", seconds=0.2)
    assert isinstance(failed, EngineLate) and str(failed) == "wrote no response within 0.2 s at `genmove b`"
    assert 0.2 <= time.monotonic() - begun < 3


def test_an_engine_that_answers_without_end():
    assert why(["genmove=flood"]) == "wrote more than 1,000,000 bytes at `genmove b`"
    assert why(["genmove=flood=n"]) == "wrote more than 1,000,000 bytes at `genmove b`"


def test_an_engine_that_answers_what_is_no_response():
    assert why([r"genmove=say=A1\n\n"]) == "wrote `A1`, which is no response, at `genmove b`"


def test_an_engine_that_answers_twice():
    told = asked([r"genmove=say== A1\n\n= A2\n\n"], "genmove b", "play w A3")
    assert told[0] == "A1" and str(told[1]) == "wrote `= A2` without being asked at `play w A3`"


def test_an_engine_that_closes_its_output(monkeypatch):
    monkeypatch.setattr(module, "_DRAIN", 0.1)
    assert why(["genmove=close"]) == "closed its output at `genmove b`"


def test_an_engine_that_is_not_there(tmp_path):
    (tmp_path / "text").write_text("no program")
    (tmp_path / "text").chmod(0o755)
    for words, reason in [
        (["/none"], "can't be started: No such file or directory"),
        ([str(tmp_path)], "can't be started: Permission denied"),
        ([str(tmp_path / "text")], "can't be started: Exec format error"),
        (["a\0b"], "can't be started: embedded null byte"),
    ]:
        (failed,) = asked([], "name", command=words)
        assert str(failed) == reason


def test_a_failed_engine_answers_no_more():
    async def ask():
        one = Engine([*WORDS, "genmove=end"])
        await one.start()
        told = []
        for line in ("genmove b", "name"):
            with pytest.raises(EngineFailed) as failed:
                await one.ask(line, 5.0)
            told.append(str(failed.value))
        await one.kill()
        return told

    assert asyncio.run(ask()) == ["ended with status 3 at `genmove b`", "ended with status 3 at `name`"]


def test_all_that_an_engine_started_is_ended(tmp_path):
    for number, words in enumerate([["genmove=end"], ["genmove=hang"], ["genmove=flood"], [], ["quit=hang"]]):
        path = tmp_path / str(number)
        asked([f"child=child={path}", f"=note={path}", *words], "child", "genmove b", seconds=0.5)
        numbers = {int(line.split()[0]) for line in path.read_text().splitlines()}
        assert len(numbers) == 2 and all_gone(numbers)


def test_an_engine_is_asked_to_quit(tmp_path):
    path = tmp_path / "lines"
    asked([f"=note={path}"], "name")
    assert [line.split(" ", 1)[1] for line in path.read_text().splitlines()] == ["name", "quit"]


def test_an_engine_may_do_something_before_it_ends(tmp_path):
    script = rf"read line; printf '=\n\n'; read line; printf '=\n\n'; sleep 0.2; echo $line >{tmp_path}/told"
    assert asked([], "name", command=["sh", "-c", script]) == [""]
    assert (tmp_path / "told").read_text() == "quit\n"


def test_an_engine_that_does_not_quit_is_ended(monkeypatch):
    monkeypatch.setattr(module, "FAREWELL", 0.2)
    begun = time.monotonic()
    assert asked(["quit=hang"], "name") == [""]
    assert 0.2 <= time.monotonic() - begun < 3


def test_a_waiting_that_is_cancelled_leaves_no_process(tmp_path):
    path = tmp_path / "lines"

    async def ask():
        one = Engine([*WORDS, f"=note={path}", "genmove=hang"])
        await one.start()
        waiting = asyncio.ensure_future(one.ask("genmove b", 60.0))
        while not path.exists():
            await asyncio.sleep(0.01)
        waiting.cancel()
        await asyncio.gather(waiting, return_exceptions=True)
        await one.leave()

    asyncio.run(ask())
    assert all_gone([int(path.read_text().split()[0])])


def test_a_start_that_is_cancelled_leaves_no_process(tmp_path):
    async def start():
        one = Engine(["sh", "-c", f"echo $$ >{tmp_path}/number; exec sleep 1000"])
        starting = asyncio.ensure_future(one.start())
        await asyncio.sleep(0)
        starting.cancel()
        await asyncio.gather(starting, return_exceptions=True)
        await one.kill()

    begun = time.monotonic()
    asyncio.run(start())
    assert time.monotonic() - begun < 3
    number = tmp_path / "number"
    assert not number.exists() or not number.read_text() or all_gone([int(number.read_text())])

"""Calls that keep nothing."""

import os
import subprocess
import sys

import pytest

import goref
from goref import _calls, _library

RECORD = b"(;SZ[5]KM[0.5]RE[B+24.5];B[cc])"


def test_a_record_is_judged_and_tidied():
    assert goref.judge(RECORD) == goref.Verdict(1, "B+24.5", "agrees")
    assert goref.tidy(b" ( ; SZ [5] ;B[cc])") == b"(;SZ[5];B[cc])\n"
    assert goref.judge(bytearray(RECORD)) == goref.judge(memoryview(RECORD)) == goref.judge(RECORD)


def test_a_refusal_has_its_reason():
    with pytest.raises(goref.Refused, match="^move 2 is on a stone$"):
        goref.judge(b"(;SZ[5];B[cc];W[cc])")
    with pytest.raises(goref.Refused, match="^unexpected byte at 7$"):
        goref.tidy(b"(;B[aa]7)")


def test_lines_are_answered():
    assert goref.answers(b"play b c3\nname", size=5) == b"=\n\n= goref\n\n"
    assert goref.answers(b"") == b""


def send(text):
    with goref.Session(5) as game:
        return game.send(text)


@pytest.mark.parametrize("call", [goref.judge, goref.tidy, goref.answers, goref.games, send])
def test_text_in_place_of_bytes_is_told(call):
    with pytest.raises(TypeError, match="bytes are wanted: encode it"):
        call("(;)")
    with pytest.raises(TypeError, match="of type int, and bytes are wanted"):
        call(7)


@pytest.mark.no_library
@pytest.mark.parametrize("size", [0, 26, -1, 10**30])
def test_a_size_that_no_board_has_is_told(size):
    for call in (lambda: goref.answers(b"", size), lambda: goref.Session(size)):
        with pytest.raises(goref.BadSize, match=f"^size is {size}: a board has 1 to 25 lines$"):
            call()
    assert issubclass(goref.BadSize, ValueError)


@pytest.mark.no_library
def test_a_size_of_another_type_is_told():
    with pytest.raises(TypeError, match="size is of type str"):
        goref.Session("19")


def games_of(text):
    return [(game.begin, game.end, game.is_whole) for game in goref.games(text)]


def test_games_are_found_one_after_another():
    assert games_of(b"") == games_of(b"no (game") == []
    assert games_of(b"(;)\n x(;B[aa]) ") == [(0, 3, True), (6, 14, True)]
    assert games_of(b"(;B)(;)") == [(0, 3, False), (4, 7, True)]
    assert games_of(b"(;(;)") == [(0, 5, False)]


def test_a_broken_game_is_refused_by_its_bytes():
    [broken, whole] = goref.games(b" (;SZ[5];B[cc]7)(;SZ[5])")
    assert broken.text == b"(;SZ[5];B[cc]7"
    with pytest.raises(goref.Refused, match="^unexpected byte at 13$"):
        goref.judge(broken.text)
    assert goref.judge(whole.text).moves == 0


def test_games_are_found_as_they_are_asked_for(monkeypatch):
    class Counted:
        calls = 0

        def __getattr__(self, name):
            self.calls += name == "goref_next_game"
            return getattr(_library.library(), name)

    counted = Counted()
    monkeypatch.setattr(_calls, "library", lambda: counted)
    found = goref.games(b"(;)" * 1000 + b"(")
    assert (next(found).end, counted.calls) == (3, 1)
    assert (next(found).begin, counted.calls) == (3, 2)


@pytest.mark.no_library
@pytest.mark.parametrize(
    "library, told",
    [("/no/such/library.so", "can't be loaded"), (__file__, "can't be loaded"), ("libc.so.6", "is older than this module")],
)
def test_a_missing_library_is_told_in_a_sentence(library, told):
    here = os.path.join(os.path.dirname(os.path.abspath(__file__)), "..")
    program = "import goref\ntry:\n    goref.judge(b'')\nexcept goref.MissingLibrary as why:\n    print(why)\n"
    environment = {**os.environ, "GOREF_LIBRARY": library, "PYTHONPATH": here}
    end = subprocess.run([sys.executable, "-B", "-c", program], env=environment, capture_output=True, text=True)
    assert end.returncode == 0 and end.stderr == ""
    assert told in end.stdout and "make it anew by bindings/build" in end.stdout

"""Records of handicap games, as GNU Go reads them."""

import os
import shutil
import subprocess

import pytest

import goref
from goref._tools.match_outcome import Outcome, Times
from goref._tools.match_record import record_of
from goref._tools.match_settings import Settings
from goref._tools.spelling import main_line
from kit.matches import PASS, match

GNUGO = shutil.which("gnugo", path=os.environ.get("PATH", "") + ":/usr/games")


def game_of(size, handicap):
    """The record of a game with a handicap, and the black stones and the white ones that stand in it."""
    players = {"b": "first", "w": "second"}
    outcome = Outcome(1, players, "B+R", "resignation", None, 2, {"b": Times(), "w": Times()}, "2026-11-30")
    settings = Settings(("first", "second"), size, "0.5", handicap, "positional", None)
    with goref.Session(size) as game:
        game.ask("komi 0.5")
        black = game.ask(f"fixed_handicap {handicap}").split()
        middle, beside = (f"{'ABCDEFGHJKLMNOPQRSTUVWXYZ'[column]}1" for column in (size // 2, size // 2 - 1))
        game.ask(f"play w {middle}")
        game.ask(f"play b {beside}")
        record = record_of(game.ask("goref-printsgf"), outcome, settings)
    return record, sorted([*black, beside]), [middle]


def handicaps(size):
    """How many stones are put at most: nine on odd sizes, four on even ones, as the protocol says."""
    return range(2, 10 if size % 2 else 5)


def by_gnugo(path):
    """What GNU Go has after it loaded a record: its black stones, its white ones, and what it says of faults."""
    lines = f"loadsgf {path}\nlist_stones black\nlist_stones white\nget_komi\nquery_boardsize\nquit\n"
    end = subprocess.run([str(GNUGO), "--mode", "gtp"], input=lines, capture_output=True, text=True, timeout=50)
    answers = [answer.lstrip("= ").split() for answer in end.stdout.split("\n\n")]
    return answers[0], sorted(answers[1]), sorted(answers[2]), answers[3], answers[4], end.stderr


@pytest.mark.skipif(GNUGO is None, reason="GNU Go isn't there")
@pytest.mark.parametrize("size", range(9, 20))
def test_gnu_go_reads_a_record_as_it_was_played(size, tmp_path):
    for handicap in handicaps(size):
        record, black, white = game_of(size, handicap)
        path = tmp_path / f"{handicap}.sgf"
        path.write_bytes(record)
        assert by_gnugo(path) == (["white"], black, white, ["0.5"], [str(size)], ""), record


@pytest.mark.skipif(GNUGO is None, reason="GNU Go isn't there")
@pytest.mark.parametrize("size", range(7, 26))
def test_a_record_names_its_handicap_only_if_gnu_go_puts_the_same_stones(size):
    for handicap in handicaps(size) if size > 7 else (2, 3, 4):
        lines = f"boardsize {size}\nclear_board\nfixed_handicap {handicap}\nquit\n"
        end = subprocess.run([str(GNUGO), "--mode", "gtp"], input=lines, capture_output=True, text=True, timeout=50)
        put, *_ = (answer.lstrip("= ").split() for answer in end.stdout.split("\n\n")[2:])
        with goref.Session(size) as game:
            is_same = end.stdout.startswith("= \n") and sorted(put) == sorted(game.ask(f"fixed_handicap {handicap}").split())
        start = main_line(game_of(size, handicap)[0])[0]
        assert start.first("HA") == (str(handicap).encode() if is_same else None)


@pytest.mark.parametrize("size", [9, 12, 19, 25])
def test_stones_are_set_up_before_the_colour_that_begins(size):
    names = [one.name for one in main_line(game_of(size, 2)[0])[0].properties]
    assert names[-2:] == ["AB", "PL"]


def test_a_handicap_on_twelve_lines(match):
    match("--handicap", 2, "--komi", "0.5", PASS, PASS, size=12)
    assert b"HA[" not in match.record() and b"KM[0.5]AB[cj][jc]PL[W]" in match.record()
    assert match.results == ["B+143.5"]

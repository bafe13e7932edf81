"""Games of matches that couldn't begin or go on."""

import json
import shlex

from kit.matches import PASS, engine, match

REFUSES = engine("boardsize=refuse=no")


def test_two_engines_that_are_not_there_are_both_told(match):
    match("--games", 2, "/none1", "/none2")
    why = "can't be started: No such file or directory"
    assert match.status == 1 and match.results == [None, None]
    assert match.reasons == [f"Black (/none1) {why}; White (/none2) {why}", f"Black (/none2) {why}; White (/none1) {why}"]
    assert match.err.splitlines() == [f"goref-tools: game {number}: {line}" for number, line in enumerate(match.reasons, 1)]


def test_two_engines_that_fail_at_once_are_both_told(match):
    one, two = engine("boardsize=end=3"), engine("boardsize=end=4")
    match("--games", 2, one, two)
    assert match.reasons[1] == (
        f"Black ({two}) ended with status 4 at `boardsize 5`; White ({one}) ended with status 3 at `boardsize 5`"
    )


def test_three_games_one_after_another_end_the_match(match):
    match("--games", 9, REFUSES, PASS)
    assert match.status == 3 and match.results == [None] * 3
    last = f"Black ({REFUSES}) refused `boardsize 5`: no"
    assert match.err.splitlines()[-1] == (
        f"goref-tools: the match ends: 3 games one after another couldn't begin or go on; the last: {last}"
    )
    assert "games 3, with a result 0, distinct 0\n" in match.out


def test_another_number_of_games_ends_the_match(match):
    match("--games", 9, "--void", 1, REFUSES, PASS)
    assert match.status == 3 and match.results == [None]
    assert "the match ends: a game couldn't begin or go on; the last: " in match.err
    match.log.unlink()
    assert match("--games", 5, "--void", 6, REFUSES, PASS).status == 1 and match.results == [None] * 5


def test_several_at_once_end_the_match_too(match):
    match("--games", 40, "-j", 3, REFUSES, PASS)
    assert match.status == 3 and 3 <= len(match.results) <= 5


def test_games_between_them_that_can_be_played_go_on(match):
    """The engine refuses a move of Black's in games in which it is White."""
    one, bad = engine("genmove=moves=C3"), engine("play b=refuse=no")
    match("--games", 8, one, bad)
    assert match.status == 1 and match.results == [None, "W+32.5"] * 4


def mended(folder):
    """The command line of an engine that isn't there before a file is."""
    mark = shlex.quote(str(folder / "mark"))
    return shlex.join(["sh", "-c", f"[ -e {mark} ] && exec {PASS}"])


def test_they_are_played_anew_when_the_match_goes_on(match):
    one = mended(match.log.parent)
    match("--games", 2, one, PASS)
    assert match.results == [None, None] and match.names() == []
    (match.log.parent / "mark").touch()
    match("--games", 3, one, PASS)
    assert match.status == 0 and match.results == [None, None, "W+7.5", "W+7.5", "W+7.5"] and len(match.names()) == 3
    assert [game["game"] for game in match.games] == [1, 2, 1, 2, 3]
    assert "games 3, with a result 3" in match.out
    before = match.log.read_bytes()
    assert match("--games", 3, one, PASS).status == 0 and match.log.read_bytes() == before


def test_a_record_of_a_game_that_could_not_go_on_is_replaced(match):
    """An engine refuses a legal move until it is mended."""
    mark = match.log.parent / "mark"
    refuses = engine("play=refuse=no")
    bad = shlex.join(["sh", "-c", f"[ -e {shlex.quote(str(mark))} ] && exec {PASS} || exec {refuses}"])
    match(engine("genmove=moves=C3"), bad)
    assert match.results == [None] and b"RE[Void]" in match.record()
    mark.touch()
    match(engine("genmove=moves=C3"), bad)
    assert match.status == 0 and match.results == [None, "B+17.5"] and b"RE[B+17.5]" in match.record()
    assert match.names() == ["game-0001.sgf"] and match.err == ""


LONG = "A1,A2,A1,A2,B1,A1,B1,B2", "B1,B2,pass,B2,B2,A2,A2,A2"
"""On four points stones are taken back and forth, and no position comes again in these 16 moves."""


def test_a_game_that_was_too_long_is_played(match):
    black, white = (engine(f"genmove=moves={moves}") for moves in LONG)
    match("--void", 1, black, white, size=2)
    assert match.status == 1 and match.games[0]["end"] == "length"
    before = match.log.read_bytes()
    assert match("--void", 1, black, white, size=2).status == 1 and match.log.read_bytes() == before


def test_a_game_stands_twice_in_a_log_only_if_it_could_not_go_on(match):
    match("--games", 1, PASS, PASS)
    match.log.write_text(match.log.read_text() + json.dumps(match.games[0]) + "\n")
    assert match(PASS, PASS).status == 3 and match.err.endswith("log: a game stands in it twice\n")

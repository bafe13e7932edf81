"""What engines claim, copies of games, and seeds."""

import json

import pytest

from goref._tools.match_outcome import winner_of
from kit.matches import PASS, engine, lines_in, match, numbers_in

KNOWS = r"known_command final_score=say== true\n\n"


@pytest.mark.parametrize(
    "text, winner",
    [
        ("B+3.5", "B"), ("W+12", "W"), ("b+R", "B"), ("0", "0"), ("0.0", "0"), ("Draw", "0"), ("jigo", "0"), ("W+51.0 (upper bound: 3)", "W"),
        ("", None), (None, None), ("white wins", None), ("+3", None),
    ],
)
def test_who_wins_by_a_claim(text, winner):
    assert winner_of(text) == winner


def test_engines_are_asked_for_the_score_after_two_passes(match):
    note = match.log.parent / "note"
    match(engine(f"=note={note}", KNOWS, r"final_score=say== B+3.0\n\n"), PASS)
    assert lines_in(note)[-3:] == ["known_command final_score", "final_score", "quit"]
    assert match.games[0]["claims"] == {"black": "B+3.0", "white": None}
    assert match.results == ["W+7.5"] and (match.status, match.err) == (0, "")
    assert "\nanother winner is claimed by an engine in 1 of 1 games with a claim\n" in match.out


def test_an_engine_that_claims_the_same_winner_disputes_nothing(match):
    match("--games", 2, engine(KNOWS, r"final_score=say== W+100\n\n"), PASS)
    assert "\nanother winner is claimed by an engine in 0 of 2 games with a claim\n" in match.out


@pytest.mark.parametrize("words", [[], [KNOWS, "final_score=refuse=cannot score"]])
def test_an_engine_that_knows_no_score_claims_none(match, words):
    note = match.log.parent / "note"
    match(engine(f"=note={note}", *words), PASS)
    assert ("final_score" in lines_in(note)) == bool(words)
    assert match.games[0]["claims"] == {"black": None, "white": None} and match.status == 0
    assert "claimed" not in match.out


def test_an_engine_that_fails_when_it_is_asked_changes_no_result(match):
    bad = engine(KNOWS, "final_score=end=7")
    match("--games", 2, bad, PASS)
    assert match.status == 0 and match.results == ["W+7.5", "W+7.5"]
    why = "ended with status 7 at `final_score` after the game"
    assert match.reasons == [f"Black ({bad}) {why}", f"White ({bad}) {why}"]
    assert [game["end"] for game in match.games] == ["score", "score"]


def test_a_game_that_is_resigned_has_no_claims(match):
    note = match.log.parent / "note"
    match(engine(f"=note={note}", KNOWS), engine(r"genmove=say== resign\n\n"))
    assert match.games[0]["claims"] is None and "final_score" not in lines_in(note)


def test_copies_are_counted_once(match):
    match("--games", 4, PASS, PASS)
    lines = match.out.splitlines()
    assert lines[4:7] == [
        "games 4, with a result 4, distinct 2",
        "ended by score 4, resignation 0, time 0, forfeit 0",
        "the interval is over the distinct games: the others are copies of these",
    ]
    # Wilson's interval for 1 of 2 by hand: (0.5 + 0.960365 +- 1.959964 * sqrt(0.125 + 0.240091)) / 2.920729.
    assert [line.split()[4:9] for line in lines[-2:]] == [["50.0", "%", "9.5", "to", "90.5"]] * 2


def test_games_of_other_moves_are_distinct(match):
    match("--games", 4, engine("genmove=moves=C3"), PASS)
    assert "games 4, with a result 4, distinct 2\n" in match.out
    match.log.unlink()
    for number in range(1, 5):
        (match.records / f"game-{number:04}.sgf").unlink()
    # The engine plays other points in its first two games as Black than in the next ones: it's told the game.
    match("--games", 4, engine("genmove=moves=A{game}"), PASS)
    assert "games 4, with a result 4, distinct 4\n" in match.out and "copies" not in match.out


def test_an_engine_is_told_the_game_and_its_seed(match):
    note = match.log.parent / "note"
    one = engine(f"=note={note}-{{game}}-{{seed}}")
    match("--games", 2, "--seed", 5, one, one)
    seeds = [game["seed"] for game in match.games]
    assert match.settings["seed"] == 5 and len(set(seeds)) == 2 and all(1 <= seed < 2**31 for seed in seeds)
    for game, seed in enumerate(seeds, 1):
        # Both engines of a game, each started for it alone and ended by quit.
        told = match.log.parent / f"note-{game}-{seed}"
        assert len(numbers_in(told)) == 2 and lines_in(told).count("quit") == 2
    assert match.out.count("\nseed 5\n") == 1 and f"PB[{one}]".encode() in match.record()
    match("--games", 3, one, one)
    assert match.status == 0 and match.settings["seed"] == 5 and "\nseed 5\n" in match.out
    assert match("--games", 3, "--seed", 6, one, one).status == 2
    assert match.err == f"goref-tools: {match.log} is the log of another match: seed 5\n"


def test_the_same_seed_gives_the_same_seeds_of_games(match):
    match("--games", 2, "--seed", 5, PASS, PASS)
    seeds = [game["seed"] for game in match.games]
    match.log.unlink()
    match("--games", 2, "--seed", 5, "--records", match.log.parent / "other", PASS, PASS)
    assert [game["seed"] for game in match.games] == seeds and "seed" not in match.out
    match.log.unlink()
    match("--games", 2, "--records", match.log.parent / "third", PASS, PASS)
    assert [game["seed"] for game in match.games] != seeds


@pytest.mark.parametrize("words", [["--seed", "-1"], ["--seed", "x"], ["--seed", "1" * 19], ["--void", "0"], ["--void", "x"]])
def test_numbers_that_are_none_are_refused(match, words):
    assert match(*words, PASS, PASS).status == 2 and not match.log.exists()


def test_a_log_of_a_newer_version_is_refused_by_its_number(match):
    match(PASS, PASS)
    text = match.log.read_text().replace('"version": 2', '"version": 3', 1)
    match.log.write_text(text)
    assert match(PASS, PASS).status == 2 and match.log.read_text() == text
    assert match.err == f"goref-tools: {match.log} is a log of version 3, and this goref-tools reads versions up to 2\n"


@pytest.mark.parametrize("old, new", [('"version": 2', '"version": "2"'), ('"seed": ', '"seed": "x", "seeds": '), ('"match": ', '"matches": ')])
def test_a_first_line_that_somebody_changed_is_refused(match, old, new):
    match(PASS, PASS)
    text = match.log.read_text().replace(old, new, 1)
    match.log.write_text(text)
    assert match(PASS, PASS).status == 2 and match.log.read_text() == text
    assert match.err == f"goref-tools: {match.log} is no log of a match\n"

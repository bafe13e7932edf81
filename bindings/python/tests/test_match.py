"""Whole matches, most of them between stand-ins for engines."""

import argparse
import asyncio
import json
import os
import shlex
import shutil
import signal
import time

import pytest

import goref
from goref._tools import engine as engine_module
from goref._tools import match_keeper
from goref._tools.main import main
from goref._tools.match_game import Played
from goref._tools.match_outcome import Outcome, Times
from goref._tools.match_record import Differs, record_of
from goref._tools.match_settings import Settings
from goref._tools.spelling import main_line, simple_text_of
from goref._tools.words import match as match_word
from kit.matches import PASS, command, engine, in_the_foreground, lines_in, match, numbers_in, wait_for
from running import is_gone

def test_a_game_that_is_passed_is_whites_by_the_komi(match):
    match(PASS, PASS)
    assert match.status == 0 and match.err == ""
    (game,) = match.games
    assert game["game"] == 1 and game["black"] == game["white"] == PASS
    assert (game["result"], game["end"], game["reason"], game["moves"]) == ("W+7.5", "score", None, 2)
    assert game["times"]["black"]["moves"] == game["times"]["white"]["moves"] == 1
    assert 0 < game["times"]["black"]["mean"] == game["times"]["black"]["greatest"] < 5
    lines = match.out.splitlines()
    assert lines[0] == f"game 1: W+7.5 after 2 moves, B {PASS}, W {PASS}"
    assert lines[1:3] == ["games 1, with a result 1, distinct 1", "ended by score 1, resignation 0, time 0, forfeit 0"]
    assert [line.split()[:5] for line in lines[4:]] == [["0", "0", "0", "0", "0.0"], ["1", "0", "1", "0", "100.0"]]


def test_a_game_with_stones_is_scored_by_area(match):
    match("--komi", "0.50", engine("genmove=moves=C3"), PASS)
    assert match.results == ["B+24.5"] and match.games[0]["moves"] == 3
    one = engine("genmove=moves=C3")
    date = match.games[0]["date"]
    told = f"CA[UTF-8]PB[{one}]PW[{PASS}]RE[B+24.5]DT[{date}]RU[Tromp-Taylor]"
    assert match.record().decode() == f"(;GM[1]FF[4]{told}SZ[5]KM[0.5]PL[B];B[cc];W[];B[])\n"


def test_a_draw(match):
    match("--komi", "0", "--games", 2, PASS, PASS)
    assert match.status == 0 and match.results == ["0", "0"] and b"RE[0]" in match.record(2)
    assert [line.split()[:5] for line in match.out.splitlines()[-2:]] == [["0", "0", "0", "2", "50.0"]] * 2


def test_colours_in_turn(match):
    one, two = engine("genmove=moves=C3"), engine("genmove=moves=A1,A2")
    match("--games", 3, one, two)
    assert [(game["black"] == one, game["white"] == two) for game in match.games] == [
        (True, True),
        (False, False),
        (True, True),
    ]
    # C3 and A1, A2 leave no empty point to one colour alone: 1 - 2 - 7.5, then 2 - 1 - 7.5.
    assert match.results == ["W+8.5", "W+6.5", "W+8.5"]


def test_a_handicap(match):
    note = match.log.parent / "note"
    match("--handicap", 2, "--komi", "0.5", engine(f"=note={note}"), PASS, size=9)
    assert match.results == ["B+80.5"] and match.games[0]["moves"] == 2
    assert b"HA[2]AB[cg][gc]PL[W];W[];B[]" in match.record()
    assert "set_free_handicap C3 G7" in note.read_text()


def test_resignation(match):
    match("--games", 2, PASS, engine("genmove=say== Resign\\n\\n"))
    assert match.results == ["B+R", "W+R"] and [game["end"] for game in match.games] == ["resignation"] * 2
    assert match.status == 0 and b"RE[B+R]" in match.record() and b";B[])" in match.record()


@pytest.mark.parametrize(
    "text, move",
    [
        (r"=1 C3\n\n", b"cc"),
        (r"= c3\r\n\r\n", b"cc"),
        (r"\n\n=c3 \n\n\n", b"cc"),
        (r"= PASS\n\n", b""),
    ],
)
def test_responses_are_read_as_the_protocol_has_them(match, text, move):
    match(engine(f"genmove=say={text}", r"boardsize=say==9\r\n\r\n"), engine(r"genmove=say== resign\n\n"))
    assert match.results == ["B+R"] and match.record().endswith(b";B[" + move + b"])\n")


# What an engine does, and how that is told. It loses each of two games, one with each colour.
LOSES = [
    (["genmove=end=4"], "ended with status 4 at `genmove {c}`"),
    (["genmove=crash"], "was ended by SIGKILL at `genmove {c}`"),
    (["genmove=hang"], "wrote no response within 1 s at `genmove {c}`"),
    (["genmove=close"], "closed its output at `genmove {c}`"),
    (["genmove=flood"], "wrote more than 1,000,000 bytes at `genmove {c}`"),
    (["genmove=flood=n"], "wrote more than 1,000,000 bytes at `genmove {c}`"),
    (["genmove=refuse=I won't"], "refused `genmove {c}`: I won't"),
    (["genmove=say=A1\\n\\n"], "wrote `A1`, which is no response, at `genmove {c}`"),
    (["genmove=say==\\n\\n"], "answered `genmove {c}` by no vertex: ``"),
    (["genmove=say== I5\\n\\n"], "answered `genmove {c}` by no vertex: `I5`"),
    (["genmove=say== a26\\n\\n"], "answered `genmove {c}` by no vertex: `a26`"),
    (["genmove=say== A1 A2\\n\\n"], "answered `genmove {c}` by no vertex: `A1 A2`"),
    (["genmove=say== A1#\\n\\n"], "answered `genmove {c}` by no vertex: `A1#`"),
    (["genmove=say== A1\\nundo\\n\\n"], "answered `genmove {c}` by no vertex: `A1`"),
    (["genmove=say== F1\\n\\n"], "played F1: off the board"),
    (["genmove=say== a6\\n\\n"], "played A6: off the board"),
]


@pytest.mark.parametrize("words, why", LOSES, ids=[" ".join(words) for words, _ in LOSES])
def test_an_engine_that_fails_loses(match, monkeypatch, words, why):
    monkeypatch.setattr(engine_module, "_DRAIN", 0.1)
    bad = engine(*words)
    match("--games", 2, "--move-seconds", 1 if "hang" in words[0] else 20, bad, PASS)
    assert match.results == ["W+F", "B+F"] and [game["end"] for game in match.games] == ["forfeit"] * 2
    told = [f"Black ({bad}) {why.format(c='b')}", f"White ({bad}) {why.format(c='w')}"]
    assert match.reasons == told and match.status == 0
    assert match.err.splitlines() == [f"goref-tools: game {number}: {line}" for number, line in enumerate(told, 1)]
    assert b"RE[W+F]" in match.record(1) and b"RE[B+F]" in match.record(2)
    assert goref.judge(match.record(1)).moves == 0 and goref.judge(match.record(2)).moves == 1


@pytest.mark.parametrize("end", ["end=4", "hang", "flood", "say=well\\n\\n"])
def test_an_engine_that_fails_at_a_move_of_its_opponent_loses(match, end):
    bad = engine(f"play={end}")
    match("--line-seconds", 2 if end == "hang" else 20, bad, engine("genmove=moves=C3"))
    assert match.results == ["W+F"] and match.reasons[0].endswith(" at `play w C3`")
    assert goref.judge(match.record()).moves == 2


def test_illegal_moves_are_told_with_their_reason(match):
    match("--games", 2, engine("genmove=cycle=C3"), engine("genmove=moves=C3"))
    assert match.results == ["B+F", "B+F"]
    assert [reason.partition(") ")[2] for reason in match.reasons] == ["played C3: move 2 is on a stone"] * 2


def test_a_ko_that_is_taken_back_at_once_is_told_with_its_reason(match):
    # Black takes B2 by C2. White's B2 would take that back.
    match(engine("genmove=moves=A2,B3,B1,pass,C2"), engine("genmove=moves=C3,D2,C1,B2,B2"))
    assert match.results == ["B+F"] and match.games[0]["moves"] == 9
    assert match.reasons[0].endswith(") played B2: move 10 repeats the position after 8 moves")


def test_the_superko_rule(match):
    # On one point the first stone is a suicide, after which the board is empty again, with the other to move.
    one = engine("genmove=moves=A1")
    match(one, one, size=1)
    assert match.results == ["W+F"]
    assert match.reasons[0].endswith(") played A1: move 1 repeats the position after 0 moves")
    match.log.unlink()
    (match.records / "game-0001.sgf").unlink()
    match("--superko", "situational", one, one, size=1)
    assert match.results == ["B+F"] and match.reasons[0].endswith(") played A1: illegal move")
    assert b"RU[Tromp-Taylor, situational superko]" in match.record() and b";B[aa])" in match.record()


def test_an_engine_that_refuses_a_legal_move_leaves_no_result(match):
    one, bad = engine("genmove=moves=C3"), engine("play=refuse=illegal move")
    match("--games", 2, one, bad)
    assert match.results == [None, None] and match.status == 1
    assert match.reasons == [
        f"White ({bad}) refused `play b C3`: illegal move",
        f"Black ({bad}) refused `play w C3`: illegal move",
    ]
    assert b"RE[Void]" in match.record(1) and goref.judge(match.record(2)).moves == 2
    assert match.out.splitlines()[0] == f"game 1: no result after 1 moves, B {one}, W {bad}"
    assert "games 2, with a result 0" in match.out


# What an engine does before the first move, and how that is told.
NO_RESULT = [
    (["boardsize=end"], "ended with status 3 at `boardsize 5`"),
    (["boardsize=hang"], "wrote no response within 2 s at `boardsize 5`"),
    (["clear_board=flood"], "wrote more than 1,000,000 bytes at `clear_board`"),
    (["boardsize=refuse=unacceptable size"], "refused `boardsize 5`: unacceptable size"),
    (["komi=refuse="], "refused `komi 7.5`"),
    (["komi=say=hello\\n"], "wrote `hello`, which is no response, at `komi 7.5`"),
]


@pytest.mark.parametrize("words, why", NO_RESULT, ids=[" ".join(words) for words, _ in NO_RESULT])
def test_an_engine_that_is_not_set_up_leaves_no_result(match, words, why):
    bad = engine(*words)
    match("--games", 2, "--line-seconds", 2 if "hang" in words[0] else 20, PASS, bad)
    assert match.results == [None, None] and match.status == 1
    assert match.reasons == [f"White ({bad}) {why}", f"Black ({bad}) {why}"]
    assert [game["end"] for game in match.games] == ["none", "none"] and match.names() == []


def test_an_engine_that_is_not_there_leaves_no_result(match):
    match("--games", 2, "/none --gtp", PASS)
    assert match.results == [None] * 2 and match.status == 1
    assert match.reasons[0] == "Black (/none --gtp) can't be started: No such file or directory"
    assert match.err.splitlines()[1] == (
        "goref-tools: game 2: White (/none --gtp) can't be started: No such file or directory"
    )


def test_an_engine_that_refuses_a_handicap_leaves_no_result(match):
    match("--handicap", 2, PASS, engine("set_free=refuse=no"), size=9)
    assert match.results == [None] and match.reasons[0].endswith("refused `set_free_handicap C3 G7`: no")


def test_a_game_without_end_has_no_result(match):
    # On four points stones are taken back and forth, and no position comes again in these 16 moves.
    black, white = "A1,A2,A1,A2,B1,A1,B1,B2", "B1,B2,pass,B2,B2,A2,A2,A2"
    match(engine(f"genmove=moves={black}"), engine(f"genmove=moves={white}"), size=2)
    assert match.results == [None] and match.status == 1 and match.games[0]["moves"] == 16
    assert match.reasons == ["the game had no end after 16 moves"] and match.games[0]["end"] == "length"
    assert b"RE[Void]" in match.record() and "games 1, with a result 0, distinct 0\n" in match.out


def test_a_move_that_comes_later_loses_on_time(match):
    bad = engine("genmove=hang")
    match("--games", 2, "--seconds", "1", PASS, bad)
    assert match.results == ["B+T", "W+T"] and [game["end"] for game in match.games] == ["time", "time"]
    assert match.status == 0 and b"RE[B+T]" in match.record()
    assert match.reasons[0] == f"White ({bad}) wrote no response within 1 s at `genmove w`"
    assert "time 2" in match.out


def test_a_move_in_time_is_played(match):
    match("--seconds", "5", engine("genmove=slow=0.1"), PASS)
    assert match.results == ["W+7.5"] and 0.1 <= match.games[0]["times"]["black"]["greatest"] < 5


@pytest.mark.parametrize(
    "seconds, told",
    [("2.5", ["time_settings 0 2 1"]), ("1.2", ["time_settings 0 1 1"]), ("1", ["time_settings 0 1 1"]), ("0.9", [])],
)
def test_engines_are_told_no_more_time_than_they_have(match, seconds, told):
    note, other = match.log.parent / "note", match.log.parent / "other"
    refuses = engine(f"=note={other}", "time_settings=refuse=unknown command")
    match("--seconds", seconds, engine(f"=note={note}"), refuses)
    for path in (note, other):
        lines = lines_in(path)
        assert lines[:3] == ["boardsize 5", "clear_board", "komi 7.5"]
        assert [line for line in lines if line.startswith("time_settings")] == told
    assert match.results == ["W+7.5"]


def test_engines_that_behave_stay_and_those_that_fail_are_started_anew(match):
    note, other = match.log.parent / "note", match.log.parent / "other"
    match("--games", 3, engine(f"=note={note}", "genmove w=end"), engine(f"=note={other}"))
    assert match.results == ["W+7.5", "B+F", "W+7.5"]
    assert len(numbers_in(note)) == 2 and len(numbers_in(other)) == 1
    wait_for(lambda: all(map(is_gone, numbers_in(note) + numbers_in(other))))
    assert other.read_text().splitlines()[-1].endswith(" quit")


def test_an_engine_that_ends_between_games_is_started_anew(match):
    script = r"while read line; do printf '= pass\n\n'; case $line in (genmove*) exit;; esac; done"
    match("--games", 3, PASS, shlex.join(["sh", "-c", script]))
    assert match.results == ["W+7.5"] * 3, match.reasons


def test_several_games_at_once(match):
    note = match.log.parent / "note"
    slow = engine(f"=note={note}", "genmove=slow=0.1")
    match("--games", 6, "-j", 3, slow, PASS)
    # Each that is under way has an engine of its own.
    assert len(numbers_in(note)) == 3
    assert sorted(game["game"] for game in match.games) == [1, 2, 3, 4, 5, 6] and match.results == ["W+7.5"] * 6
    assert len(match.names()) == 6


OPENINGS = {"a.sgf": b"(;SZ[5];B[cc];W[cd](;B[dd])(;B[aa]))", "b.SGF": b"(;SZ[5]C[x];W[aa])", "no": b"("}


def openings_in(folder, **files):
    folder.mkdir()
    for name, record in {**OPENINGS, **files}.items():
        (folder / name).write_bytes(record)
    return folder


def test_openings(match, tmp_path):
    note, other = tmp_path / "note", tmp_path / "other"
    folder = openings_in(tmp_path / "openings")
    match("--openings", folder, "--games", 5, engine(f"=note={note}"), engine(f"=note={other}"))
    moves = [record.split(b"PL[")[1] for record in map(match.record, range(1, 6))]
    first, second = b"B];B[cc];W[cd];B[dd];W[];B[])\n", b"B];W[aa];B[];W[])\n"
    assert moves == [first, first, second, second, first]
    for path in (note, other):
        lines = [line.split(" ", 1)[1] for line in path.read_text().splitlines()]
        assert lines[3:6] == ["play b C3", "play w C2", "play b D2"]
    assert [game["moves"] for game in match.games] == [5, 5, 3, 3, 5]
    assert match.games[0]["times"]["black"]["moves"] == 1
    logged = json.loads(match.log.read_text().splitlines()[0])["openings"]
    assert [name for name, _ in logged] == ["a.sgf", "b.SGF"]


def test_hidden_openings_are_left_out_and_what_is_not_read_is_told(match, tmp_path):
    folder = tmp_path / "openings"
    folder.mkdir()
    for name, record in [("a.sgf", b"(;SZ[5];B[cc])"), (".b.sgf", b"(;SZ[5];B[aa])"), ("c.sgfs", b"(;SZ[5];B[bb])")]:
        (folder / name).write_bytes(record)
    match("--openings", folder, "--games", 1, PASS, PASS)
    assert match.err == f"goref-tools: {folder}: 1 file not read: 1 .sgfs; 1 hidden not read (--hidden)\n"
    assert [name for name, _ in match.settings["openings"]] == ["a.sgf"]
    match.log.unlink()
    (match.records / "game-0001.sgf").unlink()
    match("--openings", folder, "--hidden", "--games", 1, PASS, PASS)
    assert match.err == f"goref-tools: {folder}: 1 file not read: 1 .sgfs\n"
    assert [name for name, _ in match.settings["openings"]] == [".b.sgf", "a.sgf"]


def test_an_engine_that_refuses_an_opening_leaves_no_result(match, tmp_path):
    match("--openings", openings_in(tmp_path / "openings"), PASS, engine("play w=refuse=no"))
    assert match.results == [None] and match.reasons[0].endswith("refused `play w C2`: no")


@pytest.mark.parametrize(
    "record, why",
    [
        (b"(;SZ[9];B[cc])", "its board isn't of 5 lines"),
        (b"(;SZ[5]AB[aa];W[cc])", "stones are set up before its first move"),
        (b"(;SZ[5])", "it has no move"),
        (b"(;SZ[5];B[cc];W[];B[])", "it ends by two passes"),
        (b"(;SZ[5];B[cc];W[cc])", "move 2 is on a stone"),
        (b"(;SZ[5];B[cc]", "record ends inside a tree at byte 13"),
        (b"hello", "no game tree"),
    ],
)
def test_a_wrong_opening_is_told_before_the_first_game(match, tmp_path, record, why):
    note = tmp_path / "note"
    folder = openings_in(tmp_path / "openings", **{"c.sgf": record})
    match("--openings", folder, engine(f"=note={note}"), PASS)
    assert match.status == 3 and match.err == f"goref-tools: {folder}/c.sgf: {why}\n" and match.out == ""
    assert not match.log.exists() and not note.exists()


def test_an_opening_is_read_in_its_charset(match, tmp_path):
    record = b"(;SZ[5]CA[Big5]PB[\xb3\\\xa5\\\xbb\\];B[cc];W[cd];B[dd])"
    folder = openings_in(tmp_path / "openings")
    (folder / "a.sgf").write_bytes(record)
    match("--openings", folder, PASS, PASS)
    assert b"PL[B];B[cc];W[cd];B[dd];W[];B[])" in match.record(1)


def test_an_opening_whose_moves_depend_on_a_guess(match, tmp_path):
    record = b"(;SZ[5]PB[\xb3\\\xa5\\\xbb\\];B[cc];W[cd];B[dd])"
    folder = openings_in(tmp_path / "openings", **{"c.sgf": record})
    assert match("--openings", folder, PASS, PASS).status == 3
    assert match.err == f"goref-tools: {folder}/c.sgf: its moves depend on the charset, which is a guess\n"


def test_a_folder_without_openings(match, tmp_path):
    (tmp_path / "none").mkdir()
    for folder, why in [(tmp_path / "none", "no file in it is named *.sgf"), (tmp_path / "x", "no folder")]:
        assert match("--openings", folder, PASS, PASS).status == 3
        assert match.err == f"goref-tools: {folder}: {why}\n"


@pytest.mark.parametrize(
    "words, why",
    [
        (["--size", "26"], "--size 26: size is 26: a board has 1 to 25 lines"),
        (["--size", "0"], "--size 0: size is 0: a board has 1 to 25 lines"),
        (["--komi", "x"], "--komi x: syntax error"),
        (["--komi", "7 5"], "--komi '7 5' is no komi"),
        (["--komi", ""], "--komi '' is no komi"),
        (["--handicap", "1"], "--handicap 1: invalid number of stones"),
        (["--handicap", "10"], "--handicap 10: invalid number of stones"),
        (["--handicap", "-2"], "--handicap -2: syntax error"),
        (["--handicap", "2", "--openings", "."], "--openings and --handicap don't go together"),
    ],
)
def test_words_that_are_wrong(match, words, why):
    assert match(*words, PASS, PASS, size=19).status == 2
    assert match.err == f"goref-tools: {why}\n" and not match.log.exists()


@pytest.mark.parametrize(
    "words",
    [
        ["--games", "0", PASS, PASS],
        ["--games", "x", PASS, PASS],
        ["-j", "0", PASS, PASS],
        ["--seconds", "0", PASS, PASS],
        ["--seconds", "nan", PASS, PASS],
        ["--seconds", "inf", PASS, PASS],
        ["--superko", "natural", PASS, PASS],
        [PASS],
    ],
)
def test_words_that_are_refused(match, words):
    assert match(*words).status == 2 and not match.log.exists()


@pytest.mark.parametrize(
    "command, why",
    [("'a", "`'a` is no command line: No closing quotation"), (" ", "an engine has no command line")],
)
def test_commands_that_are_wrong(match, command, why):
    assert match(PASS, command).status == 2 and match.err == f"goref-tools: {why}\n"


def test_the_help_has_an_example(capsys):
    assert main(["match", "--help"]) == 0
    told = capsys.readouterr().out
    assert "example:\n  goref-tools match --games 20" in told and "--line-seconds" not in told
    # Without it GNU Go passes while dead stones stand, and goref takes none for dead.
    assert "'gnugo --mode gtp --chinese-rules --capture-all-dead --seed {seed}'" in told


def test_a_line_has_a_minute_and_a_move_an_hour():
    parser = argparse.ArgumentParser()
    match_word.add_arguments(parser)
    given = parser.parse_args(["black", "white"])
    assert (given.line_seconds, given.move_seconds) == (60, 3600)
    assert "answers no line within a minute or no `genmove` within an hour" in " ".join(match_word.__doc__.split())


def test_records_of_another_match_stay(match):
    match("--records", match.records, PASS, PASS)
    match.log.unlink()
    before = match.record(1)
    arguments = ["match", "--size", "5", "--records", match.records, PASS, PASS]
    assert main([str(one) for one in arguments]) == 2 and match.record(1) == before
    assert match(PASS, PASS).status == 2 and match.record(1) == before and not match.log.exists()
    (match.records / "game-0001.sgf").rename(match.records / "game-0002.sgf")
    assert main([str(one) for one in arguments]) == 2 and match.names() == ["game-0002.sgf"]


@pytest.mark.parametrize("old, new", [('"black": "', '"black": "other '), ('"game": 2', '"game": 1'), ('"game": 1', '"game": 2')])
def test_a_log_that_somebody_changed_is_refused(match, old, new):
    match("--games", 2, PASS, PASS)
    text = match.log.read_text()
    match.log.write_text(text.replace(old, new, 1))
    assert match("--games", 3, PASS, PASS).status == 3 and match.log.read_text() == text.replace(old, new, 1)


def test_the_same_command_goes_on(match):
    match("--games", 2, PASS, PASS)
    (match.records / "game-0001.sgf").unlink()
    before = match.log.read_bytes()
    match("--games", 2, PASS, PASS)
    assert match.log.read_bytes() == before and match.names() == ["game-0002.sgf"]
    assert match.status == 3 and match.out.startswith("games 2, with a result 2, distinct 2\n")
    assert match.err == "goref-tools: no record is there of these games of the log: 1\n"
    match("--games", 3, PASS, PASS)
    assert match.log.read_bytes().startswith(before) and match.results == ["W+7.5"] * 3
    assert match.out.startswith("game 3: W+7.5 after 2 moves") and "games 3, with a result 3" in match.out
    assert match.status == 3 and match.names() == ["game-0002.sgf", "game-0003.sgf"]


def test_a_log_of_another_match_is_refused(match):
    match(PASS, PASS)
    before = match.log.read_bytes()
    assert match("--komi", "6.5", PASS, PASS).status == 2
    assert match.err == f'goref-tools: {match.log} is the log of another match: komi "7.5"\n' and match.out == ""
    assert match("--komi", "+7.50", PASS, PASS).status == 0
    assert match.log.read_bytes() == before


def test_what_cannot_be_written_is_found_before_the_first_game(match, tmp_path):
    note = tmp_path / "note"
    one = engine(f"=note={note}")
    for words in (["--log", tmp_path / "none" / "log"], ["--log", tmp_path], ["--log", "/dev/full"]):
        assert match(*words, one, PASS).status == 3 and match.err.startswith(f"goref-tools: {words[1]}: ")
    (tmp_path / "file").write_text("")
    for folder in (tmp_path / "file", tmp_path / "file" / "folder", "/proc/records"):
        assert match("--records", folder, one, PASS).status == 3
        assert match.err.startswith(f"goref-tools: {folder}: ") and match.err.count("\n") == 1
    assert not note.exists()


def test_a_log_is_one_matchs_at_a_time(match):
    hangs = engine("genmove=hang")
    process = command("--log", match.log, hangs, PASS)
    wait_for(lambda: match.log.exists() and match.log.read_bytes())
    assert match(hangs, PASS).status == 3
    assert match.err == f"goref-tools: {match.log}: another match writes to it\n"
    process.terminate()
    process.communicate(timeout=20)
    assert process.returncode == 143 and match.results == []


def test_a_standard_output_that_is_full_loses_nothing(match):
    with open("/dev/full", "w") as full:
        process = command("--log", match.log, "--games", "2", PASS, PASS, stdout=full)
        _, err = process.communicate(timeout=20)
    assert process.returncode == 3 and match.results == ["W+7.5", "W+7.5"]
    lines = err.decode().splitlines()
    assert lines[0] == "goref-tools: standard output: No space left on device"
    assert lines[1].startswith("game 1: W+7.5") and lines[2].startswith("game 2: W+7.5") and len(lines) == 8


def test_a_standard_output_that_is_closed_is_told(match):
    process = command("--log", match.log, PASS, PASS, stdout=None, preexec_fn=lambda: os.close(1))
    _, err = process.communicate(timeout=20)
    assert process.returncode == 3 and err == b"goref-tools: standard output: it is closed\n" and not match.log.exists()


def test_a_standard_output_that_nobody_reads_loses_nothing(match):
    process = command("--log", match.log, "--games", "2", PASS, PASS)
    process.stdout.close()
    err = process.stderr.read().decode()
    process.stderr.close()
    assert process.wait(timeout=20) == 3 and match.results == ["W+7.5", "W+7.5"]
    assert err.startswith("goref-tools: standard output: Broken pipe\n") and "Traceback" not in err


def test_a_lack_of_memory_ends_the_match_and_its_engines(match, monkeypatch):
    note = match.log.parent / "note"

    def no_memory(*given):
        raise MemoryError

    monkeypatch.setattr(match_keeper, "record_of", no_memory)
    match("--games", 4, "-j", 2, engine(f"=note={note}", "genmove w=hang"), PASS)
    assert match.status == 3 and match.err == "goref-tools: out of memory\n"
    assert all(map(is_gone, numbers_in(note)))


def test_kill_9_loses_no_result_and_the_match_goes_on(match):
    note = match.log.parent / "note"
    words = ["--log", match.log, "--records", match.records, "--games", "6", "-j", "2"]
    one = engine("genmove=slow=0.05", f"=note={note}")
    process = command(*words, one, PASS)
    wait_for(lambda: match.log.exists() and match.log.read_bytes().count(b"\n") >= 3)
    process.kill()
    out, _ = process.communicate(timeout=20)
    before = match.log.read_bytes()
    told = [int(line.split()[1].rstrip(":")) for line in out.decode().splitlines() if line.startswith("game ")]
    whole = before[: before.rindex(b"\n") + 1]
    kept = [json.loads(line)["game"] for line in whole.splitlines()[1:]]
    assert kept and set(told) <= set(kept)
    # An engine ends where its input ends.
    wait_for(lambda: all(map(is_gone, numbers_in(note))))
    process = command(*words, one, PASS)
    out, err = process.communicate(timeout=20)
    # It may have been killed between the record and the line of a game.
    assert all(b" isn't in the log: it is kept as " in line or b".new: " in line for line in err.splitlines())
    assert process.returncode == 0 and match.log.read_bytes().startswith(whole)
    assert sorted(game["game"] for game in match.games) == [1, 2, 3, 4, 5, 6]
    assert b"games 6, with a result 6" in out


@pytest.mark.parametrize(
    "number, status, told",
    [
        (signal.SIGINT, 130, b"goref-tools: interrupted\n"),
        (signal.SIGTERM, 143, b"goref-tools: ended by SIGTERM\n"),
        (signal.SIGHUP, 129, b"goref-tools: ended by SIGHUP\n"),
    ],
)
def test_an_interrupt_leaves_no_engine(match, number, status, told):
    note = match.log.parent / "note"
    one = engine(f"=note={note}", "genmove w=hang")
    words = ["--log", match.log, "--games", "4", "-j", "2", one, PASS]
    process = command(*words, preexec_fn=in_the_foreground)
    wait_for(lambda: note.exists() and note.read_text().count("genmove w") == 2)
    process.send_signal(number)
    out, err = process.communicate(timeout=20)
    assert process.returncode == status and err == told
    assert all(map(is_gone, numbers_in(note)))
    # Games 1 and 3 ended, and in games 2 and 4 White hangs.
    assert [game["game"] for game in match.games] == [1, 3] and b"games 2, with a result 2" in out


def test_engines_are_ended_where_their_farewell_is_broken_off(match):
    note = match.log.parent / "note"
    process = command(engine(f"=note={note}", "quit=hang"), PASS, preexec_fn=in_the_foreground)
    wait_for(lambda: note.exists() and " quit\n" in note.read_text())
    process.send_signal(signal.SIGINT)
    out, err = process.communicate(timeout=20)
    assert process.returncode == 130 and err == b"goref-tools: interrupted\n" and out.startswith(b"game 1: W+7.5")
    wait_for(lambda: all(map(is_gone, numbers_in(note))))


def test_an_interrupt_waits_for_what_is_being_written(match, monkeypatch):
    written = match_keeper.record_of

    def interrupted(*given):
        os.kill(os.getpid(), signal.SIGINT)
        time.sleep(0.2)
        return written(*given)

    before = signal.signal(signal.SIGINT, signal.default_int_handler)
    try:
        monkeypatch.setattr(match_keeper, "record_of", interrupted)
        match("--games", 2, PASS, PASS)
    finally:
        signal.signal(signal.SIGINT, before)
    assert match.status == 130 and match.results == ["W+7.5"] and match.out.startswith("game 1: W+7.5 after 2 moves")
    assert goref.judge(match.record()).stated == "agrees"


def test_a_game_that_waits_to_be_written_is_written_after_an_interrupt(capfd):
    keeper = match_keeper.Keeper(SETTINGS, None, None)
    say = keeper.output.say

    def slowly(text):
        time.sleep(0.1)
        say(text)

    keeper.output.say = slowly

    async def keep():
        games = [outcome("B+R", "resignation")._replace(number=number) for number in (1, 2)]
        waiting = [asyncio.ensure_future(keeper.keep(Played(game, None, set()))) for game in games]
        await asyncio.sleep(0.02)
        for one in waiting:
            one.cancel()
        await asyncio.gather(*waiting, return_exceptions=True)
        await keeper.finish()

    asyncio.run(keep())
    assert sorted(keeper.outcomes) == [1, 2] and capfd.readouterr().out.count("\n") == 2


SETTINGS = Settings(("first", "second"), 5, "0", 0, "positional", None)
PRINTED = "(;GM[1]FF[4]SZ[5]KM[0]PL[B];B[cc])"


def outcome(result, end, black="first"):
    return Outcome(1, {"b": black, "w": "second"}, result, end, None, 1, {"b": Times(), "w": Times()}, "2026-11-30")


def test_a_name_stays_a_value():
    names = ["a]PW[b", "a\\", "\\]", "[", "(;B[aa])", "a:b", "é", "\udcff"]
    for name in names:
        record = record_of(PRINTED, outcome("B+R", "resignation", name), SETTINGS)
        start, *moves = main_line(record)
        assert goref.tidy(record) == record and len(moves) == 1
        assert [one.name for one in start.properties] == "GM FF CA PB PW RE DT RU SZ KM PL".split()
        assert simple_text_of(start.first("PB")) == name.replace("\udcff", "?")


def test_a_record_that_states_another_score_is_told():
    assert b"RE[B+25]" in record_of(PRINTED, outcome("B+25", "score"), SETTINGS)
    with pytest.raises(Differs, match=r"^the record states another score than B\+25$"):
        record_of(PRINTED, outcome("B+24", "score"), SETTINGS)


GNUGO = shutil.which("gnugo", path=os.environ.get("PATH", "") + ":/usr/games")


@pytest.mark.skipif(GNUGO is None, reason="GNU Go isn't there")
def test_a_match_with_gnu_go(match):
    gnugo = shlex.join([str(GNUGO), "--mode", "gtp", "--level", "1", "--chinese-rules", "--capture-all-dead"])
    match("--games", 2, "-j", 2, gnugo, PASS, size=9)
    assert match.status == 0
    for number, colour in ((1, "B"), (2, "W")):
        verdict = goref.judge(match.record(number))
        assert verdict.stated == "agrees" and verdict.score.startswith(colour + "+") and verdict.moves > 4

"""Records and logs of matches: what can't be kept, what belongs to another match, and what goes on."""

import json
import os
import resource
import shlex
import subprocess
import sys

import pytest

import goref
from goref._tools import match_keeper
from goref._tools.faults import Fault, WrongWords
from goref._tools.match_folder import Folder
from goref._tools.match_log import Log
from goref._tools.match_outcome import Outcome, Times
from kit import spy
from kit.matches import PASS, command, engine, match, wait_for

C3 = engine("genmove=moves=C3")


def broken_once(folder, what):
    """The command line of an engine that does harm before its first start, and none later."""
    mark = shlex.quote(str(folder / "mark"))
    return shlex.join(["sh", "-c", f"[ -e {mark} ] || {what}; touch {mark}; exec {PASS}"])


def test_a_record_that_is_not_kept_ends_the_match_and_its_game_is_played_anew(match):
    one = broken_once(match.log.parent, f"rm -r {shlex.quote(str(match.records))}")
    match("--games", 3, one, PASS)
    assert match.status == 3 and match.results == [] and match.out == ""
    assert match.err.splitlines() == [
        f"goref-tools: {match.records}/game-0001.sgf: No such file or directory",
        f"goref-tools: this isn't kept: game 1: W+7.5 after 2 moves, B {one}, W {PASS}",
        "goref-tools: the match ends: a game can't be kept",
    ]
    match("--games", 3, one, PASS)
    assert match.status == 0 and match.err == "" and match.results == ["W+7.5"] * 3 and len(match.names()) == 3


def test_a_log_that_is_full_ends_the_match_and_nothing_is_lost(match):
    match("--games", 1, C3, PASS)
    size, line = match.log.stat().st_size, len(match.log.read_bytes().splitlines()[-1])

    def limit():
        # There is room for one line more, and for half of another.
        resource.setrlimit(resource.RLIMIT_FSIZE, (size + line * 3 // 2, resource.RLIM_INFINITY))

    words = ["--log", match.log, "--records", match.records, "--games", "6", C3, PASS]
    process = command(*words, preexec_fn=limit)
    out, err = (text.decode() for text in process.communicate(timeout=40))
    assert process.returncode == 3 and len(match.results) == 2 and out.startswith("game 2: ") and "\ngames 2, " in out
    assert err.splitlines()[0] == f"goref-tools: {match.log}: File too large"
    assert err.splitlines()[1].startswith("goref-tools: this isn't kept: game 3: ")
    assert err.splitlines()[2:] == ["goref-tools: the match ends: a game can't be kept"]
    assert match.log.read_bytes().endswith(b"\n")
    lost = match.record(3)
    match("--games", 6, C3, PASS)
    assert match.status == 0 and len(match.results) == 6
    # The record of the game that the log hasn't has another name now.
    record, other = match.records / "game-0003.sgf", match.records / "game-0003-unlogged-1.sgf"
    assert other.read_bytes() == lost and len(match.names()) == 7
    assert match.err == f"goref-tools: {record} isn't in the log: it is kept as {other}\n"


def test_the_record_is_kept_before_the_line(match, monkeypatch):
    """A match that is killed between the two plays that game anew: none is left without its record."""
    add, seen = Log.add, []

    def noted(log, outcome):
        seen.append((match.records / "game-0001.sgf").exists())
        add(log, outcome)

    monkeypatch.setattr(Log, "add", noted)
    match(PASS, PASS)
    assert seen == [True]


def test_games_without_a_record_are_told_at_once_and_the_match_goes_on(match):
    match("--games", 5, PASS, PASS)
    for number in (1, 2, 4):
        (match.records / f"game-{number:04}.sgf").unlink()
    match("--games", 6, PASS, PASS)
    assert match.err == "goref-tools: no record is there of these games of the log: 1-2, 4\n"
    assert match.status == 3 and len(match.results) == 6 and match.names() == [f"game-000{n}.sgf" for n in (3, 5, 6)]


def other_match(match, name, *words):
    """A match with another log and another folder, beside one."""
    there = type(match)(match.log.parent / name, match._capfd)
    there.log.parent.mkdir()
    return there(*words)


@pytest.mark.parametrize("is_claimed", [True, False])
def test_records_of_another_match_are_not_written_over(match, is_claimed):
    """Those of earlier versions have no file that says of which match they are."""
    match("--games", 2, PASS, PASS)
    before = match.record(2)
    other = other_match(match, "other", C3, PASS)
    other.records = match.records
    if not is_claimed:
        (match.records / "match.json").unlink()
    other("--games", 2, C3, PASS)
    assert other.status == 2 and len(other.results) == 1 and match.record(2) == before
    told = f"goref-tools: {match.records}"
    assert other.err == (
        f"{told} has the records of another match (its log: {match.log}): name another folder\n"
        if is_claimed
        else f"{told}/game-0001.sgf is no record of this match: name another folder, or move it away\n"
    )
    assert match("--games", 3, PASS, PASS).status == 0


def test_a_folder_of_an_earlier_version_goes_on(match):
    match("--games", 2, C3, PASS)
    (match.records / "match.json").unlink()
    assert match("--games", 3, C3, PASS).status == 0 and len(match.names()) == 3
    assert json.loads((match.records / "match.json").read_text()) == {
        "match": match.settings["match"],
        "log": str(match.log),
    }


def test_a_match_that_is_moved_goes_on(match):
    """Its log and its records have new places, and somebody's record stands among them."""
    match(PASS, PASS)
    (match.records / "game-0002.sgf").write_bytes(b"(;)\n")
    match.log, former = match.log.parent / "moved", match.log
    match.records, records = match.log.parent / "moved records", match.records
    former.rename(match.log)
    records.rename(match.records)
    assert match("--games", 2, PASS, PASS).status == 0 and match.names()[-1] == "game-0002.sgf"
    assert json.loads((match.records / "match.json").read_text())["log"] == str(match.log)


@pytest.mark.parametrize("text, is_taken", [(b"", True), (b'{"mat', True), (b"\0\0\0", True), (b"{}", False), (b"mine\n", False)])
def test_a_file_that_is_no_claim_stays(match, text, is_taken):
    match.records.mkdir()
    (match.records / "match.json").write_bytes(text)
    match(PASS, PASS)
    assert match.status == (0 if is_taken else 2)
    if not is_taken:
        assert (match.records / "match.json").read_bytes() == text and not match.log.read_bytes()
        assert match.err == f"goref-tools: {match.records}/match.json is there, and is no file of a match\n"


def test_a_folder_has_one_match_at_a_time(match):
    note = match.log.parent / "note"
    hangs = engine(f"=note={note}", "genmove=hang")
    process = command("--log", match.log.parent / "first", "--records", match.records, hangs, PASS)
    wait_for(lambda: note.exists() and "genmove" in note.read_text())
    assert match(PASS, PASS).status == 3 and match.names() == []
    assert match.err == f"goref-tools: {match.records}: another match keeps its records there\n"
    process.terminate()
    process.communicate(timeout=40)
    # It has no record there, so the folder is free for another match.
    assert process.returncode == 143 and match(PASS, PASS).status == 0


def test_what_a_killed_match_left_half_written_is_told_and_removed(match):
    with subprocess.Popen([sys.executable, "-c", ""]) as ended:
        ended.wait()
    match.records.mkdir()
    half = match.records / f".goref-{os.uname().nodename}-{ended.pid}-1-0123456789abcdef.new"
    half.write_bytes(b"(;")
    match(PASS, PASS)
    assert match.status == 0 and not half.exists()
    assert match.err == f"goref-tools: {half}: a process that has ended left it; it was removed\n"


def test_a_record_that_somebody_put_there_stays(match):
    match(PASS, PASS)
    mine = match.records / "game-0002.sgf"
    mine.write_bytes(b"(;)\n")
    match("--games", 2, PASS, PASS)
    assert match.status == 0 and (match.records / "game-0002-unlogged-1.sgf").read_bytes() == b"(;)\n"
    assert goref.judge(match.record(2)).stated == "agrees"


def test_names_of_records_keep_their_digits(tmp_path):
    for games, name in [(20, "game-0007.sgf"), (10_000, "game-0008.sgf"), (9, "game-12345.sgf")]:
        with Folder(str(tmp_path / "a"), "match", None, {}, games) as folder:
            folder.write(int(name[5:-4]), b"(;)\n")
        assert (tmp_path / "a" / name).exists()
    with Folder(str(tmp_path / "b"), "match", None, {}, 10_000) as folder:
        folder.write(7, b"(;)\n")
    with Folder(str(tmp_path / "b"), "match", None, {}, 20) as folder:
        folder.write(8, b"(;)\n")
    assert sorted(os.listdir(tmp_path / "b")) == ["game-00007.sgf", "game-00008.sgf", "match.json"]


def test_a_match_without_a_log_takes_a_folder_without_records_alone(match):
    words = ["--records", match.records, PASS, PASS]
    process = command(*words)
    process.communicate(timeout=40)
    assert process.returncode == 0 and match.names() == ["game-0001.sgf"]
    process = command(*words)
    _, err = process.communicate(timeout=40)
    assert process.returncode == 2 and err.endswith(b"game-0001.sgf is there: name another folder, or go on by the log of its match\n")
    (match.records / "game-0001.sgf").unlink()
    assert match(PASS, PASS).status == 0


def test_other_openings_of_the_same_names_are_another_match(match, tmp_path):
    folder = tmp_path / "openings"
    folder.mkdir()
    (folder / "a.sgf").write_bytes(b"(;SZ[5];B[cc];W[cd])")
    match("--openings", folder, PASS, PASS)
    (folder / "a.sgf").write_bytes(b"(;SZ[5];B[cc];W[dc])")
    assert match("--openings", folder, "--games", 2, PASS, PASS).status == 2
    assert f"{match.log} is the log of another match: openings " in match.err
    (folder / "a.sgf").write_bytes(b"( ;SZ[5] ;B[cc] ;W[cd]C[a word])")
    assert match("--openings", folder, "--games", 2, PASS, PASS).status == 0


def test_what_is_in_the_log_is_on_the_disk(tmp_path, settings, monkeypatch):
    """The line of a game, and the name of a new log, before the call that keeps it ends."""
    path = tmp_path / "log"
    done = spy.disk(monkeypatch)
    with Log(str(path), settings) as log:
        log.begin()
        assert done == [("fsync", str(path), path.read_bytes()), ("fsync", str(tmp_path), None)]
        log.add(outcome(1))
        assert done[2:] == [("fsync", str(path), path.read_bytes())] and done[2][2].count(b"\n") == 2
    with Log(str(path), settings) as log:
        log.begin()
        assert len(done) == 3


def test_what_a_folder_says_of_its_match_is_on_the_disk(tmp_path, monkeypatch):
    done = spy.disk(monkeypatch)
    with Folder(str(tmp_path), "match", None, {}, 1):
        claim = tmp_path / "match.json"
        assert done == [("fsync", str(claim), claim.read_bytes()), ("fsync", str(tmp_path), None)]


def outcome(number):
    return Outcome(number, {"b": "first", "w": "second"}, "B+R", "resignation", None, 1, {"b": Times(), "w": Times()}, "2026-11-30")


@pytest.fixture
def settings():
    from goref._tools.match_settings import Settings

    return Settings(("first", "second"), 5, "7.5", 0, "positional", None)

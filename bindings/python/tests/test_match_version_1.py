"""A log and records of version 1, which has no version, no seeds and no sums, are read, counted and gone on with.

`data/match-1.0` was written by goref-tools 1.0: a game by score, one that was resigned, one whose Black couldn't be
started, one that was lost by an illegal move, and one without an end.
"""

import json
import os
import shlex
import shutil
import sys

import pytest

from kit.matches import ENGINES, match

DATA = os.path.join(os.path.dirname(os.path.abspath(__file__)), "data", "match-1.0")
PLAYERS = ['sh -c "exec $FIRST"', 'sh -c "exec $SECOND"']


@pytest.fixture
def former(match, monkeypatch):
    """The match of that log, with engines that pass."""
    for name in ("FIRST", "SECOND"):
        monkeypatch.setenv(name, shlex.join([sys.executable, "-I", "-S", ENGINES]))
    shutil.copy(os.path.join(DATA, "match.jsonl"), match.log)
    shutil.copytree(os.path.join(DATA, "games"), match.records)
    return match


def test_it_goes_on(former):
    before = former.log.read_bytes()
    former("--games", 6, *PLAYERS, size=2)
    assert former.err == "" and former.status == 1
    # Game 3 is played anew, game 5 was too long and is not, and game 6 is new.
    lines = former.log.read_bytes().removeprefix(before).splitlines()
    version, *games = map(json.loads, lines)
    assert version.keys() == {"version", "match", "seed"} and version["version"] == 2
    assert [(game["game"], game["result"]) for game in games] == [(3, "W+7.5"), (6, "W+7.5")]
    assert former.names() == [f"game-000{number}.sgf" for number in range(1, 7)]
    assert json.loads((former.records / "match.json").read_text())["match"] == version["match"]
    # The games of version 1 have no sum, by which copies are known.
    assert "\ngames 6, with a result 5, distinct at most 5\nended by score 3, resignation 1, time 0, forfeit 1\n" in former.out


def test_it_is_gone_on_with_once_more(former):
    former("--games", 5, *PLAYERS, size=2)
    before = former.log.read_bytes()
    seed = json.loads(before.splitlines()[6])["seed"]
    former("--games", 6, "--seed", seed, *PLAYERS, size=2)
    assert former.status == 1 and former.log.read_bytes().startswith(before)
    assert former.log.read_bytes().count(b'"version"') == 1
    assert former("--games", 6, "--seed", seed + 1, *PLAYERS, size=2).status == 2


def test_a_newer_version_further_down_is_refused_by_its_number(former):
    former("--games", 5, *PLAYERS, size=2)
    former.log.write_text(former.log.read_text().replace('"version": 2', '"version": 9'))
    assert former("--games", 6, *PLAYERS, size=2).status == 2 and "is a log of version 9, and " in former.err


def test_nothing_is_written_if_its_folder_is_another_matchs(former):
    before = former.log.read_bytes()
    (former.records / "game-0002.sgf").write_bytes((former.records / "game-0001.sgf").read_bytes())
    assert former("--games", 6, *PLAYERS, size=2).status == 2 and former.log.read_bytes() == before
    assert former.err == (
        f"goref-tools: {former.records}/game-0002.sgf is no record of this match: name another folder, or move it away\n"
    )

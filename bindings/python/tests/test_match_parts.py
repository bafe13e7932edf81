"""The parts of a match that need no engine: responses, results, the log and the table."""

import json
import os

import pytest
from hypothesis import given
from hypothesis import strategies as some

from goref._tools.faults import Fault, WrongWords
from goref._tools.match_log import Log
from goref._tools.match_outcome import Outcome, Times, line_of, outcome_of
from goref._tools.match_settings import Settings
from goref._tools.match_table import Tally, table_of, tallies_of, wilson
from goref._tools.responses import BadResponse, Incoming, Response, in_short

pytestmark = pytest.mark.no_library
SETTINGS = Settings(("first", "second"), 9, "7.5", 0, "positional", None)


def outcome(number=1, result="B+7.5", end="score", black=Times(), white=Times(), reason=None):
    names = {"b": "first", "w": "second"} if number % 2 else {"b": "second", "w": "first"}
    return Outcome(number, names, result, end, reason, 12, {"b": black, "w": white}, "2026-11-30")


def fed(*pieces):
    incoming = Incoming(100)
    incoming.ask()
    return [incoming.feed(piece) for piece in pieces]


@pytest.mark.parametrize(
    "text, response",
    [
        (b"= D4\n\n", Response(True, "D4")),
        (b"=\n\n", Response(True, "")),
        (b"=D4\n\n", Response(True, "D4")),
        (b"=12 D4 \n\n", Response(True, "D4")),
        (b"=12\n\n", Response(True, "")),
        (b"= D4\r\n\r\n", Response(True, "D4")),
        (b"\n\r\n= D4\n\n", Response(True, "D4")),
        (b"= D\x004\x7f\n\n\n\n", Response(True, "D4")),
        (b"? no such move\n\n", Response(False, "no such move")),
        (b"?7 no\n\n", Response(False, "no")),
        (b"= one\ntwo\n\n", Response(True, "one\ntwo")),
        (b"= \xff\n\n", Response(True, "\ufffd")),
    ],
)
def test_a_response_ends_at_an_empty_line(text, response):
    assert fed(text) == [response]
    assert [one for one in fed(*(bytes([code]) for code in text)) if one] == [response]


@pytest.mark.parametrize("text", [b"", b"\n\n\n", b"=", b"= D4\n", b"= D4\n \n"])
def test_a_response_without_its_end_is_none(text):
    assert fed(text) == [None]


@pytest.mark.parametrize(
    "text, why",
    [
        (b"hello\n\n", "wrote `hello`, which is no response,"),
        (b" = D4\n\n", "wrote `= D4`, which is no response,"),
        (b"= " + b"x" * 99, "wrote more than 100 bytes"),
        (b"= x\n" * 26, "wrote more than 100 bytes"),
        (b"\n" * 101, "wrote more than 100 bytes"),
    ],
)
def test_what_is_no_response(text, why):
    with pytest.raises(BadResponse) as told:
        fed(text)
    assert str(told.value) == why


def test_a_response_that_nobody_asked_for():
    incoming = Incoming()
    assert incoming.feed(b"\n\r\n") is None
    with pytest.raises(BadResponse, match="^wrote `= A1` without being asked$"):
        incoming.feed(b"= A1\n\n")
    incoming = Incoming()
    incoming.ask()
    assert incoming.feed(b"=\n\n= A1\n\n") == Response(True, "")
    with pytest.raises(BadResponse, match="^wrote `= A1` without being asked$"):
        incoming.ask()


def test_bytes_are_counted_anew_for_each_response():
    incoming = Incoming(10)
    for _ in range(3):
        incoming.ask()
        assert incoming.feed(b"= 345678\n\n") == Response(True, "345678")


@given(some.lists(some.text(some.sampled_from("ab =?1\t"), max_size=8), min_size=1, max_size=4), some.data())
def test_responses_are_the_same_however_they_are_cut(texts, data):
    incoming = Incoming()
    for text in texts:
        whole = f"=1 x{text}x\r\n\n\n".encode("ascii")
        places = sorted(data.draw(some.lists(some.integers(0, len(whole)), max_size=4)))
        pieces = [whole[begin:end] for begin, end in zip([0, *places], [*places, len(whole)])]
        incoming.ask()
        assert [one for one in map(incoming.feed, pieces) if one] == [Response(True, f"x{text}x")]


def test_a_long_text_is_cut():
    assert in_short(" one\ntwo") == "one"
    assert in_short("a\tb\x9bc\udcffü") == "a\\tb\\x9bc\\udcffü"
    assert in_short("x" * 80) == "x" * 80 and in_short("x" * 81) == "x" * 80 + ".."


def test_a_line_of_a_log():
    one = outcome(2, "W+R", "resignation", Times(3, 0.5, 1.25), Times(2, 0.1234567, 0.2))
    assert json.loads(line_of(one)) == {
        "game": 2,
        "black": "second",
        "white": "first",
        "result": "W+R",
        "end": "resignation",
        "reason": None,
        "moves": 12,
        "times": {
            "black": {"moves": 3, "mean": 0.5, "greatest": 1.25},
            "white": {"moves": 2, "mean": 0.123457, "greatest": 0.2},
        },
        "date": "2026-11-30",
        "seed": None,
        "sum": None,
        "claims": None,
    }
    assert "\n" not in line_of(one) and line_of(one).isascii()


@pytest.mark.parametrize(
    "one",
    [
        outcome(),
        outcome(2, "0", "score"),
        outcome(3, None, "none", reason="a\nb \udcff ü"),
        outcome(4, "B+T", "time", reason="late"),
        outcome(5, "W+F", "forfeit", Times(1, 0.5, 0.5)),
        outcome(6, "W+R", "resignation"),
    ],
)
def test_a_line_of_a_log_is_read(one):
    assert outcome_of(line_of(one)) == one


@pytest.mark.parametrize(
    "name, value",
    [
        ("game", 0),
        ("game", True),
        ("game", "1"),
        ("black", None),
        ("result", "B+X"),
        ("result", "B+R"),
        ("result", None),
        ("end", "none"),
        ("end", "draw"),
        ("end", "time"),
        ("moves", -1),
        ("times", {}),
        ("times", {"black": {"moves": 1, "mean": -1, "greatest": 0}, "white": {}}),
        ("date", 5),
    ],
)
def test_a_line_that_tells_no_game(name, value):
    told = {**json.loads(line_of(outcome())), name: value}
    with pytest.raises(ValueError):
        outcome_of(json.dumps(told))


@pytest.mark.parametrize("line", ["", "{", "[]", "1", "null", "{}", '"game"'])
def test_a_line_that_is_no_object(line):
    with pytest.raises(ValueError):
        outcome_of(line)


def log_of(path, settings=SETTINGS, seed=None):
    return Log(str(path), settings, seed)


def kept(path, *outcomes, settings=SETTINGS, seed=None):
    """What a match finds in a log, before it keeps these."""
    with log_of(path, settings, seed) as log:
        found = list(log.outcomes.values())
        log.begin()
        for one in outcomes:
            log.add(one)
        return found


def test_a_log_goes_on(tmp_path):
    path = tmp_path / "log"
    assert kept(path, outcome(1), seed=7) == []
    assert kept(path, outcome(3), outcome(2)) == [outcome(1)]
    assert kept(path) == [outcome(1), outcome(3), outcome(2)]
    settings, *games = path.read_text().splitlines()
    told = json.loads(settings)
    assert len(told.pop("match")) == 16
    assert told == {
        "version": 2,
        "seed": 7,
        "players": ["first", "second"],
        "size": 9,
        "komi": "7.5",
        "handicap": 0,
        "superko": "positional",
        "seconds": None,
        "openings": [],
    }
    assert [json.loads(line)["game"] for line in games] == [1, 3, 2]


def test_a_torn_line_is_dropped_wherever_it_is_torn(tmp_path):
    path = tmp_path / "log"
    kept(path, outcome(1))
    whole = path.read_bytes()
    kept(path, outcome(2))
    longer = path.read_bytes()
    for length in range(len(whole), len(longer)):
        path.write_bytes(longer[:length])
        assert kept(path) == [outcome(1)] and path.read_bytes() == whole
    path.write_bytes(whole + b"\0" * 100)
    assert kept(path) == [outcome(1)] and path.read_bytes() == whole


def test_a_torn_first_line_begins_anew(tmp_path):
    path = tmp_path / "log"
    kept(path)
    whole = path.read_bytes()
    for length in range(len(whole)):
        path.write_bytes(whole[:length])
        assert kept(path) == [] and path.read_bytes().count(b"\n") == 1 and kept(path, outcome(1)) == []
        assert kept(path) == [outcome(1)]


@pytest.mark.parametrize("text", [b"my own notes", b"my own notes\n", b"{}\n", b"[1]\n", b"\n", b"\xff\n", b"(;)\n", b"{x", b'{"a": 1}'])
def test_what_is_no_log_is_not_changed(tmp_path, text):
    path = tmp_path / "log"
    path.write_bytes(text)
    with pytest.raises(WrongWords, match="log is no log of a match$"):
        log_of(path)
    assert path.read_bytes() == text


@pytest.mark.parametrize(
    "name, value",
    [
        ("players", ("first", "third")),
        ("size", 19),
        ("komi", "6.5"),
        ("handicap", 2),
        ("superko", "situational"),
        ("seconds", 1.5),
    ],
)
def test_the_log_of_another_match_is_not_changed(tmp_path, name, value):
    path = tmp_path / "log"
    kept(path, outcome(1))
    before = path.read_bytes()
    with pytest.raises(WrongWords, match=f"log is the log of another match: {name} "):
        log_of(path, SETTINGS._replace(**{name: value}))
    assert path.read_bytes() == before


def test_a_wrong_line_in_a_log_is_named(tmp_path):
    path = tmp_path / "log"
    kept(path, outcome(1))
    path.write_bytes(path.read_bytes() + b"{}\n")
    with pytest.raises(Fault, match="log: line 3 is no game of a match$"):
        log_of(path)


def test_a_log_has_one_writer(tmp_path):
    log = log_of(tmp_path / "log")
    with pytest.raises(Fault, match="log: another match writes to it$"):
        log_of(tmp_path / "log")
    log.close()
    log_of(tmp_path / "log").close()


def test_a_log_that_is_no_file(tmp_path):
    os.mkfifo(tmp_path / "pipe")
    for path, why in [
        (tmp_path, "Is a directory"),
        (tmp_path / "none" / "log", "No such file or directory"),
        ("/dev/full", "no regular file"),
        (tmp_path / "pipe", "no regular file"),
    ]:
        with pytest.raises(Fault) as told:
            log_of(path)
        assert str(told.value) == f"{path}: {why}"


def test_a_line_that_is_not_written_leaves_the_log_as_it_was(tmp_path, monkeypatch):
    path = tmp_path / "log"
    log = log_of(path)
    log.begin()
    before = path.read_bytes()
    write = os.write

    def some_bytes(file, data):
        monkeypatch.setattr(os, "write", no_bytes)
        return write(file, data[:10])

    def no_bytes(file, data):
        raise OSError(28, "No space left on device")

    monkeypatch.setattr(os, "write", some_bytes)
    with pytest.raises(Fault, match="log: No space left on device$"):
        log.add(outcome(1))
    assert path.read_bytes() == before
    monkeypatch.setattr(os, "write", write)
    log.add(outcome(2))
    log.close()
    assert kept(path) == [outcome(2)]


# The intervals of Newcombe, Statistics in Medicine 17 (1998), table I, method 3.
@pytest.mark.parametrize(
    "points, games, low, high",
    [
        (81, 263, 0.2553, 0.3662),
        (15, 148, 0.0624, 0.1605),
        (0, 20, 0.0000, 0.1611),
        (1, 29, 0.0061, 0.1718),
    ],
)
def test_intervals_are_those_of_a_published_table(points, games, low, high):
    found = wilson(points, games)
    assert round(found[0], 4) == low and round(found[1], 4) == high
    turned = wilson(games - points, games)
    assert round(turned[0], 4) == round(1 - high, 4) and round(turned[1], 4) == round(1 - low, 4)


@given(some.integers(1, 500), some.data())
def test_the_ends_of_an_interval_solve_its_equation(games, data):
    """Wilson's interval has the shares p whose distance to the seen one is 1.96 times the deviation that p has."""
    share = data.draw(some.integers(0, 2 * games)) / (2 * games)
    for end in wilson(share * games, games):
        assert (share - end) ** 2 == pytest.approx(1.959963984540054**2 * end * (1 - end) / games, abs=1e-9)


def test_no_game_tells_nothing():
    assert wilson(0, 0) == (0.0, 1.0)


GAMES = [
    outcome(1, "B+7.5", "score", Times(2, 1.0, 1.5), Times(1, 4.0, 4.0)),
    outcome(2, "B+R", "resignation", Times(1, 3.0, 3.0), Times(2, 0.5, 0.75)),
    outcome(3, "0", "score"),
    outcome(4, "W+T", "time"),
    outcome(5, None, "none", Times(), Times(2, 1.0, 6.0)),
    outcome(6, "W+F", "forfeit"),
]


def test_players_are_counted_by_colour():
    first, second = tallies_of(GAMES, SETTINGS)
    # The first is Black in games 1, 3 and 5, and White in games 2, 4 and 6.
    assert first == Tally(5, 1, 2, 1, Times(4, 0.75, 1.5)) and first.wins == 3 and first.points == 3.5
    assert second == Tally(5, 1, 0, 1, Times(4, 2.25, 6.0)) and second.wins == 1 and second.points == 1.5


def test_the_table_has_a_row_for_each_player():
    # Wilson's interval for 3.5 of 5 by hand: (0.7 + 0.384146 +- 1.959964 * sqrt(0.042 + 0.0384146)) / 1.768292.
    assert table_of(GAMES, SETTINGS).splitlines() == [
        "games 6, with a result 5, distinct at most 5",
        "ended by score 2, resignation 1, time 1, forfeit 1",
        "wins  as B  as W  draws   share   95 % interval  mean s  greatest s  engine",
        "   3     1     2      1  70.0 %  29.9 to 92.7 %   0.750       1.500  first",
        "   1     1     0      1  30.0 %   7.3 to 70.1 %   2.250       6.000  second",
    ]


def test_a_table_without_results():
    lines = table_of([outcome(1, None, "none")], SETTINGS._replace(players=("a\nb", "second"))).splitlines()
    assert lines[:2] == ["games 1, with a result 0, distinct 0", "ended by score 0, resignation 0, time 0, forfeit 0"]
    assert lines[3].split() == ["0", "0", "0", "0", "-", "-", "-", "-", "a\\nb"]

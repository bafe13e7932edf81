"""The result that a record states, and how far it is from goref's score."""

import csv
import io
import json
from decimal import Decimal

import pytest
from hypothesis import given, settings
from hypothesis import strategies as st

import goref
from goref._tools.spelling import nodes_on, simple_text_of
from goref._tools.stated import StatedResult, result_in, stated_in
from kit.runner import run

BLACK = b"(;SZ[5]KM[0.5]%s;B[cc])"
"""A game that Black wins by 24.5."""
WHITE = b"(;SZ[5]KM[0.5]%s;W[cc])"
"""A game that White wins by 25.5."""


def stated(record):
    return stated_in(record, goref.judge(record))


@pytest.mark.parametrize(
    "game, value, difference",
    [
        (BLACK, b"B+24.5", 0),
        (BLACK, b"B+24.50", 0),
        (BLACK, b"B+23.5", 1),
        (BLACK, b"B+25.5", 1),
        (BLACK, b"B+24.25", 0.25),
        (BLACK, b"B+4.", 20.5),
        (BLACK, b"B+.5", 24),
        (BLACK, b"W+.5", 25),
        (BLACK, b"0", 24.5),
        (BLACK, b"Draw", 24.5),
        (BLACK, b" B+12 ", 12.5),
        (BLACK, b"B\\+12", 12.5),
        (WHITE, b"W+25.5", 0),
        (WHITE, b"W+24.5", 1),
        (WHITE, b"B+1", 26.5),
        (WHITE, b"W+0", 25.5),
    ],
)
def test_how_far_a_stated_score_is(game, value, difference):
    found = stated(game % (b"RE[" + value + b"]"))
    assert found.difference == difference and isinstance(found.difference, int) == (difference == int(difference))


@pytest.mark.parametrize("value", ["B+R", "W+T", "Void", "?", "draw", "W-5", "B+ 5", "白中盤勝", ""])
def test_what_states_no_score_has_no_difference(value):
    assert stated(BLACK % f"RE[{value}]".encode()) == StatedResult(value, None)


@pytest.mark.parametrize(
    "record, result",
    [
        (b"(;SZ[5])", None),
        (b"(;SZ[5]C[RE[B+3\\]])", None),
        (b"(;SZ[5];RE[B+3])", None),
        (b"(;SZ[5]RE[B+3][W+4]RE[W+5])", "B+3"),
        (b"( ; SZ[5] REsult\n[ B+3\n])", "B+3"),
        (b"(;SZ[5]xRxEx[B+3])", "B+3"),
        (b"(;SZ[5]RE[B+\\\n3])", "B+3"),
        (b"(;SZ[5]RE[B+3];B[aa]7)", "B+3"),
        (b"(;SZ[5]RE[B+3](;B[aa])(;B[bb]))", "B+3"),
        (b"(;C[\\];]RE[B+3];B[aa])", "B+3"),
        (b"(;C[\\\\];RE[B+3];B[aa])", None),
        (b"(;C[x]\n\n;RE[B+3])", None),
        (b"(;C[\\]; x]RE[B+3]7;B[aa])", None),
        (b"(;SZ[5]RE[B+3]", None),
        (b"(;SZ[0]RE[B+3])", "B+3"),
        (b"(;SZ[5]RE[B+3];B[aa];W[aa])", "B+3"),
    ],
)
def test_the_result_is_the_first_of_the_first_node(record, result):
    assert result_in(record) == result


PARTS = ["C[a\\];]", "C[\\\\]", "C[(;RE[0\\]]", "RE[B+3]", "RE[W+1]", "[\\]", "];", ";", "(;", ")", " ", "\n", "Result[0]"]


@settings(deadline=None)
@given(st.lists(st.sampled_from(PARTS), max_size=30))
def test_the_first_node_is_that_of_the_whole_game(parts):
    """It is looked for in the beginning of the text."""
    record = f"(;{''.join(parts)})".encode()
    try:
        spelled = goref.tidy(record)
    except goref.Refused:
        return
    stated = next(nodes_on(spelled, 0)).first("RE")
    assert result_in(record) == (None if stated is None else simple_text_of(stated))


@settings(deadline=None)
@given(st.from_regex(r"\A[BW]\+?[0-9]{0,4}\.?[0-9]{0,3}\Z|\A(0|Draw|draw|B\+R)\Z"))
def test_a_difference_is_none_or_zero_as_goref_says(value):
    record = BLACK % f"RE[{value}]".encode()
    found, verdict = stated(record), goref.judge(record)
    assert found.result == value
    assert {"none": None, "agrees": 0}.get(verdict.stated, found.difference) == found.difference
    assert verdict.stated != "differs" or found.difference > 0


@settings(deadline=None)
@given(st.integers(-30_000, 30_000))
def test_a_difference_is_that_of_the_two_scores(hundredths):
    """By the komi: each point that White gets takes the score a point away from what was stated without."""
    komi = Decimal(hundredths) / 100
    record = b"(;SZ[5]KM[%s]RE[B+25];B[cc])" % str(komi).encode()
    assert stated(record).difference == float(abs(komi))


def test_each_format_tells_it(tmp_path, capfd):
    # A score that differs, one that is none, and two of games that goref refuses.
    games = [BLACK % b"RE[W+3.5]", BLACK % b"RE[B+R]", b"(;SZ[0]RE[B+3])", b"(;SZ[5]RE[B+3]7)"]
    (tmp_path / "a.sgf").write_bytes(b"\n".join(games))
    file = f"{tmp_path}/a.sgf"
    lines = run(capfd, "judge", file).out.splitlines()
    assert lines[0] == f"{file}:1: moves 1 score B+24.5 stated differs (RE[W+3.5], 28 apart)"
    assert lines[1] == f"{file}:2: moves 1 score B+24.5 stated none"
    heading, *rows = csv.reader(io.StringIO(run(capfd, "judge", "--format", "csv", file).out))
    assert [(row[8], row[9]) for row in (heading, *rows)] == [
        ("result", "difference"), ("W+3.5", "28"), ("B+R", ""), ("B+3", ""), ("", "")
    ]
    rows = [json.loads(line) for line in run(capfd, "judge", "--format", "json", file).out.splitlines()]
    told = [(row["result"], row["difference"]) for row in rows]
    assert told == [("W+3.5", 28), ("B+R", None), ("B+3", None), (None, None)]


def test_a_result_is_told_where_the_verdict_depends_on_the_charset(tmp_path, capfd):
    text = "(;GM[1]SZ[9]KM[6.5]RE[B+3]PB[許功蓋];B[ee];W[cc])"
    (tmp_path / "a.sgf").write_bytes(text.encode("big5"))
    row = json.loads(run(capfd, "judge", "--format", "json", tmp_path).out)
    assert row["reason"].startswith("depends on the charset") and (row["result"], row["difference"]) == ("B+3", None)


def test_a_result_stays_on_its_line(tmp_path, capfd):
    """No byte of it moves the cursor."""
    (tmp_path / "a.sgf").write_bytes(b"(;SZ[5]RE[\x1b\\\\B+3\n])")
    out = run(capfd, "judge", "--format", "csv", tmp_path).out
    assert "\x1b" not in out and list(csv.reader(io.StringIO(out)))[1][8] == "\\x1b\\B+3"

"""The word page: what is in the page, and that what is in a record stays data."""

import base64
import hashlib
import random
import re

import pytest
from hypothesis import given, settings, strategies as some

from goref._tools.html_page import comments_of, json_in_html
from goref._tools.spelling import main_line
from page_parts import Page
from rules import game, record, vertex
from running import runner

HOSTILE = [
    "</script><script>alert(1)</script>",
    "<!--<script>",
    "<img src=x onerror=alert(1)>",
    "]]>",
    "&lt;b&gt;&amp;",
    "a\u2028b\u2029c",
    "{{script}}{{games}}",
    "'\"`${x}",
    "</title><h1>",
    "</noscript></pre><b>",
    "javascript:alert(1)",
    "\x00\x1b[31m\x7f",
    "</TEXTAREA><svg/onload=x>",
]


@pytest.fixture
def run(capsys):
    return runner(capsys)


@pytest.fixture
def page(run, tmp_path):
    """A function from the bytes of a record to its page."""

    def make(content, status=0, name="game.sgf"):
        (tmp_path / name).write_bytes(content)
        end = run("page", tmp_path / name)
        assert end.status == status
        made = Page(end.out)
        made.told = end.err
        assert not made.open
        return made

    return make


def escaped(text):
    """A text as a value of SGF has it."""
    return text.replace("\\", "\\\\").replace("]", "\\]").encode("utf-8")


def test_a_game(page):
    content = b"(;SZ[3]KM[0.5]PB[Ann]BR[3d]PW[Bo]RE[B+R]C[Begin];W[aa];B[ab]C[Atari];W[cc];B[ba];W[])"
    made = page(content)
    assert made.told == ""
    [one] = made.games()
    assert (one["black"], one["white"], one["size"], one["start"], one["stars"]) == ("Ann 3d", "Bo", 3, ".........", [])
    assert [(step["by"], step["at"]) for step in one["steps"]] == [
        ("W", "A3"),
        ("B", "A2"),
        ("W", "C1"),
        ("B", "B3"),
        ("W", "pass"),
    ]
    assert [step["set"] for step in one["steps"]] == [{"0": "O"}, {"3": "X"}, {"8": "O"}, {"0": ".", "1": "X"}, {}]
    assert [step.get("taken") for step in one["steps"]] == [None, None, None, [0, 1], None]
    # Black has A2 and B3 and reaches A3 alone; B2, C2, C3, A1 and B1 reach both colours; White has C1 and 0.5.
    assert one["verdict"] == "Score by area after 5 moves: B+1.5. The record states no score in points."
    assert ["Stated result", "B+R"] in one["facts"] and ["Komi", "0.5"] in one["facts"]
    assert one["comments"] == {"0": "Begin", "2": "Atari"}
    assert made.all("title")[0]["text"] == "Ann 3d - Bo"


@pytest.mark.parametrize(
    "record, verdict",
    [
        (b"(;SZ[3];B[bb])", "Score by area after 1 move: B+9. The record states no score in points."),
        (b"(;SZ[3]RE[B+9];B[bb])", "Score by area after 1 move: B+9. The record states that score."),
        (b"(;SZ[3]RE[W+9];B[bb])", "Score by area after 1 move: B+9. The record states another score."),
        (b"(;SZ[3]RE[0])", "Score by area after 0 moves: even. The record states that score."),
    ],
)
def test_verdicts(page, record, verdict):
    assert page(record).games()[0]["verdict"] == verdict


POINTS = some.one_of(some.none(), some.tuples(some.integers(0, 2), some.integers(0, 2)))


@given(some.lists(some.tuples(some.sampled_from("BW"), POINTS), max_size=40))
@settings(max_examples=30, deadline=None)
def test_the_steps_lead_to_the_boards_of_a_model(wanted):
    from goref._tools.html_page import _add_boards

    moves, after = game(3, wanted)
    data = {}
    _add_boards(data, record(3, moves), None)
    stones, taken = list(data["start"]), [0, 0]
    for (colour, point), step, (rows, lost) in zip(moves, data["steps"], after[1:]):
        for at, sign in step["set"].items():
            stones[int(at)] = sign
        taken = list(step.get("taken", taken))
        assert (step["by"], step["at"], "".join(stones), taken) == (
            colour,
            vertex(point),
            "".join(rows),
            [lost["B"], lost["W"]],
        )
    assert len(data["steps"]) == len(moves)


@pytest.mark.no_library
def test_comments_stand_with_the_moves_before_them():
    nodes = main_line(b"(;C[a];C[b];B[aa]C[c];C[d];W[bb];N[x];C[e\\]\\\nf];B[cc]W[dd]C[g];C[ ])")
    assert comments_of(nodes, 9) == {"0": "a\n\nb", "1": "c\n\nd", "2": "e]f", "4": "g"}
    assert comments_of(nodes, 1) == {"0": "a\n\nb", "1": "c\n\nd"}


def test_what_is_in_a_record_stays_data(page):
    plain = page(b"(;SZ[3]PB[a]PW[b]C[c];B[aa]C[d])")
    for text in HOSTILE:
        value = escaped(text)
        made = page(
            b"(;SZ[3]PB["
            + value
            + b"]PW["
            + value
            + b"]GN["
            + value
            + b"]EV["
            + value
            + b"]C["
            + value
            + b"];B[aa]C["
            + value
            + b"])"
        )
        assert [one["tag"] for one in made.elements] == [one["tag"] for one in plain.elements]
        assert [sorted(one["attributes"]) for one in made.elements] == [
            sorted(one["attributes"]) for one in plain.elements
        ]
        [one] = made.games()
        assert one["comments"] == {"0": text, "1": text}
        assert one["black"] == one["white"] == one["title"] == dict(one["facts"])["Event"] == text
        assert made.all("script")[1]["text"] == plain.all("script")[1]["text"]


@pytest.mark.no_library
@given(some.text())
def test_json_in_html_is_json_and_no_markup(text):
    there = json_in_html({"x": text})
    assert not set(there) & set("<>&\u2028\u2029\n\r")
    import json

    assert json.loads(there) == {"x": text}


def test_the_page_needs_no_network_and_runs_nothing_else(page):
    made = page(b"(;SZ[3]PB[http://example.org/x.js];B[aa])")
    for element in made.elements:
        assert element["tag"] not in ("link", "img", "iframe", "object", "embed", "base", "form", "a")
        assert not {"src", "href", "style", "action", "srcset"} & set(element["attributes"])
        assert not [name for name in element["attributes"] if name.startswith("on")]
    [policy] = [one["attributes"]["content"] for one in made.all("meta") if one["attributes"].get("http-equiv")]
    style, script = made.all("style")[0]["text"], made.all("script")[1]["text"]
    hashes = [base64.b64encode(hashlib.sha256(text.encode()).digest()).decode() for text in (style, script)]
    allowed = f"style-src 'sha256-{hashes[0]}'; script-src 'sha256-{hashes[1]}'"
    assert policy == f"default-src 'none'; {allowed}; base-uri 'none'; form-action 'none'"
    assert re.findall(r"https?://[^\"' ]*", style + script) == ["http://www.w3.org/2000/svg"]
    assert not re.search(
        r"innerHTML|outerHTML|insertAdjacentHTML|document\.write|eval\(|Function\(|url\(|@import|fetch\(",
        style + script,
    )


def test_the_page_says_what_it_is(page):
    made = page(b"(;SZ[3];B[aa])", name="a & b.sgf")
    assert made.text.startswith("<!DOCTYPE html>\n") and made.all("html")[0]["attributes"] == {"lang": "en"}
    assert made.all("title")[0]["text"] == "a & b.sgf"
    names = {one["attributes"].get("name"): one["attributes"].get("content") for one in made.all("meta")}
    assert names["viewport"] == "width=device-width, initial-scale=1"
    for button in made.all("button"):
        assert button["attributes"]["type"] == "button" and button["attributes"]["aria-label"]
    assert len(made.all("button")) == 6 and made.by_id("now")["attributes"]["aria-live"] == "polite"


def test_several_games_and_refused_ones(page, tmp_path):
    content = (
        b"(;SZ[3]PB[A]PW[B];B[aa])(;SZ[3];B[aa];W[bb];B[aa];W[cc]C[late])(;SZ[9]KM[x])(;SZ[3];B[aa]7)"
        b"(;SZ[5]AB[aa][bb];W[cc];B[cc])"
    )
    made = page(content, status=1)
    games = made.games()
    assert [one["refused"] for one in games] == [False, True, True, True, True]
    assert [one["number"] for one in games] == [1, 2, 3, 4, 5]
    assert games[1]["verdict"] == "goref refuses this game: move 3 is on a stone."
    assert [step["at"] for step in games[1]["steps"]] == ["A3", "B2"] and games[1]["comments"] == {}
    assert (games[2]["verdict"], games[2]["size"]) == ("goref refuses this game: bad komi.", 0)
    where = len(content.split(b"7")[0])
    assert (games[3]["verdict"], games[3]["size"]) == (f"goref refuses this game: unexpected byte at {where}.", 0)
    assert (games[4]["start"][0], games[4]["start"][6], len(games[4]["steps"])) == ("X", "X", 1)
    assert [line.split(": ")[2] for line in made.told.splitlines()] == ["game 2", "game 3", "game 4", "game 5"]
    assert made.all("title")[0]["text"] == "game.sgf"


def test_set_up_after_a_move_is_shown_up_to_there(page):
    [one] = page(b"(;SZ[3];B[aa]C[x];W[cc];AE[aa]C[y];B[bb])", status=1).games()
    assert one["verdict"] == "goref refuses this game: set-up after a move in node 3."
    assert len(one["steps"]) == 2 and one["comments"] == {"1": "x"}


def test_variations_are_told(page):
    note = "The record has variations, and this page shows its main line alone."
    assert page(b"(;SZ[3](;B[aa])(;B[bb];W[cc]))").games()[0]["notes"] == [note]
    assert page(b"(;SZ[3](;B[aa])(;))").games()[0]["notes"] == [note]
    assert page(b"(;SZ[3];B[aa](;W[bb](;B[cc])))").games()[0]["notes"] == []
    assert [one["notes"] for one in page(b"(;SZ[3];B[aa])(;SZ[3](;B[bb])(;W[bb]))").games()] == [[], [note]]


def test_charsets_are_told(page):
    made = page("(;SZ[3]CA[big5]PB[\u8a31\u529f\u84cb]PW[W];B[aa]C[\u5fc5])".encode("big5"))
    [one] = made.games()
    assert one["black"] == "\u8a31\u529f\u84cb" and one["comments"] == {"1": "\u5fc5"}
    assert one["notes"] == ["Converted from big5, CA."]
    assert made.told.endswith("game.sgf: converted from big5, CA\n")


def test_without_a_script_there_are_the_last_boards(page):
    made = page(b"(;SZ[3]PB[<b>];B[aa])(;SZ[2];W[aa];W[aa])", status=1)
    said = made.text.split("<noscript>")[1].split("</noscript>")[0]
    assert " 3 X . .\n" in said and " 2 O .\n" in said and "&lt;b&gt;" in said and "move 2 is on a stone" in said


def test_a_board_of_25_lines(page):
    [one] = page(b"(;SZ[25]AB[aa]AW[yy];W[ya];B[ay])").games()
    assert (one["start"][0], one["start"][624], [step["at"] for step in one["steps"]]) == ("X", "O", ["Z25", "A1"])
    assert one["steps"][0]["set"] == {"24": "O"} and one["steps"][1]["set"] == {"600": "X"}


def test_a_text_without_a_game(page):
    made = page(b"", status=1)
    assert made.games()[0]["verdict"] == "goref refuses this game: no game tree."


def test_names_of_any_bytes(page):
    import os

    made = page(b"(;SZ[3])", name=os.fsdecode(b"\xff<b>.sgf"))
    assert made.all("title")[0]["text"] == "\ufffd<b>.sgf"


def test_a_page_of_300_moves_is_small(page):
    chance = random.Random(300)
    wanted = [("BW"[number % 2], (chance.randrange(19), chance.randrange(19))) for number in range(3000)]
    moves = game(19, wanted)[0][:300]
    content = record(19, moves, first="PB[Somebody]PW[Somebody else]").replace(
        b"];", b"]C[A comment of some forty letters or so];"
    )
    made = page(content)
    assert len(made.games()[0]["steps"]) == 300 and len(made.games()[0]["comments"]) == 300
    assert len(made.text.encode("utf-8")) <= 300_000

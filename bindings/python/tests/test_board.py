"""The word board, and the boards along a game."""

import xml.etree.ElementTree as ElementTree

import pytest
from hypothesis import given, settings, strategies as some

from goref._tools.boards import boards_back, played, playing, point_of, position, stars_of
from goref._tools.svg import clean, numbers_on, picture
from rules import game, record, vertex
from running import runner

SVG = "{http://www.w3.org/2000/svg}"

# White's stone at A3 is taken by move 4, and White plays there again in move 5.
TAKEN = b"(;SZ[3]KM[0.5];W[aa];B[ab];W[cc];B[ba];W[])"


@pytest.fixture
def run(capsys):
    return runner(capsys)


@pytest.fixture
def file(tmp_path):
    def write(content, name="game.sgf"):
        (tmp_path / name).write_bytes(content)
        return str(tmp_path / name)

    return write


def test_the_board_at_the_end(run, file):
    assert run("board", file(TAKEN)) == (
        0,
        "size 3 komi 0.5 prisoners B 0 W 1 moves 5 next B\n 3 . X .\n 2 X . .\n 1 . . O\n   A B C\n"
        "after move 5, W pass\n",
        "",
    )


def test_the_board_after_a_move(run, file):
    end = run("board", file(TAKEN), "--move", "3")
    assert (end.status, end.err) == (0, "")
    assert end.out.splitlines() == [
        "size 3 komi 0.5 prisoners B 0 W 0 moves 3 next B",
        " 3 O . .",
        " 2 X . .",
        " 1 . . O",
        "   A B C",
        "after move 3, W C1",
    ]
    assert run("board", file(TAKEN), "--move", "0").out.endswith("   A B C\nbefore the first move\n")


def test_more_moves_than_there_are(run, file):
    path = file(TAKEN)
    assert run("board", path, "--move", "6") == (2, "", f"goref-tools: --move 6: {path}: game 1 has 5 moves\n")
    assert run("board", path, "--move", "9" * 30).status == 2


@pytest.mark.no_library
@pytest.mark.parametrize(
    "words", [["--move", "-1"], ["--move", "x"], ["--game", "0"], ["--numbers", "3"], ["--move", "\u0663"]]
)
def test_wrong_words(run, file, words):
    end = run("board", file(TAKEN), *words)
    assert (end.status, end.out) == (2, "") and "Traceback" not in end.err


def test_another_game_of_the_file(run, file):
    path = file(b"(;SZ[2]) (;SZ[3];B[bb])")
    assert run("board", path, "--game", "2").out.splitlines()[2:] == [
        " 2 . X .",
        " 1 . . .",
        "   A B C",
        "after move 1, B B2",
    ]
    end = run("board", path, "--game", "3")
    assert end.status != 0 and end.out == "" and end.err.count("\n") == 1


REFUSED = {
    b"(;SZ[3];B[aa];W[bb];B[bb];W[cc])": ("move 3 is on a stone", 2),
    b"(;SZ[3];B[aa];W[bb];B[];AE[aa];W[cc])": ("set-up after a move in node 4", 3),
    b"(;SZ[3];B[aa];W[bb];B[dd];W[cc])": ("bad value in node 3", 2),
    b"(;SZ[3]AB[aa];PL[1];W[bb])": ("bad value in node 1", 0),
}


@pytest.mark.parametrize("content", REFUSED)
def test_a_refused_game_has_boards_up_to_the_refusal(run, file, content):
    reason, moves = REFUSED[content]
    path = file(content)
    told = (1, "", f"goref-tools: {path}: game 1: {reason}\n")
    assert run("board", path) == told
    assert run("board", path, "--move", moves + 1) == told
    end = run("board", path, "--move", moves)
    assert (end.status, end.err) == (0, "")
    assert f" moves {moves} " in end.out.splitlines()[0] and end.out.splitlines()[1].startswith(" 3 X ")


@pytest.mark.parametrize(
    "content, reason",
    [
        (b"", "no game tree"),
        (b"(;SZ[0])", "bad board size"),
        (b"(;GM[2])", "not a Go record"),
        (b"(;PL[x])", "bad value in node 0"),
        (b"(;SZ[1]AB[aa])", "set-up without liberty at A1"),
        (b"(;B[aa]1)", "unexpected byte at 7"),
    ],
)
def test_what_has_no_board(run, file, content, reason):
    path = file(content)
    for words in ([], ["--move", "0"], ["--svg"]):
        assert run("board", path, *words) == (1, "", f"goref-tools: {path}: game 1: {reason}\n")


@pytest.mark.no_library
def test_a_file_that_is_missing(run, tmp_path):
    assert run("board", tmp_path / "none") == (3, "", f"goref-tools: {tmp_path}/none: No such file or directory\n")


def test_a_charset(run, file):
    path = file("(;SZ[2]CA[big5]PB[\u5fc5];B[aa])".encode("big5"))
    end = run("board", path)
    assert (end.status, end.err) == (0, f"goref-tools: {path}: converted from big5, CA\n")
    assert " 2 X .\n" in end.out


POINTS = some.one_of(some.none(), some.tuples(some.integers(0, 3), some.integers(0, 3)))
WANTED = some.lists(some.tuples(some.sampled_from("BW"), POINTS), max_size=60)


@given(WANTED, some.sets(some.tuples(some.integers(0, 3), some.integers(0, 3)), max_size=3))
@settings(max_examples=60, deadline=None)
def test_boards_back_are_those_of_a_model(wanted, handicap):
    moves, after = game(4, wanted, handicap)
    stones = "".join(f"[{chr(97 + x)}{chr(97 + 3 - y)}]" for x, y in handicap)
    with playing(record(4, moves, first="AB" + stones if stones else "")) as session:
        assert played(session) == [(colour, vertex(point)) for colour, point in moves]
        boards = list(boards_back(session))
    assert [board.moves for board in boards] == list(range(len(moves), -1, -1))
    for board, (rows, taken) in zip(boards, reversed(after)):
        assert (board.stones, board.black_taken, board.white_taken) == ("".join(rows), taken["B"], taken["W"])


@pytest.mark.no_library
def test_points():
    assert [point_of(one, 19) for one in ("A19", "T19", "A1", "T1", "J10", "pass")] == [0, 18, 342, 360, 179, None]
    assert (point_of("Z1", 25), point_of("A1", 1)) == (624, 0)


FIVE_9 = {"C3", "G3", "C7", "G7", "E5"}
FIVE_13 = {"D4", "K4", "D10", "K10", "G7"}
NINE_19 = {column + row for column in "DKQ" for row in ("4", "10", "16")}
NINE_11 = {column + row for column in "CFJ" for row in ("3", "6", "9")}
NINE_25 = {column + row for column in "DNW" for row in ("4", "13", "22")}
FOUR_8 = {"C3", "F3", "C6", "F6"}


@pytest.mark.parametrize(
    "size, stars",
    [
        (1, set()),
        (6, set()),
        (7, {"C3", "E3", "C5", "E5"}),
        (8, FOUR_8),
        (9, FIVE_9),
        (11, NINE_11),
        (13, FIVE_13),
        (19, NINE_19),
        (25, NINE_25),
    ],
)
def test_star_points(size, stars):
    found = stars_of(size)
    assert set(found) == stars and len(found) == len(stars)


def drawn(run, path, *words):
    """The picture of a board, and its parts by class."""
    end = run("board", path, "--svg", *words)
    assert (end.status, end.err) == (0, "")
    return ElementTree.fromstring(end.out)


def stones_in(root):
    """The stones of a picture on so few lines that a point is 40 from the next and the first at 60."""
    return {
        (int(one.get("cx")) // 40 - 1, int(one.get("cy")) // 40 - 1): one.get("class")
        for one in root.iter(SVG + "circle")
        if one.get("class") in ("b", "w")
    }


def texts_in(root):
    return [one.text for one in root.iter(SVG + "text")]


def test_a_picture(run, file):
    root = drawn(run, file(TAKEN))
    assert (root.get("role"), root.find(SVG + "title").text) == ("img", "Board after move 5, W pass")
    assert stones_in(root) == {(1, 0): "b", (0, 1): "b", (2, 2): "w"}
    assert sorted(texts_in(root)) == sorted(["A", "B", "C", "1", "2", "3"] * 2)
    # A pass leaves no mark, and a board of 3 lines has no star points.
    assert len(list(root.iter(SVG + "circle"))) == 3


def test_the_last_move_is_marked(run, file):
    rings = [one for one in drawn(run, file(TAKEN), "--move", "4").iter(SVG + "circle") if one.get("fill") == "none"]
    assert [(ring.get("cx"), ring.get("cy"), ring.get("stroke")) for ring in rings] == [("100", "60", "#fff")]


def test_the_letters_are_those_of_gtp(run, file):
    root = drawn(run, file(b"(;SZ[25];B[yy])"))
    assert [text for text in texts_in(root) if text.isalpha()] == [
        letter for letter in "ABCDEFGHJKLMNOPQRSTUVWXYZ" for _ in range(2)
    ]
    assert root.get("viewBox") == "0 0 1080 1080"


def test_numbers_of_the_last_moves(run, file):
    # W A3 is taken by move 4, and move 6 is played there again.
    content = b"(;SZ[3];W[aa];B[ab];W[cc];B[ba];W[bc];B[aa])"
    numbers = [text for text in texts_in(drawn(run, file(content), "--numbers", "99"))[12:]]
    assert sorted(numbers) == ["2", "3", "4", "5", "6"]
    numbers = texts_in(drawn(run, file(content), "--numbers", "4", "--move", "4"))[12:]
    assert sorted(numbers) == ["2", "3", "4"]
    assert sorted(texts_in(drawn(run, file(content), "--numbers", "2"))[12:]) == ["5", "6"]


def test_numbers_stand_out_from_their_stones(run, file):
    root = drawn(run, file(b"(;SZ[3];B[aa];W[cc])"), "--numbers", "2")
    numbers = {one.text: one.get("class") for one in list(root.iter(SVG + "text"))[12:]}
    style = root.find(SVG + "style").text
    assert numbers == {"1": "bn", "2": "wn"}
    assert (
        ".b{fill:#161616" in style
        and ".bn{fill:#fff}" in style
        and ".w{fill:#fbfbf7" in style
        and ".wn{fill:#000}" in style
    )
    # A numbered stone has no ring beside its number.
    assert not [one for one in root.iter(SVG + "circle") if one.get("fill") == "none"]


def test_numbers_count_from_the_last_move():
    board, moves = position(b"(;SZ[3];B[aa];W[];B[bb];W[cc])")
    assert numbers_on(board, moves, 0) == {}
    assert numbers_on(board, moves, 3) == {"B2": 3, "C1": 4}
    assert numbers_on(board, moves, 4) == {"A3": 1, "B2": 3, "C1": 4}


def test_a_suicide_is_marked_and_has_no_number(run, file):
    # Black's two stones at A1 and B1 have no liberty left after move 1.
    content = b"(;SZ[3]AB[ac]AW[ab][bb][cc];B[bc])"
    root = drawn(run, file(content), "--numbers", "1")
    assert (2, 2) in stones_in(root) and (0, 2) not in stones_in(root) and (1, 2) not in stones_in(root)
    assert len(texts_in(root)) == 12
    assert [one.get("stroke") for one in root.iter(SVG + "circle") if one.get("fill") == "none"] == ["#b00020"]


def test_a_title_is_data():
    board, _ = position(b"(;SZ[1])")
    root = ElementTree.fromstring(picture(board, "</title><script>&\x00\x1b\ud800"))
    assert root.find(SVG + "title").text == "</title><script>&\ufffd\ufffd\ufffd"
    assert not list(root.iter(SVG + "script"))
    assert clean("a\tb\n\x0b\ufffe") == "a\tb\n\ufffd\ufffd"

"""The word why: each reason that goref gives, and what is told with it."""

import gzip
import zipfile

import pytest

from goref._tools.excerpt import marked, printable, property_shown, shortened
from goref._tools.guesses import game_by, guess
from goref._tools.refusals import Refusal, refusal_of
from goref._tools.spelling import Property
from running import runner
from kit.runner import tools


@pytest.fixture
def why(capsys, tmp_path):
    """A function from the bytes of a file to what is told of it, without the file's name."""

    def tell(content, *words, status=1, guessed=False):
        path = tmp_path / "game.sgf"
        path.write_bytes(content)
        end = runner(capsys)("why", path, *words)
        assert end.status == status and (guessed or end.err == "")
        assert end.out.endswith("\n") and "\x1b" not in end.out
        return [line.replace(f"{path}: ", "") for line in end.out.splitlines()]

    return tell


def test_a_game_that_is_fine(why):
    assert why(b"(;SZ[3]KM[0.5]RE[B+8.5];B[bb])", status=0) == [
        "game 1 is fine: 1 move, score B+8.5, the record states that score"
    ]
    assert why(b"(;SZ[3];B[bb];W[])(;SZ[1]RE[B+R])", status=0) == [
        "game 1 is fine: 2 moves, score B+9, the record states no score in points",
        "game 2 is fine: 0 moves, score 0, the record states no score in points",
    ]
    assert why(b"(;SZ[3]RE[0];B[bb])(;SZ[0])", "--game", "1", status=0) == [
        "game 1 is fine: 1 move, score B+9, the record states another score: RE[0], 9 apart"
    ]


def test_the_first_refused_game_is_told(why):
    content = b"(;SZ[3];B[bb])(;SZ[0])(;KM[x])"
    assert why(content)[0] == "game 2 is refused: bad board size"
    assert why(content, "--game", "3")[0] == "game 3 is refused: bad komi"


# ---- What is no record.


def test_no_game_tree(why):
    told = "A game tree begins with `(` and `;`, which stand nowhere in the file one after the other."
    assert why(b"hello") == ["game 1 is refused: no game tree", told]
    assert why(b"") == ["game 1 is refused: no game tree", "The file is empty."]
    assert why(b" \n") == ["game 1 is refused: no game tree", "The file has white space alone."]


def zipped():
    import io

    room = io.BytesIO()
    with zipfile.ZipFile(room, "w", zipfile.ZIP_DEFLATED) as archive:
        archive.writestr("game.sgf", "(;B[aa])" * 100)
    return room.getvalue()


@pytest.mark.parametrize(
    "content, perhaps",
    [
        (gzip.compress(b"(;B[aa])"), "a file that gzip packed; `gunzip -c` unpacks it"),
        (zipped(), "a zip archive; `unzip` unpacks it"),
        (
            "(;B[aa])".encode("utf-16-le"),
            "a text in utf-16-le without a byte-order mark; `--charset utf-16-le` reads it",
        ),
        (
            " ( ;B[aa])".encode("utf-16-be"),
            "a text in utf-16-be without a byte-order mark; `--charset utf-16-be` reads it",
        ),
        (
            "(;B[aa])".encode("utf-32-le"),
            "a text in utf-32-le without a byte-order mark; `--charset utf-32-le` reads it",
        ),
        (b"\n<!DOCTYPE html>\n<title>404</title>", "a page in HTML, as a server sends one instead of a file"),
        (b"<html><body>", "a page in HTML, as a server sends one instead of a file"),
        (b"<?xml version='1.0'?>", "a document in XML"),
        (b'[Event "F/S Return Match"]\n1. e4 e5', "a game of chess in PGN"),
        (b"\\HS\n\\[GAMEBLACKNAME=x\\]", "a game in GIB, the format of Tygem"),
        (b"[Header]\r\nTitle=x", "a game in UGF, the format of PandaNet"),
        (b"SZ[19];B[pd];W[dp])", "a record in SGF without the `(;` at its beginning"),
        (b"(B[pd];W[dp])", "a record in SGF without the `(;` at its beginning"),
        (b"(GM[1])", "a record in SGF without the `;` of its first node"),
        (b"\x89PNG\r\n\x1a\n", "a picture in PNG"),
        (b"a\x00b", "no text, since it has bytes of value 0"),
    ],
)
def test_a_guess_is_told_as_one(why, content, perhaps):
    assert why(content, guessed=True)[-1] == f"Perhaps it is {perhaps}."


def test_the_guess_of_wide_characters_helps(why, capsys, tmp_path):
    (tmp_path / "wide").write_bytes("(;SZ[3];B[aa])".encode("utf-16-le"))
    end = runner(capsys)("why", tmp_path / "wide", "--charset", "utf-16-le")
    assert end.status == 0 and "is fine: 1 move" in end.out and "converted from utf-16-le, --charset" in end.err


@pytest.mark.no_library
def test_nothing_is_guessed_without_a_sign():
    assert guess(b"just some words") is None and guess(b"") is None


def test_a_record_that_ends_inside_a_tree(why):
    assert why(b"(;SZ[3]\n;B[aa]") == [
        "game 1 is refused: record ends inside a tree at byte 14",
        "It is in line 2, column 7.",
        "    ;B[aa]",
        "          ^",
        "Perhaps a `)` at the end is missing, or the file is cut off.",
    ]
    assert why(b"(;SZ[3];C[aa")[-1] == "Perhaps a `]` at the end of a value is missing, or the file is cut off."
    assert why(b"(;SZ[3];C")[-1] == "             ^"


def test_an_unexpected_byte(why):
    assert why(b"(;SZ[3]\r\n;C[a [b] c]\r\n;B[aa])") == [
        "game 1 is refused: unexpected byte at 19",
        "It is in line 2, column 11.",
        "    ;C[a [b] c]",
        "              ^",
        "Perhaps the value before it has a `]` that wants a `\\` in front of it.",
    ]
    # The word `for` ends at byte 15 without a capital, and a `]` follows that ends no value.
    told = why(b"(;C[see [1] for details])")
    assert told[0].endswith("unexpected byte at 15") and told[-1].startswith("Perhaps the value before it has a `]`")
    assert why(b"(;B[aa]C)")[1:] == ["It is in line 1, column 9.", "    (;B[aa]C)", "            ^"]
    assert why(b"(;b[aa])")[1:] == ["It is in line 1, column 4.", "    (;b[aa])", "       ^"]


def test_a_tree_that_is_too_deep(why):
    told = why(b"(;B[aa]" * 1001 + b")" * 1001)
    assert told[0] == "game 1 is refused: too deep at byte 7000"
    assert told[1] == "It is in line 1, column 7001." and told[3] == " " * 44 + "^"
    assert told[2] == "    " + ("(;B[aa]" * 6)[2:] + "(;B[aa]" + ")" * 17
    assert told[4] == "goref reads trees that are nested at most 1,000 deep."


def test_a_record_that_is_too_long(why):
    content = b"(;C[" + b"x" * 16_777_216 + b"])"
    told = why(content)
    assert told[0] == "game 1 is refused: record too long"
    assert told[1] == "goref reads records of at most 16,777,216 bytes, and this one has 16,777,222."


def test_places_are_those_of_the_file(capsys, tmp_path):
    # The two characters take 3 bytes each in UTF-8 and 2 in Big5, where the second byte of the first is a `\`.
    (tmp_path / "big5").write_bytes("(;CA[big5]PB[\u8a31\u5fc5]x)".encode("big5"))
    end = runner(capsys)("why", tmp_path / "big5")
    assert end.status == 1
    assert end.out.splitlines()[0].endswith("game 1 is refused: unexpected byte at 19")
    assert end.out.splitlines()[1:4] == [
        "It is in line 1, column 18.",
        "    (;CA[big5]PB[\u8a31\u5fc5]x)",
        "    " + " " * 19 + "^",
    ]


def test_places_in_a_later_game(why):
    told = why(b"(;SZ[3])\n\n  (;SZ[3];B[aa]x)")
    assert told[:2] == ["game 2 is refused: unexpected byte at 26", "It is in line 3, column 17."]


# ---- What is no game of Go.


@pytest.mark.parametrize(
    "value, stands",
    [
        ("2", "stands for Othello"),
        ("3", "stands for chess"),
        ("11", "stands for Hex"),
        ("18", "stands for Amazons"),
        ("40", "stands for Kropki"),
        ("41", "stands for no game of the format"),
        ("0", "stands for no game of the format"),
        ("Go", "stands for no game of the format"),
    ],
)
def test_another_game(why, value, stands):
    assert why(b"(;GM[" + value.encode() + b"])") == [
        "game 1 is refused: not a Go record",
        f"GM[{value}] {stands}, and Go has GM[1].",
    ]


@pytest.mark.no_library
def test_numbers_of_games():
    assert [game_by(one) for one in (b"1", b" +01 ", b"4", b"", b"-1", b"1.0")] == [
        "Go",
        "Go",
        "Gomoku or Renju",
        None,
        None,
        None,
    ]


def test_a_bad_size_and_a_bad_komi(why):
    assert why(b"(;SZ[19x19])")[1:] == ["SZ[19x19] is no size: that is a number of lines from 1 to 25, as SZ[19]."]
    assert why(b"(;KM[6,5])")[1:] == [
        "KM[6,5] is no komi: that is a number with at most two decimals after a point, as KM[6.5]."
    ]


# ---- What is no legal game.


AFTER_A3 = [
    "size 3 komi 0 prisoners B 0 W 0 moves 1 next W",
    " 3 X . .",
    " 2 . . .",
    " 1 . . .",
    "   A B C",
]


def test_a_bad_value(why):
    told = why(b"(;SZ[3];B[aa]C[Hi];W[dd]N[x]PL[q][W];B[cc])")
    assert told == [
        "game 1 is refused: bad value in node 2",
        "Node 2: ;W[dd]N[x]PL[q][W]",
        "W[dd] is malformed: a point is two small letters on the board, the column from the left and the row from the top,"
        " and a pass is an empty value.",
        "PL[q] is malformed: a colour is B or W.",
        "",
        "The board before node 2:",
        *AFTER_A3,
    ]


def test_bad_values_are_found_among_good_ones(why):
    told = why(b"(;SZ[9]PL[1]AB[aa][bb:dd][jj][a][cc:ja]AW[ee])")
    assert told[0] == "game 1 is refused: bad value in node 0"
    assert told[2] == "PL[1] is malformed: a colour is B or W."
    assert told[3].startswith("AB[jj] AB[a] AB[cc:ja] are malformed: ")
    assert len(told) == 4


def test_set_up_after_a_move(why):
    assert why(b"(;SZ[3];B[aa];AE[aa]C[dead];W[bb])") == [
        "game 1 is refused: set-up after a move in node 2",
        "Node 2: ;AE[aa]C[dead]",
        "It sets up AE A3.",
        "goref sets stones up before the first move alone.",
        "",
        "The board before node 2:",
        *AFTER_A3,
    ]


def test_set_up_without_a_liberty(why):
    assert why(b"(;SZ[3]AB[ac];AW[ab][bc]C[x];B[aa];AB[bb])") == [
        "game 1 is refused: set-up without liberty at A1",
        "The stone at A1 and its chain have no liberty before the first move.",
        "Node 0 sets up AB[ac]",
        "Node 1 sets up AW[ab][bc]",
    ]


def test_a_move_on_a_stone(why):
    assert why(b"(;SZ[3]AB[bb];W[aa];B[cc]C[x];W[cc])") == [
        "game 1 is refused: move 3 is on a stone",
        "Node 3: ;W[cc]",
        "Move 3 is W C1.",
        "A stone of Black stands at C1 since move 2.",
        "",
        "The board before move 3:",
        "size 3 komi 0 prisoners B 0 W 0 moves 2 next W",
        " 3 O . .",
        " 2 . X .",
        " 1 . . X",
        "   A B C",
    ]
    assert why(b"(;SZ[3]AB[bb];W[aa]B[bb])")[1:4] == [
        "Node 1: ;W[aa]B[bb]",
        "Move 2 is B B2.",
        "A stone of Black stands at B2 from the start.",
    ]


def test_the_last_move_that_put_the_stone_there_is_told(why):
    # Move 1 put a white stone there, and move 4 took it.
    told = why(b"(;SZ[3];W[aa];B[ab];W[cc];B[ba];W[bc];B[aa];W[aa])")
    assert told[2:4] == ["Move 7 is W A3.", "A stone of Black stands at A3 since move 6."]


# A ko on 5 lines, whose top is `. X O . .`, `X O . O .` and `. X O . .`: Black takes B4 by C4, and White takes it back.
KO = b"(;SZ[5]AB[ba][ab][bc]AW[ca][bb][db][cc];B[cb];W[bb])"


def test_a_repetition(why):
    assert why(KO.replace(b";B[cb]", b";B[];B[cb]C[ko]")) == [
        "game 1 is refused: move 3 repeats the position after 0 moves",
        "Node 3: ;W[bb]",
        "Move 3 is W B4.",
        "The position that it would leave stood at the start.",
        "",
        "The board before move 3:",
        "size 5 komi 0 prisoners B 0 W 1 moves 2 next W",
        " 5 . X O . .",
        " 4 X . X O .",
        " 3 . X O . .",
        " 2 . . . . .",
        " 1 . . . . .",
        "   A B C D E",
        "",
        "The position that it repeats:",
        "size 5 komi 0 prisoners B 0 W 0 moves 0 next B",
        " 5 . X O . .",
        " 4 X O . O .",
        " 3 . X O . .",
        " 2 . . . . .",
        " 1 . . . . .",
        "   A B C D E",
    ]


def test_a_repetition_of_a_later_position(why):
    told = why(KO.replace(b";B[cb]", b";W[ee];B[cb]"))
    assert told[0] == "game 1 is refused: move 3 repeats the position after 1 moves"
    assert told[2:4] == ["Move 3 is W B4.", "The position that it would leave stood after move 1, W E1."]
    assert told[-7:] == [
        "size 5 komi 0 prisoners B 0 W 0 moves 1 next B",
        " 5 . X O . .",
        " 4 X O . O .",
        " 3 . X O . .",
        " 2 . . . . .",
        " 1 . . . . O",
        "   A B C D E",
    ]


# ---- Words, files, terminals.


@pytest.mark.no_library
def test_faults_of_files_and_words(capsys, tmp_path):
    run = runner(capsys)
    assert run("why", tmp_path / "none") == (3, "", f"goref-tools: {tmp_path}/none: No such file or directory\n")
    assert run("why", tmp_path).status == 3
    (tmp_path / "one").write_bytes(b"(;)")
    end = run("why", tmp_path / "one", "--game", "2")
    assert end.status != 0 and end.out == "" and end.err.count("\n") == 1
    for words in (["why"], ["why", tmp_path, "--game", "0"], ["why", tmp_path, "--game", "x"]):
        assert run(*words).status == 2


def test_the_standard_input_is_read():
    end = tools("why", "-", input=b"(;SZ[0])")
    assert end.returncode == 1 and end.stdout.startswith(b"-: game 1 is refused: bad board size\n")


def test_controls_dont_reach_the_terminal(why):
    told = why("(;SZ[3];B[zz]C[\x1b[31mred\x9b\u202e\n\x07])".encode())
    assert told[1] == "Node 1: ;B[zz]C[\\x1b[31mred\\x9b\\u202e\\n\\x07]"
    told = why("(;SZ[3]C[\x1b[2J\u202e]\x1b)".encode())
    assert told[2] == "    (;SZ[3]C[\\x1b[2J\\u202e]\\x1b)" and told[3] == " " * 27 + "^"


def test_long_nodes_are_cut(why):
    told = why(b"(;SZ[3];B[zz]C[" + b"long " * 1000 + b"]" + b"LB" + b"[aa:x]" * 500 + b")")
    assert len(told[1]) < 500
    assert (
        told[1]
        == "Node 1: ;B[zz]C[" + "long " * 12 + ".. (4,940 characters more)]LB" + "[aa:x]" * 12 + ".. (488 values more)"
    )


@pytest.mark.no_library
def test_pieces():
    assert printable("a\tb\u5fc5\u00e4 \x7f\ud83d") == "a\\tb\u5fc5\u00e4 \\x7f\\ud83d"
    assert (shortened("abc", 3), shortened("abcd", 3)) == ("abc", "abc.. (1 character more)")
    assert property_shown(Property("AB", [b"aa", b"\xff]"], 0, 0)) == "AB[aa][\\xff]]"


@pytest.mark.no_library
def test_marks():
    assert marked(b"ab", 0) == ["It is in line 1, column 1.", "    ab", "    ^"]
    assert marked(b"ab", 2) == ["It is in line 1, column 3.", "    ab", "      ^"]
    assert marked(b"a\nb\r\ncd\re", 6) == ["It is in line 3, column 2.", "    cd", "     ^"]
    assert marked(b"x\ny", 1) == ["It is in line 1, column 2.", "    x\\ny", "     ^"]
    assert marked("\u5fc5e\u0301x".encode(), 6) == ["It is in line 1, column 4.", "    \u5fc5e\u0301x", "       ^"]
    assert marked(b"(;B[aa]\n;PL[B]\r\n", 16)[1:] == ["    (;B[aa]\\n;PL[B]\\r\\n", "    " + " " * 19 + "^"]
    assert marked(b"a\nb", 2) == ["It is in line 2, column 1.", "    a\\nb", "       ^"]
    assert marked(b"", 0) == ["It is in line 1, column 1.", "    ", "    ^"]


@pytest.mark.no_library
@pytest.mark.parametrize(
    "reason, named",
    [
        ("no game tree", {}),
        ("record too long", {}),
        ("not a Go record", {}),
        ("bad board size", {}),
        ("bad komi", {}),
        ("record ends inside a tree at byte 7", {"byte": 7}),
        ("unexpected byte at 0", {"byte": 0}),
        ("too deep at byte 12", {"byte": 12}),
        ("bad value in node 3", {"node": 3}),
        ("set-up after a move in node 82", {"node": 82}),
        ("set-up without liberty at A19", {"vertex": "A19"}),
        ("move 12 is on a stone", {"move": 12}),
        ("move 233 repeats the position after 230 moves", {"move": 233, "after": 230}),
    ],
)
def test_what_reasons_name(reason, named):
    assert refusal_of(reason) == Refusal(reason, **named)


def test_points_of_set_up_are_told_as_vertices(why):
    told = why(b"(;SZ[19];B[aa];AE[md][aa:bb]AB[ss]AW" + b"[tt]" * 20 + b")")
    assert told[2] == "It sets up AE N16 [aa:bb], AB T1, AW" + " [tt]" * 12 + ".. (8 values more)."

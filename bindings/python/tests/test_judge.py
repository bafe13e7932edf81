"""The word judge: a row for each game."""

import csv
import io
import json
import os
import subprocess
import sys

import pytest

from kit.runner import PACKAGE, tools

GOOD = b"(;SZ[5]KM[0.5]RE[B+24.5];B[cc];W[])"
WRONG = b"(;SZ[5]RE[W+3];B[cc])"
ILLEGAL = b"(;SZ[5];B[cc];W[cc])"
BIG5 = "(;GM[1]SZ[9]KM[6.5]PB[許功蓋];B[ee];W[cc])".encode("big5")


@pytest.fixture
def archive(tmp_path):
    for name, content in {
        "b.sgf": GOOD + b" junk " + ILLEGAL, "a.SGF": WRONG, "c.txt": GOOD, "d/e.sgf": GOOD, "d/c.sgf": b"(;B[aa]7)", "z.sgf": b"",
    }.items():
        (tmp_path / name).parent.mkdir(exist_ok=True)
        (tmp_path / name).write_bytes(content)
    return tmp_path


ROWS = [
    ("a.SGF", 1, 1, "B+25", "differs", None, "W+3", 28),
    ("b.sgf", 1, 2, "B+24.5", "agrees", None, "B+24.5", 0),
    ("b.sgf", 2, None, None, None, "move 2 is on a stone", None, None),
    ("d/c.sgf", 1, None, None, None, "unexpected byte at 7", None, None),
    ("d/e.sgf", 1, 2, "B+24.5", "agrees", None, "B+24.5", 0),
    ("z.sgf", 1, None, None, None, "no game tree", None, None),
]
COUNTS = b"5 files, 6 games: 3 refused, 2 agreeing, 1 differing; 0 files converted; 1 file not read: 1 .txt\n"


@pytest.mark.parametrize("jobs", ["1", "3"])
def test_folders_are_walked_in_order(archive, jobs):
    end = tools("judge", "-j", jobs, ".", cwd=archive)
    told = [
        f"./{file}:{game}: " + (reason or f"moves {moves} score {score} stated {stated}")
        + (f" (RE[{result}], {difference} apart)" if difference else "")
        for file, game, moves, score, stated, reason, result, difference in ROWS
    ]
    assert end.stdout.decode().splitlines() == told
    assert (end.returncode, end.stderr) == (1, COUNTS)


def test_a_row_in_csv_and_json(archive):
    end = tools("judge", "--format", "csv", ".", cwd=archive)
    assert b"\r" not in end.stdout
    heading, *rows = csv.reader(io.StringIO(end.stdout.decode()))
    assert heading == ["file", "game", "moves", "score", "stated", "reason", "charset", "how", "result", "difference"]
    wanted = [["./" + row[0], *row[1:6], None, None, *row[6:]] for row in ROWS]
    assert rows == [["" if one is None else str(one) for one in row] for row in wanted]
    end = tools("judge", "--format", "json", ".", cwd=archive)
    lines = [json.loads(line) for line in end.stdout.splitlines()]
    assert lines == [dict(zip(heading, row)) for row in wanted]


def test_the_counts(tmp_path):
    """None of them is as large as another."""
    big5 = BIG5.replace(b"GM[1]", b"GM[1]CA[big5]")
    games = {"a": GOOD + WRONG * 2, "b": ILLEGAL * 4, "c": big5 * 3, "d": big5 * 2}
    for name, content in games.items():
        (tmp_path / f"{name}.sgf").write_bytes(content)
    end = tools("judge", str(tmp_path))
    assert end.stderr == b"4 files, 12 games: 4 refused, 1 agreeing, 2 differing; 2 files converted\n"


def test_many_files_by_many_processes(tmp_path):
    for number in range(300):
        (tmp_path / f"{number:03}.sgf").write_bytes(b"(;SZ[5]" + b";B[];W[]" * number + b")")
    one, four = (tools("judge", "-j", jobs, str(tmp_path)) for jobs in ("1", "4"))
    assert one.stdout == four.stdout and one.stderr == four.stderr
    told = [line.split(":1: ")[1] for line in four.stdout.decode().splitlines()]
    assert told == [f"moves {2 * number} score 0 stated none" for number in range(300)]


def test_the_standard_input_is_read(archive):
    end = tools("judge", "-", input=GOOD)
    assert (end.returncode, end.stdout) == (0, b"-:1: moves 2 score B+24.5 stated agrees\n")
    many = tools("judge", "-j", "2", "-", *["b.sgf"] * 40, cwd=archive, input=GOOD)
    assert many.stdout.startswith(end.stdout) and many.stdout.count(b"\n") == 81


def test_a_pipe_is_read(tmp_path):
    (tmp_path / "game").write_bytes(GOOD)
    end = subprocess.run(
        ["bash", "-c", f'cat game | "{sys.executable}" -B -m goref judge <(cat game) /dev/stdin'], capture_output=True,
        cwd=tmp_path, env={**os.environ, "PYTHONPATH": PACKAGE},
    )
    assert end.returncode == 0 and end.stdout.count(b"moves 2 score B+24.5 stated agrees\n") == 2


def test_a_charset_is_told(tmp_path):
    (tmp_path / "a.sgf").write_bytes(BIG5.replace(b"GM[1]", b"GM[1]CA[big5]"))
    (tmp_path / "b.sgf").write_bytes(BIG5)
    (tmp_path / "c.sgf").write_bytes(b"\xef\xbb\xbf" + GOOD)
    (tmp_path / "d.sgf").write_bytes(GOOD.decode().encode("utf-16"))
    end = tools("judge", ".", cwd=tmp_path)
    a, b, c, d = end.stdout.decode().splitlines()
    assert a == "./a.sgf:1: moves 2 score W+6.5 stated none (converted from big5, CA)"
    assert b.startswith("./b.sgf:1: depends on the charset: ") and "moves 2 score W+6.5" in b and "moves 1 score W+87.5" in b
    assert c == "./c.sgf:1: moves 2 score B+24.5 stated agrees"
    assert d == "./d.sgf:1: moves 2 score B+24.5 stated agrees (converted from utf-16-le, byte-order mark)"
    assert end.returncode == 1
    end = tools("judge", "--charset", "big5", "b.sgf", cwd=tmp_path)
    assert end.stdout == b"b.sgf:1: moves 2 score W+6.5 stated none (converted from big5, --charset)\n"
    assert end.returncode == 0


def test_places_are_told_in_the_bytes_of_the_file(tmp_path):
    text = "(;SZ[9])(;CA[big5]C[許功蓋];B[aa]7)"
    (tmp_path / "a.sgf").write_bytes(text.encode("big5"))
    end = tools("judge", "a.sgf", cwd=tmp_path)
    place = len("(;SZ[9])(;CA[big5]C[") + 6 + len("];B[aa]")
    assert end.stdout.decode().splitlines()[1] == f"a.sgf:2: unexpected byte at {place} (converted from big5, CA)"


def test_bytes_that_are_not_of_the_charset_are_refused():
    end = tools("judge", "--charset", "utf-8", "-", input=b"(;C[\xff])")
    assert (end.returncode, end.stdout) == (1, b"-:1: not in utf-8 at byte 4\n")


def test_files_that_fail_are_told_and_the_others_go_on(archive):
    (archive / "gone.sgf").symlink_to("nowhere")
    (archive / "link").symlink_to(".")
    (archive / "f.sgf").mkdir()
    (archive / "f.sgf" / "g.sgf").write_bytes(GOOD)
    (archive / "none").mkdir()
    end = tools("judge", "gone.sgf", "nothing", "none", ".", cwd=archive)
    assert end.stderr.decode().splitlines()[:4] == [
        "goref-tools: gone.sgf: No such file or directory",
        "goref-tools: nothing: No such file or directory",
        "goref-tools: none: no file in it is named *.sgf",
        "goref-tools: ./gone.sgf: No such file or directory",
    ]
    passed = b"1 file not read: 1 .txt; 1 link to a folder not followed"
    assert end.returncode == 3 and end.stderr.endswith(b"; 0 files converted, 4 failed; " + passed + b"\n")
    assert [line.split(b":")[0] for line in end.stdout.splitlines()].count(b"./f.sgf/g.sgf") == 1
    assert b"link" not in end.stdout and len(end.stdout.splitlines()) == len(ROWS) + 1


def test_odd_entries_of_a_folder_are_told_and_the_others_go_on(tmp_path):
    (tmp_path / "a.sgf").write_bytes(GOOD)
    (tmp_path / "b.sgf").symlink_to("b.sgf")
    os.mkfifo(tmp_path / "c.sgf")
    (tmp_path / "d.sgf").symlink_to(".")
    end = tools("judge", ".", cwd=tmp_path)
    assert end.stdout == b"./a.sgf:1: moves 2 score B+24.5 stated agrees\n" and end.returncode == 3
    assert end.stderr.splitlines()[:2] == [
        b"goref-tools: ./b.sgf: Too many levels of symbolic links", b"goref-tools: ./c.sgf: no regular file"]


def test_a_deep_folder_is_walked(tmp_path):
    place = os.open(tmp_path, os.O_RDONLY)
    for _ in range(1200):
        os.mkdir("d", dir_fd=place)
        deeper = os.open("d", os.O_RDONLY, dir_fd=place)
        os.close(place)
        place = deeper
    os.close(place)
    (tmp_path / "e.sgf").write_bytes(GOOD)
    end = tools("judge", ".", cwd=tmp_path)
    # Python's own removal would go too deep.
    subprocess.run(["rm", "-rf", str(tmp_path / "d")], check=True)
    assert end.returncode == 0 and end.stdout.startswith(b"./e.sgf:1: moves 2")


def test_a_name_is_on_one_line_of_csv(tmp_path):
    (tmp_path / "a\rb,c\n.sgf").write_bytes(GOOD)
    end = tools("judge", "--format", "csv", ".", cwd=tmp_path)
    rows = list(csv.reader(io.StringIO(end.stdout.decode(), newline="")))
    assert rows[1][:5] == ["./a\\rb,c\\n.sgf", "1", "2", "B+24.5", "agrees"] and len(rows) == 2


def test_games_that_name_several_charsets_depend_on_that():
    data = "(;CA[ISO-8859-1]PB[Fernández];B[aa];W[bb])".encode("latin-1")
    data += "(;CA[Big5]PB[許功蓋];B[aa];W[bb])".encode("big5")
    end = tools("judge", "-", input=data)
    first, second = end.stdout.decode().splitlines()
    assert first.startswith("-:1: moves 2 ") and second.startswith("-:2: depends on the charset: ")
    assert end.returncode == 1


def test_a_read_that_fails_is_told(archive):
    end = tools("judge", "/proc/self/mem", "a.SGF", cwd=archive)
    assert end.stderr.startswith(b"goref-tools: /proc/self/mem: Input/output error\n")
    assert end.returncode == 3 and end.stdout == b"a.SGF:1: moves 1 score B+25 stated differs (RE[W+3], 28 apart)\n"


def test_names_of_any_bytes_are_written_as_they_are(tmp_path):
    name = os.fsencode(tmp_path) + b"/\xff\n.sgf"
    with open(name, "wb") as file:
        file.write(GOOD)
    end = tools("judge", str(tmp_path))
    assert end.stdout == os.fsencode(tmp_path) + b"/\xff\\n.sgf:1: moves 2 score B+24.5 stated agrees\n"
    end = tools("judge", "--format", "json", str(tmp_path))
    assert os.fsencode(json.loads(end.stdout)["file"]) == name


def test_an_endless_file_is_told():
    end = tools("judge", "/dev/zero")
    assert (end.returncode, end.stdout) == (3, b"")
    assert end.stderr.startswith(b"goref-tools: /dev/zero: longer than 268,435,456 bytes\n")


def test_a_broken_game_of_two_charsets(tmp_path):
    """Its place is told in each reading, also where the file isn't all of that charset."""
    name = "Иванов"
    data = b"(;CA[KOI8-R]PB[" + name.encode("koi8-r") + b"];B[aa]7)(;CA[UTF-8]PB[" + name.encode("utf-8") + b"];B[aa])"
    (tmp_path / "a.sgf").write_bytes(data)
    (tmp_path / "b.sgf").write_bytes(GOOD)
    end = tools("judge", str(tmp_path))
    rows = end.stdout.decode().splitlines()
    assert end.returncode == 1 and b"fault" not in end.stderr
    assert len(rows) == 3 and f"byte at {data.index(b'7)')}" in rows[0] and "B+24.5" in rows[2]


def test_a_record_that_is_too_long():
    end = tools("judge", "-", input=b"(;C[" + b"x" * 16_777_216 + b"])")
    assert (end.returncode, end.stdout) == (1, b"-:1: record too long\n")

"""What of a folder is read, and what is passed over."""

import os

import pytest

from goref._tools.files import records_in
from goref._tools.passed import Passed
from kit.runner import run

GAME = b"(;SZ[5];B[cc])\n"


def fill(folder, *names):
    for name in names:
        (folder / name).parent.mkdir(parents=True, exist_ok=True)
        (folder / name).write_bytes(b" " + GAME)
    return folder


@pytest.fixture
def archive(tmp_path):
    return fill(tmp_path, "a.sgf", ".git/b.sgf", ".git/x/c.sgf", ".hidden.sgf", "d/.snapshots/e.sgf", "d/f.SGF")


def names(folder, **options):
    return [os.path.relpath(path, folder) for path in records_in(str(folder), **options)]


def test_what_is_hidden_is_left_out(archive):
    assert names(archive) == ["a.sgf", "d/f.SGF"]
    everything = [".git/b.sgf", ".git/x/c.sgf", ".hidden.sgf", "a.sgf", "d/.snapshots/e.sgf", "d/f.SGF"]
    assert names(archive, hidden=True) == everything


def test_what_is_named_itself_is_taken(archive, monkeypatch):
    assert names(archive / ".git") == ["b.sgf", "x/c.sgf"]
    assert list(records_in(str(archive / ".hidden.sgf"))) == [str(archive / ".hidden.sgf")]
    monkeypatch.chdir(archive / ".git")
    assert list(records_in(".")) == ["./b.sgf", "./x/c.sgf"]


def test_tidy_writes_nothing_that_is_hidden(archive, capfd):
    end = run(capfd, "tidy", "--in-place", archive)
    assert (end.status, end.err) == (
        0, "2 written, 0 as they were, 0 refused, 0 left, 0 failed; 3 hidden not read (--hidden)\n"
    )
    for name in (".git/b.sgf", ".git/x/c.sgf", ".hidden.sgf", "d/.snapshots/e.sgf"):
        assert (archive / name).read_bytes() == b" " + GAME
    end = run(capfd, "tidy", "--in-place", "--hidden", archive)
    assert (end.status, end.err) == (0, "4 written, 2 as they were, 0 refused, 0 left, 0 failed\n")
    assert (archive / ".git/b.sgf").read_bytes() == GAME


def test_judge_counts_what_is_hidden(archive, capfd):
    end = run(capfd, "judge", archive)
    assert end.out.count("\n") == 2 and end.err.endswith("0 files converted; 3 hidden not read (--hidden)\n")
    end = run(capfd, "judge", "--hidden", archive)
    assert end.out.count("\n") == 6 and end.err.endswith("0 files converted\n")


def test_files_that_are_not_read_are_counted_by_their_endings(tmp_path, capfd):
    fill(tmp_path, "a.sgf", "a.sgf.gz", "b.sgf.GZ", "x/c.gz", "a.sgfs", "b.sgfs")
    fill(tmp_path, "README", ".DS_Store", "a. quite long name")
    (tmp_path / "link").symlink_to("x")
    (tmp_path / "link.sgf").symlink_to("x")
    (tmp_path / "dangling").symlink_to("nowhere")
    told = "9 files not read: 3 .gz, 2 .sgfs, 3 without ending, 1 .ds_store; 2 links to folders not followed"
    assert run(capfd, "judge", tmp_path).err.endswith(f"; 0 files converted; {told}\n")
    end = run(capfd, "tidy", tmp_path)
    assert (end.out, end.err) == (GAME.decode(), f"1 written, 0 as they were, 0 refused, 0 left, 0 failed; {told}\n")


def test_the_commonest_endings_are_named_and_those_of_records_first():
    passed = Passed()
    for ending in ["a", "b", "c", "d", "e", "f", "g", "h", "h", "zip"]:
        passed.add_file(f"x.{ending}")
    assert passed.told() == "10 files not read: 1 .zip, 2 .h, 1 .a, 1 .b, 1 .c, 1 .d, 3 of other kinds"


def test_nothing_more_is_told_where_nothing_is_passed_over(tmp_path, capfd):
    fill(tmp_path, "a.sgf")
    assert run(capfd, "tidy", tmp_path).err == ""


def test_a_folder_without_records_tells_what_it_has(tmp_path, capfd):
    fill(tmp_path, "a.sgfs", ".b.sgf")
    end = run(capfd, "judge", tmp_path)
    told = "1 file not read: 1 .sgfs; 1 hidden not read (--hidden)"
    assert end.status == 3 and end.told[0] == f"{tmp_path}: no file in it is named *.sgf; {told}"

"""What tidy writes only if it is asked: guesses, backups, nothing at all."""

import os
import stat
import sys

import pytest

from goref._tools import backup
from kit import spy
from kit.records import LOOSE, OLD, TIDY
from kit.runner import run

GUESSED = "(;PB[Müller]C[Très bien joué];B[aa])".encode("cp1252")


def files_in(folder):
    """The bytes of all files below a folder by their names."""
    return {str(path.relative_to(folder)): path.read_bytes() for path in folder.rglob("*") if path.is_file()}


# Guesses

TOLD = "its charset is a guess, cp1252: say --charset, or --guess"


@pytest.fixture
def archive(tmp_path, monkeypatch):
    pytest.importorskip("charset_normalizer")
    monkeypatch.chdir(tmp_path)
    (tmp_path / "a.sgf").write_bytes(GUESSED)
    (tmp_path / "b.sgf").write_bytes(LOOSE)
    return tmp_path


def test_no_guess_goes_to_the_output(archive, capfd):
    end = run(capfd, "tidy", "a.sgf", "b.sgf")
    assert (end.status, end.out, end.err) == (1, TIDY.decode(), f"goref-tools: a.sgf: {TOLD}\n")


@pytest.mark.parametrize("words", [["--in-place"], ["--to", "to"]])
def test_no_guess_is_written(archive, capfd, words):
    end = run(capfd, "tidy", *words, "a.sgf", "b.sgf")
    assert (end.status, end.told) == (1, [f"a.sgf: {TOLD}", "1 written, 0 as they were, 0 refused, 1 left, 0 failed"])
    written = {"b.sgf": TIDY} if words == ["--in-place"] else {"b.sgf": LOOSE, "to/b.sgf": TIDY}
    assert files_in(archive) == {"a.sgf": GUESSED, **written}


@pytest.mark.parametrize("words", [["--in-place"], ["--to", "to"], []])
@pytest.mark.parametrize("how", [["--guess"], ["--charset", "cp1252"]])
def test_a_guess_is_written_if_it_is_asked_for(archive, capfd, words, how):
    end = run(capfd, "tidy", *words, *how, "a.sgf")
    spelled = "(;CA[UTF-8]PB[Müller]C[Très bien joué];B[aa])\n"
    target = archive / ("to/a.sgf" if "--to" in words else "a.sgf")
    assert end.status == 0 and (target.read_text() if words else end.out) == spelled
    assert end.told[0] == f"a.sgf: converted from cp1252, {'guessed' if how == ['--guess'] else how[0]}"


def test_bytes_of_no_known_charset_stay_as_they_are(tmp_path, monkeypatch, capfd):
    """Nothing is lost by that, so such a file is written."""
    monkeypatch.setitem(sys.modules, "charset_normalizer", None)
    (tmp_path / "a.sgf").write_bytes(b" " + GUESSED)
    end = run(capfd, "tidy", "--in-place", tmp_path)
    assert end.status == 0 and (tmp_path / "a.sgf").read_bytes() == GUESSED + b"\n"
    assert end.told[0] == f"{tmp_path}/a.sgf: charset unknown"


# Dry runs


def test_a_dry_run_writes_nothing(tmp_path, monkeypatch, capfd):
    monkeypatch.chdir(tmp_path)
    (tmp_path / "a.sgf").write_bytes(LOOSE + b"junk")
    (tmp_path / "b.sgf").write_bytes(TIDY)
    (tmp_path / "c.sgf").write_bytes(b"(;CA[Big5]PB[" + "許功蓋".encode("big5") + b"];B[aa])")
    (tmp_path / "d.sgf").write_bytes(b"(")
    (tmp_path / "e.sgf").write_bytes(LOOSE)
    os.link("e.sgf", "e")
    before = files_in(tmp_path)
    for words, told in [(["--in-place"], "2 would be written, 1 as they were, 1 refused, 1 left, 0 failed"),
                        (["--to", "to"], "4 would be written, 0 as they were, 1 refused, 0 left, 0 failed")]:
        end = run(capfd, "tidy", *words, "--dry-run", "--drop", *sorted(tmp_path.glob("*.sgf")))
        names = "ac" if words == ["--in-place"] else "abce"
        dropped = f"; bytes outside of games would be dropped, the first at byte {len(LOOSE)}"
        more = {"a": dropped, "c": "; converted from big5, CA"}
        assert end.out == "".join(f"{tmp_path}/{name}.sgf: would be written{more.get(name, '')}\n" for name in names)
        assert (end.status, end.told[-1], len(end.told)) == (1, told, 3 if words == ["--in-place"] else 2)
        assert files_in(tmp_path) == before


# Backups


@pytest.fixture
def records(tmp_path, monkeypatch):
    monkeypatch.chdir(tmp_path)
    (tmp_path / "in" / "deep").mkdir(parents=True)
    (tmp_path / "in" / "a.sgf").write_bytes(TIDY)
    for name in ("b.sgf", "deep/c.sgf"):
        (tmp_path / "in" / name).write_bytes(LOOSE)
        os.utime(tmp_path / "in" / name, ns=OLD)
        (tmp_path / "in" / name).chmod(0o640)
    return tmp_path


def backed_up(capfd, *words):
    return run(capfd, "tidy", "--in-place", "--backup", "old/new", *words, "in")


def test_a_backup_has_what_is_written_over(records, capfd):
    end = backed_up(capfd)
    assert (end.status, end.err) == (0, "2 written, 1 as they were, 0 refused, 0 left, 0 failed\n")
    status = os.stat(records / "old" / "new" / "deep" / "c.sgf")
    assert (status.st_atime_ns, status.st_mtime_ns, stat.S_IMODE(status.st_mode)) == (*OLD, 0o640)
    assert files_in(records / "in") == {"a.sgf": TIDY, "b.sgf": TIDY, "deep/c.sgf": TIDY}
    assert files_in(records / "old" / "new") == {"b.sgf": LOOSE, "deep/c.sgf": LOOSE}


def test_a_backup_is_on_the_disk_before_its_file_is_replaced(records, monkeypatch, capfd):
    done = spy.disk(monkeypatch)
    assert run(capfd, "tidy", "--in-place", "--backup", "old", "in/b.sgf").status == 0
    old = str(records / "old")
    kinds = [(kind, os.path.dirname(first) if ".goref-" in first else first) for kind, first, _ in done]
    inside = str(records / "in")
    backups = [("fsync", str(records)), ("fsync", old), ("fsync", old)]
    assert kinds == [*backups, ("fsync", inside), ("replace", inside), ("fsync", inside)]
    assert done[1][2] == LOOSE and done[3][2] == TIDY


def test_no_backup_takes_the_place_of_a_file(records, capfd):
    (records / "old" / "new").mkdir(parents=True)
    (records / "old" / "new" / "b.sgf").write_bytes(b"dear")
    for words in (["--dry-run"], []):
        end = backed_up(capfd, *words)
        assert end.status == 1 and end.told[0] == "in/b.sgf: no backup was made, since old/new/b.sgf is there already"
        assert end.told[1].endswith("1 left, 0 failed")
    assert (records / "old" / "new" / "b.sgf").read_bytes() == b"dear"
    assert (records / "in" / "b.sgf").read_bytes() == LOOSE and (records / "in" / "deep" / "c.sgf").read_bytes() == TIDY


def test_a_file_is_no_backup_of_itself(records, capfd):
    (records / "link").mkdir()
    (records / "link" / "b.sgf").symlink_to("../in/b.sgf")
    for folder in ("in", "link"):
        end = run(capfd, "tidy", "--in-place", "--backup", folder, "in/b.sgf")
        assert end.status == 1 and end.told[0] == f"in/b.sgf: no backup was made, since {folder}/b.sgf is there already"
        assert (records / "in" / "b.sgf").read_bytes() == LOOSE


def test_a_backup_that_comes_meanwhile_stays(records, monkeypatch, capfd):
    (records / "old" / "new").mkdir(parents=True)
    spy.before(monkeypatch, "link", lambda: (records / "old" / "new" / "b.sgf").write_bytes(b"dear"))
    end = run(capfd, "tidy", "--in-place", "--backup", "old/new", "in/b.sgf")
    assert end.status == 1 and end.told[0] == "in/b.sgf: no backup was made, since old/new/b.sgf is there already"
    assert files_in(records / "old") == {"new/b.sgf": b"dear"} and (records / "in" / "b.sgf").read_bytes() == LOOSE


def test_a_run_goes_on_where_it_was_ended(records, capfd):
    """A backup was made, and its file not yet written."""
    (records / "old" / "new").mkdir(parents=True)
    (records / "old" / "new" / "b.sgf").write_bytes(LOOSE)
    assert backed_up(capfd).status == 0 and (records / "in" / "b.sgf").read_bytes() == TIDY


@pytest.mark.parametrize("number", backup._NO_LINKS)
def test_a_file_system_without_links_keeps_backups_too(records, monkeypatch, capfd, number):
    spy.failing(monkeypatch, "link", number)
    assert backed_up(capfd).status == 0
    assert files_in(records / "old" / "new") == {"b.sgf": LOOSE, "deep/c.sgf": LOOSE}


def test_a_backup_that_fails_leaves_the_file(records, monkeypatch, capfd):
    spy.failing(monkeypatch, "link", 28)
    end = backed_up(capfd)
    assert end.status == 3 and end.told[0] == "old/new/b.sgf: No space left on device"
    assert files_in(records / "in")["b.sgf"] == LOOSE and files_in(records / "old") == {}


def test_a_file_that_is_left_has_no_backup(records, capfd):
    os.link("in/b.sgf", "other")
    assert backed_up(capfd).status == 1
    assert files_in(records / "old" / "new") == {"deep/c.sgf": LOOSE}


# Words that don't go together

SEARCHED = "--backup wants a folder that isn't searched: the next run would write over the backups"


@pytest.mark.parametrize(
    "words, why",
    [
        (["--backup", "old", "in"], "--backup wants --in-place"),
        (["--backup", "", "--in-place", "in"], "--backup wants the name of a folder"),
        (["--break-links", "--to", "to", "in"], "--break-links wants --in-place"),
        (["--dry-run", "in"], "--dry-run wants --in-place or --to"),
        (["--in-place", "--backup", "in/old", "in"], SEARCHED),
        (["--in-place", "--backup", "in", "in"], SEARCHED),
        (["--in-place", "--backup", "old", "in/b.sgf", "."], SEARCHED),
        (["--in-place", "--backup", "in/.old", "--hidden", "in"], SEARCHED),
    ],
)
def test_words_that_dont_go_together(records, capfd, words, why):
    end = run(capfd, "tidy", *words)
    assert (end.status, end.err) == (2, f"goref-tools: {why}\n") and files_in(records / "in")["b.sgf"] == LOOSE


@pytest.mark.parametrize("folder", ["in-old", "in/.old", "in/deep/.x/old"])
def test_a_backup_may_be_where_nothing_is_searched(records, capfd, folder):
    assert run(capfd, "tidy", "--in-place", "--backup", folder, "in").status == 0
    assert files_in(records / folder) == {"b.sgf": LOOSE, "deep/c.sgf": LOOSE}

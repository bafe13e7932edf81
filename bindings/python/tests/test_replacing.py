"""A new file in the place of an old one: when it is on the disk, and if nobody has changed the old one meanwhile."""

import errno
import os
import stat

import pytest

from goref._tools.faults import Fault, Left
from goref._tools.files import make_folder, replacing
from kit import spy
from kit.records import LEFT, LOOSE, OLD, TIDY, is_left, old_record
from kit.runner import run

CHANGED = "it was changed since it was read"


@pytest.fixture
def record(tmp_path):
    return old_record(tmp_path)


def test_a_file_whose_length_is_changed_meanwhile_is_left(record, monkeypatch, capfd):
    """Also if somebody sets its times back."""

    def changed():
        record.write_bytes(b"(;C[other text])")
        os.utime(record, ns=OLD)

    spy.before(monkeypatch, "fsync", changed)
    end = run(capfd, "tidy", "--in-place", record)
    assert (end.status, end.told) == (1, [f"{record}: {CHANGED}", LEFT])
    assert record.read_bytes() == b"(;C[other text])"


@pytest.mark.parametrize("text", [b"(;C[other text])", LOOSE.replace(b"cc", b"dd")])
def test_a_file_that_is_changed_meanwhile_is_left(record, monkeypatch, capfd, text):
    """Also where its length stays."""
    spy.before(monkeypatch, "fsync", lambda: record.write_bytes(text))
    end = run(capfd, "tidy", "--in-place", record)
    assert (end.status, end.told) == (1, [f"{record}: {CHANGED}", LEFT])
    assert record.read_bytes() == text and list(record.parent.iterdir()) == [record]


def test_a_file_whose_name_another_takes_is_left(record, tmp_path, monkeypatch, capfd):
    def taken():
        (tmp_path / "new").write_bytes(LOOSE)
        os.utime(tmp_path / "new", ns=OLD)
        os.rename(tmp_path / "new", record)

    spy.before(monkeypatch, "fsync", taken)
    assert is_left(record, run(capfd, "tidy", "--in-place", record), CHANGED)


def test_a_file_that_is_removed_meanwhile_stays_so(record, monkeypatch, capfd):
    spy.before(monkeypatch, "fsync", lambda: record.unlink(missing_ok=True))
    end = run(capfd, "tidy", "--in-place", record)
    assert (end.status, end.told) == (1, [f"{record}: it is gone since it was read", LEFT])
    assert list(record.parent.iterdir()) == []


def test_a_file_takes_the_place_when_it_is_on_the_disk(record, monkeypatch, capfd):
    done = spy.disk(monkeypatch)
    assert run(capfd, "tidy", "--in-place", record).status == 0
    made = done[0][1]
    assert os.path.dirname(made) == str(record.parent)
    assert done == [("fsync", made, TIDY), ("replace", made, str(record)), ("fsync", str(record.parent), None)]


def test_the_names_of_new_folders_are_on_the_disk(tmp_path, monkeypatch):
    done = spy.disk(monkeypatch)
    make_folder(str(tmp_path / "a" / "b"))
    assert (tmp_path / "a" / "b").is_dir()
    assert [path for _, path, _ in done] == [str(tmp_path), str(tmp_path / "a")]
    make_folder(str(tmp_path / "a" / "b"))
    assert len(done) == 2


def test_a_folder_that_a_file_stands_for_is_told(tmp_path, capfd):
    (tmp_path / "a.sgf").write_bytes(LOOSE)
    (tmp_path / "to").write_bytes(b"")
    end = run(capfd, "tidy", "--to", tmp_path / "to", tmp_path / "a.sgf")
    assert (end.status, end.told[0]) == (3, f"{tmp_path}/to: it is no folder")


def test_a_place_that_cant_be_looked_at_is_told(record, tmp_path, capfd):
    (tmp_path / "to").mkdir()
    (tmp_path / "to" / "a.sgf").symlink_to("a.sgf")
    end = run(capfd, "tidy", "--to", tmp_path / "to", record)
    assert (end.status, end.told[0]) == (3, f"{tmp_path}/to/a.sgf: Too many levels of symbolic links")
    assert end.told[1] == "0 written, 0 as they were, 0 refused, 0 left, 1 failed"


def test_a_folder_that_takes_no_new_file_is_told(record, monkeypatch, capfd):
    opened = os.open

    def shut(path, flags, *mode):
        if flags & os.O_CREAT:
            raise PermissionError(errno.EACCES, os.strerror(errno.EACCES))
        return opened(path, flags, *mode)

    monkeypatch.setattr(os, "open", shut)
    end = run(capfd, "tidy", "--in-place", record)
    assert end.told[0] == f"{record}: the folder {record.parent} takes no new file: Permission denied"
    assert end.status == 3 and record.read_bytes() == LOOSE


def test_a_new_file_shows_nobody_more_than_the_old(record, monkeypatch, capfd):
    """Its own mode is the closest, until it has that of the old file."""
    record.chmod(0o600)
    modes = []
    spy.before(monkeypatch, "fchmod", lambda: modes.extend(
        stat.S_IMODE(path.stat().st_mode) for path in record.parent.glob(".goref-*.new")))
    assert run(capfd, "tidy", "--in-place", record).status == 0
    assert modes == [0o600]


def test_a_new_record_needs_no_old_one(tmp_path):
    with replacing(str(tmp_path / "game.sgf")) as file:
        file.write(TIDY)
    assert [(path.name, path.read_bytes()) for path in tmp_path.iterdir()] == [("game.sgf", TIDY)]


def test_what_is_left_is_a_fault_to_who_knows_no_more(record, monkeypatch):
    owner = os.geteuid()
    monkeypatch.setattr(os, "geteuid", lambda: owner + 1)
    assert issubclass(Left, Fault)
    with pytest.raises(Left), replacing(str(record)):
        pass
    assert list(record.parent.iterdir()) == [record]

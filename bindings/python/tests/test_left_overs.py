"""New files that a killed run left beside others."""

import os
import signal
import subprocess
import sys

import pytest

from goref._tools import left_overs
from goref._tools.left_overs import clear_left_overs, name_beside
from kit import spy
from kit.runner import environment, run

LOOSE = b" (;SZ[5];B[cc])"
ENDED = "a process that has ended left it; it was removed"


@pytest.fixture
def gone():
    """The number of a process that has ended."""
    with subprocess.Popen([sys.executable, "-c", ""]) as process:
        process.wait()
    return process.pid


def left(folder, host, process, start):
    path = folder / f".goref-{host}-{process}-{start}-0123456789abcdef.new"
    path.write_bytes(b"half")
    return path


def test_a_name_tells_the_process(tmp_path):
    with open("/proc/self/stat") as file:
        start = file.read().rpartition(")")[2].split()[19]
    with name_beside(str(tmp_path / "a.sgf")) as made:
        folder, name = os.path.split(made)
    assert folder == str(tmp_path)
    host, process, started, _ = name.removeprefix(".goref-").rsplit("-", 3)
    assert (host, process, started) == (os.uname().nodename, str(os.getpid()), start)


def test_what_a_process_left_that_has_ended_is_removed(tmp_path, gone):
    path = left(tmp_path, os.uname().nodename, gone, 1)
    assert clear_left_overs(str(tmp_path)) == [f"{path}: {ENDED}"]
    assert list(tmp_path.iterdir()) == []


def test_a_number_that_another_process_has_now_is_no_sign_of_life(tmp_path):
    left(tmp_path, os.uname().nodename, os.getpid(), 1)
    clear_left_overs(str(tmp_path))
    assert list(tmp_path.iterdir()) == []


def test_what_a_process_is_at_work_on_stays(tmp_path):
    with name_beside(str(tmp_path / "a.sgf")) as made:
        open(made, "wb").close()
        told = clear_left_overs(str(tmp_path))
        assert told == [f"{made}: the process {os.getpid()} is at work on it; it stays"] and os.path.exists(made)
    assert clear_left_overs(str(tmp_path)) == []


def test_a_process_that_shows_nothing_of_itself_is_at_work(tmp_path, monkeypatch):
    """As another user's may where /proc hides it."""
    path = left(tmp_path, os.uname().nodename, 1, 7)
    spy.failing(monkeypatch, "kill")
    monkeypatch.setattr(left_overs, "_start_of", lambda process: None)
    assert clear_left_overs(str(tmp_path)) == [f"{path}: the process 1 is at work on it; it stays"]
    assert path.exists()


def test_a_start_that_was_not_known_says_nothing(tmp_path, gone):
    path = left(tmp_path, os.uname().nodename, gone, 0)
    clear_left_overs(str(tmp_path))
    assert path.exists()


def test_what_another_host_left_stays(tmp_path, gone):
    path = left(tmp_path, "far-away.example", gone, 1)
    told = "a process of the host far-away.example left it, or is at work on it; it stays"
    assert clear_left_overs(str(tmp_path)) == [f"{path}: {told}"] and path.exists()


def test_what_an_earlier_version_left_stays(tmp_path):
    path = tmp_path / ".goref-0123456789abcdef.new"
    path.write_bytes(b"half")
    told = "an earlier version of goref-tools left it, or is at work on it; it stays"
    assert clear_left_overs(str(tmp_path)) == [f"{path}: {told}"] and path.exists()


def test_other_files_are_none(tmp_path):
    end = "0123456789abcdef.new"
    for name in (".goref-x.new", f"goref-{end}", f".goref-h-1-2-{end}.sgf", f".goref-h-x-2-{end}"):
        (tmp_path / name).write_bytes(b"")
    assert clear_left_overs(str(tmp_path)) == [] and len(list(tmp_path.iterdir())) == 4


def test_what_cant_be_removed_is_told(tmp_path, gone, monkeypatch):
    path = left(tmp_path, os.uname().nodename, gone, 1)
    spy.failing(monkeypatch, "unlink")
    told = "a process that has ended left it, and it can't be removed: Operation not permitted"
    assert clear_left_overs(str(tmp_path)) == [f"{path}: {told}"]


def test_a_folder_that_is_not_there_has_none(tmp_path):
    assert clear_left_overs(str(tmp_path / "none")) == []


def test_a_host_may_have_any_name(tmp_path, monkeypatch):
    name = os.uname()
    monkeypatch.setattr(os, "uname", lambda: os.uname_result([name[0], "my/host\n", *name[2:]]))
    with name_beside(str(tmp_path / "a.sgf")) as made:
        assert os.path.basename(made).startswith(".goref-my_host_-")
        open(made, "wb").close()
        assert "is at work on it" in clear_left_overs(str(tmp_path))[0]


@pytest.mark.parametrize(
    "words, folders",
    [(["--in-place"], ["in"]), (["--to", "to"], ["to"]), (["--in-place", "--backup", "to"], ["in", "to"])],
)
def test_tidy_clears_each_folder_that_it_writes_to(tmp_path, monkeypatch, gone, capfd, words, folders):
    monkeypatch.chdir(tmp_path)
    for folder in ("in", "in/deep", "to", "to/deep"):
        (tmp_path / folder).mkdir()
        name = left(tmp_path / folder, os.uname().nodename, gone, 1).name
    for record in ("in/a.sgf", "in/b.sgf", "in/deep/a.sgf"):
        (tmp_path / record).write_bytes(LOOSE)
    end = run(capfd, "tidy", *words, "in")
    assert end.status == 0
    assert end.told[:-1] == [f"{folder}{deep}/{name}: {ENDED}" for deep in ("", "/deep") for folder in folders]
    assert {path.relative_to(tmp_path).parts[0] for path in tmp_path.rglob(name)} == {"in", "to"} - set(folders)


def test_a_dry_run_clears_nothing(tmp_path, gone, capfd):
    path = left(tmp_path, os.uname().nodename, gone, 1)
    (tmp_path / "a.sgf").write_bytes(LOOSE)
    run(capfd, "tidy", "--in-place", "--dry-run", tmp_path)
    assert path.exists()


def test_a_killed_run_leaves_what_the_next_one_removes(tmp_path, capfd):
    record = tmp_path / "a.sgf"
    record.write_bytes(LOOSE)
    stop = "import os, signal; os.fsync = lambda number: os.kill(os.getpid(), signal.SIGKILL)"
    code = f"{stop}; from goref._tools.main import main; main(['tidy', '--in-place', {str(record)!r}])"
    end = subprocess.run([sys.executable, "-B", "-c", code], env=environment(), timeout=30)
    assert end.returncode == -signal.SIGKILL
    assert len(list(tmp_path.iterdir())) == 2 and record.read_bytes() == LOOSE
    end = run(capfd, "tidy", "--in-place", tmp_path)
    assert end.told[0].endswith(ENDED) and end.told[1].startswith("1 written, ")
    assert list(tmp_path.iterdir()) == [record]

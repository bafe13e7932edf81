"""The word tidy."""

import os
import random
import signal
import subprocess
import sys
import threading
import time

import pytest

from kit.runner import apart
from kit.runner import PACKAGE, tools

LOOSE = b" ( ; SZ [5] ;B[cc])\n"
TIDY = b"(;SZ[5];B[cc])\n"


def write(folder, **files):
    for name, content in files.items():
        (folder / f"{name}.sgf").write_bytes(content)


def test_to_the_standard_output():
    end = tools("tidy", "-", input=LOOSE + b"(;White[])")
    assert (end.returncode, end.stdout, end.stderr) == (0, TIDY + b"(;W[])\n", b"")


def test_further_games_are_kept_and_what_is_between_is_told():
    end = tools("tidy", "-", input=b"x(;B[])\n junk (;W[])")
    assert (end.returncode, end.stdout) == (0, b"(;B[])\n(;W[])\n")
    assert end.stderr == b"goref-tools: -: bytes outside of games were dropped, the first at byte 0\n"


def test_in_place(tmp_path):
    write(tmp_path, a=LOOSE, b=TIDY, c=b"(;B[aa]7)", d=b"(;B[])junk(;W[])", e=b"", f=b"\xef\xbb\xbf(;B[])")
    (tmp_path / "a.sgf").chmod(0o640)
    before = os.stat(tmp_path / "b.sgf").st_mtime_ns
    end = tools("tidy", "--in-place", str(tmp_path))
    assert end.returncode == 1
    assert end.stderr.decode().replace(f"{tmp_path}/", "").splitlines() == [
        "goref-tools: c.sgf: unexpected byte at 7",
        "goref-tools: d.sgf: bytes outside of games, the first at byte 6, would be dropped: say --drop for that",
        "goref-tools: e.sgf: no game tree",
        "2 written, 1 as they were, 2 refused, 1 left, 0 failed",
    ]
    assert {path.name: path.read_bytes() for path in tmp_path.iterdir()} == {
        "a.sgf": TIDY, "b.sgf": TIDY, "c.sgf": b"(;B[aa]7)", "d.sgf": b"(;B[])junk(;W[])", "e.sgf": b"", "f.sgf": b"(;B[])\n",
    }
    assert os.stat(tmp_path / "a.sgf").st_mode & 0o777 == 0o640
    assert os.stat(tmp_path / "b.sgf").st_mtime_ns == before
    end = tools("tidy", "--in-place", "--drop", str(tmp_path / "d.sgf"))
    assert end.returncode == 0 and (tmp_path / "d.sgf").read_bytes() == b"(;B[])\n(;W[])\n"


def test_a_link_stays_and_its_file_is_written(tmp_path):
    write(tmp_path, a=LOOSE)
    (tmp_path / "link.sgf").symlink_to("a.sgf")
    assert tools("tidy", "--in-place", str(tmp_path / "link.sgf")).returncode == 0
    assert (tmp_path / "link.sgf").is_symlink() and (tmp_path / "a.sgf").read_bytes() == TIDY


def test_to_a_folder(tmp_path):
    (tmp_path / "in" / "deep").mkdir(parents=True)
    write(tmp_path / "in", a=LOOSE)
    write(tmp_path / "in" / "deep", a=LOOSE, b=b"(")
    end = tools("tidy", "--to", "out/new", "in", "in/deep/a.sgf", "in/deep/a.sgf", cwd=tmp_path)
    assert end.returncode == 3
    found = {str(path.relative_to(tmp_path / "out")): path.read_bytes() for path in (tmp_path / "out").rglob("*.sgf")}
    assert found == {"new/a.sgf": TIDY, "new/deep/a.sgf": TIDY}
    assert b"goref-tools: in/deep/a.sgf: out/new/a.sgf is taken by another file\n" in end.stderr
    assert b"goref-tools: in/deep/b.sgf: no game tree\n" in end.stderr
    assert (tmp_path / "in" / "a.sgf").read_bytes() == LOOSE


def test_a_folder_that_has_the_file_itself(tmp_path):
    write(tmp_path, a=LOOSE)
    end = tools("tidy", "--to", str(tmp_path), str(tmp_path / "a.sgf"))
    assert end.returncode == 3 and b"is one of the files to read: say --in-place for that" in end.stderr
    assert (tmp_path / "a.sgf").read_bytes() == LOOSE


def test_a_record_that_is_converted_says_so(tmp_path):
    for stated, inside in (("", ""), ("CA[Big5]", ""), ("PW[x]CA[Big5]", "PW[x]")):
        text = f"(;GM[1]{stated}PB[許功蓋];B[ee])"
        end = tools("tidy", "--charset", "big5", "-", input=text.encode("big5"))
        assert end.stdout.decode() == f"(;CA[UTF-8]GM[1]{inside}PB[許功蓋];B[ee])\n"
        assert end.stderr == b"goref-tools: -: converted from big5, --charset\n" and end.returncode == 0
    end = tools("tidy", "-", input=text.encode("big5"))
    assert end.stderr == b"goref-tools: -: converted from big5, CA\n" and end.stdout.startswith(b"(;CA[UTF-8]GM")
    text = "(;GM[1]PB[許功蓋];B[ee])"
    assert tools("tidy", "-", input=text.encode()).stdout == text.encode() + b"\n"


def test_a_record_that_depends_on_its_charset_is_left(tmp_path):
    data = "(;GM[1]PB[許功蓋];B[ee];W[cc])".encode("big5")
    write(tmp_path, a=data)
    end = tools("tidy", "--in-place", str(tmp_path))
    assert end.returncode == 1 and b"depends on the charset" in end.stderr and b"say --charset" in end.stderr
    assert (tmp_path / "a.sgf").read_bytes() == data


def test_a_guess_is_not_written_over_a_record(tmp_path):
    data = "(;PB[Müller]C[Très bien joué];B[aa])".encode("cp1252")
    write(tmp_path, a=data)
    end = tools("tidy", "--in-place", str(tmp_path))
    assert end.returncode == 1 and b"a.sgf: its charset is a guess, cp1252: say --charset, or --guess\n" in end.stderr
    assert (tmp_path / "a.sgf").read_bytes() == data


@pytest.mark.parametrize(
    "data",
    [
        "(;CA[ISO-8859-1]PB[Fernández];B[aa])".encode("latin-1") + "(;CA[Big5]PB[許功蓋];B[aa];W[bb])".encode("big5"),
        "(;CA[KOI8-R]PB[Иванов];B[aa])".encode("koi8-r") + "(;CA[UTF-8]PB[Иванов];B[aa])".encode(),
        "(;CA[ISO-8859-1]PB[Fernández];B[aa])".encode(),
    ],
)
def test_a_record_that_names_a_charset_which_may_not_be_its_own_is_left(tmp_path, data):
    write(tmp_path, a=data)
    end = tools("tidy", "--in-place", str(tmp_path))
    assert end.returncode == 1 and b"; say --charset\n" in end.stderr
    assert (tmp_path / "a.sgf").read_bytes() == data


@pytest.mark.parametrize("mark, words", [(b"\xef\xbb\xbf", []), (b"", ["--charset", "utf-8"])])
def test_what_is_known_to_be_utf8_says_so(tmp_path, mark, words):
    write(tmp_path, a=mark + "(;CA[GBK]PB[黑棋];B[aa];W[bb])".encode())
    for more in (words, []):
        assert tools("tidy", "--in-place", *more, str(tmp_path)).returncode == 0
        assert (tmp_path / "a.sgf").read_bytes().decode() == "(;CA[UTF-8]PB[黑棋];B[aa];W[bb])\n"


def test_no_source_is_written_over(tmp_path):
    for name in "ab":
        (tmp_path / name).mkdir()
        (tmp_path / name / "x.sgf").write_bytes(b"(;C[" + name.encode() + b"] ;B[aa])")
    end = tools("tidy", "--to", "b", "a", "b", cwd=tmp_path)
    assert end.returncode == 3 and b"b/x.sgf is one of the files to read: say --in-place for that" in end.stderr
    assert (tmp_path / "b" / "x.sgf").read_bytes() == b"(;C[b] ;B[aa])"


@pytest.mark.parametrize("words, told", [(["--to", "", "x"], b"--to wants the name of a folder")])
def test_a_folder_without_a_name(words, told):
    end = tools("tidy", *words)
    assert (end.returncode, end.stderr) == (2, b"goref-tools: " + told + b"\n")


def test_a_pipe_is_not_replaced(tmp_path):
    os.mkfifo(tmp_path / "pipe")
    # A pipe is opened by one only when the other is there: neither waits for ever for one that failed.
    writer = threading.Thread(target=(tmp_path / "pipe").write_bytes, args=[LOOSE])
    writer.start()
    try:
        end = apart("tidy", "--in-place", "pipe", cwd=tmp_path)
    finally:
        reader = os.open(tmp_path / "pipe", os.O_RDONLY | os.O_NONBLOCK)
        writer.join()
        os.close(reader)
    assert end.status == 3 and end.told[0] == "pipe: no regular file"
    assert (tmp_path / "pipe").is_fifo()


def test_a_folder_that_may_not_be_written(tmp_path):
    if os.geteuid() == 0:
        folder = "/proc/self"
        end = tools("tidy", "--to", folder, "-", input=LOOSE)
    else:
        (tmp_path / "shut").mkdir(mode=0o500)
        end = tools("tidy", "--to", str(tmp_path / "shut"), "-", input=LOOSE)
    assert end.returncode == 3 and end.stderr.count(b"\n") == 2 and b"Traceback" not in end.stderr


def test_a_full_disk_leaves_the_old_file(tmp_path):
    """A limit of the size of files stands for a full disk."""
    write(tmp_path, a=b" (;C[" + b"x" * 200_000 + b"])")
    before = (tmp_path / "a.sgf").read_bytes()
    end = subprocess.run(
        ["bash", "-c", f'ulimit -f 100; trap "" XFSZ; exec "{sys.executable}" -B -m goref tidy --in-place a.sgf'],
        cwd=tmp_path, capture_output=True, env={**os.environ, "PYTHONPATH": PACKAGE},
    )
    assert end.returncode == 3 and end.stderr.startswith(b"goref-tools: a.sgf: File too large\n")
    assert [path.name for path in tmp_path.iterdir()] == ["a.sgf"] and (tmp_path / "a.sgf").read_bytes() == before


@pytest.mark.seconds(600)
def test_an_end_at_any_moment_loses_no_record(tmp_path):
    draw = random.Random(7)
    rounds = int(os.environ.get("GOREF_KILLS", "12"))
    for number in range(rounds):
        folder = tmp_path / str(number)
        folder.mkdir()
        write(folder, **{f"{place:02}": LOOSE for place in range(60)})
        process = subprocess.Popen(
            [sys.executable, "-B", "-m", "goref", "tidy", "--in-place", str(folder)], stderr=subprocess.DEVNULL,
            env={**os.environ, "PYTHONPATH": PACKAGE},
        )
        time.sleep(draw.uniform(0.03, 0.25))
        end = draw.choice([signal.SIGKILL, signal.SIGINT])
        process.send_signal(end)
        process.wait()
        records = sorted(folder.glob("*.sgf"))
        assert len(records) == 60 and {path.read_bytes() for path in records} <= {LOOSE, TIDY}
        # An end that can be answered leaves nothing else there either.
        assert end == signal.SIGKILL or len(list(folder.iterdir())) == 60

"""The bytes of a file: all of them, however they come."""

import fcntl
import os
import termios
import time

from kit import spy
from kit.runner import run, started

GAMES = b"".join(b"(;SZ[5]C[" + b"x" * 3000 + b"];B[aa])\n" for _ in range(4))


def test_a_short_read_is_no_end(tmp_path, monkeypatch, capfd):
    (tmp_path / "a.sgf").write_bytes(b" " + GAMES)
    spy.short_reads(monkeypatch, 4096)
    assert run(capfd, "judge", tmp_path).err.startswith("1 file, 4 games: 0 refused")
    assert run(capfd, "tidy", "--in-place", tmp_path).status == 0
    assert (tmp_path / "a.sgf").read_bytes() == GAMES


def is_empty(pipe):
    """Whether nothing is in a pipe that could be read."""
    return fcntl.ioctl(pipe, termios.FIONREAD, bytes(4)) == bytes(4)


def test_an_input_that_has_nothing_yet_has_not_ended():
    """As a pipe of a program that lets no read wait."""
    reader, writer = os.pipe()
    os.set_blocking(reader, False)
    os.write(writer, GAMES[:5000])
    with started("judge", "-", stdin=reader) as process:
        while not is_empty(reader) and process.poll() is None:
            time.sleep(0.02)
        # The longer this is, the surer it finds nothing there. It may not end of that.
        time.sleep(0.3)
        os.write(writer, GAMES[5000:])
        os.close(writer)
        out, err = process.communicate(timeout=30)
    os.close(reader)
    assert err.startswith(b"1 file, 4 games: 0 refused") and out.count(b"\n") == 4

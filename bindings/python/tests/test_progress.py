"""The bar that a terminal sees, and nobody else."""

import os
import pty
import re

import pytest

from kit.runner import started

pytest.importorskip("tqdm")


def at_a_terminal(words):
    """What a terminal sees of the standard error of a run, and its output."""
    ours, theirs = pty.openpty()
    with started(*words, stderr=theirs, env={"TERM": "xterm"}) as process:
        os.close(theirs)
        output = process.stdout.read()
    seen = b""
    while True:
        try:
            block = os.read(ours, 65536)
        except OSError:
            break
        seen += block
        if not block:
            break
    os.close(ours)
    return output.decode(), seen.decode()


def records(folder, count):
    for number in range(count):
        (folder / f"{number:04}.sgf").write_bytes(b"(;SZ[9]" + b";B[];W[]" * 2000 + b")")


@pytest.mark.parametrize("jobs", ["1", "2"])
def test_judge_shows_how_far_it_is(tmp_path, jobs):
    records(tmp_path, 320)
    (tmp_path / "gone.sgf").symlink_to("nowhere")
    output, seen = at_a_terminal(["judge", "-j", jobs, str(tmp_path)])
    assert output.count("moves 4000 score 0") == 320 and "\r" not in output
    # A part of the files, the time that is left, and a rate.
    assert re.search(r"\d+%.*\d+/321 \[\d\d:\d\d<\d\d:\d\d, +[\d.]+ files/s\]", seen)
    assert "gone.sgf: No such file or directory" in seen
    assert re.search(r"320 files, 320 games: 0 refused, .*, 1 failed\r\n$", seen)


def test_tidy_shows_how_far_it_is(tmp_path):
    records(tmp_path, 60)
    _, seen = at_a_terminal(["tidy", "--in-place", str(tmp_path)])
    assert re.search(r"\d+/60 \[", seen)
    assert seen.endswith("60 written, 0 as they were, 0 refused, 0 left, 0 failed\r\n")

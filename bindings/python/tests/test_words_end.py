"""How board, page and why end where a stream fails or they are interrupted."""

import os
import signal
import subprocess

import pytest

from kit.runner import apart, started

RECORD = b"(;SZ[9];B[ee];W[];B[ef]C[x])"
WORDS = ["board", "page", "why"]
BIG5 = "(;GM[1]SZ[9]KM[6.5]PB[\u8a31\u529f\u84cb];B[ee];W[cc])".encode("big5")


@pytest.mark.parametrize("word", WORDS)
def test_a_full_disk_is_told(word):
    with open("/dev/full", "wb") as full:
        end = apart(word, "-", input=RECORD, stdout=full)
    assert end == (3, "", "goref-tools: standard output: No space left on device\n")


@pytest.mark.parametrize("word", WORDS)
def test_a_closed_pipe_leaves_no_traceback(word):
    reader, writer = os.pipe()
    os.close(reader)
    try:
        end = apart(word, "-", input=RECORD, stdout=writer)
    finally:
        os.close(writer)
    assert end == (3, "", "goref-tools: standard output: Broken pipe\n")


@pytest.mark.no_library
@pytest.mark.parametrize("word", WORDS)
def test_files_that_cant_be_read(word, tmp_path):
    name = os.fsencode(tmp_path) + b"/\xff\n.sgf"
    told = os.fsdecode(b"goref-tools: " + name.replace(b"\n", b"\\n") + b": No such file or directory\n")
    assert apart(word, name) == (3, "", told)
    assert apart(word, tmp_path).err == f"goref-tools: {tmp_path}: Is a directory\n"


@pytest.mark.parametrize("word", ["board", "why"])
def test_a_game_that_is_not_there(word):
    end = apart(word, "-", "--game", "3", input=RECORD + b"(;)")
    assert end == (2, "", "goref-tools: -: there is no game 3, and 2 in all\n")


def test_an_interrupt_ends_a_page():
    with started("page", "-", stdin=subprocess.PIPE) as process:
        # When a pipe has taken all of this, most of it was read, and so the word has begun.
        process.stdin.write(b"(;SZ[25]" + b";B[];W[]" * 500_000 + b")")
        process.stdin.close()
        process.send_signal(signal.SIGINT)
        assert process.stdout.read() == b""
        assert process.stderr.read() == b"goref-tools: interrupted\n"
        assert process.wait(30) == 130


@pytest.mark.parametrize("word", WORDS)
def test_a_verdict_that_depends_on_the_charset_is_told(word, tmp_path):
    (tmp_path / "game.sgf").write_bytes(BIG5)
    end = apart(word, tmp_path / "game.sgf")
    told = "--charset settles it"
    # Byte for byte the last character of the name has a `\`, and the value ends only after the move of Black.
    assert "guessed" in end.err and told in end.out + end.err
    assert "it is `moves 1 score W+87.5 stated none` byte for byte" in end.out + end.err
    end = apart(word, tmp_path / "game.sgf", "--charset", "big5")
    assert end.status == 0 and told not in end.out + end.err

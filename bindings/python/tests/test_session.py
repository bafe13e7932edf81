"""Sessions."""

import gc
import os
import subprocess
import sys
import threading

import pytest

import goref
from goref import _library, _session
from kit.runner import environment

RECORD = b"(;SZ[3];B[bb])"


def test_lines_go_on_from_text_to_text():
    with goref.Session(5) as game:
        assert game.send(b"play b c3\n") == b"=\n\n"
        assert game.send(b"1 play w c3\n2 final_score") == b"?1 illegal move\n\n=2 B+25\n\n"
        assert game.send(b"") == game.send(b"\n# nothing\n") == b""


def test_a_command_is_asked():
    with goref.Session(5) as game:
        assert game.ask("play b c3") == "" and game.ask(b"7 final_score\n") == "B+25"
        assert game.ask("protocol_version") == "2" and game.ask("12 protocol_version") == "2"
        assert game.ask("showboard").startswith("size 5 komi 0")
        with pytest.raises(goref.Refused, match="^illegal move$"):
            game.ask("3 play w c3")
        with pytest.raises(ValueError, match="several lines"):
            game.ask("name\nname")


def test_quit_and_close_end_a_session():
    game = goref.Session()
    assert game.send(b"name\nquit\nname\n") == b"= goref\n\n=\n\n" and game.is_over
    assert game.send(b"name\n") == b""
    with pytest.raises(goref.SessionOver):
        game.ask("name")
    game.close()
    game.close()
    with pytest.raises(goref.SessionOver, match="closed"):
        game.send(b"name\n")


def test_files_are_a_mapping_a_folder_or_a_function(tmp_path):
    (tmp_path / "a").write_bytes(RECORD)
    (tmp_path / "b").mkdir()
    (tmp_path / "out").symlink_to("/etc/passwd")
    asked = []

    def fetch(name):
        asked.append(name)
        return RECORD if name == b"a" else None

    for files in ({b"a": RECORD}, {"a": RECORD}, tmp_path, str(tmp_path), fetch):
        with goref.Session() as game:
            assert game.send(b"loadsgf a\nfinal_score\nloadsgf c\nloadsgf b\n1 loadsgf ../x\nloadsgf out", files) == (
                b"=\n\n= B+9\n\n? cannot load file\n\n? cannot load file\n\n?1 cannot load file\n\n? cannot load file\n\n"
            )
    assert asked == [b"a", b"c", b"b", b"../x", b"out"]
    with goref.Session() as game:
        assert game.send(b"loadsgf a\nloadsgf x y\n") == b"? cannot load file\n\n? syntax error\n\n"
        with pytest.raises(TypeError, match="file is text"):
            game.send(b"loadsgf a\n", {"a": "(;)"})
        assert game.send(b"loadsgf a\n", {"a": b"(;C[" + b"x" * 16_777_216 + b"])"}) == b"? cannot load file\n\n"


def loaded(folder, *names):
    """Which files of a folder a session loads."""
    with goref.Session() as game:
        return [name for name in names if game.send(b"loadsgf " + os.fsencode(name), folder) == b"=\n\n"]


def test_a_name_that_leads_out_of_the_folder_finds_nothing(tmp_path):
    inside, beside = tmp_path / "files", tmp_path / "files-of-others"
    for folder in (inside, beside):
        folder.mkdir()
        (folder / "a").write_bytes(RECORD)
    (inside / "link").symlink_to("a")
    (inside / "out").symlink_to("../files-of-others/a")
    (inside / "up").symlink_to("..")
    names = ["a", "link", "../files/a", "../files-of-others/a", "out", "up/files-of-others/a", str(beside / "a")]
    assert loaded(beside, "a") == ["a"]
    assert loaded(inside, *names) == ["a", "link", "../files/a"]


def test_a_file_is_as_long_as_a_record_may_be(tmp_path):
    (tmp_path / "longest").write_bytes(RECORD.ljust(16_777_216))
    (tmp_path / "too_long").write_bytes(RECORD.ljust(16_777_217))
    assert loaded(tmp_path, "longest", "too_long") == ["longest"]


class Lacking:
    """The library, with memory for the first line alone of a text that has `showboard`."""

    def __getattr__(self, name):
        return getattr(_library.library(), name)

    def goref_send(self, handle, text, length, wanted):
        first, end, rest = text.partition(b"\n")
        if b"showboard" not in text:
            return _library.library().goref_send(handle, text, length, wanted)
        _library.library().goref_send(handle, first + end, len(first + end), wanted)
        return 3


@pytest.mark.parametrize("lines, files, text", [
    (b"1 name\n2 showboard\n3 name\n", None, b"=1 goref\n\n"),
    (b"1 loadsgf a\n2 loadsgf b\n3 play b a1 # showboard\n4 name\n", {"a": RECORD}, b"=1\n\n?2 cannot load file\n\n=3\n\n"),
], ids=["at once", "line by line"])
def test_a_lack_of_memory_leaves_the_answers_before_it(lines, files, text, monkeypatch):
    monkeypatch.setattr(_session, "library", Lacking)
    with goref.Session() as game:
        with pytest.raises(goref.OutOfMemory, match="^out of memory$") as lack:
            game.send(lines, files)
        assert lack.value.text == text
        assert game.ask("name") == "goref" and not game.is_over


def test_a_pipe_is_no_file(tmp_path):
    os.mkfifo(tmp_path / "pipe")
    with goref.Session() as game:
        assert game.send(b"loadsgf pipe\n", tmp_path) == b"? cannot load file\n\n"


def test_controls_are_no_part_of_a_name(tmp_path):
    with goref.Session() as game:
        assert game.send(b"load\x07sgf a\n", {b"a": RECORD}) == b"=\n\n"


@pytest.mark.parametrize("call, told", [(lambda game: game.send(b"boardsize 3\n"), b"=\n\n"), (lambda game: game.close(), None)])
def test_a_function_for_files_may_use_the_session(call, told):
    game = goref.Session(5)
    found = []

    def fetch(name):
        found.append(call(game))
        return RECORD

    # In a thread of its own, so that a call that waits for ever fails.
    ends = []

    def ask():
        try:
            ends.append(game.send(b"loadsgf a\nfinal_score\n", fetch))
        except goref.SessionOver as why:
            ends.append(str(why))

    thread = threading.Thread(target=ask, daemon=True)
    thread.start()
    thread.join(10)
    assert found == [told]
    assert ends == [b"=\n\n= B+9\n\n" if told else "the session was closed"]


def test_no_line_follows_quit_where_files_are_given():
    with goref.Session() as game:
        assert game.send(b"loadsgf a\nquit\nname\n", {"a": RECORD}) == b"=\n\n=\n\n"


def test_a_session_is_used_by_threads():
    with goref.Session() as game:
        threads = [
            threading.Thread(target=lambda: [game.send(b"play b a1\nundo\n") for _ in range(200)]) for _ in range(4)
        ]
        for thread in threads:
            thread.start()
        for thread in threads:
            thread.join()
        assert game.ask("showboard").splitlines()[0].endswith("moves 0 next B")


def test_a_session_that_is_let_go_is_closed():
    closed = []

    class Watched(goref.Session):
        def close(self):
            closed.append(self.is_over)
            super().close()

    Watched()
    gc.collect()
    assert closed == [False]


def test_a_lack_of_memory_is_no_refusal():
    """In a process that may take little more than it has, the record of a long game finds no memory."""
    text = """
import resource, goref
game = goref.Session()
record = b"(;" + b";B[];W[]" * 1_900_000 + b")"
with open("/proc/self/statm") as file:
    taken = int(file.read().split()[0]) * resource.getpagesize()
resource.setrlimit(resource.RLIMIT_AS, (taken + 40_000_000, resource.RLIM_INFINITY))
try:
    game.ask("loadsgf x", {b"x": record})
except goref.GorefError as why:
    print(type(why).__name__, why, isinstance(why, MemoryError))
print(game.ask("protocol_version"))
"""
    end = subprocess.run([sys.executable, "-c", text], capture_output=True, env=environment(), timeout=60)
    assert (end.stdout.decode(), end.stderr) == ("OutOfMemory out of memory True\n2\n", b"")

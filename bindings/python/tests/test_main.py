"""The command goref-tools."""

import os
import runpy
import subprocess
import sys

import pytest

from goref import __main__ as program
from goref._tools import main as module
from goref._tools.faults import Ended
from kit.runner import PACKAGE, run, tools

WORDS = ["judge", "tidy", "why", "board", "page", "match"]


@pytest.mark.no_library
def test_help_names_each_word():
    end = tools("--help")
    assert end.returncode == 0 and end.stderr == b""
    for word in WORDS:
        assert f"\n  {word} ".encode() in end.stdout


@pytest.mark.no_library
@pytest.mark.parametrize("word", WORDS)
def test_each_word_has_help_with_an_example(word):
    end = tools(word, "--help")
    assert end.returncode == 0 and end.stderr == b""
    assert b"example" in end.stdout and f"goref-tools {word}".encode() in end.stdout


@pytest.mark.no_library
@pytest.mark.parametrize("words", [[], ["jugde"], ["judge"], ["judge", "--nonsense", "x"], ["judge", "-j", "0", "x"],
                                   ["judge", "--charset", "nonsense", "x"], ["tidy", "--in-place", "--to", "x", "y"],
                                   ["tidy", "--in-place", "-"], ["judge", "--format", "xml", "x"]])
def test_wrong_words_are_told(words):
    end = tools(*words)
    assert end.returncode == 2 and end.stdout == b""
    assert end.stderr.splitlines()[-1].startswith(b"goref-tools") and b"Traceback" not in end.stderr


@pytest.mark.no_library
def test_the_version_is_told():
    end = tools("--version")
    assert (end.returncode, end.stdout) == (0, b"goref-tools 1.0\n")


@pytest.mark.no_library
def test_a_missing_library_is_told():
    for word in ("judge", "tidy"):
        end = tools(word, "-", env={"GOREF_LIBRARY": "/no/library"})
        assert end.returncode == 3 and end.stderr.count(b"\n") == 1 and b"make it anew by bindings/build" in end.stderr


@pytest.mark.no_library
def test_a_fault_of_its_own_is_told_in_a_line(monkeypatch, capsys):
    def fails(words):
        raise KeyError("of no use\nat all")

    monkeypatch.setattr(module, "_run", fails)
    assert module.main(["judge", "-"]) == 3
    told = capsys.readouterr().err
    assert told.startswith("goref-tools: a fault of its own: KeyError: ") and told.count("\n") == 1
    assert "(test_main.py, line " in told


class Field:
    """What ends the making of a class that has it, as a signal does that comes then."""

    def __init__(self, interrupt):
        self.interrupt = interrupt

    def __set_name__(self, owner, name):
        raise self.interrupt


def by_a_class(interrupt):
    type("Made", (), {"field": Field(interrupt)})


def by_its_cause(interrupt):
    raise RuntimeError("of no use") from interrupt


def by_its_context(interrupt):
    try:
        raise interrupt
    except KeyboardInterrupt:
        raise RuntimeError("of no use")


@pytest.mark.no_library
@pytest.mark.parametrize("hide", [by_a_class, by_its_cause, by_its_context])
@pytest.mark.parametrize("kind, end", [(KeyboardInterrupt, (130, "interrupted")), (Ended, (143, "ended"))])
def test_an_interrupt_that_another_fault_hides(hide, kind, end, monkeypatch, capfd):
    monkeypatch.setattr(module, "_run", lambda words: hide(kind()))
    assert run(capfd, "judge", "-") == (end[0], "", f"goref-tools: {end[1]}\n")


@pytest.mark.no_library
def test_a_fault_that_is_among_its_own_causes(monkeypatch, capfd):
    def fails(words):
        one, other = KeyError(1), KeyError(2)
        one.__cause__, other.__cause__ = other, one
        raise one

    monkeypatch.setattr(module, "_run", fails)
    assert run(capfd, "judge", "-").status == 3


class Broken:
    """Has the import of a module end by an exception, while that makes a class."""

    def __init__(self, name, why):
        self.name, self.why = name, why

    def find_spec(self, name, path, target=None):
        if name == self.name:
            by_a_class(self.why)


def end_of_import(start, name, why, monkeypatch):
    """The status of a start that imports a module."""
    monkeypatch.delitem(sys.modules, name)
    monkeypatch.setattr(sys, "meta_path", [Broken(name, why), *sys.meta_path])
    monkeypatch.setattr(sys, "path", list(sys.path))
    monkeypatch.setattr(sys, "dont_write_bytecode", sys.dont_write_bytecode)
    try:
        return start()
    except SystemExit as end:
        return end.code


IMPORTS = [
    ("goref._tools.main", program.run),
    ("goref.__main__", lambda: runpy.run_path(os.path.join(PACKAGE, "goref-tools"))),
]


@pytest.mark.no_library
@pytest.mark.parametrize("name, start", IMPORTS)
def test_an_interrupt_while_the_command_is_imported(name, start, monkeypatch):
    assert end_of_import(start, name, KeyboardInterrupt(), monkeypatch) == 130


@pytest.mark.no_library
@pytest.mark.parametrize("name, start", IMPORTS)
def test_another_fault_while_the_command_is_imported(name, start, monkeypatch):
    with pytest.raises((RuntimeError, KeyError)):
        end_of_import(start, name, KeyError("of no use"), monkeypatch)


def test_an_output_that_fails_is_told():
    with open("/dev/full", "wb") as full:
        for words in (["judge", "-"], ["tidy", "-"], ["--help"]):
            end = tools(*words, input=b"(;SZ[9];B[aa])", stdout=full)
            assert end.returncode == 3, words
            assert end.stderr.splitlines()[-1] == b"goref-tools: standard output: No space left on device"


def test_a_closed_pipe_is_told():
    read, write = os.pipe()
    os.close(read)
    end = tools("judge", "-", input=b"(;SZ[9];B[aa])", stdout=write)
    os.close(write)
    assert end.returncode == 3 and b"Traceback" not in end.stderr
    assert end.stderr.splitlines()[-1] == b"goref-tools: standard output: Broken pipe"


def test_streams_that_are_closed_give_no_traceback():
    for closed in ("<&-", ">&-", "2>&-", "<&- >&- 2>&-"):
        end = subprocess.run(
            ["sh", "-c", f'"{sys.executable}" -B -m goref judge - {closed}'], capture_output=True,
            env={**os.environ, "PYTHONPATH": PACKAGE}, input=b"(;)",
        )
        assert b"Traceback" not in end.stderr + end.stdout, closed
        assert end.returncode in ((0, 3) if closed == "2>&-" else (3,)), closed

"""Runs goref-tools: in the tests' own process, and as a process of its own."""

import os
import subprocess
import sys
from typing import NamedTuple

from goref._tools.main import main

PACKAGE = os.path.dirname(os.path.dirname(os.path.dirname(os.path.abspath(__file__))))


class Ended(NamedTuple):
    """What a run came to."""

    status: int
    out: str
    err: str

    @property
    def told(self):
        """The lines of the standard error, without the command's name."""
        return [line.removeprefix("goref-tools: ") for line in self.err.splitlines()]


def run(capfd, *words):
    """A run in this process."""
    capfd.readouterr()
    status = main([os.fsdecode(word) if isinstance(word, bytes) else str(word) for word in words])
    return Ended(status, *capfd.readouterr())


def environment(**more):
    """The environment in which a process finds the package."""
    kept = {**os.environ, "PYTHONPATH": PACKAGE, **more}
    kept.pop("PYTHONUNBUFFERED", None)
    return kept


def started(*words, env=(), **options):
    """A process that runs goref-tools."""
    pipe = subprocess.PIPE
    options = {"stdin": subprocess.DEVNULL, "stdout": pipe, "stderr": pipe, **options}
    words = [word if isinstance(word, bytes) else str(word) for word in words]
    return subprocess.Popen([sys.executable, "-B", "-m", "goref", *words], env=environment(**dict(env)), **options)


def apart(*words, input=b"", seconds=60, **options):
    """A run in a process of its own, which is to end within some seconds."""
    with started(*words, stdin=subprocess.PIPE, **options) as process:
        try:
            out, err = process.communicate(input, timeout=seconds)
        except BaseException:
            process.kill()
            raise
    return Ended(process.returncode, *(os.fsdecode(text or b"") for text in (out, err)))


def tools(*words, env=(), stdin=None, **options):
    """The same with bytes for its output, as `subprocess.run` gives them."""
    given = {"input": b""} if stdin is None else {"stdin": stdin}
    pipe = subprocess.PIPE
    return subprocess.run(
        [sys.executable, "-B", "-m", "goref", *words],
        **{"env": environment(**dict(env)), "stdout": pipe, "stderr": pipe, "timeout": 60, **given, **options},
    )

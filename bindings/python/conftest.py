"""Tests and examples find the package beside them, have a limit of time, and are skipped if they lack the library."""

import faulthandler
import os
import signal
import sys
from pathlib import Path

import pytest

# A shell that starts the tests in the background has them ignore interrupts, and what they start would too.
signal.signal(signal.SIGINT, signal.default_int_handler)

HERE = Path(__file__).resolve().parent
sys.path.insert(0, str(HERE))

MOST_SECONDS = 60
"""How long a test may take, unless its mark `seconds` says otherwise."""

GRACE_SECONDS = 30
"""How much longer a test may take that heeds no signal."""

ERRORS = pytest.StashKey()


class TooLong(BaseException):
    """A test that hung. No test catches it by chance."""


def _end(number, frame):
    raise TooLong("the test has taken too long")


def pytest_configure(config):
    # Where a traceback is seen: what a test itself writes to its standard error is kept back.
    config.stash[ERRORS] = os.dup(2)
    config.addinivalue_line("markers", "seconds(number): how long the test may take")
    config.addinivalue_line("markers", "no_library: the test needs no library; each other one is skipped without it")


@pytest.hookimpl(hookwrapper=True)
def pytest_collect_file(file_path):
    """Examples are looked for in the package alone: below `tests` that would import helpers twice, and skip files twice."""
    found = yield
    if HERE / "tests" in file_path.parents:
        found.force_result([one for one in found.get_result() if type(one) is pytest.Module])


def _why_no_library():
    """Why the library can't be loaded, if it can't."""
    from goref._library import MissingLibrary, library

    try:
        library()
    except MissingLibrary as why:
        return str(why)
    return None


def pytest_collection_modifyitems(items):
    """Skips what needs the library, if that isn't there."""
    why = _why_no_library()
    for item in items:
        if why and not item.get_closest_marker("no_library"):
            item.add_marker(pytest.mark.skip(reason=f"{item.name}: {why}"))


@pytest.fixture(autouse=True)
def _limit(request):
    """Ends a test that takes too long; what heeds no signal ends all, with its traceback."""
    mark = request.node.get_closest_marker("seconds")
    seconds = mark.args[0] if mark else MOST_SECONDS
    before = signal.signal(signal.SIGALRM, _end)
    signal.setitimer(signal.ITIMER_REAL, seconds)
    faulthandler.dump_traceback_later(seconds + GRACE_SECONDS, exit=True, file=request.config.stash[ERRORS])
    try:
        yield
    finally:
        signal.setitimer(signal.ITIMER_REAL, 0)
        faulthandler.cancel_dump_traceback_later()
        signal.signal(signal.SIGALRM, before)

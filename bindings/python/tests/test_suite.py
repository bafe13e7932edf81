"""The tests themselves: what a run of them comes to without the library, and if a test hangs."""

import os
import re
import shutil
import subprocess
import sys

import pytest

from kit.runner import PACKAGE, environment

pytestmark = pytest.mark.no_library


def pytest_of(folder, *words, **more):
    """A run of the tests of a folder."""
    command = [sys.executable, "-B", "-m", "pytest", "-q", "-p", "no:cacheprovider", *words]
    return subprocess.run(command, cwd=folder, capture_output=True, text=True, env=environment(**more), timeout=50)


def suite(folder, text, name="test_made.py"):
    """A folder with a test file that has a text, and what the package's tests have beside them."""
    for file in ("conftest.py", "pyproject.toml"):
        shutil.copy(os.path.join(PACKAGE, file), folder)
    (folder / name).write_text(text)
    return folder


def test_to_collect_needs_no_library():
    seen = pytest_of(PACKAGE, "--collect-only", GOREF_LIBRARY="/none").stdout
    assert re.search(r"^\d+ tests collected in ", seen, re.M)
    assert "goref/__init__.py::goref\n" in seen


def test_without_the_library_what_needs_it_is_skipped_with_its_name(tmp_path):
    suite(tmp_path, '''"""
>>> 1
2
"""
import pytest

def test_of_answers():
    assert False

@pytest.mark.no_library
def test_of_nothing():
    pass
''')
    seen = pytest_of(tmp_path, "-rs", "test_made.py", GOREF_LIBRARY="/none").stdout
    assert re.search(r"^1 passed, 2 skipped in ", seen, re.M)
    assert "test_of_answers: /none can't be loaded" in seen and "test_made: /none can't be loaded" in seen


def test_examples_are_run(tmp_path):
    suite(tmp_path, '">>> 1\\n2\\n"', "named.py")
    (tmp_path / "conftest.py").unlink()
    assert re.search(r"^1 failed in ", pytest_of(tmp_path, "named.py").stdout, re.M)


def test_files_below_tests_are_looked_at_once(tmp_path):
    kit = tmp_path / "tests" / "kit"
    kit.mkdir(parents=True)
    (kit / "helper.py").write_text("print('made', __name__)")
    suite(tmp_path, "import pytest\nfrom kit import helper\npytest.importorskip('nothing')", "tests/test_made.py")
    seen = pytest_of(tmp_path, "-s", "tests").stdout
    assert re.findall("^made .*", seen, re.M) == ["made kit.helper"]
    assert re.search("^1 skipped in ", seen, re.M)


HANGS = """
import asyncio, os, subprocess, sys, threading, pytest

pytestmark = [pytest.mark.no_library, pytest.mark.seconds(0.2)]

@pytest.fixture
def slow():
    threading.Event().wait()

def test_a_pipe(tmp_path):
    os.mkfifo(tmp_path / "pipe")
    open(tmp_path / "pipe")

def test_a_process():
    subprocess.run([sys.executable, "-c", "import signal; signal.pause()"], capture_output=True)

def test_a_loop():
    async def wait():
        await asyncio.Event().wait()

    asyncio.run(wait())

def test_a_fixture(slow):
    pass
"""


def test_a_test_that_hangs_is_ended(tmp_path):
    seen = pytest_of(suite(tmp_path, HANGS), "test_made.py").stdout
    assert re.search(r"^3 failed, 1 error in ", seen, re.M)
    assert len(re.findall("^E .*TooLong: the test has taken too long$", seen, re.M)) == 4


def test_a_test_that_heeds_no_signal_ends_all_with_its_place(tmp_path):
    suite(tmp_path, """
import conftest, signal, threading, pytest

conftest.GRACE_SECONDS = 0.2

@pytest.mark.no_library
@pytest.mark.seconds(0.2)
def test_deaf():
    signal.pthread_sigmask(signal.SIG_BLOCK, {signal.SIGALRM})
    threading.Event().wait()
""")
    end = pytest_of(tmp_path, "test_made.py")
    assert end.returncode == 1 and " in test_deaf\n" in end.stderr

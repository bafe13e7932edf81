"""Work by several processes: in order, not far ahead of who takes the results, and at an end with the first one."""

import os
import signal
import subprocess
import time

import pytest

from goref._tools.workers import in_order
from kit.runner import started
from running import group, is_group_gone

MANY = 40_000
GOOD = b"(;SZ[5]KM[0.5]RE[B+24.5];B[cc];W[])"
SLOW = b"(;SZ[25]" + b";B[];W[]" * 800_000 + b")"


class Items(list):
    """Items that count how many of them were taken."""

    taken = 0

    def __iter__(self):
        for item in super().__iter__():
            self.taken += 1
            yield item


def doubled(batch):
    return [2 * item for item in batch]


@pytest.mark.parametrize("jobs", [1, 2, 3])
def test_the_results_are_in_order(jobs):
    results = in_order(doubled, range(1000), jobs, lambda item: item % 100 == 7)
    assert [number for batch in results for number in batch] == list(range(0, 2000, 2))


def test_no_more_is_under_way_than_is_wanted():
    """A caller that takes results slowly has no queue of them grow: four batches a process, of at most 128 items."""
    items = Items(range(MANY))
    results = in_order(doubled, items, 2, lambda item: False)
    next(results)
    assert 0 < items.taken <= 4 * 2 * 128
    results.close()


def at_work(folder):
    """A run that judges many games by three processes, and the processes of its group that have begun."""
    (folder / "slow.sgf").write_bytes(SLOW)
    words = ["judge", "-j", "3", *[folder / "slow.sgf"] * 200]
    process = started(*words, start_new_session=True)
    while len(group(process.pid)) < 4 and process.poll() is None:
        time.sleep(0.02)
    return process


@pytest.mark.parametrize("number, status, told", [(signal.SIGINT, 130, b"interrupted"), (signal.SIGTERM, 143, b"ended")])
def test_an_interrupt_ends_each_process(tmp_path, number, status, told):
    with at_work(tmp_path) as process:
        os.kill(process.pid, number)
        output, errors = process.communicate(timeout=20)
    assert process.returncode == status and errors == b"goref-tools: " + told + b"\n"
    assert is_group_gone(process.pid, 5)


def test_an_interrupt_while_processes_start(tmp_path):
    """By the key of a terminal, so that each process gets it."""
    for number in range(100):
        (tmp_path / f"{number:03}.sgf").write_bytes(GOOD)
    for round in range(12):
        with started("judge", "-j", "3", tmp_path, stdout=subprocess.DEVNULL, start_new_session=True) as process:
            time.sleep(0.1 + 0.02 * round)
            try:
                os.killpg(process.pid, signal.SIGINT)
            except ProcessLookupError:
                pass
            _, errors = process.communicate(timeout=20)
        # Python answers what comes before it has started the command: with 1 while it starts itself.
        has_begun = b"goref" in errors
        assert process.returncode in (0, 130, -signal.SIGINT) or (process.returncode == 1 and not has_begun), errors
        assert process.returncode in (1, -signal.SIGINT) or b"Traceback" not in errors


def test_processes_end_with_the_first_one(tmp_path):
    with at_work(tmp_path) as process:
        process.kill()
        process.communicate()
    assert is_group_gone(process.pid, 10)

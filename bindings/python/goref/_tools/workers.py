"""Work on many items by several processes, in order."""

import os
import signal
import threading
from collections import deque
from functools import partial
from itertools import islice
from typing import TYPE_CHECKING, Callable, Deque, Generator, Iterable, Iterator, List, Sequence, TypeVar

from goref._tools.faults import Fault

if TYPE_CHECKING:
    from concurrent.futures import Future, ProcessPoolExecutor

Item = TypeVar("Item")
Result = TypeVar("Result")

_SIGNALS = (signal.SIGINT, signal.SIGTERM)
_LEAST_AT_ONCE, _MOST_AT_ONCE = 32, 128
"""How many items a process is given together."""


def processors() -> int:
    """How many processors this process may use."""
    return len(os.sched_getaffinity(0))


def in_order(
    work: Callable[[Sequence[Item]], Result],
    items: Sequence[Item],
    jobs: int,
    is_here: Callable[[Item], bool],
) -> Generator[Result, None, None]:
    """What the work gives for batches of the items, one after another; those that are wanted here stay in this process.

    When the caller goes on to nothing more, the processes are ended.
    """
    at_once = min(max(len(items) // (8 * jobs), _LEAST_AT_ONCE), _MOST_AT_ONCE)
    batches = _batches(items, at_once)
    if jobs == 1 or len(items) <= at_once:
        yield from map(work, batches)
    else:
        yield from _by_processes(work, batches, jobs, is_here)


def _by_processes(
    work: Callable[[Sequence[Item]], Result], batches: Iterator[List[Item]], jobs: int, is_here: Callable[[Item], bool]
) -> Generator[Result, None, None]:
    import multiprocessing
    from concurrent.futures import ProcessPoolExecutor
    from concurrent.futures.process import BrokenProcessPool

    # A fork costs a hundredth of what a new interpreter does, and there are no threads yet.
    context = multiprocessing.get_context("fork")
    pool = ProcessPoolExecutor(jobs, mp_context=context, initializer=_begin)
    done = False
    try:
        yield from _results(pool, work, batches, 4 * jobs, is_here)
        done = True
    except BrokenProcessPool:
        raise Fault("a process of the work has ended: perhaps there was no memory") from None
    finally:
        if not done:
            for process in multiprocessing.active_children():
                process.kill()
        # A process that was killed may leave a lock shut, for which the pool would wait.
        pool.shutdown(wait=done, cancel_futures=True)


def _results(
    pool: "ProcessPoolExecutor",
    work: Callable[[Sequence[Item]], Result],
    batches: Iterator[List[Item]],
    most: int,
    is_here: Callable[[Item], bool],
) -> Generator[Result, None, None]:
    """The results in order, while at most `most` batches are under way."""
    waiting: Deque[Callable[[], Result]] = deque()
    for batch in batches:
        if any(map(is_here, batch)):
            waiting.append(partial(work, batch))
        else:
            waiting.append(_submitted(pool, work, batch).result)
        if len(waiting) == most:
            yield waiting.popleft()()
    while waiting:
        yield waiting.popleft()()


def _submitted(
    pool: "ProcessPoolExecutor", work: Callable[[Sequence[Item]], Result], batch: List[Item]
) -> "Future[Result]":
    """Hands a batch on. No signal is heeded meanwhile: this may start processes, and one that half stands never ends."""
    held = signal.pthread_sigmask(signal.SIG_BLOCK, _SIGNALS)
    try:
        return pool.submit(work, batch)
    finally:
        signal.pthread_sigmask(signal.SIG_SETMASK, held)


def _batches(items: Iterable[Item], at_once: int) -> Iterator[List[Item]]:
    left = iter(items)
    batch = list(islice(left, at_once))
    while batch:
        yield batch
        batch = list(islice(left, at_once))


def _begin() -> None:
    """Lets the first process alone answer an interrupt, and ends this one when that one ends."""
    import multiprocessing

    signal.signal(signal.SIGINT, signal.SIG_IGN)
    signal.signal(signal.SIGTERM, signal.SIG_DFL)
    signal.pthread_sigmask(signal.SIG_UNBLOCK, _SIGNALS)
    parent = multiprocessing.parent_process()

    def wait() -> None:
        if parent is not None:
            parent.join()
        os._exit(1)

    threading.Thread(target=wait, daemon=True).start()

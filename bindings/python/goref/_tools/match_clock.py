"""A clock that stands still while this process does."""

import time
from typing import Callable

BEAT = 0.05
"""How many seconds pass between two looks at the clock, unless this process stands still."""

MOST = 0.2
"""How many seconds count at most between two looks. A process that is stopped looks at no clock."""


class Clock:
    """Seconds that this process was there for.

    An engine has a process of its own, and goes on while the match is stopped, for example by Ctrl-Z. Its answer isn't
    late then: nobody was there to read it.
    """

    def __init__(self, seconds: Callable[[], float] = time.monotonic) -> None:
        self._seconds = seconds
        self._last = seconds()
        self._counted = 0.0

    def now(self) -> float:
        """The seconds that count since the clock was made. Each call is a look."""
        now = self._seconds()
        self._counted += min(now - self._last, MOST)
        self._last = now
        return self._counted

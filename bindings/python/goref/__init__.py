"""goref in a Python process: sessions of the Go Text Protocol, verdicts on records of Go, and their one spelling.

    >>> import goref
    >>> with goref.Session(size=9) as game:
    ...     game.ask("play b e5")
    ...     game.ask("genmove w")
    ''
    'B2'

The calls are those of `include/goref.h`, in the library `libgoref.so`, which `bindings/build` makes. The library is
looked for at the first call: where the environment's GOREF_LIBRARY says, else in `bindings/lib`, else in the `lib` that
the package was installed below, else among the libraries of the system. Any number of threads may call at once.
"""

from goref._calls import answers, games, judge, tidy
from goref._library import MissingLibrary
from goref._session import Files, Session
from goref._types import BadSize, Game, GorefError, OutOfMemory, Refused, SessionOver, Verdict

__version__ = "1.0"

# They are named as their users import them.
for _kind in (BadSize, Game, GorefError, MissingLibrary, OutOfMemory, Refused, Session, SessionOver, Verdict):
    _kind.__module__ = __name__
del _kind

__all__ = [
    "BadSize",
    "Files",
    "Game",
    "GorefError",
    "MissingLibrary",
    "OutOfMemory",
    "Refused",
    "Session",
    "SessionOver",
    "Verdict",
    "answers",
    "games",
    "judge",
    "tidy",
]

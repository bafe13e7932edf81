"""How a word ends, and what it says where it can't go on."""

import os
import re
import sys

# These would move the cursor, or turn the line.
_CONTROL = re.compile("[\0-\x1f\x7f-\x9f\u2028-\u202e\u2066-\u2069]")

DONE = 0
REFUSED = 1
"""Some record was refused, or some game has no result."""
WRONG_WORDS = 2
FAULT = 3
"""A file, a stream or memory failed."""
INTERRUPTED = 130
ENDED = 143


class Ended(KeyboardInterrupt):
    """The process was asked to end, by SIGTERM."""


class Fault(Exception):
    """A file or a stream that fails. Its text is the line that is told."""


class Left(Fault):
    """A file that is left as it is, so that nothing of it is lost. Its text is the line that is told."""


class RefusedFile(Exception):
    """A file that is refused as a whole. Its text is the line that is told."""


class WrongWords(Exception):
    """Words of the command line that don't go together. Its text says why."""


def tell(line: str) -> None:
    """Tells a line on the standard error, where that is open."""
    try:
        print(f"goref-tools: {line}", file=sys.stderr, flush=True)
    except (OSError, ValueError, AttributeError):
        pass


def leave_output() -> None:
    """Lets the end of the process not complain about an output that nobody reads."""
    try:
        os.dup2(os.open(os.devnull, os.O_WRONLY), sys.stdout.fileno())
    except (OSError, ValueError, AttributeError):
        pass


def fault_of(name: str, why: OSError) -> Fault:
    """The fault of a file, in the system's words."""
    return Fault(f"{shown(name)}: {why.strerror or why}")


def shown(name: "str | os.PathLike[str]") -> str:
    """A name on one line: controls in it are escaped, and bytes that are no UTF-8 stay what they are."""
    return _CONTROL.sub(lambda control: ascii(control[0])[1:-1], os.fspath(name))


def many(number: int, what: str) -> str:
    """A number of things in words, as `2 files`."""
    return f"{number:,} {what}{'' if number == 1 else 's'}"

"""`python3 -m goref` is the command goref-tools."""

import os
import sys

from goref._interrupts import interrupt_behind


def run() -> int:
    """Runs the command, and gives the status."""
    try:
        from goref._tools.main import main

        return main()
    except BaseException as why:
        # An interrupt that came before the command could answer it.
        if interrupt_behind(why):
            return 130
        raise


def end() -> None:
    """Runs the command, and ends this process at once: what a pool of processes would wait for may never come."""
    status = run()
    for stream in (sys.stdout, sys.stderr):
        try:
            stream.flush()
        except (OSError, ValueError, AttributeError):
            pass
    os._exit(status)


if __name__ == "__main__":
    end()

#!/usr/bin/env python3
"""Holds games as a server does: the same as bindings/c/server.c, in Python.

    server.py [GAMES]

Each line of the standard input is the number of a game and a line of the Go Text Protocol for it, as `17 play b d4`.
Each answer is written with the number of its game in front. A game begins on 19 lines with its first line, and `quit`
ends it. `loadsgf` finds files of the working directory. It ends with 1 at a line without a number, with 2 where the
words are wrong, and with 3 where a stream or memory fails.
"""

import os
import re
import sys
from typing import Dict, Iterable

sys.path.insert(0, os.path.join(os.path.dirname(os.path.abspath(__file__)), ".."))

import goref  # noqa: E402  (the path comes first)


class Stop(Exception):
    """A status to end with, and why."""

    def __init__(self, status: int, why: str) -> None:
        super().__init__(why)
        self.status = status


def serve(count: int, lines: Iterable[bytes]) -> None:
    """Answers lines, each for the game of its number."""
    games: Dict[int, goref.Session] = {}
    for line in lines:
        digits = line[: len(line) - len(line.lstrip(b"0123456789"))]
        # No game has a number of more digits than their count.
        if not digits or len(digits.lstrip(b"0")) > len(str(count)) or int(digits) >= count:
            raise Stop(1, "a line begins with no number of a game")
        number = int(digits)
        game = games.get(number) or games.setdefault(number, goref.Session())
        answer = game.send(line[len(digits) :], files=".")
        if answer:
            sys.stdout.buffer.write(b"%d " % number + answer)
            sys.stdout.buffer.flush()
        if game.is_over:
            games.pop(number).close()


def main() -> int:
    words = sys.argv[1:] or ["1000"]
    if len(words) > 1 or not re.fullmatch("0*[1-9][0-9]{0,8}", words[0]):
        print("server.py: usage: server.py [GAMES]", file=sys.stderr)
        return 2
    try:
        serve(int(words[0]), sys.stdin.buffer)
    except Stop as why:
        print(f"server.py: {why}", file=sys.stderr)
        return why.status
    except goref.GorefError as why:
        print(f"server.py: {why}", file=sys.stderr)
        return 3
    except OSError as why:
        print(f"server.py: {why.strerror or why}", file=sys.stderr)
        # What is left in the buffer can't be written either.
        os.dup2(os.open(os.devnull, os.O_WRONLY), sys.stdout.fileno())
        return 3
    except KeyboardInterrupt:
        return 130
    return 0


if __name__ == "__main__":
    sys.exit(main())

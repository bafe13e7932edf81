"""Makes an HTML page to step through the games of a record.

The page is one file that needs no network. It shows each game by its main line: the board, the prisoners, the comments,
and goref's verdict; of a refused game the boards up to the refusal, and the reason. A comment stands with the board
after all moves of its node and of the nodes before it.
"""

import argparse
import sys
from typing import List

from goref._tools.charset import add_charset
from goref._tools.faults import DONE, REFUSED, shown
from goref._tools.html_page import Told, page_of, told_of
from goref._tools.records import games_in, say_conversion

EXAMPLE = """example:
  goref-tools page game.sgf > game.html

keys on the page: left and right arrow 1 move, page up and page down 10 moves, Home the start, End the last move

status: 0 the page was written, 1 it was written and goref refuses a game of it, 2 the words are wrong, 3 a file, a
  stream or memory failed"""


def add_arguments(parser: argparse.ArgumentParser) -> None:
    parser.add_argument("file", metavar="FILE", help="the record, or - for the standard input")
    add_charset(parser)


def run(given: argparse.Namespace) -> int:
    games: List[Told] = []
    for found in games_in(given.file, given.charset):
        if not games:
            say_conversion(found)
        games.append(told_of(found))
    sys.stdout.write(page_of(given.file, games))
    sys.stdout.flush()
    refused = [told.data for told in games if told.data["refused"]]
    name = shown(given.file)
    lines = [f"goref-tools: {name}: game {data['number']}: {data['verdict']}\n" for data in refused]
    sys.stderr.write("".join(lines))
    return REFUSED if refused else DONE

"""Tells why goref refuses a record.

It tells the reason with what is needed to find it: the node and its text, the value, the vertex, the board before it;
of a repetition the position that is repeated; of a text that is broken the line and the column. What a file may be that
is no record is a guess, and begins with `Perhaps`. Without --game it tells of the first game that is refused. Of a game
that is fine it tells the score, and how many points the stated one is from that if they differ.
"""

import argparse
from typing import List, Optional

import goref
from goref._tools.charset import add_charset
from goref._tools.doubts import doubt_of
from goref._tools.explain import explained
from goref._tools.faults import DONE, REFUSED, shown
from goref._tools.records import Found, game_in, games_in, say_conversion
from goref._tools.stated import stated_in
from goref._tools.words.board import natural

EXAMPLE = """example:
  goref-tools why game.sgf
  goref-tools why archive.sgf --game 12

status: 0 nothing is refused, 1 a game is refused or its verdict depends on the charset, 2 the words are wrong,
3 a file, a stream or memory failed"""

_STATED = {
    "agrees": "the record states that score",
    "differs": "the record states another score",
    "none": "the record states no score in points",
}


def add_arguments(parser: argparse.ArgumentParser) -> None:
    parser.add_argument("file", metavar="FILE", help="the record, or - for the standard input")
    parser.add_argument("--game", metavar="N", type=natural, help="the number of the game in the file")
    add_charset(parser)


def run(given: argparse.Namespace) -> int:
    if given.game is None:
        found = _first_refused(given.file, given.charset)
    else:
        found = game_in(given.file, given.game, given.charset)
        say_conversion(found)
    if found is None:
        return DONE
    verdict, doubt = found.verdict(), doubt_of(found)
    if not isinstance(verdict, str):
        print(_fine(found, verdict))
    else:
        print(f"{shown(found.path)}: game {found.number} is refused: {verdict}")
        for line in explained(found):
            print(line)
    if doubt:
        print(f"{doubt[0].upper()}{doubt[1:]}.")
    return REFUSED if doubt or isinstance(verdict, str) else DONE


def _first_refused(path: str, charset: Optional[str]) -> Optional[Found]:
    """The first game of a file that is refused or may be; where none is it tells of each that it is fine."""
    fine: List[str] = []
    for found in games_in(path, charset):
        if found.number == 1:
            say_conversion(found)
        verdict = found.verdict()
        if isinstance(verdict, str) or doubt_of(found):
            return found
        fine.append(_fine(found, verdict))
    print("\n".join(fine))
    return None


def _fine(found: Found, verdict: goref.Verdict) -> str:
    moves = "1 move" if verdict.moves == 1 else f"{verdict.moves} moves"
    differs = stated_in(found.game.text, verdict).told()
    stated = _STATED[verdict.stated] + (f": {differs}" if differs else "")
    return f"{shown(found.path)}: game {found.number} is fine: {moves}, score {verdict.score}, {stated}"

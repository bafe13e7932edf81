"""Shows the board after a move of a game, as a diagram or as SVG.

The diagram is goref's, with X for Black and O for White, and a line names the last move. Of a game that goref refuses
--move can ask for the boards up to the refusal.
"""

import argparse
import sys
from typing import List, Optional, Tuple, Union

import goref
from goref._tools.boards import Board, Move, position
from goref._tools.charset import add_charset
from goref._tools.doubts import doubt_of
from goref._tools.faults import DONE, REFUSED, WrongWords, shown
from goref._tools.records import Found, game_in, say_conversion
from goref._tools.refusals import playable, refusal_of
from goref._tools.spelling import main_line
from goref._tools.svg import numbers_on, picture

EXAMPLE = """example:
  goref-tools board game.sgf --move 57
  goref-tools board game.sgf --svg --numbers 10 > game.svg

status: 0 the board was shown, 1 goref refuses the game before that board, 2 the words are wrong or the game has no
  such move, 3 a file, a stream or memory failed"""


def add_arguments(parser: argparse.ArgumentParser) -> None:
    parser.add_argument("file", metavar="FILE", help="the record, or - for the standard input")
    parser.add_argument("--game", metavar="N", type=natural, default=1, help="the number of the game in the file (1)")
    parser.add_argument("--move", metavar="N", type=number, help="the board after the first N moves (all)")
    parser.add_argument("--svg", action="store_true", help="write a picture in SVG")
    parser.add_argument("--numbers", metavar="K", type=number, default=0, help="in SVG number the last K moves (none)")
    add_charset(parser)


def number(word: str) -> int:
    """A number from 0 on."""
    if not (word.isascii() and word.isdigit()):
        raise argparse.ArgumentTypeError(f"no number: {word}")
    return int(word)


def natural(word: str) -> int:
    """A number from 1 on."""
    if number(word) == 0:
        raise argparse.ArgumentTypeError("the first is 1")
    return int(word)


def run(given: argparse.Namespace) -> int:
    if given.numbers and not given.svg:
        raise WrongWords("--numbers wants --svg")
    found = game_in(given.file, given.game, given.charset)
    say_conversion(found)
    doubt = doubt_of(found)
    if doubt:
        print(f"goref-tools: {shown(given.file)}: {doubt}", file=sys.stderr)
    there = _board_in(found, given.move)
    if isinstance(there, str):
        print(f"goref-tools: {shown(given.file)}: game {given.game}: {there}", file=sys.stderr)
        return REFUSED
    board, moves = there
    last = moves[-1] if moves else None
    if given.svg:
        title = f"Board {told(board, last)}"
        sys.stdout.write(picture(board, title, last, numbers_on(board, moves, given.numbers)))
    else:
        print(board.diagram)
        print(told(board, last))
    return DONE


def told(board: Board, last: Optional[Move]) -> str:
    """The last move in words."""
    return "before the first move" if last is None else f"after move {board.moves}, {last.colour} {last.vertex}"


def _board_in(found: Found, moves: Optional[int]) -> Union[Tuple[Board, List[Move]], str]:
    """The board after the first moves, and these; or goref's reason why there is none."""
    verdict = found.verdict()
    if isinstance(verdict, str):
        return (None if moves is None else _board_before(found, verdict, moves)) or verdict
    if moves is not None and moves > verdict.moves:
        raise WrongWords(f"--move {moves}: {shown(found.path)}: game {found.number} has {verdict.moves} moves")
    return position(found.game.text, moves)


def _board_before(found: Found, reason: str, moves: int) -> Optional[Tuple[Board, List[Move]]]:
    """The board after the first moves of a refused game, where these come before the refusal."""
    try:
        spelling = goref.tidy(found.game.text)
        before = playable(refusal_of(reason), spelling, main_line(spelling))
        return None if before is None or moves > before[1] else position(before[0], moves)
    except goref.Refused:
        return None

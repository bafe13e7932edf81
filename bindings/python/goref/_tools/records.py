"""The games of a file, each with the place where it stands and with goref's verdict on it."""

import re
import sys
from typing import Iterator, NamedTuple, Optional, Union

import goref
from goref._tools.charset import Converted, WrongCharset, converted
from goref._tools.faults import RefusedFile, WrongWords, shown
from goref._tools.reading import contents

_BYTE = re.compile(r"(?<=byte at )[0-9]+|(?<=at byte )[0-9]+")


class Found(NamedTuple):
    """A game of a file."""

    path: str
    number: int
    """The number of the game in its file, from 1."""
    game: goref.Game
    """Its text as goref is given it, and where it stands in the whole text."""
    text: Converted

    def verdict(self) -> Union[goref.Verdict, str]:
        """goref's verdict, or the reason why there is none, with places in the file's own bytes."""
        try:
            return goref.judge(self.game.text)
        except goref.Refused as why:
            return self.reason(str(why))

    def reason(self, why: str) -> str:
        """A reason of goref's with places in the file's own bytes."""
        return _BYTE.sub(lambda place: str(self.text.place(self.game.begin + int(place[0]))), why)


def found_in(path: str, text: Converted) -> Iterator[Found]:
    """The games of a text. One without games is a game that is refused."""
    number = 0
    for number, game in enumerate(goref.games(text.utf8), 1):
        yield Found(path, number, game, text)
    if number == 0:
        yield Found(path, 1, goref.Game(0, len(text.utf8), text.utf8, False), text)


def games_in(path: str, charset: Optional[str] = None) -> Iterator[Found]:
    """The games of a file. Raises a Fault where it can't be read, and RefusedFile where it isn't of the charset."""
    data = contents(path)
    try:
        text = converted(data, charset)
    except WrongCharset as why:
        raise RefusedFile(f"{shown(path)}: {why}") from None
    return found_in(path, text)


def game_in(path: str, number: int, charset: Optional[str] = None) -> Found:
    """One game of a file. Raises WrongWords where there is none of this number."""
    last = 0
    for found in games_in(path, charset):
        if found.number == number:
            return found
        last = found.number
    raise WrongWords(f"{shown(path)}: there is no game {number}, and {last} in all")


def in_words(moves: Optional[int], score: Optional[str], stated: Optional[str]) -> str:
    """A verdict on one line."""
    return f"moves {moves} score {score} stated {stated}"


def say_conversion(found: Found) -> None:
    """Tells on the standard error how a text was converted, where it was."""
    told = found.text.told()
    if told:
        print(f"goref-tools: {shown(found.path)}: {told}", file=sys.stderr)

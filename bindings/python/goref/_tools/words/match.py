"""Has two engines play games, with goref as the referee.

BLACK and WHITE are command lines of programs that speak the Go Text Protocol. BLACK plays Black in odd games, White in
even ones. In them {game} stands for the number of the game, and {seed} for a number drawn for it: an engine whose
command line has one of these is started anew for each game. goref judges each move by the rules of Tromp-Taylor. Two
passes end a game, and it is scored by area with all stones alive. Each engine that knows `final_score` is then asked
for its score: that changes nothing, but the table says in how many games an engine claims another winner. If there are
such games, have the engines take dead stones before they pass, as the example does.

An engine loses by forfeit if it ends, answers no line within a minute or no `genmove` within an hour (unless
--seconds sets another time), answers by more than 1,000,000 bytes, or plays what isn't legal. A game has no result
if an engine can't be started, refuses or fails to set its board up, or refuses a legal move of its opponent: such a
game is played anew when the match goes on by its log. Three of them one after another end the match (--void). A game
that isn't over after four moves for each point of the board has no result either, and isn't played anew. An engine
that failed is started anew for the next game.

--seconds is a limit for each move. Engines are told it in whole seconds, rounded down, by `time_settings 0 S 1`; below
one second they are told nothing. A second counts only while this process runs: if it is stopped, for example by Ctrl-Z,
no engine loses by that.

A line for each game and a table at the end go to the standard output. A game whose moves, colours and result are those
of another one is a copy: the interval in the table is over the distinct games. What engines write to their standard
error goes to that of the match.

A folder of records belongs to one match: a file match.json in it says which. If a record or a line of the log can't be
kept, the match ends, and the same command goes on when that is mended. The status is 0 if each game has a result, 1 if
one has none, 2 if the words are wrong, 3 if a file, a stream or memory failed, the library is missing, a record of an
earlier run is missing, or games without a result ended the match, and after a signal 128 and its number: 130 after an
interrupt.
"""

import argparse
import math
import os
import shlex
import signal
from contextlib import ExitStack
from typing import TYPE_CHECKING, Iterable, List, Optional, Sequence

from goref._tools.faults import DONE, FAULT, REFUSED, WrongWords, shown, tell
from goref._tools.passed import Passed, add_hidden

if TYPE_CHECKING:
    from goref._tools.match_outcome import Outcome
    from goref._tools.match_folder import Folder
    from goref._tools.match_keeper import Keeper
    from goref._tools.match_log import Log
    from goref._tools.match_settings import Settings

EXAMPLE = """\
example:
  goref-tools match --games 20 -j 4 --size 9 --komi 7 --seconds 5 \\
      --log match.jsonl --records games \\
      'gnugo --mode gtp --chinese-rules --capture-all-dead --seed {seed}' 'goref gtp'
plays 20 games, four at once, and keeps each result and record. If the command is
ended before, the same command goes on where it stopped. Without --capture-all-dead GNU Go
passes while dead stones stand, which count as alive, and loses games that it takes for won.

results: B+7.5 and 0 by score, B+R by resignation, B+T by time, B+F by forfeit;
a record of a game without a result has Void"""


def add_arguments(parser: argparse.ArgumentParser) -> None:
    """The words after `match`."""
    add = parser.add_argument
    add("black", metavar="BLACK", help="the command line of the engine that is Black in odd games")
    add("white", metavar="WHITE", help="the command line of the engine that is White in odd games")
    add("--games", type=_count, default=1, metavar="N", help="how many games are played (1)")
    add("-j", "--jobs", type=_count, default=1, metavar="N", help="how many games are played at once (1)")
    add("--size", type=int, default=19, metavar="N", help="the number of lines of the board (19)")
    add("--komi", default="7.5", metavar="K", help="the komi, as goref reads it (7.5)")
    add("--handicap", type=int, default=0, metavar="N", help="black stones on fixed points; White begins then (none)")
    add(
        "--superko",
        choices=("positional", "situational"),
        default="positional",
        help="the superko rule (positional)",
    )
    add("--seconds", type=_seconds, metavar="S", help="the time for a move; who moves later loses (no limit)")
    add("--seed", type=_seed, metavar="N", help="what the seeds of the games are drawn by (a number that is told)")
    add("--openings", metavar="FOLDER", help="records whose moves begin the games, each with both colours in turn")
    add("--log", metavar="FILE", help="a file for a JSON line of each game; with it the same command goes on")
    add("--records", metavar="FOLDER", help="a folder for a record of each game")
    add("--void", type=_count, default=3, metavar="N", help="how many games that can't go on end the match (3)")
    add_hidden(parser)
    add("--line-seconds", type=_seconds, default=60.0, help=argparse.SUPPRESS)
    add("--move-seconds", type=_seconds, default=3600.0, help=argparse.SUPPRESS)


def run(given: argparse.Namespace) -> int:
    """Holds the match."""
    from goref._tools.match_folder import refuse_records
    from goref._tools.match_game import Patience
    from goref._tools.match_keeper import Keeper
    from goref._tools.match_log import Log
    from goref._tools.match_run import Match

    settings = _settings(given)
    if given.records is not None and not _is_begun(given.log):
        refuse_records(given.records)
    with ExitStack() as held:
        log = None if given.log is None else held.enter_context(Log(given.log, settings, given.seed))
        folder = None if given.records is None else held.enter_context(_folder(given, log))
        if log:
            log.begin()
        settings = settings._replace(seed=log.seed if log else _seed_of(given))
        lost = _tell_missing(folder, log)
        keeper = Keeper(settings, log, folder, given.void)
        patience = Patience(given.line_seconds, given.move_seconds)
        stopped = Match(settings, given.games, given.jobs, keeper, patience).hold()
    return _closing(keeper, settings, stopped, lost)


def _folder(given: argparse.Namespace, log: "Optional[Log]") -> "Folder":
    """The folder of the records, which is this match's alone."""
    from goref._tools.match_folder import Folder

    match = log.match if log else os.urandom(8).hex()
    return Folder(given.records, match, given.log, log.outcomes if log else {}, given.games)


def _seed_of(given: argparse.Namespace) -> int:
    from goref._tools.match_log import drawn_seed

    return drawn_seed() if given.seed is None else int(given.seed)


def _tell_missing(folder: "Optional[Folder]", log: "Optional[Log]") -> bool:
    """Tells which games of earlier runs have no record, and whether there are such."""
    missing = folder.missing(log.outcomes) if folder and log else []
    if missing:
        tell(f"no record is there of these games of the log: {', '.join(_ranges(missing))}")
    return bool(missing)


def _ranges(numbers: Iterable[int]) -> List[str]:
    """Numbers in order, those that follow one another as a range."""
    found: List[List[int]] = []
    for number in numbers:
        if found and found[-1][-1] == number - 1:
            found[-1][1:] = [number]
        else:
            found.append([number])
    return ["-".join(map(str, ends)) for ends in found]


def _settings(given: argparse.Namespace) -> "Settings":
    """What the match is played by. Raises WrongWords, or a Fault of an opening."""
    from goref._tools.match_openings import openings_in
    from goref._tools.match_settings import Settings, checked

    for command in (given.black, given.white):
        _check_command(command)
    if given.openings is not None and given.handicap:
        raise WrongWords("--openings and --handicap don't go together")
    settings = checked(
        Settings((given.black, given.white), given.size, given.komi, given.handicap, given.superko, given.seconds)
    )
    if given.openings is not None:
        passed = Passed()
        settings = settings._replace(openings=openings_in(given.openings, given.size, given.hidden, passed))
        if passed:
            tell(f"{shown(given.openings)}: {passed.told()}")
    return settings


def _check_command(command: str) -> None:
    try:
        words = shlex.split(command)
    except ValueError as why:
        raise WrongWords(f"`{command}` is no command line: {why}") from None
    if not words:
        raise WrongWords("an engine has no command line")


def _is_begun(log: Optional[str]) -> bool:
    """Whether a log has something of an earlier run."""
    try:
        return log is not None and os.path.getsize(log) > 0
    except OSError:
        return False


def _closing(keeper: "Keeper", settings: "Settings", stopped: Optional[int], lost: bool) -> int:
    """Tells the table and why the match ended early, and gives the status."""
    from goref._tools.match_table import table_of

    outcomes: "Sequence[Outcome]" = [keeper.outcomes[number] for number in sorted(keeper.outcomes)]
    if outcomes:
        keeper.output.say(table_of(outcomes, settings))
    if stopped == signal.SIGINT:
        raise KeyboardInterrupt
    if stopped is not None:
        tell(f"ended by {signal.Signals(stopped).name}")
        return 128 + stopped
    if keeper.end is not None:
        tell(f"the match ends: {keeper.end}")
    if keeper.end is not None or lost or keeper.output.has_failed:
        return FAULT
    return REFUSED if any(outcome.result is None for outcome in outcomes) else DONE


def _count(text: str) -> int:
    if not (text.isascii() and text.isdigit() and int(text) > 0):
        raise argparse.ArgumentTypeError(f"{shown(text)} is no number from 1 on")
    return int(text)


def _seed(text: str) -> int:
    if not (text.isascii() and text.isdigit() and len(text) < 19):
        raise argparse.ArgumentTypeError(f"{shown(text)} is no number below 1,000,000,000,000,000,000")
    return int(text)


def _seconds(text: str) -> float:
    try:
        seconds = float(text)
    except ValueError:
        seconds = 0.0
    if not 0 < seconds < math.inf:
        raise argparse.ArgumentTypeError(f"{shown(text)} is no number of seconds")
    return seconds

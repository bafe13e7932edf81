"""The command goref-tools, which is also `python3 -m goref`."""

import argparse
import errno
import io
import os
import signal
import sys
import threading
from importlib import import_module
from typing import List, Optional, Sequence

from goref._interrupts import interrupt_behind
from goref._tools.faults import (
    DONE, ENDED, FAULT, INTERRUPTED, REFUSED, WRONG_WORDS, Ended, Fault, RefusedFile, WrongWords, leave_output, shown, tell,
)

WORDS = {
    "judge": "judge each game of records and of folders of records",
    "tidy": "write records in their canonical spelling",
    "why": "tell why a record is refused",
    "board": "show the board after a move, as text or as SVG",
    "page": "make an HTML page to step through a record",
    "match": "have two engines play, with goref as the referee",
}


# Faults without a name that no write meets: no process, file or memory more.
_OF_THE_SYSTEM = (errno.EAGAIN, errno.EMFILE, errno.ENFILE, errno.ENOMEM)


def main(arguments: Optional[Sequence[str]] = None) -> int:
    """Runs a word, and gives the status."""
    words = list(sys.argv[1:] if arguments is None else arguments)
    try:
        _prepare()
        status = _status(words)
        sys.stdout.flush()
        return status
    except WrongWords as why:
        return _told(str(why), WRONG_WORDS)
    except RefusedFile as why:
        return _told(str(why), REFUSED)
    except (Fault, ImportError) as why:
        return _told(str(why), FAULT)
    except MemoryError:
        return _told("out of memory", FAULT)
    except OSError as why:
        leave_output()
        return _told(_name_of(why) + str(why.strerror or why), FAULT)
    except KeyboardInterrupt as why:
        return _stopped(why)
    except Exception as why:
        interrupt = interrupt_behind(why)
        return _stopped(interrupt) if interrupt else _told(f"a fault of its own: {_placed(why)}", FAULT)


def _stopped(why: KeyboardInterrupt) -> int:
    """Tells that the run was ended by a signal, and gives the status."""
    return _told("ended", ENDED) if isinstance(why, Ended) else _told("interrupted", INTERRUPTED)


def _name_of(why: OSError) -> str:
    """What a fault is of: a file, the standard output, or the system, which has no name."""
    if why.filename is not None:
        return shown(os.fsdecode(why.filename)) + ": "
    return "" if why.errno in _OF_THE_SYSTEM else "standard output: "


def _placed(why: Exception) -> str:
    """What went wrong, and the last place that it went through."""
    last = why.__traceback__
    while last is not None and last.tb_next is not None:
        last = last.tb_next
    where = f" ({os.path.basename(last.tb_frame.f_code.co_filename)}, line {last.tb_lineno})" if last else ""
    return f"{type(why).__name__}: {why}{where}".replace("\n", " ")


def _prepare() -> None:
    """Has names of any bytes written as they are, and a request to end handled as an interrupt."""
    if sys.stderr is None:
        sys.stderr = open(os.devnull, "w", encoding="utf-8")
    if sys.stdout is None:
        raise Fault("standard output: it is closed")
    for stream in (sys.stdout, sys.stderr):
        if isinstance(stream, io.TextIOWrapper):
            stream.reconfigure(encoding="utf-8", errors="surrogateescape")
    if threading.current_thread() is threading.main_thread():
        signal.signal(signal.SIGTERM, _end)


def _status(words: List[str]) -> int:
    try:
        return _run(words)
    except SystemExit as end:
        return end.code if isinstance(end.code, int) else DONE


def _run(words: List[str]) -> int:
    if words and words[0] in WORDS:
        word = import_module("goref._tools.words." + words[0])
        parser = argparse.ArgumentParser(
            prog="goref-tools " + words[0],
            description=word.__doc__,
            epilog=word.EXAMPLE,
            formatter_class=argparse.RawDescriptionHelpFormatter,
            allow_abbrev=False,
        )
        word.add_arguments(parser)
        return int(word.run(parser.parse_args(words[1:])))
    parser = argparse.ArgumentParser(
        prog="goref-tools",
        description="Tools for records of Go and matches of engines, on the library of goref.",
        epilog="words:\n" + "".join(f"  {name:6} {what}\n" for name, what in WORDS.items())
        + "\n`goref-tools WORD --help` tells more, with an example.\n\nstatus: 0 all is fine, 1 a record was refused or a"
        " game has no result,\n  2 the words are wrong, 3 a file, a stream or memory failed",
        formatter_class=argparse.RawDescriptionHelpFormatter,
        usage="goref-tools [-h] [--version] WORD ...",
    )
    parser.add_argument("--version", action="store_true", help="tell the version and end")
    parser.add_argument("word", nargs="?", metavar="WORD", help=argparse.SUPPRESS)
    given = parser.parse_args(words[:1])
    if given.version:
        import goref

        print("goref-tools", goref.__version__)
        return DONE
    parser.error(f"no such word: {shown(given.word)}" if given.word else "a word is wanted")


def _end(number: int, frame: object) -> None:
    raise Ended


def _told(line: str, status: int) -> int:
    """Tells a line, and gives the status."""
    tell(line)
    return status


if __name__ == "__main__":
    sys.exit(main())

"""Judges each game of each file: a line with its moves, its score and what it states, or with the reason why goref
refuses it. Folders are searched for files named *.sgf, in the order of their names. All verdicts are goref's."""

import argparse
import sys
from functools import partial

from goref._tools.charset import add_charset
from goref._tools.faults import DONE, FAULT, REFUSED
from goref._tools.passed import Passed, add_hidden

EXAMPLE = """example:
  goref-tools judge --format csv archive/ > verdicts.csv

A line has the file, the number of the game in it and the verdict, as
  archive/a.sgf:1: moves 233 score B+26 stated differs (RE[B+12.5], 13.5 apart)
  archive/b.sgf:2: move 17 is on a stone
  archive/c.sgf:1: moves 80 score W+3.5 stated agrees (converted from big5, CA)

If the record states another score, the line has that, and how many points it is from goref's. In CSV and JSON `result`
is the RE of any game whose first node goref can read, and `difference` a number without a sign: 1 if the score is W+3.5
and the record states W+4.5, 5 if they are B+2 and W+3, 0 if they agree, and nothing if the record states no score.

Where the charset is in doubt, and a verdict differs from one charset to another, the line says
`depends on the charset`, and --charset settles it.

status: 0 all games have a verdict, 1 one was refused or depends on the charset, 2 wrong words,
3 a file, a stream or memory failed, or the library is missing"""


def add_arguments(parser: argparse.ArgumentParser) -> None:
    parser.add_argument("paths", metavar="PATH", nargs="+", help="a file, a folder, or - for the standard input")
    parser.add_argument("--format", choices=("text", "csv", "json"), default="text", help="text; csv; or json, an object a line")
    parser.add_argument("-j", "--jobs", metavar="N", type=jobs, help="processes at once (as many as processors)")
    add_hidden(parser)
    add_charset(parser)


def jobs(word: str) -> int:
    """A number of processes."""
    if not word.isascii() or not word.isdigit() or not 1 <= int(word) <= 256:
        raise argparse.ArgumentTypeError(f"{word} is no number from 1 to 256")
    return int(word)


def run(given: argparse.Namespace) -> int:
    from goref._library import library
    from goref._tools.archive import Counts, heading, judged
    from goref._tools.files import records_in
    from goref._tools.progress import Progress
    from goref._tools.workers import in_order, processors

    library()
    passed = Passed()
    paths = [found for path in given.paths for found in records_in(path, given.hidden, passed)]
    counts = Counts()
    work = partial(judged, charset=given.charset, kind=given.format)
    results = in_order(work, paths, given.jobs or processors(), lambda path: path == "-")
    sys.stdout.write(heading(given.format))
    sys.stdout.flush()
    progress = Progress(len(paths), "files")
    try:
        for told in results:
            progress.write(told.text)
            progress.write("".join(f"goref-tools: {line}\n" for line in told.faults), is_fault=True)
            counts = counts.plus(told.counts)
            progress.step(told.counts.files + told.counts.faults)
        sys.stdout.flush()
    finally:
        progress.close()
        results.close()
    print(counts.told(passed), file=sys.stderr)
    return FAULT if counts.faults else REFUSED if counts.refused else DONE

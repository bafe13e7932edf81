"""Times what a match does itself, beside its engines: bench.py GAMES JOBS"""

import contextlib
import io
import json
import os
import random
import resource
import shlex
import sys
import tempfile
import time

HERE = os.path.dirname(os.path.abspath(__file__))
sys.dont_write_bytecode = True
sys.path.insert(0, os.path.join(HERE, "..", "..", "bindings", "python"))
import goref  # noqa: E402
from goref._tools.main import main  # noqa: E402

MOVES = 300


def script():
    """Legal moves of Black and White in turn, at random."""
    chosen = random.Random(2026)
    moves = []
    with goref.Session(19) as game:
        for number in range(MOVES):
            colour = "bw"[number % 2]
            moves.append(chosen.choice(game.ask(f"goref-legal {colour}").split()))
            game.ask(f"play {colour} {moves[-1]}")
    return moves


def spent():
    """The processor's seconds of this process, without those of its children."""
    usage = resource.getrusage(resource.RUSAGE_SELF)
    return usage.ru_utime + usage.ru_stime


def held(games, jobs, folder):
    """The seconds of this process in a match, and those by the clock."""
    file = os.path.join(folder, "moves")
    engine = shlex.join([sys.executable, "-I", "-S", os.path.join(HERE, "engine.py"), file])
    words = ["match", "--games", str(games), "-j", str(jobs), "--seconds", "10"]
    words += ["--log", os.path.join(folder, f"log-{games}"), "--records", os.path.join(folder, f"records-{games}")]
    before, begun = spent(), time.perf_counter()
    with contextlib.redirect_stdout(io.StringIO()):
        status = main([*words, engine, engine])
    if status != 0:
        sys.exit(f"the match ended with the status {status}")
    return spent() - before, time.perf_counter() - begun


def check(log):
    with open(log) as file:
        games = [json.loads(line) for line in file.readlines()[1:]]
    if any(game["end"] != "score" or game["moves"] != MOVES + 2 for game in games):
        sys.exit("a game that didn't go as it is to go")


games, jobs = int(sys.argv[1]), int(sys.argv[2])
with tempfile.TemporaryDirectory() as folder:
    with open(os.path.join(folder, "moves"), "w") as file:
        file.write(" ".join(script()))
    started, _ = held(jobs, jobs, folder)
    whole, clock = held(games + jobs, jobs, folder)
    check(os.path.join(folder, f"log-{games + jobs}"))
moves = games * (MOVES + 2)
print(f"{games} games of {MOVES + 2} moves, {jobs} at once: {1e3 * (whole - started) / moves:.3f} ms a move of the match,"
      f" {1e3 * clock / moves:.3f} ms by the clock")

"""Times the Python module over the records of a folder, beside the program: bench.py TOP LIBRARY FOLDER ROUNDS"""

import os
import random
import resource
import subprocess
import sys
import time

top, library, folder, rounds = sys.argv[1:5]
os.environ["GOREF_LIBRARY"] = library
sys.dont_write_bytecode = True
sys.path.insert(0, os.path.join(top, "bindings", "python"))
import goref  # noqa: E402

names = [os.path.join(folder, name) for name in sorted(os.listdir(folder))]
records = []
for name in names:
    with open(name, "rb") as file:
        records.append(file.read())


def least(work):
    """The least time of the rounds, in microseconds a record."""
    best = None
    for _ in range(int(rounds)):
        start = time.process_time()
        work()
        taken = time.process_time() - start
        best = taken if best is None else min(best, taken)
    return 1e6 * best / len(records)


def each(function):
    for record in records:
        try:
            function(record)
        except goref.Refused:
            pass


print(f"goref.tidy   {least(lambda: each(goref.tidy)):8.2f} us a record")
print(f"goref.judge  {least(lambda: each(goref.judge)):8.2f} us a record")

# The program on the same records in one process, with the files read.
loads = "".join(f"loadsgf {name}\n" for name in names).encode()
start = os.times()
subprocess.run([os.path.join(top, "goref"), "gtp"], input=loads, stdout=subprocess.DEVNULL, check=True)
end = os.times()
taken = end.children_user + end.children_system - start.children_user - start.children_system
print(f"goref gtp, loadsgf of each {1e6 * taken / len(records):8.2f} us a record")

# A session of plays and undos, as one text.
session = b"play b q16\nundo\n" * 50_000
taken = least(lambda: goref.answers(session)) * len(records)
print(f"goref.answers {taken / 100_000:8.2f} us a line")
start = os.times()
subprocess.run([os.path.join(top, "goref"), "gtp"], input=session, stdout=subprocess.DEVNULL, check=True)
end = os.times()
taken = end.children_user + end.children_system - start.children_user - start.children_system
print(f"goref gtp, the same {1e6 * taken / 100_000:8.2f} us a line")

few = records[:200]
start = time.perf_counter()
for record in few:
    subprocess.run([os.path.join(top, "goref"), "judge"], input=record, capture_output=True)
print(f"goref judge, a process each {1e6 * (time.perf_counter() - start) / len(few):8.2f} us a record by the clock")

# A line by a session, and by a pipe to a process, with one game and with a thousand, the games in turn. The plays are
# on distinct points, so each is legal.
POINTS = [f"{column}{row}" for row in range(1, 20) for column in "abcdefghjklmnopqrst"]
random.Random(2026).shuffle(POINTS)
PLAYS = [f"play {'bw'[move % 2]} {point}\n".encode() for move, point in enumerate(POINTS[:250])]


def by_sessions(count):
    games = [goref.Session() for _ in range(count)]
    start = time.process_time()
    for play in PLAYS:
        for game in games:
            if game.send(play) != b"=\n\n":
                sys.exit("a play that was refused")
    taken = time.process_time() - start
    for game in games:
        game.close()
    return 1e6 * taken / count / len(PLAYS)


def by_pipes(count):
    soft, hard = resource.getrlimit(resource.RLIMIT_NOFILE)
    resource.setrlimit(resource.RLIMIT_NOFILE, (min(hard, 4096), hard))
    words = [os.path.join(top, "bin", "goref"), "gtp"]
    begun = time.perf_counter()
    games = [subprocess.Popen(words, stdin=subprocess.PIPE, stdout=subprocess.PIPE, bufsize=0) for _ in range(count)]
    start, before = time.perf_counter(), os.times()
    for play in PLAYS:
        for game in games:
            game.stdin.write(play)
            if game.stdout.read(64) != b"=\n\n":
                sys.exit("a play that was refused")
    taken = time.perf_counter() - start
    for game in games:
        game.stdin.close()
        game.wait()
        game.stdout.close()
    end = os.times()
    spent = end.user + end.system + end.children_user + end.children_system
    spent -= before.user + before.system + before.children_user + before.children_system
    lines = count * len(PLAYS)
    return 1e6 * taken / lines, 1e6 * spent / lines, 1e3 * (start - begun) / count


for count in (1, 1000):
    print(f"Session.send, {count} games {by_sessions(count):8.2f} us a line")
    clock, spent, started = by_pipes(count)
    print(f"goref gtp by pipes, {count} games {clock:8.2f} us a line by the clock, {spent:.2f} of both processors, "
          f"{started:.2f} ms to start one")

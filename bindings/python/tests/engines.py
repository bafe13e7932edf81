"""A stand-in for an engine, that fails in one way or another.

    engines.py [PREFIX=ACTION[=TEXT]]..

It answers each line by `=`, and `genmove` by a pass. The first of its words whose prefix begins a line says something
else. Its own failures are actions of `DOES`.
"""

import os
import signal
import subprocess
import sys
import time


def write(text):
    try:
        sys.stdout.write(text)
        sys.stdout.flush()
    except BrokenPipeError:
        os._exit(9)


def end(text):
    os._exit(int(text or 3))


def crash(text):
    os.kill(os.getpid(), signal.SIGKILL)


def hang(text):
    signal.signal(signal.SIGTERM, signal.SIG_IGN)
    time.sleep(1000)


def flood(text):
    """An answer without end, in lines that end as the text does."""
    write("= ")
    while True:
        write("x" * 1000 + text.replace("n", "\n"))


def close(text):
    os.close(1)
    time.sleep(1000)


def child(text):
    """Starts a process that outlives it, and tells its number in a file."""
    with open(text, "a") as file:
        file.write(f"{subprocess.Popen(['sleep', '1000']).pid}\n")
    write("=\n\n")


def say(text):
    write(text.replace("\\n", "\n").replace("\\r", "\r"))


def refuse(text):
    write(f"? {text}\n\n")


def slow(text):
    time.sleep(float(text))
    write("= pass\n\n")


def moves(text):
    """The next of these moves, and then passes."""
    left = MOVES.setdefault(text, text.split(","))
    write(f"= {left.pop(0) if left else 'pass'}\n\n")


def cycle(text):
    """These moves, again and again."""
    left = MOVES.setdefault(text, text.split(","))
    left.append(left.pop(0))
    write(f"= {left[-1]}\n\n")


def note(text):
    """Keeps what it was asked, and its own number, in a file."""


MOVES = {}
DOES = {one.__name__: one for one in (end, crash, hang, flood, close, child, say, refuse, slow, moves, cycle)}


def answer(line, words):
    if line.startswith("clear_board"):
        MOVES.clear()
    for prefix, action, text in words:
        if action == "note":
            with open(text, "a") as file:
                file.write(f"{os.getpid()} {line}")
        elif line.startswith(prefix):
            DOES[action](text)
            return
    write("= pass\n\n" if line.startswith("genmove") else "=\n\n")


def main():
    words = [(*word.split("=", 2), "")[:3] for word in sys.argv[1:]]
    for line in sys.stdin:
        answer(line, words)
        if line.startswith("quit") and not any(prefix == "quit" for prefix, _, _ in words):
            return


if __name__ == "__main__":
    main()

"""A quick engine: engine.py FILE answers `genmove` by the move that stands in a file for its number in the game."""

import sys

with open(sys.argv[1]) as file:
    MOVES = file.read().split()
number = 0
for line in sys.stdin:
    told = ""
    if line.startswith("clear_board"):
        number = 0
    elif line.startswith("genmove"):
        told = " " + (MOVES[number] if number < len(MOVES) else "pass")
    if line.startswith(("genmove", "play")):
        number += 1
    sys.stdout.write(f"={told}\n\n")
    sys.stdout.flush()
    if line.startswith("quit"):
        break

"""An independent model of Go for the tests: chains by flood, on sets of points. It knows boards, and no records."""

LETTERS = "ABCDEFGHJKLMNOPQRSTUVWXYZ"


class Model:
    """A board of `size` lines; points are columns and rows from the lower left corner, from 0."""

    def __init__(self, size, black=(), white=()):
        self.size = size
        self.stones = {**{point: "B" for point in black}, **{point: "W" for point in white}}
        self.taken = {"B": 0, "W": 0}
        self.seen = {self.position()}

    def position(self):
        return frozenset(self.stones.items())

    def beside(self, point):
        column, row = point
        there = [(column + 1, row), (column - 1, row), (column, row + 1), (column, row - 1)]
        return [(x, y) for x, y in there if 0 <= x < self.size and 0 <= y < self.size]

    def chain(self, point):
        chain, edge = set(), {point}
        while edge:
            chain |= edge
            edge = {near for one in edge for near in self.beside(one) if self.stones.get(near) == self.stones[point]}
            edge -= chain
        return chain

    def take(self, point):
        """Takes the chain of a stone off where it has no liberty."""
        if point not in self.stones:
            return
        chain = self.chain(point)
        if all(near in self.stones for one in chain for near in self.beside(one)):
            self.taken[self.stones[point]] += len(chain)
            for one in chain:
                del self.stones[one]

    def play(self, colour, point):
        """Plays a move, and says whether it was legal. A pass is None."""
        if point is None:
            return True
        if point in self.stones:
            return False
        before, taken = dict(self.stones), dict(self.taken)
        self.stones[point] = colour
        for near in self.beside(point):
            if self.stones.get(near) not in (None, colour):
                self.take(near)
        self.take(point)
        if self.position() in self.seen:
            self.stones, self.taken = before, taken
            return False
        self.seen.add(self.position())
        return True

    def rows(self):
        """The points from the top, as goref shows them."""
        signs = {"B": "X", "W": "O", None: "."}
        return ["".join(signs[self.stones.get((x, y))] for x in range(self.size)) for y in reversed(range(self.size))]


def vertex(point):
    """A point as GTP names it."""
    return "pass" if point is None else f"{LETTERS[point[0]]}{point[1] + 1}"


def in_sgf(point, size):
    """A point as SGF has it."""
    return "" if point is None else chr(97 + point[0]) + chr(97 + size - 1 - point[1])


def game(size, wanted, handicap=()):
    """A game of legal moves among those that are wanted: its moves, and the model after each, the start first."""
    model = Model(size, black=handicap)
    after = [(model.rows(), dict(model.taken))]
    moves = []
    for colour, point in wanted:
        if model.play(colour, point):
            moves.append((colour, point))
            after.append((model.rows(), dict(model.taken)))
    return moves, after


def record(size, moves, first=""):
    """A record of moves, a node each."""
    nodes = "".join(f";{colour}[{in_sgf(point, size)}]" for colour, point in moves)
    return f"(;SZ[{size}]{first}{nodes})".encode("utf-8")

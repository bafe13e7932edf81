//! Lines of drawn games with captures and kos as games of people have them.

use crate::board::{BLACK, Board, EMPTY, STRIDE, WHITE, beside};
use crate::game::Game;
use crate::line::put_vertex;
use std::io::{self, BufWriter, Write};

/// How often a cell is drawn for a move, before any legal play will do.
const DRAWS: usize = 60;
// How often in a hundred times a cell is drawn near the last move, a chain's last liberty is played on to take it or to
// save it, and a stone may have one liberty alone. With these numbers a game on 19 lines has as many captures, and as
// many points that are played on again, as games of people.
const NEAR: usize = 50;
const TAKES: usize = 90;
const SAVES: usize = 90;
const RISKS: usize = 70;

struct Random(u64);

impl Random {
    /// A number below another one.
    fn below(&mut self, end: usize) -> usize {
        self.0 = self
            .0
            .wrapping_mul(6_364_136_223_846_793_005)
            .wrapping_add(1_442_695_040_888_963_407);
        ((self.0 >> 33) as usize) % end
    }

    /// Whether something happens that happens this number of times in a hundred.
    fn is_in(&mut self, hundredths: usize) -> bool {
        self.below(100) < hundredths
    }
}

/// Writes a number of games on a board of `lines` lines: plays, each legal, and a new start after each game.
pub fn write(lines: usize, games: usize, seed: u64) -> io::Result<()> {
    let mut out = BufWriter::new(io::stdout().lock());
    let mut random = Random(seed);
    let mut game = Game::new(lines);
    let mut text = Vec::new();
    writeln!(out, "boardsize {lines}")?;
    for _ in 0..games {
        let mut last = None;
        for colour in [BLACK, WHITE].repeat(lines * lines * 7 / 20) {
            let Some(cell) = draw(&mut game, colour, last, &mut random) else {
                break;
            };
            last = Some(cell);
            text.clear();
            text.extend_from_slice(if colour == BLACK {
                b"play b "
            } else {
                b"play w "
            });
            put_vertex(cell, &mut text);
            text.push(b'\n');
            out.write_all(&text)?;
        }
        out.write_all(b"clear_board\n")?;
        game.clear(lines);
    }
    writeln!(out, "quit")?;
    out.flush()
}

/// Draws a play and plays it: mostly what takes or saves stones beside the last one, else a point near that.
fn draw(game: &mut Game, colour: u16, last: Option<usize>, random: &mut Random) -> Option<usize> {
    if let Some(cell) = last.and_then(|last| answer_to(&game.board, colour, last, random)) {
        if plays(game, colour, cell) {
            return Some(cell);
        }
    }
    for _ in 0..DRAWS {
        let near = last.filter(|_| random.is_in(NEAR));
        let cell = drawn_cell(&game.board, near, random);
        if is_sensible(&game.board, colour, cell, random) && plays(game, colour, cell) {
            return Some(cell);
        }
    }
    game.board
        .points()
        .find(|&cell| !is_eye(&game.board, colour, cell) && plays(game, colour, cell))
}

/// Plays on a cell, if that is legal and no suicide; whether it is.
fn plays(game: &mut Game, colour: u16, cell: usize) -> bool {
    game.play(colour, cell) && (game.board.colour(cell) == colour || !game.undo())
}

/// The last liberty of a chain on or beside the last stone: of the opponent, which it takes, or of one's own.
fn answer_to(board: &Board, colour: u16, last: usize, random: &mut Random) -> Option<usize> {
    let [below, left, right, above] = beside(last);
    [last, below, left, right, above]
        .into_iter()
        .filter(|&cell| board.colour(cell) == BLACK || board.colour(cell) == WHITE)
        .find_map(|cell| {
            let only = board.liberties_of(cell).only()?;
            let odds = if board.colour(cell) == colour {
                SAVES
            } else {
                TAKES
            };
            random.is_in(odds).then_some(only)
        })
}

/// A cell near the last one, or anywhere.
fn drawn_cell(board: &Board, last: Option<usize>, random: &mut Random) -> usize {
    let mut draw = |last: Option<usize>| match last {
        Some(last) => (last + random.below(5))
            .saturating_sub(2)
            .clamp(1, board.lines),
        None => 1 + random.below(board.lines),
    };
    let row = draw(last.map(|cell| cell / STRIDE));
    row * STRIDE + draw(last.map(|cell| cell % STRIDE))
}

/// Whether a play fills no eye of its own, and leaves its stone more than one liberty or takes that risk.
fn is_sensible(board: &Board, colour: u16, cell: usize, random: &mut Random) -> bool {
    board.colour(cell) == EMPTY
        && !is_eye(board, colour, cell)
        && (!board.is_quiet(colour, cell)
            || board.liberties_with(colour, cell) > 1
            || random.is_in(RISKS))
}

fn is_eye(board: &Board, colour: u16, cell: usize) -> bool {
    beside(cell)
        .into_iter()
        .all(|near| board.colour(near) == colour || board.is_edge(near))
}

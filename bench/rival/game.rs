//! A game by Tromp-Taylor rules with positional superko, and its undo.

use crate::board::{Board, EMPTY};
use crate::line::Vertex;
use crate::positions::{Positions, hash_with};

/// In place of a mark, for a pass.
const PASS: usize = usize::MAX;

pub struct Game {
    pub board: Board,
    positions: Positions,
    /// How long the log was before each move.
    marks: Vec<usize>,
}

impl Game {
    pub fn new(lines: usize) -> Game {
        Game {
            board: Board::new(lines),
            positions: Positions::new(),
            marks: Vec::new(),
        }
    }

    pub fn clear(&mut self, lines: usize) {
        self.board.clear(lines);
        self.positions.clear();
        self.marks.clear();
    }

    /// Plays a move, if that is legal; whether it is. A pass leaves a position that stands already.
    pub fn turn(&mut self, colour: u16, vertex: &Vertex) -> bool {
        match vertex {
            Vertex::Pass => {
                self.marks.push(PASS);
                true
            }
            Vertex::At(cell) => self.play(colour, *cell),
        }
    }

    /// Plays on a cell, if that is legal; whether it is.
    pub fn play(&mut self, colour: u16, cell: usize) -> bool {
        if self.board.colour(cell) != EMPTY {
            return false;
        }
        let mark = self.board.mark();
        self.board.play(colour, cell, self.positions.copy_last());
        if !self.positions.note_last() {
            self.positions.drop_last();
            self.board.rewind(mark);
            return false;
        }
        self.marks.push(mark);
        true
    }

    /// Takes the last move back; whether there was one.
    pub fn undo(&mut self) -> bool {
        let Some(mark) = self.marks.pop() else {
            return false;
        };
        if mark != PASS {
            self.positions.forget_last();
            self.board.rewind(mark);
        }
        true
    }

    /// Whether a play on an empty point takes nothing and surely repeats nothing: the hash that it leaves is known
    /// without it, and no position had that.
    pub fn is_plain(&self, colour: u16, cell: usize) -> bool {
        let hash = hash_with(self.positions.last().hash, colour, cell);
        self.board.is_quiet(colour, cell) && !self.positions.has_hash(hash)
    }

    /// Whether a play is legal.
    pub fn is_legal(&mut self, colour: u16, cell: usize) -> bool {
        self.board.colour(cell) == EMPTY
            && (self.is_plain(colour, cell) || self.play(colour, cell) && self.undo())
    }
}

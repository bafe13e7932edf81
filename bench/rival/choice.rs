//! The choice that goref makes: of all legal plays one after which the colour is ahead by most points, of these one
//! whose stone has most liberties, and of these the first; a pass where none puts the colour further ahead.

use crate::board::{Board, EMPTY, STRIDE};
use crate::cells::Cells;
use crate::game::Game;
use crate::line::Vertex;

/// Empty points that reach each other.
struct Region {
    cells: Cells,
    size: i32,
    /// How many of them are beside stones of the opponent.
    borders: i32,
}

/// What a colour and its opponent hold.
struct Holdings {
    free: Cells,
    own_reach: Cells,
    their_reach: Cells,
    their_borders: Cells,
    /// By how many points the colour is ahead.
    lead: i32,
    /// The regions that were asked for.
    regions: Vec<Region>,
}

impl Holdings {
    fn new(board: &Board, colour: u16) -> Holdings {
        let mut sets = [Cells::default(); 3];
        for cell in board.points() {
            sets[usize::from(board.colour(cell))].insert(cell);
        }
        let [free, ..] = sets;
        let (own, theirs) = (&sets[usize::from(colour)], &sets[usize::from(3 - colour)]);
        let own_reach = own.beside(&free).filled(&free);
        let their_borders = theirs.beside(&free);
        let their_reach = their_borders.filled(&free);
        // What both reach counts for neither, and so may count for both.
        let lead = own.count() + own_reach.count() - theirs.count() - their_reach.count();
        Holdings {
            free,
            own_reach,
            their_reach,
            their_borders,
            lead,
            regions: Vec::new(),
        }
    }

    fn region(&mut self, cell: usize) -> &Region {
        let known = self
            .regions
            .iter()
            .position(|region| region.cells.contains(cell));
        let number = known.unwrap_or(self.regions.len());
        if known.is_none() {
            let mut first = Cells::default();
            first.insert(cell);
            let cells = first.filled(&self.free);
            self.regions.push(Region {
                cells,
                size: cells.count(),
                borders: cells.and(&self.their_borders).count(),
            });
        }
        &self.regions[number]
    }

    /// By how many points the colour is ahead after a play that takes nothing. What the stone leaves of its region is
    /// beside the stone, so all of it counts that the opponent doesn't reach then.
    fn lead_with(&mut self, board: &Board, cell: usize) -> i32 {
        let is_border = self.their_borders.contains(cell);
        let (is_own, is_theirs) = (
            self.own_reach.contains(cell),
            self.their_reach.contains(cell),
        );
        if is_own && !is_theirs {
            return self.lead;
        }
        let their_borders = self.their_borders;
        let lead = self.lead;
        let region = self.region(cell);
        let reached = if region.borders == i32::from(is_border) {
            0
        } else if is_row_around(board, cell) {
            region.size - 1
        } else {
            let mut rest = region.cells;
            rest.remove(cell);
            their_borders.and(&rest).filled(&rest).count()
        };
        let before = if is_own { region.size } else { 0 } - if is_theirs { region.size } else { 0 };
        lead + region.size - reached - before
    }
}

/// Whether the empty cells around a cell are seen to reach each other without it, those beside it at least: where they
/// are one row. This tells most of those that do.
fn is_row_around(board: &Board, cell: usize) -> bool {
    let around = [
        cell - STRIDE,
        cell - STRIDE + 1,
        cell + 1,
        cell + STRIDE + 1,
        cell + STRIDE,
        cell + STRIDE - 1,
        cell - 1,
        cell - STRIDE - 1,
    ]
    .map(|near| board.colour(near) == EMPTY);
    let is_end = |at: &usize| around[*at] && !(around[(at + 1) % 8] && around[(at + 2) % 8]);
    (0..8).step_by(2).filter(is_end).count() <= 1
}

impl Game {
    /// Chooses a move and plays it.
    pub fn generate(&mut self, colour: u16) -> Vertex {
        let choice = self.choose(colour);
        self.turn(colour, &choice);
        choice
    }

    pub fn choose(&mut self, colour: u16) -> Vertex {
        let mut holdings = Holdings::new(&self.board, colour);
        let mut best = (holdings.lead, i32::MAX);
        let mut choice = Vertex::Pass;
        for cell in self.board.points() {
            if self.board.colour(cell) != EMPTY {
                continue;
            }
            let worth = if self.is_plain(colour, cell) {
                let lead = holdings.lead_with(&self.board, cell);
                if lead < best.0 || best == (lead, i32::MAX) {
                    continue;
                }
                Some((lead, self.board.liberties_with(colour, cell)))
            } else {
                self.try_play(colour, cell)
            };
            if let Some(worth) = worth.filter(|worth| *worth > best) {
                best = worth;
                choice = Vertex::At(cell);
            }
        }
        choice
    }

    /// By how many points a colour is ahead after a play, and how many liberties its stone has then, if it is legal.
    fn try_play(&mut self, colour: u16, cell: usize) -> Option<(i32, i32)> {
        if !self.play(colour, cell) {
            return None;
        }
        let lead = Holdings::new(&self.board, colour).lead;
        let stands = self.board.colour(cell) != EMPTY;
        let liberties = if stands {
            self.board.liberties_of(cell).count()
        } else {
            0
        };
        self.undo();
        Some((lead, liberties))
    }
}

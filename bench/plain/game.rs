//! A plain game on the plain board: plays by positional superko, undo, and the choice that goref makes.
//! Nothing of it is proved.

use crate::board::{Board, POINTS, neighbours};
use std::collections::HashMap;

const WORDS: usize = POINTS.div_ceil(32);

/// A colouring, two bits a point.
type Pack = [u64; WORDS];

fn pack(colours: &[u8; POINTS]) -> Pack {
    let mut words = [0; WORDS];
    for (word, colours) in words.iter_mut().zip(colours.chunks(32)) {
        for (place, colour) in colours.iter().enumerate() {
            *word |= u64::from(*colour) << (2 * place);
        }
    }
    words
}

struct Step {
    colour: u8,
    point: Option<usize>,
    /// How many stones of the opponent and of its own the move took.
    taken: (u16, u16),
}

pub struct Game {
    board: Board,
    steps: Vec<Step>,
    /// After how many moves each colouring stood first.
    history: HashMap<Pack, usize>,
    /// How many stones of Black and of White were taken.
    prisoners: [u64; 2],
}

impl Game {
    pub fn new() -> Game {
        Game {
            board: Board::new(),
            steps: Vec::new(),
            history: HashMap::from([([0; WORDS], 0)]),
            prisoners: [0; 2],
        }
    }

    fn prisoners_of(&mut self, colour: u8) -> &mut u64 {
        &mut self.prisoners[usize::from(colour - 1)]
    }

    /// Plays a move, a pass where there is no point; whether it is legal.
    pub fn play(&mut self, colour: u8, point: Option<usize>) -> bool {
        let mut taken = (0, 0);
        if let Some(at) = point {
            match self.board.play(colour, at) {
                Some(stones) => taken = stones,
                None => return false,
            }
            let pack = pack(self.board.colours());
            if self.history.contains_key(&pack) {
                self.board.rewind();
                return false;
            }
            self.history.insert(pack, self.steps.len() + 1);
        }
        *self.prisoners_of(3 - colour) += u64::from(taken.0);
        *self.prisoners_of(colour) += u64::from(taken.1);
        self.steps.push(Step {
            colour,
            point,
            taken,
        });
        true
    }

    /// Takes the last move back, if there is one.
    pub fn undo(&mut self) -> bool {
        let Some(step) = self.steps.pop() else {
            return false;
        };
        if step.point.is_some() {
            self.history.remove(&pack(self.board.colours()));
            self.board.rewind();
        }
        *self.prisoners_of(3 - step.colour) -= u64::from(step.taken.0);
        *self.prisoners_of(step.colour) -= u64::from(step.taken.1);
        true
    }

    /// Chooses a play, or a pass where none puts the colour further ahead, and plays it.
    pub fn generate(&mut self, colour: u8) -> Option<usize> {
        let mut most = (lead(self.board.colours(), colour), u32::MAX);
        let mut best = None;
        for point in 0..POINTS {
            if !self.play(colour, Some(point)) {
                continue;
            }
            let stands = self.board.colours()[point] != 0;
            let free = if stands {
                self.board.chain_at(point).1
            } else {
                0
            };
            let worth = (lead(self.board.colours(), colour), free);
            if worth > most {
                most = worth;
                best = Some(point);
            }
            self.undo();
        }
        self.play(colour, best);
        best
    }
}

/// By how many points a colour is ahead.
fn lead(colours: &[u8; POINTS], colour: u8) -> i32 {
    let own = reaching(colours, colour);
    let theirs = reaching(colours, 3 - colour);
    let worth = |point: usize| match colours[point] {
        0 => i32::from(own[point]) - i32::from(theirs[point]),
        stone if stone == colour => 1,
        _ => -1,
    };
    (0..POINTS).map(worth).sum()
}

/// The empty points that reach a colour.
fn reaching(colours: &[u8; POINTS], colour: u8) -> [bool; POINTS] {
    let mut marks = [false; POINTS];
    let mut waiting = Vec::with_capacity(POINTS);
    for point in 0..POINTS {
        if colours[point] == 0 && neighbours(point).any(|near| colours[near] == colour) {
            marks[point] = true;
            waiting.push(point);
        }
    }
    while let Some(point) = waiting.pop() {
        for near in neighbours(point) {
            if !marks[near] && colours[near] == 0 {
                marks[near] = true;
                waiting.push(near);
            }
        }
    }
    marks
}

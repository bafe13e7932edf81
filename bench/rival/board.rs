//! A board in a padded mailbox: rows of 32 cells, with an edge around the points. Chains are rings of stones with one
//! label, and count their pseudo-liberties: an empty point once for each stone beside it. What a write destroys is
//! logged, so that plays are taken back by the log alone. What the tables have of an empty point is never read: it is
//! logged when a stone is taken, which is seldom, and not when one is put there.

use crate::cells::Cells;
use crate::positions::Position;

pub const EMPTY: u16 = 0;
pub const BLACK: u16 = 1;
pub const WHITE: u16 = 2;
const EDGE: u16 = 3;

/// The most lines that a board has.
pub const MOST_LINES: usize = 25;
/// How far apart two rows lie: at two bits a cell a row is one word.
pub const STRIDE: usize = 32;
/// The cells of the largest board, and of the edge around it.
pub const CELLS: usize = STRIDE * (MOST_LINES + 2);

// Five tables of one number a cell lie in one array, so that a change of any is one word: its place and the old number.
// Stones and liberties are kept at a chain's label, which is the cell of one of its stones.
const COLOUR: usize = 0;
const CHAIN: usize = CELLS;
const NEXT: usize = 2 * CELLS;
const STONES: usize = 3 * CELLS;
const LIBERTIES: usize = 4 * CELLS;

pub struct Board {
    pub lines: usize,
    numbers: [u16; 5 * CELLS],
    /// A place in the upper half of a word, the number before in the lower one.
    log: Vec<u32>,
}

/// The four cells beside a cell.
pub fn beside(cell: usize) -> [usize; 4] {
    [cell - STRIDE, cell - 1, cell + 1, cell + STRIDE]
}

impl Board {
    pub fn new(lines: usize) -> Board {
        let mut board = Board {
            lines,
            numbers: [0; 5 * CELLS],
            log: Vec::new(),
        };
        board.clear(lines);
        board
    }

    /// Takes all stones off. What other tables have of an empty point is never read, so they stay.
    pub fn clear(&mut self, lines: usize) {
        self.lines = lines;
        self.log.clear();
        self.numbers[..CELLS].fill(EDGE);
        for row in 1..=lines {
            let first = row * STRIDE + 1;
            self.numbers[first..first + lines].fill(EMPTY);
        }
    }

    /// The cells of the points in order: row by row from the bottom, each from the left.
    pub fn points(&self) -> impl Iterator<Item = usize> + use<> {
        let lines = self.lines;
        (1..=lines).flat_map(move |row| (1..=lines).map(move |column| row * STRIDE + column))
    }

    pub fn colour(&self, cell: usize) -> u16 {
        self.numbers[COLOUR + cell]
    }

    pub fn is_edge(&self, cell: usize) -> bool {
        self.colour(cell) == EDGE
    }

    fn chain(&self, cell: usize) -> usize {
        usize::from(self.numbers[CHAIN + cell])
    }

    fn next(&self, cell: usize) -> usize {
        usize::from(self.numbers[NEXT + cell])
    }

    /// Logs what stands at a place.
    fn keep(&mut self, place: usize) {
        let before = self.numbers[place];
        self.log.push((place as u32) << 16 | u32::from(before));
    }

    fn set(&mut self, place: usize, number: u16) {
        self.keep(place);
        self.numbers[place] = number;
    }

    /// How long the log is: what `rewind` goes back to.
    pub fn mark(&self) -> usize {
        self.log.len()
    }

    /// Takes back what was played since the log was so long.
    pub fn rewind(&mut self, mark: usize) {
        for change in self.log[mark..].iter().rev() {
            self.numbers[(change >> 16) as usize] = *change as u16;
        }
        self.log.truncate(mark);
    }

    /// Puts a stone on an empty point, and takes what has no liberty then: the opponent's first. The position follows.
    pub fn play(&mut self, colour: u16, cell: usize, position: &mut Position) {
        self.set(COLOUR + cell, colour);
        position.change(colour, cell);
        let mut free = 0;
        let mut largest = None;
        let mut most = 0;
        let mut is_taking = false;
        for near in beside(cell) {
            let there = self.colour(near);
            if there == EMPTY {
                free += 1;
            } else if there != EDGE {
                let chain = self.chain(near);
                let left = self.numbers[LIBERTIES + chain] - 1;
                self.set(LIBERTIES + chain, left);
                if there != colour {
                    is_taking |= left == 0;
                } else if self.numbers[STONES + chain] > most {
                    largest = Some(chain);
                    most = self.numbers[STONES + chain];
                }
            }
        }
        match largest {
            Some(chain) => self.enter_chain(cell, colour, chain, free),
            None => self.begin_chain(cell, free),
        }
        if is_taking {
            self.take_around(cell, 3 - colour, position);
        }
        if self.numbers[LIBERTIES + self.chain(cell)] == 0 {
            self.take(cell, position);
        }
    }

    fn begin_chain(&mut self, cell: usize, free: u16) {
        self.numbers[CHAIN + cell] = cell as u16;
        self.numbers[NEXT + cell] = cell as u16;
        self.numbers[STONES + cell] = 1;
        self.numbers[LIBERTIES + cell] = free;
    }

    /// Puts a stone into the ring of the largest chain beside it, and joins the others to that, so that as few stones
    /// as may be get another label.
    fn enter_chain(&mut self, cell: usize, colour: u16, home: usize, free: u16) {
        self.numbers[CHAIN + cell] = home as u16;
        self.numbers[NEXT + cell] = self.numbers[NEXT + home];
        self.set(NEXT + home, cell as u16);
        self.set(STONES + home, self.numbers[STONES + home] + 1);
        self.set(LIBERTIES + home, self.numbers[LIBERTIES + home] + free);
        for near in beside(cell) {
            if self.colour(near) == colour && self.chain(near) != home {
                self.join(self.chain(near), home);
            }
        }
    }

    fn join(&mut self, chain: usize, home: usize) {
        let mut stone = chain;
        loop {
            self.set(CHAIN + stone, home as u16);
            stone = self.next(stone);
            if stone == chain {
                break;
            }
        }
        let after_home = self.numbers[NEXT + home];
        self.set(NEXT + home, self.numbers[NEXT + chain]);
        self.set(NEXT + chain, after_home);
        for table in [STONES, LIBERTIES] {
            let sum = self.numbers[table + home] + self.numbers[table + chain];
            self.set(table + home, sum);
        }
    }

    /// Takes the chains of a colour beside a cell off that have no liberty.
    fn take_around(&mut self, cell: usize, colour: u16, position: &mut Position) {
        for near in beside(cell) {
            if self.colour(near) == colour && self.numbers[LIBERTIES + self.chain(near)] == 0 {
                self.take(near, position);
            }
        }
    }

    /// Takes the chain of a stone off. The chains around it are the opponent's, and get a liberty for each stone.
    fn take(&mut self, first: usize, position: &mut Position) {
        let colour = self.colour(first);
        self.keep(STONES + self.chain(first));
        self.keep(LIBERTIES + self.chain(first));
        let mut stone = first;
        loop {
            self.keep(CHAIN + stone);
            self.keep(NEXT + stone);
            self.set(COLOUR + stone, EMPTY);
            position.change(colour, stone);
            for near in beside(stone) {
                if self.colour(near) == 3 - colour {
                    let chain = self.chain(near);
                    self.set(LIBERTIES + chain, self.numbers[LIBERTIES + chain] + 1);
                }
            }
            stone = self.next(stone);
            if stone == first {
                break;
            }
        }
    }

    /// Whether a play on an empty point takes nothing, itself included.
    pub fn is_quiet(&self, colour: u16, cell: usize) -> bool {
        let near = beside(cell);
        let mut lives = false;
        for cell in near {
            let there = self.colour(cell);
            if there == EMPTY {
                lives = true;
            } else if there != EDGE {
                // Each stone of the chain beside the point counts the point as a liberty of its own.
                let chain = self.chain(cell);
                let shared = near
                    .iter()
                    .filter(|&&it| self.colour(it) == there && self.chain(it) == chain);
                if usize::from(self.numbers[LIBERTIES + chain]) > shared.count() {
                    lives |= there == colour;
                } else if there != colour {
                    return false;
                }
            }
        }
        lives
    }

    /// The liberties of the chain of a stone.
    pub fn liberties_of(&self, first: usize) -> Cells {
        let mut free = Cells::default();
        self.put_liberties(first, &mut free);
        free
    }

    /// How many liberties the chain has that a play would make which takes nothing.
    pub fn liberties_with(&self, colour: u16, cell: usize) -> i32 {
        let mut free = Cells::default();
        free.insert(cell);
        let mut count = self.put_free_beside(cell, &mut free);
        for near in beside(cell) {
            if self.colour(near) == colour {
                count += self.put_liberties(near, &mut free);
            }
        }
        count
    }

    /// Puts the liberties of a stone's chain into a set; how many of them weren't there.
    fn put_liberties(&self, first: usize, free: &mut Cells) -> i32 {
        let mut count = 0;
        let mut stone = first;
        loop {
            count += self.put_free_beside(stone, free);
            stone = self.next(stone);
            if stone == first {
                return count;
            }
        }
    }

    fn put_free_beside(&self, cell: usize, free: &mut Cells) -> i32 {
        beside(cell)
            .into_iter()
            .map(|near| i32::from(self.colour(near) == EMPTY && free.insert(near)))
            .sum()
    }
}

//! A plain board of 19 lines, or of 25 where it is built for them, with the tables that chain tables have, and a log of what its plays
//! changed. Nothing of it is proved.

pub const LINES: usize = if cfg!(lines_25) { 25 } else { 19 };
pub const POINTS: usize = LINES * LINES;
const WORDS: usize = POINTS.div_ceil(64);

/// What a play changed, with the value before it.
#[derive(Clone, Copy)]
enum Change {
    Colour(u16, u8),
    Label(u16, u16),
    Next(u16, u16),
    Size(u16, u16),
    Liberties(u16, u8, u64),
}

/// Colour, label and ring link of each point, size and liberties of each label. A colour is 0 for an
/// empty point, 1 for Black and 2 for White.
pub struct Board {
    colour: [u8; POINTS],
    label: [u16; POINTS],
    next: [u16; POINTS],
    size: [u16; POINTS],
    liberties: [[u64; WORDS]; POINTS],
    changes: Vec<Change>,
    plays: Vec<usize>,
}

/// The points beside a point, in point order.
pub fn neighbours(point: usize) -> impl Iterator<Item = usize> {
    let (col, row) = (point % LINES, point / LINES);
    [
        (row > 0).then(|| point - LINES),
        (col > 0).then(|| point - 1),
        (col + 1 < LINES).then(|| point + 1),
        (row + 1 < LINES).then(|| point + LINES),
    ]
    .into_iter()
    .flatten()
}

impl Board {
    pub fn new() -> Board {
        Board {
            colour: [0; POINTS],
            label: [0; POINTS],
            next: [0; POINTS],
            size: [0; POINTS],
            liberties: [[0; WORDS]; POINTS],
            changes: Vec::new(),
            plays: Vec::new(),
        }
    }

    fn set_colour(&mut self, point: usize, colour: u8) {
        self.changes
            .push(Change::Colour(point as u16, self.colour[point]));
        self.colour[point] = colour;
    }

    fn set_label(&mut self, point: usize, label: usize) {
        self.changes
            .push(Change::Label(point as u16, self.label[point]));
        self.label[point] = label as u16;
    }

    fn set_next(&mut self, point: usize, next: u16) {
        self.changes
            .push(Change::Next(point as u16, self.next[point]));
        self.next[point] = next;
    }

    fn set_size(&mut self, label: usize, size: u16) {
        self.changes
            .push(Change::Size(label as u16, self.size[label]));
        self.size[label] = size;
    }

    fn set_word(&mut self, label: usize, word: usize, bits: u64) {
        let old = self.liberties[label][word];
        if old != bits {
            self.changes
                .push(Change::Liberties(label as u16, word as u8, old));
            self.liberties[label][word] = bits;
        }
    }

    fn occupy(&mut self, colour: u8, point: usize) {
        let mut free = [0; WORDS];
        for near in neighbours(point) {
            if self.colour[near] == 0 {
                free[near / 64] |= 1 << (near % 64);
            } else {
                let label = usize::from(self.label[near]);
                let word = self.liberties[label][point / 64] & !(1 << (point % 64));
                self.set_word(label, point / 64, word);
            }
        }
        self.set_colour(point, colour);
        self.set_label(point, point);
        self.set_next(point, point as u16);
        self.set_size(point, 1);
        for (word, bits) in free.into_iter().enumerate() {
            self.set_word(point, word, bits);
        }
    }

    fn join(&mut self, first: usize, second: usize) {
        let (keep, gone) = (
            usize::from(self.label[first]),
            usize::from(self.label[second]),
        );
        let mut at = second;
        for _ in 0..self.size[gone] {
            self.set_label(at, keep);
            at = usize::from(self.next[at]);
        }
        let (one, other) = (self.next[first], self.next[second]);
        self.set_next(first, other);
        self.set_next(second, one);
        self.set_size(keep, self.size[keep] + self.size[gone]);
        for word in 0..WORDS {
            let bits = self.liberties[keep][word] | self.liberties[gone][word];
            self.set_word(keep, word, bits);
        }
    }

    fn connect(&mut self, point: usize) {
        for near in neighbours(point) {
            if self.colour[near] != self.colour[point] || self.label[near] == self.label[point] {
                continue;
            }
            let there = self.size[usize::from(self.label[near])];
            let here = self.size[usize::from(self.label[point])];
            if there <= here {
                self.join(point, near);
            } else {
                self.join(near, point);
            }
        }
    }

    fn take_off(&mut self, stone: usize, other: u8) -> u16 {
        let stones = self.size[usize::from(self.label[stone])];
        let mut at = stone;
        for _ in 0..stones {
            self.set_colour(at, 0);
            for near in neighbours(at) {
                if self.colour[near] == other {
                    let label = usize::from(self.label[near]);
                    let word = self.liberties[label][at / 64] | 1 << (at % 64);
                    self.set_word(label, at / 64, word);
                }
            }
            at = usize::from(self.next[at]);
        }
        stones
    }

    fn take_dead(&mut self, point: usize, own: u8, other: u8) -> u16 {
        if self.colour[point] != own {
            return 0;
        }
        if self.liberties[usize::from(self.label[point])] != [0; WORDS] {
            return 0;
        }
        self.take_off(point, other)
    }

    /// How many stones of the opponent and of its own a play takes, or none on a stone.
    pub fn play(&mut self, own: u8, point: usize) -> Option<(u16, u16)> {
        if self.colour[point] != 0 {
            return None;
        }
        let before = self.changes.len();
        let other = 3 - own;
        self.occupy(own, point);
        self.connect(point);
        let theirs = neighbours(point)
            .map(|near| self.take_dead(near, other, own))
            .sum();
        let taken = self.take_dead(point, own, other);
        self.plays.push(self.changes.len() - before);
        Some((theirs, taken))
    }

    /// Takes the last play back.
    pub fn rewind(&mut self) {
        for _ in 0..self.plays.pop().unwrap_or(0) {
            match self.changes.pop() {
                Some(Change::Colour(point, old)) => self.colour[usize::from(point)] = old,
                Some(Change::Label(point, old)) => self.label[usize::from(point)] = old,
                Some(Change::Next(point, old)) => self.next[usize::from(point)] = old,
                Some(Change::Size(label, old)) => self.size[usize::from(label)] = old,
                Some(Change::Liberties(label, word, old)) => {
                    self.liberties[usize::from(label)][usize::from(word)] = old;
                }
                None => {}
            }
        }
    }

    pub fn colours(&self) -> &[u8; POINTS] {
        &self.colour
    }

    /// How many stones and how many liberties the chain on a point has.
    pub fn chain_at(&self, point: usize) -> (u16, u32) {
        let label = usize::from(self.label[point]);
        let free = self.liberties[label].iter().map(|word| word.count_ones());
        (self.size[label], free.sum())
    }
}

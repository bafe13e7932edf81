//! The positions of a game, and a hashed set of them. A position is looked for by its Zobrist hash, and where one with
//! that hash stood the packs are compared, so that no two positions count as one.

use crate::board::{CELLS, MOST_LINES, STRIDE};

/// How many slots the set has at first.
const SLOTS: usize = 4096;

/// The key of each stone: a hash is the exclusive or of those on the board.
static KEYS: [[u64; CELLS]; 2] = keys();

const fn keys() -> [[u64; CELLS]; 2] {
    let mut keys = [[0; CELLS]; 2];
    let mut state = 0u64;
    let mut number = 0;
    while number < 2 * CELLS {
        // SplitMix64, which passes the usual tests of random numbers.
        state = state.wrapping_add(0x9E37_79B9_7F4A_7C15);
        let mut bits = (state ^ (state >> 30)).wrapping_mul(0xBF58_476D_1CE4_E5B9);
        bits = (bits ^ (bits >> 27)).wrapping_mul(0x94D0_49BB_1331_11EB);
        keys[number / CELLS][number % CELLS] = bits ^ (bits >> 31);
        number += 1;
    }
    keys
}

/// The hash of a position with one stone more or fewer.
pub fn hash_with(hash: u64, colour: u16, cell: usize) -> u64 {
    hash ^ KEYS[usize::from(colour) - 1][cell]
}

#[derive(Clone, Copy)]
pub struct Position {
    pub hash: u64,
    /// Where the set has this position.
    slot: usize,
    /// The colours of the cells, two bits each, a word a row.
    pack: [u64; MOST_LINES + 1],
}

impl Position {
    /// Puts a stone of a colour on a cell, or takes it off.
    pub fn change(&mut self, colour: u16, cell: usize) {
        self.hash = hash_with(self.hash, colour, cell);
        self.pack[cell / STRIDE] ^= u64::from(colour) << (2 * (cell % STRIDE));
    }
}

/// The positions that stand, the first one first, and an open-addressed set of them.
pub struct Positions {
    list: Vec<Position>,
    /// The number of a position, counted from 1, or 0 where there is none. The length is a power of two.
    slots: Vec<u32>,
}

impl Positions {
    pub fn new() -> Positions {
        let mut positions = Positions {
            list: Vec::new(),
            slots: vec![0; SLOTS],
        };
        positions.clear();
        positions
    }

    /// Goes back to the empty board alone.
    pub fn clear(&mut self) {
        for position in &self.list {
            self.slots[position.slot] = 0;
        }
        self.list.clear();
        self.list.push(Position {
            hash: 0,
            slot: 0,
            pack: [0; MOST_LINES + 1],
        });
        self.note_last();
    }

    pub fn last(&self) -> &Position {
        &self.list[self.list.len() - 1]
    }

    /// Adds a copy of the last position, to be changed and then noted or dropped.
    pub fn copy_last(&mut self) -> &mut Position {
        let last = self.list.len() - 1;
        self.list.extend_from_within(last..);
        &mut self.list[last + 1]
    }

    pub fn drop_last(&mut self) {
        self.list.truncate(self.list.len() - 1);
    }

    /// Takes the last position out of the set. It was put in as the last one, so no other was put after it on the way
    /// from its hash, and its slot is emptied without more.
    pub fn forget_last(&mut self) {
        let slot = self.last().slot;
        self.slots[slot] = 0;
        self.drop_last();
    }

    /// Puts the last position into the set; whether it wasn't there.
    pub fn note_last(&mut self) -> bool {
        let number = self.list.len();
        let last = self.last();
        let Some(slot) = self.vacant_slot(last.hash, |other| other.pack == last.pack) else {
            return false;
        };
        self.slots[slot] = number as u32;
        self.list[number - 1].slot = slot;
        if 2 * number > self.slots.len() {
            self.grow();
        }
        true
    }

    /// Whether a position with this hash stood, which needn't be the same one.
    pub fn has_hash(&self, hash: u64) -> bool {
        self.vacant_slot(hash, |_| true).is_none()
    }

    /// The slot where the way from a hash ends, if no position on it has that hash and is the one that is asked for.
    fn vacant_slot(&self, hash: u64, is_same: impl Fn(&Position) -> bool) -> Option<usize> {
        let mask = self.slots.len() - 1;
        let mut slot = hash as usize & mask;
        while self.slots[slot] != 0 {
            let other = &self.list[self.slots[slot] as usize - 1];
            if other.hash == hash && is_same(other) {
                return None;
            }
            slot = (slot + 1) & mask;
        }
        Some(slot)
    }

    /// Makes the set twice as long. Positions are put in again from the first to the last, so that the last still
    /// stands after all others.
    fn grow(&mut self) {
        self.slots = vec![0; 2 * self.slots.len()];
        let mask = self.slots.len() - 1;
        for (number, position) in self.list.iter_mut().enumerate() {
            let mut slot = position.hash as usize & mask;
            while self.slots[slot] != 0 {
                slot = (slot + 1) & mask;
            }
            self.slots[slot] = number as u32 + 1;
            position.slot = slot;
        }
    }
}

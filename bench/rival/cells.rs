//! Sets of cells, a word a row.

use crate::board::{MOST_LINES, STRIDE};

#[derive(Clone, Copy, Default)]
pub struct Cells {
    rows: [u32; MOST_LINES + 2],
}

impl Cells {
    /// Puts a cell in; whether it wasn't there.
    pub fn insert(&mut self, cell: usize) -> bool {
        let is_new = !self.contains(cell);
        self.rows[cell / STRIDE] |= 1 << (cell % STRIDE);
        is_new
    }

    pub fn remove(&mut self, cell: usize) {
        self.rows[cell / STRIDE] &= !(1 << (cell % STRIDE));
    }

    pub fn contains(&self, cell: usize) -> bool {
        self.rows[cell / STRIDE] >> (cell % STRIDE) & 1 == 1
    }

    pub fn count(&self) -> i32 {
        self.rows.iter().map(|row| row.count_ones() as i32).sum()
    }

    /// The only cell, if there is just one.
    pub fn only(&self) -> Option<usize> {
        let row = self.rows.iter().position(|row| *row != 0)?;
        (self.count() == 1).then(|| row * STRIDE + self.rows[row].trailing_zeros() as usize)
    }

    pub fn and(&self, other: &Cells) -> Cells {
        let mut both = *self;
        for (row, there) in both.rows.iter_mut().zip(&other.rows) {
            *row &= there;
        }
        both
    }

    /// The cells of a set that are beside cells of this one.
    pub fn beside(&self, within: &Cells) -> Cells {
        let mut beside = Cells::default();
        for row in 1..=MOST_LINES {
            let here = self.rows[row];
            let near = here << 1 | here >> 1 | self.rows[row - 1] | self.rows[row + 1];
            beside.rows[row] = near & within.rows[row];
        }
        beside
    }

    /// The cells of a set that are reached from these, which are among them, by steps inside of it.
    pub fn filled(&self, within: &Cells) -> Cells {
        let mut filled = *self;
        for (row, free) in filled.rows.iter_mut().zip(&within.rows) {
            *row = along(*row, *free);
        }
        while filled.sweep(1..=MOST_LINES, within, usize::wrapping_sub)
            | filled.sweep((1..=MOST_LINES).rev(), within, usize::wrapping_add)
        {}
        filled
    }

    /// Goes over the rows and takes to each what the row before it reaches; whether there was any.
    fn sweep(
        &mut self,
        rows: impl Iterator<Item = usize>,
        within: &Cells,
        step_back: impl Fn(usize, usize) -> usize,
    ) -> bool {
        let mut has_grown = false;
        for row in rows {
            let free = within.rows[row];
            let new = self.rows[step_back(row, 1)] & free & !self.rows[row];
            if new != 0 {
                self.rows[row] |= along(new, free);
                has_grown = true;
            }
        }
        has_grown
    }
}

/// The runs of bits in a row that have one of its seeds, which are among them.
fn along(seeds: u32, free: u32) -> u32 {
    // A sum carries from a seed to the upper end of its run, and so turns these bits to 0.
    let mut run = (free & !free.wrapping_add(seeds)) | seeds;
    let mut open = free;
    for width in [1, 2, 4, 8, 16] {
        run |= (run >> width) & open;
        open &= open >> width;
    }
    run
}

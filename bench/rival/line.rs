//! The words of a line, and what they spell.

use crate::board::{BLACK, MOST_LINES, STRIDE, WHITE};

/// The most bytes that the words of a line may take, joined by single spaces.
const LIMIT: usize = 8192;

#[derive(Clone, Copy, PartialEq)]
enum Kind {
    Ordinary,
    Blank,
    End,
    Comment,
    Control,
}

static KINDS: [Kind; 256] = kinds();

const fn kinds() -> [Kind; 256] {
    let mut kinds = [Kind::Ordinary; 256];
    let mut byte = 0;
    while byte < b' ' as usize {
        kinds[byte] = Kind::Control;
        byte += 1;
    }
    kinds[127] = Kind::Control;
    kinds[b'\t' as usize] = Kind::Blank;
    kinds[b' ' as usize] = Kind::Blank;
    kinds[b'\n' as usize] = Kind::End;
    kinds[b'#' as usize] = Kind::Comment;
    kinds
}

fn kind(byte: u8) -> Kind {
    KINDS[usize::from(byte)]
}

/// The first words of a line: an id, a name and two arguments are asked for at most.
#[derive(Default)]
pub struct Words<'a> {
    list: [&'a [u8]; 4],
    count: usize,
}

impl<'a> Words<'a> {
    pub fn list(&self) -> &[&'a [u8]] {
        &self.list[..self.count]
    }

    fn push(&mut self, word: &'a [u8]) {
        if self.count < self.list.len() {
            self.list[self.count] = word;
            self.count += 1;
        }
    }
}

/// The colour and the cell of a play at the front of a text, and how long its line is, if it is spelled as controllers
/// mostly do: with one letter for the colour and single spaces.
pub fn cut_play(text: &[u8]) -> Option<(u16, usize, usize)> {
    let [b'p', b'l', b'a', b'y', b' ', colour, b' ', letter, row @ ..] = text else {
        return None;
    };
    let colour = colour_of(&[*colour])?;
    let (row, length) = match row {
        [ones, b'\n', ..] => (digit(*ones)?, 10),
        [tens, ones, b'\n', ..] => (10 * digit(*tens)? + digit(*ones)?, 11),
        _ => return None,
    };
    Some((colour, cell_of(*letter, row)?, length))
}

/// The words of the line at the front of a text in which it ends, and how long it is with its end. There are none where
/// the line has a comment or a control, or may be too long: then `strip` has to go over it first.
pub fn cut(text: &[u8]) -> (Option<Words<'_>>, usize) {
    let mut words = Words::default();
    let mut at = 0;
    loop {
        while kind(text[at]) == Kind::Blank {
            at += 1;
        }
        let first = at;
        while kind(text[at]) == Kind::Ordinary {
            at += 1;
        }
        if at > first {
            words.push(&text[first..at]);
        }
        match kind(text[at]) {
            Kind::Ordinary | Kind::Blank => {}
            Kind::End => return ((at <= LIMIT).then_some(words), at + 1),
            Kind::Comment | Kind::Control => {
                let rest = text[at..].iter().position(|byte| *byte == b'\n');
                return (None, at + rest.map_or(text.len() - at, |length| length + 1));
            }
        }
    }
}

/// Puts what the rules of lines leave of a line into a room: its words, joined by single spaces, and a line end.
/// Whether they aren't too long.
pub fn strip(line: &[u8], room: &mut Vec<u8>) -> bool {
    room.clear();
    let mut is_apart = false;
    for &byte in line {
        match kind(byte) {
            Kind::Ordinary => {
                if is_apart && !room.is_empty() {
                    room.push(b' ');
                }
                is_apart = false;
                room.push(byte);
            }
            Kind::Blank => is_apart = true,
            Kind::Control => {}
            Kind::Comment | Kind::End => break,
        }
    }
    let fits = room.len() <= LIMIT;
    room.truncate(LIMIT);
    room.push(b'\n');
    fits
}

/// A number that is written in digits, if it is no greater than an int.
pub fn int_of(word: &[u8]) -> Option<u32> {
    let mut number = 0u64;
    for &byte in word {
        if !byte.is_ascii_digit() {
            return None;
        }
        number = 10 * number + u64::from(byte - b'0');
        if number > i32::MAX as u64 {
            return None;
        }
    }
    (!word.is_empty()).then_some(number as u32)
}

pub fn colour_of(word: &[u8]) -> Option<u16> {
    match word {
        b"b" | b"B" => Some(BLACK),
        b"w" | b"W" => Some(WHITE),
        _ if word.eq_ignore_ascii_case(b"black") => Some(BLACK),
        _ if word.eq_ignore_ascii_case(b"white") => Some(WHITE),
        _ => None,
    }
}

pub enum Vertex {
    Pass,
    At(usize),
}

/// What a word names: a pass, or a cell.
pub fn vertex_of(word: &[u8]) -> Option<Vertex> {
    let cell = match word {
        [letter, ones] => cell_of(*letter, digit(*ones)?),
        [letter, tens, ones] => cell_of(*letter, 10 * digit(*tens)? + digit(*ones)?),
        _ if word.eq_ignore_ascii_case(b"pass") => return Some(Vertex::Pass),
        _ => None,
    };
    cell.map(Vertex::At)
}

/// The cell in the column of a letter and in a row, which is an edge's where the board is too small.
fn cell_of(letter: u8, row: usize) -> Option<usize> {
    let column = match letter.to_ascii_lowercase() {
        letter @ b'a'..=b'h' => letter - b'a' + 1,
        letter @ b'j'..=b'z' => letter - b'a',
        _ => return None,
    };
    (1..=MOST_LINES)
        .contains(&row)
        .then(|| row * STRIDE + usize::from(column))
}

fn digit(byte: u8) -> Option<usize> {
    byte.is_ascii_digit().then(|| usize::from(byte - b'0'))
}

/// Writes the name of a cell.
pub fn put_vertex(cell: usize, text: &mut Vec<u8>) {
    let (row, column) = (cell / STRIDE, cell % STRIDE);
    text.push(b"ABCDEFGHJKLMNOPQRSTUVWXYZ"[column - 1]);
    if row > 9 {
        text.push(b'0' + (row / 10) as u8);
    }
    text.push(b'0' + (row % 10) as u8);
}

//! The plain program's records: a game along the main line of a text, and texts of random games. It reads what
//! game records usually are, and refuses no malformed ones. Nothing of it is proved.

use crate::board::{LINES, POINTS};
use crate::game::Game;

/// The next value after a `[`, and what follows its `]`.
fn value_of(text: &[u8]) -> Option<(&[u8], &[u8])> {
    let mut end = 0;
    while *text.get(end)? != b']' {
        end += if text[end] == b'\\' { 2 } else { 1 };
    }
    Some((&text[..end], &text[end + 1..]))
}

/// The point of two letters, or none for a pass.
fn point_of(value: &[u8]) -> Option<Option<usize>> {
    let lines = LINES as u8;
    match value {
        [] => Some(None),
        b"tt" if LINES <= 19 => Some(None),
        [column, row] => {
            let (column, row) = (column.wrapping_sub(b'a'), row.wrapping_sub(b'a'));
            (column < lines && row < lines)
                .then(|| Some(usize::from(lines - 1 - row) * LINES + usize::from(column)))
        }
        _ => None,
    }
}

/// Plays what a value of this property says; whether it can be.
fn pass(game: &mut Game, name: &[u8], value: &[u8]) -> bool {
    let colour = match name {
        b"B" | b"AB" => 1,
        b"W" | b"AW" => 2,
        b"SZ" => return value == LINES.to_string().as_bytes(),
        _ => return true,
    };
    point_of(value).is_some_and(|point| game.play(colour, point))
}

/// The game along the main line: up to the first `)`.
pub fn game_of(text: &[u8]) -> Option<Game> {
    let mut game = Game::new();
    let mut name: &[u8] = &[];
    let mut rest = text;
    while let Some((byte, after)) = rest.split_first() {
        rest = after;
        match byte {
            b')' => break,
            b'[' => {
                let (value, after) = value_of(after)?;
                rest = after;
                if !pass(&mut game, name, value) {
                    return None;
                }
            }
            b'A'..=b'Z' => {
                let letters = after.iter().take_while(|it| it.is_ascii_uppercase());
                let count = letters.count();
                name = &text[text.len() - after.len() - 1..][..count + 1];
                rest = &after[count..];
            }
            _ => {}
        }
    }
    Some(game)
}

/// The record of a game of `moves` random moves in turn, as a seed gives it.
pub fn random_record(seed: u64, moves: usize) -> String {
    let mut game = Game::new();
    let mut text = format!("(;GM[1]FF[4]SZ[{LINES}]KM[6.5]PB[Black]PW[White]");
    let mut state = seed;
    for number in 0..moves {
        loop {
            state = state
                .wrapping_mul(6_364_136_223_846_793_005)
                .wrapping_add(1_442_695_040_888_963_407);
            let point = (state >> 33) as usize % POINTS;
            let colour = 1 + (number % 2) as u8;
            if game.play(colour, Some(point)) {
                let column = char::from(b'a' + (point % LINES) as u8);
                let row = char::from(b'a' + (LINES - 1 - point / LINES) as u8);
                text += &format!(";{}[{column}{row}]", if colour == 1 { 'B' } else { 'W' });
                break;
            }
        }
    }
    text + ")\n"
}

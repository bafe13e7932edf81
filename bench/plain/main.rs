//! A plain program to compare `goref gtp` with: it reads `boardsize` with the lines that it is built for,
//! `clear_board`, `play`, `undo`, `genmove`, `loadsgf` and `quit`, and answers as goref does, a line that is too long too.
//! `plain script ROUNDS` writes lines for both: ROUNDS times the same 300 random plays, all of them legal,
//! and 300 undos. `plain records FOLDER COUNT MOVES` writes records of COUNT random games of MOVES moves
//! into a folder. Nothing of it is proved.

mod board;
mod game;
mod record;

use board::{LINES, POINTS};
use game::Game;
use std::io::{self, BufRead, BufWriter, Write};

/// The most bytes that a line may have.
const LIMIT: usize = 8192;

const LETTERS: &[u8] = b"ABCDEFGHJKLMNOPQRSTUVWXYZ";

fn name_of(point: usize) -> String {
    let letter = char::from(LETTERS[point % LINES]);
    format!("{letter}{}", point / LINES + 1)
}

fn colour_of(word: &str) -> Option<u8> {
    match word.to_ascii_lowercase().as_str() {
        "b" | "black" => Some(1),
        "w" | "white" => Some(2),
        _ => None,
    }
}

/// The point of a vertex on the board, or none for a pass.
fn point_of(word: &str) -> Option<Option<usize>> {
    if word.eq_ignore_ascii_case("pass") {
        return Some(None);
    }
    let (letter, row) = word.split_at_checked(1)?;
    let letter = letter.as_bytes()[0].to_ascii_uppercase();
    let col = LETTERS.iter().position(|it| *it == letter)?;
    let row: usize = row.parse().ok()?;
    (1..=LINES)
        .contains(&row)
        .then(|| Some((row - 1) * LINES + col))
}

/// Writes the answer to a line; whether the session goes on.
fn answer(game: &mut Game, line: &str, out: &mut impl Write) -> io::Result<bool> {
    if line.len() > LIMIT {
        out.write_all(b"? line too long\n\n")?;
        out.flush()?;
        return Ok(true);
    }
    let line = line.split('#').next().unwrap_or_default();
    let mut words = line.split_whitespace().peekable();
    let id = words.next_if(|word| word.bytes().all(|byte| byte.is_ascii_digit()));
    let id = id.unwrap_or_default();
    let Some(name) = words.next() else {
        return Ok(true);
    };
    let colour = words.peek().and_then(|word| colour_of(word));
    match (name, colour) {
        ("boardsize" | "clear_board", _) => {
            *game = Game::new();
            write!(out, "={id}\n\n")?;
        }
        ("play", Some(colour)) => match words.nth(1).and_then(point_of) {
            Some(point) if game.play(colour, point) => write!(out, "={id}\n\n")?,
            Some(_) => write!(out, "?{id} illegal move\n\n")?,
            None => write!(out, "?{id} syntax error\n\n")?,
        },
        ("genmove", Some(colour)) => match game.generate(colour) {
            Some(point) => write!(out, "={id} {}\n\n", name_of(point))?,
            None => write!(out, "={id} pass\n\n")?,
        },
        ("play" | "genmove", None) => write!(out, "?{id} syntax error\n\n")?,
        ("undo", _) if game.undo() => write!(out, "={id}\n\n")?,
        ("undo", _) => write!(out, "?{id} cannot undo\n\n")?,
        ("loadsgf", _) => {
            let text = words.next().and_then(|name| std::fs::read(name).ok());
            match text.and_then(|text| record::game_of(&text)) {
                Some(loaded) => {
                    *game = loaded;
                    write!(out, "={id}\n\n")?;
                }
                None => write!(out, "?{id} cannot load file\n\n")?,
            }
        }
        ("quit", _) => write!(out, "={id}\n\n")?,
        _ => write!(out, "?{id} unknown command\n\n")?,
    }
    out.flush()?;
    Ok(name != "quit")
}

fn gtp() -> io::Result<()> {
    let mut game = Game::new();
    let mut input = io::stdin().lock();
    let mut out = BufWriter::new(io::stdout().lock());
    let mut line = String::new();
    while input.read_line(&mut line)? > 0 && answer(&mut game, &line, &mut out)? {
        line.clear();
    }
    Ok(())
}

/// The lines of 300 random plays in turn, those left out that aren't legal.
fn random_plays() -> String {
    let mut game = Game::new();
    let mut lines = String::new();
    let mut state = 1u64;
    for colour in [1, 2].repeat(150) {
        loop {
            state = state
                .wrapping_mul(6_364_136_223_846_793_005)
                .wrapping_add(1_442_695_040_888_963_407);
            let point = (state >> 33) as usize % POINTS;
            if game.play(colour, Some(point)) {
                let letter = if colour == 1 { 'b' } else { 'w' };
                lines += &format!("play {letter} {}\n", name_of(point));
                break;
            }
        }
    }
    lines
}

fn script(rounds: usize) -> io::Result<()> {
    let mut out = BufWriter::new(io::stdout().lock());
    let round = random_plays() + &"undo\n".repeat(300);
    writeln!(out, "boardsize {LINES}")?;
    for _ in 0..rounds {
        out.write_all(round.as_bytes())?;
    }
    writeln!(out, "quit")?;
    out.flush()
}

fn records(folder: &str, count: u64, moves: usize) -> io::Result<()> {
    for number in 0..count {
        let name = format!("{folder}/{number}.sgf");
        std::fs::write(name, record::random_record(number, moves))?;
    }
    Ok(())
}

fn main() -> io::Result<()> {
    let words: Vec<String> = std::env::args().skip(1).collect();
    match words.as_slice() {
        [] => gtp(),
        [word, rounds] if word == "script" => script(rounds.parse().expect("a number")),
        [word, folder, count, moves] if word == "records" => records(
            folder,
            count.parse().expect("a number"),
            moves.parse().expect("a number"),
        ),
        _ => panic!("no words, or: script ROUNDS, or: records FOLDER COUNT MOVES"),
    }
}

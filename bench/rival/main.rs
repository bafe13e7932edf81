//! A small engine that is written for speed, to compare `goref gtp` with: see bench/README.md. `rival script LINES
//! GAMES SEED` writes the plays of drawn games. Nothing of it is proved.

mod board;
mod cells;
mod choice;
mod game;
mod line;
mod positions;
mod script;

use game::Game;
use line::{Vertex, colour_of, cut, cut_play, int_of, put_vertex, strip, vertex_of};
use std::fs::File;
use std::io::{self, Read, Write};
use std::os::fd::AsFd;

/// How much is read at once, and how long a line may be that isn't refused unread.
const ROOM: usize = 1 << 16;

const DONE: &[u8] = b"=\n\n";
const UNDO: &[u8] = b"undo\n";
const ILLEGAL: &str = "illegal move";

enum Answer {
    Done,
    Refused(&'static str),
    Moved(Vertex),
    Legal(u16),
}

struct Session {
    game: Game,
    out: File,
    /// Rooms for an answer and for what is left of a line: they are kept, so that no line asks for memory.
    text: Vec<u8>,
    stripped: Vec<u8>,
    is_over: bool,
}

impl Session {
    /// Answers the line at the front of a text, and says how long it is. Plays and undos as controllers mostly write
    /// them are told by their first bytes, and all other lines are cut into words.
    fn answer_first(&mut self, text: &[u8]) -> io::Result<usize> {
        if let Some((colour, cell, length)) = cut_play(text) {
            if self.game.play(colour, cell) {
                self.out.write_all(DONE)?;
            } else {
                self.reply(None, &Answer::Refused(ILLEGAL))?;
            }
            return Ok(length);
        }
        if text.starts_with(UNDO) && self.game.undo() {
            self.out.write_all(DONE)?;
            return Ok(UNDO.len());
        }
        let (words, length) = cut(text);
        match words {
            Some(words) => self.answer(words.list())?,
            None => {
                let mut room = std::mem::take(&mut self.stripped);
                self.answer_stripped(&text[..length], &mut room)?;
                self.stripped = room;
            }
        }
        Ok(length)
    }

    fn answer_stripped(&mut self, line: &[u8], room: &mut Vec<u8>) -> io::Result<()> {
        if !strip(line, room) {
            let first = room.split(|byte| *byte == b' ').next();
            let id = first
                .filter(|id| id.len() < room.len() - 1)
                .and_then(int_of);
            return self.reply(id, &Answer::Refused("line too long"));
        }
        match cut(room).0 {
            Some(words) => self.answer(words.list()),
            None => Ok(()),
        }
    }

    fn answer(&mut self, words: &[&[u8]]) -> io::Result<()> {
        let Some((&first, rest)) = words.split_first() else {
            return Ok(());
        };
        let id = int_of(first);
        let answer = match id {
            None => self.obey(first, rest),
            Some(_) => match rest.split_first() {
                Some((&name, rest)) => self.obey(name, rest),
                None => Answer::Refused("unknown command"),
            },
        };
        self.reply(id, &answer)
    }

    fn obey(&mut self, name: &[u8], words: &[&[u8]]) -> Answer {
        match name {
            b"play" => self.play(words),
            b"undo" if self.game.undo() => Answer::Done,
            b"undo" => Answer::Refused("cannot undo"),
            b"genmove" | b"reg_genmove" | b"goref-legal" => {
                let Some(colour) = words.first().and_then(|word| colour_of(word)) else {
                    return Answer::Refused("syntax error");
                };
                match name {
                    b"genmove" => Answer::Moved(self.game.generate(colour)),
                    b"reg_genmove" => Answer::Moved(self.game.choose(colour)),
                    _ => Answer::Legal(colour),
                }
            }
            b"clear_board" => self.clear(self.game.board.lines),
            b"boardsize" => match words.first().and_then(|word| int_of(word)) {
                Some(lines @ 1..=25) => self.clear(lines as usize),
                Some(_) => Answer::Refused("unacceptable size"),
                None => Answer::Refused("syntax error"),
            },
            b"quit" => {
                self.is_over = true;
                Answer::Done
            }
            _ => Answer::Refused("unknown command"),
        }
    }

    fn clear(&mut self, lines: usize) -> Answer {
        self.game.clear(lines);
        Answer::Done
    }

    fn play(&mut self, words: &[&[u8]]) -> Answer {
        let [colour, vertex, ..] = words else {
            return Answer::Refused("syntax error");
        };
        match (colour_of(colour), vertex_of(vertex)) {
            (Some(colour), Some(vertex)) if self.game.turn(colour, &vertex) => Answer::Done,
            (Some(_), Some(_)) => Answer::Refused(ILLEGAL),
            _ => Answer::Refused("syntax error"),
        }
    }

    /// Writes an answer at once, as a controller waits for it.
    fn reply(&mut self, id: Option<u32>, answer: &Answer) -> io::Result<()> {
        self.text.clear();
        self.text.push(if let Answer::Refused(_) = answer {
            b'?'
        } else {
            b'='
        });
        if let Some(id) = id {
            write!(self.text, "{id}")?;
        }
        match answer {
            Answer::Done => {}
            Answer::Refused(reason) => write!(self.text, " {reason}")?,
            Answer::Moved(Vertex::Pass) => self.text.extend_from_slice(b" pass"),
            Answer::Moved(Vertex::At(cell)) => self.put_point(*cell),
            Answer::Legal(colour) => {
                for cell in self.game.board.points() {
                    if self.game.is_legal(*colour, cell) {
                        self.put_point(cell);
                    }
                }
            }
        }
        self.text.extend_from_slice(b"\n\n");
        self.out.write_all(&self.text)
    }

    fn put_point(&mut self, cell: usize) {
        self.text.push(b' ');
        put_vertex(cell, &mut self.text);
    }

    /// Answers all lines that end in the text, and says how much of it they are.
    fn answer_all(&mut self, text: &[u8]) -> io::Result<usize> {
        let end = text
            .iter()
            .rposition(|byte| *byte == b'\n')
            .map_or(0, |at| at + 1);
        let mut at = 0;
        while at < end && !self.is_over {
            at += self.answer_first(&text[at..end])?;
        }
        Ok(at)
    }

    /// Answers all lines of an input, until it ends or is quit.
    fn run(&mut self, input: &mut impl Read) -> io::Result<()> {
        let mut room = vec![0; ROOM];
        let mut kept = 0;
        while !self.is_over {
            if kept == ROOM - 1 {
                self.reply(None, &Answer::Refused("line too long"))?;
                kept = pass_over(input, &mut room)?;
            } else {
                let count = input.read(&mut room[kept..ROOM - 1])?;
                if count == 0 {
                    return self.answer_rest(&mut room[..=kept]);
                }
                kept += count;
            }
            let done = self.answer_all(&room[..kept])?;
            room.copy_within(done..kept, 0);
            kept -= done;
        }
        Ok(())
    }

    /// Answers a last line that has no end, in a text with room for one.
    fn answer_rest(&mut self, text: &mut [u8]) -> io::Result<()> {
        let end = text.len() - 1;
        text[end] = b'\n';
        self.answer_first(text)?;
        Ok(())
    }
}

/// Reads up to the end of a line that is too long, and leaves what was read after it; how much that is.
fn pass_over(input: &mut impl Read, room: &mut [u8]) -> io::Result<usize> {
    loop {
        let count = input.read(&mut room[..ROOM - 1])?;
        if let Some(end) = room[..count].iter().position(|byte| *byte == b'\n') {
            room.copy_within(end + 1..count, 0);
            return Ok(count - end - 1);
        }
        if count == 0 {
            return Ok(0);
        }
    }
}

fn gtp() -> io::Result<()> {
    // Copies of the streams' descriptors: the standard library's own are buffered, and locked at each use.
    let mut input = File::from(io::stdin().as_fd().try_clone_to_owned()?);
    let mut session = Session {
        game: Game::new(19),
        out: File::from(io::stdout().as_fd().try_clone_to_owned()?),
        text: Vec::with_capacity(4096),
        stripped: Vec::with_capacity(ROOM),
        is_over: false,
    };
    session.run(&mut input)
}

fn main() -> io::Result<()> {
    let words: Vec<String> = std::env::args().skip(1).collect();
    match words.as_slice() {
        [] => gtp(),
        [word, lines, games, seed] if word == "script" => script::write(
            lines.parse().expect("a number of lines"),
            games.parse().expect("a number of games"),
            seed.parse().expect("a seed"),
        ),
        _ => panic!("no words, or: script LINES GAMES SEED"),
    }
}

//! Random games on a board of 19 lines, or of 25 where it is built for them, played and taken back, on the proved chain tables and on a
//! plain board with the same tables. Prints the time of both, and stops where their answers differ.

#[path = "../plain/board.rs"]
mod board;

use board::{Board, LINES, POINTS};
use std::env;
use std::hint::black_box;
use std::time::{Duration, Instant};

unsafe extern "C" {
    fn goref_bench_chains(
        lines: u8,
        moves: *const u16,
        count: usize,
        length: usize,
        rounds: u32,
    ) -> u64;
}

/// The sizes and liberties of the chains of all stones.
fn asked(board: &Board, mut sum: u64) -> u64 {
    for point in 0..POINTS {
        if board.colours()[point] != 0 {
            let (stones, free) = board.chain_at(point);
            sum = mixed(mixed(sum, stones), free as u16);
        }
    }
    sum
}

fn mixed(sum: u64, number: u16) -> u64 {
    sum.wrapping_mul(31).wrapping_add(u64::from(number))
}

/// Plays the moves, asks the board that is left, and takes all of them back; how many were plays.
fn play_game(board: &mut Board, moves: &[u16], mut sum: u64) -> (u64, u64) {
    let mut plays = 0;
    for made in moves {
        let point = usize::from(made / 2) % POINTS;
        if let Some((theirs, own)) = board.play(1 + (made % 2) as u8, point) {
            sum = mixed(mixed(sum, theirs), own);
            plays += 1;
        }
    }
    sum = asked(board, sum);
    for _ in 0..plays {
        board.rewind();
    }
    (sum, plays)
}

fn plain(moves: &[u16], length: usize, rounds: u32) -> (u64, u64) {
    let mut board = Board::new();
    let (mut sum, mut plays) = (0, 0);
    for _ in 0..rounds {
        for game in moves.chunks(length) {
            let (next, made) = play_game(&mut board, game, sum);
            sum = next;
            plays += made;
        }
    }
    (sum, plays)
}

fn proved(moves: &[u16], length: usize, rounds: u32) -> u64 {
    unsafe { goref_bench_chains(LINES as u8, moves.as_ptr(), moves.len(), length, rounds) }
}

/// Random moves: each point is twice its number, and one more for White.
fn random_moves(count: usize) -> Vec<u16> {
    let mut state = 1u64;
    (0..count)
        .map(|_| {
            state = state
                .wrapping_mul(6_364_136_223_846_793_005)
                .wrapping_add(1_442_695_040_888_963_407);
            ((state >> 33) % (2 * POINTS as u64)) as u16
        })
        .collect()
}

fn timed<T>(work: impl FnOnce() -> T) -> (T, Duration) {
    let start = Instant::now();
    let done = black_box(work());
    (done, start.elapsed())
}

fn main() {
    let mut words = env::args()
        .skip(1)
        .map(|word| word.parse().expect("a number"));
    let length = words.next().unwrap_or(600) as usize;
    let rounds = words.next().unwrap_or(525);
    let moves = random_moves(64 * length);
    let (mut least, mut least_plain) = (Duration::MAX, Duration::MAX);
    for _ in 0..3 {
        let ((sum, plays), plain_time) = timed(|| plain(black_box(&moves), length, rounds));
        let (proved_sum, time) = timed(|| proved(black_box(&moves), length, rounds));
        assert_eq!(sum, proved_sum, "the answers differ");
        least = least.min(time);
        least_plain = least_plain.min(plain_time);
        let ratio = time.as_secs_f64() / plain_time.as_secs_f64();
        println!(
            "size {LINES} plays {plays} goref_ms {} plain_ms {} ratio {ratio:.2}, the same answers",
            time.as_millis(),
            plain_time.as_millis(),
        );
    }
    let ratio = least.as_secs_f64() / least_plain.as_secs_f64();
    println!("size {LINES} least of three: ratio {ratio:.2}");
}

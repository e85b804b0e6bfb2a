//! The replay of a trace, and the run of scripts, as a plain Rust program: std alone, messages on the
//! heap, or in place if it is built with `--cfg in_place`.
//!
//! It serves what the benchmark's calls ask, queuing ports and modes, reads a configuration by its
//! headed tables alone, and prints the same report as the proved program. It is measured beside that
//! program, and shares nothing else with it.

mod board;
mod config;
#[cfg(in_place)]
mod in_place;
mod lines;
mod report;
mod workers;

use std::io::Write;
use std::{env, fs, process};

use board::Board;

const USAGE: &str = "usage: baseline replay CONFIG TRACE | run CONFIG [NAME=SCRIPT]...";

fn fail(text: &str) -> ! {
    eprintln!("{text}");
    process::exit(1)
}

fn read(path: &str) -> String {
    fs::read_to_string(path).unwrap_or_else(|_| fail("file"))
}

fn replay(mut board: Board, trace: &str) -> Board {
    for request in lines::requests(&board, None, &read(trace)) {
        board.call(request);
    }
    board
}

/// Each word names a partition and the file of its script. A partition without a word has an empty script.
fn run(board: Board, words: &[&str]) -> Board {
    let mut scripts: Vec<_> = board.partitions.iter().map(|_| Vec::new()).collect();
    for word in words {
        let (name, path) = word.split_once('=').unwrap_or_else(|| fail(USAGE));
        let place = board.place(name);
        scripts[place] = lines::requests(&board, Some(place), &read(path));
    }
    let (board, _replies) = workers::run(board, scripts);
    board
}

fn main() {
    let words: Vec<String> = env::args().skip(1).collect();
    let words: Vec<&str> = words.iter().map(String::as_str).collect();
    let board = match words.as_slice() {
        ["replay", config, trace] => replay(Board::read(&read(config)), trace),
        ["run", config, scripts @ ..] => run(Board::read(&read(config)), scripts),
        _ => fail(USAGE),
    };
    if std::io::stdout().write_all(report::report(&board).as_bytes()).is_err() {
        process::exit(3);
    }
}

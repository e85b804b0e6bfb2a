//! Reads the lines of a trace or of a script as requests.

use crate::board::{Board, Call, Message, Request};
use crate::fail;

fn number(word: Option<&str>) -> u32 {
    word.and_then(|word| word.parse().ok()).unwrap_or_else(|| fail("number"))
}

fn message(word: Option<&str>) -> Message {
    let text = word.unwrap_or_else(|| fail("message"));
    if text == "-" {
        return Message::default();
    }
    let digit = |byte: u8| (byte as char).to_digit(16).unwrap_or_else(|| fail("message")) as u8;
    text.as_bytes()
        .chunks(2)
        .map(|pair| match pair {
            [high, low] => digit(*high) << 4 | digit(*low),
            _ => fail("message"),
        })
        .collect()
}

fn call<'a>(mut words: impl Iterator<Item = &'a str>) -> Call {
    match words.next() {
        Some("create-queuing") => Call::Create {
            name: words.next().unwrap_or_else(|| fail("words")).to_string(),
            size: number(words.next()),
            depth: number(words.next()),
            direction: number(words.next()),
            discipline: number(words.next()),
        },
        Some("send") => Call::Send { id: number(words.next()), message: message(words.next()) },
        Some("receive") => Call::Receive { id: number(words.next()) },
        Some("mode") => Call::SetMode { mode: number(words.next()) },
        _ => fail("call"),
    }
}

/// The request of a line. A script's line doesn't name its partition, so `owner` gives its place.
fn request(board: &Board, owner: Option<usize>, line: &str) -> Option<Request> {
    let mut words = line.split([' ', '\t']).filter(|word| !word.is_empty());
    let first = words.next().filter(|word| !word.starts_with('#'))?;
    let at = first.parse().unwrap_or_else(|_| fail("moment"));
    let partition = match owner {
        Some(place) => place,
        None => board.place(words.next().unwrap_or_else(|| fail("words"))),
    };
    Some(Request { partition, at, call: call(words) })
}

/// The requests of a trace, or those of a script if there is an owner.
pub fn requests(board: &Board, owner: Option<usize>, text: &str) -> Vec<Request> {
    text.lines().filter_map(|line| request(board, owner, line)).collect()
}

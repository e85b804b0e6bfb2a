//! Reads of one sample behind a lock, in plain Rust: what `observed_sample.rt.txt` measures, without observers.
//!
//! The words are READERS READS and, where a writer is wanted, `writer`. It prints the nanoseconds that the reads took
//! and how many samples were written meanwhile.

#[allow(dead_code)]
#[path = "baseline/in_place.rs"]
mod in_place;

use in_place::Message;
use std::hint::black_box;
use std::sync::atomic::{AtomicUsize, Ordering};
use std::sync::Mutex;
use std::thread;
use std::time::Instant;

struct Sample {
    message: Message,
    at: u64,
}

fn message(number: u64) -> Message {
    number.to_be_bytes().into_iter().collect()
}

/// Copies the sample again and again, and checks whether it is still valid.
fn read_all(sample: &Mutex<Sample>, reads: u64, reading: &AtomicUsize) {
    for _ in 0..reads {
        let shown = {
            let last = sample.lock().unwrap();
            Sample { message: last.message.clone(), at: last.at }
        };
        black_box((100u64.saturating_sub(shown.at) <= 50, &shown.message));
    }
    reading.fetch_sub(1, Ordering::SeqCst);
}

/// Writes until no thread reads any more.
fn write_all(sample: &Mutex<Sample>, reading: &AtomicUsize) -> u64 {
    let mut writes = 0;
    while reading.load(Ordering::SeqCst) > 0 {
        let next = Sample { message: message(writes), at: writes };
        *sample.lock().unwrap() = next;
        writes += 1;
    }
    writes
}

fn main() {
    let words: Vec<String> = std::env::args().skip(1).collect();
    let (readers, reads) = (words[0].parse().unwrap(), words[1].parse().unwrap());
    let sample = Mutex::new(Sample { message: message(0), at: 0 });
    let reading = AtomicUsize::new(readers);
    let start = Instant::now();
    let writes = thread::scope(|scope| {
        for _ in 0..readers {
            scope.spawn(|| read_all(&sample, reads, &reading));
        }
        if words.len() > 2 { write_all(&sample, &reading) } else { 0 }
    });
    println!("{} {writes}", start.elapsed().as_nanos());
}

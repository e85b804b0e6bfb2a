//! The report of a board's log.

use std::fmt::Write;

use crate::board::{Board, Call, Entry, Reply};

fn write_message(report: &mut String, message: &[u8]) {
    const DIGITS: &[u8; 16] = b"0123456789abcdef";
    if message.is_empty() {
        report.push('-');
    }
    for byte in message {
        report.push(DIGITS[(byte >> 4) as usize] as char);
        report.push(DIGITS[(byte & 15) as usize] as char);
    }
}

fn write_entry(report: &mut String, board: &Board, place: usize, entry: &Entry) {
    let word = match entry.request.call {
        Call::Create { .. } => "create-queuing",
        Call::Send { .. } => "send",
        Call::Receive { .. } => "receive",
        Call::SetMode { .. } => "mode",
    };
    let name = &board.partitions[entry.request.partition].name;
    let _ = write!(report, "{} {} {name} {word} ", place + 1, entry.request.at);
    match &entry.reply {
        Reply::NotMade => report.push_str("not made"),
        Reply::Code(code) => report.push_str(code),
        Reply::Id(id) => {
            let _ = write!(report, "NO_ERROR id {id}");
        }
        Reply::Received(message) => {
            report.push_str("NO_ERROR message ");
            write_message(report, message);
        }
    }
    report.push('\n');
}

pub fn report(board: &Board) -> String {
    let mut report = String::new();
    for (place, entry) in board.log.iter().enumerate() {
        write_entry(&mut report, board, place, entry);
    }
    for partition in &board.partitions {
        let mode = partition.mode.word();
        let _ = writeln!(report, "partition {} mode {mode} calls {}", partition.name, partition.calls);
    }
    for channel in &board.channels {
        let (accepted, received) = (channel.accepted.len(), channel.received.len());
        let waiting = channel.queue.len();
        let _ = write!(
            report,
            "queuing {} accepted {accepted} received {received} waiting {waiting}",
            channel.name
        );
        for message in &channel.queue {
            report.push(' ');
            write_message(&mut report, message);
        }
        report.push('\n');
    }
    report
}

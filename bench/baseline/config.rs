//! The board of a configuration, of which the headed tables alone are read.

use std::collections::VecDeque;

use crate::board::{Board, Channel, Mode, Partition, Port};
use crate::fail;

/// A table's heading and its keys, each with its value.
type Table<'a> = (&'a str, Vec<(&'a str, &'a str)>);

/// The tables of a text, each with its heading and its keys.
fn tables(text: &str) -> Vec<Table<'_>> {
    let mut tables: Vec<Table<'_>> = Vec::new();
    for line in text.lines().map(str::trim).filter(|line| !line.is_empty()) {
        if let Some(heading) = line.strip_prefix("[[").and_then(|rest| rest.strip_suffix("]]")) {
            tables.push((heading, Vec::new()));
        } else if let (Some((key, value)), Some(table)) = (line.split_once('='), tables.last_mut()) {
            table.1.push((key.trim(), value.trim().trim_matches('"')));
        } else {
            fail("config")
        }
    }
    tables
}

fn value<'a>(keys: &[(&'a str, &'a str)], key: &str) -> &'a str {
    match keys.iter().find(|pair| pair.0 == key) {
        Some(pair) => pair.1,
        None => fail("config"),
    }
}

fn channels(tables: &[Table]) -> Vec<Channel> {
    tables
        .iter()
        .filter(|table| table.0 == "channel")
        .map(|(_, keys)| Channel {
            name: value(keys, "name").to_string(),
            size: value(keys, "size").parse().unwrap_or_else(|_| fail("config")),
            depth: value(keys, "depth").parse().unwrap_or_else(|_| fail("config")),
            queue: VecDeque::new(),
            accepted: Vec::new(),
            received: Vec::new(),
        })
        .collect()
}

fn partitions(tables: &[Table], channels: &[Channel]) -> Vec<Partition> {
    let mut partitions: Vec<Partition> = Vec::new();
    for (heading, keys) in tables {
        match *heading {
            "partition" => partitions.push(Partition {
                name: value(keys, "name").to_string(),
                ports: Vec::new(),
                mode: Mode::ColdStart,
                calls: 0,
            }),
            "partition.port" => {
                let named = value(keys, "channel");
                let channel = channels.iter().position(|channel| channel.name == named);
                let partition = partitions.last_mut().unwrap_or_else(|| fail("config"));
                partition.ports.push(Port {
                    name: value(keys, "name").to_string(),
                    is_source: value(keys, "direction") == "source",
                    channel: channel.unwrap_or_else(|| fail("config")),
                    is_created: false,
                });
            }
            _ => {}
        }
    }
    partitions
}

impl Board {
    pub fn read(text: &str) -> Board {
        let tables = tables(text);
        let channels = channels(&tables);
        Board { partitions: partitions(&tables, &channels), channels, log: Vec::new() }
    }
}

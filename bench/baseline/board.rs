//! The board: queuing ports and modes, as the benchmark's calls ask for them, with a log.

use std::collections::VecDeque;

use crate::fail;
#[cfg(in_place)]
pub use crate::in_place::Message;
#[cfg(not(in_place))]
pub type Message = Vec<u8>;

#[derive(Clone, Copy, PartialEq)]
pub enum Mode {
    Idle,
    ColdStart,
    WarmStart,
    Normal,
}

impl Mode {
    fn from_number(number: u32) -> Option<Mode> {
        [Mode::Idle, Mode::ColdStart, Mode::WarmStart, Mode::Normal].get(number as usize).copied()
    }

    pub fn word(self) -> &'static str {
        match self {
            Mode::Idle => "IDLE",
            Mode::ColdStart => "COLD_START",
            Mode::WarmStart => "WARM_START",
            Mode::Normal => "NORMAL",
        }
    }
}

pub struct Port {
    pub name: String,
    pub is_source: bool,
    pub channel: usize,
    pub is_created: bool,
}

pub struct Partition {
    pub name: String,
    pub ports: Vec<Port>,
    pub mode: Mode,
    pub calls: usize,
}

pub struct Channel {
    pub name: String,
    pub size: usize,
    pub depth: usize,
    pub queue: VecDeque<Message>,
    pub accepted: Vec<Message>,
    pub received: Vec<Message>,
}

pub enum Call {
    Create { name: String, size: u32, depth: u32, direction: u32, discipline: u32 },
    Send { id: u32, message: Message },
    Receive { id: u32 },
    SetMode { mode: u32 },
}

#[derive(Clone)]
pub enum Reply {
    NotMade,
    Code(&'static str),
    Id(usize),
    Received(Message),
}

pub struct Request {
    pub partition: usize,
    pub at: u64,
    pub call: Call,
}

pub struct Entry {
    pub request: Request,
    pub reply: Reply,
}

pub struct Board {
    pub partitions: Vec<Partition>,
    pub channels: Vec<Channel>,
    pub log: Vec<Entry>,
}

impl Board {
    /// The place of the partition with this name.
    pub fn place(&self, name: &str) -> usize {
        let place = self.partitions.iter().position(|partition| partition.name == name);
        place.unwrap_or_else(|| fail("partition"))
    }

    /// Serves a request and lends the reply, which the log holds.
    pub fn call(&mut self, request: Request) -> &Reply {
        let reply = self.serve(&request);
        self.log.push(Entry { request, reply });
        &self.log[self.log.len() - 1].reply
    }

    fn serve(&mut self, request: &Request) -> Reply {
        let partition = &mut self.partitions[request.partition];
        partition.calls += 1;
        if partition.mode == Mode::Idle {
            return Reply::NotMade;
        }
        match &request.call {
            Call::Create { name, size, depth, direction, discipline } => {
                create(partition, &self.channels, name, [*size, *depth, *direction, *discipline])
            }
            Call::Send { id, message } => send(partition, &mut self.channels, *id, message),
            Call::Receive { id } => receive(partition, &mut self.channels, *id),
            Call::SetMode { mode } => set_mode(partition, *mode),
        }
    }
}

fn create(partition: &mut Partition, channels: &[Channel], name: &str, asked: [u32; 4]) -> Reply {
    let [size, depth, direction, discipline] = asked;
    let Some(place) = partition.ports.iter().position(|port| port.name == name) else {
        return Reply::Code("INVALID_CONFIG");
    };
    let port = &mut partition.ports[place];
    if port.is_created {
        return Reply::Code("NO_ACTION");
    }
    let channel = &channels[port.channel];
    if size as usize != channel.size
        || depth as usize != channel.depth
        || (direction == 0) != port.is_source
        || direction > 1
        || discipline > 1
    {
        return Reply::Code("INVALID_CONFIG");
    }
    if partition.mode == Mode::Normal {
        return Reply::Code("INVALID_MODE");
    }
    port.is_created = true;
    Reply::Id(place + 1)
}

fn created_port(partition: &Partition, id: u32) -> Option<&Port> {
    let place = (id as usize).checked_sub(1)?;
    partition.ports.get(place).filter(|port| port.is_created)
}

fn send(partition: &Partition, channels: &mut [Channel], id: u32, message: &Message) -> Reply {
    let Some(port) = created_port(partition, id) else {
        return Reply::Code("INVALID_PARAM");
    };
    let channel = &mut channels[port.channel];
    if message.is_empty() {
        return Reply::Code("INVALID_PARAM");
    }
    if message.len() > channel.size {
        return Reply::Code("INVALID_CONFIG");
    }
    if !port.is_source {
        return Reply::Code("INVALID_MODE");
    }
    if channel.queue.len() == channel.depth {
        return Reply::Code("NOT_AVAILABLE");
    }
    channel.queue.push_back(message.clone());
    channel.accepted.push(message.clone());
    Reply::Code("NO_ERROR")
}

fn receive(partition: &Partition, channels: &mut [Channel], id: u32) -> Reply {
    let Some(port) = created_port(partition, id) else {
        return Reply::Code("INVALID_PARAM");
    };
    if port.is_source {
        return Reply::Code("INVALID_MODE");
    }
    let channel = &mut channels[port.channel];
    match channel.queue.pop_front() {
        Some(message) => {
            channel.received.push(message.clone());
            Reply::Received(message)
        }
        None => Reply::Code("NOT_AVAILABLE"),
    }
}

fn set_mode(partition: &mut Partition, number: u32) -> Reply {
    let Some(mode) = Mode::from_number(number) else {
        return Reply::Code("INVALID_PARAM");
    };
    if mode == Mode::Normal && partition.mode == Mode::Normal {
        return Reply::Code("NO_ACTION");
    }
    if mode == Mode::WarmStart && partition.mode == Mode::ColdStart {
        return Reply::Code("INVALID_MODE");
    }
    partition.mode = mode;
    if matches!(mode, Mode::ColdStart | Mode::WarmStart) {
        partition.ports.iter_mut().for_each(|port| port.is_created = false);
    }
    Reply::Code("NO_ERROR")
}

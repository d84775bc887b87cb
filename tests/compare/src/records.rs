//! Records as bytes.

use gjalvorn_model::{kind, Event};

/// A run of records, each by itself, so that they can be moved about.
pub type Records = Vec<Vec<u8>>;

/// The bytes of a record's length, and those of its length and kind.
pub const KIND_AT: usize = 2;
pub const PAYLOAD_AT: usize = 4;

/// A record of a kind with its own length.
fn record(kind: u16, payload: &[u8]) -> Vec<u8> {
    let length = (PAYLOAD_AT - KIND_AT + payload.len()) as u16;
    let mut bytes = Vec::with_capacity(PAYLOAD_AT + payload.len());
    bytes.extend_from_slice(&length.to_le_bytes());
    bytes.extend_from_slice(&kind.to_le_bytes());
    bytes.extend_from_slice(payload);
    bytes
}

/// A byte and a number, the payload of GANG and TRAFFIC.
fn byte_and_number(byte: u8, number: u32) -> [u8; 5] {
    let n = number.to_le_bytes();
    [byte, n[0], n[1], n[2], n[3]]
}

pub fn cores(count: u8) -> Vec<u8> {
    record(kind::CORES, &[count])
}

pub fn gang(priority: u8, budget: u32) -> Vec<u8> {
    record(kind::GANG, &byte_and_number(priority, budget))
}

pub fn short_gang(priority: u8) -> Vec<u8> {
    record(kind::GANG, &[priority])
}

pub fn thread(gang: u8, core: u8) -> Vec<u8> {
    record(kind::THREAD, &[gang, core])
}

pub fn event(event: Event) -> Vec<u8> {
    let kind = event.kind();
    match event {
        Event::Release { gang } => record(kind, &[gang]),
        Event::Finish { thread } | Event::Wait { thread } | Event::Wake { thread } => {
            record(kind, &[thread])
        }
        Event::Serve { core } => record(kind, &[core]),
        Event::Traffic { core, transactions } => record(kind, &byte_and_number(core, transactions)),
        Event::Tick => record(kind, &[]),
    }
}

pub fn events(list: &[Event]) -> Records {
    list.iter().map(|&one| event(one)).collect()
}

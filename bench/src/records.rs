//! Tables and events as bytes.

use gjalvorn_model::{kind, Event, MAX_CORES, MAX_GANGS, MAX_PRIORITY, MAX_THREADS};

/// How many cores, gangs and threads a table has.
pub struct Size {
    pub name: &'static str,
    pub cores: u8,
    pub gangs: u8,
    pub threads: u8,
}

pub const LARGEST: Size = Size {
    name: "largest",
    cores: MAX_CORES as u8,
    gangs: MAX_GANGS as u8,
    threads: MAX_THREADS as u8,
};

pub const SMALL: Size = Size {
    name: "small",
    cores: 4,
    gangs: 3,
    threads: 6,
};

/// Every gang's budget: some traffic reaches it.
const BUDGET: u32 = 200;

/// From one gang's priority to the next one's, so that they come in no order.
/// It has no divisor in common with the number of priorities.
const PRIORITY_STRIDE: usize = 37;

/// From one thread's core to that of its gang's next thread.
const CORE_STRIDE: u8 = 7;

/// A table in which every gang has about as many threads, on different cores.
pub fn table(size: &Size) -> Vec<u8> {
    let mut bytes = Vec::new();
    put(&mut bytes, kind::CORES, &[size.cores]);
    for gang in 0..size.gangs {
        let priority = 1 + usize::from(gang) * PRIORITY_STRIDE % usize::from(MAX_PRIORITY);
        let payload = byte_and_number(priority as u8, BUDGET);
        put(&mut bytes, kind::GANG, &payload);
    }
    for thread in 0..size.threads {
        let gang = thread % size.gangs;
        let core = (gang + thread / size.gangs * CORE_STRIDE) % size.cores;
        put(&mut bytes, kind::THREAD, &[gang, core]);
    }
    bytes
}

pub fn events(list: &[Event]) -> Vec<u8> {
    let mut bytes = Vec::new();
    for &event in list {
        let kind = event.kind();
        match event {
            Event::Release { gang: number }
            | Event::Finish { thread: number }
            | Event::Wait { thread: number }
            | Event::Wake { thread: number }
            | Event::Serve { core: number } => put(&mut bytes, kind, &[number]),
            Event::Traffic { core, transactions } => {
                put(&mut bytes, kind, &byte_and_number(core, transactions));
            }
            Event::Tick => put(&mut bytes, kind, &[]),
        }
    }
    bytes
}

/// Puts a record at the end: its length counts kind and payload.
fn put(bytes: &mut Vec<u8>, kind: u16, payload: &[u8]) {
    let kind = kind.to_le_bytes();
    let length = (kind.len() + payload.len()) as u16;
    bytes.extend_from_slice(&length.to_le_bytes());
    bytes.extend_from_slice(&kind);
    bytes.extend_from_slice(payload);
}

/// The payload of GANG and TRAFFIC.
fn byte_and_number(byte: u8, number: u32) -> [u8; 5] {
    let n = number.to_le_bytes();
    [byte, n[0], n[1], n[2], n[3]]
}

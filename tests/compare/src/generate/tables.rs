//! Tables that are accepted.

use gjalvorn_model::{MAX_CORES, MAX_COUNT, MAX_GANGS, MAX_PRIORITY, MAX_THREADS};

use crate::random::Random;
use crate::records::{cores, gang, short_gang, thread, Records};

/// How many cores, gangs and threads a table has.
#[derive(Clone, Copy)]
pub struct Size {
    pub cores: u8,
    pub gangs: u8,
    pub threads: u8,
}

/// All that there is room for.
pub const FULL: Size = Size {
    cores: MAX_CORES as u8,
    gangs: MAX_GANGS as u8,
    threads: MAX_THREADS as u8,
};

/// The most of each in a small table, where gangs meet often, and in a middling
/// one.
const SMALL: Size = Size {
    cores: 4,
    gangs: 4,
    threads: 9,
};
const MIDDLING: Size = Size {
    cores: 9,
    gangs: 8,
    threads: 24,
};

/// One table in so many is middling, and one in so many may be any.
const MIDDLING_ONCE_IN: usize = 6;
const ANY_ONCE_IN: usize = 60;

/// Mostly small sizes: what they meet is met in fewer events.
pub fn any_size(r: &mut Random) -> Size {
    if r.once_in(ANY_ONCE_IN) {
        size_within(r, FULL)
    } else if r.once_in(MIDDLING_ONCE_IN) {
        size_within(r, MIDDLING)
    } else {
        size_within(r, SMALL)
    }
}

pub fn small_size(r: &mut Random) -> Size {
    size_within(r, SMALL)
}

fn size_within(r: &mut Random, most: Size) -> Size {
    let gangs = r.between(1, most.gangs.into());
    Size {
        cores: r.between(1, most.cores.into()) as u8,
        gangs: gangs as u8,
        threads: r.between(gangs, most.threads.into()) as u8,
    }
}

/// A table of a size: each gang has a thread, and the other threads fall where
/// they fall. Half of the tables have threads between their gangs.
pub fn table(r: &mut Random, size: Size) -> Records {
    let mixed = r.half();
    let mut priorities: Vec<u8> = (1..=MAX_PRIORITY).collect();
    let mut records = vec![cores(size.cores)];
    let mut threads = Vec::new();
    for g in 0..size.gangs {
        let at = r.below(priorities.len());
        records.push(gang_record(r, priorities.swap_remove(at)));
        let first = thread(g, core_for(r, g, size.cores));
        if mixed {
            records.push(first);
        } else {
            threads.push(first);
        }
    }
    records.append(&mut threads);
    for _ in size.gangs..size.threads {
        let g = r.byte_below(size.gangs);
        records.push(thread(g, core_for(r, g, size.cores)));
    }
    records
}

/// A core for a thread: often the gang's own, so that threads of one gang share
/// a core.
fn core_for(r: &mut Random, gang: u8, cores: u8) -> u8 {
    const OWN_ONCE_IN: usize = 3;
    if r.once_in(OWN_ONCE_IN) {
        gang % cores
    } else {
        r.byte_below(cores)
    }
}

/// A gang with a budget at an edge, or one that traffic soon reaches.
fn gang_record(r: &mut Random, priority: u8) -> Vec<u8> {
    const SOON: usize = 300;
    let near = r.below(SOON) as u32;
    match r.below(8) {
        0 => short_gang(priority),
        1 => gang(priority, 0),
        2 => gang(priority, MAX_COUNT),
        3 => gang(priority, MAX_COUNT - 1),
        _ => gang(priority, near),
    }
}

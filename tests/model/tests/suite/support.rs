//! Builders of records and systems, and a small seeded generator.

use gjalvorn_model::{kind, read_table, Answer, Event, System, FINISHED, NONE, READY, WAITING};

/// A record of a kind with its own length.
pub fn record(kind: u16, payload: &[u8]) -> Vec<u8> {
    raw(payload.len() as u16 + 2, kind, payload)
}

/// A record with any length field.
pub fn raw(length: u16, kind: u16, payload: &[u8]) -> Vec<u8> {
    let mut bytes = Vec::new();
    bytes.extend_from_slice(&length.to_le_bytes());
    bytes.extend_from_slice(&kind.to_le_bytes());
    bytes.extend_from_slice(payload);
    bytes
}

pub fn cores(count: u8) -> Vec<u8> {
    record(kind::CORES, &[count])
}

pub fn gang(priority: u8, budget: u32) -> Vec<u8> {
    let b = budget.to_le_bytes();
    record(kind::GANG, &[priority, b[0], b[1], b[2], b[3]])
}

pub fn short_gang(priority: u8) -> Vec<u8> {
    record(kind::GANG, &[priority])
}

pub fn thread(gang: u8, core: u8) -> Vec<u8> {
    record(kind::THREAD, &[gang, core])
}

/// An event's record.
pub fn event(event: Event) -> Vec<u8> {
    let payload = match event {
        Event::Release { gang } => vec![gang],
        Event::Finish { thread } | Event::Wait { thread } | Event::Wake { thread } => vec![thread],
        Event::Serve { core } => vec![core],
        Event::Traffic { core, transactions } => {
            let n = transactions.to_le_bytes();
            vec![core, n[0], n[1], n[2], n[3]]
        }
        Event::Tick => vec![],
    };
    record(event.kind(), &payload)
}

pub fn events(list: &[Event]) -> Vec<u8> {
    list.iter().flat_map(|&e| event(e)).collect()
}

pub fn release(gang: u8) -> Event {
    Event::Release { gang }
}

pub fn finish(thread: u8) -> Event {
    Event::Finish { thread }
}

pub fn wait(thread: u8) -> Event {
    Event::Wait { thread }
}

pub fn wake(thread: u8) -> Event {
    Event::Wake { thread }
}

pub fn serve(core: u8) -> Event {
    Event::Serve { core }
}

pub fn traffic(core: u8, transactions: u32) -> Event {
    Event::Traffic { core, transactions }
}

/// An accepted event's answer.
pub fn ok(value: u8, number: u32) -> Answer {
    Answer {
        refusal: 0,
        value,
        number,
    }
}

/// A refused event's answer.
pub fn refused(refusal: u8) -> Answer {
    Answer {
        refusal,
        value: 0,
        number: 0,
    }
}

/// The system of a table that must be accepted.
pub fn system(table: &[Vec<u8>]) -> System {
    let bytes = table.concat();
    let read = read_table(&bytes);
    assert_eq!((read.number, read.place), (0, bytes.len()));
    assert!(read.system.well_formed());
    read.system
}

/// Applies events that must all be accepted.
pub fn run(system: &mut System, list: &[Event]) {
    for &event in list {
        assert_eq!(system.apply(event).refusal, 0, "{event:?}");
    }
}

/// The table of the worked input.
pub fn worked_table() -> Vec<Vec<u8>> {
    vec![
        cores(3),
        gang(10, 100),
        gang(20, 0),
        thread(0, 0),
        thread(0, 1),
        thread(1, 2),
    ]
}

/// The events of the worked input.
pub fn worked_events() -> Vec<Event> {
    vec![
        release(0),
        serve(0),
        traffic(2, 100),
        release(1),
        serve(2),
        serve(1),
        release(0),
        finish(0),
        serve(0),
        finish(2),
        serve(2),
        serve(1),
        wake(1),
    ]
}

/// The worked input's whole output.
pub const WORKED_OUTPUT: &str = "\
1 16 0 1 1 00000003 00000000 -
2 20 0 0 0 00000002 00000001 0
3 21 0 1 100 00000002 00000001 0
4 16 0 1 1 00000006 00000001 0
5 20 0 2 0 00000003 00000004 1
6 20 0 255 0 00000001 00000004 1
7 16 0 0 2 00000001 00000004 1
8 17 0 0 0 00000001 00000004 1
9 20 0 255 0 00000000 00000004 1
10 17 0 0 0 00000004 00000004 1
11 20 0 255 0 00000002 00000000 -
12 20 0 1 0 00000000 00000002 0
13 19 10 0 0 00000000 00000002 0
";

/// A small system: two cores, gangs of priority 10 and 20 with budget 100, and
/// threads (gang, core) 0 (0,0), 1 (0,1), 2 (1,1).
pub fn small() -> System {
    system(&[
        cores(2),
        gang(10, 100),
        gang(20, 100),
        thread(0, 0),
        thread(0, 1),
        thread(1, 1),
    ])
}

/// A xorshift generator (64 bits, shifts 13, 7, 17).
pub struct Random(u64);

impl Random {
    pub fn new(seed: u64) -> Self {
        let mut random = Random(seed.wrapping_mul(0x9e37_79b9_7f4a_7c15) | 1);
        for _ in 0..8 {
            random.next();
        }
        random
    }

    pub fn next(&mut self) -> u64 {
        self.0 ^= self.0 << 13;
        self.0 ^= self.0 >> 7;
        self.0 ^= self.0 << 17;
        self.0
    }

    /// A number below a bound that is not 0.
    pub fn below(&mut self, bound: u32) -> u32 {
        ((self.next() >> 16) % u64::from(bound)) as u32
    }

    pub fn byte_below(&mut self, bound: u8) -> u8 {
        self.below(bound.into()) as u8
    }

    /// One chance in so many.
    pub fn once_in(&mut self, many: u32) -> bool {
        self.below(many) == 0
    }

    pub fn pick<T: Copy>(&mut self, from: &[T]) -> Option<T> {
        if from.is_empty() {
            return None;
        }
        Some(from[self.below(from.len() as u32) as usize])
    }
}

/// A random table that is accepted, of at most so many cores, gangs, threads.
pub fn random_table(r: &mut Random, max_cores: u8, max_gangs: u8, max_threads: u8) -> Vec<u8> {
    let core_count = 1 + r.byte_below(max_cores);
    let gang_count = 1 + r.byte_below(max_gangs.min(max_threads));
    let thread_count = gang_count + r.byte_below(max_threads - gang_count + 1);
    let mut priorities: Vec<u8> = (1..=99).collect();
    let mut bytes = cores(core_count);
    for g in 0..gang_count {
        let priority = priorities.swap_remove(r.below(priorities.len() as u32) as usize);
        bytes.extend(match r.below(5) {
            0 => short_gang(priority),
            1 => gang(priority, 0),
            2 => gang(priority, 1_000_000),
            _ => gang(priority, r.below(2_000)),
        });
        bytes.extend(thread(g, r.byte_below(core_count)));
    }
    for _ in gang_count..thread_count {
        bytes.extend(thread(r.byte_below(gang_count), r.byte_below(core_count)));
    }
    bytes
}

/// A random event, mostly one that the system accepts.
pub fn random_event(r: &mut Random, s: &System) -> Event {
    if r.once_in(12) {
        return loose_event(r);
    }
    let threads_that =
        |keep: &dyn Fn(u8) -> bool| -> Vec<u8> { (0..s.threads).filter(|&t| keep(t)).collect() };
    match r.below(12) {
        0 | 1 => release(r.byte_below(s.gangs.max(1))),
        2 | 3 => {
            let running = threads_that(&|t| running(s, t));
            match r.pick(&running) {
                Some(t) if r.once_in(3) => wait(t),
                Some(t) => finish(t),
                None => serve(r.byte_below(s.cores.max(1))),
            }
        }
        4 => {
            let waiting = threads_that(&|t| s.thread_state[usize::from(t)] == WAITING);
            r.pick(&waiting).map_or(Event::Tick, wake)
        }
        5..=8 => match r.pick(&owing(s)) {
            Some(c) => serve(c),
            None => serve(r.byte_below(s.cores.max(1))),
        },
        9 => serve(r.byte_below(s.cores.max(1))),
        10 => {
            let idle: Vec<u8> = (0..s.cores)
                .filter(|&c| s.occupant[usize::from(c)] == NONE)
                .collect();
            let transactions = match r.below(4) {
                0 => 1_000_000,
                1 => r.below(1_000_001),
                _ => r.below(2_000),
            };
            r.pick(&idle)
                .map_or(Event::Tick, |c| traffic(c, transactions))
        }
        _ => {
            if r.once_in(3) {
                Event::Tick
            } else {
                release(r.byte_below(s.gangs.max(1)))
            }
        }
    }
}

/// An event with any numbers.
pub fn loose_event(r: &mut Random) -> Event {
    let number = match r.below(3) {
        0 => r.byte_below(4),
        1 => r.byte_below(140),
        _ => r.below(256) as u8,
    };
    match r.below(7) {
        0 => release(number),
        1 => finish(number),
        2 => wait(number),
        3 => wake(number),
        4 => serve(number),
        5 => traffic(number, r.below(1_000_010)),
        _ => Event::Tick,
    }
}

/// A reached state: an accepted table, then some events, refused ones too.
pub fn reached(r: &mut Random, table: &[u8], steps: u32) -> System {
    let mut s = read_table(table).system;
    for _ in 0..steps {
        let event = random_event(r, &s);
        s.step(event);
    }
    assert!(s.well_formed());
    s
}

/// The owing cores.
pub fn owing(s: &System) -> Vec<u8> {
    (0..32).filter(|&c| s.owing >> c & 1 == 1).collect()
}

/// Document 01's running thread, written anew from the fields.
pub fn running(s: &System, t: u8) -> bool {
    let t_at = usize::from(t);
    s.thread_state[t_at] == READY && s.occupant[usize::from(s.thread_core[t_at])] == t
}

/// Document 01's first ready thread, written anew: the ready threads pinned to
/// the core, sorted.
pub fn first_ready(s: &System, c: u8) -> Option<u8> {
    let mut ready: Vec<u8> = (0..s.threads)
        .filter(|&t| s.thread_core[usize::from(t)] == c && s.thread_state[usize::from(t)] == READY)
        .collect();
    ready.sort_by_key(|&t| {
        let priority = s.priority[usize::from(s.thread_gang[usize::from(t)])];
        (std::cmp::Reverse(priority), t)
    });
    ready.first().copied()
}

/// Document 02's seven reasons, each by itself and written anew from the
/// fields: which of them hold of a thread, in their order.
pub fn holding(s: &System, t: u8) -> [bool; 7] {
    let state = s.thread_state[usize::from(t)];
    let core = s.thread_core[usize::from(t)];
    let priority = |thread: u8| s.priority[usize::from(s.thread_gang[usize::from(thread)])];
    let locked = s.locked >> core & 1 == 1;
    [
        state == FINISHED,
        state == WAITING,
        running(s, t) && locked,
        running(s, t) && !locked,
        s.owing >> core & 1 == 1,
        first_ready(s, core).map_or(false, |first| first != t),
        s.holder != NONE && s.priority[usize::from(s.holder)] > priority(t),
    ]
}

/// The reason that each thread is given.
pub fn reasons(s: &System) -> Vec<u8> {
    (0..s.threads).map(|t| s.ask_why(t).reason).collect()
}

/// Whether all of a gang's threads are finished.
pub fn idle(s: &System, gang: u8) -> bool {
    (0..usize::from(s.threads)).all(|t| s.thread_gang[t] != gang || s.thread_state[t] == FINISHED)
}

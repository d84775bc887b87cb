//! Streams of events that lead to preemption, displaced threads, blocked cores,
//! skips, waits and stops.

use gjalvorn_model::{Event, System, FINISHED, MAX_COUNT, NONE, READY, WAITING};

use crate::coverage::Coverage;
use crate::random::Random;

/// How often each event comes: RELEASE, FINISH or WAIT, WAKE, SERVE, TRAFFIC,
/// TICK.
type Mood = [usize; 6];

/// An even one, one of preemption, one of waits, one of traffic.
const MOODS: [Mood; 4] = [
    [4, 4, 2, 8, 3, 1],
    [6, 3, 1, 10, 1, 0],
    [3, 6, 4, 8, 1, 0],
    [3, 2, 1, 6, 9, 1],
];

/// One event in so many has any numbers at all; one RELEASE in so many takes
/// any gang, one SERVE any core, one TRAFFIC any core; one thread in so many
/// waits where it could finish.
const LOOSE_ONCE_IN: usize = 25;
const ANY_GANG_ONCE_IN: usize = 3;
const ANY_SERVE_ONCE_IN: usize = 6;
const ANY_TRAFFIC_ONCE_IN: usize = 8;
const WAIT_ONCE_IN: usize = 3;

/// A stream from a system on, which is stepped along with it.
pub fn stream(r: &mut Random, s: &mut System, count: usize, seen: &mut Coverage) -> Vec<Event> {
    let mood = r.among(&MOODS);
    let mut events = Vec::with_capacity(count);
    for _ in 0..count {
        let event = next(r, s, &mood);
        let before = s.clone();
        let answer = s.step(event);
        seen.event(&before, event, answer, s);
        events.push(event);
    }
    events
}

fn next(r: &mut Random, s: &System, mood: &Mood) -> Event {
    if r.once_in(LOOSE_ONCE_IN) {
        return loose(r);
    }
    match drawn(r, mood) {
        0 => release(r, s),
        1 => leave(r, s),
        2 => wake(r, s),
        3 => serve(r, s),
        4 => traffic(r, s),
        _ => Event::Tick,
    }
}

/// A place of a mood, each as often as it says.
fn drawn(r: &mut Random, mood: &Mood) -> usize {
    let mut left = r.below(mood.iter().sum());
    for (place, &often) in mood.iter().enumerate() {
        if left < often {
            return place;
        }
        left -= often;
    }
    mood.len()
}

/// Mostly a gang that is finished, so that it is served.
fn release(r: &mut Random, s: &System) -> Event {
    let idle = |gang: u8| {
        (0..usize::from(s.threads))
            .all(|t| s.thread_gang[t] != gang || s.thread_state[t] == FINISHED)
    };
    let any = r.byte_below(s.gangs);
    let gang = if r.once_in(ANY_GANG_ONCE_IN) {
        any
    } else {
        r.wanted(s.gangs, idle).unwrap_or(any)
    };
    Event::Release { gang }
}

/// A running thread finishes or waits; half of the time a displaced one, if
/// there is one.
fn leave(r: &mut Random, s: &System) -> Event {
    let running = |core: u8| match s.occupant[usize::from(core)] {
        NONE => false,
        thread => s.thread_state[usize::from(thread)] == READY,
    };
    let displaced = |core: u8| running(core) && s.locked >> core & 1 == 0;
    let core = match r.wanted(s.cores, displaced) {
        Some(core) if r.half() => Some(core),
        _ => r.wanted(s.cores, running),
    };
    match core.map(|core| s.occupant[usize::from(core)]) {
        Some(thread) if r.once_in(WAIT_ONCE_IN) => Event::Wait { thread },
        Some(thread) => Event::Finish { thread },
        None => serve(r, s),
    }
}

fn wake(r: &mut Random, s: &System) -> Event {
    let waiting = |t: u8| s.thread_state[usize::from(t)] == WAITING;
    match r.wanted(s.threads, waiting) {
        Some(thread) => Event::Wake { thread },
        None => release(r, s),
    }
}

/// Mostly an owing core.
fn serve(r: &mut Random, s: &System) -> Event {
    let any = r.byte_below(s.cores);
    let core = if r.once_in(ANY_SERVE_ONCE_IN) {
        any
    } else {
        r.wanted(s.cores, |core| s.owing >> core & 1 == 1)
            .unwrap_or(any)
    };
    Event::Serve { core }
}

/// Mostly from a core with no occupant.
fn traffic(r: &mut Random, s: &System) -> Event {
    let any = r.byte_below(s.cores);
    let core = if r.once_in(ANY_TRAFFIC_ONCE_IN) {
        any
    } else {
        r.wanted(s.cores, |core| s.occupant[usize::from(core)] == NONE)
            .unwrap_or(any)
    };
    let transactions = transactions(r, s, core);
    Event::Traffic { core, transactions }
}

/// What brings the core to the holder's budget, one less or one more, or an
/// edge of the range.
fn transactions(r: &mut Random, s: &System, core: u8) -> u32 {
    const FEW: usize = 120;
    let few = r.below(FEW) as u32;
    let budget = match s.holder {
        NONE => MAX_COUNT,
        holder => s.budget[usize::from(holder)],
    };
    let missing = budget.saturating_sub(s.count[usize::from(core)]);
    match r.below(16) {
        0..=3 => missing,
        4..=6 => missing.saturating_sub(1),
        7 | 8 => missing + 1,
        9 => MAX_COUNT,
        10 => MAX_COUNT - 1,
        11 => MAX_COUNT + r.below(2) as u32,
        12 => r.word(),
        _ => few,
    }
}

/// An event with any numbers.
pub fn loose(r: &mut Random) -> Event {
    const LOW: u8 = 6;
    const HIGH: u8 = 132;
    let number = match r.below(3) {
        0 => r.byte_below(LOW),
        1 => r.byte_below(HIGH),
        _ => r.byte(),
    };
    let transactions = match r.below(3) {
        0 => r.word(),
        1 => MAX_COUNT + r.below(2) as u32,
        _ => r.below(usize::from(HIGH)) as u32,
    };
    r.among(&all_seven(number, transactions))
}

/// Each of the seven events, about one number.
pub fn all_seven(number: u8, transactions: u32) -> [Event; 7] {
    [
        Event::Release { gang: number },
        Event::Finish { thread: number },
        Event::Wait { thread: number },
        Event::Wake { thread: number },
        Event::Serve { core: number },
        Event::Traffic {
            core: number,
            transactions,
        },
        Event::Tick,
    ]
}

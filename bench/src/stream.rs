//! A mixed stream of events, none of which is refused.

use gjalvorn_model::{Event, System, NONE, READY, WAITING};

use crate::random::Random;

/// How often each is drawn: RELEASE, FINISH or WAIT, WAKE, SERVE, TRAFFIC, TICK.
const OFTEN: [usize; 6] = [2, 8, 4, 12, 3, 1];

/// One thread in so many waits where it could finish.
const WAIT_ONCE_IN: usize = 4;

/// The transactions of a TRAFFIC are below this.
const TRAFFIC_BELOW: usize = 300;

const SEED: u64 = 1;

/// A stream from a system on.
pub fn stream(start: &System, count: usize) -> Vec<Event> {
    let mut random = Random::new(SEED);
    let mut system = start.clone();
    let mut events = Vec::with_capacity(count);
    while events.len() < count {
        // What cannot come now is left out; RELEASE and TICK always can.
        if let Some(event) = next(&mut random, &system) {
            system.step(event);
            events.push(event);
        }
    }
    events
}

fn next(r: &mut Random, s: &System) -> Option<Event> {
    match drawn(r) {
        0 => r
            .wanted(s.gangs, |_| true)
            .map(|gang| Event::Release { gang }),
        1 => leave(r, s),
        2 => r
            .wanted(s.threads, |t| s.thread_state[usize::from(t)] == WAITING)
            .map(|thread| Event::Wake { thread }),
        3 => r
            .wanted(s.cores, |core| s.owing >> core & 1 == 1)
            .map(|core| Event::Serve { core }),
        4 => traffic(r, s),
        _ => Some(Event::Tick),
    }
}

/// A place of the list, each as often as it says.
fn drawn(r: &mut Random) -> usize {
    let mut left = r.below(OFTEN.iter().sum());
    let mut place = 0;
    while left >= OFTEN[place] {
        left -= OFTEN[place];
        place += 1;
    }
    place
}

/// A running thread finishes or waits.
fn leave(r: &mut Random, s: &System) -> Option<Event> {
    let running = |core: u8| match s.occupant[usize::from(core)] {
        NONE => false,
        thread => s.thread_state[usize::from(thread)] == READY,
    };
    let core = r.wanted(s.cores, running)?;
    let thread = s.occupant[usize::from(core)];
    Some(match r.below(WAIT_ONCE_IN) {
        0 => Event::Wait { thread },
        _ => Event::Finish { thread },
    })
}

/// A core with no occupant has traffic.
fn traffic(r: &mut Random, s: &System) -> Option<Event> {
    let core = r.wanted(s.cores, |core| s.occupant[usize::from(core)] == NONE)?;
    let transactions = r.below(TRAFFIC_BELOW) as u32;
    Some(Event::Traffic { core, transactions })
}

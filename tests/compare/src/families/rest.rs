//! Serving owing cores alone, in any order: no core is served more than three
//! times, and all orders rest in one state, in which the highest-priority gang
//! with a ready thread holds the lock.

use gjalvorn_model::{Event, System, MAX_CORES, NONE, READY};

use crate::case::Case;
use crate::compare::{holds, same_state, Outcome};
use crate::coverage::Target;
use crate::generate::tables::any_size;
use crate::pair::Pair;
use crate::random::Random;
use crate::records;

const LEADING: (usize, usize) = (5, 60);

const MOST_SERVICES: usize = 3;

/// How the next owing core is chosen.
#[derive(Clone, Copy)]
enum Order {
    Any,
    Lowest,
    Highest,
}

const OTHER_ORDERS: [Order; 3] = [Order::Highest, Order::Any, Order::Any];

pub fn run(case: &mut Case) -> Outcome {
    let size = any_size(&mut case.random);
    let count = case.random.between(LEADING.0, LEADING.1);
    let mut start = case.reached(size, count)?;
    if case.random.half() {
        let events = stirred(&mut case.random, &start.model);
        case.at_once(&mut start, &events)?;
    }
    let leading = case.recording.len();
    let rest = serve_all(case, start.clone(), Order::Lowest)?;
    has_shape(&rest)?;
    case.seen.hit(match rest.holder {
        NONE => Target::FreeAtRest,
        _ => Target::LockAtRest,
    });
    for order in OTHER_ORDERS {
        case.recording.truncate(leading);
        let end = serve_all(case, start.clone(), order)?;
        same_state("lowest cores first, and this order", &rest, &end)?;
    }
    Ok(())
}

/// Some running threads finish and some gangs are released, so that many cores
/// owe at once.
fn stirred(r: &mut Random, s: &System) -> Vec<Event> {
    let occupants = s.occupant.iter().filter(|&&thread| thread != NONE);
    let finished = occupants.map(|&thread| Event::Finish { thread });
    let released = (0..s.gangs).map(|gang| Event::Release { gang });
    finished.chain(released).filter(|_| r.half()).collect()
}

/// Serves owing cores until none owes.
fn serve_all(case: &mut Case, mut pair: Pair, order: Order) -> Outcome<System> {
    let mut services = [0; MAX_CORES];
    while let Some(core) = choose(&mut case.random, pair.model.owing, order) {
        let event = Event::Serve { core };
        case.recording.extend(records::event(event));
        let count = &mut services[usize::from(core)];
        *count += 1;
        holds(
            format_args!("core {core} is served a fourth time"),
            *count <= MOST_SERVICES,
        )?;
        pair.call(event, case.seen)?;
    }
    if services.contains(&MOST_SERVICES) {
        case.seen.hit(Target::ThreeServices);
    }
    Ok(pair.model)
}

fn choose(r: &mut Random, owing: u32, order: Order) -> Option<u8> {
    let owes = |core: &u8| owing >> core & 1 == 1;
    let mut cores = 0..MAX_CORES as u8;
    match order {
        Order::Any => r.wanted(cores.end, |core| owes(&core)),
        Order::Lowest => cores.find(owes),
        Order::Highest => cores.rfind(owes),
    }
}

/// The shape of a state at rest, from its ready threads alone: the gang that is
/// highest among them holds the lock, each core whose first ready thread is
/// that gang's runs it and is locked, no other core has an occupant.
fn has_shape(s: &System) -> Outcome {
    let ready = |core: Option<u8>| {
        let here = move |t: &usize| core.map_or(true, |core| s.thread_core[*t] == core);
        (0..usize::from(s.threads))
            .filter(here)
            .filter(|&t| s.thread_state[t] == READY)
    };
    // Of equals the last is taken, so the lowest thread comes last.
    let first = |core: Option<u8>| {
        let priority = |&t: &usize| s.priority[usize::from(s.thread_gang[t])];
        ready(core).rev().max_by_key(priority)
    };
    let holder = first(None).map_or(NONE, |t| s.thread_gang[t]);
    holds(
        format_args!("at rest {} holds the lock, not {holder}", s.holder),
        s.holder == holder,
    )?;
    for core in 0..s.cores {
        let runs = first(Some(core)).filter(|&t| s.thread_gang[t] == holder);
        let occupant = runs.map_or(NONE, |t| t as u8);
        let locked = s.locked >> core & 1 == 1;
        holds(
            format_args!("at rest core {core} does not have occupant {occupant}"),
            s.occupant[usize::from(core)] == occupant && locked == runs.is_some(),
        )?;
    }
    Ok(())
}

//! From one reached system: each event by its own call, by apply and by its
//! kind, each question, and kinds that are no event's, about one number; from
//! some, why of every thread.

use gjalvorn::EventValue;
use gjalvorn_model::kind;

use crate::case::Case;
use crate::compare::{holds, Outcome};
use crate::convert;
use crate::generate::events::all_seven;
use crate::generate::tables::{any_size, FULL};
use crate::pair::Pair;
use crate::question::Question;
use crate::random::Random;

const LEADING: (usize, usize) = (0, 30);
const FULL_ONCE_IN: usize = 50;
const EMPTY_ONCE_IN: usize = 50;

/// One system in so many is asked why of every thread.
const EVERY_WHY_ONCE_IN: usize = 3;

/// TRAFFIC's transactions.
const TRANSACTIONS: [u32; 5] = [0, 1, 100, 1_000_000, 1_000_001];

/// What the low byte of a kind leaves out.
const HIGH: u16 = 256;

/// Kinds that are no event's, beside any that is drawn.
const UNKNOWN: [u16; 10] = [
    0,
    kind::CORES,
    kind::GANG,
    kind::THREAD,
    kind::RELEASE - 1,
    kind::TICK + 1,
    kind::ANSWER,
    kind::RELEASE + HIGH,
    kind::TICK + HIGH,
    u16::MAX,
];

pub fn run(case: &mut Case) -> Outcome {
    let pair = start(case)?;
    holds("a reached system is not well formed", pair.well_formed()?)?;
    let number = number(case, pair.model.threads);
    let transactions = case.random.among(&TRANSACTIONS);
    let events = all_seven(number, transactions);
    for event in events {
        pair.clone().call(event, case.seen)?;
        pair.clone().apply(event, case.seen)?;
    }
    let event = case.random.among(&events);
    let value = with_strays(&mut case.random, convert::event(event).into());
    pair.clone().apply_value(event, value, case.seen)?;
    for question in Question::about(number) {
        pair.ask(question, case.seen)?;
    }
    whys(case, &pair, number)?;
    let value = EventValue {
        kind: unknown(&mut case.random),
        number,
        transactions,
    };
    pair.clone().apply_unknown(value, case.seen)
}

/// Why, of a number that need not be a thread's, and of every thread.
fn whys(case: &mut Case, pair: &Pair, number: u8) -> Outcome {
    pair.why_reached(number, case.seen)?;
    if case.random.once_in(EVERY_WHY_ONCE_IN) {
        for thread in 0..pair.model.threads {
            pair.why_reached(thread, case.seen)?;
        }
    }
    Ok(())
}

/// The system that is asked: any, a full one or the empty one.
fn start(case: &mut Case) -> Outcome<Pair> {
    if case.random.once_in(EMPTY_ONCE_IN) {
        return Pair::empty();
    }
    let size = if case.random.once_in(FULL_ONCE_IN) {
        FULL
    } else {
        any_size(&mut case.random)
    };
    let count = case.random.between(LEADING.0, LEADING.1);
    case.reached(size, count)
}

/// Half of the cases take every byte in turn, half a number of the table or one
/// just past it.
fn number(case: &mut Case, threads: u8) -> u8 {
    if case.random.half() {
        case.number as u8
    } else {
        case.random.byte_below(threads + 2)
    }
}

/// Sets what the event has none of: only TRAFFIC has transactions, and TICK has
/// no number.
fn with_strays(r: &mut Random, mut value: EventValue) -> EventValue {
    if value.kind != kind::TRAFFIC {
        value.transactions = r.word();
    }
    if value.kind == kind::TICK {
        value.number = r.byte();
    }
    value
}

fn unknown(r: &mut Random) -> u16 {
    let any = r.word() as u16;
    if r.half() || (kind::RELEASE..=kind::TICK).contains(&any) {
        r.among(&UNKNOWN)
    } else {
        any
    }
}

//! Systems with one damaged field. Most are refused with 14 by every call; the
//! others are well formed, though no events lead to them, and every call
//! answers.

use gjalvorn::EventValue;
use gjalvorn_model::{kind, ANSWER_SIZE};

use crate::case::Case;
use crate::compare::{holds, Outcome};
use crate::coverage::Coverage;
use crate::generate::events::{all_seven, loose, stream};
use crate::generate::systems::damage;
use crate::generate::tables::any_size;
use crate::pair::Pair;
use crate::question::Question;
use crate::records;

const LEADING: (usize, usize) = (0, 30);
const EVENTS: usize = 5;
const EMPTY_ONCE_IN: usize = 40;

/// TRAFFIC's transactions are below this.
const TRANSACTIONS: usize = 120;

/// Room for one answer more than there are events, and a rest.
const ROOM: usize = (EVENTS + 1) * ANSWER_SIZE + 1;

pub fn run(case: &mut Case) -> Outcome {
    let mut system = start(case)?.model;
    let done = damage(&mut case.random, &mut system, case.number);
    case.note = Some(done.words);
    let pair = Pair::of(&system);
    let well_formed = pair.well_formed()?;
    case.seen.damage(done.place, well_formed);
    every_call(case, &pair)?;
    if well_formed {
        lead_on(case, pair)?;
    }
    Ok(())
}

/// The system that is damaged: a reached one, or the empty one.
fn start(case: &mut Case) -> Outcome<Pair> {
    if case.random.once_in(EMPTY_ONCE_IN) {
        return Pair::empty();
    }
    let size = any_size(&mut case.random);
    let count = case.random.between(LEADING.0, LEADING.1);
    case.reached(size, count)
}

/// Every event, every question, an unknown kind and a batch, each on the system
/// as it is.
fn every_call(case: &mut Case, pair: &Pair) -> Outcome {
    let number = case.random.byte_below(pair.model.threads.max(1));
    let transactions = case.random.below(TRANSACTIONS) as u32;
    for event in all_seven(number, transactions) {
        if case.random.half() {
            pair.clone().apply(event, case.seen)?;
        } else {
            pair.clone().call(event, case.seen)?;
        }
    }
    for question in Question::about(number) {
        pair.ask(question, case.seen)?;
    }
    pair.why(number, case.seen)?;
    let value = EventValue {
        kind: kind::TICK + 1,
        number,
        transactions,
    };
    pair.clone().apply_unknown(value, case.seen)?;
    case.then = vec![loose(&mut case.random)];
    let bytes = records::events(&case.then).concat();
    pair.clone().batch(&bytes, ROOM, case.seen)?;
    Ok(())
}

/// A few events on a system that no events lead to; it stays well formed. What
/// they meet is not counted, as a run does not meet it.
fn lead_on(case: &mut Case, mut pair: Pair) -> Outcome {
    let mut system = pair.model.clone();
    case.then = stream(&mut case.random, &mut system, EVENTS, &mut Coverage::new());
    let bytes = records::events(&case.then).concat();
    pair.batch(&bytes, ROOM, case.seen)?;
    holds("events leave it not well formed", pair.well_formed()?)
}

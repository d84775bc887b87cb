//! Accepted tables with streams of events.

use gjalvorn_model::Refusal;

use crate::case::Case;
use crate::compare::{same, Outcome};
use crate::generate::tables::{any_size, table, FULL};
use crate::pair::Pair;
use crate::records;

/// The events of most streams, and of the few that are long.
const USUAL: (usize, usize) = (10, 50);
const LONG: (usize, usize) = (200, 1200);
const LONG_ONCE_IN: usize = 150;

/// The events on a full table.
const ON_FULL: (usize, usize) = (100, 200);

pub fn run(case: &mut Case) -> Outcome {
    let size = any_size(&mut case.random);
    let mut pair = case.fresh(size)?;
    let (least, most) = if case.random.once_in(LONG_ONCE_IN) {
        LONG
    } else {
        USUAL
    };
    let count = case.random.between(least, most);
    case.lead_on(&mut pair, count)
}

/// The full table; some have one gang or one thread too many after it.
pub fn run_full(case: &mut Case) -> Outcome {
    let r = &mut case.random;
    let mut bytes = table(r, FULL).concat();
    match r.below(4) {
        0 => bytes.extend(records::gang(r.byte(), r.word())),
        1 => bytes.extend(records::thread(r.byte(), r.byte())),
        _ => {}
    }
    case.recording = bytes;
    let (mut pair, number) = Pair::read(&case.recording, case.seen)?;
    if number != 0 {
        return same("one too many", Refusal::TooMany.number(), number);
    }
    let count = case.random.between(ON_FULL.0, ON_FULL.1);
    case.lead_on(&mut pair, count)
}

//! Every end and every room: a table cut at each byte, events cut at each byte,
//! and the whole events into each size of room.

use gjalvorn_model::ANSWER_SIZE;

use crate::case::Case;
use crate::compare::Outcome;
use crate::generate::tables::{small_size, table};
use crate::pair::Pair;
use crate::records;

const LEADING: usize = 10;
const EVENTS: usize = 3;

pub fn run(case: &mut Case) -> Outcome {
    let size = small_size(&mut case.random);
    let whole = table(&mut case.random, size).concat();
    for end in 0..=whole.len() {
        case.recording = whole[..end].to_vec();
        Pair::read(&case.recording, case.seen)?;
    }
    let pair = case.reached(size, LEADING)?;
    let events = records::events(&case.events_from(&pair, EVENTS)).concat();
    case.recording.extend_from_slice(&events);
    let all = EVENTS * ANSWER_SIZE;
    for end in 0..=events.len() {
        pair.clone().batch(&events[..end], all, case.seen)?;
    }
    for room in 0..=all + ANSWER_SIZE {
        pair.clone().batch(&events, room, case.seen)?;
    }
    Ok(())
}

//! Tables with damaged bytes and records. Some are accepted all the same, and
//! take events then.

use gjalvorn_model::{Event, ANSWER_SIZE};

use crate::case::Case;
use crate::compare::Outcome;
use crate::generate::bytes::damaged;
use crate::generate::events::loose;
use crate::generate::tables::{any_size, table};
use crate::pair::Pair;
use crate::records;

const EVENTS: usize = 6;

/// One refused table in so many has its empty system asked too.
const EMPTY_ONCE_IN: usize = 10;

pub fn run(case: &mut Case) -> Outcome {
    let size = any_size(&mut case.random);
    let sound = table(&mut case.random, size);
    case.recording = damaged(&mut case.random, &sound);
    let (mut pair, number) = Pair::read(&case.recording, case.seen)?;
    if number != 0 && !case.random.once_in(EMPTY_ONCE_IN) {
        return Ok(());
    }
    let events: Vec<Event> = (0..EVENTS).map(|_| loose(&mut case.random)).collect();
    let bytes = records::events(&events).concat();
    case.recording.extend_from_slice(&bytes);
    pair.batch(&bytes, EVENTS * ANSWER_SIZE, case.seen)?;
    Ok(())
}

//! Event streams with damaged bytes and records, into output rooms of every
//! size about the multiples of an ANSWER.

use gjalvorn_model::ANSWER_SIZE;

use crate::case::Case;
use crate::compare::Outcome;
use crate::generate::bytes::damaged;
use crate::generate::tables::small_size;
use crate::random::Random;
use crate::records;

const LEADING: usize = 10;
const EVENTS: (usize, usize) = (1, 8);

/// One stream in so many is sound, so that only the room stops it.
const SOUND_ONCE_IN: usize = 8;

pub fn run(case: &mut Case) -> Outcome {
    let size = small_size(&mut case.random);
    let mut pair = case.reached(size, LEADING)?;
    let count = case.random.between(EVENTS.0, EVENTS.1);
    let sound = records::events(&case.events_from(&pair, count));
    let bytes = if case.random.once_in(SOUND_ONCE_IN) {
        sound.concat()
    } else {
        damaged(&mut case.random, &sound)
    };
    case.recording.extend_from_slice(&bytes);
    let room = room(&mut case.random, count);
    pair.batch(&bytes, room, case.seen)?;
    Ok(())
}

/// Room for some of the answers, for all or for more, give or take two bytes.
fn room(r: &mut Random, events: usize) -> usize {
    const SLACK: usize = 2;
    let answers = if r.half() {
        r.between(0, events + 1)
    } else {
        events + SLACK
    };
    let size = answers * ANSWER_SIZE + r.between(0, SLACK);
    size.saturating_sub(r.between(0, SLACK))
}

//! The batch: event records in, ANSWER records out.

use crate::events::{Answer, Event};
use crate::record::{self, kind, Stream, ANSWER_LENGTH, ANSWER_SIZE};
use crate::{Refusal, System};

/// What a batch gives beside the system and the output.
#[derive(Clone, Copy, Debug, PartialEq, Eq)]
pub struct Batched {
    /// Bytes of events read.
    pub read: usize,
    /// Bytes of output written.
    pub written: usize,
    /// 0 at the end, or the refusal 1, 2, 3, 13 or 14 that stopped the batch.
    pub number: u8,
}

/// "A batch reads event records and writes one ANSWER each into the lent
/// output, refused ones (6, 9 to 12) included. It stops at 1, 2, 3, 13 or the
/// end." Output past the written bytes is untouched.
pub fn batch(system: &mut System, events: &[u8], out: &mut [u8]) -> Batched {
    let mut done = Batched {
        read: 0,
        written: 0,
        number: 0,
    };
    if !system.well_formed() {
        done.number = Refusal::NotWellFormed.number();
        return done;
    }
    // A chunk is the room of one answer; a shorter rest is no room.
    let mut rooms = out.chunks_exact_mut(ANSWER_SIZE);
    while done.read < events.len() {
        match answer_one(system, events, done.read, rooms.next()) {
            Ok(next) => {
                done.read = next;
                done.written += ANSWER_SIZE;
            }
            Err(refusal) => {
                done.number = refusal.number();
                break;
            }
        }
    }
    done
}

/// Answers the event record at a place into its room (13 where there is none)
/// and gives the place of the next record.
fn answer_one(
    system: &mut System,
    events: &[u8],
    place: usize,
    room: Option<&mut [u8]>,
) -> Result<usize, Refusal> {
    let (event, next) = read_event(events, place)?;
    let room = room.ok_or(Refusal::NoRoom)?;
    let answer = system.step(event);
    room.copy_from_slice(&answer_record(answer, system));
    Ok(next)
}

/// The event at a place and the place of the next record.
pub(crate) fn read_event(events: &[u8], place: usize) -> Result<(Event, usize), Refusal> {
    let record = record::read(Stream::Events, events, place)?;
    Ok((Event::from_record(record)?, record.next))
}

/// An ANSWER: refusal, value, number, owing cores, locked cores.
fn answer_record(answer: Answer, system: &System) -> [u8; ANSWER_SIZE] {
    let mut record = [0; ANSWER_SIZE];
    record[0..2].copy_from_slice(&ANSWER_LENGTH.to_le_bytes());
    record[2..4].copy_from_slice(&kind::ANSWER.to_le_bytes());
    record[4] = answer.refusal;
    record[5] = answer.value;
    record[6..10].copy_from_slice(&answer.number.to_le_bytes());
    record[10..14].copy_from_slice(&system.owing.to_le_bytes());
    record[14..18].copy_from_slice(&system.locked.to_le_bytes());
    record
}

//! What the two programs share: an input, walked from its table to its last
//! event. They differ in what they write after an event.

use std::fmt::{self, Write};

use crate::batch::read_event;
use crate::events::{Answer, Event};
use crate::record::{self, kind, Stream};
use crate::{read_table, System};

/// The longest input that is walked.
pub const MAX_INPUT: usize = 32_768;

/// An event that was taken, refused or not.
pub(crate) struct Turn<'a> {
    /// The event's position, from 1.
    pub(crate) position: u32,
    pub(crate) event: Event,
    pub(crate) answer: Answer,
    /// The system after the event.
    pub(crate) system: &'a System,
}

/// What a program writes after an event.
pub(crate) type Lines = fn(&Turn, &mut String) -> fmt::Result;

/// A program's whole output for an input: a table, then events from the first
/// record with a kind of 16 or more.
pub(crate) fn output(input: &[u8], lines: Lines) -> Vec<u8> {
    let mut out = String::new();
    // Writing to a string never fails.
    let _ = walk(input, lines, &mut out);
    out.into_bytes()
}

/// The message of an input that is too long or whose table is refused, or the
/// events' lines.
fn walk(input: &[u8], lines: Lines, out: &mut String) -> fmt::Result {
    if input.len() > MAX_INPUT {
        return writeln!(out, "input too long");
    }
    let start = events_start(input);
    let table = read_table(&input[..start]);
    if table.number != 0 {
        return writeln!(out, "table refused {} at {}", table.number, table.place);
    }
    walk_events(table.system, input, start, lines, out)
}

/// Where the events start: at the first record with a kind of 16 or more,
/// whatever its length; at the end where there is none.
fn events_start(input: &[u8]) -> usize {
    let mut place = 0;
    while let Ok(record) = record::read(Stream::Table, input, place) {
        place = record.next;
    }
    // The records so far were whole, so the place is not past the end.
    match record::header(&input[place..]) {
        Some((_, kind)) if kind >= kind::RELEASE => place,
        _ => input.len(),
    }
}

/// The lines of each event, and a last one where a record is refused.
fn walk_events(
    mut system: System,
    input: &[u8],
    start: usize,
    lines: Lines,
    out: &mut String,
) -> fmt::Result {
    let mut place = start;
    let mut position = 1;
    while place < input.len() {
        match read_event(input, place) {
            Ok((event, next)) => {
                let turn = Turn {
                    position,
                    event,
                    answer: system.step(event),
                    system: &system,
                };
                lines(&turn, out)?;
                place = next;
                position += 1;
            }
            Err(refusal) => {
                return writeln!(out, "stopped {} at {}", refusal.number(), place);
            }
        }
    }
    Ok(())
}

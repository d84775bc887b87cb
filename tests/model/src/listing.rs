//! The listing program, from its input to its whole output.

use std::fmt::{self, Write};

use crate::events::Answer;
use crate::program::{self, Turn};
use crate::system::NONE;

/// The whole output for an input: one line for each event, or a message.
pub fn listing(input: &[u8]) -> Vec<u8> {
    program::output(input, event_line)
}

/// "Each event prints position from 1, kind, refusal, value, number, owing and
/// locked as eight hex digits, holder or "-"."
fn event_line(turn: &Turn, out: &mut String) -> fmt::Result {
    let (position, kind, system) = (turn.position, turn.event.kind(), turn.system);
    let Answer {
        refusal,
        value,
        number,
    } = turn.answer;
    write!(
        out,
        "{position} {kind} {refusal} {value} {number} {:08x} {:08x} ",
        system.owing, system.locked
    )?;
    match system.holder {
        NONE => writeln!(out, "-"),
        holder => writeln!(out, "{holder}"),
    }
}

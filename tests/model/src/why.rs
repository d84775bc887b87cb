//! The program that tells of every thread why it is running or is not, from its
//! input to its whole output.

use std::fmt::{self, Write};

use crate::program::{self, Turn};

/// The whole output for an input, which is the listing's: after each event one
/// line for each thread, or the listing's message.
pub fn why(input: &[u8]) -> Vec<u8> {
    program::output(input, thread_lines)
}

/// "Prints one line per thread after each event": the event's position, the
/// thread and the reason.
fn thread_lines(turn: &Turn, out: &mut String) -> fmt::Result {
    let (position, system) = (turn.position, turn.system);
    for thread in 0..system.threads {
        writeln!(out, "{position} {thread} {}", system.reason(thread))?;
    }
    Ok(())
}

//! Output that is lent to a batch: filled beforehand, with bytes around it that
//! no batch may touch.

use crate::compare::{holds, Outcome};

/// The bytes on each side of the lent part.
const GUARD: usize = 32;

/// What fills the output, again and again; neighbours differ, and a prime
/// length puts other bytes under each answer.
const FILLING: [u8; LENGTH] = filling();
const LENGTH: usize = 251;
const STRIDE: usize = 167;

const fn filling() -> [u8; LENGTH] {
    let mut bytes = [0; LENGTH];
    let mut at = 0;
    while at < LENGTH {
        bytes[at] = (at * STRIDE) as u8;
        at += 1;
    }
    bytes
}

/// So many bytes as they stand before a batch.
fn filled(count: usize) -> Vec<u8> {
    let mut bytes = FILLING.repeat(count / LENGTH + 1);
    bytes.truncate(count);
    bytes
}

pub struct Lent {
    bytes: Vec<u8>,
    room: usize,
}

impl Lent {
    pub fn of(room: usize) -> Self {
        Lent {
            bytes: filled(GUARD + room + GUARD),
            room,
        }
    }

    /// The lent part, for a batch to write into.
    pub fn lend(&mut self) -> &mut [u8] {
        &mut self.bytes[GUARD..GUARD + self.room]
    }

    /// The lent part, to be read.
    pub fn part(&self) -> &[u8] {
        &self.bytes[GUARD..GUARD + self.room]
    }

    /// Nothing before the lent part and nothing past the written bytes is
    /// touched.
    pub fn untouched_past(&self, written: usize) -> Outcome {
        let before = filled(self.bytes.len());
        let past = GUARD + written.min(self.room);
        holds(
            format_args!("output before its start or past the {written} written bytes is touched"),
            self.bytes[..GUARD] == before[..GUARD] && self.bytes[past..] == before[past..],
        )
    }
}

//! The proved gang scheduler core, as a Rust type.
//!
//! A [`System`] is a table of cores, gangs and pinned threads under a gang
//! lock. Seven events change it, and questions ask about it. Nothing here
//! refuses or looks at a value: every one goes through to the proved library,
//! which answers every input.

#![warn(missing_docs)]

mod event;
mod questions;
#[allow(missing_docs)] // the calls are named as the methods that make them
pub mod raw;

pub use event::{kind, Event};
pub use questions::reason;
pub use raw::{AnswerRecord, EventValue, Found, Ledger, Lock, ReasonFound, Sizes, System, Table};

/// What reading a table gives: the system, the refusal's number and its place.
pub type TableRead = raw::SystemRead;

/// What a batch gives beside the system and the output.
#[derive(Clone, Copy, Debug, PartialEq, Eq)]
pub struct Batched {
    /// Bytes of events read.
    pub read: usize,
    /// Bytes of output written.
    pub written: usize,
    /// 0 at the end, or the refusal 1, 2, 3, 13 or 14 that stopped the batch.
    pub number: u8,
}

impl System {
    /// Reads a table: CORES first and once, then GANG and THREAD mixed. "A
    /// refused table gives the number, the record's place (for 8, the table's
    /// length) and the empty system, with no cores, gangs or threads."
    pub fn read_table(bytes: &[u8]) -> TableRead {
        // SAFETY: the pointer and the length are those of one slice.
        unsafe { raw::gjalvorn_read_table(bytes.as_ptr(), bytes.len()) }
    }

    /// The empty system. It is what a refused table gives, and a table of no
    /// bytes is refused (8).
    pub fn empty() -> System {
        System::read_table(&[]).system
    }

    /// Whether the system is well formed: "empty, or obeying the table rules;
    /// core sets name only existing cores; occupants are pinned to their core;
    /// held exactly when a core is locked; each locked core's occupant the
    /// holder's; no core blocked while the lock is free; counts at most
    /// 1,000,000; job number at most the release number and served plus
    /// skipped equal to it; unused places zero, occupants and holder 255 for
    /// none".
    pub fn well_formed(&self) -> bool {
        // SAFETY: the call takes plain values, any of them.
        unsafe { raw::gjalvorn_well_formed(*self) }
    }

    /// "A batch reads event records and writes one ANSWER each into the lent
    /// output, refused ones (6, 9 to 12) included. It stops at 1, 2, 3, 13 or
    /// the end […]. Output past the written bytes is untouched. With 14 nothing
    /// is read or written."
    pub fn batch(&mut self, events: &[u8], out: &mut [u8]) -> Batched {
        // SAFETY: each pointer and length are those of one slice, and `out` is
        // borrowed alone.
        let done = unsafe {
            raw::gjalvorn_batch(
                *self,
                events.as_ptr(),
                events.len(),
                out.as_mut_ptr(),
                out.len(),
            )
        };
        *self = done.system;
        Batched {
            read: done.read,
            written: done.written,
            number: done.number,
        }
    }
}

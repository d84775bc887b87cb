//! The proved library's calls on x86-64, for which it is built: those of the
//! bindings.

use gjalvorn::{AnswerRecord, Batched, Event, System, TableRead};

pub fn read_table(bytes: &[u8]) -> TableRead {
    System::read_table(bytes)
}

pub fn apply(system: &mut System, event: Event) -> AnswerRecord {
    system.apply(event)
}

pub fn applied(system: System, event: Event) -> (System, AnswerRecord) {
    system.applied(event.into())
}

pub fn batch(system: &mut System, events: &[u8], out: &mut [u8]) -> Batched {
    system.batch(events, out)
}

//! The proved library's calls on another processor. The library takes and gives
//! structs as x86-64 does, which there only `arm/shim.c` can; the types are the
//! bindings'.

use std::mem::MaybeUninit;

use gjalvorn::{AnswerRecord, Batched, Event, EventValue, System, TableRead};

// In the archive that is given to the bindings as theirs.
extern "C" {
    // No shim: only a result is a struct, and its place is an argument before the others.
    fn gjalvorn_read_table(read: *mut TableRead, bytes: *const u8, length: usize);
    fn bench_apply(system: *mut System, event: *const EventValue, answer: *mut AnswerRecord);
    fn bench_applied(system: *mut System, event: *const EventValue, answer: *mut AnswerRecord);
    fn bench_batch(
        system: *mut System,
        events: *const u8,
        length: usize,
        out: *mut u8,
        room: usize,
        ends: *mut Ends,
    );
}

/// What a batch gives beside the system.
#[repr(C)]
struct Ends {
    read: usize,
    written: usize,
    number: u8,
}

pub fn read_table(bytes: &[u8]) -> TableRead {
    let mut read = MaybeUninit::uninit();
    // SAFETY: the bytes are those of one slice, and the call fills in the rest.
    unsafe {
        gjalvorn_read_table(read.as_mut_ptr(), bytes.as_ptr(), bytes.len());
        read.assume_init()
    }
}

pub fn apply(system: &mut System, event: Event) -> AnswerRecord {
    let mut answer = MaybeUninit::uninit();
    // SAFETY: the system and the event are there, and the call fills in the answer.
    unsafe {
        bench_apply(system, &event.into(), answer.as_mut_ptr());
        answer.assume_init()
    }
}

pub fn applied(mut system: System, event: Event) -> (System, AnswerRecord) {
    let mut answer = MaybeUninit::uninit();
    // SAFETY: the system and the event are there, and the call fills in the answer.
    let answer = unsafe {
        bench_applied(&mut system, &event.into(), answer.as_mut_ptr());
        answer.assume_init()
    };
    (system, answer)
}

pub fn batch(system: &mut System, events: &[u8], out: &mut [u8]) -> Batched {
    let (from, to) = (events.as_ptr(), out.as_mut_ptr());
    let mut ends = MaybeUninit::uninit();
    // SAFETY: each pointer and length are those of one slice, `out` is borrowed
    // alone, and the call fills in the ends.
    let ends: Ends = unsafe {
        bench_batch(system, from, events.len(), to, out.len(), ends.as_mut_ptr());
        ends.assume_init()
    };
    Batched {
        read: ends.read,
        written: ends.written,
        number: ends.number,
    }
}

//! The proved library as it is: its structs, field by field, and its calls.

/// How many cores, gangs and threads there are.
#[repr(C)]
#[derive(Clone, Copy, Debug, PartialEq, Eq)]
pub struct Sizes {
    /// Cores, 1 to 32; 0 in the empty system.
    pub cores: u8,
    /// Gangs, 1 to 32; 0 in the empty system.
    pub gangs: u8,
    /// Threads, at most 128; each gang has one at least.
    pub threads: u8,
}

/// Each gang's priority and budget, and each thread's gang and core.
#[repr(C)]
#[derive(Clone, Copy, Debug, PartialEq, Eq)]
pub struct Table {
    /// How many of each there are.
    pub sizes: Sizes,
    /// Each gang's priority, 1 to 99, larger is higher.
    pub priority: [u8; 32],
    /// Each gang's budget, 0 to 1,000,000 transactions an interval.
    pub budget: [u32; 32],
    /// Each thread's gang.
    pub gang: [u8; 128],
    /// The core to which each thread is pinned.
    pub core: [u8; 128],
}

/// Each gang's releases.
#[repr(C)]
#[derive(Clone, Copy, Debug, PartialEq, Eq)]
pub struct Ledger {
    /// The number of each gang's last release.
    pub number: [u32; 32],
    /// How many of its releases were served.
    pub served: [u32; 32],
    /// How many of its releases were skipped.
    pub skipped: [u32; 32],
    /// The number of its current job, 0 before the first.
    pub job: [u32; 32],
}

/// The gang lock. In a core set, bit c is core c.
#[repr(C)]
#[derive(Clone, Copy, Debug, PartialEq, Eq)]
pub struct Lock {
    /// The gang that holds the lock, 255 where it is free.
    pub holder: u8,
    /// The locked cores.
    pub locked: u32,
    /// The blocked cores.
    pub blocked: u32,
    /// The owing cores.
    pub owing: u32,
    /// Each core's occupant, a thread or 255 for none.
    pub occupant: [u8; 32],
}

/// A lock but for the occupants, each field as in [`Lock`]: what an event on
/// lent parts takes by value.
#[repr(C)]
#[derive(Clone, Copy, Debug, PartialEq, Eq)]
pub struct Held {
    pub holder: u8,
    pub locked: u32,
    pub blocked: u32,
    pub owing: u32,
}

/// The system. Every field is open: any value may be handed to any call, and
/// one that is not well formed is refused with 14.
#[repr(C)]
#[derive(Clone, Copy, Debug, PartialEq, Eq)]
pub struct System {
    /// The table, which no event changes.
    pub table: Table,
    /// Each thread's state: 0 finished, 1 ready, 2 waiting.
    pub state: [u8; 128],
    /// Each gang's releases.
    pub ledger: Ledger,
    /// The gang lock.
    pub lock: Lock,
    /// Each core's transactions since the last TICK, kept at 1,000,000 at most.
    pub kept: [u32; 32],
}

/// The fields of an ANSWER record.
#[repr(C)]
#[derive(Clone, Copy, Debug, PartialEq, Eq)]
pub struct AnswerRecord {
    /// 0, or the number of the refusal.
    pub refusal: u8,
    /// SERVE, the occupant or 255; RELEASE, 1 served, 0 skipped; TRAFFIC,
    /// 1 stopped, 0 not; else 0.
    pub value: u8,
    /// RELEASE, its number; TRAFFIC, the kept count; else 0.
    pub number: u32,
    /// The cores that owe after the event.
    pub owing: u32,
    /// The cores that are locked after the event.
    pub locked: u32,
}

/// The system after an event, and the fields of its ANSWER.
#[repr(C)]
#[derive(Clone, Copy, Debug, PartialEq, Eq)]
pub struct Answered {
    /// The system after the event, as it came where the event is refused.
    pub system: System,
    /// The answer.
    pub answer: AnswerRecord,
}

/// What an event on lent parts comes to beside them; the answer has the owing
/// and the locked cores.
#[repr(C)]
#[derive(Clone, Copy, Debug, PartialEq, Eq)]
pub struct Outcome {
    /// The holder after the event.
    pub holder: u8,
    /// The blocked cores after the event.
    pub blocked: u32,
    /// The answer.
    pub answer: AnswerRecord,
}

/// An event by its kind, which need not be an event's.
#[repr(C)]
#[derive(Clone, Copy, Debug, PartialEq, Eq)]
pub struct EventValue {
    /// 16 RELEASE, 17 FINISH, 18 WAIT, 19 WAKE, 20 SERVE, 21 TRAFFIC, 22 TICK.
    pub kind: u16,
    /// The event's gang, thread or core; TICK has none.
    pub number: u8,
    /// TRAFFIC's transactions; no other event has any.
    pub transactions: u32,
}

/// What a question finds.
#[repr(C)]
#[derive(Clone, Copy, Debug, PartialEq, Eq)]
pub struct Found {
    /// 0, or the refusal 14 or 6.
    pub refusal: u8,
    /// What was asked, 0 where the question is refused.
    pub value: u32,
}

/// What the question why finds.
#[repr(C)]
#[derive(Clone, Copy, Debug, PartialEq, Eq)]
pub struct ReasonFound {
    /// 0, or the refusal 14 or 6.
    pub refusal: u8,
    /// The reason, 1 to 8; 0 where the question is refused.
    pub reason: u8,
    /// The thread ahead for 6, the gang that holds the lock for 7, else 255; 0
    /// where the question is refused.
    pub which: u8,
}

/// What reading a table comes to.
#[repr(C)]
#[derive(Clone, Copy, Debug, PartialEq, Eq)]
pub struct SystemRead {
    /// The fresh system of the table; the empty system where it is refused.
    pub system: System,
    /// 0, or the refusal 1 to 8.
    pub number: u8,
    /// The refused record's place; the table's length for 8 and where the
    /// table is accepted.
    pub place: usize,
}

/// What a batch comes to, beside what it writes into the lent output.
#[repr(C)]
#[derive(Clone, Copy, Debug, PartialEq, Eq)]
pub struct Batched {
    /// The system after the events that were read.
    pub system: System,
    /// Bytes of events read.
    pub read: usize,
    /// Bytes of output written.
    pub written: usize,
    /// 0 at the end, or the refusal 1, 2, 3, 13 or 14 that stopped the batch.
    pub number: u8,
}

// A byte slice is handed over as its pointer and its length, an array that is
// lent as its pointer.
#[link(name = "ffi", kind = "static")]
extern "C" {
    pub fn gjalvorn_read_table(bytes: *const u8, length: usize) -> SystemRead;
    pub fn gjalvorn_batch(
        system: System,
        events: *const u8,
        events_length: usize,
        out: *mut u8,
        out_length: usize,
    ) -> Batched;
    pub fn gjalvorn_well_formed(system: System) -> bool;

    pub fn gjalvorn_release(system: System, gang: u8) -> Answered;
    pub fn gjalvorn_finish(system: System, thread: u8) -> Answered;
    pub fn gjalvorn_wait(system: System, thread: u8) -> Answered;
    pub fn gjalvorn_wake(system: System, thread: u8) -> Answered;
    pub fn gjalvorn_serve(system: System, core: u8) -> Answered;
    pub fn gjalvorn_traffic(system: System, core: u8, transactions: u32) -> Answered;
    pub fn gjalvorn_tick(system: System) -> Answered;
    pub fn gjalvorn_apply(system: System, event: EventValue) -> Answered;
    pub fn gjalvorn_apply_lent(
        sizes: Sizes,
        priority: *const [u8; 32],
        budget: *const [u32; 32],
        gang: *const [u8; 128],
        core: *const [u8; 128],
        state: *mut [u8; 128],
        number: *mut [u32; 32],
        served: *mut [u32; 32],
        skipped: *mut [u32; 32],
        job: *mut [u32; 32],
        held: Held,
        occupant: *mut [u8; 32],
        kept: *mut [u32; 32],
        event: EventValue,
    ) -> Outcome;

    pub fn gjalvorn_occupant(system: System, core: u8) -> Found;
    pub fn gjalvorn_stopped(system: System, core: u8) -> Found;
    pub fn gjalvorn_release_number(system: System, gang: u8) -> Found;
    pub fn gjalvorn_served(system: System, gang: u8) -> Found;
    pub fn gjalvorn_skipped(system: System, gang: u8) -> Found;
    pub fn gjalvorn_job_number(system: System, gang: u8) -> Found;
    pub fn gjalvorn_lowest_owing(system: System) -> Found;
    pub fn gjalvorn_owing_count(system: System) -> Found;
    pub fn gjalvorn_why(system: System, thread: u8) -> ReasonFound;
}

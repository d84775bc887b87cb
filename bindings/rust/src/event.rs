//! The seven events: each by its own method, any by its value or its kind.

use crate::raw::{self, AnswerRecord, EventValue, Held, System};

/// The kinds of the events.
pub mod kind {
    /// RELEASE: gang.
    pub const RELEASE: u16 = 16;
    /// FINISH: thread.
    pub const FINISH: u16 = 17;
    /// WAIT: thread.
    pub const WAIT: u16 = 18;
    /// WAKE: thread.
    pub const WAKE: u16 = 19;
    /// SERVE: core.
    pub const SERVE: u16 = 20;
    /// TRAFFIC: core and transactions.
    pub const TRAFFIC: u16 = 21;
    /// TICK: nothing.
    pub const TICK: u16 = 22;
}

/// An event, its numbers not yet held against a table.
#[derive(Clone, Copy, Debug, PartialEq, Eq)]
#[allow(missing_docs)] // the fields are those of document 01's records
pub enum Event {
    /// Kind 16.
    Release { gang: u8 },
    /// Kind 17.
    Finish { thread: u8 },
    /// Kind 18.
    Wait { thread: u8 },
    /// Kind 19.
    Wake { thread: u8 },
    /// Kind 20.
    Serve { core: u8 },
    /// Kind 21.
    Traffic { core: u8, transactions: u32 },
    /// Kind 22.
    Tick,
}

impl From<Event> for EventValue {
    fn from(event: Event) -> EventValue {
        let (kind, number, transactions) = match event {
            Event::Release { gang } => (kind::RELEASE, gang, 0),
            Event::Finish { thread } => (kind::FINISH, thread, 0),
            Event::Wait { thread } => (kind::WAIT, thread, 0),
            Event::Wake { thread } => (kind::WAKE, thread, 0),
            Event::Serve { core } => (kind::SERVE, core, 0),
            Event::Traffic { core, transactions } => (kind::TRAFFIC, core, transactions),
            Event::Tick => (kind::TICK, 0, 0),
        };
        EventValue {
            kind,
            number,
            transactions,
        }
    }
}

/// The events. Each changes the system where it is and gives its ANSWER: 14
/// where the system is not well formed, then 6, then the event's own refusals.
/// "A refused event […] hands the system back as it came."
impl System {
    /// "RELEASE: the gang's number goes up by one. If all its threads are
    /// finished the release is served: all become ready, their cores owe, and
    /// the gang's current job takes that number. Otherwise it is skipped and
    /// nothing else changes." Refused with 12 when the number is 4,294,967,295.
    pub fn release(&mut self, gang: u8) -> AnswerRecord {
        self.apply(Event::Release { gang })
    }

    /// "FINISH […]: a running thread becomes finished […]; its core owes."
    /// Refused with 9 when it is not running.
    pub fn finish(&mut self, thread: u8) -> AnswerRecord {
        self.apply(Event::Finish { thread })
    }

    /// "[…] WAIT: a running thread becomes […] waiting; its core owes." Refused
    /// with 9 when it is not running.
    pub fn wait(&mut self, thread: u8) -> AnswerRecord {
        self.apply(Event::Wait { thread })
    }

    /// "WAKE: a waiting thread becomes ready; its core owes." Refused with 10
    /// when it is not waiting.
    pub fn wake(&mut self, thread: u8) -> AnswerRecord {
        self.apply(Event::Wake { thread })
    }

    /// "SERVE core c, owing or not": it gives up its lock and its occupant, and
    /// its first ready thread takes the core, or the core is blocked behind a
    /// holder of higher priority. The value is the occupant, or 255.
    pub fn serve(&mut self, core: u8) -> AnswerRecord {
        self.apply(Event::Serve { core })
    }

    /// "TRAFFIC: the core's count for the interval grows. It is kept as the
    /// smaller of 1,000,000 and the true sum since the last TICK." Refused with
    /// 11 from a core with an occupant.
    pub fn traffic(&mut self, core: u8, transactions: u32) -> AnswerRecord {
        self.apply(Event::Traffic { core, transactions })
    }

    /// "TICK: all counts become 0."
    pub fn tick(&mut self) -> AnswerRecord {
        self.apply(Event::Tick)
    }

    /// Any event.
    pub fn apply(&mut self, event: Event) -> AnswerRecord {
        self.apply_kind(event.into())
    }

    /// Any event by its kind. A kind that is no event's is refused as a record
    /// of that kind is: 14 first, then 2.
    pub fn apply_kind(&mut self, event: EventValue) -> AnswerRecord {
        let System {
            table,
            state,
            ledger,
            lock,
            kept,
        } = self;
        let held = Held {
            holder: lock.holder,
            locked: lock.locked,
            blocked: lock.blocked,
            owing: lock.owing,
        };
        // SAFETY: each pointer is to one whole array of the system, each array
        // is lent once, and the system is borrowed alone until the call is
        // back, which keeps none of them. The rest are plain values, any of
        // them.
        let outcome = unsafe {
            raw::gjalvorn_apply_lent(
                table.sizes,
                &table.priority,
                &table.budget,
                &table.gang,
                &table.core,
                state,
                &mut ledger.number,
                &mut ledger.served,
                &mut ledger.skipped,
                &mut ledger.job,
                held,
                &mut lock.occupant,
                kept,
                event,
            )
        };
        lock.holder = outcome.holder;
        lock.locked = outcome.answer.locked;
        lock.blocked = outcome.blocked;
        lock.owing = outcome.answer.owing;
        outcome.answer
    }

    /// Any event by its kind, the system by value, as C hands it: gives the
    /// system after the event, as it came where the event is refused, and the
    /// answer.
    pub fn applied(self, event: EventValue) -> (System, AnswerRecord) {
        // SAFETY: the call takes plain values, any of them.
        let answered = unsafe { raw::gjalvorn_apply(self, event) };
        (answered.system, answered.answer)
    }
}

//! The questions about a system: document 01's eight, and why a thread is
//! running or is not.

use crate::system::{lowest_bit, System, NONE};
use crate::Refusal;

/// What a question gives. The system is only read, so it stays as it came.
#[derive(Clone, Copy, Debug, PartialEq, Eq)]
pub struct Reply {
    /// 0, or the refusal 14 or 6.
    pub refusal: u8,
    /// What was asked, 0 where the question is refused.
    pub value: u32,
}

/// What the question why gives.
#[derive(Clone, Copy, Debug, PartialEq, Eq)]
pub struct WhyReply {
    /// 0, or the refusal 14 or 6.
    pub refusal: u8,
    /// The reason's number, 1 to 8; 0 where the question is refused.
    pub reason: u8,
    /// The thread ahead for reason 6, the holder for reason 7, 255 for the
    /// others; 0 where the question is refused.
    pub which: u8,
}

/// The questions, for any field values: 14 first, then 6.
impl System {
    /// A core's occupant, or 255.
    pub fn ask_occupant(&self, core: u8) -> Reply {
        self.ask(|s| Ok(s.occupant[s.core_place(core)?].into()))
    }

    /// Whether a core is stopped, 1 or 0.
    pub fn ask_stopped(&self, core: u8) -> Reply {
        self.ask(|s| s.core_place(core).map(|_| s.is_stopped(core).into()))
    }

    /// A gang's release number.
    pub fn ask_number(&self, gang: u8) -> Reply {
        self.ask(|s| Ok(s.number[s.gang_place(gang)?]))
    }

    /// How many of a gang's releases were served.
    pub fn ask_served(&self, gang: u8) -> Reply {
        self.ask(|s| Ok(s.served[s.gang_place(gang)?]))
    }

    /// How many of a gang's releases were skipped.
    pub fn ask_skipped(&self, gang: u8) -> Reply {
        self.ask(|s| Ok(s.skipped[s.gang_place(gang)?]))
    }

    /// The number of a gang's current job, 0 before the first.
    pub fn ask_job(&self, gang: u8) -> Reply {
        self.ask(|s| Ok(s.job[s.gang_place(gang)?]))
    }

    /// The lowest owing core, or 255.
    pub fn ask_lowest_owing(&self) -> Reply {
        self.ask(|s| Ok(lowest_bit(s.owing).unwrap_or(NONE).into()))
    }

    /// How many cores owe.
    pub fn ask_owing_count(&self) -> Reply {
        self.ask(|s| Ok(s.owing.count_ones()))
    }

    /// Why a thread is running or is not: the first reason that holds.
    pub fn ask_why(&self, thread: u8) -> WhyReply {
        match self.found(|s| s.thread_place(thread).map(|_| s.reason(thread))) {
            Ok(reason) => WhyReply {
                refusal: 0,
                reason: reason.number(),
                which: reason.which(),
            },
            Err(refusal) => WhyReply {
                refusal: refusal.number(),
                reason: 0,
                which: 0,
            },
        }
    }

    /// Asks for a number, which is 0 where the question is refused.
    fn ask(&self, question: impl Fn(&Self) -> Result<u32, Refusal>) -> Reply {
        match self.found(question) {
            Ok(value) => Reply { refusal: 0, value },
            Err(refusal) => Reply {
                refusal: refusal.number(),
                value: 0,
            },
        }
    }

    /// What a question finds in a well-formed system (14).
    fn found<T>(&self, question: impl Fn(&Self) -> Result<T, Refusal>) -> Result<T, Refusal> {
        if self.well_formed() {
            question(self)
        } else {
            Err(Refusal::NotWellFormed)
        }
    }
}

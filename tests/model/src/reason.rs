//! Why a thread is running or is not: document 02's K3.

use std::fmt;

use crate::system::{bit, place, System, FINISHED, NONE, WAITING};

/// The reasons, in the order in which they are looked for.
#[derive(Clone, Copy, Debug, PartialEq, Eq)]
pub enum Reason {
    /// It is finished.
    Finished,
    /// It is waiting.
    Waiting,
    /// It is running on a locked core.
    RunningLocked,
    /// It is running but displaced: its core is not locked.
    RunningDisplaced,
    /// Its core owes a reschedule.
    CoreOwes,
    /// Another thread is ahead of it on its core: the core's first ready one.
    ThreadAhead(u8),
    /// A gang of higher priority holds the lock.
    GangHolds(u8),
    /// None of these, which no reached state gives.
    NoneOfThese,
}

impl Reason {
    /// The reason's place in the order, from 1.
    pub const fn number(self) -> u8 {
        match self {
            Reason::Finished => 1,
            Reason::Waiting => 2,
            Reason::RunningLocked => 3,
            Reason::RunningDisplaced => 4,
            Reason::CoreOwes => 5,
            Reason::ThreadAhead(_) => 6,
            Reason::GangHolds(_) => 7,
            Reason::NoneOfThese => 8,
        }
    }

    /// The thread that is ahead or the gang that holds the lock, 255 for the
    /// reasons that name neither.
    pub const fn which(self) -> u8 {
        match self {
            Reason::ThreadAhead(thread) => thread,
            Reason::GangHolds(gang) => gang,
            _ => NONE,
        }
    }
}

/// The words that the program prints.
impl fmt::Display for Reason {
    fn fmt(&self, out: &mut fmt::Formatter<'_>) -> fmt::Result {
        match self {
            Reason::Finished => write!(out, "finished"),
            Reason::Waiting => write!(out, "waiting"),
            Reason::RunningLocked => write!(out, "running on a locked core"),
            Reason::RunningDisplaced => write!(out, "running but displaced"),
            Reason::CoreOwes => write!(out, "ready, but its core owes a reschedule"),
            Reason::ThreadAhead(thread) => write!(
                out,
                "ready, but another thread is ahead of it on its core: thread {thread}"
            ),
            Reason::GangHolds(gang) => write!(
                out,
                "ready, but a gang of higher priority holds the lock: gang {gang}"
            ),
            Reason::NoneOfThese => write!(out, "none of these"),
        }
    }
}

impl System {
    /// "For a thread, give the first of these that holds", of a thread that is
    /// in the table.
    pub(crate) fn reason(&self, thread: u8) -> Reason {
        let state = place(&self.thread_state, thread);
        let core = self.core_of(thread);
        let running = self.is_running(thread);
        if state == Some(FINISHED) {
            Reason::Finished
        } else if state == Some(WAITING) {
            Reason::Waiting
        } else if running && self.locked & bit(core) != 0 {
            Reason::RunningLocked
        } else if running {
            Reason::RunningDisplaced
        } else if self.owing & bit(core) != 0 {
            Reason::CoreOwes
        } else if let Some(ahead) = self.first_ready(core).filter(|&first| first != thread) {
            Reason::ThreadAhead(ahead)
        } else if self.holder != NONE
            && self.priority_of(self.holder) > self.priority_of(self.gang_of(thread))
        {
            Reason::GangHolds(self.holder)
        } else {
            Reason::NoneOfThese
        }
    }
}

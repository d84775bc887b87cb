//! The questions.

use crate::raw::{self, Found, ReasonFound, System};

/// Why a thread is running or is not, in the order in which it is looked for.
pub mod reason {
    /// It is finished.
    pub const FINISHED: u8 = 1;
    /// It is waiting.
    pub const WAITING: u8 = 2;
    /// It is running on a locked core.
    pub const RUNNING_LOCKED: u8 = 3;
    /// It is running but displaced: its core is not locked.
    pub const RUNNING_DISPLACED: u8 = 4;
    /// Its core owes a reschedule.
    pub const CORE_OWES: u8 = 5;
    /// Another thread is ahead of it on its core: the core's first ready one.
    pub const THREAD_AHEAD: u8 = 6;
    /// A gang of higher priority holds the lock.
    pub const GANG_HOLDS: u8 = 7;
    /// None of these, which is never given where events led to the system.
    pub const NONE: u8 = 8;
}

/// The questions: 14 where the system is not well formed, then 6. The value of
/// a refused question is 0.
impl System {
    /// A core's occupant, a thread or 255.
    pub fn occupant(&self, core: u8) -> Found {
        // SAFETY: the call takes plain values, any of them.
        unsafe { raw::gjalvorn_occupant(*self, core) }
    }

    /// Whether a core is stopped, 1 or 0: "when it has no occupant, the lock is
    /// held, and its true sum is at least the holder's budget".
    pub fn stopped(&self, core: u8) -> Found {
        // SAFETY: the call takes plain values, any of them.
        unsafe { raw::gjalvorn_stopped(*self, core) }
    }

    /// A gang's release number.
    pub fn release_number(&self, gang: u8) -> Found {
        // SAFETY: the call takes plain values, any of them.
        unsafe { raw::gjalvorn_release_number(*self, gang) }
    }

    /// How many of a gang's releases were served.
    pub fn served(&self, gang: u8) -> Found {
        // SAFETY: the call takes plain values, any of them.
        unsafe { raw::gjalvorn_served(*self, gang) }
    }

    /// How many of a gang's releases were skipped.
    pub fn skipped(&self, gang: u8) -> Found {
        // SAFETY: the call takes plain values, any of them.
        unsafe { raw::gjalvorn_skipped(*self, gang) }
    }

    /// A gang's "current job's number (0 before the first)".
    pub fn job_number(&self, gang: u8) -> Found {
        // SAFETY: the call takes plain values, any of them.
        unsafe { raw::gjalvorn_job_number(*self, gang) }
    }

    /// "The lowest owing core or 255."
    pub fn lowest_owing(&self) -> Found {
        // SAFETY: the call takes plain values, any of them.
        unsafe { raw::gjalvorn_lowest_owing(*self) }
    }

    /// "How many cores owe."
    pub fn owing_count(&self) -> Found {
        // SAFETY: the call takes plain values, any of them.
        unsafe { raw::gjalvorn_owing_count(*self) }
    }

    /// Why a thread is running or is not: the first [`reason`] that holds, and
    /// the thread or the gang that it names.
    pub fn why(&self, thread: u8) -> ReasonFound {
        // SAFETY: the call takes plain values, any of them.
        unsafe { raw::gjalvorn_why(*self, thread) }
    }
}

//! The system: its parts, and what makes it well formed.

/// The most cores.
pub const MAX_CORES: usize = 32;
/// The most gangs.
pub const MAX_GANGS: usize = 32;
/// The room for threads.
pub const MAX_THREADS: usize = 128;
/// The highest priority; the lowest is 1.
pub const MAX_PRIORITY: u8 = 99;
/// The most transactions: of a budget, of a TRAFFIC and of a kept count.
pub const MAX_COUNT: u32 = 1_000_000;
/// No occupant, no holder, no core.
pub const NONE: u8 = 255;

/// A thread's state at first and after FINISH.
pub const FINISHED: u8 = 0;
/// A thread's state after a served RELEASE or a WAKE.
pub const READY: u8 = 1;
/// A thread's state after WAIT.
pub const WAITING: u8 = 2;

/// The whole state. All fields are open, so that any value whatever can be
/// handed to the calls; those that are not [well formed](System::well_formed)
/// are refused.
#[derive(Clone, Debug, PartialEq, Eq)]
pub struct System {
    /// How many cores there are.
    pub cores: u8,
    /// How many gangs there are.
    pub gangs: u8,
    /// How many threads there are.
    pub threads: u8,
    /// Each gang's priority, larger is higher.
    pub priority: [u8; MAX_GANGS],
    /// Each gang's budget, in transactions an interval.
    pub budget: [u32; MAX_GANGS],
    /// Each thread's gang.
    pub thread_gang: [u8; MAX_THREADS],
    /// The core to which each thread is pinned.
    pub thread_core: [u8; MAX_THREADS],
    /// Each thread's state: 0 finished, 1 ready, 2 waiting.
    pub thread_state: [u8; MAX_THREADS],
    /// Each gang's release number: the releases taken.
    pub number: [u32; MAX_GANGS],
    /// Each gang's releases served.
    pub served: [u32; MAX_GANGS],
    /// Each gang's releases skipped.
    pub skipped: [u32; MAX_GANGS],
    /// The number of each gang's current job, 0 before the first.
    pub job: [u32; MAX_GANGS],
    /// The gang that holds the lock, 255 when it is free.
    pub holder: u8,
    /// The locked cores; bit c is core c.
    pub locked: u32,
    /// The blocked cores.
    pub blocked: u32,
    /// The owing cores.
    pub owing: u32,
    /// Each core's occupant, 255 for none.
    pub occupant: [u8; MAX_CORES],
    /// Each core's kept count for the interval.
    pub count: [u32; MAX_CORES],
}

impl System {
    /// The empty system, with no cores, gangs or threads.
    pub const fn empty() -> Self {
        System {
            cores: 0,
            gangs: 0,
            threads: 0,
            priority: [0; MAX_GANGS],
            budget: [0; MAX_GANGS],
            thread_gang: [0; MAX_THREADS],
            thread_core: [0; MAX_THREADS],
            thread_state: [FINISHED; MAX_THREADS],
            number: [0; MAX_GANGS],
            served: [0; MAX_GANGS],
            skipped: [0; MAX_GANGS],
            job: [0; MAX_GANGS],
            holder: NONE,
            locked: 0,
            blocked: 0,
            owing: 0,
            occupant: [NONE; MAX_CORES],
            count: [0; MAX_CORES],
        }
    }

    /// Document 01's list, no more and no less: "empty, or obeying the table
    /// rules; core sets name only existing cores; occupants are pinned to
    /// their core; held exactly when a core is locked; each locked core's
    /// occupant the holder's; no core blocked while the lock is free; counts at
    /// most 1,000,000; job number at most the release number and served plus
    /// skipped equal to it; unused places zero, occupants and holder 255 for
    /// none".
    pub fn well_formed(&self) -> bool {
        if self.cores == 0 {
            return *self == System::empty();
        }
        self.sizes_fit()
            && self.gangs_obey()
            && self.threads_obey()
            && self.cores_obey()
            && self.lock_obeys()
    }

    /// The table's sizes. The other parts of the list rely on them. (A table's
    /// threads are at least one, as each gang has one.)
    fn sizes_fit(&self) -> bool {
        (1..=MAX_CORES).contains(&usize::from(self.cores))
            && (1..=MAX_GANGS).contains(&usize::from(self.gangs))
            && usize::from(self.threads) <= MAX_THREADS
    }

    /// Priorities from 1 to 99 and distinct, budgets in range, the release
    /// counts in agreement, and zeros in the unused places.
    fn gangs_obey(&self) -> bool {
        let gangs = usize::from(self.gangs);
        let mut taken = 0u128;
        for g in 0..gangs {
            let priority = self.priority[g];
            if priority == 0 || priority > MAX_PRIORITY || self.budget[g] > MAX_COUNT {
                return false;
            }
            let mark = 1u128 << priority;
            let answered = u64::from(self.served[g]) + u64::from(self.skipped[g]);
            if taken & mark != 0
                || self.job[g] > self.number[g]
                || answered != u64::from(self.number[g])
            {
                return false;
            }
            taken |= mark;
        }
        self.priority[gangs..].iter().all(|&p| p == 0)
            && [
                &self.budget,
                &self.number,
                &self.served,
                &self.skipped,
                &self.job,
            ]
            .iter()
            .all(|places| places[gangs..].iter().all(|&n| n == 0))
    }

    /// Each thread's gang and core in the table and its state one of the
    /// three, a thread for each gang, and zeros in the unused places.
    fn threads_obey(&self) -> bool {
        let threads = usize::from(self.threads);
        let mut manned = 0u32;
        for t in 0..threads {
            if self.thread_gang[t] >= self.gangs
                || self.thread_core[t] >= self.cores
                || self.thread_state[t] > WAITING
            {
                return false;
            }
            manned |= bit(self.thread_gang[t]);
        }
        manned == first_bits(self.gangs)
            && [&self.thread_gang, &self.thread_core, &self.thread_state]
                .iter()
                .all(|places| places[threads..].iter().all(|&n| n == 0))
    }

    /// Occupants pinned to their core, counts in range, unused places unused.
    fn cores_obey(&self) -> bool {
        let cores = usize::from(self.cores);
        let pinned = self.occupant.iter().zip(0u8..).all(|(&thread, core)| {
            thread == NONE
                || (thread < self.threads && self.thread_core[usize::from(thread)] == core)
        });
        pinned
            && self.count[..cores].iter().all(|&n| n <= MAX_COUNT)
            && self.count[cores..].iter().all(|&n| n == 0)
    }

    /// Core sets of existing cores, the lock held exactly when a core is
    /// locked and then by a gang with its thread on each locked core, and no
    /// core blocked while it is free.
    fn lock_obeys(&self) -> bool {
        let sets = self.locked | self.blocked | self.owing;
        if sets & !first_bits(self.cores) != 0 {
            return false;
        }
        if self.holder == NONE {
            return self.locked == 0 && self.blocked == 0;
        }
        self.locked != 0
            && bits(self.locked).all(|core| self.gang_of(self.occupant_of(core)) == self.holder)
    }

    /// A core's occupant, a thread or none.
    pub(crate) fn occupant_of(&self, core: u8) -> u8 {
        place(&self.occupant, core).unwrap_or(NONE)
    }

    /// A thread's gang; none for no thread.
    pub(crate) fn gang_of(&self, thread: u8) -> u8 {
        place(&self.thread_gang, thread).unwrap_or(NONE)
    }

    /// The core to which a thread is pinned; none for no thread.
    pub(crate) fn core_of(&self, thread: u8) -> u8 {
        place(&self.thread_core, thread).unwrap_or(NONE)
    }

    /// "A thread is running when it is its core's occupant and is ready."
    pub(crate) fn is_running(&self, thread: u8) -> bool {
        place(&self.thread_state, thread) == Some(READY)
            && place(&self.thread_core, thread)
                .map_or(false, |core| self.occupant_of(core) == thread)
    }

    /// A core's first ready thread: "that of highest priority among the ready
    /// threads pinned there; among equals, the lowest thread number".
    pub(crate) fn first_ready(&self, core: u8) -> Option<u8> {
        let mut first = None;
        let mut highest = 0;
        let pinned = self.thread_core.iter().zip(&self.thread_state);
        for (thread, (&at, &state)) in (0..self.threads).zip(pinned) {
            if at == core && state == READY {
                let priority = self.priority_of(self.gang_of(thread));
                if first.is_none() || priority > highest {
                    first = Some(thread);
                    highest = priority;
                }
            }
        }
        first
    }

    /// A gang's priority, 0 (below all) for none.
    pub(crate) fn priority_of(&self, gang: u8) -> u8 {
        place(&self.priority, gang).unwrap_or(0)
    }

    /// "A core is stopped when it has no occupant, the lock is held, and its
    /// true sum is at least the holder's budget." No budget is above the
    /// largest kept count, so the kept count decides the same.
    pub(crate) fn is_stopped(&self, core: u8) -> bool {
        match (place(&self.count, core), place(&self.budget, self.holder)) {
            (Some(count), Some(budget)) => self.occupant_of(core) == NONE && count >= budget,
            _ => false,
        }
    }
}

/// The value at a place, if there is such a place.
pub(crate) fn place<T: Copy>(places: &[T], at: u8) -> Option<T> {
    places.get(usize::from(at)).copied()
}

/// "In a core set, bit c is core c": the set of one core. Empty for a number
/// that no core can have.
pub(crate) fn bit(core: u8) -> u32 {
    1u32.checked_shl(u32::from(core)).unwrap_or(0)
}

/// The set of the cores below a count of at most 32.
fn first_bits(count: u8) -> u32 {
    bit(count).wrapping_sub(1)
}

/// The cores of a set, lowest first.
fn bits(mut set: u32) -> impl Iterator<Item = u8> {
    std::iter::from_fn(move || {
        let lowest = lowest_bit(set)?;
        set &= !bit(lowest);
        Some(lowest)
    })
}

/// The lowest core of a set.
pub(crate) fn lowest_bit(set: u32) -> Option<u8> {
    match set {
        0 => None,
        _ => Some(set.trailing_zeros() as u8), // below 32
    }
}

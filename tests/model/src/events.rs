//! The seven events.

use crate::record::{kind, Record};
use crate::system::{
    bit, System, FINISHED, MAX_CORES, MAX_COUNT, MAX_GANGS, MAX_THREADS, NONE, READY, WAITING,
};
use crate::Refusal;

/// What an event answers; document 01 adds the owing and locked sets, which
/// are the system's own.
#[derive(Clone, Copy, Debug, PartialEq, Eq)]
pub struct Answer {
    /// 0, or the refusal 6, 9 to 12 or 14.
    pub refusal: u8,
    /// SERVE, the occupant or 255; RELEASE, 1 served, 0 skipped; TRAFFIC,
    /// 1 stopped, 0 not; else 0.
    pub value: u8,
    /// RELEASE, its number; TRAFFIC, the kept count; else 0.
    pub number: u32,
}

impl Answer {
    /// An accepted event's answer.
    const fn accepted(value: u8, number: u32) -> Self {
        Answer {
            refusal: 0,
            value,
            number,
        }
    }

    /// "If refused, both 0."
    const fn refused(refusal: Refusal) -> Self {
        Answer {
            refusal: refusal.number(),
            value: 0,
            number: 0,
        }
    }
}

/// An event as it was read, its numbers not yet held against a table.
#[derive(Clone, Copy, Debug, PartialEq, Eq)]
#[allow(missing_docs)] // the fields are those of document 01's records
pub enum Event {
    /// Kind 16.
    Release { gang: u8 },
    /// Kind 17.
    Finish { thread: u8 },
    /// Kind 18.
    Wait { thread: u8 },
    /// Kind 19.
    Wake { thread: u8 },
    /// Kind 20.
    Serve { core: u8 },
    /// Kind 21.
    Traffic { core: u8, transactions: u32 },
    /// Kind 22.
    Tick,
}

impl Event {
    /// The event of a record that the event stream's reader accepted.
    pub(crate) fn from_record(record: Record) -> Result<Self, Refusal> {
        match (record.kind, record.payload) {
            (kind::RELEASE, &[gang]) => Ok(Event::Release { gang }),
            (kind::FINISH, &[thread]) => Ok(Event::Finish { thread }),
            (kind::WAIT, &[thread]) => Ok(Event::Wait { thread }),
            (kind::WAKE, &[thread]) => Ok(Event::Wake { thread }),
            (kind::SERVE, &[core]) => Ok(Event::Serve { core }),
            (kind::TRAFFIC, &[core, n0, n1, n2, n3]) => Ok(Event::Traffic {
                core,
                transactions: u32::from_le_bytes([n0, n1, n2, n3]),
            }),
            (kind::TICK, &[]) => Ok(Event::Tick),
            // The list of lengths lets no other payload through.
            _ => Err(Refusal::WrongLength),
        }
    }

    /// The event's kind.
    pub fn kind(self) -> u16 {
        match self {
            Event::Release { .. } => kind::RELEASE,
            Event::Finish { .. } => kind::FINISH,
            Event::Wait { .. } => kind::WAIT,
            Event::Wake { .. } => kind::WAKE,
            Event::Serve { .. } => kind::SERVE,
            Event::Traffic { .. } => kind::TRAFFIC,
            Event::Tick => kind::TICK,
        }
    }
}

/// The seven events, for any field values: 14 first, then 6, then the event's
/// own refusals. A refused event changes nothing.
impl System {
    /// RELEASE of a gang.
    pub fn release(&mut self, gang: u8) -> Answer {
        self.apply(Event::Release { gang })
    }

    /// FINISH of a thread.
    pub fn finish(&mut self, thread: u8) -> Answer {
        self.apply(Event::Finish { thread })
    }

    /// WAIT of a thread.
    pub fn wait(&mut self, thread: u8) -> Answer {
        self.apply(Event::Wait { thread })
    }

    /// WAKE of a thread.
    pub fn wake(&mut self, thread: u8) -> Answer {
        self.apply(Event::Wake { thread })
    }

    /// SERVE of a core.
    pub fn serve(&mut self, core: u8) -> Answer {
        self.apply(Event::Serve { core })
    }

    /// TRAFFIC from a core.
    pub fn traffic(&mut self, core: u8, transactions: u32) -> Answer {
        self.apply(Event::Traffic { core, transactions })
    }

    /// TICK.
    pub fn tick(&mut self) -> Answer {
        self.apply(Event::Tick)
    }

    /// Any event: refusal 14, or [`System::step`].
    pub fn apply(&mut self, event: Event) -> Answer {
        if self.well_formed() {
            self.step(event)
        } else {
            Answer::refused(Refusal::NotWellFormed)
        }
    }

    /// Any event on a system that is known to be well formed, as it stays
    /// through every event. On another one nothing is promised but an answer.
    pub fn step(&mut self, event: Event) -> Answer {
        let answer = match event {
            Event::Release { gang } => self.step_release(gang),
            Event::Finish { thread } => self.step_leave(thread, FINISHED),
            Event::Wait { thread } => self.step_leave(thread, WAITING),
            Event::Wake { thread } => self.step_wake(thread),
            Event::Serve { core } => self.step_serve(core),
            Event::Traffic { core, transactions } => self.step_traffic(core, transactions),
            Event::Tick => Ok(self.step_tick()),
        };
        answer.unwrap_or_else(Answer::refused)
    }

    /// "RELEASE: the gang's number goes up by one. If all its threads are
    /// finished the release is served […]. Otherwise it is skipped and nothing
    /// else changes."
    fn step_release(&mut self, gang: u8) -> Result<Answer, Refusal> {
        let g = self.gang_place(gang)?;
        let number = self.number[g]
            .checked_add(1)
            .ok_or(Refusal::NumbersUsedUp)?;
        self.number[g] = number;
        let served = self.all_finished(gang);
        if served {
            self.make_ready(gang);
            self.served[g] = self.served[g].saturating_add(1); // at most the number
            self.job[g] = number;
        } else {
            self.skipped[g] = self.skipped[g].saturating_add(1); // at most the number
        }
        Ok(Answer::accepted(u8::from(served), number))
    }

    /// Whether all of a gang's threads are finished.
    fn all_finished(&self, gang: u8) -> bool {
        (0..self.threads)
            .zip(self.thread_gang.iter().zip(&self.thread_state))
            .all(|(_, (&of, &state))| of != gang || state == FINISHED)
    }

    /// Makes all of a gang's threads ready and their cores owe.
    fn make_ready(&mut self, gang: u8) {
        let places = self.thread_gang.iter().zip(&self.thread_core);
        let states = self.thread_state.iter_mut().zip(places);
        for (_, (state, (&of, &core))) in (0..self.threads).zip(states) {
            if of == gang {
                *state = READY;
                self.owing |= bit(core);
            }
        }
    }

    /// "FINISH, WAIT: a running thread becomes finished or waiting; its core
    /// owes." A displaced thread is running until its core is served.
    fn step_leave(&mut self, thread: u8, state: u8) -> Result<Answer, Refusal> {
        let t = self.thread_place(thread)?;
        if !self.is_running(thread) {
            return Err(Refusal::NotRunning);
        }
        self.thread_state[t] = state;
        self.owing |= bit(self.thread_core[t]);
        Ok(Answer::accepted(0, 0))
    }

    /// "WAKE: a waiting thread becomes ready; its core owes."
    fn step_wake(&mut self, thread: u8) -> Result<Answer, Refusal> {
        let t = self.thread_place(thread)?;
        if self.thread_state[t] != WAITING {
            return Err(Refusal::NotWaiting);
        }
        self.thread_state[t] = READY;
        self.owing |= bit(self.thread_core[t]);
        Ok(Answer::accepted(0, 0))
    }

    /// "SERVE core c, owing or not, in this order": (a), (b), (c).
    fn step_serve(&mut self, core: u8) -> Result<Answer, Refusal> {
        let c = self.core_place(core)?;
        // (a) c no longer owes and is no longer blocked.
        self.owing &= !bit(core);
        self.blocked &= !bit(core);
        // (b) c gives up its lock and its occupant.
        self.unlock(core);
        self.occupant[c] = NONE;
        // (c) c's first ready thread takes the core if it may.
        if let Some(thread) = self.first_ready(core) {
            if self.lock_for(self.gang_of(thread), core) {
                self.occupant[c] = thread;
            }
        }
        Ok(Answer::accepted(self.occupant[c], 0))
    }

    /// Step (b): "if c was locked it is unlocked; if no core is locked now, the
    /// lock is free, every blocked core owes and none is blocked". Where none
    /// was locked before, the lock is free and none blocked already.
    fn unlock(&mut self, core: u8) {
        self.locked &= !bit(core);
        if self.locked == 0 {
            self.holder = NONE;
            self.owing |= self.blocked;
            self.blocked = 0;
        }
    }

    /// Step (c): locks the core for a gang, displacing a lower holder, or
    /// blocks it behind a higher one; says whether it is locked.
    fn lock_for(&mut self, gang: u8, core: u8) -> bool {
        if self.holder != NONE && self.holder != gang {
            if self.priority_of(gang) < self.priority_of(self.holder) {
                self.blocked |= bit(core);
                return false;
            }
            // Their occupants stay until they are served.
            self.owing |= self.locked;
            self.locked = 0;
        }
        self.holder = gang;
        self.locked |= bit(core);
        true
    }

    /// "TRAFFIC: the core's count for the interval grows. It is kept as the
    /// smaller of 1,000,000 and the true sum since the last TICK."
    fn step_traffic(&mut self, core: u8, transactions: u32) -> Result<Answer, Refusal> {
        let c = self.core_place(core)?;
        if transactions > MAX_COUNT {
            return Err(Refusal::OutOfRange);
        }
        if self.occupant[c] != NONE {
            return Err(Refusal::Occupied);
        }
        let count = self.count[c].saturating_add(transactions).min(MAX_COUNT);
        self.count[c] = count;
        Ok(Answer::accepted(u8::from(self.is_stopped(core)), count))
    }

    /// "TICK: all counts become 0."
    fn step_tick(&mut self) -> Answer {
        self.count = [0; MAX_CORES];
        Answer::accepted(0, 0)
    }
}

/// Refusal 6: the place of a number that is in the table.
impl System {
    /// A core's place.
    pub(crate) fn core_place(&self, core: u8) -> Result<usize, Refusal> {
        in_table(core, self.cores, MAX_CORES)
    }

    /// A gang's place.
    pub(crate) fn gang_place(&self, gang: u8) -> Result<usize, Refusal> {
        in_table(gang, self.gangs, MAX_GANGS)
    }

    /// A thread's place.
    pub(crate) fn thread_place(&self, thread: u8) -> Result<usize, Refusal> {
        in_table(thread, self.threads, MAX_THREADS)
    }
}

/// The place of a number below a count. The room is never the lower bound in a
/// well-formed system; it keeps the place within its array in any other.
fn in_table(number: u8, count: u8, room: usize) -> Result<usize, Refusal> {
    let place = usize::from(number);
    if number < count && place < room {
        Ok(place)
    } else {
        Err(Refusal::OutOfRange)
    }
}

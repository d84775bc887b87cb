//! Reading a table.

use crate::record::{self, kind, Record, Stream};
use crate::system::{bit, System, MAX_CORES, MAX_COUNT, MAX_GANGS, MAX_PRIORITY, MAX_THREADS};
use crate::Refusal;

/// What reading a table gives.
#[derive(Clone, Debug, PartialEq, Eq)]
pub struct TableRead {
    /// 0, or the refusal 1 to 8.
    pub number: u8,
    /// The refused record's place; the table's length for 8 and when accepted.
    pub place: usize,
    /// The system at its start; the empty system when refused.
    pub system: System,
}

/// Reads a table: CORES first and once, then GANG and THREAD mixed.
pub fn read_table(bytes: &[u8]) -> TableRead {
    let mut table = Table::new();
    let mut place = 0;
    let outcome = loop {
        if place == bytes.len() {
            break table.end();
        }
        match table.read_record(bytes, place) {
            Ok(next) => place = next,
            Err(refusal) => break Err(refusal),
        }
    };
    match outcome {
        Ok(()) => TableRead {
            number: 0,
            place,
            system: table.system,
        },
        Err(refusal) => TableRead {
            number: refusal.number(),
            place,
            system: System::empty(),
        },
    }
}

/// A table being read: the system so far and two sets that spare a search.
struct Table {
    system: System,
    /// Bit p: some gang has priority p.
    taken: u128,
    /// Bit g: gang g has a thread.
    manned: u32,
}

impl Table {
    fn new() -> Self {
        Table {
            system: System::empty(),
            taken: 0,
            manned: 0,
        }
    }

    /// Takes in the record at a place and gives the place of the next one.
    /// The record's own refusals come first, then 4, 5, 6 and 7.
    fn read_record(&mut self, bytes: &[u8], place: usize) -> Result<usize, Refusal> {
        let Record {
            kind,
            payload,
            next,
        } = record::read(Stream::Table, bytes, place)?;
        if (kind == kind::CORES) != (place == 0) {
            return Err(Refusal::MisplacedCores);
        }
        match (kind, payload) {
            (kind::CORES, &[count]) => self.cores(count)?,
            (kind::GANG, &[priority]) => self.gang(priority, MAX_COUNT)?,
            (kind::GANG, &[priority, b0, b1, b2, b3]) => {
                self.gang(priority, u32::from_le_bytes([b0, b1, b2, b3]))?;
            }
            (kind::THREAD, &[gang, core]) => self.thread(gang, core)?,
            // The list of lengths lets no other payload through.
            _ => return Err(Refusal::WrongLength),
        }
        Ok(next)
    }

    /// CORES: 1 to 32 of them.
    fn cores(&mut self, count: u8) -> Result<(), Refusal> {
        if count == 0 || usize::from(count) > MAX_CORES {
            return Err(Refusal::OutOfRange);
        }
        self.system.cores = count;
        Ok(())
    }

    /// GANG: room (5), priority and budget in range (6), priority free (7).
    fn gang(&mut self, priority: u8, budget: u32) -> Result<(), Refusal> {
        let gang = usize::from(self.system.gangs);
        if gang >= MAX_GANGS {
            return Err(Refusal::TooMany);
        }
        if priority == 0 || priority > MAX_PRIORITY || budget > MAX_COUNT {
            return Err(Refusal::OutOfRange);
        }
        let mark = 1u128 << priority;
        if self.taken & mark != 0 {
            return Err(Refusal::PriorityTaken);
        }
        self.taken |= mark;
        self.system.priority[gang] = priority;
        self.system.budget[gang] = budget;
        self.system.gangs += 1;
        Ok(())
    }

    /// THREAD: room (5), a gang already read and a core of the table (6).
    fn thread(&mut self, gang: u8, core: u8) -> Result<(), Refusal> {
        let thread = usize::from(self.system.threads);
        if thread >= MAX_THREADS {
            return Err(Refusal::TooMany);
        }
        if gang >= self.system.gangs || core >= self.system.cores {
            return Err(Refusal::OutOfRange);
        }
        self.manned |= bit(gang);
        self.system.thread_gang[thread] = gang;
        self.system.thread_core[thread] = core;
        self.system.threads += 1;
        Ok(())
    }

    /// The table's end: CORES, a gang, and a thread for each gang (8). A gang
    /// is only read after CORES, so a table with a gang has both.
    fn end(&self) -> Result<(), Refusal> {
        let gangs = u32::from(self.system.gangs);
        if gangs == 0 || self.manned.count_ones() != gangs {
            return Err(Refusal::Incomplete);
        }
        Ok(())
    }
}

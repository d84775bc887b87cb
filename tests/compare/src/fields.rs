//! A system's fields by name and place: to damage one, and to name one that
//! differs.

use gjalvorn_model::{System, MAX_CORES, MAX_GANGS, MAX_THREADS};

/// One place of one field.
pub enum Slot<'a> {
    Byte(&'a mut u8),
    Word(&'a mut u32),
}

impl Slot<'_> {
    pub fn get(&self) -> u32 {
        match self {
            Slot::Byte(byte) => u32::from(**byte),
            Slot::Word(word) => **word,
        }
    }

    /// Puts a value into the place, cut to the place's size.
    pub fn set(&mut self, value: u32) {
        match self {
            Slot::Byte(byte) => **byte = value as u8,
            Slot::Word(word) => **word = value,
        }
    }
}

/// What a field has a place for.
#[derive(Clone, Copy)]
pub enum Each {
    System,
    Core,
    Gang,
    Thread,
}

pub struct Field {
    pub name: &'static str,
    pub each: Each,
    /// Whether a change of this field alone can leave a system well formed.
    pub may_keep: bool,
    pub slot: fn(&mut System, usize) -> Slot<'_>,
}

impl Field {
    /// How many places the field has.
    pub fn places(&self) -> usize {
        match self.each {
            Each::System => 1,
            Each::Core => MAX_CORES,
            Each::Gang => MAX_GANGS,
            Each::Thread => MAX_THREADS,
        }
    }

    /// How many of them are in use.
    pub fn used(&self, system: &System) -> usize {
        match self.each {
            Each::System => 1,
            Each::Core => system.cores.into(),
            Each::Gang => system.gangs.into(),
            Each::Thread => system.threads.into(),
        }
    }
}

/// A field of bytes, or of words, of which there is one, or one for each.
macro_rules! field {
    ($name:ident, $slot:ident, $keep:expr) => {
        Field {
            name: stringify!($name),
            each: Each::System,
            may_keep: $keep,
            slot: |s, _| Slot::$slot(&mut s.$name),
        }
    };
    ($name:ident, $slot:ident, $keep:expr, $each:ident) => {
        Field {
            name: stringify!($name),
            each: Each::$each,
            may_keep: $keep,
            slot: |s, at| Slot::$slot(&mut s.$name[at]),
        }
    };
}

pub const FIELD_COUNT: usize = 18;

/// Every field of the system. A gang more has no thread and a gang fewer leaves
/// its priority; a release count alone leaves the sum; another holder is not
/// that of the locked cores: those fields keep no system well formed.
pub const FIELDS: [Field; FIELD_COUNT] = [
    field!(cores, Byte, true),
    field!(gangs, Byte, false),
    field!(threads, Byte, true),
    field!(priority, Byte, true, Gang),
    field!(budget, Word, true, Gang),
    field!(thread_gang, Byte, true, Thread),
    field!(thread_core, Byte, true, Thread),
    field!(thread_state, Byte, true, Thread),
    field!(number, Word, false, Gang),
    field!(served, Word, false, Gang),
    field!(skipped, Word, false, Gang),
    field!(job, Word, true, Gang),
    field!(holder, Byte, false),
    field!(locked, Word, true),
    field!(blocked, Word, true),
    field!(owing, Word, true),
    field!(occupant, Byte, true, Core),
    field!(count, Word, true, Core),
];

/// The first place where two systems differ, in words.
pub fn first_difference(one: &System, other: &System) -> Option<String> {
    let (mut one, mut other) = (one.clone(), other.clone());
    for field in &FIELDS {
        for at in 0..field.places() {
            let here = (field.slot)(&mut one, at).get();
            let there = (field.slot)(&mut other, at).get();
            if here != there {
                let name = field.name;
                return Some(format!("{name}[{at}] is {here} and {there}"));
            }
        }
    }
    None
}

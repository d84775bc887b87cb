//! The families of cases.

mod calls;
mod damaged_events;
mod damaged_systems;
mod damaged_tables;
mod last_numbers;
mod rest;
mod streams;
mod torn;

use crate::case::Case;
use crate::compare::Outcome;

pub struct Family {
    pub name: &'static str,
    pub about: &'static str,
    /// Its part of all cases, in thousandths.
    pub share: u64,
    pub run: fn(&mut Case) -> Outcome,
}

pub const WHOLE: u64 = 1000;

pub const FAMILIES: [Family; 9] = [
    Family {
        name: "streams",
        about: "accepted tables with streams of events",
        share: 165,
        run: streams::run,
    },
    Family {
        name: "full",
        about: "tables of 32 cores, 32 gangs and 128 threads",
        share: 5,
        run: streams::run_full,
    },
    Family {
        name: "last-numbers",
        about: "releases near 4,294,967,295",
        share: 40,
        run: last_numbers::run,
    },
    Family {
        name: "calls",
        about: "each event by each call and each question, about every number",
        share: 50,
        run: calls::run,
    },
    Family {
        name: "damaged-tables",
        about: "tables with damaged bytes and records",
        share: 468,
        run: damaged_tables::run,
    },
    Family {
        name: "damaged-events",
        about: "events with damaged bytes and records, into rooms of every size",
        share: 160,
        run: damaged_events::run,
    },
    Family {
        name: "torn",
        about: "a table and events torn at every byte, and every room",
        share: 2,
        run: torn::run,
    },
    Family {
        name: "damaged-systems",
        about: "systems with one damaged field",
        share: 70,
        run: damaged_systems::run,
    },
    Family {
        name: "rest",
        about: "owing cores served in several orders until none owes",
        share: 40,
        run: rest::run,
    },
];

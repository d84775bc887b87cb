//! Releases near the last number. No recording gets there, so the counts are
//! set in both systems, in agreement with one another.

use gjalvorn_model::System;

use crate::case::Case;
use crate::compare::{holds, Outcome};
use crate::generate::tables::small_size;
use crate::pair::Pair;
use crate::random::Random;

/// The last release number, and how far before it a gang may stand.
const LAST: u32 = u32::MAX;
const BEFORE: usize = 3;

/// One gang in so many is left where it is.
const LEFT_ONCE_IN: usize = 4;

const LEADING: usize = 12;
const EVENTS: (usize, usize) = (8, 30);

pub fn run(case: &mut Case) -> Outcome {
    let size = small_size(&mut case.random);
    let mut system = case.reached(size, LEADING)?.model;
    for gang in 0..usize::from(system.gangs) {
        if !case.random.once_in(LEFT_ONCE_IN) {
            raise(&mut case.random, &mut system, gang);
        }
    }
    case.note = Some(counts(&system));
    let mut pair = Pair::of(&system);
    holds("a raised system is not well formed", pair.well_formed()?)?;
    let count = case.random.between(EVENTS.0, EVENTS.1);
    case.lead_on(&mut pair, count)
}

/// Brings a gang near the last number, with any share of it served.
fn raise(r: &mut Random, s: &mut System, gang: usize) {
    let number = LAST - r.below(BEFORE + 1) as u32;
    let served = match r.below(3) {
        0 => 0,
        1 => number,
        _ => r.word().min(number),
    };
    s.number[gang] = number;
    s.served[gang] = served;
    s.skipped[gang] = number - served;
    s.job[gang] = r.word().min(number);
}

/// What the counts are set to.
fn counts(s: &System) -> String {
    let gangs = usize::from(s.gangs);
    format!(
        "number is made {:?}, served {:?}, skipped the rest, job {:?}",
        &s.number[..gangs],
        &s.served[..gangs],
        &s.job[..gangs]
    )
}

//! Damage to one field of a system, or to two counts together.

use gjalvorn_model::{System, MAX_COUNT};

use crate::fields::{Field, FIELDS, FIELD_COUNT};
use crate::random::Random;

/// How many things can be damaged: each field, and two counts together.
pub const DAMAGEABLE: usize = FIELD_COUNT + 1;

/// Each of them by name, and whether a system may stay well formed.
pub fn damageable() -> impl Iterator<Item = (&'static str, bool)> {
    let fields = FIELDS.iter().map(|field| (field.name, field.may_keep));
    fields.chain([("served and skipped", true)])
}

/// What was done to a system.
pub struct Damage {
    /// Its place among the damageable.
    pub place: usize,
    pub words: String,
}

/// How a value is changed.
#[derive(Clone, Copy)]
enum Change {
    OneMore,
    OneLess,
    Nothing,
    Most,
    Any,
    Few,
    OneBit,
    Edge,
    Neighbour,
    LowestBitLess,
}

const CHANGES: [Change; 10] = [
    Change::OneMore,
    Change::OneLess,
    Change::Nothing,
    Change::Most,
    Change::Any,
    Change::Few,
    Change::OneBit,
    Change::Edge,
    Change::Neighbour,
    Change::LowestBitLess,
];

/// Values at the edges of the rules.
const EDGES: [u32; 12] = [
    1,
    2,
    3,
    31,
    32,
    33,
    99,
    100,
    128,
    MAX_COUNT,
    MAX_COUNT + 1,
    u32::MAX - 1,
];

/// Changes a system. The case's number takes every field and every change in
/// turn, and the two counts together; the place is drawn.
pub fn damage(r: &mut Random, system: &mut System, number: u64) -> Damage {
    let turn = number as usize;
    let place = turn % DAMAGEABLE;
    let change = CHANGES[turn / DAMAGEABLE % CHANGES.len()];
    let words = match FIELDS.get(place) {
        Some(field) => one_field(r, system, field, change),
        None => both_counts(r, system, change),
    };
    Damage { place, words }
}

/// Changes one place of one field.
fn one_field(r: &mut Random, system: &mut System, field: &Field, change: Change) -> String {
    let used = field.used(system).min(field.places());
    let at = place(r, used, field.places());
    let neighbour = (field.slot)(system, r.below(used)).get();
    let mut slot = (field.slot)(system, at);
    let old = slot.get();
    slot.set(changed(r, change, old, neighbour));
    if slot.get() == old {
        slot.set(old ^ 1);
    }
    let new = slot.get();
    format!("{}[{at}], {old}, is made {new}", field.name)
}

/// Moves releases from skipped to served. Their sum wraps to the release number
/// again, but is that number only where neither count wraps.
fn both_counts(r: &mut Random, system: &mut System, change: Change) -> String {
    let at = usize::from(r.byte_below(system.gangs));
    let old = system.served[at];
    let new = changed(r, change, old, system.number[at]);
    system.served[at] = new;
    system.skipped[at] = system.number[at].wrapping_sub(new);
    let skipped = system.skipped[at];
    format!("served[{at}], {old}, is made {new}, and skipped {skipped}")
}

/// A place that is used, the first that is not, or any.
fn place(r: &mut Random, used: usize, places: usize) -> usize {
    match r.below(8) {
        0 => used.min(places - 1),
        1 => r.below(places),
        _ => r.below(used),
    }
}

fn changed(r: &mut Random, change: Change, old: u32, neighbour: u32) -> u32 {
    const FEW: usize = 6;
    match change {
        Change::OneMore => old.wrapping_add(1),
        Change::OneLess => old.wrapping_sub(1),
        Change::Nothing => 0,
        Change::Most => u32::MAX,
        Change::Any => r.word(),
        Change::Few => r.below(FEW) as u32,
        Change::OneBit => old ^ (1 << r.below(FEW)),
        Change::Edge => r.among(&EDGES),
        Change::Neighbour => neighbour,
        Change::LowestBitLess => old & old.wrapping_sub(1),
    }
}

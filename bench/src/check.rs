//! That both sides do the same work, all of it accepted, before any is timed.

use crate::inputs::Inputs;
use crate::side::{Model, Proved};

/// An accepted table, event or batch.
const ACCEPTED: u8 = 0;

/// Says what differs, or what was refused.
pub fn check(proved: &Inputs<Proved>, model: &Inputs<Model>) -> Result<(), &'static str> {
    let answers = proved.answers();
    let outputs = proved.outputs();
    let held = [
        (
            proved.outcome() == model.outcome(),
            "the tables' readings differ",
        ),
        (answers == model.answers(), "the answers differ"),
        (
            answers == proved.answers_by_value(),
            "the answers by value differ",
        ),
        (outputs == model.outputs(), "the batches differ"),
        (proved.served() == model.served(), "the SERVEs differ"),
        (proved.outcome().0 == ACCEPTED, "the table is refused"),
        (
            answers.iter().all(|a| a.refusal == ACCEPTED),
            "an event is refused",
        ),
        (
            outputs.iter().all(|(done, _)| done.number == ACCEPTED),
            "a batch stops",
        ),
    ];
    match held.iter().find(|(holds, _)| !holds) {
        Some(&(_, words)) => Err(words),
        None => Ok(()),
    }
}

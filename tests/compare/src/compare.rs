//! What must be the same in the model and in the proved library.

use std::fmt::{Debug, Display};

use gjalvorn as proved;
use gjalvorn_model as model;
use gjalvorn_model::ANSWER_SIZE;

use crate::convert;
use crate::fields;

/// What differs, in words.
#[derive(Debug)]
pub struct Difference(pub String);

pub type Outcome<T = ()> = Result<T, Difference>;

/// Two values that both give: answers, numbers, places.
pub fn same<T: PartialEq + Debug>(what: impl Display, model: T, proved: T) -> Outcome {
    if model == proved {
        Ok(())
    } else {
        Err(Difference(format!(
            "{what}: model {model:?}, proved {proved:?}"
        )))
    }
}

/// Something that must hold in itself.
pub fn holds(what: impl Display, does: bool) -> Outcome {
    if does {
        Ok(())
    } else {
        Err(Difference(what.to_string()))
    }
}

/// Two states of the model, every field and place.
pub fn same_state(what: impl Display, one: &model::System, other: &model::System) -> Outcome {
    if one == other {
        return Ok(());
    }
    let place = fields::first_difference(one, other).unwrap_or_default();
    Err(Difference(format!("{what}: {place}")))
}

/// The system that a call leaves, every field and place.
pub fn same_system(what: impl Display, model: &model::System, proved: &proved::System) -> Outcome {
    same_state(
        format_args!("{what}, the system in the model and in the proved"),
        model,
        &convert::to_model(proved),
    )
}

/// All bytes of two lent outputs.
pub fn same_bytes(what: impl Display, model: &[u8], proved: &[u8]) -> Outcome {
    if model == proved {
        return Ok(());
    }
    let mut pairs = model.iter().zip(proved);
    match pairs.position(|(one, other)| one != other) {
        Some(at) => {
            let (byte, answer) = (at % ANSWER_SIZE, at / ANSWER_SIZE + 1);
            let what = format!("{what}, byte {byte} of answer {answer}");
            same(what, model[at], proved[at])
        }
        None => same(format!("{what}, room"), model.len(), proved.len()),
    }
}

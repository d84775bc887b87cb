//! An event with the system by value, as C hands it: the bindings' methods work
//! in place, so that the calls by value are made here.

use gjalvorn::raw::{self, Answered};
use gjalvorn::{kind, AnswerRecord, EventValue, System};

/// What a form of the event gives.
pub type Given = (System, AnswerRecord);

/// Each form by value, by name: the call that takes any event, and the event's
/// own call where the kind is an event's.
pub fn forms(system: &System, event: EventValue) -> impl Iterator<Item = (&'static str, Given)> {
    let any = system.applied(event);
    let own = own_call(*system, event);
    let own = own.map(|done| ("its own call by value", (done.system, done.answer)));
    std::iter::once(("any event by value", any)).chain(own)
}

fn own_call(system: System, event: EventValue) -> Option<Answered> {
    let EventValue {
        kind,
        number,
        transactions,
    } = event;
    // SAFETY: the calls take plain values, any of them.
    Some(unsafe {
        match kind {
            kind::RELEASE => raw::gjalvorn_release(system, number),
            kind::FINISH => raw::gjalvorn_finish(system, number),
            kind::WAIT => raw::gjalvorn_wait(system, number),
            kind::WAKE => raw::gjalvorn_wake(system, number),
            kind::SERVE => raw::gjalvorn_serve(system, number),
            kind::TRAFFIC => raw::gjalvorn_traffic(system, number, transactions),
            kind::TICK => raw::gjalvorn_tick(system),
            _ => return None,
        }
    })
}

//! Document 01 once more in plain Rust: a table of cores, gangs and pinned
//! threads, seven events under a gang lock, release numbers, the best-effort
//! allowance, a batch call, questions and the listing; and document 02's K3, a
//! question and a program that say of a thread why it is running or is not.
//!
//! The model is written from the documents and not from the verified code, so
//! that the two can be compared.

#![forbid(unsafe_code)]
#![warn(missing_docs)]

mod batch;
mod events;
mod listing;
mod program;
mod questions;
mod reason;
mod record;
mod refusal;
mod system;
mod table;
mod why;

pub use batch::{batch, Batched};
pub use events::{Answer, Event};
pub use listing::listing;
pub use program::MAX_INPUT;
pub use questions::{Reply, WhyReply};
pub use reason::Reason;
pub use record::{kind, payload, record, RecordReply, Stream, ANSWER_SIZE, LENGTHS};
pub use refusal::Refusal;
pub use system::{
    System, FINISHED, MAX_CORES, MAX_COUNT, MAX_GANGS, MAX_PRIORITY, MAX_THREADS, NONE, READY,
    WAITING,
};
pub use table::{read_table, TableRead};
pub use why::why;

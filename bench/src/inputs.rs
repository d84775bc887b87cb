//! What a side is timed on. Everything is filled in before a clock is read.

use gjalvorn::{AnswerRecord, Batched};
use gjalvorn_model::{read_table, Event, ANSWER_SIZE};

use crate::proved;
use crate::records::{self, Size};
use crate::side::{Proved, Side};
use crate::stream::stream;

/// The events of one batch call.
pub const BATCH: usize = 4096;
/// The batches of the stream.
const BATCHES: usize = 5;

/// A table and a stream of events from its first state on, the same for both
/// sides.
pub struct Case {
    pub size: Size,
    pub table: Vec<u8>,
    pub events: Vec<Event>,
    /// The events as bytes, batch by batch.
    pub batches: Vec<Vec<u8>>,
}

impl Case {
    pub fn new(size: Size) -> Self {
        let table = records::table(&size);
        let events = stream(&read_table(&table).system, BATCHES * BATCH);
        Case {
            size,
            table,
            batches: events.chunks(BATCH).map(records::events).collect(),
            events,
        }
    }

    /// The ANSWERs of one batch, in bytes.
    pub fn room(&self) -> usize {
        BATCH * ANSWER_SIZE
    }
}

/// A case in a side's own form.
pub struct Inputs<'a, S: Side> {
    pub case: &'a Case,
    /// The table's system.
    pub start: S::System,
    pub events: Vec<S::Event>,
    /// The SERVEs of the last batch, and the system before each of them.
    pub serves: Vec<S::Event>,
    pub before: Vec<S::System>,
}

impl<'a, S: Side> Inputs<'a, S> {
    pub fn new(case: &'a Case) -> Self {
        let (start, _, _) = S::parts(S::read_table(&case.table));
        let mut inputs = Inputs {
            case,
            start,
            events: case.events.iter().map(|&event| S::event(event)).collect(),
            serves: Vec::new(),
            before: Vec::new(),
        };
        inputs.keep_serves();
        inputs
    }

    fn keep_serves(&mut self) {
        let first = self.events.len() - BATCH;
        let mut system = self.start.clone();
        for (place, (&event, of)) in self.events.iter().zip(&self.case.events).enumerate() {
            if place >= first && matches!(of, Event::Serve { .. }) {
                self.serves.push(event);
                self.before.push(system.clone());
            }
            S::apply(&mut system, event);
        }
    }

    /// What the table's reading gives beside the system.
    pub fn outcome(&self) -> (u8, usize) {
        let (_, number, place) = S::parts(S::read_table(&self.case.table));
        (number, place)
    }

    /// The answers to the stream, event by event.
    pub fn answers(&self) -> Vec<AnswerRecord> {
        let mut system = self.start.clone();
        let answer = |&event| {
            let answer = S::apply(&mut system, event);
            S::answer(answer, &system)
        };
        self.events.iter().map(answer).collect()
    }

    /// What the batches give, and what they write.
    pub fn outputs(&self) -> Vec<(Batched, Vec<u8>)> {
        let mut system = self.start.clone();
        let output = |bytes: &Vec<u8>| {
            let mut out = vec![0; self.case.room()];
            (S::batch(&mut system, bytes, &mut out), out)
        };
        self.case.batches.iter().map(output).collect()
    }

    /// The answers to the kept SERVEs.
    pub fn served(&self) -> Vec<AnswerRecord> {
        let serve = |(before, &event): (&S::System, _)| {
            let mut system = before.clone();
            let answer = S::apply(&mut system, event);
            S::answer(answer, &system)
        };
        self.before.iter().zip(&self.serves).map(serve).collect()
    }
}

impl Inputs<'_, Proved> {
    /// The answers to the stream, the system by value.
    pub fn answers_by_value(&self) -> Vec<AnswerRecord> {
        let mut system = self.start;
        let answer = |&event| {
            let (after, answer) = proved::applied(system, event);
            system = after;
            answer
        };
        self.events.iter().map(answer).collect()
    }
}

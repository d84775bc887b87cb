//! One case: what it draws from, what it counts, and what can be said of it
//! where something differs.

use gjalvorn_model::{Event, ANSWER_SIZE};

use crate::compare::{same, Outcome};
use crate::coverage::Coverage;
use crate::generate::events::stream;
use crate::generate::tables::{table, Size};
use crate::pair::Pair;
use crate::question::Question;
use crate::random::Random;
use crate::records;

/// Of so many streams, one goes event by event and one in several batches.
const STREAMS: usize = 12;

/// One event in so many is followed by a question, and one in so many by why.
const QUESTION_ONCE_IN: usize = 4;
const WHY_ONCE_IN: usize = 4;

pub struct Case<'a> {
    pub number: u64,
    pub random: Random,
    pub seen: &'a mut Coverage,
    /// The bytes so far, as the listing program takes them: a table and events.
    pub recording: Vec<u8>,
    /// The events by which the system was reached.
    pub leading: Vec<Event>,
    /// What was done to it then, which no recording can hold.
    pub note: Option<String>,
    /// The events after that.
    pub then: Vec<Event>,
}

impl<'a> Case<'a> {
    pub fn new(number: u64, random: Random, seen: &'a mut Coverage) -> Self {
        Case {
            number,
            random,
            seen,
            recording: Vec::new(),
            leading: Vec::new(),
            note: None,
            then: Vec::new(),
        }
    }

    /// A table of a size, read by both; it must be accepted.
    pub fn fresh(&mut self, size: Size) -> Outcome<Pair> {
        self.recording = table(&mut self.random, size).concat();
        let (pair, number) = Pair::read(&self.recording, self.seen)?;
        same("the number of a sound table", 0, number)?;
        Ok(pair)
    }

    /// A system that both have reached: a table, then so many events.
    pub fn reached(&mut self, size: Size, count: usize) -> Outcome<Pair> {
        let mut pair = self.fresh(size)?;
        let events = self.events_from(&pair, count);
        self.at_once(&mut pair, &events)?;
        self.leading = events;
        Ok(pair)
    }

    /// So many events that lead on from a pair's system.
    pub fn events_from(&mut self, pair: &Pair, count: usize) -> Vec<Event> {
        let mut system = pair.model.clone();
        stream(&mut self.random, &mut system, count, self.seen)
    }

    /// Leads a pair on: at once, in several batches, or event by event with the
    /// whole system compared after each.
    pub fn lead_on(&mut self, pair: &mut Pair, count: usize) -> Outcome {
        let events = self.events_from(pair, count);
        let outcome = match self.random.below(STREAMS) {
            0 => self.one_by_one(pair, &events),
            1 => self.in_parts(pair, &events),
            _ => self.at_once(pair, &events),
        };
        self.then = events;
        outcome
    }

    /// One batch with room for every answer.
    pub fn at_once(&mut self, pair: &mut Pair, events: &[Event]) -> Outcome {
        let bytes = records::events(events).concat();
        self.recording.extend_from_slice(&bytes);
        let number = pair.batch(&bytes, events.len() * ANSWER_SIZE, self.seen)?;
        same("the number of a sound batch", 0, number)
    }

    /// Several batches, one after the other.
    fn in_parts(&mut self, pair: &mut Pair, events: &[Event]) -> Outcome {
        let mut left = events;
        while !left.is_empty() {
            let (part, rest) = left.split_at(self.random.between(1, left.len()));
            self.at_once(pair, part)?;
            left = rest;
        }
        Ok(())
    }

    /// Each event by itself, by one of its two calls, some with a question after.
    fn one_by_one(&mut self, pair: &mut Pair, events: &[Event]) -> Outcome {
        for &event in events {
            self.recording.extend(records::event(event));
            if self.random.half() {
                pair.apply(event, self.seen)?;
            } else {
                pair.call(event, self.seen)?;
            }
            if self.random.once_in(QUESTION_ONCE_IN) {
                let number = self.random.byte_below(pair.model.cores);
                let question = self.random.among(&Question::about(number));
                pair.ask(question, self.seen)?;
            }
            // Release counts that a case has set change no reason.
            if self.random.once_in(WHY_ONCE_IN) {
                let thread = self.random.byte_below(pair.model.threads);
                pair.why_reached(thread, self.seen)?;
            }
        }
        Ok(())
    }
}

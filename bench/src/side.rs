//! The two sides under one name, so that the same code times both.

use gjalvorn::{AnswerRecord, Batched};
use gjalvorn_model as model;

use crate::proved;

pub trait Side {
    type System: Clone;
    type Event: Copy;
    type Answer: Copy;
    type Read;

    /// The side's own form of an event.
    fn event(event: model::Event) -> Self::Event;

    fn read_table(bytes: &[u8]) -> Self::Read;
    fn apply(system: &mut Self::System, event: Self::Event) -> Self::Answer;
    fn batch(system: &mut Self::System, events: &[u8], out: &mut [u8]) -> Batched;

    /// A read table's system, refusal number and place.
    fn parts(read: Self::Read) -> (Self::System, u8, usize);

    /// All fields of an event's ANSWER, given the system after it.
    fn answer(answer: Self::Answer, after: &Self::System) -> AnswerRecord;
}

pub struct Proved;

impl Side for Proved {
    type System = gjalvorn::System;
    type Event = gjalvorn::Event;
    type Answer = AnswerRecord;
    type Read = gjalvorn::TableRead;

    fn event(event: model::Event) -> gjalvorn::Event {
        match event {
            model::Event::Release { gang } => gjalvorn::Event::Release { gang },
            model::Event::Finish { thread } => gjalvorn::Event::Finish { thread },
            model::Event::Wait { thread } => gjalvorn::Event::Wait { thread },
            model::Event::Wake { thread } => gjalvorn::Event::Wake { thread },
            model::Event::Serve { core } => gjalvorn::Event::Serve { core },
            model::Event::Traffic { core, transactions } => {
                gjalvorn::Event::Traffic { core, transactions }
            }
            model::Event::Tick => gjalvorn::Event::Tick,
        }
    }

    fn read_table(bytes: &[u8]) -> gjalvorn::TableRead {
        proved::read_table(bytes)
    }

    fn apply(system: &mut gjalvorn::System, event: gjalvorn::Event) -> AnswerRecord {
        proved::apply(system, event)
    }

    fn batch(system: &mut gjalvorn::System, events: &[u8], out: &mut [u8]) -> Batched {
        proved::batch(system, events, out)
    }

    fn parts(read: gjalvorn::TableRead) -> (gjalvorn::System, u8, usize) {
        (read.system, read.number, read.place)
    }

    fn answer(answer: AnswerRecord, _: &gjalvorn::System) -> AnswerRecord {
        answer
    }
}

pub struct Model;

impl Side for Model {
    type System = model::System;
    type Event = model::Event;
    type Answer = model::Answer;
    type Read = model::TableRead;

    fn event(event: model::Event) -> model::Event {
        event
    }

    fn read_table(bytes: &[u8]) -> model::TableRead {
        model::read_table(bytes)
    }

    fn apply(system: &mut model::System, event: model::Event) -> model::Answer {
        system.apply(event)
    }

    fn batch(system: &mut model::System, events: &[u8], out: &mut [u8]) -> Batched {
        let done = model::batch(system, events, out);
        Batched {
            read: done.read,
            written: done.written,
            number: done.number,
        }
    }

    fn parts(read: model::TableRead) -> (model::System, u8, usize) {
        (read.system, read.number, read.place)
    }

    fn answer(answer: model::Answer, after: &model::System) -> AnswerRecord {
        AnswerRecord {
            refusal: answer.refusal,
            value: answer.value,
            number: answer.number,
            owing: after.owing,
            locked: after.locked,
        }
    }
}

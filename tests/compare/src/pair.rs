//! One system in both: each call goes to the model and to the proved library,
//! and everything they give is compared.

use std::fmt::Arguments;

use gjalvorn as proved;
use gjalvorn_model as model;
use model::{Event, Refusal};
use proved::{reason, AnswerRecord, EventValue};

use crate::by_value;
use crate::compare::{holds, same, same_bytes, same_system, Outcome};
use crate::convert;
use crate::coverage::{Coverage, Target};
use crate::lent::Lent;
use crate::question::Question;

#[derive(Clone)]
pub struct Pair {
    pub model: model::System,
    pub proved: proved::System,
}

/// An event, and the systems that it meets.
pub struct Before {
    pub pair: Pair,
    pub event: EventValue,
}

impl Pair {
    /// A system that the model has, in both.
    pub fn of(system: &model::System) -> Self {
        Pair {
            model: system.clone(),
            proved: convert::to_proved(system),
        }
    }

    /// The empty system, as each gives it.
    pub fn empty() -> Outcome<Self> {
        let pair = Pair {
            model: model::System::empty(),
            proved: proved::System::empty(),
        };
        same_system("empty", &pair.model, &pair.proved)?;
        Ok(pair)
    }

    /// Reads a table in both; the number says whether it is accepted.
    pub fn read(table: &[u8], seen: &mut Coverage) -> Outcome<(Pair, u8)> {
        let model = model::read_table(table);
        let proved = proved::System::read_table(table);
        same("the table's number", model.number, proved.number)?;
        same("the table's place", model.place, proved.place)?;
        same_system("the table", &model.system, &proved.system)?;
        seen.refusal(model.number);
        if model.number == 0 {
            seen.hit(Target::TableAccepted);
        }
        let pair = Pair {
            model: model.system,
            proved: proved.system,
        };
        Ok((pair, model.number))
    }

    /// An event by the method that takes any event.
    pub fn apply(&mut self, event: Event, seen: &mut Coverage) -> Outcome {
        let before = self.before(convert::event(event).into());
        let answer = self.model.apply(event);
        let given = self.proved.apply(convert::event(event));
        let expected = convert::answer(answer, &self.model);
        self.judge(format_args!("{event:?} by apply"), &before, expected, given)?;
        seen.refusal(answer.refusal);
        Ok(())
    }

    /// An event by its own method.
    pub fn call(&mut self, event: Event, seen: &mut Coverage) -> Outcome {
        let before = self.before(convert::event(event).into());
        let (m, p) = (&mut self.model, &mut self.proved);
        let (answer, given) = match event {
            Event::Release { gang } => (m.release(gang), p.release(gang)),
            Event::Finish { thread } => (m.finish(thread), p.finish(thread)),
            Event::Wait { thread } => (m.wait(thread), p.wait(thread)),
            Event::Wake { thread } => (m.wake(thread), p.wake(thread)),
            Event::Serve { core } => (m.serve(core), p.serve(core)),
            Event::Traffic { core, transactions } => {
                (m.traffic(core, transactions), p.traffic(core, transactions))
            }
            Event::Tick => (m.tick(), p.tick()),
        };
        let expected = convert::answer(answer, &self.model);
        self.judge(
            format_args!("{event:?} by its own method"),
            &before,
            expected,
            given,
        )?;
        seen.refusal(answer.refusal);
        Ok(())
    }

    /// An event by its kind, whose other fields may be set where the event has
    /// none: they count for nothing.
    pub fn apply_value(&mut self, event: Event, value: EventValue, seen: &mut Coverage) -> Outcome {
        let before = self.before(value);
        let answer = self.model.apply(event);
        let given = self.proved.apply_kind(value);
        let expected = convert::answer(answer, &self.model);
        self.judge(format_args!("{value:?}"), &before, expected, given)?;
        seen.refusal(answer.refusal);
        Ok(())
    }

    /// An event of a kind that is no event's. The model has no such call: it is
    /// refused with 2, or 14 before it, and changes nothing.
    pub fn apply_unknown(&mut self, value: EventValue, seen: &mut Coverage) -> Outcome {
        let before = self.before(value);
        let refusal = if self.model.well_formed() {
            seen.hit(Target::UnknownKind);
            Refusal::WrongKind
        } else {
            Refusal::NotWellFormed
        };
        let expected = AnswerRecord {
            refusal: refusal.number(),
            value: 0,
            number: 0,
            owing: self.model.owing,
            locked: self.model.locked,
        };
        let given = self.proved.apply_kind(value);
        self.judge(format_args!("{value:?}"), &before, expected, given)?;
        seen.refusal(refusal.number());
        Ok(())
    }

    /// What an event is about to meet.
    pub fn before(&self, event: EventValue) -> Before {
        Before {
            pair: self.clone(),
            event,
        }
    }

    /// An answer and the whole system, of the event in place and of each of its
    /// forms by value; a refused event changed nothing.
    fn judge(
        &self,
        what: Arguments,
        before: &Before,
        expected: AnswerRecord,
        given: AnswerRecord,
    ) -> Outcome {
        same(what, expected, given)?;
        same_system(what, &self.model, &self.proved)?;
        self.judge_by_value(what, before, expected)?;
        holds(
            format_args!("{what}: refused, and the system is changed"),
            given.refusal == 0 || self.model == before.pair.model,
        )
    }

    /// The same event by value.
    pub fn judge_by_value(
        &self,
        what: Arguments,
        before: &Before,
        expected: AnswerRecord,
    ) -> Outcome {
        for (form, (system, answer)) in by_value::forms(&before.pair.proved, before.event) {
            same(format_args!("{what}, {form}"), expected, answer)?;
            same_system(format_args!("{what}, {form}"), &self.model, &system)?;
        }
        Ok(())
    }

    pub fn ask(&self, question: Question, seen: &mut Coverage) -> Outcome {
        let (model, proved) = question.put_to(&self.model, &self.proved);
        same(format_args!("{question:?}"), convert::found(model), proved)?;
        seen.refusal(model.refusal);
        Ok(())
    }

    /// Why a thread is running or is not, which changes nothing; gives the
    /// reason that both tell.
    pub fn why(&self, thread: u8, seen: &mut Coverage) -> Outcome<u8> {
        let reply = self.model.ask_why(thread);
        let found = self.proved.why(thread);
        let what = format!("why, of thread {thread}");
        same(&what, convert::reason_found(reply), found)?;
        same_system(&what, &self.model, &self.proved)?;
        seen.why(reply);
        Ok(found.reason)
    }

    /// Why, of a thread of a reached system, where one of the seven reasons
    /// holds.
    pub fn why_reached(&self, thread: u8, seen: &mut Coverage) -> Outcome {
        let reason = self.why(thread, seen)?;
        holds(
            format_args!("thread {thread} of a reached system is told none of the reasons"),
            reason != reason::NONE,
        )
    }

    pub fn well_formed(&self) -> Outcome<bool> {
        let well_formed = self.model.well_formed();
        same("well formed", well_formed, self.proved.well_formed())?;
        Ok(well_formed)
    }

    /// A batch into so many lent bytes.
    pub fn batch(&mut self, events: &[u8], room: usize, seen: &mut Coverage) -> Outcome<u8> {
        let before = self.model.clone();
        let (mut of_model, mut of_proved) = (Lent::of(room), Lent::of(room));
        let done = model::batch(&mut self.model, events, of_model.lend());
        let given = self.proved.batch(events, of_proved.lend());
        let what = format!("a batch of {} bytes into {room}", events.len());
        same(&what, convert::batched(done), given)?;
        same_bytes(&what, of_model.part(), of_proved.part())?;
        of_proved.untouched_past(given.written)?;
        same_system(&what, &self.model, &self.proved)?;
        holds(
            format_args!("{what}: nothing is written, and the system is changed"),
            given.written > 0 || self.model == before,
        )?;
        seen.answers(&of_model.part()[..done.written]);
        seen.refusal(given.number);
        Ok(given.number)
    }
}

//! Wrong variants of everything that is compared. Each must be noticed, or
//! agreement would say nothing.

use gjalvorn::{AnswerRecord, Batched, Found, ReasonFound};
use gjalvorn_model::{Event, ANSWER_SIZE, MAX_PRIORITY};

use crate::compare::{same, same_bytes, same_system, Outcome};
use crate::convert;
use crate::coverage::Coverage;
use crate::fields::FIELDS;
use crate::lent::Lent;
use crate::pair::Pair;
use crate::question::Question;
use crate::records;

/// How many wrong variants there are, and those that were not noticed.
pub fn run() -> (usize, Vec<String>) {
    let mut count = 0;
    let mut missed = Vec::new();
    let mut wrong = |what: String, outcome: Outcome| {
        count += 1;
        if outcome.is_ok() {
            missed.push(format!("not noticed: {what}"));
        }
    };
    systems(&mut wrong);
    values(&mut wrong);
    outputs(&mut wrong);
    calls(&mut wrong);
    whys(&mut wrong);
    by_value(&mut wrong);
    (count, missed)
}

/// What takes a wrong variant and how it was judged.
type Judge<'a> = &'a mut dyn FnMut(String, Outcome);

/// One core, one gang of the highest priority, one thread, released.
fn some_pair() -> Pair {
    let table = [
        records::cores(1),
        records::short_gang(MAX_PRIORITY),
        records::thread(0, 0),
    ];
    let mut system = gjalvorn_model::read_table(&table.concat()).system;
    system.release(0);
    Pair::of(&system)
}

/// Each place of each field.
fn systems(wrong: Judge) {
    let pair = some_pair();
    for field in &FIELDS {
        for at in 0..field.places() {
            let mut model = pair.model.clone();
            let mut slot = (field.slot)(&mut model, at);
            let old = slot.get();
            slot.set(old ^ 1);
            let outcome = match same_system("", &model, &pair.proved) {
                // The difference must also be named.
                Err(difference) if !difference.0.contains(field.name) => Ok(()),
                outcome => outcome,
            };
            wrong(format!("{}[{at}]", field.name), outcome);
        }
    }
}

/// Each field of what the calls give.
fn values(wrong: Judge) {
    let answers: [fn(&mut AnswerRecord); 5] = [
        |answer| answer.refusal ^= 1,
        |answer| answer.value ^= 1,
        |answer| answer.number ^= 1,
        |answer| answer.owing ^= 1,
        |answer| answer.locked ^= 1,
    ];
    let founds: [fn(&mut Found); 2] = [|found| found.refusal ^= 1, |found| found.value ^= 1];
    let reasons: [fn(&mut ReasonFound); 3] = [
        |found| found.refusal ^= 1,
        |found| found.reason ^= 1,
        |found| found.which ^= 1,
    ];
    let batches: [fn(&mut Batched); 3] = [
        |done| done.read ^= 1,
        |done| done.written ^= 1,
        |done| done.number ^= 1,
    ];
    let pair = some_pair();
    let mut proved = pair.proved;
    let answer = proved.serve(0);
    each("an answer", answer, &answers, wrong);
    each("a finding", pair.proved.occupant(0), &founds, wrong);
    each("a reason", pair.proved.why(0), &reasons, wrong);
    each("a batch", proved.batch(&[], &mut []), &batches, wrong);
}

/// A value against each of its wrong variants.
fn each<T>(what: &str, value: T, variants: &[fn(&mut T)], wrong: Judge)
where
    T: Copy + PartialEq + std::fmt::Debug,
{
    for (place, variant) in variants.iter().enumerate() {
        let mut other = value;
        variant(&mut other);
        wrong(format!("{what}, field {place}"), same("", value, other));
    }
}

/// Each byte of a lent output, where it is written and where it is not.
fn outputs(wrong: Judge) {
    let sound = Lent::of(ANSWER_SIZE);
    for at in 0..ANSWER_SIZE {
        let mut other = Lent::of(ANSWER_SIZE);
        other.lend()[at] ^= 1;
        wrong(
            format!("output byte {at}"),
            same_bytes("", sound.part(), other.part()),
        );
        wrong(format!("touched byte {at}"), other.untouched_past(at));
    }
    let shorter = &sound.part()[1..];
    wrong(
        "a shorter output".into(),
        same_bytes("", sound.part(), shorter),
    );
}

/// Each call of a pair whose halves are not the same system.
fn calls(wrong: Judge) {
    let mut pair = some_pair();
    pair.model.owing ^= 1;
    let mut seen = Coverage::new();
    let seen = &mut seen;
    let event = Event::Tick;
    let value = convert::event(event).into();
    let bytes = records::event(event);
    let question = Question::OwingCount;
    wrong("apply".into(), pair.clone().apply(event, seen));
    wrong("a call".into(), pair.clone().call(event, seen));
    wrong(
        "a kind".into(),
        pair.clone().apply_value(event, value, seen),
    );
    let mut unknown = value;
    unknown.kind = 0;
    wrong("no kind".into(), pair.clone().apply_unknown(unknown, seen));
    wrong("a question".into(), pair.ask(question, seen));
    let batched = pair.clone().batch(&bytes, ANSWER_SIZE, seen);
    wrong("a batch".into(), batched.map(drop));
    pair.model.cores = 0;
    wrong("well formed".into(), pair.well_formed().map(drop));
}

/// Why, of a pair whose halves tell something else, or tell the same and are not
/// the same system; and what no reached system tells.
fn whys(wrong: Judge) {
    let mut seen = Coverage::new();
    let seen = &mut seen;
    let mut told = some_pair();
    told.model.owing = 0;
    wrong("why".into(), told.why(0, seen).map(drop));
    let mut changed = some_pair();
    changed.model.count[0] += 1;
    wrong("a changing why".into(), changed.why(0, seen).map(drop));
    let unreached = Pair::of(&told.model);
    wrong("no reason".into(), unreached.why_reached(0, seen));
}

/// An event whose system by value is another, or whose answer is.
fn by_value(wrong: Judge) {
    let event = Event::Tick;
    let pair = some_pair();
    let before = pair.before(convert::event(event).into());
    let mut after = pair;
    let answer = after.proved.tick();
    after.model.tick();
    let mut other = answer;
    other.number ^= 1;
    wrong(
        "an answer by value".into(),
        after.judge_by_value(format_args!(""), &before, other),
    );
    after.model.owing ^= 1;
    wrong(
        "a system by value".into(),
        after.judge_by_value(format_args!(""), &before, answer),
    );
}

//! The model's values as the proved library's, and back: the only place where
//! the two are laid beside one another.

use gjalvorn as proved;
use gjalvorn_model as model;

// The bindings' names for the reasons stand for the model's numbers.
const _: () = {
    use model::Reason;
    use proved::reason;
    assert!(reason::FINISHED == Reason::Finished.number());
    assert!(reason::WAITING == Reason::Waiting.number());
    assert!(reason::RUNNING_LOCKED == Reason::RunningLocked.number());
    assert!(reason::RUNNING_DISPLACED == Reason::RunningDisplaced.number());
    assert!(reason::CORE_OWES == Reason::CoreOwes.number());
    assert!(reason::THREAD_AHEAD == Reason::ThreadAhead(0).number());
    assert!(reason::GANG_HOLDS == Reason::GangHolds(0).number());
    assert!(reason::NONE == Reason::NoneOfThese.number());
};

pub fn to_proved(s: &model::System) -> proved::System {
    proved::System {
        table: proved::Table {
            sizes: proved::Sizes {
                cores: s.cores,
                gangs: s.gangs,
                threads: s.threads,
            },
            priority: s.priority,
            budget: s.budget,
            gang: s.thread_gang,
            core: s.thread_core,
        },
        state: s.thread_state,
        ledger: proved::Ledger {
            number: s.number,
            served: s.served,
            skipped: s.skipped,
            job: s.job,
        },
        lock: proved::Lock {
            holder: s.holder,
            locked: s.locked,
            blocked: s.blocked,
            owing: s.owing,
            occupant: s.occupant,
        },
        kept: s.count,
    }
}

pub fn to_model(s: &proved::System) -> model::System {
    model::System {
        cores: s.table.sizes.cores,
        gangs: s.table.sizes.gangs,
        threads: s.table.sizes.threads,
        priority: s.table.priority,
        budget: s.table.budget,
        thread_gang: s.table.gang,
        thread_core: s.table.core,
        thread_state: s.state,
        number: s.ledger.number,
        served: s.ledger.served,
        skipped: s.ledger.skipped,
        job: s.ledger.job,
        holder: s.lock.holder,
        locked: s.lock.locked,
        blocked: s.lock.blocked,
        owing: s.lock.owing,
        occupant: s.lock.occupant,
        count: s.kept,
    }
}

pub fn event(event: model::Event) -> proved::Event {
    match event {
        model::Event::Release { gang } => proved::Event::Release { gang },
        model::Event::Finish { thread } => proved::Event::Finish { thread },
        model::Event::Wait { thread } => proved::Event::Wait { thread },
        model::Event::Wake { thread } => proved::Event::Wake { thread },
        model::Event::Serve { core } => proved::Event::Serve { core },
        model::Event::Traffic { core, transactions } => {
            proved::Event::Traffic { core, transactions }
        }
        model::Event::Tick => proved::Event::Tick,
    }
}

/// The model's answer beside the system after the event: "the owing and locked
/// cores" of an ANSWER are that system's own.
pub fn answer(answer: model::Answer, after: &model::System) -> proved::AnswerRecord {
    proved::AnswerRecord {
        refusal: answer.refusal,
        value: answer.value,
        number: answer.number,
        owing: after.owing,
        locked: after.locked,
    }
}

pub fn found(reply: model::Reply) -> proved::Found {
    proved::Found {
        refusal: reply.refusal,
        value: reply.value,
    }
}

pub fn reason_found(reply: model::WhyReply) -> proved::ReasonFound {
    proved::ReasonFound {
        refusal: reply.refusal,
        reason: reply.reason,
        which: reply.which,
    }
}

pub fn batched(done: model::Batched) -> proved::Batched {
    proved::Batched {
        read: done.read,
        written: done.written,
        number: done.number,
    }
}

//! What a run has met. A run that never met one of its targets has shown
//! nothing about it, and fails.

use gjalvorn_model::{
    Answer, Event, Refusal, System, WhyReply, ANSWER_SIZE, MAX_COUNT, NONE, READY,
};

use crate::generate::systems::{damageable, DAMAGEABLE};
use crate::records::PAYLOAD_AT;

/// The refusal numbers, 1 to 14.
const REFUSALS: usize = 14;

/// The reasons, 1 to 8; only damaged systems give the last.
const REASONS: usize = 8;

/// Declares the targets, with the words that they are printed in.
macro_rules! targets {
    ($($name:ident: $words:expr,)*) => {
        #[derive(Clone, Copy)]
        pub enum Target { $($name,)* }

        const WORDS: &[&str] = &[$($words,)*];
    };
}

targets! {
    TableAccepted: "tables accepted",
    Served: "releases served",
    Skipped: "releases skipped",
    LastNumber: "releases with the last number",
    Preempted: "gangs taking over a held lock",
    DisplacedFinished: "displaced threads finished before their core is served",
    Blocked: "cores blocked",
    Freed: "freed locks that wake blocked cores",
    Shared: "cores locked for a gang that holds the lock already",
    FirstOfGang: "threads taken before others of their gang on the core",
    Waited: "threads waiting",
    Woken: "threads woken",
    RunsAgain: "occupants made ready before their core is served",
    Stopped: "cores stopped by their traffic",
    StoppedAtBudget: "cores stopped with exactly the budget",
    OneBelowBudget: "cores not stopped with one less than the budget",
    AboveMost: "sums above the largest kept count",
    UnknownKind: "events of an unknown kind",
    WhyNotWellFormed: "threads not told why, of systems that are not well formed",
    WhyNotInTable: "threads not told why, that are not in the table",
    ThreeServices: "cores served three times before rest",
    LockAtRest: "states at rest with the lock held",
    FreeAtRest: "states at rest with nothing ready",
}

pub struct Coverage {
    targets: Vec<u64>,
    refusals: [u64; REFUSALS + 1],
    reasons: [u64; REASONS + 1],
    /// For each thing damaged, systems that are refused and that are not.
    damaged: [[u64; 2]; DAMAGEABLE],
}

impl Coverage {
    pub fn new() -> Self {
        Coverage {
            targets: vec![0; WORDS.len()],
            refusals: [0; REFUSALS + 1],
            reasons: [0; REASONS + 1],
            damaged: [[0; 2]; DAMAGEABLE],
        }
    }

    pub fn hit(&mut self, target: Target) {
        self.targets[target as usize] += 1;
    }

    fn hit_if(&mut self, target: Target, met: bool) {
        self.targets[target as usize] += u64::from(met);
    }

    /// A refusal number that both gave; 0 is none.
    pub fn refusal(&mut self, number: u8) {
        self.refusals[usize::from(number).min(REFUSALS)] += 1;
    }

    /// The refusal numbers of ANSWER records.
    pub fn answers(&mut self, written: &[u8]) {
        for answer in written.chunks_exact(ANSWER_SIZE) {
            self.refusal(answer[PAYLOAD_AT]);
        }
    }

    /// What both gave to the question why.
    pub fn why(&mut self, reply: WhyReply) {
        let refused = |refusal: Refusal| reply.refusal == refusal.number();
        self.hit_if(Target::WhyNotWellFormed, refused(Refusal::NotWellFormed));
        self.hit_if(Target::WhyNotInTable, refused(Refusal::OutOfRange));
        self.refusal(reply.refusal);
        self.reasons[usize::from(reply.reason)] += 1;
    }

    /// A damaged system, and whether it is still well formed.
    pub fn damage(&mut self, place: usize, well_formed: bool) {
        self.damaged[place][usize::from(well_formed)] += 1;
    }

    /// An accepted event of a stream, with the systems before and after it.
    pub fn event(&mut self, before: &System, event: Event, answer: Answer, after: &System) {
        if answer.refusal != 0 {
            return;
        }
        match event {
            Event::Release { gang } => self.release(before, gang, answer),
            Event::Finish { thread } => {
                let core = before.thread_core[usize::from(thread)];
                self.hit_if(Target::DisplacedFinished, !has(before.locked, core));
            }
            Event::Wait { .. } => self.hit(Target::Waited),
            Event::Wake { thread } => {
                self.hit(Target::Woken);
                self.hit_if(Target::RunsAgain, occupies(before, thread));
            }
            Event::Serve { core } => self.serve(before, core, after),
            Event::Traffic { core, transactions } => {
                self.traffic(before, core, transactions, answer, after);
            }
            Event::Tick => {}
        }
    }

    fn release(&mut self, before: &System, gang: u8, answer: Answer) {
        let served = answer.value == 1;
        self.hit_if(Target::Served, served);
        self.hit_if(Target::Skipped, !served);
        self.hit_if(Target::LastNumber, answer.number == u32::MAX);
        let again = (0..before.threads)
            .any(|t| before.thread_gang[usize::from(t)] == gang && occupies(before, t));
        self.hit_if(Target::RunsAgain, served && again);
    }

    fn serve(&mut self, before: &System, core: u8, after: &System) {
        let others_locked = without(before.locked, core) != 0;
        let others_blocked = without(before.blocked, core);
        let taken = has(after.locked, core);
        let same_holder = after.holder == before.holder;
        self.hit_if(Target::Preempted, others_locked && !same_holder);
        self.hit_if(Target::Shared, others_locked && same_holder && taken);
        self.hit_if(Target::Blocked, has(after.blocked, core));
        self.hit_if(
            Target::Freed,
            others_blocked != 0 && after.blocked & others_blocked == 0,
        );
        self.hit_if(Target::FirstOfGang, taken && mates(after, core) > 0);
    }

    fn traffic(
        &mut self,
        before: &System,
        core: u8,
        transactions: u32,
        answer: Answer,
        after: &System,
    ) {
        let sum = before.count[usize::from(core)] + transactions;
        self.hit_if(Target::AboveMost, sum > MAX_COUNT);
        if after.holder == NONE {
            return;
        }
        let budget = after.budget[usize::from(after.holder)];
        let stopped = answer.value == 1;
        self.hit_if(Target::Stopped, stopped);
        self.hit_if(Target::StoppedAtBudget, stopped && sum == budget);
        self.hit_if(Target::OneBelowBudget, !stopped && sum + 1 == budget);
    }

    /// Prints everything that was counted, and gives what was never met.
    pub fn print(&self) -> Vec<String> {
        let mut missed = Vec::new();
        for (words, count) in self.counts() {
            println!("  {count:>9} {words}");
            if count == 0 {
                missed.push(format!("never met: {words}"));
            }
        }
        missed
    }

    /// Every count, in words.
    fn counts(&self) -> Vec<(String, u64)> {
        let targets = WORDS.iter().map(|words| words.to_string());
        let mut counts: Vec<_> = targets.zip(self.targets.iter().copied()).collect();
        for (number, &count) in self.refusals.iter().enumerate().skip(1) {
            counts.push((format!("refusals {number}"), count));
        }
        for (number, &count) in self.reasons.iter().enumerate().skip(1) {
            counts.push((format!("threads told reason {number}"), count));
        }
        for ((name, may_keep), &[refused, kept]) in damageable().zip(&self.damaged) {
            counts.push((format!("systems refused for {name}"), refused));
            if may_keep {
                counts.push((format!("systems well formed with other {name}"), kept));
            }
        }
        counts
    }
}

/// Whether a core is in a set.
fn has(set: u32, core: u8) -> bool {
    set >> core & 1 == 1
}

/// A set without one core.
fn without(set: u32, core: u8) -> u32 {
    set & !(1 << core)
}

/// Whether a thread is its core's occupant.
fn occupies(system: &System, thread: u8) -> bool {
    let core = system.thread_core[usize::from(thread)];
    system.occupant[usize::from(core)] == thread
}

/// How many other ready threads of its gang share the core with its occupant.
fn mates(system: &System, core: u8) -> usize {
    let occupant = system.occupant[usize::from(core)];
    let gang = system.thread_gang[usize::from(occupant)];
    (0..system.threads)
        .filter(|&t| {
            let at = usize::from(t);
            t != occupant
                && system.thread_state[at] == READY
                && system.thread_gang[at] == gang
                && system.thread_core[at] == core
        })
        .count()
}

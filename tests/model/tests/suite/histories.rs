//! What holds over whole histories: counts, releases, the lock, the reasons.

use crate::support::*;
use gjalvorn_model::{read_table, Answer, Event, System, NONE};

/// Runs a random history and shows each event with its answer to a watcher.
fn watch(seed: u64, steps: u32, mut watcher: impl FnMut(&System, Event, Answer, &System)) {
    let mut r = Random::new(seed);
    let table = if seed % 2 == 0 {
        random_table(&mut r, 32, 32, 128)
    } else {
        random_table(&mut r, 4, 4, 8)
    };
    let mut s = read_table(&table).system;
    for _ in 0..steps {
        let before = s.clone();
        let event = random_event(&mut r, &s);
        let answer = s.apply(event);
        watcher(&before, event, answer, &s);
    }
}

#[test]
fn the_kept_count_is_the_true_sum_and_stops_the_same() {
    let mut above = 0;
    for seed in 0..30 {
        let mut sums = [0u64; 32];
        watch(seed, 400, |_, event, answer, s| {
            match event {
                Event::Traffic { core, transactions } if answer.refusal == 0 => {
                    sums[usize::from(core)] += u64::from(transactions);
                    assert_eq!(answer.number, s.count[usize::from(core)]);
                    let stopped = s.ask_stopped(core);
                    assert_eq!(stopped.value, u32::from(answer.value));
                }
                Event::Tick => sums = [0; 32],
                _ => {}
            }
            for c in 0..s.cores {
                let at = usize::from(c);
                assert_eq!(u64::from(s.count[at]), sums[at].min(1_000_000));
                above += u32::from(sums[at] > 1_000_000);
                let stopped = s.occupant[at] == NONE
                    && s.holder != NONE
                    && sums[at] >= u64::from(s.budget[usize::from(s.holder)]);
                assert_eq!(s.ask_stopped(c).value, u32::from(stopped));
            }
        });
    }
    assert!(above > 0, "some true sum is above a million");
}

#[test]
fn releases_are_counted_from_the_answers() {
    let (mut all_served, mut all_skipped) = (0, 0);
    for seed in 100..115 {
        // Per gang: taken, served, skipped, the last served release's number.
        let mut counted = [(0u32, 0u32, 0u32, 0u32); 32];
        watch(seed, 300, |before, event, answer, s| {
            if let (Event::Release { gang }, 0) = (event, answer.refusal) {
                let entry = &mut counted[usize::from(gang)];
                entry.0 += 1;
                assert_eq!(answer.number, entry.0);
                assert_eq!(answer.value == 1, idle(before, gang));
                if answer.value == 1 {
                    entry.1 += 1;
                    entry.3 = answer.number;
                } else {
                    entry.2 += 1;
                }
            }
            for g in 0..s.gangs {
                let (taken, served, skipped, job) = counted[usize::from(g)];
                assert_eq!(s.ask_number(g).value, taken);
                assert_eq!(s.ask_served(g).value, served);
                assert_eq!(s.ask_skipped(g).value, skipped);
                assert_eq!(s.ask_job(g).value, job);
                assert_eq!(taken, served + skipped);
            }
        });
        all_served += counted.iter().map(|c| c.1).sum::<u32>();
        all_skipped += counted.iter().map(|c| c.2).sum::<u32>();
    }
    assert!(all_served > 100 && all_skipped > 100);
}

#[test]
fn every_reached_state_keeps_the_lock_in_order() {
    let mut overlaps = 0;
    for seed in 200..260 {
        watch(seed, 300, |_, _, _, s| {
            assert!(s.well_formed());
            assert_eq!(s.holder != NONE, s.locked != 0);
            let mut gangs = Vec::new();
            for c in 0..s.cores {
                let occupant = s.occupant[usize::from(c)];
                let locked = s.locked >> c & 1 == 1;
                let owes = s.owing >> c & 1 == 1;
                if occupant == NONE {
                    assert!(!locked);
                    continue;
                }
                let gang = s.thread_gang[usize::from(occupant)];
                assert!(!locked || gang == s.holder);
                assert!(locked || owes);
                if running(s, occupant) {
                    gangs.push((gang, owes));
                }
            }
            // Two gangs overlap only on owing cores.
            for &(one, one_owes) in &gangs {
                for &(other, other_owes) in &gangs {
                    assert!(one == other || one_owes || other_owes);
                    overlaps += u32::from(one != other);
                }
            }
        });
    }
    assert!(overlaps > 0, "some gangs overlap");
}

/// "Given exactly when it is true and no earlier one is", and an eighth never.
#[test]
fn the_reason_given_is_the_first_that_holds_and_one_does() {
    let mut met = [0u32; 7];
    for seed in 400..430 {
        watch(seed, 100, |_, event, _, s| {
            for t in 0..s.threads {
                let reply = s.ask_why(t);
                let first = holding(s, t).iter().position(|&holds| holds);
                let first = first.unwrap_or_else(|| panic!("no reason for {t} after {event:?}"));
                assert_eq!((reply.refusal, usize::from(reply.reason)), (0, first + 1));
                let which = match reply.reason {
                    6 => first_ready(s, s.thread_core[usize::from(t)]).unwrap(),
                    7 => s.holder,
                    _ => NONE,
                };
                assert_eq!(reply.which, which);
                met[first] += 1;
            }
        });
    }
    assert!(met.iter().all(|&count| count > 100), "{met:?}");
}

#[test]
fn refused_events_change_nothing_and_no_event_changes_the_table() {
    let mut refusals = [0u32; 15];
    for seed in 300..340 {
        watch(seed, 300, |before, event, answer, s| {
            refusals[usize::from(answer.refusal)] += 1;
            if answer.refusal != 0 {
                assert_eq!(before, s, "{event:?}");
                assert_eq!((answer.value, answer.number), (0, 0));
            }
            assert_eq!(
                (before.cores, before.gangs, before.threads),
                (s.cores, s.gangs, s.threads)
            );
            assert_eq!(before.priority, s.priority);
            assert_eq!(before.budget, s.budget);
            assert_eq!(before.thread_gang, s.thread_gang);
            assert_eq!(before.thread_core, s.thread_core);
        });
    }
    for (number, &count) in refusals.iter().enumerate() {
        let expected = matches!(number, 0 | 6 | 9 | 10 | 11);
        assert_eq!(count > 0, expected, "refusal {number}");
    }
}

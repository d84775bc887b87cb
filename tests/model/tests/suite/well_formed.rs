//! Well-formedness: each item of the list, and nothing more.

use crate::support::*;
use gjalvorn_model::{System, NONE, READY, WAITING};

/// A well-formed system in the middle of things: gang 0 displaced from core 0
/// by gang 1 on core 1, and a lower gang 2 blocked on core 2.
fn busy() -> System {
    let mut s = system(&[
        cores(3),
        gang(10, 100),
        gang(20, 100),
        gang(5, 100),
        thread(0, 0),
        thread(1, 1),
        thread(2, 2),
    ]);
    run(&mut s, &[release(0), serve(0), release(2), serve(2)]);
    run(&mut s, &[traffic(2, 7), release(1), serve(1)]);
    assert_eq!((s.holder, s.locked, s.blocked, s.owing), (1, 2, 4, 1));
    assert!(s.well_formed());
    s
}

fn with(change: impl Fn(&mut System)) -> bool {
    let mut s = busy();
    change(&mut s);
    s.well_formed()
}

#[test]
fn empty_or_nothing_at_all() {
    assert!(System::empty().well_formed());
    let changes: [fn(&mut System); 18] = [
        |s| s.gangs = 1,
        |s| s.threads = 1,
        |s| s.cores = 1,
        |s| s.priority[0] = 1,
        |s| s.budget[31] = 1,
        |s| s.thread_gang[127] = 1,
        |s| s.thread_core[0] = 1,
        |s| s.thread_state[0] = READY,
        |s| s.number[0] = 1,
        |s| s.served[0] = 1,
        |s| s.skipped[0] = 1,
        |s| s.job[0] = 1,
        |s| s.holder = 0,
        |s| s.locked = 1,
        |s| s.blocked = 1,
        |s| s.owing = 1,
        |s| s.occupant[0] = 0,
        |s| s.count[0] = 1,
    ];
    for change in changes {
        let mut s = System::empty();
        change(&mut s);
        assert!(!s.well_formed(), "{s:?}");
    }
}

#[test]
fn table_rules() {
    for cores in [0, 1, 2, 33, 255] {
        assert!(!with(|s| s.cores = cores), "{cores}");
    }
    assert!(with(|s| s.cores = 4));
    assert!(with(|s| s.cores = 32));
    for gangs in [0, 1, 2, 4, 32, 33, 255] {
        assert!(!with(|s| s.gangs = gangs), "{gangs}");
    }
    for threads in [0, 2, 129, 255] {
        assert!(!with(|s| s.threads = threads), "{threads}");
    }
    // More threads, of gang 0 on core 0, are a table's too.
    assert!(with(|s| s.threads = 4));
    assert!(with(|s| s.threads = 128));
    for priority in [0, 20, 5, 100, 255] {
        assert!(!with(|s| s.priority[0] = priority), "{priority}");
    }
    assert!(with(|s| s.priority[0] = 99));
    assert!(with(|s| s.priority[0] = 1));
    assert!(with(|s| s.budget[0] = 1_000_000));
    assert!(!with(|s| s.budget[0] = 1_000_001));
    for gang in [3, 31, 32, 255] {
        assert!(!with(|s| s.thread_gang[0] = gang), "{gang}");
    }
    // Gang 0 without a thread.
    assert!(!with(|s| s.thread_gang[0] = 2));
    for core in [3, 31, 32, 255] {
        assert!(!with(|s| s.thread_core[0] = core), "{core}");
    }
    assert!(with(|s| s.thread_state[0] = WAITING));
    assert!(!with(|s| s.thread_state[0] = 3));
    assert!(!with(|s| s.thread_state[0] = 255));
}

#[test]
fn core_sets_name_existing_cores() {
    assert!(with(|s| s.owing = 7));
    for c in 3..32 {
        assert!(!with(|s| s.owing |= 1 << c));
        assert!(!with(|s| s.blocked |= 1 << c));
        assert!(!with(|s| s.locked |= 1 << c));
    }
}

#[test]
fn occupants_are_pinned_to_their_core() {
    assert!(with(|s| s.occupant[0] = NONE));
    assert!(with(|s| s.occupant[2] = 2));
    for thread in [0, 1, 3, 127, 128, 254] {
        assert!(!with(|s| s.occupant[2] = thread), "{thread}");
    }
}

#[test]
fn held_exactly_when_a_core_is_locked_by_the_holder() {
    assert!(!with(|s| s.holder = NONE));
    assert!(!with(|s| s.locked = 0));
    assert!(with(|s| {
        s.holder = NONE;
        s.locked = 0;
        s.blocked = 0;
    }));
    // Not the holder's occupant, or none.
    for holder in [0, 2, 3, 31, 32, 254] {
        assert!(!with(|s| s.holder = holder), "{holder}");
    }
    assert!(!with(|s| s.locked = 3));
    assert!(!with(|s| s.occupant[1] = NONE));
}

#[test]
fn no_core_blocked_while_the_lock_is_free() {
    assert!(!with(|s| {
        s.holder = NONE;
        s.locked = 0;
    }));
}

#[test]
fn counts_and_release_numbers() {
    assert!(with(|s| s.count[1] = 1_000_000));
    assert!(!with(|s| s.count[1] = 1_000_001));
    assert!(!with(|s| s.job[0] = 2));
    assert!(with(|s| s.job[0] = 0)); // with served above 0
    assert!(!with(|s| s.number[0] = 2));
    assert!(!with(|s| s.served[0] = 0));
    assert!(!with(|s| s.skipped[0] = 1));
    assert!(with(|s| {
        s.served[0] = 0;
        s.skipped[0] = 1;
    }));
    // served + skipped is added without wrapping: 2^32 + 1 is not 1.
    assert!(!with(|s| {
        s.served[0] = u32::MAX;
        s.skipped[0] = 2;
    }));
    assert!(with(|s| {
        s.number[0] = u32::MAX;
        s.served[0] = u32::MAX - 5;
        s.skipped[0] = 5;
        s.job[0] = u32::MAX;
    }));
}

#[test]
fn unused_places_are_unused() {
    for g in 3..32 {
        assert!(!with(|s| s.priority[g] = 50));
        assert!(!with(|s| s.budget[g] = 1));
        assert!(!with(|s| s.job[g] = 1));
        assert!(!with(|s| s.served[g] = 1));
        assert!(!with(|s| s.skipped[g] = 1));
        assert!(!with(|s| s.number[g] = 1));
        assert!(!with(|s| {
            s.number[g] = 1;
            s.served[g] = 1;
        }));
    }
    for t in 3..128 {
        assert!(!with(|s| s.thread_gang[t] = 1));
        assert!(!with(|s| s.thread_core[t] = 1));
        assert!(!with(|s| s.thread_state[t] = READY));
    }
    for c in 3..32 {
        assert!(!with(|s| s.count[c] = 1));
        for thread in [0, 3, 128, 254] {
            assert!(!with(|s| s.occupant[c] = thread));
        }
    }
}

#[test]
fn nothing_is_added_to_the_list() {
    // A core both locked and blocked.
    assert!(with(|s| s.blocked |= 2));
    // An occupant on an unlocked core that does not owe.
    assert!(with(|s| s.owing = 0));
    // A locked core with a finished occupant that does not owe.
    assert!(with(|s| s.thread_state[1] = 0));
    // A blocked core without a ready thread.
    assert!(with(|s| s.thread_state[2] = 0));
}

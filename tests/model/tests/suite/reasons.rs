//! Why a thread is running or is not: each reason, their order, the refusals.

use crate::support::*;
use gjalvorn_model::{Event, Reason, System, WhyReply, FINISHED, NONE, READY};

fn told(reason: Reason) -> WhyReply {
    WhyReply {
        refusal: 0,
        reason: reason.number(),
        which: reason.which(),
    }
}

fn no(refusal: u8) -> WhyReply {
    WhyReply {
        refusal,
        reason: 0,
        which: 0,
    }
}

/// A small system after events, and what is told of its three threads.
fn assert_told(list: &[Event], reasons: [Reason; 3]) {
    let mut s = small();
    run(&mut s, list);
    assert_all(&s, &reasons);
}

fn assert_all(s: &System, reasons: &[Reason]) {
    assert_eq!(usize::from(s.threads), reasons.len());
    for (thread, &reason) in (0..).zip(reasons) {
        assert_eq!(s.ask_why(thread), told(reason), "thread {thread}");
    }
}

#[test]
fn the_numbers_and_which() {
    let reasons = [
        (Reason::Finished, 1, NONE),
        (Reason::Waiting, 2, NONE),
        (Reason::RunningLocked, 3, NONE),
        (Reason::RunningDisplaced, 4, NONE),
        (Reason::CoreOwes, 5, NONE),
        (Reason::ThreadAhead(127), 6, 127),
        (Reason::GangHolds(31), 7, 31),
        (Reason::NoneOfThese, 8, NONE),
    ];
    for (reason, number, which) in reasons {
        assert_eq!((reason.number(), reason.which()), (number, which));
    }
}

#[test]
fn finished_at_first_and_after_finish() {
    assert_told(&[], [Reason::Finished; 3]);
    // Thread 2 is its core's occupant still, and its core owes.
    let list = [release(1), serve(1), finish(2)];
    assert_told(&list, [Reason::Finished; 3]);
    let mut s = small();
    run(&mut s, &list);
    assert_eq!((s.occupant[1], s.owing, s.locked), (2, 2, 2));
}

#[test]
fn waiting_until_woken() {
    let (rest, own) = (Reason::Finished, Reason::Waiting);
    let list = [release(1), serve(1), wait(2), serve(1), wake(2)];
    // Still the occupant of an owing core, and then no occupant at all.
    assert_told(&list[..3], [rest, rest, own]);
    assert_told(&list[..4], [rest, rest, own]);
    assert_told(&list, [rest, rest, Reason::CoreOwes]);
    // Woken before its core is served, it is running.
    let list = [release(1), serve(1), wait(2), wake(2)];
    assert_told(&list, [rest, rest, Reason::RunningLocked]);
}

#[test]
fn running_on_a_locked_core_comes_before_owing_and_a_thread_ahead() {
    let running = Reason::RunningLocked;
    let list = [release(0), serve(0), serve(1), release(1)];
    assert_told(&list[..3], [running, running, Reason::Finished]);
    // Thread 2 is ahead of thread 1 now, and core 1 owes.
    assert_told(&list, [running, running, Reason::CoreOwes]);
    let mut s = small();
    run(&mut s, &list);
    assert_eq!((first_ready(&s, 1), s.owing, s.locked), (Some(2), 2, 3));
}

#[test]
fn running_but_displaced_comes_before_owing_and_a_higher_holder() {
    let list = [release(0), serve(0), release(1), serve(1)];
    assert_told(
        &list,
        [
            Reason::RunningDisplaced,
            Reason::ThreadAhead(2),
            Reason::RunningLocked,
        ],
    );
    let mut s = small();
    run(&mut s, &list);
    assert_eq!((s.owing, s.locked, s.holder), (1, 2, 1));
    // Served, it is kept out by the gang that displaced it.
    run(&mut s, &[serve(0)]);
    assert_eq!(s.ask_why(0), told(Reason::GangHolds(1)));
}

#[test]
fn running_but_displaced_comes_before_a_thread_ahead() {
    let mut s = system(&[
        cores(2),
        gang(10, 0),
        gang(20, 0),
        thread(0, 0),
        thread(1, 0),
        thread(1, 1),
    ]);
    run(&mut s, &[release(0), serve(0), release(1), serve(1)]);
    assert_eq!(first_ready(&s, 0), Some(1));
    assert_all(
        &s,
        &[
            Reason::RunningDisplaced,
            Reason::CoreOwes,
            Reason::RunningLocked,
        ],
    );
}

#[test]
fn an_owing_core_comes_before_a_thread_ahead_and_a_higher_holder() {
    // Thread 2 is ahead of thread 1.
    assert_told(&[release(0), release(1)], [Reason::CoreOwes; 3]);
    // Gang 1 holds the lock, and is higher.
    let list = [release(1), serve(1), release(0)];
    assert_told(
        &list,
        [Reason::CoreOwes, Reason::CoreOwes, Reason::RunningLocked],
    );
}

#[test]
fn a_thread_ahead_comes_before_a_higher_holder() {
    // The thread ahead is the holder's own.
    let list = [release(0), release(1), serve(1), serve(0)];
    assert_told(
        &list,
        [
            Reason::GangHolds(1),
            Reason::ThreadAhead(2),
            Reason::RunningLocked,
        ],
    );
    // The thread ahead is kept out itself.
    let mut s = system(&[
        cores(2),
        gang(10, 0),
        gang(20, 0),
        gang(30, 0),
        thread(0, 0),
        thread(1, 0),
        thread(2, 1),
    ]);
    run(&mut s, &[release(0), release(1), release(2)]);
    run(&mut s, &[serve(1), serve(0)]);
    assert_all(
        &s,
        &[
            Reason::ThreadAhead(1),
            Reason::GangHolds(2),
            Reason::RunningLocked,
        ],
    );
}

#[test]
fn of_one_gang_on_a_core_the_lower_number_is_ahead() {
    let mut s = system(&[cores(1), gang(1, 0), thread(0, 0), thread(0, 0)]);
    run(&mut s, &[release(0), serve(0)]);
    assert_all(&s, &[Reason::RunningLocked, Reason::ThreadAhead(0)]);
}

#[test]
fn the_holder_keeps_others_out_until_its_cores_are_served() {
    let mut s = small();
    run(&mut s, &[release(1), serve(1), release(0), serve(0)]);
    run(&mut s, &[finish(2)]);
    // Nothing of gang 1 is ready, but the lock is not given up yet.
    let waits = Reason::GangHolds(1);
    assert_all(&s, &[waits, Reason::CoreOwes, Reason::Finished]);
    run(&mut s, &[serve(1)]);
    let owes = Reason::CoreOwes;
    assert_all(&s, &[owes, Reason::RunningLocked, Reason::Finished]);
}

/// No events lead to these systems, but they are well formed.
#[test]
fn none_of_these_where_no_events_lead() {
    // Ready on a core that does not owe, under a free lock.
    let mut s = small();
    s.thread_state[0] = READY;
    assert!(s.well_formed());
    let rest = Reason::Finished;
    assert_all(&s, &[Reason::NoneOfThese, rest, rest]);
    // Under a lock that its own gang holds, or a lower one.
    for (holder, ready) in [(0, 0), (0, 2), (1, 2)] {
        let mut s = system(&[
            cores(3),
            gang(10, 0),
            gang(20, 0),
            thread(0, 0),
            thread(holder, 1),
            thread(1, 2),
        ]);
        s.holder = holder;
        s.locked = 2;
        s.occupant[1] = 1;
        s.thread_state[usize::from(ready)] = READY;
        assert!(s.well_formed());
        assert_eq!(s.ask_why(ready), told(Reason::NoneOfThese));
    }
}

/// What events lead to never parts these from one another.
#[test]
fn odd_but_well_formed_systems_follow_the_order() {
    // Running on a core that is not locked and does not owe.
    let mut s = small();
    s.thread_state[0] = READY;
    s.occupant[0] = 0;
    assert_eq!(s.ask_why(0), told(Reason::RunningDisplaced));
    // Ready on a core whose occupant is another thread, finished and locked.
    let mut s = small();
    run(&mut s, &[release(1), serve(1)]);
    s.thread_state[2] = FINISHED;
    s.thread_state[1] = READY;
    assert!(s.well_formed());
    assert_eq!(s.ask_why(1), told(Reason::GangHolds(1)));
}

#[test]
fn a_thread_not_in_the_table_is_6() {
    let s = small();
    for thread in [3, 31, 127, 128, 254, 255] {
        assert_eq!(s.ask_why(thread), no(6));
    }
    for thread in [0, 1, 127, 128, 255] {
        assert_eq!(System::empty().ask_why(thread), no(6));
    }
}

#[test]
fn the_last_thread_is_told_of() {
    let mut table = vec![cores(32), gang(1, 0)];
    table.extend((0..128).map(|t| thread(0, t % 32)));
    let mut s = system(&table);
    run(&mut s, &[release(0), serve(31)]);
    assert_eq!(s.ask_why(127), told(Reason::ThreadAhead(31)));
    assert_eq!(s.ask_why(126), told(Reason::CoreOwes));
    assert_eq!(s.ask_why(31), told(Reason::RunningLocked));
    assert_eq!(s.ask_why(128), no(6));
}

#[test]
fn refusal_14_comes_first() {
    let mut s = small();
    s.owing = 4;
    for thread in [0, 2, 3, 255] {
        assert_eq!(s.ask_why(thread), no(14));
    }
    let mut s = System::empty();
    s.threads = 1;
    assert_eq!(s.ask_why(0), no(14));
    assert_eq!(s.ask_why(9), no(14));
}

//! The seven events: effects, refusals and the slips.

use crate::support::*;
use gjalvorn_model::{Event, System, FINISHED, NONE, READY, WAITING};

/// The event is refused with this number and changes nothing.
fn assert_refused(s: &System, event: Event, number: u8) {
    let mut after = s.clone();
    assert_eq!(after.apply(event), refused(number), "{event:?}");
    assert_eq!(&after, s, "{event:?}");
}

#[test]
fn release_served_and_skipped() {
    let mut s = small();
    let before = s.clone();
    assert_eq!(s.release(0), ok(1, 1));
    let mut expected = before;
    expected.number[0] = 1;
    expected.served[0] = 1;
    expected.job[0] = 1;
    expected.thread_state[0] = READY;
    expected.thread_state[1] = READY;
    expected.owing = 3;
    assert_eq!(s, expected);

    assert_eq!(s.release(0), ok(0, 2));
    expected.number[0] = 2;
    expected.skipped[0] = 1;
    assert_eq!(s, expected);
}

#[test]
fn a_skipped_number_is_not_given_to_the_next_job() {
    let mut s = small();
    run(&mut s, &[release(1), serve(1)]);
    assert_eq!(s.release(1), ok(0, 2));
    assert_eq!(s.job[1], 1);
    run(&mut s, &[finish(2)]);
    // The job's number stays after the job finishes.
    assert_eq!(s.job[1], 1);
    assert_eq!(s.release(1), ok(1, 3));
    assert_eq!((s.number[1], s.served[1], s.skipped[1]), (3, 2, 1));
    assert_eq!(s.job[1], 3);
}

#[test]
fn a_waiting_thread_skips_the_release() {
    let mut s = small();
    run(&mut s, &[release(1), serve(1), wait(2)]);
    assert_eq!(s.release(1), ok(0, 2));
    assert_eq!(s.thread_state[2], WAITING);
}

#[test]
fn finish_wait_and_wake() {
    let mut s = small();
    run(&mut s, &[release(0), serve(0), serve(1)]);
    assert_eq!((s.owing, s.locked, s.holder), (0, 3, 0));
    assert_eq!(s.finish(0), ok(0, 0));
    assert_eq!((s.thread_state[0], s.owing, s.locked), (FINISHED, 1, 3));
    assert_eq!(s.occupant[0], 0);
    assert_eq!(s.wait(1), ok(0, 0));
    assert_eq!((s.thread_state[1], s.owing, s.locked), (WAITING, 3, 3));
    run(&mut s, &[serve(0), serve(1)]);
    assert_eq!((s.owing, s.locked, s.holder), (0, 0, NONE));
    assert_eq!(s.wake(1), ok(0, 0));
    assert_eq!((s.thread_state[1], s.owing), (READY, 2));
}

#[test]
fn a_woken_or_released_occupant_runs_at_once() {
    let mut s = small();
    run(&mut s, &[release(1), serve(1), wait(2), wake(2)]);
    assert_eq!(s.wait(2), ok(0, 0));
    run(&mut s, &[wake(2), finish(2), release(1)]);
    assert_eq!(s.finish(2), ok(0, 0));
}

#[test]
fn serve_takes_a_free_lock_then_joins_it() {
    let mut s = small();
    run(&mut s, &[release(0)]);
    assert_eq!(s.serve(1), ok(1, 0));
    assert_eq!((s.holder, s.locked, s.owing), (0, 2, 1));
    assert_eq!(s.serve(0), ok(0, 0));
    assert_eq!((s.holder, s.locked, s.owing), (0, 3, 0));
    assert_eq!(s.occupant[..2], [0, 1]);
    // Serving again, owing or not, rests in the same state.
    let rest = s.clone();
    assert_eq!(s.serve(0), ok(0, 0));
    assert_eq!(s, rest);
}

#[test]
fn serve_of_an_idle_core() {
    let mut s = small();
    let before = s.clone();
    assert_eq!(s.serve(0), ok(255, 0));
    assert_eq!(s, before);
}

#[test]
fn serve_displaces_a_lower_holder() {
    let mut s = small();
    run(&mut s, &[release(0), serve(0), release(1)]);
    assert_eq!(s.serve(1), ok(2, 0));
    assert_eq!((s.holder, s.locked, s.owing, s.blocked), (1, 2, 1, 0));
    // The displaced core still runs its old thread until it is served.
    assert_eq!(s.occupant[..2], [0, 2]);
    assert!(running(&s, 0) && running(&s, 2));
    // FINISH and WAIT of a displaced thread are accepted.
    assert_eq!(s.clone().finish(0), ok(0, 0));
    assert_eq!(s.clone().wait(0), ok(0, 0));
    assert_eq!(s.serve(0), ok(255, 0));
    assert_eq!((s.blocked, s.occupant[0]), (1, NONE));
}

#[test]
fn preemption_makes_no_blocked_core_owe() {
    let mut s = system(&[
        cores(3),
        gang(10, 0),
        gang(20, 0),
        gang(30, 0),
        thread(0, 0),
        thread(1, 1),
        thread(2, 2),
    ]);
    run(&mut s, &[release(1), serve(1), release(0), serve(0)]);
    assert_eq!((s.blocked, s.owing, s.locked), (1, 0, 2));
    run(&mut s, &[release(2), serve(2)]);
    assert_eq!((s.blocked, s.owing, s.locked), (1, 2, 4));
}

#[test]
fn a_blocked_core_that_takes_the_lock_is_no_longer_blocked() {
    let mut s = system(&[
        cores(2),
        gang(10, 0),
        gang(20, 0),
        gang(30, 0),
        thread(0, 0),
        thread(1, 1),
        thread(2, 0),
    ]);
    run(&mut s, &[release(1), serve(1), release(0), serve(0)]);
    assert_eq!((s.blocked, s.locked), (1, 2));
    // Core 0 displaces the holder with its thread of priority 30.
    run(&mut s, &[release(2)]);
    assert_eq!(s.serve(0), ok(2, 0));
    assert_eq!((s.blocked, s.locked, s.owing), (0, 1, 2));
}

#[test]
fn the_last_unlocked_core_frees_the_lock_and_may_take_it_again() {
    let mut s = system(&[
        cores(2),
        gang(10, 0),
        gang(20, 0),
        gang(30, 0),
        thread(0, 1),
        thread(1, 0),
        thread(2, 0),
    ]);
    run(&mut s, &[release(2), serve(0), release(0), serve(1)]);
    run(&mut s, &[release(1), finish(2)]);
    assert_eq!((s.holder, s.locked, s.blocked, s.owing), (2, 1, 2, 1));
    assert_eq!(s.serve(0), ok(1, 0));
    assert_eq!((s.holder, s.locked, s.blocked, s.owing), (1, 1, 0, 2));
}

#[test]
fn the_first_ready_thread_is_of_highest_priority_then_of_lowest_number() {
    let mut s = system(&[
        cores(1),
        gang(10, 0),
        gang(20, 0),
        thread(0, 0),
        thread(1, 0),
        thread(1, 0),
    ]);
    run(&mut s, &[release(0), release(1)]);
    assert_eq!(s.serve(0), ok(1, 0));
    run(&mut s, &[finish(1)]);
    assert_eq!(s.serve(0), ok(2, 0));
    run(&mut s, &[wait(2)]);
    assert_eq!(s.serve(0), ok(0, 0));
    // A waiting thread of the gang wakes and takes over on its own core.
    run(&mut s, &[wake(2)]);
    assert_eq!(s.serve(0), ok(2, 0));
}

#[test]
fn edge_traffic_of_99_and_100_against_budget_100() {
    let mut s = small();
    run(&mut s, &[release(1), serve(1)]);
    assert_eq!(s.clone().traffic(0, 99), ok(0, 99));
    assert_eq!(s.clone().traffic(0, 100), ok(1, 100));
    assert_eq!(s.traffic(0, 99), ok(0, 99));
    assert_eq!(s.traffic(0, 0), ok(0, 99));
    assert_eq!(s.traffic(0, 1), ok(1, 100));
    assert_eq!(s.tick(), ok(0, 0));
    assert_eq!(s.count, [0; 32]);
    assert_eq!(s.traffic(0, 99), ok(0, 99));
}

#[test]
fn counts_are_kept_at_most_at_a_million() {
    let mut s = system(&[
        cores(2),
        gang(10, 1_000_000),
        gang(20, 999_999),
        thread(0, 0),
        thread(1, 0),
    ]);
    run(&mut s, &[release(0), serve(0)]);
    assert_eq!(s.traffic(1, 999_999), ok(0, 999_999));
    assert_eq!(s.traffic(1, 1), ok(1, 1_000_000));
    assert_eq!(s.traffic(1, 1_000_000), ok(1, 1_000_000));
    assert_eq!(s.traffic(1, 0), ok(1, 1_000_000));
    assert_eq!(s.count[1], 1_000_000);
}

#[test]
fn budget_0_stops_always_and_a_free_lock_nobody() {
    let mut s = system(&[cores(2), gang(10, 0), thread(0, 0)]);
    assert_eq!(s.traffic(1, 1_000_000), ok(0, 1_000_000));
    run(&mut s, &[Event::Tick, release(0), serve(0)]);
    assert_eq!(s.traffic(1, 0), ok(1, 0));
}

#[test]
fn the_budget_is_the_holders() {
    let mut s = system(&[
        cores(3),
        gang(10, 50),
        gang(20, 200),
        thread(0, 0),
        thread(1, 1),
    ]);
    run(&mut s, &[release(0), serve(0)]);
    assert_eq!(s.traffic(2, 100), ok(1, 100));
    run(&mut s, &[release(1), serve(1)]);
    assert_eq!(s.traffic(2, 0), ok(0, 100));
    // Counts live until TICK, whatever comes onto the core.
    run(&mut s, &[finish(1), serve(1), serve(0)]);
    assert_eq!(s.traffic(2, 0), ok(1, 100));
}

#[test]
fn refusal_6_of_every_event() {
    let mut s = small();
    run(&mut s, &[release(0), serve(0), serve(1)]);
    for number in [2, 3, 31, 32, 127, 128, 254, 255] {
        assert_refused(&s, release(number), 6);
        assert_refused(&s, serve(number), 6);
        assert_refused(&s, traffic(number, 0), 6);
    }
    for number in [3, 32, 127, 128, 254, 255] {
        assert_refused(&s, finish(number), 6);
        assert_refused(&s, wait(number), 6);
        assert_refused(&s, wake(number), 6);
    }
    // TRAFFIC's count is 6 before 11.
    assert_refused(&s, traffic(0, 1_000_001), 6);
    assert_refused(&s, traffic(0, u32::MAX), 6);
    assert_refused(&s, traffic(0, 1_000_000), 11);
}

#[test]
fn edge_core_31_and_32() {
    let mut s = system(&[cores(32), gang(1, 5), thread(0, 31)]);
    assert_eq!(s.traffic(31, 5), ok(0, 5));
    run(&mut s, &[release(0)]);
    assert_eq!(s.owing, 0x8000_0000);
    assert_eq!(s.serve(31), ok(0, 0));
    assert_eq!((s.locked, s.owing), (0x8000_0000, 0));
    assert_refused(&s, serve(32), 6);
    assert_refused(&s, traffic(32, 0), 6);
    // Core 31 is not there in a smaller table.
    assert_refused(&small(), serve(31), 6);
}

#[test]
fn refusal_9() {
    let mut s = small();
    for event in [finish(0), wait(0), finish(2), wait(2)] {
        assert_refused(&s, event, 9);
    }
    run(&mut s, &[release(0)]);
    // Ready, but not its core's occupant.
    assert_refused(&s, finish(0), 9);
    run(&mut s, &[serve(0), wait(0)]);
    // The occupant, but not ready.
    assert_eq!(s.occupant[0], 0);
    assert_refused(&s, finish(0), 9);
    assert_refused(&s, wait(0), 9);
}

#[test]
fn refusal_10() {
    let mut s = small();
    assert_refused(&s, wake(0), 10);
    run(&mut s, &[release(0)]);
    assert_refused(&s, wake(0), 10);
    run(&mut s, &[serve(0), wait(0), wake(0)]);
    assert_refused(&s, wake(0), 10);
}

#[test]
fn refusal_11() {
    let mut s = small();
    run(&mut s, &[release(0), serve(0)]);
    assert_refused(&s, traffic(0, 1), 11);
    // Also from a core with a finished occupant.
    run(&mut s, &[finish(0)]);
    assert_refused(&s, traffic(0, 1), 11);
    run(&mut s, &[serve(0)]);
    assert_eq!(s.traffic(0, 1), ok(0, 1));
}

#[test]
fn refusal_12() {
    let mut s = small();
    s.number[0] = u32::MAX - 1;
    s.served[0] = 1;
    s.skipped[0] = u32::MAX - 2;
    assert_eq!(s.clone().release(0), ok(1, u32::MAX));
    run(&mut s, &[release(0)]);
    // Also where the release would only be skipped.
    assert_refused(&s, release(0), 12);
    // And where it would be served.
    run(&mut s, &[serve(0), serve(1), finish(0), finish(1)]);
    assert!(idle(&s, 0));
    assert_refused(&s, release(0), 12);
    assert_eq!(s.release(1), ok(1, 1));
}

#[test]
fn refusal_14_comes_first() {
    let mut s = small();
    s.holder = 0; // held with no core locked
    for event in [
        release(0),
        release(9),
        finish(0),
        wait(200),
        wake(0),
        serve(0),
        serve(99),
        traffic(0, 0),
        traffic(0, u32::MAX),
        Event::Tick,
    ] {
        assert_refused(&s, event, 14);
    }
}

#[test]
fn the_empty_system_takes_only_ticks() {
    let s = System::empty();
    let mut ticked = s.clone();
    assert_eq!(ticked.tick(), ok(0, 0));
    assert_eq!(ticked, s);
    for event in [
        release(0),
        finish(0),
        wait(0),
        wake(0),
        serve(0),
        traffic(0, 0),
    ] {
        assert_refused(&s, event, 6);
    }
}

#[test]
fn odd_but_well_formed_systems_follow_the_definitions() {
    // A core both locked and blocked: served, it is locked alone.
    let mut s = small();
    run(&mut s, &[release(0), serve(0), serve(1)]);
    s.blocked = 3;
    assert_eq!(s.serve(0), ok(0, 0));
    assert_eq!((s.locked, s.blocked, s.owing), (3, 2, 0));
    // As the last locked core it frees the lock and the others owe.
    s.thread_state[0] = FINISHED;
    s.locked = 1;
    s.occupant[1] = NONE;
    assert_eq!(s.serve(0), ok(255, 0));
    assert_eq!((s.locked, s.blocked, s.owing, s.holder), (0, 0, 2, NONE));

    // An occupant on an unlocked core that does not owe is running.
    let mut s = small();
    s.thread_state[2] = READY;
    s.occupant[1] = 2;
    assert_eq!(s.clone().traffic(1, 0), refused(11));
    assert_eq!(s.finish(2), ok(0, 0));
    assert_eq!(s.owing, 2);
}

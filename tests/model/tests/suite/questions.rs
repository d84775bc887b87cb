//! Document 01's eight questions.

use crate::support::*;
use gjalvorn_model::{Reply, System};

fn told(value: u32) -> Reply {
    Reply { refusal: 0, value }
}

fn no(refusal: u8) -> Reply {
    Reply { refusal, value: 0 }
}

/// The questions about a core and about a gang, at one number.
fn by_number(s: &System, n: u8) -> [Reply; 6] {
    [
        s.ask_occupant(n),
        s.ask_stopped(n),
        s.ask_number(n),
        s.ask_served(n),
        s.ask_skipped(n),
        s.ask_job(n),
    ]
}

#[test]
fn after_the_worked_events() {
    let mut s = system(&worked_table());
    for (i, event) in worked_events().into_iter().enumerate() {
        s.apply(event);
        if i == 4 {
            // After line 5: core 0 is displaced and still occupied.
            assert_eq!(s.ask_occupant(0), told(0));
            assert_eq!(s.ask_occupant(1), told(255));
            assert_eq!(s.ask_occupant(2), told(2));
            assert_eq!(s.ask_stopped(0), told(0));
            assert_eq!(s.ask_stopped(1), told(1)); // budget 0
            assert_eq!(s.ask_stopped(2), told(0));
            assert_eq!(s.ask_lowest_owing(), told(0));
            assert_eq!(s.ask_owing_count(), told(2));
        }
    }
    assert_eq!(s.ask_occupant(1), told(1));
    assert_eq!(s.ask_stopped(0), told(0)); // no traffic, budget 100
    assert_eq!(s.ask_stopped(2), told(1)); // 100 against budget 100
    assert_eq!(s.ask_number(0), told(2));
    assert_eq!(s.ask_served(0), told(1));
    assert_eq!(s.ask_skipped(0), told(1));
    assert_eq!(s.ask_job(0), told(1));
    assert_eq!(s.ask_number(1), told(1));
    assert_eq!(s.ask_lowest_owing(), told(255));
    assert_eq!(s.ask_owing_count(), told(0));
}

#[test]
fn before_the_first_release_the_job_is_0() {
    let s = small();
    assert_eq!(s.ask_job(0), told(0));
    assert_eq!(s.ask_number(0), told(0));
    assert_eq!(s.ask_stopped(0), told(0));
}

#[test]
fn owing_cores_are_counted_and_the_lowest_told() {
    let mut s = system(&[
        cores(32),
        gang(1, 0),
        thread(0, 31),
        thread(0, 30),
        thread(0, 5),
    ]);
    run(&mut s, &[release(0)]);
    assert_eq!(
        (s.ask_lowest_owing(), s.ask_owing_count()),
        (told(5), told(3))
    );
    run(&mut s, &[serve(5), serve(30)]);
    assert_eq!(
        (s.ask_lowest_owing(), s.ask_owing_count()),
        (told(31), told(1))
    );
}

#[test]
fn a_number_not_in_the_table_is_6() {
    let s = small();
    for n in [2, 31, 32, 127, 128, 255] {
        assert_eq!(by_number(&s, n), [no(6); 6]);
    }
}

#[test]
fn on_the_empty_system() {
    let s = System::empty();
    for n in [0, 1, 31, 32, 255] {
        assert_eq!(by_number(&s, n), [no(6); 6]);
    }
    assert_eq!(s.ask_lowest_owing(), told(255));
    assert_eq!(s.ask_owing_count(), told(0));
}

#[test]
fn refusal_14_comes_first() {
    let mut s = small();
    s.owing = 4;
    for n in [0, 2, 255] {
        assert_eq!(by_number(&s, n), [no(14); 6]);
    }
    assert_eq!(s.ask_lowest_owing(), no(14));
    assert_eq!(s.ask_owing_count(), no(14));
}

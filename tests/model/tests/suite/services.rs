//! Demand 3: services of owing cores end, and end in one state.

use crate::support::*;
use gjalvorn_model::{read_table, Reason, System, NONE};

/// The state of "Three services": cores 0, 1, 2 owe; core 0 is locked for a
/// finished gang of priority 30; cores 1 and 2 have ready threads of priority
/// 10 and 20.
fn three_services() -> System {
    let mut s = system(&[
        cores(3),
        gang(30, 0),
        gang(10, 0),
        gang(20, 0),
        thread(0, 0),
        thread(1, 1),
        thread(2, 2),
    ]);
    run(
        &mut s,
        &[release(0), serve(0), finish(0), release(1), release(2)],
    );
    assert_eq!((s.owing, s.locked, s.blocked, s.holder), (7, 1, 0, 0));
    s
}

/// The state in which a system must rest, made from its ready threads alone:
/// the highest-priority gang with a ready thread holds the lock; each core
/// whose first ready thread is that gang's runs it; every other core with a
/// ready thread is blocked; with nothing ready the lock is free.
fn rest_of(s: &System) -> System {
    let gang_of = |t: u8| s.thread_gang[usize::from(t)];
    let first: Vec<Option<u8>> = (0..s.cores).map(|c| first_ready(s, c)).collect();
    let top = first
        .iter()
        .flatten()
        .map(|&t| gang_of(t))
        .max_by_key(|&g| s.priority[usize::from(g)]);
    let mut rest = s.clone();
    rest.owing = 0;
    rest.locked = 0;
    rest.blocked = 0;
    rest.holder = top.unwrap_or(NONE);
    for (c, &thread) in first.iter().enumerate() {
        rest.occupant[c] = NONE;
        if let Some(t) = thread {
            if Some(gang_of(t)) == top {
                rest.occupant[c] = t;
                rest.locked |= 1 << c;
            } else {
                rest.blocked |= 1 << c;
            }
        }
    }
    rest
}

/// Serves owing cores in the given order, each of which must owe.
fn serve_in_order(s: &mut System, order: &[u8]) {
    for &core in order {
        assert_eq!(s.owing >> core & 1, 1, "core {core} owes");
        assert_eq!(s.serve(core).refusal, 0);
    }
    assert_eq!(s.owing, 0);
}

/// Serves owing cores, chosen by the caller, until none owes; the most
/// services that a core had.
fn serve_all(s: &mut System, mut choose: impl FnMut(&[u8]) -> u8) -> u32 {
    let mut services = [0u32; 32];
    while s.owing != 0 {
        let core = choose(&owing(s));
        services[usize::from(core)] += 1;
        assert!(services[usize::from(core)] <= 3, "a fourth service");
        assert_eq!(s.apply(serve(core)).refusal, 0);
    }
    services.iter().copied().max().unwrap_or(0)
}

#[test]
fn both_orders_of_three_services() {
    let start = three_services();
    let mut one = start.clone();
    serve_in_order(&mut one, &[1, 0, 1, 2, 1]);
    let mut other = start.clone();
    serve_in_order(&mut other, &[2, 1, 0, 2, 1]);
    assert_eq!(one, other);
    assert_eq!((one.locked, one.blocked, one.holder), (4, 2, 2));
    assert_eq!(one.occupant[..3], [NONE, NONE, 2]);
    assert_eq!(one, rest_of(&start));
}

#[test]
fn each_step_of_the_first_order() {
    let mut s = three_services();
    let mut seen = Vec::new();
    for core in [1, 0, 1, 2, 1] {
        let value = s.serve(core).value;
        seen.push((value, s.owing, s.locked, s.blocked, s.holder));
    }
    assert_eq!(
        seen,
        [
            (255, 0b101, 0b001, 0b010, 0),
            (255, 0b110, 0b000, 0b000, NONE),
            (1, 0b100, 0b010, 0b000, 1),
            (2, 0b010, 0b100, 0b000, 2),
            (255, 0b000, 0b100, 0b010, 2),
        ]
    );
}

/// From every kind of reached state, random orders and the two plain ones.
#[test]
fn any_order_ends_within_three_services_in_one_state() {
    let mut most = 0;
    for seed in 0..150 {
        let mut r = Random::new(1_000 + seed);
        let table = match seed % 3 {
            0 => random_table(&mut r, 32, 32, 128),
            1 => random_table(&mut r, 8, 8, 16),
            _ => random_table(&mut r, 4, 5, 7),
        };
        let mut s = read_table(&table).system;
        for _ in 0..6 {
            for _ in 0..25 {
                let event = random_event(&mut r, &s);
                s.step(event);
            }
            let rest = rest_of(&s);
            for _ in 0..4 {
                let mut t = s.clone();
                let services = serve_all(&mut t, |cores| r.pick(cores).unwrap());
                most = most.max(services);
                assert_eq!(t, rest);
            }
            let mut lowest = s.clone();
            serve_all(&mut lowest, |cores| cores[0]);
            assert_eq!(lowest, rest);
            let mut highest = s.clone();
            serve_all(&mut highest, |cores| cores[cores.len() - 1]);
            assert_eq!(highest, rest);
            assert!(rest.well_formed());
            // No thread is displaced, and none is told that its core owes.
            let told = reasons(&rest);
            assert!(told.iter().all(|&n| matches!(n, 1..=3 | 6 | 7)), "{told:?}");
            // A service of a core that does not owe may make blocked cores owe
            // (when it was the only locked one), but rests in the same state.
            for core in 0..rest.cores {
                let mut again = rest.clone();
                assert_eq!(again.serve(core).refusal, 0);
                serve_all(&mut again, |cores| cores[0]);
                assert_eq!(again, rest);
            }
        }
    }
    assert_eq!(most, 3, "the bound is met");
}

/// Every order there is, from small reached states.
#[test]
fn every_order_of_up_to_three_cores() {
    fn walk(s: &System, services: [u32; 3], rest: &System) {
        let none = Reason::NoneOfThese.number();
        assert!(!reasons(s).contains(&none), "a thread with no reason");
        if s.owing == 0 {
            assert_eq!(s, rest);
        }
        for core in owing(s) {
            let mut next = s.clone();
            next.step(serve(core));
            let mut counted = services;
            counted[usize::from(core)] += 1;
            assert!(counted[usize::from(core)] <= 3, "a fourth service");
            walk(&next, counted, rest);
        }
    }
    for seed in 0..200 {
        let mut r = Random::new(5_000 + seed);
        let table = random_table(&mut r, 3, 5, 7);
        let steps = 5 + r.below(40);
        let s = reached(&mut r, &table, steps);
        walk(&s, [0; 3], &rest_of(&s));
    }
    walk(&three_services(), [0; 3], &rest_of(&three_services()));
}

/// At rest, a service of the only locked core frees the lock on the way.
#[test]
fn a_service_of_the_only_locked_core_makes_the_blocked_ones_owe() {
    let mut s = three_services();
    serve_in_order(&mut s, &[1, 0, 1, 2, 1]);
    assert_eq!((s.locked, s.blocked, s.owing), (4, 2, 0));
    assert_eq!(s.serve(2), ok(2, 0));
    assert_eq!((s.locked, s.blocked, s.owing), (4, 0, 2));
}

#[test]
fn nothing_ready_leaves_the_lock_free() {
    let mut s = small();
    run(&mut s, &[release(0), release(1), serve(0), serve(1)]);
    run(&mut s, &[finish(0), wait(2), serve(1), finish(1)]);
    serve_all(&mut s, |cores| cores[0]);
    assert_eq!((s.holder, s.locked, s.blocked), (NONE, 0, 0));
    assert_eq!(s.occupant, [NONE; 32]);
}

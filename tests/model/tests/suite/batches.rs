//! The batch.

use crate::support::*;
use gjalvorn_model::{batch, kind, Batched, Event, System, ANSWER_SIZE};

const FILL: u8 = 0xa5;

fn done(read: usize, written: usize, number: u8) -> Batched {
    Batched {
        read,
        written,
        number,
    }
}

/// The ANSWER records of events taken one by one.
fn answers(s: &mut System, list: &[Event]) -> Vec<u8> {
    let mut bytes = Vec::new();
    for &event in list {
        let answer = s.apply(event);
        let mut payload = vec![answer.refusal, answer.value];
        payload.extend_from_slice(&answer.number.to_le_bytes());
        payload.extend_from_slice(&s.owing.to_le_bytes());
        payload.extend_from_slice(&s.locked.to_le_bytes());
        bytes.extend(record(kind::ANSWER, &payload));
    }
    bytes
}

/// Runs a batch over the bytes with so much output, and holds it against the
/// first events taken one by one: system, answers, untouched rest.
fn check(start: &System, bytes: &[u8], room: usize, first: &[Event], number: u8) {
    let mut s = start.clone();
    let mut out = vec![FILL; room];
    let got = batch(&mut s, bytes, &mut out);
    let mut expected_system = start.clone();
    let mut expected = answers(&mut expected_system, first);
    let read = events(first).len();
    assert_eq!(got, done(read, first.len() * ANSWER_SIZE, number));
    expected.resize(room, FILL);
    assert_eq!(out, expected);
    assert_eq!(s, expected_system);
}

#[test]
fn the_worked_events() {
    let list = worked_events();
    let bytes = events(&list);
    assert_eq!(bytes.len(), 69);
    let start = system(&worked_table());
    check(&start, &bytes, 13 * 18, &list, 0);
    check(&start, &bytes, 13 * 18 + 100, &list, 0);

    // The last answer, byte for byte: WAKE refused with the true sets.
    let mut s = start;
    let mut out = [FILL; 13 * 18];
    batch(&mut s, &bytes, &mut out);
    let last = [16, 0, 64, 0, 10, 0, 0, 0, 0, 0, 0, 0, 0, 0, 2, 0, 0, 0];
    assert_eq!(out[12 * 18..], last);
}

#[test]
fn edge_empty_batch_is_0() {
    check(&small(), &[], 0, &[], 0);
    check(&small(), &[], 17, &[], 0);
    check(&System::empty(), &[], 40, &[], 0);
}

#[test]
fn refusal_13_keeps_what_was_written() {
    let list = worked_events();
    let bytes = events(&list);
    let start = system(&worked_table());
    for room in 0..13 * 18 {
        check(&start, &bytes, room, &list[..room / 18], 13);
    }
}

#[test]
fn refusals_1_2_and_3_stop_and_come_before_13() {
    let start = small();
    let good = [release(0), serve(0)];
    for (bad, number) in [
        (vec![3], 1),
        (vec![3, 0, 16], 1),
        (raw(3, kind::RELEASE, &[]), 1),
        (raw(7, kind::TRAFFIC, &[0, 1, 0, 0]), 1),
        (raw(3, 23, &[0]), 2),
        (raw(500, 7, &[]), 2),
        (cores(1), 2),
        (raw(16, kind::ANSWER, &[0; 14]), 2),
        (raw(4, kind::RELEASE, &[0, 0]), 3),
        (raw(9, kind::RELEASE, &[]), 3),
    ] {
        let bytes = [events(&good), bad].concat();
        check(&start, &bytes, 100, &good, number);
        check(&start, &bytes, 36, &good, number);
        check(&start, &bytes, 35, &good[..1], 13);
    }
}

#[test]
fn refused_events_are_answered_and_do_not_stop() {
    let mut start = small();
    start.number[1] = u32::MAX;
    start.served[1] = u32::MAX;
    let list = [
        release(7),
        finish(0),
        wake(0),
        release(0),
        serve(0),
        traffic(0, 5),
        traffic(1, 1_000_001),
        release(1),
        Event::Tick,
    ];
    check(&start, &events(&list), 200, &list, 0);
    let refusals: Vec<u8> = list.iter().map(|&e| start.apply(e).refusal).collect();
    assert_eq!(refusals, [6, 9, 10, 0, 0, 11, 6, 12, 0]);
}

#[test]
fn with_14_nothing_is_read_or_written() {
    let mut s = small();
    s.count[0] = 1_000_001;
    let before = s.clone();
    for bytes in [vec![], vec![1], events(&[Event::Tick])] {
        let mut out = [FILL; 40];
        assert_eq!(batch(&mut s, &bytes, &mut out), done(0, 0, 14));
        assert_eq!(out, [FILL; 40]);
        assert_eq!(s, before);
    }
}

#[test]
fn the_empty_system_answers_too() {
    let list = [Event::Tick, serve(0), release(0)];
    check(&System::empty(), &events(&list), 54, &list, 0);
}

#[test]
fn a_batch_split_in_two_gives_the_same() {
    let mut r = Random::new(11);
    for _ in 0..20 {
        let table = random_table(&mut r, 6, 6, 20);
        let start = reached(&mut r, &table, 10);
        let mut walk = start.clone();
        let mut list = Vec::new();
        for _ in 0..25 {
            let event = random_event(&mut r, &walk);
            walk.step(event);
            list.push(event);
        }
        let bytes = events(&list);
        let mut whole = start.clone();
        let mut out = vec![FILL; 26 * 18];
        let all = batch(&mut whole, &bytes, &mut out);
        assert_eq!(all, done(bytes.len(), 25 * 18, 0));
        assert_eq!(whole, walk);
        for split in 0..=list.len() {
            let at = events(&list[..split]).len();
            let mut s = start.clone();
            let mut parts = vec![FILL; 26 * 18];
            let first = batch(&mut s, &bytes[..at], &mut parts);
            assert_eq!(first, done(at, split * 18, 0));
            let second = batch(&mut s, &bytes[at..], &mut parts[split * 18..]);
            assert_eq!(second, done(bytes.len() - at, (25 - split) * 18, 0));
            assert_eq!((&s, &parts), (&whole, &out));
        }
    }
}

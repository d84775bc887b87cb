//! Any bytes, any place and any field values get an answer.

use crate::support::*;
use gjalvorn_model::{
    batch, listing, payload, read_table, record as ask, why, Reason, Stream, System,
};

/// Bytes that often look like records.
fn wild_bytes(r: &mut Random) -> Vec<u8> {
    let mut bytes = Vec::new();
    for _ in 0..r.below(12) {
        if r.once_in(3) {
            bytes.extend((0..r.below(9)).map(|_| r.next() as u8));
        } else if r.once_in(2) {
            bytes.extend(event(loose_event(r)));
        } else {
            bytes.extend(match r.below(3) {
                0 => cores(r.byte_below(35)),
                1 => gang(r.byte_below(102), r.below(1_000_003)),
                _ => thread(r.byte_below(4), r.byte_below(34)),
            });
        }
    }
    bytes
}

/// A reached system with some fields overwritten.
fn wild_system(r: &mut Random) -> System {
    let table = random_table(r, 6, 6, 12);
    let mut s = reached(r, &table, 30);
    for _ in 0..r.below(4) {
        let byte = r.next() as u8;
        let word = r.next() as u32;
        let at = r.below(32) as usize;
        match r.below(18) {
            0 => s.cores = byte,
            1 => s.gangs = byte,
            2 => s.threads = byte,
            3 => s.priority[at % 6] = byte,
            4 => s.budget[at % 6] = word,
            5 => s.thread_gang[at] = byte,
            6 => s.thread_core[at] = byte,
            7 => s.thread_state[at] = byte % 5,
            8 => s.number[at % 6] = word,
            9 => s.served[at % 6] = u32::MAX,
            10 => s.skipped[at % 6] = u32::MAX,
            11 => s.job[at % 6] = word,
            12 => s.holder = byte,
            13 => s.locked = word,
            14 => s.blocked = word % 64,
            15 => s.owing = word % 64,
            16 => s.occupant[at] = byte % 130,
            _ => s.count[at] = u32::MAX,
        }
    }
    s
}

#[test]
fn any_bytes_and_places() {
    let mut r = Random::new(7);
    for _ in 0..2_000 {
        let bytes = wild_bytes(&mut r);
        for stream in [Stream::Table, Stream::Events, Stream::Answers] {
            for place in (0..bytes.len() + 3).chain([usize::MAX]) {
                let told = ask(stream, &bytes, place);
                let part = payload(stream, &bytes, place);
                if told.number == 0 {
                    assert_eq!(told.next, place + 4 + part.len());
                    assert!(told.next <= bytes.len());
                } else {
                    assert!(told.number <= 3 && (told.kind, told.next) == (0, 0));
                    assert!(part.is_empty());
                }
            }
        }
        let read = read_table(&bytes);
        assert!(read.number <= 8 && read.place <= bytes.len());
        assert!(read.system.well_formed());
        assert_eq!(read.number == 0, read.system.cores > 0);
        listing(&bytes);
        why(&bytes);
        let mut s = small();
        let mut out = vec![0; r.below(100) as usize];
        let got = batch(&mut s, &bytes, &mut out);
        assert!(matches!(got.number, 0 | 1 | 2 | 3 | 13));
        assert!(got.read <= bytes.len() && got.written <= out.len());
        assert!(s.well_formed());
    }
}

/// Systems that are well formed give a reason for each thread of the table, the
/// eighth too where no events lead to them; all else is refused.
#[test]
fn any_field_values_and_threads() {
    let mut r = Random::new(9);
    let none = Reason::NoneOfThese.number();
    let mut met = [0u32; 9];
    for _ in 0..2_000 {
        let s = wild_system(&mut r);
        for thread in (0..20).chain([127, 128, 255]) {
            let told = s.ask_why(thread);
            let refusal = match (s.well_formed(), thread < s.threads) {
                (false, _) => 14,
                (true, false) => 6,
                (true, true) => 0,
            };
            assert_eq!(told.refusal, refusal);
            if refusal == 0 {
                let first = holding(&s, thread).iter().position(|&holds| holds);
                let reason = first.map_or(none, |at| at as u8 + 1);
                assert_eq!(told.reason, reason);
            } else {
                assert_eq!((told.reason, told.which), (0, 0));
            }
            met[usize::from(told.reason)] += 1;
        }
    }
    assert!(met.iter().all(|&count| count > 0), "{met:?}");
}

#[test]
fn any_field_values() {
    let mut r = Random::new(8);
    let (mut good, mut bad) = (0, 0);
    for _ in 0..4_000 {
        let mut s = wild_system(&mut r);
        let before = s.clone();
        let event = loose_event(&mut r);
        let answer = s.apply(event);
        if before.well_formed() {
            good += 1;
            assert_ne!(answer.refusal, 14);
            assert!(s.well_formed());
            assert_eq!(before.ask_owing_count().refusal, 0);
        } else {
            bad += 1;
            assert_eq!(answer, refused(14));
            assert_eq!(before.ask_owing_count().refusal, 14);
            let got = batch(&mut s, &crate::support::event(event), &mut [0; 18]);
            assert_eq!((got.read, got.written, got.number), (0, 0, 14));
        }
        if answer.refusal != 0 {
            assert_eq!(s, before);
        }
        // The unchecked step gives an answer as well.
        for _ in 0..10 {
            s.step(loose_event(&mut r));
        }
    }
    assert!(good > 500 && bad > 500, "{good} {bad}");
}

//! Tables: accepted ones, refusals 1 to 8 and their order.

use crate::support::*;
use gjalvorn_model::{kind, read_table, System, NONE};

/// The table is refused with this number at this record (counted from 0, or
/// the record count for the table's end), with the empty system.
fn assert_refused(table: &[Vec<u8>], number: u8, at: usize) {
    let read = read_table(&table.concat());
    let place = table[..at].concat().len();
    assert_eq!((read.number, read.place), (number, place));
    assert_eq!(read.system, System::empty());
}

/// 32 gangs with a thread each, on one core.
fn full_of_gangs() -> Vec<Vec<u8>> {
    let mut table = vec![cores(1)];
    for g in 0..32 {
        table.push(gang(g + 1, 0));
        table.push(thread(g, 0));
    }
    table
}

/// 128 threads of one gang.
fn full_of_threads() -> Vec<Vec<u8>> {
    let mut table = vec![cores(2), gang(1, 0)];
    table.extend((0..128).map(|t| thread(0, t % 2)));
    table
}

#[test]
fn an_accepted_table_is_the_system_at_its_start() {
    let table = worked_table().concat();
    assert_eq!(table.len(), 41);
    let read = read_table(&table);
    assert_eq!((read.number, read.place), (0, 41));
    let mut expected = System::empty();
    expected.cores = 3;
    expected.gangs = 2;
    expected.threads = 3;
    expected.priority[..2].copy_from_slice(&[10, 20]);
    expected.budget[0] = 100;
    expected.thread_gang[..3].copy_from_slice(&[0, 0, 1]);
    expected.thread_core[..3].copy_from_slice(&[0, 1, 2]);
    assert_eq!(read.system, expected);
    assert_eq!(read.system.holder, NONE);
}

#[test]
fn a_short_gang_means_the_largest_budget() {
    let s = system(&[cores(1), short_gang(5), thread(0, 0)]);
    assert_eq!(s.budget[0], 1_000_000);
}

#[test]
fn gangs_and_threads_mix_and_may_share_a_core() {
    let s = system(&[
        cores(2),
        gang(7, 1),
        thread(0, 1),
        gang(6, 2),
        thread(1, 0),
        thread(0, 1),
    ]);
    assert_eq!((s.cores, s.gangs, s.threads), (2, 2, 3));
    assert_eq!(s.thread_gang[..3], [0, 1, 0]);
    assert_eq!(s.thread_core[..3], [1, 0, 1]);
}

#[test]
fn edge_budget() {
    system(&[cores(1), gang(1, 1_000_000), thread(0, 0)]);
    assert_refused(&[cores(1), gang(1, 1_000_001), thread(0, 0)], 6, 1);
    assert_refused(&[cores(1), gang(1, u32::MAX), thread(0, 0)], 6, 1);
}

#[test]
fn edge_priority() {
    for (priority, number) in [(0, 6), (1, 0), (99, 0), (100, 6), (255, 6)] {
        for record in [gang(priority, 0), short_gang(priority)] {
            let table = [cores(1), record, thread(0, 0)];
            if number == 0 {
                assert_eq!(system(&table).priority[0], priority);
            } else {
                assert_refused(&table, number, 1);
            }
        }
    }
}

#[test]
fn edge_core_count_and_number() {
    for count in [1, 32] {
        system(&[cores(count), gang(1, 0), thread(0, count - 1)]);
        assert_refused(&[cores(count), gang(1, 0), thread(0, count)], 6, 2);
    }
    for count in [0, 33, 255] {
        assert_refused(&[cores(count), gang(1, 0), thread(0, 0)], 6, 0);
    }
    // Core 31 and 32.
    system(&[cores(32), gang(1, 0), thread(0, 31)]);
    assert_refused(&[cores(32), gang(1, 0), thread(0, 32)], 6, 2);
}

#[test]
fn edge_empty_table_is_8_at_0() {
    assert_refused(&[], 8, 0);
}

#[test]
fn refusals_1_2_and_3() {
    // Cut off anywhere but between records.
    let whole = worked_table().concat();
    let starts: Vec<usize> = (0..=6)
        .map(|n| worked_table()[..n].concat().len())
        .collect();
    for cut in 0..whole.len() {
        let read = read_table(&whole[..cut]);
        let at = starts.iter().rev().find(|&&start| start <= cut).unwrap();
        let number = if starts.contains(&cut) { 8 } else { 1 };
        assert_eq!((read.number, read.place), (number, *at), "{cut}");
        assert_eq!(read.system, System::empty());
    }
    for kind in [0, 4, 5, 15, 16, 22, 23, 64, 65535] {
        assert_refused(&[cores(1), raw(3, kind, &[1])], 2, 1);
        assert_refused(&[raw(3, kind, &[1])], 2, 0);
    }
    assert_refused(&[cores(1), raw(4, kind::GANG, &[1, 2])], 3, 1);
    assert_refused(&[raw(2, kind::CORES, &[])], 3, 0);
}

#[test]
fn refusal_4() {
    assert_refused(&[gang(1, 0), cores(1)], 4, 0);
    assert_refused(&[thread(0, 0)], 4, 0);
    assert_refused(&[cores(1), cores(1)], 4, 1);
    assert_refused(&[cores(1), gang(1, 0), thread(0, 0), cores(1)], 4, 3);
}

#[test]
fn refusal_5() {
    let mut table = full_of_gangs();
    assert_eq!(system(&table).gangs, 32);
    table.push(gang(33, 0));
    assert_refused(&table, 5, 65);

    let mut table = full_of_threads();
    assert_eq!(system(&table).threads, 128);
    table.push(thread(0, 0));
    assert_refused(&table, 5, 130);
}

#[test]
fn refusal_6_of_a_thread() {
    // A gang not yet read, even if read later.
    assert_refused(&[cores(1), thread(0, 0), gang(1, 0)], 6, 1);
    assert_refused(&[cores(1), gang(1, 0), thread(1, 0), gang(2, 0)], 6, 2);
    assert_refused(&[cores(1), gang(1, 0), thread(0, 1)], 6, 2);
}

#[test]
fn refusal_7() {
    assert_refused(&[cores(1), gang(9, 0), gang(9, 1)], 7, 2);
    assert_refused(&[cores(1), gang(9, 0), gang(8, 0), short_gang(9)], 7, 3);
}

#[test]
fn refusal_8() {
    assert_refused(&[cores(1)], 8, 1);
    assert_refused(&[cores(1), gang(1, 0)], 8, 2);
    assert_refused(&[cores(1), gang(1, 0), thread(0, 0), gang(2, 0)], 8, 4);
    assert_refused(&[cores(1), gang(1, 0), gang(2, 0), thread(1, 0)], 8, 4);
}

#[test]
fn refusals_of_a_record_come_in_order() {
    // A second CORES of 0, or of 33, is 4; so is a first record out of range.
    assert_refused(&[cores(1), cores(0)], 4, 1);
    assert_refused(&[cores(1), cores(33)], 4, 1);
    assert_refused(&[gang(0, 0)], 4, 0);
    // 1, 2 and 3 before 4.
    assert_refused(&[raw(3, kind::GANG, &[])], 1, 0);
    assert_refused(&[raw(3, 9, &[1])], 2, 0);
    assert_refused(&[raw(5, kind::GANG, &[1, 1, 1])], 3, 0);
    assert_refused(&[cores(1), raw(3, kind::CORES, &[])], 1, 1);
    // A 33rd GANG of priority 0, or of a taken one, is 5.
    for extra in [gang(0, 0), gang(1, 0), gang(50, 1_000_001)] {
        let mut table = full_of_gangs();
        table.push(extra);
        assert_refused(&table, 5, 65);
    }
    // A 129th THREAD of an unread gang or a core out of range is 5.
    for extra in [thread(1, 0), thread(0, 2)] {
        let mut table = full_of_threads();
        table.push(extra);
        assert_refused(&table, 5, 130);
    }
    // A taken priority with a budget of 1,000,001 is 6.
    assert_refused(&[cores(1), gang(9, 0), gang(9, 1_000_001)], 6, 2);
    // 8 only at the end: an earlier refusal stands.
    assert_refused(&[cores(1), gang(9, 0), gang(9, 0)], 7, 2);
}

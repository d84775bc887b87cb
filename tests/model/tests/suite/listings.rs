//! The listing.

use crate::support::*;
use gjalvorn_model::{kind, listing, Event, MAX_INPUT};

fn text(input: &[u8]) -> String {
    String::from_utf8(listing(input)).unwrap()
}

/// A small accepted table and its length.
fn table() -> (Vec<u8>, usize) {
    let bytes = [cores(2), gang(10, 100), thread(0, 0), thread(0, 1)].concat();
    let length = bytes.len();
    (bytes, length)
}

/// What follows the small table in the input, and what is printed.
fn after_table(rest: &[u8]) -> String {
    text(&[&table().0[..], rest].concat())
}

#[test]
fn the_thirteen_lines() {
    let input = [worked_table().concat(), events(&worked_events())].concat();
    assert_eq!(input.len(), 110);
    assert_eq!(text(&input), WORKED_OUTPUT);
}

#[test]
fn a_table_alone_prints_nothing() {
    assert_eq!(text(&table().0), "");
}

#[test]
fn refused_tables() {
    assert_eq!(text(&[]), "table refused 8 at 0\n");
    // Input that starts with an event.
    assert_eq!(text(&event(release(0))), "table refused 8 at 0\n");
    assert_eq!(text(&cores(2)), "table refused 8 at 5\n");
    // The events do not hide a table's refusal, nor print.
    let (bytes, length) = table();
    let bad = [bytes, gang(10, 5), event(release(0))].concat();
    assert_eq!(text(&bad), format!("table refused 7 at {length}\n"));
    let lone = [table().0, gang(11, 5), event(release(0))].concat();
    assert_eq!(text(&lone), format!("table refused 8 at {}\n", length + 9));
}

#[test]
fn what_follows_the_table() {
    let (_, length) = table();
    // Kinds 4 to 15 are the table's, and so is 0.
    for kind in [0, 4, 5, 15] {
        let printed = after_table(&raw(3, kind, &[0]));
        assert_eq!(printed, format!("table refused 2 at {length}\n"));
    }
    // One to three bytes are the table's.
    for left in 1..4 {
        let printed = after_table(&event(release(0))[..left]);
        assert_eq!(printed, format!("table refused 1 at {length}\n"));
    }
    // A second CORES is the table's, whatever comes after.
    let printed = after_table(&[cores(2), event(release(0))].concat());
    assert_eq!(printed, format!("table refused 4 at {length}\n"));
    // A GANG of another length is the table's.
    let printed = after_table(&[raw(4, kind::GANG, &[1, 2]), event(release(0))].concat());
    assert_eq!(printed, format!("table refused 3 at {length}\n"));
    // Kinds from 16 on are the events'.
    for kind in [23, 64, 256, 65535] {
        let printed = after_table(&raw(3, kind, &[0]));
        assert_eq!(printed, format!("stopped 2 at {length}\n"));
    }
    // A header of kind 16 cut short, or of another length.
    let printed = after_table(&event(release(0))[..4]);
    assert_eq!(printed, format!("stopped 1 at {length}\n"));
    let printed = after_table(&raw(9, kind::RELEASE, &[]));
    assert_eq!(printed, format!("stopped 3 at {length}\n"));
}

#[test]
fn a_stop_follows_the_lines_before_it() {
    let (_, length) = table();
    let first = "1 16 0 1 1 00000003 00000000 -\n";
    for (rest, number) in [
        (cores(2), 2),
        (gang(1, 0), 2),
        (raw(3, 15, &[0]), 2),
        (vec![2], 1),
        (vec![3, 0, 16, 0], 1),
        (raw(3, kind::TICK, &[0]), 3),
    ] {
        let printed = after_table(&[event(release(0)), rest].concat());
        assert_eq!(
            printed,
            format!("{first}stopped {number} at {}\n", length + 5)
        );
    }
}

#[test]
fn hex_digits_are_small_letters() {
    let mut input = [cores(32), gang(1, 0)].concat();
    for c in [10, 11, 13, 15, 31] {
        input.extend(thread(0, c));
    }
    input.extend(events(&[release(0), serve(31), serve(15)]));
    let expected = "\
1 16 0 1 1 8000ac00 00000000 -
2 20 0 4 0 0000ac00 80000000 0
3 20 0 3 0 00002c00 80008000 0
";
    assert_eq!(text(&input), expected);
}

#[test]
fn the_longest_input_and_one_byte_more() {
    let mut input = [cores(1), gang(1, 0), thread(0, 0)].concat();
    while input.len() + 4 <= MAX_INPUT {
        input.extend(event(Event::Tick));
    }
    let lines = (input.len() - 20) / 4;
    assert_eq!(text(&input).lines().count(), lines);
    input.resize(MAX_INPUT, 0);
    assert_eq!(text(&input).lines().count(), lines);
    input.push(0);
    assert_eq!(text(&input), "input too long\n");
    assert_eq!(text(&[0; 100_000]), "input too long\n");
    assert_eq!(text(&[0; MAX_INPUT]), "table refused 2 at 0\n");
}

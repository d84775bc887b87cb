//! The program that tells of every thread why it is running or is not.

use crate::support::*;
use gjalvorn_model::{listing, read_table, why, Event, MAX_INPUT};

fn text(input: &[u8]) -> String {
    String::from_utf8(why(input)).unwrap()
}

/// A small accepted table: two threads of a gang on two cores.
fn table() -> Vec<u8> {
    [cores(2), gang(10, 100), thread(0, 0), thread(0, 1)].concat()
}

/// The worked input's whole output, worked out from document 01's rules.
const WORKED: &str = "\
1 0 ready, but its core owes a reschedule
1 1 ready, but its core owes a reschedule
1 2 finished
2 0 running on a locked core
2 1 ready, but its core owes a reschedule
2 2 finished
3 0 running on a locked core
3 1 ready, but its core owes a reschedule
3 2 finished
4 0 running on a locked core
4 1 ready, but its core owes a reschedule
4 2 ready, but its core owes a reschedule
5 0 running but displaced
5 1 ready, but its core owes a reschedule
5 2 running on a locked core
6 0 running but displaced
6 1 ready, but a gang of higher priority holds the lock: gang 1
6 2 running on a locked core
7 0 running but displaced
7 1 ready, but a gang of higher priority holds the lock: gang 1
7 2 running on a locked core
8 0 finished
8 1 ready, but a gang of higher priority holds the lock: gang 1
8 2 running on a locked core
9 0 finished
9 1 ready, but a gang of higher priority holds the lock: gang 1
9 2 running on a locked core
10 0 finished
10 1 ready, but a gang of higher priority holds the lock: gang 1
10 2 finished
11 0 finished
11 1 ready, but its core owes a reschedule
11 2 finished
12 0 finished
12 1 running on a locked core
12 2 finished
13 0 finished
13 1 running on a locked core
13 2 finished
";

#[test]
fn three_lines_for_each_of_the_thirteen_events() {
    let input = [worked_table().concat(), events(&worked_events())].concat();
    assert_eq!(text(&input), WORKED);
}

#[test]
fn the_words_that_the_worked_input_does_not_lead_to() {
    let input = [
        cores(1),
        gang(10, 0),
        gang(20, 0),
        thread(0, 0),
        thread(1, 0),
        events(&[release(0), release(1), serve(0), wait(1)]),
    ];
    let expected = "\
1 0 ready, but its core owes a reschedule
1 1 finished
2 0 ready, but its core owes a reschedule
2 1 ready, but its core owes a reschedule
3 0 ready, but another thread is ahead of it on its core: thread 1
3 1 running on a locked core
4 0 ready, but its core owes a reschedule
4 1 waiting
";
    assert_eq!(text(&input.concat()), expected);
}

#[test]
fn refused_events_have_their_lines() {
    let list = [finish(0), release(9), serve(2)];
    let printed = text(&[table(), events(&list)].concat());
    let expected = "\
1 0 finished
1 1 finished
2 0 finished
2 1 finished
3 0 finished
3 1 finished
";
    assert_eq!(printed, expected);
}

#[test]
fn a_table_alone_prints_nothing() {
    assert_eq!(text(&table()), "");
}

#[test]
fn a_refused_table() {
    assert_eq!(text(&[]), "table refused 8 at 0\n");
    let length = table().len();
    let bad = [table(), gang(10, 5), event(release(0))].concat();
    assert_eq!(text(&bad), format!("table refused 7 at {length}\n"));
}

#[test]
fn a_stop_follows_the_lines_before_it() {
    let input = [table(), event(release(0)), cores(2), event(serve(0))].concat();
    let place = table().len() + event(release(0)).len();
    let owes = "ready, but its core owes a reschedule";
    assert_eq!(
        text(&input),
        format!("1 0 {owes}\n1 1 {owes}\nstopped 2 at {place}\n")
    );
}

#[test]
fn the_longest_input_and_one_byte_more() {
    let mut input = table();
    while input.len() + 4 <= MAX_INPUT {
        input.extend(event(Event::Tick));
    }
    let events = (input.len() - table().len()) / 4;
    assert_eq!(text(&input).lines().count(), events * 2);
    input.resize(MAX_INPUT + 1, 0);
    assert_eq!(text(&input), "input too long\n");
}

/// A line for each thread where the listing has an event's line, and the
/// listing's message where it has one.
#[test]
fn the_same_events_and_messages_as_the_listing() {
    let mut r = Random::new(12);
    let (mut listed, mut messages) = (0, 0);
    for _ in 0..300 {
        let table = random_table(&mut r, 6, 6, 12);
        let mut s = read_table(&table).system;
        let mut input = table;
        for _ in 0..r.below(12) {
            let next = random_event(&mut r, &s);
            s.step(next);
            input.extend(event(next));
        }
        input.truncate(input.len() - r.below(9) as usize);
        let told = text(&input);
        let mut lines = told.lines();
        for line in String::from_utf8(listing(&input)).unwrap().lines() {
            let position = line.split(' ').next().unwrap();
            if position.parse::<u32>().is_err() {
                messages += 1;
                assert_eq!(lines.next(), Some(line));
                continue;
            }
            listed += 1;
            for thread in 0..s.threads {
                let start = format!("{position} {thread} ");
                assert!(lines.next().unwrap().starts_with(&start));
            }
        }
        assert_eq!(lines.next(), None);
    }
    assert!(listed > 100 && messages > 100, "{listed} {messages}");
}

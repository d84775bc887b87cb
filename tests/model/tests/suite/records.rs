//! The record and payload questions.

use crate::support::*;
use gjalvorn_model::{kind, payload, record as ask, Event, RecordReply, Stream, LENGTHS};

const STREAMS: [Stream; 3] = [Stream::Table, Stream::Events, Stream::Answers];

fn told(kind: u16, next: usize) -> RecordReply {
    RecordReply {
        number: 0,
        kind,
        next,
    }
}

fn no(number: u8) -> RecordReply {
    RecordReply {
        number,
        kind: 0,
        next: 0,
    }
}

/// The stream that a kind of the list belongs to.
fn home(kind: u16) -> Stream {
    match kind {
        1..=3 => Stream::Table,
        16..=22 => Stream::Events,
        _ => Stream::Answers,
    }
}

#[test]
fn every_listed_record_is_told_in_its_own_stream_only() {
    for (kind, length) in LENGTHS {
        let body = vec![7; usize::from(length) - 2];
        let bytes = raw(length, kind, &body);
        for stream in STREAMS {
            if stream == home(kind) {
                assert_eq!(ask(stream, &bytes, 0), told(kind, bytes.len()));
                assert_eq!(payload(stream, &bytes, 0), &body[..]);
            } else {
                assert_eq!(ask(stream, &bytes, 0), no(2));
                assert!(payload(stream, &bytes, 0).is_empty());
            }
        }
    }
}

#[test]
fn every_kind_and_length_follows_the_document() {
    let body = [0; 40];
    for kind in (0..=70).chain([255, 256, 272, 4096, 65535]) {
        for length in (0..=40).chain([255, 256, 259, 500, 65535]) {
            let bytes = raw(length, kind, &body);
            for stream in STREAMS {
                let listed = LENGTHS.iter().any(|&(k, _)| k == kind) && stream == home(kind);
                let expected = match (listed, kind, length) {
                    (false, _, _) => no(2),
                    (_, 1 | 16..=20, 3)
                    | (_, 2, 3 | 7)
                    | (_, 3, 4)
                    | (_, 21, 7)
                    | (_, 22, 2)
                    | (_, 64, 16) => told(kind, usize::from(length) + 2),
                    _ => no(3),
                };
                assert_eq!(ask(stream, &bytes, 0), expected, "{kind} {length}");
            }
        }
    }
}

#[test]
fn kind_then_length_then_wholeness() {
    // Kind 7 with length 500 and four bytes left is 2.
    assert_eq!(ask(Stream::Table, &raw(500, 7, &[]), 0), no(2));
    // A RELEASE of length 9 cut short is 3.
    assert_eq!(ask(Stream::Events, &raw(9, 16, &[]), 0), no(3));
    // A RELEASE of length 3 with four bytes left is 1.
    assert_eq!(ask(Stream::Events, &raw(3, 16, &[]), 0), no(1));
    // Lengths 0 and 1 have no case of their own.
    for length in [0, 1] {
        assert_eq!(ask(Stream::Events, &raw(length, 16, &[]), 0), no(3));
        assert_eq!(ask(Stream::Events, &raw(length, 15, &[]), 0), no(2));
    }
}

#[test]
fn fewer_than_four_bytes_or_than_the_length_says_is_1() {
    let bytes = event(traffic(1, 2));
    for left in 0..bytes.len() {
        assert_eq!(ask(Stream::Events, &bytes[..left], 0), no(1));
        assert!(payload(Stream::Events, &bytes[..left], 0).is_empty());
    }
    assert_eq!(ask(Stream::Events, &bytes, 0), told(kind::TRAFFIC, 9));
}

#[test]
fn at_the_end_and_past_it_is_1() {
    let bytes = event(release(0));
    let far = [bytes.len(), bytes.len() + 1, usize::MAX - 1, usize::MAX];
    for stream in STREAMS {
        for place in far {
            assert_eq!(ask(stream, &bytes, place), no(1));
            assert!(payload(stream, &bytes, place).is_empty());
            assert_eq!(ask(stream, &[], place), no(1));
        }
    }
}

#[test]
fn the_payload_is_the_very_part_of_the_bytes() {
    let bytes = events(&[release(3), traffic(4, 0x0102_0304), Event::Tick]);
    let first = payload(Stream::Events, &bytes, 0);
    assert_eq!(first, &[3]);
    assert_eq!(first.as_ptr(), bytes[4..].as_ptr());
    let second = payload(Stream::Events, &bytes, 5);
    assert_eq!(second, &[4, 4, 3, 2, 1]);
    assert_eq!(second.as_ptr(), bytes[9..].as_ptr());
    // A TICK's payload is empty at its own place, a refused one at the start.
    let tick = payload(Stream::Events, &bytes, 14);
    assert_eq!((tick.len(), tick.as_ptr()), (0, bytes[18..].as_ptr()));
    let none = payload(Stream::Events, &bytes, 15);
    assert_eq!((none.len(), none.as_ptr()), (0, bytes.as_ptr()));
}

//! Damage to records: a byte, a field, a record's place, the end.

use crate::random::Random;
use crate::records::{Records, KIND_AT, PAYLOAD_AT};

/// Lengths and kinds that are some record's, are next to one, or are none's;
/// 259, 257 and 272 have a low byte that is one.
const LENGTHS: [u16; 14] = [0, 1, 2, 3, 4, 5, 6, 7, 8, 16, 18, 255, 259, 65535];
const KINDS: [u16; 17] = [
    0, 1, 2, 3, 4, 15, 16, 17, 19, 20, 21, 22, 23, 64, 257, 272, 65535,
];

/// Payload bytes and budgets at the edges of the numbers.
const BYTES: [u8; 14] = [0, 1, 2, 3, 31, 32, 33, 98, 99, 100, 127, 128, 129, 255];
const NUMBERS: [u32; 6] = [0, 1, 999_999, 1_000_000, 1_000_001, u32::MAX];

/// The bytes of a payload's number, which is the payload's end.
const NUMBER_SIZE: usize = 4;

/// One run of records in so many has two damaged records.
const TWO_ONCE_IN: usize = 3;

/// Records with some damage, at least one record being there.
pub fn damaged(r: &mut Random, records: &Records) -> Vec<u8> {
    let mut records = records.clone();
    damage_record(r, &mut records);
    if r.once_in(TWO_ONCE_IN) {
        damage_record(r, &mut records);
    }
    let mut bytes = records.concat();
    match r.below(6) {
        0 => bytes.truncate(r.below(bytes.len() + 1)),
        1 => change_byte(r, &mut bytes),
        2 => bytes.extend((0..r.below(PAYLOAD_AT + 2)).map(|_| r.byte_below(PAYLOAD_AT as u8))),
        _ => {}
    }
    bytes
}

/// A record is moved, doubled, lost, cut or changed in one of its parts.
fn damage_record(r: &mut Random, records: &mut Records) {
    let at = r.below(records.len());
    let other = r.below(records.len());
    match r.below(10) {
        0 => records.swap(at, other),
        1 => records.insert(other, records[at].clone()),
        2 if records.len() > 1 => {
            records.remove(at);
        }
        3 => put(&mut records[at], 0, r.among(&LENGTHS)),
        4 => put(&mut records[at], KIND_AT, r.among(&KINDS)),
        5 => change_number(r, &mut records[at]),
        6 => records[at].truncate(r.below(PAYLOAD_AT + 1)),
        _ => change_payload(r, &mut records[at]),
    }
}

/// Puts a length or a kind into a record, unless it was cut before.
fn put(record: &mut [u8], at: usize, value: u16) {
    for (place, byte) in record.iter_mut().skip(at).zip(value.to_le_bytes()) {
        *place = byte;
    }
}

/// A payload byte gets an edge of the numbers; a record of none gets a byte.
fn change_payload(r: &mut Random, record: &mut Vec<u8>) {
    let value = r.among(&BYTES);
    if record.len() > PAYLOAD_AT {
        let at = r.between(PAYLOAD_AT, record.len() - 1);
        record[at] = value;
    } else {
        record.push(value);
    }
}

/// A budget or a count of transactions gets an edge of its range.
fn change_number(r: &mut Random, record: &mut [u8]) {
    let value = r.among(&NUMBERS).to_le_bytes();
    if record.len() >= PAYLOAD_AT + NUMBER_SIZE {
        let at = record.len() - NUMBER_SIZE;
        record[at..].copy_from_slice(&value);
    }
}

fn change_byte(r: &mut Random, bytes: &mut [u8]) {
    let at = r.below(bytes.len());
    if let Some(byte) = bytes.get_mut(at) {
        *byte = r.byte();
    }
}

//! Records: a length, a kind and a payload, little-endian.

use crate::Refusal;

/// The kinds of document 01, "Records".
pub mod kind {
    /// CORES: count.
    pub const CORES: u16 = 1;
    /// GANG: priority and budget.
    pub const GANG: u16 = 2;
    /// THREAD: gang and core.
    pub const THREAD: u16 = 3;
    /// RELEASE: gang.
    pub const RELEASE: u16 = 16;
    /// FINISH: thread.
    pub const FINISH: u16 = 17;
    /// WAIT: thread.
    pub const WAIT: u16 = 18;
    /// WAKE: thread.
    pub const WAKE: u16 = 19;
    /// SERVE: core.
    pub const SERVE: u16 = 20;
    /// TRAFFIC: core and transactions.
    pub const TRAFFIC: u16 = 21;
    /// TICK: nothing.
    pub const TICK: u16 = 22;
    /// ANSWER: refusal, value, number, owing cores, locked cores.
    pub const ANSWER: u16 = 64;
}

/// "The length of each kind comes from one fixed list": kind and length pairs.
/// A GANG has two lengths.
pub const LENGTHS: [(u16, u16); 12] = [
    (kind::CORES, 3),
    (kind::GANG, 7),
    (kind::GANG, 3),
    (kind::THREAD, 4),
    (kind::RELEASE, 3),
    (kind::FINISH, 3),
    (kind::WAIT, 3),
    (kind::WAKE, 3),
    (kind::SERVE, 3),
    (kind::TRAFFIC, 7),
    (kind::TICK, 2),
    (kind::ANSWER, ANSWER_LENGTH),
];

/// The length field of an ANSWER.
pub(crate) const ANSWER_LENGTH: u16 = 16;

/// The bytes that an ANSWER takes: its length and the two bytes of the length.
pub const ANSWER_SIZE: usize = ANSWER_LENGTH as usize + 2;

/// The bytes of a record before its payload.
const HEADER: usize = 4;

/// What a run of records is read as.
#[derive(Clone, Copy, Debug, PartialEq, Eq)]
pub enum Stream {
    /// Kinds 1 to 3.
    Table,
    /// Kinds 16 to 22.
    Events,
    /// Kind 64.
    Answers,
}

impl Stream {
    /// Whether a kind is of this stream (refusal 2 where it is not).
    fn holds(self, kind: u16) -> bool {
        match self {
            Stream::Table => (kind::CORES..=kind::THREAD).contains(&kind),
            Stream::Events => (kind::RELEASE..=kind::TICK).contains(&kind),
            Stream::Answers => kind == kind::ANSWER,
        }
    }
}

/// What the record question tells: the kind and the place of the next record,
/// or 1, 2 or 3 with both 0.
#[derive(Clone, Copy, Debug, PartialEq, Eq)]
pub struct RecordReply {
    /// 0, or the refusal 1, 2 or 3.
    pub number: u8,
    /// The record's kind, 0 where it is refused.
    pub kind: u16,
    /// The place of the next record, 0 where this one is refused.
    pub next: usize,
}

/// The record question, for any bytes and any place.
pub fn record(stream: Stream, bytes: &[u8], place: usize) -> RecordReply {
    match read(stream, bytes, place) {
        Ok(record) => RecordReply {
            number: 0,
            kind: record.kind,
            next: record.next,
        },
        Err(refusal) => RecordReply {
            number: refusal.number(),
            kind: 0,
            next: 0,
        },
    }
}

/// The payload question: the payload as the very part of the caller's bytes;
/// where the record is refused, the empty part at their start.
pub fn payload(stream: Stream, bytes: &[u8], place: usize) -> &[u8] {
    match read(stream, bytes, place) {
        Ok(record) => record.payload,
        Err(_) => &bytes[..0],
    }
}

/// An accepted record.
#[derive(Clone, Copy, Debug)]
pub(crate) struct Record<'a> {
    pub(crate) kind: u16,
    pub(crate) payload: &'a [u8],
    pub(crate) next: usize,
}

/// Reads the record at a place, in the order of document 01: four bytes left
/// (1), the kind (2), its length (3), the whole record (1).
pub(crate) fn read(stream: Stream, bytes: &[u8], place: usize) -> Result<Record<'_>, Refusal> {
    // No part starts at a place past the end.
    let rest = bytes.get(place..).ok_or(Refusal::CutShort)?;
    let (length, kind) = header(rest).ok_or(Refusal::CutShort)?;
    if !stream.holds(kind) {
        return Err(Refusal::WrongKind);
    }
    if !LENGTHS.contains(&(kind, length)) {
        return Err(Refusal::WrongLength);
    }
    let size = usize::from(length) + 2;
    let payload = rest.get(HEADER..size).ok_or(Refusal::CutShort)?;
    Ok(Record {
        kind,
        payload,
        next: place + size, // within the bytes, as the record is whole
    })
}

/// The length and the kind at the start of the bytes, if four are left.
pub(crate) fn header(bytes: &[u8]) -> Option<(u16, u16)> {
    match *bytes {
        [l0, l1, k0, k1, ..] => Some((u16::from_le_bytes([l0, l1]), u16::from_le_bytes([k0, k1]))),
        _ => None,
    }
}

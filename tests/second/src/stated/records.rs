//! Checks with records, and what they must give: number, body, length, room and record written out
//! from the paper. `full` has the full check that writes a record, `bodies` the check of a body,
//! `edits` modules that are edited one body after the other.

mod bodies;
mod edits;
mod full;

use super::runs::filled;
use crate::compare::records::{body_difference, recording_difference};
use crate::gen::case::BODY_BEFORE;
use crate::gen::records::FIRST_BEFORE;
use crate::gen::tables::WRITTEN_BEFORE;
use crate::hex;
use crate::memory::{BodyMemory, Lent, RecordingMemory};
use crate::subject::Subject;

/// The editions, as texts begin.
pub(super) const EDITIONS: [&str; 3] = ["", "edition 1;", "edition 4;"];

/// A function with a typing, and one without.
pub(super) const GOOD: &str = "function void (): ret;";
pub(super) const BAD: &str = "function void (): pop; ret;";

/// One full check and what it must give.
#[derive(Clone)]
pub struct StatedFull {
    pub name: String,
    pub file: Vec<u8>,
    /// Bytes of the lent room, and what the first of them are afterwards.
    pub room: usize,
    pub shown: Vec<u8>,
    /// The same of the lent record.
    pub record: usize,
    pub written: Vec<u8>,
    pub answer: u32,
    /// The out-parameters afterwards: the body is written with 11 only, the length with 0 only.
    pub body: u32,
    pub length: u64,
}

/// One check of a body and what it must give.
#[derive(Clone)]
pub struct StatedBody {
    pub name: String,
    pub file: Vec<u8>,
    pub body: u32,
    pub before: Vec<u8>,
    pub after: Vec<u8>,
    pub answer: u32,
    /// The out-parameter afterwards: written with 11 only.
    pub first: u32,
}

/// Every stated full check that writes a record.
pub fn full() -> Vec<StatedFull> {
    full::cases()
}

/// Every stated check of a body.
pub fn bodies() -> Vec<StatedBody> {
    let mut all = bodies::cases();
    all.extend(edits::cases());
    all
}

/// No byte is 0 or 1 before; these come first afterwards.
pub(super) fn lent(len: usize, first: &[u8]) -> (Vec<u8>, Vec<u8>) {
    let before = filled(len);
    let mut after = before.clone();
    after[..first.len()].copy_from_slice(first);
    (before, after)
}

impl StatedFull {
    /// What a subject gives instead, in words; nothing if it is as stated.
    pub fn difference(&self, subject: &mut dyn Subject) -> Option<String> {
        let (room, room_after) = lent(self.room, &self.shown);
        let (record, record_after) = lent(self.record, &self.written);
        let of = |room: &[u8], record: &[u8], body, written| RecordingMemory {
            module: Lent::new(&self.file, 1),
            room: Lent::new(room, 3),
            record: Lent::new(record, 5),
            body,
            written,
        };
        let wanted = of(&room_after, &record_after, self.body, self.length);
        let mut memory = of(&room, &record, BODY_BEFORE, WRITTEN_BEFORE);
        let answer = subject.check_recording(&mut memory);
        if answer == self.answer && memory == wanted {
            return None;
        }
        Some(format!(
            "{}: answers {} and {answer}{}",
            self.name,
            self.answer,
            recording_difference(&wanted, &memory)
        ))
    }
}

impl StatedBody {
    /// What a subject gives instead, in words; nothing if it is as stated.
    pub fn difference(&self, subject: &mut dyn Subject) -> Option<String> {
        let of = |record: &[u8], first| BodyMemory {
            module: Lent::new(&self.file, 1),
            record: Lent::new(record, 3),
            first,
        };
        let wanted = of(&self.after, self.first);
        let mut memory = of(&self.before, FIRST_BEFORE);
        let answer = subject.check_body(self.body, &mut memory);
        if answer == self.answer && memory == wanted {
            return None;
        }
        Some(format!(
            "{}: answers {} and {answer}{}",
            self.name,
            self.answer,
            body_difference(&wanted, &memory)
        ))
    }
}

fn bytes(text: &str) -> Vec<u8> {
    hex::decode(text).expect("hex digits")
}

/// Files that the reader refuses with each number, made from one of a constant, three functions and a
/// label. The header and a function record of the edition have these lengths.
pub(super) fn unreadable(edition: &str, good: &[u8]) -> Vec<(u32, Vec<u8>)> {
    let (header, function) = match edition {
        "edition 4;" => (56, 24),
        _ => (48, 20),
    };
    let label = header + 12 + 3 * function;
    let changes = [
        (2, 0, 2),
        (3, 4, 0),
        (4, 44, 1),
        (5, 40, 0xF0),
        (6, header, 5),
        (7, header + 12 + 9, 0x83),
        (8, label + 8, 0xFF),
        (9, label + 4, 1),
    ];
    let mut all = vec![(1, Vec::new()), (1, good[..header - 1].to_vec())];
    all.extend(changes.map(|(number, at, byte)| {
        let mut file = good.to_vec();
        file[at] = byte;
        (number, file)
    }));
    all
}

/// A module for `unreadable`.
pub(super) fn readable(edition: &str) -> String {
    format!("{edition} int 7; entry: @0; push 0; {GOOD} {BAD} {GOOD}")
}

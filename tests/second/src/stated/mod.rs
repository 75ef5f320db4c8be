//! Checks with their answers stated: module, room before, and what the paper says of number,
//! body and the whole room afterwards. They are written out from the paper, not computed.
//! `runs`, `writes`, `formulas`, `conversions`, `maps`, `records` and `needs` have the same for runs,
//! writes, formula lines, conversions, calls on rows, checks with records and calls for the needs.

mod bodies;
mod calls;
pub mod conversions;
pub mod editions;
mod ends;
pub mod formulas;
mod instructions;
mod joins;
mod labels;
mod managed;
pub mod maps;
pub mod needs;
pub mod records;
mod refusals;
pub mod runs;
pub mod structures;
mod tables;
pub mod writes;

use crate::asm;
use crate::compare::check_difference;
use crate::gen::case::BODY_BEFORE;
use crate::memory::{CheckMemory, Lent};
use crate::reader::ENTRY;
use crate::subject::Subject;

/// One check and what it must give.
pub struct Stated {
    pub name: String,
    pub file: Vec<u8>,
    /// The lent room before and after.
    pub before: Vec<u8>,
    pub after: Vec<u8>,
    pub answer: u32,
    /// The out-parameter afterwards: written with 11 only.
    pub body: u32,
}

/// What a label's record shows: local types and operand types, or nothing if not reached.
type Record<'a> = Option<(&'a [u8], &'a [u8])>;

/// A label that is not reached.
const UNREACHED: Record<'static> = None;

/// Bytes lent behind the records, which must stay.
const REST: usize = 7;

/// Every stated check.
pub fn all() -> Vec<Stated> {
    let mut all = labels::cases();
    all.extend(ends::cases());
    all.extend(joins::cases());
    all.extend(calls::cases());
    all.extend(bodies::cases());
    all.extend(instructions::cases());
    all.extend(refusals::cases());
    all.extend(editions::cases());
    all.extend(structures::cases());
    all.extend(managed::cases());
    all
}

impl Stated {
    fn new(name: &str, file: Vec<u8>, room: usize) -> Stated {
        // no byte is 0, so that each zeroed byte is seen
        let before: Vec<u8> = (0..room).map(|n| 0x80 | (7 * n) as u8).collect();
        Stated {
            name: name.to_string(),
            file,
            after: before.clone(),
            before,
            answer: 0,
            body: BODY_BEFORE,
        }
    }

    /// What a subject gives instead, in words; nothing if it is as stated.
    pub fn difference(&self, subject: &mut dyn Subject) -> Option<String> {
        let lent = |room: &[u8], body| CheckMemory {
            module: Lent::new(&self.file, 1),
            room: Lent::new(room, 3),
            body,
        };
        let wanted = lent(&self.after, self.body);
        let mut memory = lent(&self.before, BODY_BEFORE);
        let answer = subject.check(&mut memory);
        if answer == self.answer && memory == wanted {
            return None;
        }
        Some(format!(
            "{}: answers {} and {answer}{}",
            self.name,
            self.answer,
            check_difference(&wanted, &memory)
        ))
    }
}

/// "byte 0 is 1 if reached, byte 1 the count of locals, 2 of operands, 16 to 31 local types,
/// 32 to 63 operand types deepest first, zeros elsewhere; all zero if not reached"
fn record(shown: Record<'_>) -> [u8; 64] {
    let mut bytes = [0; 64];
    if let Some((locals, operands)) = shown {
        bytes[0] = 1;
        bytes[1] = locals.len() as u8;
        bytes[2] = operands.len() as u8;
        bytes[16..16 + locals.len()].copy_from_slice(locals);
        bytes[32..32 + operands.len()].copy_from_slice(operands);
    }
    bytes
}

/// 0, with these records; the rest of the room stays.
fn accepted_with(name: &str, text: &str, rest: usize, records: &[Record<'_>]) -> Stated {
    let program = asm::program(text);
    assert_eq!(program.labels.len(), records.len(), "{name}");
    let mut stated = Stated::new(name, program.file(), 64 * records.len() + rest);
    for (n, &shown) in records.iter().enumerate() {
        stated.after[64 * n..64 * n + 64].copy_from_slice(&record(shown));
    }
    stated
}

fn accepted(name: &str, text: &str, records: &[Record<'_>]) -> Stated {
    accepted_with(name, text, REST, records)
}

/// 11, with this body; 64 bytes per label are zeroed, the rest of the room stays.
fn untyped(name: &str, text: &str, body: u32) -> Stated {
    let program = asm::program(text);
    let records = 64 * program.labels.len();
    let mut stated = Stated::new(name, program.file(), records + REST);
    stated.after[..records].fill(0);
    stated.answer = 11;
    stated.body = body;
    stated
}

/// 11 for the entry.
fn untyped_entry(name: &str, text: &str) -> Stated {
    untyped(name, text, ENTRY)
}

/// 1 to 10: nothing is changed.
fn refused(name: &str, file: Vec<u8>, room: usize, number: u32) -> Stated {
    let mut stated = Stated::new(name, file, room);
    stated.answer = number;
    stated
}

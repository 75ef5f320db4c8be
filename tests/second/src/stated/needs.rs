//! Calls for the needs, and what they must give: number, body, length, the whole room and the whole
//! report, written out from the paper. `flow` has single bodies, `calls` bodies that call others,
//! `rings` 47 and what is no ring, `refusals` the other refusals, their order and the lengths.

mod calls;
mod flow;
mod refusals;
mod rings;

use super::records::lent;
use super::{record, Record};
use crate::asm;
use crate::compare::needs::need_difference;
use crate::gen::case::BODY_BEFORE;
use crate::gen::tables::WRITTEN_BEFORE;
use crate::memory::{Lent, NeedMemory};
use crate::subject::Subject;

/// The constants of stated modules: 7, which is no branch's value but of `jne`, `jae` and `jbe`; and 0.
const CONSTANTS: &str = "int 7; int 0; long 8; double 1.5;";

/// A label's record with these lists.
const EMPTY: Record<'static> = Some((&[], &[]));

/// Code, its labels' records, and need and frames of each body.
type Labelled = (
    &'static str,
    &'static [Record<'static>],
    &'static [(u32, u32)],
);

/// One call and what it must give.
#[derive(Clone)]
pub struct StatedNeed {
    pub name: String,
    pub file: Vec<u8>,
    /// Bytes of the lent room, and what the first of them are afterwards.
    pub room: usize,
    pub shown: Vec<u8>,
    /// The same of the lent report.
    pub report: usize,
    pub written: Vec<u8>,
    pub answer: u32,
    /// The out-parameters afterwards: the body is written with 11 and 47 only, the length with 0 only.
    pub body: u32,
    pub length: u64,
}

/// Every stated call for the needs.
pub fn all() -> Vec<StatedNeed> {
    let mut all = flow::cases();
    all.extend(calls::cases());
    all.extend(rings::cases());
    all.extend(refusals::cases());
    all
}

impl StatedNeed {
    /// What a subject gives instead, in words; nothing if it is as stated.
    pub fn difference(&self, subject: &mut dyn Subject) -> Option<String> {
        let (room, room_after) = lent(self.room, &self.shown);
        let (report, report_after) = lent(self.report, &self.written);
        let of = |room: &[u8], report: &[u8], body, written| NeedMemory {
            module: Lent::new(&self.file, 1),
            room: Lent::new(room, 3),
            report: Lent::new(report, 5),
            body,
            written,
        };
        let wanted = of(&room_after, &report_after, self.body, self.length);
        let mut memory = of(&room, &report, BODY_BEFORE, WRITTEN_BEFORE);
        let answer = subject.need(&mut memory);
        if answer == self.answer && memory == wanted {
            return None;
        }
        Some(format!(
            "{}: answers {} and {answer}{}",
            self.name,
            self.answer,
            need_difference(&wanted, &memory)
        ))
    }

    /// With a room and a report of these lengths.
    fn lent(mut self, room: usize, report: usize) -> StatedNeed {
        self.name = format!("{} (room {room}, report {report})", self.name);
        (self.room, self.report) = (room, report);
        self
    }

    /// Nothing is changed, and only the number is given.
    fn refused(mut self, number: u32) -> StatedNeed {
        self.shown = Vec::new();
        self.unreported(number)
    }

    /// The room is as the check leaves it, the report stays, and only the number is given.
    fn unreported(mut self, number: u32) -> StatedNeed {
        self.written = Vec::new();
        (self.answer, self.body, self.length) = (number, BODY_BEFORE, WRITTEN_BEFORE);
        self
    }
}

/// 0 with these label records and these needs and frames, entry first, each as long as it is lent.
fn needs(text: &str, labels: &[Record<'_>], pairs: &[(u32, u32)]) -> StatedNeed {
    let words = pairs.iter().flat_map(|&(need, frames)| [need, frames]);
    let written: Vec<u8> = words.flat_map(u32::to_le_bytes).collect();
    let shown: Vec<u8> = labels.iter().flat_map(|&shown| record(shown)).collect();
    let program = asm::program(text);
    assert_eq!(program.labels.len(), labels.len(), "{text}");
    assert_eq!(program.functions.len() + 1, pairs.len(), "{text}");
    StatedNeed {
        name: text.to_string(),
        file: program.file(),
        room: shown.len(),
        shown,
        report: written.len(),
        length: written.len() as u64,
        written,
        answer: 0,
        body: BODY_BEFORE,
    }
}

/// 47 with this body: the room is as the check leaves it, the report stays.
fn ring(text: &str, labels: &[Record<'_>], body: u32) -> StatedNeed {
    let pairs = vec![(0, 0); 1 + asm::program(text).functions.len()];
    let mut stated = needs(text, labels, &pairs).unreported(47);
    stated.body = body;
    stated
}

/// 11 with this body: 64 bytes per label are zeroed, the report stays.
fn untyped(text: &str, body: u32) -> StatedNeed {
    let program = asm::program(text);
    let labels = vec![None; program.labels.len()];
    let pairs = vec![(0, 0); 1 + program.functions.len()];
    let mut stated = needs(text, &labels, &pairs).unreported(11);
    stated.body = body;
    stated
}

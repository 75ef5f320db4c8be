//! Checks with records: chains of edits, each followed by a check of the edited body; and modules and
//! records of all sorts. `chain` and `strange` make them.

mod chain;
mod strange;

use super::case::BODY_BEFORE;
use super::rng::Rng;
use super::tables::WRITTEN_BEFORE;
use crate::check::RECORD;
use crate::hex;
use crate::memory::{BodyMemory, CheckMemory, Lent, RecordingMemory};
use crate::reader::read;
use crate::recording::{check_recording, length};
use crate::rules::Rules;
use crate::subject::Subject;

/// Which of the two calls is made.
#[derive(Clone, Debug)]
pub enum RecordCall {
    /// The full check, and what its room holds before.
    Full(Vec<u8>),
    /// The check of this body.
    Body(u32),
}

#[derive(Clone, Debug)]
pub struct RecordStep {
    /// What was done to module or record before this call.
    pub note: &'static str,
    pub module: Vec<u8>,
    pub call: RecordCall,
    /// What the record holds before the call.
    pub record: Vec<u8>,
    /// "This answer is the full check's, given room": the record is as A10 asks for.
    pub promised: bool,
}

/// Some calls, each on a module and a record of its own, which mostly come from the call before.
#[derive(Clone, Debug)]
pub struct RecordCase {
    pub kind: &'static str,
    pub steps: Vec<RecordStep>,
    pub shift: usize,
}

/// The out-parameter of a check of a body before the call.
pub const FIRST_BEFORE: u32 = BODY_BEFORE;

impl RecordCase {
    /// The case of this number; it depends on nothing but seed and number.
    pub fn new(seed: u64, number: u64) -> RecordCase {
        let mut rng = Rng::for_case(seed, number);
        let (kind, steps) = match rng.below(10) {
            0..=6 => chain::steps(&mut rng),
            7 | 8 => ("any module", strange::any_module(&mut rng)),
            _ => ("other record", strange::other_record(&mut rng)),
        };
        RecordCase {
            kind,
            steps,
            shift: rng.below(8),
        }
    }

    /// The first module, whose edition all others mostly have too.
    pub fn first(&self) -> &[u8] {
        self.steps.first().map_or(&[], |step| &step.module)
    }

    /// All calls, enough to repeat them by hand.
    pub fn describe(&self) -> String {
        let steps = self.steps.iter().enumerate();
        let lines = steps.map(|(n, step)| format!("step {n}: {}", step.describe()));
        lines.collect::<Vec<_>>().join("\n  ")
    }
}

impl RecordStep {
    pub fn describe(&self) -> String {
        let call = match &self.call {
            RecordCall::Full(room) => format!("full check, room of {} bytes", room.len()),
            RecordCall::Body(body) => format!("check of body {body:08X}"),
        };
        format!(
            "{call} ({}), record \"{}\", module: {}",
            self.note,
            hex::encode(&self.record),
            hex::encode(&self.module)
        )
    }

    pub fn full_memory(&self, room: &[u8], shift: usize) -> RecordingMemory {
        RecordingMemory {
            module: Lent::new(&self.module, shift),
            room: Lent::new(room, shift + 1),
            record: Lent::new(&self.record, shift + 3),
            body: BODY_BEFORE,
            written: WRITTEN_BEFORE,
        }
    }

    pub fn body_memory(&self, shift: usize) -> BodyMemory {
        BodyMemory {
            module: Lent::new(&self.module, shift),
            record: Lent::new(&self.record, shift + 3),
            first: FIRST_BEFORE,
        }
    }

    /// "This answer is the full check's, given room", and the record is what a full check writes.
    /// What a subject gives otherwise after this check of a body, in words.
    pub fn otherwise(
        &self,
        answer: u32,
        after: &BodyMemory,
        subject: &mut dyn Subject,
    ) -> Option<String> {
        let module = read(Rules::PLAIN, &self.module).ok()?;
        let room = vec![0x77; RECORD * module.labels as usize];
        let mut check = CheckMemory {
            module: Lent::new(&self.module, 2),
            room: Lent::new(&room, 4),
            body: FIRST_BEFORE,
        };
        let full = subject.check(&mut check);
        if (full, check.body) != (answer, after.first) {
            let (body, first) = (check.body, after.first);
            return Some(format!(
                "the full check is {full} ({body:08X}), that of the body {answer} ({first:08X})"
            ));
        }
        let mut recording = self.full_memory(&room, 2);
        recording.record = Lent::new(&vec![0x77; length(module.functions)], 4);
        let full = subject.check_recording(&mut recording);
        let same = full == answer && recording.record.slice() == after.record.slice();
        (!same).then(|| "a full check writes another record".to_string())
    }
}

/// The record of a module that can be read.
fn record_of(file: &[u8]) -> Option<Vec<u8>> {
    let module = read(Rules::PLAIN, file).ok()?;
    let mut room = vec![0; RECORD * module.labels as usize];
    let mut record = vec![0; length(module.functions)];
    check_recording(Rules::PLAIN, file, &mut room, &mut record, &mut 0, &mut 0);
    Some(record)
}

/// The length of a lent record: enough for this one, or now and then not quite.
fn lent_length(rng: &mut Rng, needed: usize) -> usize {
    match rng.below(12) {
        0 | 1 => needed.saturating_sub(1),
        2 => rng.below(needed + 1),
        3 | 4 => needed + rng.range(1, 20),
        5 => needed + 1,
        6 => rng.pick(&[0, 7, 8, 9]),
        _ => needed,
    }
}

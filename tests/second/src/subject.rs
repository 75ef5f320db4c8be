//! What is compared: something that answers the calls of the C interface.

use crate::check::{check, Checked};
use crate::conversion::convert;
use crate::formula::formula;
use crate::heap::LentHeap;
use crate::machine::{Unwatched, Watch};
use crate::map::{map, MapCall};
use crate::memory::{
    BodyMemory, CheckMemory, ConvertMemory, FormulaMemory, MapMemory, NeedMemory, RecordingMemory,
    RunMemory, Start, WriteMemory,
};
use crate::need::need;
use crate::opcode::Edition;
use crate::recording::{check_body, check_recording};
use crate::rules::Rules;
use crate::run::{run_watched, Call, LentStack, Ran};
use crate::writer::{write, Tables};

pub trait Subject {
    /// The paper's number; the out-parameter `body` is written with 11 only.
    fn check(&mut self, memory: &mut CheckMemory) -> u32;

    /// The paper's number; `steps` and `height` are written with 0, 15 and the exceptions only.
    fn run(&mut self, start: Start, memory: &mut RunMemory) -> u32;

    /// The paper's number; `written` is written with 0 only.
    fn write(&mut self, memory: &mut WriteMemory) -> u32;

    /// The paper's number; `written` is written with 0 only.
    fn formula(&mut self, memory: &mut FormulaMemory) -> u32;

    /// A conversion to edition 4 or 3: the paper's number; `written` is written with 0 only.
    fn convert(&mut self, to: Edition, memory: &mut ConvertMemory) -> u32;

    /// A run on each row: the paper's number; `rows` is written with every answer.
    fn map(&mut self, start: Start, memory: &mut MapMemory) -> u32;

    /// A full check that writes a record: the paper's number; `body` is written with 11 only,
    /// `written` with 0 only.
    fn check_recording(&mut self, memory: &mut RecordingMemory) -> u32;

    /// A check of one body: the paper's number; `first` is written with 11 only.
    fn check_body(&mut self, body: u32, memory: &mut BodyMemory) -> u32;

    /// What stack a module needs: the paper's number; `body` is written with 11 and 47 only, `written`
    /// with 0 only.
    fn need(&mut self, memory: &mut NeedMemory) -> u32;
}

/// The second program with these rules.
pub struct Second(pub Rules);

impl Subject for Second {
    fn check(&mut self, memory: &mut CheckMemory) -> u32 {
        checked_number(self.checked(memory), &mut memory.body)
    }

    fn run(&mut self, start: Start, memory: &mut RunMemory) -> u32 {
        self.run_watched(start, memory, &mut Unwatched)
    }

    fn write(&mut self, memory: &mut WriteMemory) -> u32 {
        let tables = Tables {
            edition: memory.edition,
            constants: memory.constants.slice(),
            functions: memory.functions.slice(),
            labels: memory.labels.slice(),
            structures: memory.structures.slice(),
            code: memory.code.slice(),
            entry_length: memory.entry_length,
        };
        let answer = write(self.0, tables, memory.out.slice_mut());
        wrote_number(answer, &mut memory.written)
    }

    fn formula(&mut self, memory: &mut FormulaMemory) -> u32 {
        let answer = formula(self.0, memory.line.slice(), memory.out.slice_mut());
        wrote_number(answer, &mut memory.written)
    }

    fn convert(&mut self, to: Edition, memory: &mut ConvertMemory) -> u32 {
        let answer = convert(self.0, to, memory.module.slice(), memory.out.slice_mut());
        wrote_number(answer, &mut memory.written)
    }

    fn map(&mut self, start: Start, memory: &mut MapMemory) -> u32 {
        let call = MapCall {
            function: start.function,
            profile: start.profile,
            arg_payloads: memory.arg_payloads.slice(),
            allowance: start.allowance,
        };
        let stack = LentStack {
            payloads: memory.payloads.slice_mut(),
            types: memory.types.slice_mut(),
        };
        let heap = LentHeap {
            cells: memory.heap.slice_mut(),
            blocks: memory.blocks.slice_mut(),
        };
        let (file, out) = (memory.module.slice(), memory.out.slice_mut());
        map(self.0, file, call, out, stack, heap, &mut memory.rows)
    }

    fn check_recording(&mut self, memory: &mut RecordingMemory) -> u32 {
        check_recording(
            self.0,
            memory.module.slice(),
            memory.room.slice_mut(),
            memory.record.slice_mut(),
            &mut memory.body,
            &mut memory.written,
        )
    }

    fn check_body(&mut self, body: u32, memory: &mut BodyMemory) -> u32 {
        let (file, record) = (memory.module.slice(), memory.record.slice_mut());
        check_body(self.0, file, body, record, &mut memory.first)
    }

    fn need(&mut self, memory: &mut NeedMemory) -> u32 {
        need(
            self.0,
            memory.module.slice(),
            memory.room.slice_mut(),
            memory.report.slice_mut(),
            &mut memory.body,
            &mut memory.written,
        )
    }
}

impl Second {
    /// The check with its reasons.
    pub fn checked(&self, memory: &mut CheckMemory) -> Checked {
        check(self.0, memory.module.slice(), memory.room.slice_mut())
    }

    pub fn run_watched(&self, start: Start, memory: &mut RunMemory, watch: &mut dyn Watch) -> u32 {
        let call = Call {
            function: start.function,
            arg_types: memory.arg_types.slice(),
            arg_payloads: memory.arg_payloads.slice(),
            profile: start.profile,
            allowance: start.allowance,
        };
        let stack = LentStack {
            payloads: memory.payloads.slice_mut(),
            types: memory.types.slice_mut(),
        };
        let heap = LentHeap {
            cells: memory.heap.slice_mut(),
            blocks: memory.blocks.slice_mut(),
        };
        let ran = run_watched(self.0, memory.module.slice(), call, stack, heap, watch);
        ran_number(ran, &mut memory.steps, &mut memory.height)
    }
}

/// The number of a check's answer; `body` is written with 11 only.
pub fn checked_number(answer: Checked, out: &mut u32) -> u32 {
    match answer {
        Checked::Accepted => 0,
        Checked::Refused(number) => number,
        Checked::NoTyping { body, .. } => {
            *out = body;
            11
        }
    }
}

/// The number of a run's answer; a refusal returns only its number.
pub fn ran_number(answer: Ran, steps_out: &mut u64, height_out: &mut u64) -> u32 {
    match answer {
        Ran::Refused(number) => number,
        Ran::Ended {
            outcome,
            steps,
            height,
        } => {
            *steps_out = steps;
            *height_out = height as u64;
            outcome
        }
    }
}

/// The number of a write's, a formula's or a conversion's answer; the length is given with 0 only.
pub fn wrote_number(answer: Result<usize, u32>, out: &mut u64) -> u32 {
    match answer {
        Err(number) => number,
        Ok(length) => {
            *out = length as u64;
            0
        }
    }
}

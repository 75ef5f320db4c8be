//! A case: one module, one check of it, some runs.

use super::profiles::given;
use super::rng::Rng;
use super::{
    calls, damage, expression, flow, heap, limits, loose, managed, mixed, near, pointers, typed,
};
use crate::check::RECORD;
use crate::memory::{CheckMemory, Lent, RunMemory, Start};
use crate::opcode::Edition;
use crate::program::Program;
use crate::reader::{read, LONGEST};
use crate::rules::Rules;

/// One run to be made.
#[derive(Clone, Debug)]
pub struct RunCall {
    pub function: u32,
    pub arg_types: Vec<u8>,
    pub arg_payloads: Vec<u8>,
    pub profile: u32,
    pub allowance: u64,
    /// What the lent slices hold before the run.
    pub payloads: Vec<u8>,
    pub types: Vec<u8>,
    /// Cells, and block entries.
    pub heap: Vec<u8>,
    pub blocks: Vec<u8>,
    /// How far the lent slices are off alignment.
    pub shift: usize,
}

impl RunCall {
    pub fn start(&self) -> Start {
        Start {
            function: self.function,
            profile: self.profile,
            allowance: self.allowance,
        }
    }
}

#[derive(Clone, Debug)]
pub struct Case {
    /// Which generator made the module.
    pub kind: &'static str,
    pub module: Vec<u8>,
    /// What the lent room holds before the check.
    pub room: Vec<u8>,
    pub runs: Vec<RunCall>,
    pub shift: usize,
}

/// Values of the out-parameters before a call: they stay where nothing is to be written.
pub const BODY_BEFORE: u32 = 0xB0D1_B0D1;
pub const STEPS_BEFORE: u64 = 0x57E9_57E9_57E9_57E9;
pub const HEIGHT_BEFORE: u64 = 0x4E16_4E16_4E16_4E16;

impl Case {
    /// The case of this number; it depends on nothing but seed and number.
    pub fn new(seed: u64, number: u64) -> Case {
        let mut rng = Rng::for_case(seed, number);
        let (kind, module) = module(&mut rng);
        let room = room(&mut rng, &module);
        let runs = calls::runs(&mut rng, &module);
        let shift = rng.below(8);
        Case {
            kind,
            module,
            room,
            runs,
            shift,
        }
    }

    /// The same module and room, and no runs.
    pub fn without_runs(seed: u64, number: u64) -> Case {
        let mut rng = Rng::for_case(seed, number);
        let (kind, module) = module(&mut rng);
        let room = room(&mut rng, &module);
        Case {
            kind,
            module,
            room,
            runs: Vec::new(),
            shift: number as usize % 8,
        }
    }

    pub fn check_memory(&self) -> CheckMemory {
        CheckMemory {
            module: Lent::new(&self.module, self.shift),
            room: Lent::new(&self.room, self.shift / 2),
            body: BODY_BEFORE,
        }
    }

    pub fn run_memory(&self, run: &RunCall) -> RunMemory {
        RunMemory {
            module: Lent::new(&self.module, self.shift),
            arg_types: Lent::new(&run.arg_types, run.shift),
            arg_payloads: Lent::new(&run.arg_payloads, run.shift + 1),
            payloads: Lent::new(&run.payloads, run.shift + 2),
            types: Lent::new(&run.types, run.shift + 3),
            heap: Lent::new(&run.heap, run.shift + 4),
            blocks: Lent::new(&run.blocks, run.shift + 5),
            steps: STEPS_BEFORE,
            height: HEIGHT_BEFORE,
        }
    }
}

/// A module file, and the name of its generator.
pub fn module(rng: &mut Rng) -> (&'static str, Vec<u8>) {
    let edition = edition(rng);
    if edition.has_heap() && rng.percent(45) {
        return heap_module(rng);
    }
    match rng.below(100) {
        88 => ("random bytes", random_bytes(rng)),
        89..=99 => {
            let program = well_typed(rng, edition);
            let program = given(rng, program);
            ("damaged", damage::file(rng, &program))
        }
        kind => {
            let (kind, program) = readable(rng, edition, kind);
            (kind, given(rng, program).file())
        }
    }
}

/// A program of one of 88 kinds, not all of which can be read.
pub fn readable(rng: &mut Rng, edition: Edition, kind: usize) -> (&'static str, Program) {
    match kind {
        0..=18 => ("typed", well_typed(rng, edition)),
        19..=22 => ("flow", flow::program(rng, edition)),
        23..=39 => {
            let mut program = well_typed(rng, edition);
            near::change(rng, &mut program);
            ("near miss", program)
        }
        40..=41 => ("pointers", pointers::program(rng, edition)),
        42..=51 => ("expression", expression::program(rng, edition)),
        52..=67 => ("mixed operands", mixed::program(rng, edition)),
        68..=75 => ("loose", loose::program(rng, edition)),
        76..=80 => ("stale pointer", loose::stale(rng, edition)),
        81..=84 => ("limit", limits::program(rng, edition)),
        _ => ("random code", loose::random(rng, edition)),
    }
}

/// A module of edition 4 that is about its heap.
fn heap_module(rng: &mut Rng) -> (&'static str, Vec<u8>) {
    let (kind, program) = heap_program(rng);
    (kind, given(rng, program).file())
}

/// Such a program.
pub fn heap_program(rng: &mut Rng) -> (&'static str, Program) {
    match rng.below(20) {
        0..=4 => ("heap", heap::program(rng)),
        5..=8 => ("heap astray", heap::astray(rng)),
        9 => ("heap filled", heap::filled(rng)),
        10..=14 => ("managed", managed::program(rng)),
        15..=18 => ("managed astray", managed::astray(rng)),
        _ => ("managed filled", managed::filled(rng)),
    }
}

/// Each edition about as often.
pub fn edition(rng: &mut Rng) -> Edition {
    match rng.below(100) {
        0..=27 => Edition::One,
        28..=61 => Edition::Three,
        _ => Edition::Four,
    }
}

pub fn well_typed(rng: &mut Rng, edition: Edition) -> Program {
    let size = typed::size(rng);
    typed::program(rng, edition, size)
}

/// Any bytes, of any length up to more than the longest module.
fn random_bytes(rng: &mut Rng) -> Vec<u8> {
    let len = match rng.below(8) {
        0 => rng.range(LONGEST - 1, LONGEST + 3),
        1 => 48,
        2 => rng.range(48, 56),
        _ => rng.below(100),
    };
    let mut bytes = rng.bytes(len);
    if rng.percent(60) {
        let edition = rng.pick(&[1, 3, 4, 4, 2]);
        for (byte, wanted) in bytes.iter_mut().zip([edition, 0, 0, 0]) {
            *byte = wanted;
        }
        let len = (len as u32).to_le_bytes();
        for (byte, wanted) in bytes.iter_mut().skip(4).zip(len) {
            *byte = wanted;
        }
    }
    bytes
}

/// A room that is enough, or now and then not quite.
pub(super) fn room(rng: &mut Rng, module: &[u8]) -> Vec<u8> {
    let labels = read(Rules::PLAIN, module).map_or(2, |m| m.labels as usize);
    let needed = RECORD * labels;
    let len = match rng.below(12) {
        0 => needed.saturating_sub(1),
        1 => rng.below(needed + 1),
        2 => needed + rng.range(1, 63),
        3 => needed + RECORD,
        _ => needed,
    };
    rng.bytes(len)
}

//! Modules to be converted, of every edition, good and damaged, with and without what edition 3
//! lacks; and outputs around the converted module's length.

use super::case::{module, readable, RunCall};
use super::profiles::{given, profile};
use super::rng::Rng;
use super::tables::{output, WRITTEN_BEFORE};
use super::{calls, damage, structures};
use crate::conversion::{converted, TARGETS};
use crate::gen::case::Case;
use crate::hex;
use crate::memory::{ConvertMemory, Lent, RunMemory};
use crate::opcode::{Edition, Op};
use crate::program::{Instr, Program};
use crate::reader::LONG_HEADER;
use crate::rules::Rules;
use crate::subject::Subject;

/// One conversion to be made.
#[derive(Clone, Debug)]
pub struct ConvertCase {
    /// Which generator made the module.
    pub kind: &'static str,
    pub to: Edition,
    pub module: Vec<u8>,
    /// What the lent output holds before the conversion.
    pub out: Vec<u8>,
    /// Runs of the module and of what it is converted to, where it is.
    pub runs: Vec<RunCall>,
    pub shift: usize,
}

impl ConvertCase {
    /// The case of this number; it depends on nothing but seed and number.
    pub fn new(seed: u64, number: u64) -> ConvertCase {
        let mut rng = Rng::for_case(seed, number);
        let (kind, module) = source(&mut rng);
        let to = target(&mut rng, &module);
        let made = converted(Rules::PLAIN, to, &module);
        let needed = made.as_ref().map_or(module.len(), Vec::len);
        let len = output(&mut rng, needed.max(48));
        let runs = match made {
            Ok(_) => calls::runs(&mut rng, &module),
            Err(_) => Vec::new(),
        };
        ConvertCase {
            kind,
            to,
            module,
            out: rng.bytes(len),
            runs,
            shift: rng.below(8),
        }
    }

    pub fn memory(&self) -> ConvertMemory {
        memory(&self.module, &self.out, self.shift)
    }

    /// Direction, module and the output's length, enough to repeat the conversion by hand.
    pub fn describe(&self) -> String {
        format!(
            "to edition {}, output of {} bytes, module: {}",
            self.to.word(),
            self.out.len(),
            hex::encode(&self.module)
        )
    }

    /// "Up then down returns the same bytes; down then up too, wherever down is allowed." And a
    /// run of the converted module does the same. What a subject does otherwise, in words.
    pub fn otherwise(&self, made: &[u8], subject: &mut dyn Subject) -> Option<String> {
        let back = TARGETS.into_iter().find(|&edition| edition != self.to)?;
        let length = self.module.len();
        let mut memory = memory(made, &vec![0xEE; length], self.shift);
        let answer = subject.convert(back, &mut memory);
        if answer != 0 || memory.out.slice() != self.module {
            return Some(format!("back it is {answer}, or not the same bytes"));
        }
        let runs = self.runs.iter();
        let mut differs =
            runs.filter(|run| self.run(run, &self.module, subject) != self.run(run, made, subject));
        differs.next().map(|run| {
            format!(
                "a run of function {:08X} does not do the same",
                run.function
            )
        })
    }

    /// Answer of a run of a module and what it leaves, the module apart.
    fn run(&self, run: &RunCall, module: &[u8], subject: &mut dyn Subject) -> (u32, RunMemory) {
        let case = Case {
            kind: self.kind,
            module: module.to_vec(),
            room: Vec::new(),
            runs: Vec::new(),
            shift: self.shift,
        };
        let mut memory = case.run_memory(run);
        let answer = subject.run(run.start(), &mut memory);
        memory.module = Lent::new(&[], 0);
        (answer, memory)
    }
}

/// A module and an output, lent to a conversion.
pub fn memory(module: &[u8], out: &[u8], shift: usize) -> ConvertMemory {
    ConvertMemory {
        module: Lent::new(module, shift),
        out: Lent::new(out, shift + 3),
        written: WRITTEN_BEFORE,
    }
}

/// Mostly the other edition than the module's.
fn target(rng: &mut Rng, module: &[u8]) -> Edition {
    let other = match module {
        [4, ..] => Edition::Three,
        [3, ..] => Edition::Four,
        _ => rng.pick(&TARGETS),
    };
    let header = module.len() < LONG_HEADER && rng.percent(70);
    if header || rng.one_in(12) {
        return rng.pick(&TARGETS);
    }
    other
}

fn source(rng: &mut Rng) -> (&'static str, Vec<u8>) {
    match rng.below(20) {
        0..=4 => module(rng),
        5..=8 => ("edition 3", shared(rng).file()),
        9..=15 => {
            let mut program = above(rng);
            for _ in 0..rng.pick(&[0, 0, 1, 1, 1, 2]) {
                lose(rng, &mut program);
            }
            ("edition 4 of edition 3's", program.file())
        }
        16 | 17 => {
            let mut program = if rng.one_in(3) {
                shared(rng)
            } else {
                above(rng)
            };
            if rng.one_in(3) {
                lose(rng, &mut program);
            }
            ("damaged", damage::file(rng, &program))
        }
        _ => ("header", header(rng)),
    }
}

/// A program of edition 3.
fn shared(rng: &mut Rng) -> Program {
    // among all kinds, those of limits more often
    let kind = if rng.one_in(8) { 81 } else { rng.below(88) };
    let mut program = readable(rng, Edition::Three, kind).1;
    if rng.one_in(4) {
        look_like_opcodes(rng, &mut program);
    }
    program
}

/// The same in edition 4, without anything that edition 3 lacks.
fn above(rng: &mut Rng) -> Program {
    let mut program = shared(rng);
    program.edition = Edition::Four;
    program.structures.clear();
    program
}

/// An instruction at a body's end, after a `ret` or where the body ran on.
fn append(rng: &mut Rng, program: &mut Program, op: Op, operand: u32) {
    let owners = program.owners();
    let owner = rng.pick(&owners);
    program.body_mut(owner).push(Instr { op, operand });
}

/// Bytes of an operand that edition 3 has not as opcodes.
fn look_like_opcodes(rng: &mut Rng, program: &mut Program) {
    let operand = rng.pick(&[
        0x06,
        0x30,
        0x31,
        0x32,
        0x33,
        0x34,
        0x3000,
        0x3400,
        0x0006_0000,
        0x3130_0632,
    ]);
    let op = rng.pick(&[Op::Push, Op::Load, Op::Store, Op::Call]);
    append(rng, program, op, operand);
}

/// Something that edition 3 lacks: a profile, a structure, a type byte, an opcode.
fn lose(rng: &mut Rng, program: &mut Program) {
    match rng.below(5) {
        0 if !program.functions.is_empty() => {
            let n = rng.below(program.functions.len());
            program.functions[n].profile = profile(rng).max(1);
        }
        1 => {
            let fields = structures::fields(rng);
            program.structures.push(fields);
        }
        2 => *program = given(rng, program.clone()),
        3 if !program.functions.is_empty() => {
            let ty = rng.pick(&structures::managed(program.structures.len()));
            let n = rng.below(program.functions.len());
            let function = &mut program.functions[n];
            match function.parameters.last_mut().filter(|_| rng.one_in(2)) {
                Some(last) => *last = ty,
                None => function.returns = ty,
            }
        }
        _ => {
            let ops = [
                Op::Null,
                Op::New,
                Op::Delete,
                Op::Flea,
                Op::GcNull,
                Op::GcNew,
            ];
            let op = rng.pick(&ops);
            let operand = rng.pick(&[0, 3, 10]);
            append(rng, program, op, operand);
        }
    }
}

/// The first bytes of a module, around the headers' lengths, of any edition word.
fn header(rng: &mut Rng) -> Vec<u8> {
    let mut file = above(rng).file();
    let len = rng.pick(&[0, 7, 47, 47, 48, 49, 52, 55, 56, 57]);
    file.truncate(len);
    let word = rng.pick(&[1, 1, 3, 3, 4, 4, 4, 4, 2, 5]);
    if let Some(byte) = file.first_mut() {
        *byte = word;
    }
    if rng.percent(50) && file.len() >= 8 {
        file[4..8].copy_from_slice(&(len as u32).to_le_bytes());
    }
    file
}

//! A small assembler, for samples and tests.
//!
//! Statements are separated by semicolons or line ends, and end with a colon:
//!
//! * `edition 1`, `edition 4`: the module is of this edition (first, else it is of edition 3);
//! * `structure int, double`: the next structure, numbered from 10, with these fields;
//! * `int 7`, `long -1`, `double 1.5`, `double #7FF0000000000001`: the next constant;
//! * `entry:`, `function int (int, *long, *10, gc*10):` (return type `void`, `int`, `long`,
//!   `double`, a pointer as `*10`, or a managed one as `gc*10`): what follows is this body;
//!   `function int () profile 5:` was made for profile 5;
//! * `@0`: label 0 is here (at the next instruction);
//! * `push 0`, `add`, ...: instructions, operands in decimal.

use crate::opcode::{Edition, Op};
use crate::program::{Constant, Instr, Mark, Program, Routine};
use crate::reader::ENTRY;
use crate::types::{DOUBLE, INT, LONG, MANAGED_TO, POINTER_TO};

/// Assembles a module. The text is part of this repository: a mistake in it stops the program.
pub fn program(text: &str) -> Program {
    let mut asm = Asm::default();
    let text = text.replace(':', ":;");
    for statement in text.split([';', '\n']).map(str::trim) {
        if !statement.is_empty() {
            asm.statement(statement);
        }
    }
    let numbers = 0..asm.marks.len();
    asm.program.labels = numbers
        .map(|n| asm.marks[n].unwrap_or_else(|| panic!("label {n} is nowhere")))
        .collect();
    asm.program
}

/// The file of an assembled module.
pub fn file(text: &str) -> Vec<u8> {
    program(text).file()
}

#[derive(Default)]
struct Asm {
    program: Program,
    marks: Vec<Option<Mark>>,
}

impl Asm {
    fn owner(&self) -> u32 {
        match self.program.functions.len() {
            0 => ENTRY,
            count => count as u32 - 1,
        }
    }

    fn statement(&mut self, text: &str) {
        let (word, rest) = text.split_once(' ').unwrap_or((text, ""));
        if let Some(number) = word.strip_prefix('@') {
            self.label(number.parse().expect("label number"));
        } else if word == "edition" {
            self.program.edition = match rest.trim() {
                "1" => Edition::One,
                "4" => Edition::Four,
                _ => panic!("{text}"),
            };
        } else if word == "structure" {
            let fields = rest.split(',').map(|field| type_byte(field.trim()));
            self.program.structures.push(fields.collect());
        } else if word == "entry:" {
            assert!(self.program.functions.is_empty(), "the entry comes first");
        } else if word == "function" {
            self.program.functions.push(routine(rest));
        } else if let Some(ty) = number_type(word) {
            let payload = constant(ty, rest.trim());
            let ty = u32::from(ty);
            self.program.constants.push(Constant { ty, payload });
        } else {
            let op = Op::from_name(word).unwrap_or_else(|| panic!("unknown: {text}"));
            let operand = if op.has_operand() {
                rest.trim()
                    .parse()
                    .unwrap_or_else(|_| panic!("operand of: {text}"))
            } else {
                assert!(rest.is_empty(), "no operand: {text}");
                0
            };
            let edition = self.program.edition;
            assert!(op.byte(edition).is_some(), "not of {edition:?}: {text}");
            let owner = self.owner();
            self.program.body_mut(owner).push(Instr { op, operand });
        }
    }

    fn label(&mut self, number: usize) {
        let owner = self.owner();
        let index = self.program.body(owner).len();
        if self.marks.len() <= number {
            self.marks.resize(number + 1, None);
        }
        self.marks[number] = Some(Mark { owner, index });
    }
}

fn number_type(word: &str) -> Option<u8> {
    match word {
        "int" => Some(INT),
        "long" => Some(LONG),
        "double" => Some(DOUBLE),
        _ => None,
    }
}

/// A type as in a signature: `int`, `*long`, `*10`, `gc*int`.
fn type_byte(word: &str) -> u8 {
    let Some((kind, target)) = word.split_once('*') else {
        return number_type(word).expect("type");
    };
    let structure = || target.parse().expect("type");
    let target = number_type(target).unwrap_or_else(structure);
    match kind {
        "" => POINTER_TO | target,
        "gc" => MANAGED_TO | target,
        _ => panic!("type {word}"),
    }
}

/// `int (int, *long):`, `int (int, *long) profile 5:`
fn routine(text: &str) -> Routine {
    let (returns, rest) = text.split_once('(').expect("parameters");
    let (list, rest) = rest.split_once(')').expect("closing bracket");
    let parameters = list
        .split(',')
        .map(str::trim)
        .filter(|word| !word.is_empty())
        .map(type_byte)
        .collect();
    let returns = match returns.trim() {
        "void" => 0,
        word => type_byte(word),
    };
    let profile = match rest.trim().trim_end_matches(':').split_once(' ') {
        Some(("profile", number)) => number.trim().parse().expect("profile"),
        _ => 0,
    };
    Routine {
        parameters,
        returns,
        profile,
        code: Vec::new(),
    }
}

fn constant(ty: u8, text: &str) -> u64 {
    if let Some(bits) = text.strip_prefix('#') {
        return u64::from_str_radix(bits, 16).expect("hex digits");
    }
    if ty == DOUBLE {
        return text.parse::<f64>().expect("double").to_bits();
    }
    let number: i128 = text.parse().expect("number");
    let bits = number as u64;
    if ty == INT {
        bits & 0xFFFF_FFFF
    } else {
        bits
    }
}

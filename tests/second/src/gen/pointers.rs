//! Pointers to locals of different types where the same type is asked for.

use super::constants::pool;
use super::loose::instrs;
use super::rng::Rng;
use crate::opcode::{Edition, Op};
use crate::program::{Mark, Program, Routine};
use crate::reader::ENTRY;
use crate::types::{NUMBERS, POINTER_TO};

pub fn program(rng: &mut Rng, edition: Edition) -> Program {
    let mut program = Program {
        edition: if edition.has_heap() {
            Edition::Four
        } else {
            Edition::Three
        },
        constants: pool(rng, 0),
        ..Program::default()
    };
    let target = rng.pick(&NUMBERS);
    program.functions.push(Routine {
        parameters: vec![POINTER_TO | target],
        returns: 0,
        code: instrs(&[
            (Op::Load, 0),
            (rng.pick(&[Op::Inc, Op::Dec]), 0),
            (Op::Ret, 0),
        ]),
        ..Routine::default()
    });
    let code = code(rng);
    let index = rng.below(code.len());
    program.labels.push(Mark {
        owner: ENTRY,
        index,
    });
    program.entry = instrs(&code);
    program
}

/// Some number locals, and pointers to two of them.
fn code(rng: &mut Rng) -> Vec<(Op, u32)> {
    let mut code = Vec::new();
    let locals = rng.range(2, 5) as u32;
    for n in 0..locals {
        code.extend([(Op::Push, rng.below(6) as u32), (Op::Store, n)]);
    }
    let mut some = || rng.below(locals as usize) as u32;
    let (i, j) = (some(), some());
    match rng.below(6) {
        0 => code.extend([(Op::Lea, i), (Op::Lea, j), (Op::Swap, 0)]),
        1 => code.extend([(Op::Lea, i), (Op::Lea, j), (Op::Cmp, 0)]),
        2 => code.extend([(Op::Lea, i), (Op::Lea, j), (Op::Icmp, 0)]),
        3 => code.extend([
            (Op::Lea, i),
            (Op::Store, locals),
            (Op::Lea, j),
            (Op::Store, locals),
        ]),
        4 => code.extend([(Op::Lea, i), (Op::Load, j), (Op::Tstore, 0), (Op::Load, i)]),
        _ => code.extend([(Op::Lea, i), (Op::Call, 0), (Op::Load, i)]),
    }
    code
}

//! Entries that compute on boundary constants and leave every result on the stack.

use super::constants::{constant, range_edges};
use super::rng::Rng;
use crate::opcode::{Edition, Op};
use crate::program::{Constant, Instr, Program};
use crate::types::{DOUBLE, INT, NUMBERS};

const ON_ALL: [Op; 8] = [
    Op::Add,
    Op::Sub,
    Op::Mul,
    Op::Imul,
    Op::Div,
    Op::Idiv,
    Op::Cmp,
    Op::Icmp,
];
const ON_INTEGERS: [Op; 9] = [
    Op::Mod,
    Op::Imod,
    Op::And,
    Op::Or,
    Op::Xor,
    Op::Shl,
    Op::Sal,
    Op::Shr,
    Op::Sar,
];
const UNARY: [Op; 4] = [Op::Neg, Op::Toi, Op::Tol, Op::Tod];

pub fn program(rng: &mut Rng, edition: Edition) -> Program {
    let mut program = Program {
        edition,
        ..Program::default()
    };
    if rng.one_in(3) {
        through_a_local(rng, &mut program);
    }
    for _ in 0..rng.range(1, 10) {
        if rng.one_in(10) {
            at_an_edge(rng, &mut program);
        } else {
            term(rng, &mut program);
        }
    }
    program
}

/// One operation on constants.
fn term(rng: &mut Rng, program: &mut Program) {
    let ty = rng.pick(&NUMBERS);
    push(rng, program, ty);
    if rng.percent(35) {
        let op = if ty != DOUBLE && rng.one_in(5) {
            Op::Not
        } else if program.edition == Edition::One && rng.one_in(3) {
            rng.pick(&[Op::Inc, Op::Dec])
        } else {
            rng.pick(&UNARY)
        };
        emit(program, op, 0);
    } else if ty != DOUBLE && rng.one_in(12) {
        lowest_by_minus_one(rng, program, ty);
    } else {
        push(rng, program, ty);
        let op = if ty == DOUBLE || rng.percent(45) {
            rng.pick(&ON_ALL)
        } else {
            rng.pick(&ON_INTEGERS)
        };
        emit(program, op, 0);
    }
}

/// A conversion where its range ends.
fn at_an_edge(rng: &mut Rng, program: &mut Program) {
    let (ty, payload) = (u32::from(DOUBLE), rng.pick(&range_edges()));
    push_constant(program, Constant { ty, payload });
    emit(program, rng.pick(&[Op::Toi, Op::Tol]), 0);
}

/// The pair whose quotient is out of range, in place of the operand just pushed.
fn lowest_by_minus_one(rng: &mut Rng, program: &mut Program, ty: u8) {
    let (lowest, minus_one) = if ty == INT {
        (1 << 31, 0xFFFF_FFFF)
    } else {
        (1 << 63, u64::MAX)
    };
    push(rng, program, ty);
    let n = program.constants.len();
    program.constants[n - 2].payload = lowest;
    program.constants[n - 1].payload = minus_one;
    let op = rng.pick(&[Op::Idiv, Op::Imod, Op::Div, Op::Mod, Op::Imul]);
    emit(program, op, 0);
}

fn through_a_local(rng: &mut Rng, program: &mut Program) {
    let ty = rng.pick(&NUMBERS);
    push(rng, program, ty);
    emit(program, Op::Store, 0);
    for _ in 0..rng.range(1, 3) {
        let op = rng.pick(&[Op::Inc, Op::Dec]);
        if program.edition == Edition::One {
            emit(program, Op::Load, 0);
            emit(program, op, 0);
            emit(program, Op::Store, 0);
        } else {
            emit(program, Op::Lea, 0);
            emit(program, op, 0);
        }
    }
}

fn push(rng: &mut Rng, program: &mut Program, ty: u8) {
    push_constant(program, constant(rng, ty));
}

fn push_constant(program: &mut Program, constant: Constant) {
    let operand = program.constants.len() as u32;
    program.constants.push(constant);
    emit(program, Op::Push, operand);
}

fn emit(program: &mut Program, op: Op, operand: u32) {
    program.entry.push(Instr { op, operand });
}

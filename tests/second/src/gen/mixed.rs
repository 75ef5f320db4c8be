//! Operands of any types, then any instruction: every opcode meets every exception.

use super::constants::pool;
use super::loose::instrs;
use super::rng::Rng;
use super::structures::{self, blocks, operand, parameters};
use crate::opcode::{Edition, Op};
use crate::program::{Mark, Program, Routine};
use crate::reader::ENTRY;

const CONDITIONS: [Op; 6] = [Op::Je, Op::Jne, Op::Ja, Op::Jae, Op::Jb, Op::Jbe];

/// What raises 22, 24 or 34.
const ARITHMETIC: [Op; 16] = [
    Op::Add,
    Op::Sub,
    Op::Mul,
    Op::Imul,
    Op::Div,
    Op::Idiv,
    Op::Mod,
    Op::Imod,
    Op::And,
    Op::Or,
    Op::Xor,
    Op::Not,
    Op::Shl,
    Op::Sal,
    Op::Shr,
    Op::Sar,
];

pub fn program(rng: &mut Rng, edition: Edition) -> Program {
    let mut program = Program {
        edition,
        constants: pool(rng, 2),
        structures: structures::declared(rng, edition),
        ..Program::default()
    };
    let count = program.structures.len();
    let types = parameters(edition, count);
    let (first, second) = (rng.pick(&types), rng.pick(&types));
    program.functions.push(Routine {
        parameters: vec![first, second][..rng.below(3)].to_vec(),
        returns: structures::returns(rng, edition, count),
        code: instrs(&code(rng, edition, count)),
        ..Routine::default()
    });
    program.entry = instrs(&code(rng, edition, count));
    for owner in [ENTRY, 0] {
        let index = rng.below(program.body(owner).len());
        program.labels.push(Mark { owner, index });
    }
    program
}

/// Two locals, a number and a pointer, in edition 4 blocks too; then operands and an instruction,
/// some times over.
fn code(rng: &mut Rng, edition: Edition, structures: usize) -> Vec<(Op, u32)> {
    // edition 1 has a copy of the local in the pointer's place
    let lea = match edition {
        Edition::One => Op::Load,
        _ => Op::Lea,
    };
    let mut code = vec![
        (Op::Push, rng.below(8) as u32),
        (Op::Store, 0),
        (lea, 0),
        (Op::Store, 1),
    ];
    if rng.one_in(8) {
        code.truncate(rng.below(4));
    }
    let mut locals = 2;
    if edition.has_heap() && rng.percent(70) {
        locals = 4;
        bind_blocks(rng, structures, &mut code);
    }
    for _ in 0..rng.range(1, 4) {
        let op = operands(rng, edition, structures, locals, &mut code);
        code.push((op, operand(rng, op, structures, 3)));
    }
    if rng.percent(60) {
        code.push((Op::Ret, 0));
    } else if rng.one_in(3) {
        code.push((Op::Call, 0));
    }
    code
}

/// A pointer to a new block, managed or not, or now and then null.
fn given(rng: &mut Rng, structures: usize) -> (Op, u32) {
    let ty = rng.pick(&blocks(structures));
    match rng.below(8) {
        0 => (Op::Null, 0),
        1 => (Op::GcNull, 0),
        2..=4 => (Op::GcNew, ty),
        _ => (Op::New, ty),
    }
}

/// Locals 2 and 3 point to blocks, one of which may be gone, or are null.
fn bind_blocks(rng: &mut Rng, structures: usize, code: &mut Vec<(Op, u32)>) {
    for n in 2..4 {
        code.extend([given(rng, structures), (Op::Store, n)]);
    }
    if rng.one_in(4) {
        code.extend([(Op::Load, rng.range(2, 3) as u32), (Op::Delete, 0)]);
    }
}

/// Operands, and the opcode that comes after them.
fn operands(
    rng: &mut Rng,
    edition: Edition,
    structures: usize,
    locals: usize,
    code: &mut Vec<(Op, u32)>,
) -> Op {
    // more in edition 4, of which fewer programs are of this kind
    let (pairs, conditions) = if edition.has_heap() {
        (40, 8)
    } else {
        (20, 15)
    };
    if rng.percent(pairs) {
        // two numbers, of the same type or not
        let first = (Op::Push, rng.below(8) as u32);
        let second = (Op::Push, rng.below(8) as u32);
        code.extend([first, rng.pick(&[first, second])]);
        return rng.pick(&ARITHMETIC);
    }
    if rng.one_in(conditions) {
        if edition.has_heap() && rng.percent(60) {
            code.push((Op::Push, rng.below(8) as u32));
        }
        return rng.pick(&CONDITIONS);
    }
    if rng.one_in(15) {
        return unconverted(rng, edition, locals, code);
    }
    for _ in 0..rng.pick(&[0, 1, 1, 2, 2, 2, 2, 3]) {
        value(rng, edition, structures, locals, code);
    }
    rng.pick(&edition.ops())
}

/// A conversion after a bound local, which is no operand, or after null, which is no number:
/// often with a payload that would be out of range.
fn unconverted(rng: &mut Rng, edition: Edition, locals: usize, code: &mut Vec<(Op, u32)>) -> Op {
    if edition.has_heap() && rng.one_in(2) {
        code.push(rng.pick(&[(Op::Null, 0), (Op::GcNull, 0)]));
    } else {
        let constant = (Op::Push, rng.below(8) as u32);
        code.extend([constant, (Op::Store, locals as u32)]);
    }
    rng.pick(&[Op::Toi, Op::Tol])
}

/// One operand, now and then twice.
fn value(
    rng: &mut Rng,
    edition: Edition,
    structures: usize,
    locals: usize,
    code: &mut Vec<(Op, u32)>,
) {
    let lea = match edition {
        Edition::One => Op::Load,
        _ => Op::Lea,
    };
    code.push(match rng.below(8) {
        0..=3 if edition.has_heap() && rng.one_in(3) => given(rng, structures),
        0..=3 => (Op::Push, rng.below(8) as u32),
        4 | 5 => (Op::Load, rng.below(locals) as u32),
        _ => (lea, rng.below(locals) as u32),
    });
    let heap = matches!(
        code.last(),
        Some((Op::New | Op::GcNew, _)) | Some((Op::Load, 2 | 3))
    );
    if heap && rng.one_in(3) {
        code.push((Op::Flea, rng.below(4) as u32));
    }
    if rng.percent(30) && !matches!(code.last(), Some((Op::Flea, _))) {
        code.extend(code.last().copied());
    }
}

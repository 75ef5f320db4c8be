//! Modules at the limits: operands, locals, frames, slots, counts, code length.

use super::constants::pool;
use super::loose::instrs;
use super::rng::Rng;
use crate::opcode::{Edition, Op};
use crate::program::{Constant, Mark, Program, Routine};
use crate::reader::ENTRY;
use crate::types::{DOUBLE, INT, LONG};

pub fn program(rng: &mut Rng, edition: Edition) -> Program {
    let mut program = match rng.below(12) {
        0 if edition.has_heap() => structures(rng),
        0..=2 => operands(rng),
        3 => locals(rng),
        4..=9 => frames(rng),
        10 => slots(rng),
        _ => counts(rng),
    };
    program.edition = edition;
    if edition == Edition::One {
        for owner in program.owners() {
            for instr in program.body_mut(owner) {
                instr.op = match instr.op {
                    Op::Lea => Op::Load,
                    Op::Copy => Op::Inc,
                    op => op,
                };
            }
        }
    }
    program
}

/// 30 to 35 operands, in the entry or in a function.
fn operands(rng: &mut Rng) -> Program {
    let mut program = Program {
        constants: pool(rng, 0),
        ..Program::default()
    };
    let mut code = Vec::new();
    for _ in 0..rng.pick(&[31, 32, 32, 33, 33, 33, 34, 35]) {
        code.push((Op::Push, rng.below(6) as u32));
    }
    for _ in 0..rng.pick(&[0, 0, 1, 2]) {
        code.push((rng.pick(&[Op::Pop, Op::Copy]), 0));
    }
    if rng.percent(50) {
        if rng.one_in(3) {
            code.push((Op::Call, 0));
            program.functions.push(Routine {
                returns: INT,
                code: instrs(&[(Op::Push, 0), (Op::Ret, 0)]),
                ..Routine::default()
            });
        }
        program.entry = instrs(&code);
        let index = rng.below(code.len());
        program.labels.push(Mark {
            owner: ENTRY,
            index,
        });
        return program;
    }
    code.push((Op::Ret, 0));
    program.entry = instrs(&[(Op::Call, 0)]);
    program.functions.push(Routine {
        code: instrs(&code),
        ..Routine::default()
    });
    let index = rng.below(code.len());
    program.labels.push(Mark { owner: 0, index });
    program
}

/// 14 to 17 locals.
fn locals(rng: &mut Rng) -> Program {
    let mut program = Program {
        constants: pool(rng, 0),
        ..Program::default()
    };
    let mut code = Vec::new();
    let count = rng.range(14, 17) as u32;
    for n in 0..count {
        code.extend([(Op::Push, rng.below(6) as u32), (Op::Store, n)]);
    }
    let n = rng.below(18) as u32;
    code.push(rng.pick(&[(Op::Load, n), (Op::Lea, n), (Op::Pop, 0)]));
    let index = rng.range(code.len() - 3, code.len() - 1);
    program.labels.push(Mark {
        owner: ENTRY,
        index,
    });
    program.entry = instrs(&code);
    program
}

/// Recursion to about 64 frames; the deepest one may call with wrong or missing arguments.
fn frames(rng: &mut Rng) -> Program {
    let int = |payload: u64| Constant {
        ty: u32::from(INT),
        payload,
    };
    let mut program = Program {
        constants: vec![
            int(rng.pick(&[58, 61, 62, 62, 62, 63, 64, 70])),
            int(1),
            Constant {
                ty: u32::from(LONG),
                payload: rng.any(),
            },
        ],
        ..Program::default()
    };
    program.entry = instrs(&[(Op::Push, 0), (Op::Call, 0), (Op::Push, 2)]);
    let (code, index) = recursion(rng);
    program.functions.push(Routine {
        parameters: vec![INT],
        returns: INT,
        code: instrs(&code),
        ..Routine::default()
    });
    program.functions.push(Routine {
        parameters: vec![LONG],
        returns: 0,
        code: instrs(&[(Op::Ret, 0)]),
        ..Routine::default()
    });
    program.labels.push(Mark { owner: 0, index });
    program
}

/// The recursive function's code, and where it goes when it is deepest.
fn recursion(rng: &mut Rng) -> (Vec<(Op, u32)>, usize) {
    let mut code = vec![(Op::Load, 0), (Op::Je, 0)];
    for _ in 0..rng.pick(&[0, 0, 0, 1, 2, 28]) {
        code.push((Op::Push, 2));
    }
    code.extend([(Op::Load, 0), (Op::Push, 1), (Op::Sub, 0)]);
    code.extend([(Op::Call, 0), (Op::Ret, 0)]);
    let index = code.len();
    let deepest: &[(Op, u32)] = match rng.below(5) {
        0 => &[(Op::Push, 2), (Op::Call, 1)],
        1 => &[(Op::Push, 1), (Op::Call, 1)],
        2 => &[(Op::Call, 1)],
        3 => &[(Op::Push, 1), (Op::Push, 2), (Op::Call, 1)],
        _ => &[],
    };
    code.extend(deepest);
    code.extend([(Op::Push, 1), (Op::Ret, 0)]);
    (code, index)
}

/// A loop that fills the stack.
fn slots(rng: &mut Rng) -> Program {
    let mut program = Program {
        constants: pool(rng, 0),
        ..Program::default()
    };
    let mut code = vec![(Op::Push, 0), (Op::Store, 0)];
    let fill = [(Op::Push, 1), (Op::Load, 0), (Op::Lea, 0), (Op::Copy, 0)];
    code.push(rng.pick(&fill[..3]));
    for _ in 0..rng.below(3) {
        code.push(rng.pick(&fill));
    }
    code.push((Op::Jmp, 0));
    program.labels.push(Mark {
        owner: ENTRY,
        index: 2,
    });
    program.entry = instrs(&code);
    program
}

/// A count or the code length at its limit or one over it.
fn counts(rng: &mut Rng) -> Program {
    let mut program = Program {
        constants: pool(rng, 0),
        ..Program::default()
    };
    let over = usize::from(rng.one_in(3));
    program.entry = instrs(&[(Op::Push, 0), (Op::Pop, 0)]);
    let which = rng.below(5);
    if which == 4 {
        program.structures = vec![vec![DOUBLE; 8]; 16 + over];
    }
    if which == 0 || which == 4 {
        let extra = 1024 + over - 6;
        program.constants = pool(rng, extra);
    }
    if which == 1 || which == 4 {
        let routine = Routine {
            code: instrs(&[(Op::Ret, 0)]),
            ..Routine::default()
        };
        program.functions = vec![routine; 128 + over];
    }
    if which == 2 || which == 4 {
        let mark = Mark {
            owner: ENTRY,
            index: 1,
        };
        program.labels = vec![mark; 256 + over];
    }
    if which == 3 || which == 4 {
        fill_code(&mut program, over);
    }
    program
}

/// 15 to 17 structures, and the last of them.
fn structures(rng: &mut Rng) -> Program {
    let count = rng.range(15, 17) as u32;
    let last = 9 + rng.range(count as usize - 1, count as usize + 1) as u32;
    let op = rng.pick(&[Op::New, Op::GcNew]);
    Program {
        structures: vec![vec![DOUBLE; 8]; count as usize],
        entry: instrs(&[(op, last), (Op::Flea, rng.pick(&[0, 7, 7, 8]))]),
        ..Program::default()
    }
}

/// Makes the code 16,384 bytes long, or one more.
fn fill_code(program: &mut Program, over: usize) {
    let functions = program.functions.len();
    let pairs = (16_384 - 6 - functions) / 6 - 1;
    for _ in 0..pairs {
        program.entry.extend(instrs(&[(Op::Push, 1), (Op::Pop, 0)]));
    }
    program.entry.extend(instrs(&[(Op::Push, 1)]));
    let used = 6 + functions + 6 * pairs + 5;
    for _ in used..16_384 + over {
        program.entry.extend(instrs(&[(Op::Neg, 0)]));
    }
}

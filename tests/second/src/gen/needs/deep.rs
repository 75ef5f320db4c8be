//! Long chains of calls, with few slots or many a frame: frames around 64, needs around 4,096.

use crate::gen::loose::instrs;
use crate::gen::rng::Rng;
use crate::opcode::{Edition, Op};
use crate::program::{Constant, Program, Routine};
use crate::types::INT;

/// Slots that a frame leaves under its call: values, and how many of them each local buries.
struct Load {
    values: usize,
    each: usize,
}

pub fn program(rng: &mut Rng, edition: Edition) -> Program {
    let functions = rng.pick(&[62, 63, 63, 64, 64, 65, 128, 128]);
    let many = edition != Edition::One && rng.one_in(2);
    let values = match many {
        true if functions == 62 => rng.pick(&[65, 66, 67, 160]),
        // with 63 functions, 64 slots a frame are 4,096
        true => rng.pick(&[62, 63, 64, 64, 64, 65]),
        false => rng.pick(&[0, 1, 2, 5]),
    };
    let each = rng.range(20, 32);
    let load = Load { values, each };
    let mut program = Program {
        edition,
        constants: vec![Constant {
            ty: u32::from(INT),
            payload: 1,
        }],
        ..Program::default()
    };
    // now and then the chain does not begin at the entry, or ends before the last function
    let last = functions - rng.pick(&[1, 1, 1, 2]);
    if rng.percent(80) {
        program.entry = instrs(&frame(&load, edition, 0, Some(0)));
    }
    for n in 0..functions {
        let next = (n < last).then_some(n as u32 + 1);
        // a number more, for a need that is no product
        let parameters = usize::from(rng.one_in(40));
        let mut code = frame(&load, edition, parameters as u32, next);
        code.push((Op::Ret, 0));
        program.functions.push(Routine {
            parameters: vec![INT; parameters],
            code: instrs(&code),
            ..Routine::default()
        });
    }
    give_arguments(&mut program);
    program
}

/// A body that pushes its slots, binds some over them, and calls the next.
fn frame(load: &Load, edition: Edition, first: u32, next: Option<u32>) -> Vec<(Op, u32)> {
    let mut code = Vec::new();
    let (mut local, mut over) = (first, 0);
    for _ in 0..load.values {
        let again = over > 0 && edition != Edition::One;
        code.push(if again { (Op::Copy, 0) } else { (Op::Push, 0) });
        over += 1;
        if over == load.each {
            code.push((Op::Store, local));
            (local, over) = (local + 1, 0);
        }
    }
    code.extend(next.map(|next| (Op::Call, next)));
    code
}

/// Pushes an argument before each call that takes one.
fn give_arguments(program: &mut Program) {
    let takes: Vec<usize> = program
        .functions
        .iter()
        .map(|f| f.parameters.len())
        .collect();
    for owner in program.owners() {
        let code = program.body_mut(owner);
        let Some(at) = code.iter().position(|instr| instr.op == Op::Call) else {
            continue;
        };
        let count = takes[code[at].operand as usize];
        let push = instrs(&[(Op::Push, 0)])[0];
        code.splice(at..at, vec![push; count]);
    }
}

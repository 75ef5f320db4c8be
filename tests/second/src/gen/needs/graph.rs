//! Many small functions that call each other, numbered in any order: without a ring, with one, or with
//! one in dead code.

use super::order;
use crate::gen::loose::instrs;
use crate::gen::rng::Rng;
use crate::opcode::{Edition, Op};
use crate::program::{Constant, Program, Routine};
use crate::reader::ENTRY;
use crate::types::INT;

pub fn program(rng: &mut Rng, edition: Edition) -> Program {
    let count = rng.pick(&[2, 3, 5, 10, 20, 40, 80, 128]);
    let ranks = order(rng, count);
    let mut program = Program {
        edition,
        constants: vec![Constant {
            ty: u32::from(INT),
            payload: 1,
        }],
        ..Program::default()
    };
    for _ in 0..count {
        program.functions.push(Routine {
            parameters: vec![INT; rng.pick(&[0, 0, 1, 2])],
            returns: rng.pick(&[0, 0, INT]),
            ..Routine::default()
        });
    }
    // a function that calls back, in reached code or in dead code
    let some = [rng.below(count), count - 1];
    let back = rng.one_in(2).then(|| rng.pick(&some));
    let dead = rng.one_in(2);
    let most = rng.pick(&[1, 2, 3]);
    for owner in program.owners() {
        let calls = callees(rng, &ranks, owner, most);
        let back = back.filter(|&n| n as u32 == owner).map(|n| (n, dead));
        let code = body(rng, &program.functions, owner, &calls, back, &ranks);
        *program.body_mut(owner) = instrs(&code);
    }
    program
}

/// Up to so many functions of a higher rank, the next one often; any for the entry.
fn callees(rng: &mut Rng, ranks: &[usize], owner: u32, most: usize) -> Vec<usize> {
    let own = ranks.get(owner as usize);
    let higher = |&n: &usize| own.is_none_or(|&rank| ranks[n] > rank);
    let later: Vec<usize> = (0..ranks.len()).filter(higher).collect();
    if later.is_empty() || owner == ENTRY && rng.one_in(4) {
        return Vec::new();
    }
    let next = later.iter().min_by_key(|&&n| ranks[n]).copied();
    let some = (0..rng.below(most + 1)).map(|_| rng.pick(&later));
    let mut calls: Vec<usize> = some.collect();
    calls.extend(next.filter(|_| rng.percent(70)));
    calls
}

/// Calls over some values, then what the function returns; and a call back.
fn body(
    rng: &mut Rng,
    functions: &[Routine],
    owner: u32,
    calls: &[usize],
    back: Option<(usize, bool)>,
    ranks: &[usize],
) -> Vec<(Op, u32)> {
    let mut code = Vec::new();
    for &callee in calls {
        call(rng, functions, callee, &mut code);
    }
    let earlier = back.map(|(n, dead)| {
        let lower: Vec<usize> = (0..ranks.len()).filter(|&m| ranks[m] <= ranks[n]).collect();
        let some = [rng.pick(&lower), n];
        (rng.pick(&some), dead)
    });
    if let Some((callee, false)) = earlier {
        call(rng, functions, callee, &mut code);
    }
    if let Some(function) = functions.get(owner as usize) {
        if function.returns != 0 {
            code.push((Op::Push, 0));
        }
        code.push((Op::Ret, 0));
    }
    if let Some((callee, true)) = earlier {
        code.push((Op::Call, callee as u32));
    }
    code
}

/// A call over up to two values, which stay or not.
fn call(rng: &mut Rng, functions: &[Routine], callee: usize, code: &mut Vec<(Op, u32)>) {
    let under = rng.pick(&[0, 0, 1, 2]);
    let arguments = functions[callee].parameters.len();
    code.extend(vec![(Op::Push, 0); under + arguments]);
    code.push((Op::Call, callee as u32));
    if rng.percent(70) {
        let value = usize::from(functions[callee].returns != 0);
        code.extend(vec![(Op::Pop, 0); under + value]);
    }
}

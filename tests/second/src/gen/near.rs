//! Near misses: a well-typed program with one thing changed.

use super::constants::constant;
use super::rng::Rng;
use super::structures::{self, fields};
use crate::opcode::Edition;
use crate::opcode::Op;
use crate::program::{Instr, Mark, Program};
use crate::reader::ENTRY;
use crate::types::{GCNULL, MANAGED_TO, NULL, NUMBERS, POINTER_TO, STRUCTURE};

/// Changes one operand, opcode, label, type or constant.
pub fn change(rng: &mut Rng, program: &mut Program) {
    match rng.below(16) {
        0..=3 => operand(rng, program),
        4..=6 => opcode(rng, program),
        7 => insert(rng, program),
        8 => remove(rng, program),
        9 => exchange(rng, program),
        10 | 11 => label(rng, program),
        12 => parameters(rng, program),
        13 => returns(rng, program),
        14 if !program.structures.is_empty() && rng.percent(60) => structure(rng, program),
        14 => constant_type(rng, program),
        _ => call_or_jump(rng, program),
    }
}

/// A body that has instructions, and the index of one of them.
fn spot(rng: &mut Rng, program: &Program) -> Option<(u32, usize)> {
    let owners: Vec<u32> = program.owners();
    let full: Vec<u32> = owners
        .into_iter()
        .filter(|&owner| !program.body(owner).is_empty())
        .collect();
    if full.is_empty() {
        return None;
    }
    let owner = rng.pick(&full);
    let index = rng.below(program.body(owner).len());
    Some((owner, index))
}

fn new_operand(rng: &mut Rng, old: u32) -> u32 {
    match rng.below(8) {
        0..=2 => old.wrapping_add(1),
        3 | 4 => old.wrapping_sub(1),
        5 | 6 => rng.below(20) as u32,
        _ => rng.any() as u32,
    }
}

fn operand(rng: &mut Rng, program: &mut Program) {
    let with_operand: Vec<(u32, usize)> = program
        .owners()
        .into_iter()
        .flat_map(|owner| {
            let code = program.body(owner).iter().enumerate();
            code.filter(|(_, instr)| instr.op.has_operand())
                .map(|(index, _)| (owner, index))
                .collect::<Vec<_>>()
        })
        .collect();
    if with_operand.is_empty() {
        return;
    }
    let (owner, index) = rng.pick(&with_operand);
    let instr = &mut program.body_mut(owner)[index];
    instr.operand = new_operand(rng, instr.operand);
}

fn opcode(rng: &mut Rng, program: &mut Program) {
    if let Some((owner, index)) = spot(rng, program) {
        let ops = program.edition.ops();
        let instr = &mut program.body_mut(owner)[index];
        let alike: Vec<Op> = ops
            .into_iter()
            .filter(|op| op.has_operand() == instr.op.has_operand())
            .collect();
        instr.op = rng.pick(&alike);
    }
}

fn insert(rng: &mut Rng, program: &mut Program) {
    if let Some((owner, index)) = spot(rng, program) {
        let op = rng.pick(&program.edition.ops());
        let operand = rng.below(6) as u32;
        program.body_mut(owner).insert(index, Instr { op, operand });
        move_labels(program, owner, index, 1);
    }
}

fn remove(rng: &mut Rng, program: &mut Program) {
    if let Some((owner, index)) = spot(rng, program) {
        program.body_mut(owner).remove(index);
        move_labels(program, owner, index, -1);
    }
}

/// Keeps labels on their instructions after an insertion or a removal.
pub(super) fn move_labels(program: &mut Program, owner: u32, index: usize, by: isize) {
    for mark in &mut program.labels {
        if mark.owner == owner && mark.index > index {
            mark.index = mark.index.saturating_add_signed(by);
        }
    }
}

fn exchange(rng: &mut Rng, program: &mut Program) {
    if let Some((owner, index)) = spot(rng, program) {
        let code = program.body_mut(owner);
        let other = (index + 1) % code.len();
        code.swap(index, other);
    }
}

/// Another place, another owner, or the body's end.
fn label(rng: &mut Rng, program: &mut Program) {
    if program.labels.is_empty() {
        program.labels.push(Mark {
            owner: ENTRY,
            index: 0,
        });
    }
    let n = rng.below(program.labels.len());
    let owners = program.owners();
    let old = program.labels[n];
    let owner = if rng.one_in(4) {
        rng.pick(&owners)
    } else {
        old.owner
    };
    let length = program.body(owner).len();
    let index = match rng.below(8) {
        0..=2 => old.index + 1,
        3 | 4 => old.index.saturating_sub(1),
        5 => length,
        _ => rng.below(length),
    };
    program.labels[n] = Mark { owner, index };
}

fn parameters(rng: &mut Rng, program: &mut Program) {
    if program.functions.is_empty() {
        return operand(rng, program);
    }
    let n = rng.below(program.functions.len());
    // a pointer in edition 1 is 7, which is wanted now and then
    let old = program.edition == Edition::One && !rng.one_in(4);
    let types = if old {
        NUMBERS.to_vec()
    } else {
        wrong_types(rng, program)
    };
    let types = &types;
    let list = &mut program.functions[n].parameters;
    match rng.below(4) {
        0 if list.len() < 8 => list.push(rng.pick(types)),
        1 => drop(list.pop()),
        2 => list.reverse(),
        _ if !list.is_empty() => {
            let k = rng.below(list.len());
            list[k] = rng.pick(types);
        }
        _ => {}
    }
}

/// Types of parameters, in edition 4 now and then one that is no such type.
fn wrong_types(rng: &mut Rng, program: &Program) -> Vec<u8> {
    let edition = match program.edition {
        Edition::One => Edition::Three,
        edition => edition,
    };
    let count = program.structures.len();
    let mut types = structures::parameters(edition, count);
    if program.edition.has_heap() && rng.one_in(3) {
        let next = STRUCTURE + count as u8;
        types = vec![NULL, POINTER_TO | next, 0x9A];
        types.extend([GCNULL, MANAGED_TO | next, 0xC7, 0xDA, 0x43]);
    }
    types
}

fn returns(rng: &mut Rng, program: &mut Program) {
    if program.functions.is_empty() {
        return opcode(rng, program);
    }
    let n = rng.below(program.functions.len());
    let count = program.structures.len();
    let returns = structures::returns(rng, program.edition, count);
    program.functions[n].returns = if program.edition.has_heap() && rng.one_in(3) {
        let next = STRUCTURE + count as u8;
        let plain = [0x80, 0x83, 0x86, 0x8A, POINTER_TO | next, 0x99];
        let managed = [0xC0, 0xC3, 0xC4, 0xC6, 0xCA, MANAGED_TO | next, 0xD9];
        rng.pick(&[&plain[..], &managed].concat())
    } else {
        returns
    };
}

/// Other fields, a field more or less, or a structure more or less.
fn structure(rng: &mut Rng, program: &mut Program) {
    let n = rng.below(program.structures.len());
    match rng.below(5) {
        0 => program.structures[n] = fields(rng),
        1 if program.structures[n].len() < 8 => program.structures[n].push(rng.pick(&NUMBERS)),
        2 if program.structures[n].len() > 1 => drop(program.structures[n].pop()),
        3 => drop(program.structures.pop()),
        _ => program.structures[n].reverse(),
    }
}

fn constant_type(rng: &mut Rng, program: &mut Program) {
    if program.constants.is_empty() {
        return;
    }
    let n = rng.below(program.constants.len());
    let ty = rng.pick(&NUMBERS);
    program.constants[n] = constant(rng, ty);
}

/// A jump, a call or a `ret` where none was.
fn call_or_jump(rng: &mut Rng, program: &mut Program) {
    if let Some((owner, index)) = spot(rng, program) {
        let (labels, functions) = (program.labels.len(), program.functions.len());
        let (op, count) = rng.pick(&[(Op::Jmp, labels), (Op::Call, functions), (Op::Ret, 0)]);
        let operand = rng.below(count + 1) as u32;
        program.body_mut(owner)[index] = Instr { op, operand };
    }
}

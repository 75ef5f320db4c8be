//! Edits of one body, which leave what other bodies' typings depend on; and changes that do not.
//!
//! "... for a module with the same edition, signatures, constant types, structures and other bodies,
//! their labels the same by number and place within."

use super::constants::payload;
use super::near::{self, move_labels};
use super::profiles::profile;
use super::rng::Rng;
use crate::opcode::{Edition, Op};
use crate::program::{Instr, Mark, Program, Routine};

/// Changes the code of one body, its own labels, or both; `original`: what it may be given back.
pub fn edit(rng: &mut Rng, program: &mut Program, owner: u32, original: &Program) {
    match rng.below(20) {
        0..=3 => detour(rng, program, owner),
        4..=7 => restore(program, owner, original),
        8..=10 => spoil(rng, program, owner),
        11 => operand(rng, program, owner),
        12 => opcode(rng, program, owner),
        13 => insert(rng, program, owner),
        14 => remove(rng, program, owner),
        15 | 16 => stub(rng, program, owner),
        17 => move_label(rng, program, owner),
        18 => add_label(rng, program, owner),
        _ => call_or_jump(rng, program, owner),
    }
    if !rng.one_in(12) {
        keep_labels_inside(program, owner);
    }
}

/// The index of an instruction, if there is one.
fn spot(rng: &mut Rng, program: &Program, owner: u32) -> Option<usize> {
    let length = program.body(owner).len();
    (length > 0).then(|| rng.below(length))
}

fn put(program: &mut Program, owner: u32, index: usize, op: Op, operand: u32) {
    program.body_mut(owner).insert(index, Instr { op, operand });
    move_labels(program, owner, index, 1);
}

/// A constant that is pushed and popped: longer, with the same typing.
fn detour(rng: &mut Rng, program: &mut Program, owner: u32) {
    let index = rng.below(program.body(owner).len() + 1);
    if program.constants.is_empty() {
        return;
    }
    let constant = rng.below(program.constants.len()) as u32;
    for _ in 0..rng.pick(&[1, 1, 1, 2, 20]) {
        put(program, owner, index, Op::Pop, 0);
        put(program, owner, index, Op::Push, constant);
    }
}

/// The body and the places of its labels as they were at first.
fn restore(program: &mut Program, owner: u32, original: &Program) {
    *program.body_mut(owner) = original.body(owner).to_vec();
    for (mark, old) in program.labels.iter_mut().zip(&original.labels) {
        if mark.owner == owner && old.owner == owner {
            mark.index = old.index;
        }
    }
    while program.labels.len() > original.labels.len() {
        // a label that the body was given
        if program.labels.pop_if(|mark| mark.owner == owner).is_none() {
            break;
        }
    }
}

/// Something in front that a typing mostly does not pass, or an end that is gone.
pub fn spoil(rng: &mut Rng, program: &mut Program, owner: u32) {
    let length = program.body(owner).len();
    match rng.below(6) {
        0 if length > 1 => {
            program.body_mut(owner).pop();
        }
        1 => put(program, owner, 0, Op::Add, 0),
        2 => put(program, owner, 0, Op::Load, 16),
        3 => put(program, owner, 0, Op::Call, program.functions.len() as u32),
        _ => put(program, owner, 0, Op::Pop, 0),
    }
}

/// Another operand: the same length.
fn operand(rng: &mut Rng, program: &mut Program, owner: u32) {
    let Some(index) = spot(rng, program, owner) else {
        return;
    };
    let instr = &mut program.body_mut(owner)[index];
    instr.operand = match rng.below(4) {
        0 => instr.operand.wrapping_add(1),
        1 => instr.operand.wrapping_sub(1),
        2 => rng.below(8) as u32,
        _ => rng.any() as u32,
    };
}

/// Another opcode, mostly of the same length.
fn opcode(rng: &mut Rng, program: &mut Program, owner: u32) {
    let Some(index) = spot(rng, program, owner) else {
        return;
    };
    let any = rng.one_in(4);
    let ops = program.edition.ops().into_iter();
    let instr = &mut program.body_mut(owner)[index];
    let alike: Vec<Op> = ops
        .filter(|op| any || op.has_operand() == instr.op.has_operand())
        .collect();
    instr.op = rng.pick(&alike);
}

fn insert(rng: &mut Rng, program: &mut Program, owner: u32) {
    let index = rng.below(program.body(owner).len() + 1);
    let op = rng.pick(&program.edition.ops());
    put(program, owner, index, op, rng.below(6) as u32);
}

fn remove(rng: &mut Rng, program: &mut Program, owner: u32) {
    if let Some(index) = spot(rng, program, owner) {
        program.body_mut(owner).remove(index);
        move_labels(program, owner, index, -1);
    }
}

/// As short a body as its signature allows, with a typing where it is known how.
fn stub(rng: &mut Rng, program: &mut Program, owner: u32) {
    let of = |op, operand: usize| Instr {
        op,
        operand: operand as u32,
    };
    let code = match program.functions.get(owner as usize) {
        None if rng.one_in(2) => vec![],
        None if program.constants.is_empty() => vec![],
        None => vec![of(Op::Push, 0)],
        Some(function) if function.returns == 0 => vec![of(Op::Ret, 0)],
        Some(function) => {
            let ty = function.returns;
            let local = function.parameters.iter().position(|&own| own == ty);
            let constant = program.constants.iter().position(|c| c.ty == u32::from(ty));
            let value = match (local, constant) {
                (Some(n), _) => of(Op::Load, n),
                (None, Some(n)) => of(Op::Push, n),
                (None, None) => of(Op::Load, 0),
            };
            vec![value, of(Op::Ret, 0)]
        }
    };
    *program.body_mut(owner) = code;
}

fn move_label(rng: &mut Rng, program: &mut Program, owner: u32) {
    let length = program.body(owner).len();
    let own = program.labels.iter().enumerate();
    let own: Vec<usize> = own
        .filter(|(_, mark)| mark.owner == owner)
        .map(|(n, _)| n)
        .collect();
    if !own.is_empty() {
        program.labels[rng.pick(&own)].index = rng.below(length + 1);
    }
}

/// A label more, which has the last number, and perhaps a way to it.
fn add_label(rng: &mut Rng, program: &mut Program, owner: u32) {
    if program.labels.len() >= 200 {
        return;
    }
    let number = program.labels.len() as u32;
    let index = rng.below(program.body(owner).len() + 1);
    if rng.one_in(2) {
        put(program, owner, index, Op::Jmp, number);
    }
    let index = rng.below(program.body(owner).len());
    program.labels.push(Mark { owner, index });
}

/// A jump, a call or a `ret` where none was.
fn call_or_jump(rng: &mut Rng, program: &mut Program, owner: u32) {
    if let Some(index) = spot(rng, program, owner) {
        let (labels, functions) = (program.labels.len(), program.functions.len());
        let (op, count) = rng.pick(&[(Op::Jmp, labels), (Op::Call, functions), (Op::Ret, 0)]);
        let operand = rng.below(count + 1) as u32;
        program.body_mut(owner)[index] = Instr { op, operand };
    }
}

/// Labels of the body on its last instruction that would be past it.
fn keep_labels_inside(program: &mut Program, owner: u32) {
    let length = program.body(owner).len();
    for mark in &mut program.labels {
        if mark.owner == owner && mark.index >= length {
            mark.index = length.saturating_sub(1);
        }
    }
}

/// Other payloads of constants, "constant types" apart.
pub fn change_constants(rng: &mut Rng, program: &mut Program) {
    for constant in &mut program.constants {
        if rng.one_in(2) {
            constant.payload = payload(rng, constant.ty as u8);
        }
    }
}

/// Other profiles, where the edition has them: a record stays good.
pub fn change_profiles(rng: &mut Rng, program: &mut Program) {
    if program.edition.has_profiles() {
        for function in &mut program.functions {
            function.profile = profile(rng);
        }
    }
}

/// Something that other bodies' typings depend on, their code, or the count of bodies.
pub fn change_more(rng: &mut Rng, program: &mut Program) {
    match rng.below(10) {
        0 => program.functions.push(Routine {
            code: vec![Instr {
                op: Op::Ret,
                operand: 0,
            }],
            ..Routine::default()
        }),
        1 => {
            let number = (program.functions.len() as u32).wrapping_sub(1);
            if program.labels.iter().all(|mark| mark.owner != number) {
                program.functions.pop();
            }
        }
        2 if program.fits(Edition::Three) => program.edition = Edition::Three,
        3 => {
            if program.edition == Edition::Three {
                program.edition = Edition::Four;
            }
        }
        _ => {
            for _ in 0..rng.pick(&[1, 2, 3, 6]) {
                near::change(rng, program);
            }
        }
    }
}

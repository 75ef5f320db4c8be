//! Programs of edition 4 about their heap: blocks that are given, filled, followed, taken back in
//! any order, so that holes arise, and given again. `program` has a typing; `astray` is a
//! program with instructions that need not have one; `filled` repeats `new` until nothing is left.

use super::constants::{self, pool};
use super::loose::instrs;
use super::rng::Rng;
use super::structures::{blocks, fields};
use crate::opcode::{Edition, Op};
use crate::program::{Constant, Mark, Program, Routine};
use crate::reader::ENTRY;
use crate::types::{DOUBLE, INT, LONG, NUMBERS, POINTER_TO, STRUCTURE};

/// The entry while it is written. Between its pieces there are no operands.
struct Writer {
    program: Program,
    code: Vec<(Op, u32)>,
    /// The type number of the block that each local points to, and whether it is live as far as
    /// can be told.
    locals: Vec<(u32, bool)>,
    /// Follow pointers that are not live, now and then.
    wild: bool,
}

/// Constants 0, 1, 2 are an int, a long and a double.
pub(super) fn start(rng: &mut Rng) -> Program {
    let of_type = |ty| constants::constant(rng, ty);
    let mut constants: Vec<Constant> = [INT, LONG, DOUBLE].map(of_type).to_vec();
    constants.extend(pool(rng, 0));
    constants.push(Constant {
        ty: u32::from(INT),
        payload: rng.range(1, 12) as u64,
    });
    Program {
        edition: Edition::Four,
        constants,
        structures: (0..rng.range(1, 4)).map(|_| fields(rng)).collect(),
        ..Program::default()
    }
}

/// The constant of a number type.
pub(super) fn constant(ty: u8) -> u32 {
    match ty {
        INT => 0,
        LONG => 1,
        _ => 2,
    }
}

/// The number of the constant that is a small int.
pub(super) const SMALL: u32 = 9;

pub fn program(rng: &mut Rng) -> Program {
    let pieces = rng.pick(&[2, 6, 12, 25, 50]);
    written(rng, pieces)
}

fn written(rng: &mut Rng, pieces: usize) -> Program {
    let mut writer = Writer {
        program: start(rng),
        code: Vec::new(),
        locals: Vec::new(),
        wild: rng.one_in(2),
    };
    writer.functions(rng);
    for _ in 0..rng.range(1, 10) {
        writer.bind(rng);
    }
    for _ in 0..pieces {
        writer.piece(rng);
    }
    // a label can't be on the entry's end
    writer.code.extend([(Op::Null, 0), (Op::Pop, 0)]);
    writer.program.entry = instrs(&writer.code);
    writer.program
}

impl Writer {
    /// The field types of a local's structure, or nothing for a number.
    fn fields(&self, ty: u32) -> Option<&Vec<u8>> {
        let n = ty.checked_sub(u32::from(STRUCTURE))?;
        self.program.structures.get(n as usize)
    }

    /// Functions 0 and 1: one fills a structure's fields, one gives a new one.
    fn functions(&mut self, rng: &mut Rng) {
        let n = rng.below(self.program.structures.len()) as u8;
        let ty = POINTER_TO | (STRUCTURE + n);
        let mut fill = Vec::new();
        for (field, &number) in self.program.structures[usize::from(n)].iter().enumerate() {
            fill.extend([(Op::Load, 0), (Op::Flea, field as u32)]);
            fill.extend([(Op::Push, constant(number)), (Op::Tstore, 0)]);
        }
        fill.push((Op::Ret, 0));
        self.program.functions.push(Routine {
            parameters: vec![ty],
            returns: 0,
            code: instrs(&fill),
            ..Routine::default()
        });
        let give = [(Op::New, u32::from(STRUCTURE + n)), (Op::Ret, 0)];
        self.program.functions.push(Routine {
            parameters: Vec::new(),
            returns: ty,
            code: instrs(&give),
            ..Routine::default()
        });
    }

    /// One more local, a pointer to a new block.
    fn bind(&mut self, rng: &mut Rng) {
        let ty = rng.pick(&blocks(self.program.structures.len()));
        let n = self.locals.len() as u32;
        self.code.extend([(Op::New, ty), (Op::Store, n)]);
        self.locals.push((ty, true));
    }

    /// A local that may be followed.
    fn some(&self, rng: &mut Rng) -> Option<usize> {
        let live: Vec<usize> = (0..self.locals.len())
            .filter(|&n| self.locals[n].1)
            .collect();
        if live.is_empty() || self.wild && rng.one_in(8) {
            return self.wild.then(|| rng.below(self.locals.len()));
        }
        Some(rng.pick(&live))
    }

    fn piece(&mut self, rng: &mut Rng) {
        match rng.below(20) {
            0..=3 => self.take_back(rng),
            4..=7 => self.give_again(rng),
            8..=11 => self.follow(rng),
            12 | 13 => self.compare(rng),
            14 => self.guarded(rng),
            15 => self.call(rng),
            16 | 17 => self.holes(rng),
            18 => self.leak(rng),
            _ => self.share(rng),
        }
    }

    fn take_back(&mut self, rng: &mut Rng) {
        if let Some(n) = self.some(rng) {
            self.code.extend([(Op::Load, n as u32), (Op::Delete, 0)]);
            self.locals[n].1 = false;
        }
    }

    fn give_again(&mut self, rng: &mut Rng) {
        let gone: Vec<usize> = (0..self.locals.len())
            .filter(|&n| !self.locals[n].1)
            .collect();
        let n = if gone.is_empty() || rng.one_in(8) {
            rng.below(self.locals.len())
        } else {
            rng.pick(&gone)
        };
        let ty = self.locals[n].0;
        self.code.extend([(Op::New, ty), (Op::Store, n as u32)]);
        self.locals[n].1 = true;
    }

    /// A pointer to a number on top: a number's block, or a field.
    fn number(&mut self, rng: &mut Rng, n: usize) -> u8 {
        let ty = self.locals[n].0;
        self.code.push((Op::Load, n as u32));
        let Some(fields) = self.fields(ty).cloned() else {
            return ty as u8;
        };
        let field = rng.below(fields.len());
        self.code.push((Op::Flea, field as u32));
        fields[field]
    }

    /// Stores, loads, or changes a number in a block.
    fn follow(&mut self, rng: &mut Rng) {
        let Some(n) = self.some(rng) else {
            return;
        };
        let ty = self.number(rng, n);
        match rng.below(5) {
            0 | 1 => self
                .code
                .extend([(Op::Push, constant(ty)), (Op::Tstore, 0)]),
            2 | 3 => self.code.extend([(Op::Tload, 0), (Op::Pop, 0)]),
            _ => self.code.push((rng.pick(&[Op::Inc, Op::Dec]), 0)),
        }
    }

    /// Compares pointers of any types, null among them.
    fn compare(&mut self, rng: &mut Rng) {
        for _ in 0..2 {
            let n = rng.below(self.locals.len()) as u32;
            self.code.push(rng.pick(&[
                (Op::Load, n),
                (Op::Load, n),
                (Op::Null, 0),
                (Op::New, u32::from(INT)),
            ]));
        }
        let op = rng.pick(&[Op::Cmp, Op::Icmp]);
        self.code.extend([(op, 0), (Op::Pop, 0)]);
    }

    /// Follows a pointer unless it is null.
    fn guarded(&mut self, rng: &mut Rng) {
        let label = self.program.labels.len() as u32;
        let n = rng.below(self.locals.len());
        if !self.locals[n].1 && !self.wild {
            return;
        }
        self.code.extend([
            (Op::Load, n as u32),
            (Op::Null, 0),
            (Op::Cmp, 0),
            (Op::Je, label),
        ]);
        self.number(rng, n);
        self.code.extend([(Op::Tload, 0), (Op::Pop, 0)]);
        self.program.labels.push(Mark {
            owner: ENTRY,
            index: self.code.len(),
        });
    }

    /// A block of function 1, which function 0 fills.
    fn call(&mut self, rng: &mut Rng) {
        self.code.push((Op::Call, 1));
        if rng.percent(50) {
            self.code.push((Op::Copy, 0));
            self.code.push((Op::Call, 0));
        }
        self.code.push((rng.pick(&[Op::Delete, Op::Pop]), 0));
    }

    /// Some blocks, of which some are taken back: the others stay, and no pointer to them.
    fn holes(&mut self, rng: &mut Rng) {
        let count = rng.range(2, 10);
        for _ in 0..count {
            let ty = rng.pick(&blocks(self.program.structures.len()));
            self.code.push((Op::New, ty));
        }
        for _ in 0..count {
            self.code
                .push((rng.pick(&[Op::Delete, Op::Delete, Op::Pop]), 0));
        }
    }

    /// `new` some times over, counted down in a block of its own.
    fn leak(&mut self, rng: &mut Rng) {
        if self.locals.len() >= 15 || rng.percent(50) {
            return;
        }
        let (n, label) = (self.locals.len() as u32, self.program.labels.len() as u32);
        self.code
            .extend([(Op::New, u32::from(INT)), (Op::Store, n)]);
        self.locals.push((u32::from(INT), true));
        self.code
            .extend([(Op::Load, n), (Op::Push, SMALL), (Op::Tstore, 0)]);
        self.program.labels.push(Mark {
            owner: ENTRY,
            index: self.code.len(),
        });
        let ty = rng.pick(&blocks(self.program.structures.len()));
        self.code.extend([(Op::New, ty), (Op::Pop, 0)]);
        self.code.extend([(Op::Load, n), (Op::Dec, 0)]);
        self.code
            .extend([(Op::Load, n), (Op::Tload, 0), (Op::Jne, label)]);
    }

    /// Two locals with one block, where their types allow it.
    fn share(&mut self, rng: &mut Rng) {
        let (n, other) = (rng.below(self.locals.len()), rng.below(self.locals.len()));
        if self.locals[n].0 == self.locals[other].0 && self.locals[n].1 {
            self.code
                .extend([(Op::Load, n as u32), (Op::Store, other as u32)]);
            self.locals[other] = self.locals[n];
            if n != other {
                // what is taken back through one is gone for the other
                self.locals[other].1 = self.wild;
            }
        }
    }
}

/// A program with something at its end that need not have a typing, or that raises.
pub fn astray(rng: &mut Rng) -> Program {
    let pieces = rng.pick(&[0, 0, 1, 4]);
    let mut program = written(rng, pieces);
    let mut code = Vec::new();
    for _ in 0..rng.range(1, 3) {
        code.extend(stray(rng, &program));
    }
    program.entry.extend(instrs(&code));
    program
}

/// A few instructions, each of which shows an exception or an order of exceptions.
fn stray(rng: &mut Rng, program: &Program) -> Vec<(Op, u32)> {
    let structure = u32::from(STRUCTURE) + rng.below(program.structures.len()) as u32;
    let number = u32::from(rng.pick(&NUMBERS));
    let past = rng.pick(&[7, 8, 9, 255, 65_535, u32::MAX]);
    let push = (Op::Push, rng.below(10) as u32);
    let follow = rng.pick(&[Op::Tload, Op::Inc, Op::Dec, Op::Delete, Op::Tstore]);
    let local = (Op::Load, rng.below(3) as u32);
    match rng.below(16) {
        0 => vec![(Op::New, structure), (follow, 0)],
        1 => vec![(Op::New, structure), push, (Op::Tstore, 0)],
        2 => vec![(Op::New, structure), (Op::Null, 0), (Op::Tstore, 0)],
        3 => vec![(Op::Null, 0), (follow, 0)],
        4 => vec![(Op::Null, 0), push, (Op::Tstore, 0)],
        5 => vec![(Op::Null, 0), (Op::Flea, past)],
        6 => vec![(Op::New, structure), (Op::Flea, past)],
        7 => vec![(Op::New, number), (Op::Flea, rng.pick(&[0, past]))],
        8 => vec![
            (Op::New, structure),
            (Op::Flea, 0),
            (Op::Flea, rng.pick(&[0, past])),
        ],
        9 => vec![(Op::New, structure), (Op::Flea, 0), (Op::Delete, 0)],
        10 => vec![local, (Op::Delete, 0), local, (Op::Delete, 0)],
        11 => vec![
            local,
            (Op::Delete, 0),
            (Op::New, structure),
            local,
            (Op::Flea, 0),
        ],
        12 => vec![(Op::Lea, 0), (Op::Flea, rng.pick(&[0, past]))],
        13 => vec![
            (Op::Lea, 0),
            rng.pick(&[(Op::Delete, 0), (Op::Tload, 0), (Op::Inc, 0)]),
        ],
        14 => vec![rng.pick(&[(Op::Null, 0), local]), (Op::Call, 0)],
        _ => vec![push, push, (Op::New, rng.pick(&[256 + number, 7, past]))],
    }
}

/// `new` over and over: the pointers stay on the stack, or are dropped, or every other block is
/// taken back; then there is no cell left, or no step.
pub fn filled(rng: &mut Rng) -> Program {
    let mut program = start(rng);
    let all = blocks(program.structures.len());
    let mut code = Vec::new();
    for _ in 0..rng.range(1, 4) {
        code.push((Op::New, rng.pick(&all)));
        match rng.below(4) {
            0 => code.push((Op::Pop, 0)),
            1 => code.push((Op::Delete, 0)),
            2 => code.extend([(Op::New, rng.pick(&all)), (Op::Delete, 0), (Op::Pop, 0)]),
            _ => {}
        }
    }
    code.push((Op::Jmp, 0));
    program.labels.push(Mark {
        owner: ENTRY,
        index: 0,
    });
    program.entry = instrs(&code);
    program
}

//! Modules with a typing whose bodies bury slots, meet with different numbers of them, and call each
//! other under operands and locals.

use super::order;
use crate::gen::loose::instrs;
use crate::gen::rng::Rng;
use crate::opcode::{Edition, Op};
use crate::program::{Constant, Mark, Program, Routine};
use crate::reader::ENTRY;
use crate::types::{DOUBLE, INT, LONG, NUMBERS};

/// Constants by number: three ints that go each way of a branch, a long, a double.
const CONSTANTS: [(u8, u64); 5] = [
    (INT, 0),
    (INT, 1),
    (INT, 0xFFFF_FFFF),
    (LONG, 5),
    (DOUBLE, 0x3FF8_0000_0000_0000),
];

const CONDITIONS: [Op; 6] = [Op::Je, Op::Jne, Op::Ja, Op::Jae, Op::Jb, Op::Jbe];

/// Operands that a body has at most between pieces, and locals.
const MOST_OPERANDS: usize = 14;
const MOST_LOCALS: usize = 16;

/// A body while it is written.
struct Body<'a> {
    edition: Edition,
    owner: u32,
    functions: &'a [Routine],
    /// By function: calls of higher ranks never come back.
    ranks: &'a [usize],
    /// May calls that are reached come back?
    rings: bool,
    locals: Vec<u8>,
    operands: Vec<u8>,
    code: Vec<(Op, u32)>,
    /// Where the body's labels lie; branches have their index as operand.
    marks: Vec<usize>,
}

pub fn program(rng: &mut Rng, edition: Edition, rings: bool) -> Program {
    let mut program = Program {
        edition,
        ..Program::default()
    };
    for (ty, payload) in CONSTANTS {
        let ty = u32::from(ty);
        program.constants.push(Constant { ty, payload });
    }
    for _ in 0..rng.pick(&[0, 1, 2, 3, 3, 4, 5, 7, 9]) {
        program.functions.push(routine(rng));
    }
    let functions = program.functions.clone();
    let ranks = order(rng, functions.len());
    let pieces = rng.pick(&[1, 2, 4, 7, 10]);
    for owner in program.owners() {
        let parameters = functions.get(owner as usize).map(|f| f.parameters.clone());
        let mut body = Body {
            edition,
            owner,
            functions: &functions,
            ranks: &ranks,
            rings,
            locals: parameters.unwrap_or_default(),
            operands: Vec::new(),
            code: Vec::new(),
            marks: Vec::new(),
        };
        body.write(rng, pieces);
        body.add_to(&mut program);
    }
    program
}

/// A function of up to four numbers, now and then of eight.
fn routine(rng: &mut Rng) -> Routine {
    let count = rng.pick(&[0, 0, 1, 1, 2, 3, 4, 8]);
    Routine {
        parameters: (0..count).map(|_| rng.pick(&NUMBERS)).collect(),
        returns: rng.pick(&[0, INT, LONG]),
        ..Routine::default()
    }
}

impl Body<'_> {
    fn write(&mut self, rng: &mut Rng, pieces: usize) {
        for _ in 0..rng.range(0, pieces) {
            self.piece(rng);
        }
        let function = self.functions.get(self.owner as usize);
        let Some(returns) = function.map(|f| f.returns) else {
            // a label can't be on the entry's end
            if self.marks.contains(&self.code.len()) {
                self.push(rng, INT);
            }
            return;
        };
        if rng.one_in(8) {
            // never returns
            let label = self.label();
            self.place(label);
            return self.code.push((Op::Jmp, label));
        }
        if returns != 0 {
            self.push(rng, returns);
        }
        self.code.push((Op::Ret, 0));
        if rng.one_in(5) {
            self.dead(rng);
            self.code.push((Op::Ret, 0));
        }
    }

    /// Puts the code and the labels into the program, numbered over the module.
    fn add_to(mut self, program: &mut Program) {
        let base = program.labels.len() as u32;
        for (op, operand) in &mut self.code {
            if op.has_label() {
                *operand += base;
            }
        }
        let owner = self.owner;
        let marks = self.marks.iter().map(|&index| Mark { owner, index });
        program.labels.extend(marks);
        *program.body_mut(owner) = instrs(&self.code);
    }

    fn label(&mut self) -> u32 {
        self.marks.push(usize::MAX);
        self.marks.len() as u32 - 1
    }

    fn place(&mut self, label: u32) {
        self.marks[label as usize] = self.code.len();
    }

    /// Some instructions; lists are kept.
    fn piece(&mut self, rng: &mut Rng) {
        while self.operands.len() > MOST_OPERANDS {
            self.pop();
        }
        // labels are numbered over the module
        let labelled = self.marks.len() < 20;
        match rng.below(20) {
            0..=2 => self.junk(rng, 3),
            3 => self.drop_some(rng),
            4..=6 => self.bury(rng, 6),
            7..=10 if labelled => self.join(rng),
            11..=15 if !self.functions.is_empty() => self.call(rng),
            16 if labelled => self.repeat(rng),
            17 if labelled => self.skip(rng),
            18 if labelled => self.skip_dead(rng),
            _ => self.heap(rng),
        }
    }

    fn push(&mut self, rng: &mut Rng, ty: u8) {
        let constants: Vec<u32> = (0..CONSTANTS.len() as u32)
            .filter(|&n| CONSTANTS[n as usize].0 == ty)
            .collect();
        let local = self.locals.iter().position(|&local| local == ty);
        match local.filter(|_| rng.one_in(3)) {
            Some(n) => self.code.push((Op::Load, n as u32)),
            None => self.code.push((Op::Push, rng.pick(&constants))),
        }
        self.operands.push(ty);
    }

    fn pop(&mut self) {
        if self.operands.pop().is_some() {
            self.code.push((Op::Pop, 0));
        }
    }

    /// Up to this many values.
    fn junk(&mut self, rng: &mut Rng, most: usize) {
        for _ in 0..rng.range(0, most) {
            let ty = rng.pick(&NUMBERS);
            self.push(rng, ty);
        }
    }

    fn drop_some(&mut self, rng: &mut Rng) {
        for _ in 0..rng.range(0, self.operands.len()) {
            self.pop();
        }
    }

    /// Binds a value over up to this many.
    fn bury(&mut self, rng: &mut Rng, most: usize) {
        if self.locals.len() < MOST_LOCALS {
            self.junk(rng, most);
            let ty = rng.pick(&NUMBERS);
            self.bind(rng, ty);
        }
    }

    fn bind(&mut self, rng: &mut Rng, ty: u8) {
        self.push(rng, ty);
        self.code.push((Op::Store, self.locals.len() as u32));
        self.locals.push(ty);
        self.operands.clear();
    }

    /// A branch on an int.
    fn branch(&mut self, rng: &mut Rng, label: u32) {
        self.push(rng, INT);
        self.operands.pop();
        self.code.push((rng.pick(&CONDITIONS), label));
    }

    /// Two ways that bury different numbers of slots and leave the same lists.
    fn join(&mut self, rng: &mut Rng) {
        let free = MOST_LOCALS - self.locals.len();
        if free == 0 {
            return;
        }
        let bound: Vec<u8> = (0..rng.range(1, free.min(2)))
            .map(|_| rng.pick(&NUMBERS))
            .collect();
        let left: Vec<u8> = (0..rng.below(3)).map(|_| rng.pick(&NUMBERS)).collect();
        let (second, end) = (self.label(), self.label());
        self.branch(rng, second);
        let (locals, operands) = (self.locals.clone(), self.operands.clone());
        self.way(rng, &bound, &left);
        self.code.push((Op::Jmp, end));
        self.place(second);
        (self.locals, self.operands) = (locals, operands);
        self.way(rng, &bound, &left);
        self.place(end);
    }

    /// Binds these over any number of slots, with a call now and then, and leaves those.
    fn way(&mut self, rng: &mut Rng, bound: &[u8], left: &[u8]) {
        for &ty in bound {
            self.junk(rng, 8);
            if !self.functions.is_empty() && rng.one_in(5) {
                self.call(rng);
            }
            self.bind(rng, ty);
        }
        for &ty in left {
            self.push(rng, ty);
        }
    }

    /// A function whose call can't come back, or where rings may be any; the value stays or not.
    fn call(&mut self, rng: &mut Rng) {
        let own = self.ranks.get(self.owner as usize);
        let any = self.rings && rng.one_in(4);
        let fits = |&n: &usize| any || own.is_none_or(|&rank| self.ranks[n] > rank);
        let all: Vec<usize> = (0..self.functions.len()).filter(fits).collect();
        if all.is_empty() {
            return self.junk(rng, 2);
        }
        let n = rng.pick(&all);
        let callee = &self.functions[n];
        let (parameters, returns) = (callee.parameters.clone(), callee.returns);
        let under = self.operands.len();
        for ty in parameters {
            self.push(rng, ty);
        }
        self.operands.truncate(under);
        self.code.push((Op::Call, n as u32));
        if returns != 0 {
            self.operands.push(returns);
            if rng.one_in(2) {
                self.pop();
            }
        }
    }

    /// A loop of a few rounds over values, or over a call.
    fn repeat(&mut self, rng: &mut Rng) {
        if self.locals.len() == MOST_LOCALS {
            return;
        }
        self.bind(rng, INT);
        let counter = self.locals.len() as u32 - 1;
        let label = self.label();
        self.place(label);
        let before = self.operands.len();
        self.junk(rng, 5);
        if !self.functions.is_empty() && rng.one_in(2) {
            self.call(rng);
        }
        while self.operands.len() > before {
            self.pop();
        }
        self.code.extend([(Op::Load, counter), (Op::Push, 1)]);
        self.code.extend([(Op::Sub, 0), (Op::Store, counter)]);
        self.code.extend([(Op::Load, counter), (Op::Ja, label)]);
    }

    /// Values on one way of a branch alone.
    fn skip(&mut self, rng: &mut Rng) {
        let label = self.label();
        self.branch(rng, label);
        let before = self.operands.len();
        self.junk(rng, 6);
        if !self.functions.is_empty() && rng.one_in(3) {
            self.call(rng);
        }
        while self.operands.len() > before {
            self.pop();
        }
        self.place(label);
    }

    /// Code that no path reaches.
    fn skip_dead(&mut self, rng: &mut Rng) {
        let label = self.label();
        self.code.push((Op::Jmp, label));
        self.dead(rng);
        self.place(label);
    }

    /// Pushes, and calls of any function.
    fn dead(&mut self, rng: &mut Rng) {
        for _ in 0..rng.range(1, 3) {
            let call = (Op::Call, rng.below(self.functions.len() + 1) as u32);
            let push = (Op::Push, rng.below(CONSTANTS.len()) as u32);
            let pick = rng.pick(&[call, call, push, (Op::Pop, 0)]);
            self.code.push(pick);
        }
    }

    /// A pointer as the edition has it, for a while.
    fn heap(&mut self, rng: &mut Rng) {
        let number = rng.pick(&[u32::from(INT), u32::from(LONG)]);
        match self.edition {
            Edition::Four => {
                let given = [Op::Null, Op::New, Op::GcNull, Op::GcNew];
                self.code.extend([(rng.pick(&given), number), (Op::Pop, 0)]);
            }
            Edition::Three if !self.locals.is_empty() => {
                let n = rng.below(self.locals.len());
                self.code.extend([(Op::Lea, n as u32), (Op::Tload, 0)]);
                self.operands.push(self.locals[n]);
            }
            _ => self.junk(rng, 2),
        }
        if self.owner == ENTRY && rng.one_in(3) {
            self.junk(rng, 1);
        }
    }
}

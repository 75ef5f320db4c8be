//! Control flow of every shape: bodies of small pieces that leave the lists as they were, with
//! branches forward and backward to labels on shared, unreached and starting places. Now and
//! then a piece changes the lists, a label lies inside a piece, or a branch goes astray.

use super::loose::instrs;
use super::rng::Rng;
use crate::opcode::{Edition, Op};
use crate::program::{Constant, Mark, Program, Routine};
use crate::reader::ENTRY;
use crate::types::{DOUBLE, INT, LONG};

const CONDITIONS: [Op; 6] = [Op::Je, Op::Jne, Op::Ja, Op::Jae, Op::Jb, Op::Jbe];

/// How often, in a hundred, something is done that need not have a typing.
struct Risk {
    change: usize,
    inside: usize,
    astray: usize,
}

/// A body while it is written.
struct Body<'a> {
    edition: Edition,
    owner: u32,
    functions: &'a [Routine],
    /// Numbers of the body's labels, and how many labels there are.
    own: Vec<u32>,
    labels: usize,
    code: Vec<(Op, u32)>,
    /// Where pieces start.
    starts: Vec<usize>,
    /// Where the first labels of the body lie, if two ways meet there.
    fixed: Vec<usize>,
}

pub fn program(rng: &mut Rng, edition: Edition) -> Program {
    let constant = |ty: u8, payload| Constant {
        ty: u32::from(ty),
        payload,
    };
    let mut program = Program {
        edition,
        constants: vec![constant(INT, 1), constant(LONG, 2), constant(DOUBLE, 0)],
        ..Program::default()
    };
    for _ in 0..rng.pick(&[0, 0, 1, 1, 2, 4]) {
        program.functions.push(Routine {
            parameters: vec![rng.pick(&[INT, LONG]); rng.below(3)],
            returns: rng.pick(&[0, INT]),
            code: Vec::new(),
            ..Routine::default()
        });
    }
    let owners: Vec<u32> = program.owners();
    let labels = rng.pick(&[1, 2, 3, 4, 6, 8, 12, 20]);
    let owned: Vec<u32> = (0..labels).map(|_| rng.pick(&owners)).collect();
    let risk = Risk {
        change: rng.pick(&[0, 0, 0, 3, 10]),
        inside: rng.pick(&[0, 0, 0, 10]),
        astray: rng.pick(&[0, 0, 0, 5]),
    };
    let functions = program.functions.clone();
    let mut marks = vec![Mark { owner: 0, index: 0 }; labels];
    for owner in owners {
        let own = (0..labels as u32).filter(|&n| owned[n as usize] == owner);
        let mut body = Body {
            edition,
            owner,
            functions: &functions,
            own: own.collect(),
            labels,
            code: Vec::new(),
            starts: Vec::new(),
            fixed: Vec::new(),
        };
        body.write(rng, &risk);
        for (at, &n) in body.own.iter().enumerate() {
            let fixed = body.fixed.get(at).copied();
            let index = fixed.unwrap_or_else(|| body.spot(rng, &risk));
            marks[n as usize] = Mark { owner, index };
        }
        *program.body_mut(owner) = instrs(&body.code);
    }
    program.labels = marks;
    program
}

impl Body<'_> {
    /// Where a label lies: mostly at the start of a piece, which others share.
    fn spot(&self, rng: &mut Rng, risk: &Risk) -> usize {
        if rng.percent(risk.inside) {
            return rng.below(self.code.len());
        }
        rng.pick(&self.starts)
    }

    fn write(&mut self, rng: &mut Rng, risk: &Risk) {
        let entry = self.owner == ENTRY;
        if entry && self.own.is_empty() && rng.one_in(3) {
            return;
        }
        // at the body's own start, or after some locals and operands
        if rng.percent(60) {
            self.before(rng);
        }
        if self.own.len() >= 2 && rng.one_in(4) {
            self.two_ways(rng);
        }
        for _ in 0..rng.pick(&[1, 3, 6, 12, 24]) {
            self.starts.push(self.code.len());
            if rng.percent(risk.change) {
                self.change(rng);
            } else {
                self.piece(rng, risk);
            }
        }
        if !entry || rng.one_in(4) {
            self.starts.push(self.code.len());
            self.last(rng, risk);
        }
    }

    /// Two ways that meet with the same number of locals and operands, mostly of the same types.
    fn two_ways(&mut self, rng: &mut Rng) {
        let bound = self.code.iter().filter(|(op, _)| *op == Op::Store).count();
        let first = self.function().map_or(0, |f| f.parameters.len()) + bound;
        let (locals, operands) = (rng.below(3), rng.below(3));
        let one: Vec<u32> = (0..locals + operands)
            .map(|_| rng.below(3) as u32)
            .collect();
        let mut other = one.clone();
        if rng.one_in(3) && !one.is_empty() {
            let at = rng.below(one.len());
            other[at] = rng.below(3) as u32;
        }
        let op = rng.pick(&CONDITIONS);
        self.code.extend([(Op::Push, 0), (op, self.own[0])]);
        self.way(first, locals, &one);
        self.code.push((Op::Jmp, self.own[1]));
        let second = self.code.len();
        self.way(first, locals, &other);
        self.fixed = vec![second, self.code.len()];
    }

    /// Pushes these constants and binds the first of them.
    fn way(&mut self, first: usize, locals: usize, constants: &[u32]) {
        for (n, &constant) in constants.iter().enumerate() {
            self.code.push((Op::Push, constant));
            if n < locals {
                self.code.push((Op::Store, (first + n) as u32));
            }
        }
    }

    /// Locals up to two more, then operands.
    fn before(&mut self, rng: &mut Rng) {
        let parameters = self.function().map_or(0, |f| f.parameters.len() as u32);
        for n in 0..rng.below(3) as u32 {
            let ty = rng.below(3) as u32;
            self.code
                .extend([(Op::Push, ty), (Op::Store, parameters + n)]);
        }
        for _ in 0..rng.below(3) {
            self.code.push((Op::Push, rng.below(3) as u32));
        }
    }

    fn function(&self) -> Option<&Routine> {
        self.functions.get(self.owner as usize)
    }

    /// A label of this body, or now and then any number.
    fn target(&self, rng: &mut Rng, risk: &Risk) -> u32 {
        if self.own.is_empty() || rng.percent(risk.astray) {
            return rng.below(self.labels + 2) as u32;
        }
        rng.pick(&self.own)
    }

    /// Some instructions that leave the lists as they were.
    fn piece(&mut self, rng: &mut Rng, risk: &Risk) {
        match rng.below(16) {
            0..=6 if !self.own.is_empty() => {
                let target = self.target(rng, risk);
                let op = rng.pick(&CONDITIONS);
                self.code.extend([(Op::Push, 0), (op, target)]);
            }
            7 if !self.own.is_empty() => {
                let target = self.target(rng, risk);
                self.code.push((Op::Jmp, target));
            }
            8 => self.leave(),
            9..=11 if !self.functions.is_empty() => self.call(rng),
            12 => self
                .code
                .extend([(Op::Push, 1), (Op::Push, 1), (Op::Cmp, 0), (Op::Pop, 0)]),
            _ => self
                .code
                .extend([(Op::Push, rng.below(3) as u32), (Op::Pop, 0)]),
        }
    }

    /// Something that changes the lists.
    fn change(&mut self, rng: &mut Rng) {
        let n = rng.below(3) as u32;
        match rng.below(5) {
            0 => self.code.extend([(Op::Push, n), (Op::Store, n)]),
            1 if self.edition == Edition::One => {
                self.code.extend([(Op::Load, n), (Op::Inc, 0)]);
            }
            1 => self.code.extend([(Op::Lea, n), (Op::Tload, 0)]),
            2 => self.code.push((Op::Pop, 0)),
            3 => self.code.push((Op::Load, n)),
            _ => self.code.push((Op::Push, n)),
        }
    }

    fn call(&mut self, rng: &mut Rng) {
        let n = rng.below(self.functions.len());
        let function = &self.functions[n];
        for &ty in &function.parameters {
            self.code.push((Op::Push, u32::from(ty == LONG)));
        }
        self.code.push((Op::Call, n as u32));
        if function.returns != 0 {
            self.code.push((Op::Pop, 0));
        }
    }

    /// `ret` with its value; in the entry nothing.
    fn leave(&mut self) {
        let Some(returns) = self.function().map(|f| f.returns) else {
            self.code.extend([(Op::Push, 0), (Op::Pop, 0)]);
            return;
        };
        if returns != 0 {
            self.code.push((Op::Push, 0));
        }
        self.code.push((Op::Ret, 0));
    }

    fn last(&mut self, rng: &mut Rng, risk: &Risk) {
        if !self.own.is_empty() && rng.percent(50) {
            let target = self.target(rng, risk);
            self.code.push((Op::Jmp, target));
        } else {
            self.leave();
        }
    }
}

//! Code that mostly runs but need not have a typing: pointers to pointers, operands of
//! different pointer types, now and then an instruction that doesn't fit.

use super::constants::pool;
use super::rng::Rng;
use super::structures::{self, blocks};
use super::typed::signature;
use crate::opcode::{Edition, Op};
use crate::program::{Instr, Mark, Program, Routine};
use crate::types::{is_address, run_time, target, DOUBLE, INT, LONG, MANAGED, POINTER, STRUCTURE};

/// What a pointer is known to lead to.
#[derive(Clone, Copy, PartialEq, Eq)]
enum To {
    Slot(usize),
    /// A block of this type, or a field of this type.
    Block(u8),
}

/// A slot's run-time type and, for a pointer, what it is known to lead to.
type Known = (u8, Option<To>);

/// What is known of the frame while its code is written.
struct Track<'a> {
    program: &'a Program,
    stack: Vec<Known>,
    locals: Vec<usize>,
}

pub fn program(rng: &mut Rng, edition: Edition) -> Program {
    let extra = rng.range(0, 4);
    let mut program = Program {
        edition,
        constants: pool(rng, extra),
        structures: structures::declared(rng, edition),
        ..Program::default()
    };
    for _ in 0..rng.pick(&[0, 1, 1, 2, 3]) {
        let (parameters, returns) = signature(rng, edition, program.structures.len());
        program.functions.push(Routine {
            parameters,
            returns,
            code: Vec::new(),
            ..Routine::default()
        });
    }
    let strict = rng.pick(&[70, 90, 97, 100]);
    for owner in program.owners() {
        let code = body(rng, &program, owner, strict);
        *program.body_mut(owner) = code;
    }
    for _ in 0..rng.pick(&[0, 2, 4]) {
        let owners = program.owners();
        let owner = rng.pick(&owners);
        let length = program.body(owner).len();
        if length > 0 {
            let index = rng.below(length);
            program.labels.push(Mark { owner, index });
        }
    }
    program
}

fn body(rng: &mut Rng, program: &Program, owner: u32, strict: usize) -> Vec<Instr> {
    let routine = program.functions.get(owner as usize);
    let parameters: &[u8] = routine.map_or(&[], |r| &r.parameters);
    let mut track = Track {
        program,
        stack: parameters.iter().map(|&ty| (run_time(ty), None)).collect(),
        locals: (0..parameters.len()).collect(),
    };
    let length = rng.pick(&[1, 4, 8, 16, 30]);
    let ops = program.edition.ops();
    let mut code = Vec::new();
    while code.len() < length {
        let op = rng.pick(&ops);
        let operand = track.operand(rng, op);
        let instr = Instr { op, operand };
        if track.fits(instr) {
            track.apply(instr);
            code.push(instr);
        } else if !rng.percent(strict) && rng.one_in(8) {
            code.push(instr);
        }
    }
    if let Some(routine) = routine {
        if rng.percent(90) {
            code.extend(instrs(&returned(program, routine.returns)));
            let (op, operand) = (Op::Ret, 0);
            code.push(Instr { op, operand });
        }
    }
    code
}

/// A value to return: a constant, or a new block.
fn returned(program: &Program, returns: u8) -> Vec<(Op, u32)> {
    match run_time(returns) {
        POINTER => return vec![(Op::New, u32::from(target(returns)))],
        MANAGED => return vec![(Op::GcNew, u32::from(target(returns)))],
        _ => {}
    }
    let want = u32::from(returns);
    let n = program.constants.iter().position(|c| c.ty == want);
    Vec::from_iter(n.map(|n| (Op::Push, n as u32)))
}

impl Track<'_> {
    fn own(&self) -> usize {
        let base = self.locals.last().map_or(0, |&slot| slot + 1);
        self.stack.len() - base
    }

    /// A number that is in range more often than not.
    fn operand(&self, rng: &mut Rng, op: Op) -> u32 {
        let count = match op {
            Op::Push => self.program.constants.len(),
            Op::Load | Op::Lea => self.locals.len(),
            Op::Store => self.locals.len() + 1,
            Op::Call => self.program.functions.len(),
            Op::New | Op::GcNew if rng.percent(80) => {
                return rng.pick(&blocks(self.program.structures.len()));
            }
            Op::New | Op::GcNew => 12 + self.program.structures.len(),
            Op::Flea => 6,
            _ => 4,
        };
        let beyond = usize::from(rng.one_in(8));
        rng.below(count + beyond) as u32
    }

    fn fits(&self, instr: Instr) -> bool {
        let n = instr.operand as usize;
        let top = self.stack.last().map_or(0, |known| known.0);
        let under = self.stack.iter().nth_back(1).map_or(0, |known| known.0);
        let number = matches!(top, INT | LONG | DOUBLE);
        match instr.op {
            Op::Push => n < self.program.constants.len(),
            Op::Load | Op::Lea => n < self.locals.len(),
            Op::Store => {
                self.own() > 0 && n <= self.locals.len() && n < 16 && self.storable(n, top)
            }
            Op::Pop | Op::Copy => self.own() > 0,
            Op::Inc | Op::Dec if self.old() => self.own() > 0,
            Op::Tload | Op::Inc | Op::Dec => self.own() > 0 && is_address(top),
            Op::Delete => self.own() > 0 && top == POINTER,
            Op::Null | Op::GcNull => true,
            Op::New | Op::GcNew => self.cells(n).is_some(),
            Op::Flea => self.own() > 0 && self.field(n).is_some(),
            Op::Neg | Op::Toi | Op::Tol | Op::Tod => self.own() > 0 && number,
            Op::Not => self.own() > 0 && number && top != DOUBLE,
            Op::Tstore => self.own() > 1 && is_address(under),
            Op::Swap | Op::Cmp | Op::Icmp => self.own() > 1 && top == under,
            Op::Call => n < self.program.functions.len() && self.callable(n),
            op if op.is_conditional() => self.own() > 0 && top == INT,
            Op::Jmp | Op::Ret => false,
            _ => self.own() > 1 && top == under && number && top != DOUBLE,
        }
    }

    /// The cell types of a block of this type.
    fn cells(&self, ty: usize) -> Option<Vec<u8>> {
        match ty {
            3 | 4 | 6 => Some(vec![ty as u8]),
            _ => {
                let n = ty.checked_sub(usize::from(STRUCTURE))?;
                self.program.structures.get(n).cloned()
            }
        }
    }

    /// The type of this field of the structure that the pointer on top is known to lead to.
    fn field(&self, n: usize) -> Option<u8> {
        let (_, Some(To::Block(ty))) = *self.stack.last()? else {
            return None;
        };
        let fields = self.cells(usize::from(ty)).filter(|_| ty >= STRUCTURE)?;
        fields.get(n).copied()
    }

    /// What `tload` of a pointer gives, as far as is known.
    fn target(&self, pointer: Known) -> Known {
        match pointer.1 {
            Some(To::Slot(slot)) => self.stack.get(slot).copied().unwrap_or((INT, None)),
            Some(To::Block(ty)) => (ty, None),
            None => (INT, None),
        }
    }

    fn old(&self) -> bool {
        self.program.edition == Edition::One
    }

    fn storable(&self, n: usize, top: u8) -> bool {
        n == self.locals.len() || self.stack[self.locals[n]].0 == top
    }

    fn callable(&self, n: usize) -> bool {
        let parameters = &self.program.functions[n].parameters;
        let count = parameters.len();
        if self.own() < count {
            return false;
        }
        let arguments = &self.stack[self.stack.len() - count..];
        let mut pairs = parameters.iter().zip(arguments);
        pairs.all(|(&ty, known)| run_time(ty) == known.0)
    }

    fn apply(&mut self, instr: Instr) {
        let n = instr.operand as usize;
        let top = self.stack.last().copied().unwrap_or((0, None));
        match instr.op {
            Op::Push => self.stack.push((self.program.constants[n].ty as u8, None)),
            Op::Load => self.stack.push(self.stack[self.locals[n]]),
            Op::Lea => self.stack.push((POINTER, Some(To::Slot(self.locals[n])))),
            Op::Null => self.stack.push((POINTER, None)),
            Op::New => self.stack.push((POINTER, Some(To::Block(n as u8)))),
            Op::GcNull => self.stack.push((MANAGED, None)),
            Op::GcNew => self.stack.push((MANAGED, Some(To::Block(n as u8)))),
            Op::Flea => {
                let field = self.field(n).map(To::Block);
                self.replace(1, (top.0, field));
            }
            Op::Store if n == self.locals.len() => self.locals.push(self.stack.len() - 1),
            Op::Store => {
                self.stack[self.locals[n]] = top;
                self.stack.pop();
            }
            Op::Copy => self.stack.push(top),
            Op::Tload => self.replace(1, self.target(top)),
            Op::Toi => self.replace(1, (INT, None)),
            Op::Tol => self.replace(1, (LONG, None)),
            Op::Tod => self.replace(1, (DOUBLE, None)),
            Op::Cmp | Op::Icmp => self.replace(2, (INT, None)),
            Op::Neg | Op::Not | Op::Swap => {}
            Op::Inc | Op::Dec if self.old() => {}
            Op::Tstore => self.drop_top(2),
            Op::Call => {
                let routine = &self.program.functions[n];
                let (count, returns) = (routine.parameters.len(), routine.returns);
                self.drop_top(count);
                if returns != 0 {
                    self.stack.push((run_time(returns), None));
                }
            }
            _ => self.drop_top(1),
        }
    }

    fn drop_top(&mut self, count: usize) {
        self.stack.truncate(self.stack.len() - count);
    }

    fn replace(&mut self, count: usize, known: Known) {
        self.drop_top(count);
        self.stack.push(known);
    }
}

/// A pointer that outlives the frame it points into: a function writes the address of one of
/// its locals into a pointer local of its caller. Then the caller uses it.
pub fn stale(rng: &mut Rng, edition: Edition) -> Program {
    let mut program = Program {
        edition: if edition.has_heap() {
            Edition::Four
        } else {
            Edition::Three
        },
        constants: pool(rng, 2),
        ..Program::default()
    };
    let returns = rng.pick(&[0, 0, INT, LONG, DOUBLE]);
    program.functions.push(Routine {
        parameters: vec![0x80 | INT],
        returns,
        code: leak(rng, &program, returns),
        ..Routine::default()
    });
    program.entry = instrs(&uses(rng, program.edition, returns));
    program
}

/// The caller, which uses the pointer after the call.
fn uses(rng: &mut Rng, edition: Edition, returns: u8) -> Vec<(Op, u32)> {
    let push = |rng: &mut Rng| (Op::Push, rng.below(8) as u32);
    let mut code = vec![push(rng), (Op::Store, 0), (Op::Lea, 0), (Op::Store, 1)];
    for _ in 0..rng.below(4) {
        code.push(push(rng));
    }
    code.extend([(Op::Lea, 1), (Op::Call, 0)]);
    for _ in 0..rng.below(3) {
        code.push(push(rng));
    }
    if returns != 0 && rng.percent(50) {
        code.push((Op::Pop, 0));
    }
    code.push((Op::Load, 1));
    for _ in 0..rng.below(2) {
        code.push(rng.pick(&[(Op::Push, 0), (Op::Load, 0), (Op::Load, 1), (Op::Copy, 0)]));
    }
    for _ in 0..rng.range(1, 4) {
        let next = [
            Op::Tload,
            Op::Tstore,
            Op::Inc,
            Op::Dec,
            Op::Tload,
            Op::Tstore,
            Op::Cmp,
            Op::Flea,
        ];
        let known = next.len() - usize::from(!edition.has_heap());
        code.push((rng.pick(&next[..known]), 0));
        code.push(rng.pick(&[(Op::Load, 1), (Op::Load, 0), (Op::Push, 1)]));
    }
    code
}

/// The function that leaks a pointer to one of its own slots.
fn leak(rng: &mut Rng, program: &Program, returns: u8) -> Vec<Instr> {
    let mut code = Vec::new();
    let bound = rng.below(4) as u32;
    for n in 1..=bound {
        let constant = rng.below(program.constants.len()) as u32;
        code.extend([(Op::Push, constant), (Op::Store, n)]);
    }
    let leaked = rng.below(bound as usize + 1) as u32;
    code.extend([(Op::Load, 0), (Op::Lea, leaked), (Op::Tstore, 0)]);
    let want = u32::from(returns);
    if let Some(n) = program.constants.iter().position(|c| c.ty == want) {
        code.push((Op::Push, n as u32));
    }
    code.push((Op::Ret, 0));
    instrs(&code)
}

pub fn instrs(code: &[(Op, u32)]) -> Vec<Instr> {
    code.iter()
        .map(|&(op, operand)| Instr { op, operand })
        .collect()
}

/// Any instructions at all, with small operands.
pub fn random(rng: &mut Rng, edition: Edition) -> Program {
    let mut program = Program {
        edition,
        constants: pool(rng, 0),
        structures: structures::declared(rng, edition),
        ..Program::default()
    };
    for _ in 0..rng.below(3) {
        let (parameters, returns) = signature(rng, edition, program.structures.len());
        let code = random_code(rng, edition, 1);
        program.functions.push(Routine {
            parameters,
            returns,
            code,
            ..Routine::default()
        });
    }
    program.entry = random_code(rng, edition, 0);
    for _ in 0..rng.below(4) {
        let owners = program.owners();
        let owner = rng.pick(&owners);
        let length = program.body(owner).len();
        if length > 0 {
            let index = rng.below(length);
            program.labels.push(Mark { owner, index });
        }
    }
    program
}

fn random_code(rng: &mut Rng, edition: Edition, least: usize) -> Vec<Instr> {
    let length = rng.range(least, 12);
    let ops = edition.ops();
    (0..length)
        .map(|_| {
            let op = if rng.percent(40) {
                let last = ops[rng.pick(&[3, 4])];
                rng.pick(&[Op::Push, Op::Push, Op::Load, last])
            } else {
                rng.pick(&ops)
            };
            let operand = if rng.one_in(30) {
                rng.any() as u32
            } else {
                structures::operand(rng, op, 2, 6)
            };
            Instr { op, operand }
        })
        .collect()
}

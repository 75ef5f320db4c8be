//! Writes one well-typed body, instruction by instruction. The lists are kept here on their
//! own, apart from the check.

use super::rng::Rng;
use super::structures::{blocks, values};
use crate::judge::Lists;
use crate::opcode::{Edition, Op};
use crate::program::Constant;
use crate::types::{
    is_managed, is_number, is_pointer, kind, pointee, structure, target, DOUBLE, GCNULL, INT, LONG,
    MANAGED_TO, NULL, POINTER_TO, STRUCTURE,
};

/// Parameter types and return type.
pub type Signature = (Vec<u8>, u8);

/// What all bodies of a module share.
pub struct Shared {
    pub edition: Edition,
    /// The edition's opcodes.
    pub ops: Vec<Op>,
    pub constants: Vec<Constant>,
    pub signatures: Vec<Signature>,
    /// Field types of each.
    pub structures: Vec<Vec<u8>>,
}

impl Shared {
    /// The field types behind a pointer to a structure.
    fn fields(&self, ty: u8) -> Option<&[u8]> {
        let n = structure(ty)? - STRUCTURE;
        self.structures.get(usize::from(n)).map(Vec::as_slice)
    }
}

/// An instruction; a label operand is a number within the body unless `raw`.
#[derive(Clone, Copy, Debug)]
pub struct Item {
    pub op: Op,
    pub operand: u32,
    pub raw: bool,
}

pub struct Body<'a> {
    pub shared: &'a Shared,
    pub items: Vec<Item>,
    /// The instruction index of each of the body's labels.
    pub marks: Vec<usize>,
    pub lists: Lists,
    /// False inside loops: locals never become fewer.
    pub may_bind: bool,
    pub label_limit: usize,
    /// The return type, or nothing for the entry.
    pub returns: Option<u8>,
    /// Functions from this number on are called without recursion.
    pub later: usize,
}

const MOST_OPERANDS: usize = 32;
const MOST_LOCALS: usize = 16;

impl Body<'_> {
    /// Writes an instruction and keeps the lists.
    pub fn emit(&mut self, op: Op, operand: u32) {
        let raw = false;
        self.items.push(Item { op, operand, raw });
        let n = operand as usize;
        match op {
            Op::Push => self.lists.operands.push(self.shared.constants[n].ty as u8),
            Op::Load => self.lists.operands.push(self.lists.locals[n]),
            Op::Lea => {
                let target = self.lists.locals[n];
                self.lists.operands.push(POINTER_TO | target);
            }
            Op::Store => {
                let top = self.lists.operands.pop();
                if n == self.lists.locals.len() {
                    self.lists.locals.extend(top);
                    self.lists.operands.clear();
                }
            }
            Op::Call => self.called(n),
            Op::Null => self.lists.operands.push(NULL),
            Op::GcNull => self.lists.operands.push(GCNULL),
            Op::New => self.lists.operands.push(POINTER_TO | operand as u8),
            Op::GcNew => self.lists.operands.push(MANAGED_TO | operand as u8),
            Op::Flea => {
                let top = self.lists.operands.pop().unwrap_or(0);
                let field = self.shared.fields(top).map_or(0, |fields| fields[n]);
                self.lists.operands.push(kind(top) | field);
            }
            _ => self.effect(op),
        }
    }

    fn called(&mut self, n: usize) {
        let (parameters, returns) = &self.shared.signatures[n];
        let rest = self.lists.operands.len() - parameters.len();
        self.lists.operands.truncate(rest);
        if *returns != 0 {
            self.lists.operands.push(*returns);
        }
    }

    /// The effect of an instruction without operand, or of a branch.
    fn effect(&mut self, op: Op) {
        let top = self.lists.operands.last().copied().unwrap_or(0);
        let (taken, left) = match op {
            Op::Jmp | Op::Ret | Op::Swap | Op::Neg | Op::Not => (0, None),
            Op::Inc | Op::Dec if self.shared.edition == Edition::One => (0, None),
            Op::Pop | Op::Inc | Op::Dec => (1, None),
            Op::Tstore => (2, None),
            Op::Copy => (0, Some(top)),
            Op::Tload => (1, pointee(top)),
            Op::Cmp | Op::Icmp => (2, Some(INT)),
            Op::Toi => (1, Some(INT)),
            Op::Tol => (1, Some(LONG)),
            Op::Tod => (1, Some(DOUBLE)),
            _ => (1, None),
        };
        let rest = self.lists.operands.len() - taken;
        self.lists.operands.truncate(rest);
        self.lists.operands.extend(left);
    }

    /// An operand with which the instruction fits here, if any does.
    fn fitting(&self, rng: &mut Rng, op: Op) -> Option<u32> {
        let operands = &self.lists.operands;
        let room = operands.len() < MOST_OPERANDS;
        let top = operands.last().copied();
        match op {
            Op::Push => room.then(|| rng.below(self.shared.constants.len()) as u32),
            Op::Load => room.then(|| self.some_local(rng, |_| true))?,
            Op::Lea => room.then(|| self.some_local(rng, is_number))?,
            Op::Store => self.store_target(rng, top?),
            Op::Copy => (room && top.is_some()).then_some(0),
            Op::Pop => top.map(|_| 0),
            Op::Inc | Op::Dec if self.shared.edition == Edition::One => {
                is_number(top?).then_some(0)
            }
            Op::Tload | Op::Inc | Op::Dec => pointee(top?).map(|_| 0),
            Op::Neg | Op::Toi | Op::Tol | Op::Tod => is_number(top?).then_some(0),
            Op::Null | Op::GcNull => room.then_some(0),
            Op::New | Op::GcNew => room.then(|| rng.pick(&blocks(self.shared.structures.len()))),
            // what is deleted is often used again: less of it, more of the rest
            Op::Delete => (kind(top?) == POINTER_TO && rng.one_in(3)).then_some(0),
            Op::Flea => {
                let fields = self.shared.fields(top?)?;
                Some(rng.below(fields.len()) as u32)
            }
            Op::Not => (is_number(top?) && top != Some(DOUBLE)).then_some(0),
            op if op.has_label() || matches!(op, Op::Call | Op::Ret) => None,
            op => self.fits_pair(op).then_some(0),
        }
    }

    fn fits_pair(&self, op: Op) -> bool {
        let [.., a, b] = self.lists.operands[..] else {
            return false;
        };
        match op {
            Op::Tstore => pointee(a) == Some(b),
            Op::Cmp | Op::Icmp if self.shared.edition.has_heap() => {
                a == b || is_pointer(a) && kind(a) == kind(b)
            }
            Op::Swap | Op::Cmp | Op::Icmp => a == b,
            Op::Add | Op::Sub | Op::Mul | Op::Imul | Op::Div | Op::Idiv => a == b && is_number(a),
            _ => a == b && (a == INT || a == LONG),
        }
    }

    fn some_local(&self, rng: &mut Rng, wanted: impl Fn(u8) -> bool) -> Option<u32> {
        let fits: Vec<u32> = (0..self.lists.locals.len() as u32)
            .filter(|&n| wanted(self.lists.locals[n as usize]))
            .collect();
        (!fits.is_empty()).then(|| rng.pick(&fits))
    }

    fn store_target(&self, rng: &mut Rng, top: u8) -> Option<u32> {
        let count = self.lists.locals.len();
        let bind = self.may_bind && count < MOST_LOCALS && rng.percent(60);
        if bind {
            return Some(count as u32);
        }
        self.some_local(rng, |ty| ty == top)
    }

    /// Writes one instruction that doesn't jump.
    pub fn simple(&mut self, rng: &mut Rng) {
        if self.lists.operands.len() < 2 && rng.percent(50) {
            let all = values(self.shared.edition, self.shared.structures.len());
            let ty = rng.pick(&all);
            self.produce(rng, ty);
            return;
        }
        let mut fits = Vec::new();
        for &op in &self.shared.ops {
            if let Some(operand) = self.fitting(rng, op) {
                fits.push((op, operand));
            }
        }
        let (op, operand) = rng.pick(&fits);
        if matches!(op, Op::Div | Op::Idiv | Op::Mod | Op::Imod) && rng.percent(75) {
            self.new_divisor(rng);
        }
        self.emit(op, operand);
    }

    /// Puts a constant that is not 0 in the divisor's place.
    fn new_divisor(&mut self, rng: &mut Rng) {
        let ty = self.lists.operands.last().copied().unwrap_or(0);
        let fits: Vec<u32> = (0..self.shared.constants.len() as u32)
            .filter(|&n| {
                let constant = self.shared.constants[n as usize];
                constant.ty == u32::from(ty) && constant.payload != 0
            })
            .collect();
        if !fits.is_empty() {
            self.emit(Op::Pop, 0);
            let n = rng.pick(&fits);
            self.emit(Op::Push, n);
        }
    }

    /// Puts a value of this type on top, if one can be had.
    pub fn produce(&mut self, rng: &mut Rng, ty: u8) -> bool {
        while self.lists.operands.len() >= MOST_OPERANDS {
            self.emit(Op::Pop, 0);
        }
        let mut ways = Vec::new();
        for (n, constant) in self.shared.constants.iter().enumerate() {
            if constant.ty == u32::from(ty) {
                ways.push((Op::Push, n as u32));
            }
        }
        let constants = ways.len();
        for (n, &local) in self.lists.locals.iter().enumerate() {
            if local == ty {
                ways.push((Op::Load, n as u32));
            }
            if pointee(ty) == Some(local) && !is_managed(ty) {
                ways.push((Op::Lea, n as u32));
            }
        }
        ways.extend(self.given(ty));
        if ways.is_empty() {
            return false;
        }
        // as often from the locals as from the constants
        let from = if constants < ways.len() && rng.percent(50) {
            constants
        } else {
            0
        };
        let (op, operand) = rng.pick(&ways[from..]);
        self.emit(op, operand);
        true
    }

    /// What gives a new pointer of this type, if one does.
    fn given(&self, ty: u8) -> Option<(Op, u32)> {
        let block = u32::from(target(ty));
        match ty {
            NULL => Some((Op::Null, 0)),
            GCNULL => Some((Op::GcNull, 0)),
            ty if is_managed(ty) => Some((Op::GcNew, block)),
            ty if is_pointer(ty) && self.shared.edition.has_heap() => Some((Op::New, block)),
            _ => None,
        }
    }

    /// Brings the lists to the target, if that is possible.
    pub fn convert(&mut self, rng: &mut Rng, target: &Lists) -> bool {
        if !target.locals.starts_with(&self.lists.locals) {
            return false;
        }
        while self.lists.locals.len() < target.locals.len() {
            let n = self.lists.locals.len();
            let ty = target.locals[n];
            let there = self.lists.operands.last() == Some(&ty) && rng.percent(50);
            if !there && !self.produce(rng, ty) {
                return false;
            }
            self.emit(Op::Store, n as u32);
        }
        let pairs = self.lists.operands.iter().zip(&target.operands);
        let common = pairs.take_while(|(a, b)| a == b).count();
        while self.lists.operands.len() > common {
            self.emit(Op::Pop, 0);
        }
        (common..target.operands.len()).all(|n| self.produce(rng, target.operands[n]))
    }

    pub fn new_label(&mut self) -> u32 {
        self.marks.push(usize::MAX);
        self.marks.len() as u32 - 1
    }

    /// Puts the label on the next instruction.
    pub fn place(&mut self, label: u32) {
        self.marks[label as usize] = self.items.len();
    }
}

//! Control flow of well-typed bodies: joins, loops, calls, dead code.

use super::body::{Body, Item};
use super::rng::Rng;
use crate::judge::Lists;
use crate::opcode::{Edition, Op};
use crate::types::INT;

const CONDITIONS: [Op; 6] = [Op::Je, Op::Jne, Op::Ja, Op::Jae, Op::Jb, Op::Jbe];

/// Where a shape that doesn't work out goes back to.
struct Snapshot {
    items: usize,
    marks: usize,
    lists: Lists,
    may_bind: bool,
}

impl Body<'_> {
    pub fn block(&mut self, rng: &mut Rng, statements: usize, depth: usize) {
        for _ in 0..statements {
            self.statement(rng, depth);
        }
    }

    fn statement(&mut self, rng: &mut Rng, depth: usize) {
        let free = self.marks.len() + 3 <= self.label_limit;
        let snapshot = self.snapshot();
        let done = match rng.below(24) {
            0 | 1 if depth > 0 && free => self.two_arms(rng, depth - 1),
            2 if depth > 0 && free => self.one_arm(rng, depth - 1),
            3 if depth > 0 && free => self.repeat(rng, depth - 1),
            4 if depth > 0 && free => self.count_down(rng, depth - 1),
            5 if free => self.over_dead_code(rng),
            6..=8 => self.call(rng),
            _ => {
                self.simple(rng);
                true
            }
        };
        if !done {
            self.restore(snapshot);
        }
    }

    fn snapshot(&self) -> Snapshot {
        Snapshot {
            items: self.items.len(),
            marks: self.marks.len(),
            lists: self.lists.clone(),
            may_bind: self.may_bind,
        }
    }

    fn restore(&mut self, snapshot: Snapshot) {
        self.items.truncate(snapshot.items);
        self.marks.truncate(snapshot.marks);
        self.lists = snapshot.lists;
        self.may_bind = snapshot.may_bind;
    }

    /// An int on top, often from a comparison.
    fn condition(&mut self, rng: &mut Rng) {
        if rng.percent(50) {
            self.produce(rng, INT);
            return;
        }
        let ty = rng.pick(&crate::types::NUMBERS);
        if self.lists.operands.len() < 31 {
            self.produce(rng, ty);
            self.produce(rng, ty);
            let op = rng.pick(&[Op::Cmp, Op::Icmp]);
            self.emit(op, 0);
        } else {
            self.produce(rng, INT);
        }
    }

    /// Two arms that join with the same lists, or of which one leaves the body.
    fn two_arms(&mut self, rng: &mut Rng, depth: usize) -> bool {
        let (other, join) = (self.new_label(), self.new_label());
        self.condition(rng);
        let before = self.lists.clone();
        let op = rng.pick(&CONDITIONS);
        // the branch takes the condition
        self.emit(op, other);
        let start = Lists {
            operands: before.operands[..before.operands.len() - 1].to_vec(),
            locals: before.locals,
        };
        let statements = rng.range(0, 5);
        self.block(rng, statements, depth);
        let left = self.lists.clone();
        let leaves = rng.one_in(6);
        if leaves {
            self.leave(rng);
        } else {
            self.emit(Op::Jmp, join);
        }
        self.dead_code(rng);
        self.place(other);
        self.lists = start;
        let statements = rng.range(0, 5);
        self.block(rng, statements, depth);
        let joined = leaves || self.convert(rng, &left);
        self.place(join);
        joined
    }

    /// Ends a way: by `ret` in a function, by a jump to itself or back in the entry.
    fn leave(&mut self, rng: &mut Rng) {
        match self.returns {
            Some(returns) if rng.percent(90) => {
                if returns != 0 {
                    self.produce(rng, returns);
                }
                self.emit(Op::Ret, 0);
            }
            _ => {
                let again = self.new_label();
                self.place(again);
                self.emit(Op::Jmp, again);
            }
        }
    }

    /// A conditional branch over a block that changes nothing in the lists.
    fn one_arm(&mut self, rng: &mut Rng, depth: usize) -> bool {
        let join = self.new_label();
        self.condition(rng);
        let op = rng.pick(&CONDITIONS);
        self.emit(op, join);
        let lists = self.lists.clone();
        let may_bind = std::mem::replace(&mut self.may_bind, false);
        let statements = rng.range(1, 5);
        self.block(rng, statements, depth);
        self.may_bind = may_bind;
        let joined = self.convert(rng, &lists);
        self.place(join);
        joined
    }

    /// A block repeated while a condition holds.
    fn repeat(&mut self, rng: &mut Rng, depth: usize) -> bool {
        let top = self.new_label();
        self.place(top);
        let lists = self.lists.clone();
        let may_bind = std::mem::replace(&mut self.may_bind, false);
        let statements = rng.range(1, 5);
        self.block(rng, statements, depth);
        self.may_bind = may_bind;
        if !self.convert(rng, &lists) || self.lists.operands.len() >= 32 {
            return false;
        }
        self.condition(rng);
        let op = rng.pick(&CONDITIONS);
        self.emit(op, top);
        true
    }

    /// A block repeated a few times, counted down in a local of its own.
    fn count_down(&mut self, rng: &mut Rng, depth: usize) -> bool {
        let counter = self.lists.locals.len();
        let small: Vec<u32> = (0..self.shared.constants.len() as u32)
            .filter(|&n| {
                let constant = self.shared.constants[n as usize];
                constant.ty == u32::from(INT) && (1..20).contains(&constant.payload)
            })
            .collect();
        if !self.may_bind || counter >= 16 || small.is_empty() || self.lists.operands.len() >= 32 {
            return false;
        }
        let (n, counter) = (rng.pick(&small), counter as u32);
        self.emit(Op::Push, n);
        self.emit(Op::Store, counter);
        let top = self.new_label();
        self.place(top);
        let lists = self.lists.clone();
        self.may_bind = false;
        let statements = rng.range(1, 4);
        self.block(rng, statements, depth);
        self.may_bind = true;
        if !self.convert(rng, &lists) {
            return false;
        }
        if self.shared.edition == Edition::One {
            self.emit(Op::Load, counter);
            self.emit(Op::Dec, 0);
            self.emit(Op::Store, counter);
        } else {
            self.emit(Op::Lea, counter);
            self.emit(Op::Dec, 0);
        }
        self.emit(Op::Load, counter);
        self.emit(Op::Jne, top);
        true
    }

    fn over_dead_code(&mut self, rng: &mut Rng) -> bool {
        let after = self.new_label();
        self.emit(Op::Jmp, after);
        self.dead_code(rng);
        self.place(after);
        true
    }

    /// Now and then code that nothing leads to, of any kind.
    pub fn dead_code(&mut self, rng: &mut Rng) {
        if rng.percent(70) {
            return;
        }
        for _ in 0..rng.range(1, 3) {
            let op = rng.pick(&self.shared.ops);
            let operand = rng.below(20) as u32;
            let raw = true;
            self.items.push(Item { op, operand, raw });
        }
    }

    /// A call with its arguments, mostly of a function with a higher number.
    fn call(&mut self, rng: &mut Rng) -> bool {
        let count = self.shared.signatures.len();
        if count == 0 || self.lists.operands.len() > 20 {
            return false;
        }
        let n = if rng.percent(85) {
            if self.later >= count {
                return false;
            }
            rng.range(self.later, count - 1)
        } else {
            rng.below(count)
        };
        let parameters = self.shared.signatures[n].0.clone();
        for ty in parameters {
            if !self.produce(rng, ty) {
                return false;
            }
        }
        self.emit(Op::Call, n as u32);
        true
    }
}

//! One instruction judged by types alone.
//!
//! "At each given place the instruction, judged by types alone with every pointer taken as
//! live, raises at most 20 or 24, "same type" meaning the same of six, for call arguments
//! too". "Demand 3's ends and the typing rule gain" 35, document 02's A2, "in edition 4, 33 and
//! 36", A6, and 44, A8. "In a typing `null` has its own type (byte 80) for moves, `cmp`, `icmp` and
//! `delete` only; those three take any pointers." A9: "C0 for `gcnull` (used as 80 is, save for
//! `delete`)"; "`delete` of type 8 is 31. A typing passes neither that nor a comparison across types
//! 7 and 8."

use crate::opcode::{Edition, Op};
use crate::reader::{Instruction, Module, ENTRY};
use crate::rules::{Fault, Rules};
use crate::types::{
    is_managed, is_null, is_number, is_pointer, kind, pointee, run_time, structure, DOUBLE, GCNULL,
    INT, LONG, MANAGED_TO, NULL, POINTER_TO,
};

/// "a list of local types and of operand types", deepest first.
#[derive(Clone, Debug, Default, PartialEq, Eq)]
pub struct Lists {
    pub locals: Vec<u8>,
    pub operands: Vec<u8>,
}

/// What an instruction leaves, and every place that it can go next.
#[derive(Clone, Debug, PartialEq, Eq)]
pub struct Left {
    pub lists: Lists,
    pub next: Vec<usize>,
}

pub struct Judge<'m> {
    pub rules: Rules,
    pub module: Module<'m>,
    /// The body that the instruction is in.
    pub body: u32,
}

impl Judge<'_> {
    /// The lists after the instruction and its next places, or the exception that it raises
    /// (other than 20, 24, 33, 35 and 44, which depend on more than types). `null` where it may not
    /// be is 36.
    pub fn judge(&self, at: Instruction, given: &Lists) -> Result<Left, u32> {
        let mut lists = given.clone();
        let mut next = vec![at.next];
        match at.op {
            Op::Push | Op::Pop | Op::Load | Op::Store | Op::Lea | Op::Copy | Op::Swap => {
                self.stack(at, &mut lists)?;
            }
            Op::Inc | Op::Dec if self.on_top() => self.by_one(&mut lists)?,
            Op::Tload | Op::Tstore | Op::Inc | Op::Dec => self.through(at.op, &mut lists)?,
            op if op.is_of_the_heap() => self.heap(at, &mut lists)?,
            Op::Neg | Op::Not | Op::Toi | Op::Tol | Op::Tod => self.unary(at.op, &mut lists)?,
            Op::Jmp | Op::Call | Op::Ret => next = self.flow(at, &mut lists)?,
            op if op.is_conditional() => next = self.branch(at, &mut lists)?,
            op => self.binary(op, &mut lists)?,
        }
        Ok(Left { lists, next })
    }

    /// Edition 1: "There `inc` and `dec` change the top value itself."
    fn on_top(&self) -> bool {
        self.module.edition == Edition::One && !self.rules.wrong(Fault::OldIncThroughPointer)
    }

    /// `inc` and `dec` on the top value: any of the three types, which stays.
    fn by_one(&self, lists: &mut Lists) -> Result<(), u32> {
        let top = take(lists, 1)?[0];
        raise(!is_number(top), 32)?;
        raise(top == DOUBLE && self.rules.wrong(Fault::OldIncOfDouble), 34)?;
        if !self.rules.wrong(Fault::OldIncPops) {
            lists.operands.push(top);
        }
        Ok(())
    }

    /// "same type" meaning the same of six
    fn same(&self, a: u8, b: u8) -> Result<(), u32> {
        if self.rules.wrong(Fault::PointersAlike) {
            return raise(run_time(a) != run_time(b), 22);
        }
        let fits = |null: u8| kind(a) == null && kind(b) == null && [a, b].contains(&null);
        let null = fits(NULL) && self.rules.wrong(Fault::NullFits);
        let gcnull = fits(GCNULL) && self.rules.wrong(Fault::GcnullFits);
        raise(a != b && !null && !gcnull, 22)
    }

    /// `cmp` and `icmp` of edition 4: "those three take any pointers", but not one of type 7 and one
    /// of type 8.
    fn comparable(&self, a: u8, b: u8) -> Result<(), u32> {
        let any = if self.module.edition.has_heap() {
            !self.rules.wrong(Fault::PointersComparedApart)
        } else {
            self.rules.wrong(Fault::AnyPointersInThree)
        };
        let alike = kind(a) == kind(b) || self.rules.wrong(Fault::ComparedAcrossTyped);
        if any && is_pointer(a) && is_pointer(b) && alike {
            return Ok(());
        }
        self.same(a, b)
    }

    fn stack(&self, at: Instruction, lists: &mut Lists) -> Result<(), u32> {
        match at.op {
            Op::Push => {
                let (ty, _) = self.module.constant(at.operand).ok_or(23u32)?;
                lists.operands.push(ty);
            }
            Op::Pop => drop(take(lists, 1)?),
            Op::Load => {
                let ty = local(lists, at.operand)?;
                lists.operands.push(ty);
            }
            Op::Store => self.store(at.operand, lists)?,
            Op::Lea => {
                // "`lea` takes a local holding a number"
                let ty = local(lists, at.operand)?;
                let typed = is_number(ty) || self.rules.wrong(Fault::LeaOfPointerTyped);
                raise(!typed, 32)?;
                lists.operands.push(POINTER_TO | ty);
            }
            Op::Copy => {
                let top = take(lists, 1)?[0];
                lists.operands.extend([top, top]);
            }
            _ => {
                let pair = take(lists, 2)?;
                self.same(pair[0], pair[1])?;
                lists.operands.extend([pair[1], pair[0]]);
            }
        }
        Ok(())
    }

    /// "n below the local count moves the top there (same type); n equal to it and below 16
    /// binds the top slot, which stays and buries those under it; else 26"
    fn store(&self, n: u32, lists: &mut Lists) -> Result<(), u32> {
        let (n, count) = (n as usize, lists.locals.len());
        if n < count {
            let top = take(lists, 1)?[0];
            return self.same(top, lists.locals[n]);
        }
        raise(n != count || n >= 16, 26)?;
        let top = take(lists, 1)?[0];
        lists.locals.push(top);
        // operands are "the slots above its highest local": none are left
        if !self.rules.wrong(Fault::BuriedOperandsKept) {
            lists.operands.clear();
        }
        Ok(())
    }

    fn binary(&self, op: Op, lists: &mut Lists) -> Result<(), u32> {
        let pair = take(lists, 2)?;
        let (a, b) = (pair[0], pair[1]);
        if matches!(op, Op::Cmp | Op::Icmp) {
            self.comparable(a, b)?;
            raise(a == DOUBLE && self.rules.wrong(Fault::UnorderedUntyped), 35)?;
            lists.operands.push(INT);
            return Ok(());
        }
        // "Pointers are refused (32) by the other arithmetic"
        raise(!is_number(a) || !is_number(b), 32)?;
        self.same(a, b)?;
        // "Remainders and bit operations on doubles: 34."
        let sums = [Op::Add, Op::Sub, Op::Mul, Op::Imul, Op::Div, Op::Idiv];
        raise(a == DOUBLE && !sums.contains(&op), 34)?;
        lists.operands.push(a);
        Ok(())
    }

    /// `neg`, `not` and the conversions.
    fn unary(&self, op: Op, lists: &mut Lists) -> Result<(), u32> {
        let top = take(lists, 1)?[0];
        // "Pointers are refused (32) by the other arithmetic and by conversions."
        raise(!is_number(top), 32)?;
        // "bit operations on doubles: 34"
        raise(op == Op::Not && top == DOUBLE, 34)?;
        let cut = matches!(op, Op::Toi | Op::Tol) && top == DOUBLE;
        raise(cut && self.rules.wrong(Fault::RangeUntyped), 44)?;
        lists.operands.push(match op {
            Op::Toi => INT,
            Op::Tol => LONG,
            Op::Tod => DOUBLE,
            _ => top,
        });
        Ok(())
    }

    /// "Conditional branches need an int (22) and remove it whether taken or not"; next are
    /// "both ways of a branch".
    fn branch(&self, at: Instruction, lists: &mut Lists) -> Result<Vec<usize>, u32> {
        let place = self
            .module
            .branch_place(self.rules, self.body, at.operand)?;
        raise(take(lists, 1)?[0] != INT, 22)?;
        Ok(vec![at.next, place])
    }

    fn flow(&self, at: Instruction, lists: &mut Lists) -> Result<Vec<usize>, u32> {
        let mut next = match at.op {
            Op::Jmp => vec![self
                .module
                .branch_place(self.rules, self.body, at.operand)?],
            Op::Ret => {
                self.ret(lists)?;
                // "none after `ret`"
                vec![]
            }
            _ => {
                self.call(at.operand, lists)?;
                vec![at.next]
            }
        };
        if self.rules.wrong(Fault::DeadCodeTyped) && at.op != Op::Call {
            next.push(at.next);
        }
        Ok(next)
    }

    /// "a `call` past itself, the return type in place of its arguments"
    fn call(&self, n: u32, lists: &mut Lists) -> Result<(), u32> {
        let function = self.module.signature(self.rules, n).ok_or(28u32)?;
        let arguments = take(lists, function.parameters.len())?;
        for (&argument, &parameter) in arguments.iter().zip(&function.parameters) {
            let null = argument == NULL && kind(parameter) == NULL;
            if !(null && self.rules.wrong(Fault::NullArgumentTyped)) {
                self.same(argument, parameter)?;
            }
        }
        if function.returns != 0 {
            lists.operands.push(function.returns);
        }
        Ok(())
    }

    /// "it needs a top operand of the return type (none for 0)"; "In the entry, 30."
    fn ret(&self, lists: &mut Lists) -> Result<(), u32> {
        raise(self.body == ENTRY, 30)?;
        let function = self.module.function(self.body).ok_or(28u32)?;
        if function.returns != 0 {
            let top = take(lists, 1)?[0];
            self.same(top, function.returns)?;
        }
        Ok(())
    }

    /// The number type that a pointer points to, "every pointer taken as live": 31, then 36 for
    /// `null`, then 50 for a whole structure.
    fn number_at(&self, ty: u8) -> Result<u8, u32> {
        raise(!is_pointer(ty), 31)?;
        raise(
            is_null(ty) && !self.rules.wrong(Fault::NullThroughTyped),
            36,
        )?;
        if is_null(ty) {
            return Ok(INT);
        }
        let whole = self.rules.wrong(Fault::WholeTyped) && structure(ty).is_some();
        pointee(ty).or(whole.then_some(INT)).ok_or(50)
    }

    /// `tload`, `tstore`, `inc`, `dec`.
    fn through(&self, op: Op, lists: &mut Lists) -> Result<(), u32> {
        if op == Op::Tstore {
            let pair = take(lists, 2)?;
            let target = self.number_at(pair[0])?;
            // "`tstore` needs a value of the type of what it writes to (22)"
            return raise(pair[1] != target, 22);
        }
        let top = take(lists, 1)?[0];
        let target = self.number_at(top)?;
        if op == Op::Tload {
            lists.operands.push(target);
        }
        Ok(())
    }

    /// `null`, `new`, `delete`, `flea`, `gcnull`, `gcnew`.
    fn heap(&self, at: Instruction, lists: &mut Lists) -> Result<(), u32> {
        match at.op {
            Op::Null => lists.operands.push(NULL),
            Op::GcNull => lists.operands.push(GCNULL),
            Op::New => lists.operands.push(POINTER_TO | self.block(at.operand)?),
            Op::GcNew => lists.operands.push(MANAGED_TO | self.block(at.operand)?),
            Op::Delete => {
                let top = take(lists, 1)?[0];
                raise(!self.can_be_deleted(top), 31)?;
                let apart =
                    pointee(top).is_some() && self.rules.wrong(Fault::DeleteOfNumberUntyped);
                raise(apart, 33)?;
            }
            _ => {
                let top = take(lists, 1)?[0];
                lists.operands.push(self.field(top, at.operand)?);
            }
        }
        Ok(())
    }

    /// The type number that `new` or `gcnew` takes: "37 type number"; "`new` also takes 3, 4 and 6"
    fn block(&self, ty: u32) -> Result<u8, u32> {
        let number = u8::try_from(ty).is_ok_and(is_number);
        raise(!number && self.module.fields(ty).is_none(), 37)?;
        Ok(ty as u8)
    }

    /// "`delete` of type 8 is 31."
    fn can_be_deleted(&self, ty: u8) -> bool {
        let gcnull = ty == GCNULL && self.rules.wrong(Fault::GcnullDeleteTyped);
        let managed = is_managed(ty) && !self.rules.wrong(Fault::ManagedDeleteTyped);
        is_pointer(ty) && (!managed || gcnull)
    }

    /// The type of the pointer that `flea` leaves: 31, 36, 39, 38. "`flea` keeps type 8."
    fn field(&self, ty: u8, field: u32) -> Result<u8, u32> {
        raise(!is_pointer(ty), 31)?;
        raise(is_null(ty), 36)?;
        let number = structure(ty).ok_or(39u32)?;
        let fields = self.module.fields(u32::from(number)).ok_or(39u32)?;
        let target = fields.get(field as usize).ok_or(38u32)?;
        if self.rules.wrong(Fault::FleaGivesPointerTyped) {
            return Ok(POINTER_TO | target);
        }
        Ok(kind(ty) | target)
    }
}

/// Takes the `count` topmost operand types, deepest first; "21: too few operands in the
/// frame".
fn take(lists: &mut Lists, count: usize) -> Result<Vec<u8>, u32> {
    raise(lists.operands.len() < count, 21)?;
    let rest = lists.operands.len() - count;
    Ok(lists.operands.split_off(rest))
}

/// "`load`, `lea` outside the locals: 25."
fn local(lists: &Lists, n: u32) -> Result<u8, u32> {
    lists.locals.get(n as usize).copied().ok_or(25)
}

fn raise(fault: bool, number: u32) -> Result<(), u32> {
    if fault {
        Err(number)
    } else {
        Ok(())
    }
}

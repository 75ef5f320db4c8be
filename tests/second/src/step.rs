//! One instruction on the machine.
//!
//! "Within one instruction the order is: 30; number out of range; 21; 31; 33; 32; 22; 34; 24;
//! 20.", with document 02's "35 DOUBLE_UNORDERED, after 24 in the order", "44 CONVERT_OUTOFRANGE,
//! last before 20" and A6's numbers (in `pointers`). Every function here tests in this order and
//! changes the state only after its last test: an instruction that raises "leaves the state as
//! before it".

use crate::machine::{Frame, Machine, Slot};
use crate::opcode::{Edition, Op};
use crate::reader::{Instruction, ENTRY};
use crate::rules::{Fault, Rules};
use crate::types::{is_address, run_time, DOUBLE, INT, LONG, MANAGED, POINTER};
use crate::{convert, double, integer, pointers};

#[derive(Clone, Copy, Debug, PartialEq, Eq)]
pub enum Flow {
    Goes,
    /// "In a function run by the host's own call it finishes."
    Finished,
}

/// "At most 64 frames live, the first included."
const FRAMES: usize = 64;
const LOCALS: usize = 16;

pub fn step(m: &mut Machine<'_>, at: Instruction) -> Result<Flow, u32> {
    match at.op {
        Op::Push => push(m, at.operand)?,
        Op::Pop => pop(m)?,
        Op::Load => load(m, at.operand)?,
        Op::Store => store(m, at.operand)?,
        Op::Lea => lea(m, at.operand)?,
        Op::Copy => copy(m)?,
        Op::Swap => swap(m)?,
        Op::Tload => pointers::tload(m)?,
        Op::Tstore => pointers::tstore(m)?,
        Op::Flea => pointers::flea(m, at.operand)?,
        Op::Null => pointers::null(m, POINTER)?,
        Op::New => pointers::new(m, at.operand)?,
        Op::Delete => pointers::delete(m)?,
        Op::GcNull => pointers::gcnull(m)?,
        Op::GcNew => pointers::gcnew(m, at.operand)?,
        Op::Inc | Op::Dec => by_one(m, at.op)?,
        Op::Neg | Op::Not => unary(m, at.op)?,
        Op::Toi | Op::Tol | Op::Tod => conversion(m, at.op)?,
        Op::Cmp | Op::Icmp => compare(m, at.op)?,
        Op::Call => return call(m, at),
        Op::Ret => return ret(m),
        op if op.has_label() => return branch(m, at),
        op => arithmetic(m, op)?,
    }
    m.place = at.next;
    Ok(Flow::Goes)
}

pub fn raise(fault: bool, number: u32) -> Result<(), u32> {
    if fault {
        Err(number)
    } else {
        Ok(())
    }
}

/// The `count` topmost operands, deepest first. "21: too few operands in the frame."
pub fn operands(m: &Machine<'_>, count: usize) -> Result<Vec<Slot>, u32> {
    let own = m.stack.len() - m.frame().operands();
    raise(own < count, 21)?;
    Ok(m.stack[m.stack.len() - count..].to_vec())
}

pub fn drop_operands(m: &mut Machine<'_>, count: usize) {
    m.stack.truncate(m.stack.len() - count);
}

/// Takes operands away and puts one value in their place.
pub fn replace(m: &mut Machine<'_>, count: usize, value: Slot) {
    drop_operands(m, count);
    m.stack.push(value);
}

/// 20 where no slot is left.
pub fn room(m: &Machine<'_>) -> Result<(), u32> {
    raise(m.stack.len() >= m.capacity, 20)
}

/// 003: puts a constant on top.
fn push(m: &mut Machine<'_>, n: u32) -> Result<(), u32> {
    let (ty, payload) = m.module.constant(n).ok_or(23u32)?;
    room(m)?;
    m.stack.push(Slot { ty, payload });
    Ok(())
}

/// 003: removes the top.
fn pop(m: &mut Machine<'_>) -> Result<(), u32> {
    operands(m, 1)?;
    drop_operands(m, 1);
    Ok(())
}

/// The slot of local `n`. "`load`, `lea` outside the locals: 25."
fn local(m: &Machine<'_>, n: u32) -> Result<usize, u32> {
    m.frame().locals.get(n as usize).copied().ok_or(25)
}

/// 003: copies a local's value to the top.
fn load(m: &mut Machine<'_>, n: u32) -> Result<(), u32> {
    let slot = local(m, n)?;
    room(m)?;
    m.stack.push(m.stack[slot]);
    Ok(())
}

/// 003: puts a pointer to a local on top; "a pointer with its slot".
fn lea(m: &mut Machine<'_>, n: u32) -> Result<(), u32> {
    let slot = local(m, n)?;
    if m.rules.wrong(Fault::LeaOfPointerRaises) {
        raise(is_address(m.stack[slot].ty), 32)?;
    }
    room(m)?;
    let mut payload = slot as u64;
    if m.rules.wrong(Fault::PointerFromFrame) {
        payload -= m.frame().first as u64;
    }
    m.stack.push(Slot {
        ty: POINTER,
        payload,
    });
    Ok(())
}

/// "`store` n: n below the local count moves the top there (same type); n equal to it and
/// below 16 binds the top slot, which stays and buries those under it; else 26."
fn store(m: &mut Machine<'_>, n: u32) -> Result<(), u32> {
    let (n, count) = (n as usize, m.frame().locals.len());
    raise(n > count || n >= LOCALS, 26)?;
    let top = operands(m, 1)?[0];
    if n < count {
        let slot = m.frame().locals[n];
        raise(!is_same(m, m.stack[slot].ty, top.ty), 22)?;
        m.stack[slot] = top;
        drop_operands(m, 1);
        return Ok(());
    }
    let slot = m.stack.len() - 1;
    m.frame_mut().locals.push(slot);
    if m.rules.wrong(Fault::BindingPops) && slot > 0 {
        // the local is then the slot below
        m.frame_mut().locals[n] = slot - 1;
        drop_operands(m, 1);
    }
    Ok(())
}

/// The same type number: 7 and 8 are two.
fn is_same(m: &Machine<'_>, a: u8, b: u8) -> bool {
    a == b || is_address(a) && is_address(b) && m.rules.wrong(Fault::MovedAcross)
}

/// 003: copies the top onto itself.
fn copy(m: &mut Machine<'_>) -> Result<(), u32> {
    let top = operands(m, 1)?[0];
    room(m)?;
    m.stack.push(top);
    Ok(())
}

/// 003: exchanges the two topmost values, which must have the same type.
fn swap(m: &mut Machine<'_>) -> Result<(), u32> {
    let pair = operands(m, 2)?;
    raise(!is_same(m, pair[0].ty, pair[1].ty), 22)?;
    let height = m.stack.len();
    m.stack.swap(height - 1, height - 2);
    Ok(())
}

/// Edition 1: "There `inc` and `dec` change the top value itself."; else through the pointer.
fn by_one(m: &mut Machine<'_>, op: Op) -> Result<(), u32> {
    let old = m.module.edition == Edition::One;
    if old && !m.rules.wrong(Fault::OldIncThroughPointer) {
        return top_by_one(m, op);
    }
    pointers::by_one(m, op)
}

/// "by 1 wrapping or by 1.0 rounded once"
pub fn one_more(rules: Rules, op: Op, ty: u8, payload: u64) -> u64 {
    let one = if op == Op::Inc { 1 } else { -1 };
    match width(ty) {
        Some(_) if rules.wrong(Fault::IncCarries) => integer::wrap(64, i128::from(payload) + one),
        Some(width) => integer::wrap(width, i128::from(payload) + one),
        None => double::by_one(op, payload),
    }
}

/// Edition 1: "There `inc` and `dec` change the top value itself." A bound local on top is no
/// operand (21).
fn top_by_one(m: &mut Machine<'_>, op: Op) -> Result<(), u32> {
    if m.rules.wrong(Fault::OldIncOfLocal) {
        raise(m.stack.len() <= m.frame().first, 21)?;
    } else {
        operands(m, 1)?;
    }
    let top = m.stack.len() - 1;
    let Slot { ty, payload } = m.stack[top];
    raise(ty == POINTER, 32)?;
    raise(ty == DOUBLE && m.rules.wrong(Fault::OldIncOfDouble), 34)?;
    m.stack[top].payload = one_more(m.rules, op, ty, payload);
    if m.rules.wrong(Fault::OldIncPops) {
        drop_operands(m, 1);
    }
    Ok(())
}

/// Bits of an int or a long.
fn width(ty: u8) -> Option<u32> {
    match ty {
        INT => Some(32),
        LONG => Some(64),
        _ => None,
    }
}

/// The binary operations other than the comparisons: 21, 32, 22, 34, 24.
fn arithmetic(m: &mut Machine<'_>, op: Op) -> Result<(), u32> {
    let pair = operands(m, 2)?;
    let (a, b) = (pair[0], pair[1]);
    let managed = [a.ty, b.ty].contains(&MANAGED);
    let early = managed && m.rules.wrong(Fault::TypeBeforeManaged);
    if m.rules.wrong(Fault::TypeBeforePointer) || early {
        raise(a.ty != b.ty, 22)?;
    }
    // "Pointers are refused (32) by the other arithmetic and by conversions."
    raise(is_address(a.ty) || is_address(b.ty), 32)?;
    if m.rules.wrong(Fault::DoubleBeforeType) && b.ty == DOUBLE {
        double::binary(m.rules, op, b.payload, b.payload)?;
    }
    raise(a.ty != b.ty, 22)?;
    let payload = match width(a.ty) {
        Some(width) => integer::binary(m.rules, op, width, a.payload, b.payload)?,
        None => double::binary(m.rules, op, a.payload, b.payload)?,
    };
    replace(m, 2, Slot { ty: a.ty, payload });
    Ok(())
}

/// `neg` and `not`: 21, 32, 34.
fn unary(m: &mut Machine<'_>, op: Op) -> Result<(), u32> {
    let Slot { ty, payload } = operands(m, 1)?[0];
    raise(is_address(ty), 32)?;
    raise(op == Op::Not && ty == DOUBLE, 34)?;
    let payload = match (op, width(ty)) {
        (Op::Not, Some(width)) => integer::not(width, payload),
        (_, Some(width)) => integer::neg(width, payload),
        (_, None) => double::neg(m.rules, payload),
    };
    replace(m, 1, Slot { ty, payload });
    Ok(())
}

/// `toi`, `tol`, `tod`: 21, 32, and 44 but for `tod`.
fn conversion(m: &mut Machine<'_>, op: Op) -> Result<(), u32> {
    let early = m.rules.wrong(Fault::RangeBeforeEmpty);
    if let Some(&top) = m.stack.last().filter(|_| early) {
        converted(m, op, top)?;
    }
    let top = operands(m, 1)?[0];
    if m.rules.wrong(Fault::RangeBeforePointer) && is_address(top.ty) {
        converted(m, op, Slot { ty: DOUBLE, ..top })?;
    }
    raise(is_address(top.ty), 32)?;
    let value = converted(m, op, top);
    if value.is_err() {
        let full = room(m).is_err();
        raise(full && m.rules.wrong(Fault::RoomBeforeRange), 20)?;
        drop_operands(m, usize::from(m.rules.wrong(Fault::RangePops)));
    }
    replace(m, 1, value?);
    Ok(())
}

/// What a conversion makes of a value, or 44.
fn converted(m: &Machine<'_>, op: Op, Slot { ty, payload }: Slot) -> Result<Slot, u32> {
    let (rules, edition) = (m.rules, m.module.edition);
    let nan = ty == DOUBLE && f64::from_bits(payload).is_nan();
    let (ty, payload) = match op {
        Op::Toi => (INT, convert::toi(rules, edition, ty, payload)?),
        Op::Tol => (LONG, convert::tol(rules, edition, ty, payload)?),
        _ if nan && rules.wrong(Fault::TodOutOfRange) => return Err(44),
        _ => (DOUBLE, convert::tod(rules, ty, payload)),
    };
    Ok(Slot { ty, payload })
}

/// "`cmp`, `icmp`: A > B gives 1, equal 0, anything else -1. Pointers compare by slot.": 21, 22,
/// 35. "`cmp` and `icmp` on pointers go by payload, unsigned.", of one type number: 7 and 8 are 22.
fn compare(m: &mut Machine<'_>, op: Op) -> Result<(), u32> {
    let pair = operands(m, 2)?;
    let (a, b) = (pair[0], pair[1]);
    if m.rules.wrong(Fault::UnorderedBeforeType) {
        for slot in [a, b].iter().filter(|slot| slot.ty == DOUBLE) {
            double::compare(m.rules, op, slot.payload, slot.payload)?;
        }
    }
    let across = is_address(a.ty) && is_address(b.ty) && m.rules.wrong(Fault::ComparedAcross);
    raise(a.ty != b.ty && !across, 22)?;
    if m.rules.wrong(Fault::PointeesCompared) && a.ty == POINTER {
        let target = |slot: Slot| m.stack.get(slot.payload as usize).map(|slot| slot.ty);
        raise(target(a) != target(b), 22)?;
    }
    let signed = op == Op::Icmp || m.rules.wrong(Fault::CmpSigned);
    // "A2 holds in both"
    let old = m.module.edition == Edition::One;
    let rules = if old && m.rules.wrong(Fault::OldNanCompares) {
        Rules::with(Fault::NanCompares)
    } else {
        m.rules
    };
    let order = match (signed, width(a.ty)) {
        _ if a.ty == DOUBLE => double::compare(rules, op, a.payload, b.payload)?,
        (true, Some(width)) => order(
            integer::signed(width, a.payload),
            integer::signed(width, b.payload),
        ),
        _ if is_address(a.ty) && m.rules.wrong(Fault::PointersSigned) => order(
            integer::signed(64, a.payload),
            integer::signed(64, b.payload),
        ),
        _ => order(i128::from(a.payload), i128::from(b.payload)),
    };
    let payload = u64::from(order as u32);
    replace(m, 2, Slot { ty: INT, payload });
    Ok(())
}

fn order(a: i128, b: i128) -> i32 {
    match a.cmp(&b) {
        std::cmp::Ordering::Greater => 1,
        std::cmp::Ordering::Equal => 0,
        std::cmp::Ordering::Less => -1,
    }
}

/// "A label of another body is 27. Conditional branches need an int (22) and remove it
/// whether taken or not."
fn branch(m: &mut Machine<'_>, at: Instruction) -> Result<Flow, u32> {
    if m.rules.wrong(Fault::EmptyBeforeLabel) && at.op.is_conditional() {
        operands(m, 1)?;
    }
    let place = match m.module.branch_place(m.rules, m.frame().body, at.operand) {
        Err(_) if m.rules.wrong(Fault::LabelWhenTaken) && untaken(m, at.op) => at.next,
        place => place?,
    };
    let mut taken = true;
    if at.op.is_conditional() {
        let top = operands(m, 1)?[0];
        raise(top.ty != INT, 22)?;
        taken = holds(m.rules, at.op, top.payload);
        if taken || !m.rules.wrong(Fault::BranchKeepsValue) {
            drop_operands(m, 1);
        }
    }
    m.place = if taken { place } else { at.next };
    Ok(Flow::Goes)
}

/// "`je` 0, `jne` not 0, `ja` 1, `jae` not -1, `jb` -1, `jbe` not 1."
fn holds(rules: Rules, op: Op, value: u64) -> bool {
    const MINUS_ONE: u64 = 0xFFFF_FFFF;
    match op {
        Op::Jae if rules.wrong(Fault::JaeSigned) => value < 1 << 31,
        Op::Je => value == 0,
        Op::Jne => value != 0,
        Op::Ja => value == 1,
        Op::Jae => value != MINUS_ONE,
        Op::Jb => value == MINUS_ONE,
        _ => value != 1,
    }
}

/// Is an int on top on which the branch doesn't jump? (For a wrong variant.)
fn untaken(m: &Machine<'_>, op: Op) -> bool {
    let stays = |top: Vec<Slot>| top[0].ty == INT && !holds(m.rules, op, top[0].payload);
    op.is_conditional() && operands(m, 1).is_ok_and(stays)
}

/// "`call`: argument type numbers must match (22; a pointer only as a pointer); a 65th frame
/// is 20."
fn call(m: &mut Machine<'_>, at: Instruction) -> Result<Flow, u32> {
    let function = m.module.signature(m.rules, at.operand).ok_or(28u32)?;
    let limit = FRAMES + usize::from(m.rules.wrong(Fault::SixtyFiveFrames));
    if m.rules.wrong(Fault::FrameLimitFirst) {
        raise(m.frames.len() >= limit, 20)?;
    }
    let count = function.parameters.len();
    let arguments = operands(m, count)?;
    for (argument, &parameter) in arguments.iter().zip(&function.parameters) {
        raise(!passes(m, argument.ty, run_time(parameter)), 22)?;
    }
    raise(m.frames.len() >= limit, 20)?;
    let first = m.stack.len() - count;
    let frame = Frame::new(m.rules, at.operand, first, count, at.next);
    m.frames.push(frame);
    m.place = function.start as usize;
    Ok(Flow::Goes)
}

/// Does a value of this type number go to a parameter, or back, as this one? 7 is not 8.
fn passes(m: &Machine<'_>, ty: u8, wanted: u8) -> bool {
    let both = is_address(ty) && is_address(wanted);
    ty == wanted || both && m.rules.wrong(Fault::PassedAcross)
}

/// "it needs a top operand of the return type (none for 0), drops the frame and its
/// arguments, and pushes that value. In the entry, 30."
fn ret(m: &mut Machine<'_>) -> Result<Flow, u32> {
    let body = m.frame().body;
    raise(body == ENTRY, 30)?;
    let returns = m.module.function(body).map_or(0, |f| f.returns);
    let mut value = None;
    if returns != 0 {
        let top = operands(m, 1)?[0];
        // "functions may return those": a pointer only as a pointer
        raise(!passes(m, top.ty, run_time(returns)), 22)?;
        value = Some(top);
    }
    let frame = m.frame().clone();
    let kept = if m.rules.wrong(Fault::RetLeavesArguments) {
        frame.operands()
    } else {
        frame.first
    };
    m.stack.truncate(kept);
    m.stack.extend(value);
    if m.rules.wrong(Fault::RetFrees) {
        let holders = pointers::holders(m);
        m.heap.free_dead(&holders);
    }
    if m.frames.len() == 1 {
        return Ok(Flow::Finished);
    }
    m.frames.pop();
    m.place = frame.back;
    Ok(Flow::Goes)
}

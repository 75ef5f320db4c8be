//! The instructions that work through a pointer, managed or not, and those of the heap.
//!
//! Their part of the order is 37; 21; 31; 36; 33; 39; 38; 32; 50; 22; 20: "36 null pointer, just
//! before 33; 37 type number, with numbers out of range; 39 not a structure, then 38 field number,
//! after 33; 50 `tload`, `tstore`, `inc`, `dec` on a whole structure, after 32".

use crate::heap::{address, pointer, Address, Holders, Part};
use crate::machine::{Machine, Slot};
use crate::opcode::Op;
use crate::rules::Fault;
use crate::step::{drop_operands, one_more, operands, raise, replace, room};
use crate::types::{is_address, is_number, MANAGED, POINTER};

/// What a live pointer names.
#[derive(Clone, Copy, Debug, PartialEq, Eq)]
enum Place {
    Slot(usize),
    Cell {
        cell: usize,
        ty: u8,
    },
    /// A whole structure, of this block.
    Structure {
        serial: u64,
    },
}

/// What a pointer operand names, `taken` operands being taken: 31, 36, 33. A payload means the same
/// in types 7 and 8.
fn reached(m: &Machine<'_>, operand: Slot, taken: usize) -> Result<Place, u32> {
    raise(!is_address(operand.ty), 31)?;
    match address(operand.payload) {
        Address::Null if m.rules.wrong(Fault::NullAfterUnknown) => Err(33),
        Address::Null => Err(36),
        Address::Slot(slot) => reached_slot(m, slot, taken),
        // "A heap pointer to no live block, or no field of it, is 33"
        Address::Block { serial, part } => match m.heap.part(serial, part) {
            None => Err(33),
            Some(Part::Number { cell, ty }) => Ok(Place::Cell { cell, ty }),
            Some(Part::Structure) => Ok(Place::Structure { serial }),
        },
    }
}

/// "an address not below the height left after the operands are taken is 33"
fn reached_slot(m: &Machine<'_>, slot: u64, taken: usize) -> Result<Place, u32> {
    let height = if m.rules.wrong(Fault::AddressAgainstFullHeight) {
        m.stack.len()
    } else {
        m.stack.len() - taken
    };
    raise(slot >= height as u64, 33)?;
    Ok(Place::Slot(slot as usize))
}

/// What is in a place: "50 `tload`, `tstore`, `inc`, `dec` on a whole structure".
fn held(m: &Machine<'_>, place: Place) -> Result<Slot, u32> {
    match place {
        Place::Slot(slot) => Ok(m.stack[slot]),
        Place::Cell { cell, ty } => Ok(Slot {
            ty,
            payload: m.heap.cells[cell],
        }),
        Place::Structure { .. } if m.rules.wrong(Fault::WholeUnknown) => Err(33),
        Place::Structure { .. } => Err(50),
    }
}

fn put(m: &mut Machine<'_>, place: Place, value: Slot) {
    match place {
        Place::Slot(slot) => m.stack[slot] = value,
        Place::Cell { cell, .. } => m.heap.cells[cell] = value.payload,
        Place::Structure { .. } => {}
    }
}

/// 003: copies what the pointer on top points to, in place of the pointer.
pub fn tload(m: &mut Machine<'_>) -> Result<(), u32> {
    let top = operands(m, 1)?[0];
    let place = reached(m, top, 1)?;
    let value = held(m, place)?;
    if m.rules.wrong(Fault::TloadOfPointerRaises) {
        raise(is_address(value.ty), 32)?;
    }
    replace(m, 1, value);
    Ok(())
}

/// 003: the top goes where the pointer under it points; both are removed.
/// "`tstore` needs a value of the type of what it writes to (22)."
pub fn tstore(m: &mut Machine<'_>) -> Result<(), u32> {
    let pair = operands(m, 2)?;
    let place = reached(m, pair[0], 2)?;
    if m.rules.wrong(Fault::TstoreOfPointerRaises) {
        raise(is_address(pair[1].ty), 32)?;
    }
    // a value is never a structure
    let whole = matches!(place, Place::Structure { .. });
    raise(whole && m.rules.wrong(Fault::WholeAfterType), 22)?;
    raise(held(m, place)?.ty != pair[1].ty, 22)?;
    put(m, place, pair[1]);
    drop_operands(m, 2);
    Ok(())
}

/// "`inc`, `dec` work through the pointer, by 1 wrapping or by 1.0 rounded once; a pointer there
/// is 32."
pub fn by_one(m: &mut Machine<'_>, op: Op) -> Result<(), u32> {
    let top = operands(m, 1)?[0];
    let place = reached(m, top, 1)?;
    let Slot { ty, payload } = held(m, place)?;
    raise(is_address(ty), 32)?;
    let payload = one_more(m.rules, op, ty, payload);
    put(m, place, Slot { ty, payload });
    drop_operands(m, 1);
    Ok(())
}

/// 003: a pointer to a field in place of the pointer to its structure. "for stack slots `flea`
/// has the rule of `tload`"; "`flea` keeps type 8."
pub fn flea(m: &mut Machine<'_>, field: u32) -> Result<(), u32> {
    if m.rules.wrong(Fault::FieldEarly) {
        raise(field >= 8, 38)?;
    }
    let top = operands(m, 1)?[0];
    let place = reached(m, top, 1)?;
    let slot = matches!(place, Place::Slot(_));
    raise(slot && m.rules.wrong(Fault::FleaOfSlotUnknown), 33)?;
    let Place::Structure { serial } = place else {
        // a number has no field
        return Err(if m.rules.wrong(Fault::FieldBeforeStructure) {
            38
        } else {
            39
        });
    };
    let fields = m.heap.block(serial).map_or(0, |block| block.cells.len());
    raise(field as usize >= fields, 38)?;
    if m.rules.wrong(Fault::FleaNeedsRoom) {
        room(m)?;
    }
    let from_one = !m.rules.wrong(Fault::FieldFromZero);
    let part = u64::from(field) + u64::from(from_one);
    let ty = if m.rules.wrong(Fault::FleaGivesPointer) {
        POINTER
    } else {
        top.ty
    };
    let payload = pointer(serial, part);
    replace(m, 1, Slot { ty, payload });
    Ok(())
}

/// 003: a null pointer on top, of this type.
pub fn null(m: &mut Machine<'_>, ty: u8) -> Result<(), u32> {
    room(m)?;
    let payload = m.heap.null();
    m.stack.push(Slot { ty, payload });
    Ok(())
}

/// 003: a null pointer of type gcpointer on top.
pub fn gcnull(m: &mut Machine<'_>) -> Result<(), u32> {
    let plain = m.rules.wrong(Fault::GcnullIsPointer);
    null(m, if plain { POINTER } else { MANAGED })
}

/// The types of a block's cells. "37 type number, with numbers out of range"; "`new` also takes 3,
/// 4 and 6"
fn cells(m: &Machine<'_>, ty: u32) -> Result<Vec<u8>, u32> {
    let ty = if m.rules.wrong(Fault::TypeByLowByte) {
        ty & 0xFF
    } else {
        ty
    };
    let number = u8::try_from(ty).ok().filter(|&ty| is_number(ty));
    match (number, m.module.fields(ty)) {
        (Some(ty), _) => Ok(vec![ty]),
        (None, Some(fields)) => Ok(fields.to_vec()),
        (None, None) => Err(37),
    }
}

/// 003: a pointer to a new block on top.
pub fn new(m: &mut Machine<'_>, ty: u32) -> Result<(), u32> {
    if m.rules.wrong(Fault::TypeAfterRoom) {
        room(m)?;
    }
    let cells = cells(m, ty)?;
    room(m)?;
    if m.rules.wrong(Fault::NewFrees) {
        let holders = holders(m);
        m.heap.free_dead(&holders);
    }
    if m.rules.wrong(Fault::NewPacks) {
        m.heap.pack_for(cells.len());
    }
    let payload = m.heap.give(ty as u8, cells);
    m.stack.push(Slot {
        ty: POINTER,
        payload,
    });
    Ok(())
}

/// 003: a pointer to a new block that is managed on top. 37, then 20, and only then are blocks
/// freed: an instruction that raises "leaves the state as before it".
pub fn gcnew(m: &mut Machine<'_>, ty: u32) -> Result<(), u32> {
    if m.rules.wrong(Fault::ManagedTypeAfterRoom) {
        room(m)?;
    }
    let cells = cells(m, ty)?;
    let holders = holders(m);
    if m.rules.wrong(Fault::RoomAfterFreeing) {
        m.heap.free_dead(&holders);
    }
    room(m)?;
    let payload = m.heap.give_managed(ty as u8, cells, &holders);
    m.stack.push(Slot {
        ty: MANAGED,
        payload,
    });
    Ok(())
}

/// The serials that type 8 slots below the height hold: of any frame, buried or not, by pointers to
/// whole blocks or to fields.
pub fn holders(m: &Machine<'_>) -> Holders {
    let holds = |(n, slot): &(usize, &Slot)| {
        let typed = slot.ty == MANAGED || m.rules.wrong(Fault::AnyTypeHolds);
        typed && !is_passed_over(m, *n, slot.payload)
    };
    let slots = m.stack.iter().enumerate().filter(holds);
    slots.map(|(_, slot)| slot.payload >> 16).collect()
}

/// Wrong on purpose in four variants: slots of some kind, or pointers of some kind, don't hold.
fn is_passed_over(m: &Machine<'_>, slot: usize, payload: u64) -> bool {
    let bound = |n: usize| m.frames.iter().any(|frame| frame.locals.contains(&n));
    let above = |n: usize| {
        let frame = m.frames.iter().rev().find(|frame| frame.first <= n);
        frame.is_some_and(|frame| n >= frame.operands())
    };
    m.rules.wrong(Fault::FieldsDontHold) && payload & 0xFFFF != 0
        || m.rules.wrong(Fault::CallersDontHold) && slot < m.frame().first
        || m.rules.wrong(Fault::LocalsDontHold) && bound(slot)
        || m.rules.wrong(Fault::BuriedDontHold) && !bound(slot) && !above(slot)
}

/// "`delete` takes only what `new` gave, else 33; null does nothing."; "`delete` of type 8 is 31."
pub fn delete(m: &mut Machine<'_>) -> Result<(), u32> {
    let top = operands(m, 1)?[0];
    let managed = top.ty == MANAGED;
    raise(managed && m.rules.wrong(Fault::ManagedDeleteUnknown), 33)?;
    let taken = m.rules.wrong(Fault::ManagedDeleted)
        || top.payload == m.heap.null() && m.rules.wrong(Fault::GcnullDeleted);
    raise(top.ty != POINTER && !(managed && taken), 31)?;
    match address(top.payload) {
        Address::Null => raise(m.rules.wrong(Fault::DeleteOfNullRaises), 36)?,
        Address::Slot(_) => raise(!m.rules.wrong(Fault::DeleteOfSlot), 33)?,
        Address::Block { serial, part } => {
            // a managed block is none that `new` gave
            let block = m.heap.block(serial);
            let live = block.is_some_and(|block| block.managed == managed);
            let whole = part == 0 || m.rules.wrong(Fault::NumberIsField);
            raise(!whole && !m.rules.wrong(Fault::DeleteOfField), 33)?;
            raise(!live && !m.rules.wrong(Fault::DeleteTwice), 33)?;
            m.heap.free(serial);
        }
    }
    drop_operands(m, 1);
    Ok(())
}

//! Demand 3's claims about whole runs of accepted modules, looked at while they run.
//!
//! "At every moment from that call to its return ... each slot below the called frame has the
//! type and payload that it had at the call. The only exceptions are the slots named by that
//! call's own pointer arguments." Only pointers with serial 0 name slots, and no managed one has
//! it. And what the heap is at every moment: blocks inside it and apart, serials rising and below
//! the next. A managed pointer is null, or leads to a managed block that lives: through it no run
//! ends in 33. `gcnew` frees the dead blocks and no others, and "changes no payload and no value
//! read through a pointer".

use crate::heap::{address, Address, Block, Heap, Holders};
use crate::machine::{Machine, Slot, Watch};
use crate::opcode::{Edition, Op};
use crate::types::{INT, MANAGED, POINTER};

/// A block that `gcnew` finds, with its values.
struct Found {
    serial: u64,
    ty: u8,
    managed: bool,
    values: Vec<u64>,
}

impl Found {
    fn new(heap: &Heap, block: &Block) -> Found {
        Found {
            serial: block.serial,
            ty: block.ty,
            managed: block.managed,
            values: heap.cells[block.range()].to_vec(),
        }
    }

    /// Is this the same block, with the same values?
    fn is(&self, heap: &Heap, block: &Block) -> bool {
        let kind = (self.ty, self.managed) == (block.ty, block.managed);
        kind && heap.cells[block.range()] == self.values
    }
}

/// What lay below a called frame at the call.
struct Below {
    slots: Vec<Slot>,
    named: Vec<usize>,
}

#[derive(Default)]
pub struct Claims {
    /// The stack right before the current instruction.
    before: Vec<Slot>,
    calls: Vec<Below>,
    /// The blocks right before it, where it is `gcnew`.
    found: Option<Vec<Found>>,
    /// The serial that the heap gives next.
    next: u64,
    /// How many slots broke the claim, and how many moments that about the heap.
    pub broken: u64,
}

impl Watch for Claims {
    fn before(&mut self, machine: &Machine<'_>, op: Op) {
        if matches!(op, Op::Call | Op::GcNew) {
            self.before.clone_from(&machine.stack);
        }
        let heap = &machine.heap;
        let found = heap.blocks.iter().filter(|_| op == Op::GcNew);
        let found: Vec<Found> = found.map(|block| Found::new(heap, block)).collect();
        self.found = (op == Op::GcNew).then_some(found);
    }

    fn after(&mut self, machine: &Machine<'_>, op: Op, raised: Option<u32>) {
        if raised.is_some() {
            let lost = raised == Some(33) && follows_managed(machine, op);
            self.broken += u64::from(lost);
            return;
        }
        if op == Op::Call {
            let first = machine.frame().first;
            let arguments = &self.before[first..];
            self.calls.push(Below {
                slots: self.before[..first].to_vec(),
                named: arguments.iter().filter_map(named).collect(),
            });
        }
        for below in &self.calls {
            self.broken += below.changed(&machine.stack);
        }
        if op == Op::Ret {
            // the moment right after `ret` belongs to the call
            self.calls.pop();
        }
        if op.is_of_the_heap() {
            self.broken += u64::from(!is_a_heap(&machine.heap) || machine.heap.next < self.next);
            self.next = machine.heap.next;
            let astray = machine.stack.iter().filter(|slot| !leads(machine, slot));
            self.broken += astray.count() as u64;
        }
        if let Some(found) = self.found.take() {
            let same = machine.stack.starts_with(&self.before);
            let broken = !same || !is_collected(&found, &self.before, &machine.heap);
            self.broken += u64::from(broken);
        }
    }
}

/// Is the pointer that an instruction works through managed?
fn follows_managed(machine: &Machine<'_>, op: Op) -> bool {
    let above = usize::from(op == Op::Tstore);
    let pointer = machine.stack.iter().nth_back(above);
    pointer.is_some_and(|slot| slot.ty == MANAGED)
}

/// A managed pointer is null, or to a managed block or a field of it; no other pointer is.
fn leads(machine: &Machine<'_>, slot: &Slot) -> bool {
    let managed = slot.ty == MANAGED;
    match address(slot.payload) {
        Address::Null => true,
        Address::Slot(_) => !managed,
        Address::Block { serial, part } => {
            let block = machine.heap.block(serial);
            let same = block.is_some_and(|block| block.managed);
            match slot.ty {
                MANAGED => same && machine.heap.part(serial, part).is_some(),
                POINTER => !same,
                _ => true,
            }
        }
    }
}

/// Each block that `gcnew` found on this stack lives with its values, or is managed and no type 8
/// slot holds its serial: then it is gone.
fn is_collected(found: &[Found], stack: &[Slot], after: &Heap) -> bool {
    let managed = stack.iter().filter(|slot| slot.ty == MANAGED);
    let holders: Holders = managed.map(|slot| slot.payload >> 16).collect();
    found.iter().all(|block| {
        let now = after.block(block.serial);
        if block.managed && !holders.hold(block.serial) {
            return now.is_none();
        }
        now.is_some_and(|now| block.is(after, now))
    })
}

/// The slot that an argument names, if it is a pointer to one.
fn named(argument: &Slot) -> Option<usize> {
    match address(argument.payload) {
        Address::Slot(slot) if argument.ty == POINTER => Some(slot as usize),
        _ => None,
    }
}

/// Blocks lie inside the heap, apart from each other; serials rise from 1 and stay below the
/// next; an int's upper half is zero.
fn is_a_heap(heap: &Heap) -> bool {
    let mut used = vec![false; heap.capacity];
    let mut last = 0;
    for block in &heap.blocks {
        let own = block.first..block.first + block.cells.len();
        let inside = own.end <= heap.capacity;
        if !inside || block.serial <= last || used[own.clone()].contains(&true) {
            return false;
        }
        let ints = own.clone().zip(&block.cells).filter(|(_, &ty)| ty == INT);
        if ints
            .into_iter()
            .any(|(cell, _)| heap.cells[cell] >> 32 != 0)
        {
            return false;
        }
        used[own].fill(true);
        last = block.serial;
    }
    last < heap.next
}

impl Below {
    fn changed(&self, stack: &[Slot]) -> u64 {
        let same = |n: usize| stack.get(n) == Some(&self.slots[n]) || self.named.contains(&n);
        (0..self.slots.len()).filter(|&n| !same(n)).count() as u64
    }
}

/// "this run can only finish, use up its allowance, overflow the stack or divide by zero"; or
/// compare with a NaN: "Demand 3's ends and the typing rule gain this."; or follow a pointer to
/// nothing: they "gain, in edition 4, 33 and 36"; or convert a double that is out of range: "The
/// typing rule and demand 3's ends gain this", but "edition 1 keeps the pattern".
pub fn is_an_end_of_demand_3(edition: Edition, outcome: u32) -> bool {
    let heap = edition.has_heap() && [33, 36].contains(&outcome);
    let converts = edition.raises_out_of_range() && outcome == 44;
    [0, 15, 20, 24, 35].contains(&outcome) || heap || converts
}

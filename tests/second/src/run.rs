//! A run as the host calls it: answers 1 to 9, 12, 13, 17, and outcomes with the lent stack and
//! heap.

use crate::heap::{self, Heap, LentHeap};
use crate::machine::{Machine, Slot, Unwatched, Watch};
use crate::pointers;
use crate::profile;
use crate::reader::{read, refuse, Function, Module, ENTRY};
use crate::rules::{Fault, Rules};
use crate::types::{is_managed, is_number, run_time, INT};
use crate::words::payload;

/// Which body to run, on what, and for how long.
#[derive(Clone, Copy, Debug)]
pub struct Call<'a> {
    pub function: u32,
    pub arg_types: &'a [u8],
    pub arg_payloads: &'a [u8],
    /// "A run now names the scan's profile".
    pub profile: u32,
    pub allowance: u64,
}

/// "The stack is lent as payloads (8 bytes a slot, little endian, an int's upper four zero)
/// and type bytes".
pub struct LentStack<'a> {
    pub payloads: &'a mut [u8],
    pub types: &'a mut [u8],
}

impl LentStack<'_> {
    /// The same slots, for one run of several.
    pub fn again(&mut self) -> LentStack<'_> {
        LentStack {
            payloads: self.payloads,
            types: self.types,
        }
    }
}

#[derive(Clone, Copy, Debug, PartialEq, Eq)]
pub enum Ran {
    /// 1 to 9, 12, 13, 17: "change no lent memory and return only the number"
    Refused(u32),
    Ended {
        outcome: u32,
        steps: u64,
        height: usize,
    },
}

pub fn run(
    rules: Rules,
    file: &[u8],
    call: Call<'_>,
    stack: LentStack<'_>,
    heap: LentHeap<'_>,
) -> Ran {
    run_watched(rules, file, call, stack, heap, &mut Unwatched)
}

pub fn run_watched(
    rules: Rules,
    file: &[u8],
    call: Call<'_>,
    stack: LentStack<'_>,
    lent: LentHeap<'_>,
    watch: &mut dyn Watch,
) -> Ran {
    // "A run of a module that was not accepted is allowed and equally defined; one that can't
    // be read gets 1 to 9."
    let admitted = read(rules, file).and_then(|module| {
        let arguments = admit(rules, module, call)?;
        if !profile::late(rules, &arguments, &stack) {
            // "17 profile differs, after 13"
            refuse(profile::differs(rules, module, call), 17)?;
        }
        Ok((module, arguments))
    });
    let (module, arguments) = match admitted {
        Ok(admitted) => admitted,
        Err(number) => {
            if number == 17 && rules.wrong(Fault::ProfileClears) {
                write_back(rules, &[], capacity(rules, &stack), stack);
            }
            return Ran::Refused(number);
        }
    };
    let capacity = capacity(rules, &stack);
    let heap = Heap::at_start(rules, module, &lent);
    if arguments.len() > capacity {
        return misfit(rules, capacity, stack, heap, lent);
    }
    let mut machine = Machine::new(rules, module, call.function, arguments, capacity, heap);
    let outcome = machine.run(call.allowance, watch);
    end(&mut machine);
    write_back(rules, &machine.stack, capacity, stack);
    // "After a run", of any edition
    if module.edition.has_heap() || !rules.wrong(Fault::OldHeapUntouched) {
        heap::write_back(rules, &machine.heap, lent);
    }
    Ran::Ended {
        outcome,
        steps: machine.steps,
        height: machine.stack.len(),
    }
}

/// Wrong on purpose: a run's end frees dead blocks.
fn end(machine: &mut Machine<'_>) {
    if machine.rules.wrong(Fault::EndFrees) {
        let holders = pointers::holders(machine);
        machine.heap.free_dead(&holders);
    }
}

/// "if they don't fit: 20, no steps, height 0"; it is a run, after which slots are zero, and so
/// are cells and entries.
fn misfit(
    rules: Rules,
    capacity: usize,
    stack: LentStack<'_>,
    heap: Heap,
    lent: LentHeap<'_>,
) -> Ran {
    if !rules.wrong(Fault::MisfitKeepsMemory) {
        write_back(rules, &[], capacity, stack);
    }
    if !rules.wrong(Fault::MisfitKeepsHeap) {
        heap::write_back(rules, &heap, lent);
    }
    let (outcome, steps, height) = (20, 0, 0);
    Ran::Ended {
        outcome,
        steps,
        height,
    }
}

/// "capacity is the smaller number of whole slots, at most 4,096"
pub fn capacity(rules: Rules, stack: &LentStack<'_>) -> usize {
    let slots = (stack.payloads.len() / 8).min(stack.types.len());
    if rules.wrong(Fault::CapacityLimitForgotten) {
        return slots;
    }
    slots.min(4096)
}

/// Answers 12 and 13, or the arguments as slots.
fn admit(rules: Rules, module: Module<'_>, call: Call<'_>) -> Result<Vec<Slot>, u32> {
    // 12: "run of a function that doesn't exist; FFFFFFFF names the entry, which takes no
    // arguments"
    let parameters = match module.signature(rules, call.function) {
        Some(Function { parameters, .. }) => parameters,
        None if call.function == ENTRY => {
            let given = !call.arg_types.is_empty() || !call.arg_payloads.is_empty();
            if given && rules.wrong(Fault::EntryArgumentsTwelve) {
                return Err(12);
            }
            Vec::new()
        }
        None => return Err(12),
    };
    let early = rules.wrong(Fault::ProfileBeforeArguments);
    refuse(early && profile::differs(rules, module, call), 17)?;
    // 13: "argument payload bytes are not 8 per type byte, types differ from the declaration,
    // an int argument has upper bits, or a parameter is a pointer", managed or not
    let eight = call.arg_types.len().checked_mul(8) == Some(call.arg_payloads.len());
    let numbers = parameters.iter().all(|&ty| can_come(rules, ty));
    if !eight || !numbers || call.arg_types != parameters.as_slice() {
        return Err(13);
    }
    let slots: Vec<Slot> = (0..parameters.len())
        .map(|n| Slot {
            ty: run_time(parameters[n]),
            payload: payload(call.arg_payloads, 8 * n),
        })
        .collect();
    let upper = |slot: &Slot| slot.ty == INT && slot.payload >> 32 != 0;
    if slots.iter().any(upper) && !rules.wrong(Fault::UpperBitsAdmitted) {
        return Err(13);
    }
    Ok(slots)
}

/// May an argument of this type come from the host? Only a number may.
pub fn can_come(rules: Rules, ty: u8) -> bool {
    let managed = is_managed(ty) && rules.wrong(Fault::ManagedAdmitted);
    is_number(ty) || managed || rules.wrong(Fault::PointerMapped)
}

/// "After any run, slots from the height to the capacity are zero; entries past the capacity
/// are untouched."
fn write_back(rules: Rules, slots: &[Slot], capacity: usize, stack: LentStack<'_>) {
    for (n, slot) in slots.iter().enumerate() {
        stack.payloads[8 * n..8 * n + 8].copy_from_slice(&slot.payload.to_le_bytes());
        stack.types[n] = slot.ty;
    }
    if rules.wrong(Fault::SlotsNotCleared) {
        return;
    }
    stack.payloads[8 * slots.len()..8 * capacity].fill(0);
    stack.types[slots.len()..capacity].fill(0);
    if rules.wrong(Fault::PastCapacityCleared) {
        stack.payloads[8 * capacity..].fill(0);
        stack.types[capacity..].fill(0);
    }
}

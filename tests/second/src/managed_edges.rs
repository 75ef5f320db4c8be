//! Which of `possible::MANAGED_EDGES` a run reaches.

use crate::heap::{Block, Holders, LISTED_MANAGED, NULL};
use crate::machine::Machine;
use crate::memory::RunMemory;
use crate::opcode::Op;
use crate::pointers::holders;
use crate::reader::Module;
use crate::types::{is_address, is_number, run_time, MANAGED};
use crate::words::payload;
use std::collections::{BTreeMap, BTreeSet};

/// A block right before a `gcnew`.
#[derive(Clone, Copy)]
struct Found {
    first: usize,
    length: usize,
    managed: bool,
    dead: bool,
    /// Is a value other than 0 in it?
    filled: bool,
}

/// The heap right before a `gcnew`.
pub struct Before {
    capacity: usize,
    blocks: Vec<Found>,
    /// How many cells are asked for.
    length: usize,
    /// Edges by slots alone.
    slots: Vec<&'static str>,
}

/// Edges with whether they are reached.
type Edges = Vec<(&'static str, bool)>;

fn reached(edges: Edges) -> Vec<&'static str> {
    let holding = edges.into_iter().filter(|edge| edge.1);
    holding.map(|edge| edge.0).collect()
}

/// Cells of a block of this type.
fn length(module: Module<'_>, ty: u32) -> usize {
    match module.fields(ty) {
        _ if u8::try_from(ty).is_ok_and(is_number) => 1,
        fields => fields.map_or(0, <[u8]>::len),
    }
}

/// The longest row of free cells between these blocks.
fn longest(capacity: usize, blocks: &[Found]) -> usize {
    let mut taken = vec![false; capacity];
    for block in blocks {
        taken[block.first..block.first + block.length].fill(true);
    }
    let rows = taken.split(|&cell| cell);
    rows.map(<[bool]>::len).max().unwrap_or(0)
}

impl Before {
    /// `operand`: the type that is asked for.
    pub fn new(machine: &Machine<'_>, operand: u32) -> Before {
        let (heap, holders) = (&machine.heap, holders(machine));
        let held = Held::of(machine);
        let managed = heap.blocks.iter().filter(|block| block.managed);
        let slots = managed.flat_map(|block| held.edges(machine, block.serial));
        let found = |block: &Block| Found {
            first: block.first,
            length: block.cells.len(),
            managed: block.managed,
            dead: heap.is_dead(block, &holders),
            filled: heap.cells[block.range()].iter().any(|&value| value != 0),
        };
        Before {
            capacity: heap.capacity,
            blocks: heap.blocks.iter().map(found).collect(),
            length: length(machine.module, operand),
            slots: slots.collect(),
        }
    }

    /// By what `gcnew` freed, packed and gave.
    pub fn of_gcnew(&self, machine: &Machine<'_>) -> Vec<&'static str> {
        let blocks = self.blocks.iter().copied();
        let kept: Vec<Found> = blocks.filter(|block| !block.dead).collect();
        let freed = self.blocks.len() - kept.len();
        let was_long = longest(self.capacity, &self.blocks) >= self.length;
        let packed = longest(self.capacity, &kept) < self.length;
        let used: usize = kept.iter().map(|block| block.length).sum();
        let null = machine.stack.last().map(|slot| slot.payload) == Some(NULL);
        let managed = self.blocks.iter().any(|block| block.managed);
        let few = self.capacity - used < self.length;
        let mut edges = reached(vec![
            ("no cells", self.capacity == 0),
            ("nothing dead", managed && freed == 0),
            ("one freed", freed == 1),
            ("several freed", freed > 1),
            ("freed though a run was long enough", freed > 0 && was_long),
            ("a run by freeing", !was_long && !packed),
            ("freed, and null given", freed > 0 && null),
            ("packed, and given", packed && !null),
            ("packed, and null given", packed && null),
            (
                "packed, and too few cells",
                packed && !kept.is_empty() && few,
            ),
        ]);
        edges.extend(&self.slots);
        if packed {
            edges.extend(of_packing(&kept));
        }
        edges
    }
}

/// By where packing puts the blocks that stay.
fn of_packing(kept: &[Found]) -> Vec<&'static str> {
    let mut first = 0;
    let mut moved = Vec::new();
    for block in kept {
        if block.first != first {
            moved.push((block, first));
        }
        first += block.length;
    }
    let any = |such: fn(&(&Found, usize)) -> bool| moved.iter().any(such);
    reached(vec![
        (
            "packed, and nothing moved",
            moved.is_empty() && !kept.is_empty(),
        ),
        ("a managed block moved", any(|moved| moved.0.managed)),
        ("another block moved", any(|moved| !moved.0.managed)),
        ("a block moved up", any(|moved| moved.0.first < moved.1)),
        ("payloads moved", any(|moved| moved.0.filled)),
        (
            "serials not in order of place",
            !kept.iter().map(|block| block.first).is_sorted(),
        ),
    ])
}

/// By serial, the type 8 slots that hold it, and which serials slots of other types seem to hold.
#[derive(Default)]
struct Held {
    slots: BTreeMap<u64, Vec<usize>>,
    others: BTreeSet<u64>,
}

impl Held {
    fn of(machine: &Machine<'_>) -> Held {
        let mut held = Held::default();
        for (n, slot) in machine.stack.iter().enumerate() {
            let serial = slot.payload >> 16;
            if slot.ty == MANAGED {
                held.slots.entry(serial).or_default().push(n);
            } else {
                held.others.insert(serial);
            }
        }
        held
    }

    /// What holds a managed block, where it is one slot or two; or what looks like that.
    fn edges(&self, machine: &Machine<'_>, serial: u64) -> Vec<&'static str> {
        match self.slots.get(&serial).map_or(&[][..], |slots| slots) {
            [] if self.others.contains(&serial) => vec!["a number like a dead block's pointer"],
            &[n] => {
                let field = machine.stack[n].payload & 0xFFFF != 0;
                let by_field = field.then_some("held by a field's pointer alone");
                [place(machine, n)].into_iter().chain(by_field).collect()
            }
            [_, _] => vec!["held by two slots"],
            _ => Vec::new(),
        }
    }
}

/// Which kind of slot this is.
fn place(machine: &Machine<'_>, slot: usize) -> &'static str {
    let frame = machine.frame();
    if slot < frame.first {
        "held by a caller's slot alone"
    } else if frame.locals.contains(&slot) {
        "held by a local alone"
    } else if slot < frame.operands() {
        "held by a buried slot alone"
    } else {
        "held by an operand alone"
    }
}

fn has_dead(machine: &Machine<'_>) -> bool {
    let holders = holders(machine);
    let mut blocks = machine.heap.blocks.iter();
    blocks.any(|block| machine.heap.is_dead(block, &holders))
}

/// By what `new` just gave.
pub fn of_new(machine: &Machine<'_>) -> Option<&'static str> {
    let null = machine.stack.last().map(|slot| slot.payload) == Some(NULL);
    (null && has_dead(machine)).then_some("new gives null beside dead blocks")
}

/// By an exception, which leaves the state as before it.
pub fn raised(machine: &Machine<'_>, op: Op, number: u32) -> Option<&'static str> {
    let full = machine.stack.len() >= machine.capacity;
    let own = machine.stack.len() - machine.frame().operands();
    let top = machine.stack.last().filter(|_| own > 0);
    let (edge, holds) = match (op, number) {
        (Op::GcNew, 20) => ("20 beside dead blocks", has_dead(machine)),
        (Op::GcNew, 37) => ("37 on a full stack", full),
        (Op::Delete, 31) => {
            let null = top.is_some_and(|slot| slot.payload == NULL);
            let edges = ["31 by a managed block", "31 by gcnull"];
            let managed = top.is_some_and(|slot| slot.ty == MANAGED);
            (edges[usize::from(null)], managed)
        }
        (op, 22) => {
            let (edge, other) = beside(machine, op)?;
            let types = top.map(|slot| slot.ty).zip(other);
            let across = types.is_some_and(|(a, b)| a != b && is_address(a) && is_address(b));
            (edge, across)
        }
        _ => return None,
    };
    holds.then_some(edge)
}

/// The edge of types 7 and 8 together in this instruction, and the type that the top operand's is
/// compared with.
fn beside(machine: &Machine<'_>, op: Op) -> Option<(&'static str, Option<u8>)> {
    let own = machine.stack.len() - machine.frame().operands();
    let under = machine.stack.iter().nth_back(1).filter(|_| own > 1);
    let under = under.map(|slot| slot.ty);
    let at = machine.module.instruction(machine.rules, machine.place);
    let operand = at.map_or(0, |at| at.operand);
    Some(match op {
        Op::Cmp | Op::Icmp => ("compared across", under),
        Op::Swap => ("swapped across", under),
        Op::Store => {
            let slot = machine.frame().locals.get(operand as usize);
            let local = slot.map(|&slot| machine.stack[slot].ty);
            ("stored across", local)
        }
        Op::Call => {
            let function = machine.module.function(operand);
            let last = function.and_then(|f| f.parameters.last().copied());
            ("called across", last.map(run_time))
        }
        Op::Ret => {
            let function = machine.module.function(machine.frame().body);
            ("returned across", function.map(|f| run_time(f.returns)))
        }
        _ => return None,
    })
}

/// By what the table lists after a run; `capacity`: how many entries are the run's.
pub fn of_run(memory: &RunMemory, capacity: usize) -> Vec<&'static str> {
    let slots = memory.types.slice().iter().enumerate();
    let held: Holders = slots
        .take(memory.height as usize)
        .filter(|(_, &ty)| ty == MANAGED)
        .map(|(n, _)| payload(memory.payloads.slice(), 8 * n) >> 16)
        .collect();
    let entries = memory.blocks.slice().chunks(24).take(capacity);
    let listed: Vec<(u64, bool)> = entries
        .map(|entry| (payload(entry, 0), payload(entry, 16)))
        .filter(|&(serial, _)| serial != 0)
        .map(|(serial, ty)| (serial, ty >= u64::from(LISTED_MANAGED)))
        .collect();
    let managed = listed.iter().any(|block| block.1);
    reached(vec![
        ("managed blocks listed", managed),
        (
            "dead blocks listed",
            listed.iter().any(|block| block.1 && !held.hold(block.0)),
        ),
        (
            "both kinds listed",
            managed && listed.iter().any(|block| !block.1),
        ),
    ])
}

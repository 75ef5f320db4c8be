//! Calls: function numbers, arguments, profiles, allowances, capacities.

use super::case::RunCall;
use super::constants::payload;
use super::profiles::named;
use super::rng::Rng;
use crate::heap::{LentHeap, CELL, ENTRY as BLOCK, MOST_CELLS};
use crate::machine::{Machine, Watch};
use crate::opcode::Op;
use crate::reader::{read, Module, ENTRY};
use crate::rules::Rules;
use crate::run::{run_watched, Call, LentStack, Ran};
use crate::types::{is_number, INT};

/// What a first, generous run shows.
#[derive(Default)]
pub struct Trial {
    pub steps: u64,
    pub height: usize,
    /// Cells up to the highest that a block had.
    pub cells: usize,
    /// The cells of all blocks, right after each `gcnew`.
    pub packed: Vec<usize>,
    /// Nothing in the module can be repeated, so any allowance will do.
    pub straight: bool,
}

/// The highest slot, the highest cell, and the cells of all blocks after each `gcnew`.
#[derive(Default)]
struct Highest {
    slot: usize,
    cell: usize,
    packed: Vec<usize>,
}

impl Watch for Highest {
    fn after(&mut self, machine: &Machine<'_>, op: Op, _raised: Option<u32>) {
        self.slot = self.slot.max(machine.stack.len());
        let blocks = machine.heap.blocks.iter();
        if op.has_type() {
            let ends = blocks.clone().map(|block| block.range().end);
            self.cell = self.cell.max(ends.max().unwrap_or(0));
        }
        if op == Op::GcNew {
            self.packed
                .push(blocks.map(|block| block.cells.len()).sum());
        }
    }
}

/// Some runs of a module.
pub fn runs(rng: &mut Rng, file: &[u8]) -> Vec<RunCall> {
    let count = rng.pick(&[1, 2, 2, 3]);
    (0..count).map(|_| run(rng, file)).collect()
}

fn run(rng: &mut Rng, file: &[u8]) -> RunCall {
    let module = read(Rules::PLAIN, file).ok();
    let function = function(rng, module);
    let declared = module.and_then(|m| m.function(function));
    let own = declared.as_ref().map_or(0, |f| f.profile);
    let parameters = declared.map_or(Vec::new(), |f| f.parameters);
    let (arg_types, arg_payloads) = arguments(rng, &parameters);
    let mut call = RunCall {
        function,
        arg_types,
        arg_payloads,
        profile: named(rng, own),
        allowance: 2000,
        payloads: Vec::new(),
        types: Vec::new(),
        heap: Vec::new(),
        blocks: Vec::new(),
        shift: rng.below(8),
    };
    let heap = module.is_some_and(|m| m.edition.has_heap());
    let mut trial = trial(file, &call, if heap { TRIAL_CELLS } else { 0 });
    trial.straight = module.is_some_and(|m| m.labels == 0);
    call.allowance = allowance(rng, &trial);
    let (payloads, types) = lengths(rng, &trial);
    call.payloads = rng.bytes(payloads);
    call.types = rng.bytes(types);
    let (cells, entries) = heap_lengths(rng, heap, &trial);
    call.heap = rng.bytes(cells);
    call.blocks = rng.bytes(entries);
    call
}

fn function(rng: &mut Rng, module: Option<Module<'_>>) -> u32 {
    let count = module.map_or(0, |m| m.functions);
    if rng.one_in(25) {
        return rng.pick(&[count, count + 1, 0xFFFF_FFFE, 0x8000_0000, 128]);
    }
    if count == 0 || rng.percent(60) {
        return ENTRY;
    }
    let callable: Vec<u32> = (0..count)
        .filter(|&n| {
            let function = module.and_then(|m| m.function(n));
            function.is_some_and(|f| f.parameters.iter().all(|&ty| is_number(ty)))
        })
        .collect();
    if callable.is_empty() || rng.one_in(12) {
        rng.below(count as usize) as u32
    } else {
        rng.pick(&callable)
    }
}

/// Argument types and payloads, mostly right.
fn arguments(rng: &mut Rng, parameters: &[u8]) -> (Vec<u8>, Vec<u8>) {
    let mut types = parameters.to_vec();
    let mut values: Vec<u64> = types.iter().map(|&ty| payload(rng, ty)).collect();
    let mut cut = 0;
    if rng.one_in(12) {
        match rng.below(7) {
            0 if !types.is_empty() => {
                let n = rng.below(types.len());
                types[n] = rng.pick(&[0, 3, 4, 6, 7, 8, 0x80, 0x83, 0x8A, 0xC0, 0xC3]);
            }
            1 => drop((types.pop(), values.pop())),
            2 => {
                types.push(rng.pick(&[3, 4, 6, 7, 8]));
                values.push(rng.any());
            }
            3 => values.push(0),
            4 => drop(values.pop()),
            5 => cut = rng.range(1, 7),
            _ => upper_bits(rng, &types, &mut values),
        }
    }
    let mut bytes: Vec<u8> = values.iter().flat_map(|v| v.to_le_bytes()).collect();
    if cut > 0 && bytes.is_empty() {
        bytes = rng.bytes(cut);
    }
    bytes.truncate(bytes.len().saturating_sub(cut).max(usize::from(cut > 0)));
    (types, bytes)
}

/// Sets upper bits of an int argument, if there is one.
fn upper_bits(rng: &mut Rng, types: &[u8], values: &mut [u64]) {
    let ints: Vec<usize> = (0..types.len()).filter(|&n| types[n] == INT).collect();
    if !ints.is_empty() {
        values[rng.pick(&ints)] |= 1 << rng.range(32, 63);
    }
}

/// Cells of a first run, as many as the small program lends.
pub const TRIAL_CELLS: usize = 1024;

/// The generous run of a call, on this many cells.
pub fn trial(file: &[u8], call: &RunCall, cells: usize) -> Trial {
    let (mut heap, mut blocks) = (vec![0; CELL * cells], vec![0; BLOCK * cells]);
    let (mut payloads, mut types) = (vec![0; 8 * 4096], vec![0; 4096]);
    let mut highest = Highest::default();
    let stack = LentStack {
        payloads: &mut payloads,
        types: &mut types,
    };
    let wanted = Call {
        function: call.function,
        arg_types: &call.arg_types,
        arg_payloads: &call.arg_payloads,
        profile: call.profile,
        allowance: call.allowance,
    };
    let heap = LentHeap {
        cells: &mut heap,
        blocks: &mut blocks,
    };
    let steps = match run_watched(Rules::PLAIN, file, wanted, stack, heap, &mut highest) {
        Ran::Refused(_) => 0,
        Ran::Ended { steps, .. } => steps,
    };
    Trial {
        steps,
        height: highest.slot.max(call.arg_types.len()),
        cells: highest.cell,
        packed: highest.packed,
        straight: false,
    }
}

/// An allowance around the steps of a first run, or any.
pub fn allowance(rng: &mut Rng, trial: &Trial) -> u64 {
    let some = rng.below(trial.steps as usize + 1) as u64;
    match rng.below(12) {
        0 => rng.below(3) as u64,
        1 => trial.steps,
        2 => trial.steps.saturating_sub(1),
        3 => some,
        4 | 5 if trial.straight => rng.pick(&[u64::MAX, 1 << 63, (1 << 32) + some, 1 << 32]),
        4 => trial.steps + 1,
        5 => rng.below(6000) as u64,
        _ => trial.steps + rng.range(1, 2000) as u64,
    }
}

/// Bytes of payloads and of types that are lent.
pub fn lengths(rng: &mut Rng, trial: &Trial) -> (usize, usize) {
    let slots = match rng.below(24) {
        0 => 0,
        1 => 1,
        2 | 3 => rng.range(2, 8),
        4..=7 => trial.height,
        8..=10 => trial.height.saturating_sub(1),
        11 => trial.height + 1,
        12 if rng.one_in(2) => rng.range(4094, 4100),
        13 if rng.one_in(4) => 5000,
        _ => trial.height + rng.range(2, 40),
    };
    let more = rng.range(1, 5);
    match rng.below(10) {
        0 => (8 * slots + rng.range(1, 7), slots),
        1 => (8 * (slots + more), slots),
        2 => (8 * slots, slots + more),
        3 => (8 * slots + rng.range(1, 7), slots + more),
        _ => (8 * slots, slots),
    }
}

/// Bytes of heap and of block entries that are lent: around what a first run took, none, one, a
/// few, and around the limit; mostly as many of both. Of a run with managed blocks often just as
/// many as all, or some, of its `gcnew` can do with where they free and pack.
pub fn heap_lengths(rng: &mut Rng, heap: bool, trial: &Trial) -> (usize, usize) {
    let taken = trial.cells;
    if let Some(&most) = trial.packed.iter().max().filter(|_| rng.percent(70)) {
        let some = rng.pick(&trial.packed);
        let cells = rng.pick(&[most, most, some]) + rng.below(3);
        return (CELL * cells, BLOCK * cells);
    }
    let cells = match rng.below(40) {
        0..=3 => 0,
        4..=6 => 1,
        7..=14 => rng.range(2, 12),
        15 if heap && rng.one_in(3) => rng.range(MOST_CELLS - 1, MOST_CELLS + 3),
        16 if heap && rng.one_in(3) => MOST_CELLS,
        17 if !heap && rng.one_in(20) => rng.range(MOST_CELLS - 1, MOST_CELLS + 1),
        18..=22 => taken,
        23..=25 => taken.saturating_sub(1),
        26 => taken / 2,
        27 => taken + 1,
        _ => taken + rng.range(1, 20),
    };
    let more = rng.range(1, 4);
    let (part, piece) = (rng.range(1, CELL - 1), rng.range(1, BLOCK - 1));
    match rng.below(12) {
        0 => (CELL * cells + part, BLOCK * cells),
        1 => (CELL * cells, BLOCK * cells + piece),
        2 => (CELL * (cells + more) + part, BLOCK * cells),
        3 => (CELL * cells, BLOCK * (cells + more) + piece),
        4 => (CELL * (cells + more), BLOCK * cells + piece),
        _ => (CELL * cells, BLOCK * cells),
    }
}

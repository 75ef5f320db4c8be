//! The heap, document 02's A6: "a lent heap of 8-byte cells, holding payloads as slots do, with a
//! lent table of 24-byte block entries (serial, first cell, type, 8 bytes each, little endian)".
//! `managed` has what A9 adds.

mod managed;

use crate::reader::Module;
use crate::rules::{Fault, Rules};
use crate::types::{is_number, STRUCTURE};
use crate::words::payload;
pub use managed::{Holders, LISTED_MANAGED};
use std::ops::Range;

/// Bytes of a cell, and of a block entry.
pub const CELL: usize = 8;
pub const ENTRY: usize = 24;
/// "capacity is the smaller count, at most 4,096"
pub const MOST_CELLS: usize = 4096;
/// "null is all ones"
pub const NULL: u64 = u64::MAX;
/// "serials (to 2^48 - 2)"
pub const LAST_SERIAL: u64 = (1 << 48) - 2;

/// Heap and table as they are lent.
pub struct LentHeap<'a> {
    pub cells: &'a mut [u8],
    pub blocks: &'a mut [u8],
}

impl LentHeap<'_> {
    /// The same heap, for one run of several.
    pub fn again(&mut self) -> LentHeap<'_> {
        LentHeap {
            cells: self.cells,
            blocks: self.blocks,
        }
    }
}

/// What a pointer's payload says.
#[derive(Clone, Copy, Debug, PartialEq, Eq)]
pub enum Address {
    Null,
    /// "stack pointers have serial 0 and their slot"
    Slot(u64),
    /// "0 for the whole block or 1 + field"
    Block {
        serial: u64,
        part: u64,
    },
}

/// "A pointer's payload is its block's serial times 65,536, plus 0 for the whole block or 1 +
/// field."
pub fn address(payload: u64) -> Address {
    match (payload, payload >> 16) {
        (NULL, _) => Address::Null,
        (slot, 0) => Address::Slot(slot),
        (_, serial) => Address::Block {
            serial,
            part: payload & 0xFFFF,
        },
    }
}

/// The payload of a pointer to a part of a block.
pub fn pointer(serial: u64, part: u64) -> u64 {
    serial << 16 | part
}

/// A live block.
#[derive(Clone, Debug, PartialEq, Eq)]
pub struct Block {
    pub serial: u64,
    pub first: usize,
    /// 3, 4, 6 or a structure's number.
    pub ty: u8,
    /// The type of each of its cells.
    pub cells: Vec<u8>,
    /// Was it given by `gcnew`?
    pub managed: bool,
}

impl Block {
    /// Its cells in the heap.
    pub fn range(&self) -> Range<usize> {
        self.first..self.first + self.cells.len()
    }
}

/// What a pointer to a part of a live block names.
#[derive(Clone, Copy, Debug, PartialEq, Eq)]
pub enum Part {
    /// A number, in this cell.
    Number { cell: usize, ty: u8 },
    /// A whole structure.
    Structure,
}

#[derive(Clone, Debug)]
pub struct Heap {
    rules: Rules,
    pub capacity: usize,
    /// The payload of each cell; what a free cell holds doesn't matter.
    pub cells: Vec<u64>,
    /// The live blocks by serial.
    pub blocks: Vec<Block>,
    /// "Serials count a run's blocks from 1, as given".
    pub next: u64,
    /// Which cells are free.
    free: Vec<bool>,
    /// No run of free cells is as long as this.
    too_long: usize,
}

impl Heap {
    /// The heap of a run on what is lent.
    pub fn at_start(rules: Rules, module: Module<'_>, lent: &LentHeap<'_>) -> Heap {
        let mut heap = Heap::new(rules, capacity(rules, lent));
        if rules.wrong(Fault::HeapKept) {
            heap.keep(module, lent);
        }
        heap
    }

    /// Wrong on purpose: the blocks that the lent table lists, as far as they can be blocks.
    fn keep(&mut self, module: Module<'_>, lent: &LentHeap<'_>) {
        for entry in lent.blocks.chunks_exact(ENTRY).take(self.capacity) {
            let [serial, first, number] = [0, 8, 16].map(|at| payload(entry, at));
            let Ok(listed) = u8::try_from(number) else {
                return;
            };
            let managed = listed >= LISTED_MANAGED;
            let ty = listed - if managed { LISTED_MANAGED } else { 0 };
            let cells = match module.fields(u32::from(ty)) {
                _ if is_number(ty) => vec![ty],
                fields => fields.unwrap_or_default().to_vec(),
            };
            let end = first.checked_add(cells.len() as u64);
            let inside = end.is_some_and(|end| end <= self.capacity as u64);
            if cells.is_empty() || !inside || !(self.next..LAST_SERIAL).contains(&serial) {
                return;
            }
            let first = first as usize;
            for cell in first..first + cells.len() {
                self.cells[cell] = payload(lent.cells, CELL * cell);
                self.free[cell] = false;
            }
            self.next = serial + 1;
            self.blocks.push(Block {
                serial,
                first,
                ty,
                cells,
                managed,
            });
        }
    }

    /// A run starts without blocks.
    pub fn new(rules: Rules, capacity: usize) -> Heap {
        Heap {
            rules,
            capacity,
            cells: vec![0; capacity],
            blocks: Vec::new(),
            next: 1,
            free: vec![true; capacity],
            too_long: capacity + 1,
        }
    }

    /// "`new` takes the lowest run of free cells that fits and clears it; it gives null exactly
    /// when there is none or serials (to 2^48 - 2) have run out."
    pub fn give(&mut self, ty: u8, cells: Vec<u8>) -> u64 {
        self.give_as(ty, cells, false)
    }

    fn give_as(&mut self, ty: u8, cells: Vec<u8>, managed: bool) -> u64 {
        let run = self.run(cells.len());
        let Some(first) = run.filter(|_| self.next <= LAST_SERIAL) else {
            self.next += u64::from(self.rules.wrong(Fault::NullTakesSerial));
            return self.null();
        };
        if !self.rules.wrong(Fault::NewKeepsCells) {
            self.cells[first..first + cells.len()].fill(0);
        }
        self.free[first..first + cells.len()].fill(false);
        let serial = self.serial();
        let block = Block {
            serial,
            first,
            ty,
            cells,
            managed,
        };
        let at = self.blocks.partition_point(|other| other.serial < serial);
        self.blocks.insert(at, block);
        let field = ty < STRUCTURE && self.rules.wrong(Fault::NumberIsField);
        pointer(serial, u64::from(field))
    }

    /// The payload of a null pointer.
    pub fn null(&self) -> u64 {
        if self.rules.wrong(Fault::NullIsZero) {
            0
        } else {
            NULL
        }
    }

    /// The next serial, which is never used again.
    fn serial(&mut self) -> u64 {
        if self.rules.wrong(Fault::SerialReused) {
            let gone = |serial: &u64| self.block(*serial).is_none();
            return (1..).find(gone).unwrap_or(1);
        }
        self.next += 1;
        self.next - 1
    }

    /// The first cell of "the lowest run of free cells that fits".
    fn run(&mut self, length: usize) -> Option<usize> {
        let wrong = [Fault::HighestRun, Fault::SmallestRun, Fault::RunPastBlocks];
        if wrong.into_iter().any(|fault| self.rules.wrong(fault)) {
            return self.wrong_run(length);
        }
        if length >= self.too_long {
            return None;
        }
        let mut row = 0;
        for (cell, &free) in self.free.iter().enumerate() {
            row = if free { row + 1 } else { 0 };
            if row == length {
                return Some(cell + 1 - length);
            }
        }
        self.too_long = length;
        None
    }

    /// Wrong on purpose: another run that fits.
    fn wrong_run(&self, length: usize) -> Option<usize> {
        let fits = |&first: &usize| self.free[first..first + length].iter().all(|&cell| cell);
        let mut firsts = 0..(self.capacity + 1).saturating_sub(length);
        if self.rules.wrong(Fault::HighestRun) {
            return firsts.rev().find(fits);
        }
        if self.rules.wrong(Fault::SmallestRun) {
            return firsts
                .filter(fits)
                .min_by_key(|&first| extent(&self.free, first));
        }
        let past = self.blocks.iter().map(|block| block.range().end);
        let past = past.max().unwrap_or(0);
        firsts.find(|first| *first >= past)
    }

    /// The live block of a serial.
    pub fn block(&self, serial: u64) -> Option<&Block> {
        let at = self.blocks.partition_point(|block| block.serial < serial);
        self.blocks.get(at).filter(|block| block.serial == serial)
    }

    /// Takes a block back; its cells are free.
    pub fn free(&mut self, serial: u64) {
        let at = self.blocks.partition_point(|block| block.serial < serial);
        if self.block(serial).is_some() {
            let block = self.blocks.remove(at);
            self.free[block.range()].fill(true);
            self.too_long = self.capacity + 1;
        }
    }

    /// What a part of a block is; nothing for "A heap pointer to no live block, or no field of
    /// it".
    pub fn part(&self, serial: u64, part: u64) -> Option<Part> {
        let block = self.block(serial)?;
        let number = block.ty < STRUCTURE;
        let field = match part {
            0 if !number => return Some(Part::Structure),
            0 => 0,
            1 if number && self.rules.wrong(Fault::NumberIsField) => 0,
            _ if number => return None,
            part => part as usize - usize::from(!self.rules.wrong(Fault::FieldFromZero)),
        };
        let ty = *block.cells.get(field)?;
        let cell = block.first + field;
        Some(Part::Number { cell, ty })
    }
}

/// How long the run of free cells around this one is.
fn extent(free: &[bool], first: usize) -> usize {
    let before = free[..first].iter().rev().take_while(|&&cell| cell);
    let after = free[first..].iter().take_while(|&&cell| cell);
    before.count() + after.count()
}

/// "capacity is the smaller count, at most 4,096"
pub fn capacity(rules: Rules, lent: &LentHeap<'_>) -> usize {
    let (cells, entries) = (lent.cells.len() / CELL, lent.blocks.len() / ENTRY);
    let smaller = if rules.wrong(Fault::LargerCount) {
        cells.max(entries)
    } else {
        cells.min(entries)
    };
    if rules.wrong(Fault::HeapLimitForgotten) {
        return smaller;
    }
    smaller.min(MOST_CELLS)
}

/// "After a run the table lists the live blocks by serial; other entries and free cells are
/// zero." "the rest untouched"
pub fn write_back(rules: Rules, heap: &Heap, lent: LentHeap<'_>) {
    let mut cells = vec![0; heap.capacity];
    if rules.wrong(Fault::FreeCellsKept) {
        cells.clone_from(&heap.cells);
    }
    let mut table = Vec::new();
    for block in listed(rules, heap) {
        cells[block.range()].copy_from_slice(&heap.cells[block.range()]);
        let ty = u64::from(managed::listed(rules, block));
        table.extend([block.serial, block.first as u64, ty]);
    }
    table.resize(ENTRY / 8 * heap.capacity, 0);
    if rules.wrong(Fault::HeapPastCapacityCleared) {
        lent.cells.fill(0);
        lent.blocks.fill(0);
    }
    if rules.wrong(Fault::EntriesKept) {
        table.truncate(ENTRY / 8 * heap.blocks.len());
    }
    put(&cells, lent.cells);
    put(&table, lent.blocks);
}

/// The live blocks in the order of the table.
fn listed(rules: Rules, heap: &Heap) -> Vec<&Block> {
    let mut blocks: Vec<&Block> = heap.blocks.iter().collect();
    if rules.wrong(Fault::TableByCell) {
        blocks.sort_by_key(|block| block.first);
    }
    blocks
}

/// Words into whole eights of bytes, as far as there are any.
fn put(words: &[u64], bytes: &mut [u8]) {
    for (word, bytes) in words.iter().zip(bytes.chunks_exact_mut(8)) {
        bytes.copy_from_slice(&word.to_le_bytes());
    }
}

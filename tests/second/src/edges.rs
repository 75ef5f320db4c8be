//! Which of `possible::HEAP_EDGES` a run reaches.

use crate::gen::case::RunCall;
use crate::heap::{Heap, CELL, ENTRY, MOST_CELLS, NULL};
use crate::machine::Machine;
use crate::opcode::Edition;

/// How many cells and entries are a run's.
pub fn capacity(run: &RunCall) -> usize {
    let (cells, entries) = (run.heap.len() / CELL, run.blocks.len() / ENTRY);
    cells.min(entries).min(MOST_CELLS)
}

/// By what was lent to a run that ended; `misfit`: the arguments didn't fit.
pub fn lent(edition: Edition, run: &RunCall, misfit: bool) -> Vec<&'static str> {
    let (cells, entries) = (run.heap.len() / CELL, run.blocks.len() / ENTRY);
    let capacity = cells.min(entries);
    let mut edges = Vec::new();
    let mut reaches = |edge, holds: bool| edges.extend(holds.then_some(edge));
    if edition != Edition::Four {
        reaches("edition 1", edition == Edition::One && capacity > 0);
        reaches("edition 3", edition == Edition::Three && capacity > 0);
        return edges;
    }
    reaches("no cells", capacity == 0);
    reaches("one cell", capacity == 1);
    let part = |len: usize, size: usize| !len.is_multiple_of(size);
    reaches("part of a cell", part(run.heap.len(), CELL));
    reaches("part of an entry", part(run.blocks.len(), ENTRY));
    reaches("fewer cells", cells < entries);
    reaches("fewer entries", entries < cells);
    reaches("4,096", capacity == MOST_CELLS);
    reaches("over 4,096", capacity > MOST_CELLS);
    reaches("arguments don't fit", misfit && capacity > 0);
    edges
}

/// By what `new` just gave.
pub fn given(machine: &Machine<'_>) -> Vec<&'static str> {
    let heap = &machine.heap;
    let used: usize = heap.blocks.iter().map(|block| block.cells.len()).sum();
    let top = machine.stack.last().map_or(0, |slot| slot.payload);
    if top == NULL {
        return Vec::from_iter((used < heap.capacity).then_some("null with free cells"));
    }
    let Some(given) = heap.block(top >> 16) else {
        return Vec::new();
    };
    let mut edges = Vec::new();
    let mut reaches = |edge, holds: bool| edges.extend(holds.then_some(edge));
    let end = given.first + given.cells.len();
    reaches("last cell given", end == heap.capacity);
    let above = heap.blocks.iter().any(|block| block.first > given.first);
    reaches("a hole given", above);
    let below = heap.blocks.iter().filter(|block| block.first < given.first);
    let full: usize = below.map(|block| block.cells.len()).sum();
    reaches("a hole passed over", full < given.first);
    edges
}

/// By the blocks that are live when a run ends.
pub fn left(heap: &Heap) -> Option<&'static str> {
    let firsts = heap.blocks.iter().map(|block| block.first);
    (!firsts.is_sorted()).then_some("table not by cell")
}

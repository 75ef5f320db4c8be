//! Managed blocks, document 02's A9: "`gcnew` first frees the dead blocks, then packs the rest,
//! managed or not, toward cell 0 in serial order if no run is long enough, then does as `new`."

use super::{Block, Heap};
use crate::rules::{Fault, Rules};

/// "with 64 added to its type"
pub const LISTED_MANAGED: u8 = 64;

/// The serials that type 8 slots below the height hold, each once and rising.
#[derive(Clone, Debug, Default)]
pub struct Holders(Vec<u64>);

impl FromIterator<u64> for Holders {
    fn from_iter<I: IntoIterator<Item = u64>>(serials: I) -> Holders {
        let mut all: Vec<u64> = serials.into_iter().collect();
        all.sort_unstable();
        all.dedup();
        Holders(all)
    }
}

impl Holders {
    pub fn hold(&self, serial: u64) -> bool {
        self.0.binary_search(&serial).is_ok()
    }
}

/// A block's type as the table has it: "A managed block is listed until freed, with 64 added to its
/// type".
pub fn listed(rules: Rules, block: &Block) -> u8 {
    if block.managed && !rules.wrong(Fault::ListedPlain) {
        return LISTED_MANAGED + block.ty;
    }
    block.ty
}

impl Heap {
    /// What `gcnew` gives.
    pub fn give_managed(&mut self, ty: u8, cells: Vec<u8>, holders: &Holders) -> u64 {
        if self.rules.wrong(Fault::PackedBeforeFreeing) {
            self.pack_for(cells.len());
        }
        let short = self.rules.wrong(Fault::FreedWhenShort) && self.run(cells.len()).is_some();
        if !short {
            self.free_dead(holders);
        }
        if !self.rules.wrong(Fault::PackedBeforeFreeing) {
            self.pack_for(cells.len());
        }
        self.give_as(ty, cells, true)
    }

    /// "it is dead when no type 8 slot below the height holds its serial"
    pub fn is_dead(&self, block: &Block, holders: &Holders) -> bool {
        block.managed && !holders.hold(block.serial)
    }

    /// Every dead block's cells are free, and it is listed no more.
    pub fn free_dead(&mut self, holders: &Holders) {
        if self.rules.wrong(Fault::DeadKept) {
            return;
        }
        let all = self.rules.wrong(Fault::LiveFreed);
        let is_freed = |block: &&Block| block.managed && all || self.is_dead(block, holders);
        let freed = self.blocks.iter().filter(is_freed);
        let freed: Vec<u64> = freed.map(|block| block.serial).collect();
        for &serial in &freed {
            self.free(serial);
        }
        if self.rules.wrong(Fault::FreedSerialReused) && !freed.is_empty() {
            self.next = self.blocks.last().map_or(1, |block| block.serial + 1);
        }
    }

    /// "packs the rest, managed or not, ... if no run is long enough", whether this helps or not.
    pub fn pack_for(&mut self, length: usize) {
        let none = self.run(length).is_none() && !self.rules.wrong(Fault::PackedNever);
        let free = || self.free.iter().filter(|&&cell| cell).count();
        let vain = self.rules.wrong(Fault::PackedWhereItHelps) && free() < length;
        if none && !vain || self.rules.wrong(Fault::PackedAlways) {
            self.pack();
        }
    }

    /// "toward cell 0 in serial order": each block right after the one before it, with its payloads.
    pub fn pack(&mut self) {
        let mut order: Vec<usize> = (0..self.blocks.len()).collect();
        if self.rules.wrong(Fault::PackedByPlace) {
            order.sort_by_key(|&n| self.blocks[n].first);
        } else if self.rules.wrong(Fault::PackedNewestFirst) {
            order.reverse();
        } else if self.rules.wrong(Fault::OthersStay) {
            return self.pack_managed();
        }
        let used: usize = self.blocks.iter().map(|block| block.cells.len()).sum();
        let mut first = 0;
        if self.rules.wrong(Fault::PackedUp) {
            first = self.capacity - used;
        }
        let places: Vec<(usize, usize)> = order
            .into_iter()
            .map(|n| {
                first += self.blocks[n].cells.len();
                (n, first - self.blocks[n].cells.len())
            })
            .collect();
        self.move_to(&places);
    }

    /// Moves blocks, by their number in the table, to first cells where they lie apart.
    fn move_to(&mut self, places: &[(usize, usize)]) {
        if places
            .iter()
            .all(|&(n, first)| self.blocks[n].first == first)
        {
            return;
        }
        let before = self.cells.clone();
        self.free.fill(true);
        self.too_long = self.capacity + 1;
        for &(n, first) in places {
            let from = self.blocks[n].range();
            self.blocks[n].first = first;
            let to = self.blocks[n].range();
            self.free[to.clone()].fill(false);
            if !self.rules.wrong(Fault::CellsNotMoved) {
                self.cells[to].copy_from_slice(&before[from]);
            }
        }
    }

    /// Wrong on purpose: only managed blocks are moved, each to the lowest run that fits.
    fn pack_managed(&mut self) {
        let mut taken = vec![false; self.capacity];
        for block in self.blocks.iter().filter(|block| !block.managed) {
            taken[block.range()].fill(true);
        }
        let mut places = Vec::new();
        for (n, block) in self.blocks.iter().enumerate() {
            let length = block.cells.len();
            let mut firsts = 0..(self.capacity + 1).saturating_sub(length);
            let lowest = firsts.find(|&first| !taken[first..first + length].contains(&true));
            let place = match lowest {
                Some(first) if block.managed => first,
                // where the others leave no run, nothing is moved
                None if block.managed => return,
                _ => block.first,
            };
            taken[place..place + length].fill(true);
            places.push((n, place));
        }
        self.move_to(&places);
    }
}

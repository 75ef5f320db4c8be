//! Calls for the needs: modules of all sorts, rooms and reports around their lengths, and runs of what
//! the host may run. `nested` makes modules of calls under buried slots, `deep` long chains of calls,
//! `graph` many small functions.

mod deep;
mod graph;
mod nested;

use super::case::{self, RunCall, BODY_BEFORE, HEIGHT_BEFORE, STEPS_BEFORE};
use super::constants::payload;
use super::profiles::given;
use super::rng::Rng;
use super::tables::WRITTEN_BEFORE;
use crate::heap::{CELL, ENTRY as BLOCK};
use crate::hex;
use crate::memory::{Lent, NeedMemory, RunMemory};
use crate::need::{length, reported, PAIR};
use crate::reader::{read, Module, ENTRY};
use crate::rules::Rules;
use crate::subject::Subject;
use crate::types::is_number;

/// One call for the needs of a module, and the runs that they are tried with.
#[derive(Clone, Debug)]
pub struct NeedCase {
    pub kind: &'static str,
    pub module: Vec<u8>,
    /// What the lent room and the lent report hold before.
    pub room: Vec<u8>,
    pub report: Vec<u8>,
    /// The entry, and functions that the host may run; their slots are lent by what they need.
    pub runs: Vec<RunCall>,
    pub shift: usize,
}

/// "At most 64 frames live, the first included."
pub const MOST_FRAMES: u32 = 64;

/// "at most 4,096" slots
pub const MOST_SLOTS: u32 = 4096;

impl NeedCase {
    /// The case of this number; it depends on nothing but seed and number.
    pub fn new(seed: u64, number: u64) -> NeedCase {
        let mut rng = Rng::for_case(seed, number);
        let (kind, module) = module(&mut rng);
        let room = case::room(&mut rng, &module);
        let report = report(&mut rng, &module);
        let opened = read(Rules::PLAIN, &module).ok();
        let runs = opened.map_or(Vec::new(), |module| runs(&mut rng, module));
        NeedCase {
            kind,
            module,
            room,
            report,
            runs,
            shift: rng.below(8),
        }
    }

    pub fn memory(&self) -> NeedMemory {
        NeedMemory {
            module: Lent::new(&self.module, self.shift),
            room: Lent::new(&self.room, self.shift + 1),
            report: Lent::new(&self.report, self.shift + 3),
            body: BODY_BEFORE,
            written: WRITTEN_BEFORE,
        }
    }

    /// The case, enough to repeat it by hand.
    pub fn describe(&self) -> String {
        format!(
            "room of {} bytes, report of {}, module: {}",
            self.room.len(),
            self.report.len(),
            hex::encode(&self.module)
        )
    }

    /// What a run on this many slots is lent.
    pub fn run_memory(&self, run: &RunCall, slots: usize) -> RunMemory {
        RunMemory {
            module: Lent::new(&self.module, self.shift),
            arg_types: Lent::new(&run.arg_types, run.shift),
            arg_payloads: Lent::new(&run.arg_payloads, run.shift + 1),
            payloads: Lent::new(&vec![0x5A; 8 * slots], run.shift + 2),
            types: Lent::new(&vec![0x5A; slots], run.shift + 3),
            heap: Lent::new(&run.heap, run.shift + 4),
            blocks: Lent::new(&run.blocks, run.shift + 5),
            steps: STEPS_BEFORE,
            height: HEIGHT_BEFORE,
        }
    }

    /// "A run with that capacity or more, where frames are at most 64, never ends in 20". What a
    /// subject gives otherwise after it reported this, in words.
    pub fn otherwise(&self, report: &[u8], subject: &mut dyn Subject) -> Option<String> {
        self.runs.iter().find_map(|run| {
            let need = reported(report, run.function);
            let fits = need.frames <= MOST_FRAMES && need.slots <= MOST_SLOTS;
            let slots = [need.slots as usize, need.slots as usize + 3];
            let mut tried = slots.into_iter().filter(|_| fits);
            tried.find_map(|slots| {
                let answer = subject.run(run.start(), &mut self.run_memory(run, slots));
                let ends = answer != 20;
                (!ends).then(|| format!("run of {:08X} on {slots} slots: 20", run.function))
            })
        })
    }
}

/// A module file, and the name of its generator.
fn module(rng: &mut Rng) -> (&'static str, Vec<u8>) {
    let edition = case::edition(rng);
    let (kind, program) = match rng.below(20) {
        0..=7 => ("nested", nested::program(rng, edition, false)),
        8..=10 => ("rings", nested::program(rng, edition, true)),
        11 => ("deep", deep::program(rng, edition)),
        12 => ("graph", graph::program(rng, edition)),
        13 if edition.has_heap() => case::heap_program(rng),
        13 | 14 => ("typed", case::well_typed(rng, edition)),
        _ => return case::module(rng),
    };
    (kind, given(rng, program).file())
}

/// The ranks of so many functions, by number or in any order: calls of higher ranks never come back.
fn order(rng: &mut Rng, count: usize) -> Vec<usize> {
    let mut ranks: Vec<usize> = (0..count).collect();
    if rng.percent(60) {
        rng.shuffle(&mut ranks);
    }
    ranks
}

/// A report that is enough, or now and then not quite.
fn report(rng: &mut Rng, module: &[u8]) -> Vec<u8> {
    let Ok(opened) = read(Rules::PLAIN, module) else {
        let len = rng.pick(&[0, 3, 7, 8, 16, 40]);
        return rng.bytes(len);
    };
    let needed = length(opened.functions);
    let len = match rng.below(14) {
        0 | 1 => needed - 1,
        2 => rng.below(needed),
        3 => rng.pick(&[0, 7, 8, 9]),
        4 => needed + rng.range(1, 20),
        5 => needed + 1,
        6 => needed - PAIR,
        _ => needed,
    };
    rng.bytes(len)
}

/// A run of the entry and of each function that the host may run, at most four of them.
fn runs(rng: &mut Rng, module: Module<'_>) -> Vec<RunCall> {
    let callable = |&n: &u32| {
        let function = module.function(n);
        function.is_some_and(|f| f.parameters.iter().all(|&ty| is_number(ty)))
    };
    let mut functions: Vec<u32> = (0..module.functions).filter(callable).collect();
    rng.shuffle(&mut functions);
    functions.truncate(4);
    functions.insert(0, ENTRY);
    functions.into_iter().map(|n| run(rng, module, n)).collect()
}

/// A run on some arguments that are admitted, for the function's own profile.
fn run(rng: &mut Rng, module: Module<'_>, function: u32) -> RunCall {
    let declared = module.function(function);
    let profile = declared.as_ref().map_or(0, |f| f.profile);
    let arg_types = declared.map_or(Vec::new(), |f| f.parameters);
    let payloads = arg_types.iter().map(|&ty| payload(rng, ty));
    let arg_payloads = payloads.flat_map(u64::to_le_bytes).collect();
    let cells = if module.edition.has_heap() {
        rng.range(0, 12)
    } else {
        0
    };
    let allowance = match module.functions {
        // long enough for a chain that fills the stack
        60.. => 20_000,
        _ => rng.pick(&[200, 1000, 3000]),
    };
    RunCall {
        function,
        arg_types,
        arg_payloads,
        profile,
        allowance,
        payloads: Vec::new(),
        types: Vec::new(),
        heap: rng.bytes(CELL * cells),
        blocks: rng.bytes(BLOCK * cells),
        shift: rng.below(8),
    }
}

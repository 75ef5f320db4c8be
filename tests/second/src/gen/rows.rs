//! Calls on rows: recipes with rows that do not finish at each place, functions of all other
//! programs, lengths of no whole rows or of another count.

use super::calls::{allowance, heap_lengths, lengths, trial, Trial, TRIAL_CELLS};
use super::case::{edition, heap_program, module, readable, RunCall};
use super::constants::payload;
use super::damage;
use super::profiles::{given, named};
use super::recipes::{recipe, Limit, Recipe, RECIPE};
use super::rng::Rng;
use crate::hex;
use crate::map::EIGHT;
use crate::memory::{Lent, MapMemory, Start};
use crate::opcode::Op;
use crate::program::{Instr, Program, Routine};
use crate::reader::{read, Module, ENTRY};
use crate::rules::Rules;
use crate::types::{is_number, INT, NUMBERS};

/// One call on rows.
#[derive(Clone, Debug)]
pub struct MapCase {
    /// Which generator made the module.
    pub kind: &'static str,
    pub module: Vec<u8>,
    pub function: u32,
    pub profile: u32,
    pub arg_payloads: Vec<u8>,
    /// What the lent slices hold before the call.
    pub out: Vec<u8>,
    pub allowance: u64,
    pub payloads: Vec<u8>,
    pub types: Vec<u8>,
    pub heap: Vec<u8>,
    pub blocks: Vec<u8>,
    pub shift: usize,
}

/// The out-parameter's value before a call.
pub const ROWS_BEFORE: u64 = 0x2085_2085_2085_2085;

impl MapCase {
    /// The case of this number; it depends on nothing but seed and number.
    pub fn new(seed: u64, number: u64) -> MapCase {
        let mut rng = Rng::for_case(seed, number);
        let source = source(&mut rng);
        source.case(&mut rng)
    }

    pub fn start(&self) -> Start {
        Start {
            function: self.function,
            profile: self.profile,
            allowance: self.allowance,
        }
    }

    pub fn memory(&self) -> MapMemory {
        MapMemory {
            module: Lent::new(&self.module, self.shift),
            arg_payloads: Lent::new(&self.arg_payloads, self.shift + 1),
            out: Lent::new(&self.out, self.shift + 2),
            payloads: Lent::new(&self.payloads, self.shift + 3),
            types: Lent::new(&self.types, self.shift + 4),
            heap: Lent::new(&self.heap, self.shift + 5),
            blocks: Lent::new(&self.blocks, self.shift + 6),
            rows: ROWS_BEFORE,
        }
    }

    /// The call's numbers, arguments and module, enough to repeat it by hand.
    pub fn describe(&self) -> String {
        format!(
            "function {:08X}, profile {}, argument payloads \"{}\", {} output bytes, allowance {}, \
             {} payload bytes, {} type bytes, {} heap bytes, {} block bytes, module: {}",
            self.function,
            self.profile,
            hex::encode(&self.arg_payloads),
            self.out.len(),
            self.allowance,
            self.payloads.len(),
            self.types.len(),
            self.heap.len(),
            self.blocks.len(),
            hex::encode(&self.module)
        )
    }

    /// A row as a run of its own; `parameters`: the types of its arguments.
    pub fn row(&self, parameters: &[u8], row: usize) -> RunCall {
        let length = EIGHT * parameters.len();
        RunCall {
            function: self.function,
            arg_types: parameters.to_vec(),
            arg_payloads: self.arg_payloads[length * row..length * (row + 1)].to_vec(),
            profile: self.profile,
            allowance: self.allowance,
            payloads: self.payloads.clone(),
            types: self.types.clone(),
            heap: self.heap.clone(),
            blocks: self.blocks.clone(),
            shift: self.shift,
        }
    }
}

/// A module, and what is known of its recipe.
struct Source {
    kind: &'static str,
    file: Vec<u8>,
    function: Option<u32>,
    recipe: Option<Recipe>,
}

fn source(rng: &mut Rng) -> Source {
    let of = |kind, file, function| Source {
        kind,
        file,
        function,
        recipe: None,
    };
    let edition = edition(rng);
    match rng.below(20) {
        0..=8 => {
            let mut made = recipe(rng, edition);
            made.program = given(rng, made.program);
            Source {
                recipe: Some(made),
                ..of("recipe", Vec::new(), Some(RECIPE))
            }
            .written()
        }
        9..=11 => {
            let (kind, file) = module(rng);
            of(kind, file, None)
        }
        12..=15 => {
            let kind = rng.below(88);
            let (kind, program) = readable(rng, edition, kind);
            let (function, program) = moved(rng, program);
            of(kind, given(rng, program).file(), Some(function))
        }
        16 | 17 => {
            let (kind, program) = heap_program(rng);
            let (function, program) = moved(rng, program);
            of(kind, given(rng, program).file(), Some(function))
        }
        _ => {
            let program = recipe(rng, edition).program;
            let program = given(rng, program);
            of("damaged", damage::file(rng, &program), Some(RECIPE))
        }
    }
}

/// The program with the entry's code as a function, which no row could run else; and its number.
fn moved(rng: &mut Rng, mut program: Program) -> (u32, Program) {
    let number = program.functions.len() as u32;
    for mark in &mut program.labels {
        if mark.owner == ENTRY {
            mark.owner = number;
        }
    }
    let mut code = std::mem::take(&mut program.entry);
    if !rng.one_in(8) {
        code.push(Instr {
            op: Op::Ret,
            operand: 0,
        });
    }
    let count = rng.pick(&[0, 0, 0, 1, 2, 8]);
    program.functions.push(Routine {
        parameters: (0..count).map(|_| rng.pick(&NUMBERS)).collect(),
        returns: rng.pick(&NUMBERS),
        code,
        ..Routine::default()
    });
    (number, program)
}

/// How many rows: none, one, a few, some dozens.
fn count(rng: &mut Rng) -> usize {
    match rng.below(20) {
        0 => 0,
        1 | 2 => 1,
        3..=6 => 2,
        7..=15 => rng.range(3, 6),
        16..=18 => rng.range(7, 16),
        _ => rng.range(17, 48),
    }
}

impl Source {
    fn written(mut self) -> Source {
        if let Some(recipe) = &self.recipe {
            self.file = recipe.program.file();
        }
        self
    }

    fn case(self, rng: &mut Rng) -> MapCase {
        let module = read(Rules::PLAIN, &self.file).ok();
        let function = self.function(rng, module);
        let declared = module.and_then(|m| m.function(function));
        let own = declared.as_ref().map_or(0, |f| f.profile);
        let parameters = declared.map_or(Vec::new(), |f| f.parameters);
        let rows = count(rng);
        let values = self.values(rng, &parameters, function, rows);
        let mut case = MapCase {
            kind: self.kind,
            function,
            profile: named(rng, own),
            arg_payloads: values.iter().flat_map(|v| v.to_le_bytes()).collect(),
            out: rng.bytes(EIGHT * rows),
            allowance: 2000,
            payloads: Vec::new(),
            types: Vec::new(),
            heap: Vec::new(),
            blocks: Vec::new(),
            shift: rng.below(8),
            module: Vec::new(),
        };
        let worst = worst(&self.file, module, &case, &parameters, rows);
        self.lend(rng, module, &worst, &mut case);
        if rng.one_in(8) {
            other_lengths(rng, parameters.len(), &mut case);
        }
        case.module = self.file;
        case
    }

    /// Mostly one that rows can have.
    fn function(&self, rng: &mut Rng, module: Option<Module<'_>>) -> u32 {
        let count = module.map_or(0, |m| m.functions);
        match rng.below(40) {
            0 | 1 => return rng.pick(&[count, count + 1, 0xFFFF_FFFE, 0x8000_0000, 128]),
            2 => return ENTRY,
            3..=5 if count > 0 => return rng.below(count as usize) as u32,
            _ => {}
        }
        if let Some(function) = self.function {
            return function;
        }
        let mapped: Vec<u32> = (0..count)
            .filter(|&n| {
                let function = module.and_then(|m| m.function(n));
                function
                    .is_some_and(|f| f.returns != 0 && f.parameters.iter().all(|&ty| is_number(ty)))
            })
            .collect();
        match mapped.is_empty() {
            false => rng.pick(&mapped),
            true if count > 0 => rng.below(count as usize) as u32,
            true => ENTRY,
        }
    }

    /// All rows' payloads: good ones up to a row that does not finish, then any.
    fn values(&self, rng: &mut Rng, parameters: &[u8], function: u32, rows: usize) -> Vec<u64> {
        let mut all: Vec<u64> = (0..rows)
            .flat_map(|_| parameters)
            .map(|&ty| payload(rng, ty))
            .collect();
        let place = match rng.below(5) {
            0 => 0,
            1 => rows.saturating_sub(1),
            2 | 3 if rows > 2 => rng.range(1, rows - 2),
            _ => rows,
        };
        let recipe = self.recipe.as_ref().filter(|_| function == RECIPE);
        if let Some((recipe, weak)) = recipe.and_then(|r| Some((r, r.weak?))) {
            let weakness = recipe.weakness;
            for row in 0..rows {
                let bad = row == place || row > place && rng.one_in(2);
                let values = if bad { weakness.bad } else { weakness.good };
                all[parameters.len() * row + weak] = rng.pick(values);
            }
        } else if rng.one_in(6) && place < rows {
            upper_bits(rng, parameters, place, &mut all);
        }
        all
    }

    /// The allowance, slots and heap: often just too little for the row that takes the most.
    fn lend(&self, rng: &mut Rng, module: Option<Module<'_>>, worst: &Trial, case: &mut MapCase) {
        let limit = self.recipe.as_ref().map(|recipe| recipe.weakness.limit);
        let tight = limit.filter(|_| rng.one_in(2));
        let calm = self.recipe.is_some() && rng.percent(60);
        case.allowance = match tight {
            Some(Limit::Steps) => worst.steps.saturating_sub(1),
            _ if calm => worst.steps + rng.below(50) as u64,
            _ => allowance(rng, worst),
        };
        let declared = module.and_then(|m| m.function(case.function));
        let arguments = declared.map_or(0, |f| f.parameters.len());
        let (payloads, types) = match (tight, worst.height) {
            (Some(Limit::Arguments), _) => (EIGHT * arguments, rng.below(arguments + 1)),
            (Some(Limit::Slots), height) => (EIGHT * height.saturating_sub(1), height + 3),
            (_, height) if calm => (EIGHT * (height + rng.below(9)), height + rng.below(9)),
            _ => lengths(rng, worst),
        };
        let heap = module.is_some_and(|m| m.edition.has_heap());
        let (cells, entries) = match (tight, worst.cells) {
            (Some(Limit::Cells), cells) => (8 * cells, 24 * cells.saturating_sub(1)),
            (_, cells) if calm => (8 * (cells + rng.below(4)), 24 * (cells + rng.below(4))),
            _ => heap_lengths(rng, heap, worst),
        };
        case.payloads = rng.bytes(payloads);
        case.types = rng.bytes(types);
        case.heap = rng.bytes(cells);
        case.blocks = rng.bytes(entries);
    }
}

/// Sets upper bits of an int of this row, if there is one.
fn upper_bits(rng: &mut Rng, parameters: &[u8], row: usize, values: &mut [u64]) {
    let ints: Vec<usize> = (0..parameters.len())
        .filter(|&n| parameters[n] == INT)
        .collect();
    if !ints.is_empty() {
        values[parameters.len() * row + rng.pick(&ints)] |= 1 << rng.range(32, 63);
    }
}

/// The most that any row takes, each run generously; looks at a few of many rows.
fn worst(
    file: &[u8],
    module: Option<Module<'_>>,
    case: &MapCase,
    parameters: &[u8],
    rows: usize,
) -> Trial {
    let mut worst = Trial {
        height: parameters.len(),
        straight: module.is_some_and(|m| m.labels == 0),
        ..Trial::default()
    };
    let cells = match module {
        Some(module) if module.edition.has_heap() => TRIAL_CELLS,
        _ => 0,
    };
    for row in 0..rows.min(MOST_TRIALS) {
        let trial = trial(file, &case.row(parameters, row), cells);
        worst.steps = worst.steps.max(trial.steps);
        worst.height = worst.height.max(trial.height);
        worst.cells = worst.cells.max(trial.cells);
        worst.packed.extend(trial.packed);
    }
    worst
}

const MOST_TRIALS: usize = 16;

/// No whole rows of output, or arguments of another count of rows.
fn other_lengths(rng: &mut Rng, parameters: usize, case: &mut MapCase) {
    let (part, more) = (rng.range(1, 7), EIGHT * rng.range(1, 3));
    let row = EIGHT * parameters;
    let (out, given) = (case.out.len(), case.arg_payloads.len());
    match rng.below(8) {
        0 => case.out = rng.bytes(out + part),
        1 => case.out.truncate(out.saturating_sub(part)),
        2 => case.out = rng.bytes(out + more),
        3 => case.out.truncate(out.saturating_sub(more)),
        4 => {
            let longer = rng.pick(&[part, EIGHT, row]);
            case.arg_payloads.extend(rng.bytes(longer));
        }
        5 => case
            .arg_payloads
            .truncate(given.saturating_sub(row.max(EIGHT))),
        6 => case.arg_payloads.truncate(given.saturating_sub(part)),
        _ => case.out.clear(),
    }
}

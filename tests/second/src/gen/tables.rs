//! Tables to be written as a module, good and damaged, and outputs around the module's length.

use super::case::{edition, module, well_typed};
use super::constants::constant;
use super::damage;
use super::profiles::{given, profile};
use super::rng::Rng;
use crate::hex;
use crate::memory::{Lent, WriteMemory};
use crate::opcode::{Edition, Op};
use crate::reader::{
    function_size, header, read, CONSTANT, ENTRY, FUNCTION, HEADER, LABEL, LONGEST, MAX_CODE,
    MAX_CONSTANTS, MAX_FUNCTIONS, MAX_LABELS, MAX_STRUCTURES, STRUCTURE_RECORD,
};
use crate::rules::Rules;
use crate::types::NUMBERS;
use crate::words::word;
use crate::writer::Tables;

/// The tables' bytes.
#[derive(Clone, Debug, PartialEq, Eq)]
pub struct Owned {
    /// The edition that is asked for.
    pub edition: u32,
    pub constants: Vec<u8>,
    pub functions: Vec<u8>,
    pub labels: Vec<u8>,
    pub structures: Vec<u8>,
    pub code: Vec<u8>,
    pub entry_length: u32,
}

/// No records, for edition 3.
impl Default for Owned {
    fn default() -> Owned {
        Owned {
            edition: 3,
            constants: Vec::new(),
            functions: Vec::new(),
            labels: Vec::new(),
            structures: Vec::new(),
            code: Vec::new(),
            entry_length: 0,
        }
    }
}

/// One write to be made.
#[derive(Clone, Debug)]
pub struct WriteCase {
    /// Which generator made the tables.
    pub kind: &'static str,
    pub tables: Owned,
    /// What the lent output holds before the write.
    pub out: Vec<u8>,
    pub shift: usize,
}

/// Value of the out-parameter before a write: it stays where nothing is to be written.
pub const WRITTEN_BEFORE: u64 = 0x3717_3717_3717_3717;

impl Owned {
    /// The sections of a file, by the counts in its header; they must lie within it.
    pub fn cut(file: &[u8]) -> Owned {
        let count = |at| word(file, at) as usize;
        let edition = word(file, 0);
        let known = Edition::from_word(Rules::PLAIN, edition);
        let (constants, rest) = file[known.map_or(HEADER, header)..].split_at(CONSTANT * count(8));
        let size = known.map_or(FUNCTION, function_size);
        let (functions, rest) = rest.split_at(size * count(16));
        let (labels, rest) = rest.split_at(LABEL * count(24));
        let (code, structures) = rest.split_at(count(32));
        Owned {
            edition,
            constants: constants.to_vec(),
            functions: functions.to_vec(),
            labels: labels.to_vec(),
            structures: structures.to_vec(),
            code: code.to_vec(),
            entry_length: word(file, 40),
        }
    }

    pub fn lent(&self) -> Tables<'_> {
        Tables {
            edition: self.edition,
            constants: &self.constants,
            functions: &self.functions,
            labels: &self.labels,
            structures: &self.structures,
            code: &self.code,
            entry_length: self.entry_length,
        }
    }

    /// The bytes of all tables, and of a header.
    pub fn length(&self) -> usize {
        let records = self.constants.len() + self.functions.len() + self.labels.len();
        let known = Edition::from_word(Rules::PLAIN, self.edition);
        known.map_or(HEADER, header) + records + self.code.len() + self.structures.len()
    }

    pub fn memory(&self, out: &[u8], shift: usize) -> WriteMemory {
        WriteMemory {
            edition: self.edition,
            constants: Lent::new(&self.constants, shift),
            functions: Lent::new(&self.functions, shift + 1),
            labels: Lent::new(&self.labels, shift + 2),
            structures: Lent::new(&self.structures, shift + 5),
            code: Lent::new(&self.code, shift + 3),
            entry_length: self.entry_length,
            out: Lent::new(out, shift + 4),
            written: WRITTEN_BEFORE,
        }
    }
}

impl WriteCase {
    /// The case of this number; it depends on nothing but seed and number.
    pub fn new(seed: u64, number: u64) -> WriteCase {
        let mut rng = Rng::for_case(seed, number);
        let (kind, mut tables) = tables(&mut rng);
        if rng.one_in(40) {
            tables.entry_length = entry_length(&mut rng, &tables);
        }
        if rng.one_in(12) {
            // the other edition, or none, or one that is only so in its low bits
            tables.edition = rng.pick(&[1, 3, 4, 4, 0, 2, 2, 5, 257, 0x0001_0003, 0xFFFF_FFFF]);
        }
        if rng.one_in(25) {
            foreign(&mut rng, &mut tables);
        }
        let len = output(&mut rng, tables.length());
        let out = rng.bytes(len);
        let shift = rng.below(8);
        WriteCase {
            kind,
            tables,
            out,
            shift,
        }
    }

    pub fn memory(&self) -> WriteMemory {
        self.tables.memory(&self.out, self.shift)
    }

    /// The tables and the output's length, enough to repeat the write by hand.
    pub fn describe(&self) -> String {
        format!(
            "edition {}, constants \"{}\", functions \"{}\", labels \"{}\", structures \"{}\", \
             code \"{}\", entry length {}, output of {} bytes",
            self.tables.edition,
            hex::encode(&self.tables.constants),
            hex::encode(&self.tables.functions),
            hex::encode(&self.tables.labels),
            hex::encode(&self.tables.structures),
            hex::encode(&self.tables.code),
            self.tables.entry_length,
            self.out.len()
        )
    }
}

fn tables(rng: &mut Rng) -> (&'static str, Owned) {
    match rng.below(20) {
        0..=6 => ("good", good(rng)),
        7..=12 => {
            let edition = edition(rng);
            let program = well_typed(rng, edition);
            let program = given(rng, program);
            ("damaged", Owned::cut(&damage::records(rng, &program)))
        }
        13..=15 => {
            let mut tables = good(rng);
            for _ in 0..rng.pick(&[1, 1, 2]) {
                part(rng, &mut tables);
            }
            ("part of a record", tables)
        }
        16..=18 => ("limits", limits(rng)),
        _ => ("random bytes", random(rng)),
    }
}

/// The tables of a module that can be read.
fn good(rng: &mut Rng) -> Owned {
    let (_, file) = module(rng);
    if read(Rules::PLAIN, &file).is_ok() {
        return Owned::cut(&file);
    }
    let edition = edition(rng);
    Owned::cut(&well_typed(rng, edition).file())
}

/// A table that ends in part of a record.
fn part(rng: &mut Rng, tables: &mut Owned) {
    let known = Edition::from_word(Rules::PLAIN, tables.edition);
    let (table, record) = match rng.below(4) {
        0 => (&mut tables.constants, CONSTANT),
        1 => (&mut tables.functions, known.map_or(FUNCTION, function_size)),
        2 => (&mut tables.labels, LABEL),
        _ => (&mut tables.structures, STRUCTURE_RECORD),
    };
    let bytes = rng.range(1, record - 1);
    if rng.percent(50) {
        table.truncate(table.len().saturating_sub(bytes));
    } else {
        let zero = rng.percent(50);
        table.extend(rng.bytes(bytes).iter().map(|&b| if zero { 0 } else { b }));
    }
}

/// A structure where the edition may have none, or part of one.
fn foreign(rng: &mut Rng, tables: &mut Owned) {
    let mut record = vec![0; STRUCTURE_RECORD];
    record[..3].copy_from_slice(&[2, 3, 6]);
    record.truncate(rng.pick(&[1, 11, 12, 12, 12]));
    tables.structures.extend(record);
}

/// Counts and code length at their limits or one over, with part of a record now and then.
fn limits(rng: &mut Rng) -> Owned {
    let mut count = |most: u32| match rng.below(8) {
        0..=3 => rng.below(4),
        4..=6 => most as usize,
        _ => most as usize + 1,
    };
    let (constants, functions) = (count(MAX_CONSTANTS), count(MAX_FUNCTIONS));
    let (labels, code) = (count(MAX_LABELS), count(MAX_CODE).max(functions + 1));
    let structures = count(MAX_STRUCTURES);
    let edition = edition(rng);
    let byte = |op: Op| op.byte(edition).expect("an opcode of all editions");
    let mut tables = Owned {
        edition: edition.word(),
        ..Owned::default()
    };
    tables.constants = numbers(rng, constants);
    // an entry of `neg` alone, functions of `ret` alone
    let entry = code - functions;
    tables.entry_length = entry as u32;
    tables.code = vec![byte(Op::Neg); entry];
    tables.code.resize(code, byte(Op::Ret));
    for n in entry..code {
        tables.functions.extend((n as u32).to_le_bytes());
        tables.functions.extend([1, 0, 0, 0]);
        tables.functions.extend([0; 12]);
        if edition.has_profiles() {
            tables.functions.extend(profile(rng).to_le_bytes());
        }
    }
    for _ in 0..labels {
        tables.labels.extend(ENTRY.to_le_bytes());
        let any = rng.below(entry);
        let place = rng.pick(&[0, any, entry - 1]);
        tables.labels.extend((place as u32).to_le_bytes());
    }
    if edition.has_heap() {
        tables.structures = [8, 6, 4, 3, 6, 4, 3, 6, 4, 0, 0, 0].repeat(structures);
    }
    if rng.one_in(4) {
        part(rng, &mut tables);
    }
    tables
}

/// This many constants.
fn numbers(rng: &mut Rng, count: usize) -> Vec<u8> {
    let mut bytes = Vec::new();
    for _ in 0..count {
        let ty = rng.pick(&NUMBERS);
        let constant = constant(rng, ty);
        bytes.extend(constant.ty.to_le_bytes());
        bytes.extend(constant.payload.to_le_bytes());
    }
    bytes
}

/// Any bytes.
fn random(rng: &mut Rng) -> Owned {
    let mut bytes = |most: usize| {
        let len = rng.below(most);
        rng.bytes(len)
    };
    Owned {
        edition: 3,
        constants: bytes(40),
        functions: bytes(50),
        labels: bytes(30),
        structures: bytes(16),
        code: bytes(20),
        entry_length: rng.below(24) as u32,
    }
}

fn entry_length(rng: &mut Rng, tables: &Owned) -> u32 {
    let (old, code) = (tables.entry_length, tables.code.len() as u32);
    match rng.below(8) {
        0 => 0,
        1 => code,
        2 | 3 => code + 1,
        4 => old.wrapping_add(1),
        5 => old.wrapping_sub(1),
        6 => old ^ (1 << rng.range(16, 31)),
        _ => 0xFFFF_FFFF,
    }
}

/// The output's length: enough, or not quite.
pub fn output(rng: &mut Rng, needed: usize) -> usize {
    match rng.below(20) {
        0..=8 => needed,
        9..=11 => needed - 1,
        12 | 13 => needed + 1,
        14 => needed + rng.range(2, 80),
        15 => LONGEST + 1,
        16 => rng.below(needed),
        17 => rng.pick(&[0, 1, HEADER - 1, HEADER]),
        18 => needed.saturating_sub(rng.range(2, 20)),
        _ => needed + HEADER,
    }
}

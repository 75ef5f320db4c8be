//! Modules of all sorts with records of all sorts: "then the answer is what the record says".

use super::{lent_length, record_of, RecordCall, RecordStep};
use crate::gen::case::{edition, module, room, well_typed};
use crate::gen::damage;
use crate::gen::edits;
use crate::gen::profiles::given;
use crate::gen::rng::Rng;
use crate::program::Program;
use crate::reader::{read, ENTRY};
use crate::recording::{length, BYTES_AT};
use crate::rules::Rules;

/// Both calls on any module, damaged ones often.
pub fn any_module(rng: &mut Rng) -> Vec<RecordStep> {
    let module = match rng.one_in(2) {
        true => damaged(rng),
        false => module(rng).1,
    };
    let functions = read(Rules::PLAIN, &module).map_or(rng.below(4) as u32, |m| m.functions);
    let room = room(rng, &module);
    let lent = lent_length(rng, length(functions));
    let full = RecordStep {
        note: "any module",
        call: RecordCall::Full(room),
        record: rng.bytes(lent),
        promised: false,
        module: module.clone(),
    };
    let body = any_body(rng, functions);
    let check = RecordStep {
        note: "any record",
        call: RecordCall::Body(body),
        record: any_record(rng, functions, body),
        promised: false,
        module,
    };
    vec![full, check]
}

/// A damaged file, or the first bytes of one.
fn damaged(rng: &mut Rng) -> Vec<u8> {
    let edition = edition(rng);
    let program = well_typed(rng, edition);
    let program = given(rng, program);
    if rng.one_in(8) {
        let mut file = program.file();
        file.truncate(rng.pick(&[4, 40, 47, 47, 48, 52, 55]));
        return file;
    }
    damage::file(rng, &program)
}

/// The record of another module, which has as many functions or not.
pub fn other_record(rng: &mut Rng) -> Vec<RecordStep> {
    let edition = edition(rng);
    let program = well_typed(rng, edition);
    let mut other = if rng.one_in(3) {
        well_typed(rng, edition)
    } else {
        program.clone()
    };
    for owner in other.owners() {
        if rng.one_in(3) {
            edits::spoil(rng, &mut other, owner);
        }
    }
    let record = record_of(&other.file()).unwrap_or_default();
    let step = |program: &Program, body| RecordStep {
        note: "other record",
        module: program.file(),
        call: RecordCall::Body(body),
        record: record.clone(),
        promised: false,
    };
    let owners = program.owners();
    let count = owners.len().min(6);
    (0..count)
        .map(|_| step(&program, rng.pick(&owners)))
        .collect()
}

/// A body, or now and then none.
fn any_body(rng: &mut Rng, functions: u32) -> u32 {
    match rng.below(10) {
        0 => functions,
        1 => rng.any() as u32,
        2..=4 => ENTRY,
        _ if functions > 0 => rng.below(functions as usize) as u32,
        _ => ENTRY,
    }
}

/// A record with any bytes of 0 and 1, often damaged, or no record at all.
fn any_record(rng: &mut Rng, functions: u32, body: u32) -> Vec<u8> {
    if rng.one_in(10) {
        let len = lent_length(rng, length(functions));
        return rng.bytes(len);
    }
    let mut record = (functions + 1).to_le_bytes().to_vec();
    record.extend((BYTES_AT as u32).to_le_bytes());
    let ones = rng.pick(&[50, 80, 95, 100]);
    record.extend((0..=functions).map(|_| u8::from(rng.percent(ones))));
    if rng.percent(40) {
        spoil(rng, body, &mut record);
    }
    record
}

/// One thing that makes it no record of this module: 45.
pub fn spoil(rng: &mut Rng, body: u32, record: &mut Vec<u8>) {
    let last = record.len().saturating_sub(1);
    if last < BYTES_AT {
        return;
    }
    let over = rng.pick(&[2, 2, 3, 0x80, 0xFE, 0xFF]);
    let own = BYTES_AT + body.wrapping_add(1) as usize;
    match rng.below(13) {
        0 => record[0] = record[0].wrapping_add(rng.pick(&[1, 0xFF])),
        1 => record[rng.range(1, 3)] = 1,
        2 => record[4] = rng.pick(&[0, 7, 9]),
        3 => record[rng.range(5, 7)] = 1,
        4 => record.push(rng.pick(&[0, 1, 1, 2])),
        5 => {
            record.pop();
        }
        6 => record.truncate(rng.pick(&[0, 4, 8, 9])),
        7 => record[BYTES_AT] = over,
        8 => record[last] = over,
        9 => record[rng.range(BYTES_AT, last)] = over,
        10 => record.rotate_right(1),
        _ => record[own.min(last)] = over,
    }
}

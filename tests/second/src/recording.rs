//! The record of a module, the full check that writes it, and the check of one body that keeps it.
//!
//! Document 02, A10: "Keep a record beside the module: 4-byte body count and offset (8), then one
//! byte a body, entry first, 1 if it has a typing, else 0." `wrong` has what wrong variants do
//! besides.

mod wrong;

use crate::check::{check, RECORD};
use crate::reader::{read, refuse, Module, ENTRY};
use crate::rules::{Fault, Rules};
use crate::subject::checked_number;
use crate::words::word;
use crate::worklist::typing;

/// "4-byte body count and offset (8)": the bytes stand behind these two words.
pub const BYTES_AT: usize = 8;

/// The shortest record: the two words, and the entry's byte.
const SHORTEST: usize = BYTES_AT + 1;

/// The bytes of the record of a module with so many functions.
pub fn length(functions: u32) -> usize {
    SHORTEST + functions as usize
}

/// "A full check lent room for it writes it with 0 and with 11 (16, just before 11, if too short)."
/// `body` is written with 11 only, and `written` with 0 only: "a writer answers 0 with the length".
pub fn check_recording(
    rules: Rules,
    file: &[u8],
    room: &mut [u8],
    record: &mut [u8],
    body: &mut u32,
    written: &mut u64,
) -> u32 {
    let module = match recordable(rules, file, room.len(), record.len()) {
        Ok(module) => module,
        // "a new refusal ... changes no lent memory"
        Err(number) => {
            wrong::refused(rules, number, file, room, record);
            return number;
        }
    };
    let number = match rules.wrong(Fault::RecordRoomKept) {
        false => checked_number(check(rules, file, room), body),
        true => checked_number(check(rules, file, &mut room.to_vec()), body),
    };
    if number == 0 || wrong::recorded_with_eleven(rules, module, record.len()) {
        write(rules, module, record);
    }
    if number == 0 || rules.wrong(Fault::RecordLengthWithEleven) {
        *written = wrong::told_length(rules, record).unwrap_or(length(module.functions)) as u64;
    }
    number
}

/// The module, or 1 to 10, or 16 "just before 11".
fn recordable(rules: Rules, file: &[u8], room: usize, record: usize) -> Result<Module<'_>, u32> {
    let tiny = record < SHORTEST;
    refuse(tiny && rules.wrong(Fault::RecordShortFirst), 16)?;
    let module = read(rules, file)?;
    let needed = length(module.functions);
    let long = record > needed && rules.wrong(Fault::RecordLongRefused);
    let short = record < needed || long;
    refuse(short && rules.wrong(Fault::RecordShortBeforeRoom), 16)?;
    // 10: "checking room under 64 bytes per label"
    refuse(room < RECORD * module.labels as usize, 10)?;
    refuse(short && !wrong::sixteen_later(rules, module), 16)?;
    Ok(module)
}

/// The record of a module; what is lent past it stays.
fn write(rules: Rules, module: Module<'_>, record: &mut [u8]) {
    let count = module.functions + 1;
    let mut whole = wrong::count(rules, module)
        .unwrap_or(count)
        .to_le_bytes()
        .to_vec();
    let offset = match rules.wrong(Fault::RecordOffsetZero) {
        false => BYTES_AT as u32,
        true => 0,
    };
    whole.extend(offset.to_le_bytes());
    whole.extend(wrong::bytes_written(rules, bytes(rules, module)));
    // a record that is too short comes here in wrong variants alone
    let end = whole.len().min(record.len());
    record[..end].copy_from_slice(&whole[..end]);
    if rules.wrong(Fault::RecordRestCleared) {
        record[end..].fill(0);
    }
}

/// "one byte a body, entry first, 1 if it has a typing, else 0"; with 11 too.
fn bytes(rules: Rules, module: Module<'_>) -> Vec<u8> {
    let bodies = module.bodies();
    bodies.map(|body| judged(rules, module, body)).collect()
}

/// The byte of a body.
fn judged(rules: Rules, module: Module<'_>, body: u32) -> u8 {
    u8::from(typing(rules, module, body).is_ok())
}

/// "For a new module and a named body, check that body, set its byte alone, and answer 11 with the
/// first body whose byte is 0, else 0; write no label records." `first` is written with 11 only.
pub fn check_body(rules: Rules, file: &[u8], body: u32, record: &mut [u8], first: &mut u32) -> u32 {
    let (module, body) = match admitted(rules, file, body, record) {
        Ok(admitted) => admitted,
        Err(number) => return number,
    };
    let old = record.to_vec();
    let own = place(body);
    if let Some(byte) = wrong::named_byte(rules, record[own]) {
        record[own] = byte;
    } else {
        record[own] = judged(rules, module, body);
    }
    if rules.wrong(Fault::OthersJudged) {
        record[BYTES_AT..].copy_from_slice(&bytes(rules, module));
    }
    let seen = match rules.wrong(Fault::FirstBeforeUpdate) {
        false => &record[..length(module.functions)],
        true => &old[..length(module.functions)],
    };
    let found = wrong::first(rules, seen, own).unwrap_or_else(|| first_zero(seen));
    if rules.wrong(Fault::NamedByteKept) {
        record[own] = old[own];
    }
    let Some(at) = found else {
        return 0;
    };
    *first = wrong::told(rules, at).unwrap_or_else(|| body_at(at));
    11
}

/// The module and the body that is named. "Refusals, after the reader's: 12 no such body; 45".
fn admitted<'m>(
    rules: Rules,
    file: &'m [u8],
    body: u32,
    record: &mut [u8],
) -> Result<(Module<'m>, u32), u32> {
    let tiny = record.len() < SHORTEST;
    refuse(tiny && rules.wrong(Fault::BodyRecordFirst), 45)?;
    let module = read(rules, file)?;
    let body = wrong::named(rules, module, body).unwrap_or(body);
    // 12: "FFFFFFFF names the entry"
    let named = body < module.functions || body == ENTRY && !rules.wrong(Fault::EntryUnnamed);
    let known = named.then_some(body);
    let bad = !is_record(rules, module, known, record);
    refuse(bad && rules.wrong(Fault::BodyRecordBeforeName), 45)?;
    refuse(!named, 12)?;
    if bad && wrong::sets(rules, module, record) {
        record[place(body)] = judged(rules, module, body);
    }
    refuse(bad, 45)?;
    Ok((module, body))
}

/// 45: "a count, offset or length other than this module's record has, or a byte over 1", whichever
/// body is named.
fn is_record(rules: Rules, module: Module<'_>, body: Option<u32>, record: &[u8]) -> bool {
    let needed = length(module.functions);
    let longer = record.len() > needed && rules.wrong(Fault::LongerRecordTaken);
    if record.len() != needed && !longer {
        return false;
    }
    let count =
        word(record, 0) == module.functions + 1 || wrong::count_taken(rules, module, record);
    let offset = word(record, 4) == BYTES_AT as u32 || wrong::offset_taken(rules, record);
    let mut all = (BYTES_AT..needed).map(|at| (at, record[at]));
    count
        && offset
        && all.all(|(at, byte)| byte <= 1 || wrong::byte_taken(rules, needed, body, at, byte))
}

/// Where a body's byte is: "entry first".
fn place(body: u32) -> usize {
    match body {
        ENTRY => BYTES_AT,
        function => BYTES_AT + 1 + function as usize,
    }
}

/// The body whose byte is here.
fn body_at(at: usize) -> u32 {
    match at {
        BYTES_AT => ENTRY,
        _ => (at - BYTES_AT - 1) as u32,
    }
}

/// Where the first byte is that is 0.
fn first_zero(record: &[u8]) -> Option<usize> {
    (BYTES_AT..record.len()).find(|&at| record[at] == 0)
}

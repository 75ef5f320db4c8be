//! What wrong variants of records do: with a refusal, about the record's words and bytes, and about
//! the body that is named or told.

use super::{bytes, first_zero, length, place, write, BYTES_AT, SHORTEST};
use crate::check::check;
use crate::reader::{read, Module, ENTRY};
use crate::rules::{Fault, Rules};

/// Is a record that is too short looked at only after 11?
pub fn sixteen_later(rules: Rules, module: Module<'_>) -> bool {
    let later = rules.wrong(Fault::RecordShortKept) || rules.wrong(Fault::RecordShortCut);
    later && bytes(rules, module).contains(&0)
}

/// Is the record written with 11?
pub fn recorded_with_eleven(rules: Rules, module: Module<'_>, record: usize) -> bool {
    let short = record < length(module.functions);
    !(rules.wrong(Fault::RecordWithZeroOnly) || short && rules.wrong(Fault::RecordShortKept))
}

/// Writes room or record with 16.
pub fn refused(rules: Rules, number: u32, file: &[u8], room: &mut [u8], record: &mut [u8]) {
    let Ok(module) = read(rules, file) else {
        return;
    };
    if number == 16 && rules.wrong(Fault::RecordShortWritesRoom) {
        check(rules, file, room);
    }
    if number == 16 && rules.wrong(Fault::RecordShortWritesRecord) {
        write(rules, module, record);
    }
}

/// The length that is given in place of the record's.
pub fn told_length(rules: Rules, record: &[u8]) -> Option<usize> {
    rules.wrong(Fault::RecordLengthLent).then_some(record.len())
}

/// The count that is written in place of the bodies'.
pub fn count(rules: Rules, module: Module<'_>) -> Option<u32> {
    rules
        .wrong(Fault::RecordWithoutEntry)
        .then_some(module.functions)
}

/// The bytes as they are written.
pub fn bytes_written(rules: Rules, mut bytes: Vec<u8>) -> Vec<u8> {
    let first = bytes.iter().position(|&byte| byte == 0);
    let end = first.map_or(bytes.len(), |at| at + 1);
    if rules.wrong(Fault::RecordZerosAfterFirst) {
        bytes[end..].fill(0);
    }
    if rules.wrong(Fault::RecordKeptAfterFirst) {
        bytes.truncate(end);
    }
    if rules.wrong(Fault::RecordEntryLast) {
        bytes.rotate_left(1);
    }
    bytes
}

/// The body that another number names.
pub fn named(rules: Rules, module: Module<'_>, body: u32) -> Option<u32> {
    if rules.wrong(Fault::EntryIsZero) {
        return Some(body.checked_sub(1).unwrap_or(ENTRY));
    }
    let past = body >= module.functions && rules.wrong(Fault::PastIsEntry);
    past.then_some(ENTRY)
}

/// Is another count taken?
pub fn count_taken(rules: Rules, module: Module<'_>, record: &[u8]) -> bool {
    let low = record[0] == (module.functions + 1) as u8;
    rules.wrong(Fault::CountUnlooked) || low && rules.wrong(Fault::CountLowByte)
}

/// Is another offset taken?
pub fn offset_taken(rules: Rules, record: &[u8]) -> bool {
    let low = record[4] == BYTES_AT as u8;
    rules.wrong(Fault::OffsetUnlooked) || low && rules.wrong(Fault::OffsetLowByte)
}

/// Is a byte over 1 taken?
pub fn byte_taken(rules: Rules, needed: usize, body: Option<u32>, at: usize, byte: u8) -> bool {
    rules.wrong(Fault::OverOneTaken)
        || byte == 2 && rules.wrong(Fault::ByteTwoTaken)
        || at + 1 == needed && rules.wrong(Fault::LastByteUnlooked)
        || body.map(place) == Some(at) && rules.wrong(Fault::NamedByteUnlooked)
}

/// Is the byte set where another one is over 1?
pub fn sets(rules: Rules, module: Module<'_>, record: &[u8]) -> bool {
    record.len() == length(module.functions) && rules.wrong(Fault::BadRecordSet)
}

/// The byte of a body that is not judged.
pub fn named_byte(rules: Rules, old: u8) -> Option<u8> {
    let believed = old != 0 && rules.wrong(Fault::OldOneBelieved)
        || old == 0 && rules.wrong(Fault::OldZeroBelieved);
    believed.then_some(old)
}

/// Where another byte is that is told in place of the first 0.
pub fn first(rules: Rules, record: &[u8], own: usize) -> Option<Option<usize>> {
    if rules.wrong(Fault::LastZeroNamed) {
        let last = (SHORTEST - 1..record.len()).rfind(|&at| record[at] == 0);
        return Some(last);
    }
    if rules.wrong(Fault::NamedFirst) && record[own] == 0 {
        return Some(Some(own));
    }
    let only = rules.wrong(Fault::NamedOnly);
    only.then(|| first_zero(record).filter(|_| record[own] == 0))
}

/// The number that is told in place of the body's.
pub fn told(rules: Rules, at: usize) -> Option<u32> {
    rules
        .wrong(Fault::FirstByPlace)
        .then_some((at - BYTES_AT) as u32)
}

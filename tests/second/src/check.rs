//! The check of a whole module: answers 1 to 11 and 0, and the label records.

use crate::judge::Lists;
use crate::reader::{read, Module};
use crate::rules::{Fault, Rules};
use crate::types::{is_managed, run_time, target, POINTER_TO};
use crate::worklist::{typing, Reason, Typing};

/// Bytes of one label record.
pub const RECORD: usize = 64;

#[derive(Clone, Copy, Debug, PartialEq, Eq)]
pub enum Checked {
    /// 0
    Accepted,
    /// 1 to 10
    Refused(u32),
    /// "11 also returns the first body without typing (entry first, as FFFFFFFF, then
    /// functions in order)"
    NoTyping { body: u32, reason: Reason },
}

/// Checks a module and writes the label records into the room.
pub fn check(rules: Rules, file: &[u8], room: &mut [u8]) -> Checked {
    let module = match read(rules, file) {
        Ok(module) => module,
        Err(number) => return Checked::Refused(number),
    };
    let needed = RECORD * module.labels as usize;
    // 10: "checking room under 64 bytes per label"
    if room.len() < needed {
        return Checked::Refused(10);
    }
    let typings = match typings(rules, module) {
        Ok(typings) => typings,
        Err((body, reason)) => {
            // "and zeroes 64 bytes per label"
            if rules.wrong(Fault::RoomAllZeroed) {
                room.fill(0);
            }
            if !rules.wrong(Fault::RoomKeptWithEleven) {
                room[..needed].fill(0);
            }
            return Checked::NoTyping { body, reason };
        }
    };
    for n in 0..module.labels {
        let at = RECORD * n as usize;
        write_record(rules, module, n, &typings, &mut room[at..at + RECORD]);
    }
    Checked::Accepted
}

/// The typings of all bodies, or the first body without one.
pub fn typings(rules: Rules, module: Module<'_>) -> Result<Vec<(u32, Typing)>, (u32, Reason)> {
    let mut found = Vec::new();
    let mut bad = None;
    for body in module.bodies() {
        match typing(rules, module, body) {
            Ok(typing) => found.push((body, typing)),
            Err(reason) if rules.wrong(Fault::LastBadBody) => bad = Some((body, reason)),
            Err(reason) => return Err((body, reason)),
        }
    }
    bad.map_or(Ok(found), Err)
}

/// "Acceptance writes, per label: ... all zero if not reached."
fn write_record(
    rules: Rules,
    module: Module<'_>,
    n: u32,
    typings: &[(u32, Typing)],
    record: &mut [u8],
) {
    let Some((owner, place)) = module.label(n) else {
        return;
    };
    let lists = typings
        .iter()
        .find(|(body, _)| *body == owner)
        .and_then(|(_, typing)| typing.get(&place));
    match lists {
        Some(lists) => write_lists(rules, lists, record),
        None if rules.wrong(Fault::UnreachedRecordKept) => {}
        None => record.fill(0),
    }
}

/// "byte 0 is 1 if reached, byte 1 the count of locals, 2 of operands, 16 to 31 local types,
/// 32 to 63 operand types deepest first, zeros elsewhere"
fn write_lists(rules: Rules, lists: &Lists, record: &mut [u8]) {
    record.fill(0);
    record[0] = 1;
    record[1] = lists.locals.len() as u8;
    record[2] = lists.operands.len() as u8;
    for (at, &ty) in (16..32).zip(&lists.locals) {
        record[at] = ty;
    }
    for (at, &ty) in (32..64).zip(&lists.operands) {
        record[at] = ty;
    }
    for byte in &mut record[16..] {
        if rules.wrong(Fault::PointersShownAsSeven) {
            *byte = run_time(*byte);
        }
        if rules.wrong(Fault::ManagedShownPlain) && is_managed(*byte) {
            *byte = POINTER_TO | target(*byte);
        }
    }
}

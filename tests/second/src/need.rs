//! The stack that an accepted module needs, and the report of it.
//!
//! Document 02, A11: "Tell the desk the stack an accepted module needs." `paths` follows the flow of
//! one body, `chains` the calls from body to body, `wrong` has what wrong variants do besides.

mod chains;
pub mod paths;
mod wrong;

use crate::check::{check, typings, RECORD};
use crate::reader::{read, Module, ENTRY, MAX_LABELS};
use crate::rules::{Fault, Rules};
use crate::subject::checked_number;
use crate::words::word;
use paths::{paths, Paths};

/// "need and frames ..., a word each": the bytes of a body in the report.
pub const PAIR: usize = 8;

/// What a body needs.
#[derive(Clone, Copy, Debug, PartialEq, Eq)]
pub struct Need {
    /// "its largest height over all paths of flow from its start"
    pub slots: u32,
    /// "the most live at once on such paths, itself counted"
    pub frames: u32,
}

/// What an accepted module is answered.
enum Told {
    /// 0, for the entry and each function in order.
    Needs(Vec<Need>),
    /// 47, with its body.
    Ring(u32),
    /// 16
    Short,
}

/// The bytes of the report of a module with so many functions: "for the entry and each function in
/// order".
pub fn length(functions: u32) -> usize {
    PAIR * (1 + functions as usize)
}

/// "Refusals: the check's own first (its room stays as the check leaves it); then 47 ...; then 16."
/// `body` is written with 11 and 47 only, and `written` with 0 only: "a writer answers 0 with the
/// length".
pub fn need(
    rules: Rules,
    file: &[u8],
    room: &mut [u8],
    report: &mut [u8],
    body: &mut u32,
    written: &mut u64,
) -> u32 {
    if let Some(number) = wrong::before_the_check(rules, file, room.len(), report.len(), body) {
        return number;
    }
    // for wrong variants: what the check may write
    let most = RECORD * MAX_LABELS as usize;
    let before = room[..most.min(room.len())].to_vec();
    let number = checked_number(check(rules, file, room), body);
    let module = match read(rules, file) {
        Ok(module) if number == 0 => module,
        _ => return number,
    };
    let told = told(rules, module, report.len());
    wrong::room_after(rules, &told, module, &before, room);
    match told {
        Told::Ring(first) => {
            wrong::ring_reported(rules, module, report);
            *body = wrong::told_body(rules, first, *body).unwrap_or(first);
            47
        }
        Told::Short => {
            wrong::short_reported(rules, module, report, written);
            16
        }
        Told::Needs(needs) => {
            write(rules, &needs, report);
            *written = wrong::told_length(rules, report).unwrap_or(length(module.functions)) as u64;
            0
        }
    }
}

/// "then 47 with the first body from which a chain of reached calls comes back to a body on it,
/// exactly when there is one; then 16"
fn told(rules: Rules, module: Module<'_>, report: usize) -> Told {
    let short = report < length(module.functions) || wrong::is_short(rules, module, report);
    if short && rules.wrong(Fault::NeedShortBeforeRing) {
        return Told::Short;
    }
    let all = all_paths(rules, module);
    if let Some(first) = chains::first_into_a_ring(rules, module, &all) {
        return Told::Ring(first);
    }
    if short {
        return Told::Short;
    }
    Told::Needs(chains::needs(rules, &all))
}

/// The paths of every body, entry first; the module is accepted.
fn all_paths(rules: Rules, module: Module<'_>) -> Vec<Paths> {
    let typings = typings(rules, module).unwrap_or_default();
    let all = typings.iter();
    all.map(|(body, typing)| paths(rules, module, *body, typing, &typings))
        .collect()
}

/// The report: "need and frames ..., a word each, for the entry and each function in order". What is
/// lent past it stays.
fn write(rules: Rules, needs: &[Need], report: &mut [u8]) {
    let bytes = wrong::bytes(rules, needs).unwrap_or_else(|| {
        let pair = |need: &Need| [need.slots.to_le_bytes(), need.frames.to_le_bytes()].concat();
        needs.iter().flat_map(pair).collect()
    });
    // a report that is too short comes here in wrong variants alone
    let end = bytes.len().min(report.len());
    report[..end].copy_from_slice(&bytes[..end]);
    if rules.wrong(Fault::NeedRestCleared) {
        report[end..].fill(0);
    }
}

/// What a report says of a body.
pub fn reported(report: &[u8], body: u32) -> Need {
    let at = PAIR * body.wrapping_add(1) as usize;
    Need {
        slots: word(report, at),
        frames: word(report, at + 4),
    }
}

/// The paths of every body, entry first, of a module in which all have a typing.
pub fn followed(rules: Rules, file: &[u8]) -> Option<Vec<Paths>> {
    let module = read(rules, file).ok()?;
    typings(rules, module).ok()?;
    Some(all_paths(rules, module))
}

/// The needs of a module, entry first, where there is no ring.
pub fn needs(rules: Rules, file: &[u8]) -> Option<Vec<Need>> {
    let module = read(rules, file).ok()?;
    let all = followed(rules, file)?;
    let ring = chains::first_into_a_ring(rules, module, &all);
    ring.is_none().then(|| chains::needs(rules, &all))
}

/// The body of an index: "entry first, as FFFFFFFF, then functions in order".
fn body_at(index: usize) -> u32 {
    index
        .checked_sub(1)
        .map_or(ENTRY, |function| function as u32)
}

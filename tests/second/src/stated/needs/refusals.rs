//! "Refusals: the check's own first (its room stays as the check leaves it); then 47 ...; then 16." And
//! reports of all lengths.

use super::{needs, ring, untyped, StatedNeed, CONSTANTS, EMPTY};
use crate::reader::ENTRY;
use crate::stated::records::{readable, unreadable, BAD, EDITIONS, GOOD};
use crate::stated::Record;

/// A body that calls itself.
const RING: &str = "function void (): call 0; ret;";

/// An int operand.
const OPERAND: Record<'static> = Some((&[], &[3]));

pub fn cases() -> Vec<StatedNeed> {
    let mut all = Vec::new();
    for edition in EDITIONS {
        all.extend(readers(edition));
        all.extend(room_too_short(edition));
        all.extend(without_typing(edition));
        all.extend(rings(edition));
        all.extend(reports(edition));
        all.extend(long_reports(edition));
    }
    all
}

/// 1 to 9: nothing is changed, whatever else is wrong.
fn readers(edition: &str) -> Vec<StatedNeed> {
    let text = readable(edition);
    let good = crate::asm::file(&text);
    let mut all = Vec::new();
    for (number, file) in unreadable(edition, &good) {
        for (room, report) in [(64, 32), (0, 0), (63, 31), (100, 100)] {
            let mut stated = untyped(&text, ENTRY).refused(number).lent(room, report);
            stated.file = file.clone();
            all.push(stated);
        }
    }
    all
}

/// 10 before 11, 47 and 16: nothing is changed.
fn room_too_short(edition: &str) -> Vec<StatedNeed> {
    let codes = [
        "push 0; @0; pop".to_string(),
        format!("push 0; @0; pop; {RING}"),
        format!("pop; @0; pop; {RING}"),
    ];
    let mut all = Vec::new();
    for code in codes {
        let text = format!("{edition} {CONSTANTS} entry: {code}");
        for (room, report) in [(63, 40), (0, 0), (1, 7), (63, 0)] {
            all.push(untyped(&text, ENTRY).refused(10).lent(room, report));
        }
    }
    all
}

/// 11 with its body before 47 and 16: the label records are zeroed, the report stays.
fn without_typing(edition: &str) -> Vec<StatedNeed> {
    let codes = [
        ("@0; pop".to_string(), ENTRY),
        (format!("push 0; @0; pop; {GOOD} {BAD}"), 1),
        (format!("push 0; @0; pop; {BAD} {GOOD} {BAD}"), 0),
        (format!("push 0; @0; pop; {RING} {BAD}"), 1),
        (format!("push 0; @0; call 1; {RING} {BAD}"), 1),
        (format!("pop; @0; call 0; {RING}"), ENTRY),
    ];
    let mut all = Vec::new();
    for (code, body) in codes {
        let text = format!("{edition} {CONSTANTS} entry: {code}");
        let stated = || untyped(&text, body);
        let exact = stated().report;
        all.push(stated());
        for (room, report) in [(64, 0), (64, exact - 1), (70, exact + 9), (128, 1)] {
            all.push(stated().lent(room, report));
        }
    }
    all
}

/// 47 with its body before 16: the label records are there, the report stays.
fn rings(edition: &str) -> Vec<StatedNeed> {
    let codes = [
        (format!("push 0; @0; pop; {RING}"), 0),
        (format!("push 0; @0; pop; call 0; {RING}"), ENTRY),
        (format!("push 0; @0; pop; {RING} {GOOD} {GOOD}"), 0),
    ];
    let mut all = Vec::new();
    for (code, body) in codes {
        let text = format!("{edition} {CONSTANTS} entry: {code}");
        let stated = || ring(&text, &[OPERAND], body);
        let exact = stated().report;
        for (room, report) in [(64, 0), (64, exact - 1), (70, exact + 9), (128, 8), (64, 7)] {
            all.push(stated().lent(room, report));
        }
    }
    all
}

/// 16 for every length under 8 bytes a body: the label records are there, the report stays. Else 0,
/// and what is lent past the report stays.
fn reports(edition: &str) -> Vec<StatedNeed> {
    let labels = [EMPTY, OPERAND];
    let start = format!("{edition} {CONSTANTS} entry: @0; push 0; @1; pop;");
    let one = format!("{start} function int (int): load 0; ret;");
    let three = format!("{start} {GOOD} function int (int): load 0; ret; {GOOD}");
    let modules = [
        (start, vec![(1, 1)]),
        (one, vec![(1, 1), (2, 1)]),
        (three, vec![(1, 1), (0, 1), (2, 1), (0, 1)]),
    ];
    let mut all = Vec::new();
    for (text, pairs) in modules {
        let stated = || needs(&text, &labels, &pairs);
        let exact = stated().report;
        for report in 0..exact {
            all.push(stated().unreported(16).lent(128, report));
        }
        for report in [exact, exact + 1, exact + 7, exact + 8, exact + 100] {
            all.push(stated().lent(128, report));
            all.push(stated().lent(129, report));
            all.push(stated().lent(320, report));
        }
        all.push(stated().unreported(16).lent(200, exact - 1));
    }
    all
}

/// 128 functions: 1,032 bytes.
fn long_reports(edition: &str) -> Vec<StatedNeed> {
    let text = format!("{edition} entry: call 127; {}", GOOD.repeat(128));
    let mut pairs = vec![(0, 1); 129];
    pairs[0] = (0, 2);
    let stated = || needs(&text, &[], &pairs);
    vec![
        stated(),
        stated().lent(3, 1033),
        stated().lent(0, 4000),
        stated().unreported(16).lent(0, 1031),
        stated().unreported(16).lent(0, 1024),
        stated().unreported(16).lent(0, 0),
    ]
}

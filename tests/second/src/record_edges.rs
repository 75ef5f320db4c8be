//! Which of `possible::record_edges` a check with a record reaches.

use crate::gen::records::RecordStep;
use crate::memory::{BodyMemory, RecordingMemory};
use crate::reader::{read, Module, ENTRY};
use crate::recording::{length, BYTES_AT};
use crate::rules::Rules;
use crate::words::word;
use crate::worklist::typing;

fn reached(edges: &[(&'static str, bool)]) -> Vec<&'static str> {
    let holding = edges.iter().filter(|edge| edge.1);
    holding.map(|edge| edge.0).collect()
}

/// By a full check, its answer and what it left.
pub fn of_full(step: &RecordStep, answer: u32, memory: &RecordingMemory) -> Vec<&'static str> {
    let Ok(module) = read(Rules::PLAIN, &step.module) else {
        return Vec::new();
    };
    let needed = length(module.functions);
    let lent = step.record.len();
    let refused = answer == 16 && lent + 1 == needed;
    let typed = refused && all_typed(module);
    let bytes = memory.record.slice().get(BYTES_AT..needed).unwrap_or(&[]);
    let first = bytes.iter().position(|&byte| byte == 0);
    let behind = match first {
        Some(first) if answer == 11 => &bytes[first + 1..],
        _ => &[],
    };
    let (exact, longer) = (lent == needed, lent > needed);
    reached(&[
        ("10 and a record too short", answer == 10 && lent < needed),
        ("16 by one byte, else 0", refused && typed),
        ("16 by one byte, else 11", refused && !typed),
        ("16 by no record", answer == 16 && lent == 0),
        ("0, record exact", answer == 0 && exact),
        ("0, record longer", answer == 0 && longer),
        ("11, record exact", answer == 11 && exact),
        ("11, record longer", answer == 11 && longer),
        (
            "11, bodies with a typing behind the first without",
            behind.contains(&1),
        ),
        (
            "11, another without a typing behind the first",
            behind.contains(&0),
        ),
        ("11 with label records", answer == 11 && module.labels > 0),
        ("0 with label records", answer == 0 && module.labels > 0),
        (
            "128 functions recorded",
            [0, 11].contains(&answer) && module.functions == 128,
        ),
    ])
}

/// Has every body a typing?
fn all_typed(module: Module<'_>) -> bool {
    let mut bodies = module.bodies();
    bodies.all(|body| typing(Rules::PLAIN, module, body).is_ok())
}

/// By a check of a body, its answer and what it left; `otherwise`: a full check gives another.
pub fn of_body(
    step: &RecordStep,
    body: u32,
    answer: u32,
    memory: &BodyMemory,
    otherwise: bool,
) -> Vec<&'static str> {
    let Ok(module) = read(Rules::PLAIN, &step.module) else {
        let bad = step.record.len() < length(0) || step.record.len() > length(128);
        return reached(&[("the reader's refusal and a bad record", bad)]);
    };
    let words = word_clauses(&step.record, module);
    let bytes = byte_clauses(&step.record, body);
    if answer == 12 {
        let good = words.is_empty() && bytes.is_empty();
        return reached(&[
            ("12 and a bad record", !good),
            ("12 and a good record", good),
            ("12 by the count of functions", body == module.functions),
        ]);
    }
    if answer == 45 {
        // one byte may be the last, the named body's and 255 all at once
        return match (words.len(), bytes.is_empty()) {
            (1, true) => words,
            (0, false) => bytes,
            _ => Vec::new(),
        };
    }
    let mut all = of_judged(step, module, body, answer, memory);
    all.extend(of_promise(step, answer, otherwise));
    all
}

/// Which clauses of 45 about length, count and offset hold, by their names.
fn word_clauses(record: &[u8], module: Module<'_>) -> Vec<&'static str> {
    let needed = length(module.functions);
    let lengths = [
        ("45 by no record", record.is_empty()),
        (
            "45 by a byte less",
            record.len() + 1 == needed && !record.is_empty(),
        ),
        ("45 by a byte more", record.len() == needed + 1),
        (
            "45 by another length",
            record.len().abs_diff(needed) > 1 && !record.is_empty(),
        ),
    ];
    let mut all = reached(&lengths);
    if record.len() >= BYTES_AT {
        let count = word(record, 0) ^ (module.functions + 1);
        let offset = word(record, 4) ^ BYTES_AT as u32;
        all.extend(reached(&[
            ("45 by the count", count & 0xFF != 0),
            (
                "45 by the count's upper bytes",
                count != 0 && count & 0xFF == 0,
            ),
            ("45 by the offset", offset & 0xFF != 0),
            (
                "45 by the offset's upper bytes",
                offset != 0 && offset & 0xFF == 0,
            ),
        ]));
    }
    all
}

/// Those about a byte, where only one is over 1.
fn byte_clauses(record: &[u8], body: u32) -> Vec<&'static str> {
    let bytes = record.get(BYTES_AT..).unwrap_or(&[]);
    let over: Vec<usize> = (0..bytes.len()).filter(|&n| bytes[n] > 1).collect();
    let [at] = over[..] else {
        return match over.is_empty() {
            true => Vec::new(),
            false => vec!["45 by several bytes"],
        };
    };
    let named = at == body.wrapping_add(1) as usize;
    reached(&[
        ("45 by the entry's byte", at == 0),
        (
            "45 by the last body's byte",
            at > 0 && at + 1 == bytes.len(),
        ),
        ("45 by the named body's byte", named),
        ("45 by another body's byte", !named),
        ("45 by a byte of 2", bytes[at] == 2),
        ("45 by a byte of 255", bytes[at] == 255),
    ])
}

/// By a body that was judged.
fn of_judged(
    step: &RecordStep,
    module: Module<'_>,
    body: u32,
    answer: u32,
    memory: &BodyMemory,
) -> Vec<&'static str> {
    let own = body.wrapping_add(1) as usize;
    let (old, new) = (
        step.record[BYTES_AT + own],
        memory.record.slice()[BYTES_AT + own],
    );
    // the entry's comes first
    let told = (answer == 11).then(|| memory.first.wrapping_add(1) as usize);
    let several = module.functions > 1;
    reached(&[
        ("entry named", body == ENTRY && several),
        ("first function named", body == 0 && several),
        (
            "last function named",
            body.wrapping_add(1) == module.functions && several,
        ),
        ("only the entry there", module.functions == 0),
        ("a byte from 0 to 1", (old, new) == (0, 1)),
        ("a byte from 1 to 0", (old, new) == (1, 0)),
        ("a byte that stays 0", (old, new) == (0, 0)),
        ("a byte that stays 1", (old, new) == (1, 1)),
        ("11 for the named body", told == Some(own)),
        ("11 for a body before it", told.is_some_and(|at| at < own)),
        ("11 for a body behind it", told.is_some_and(|at| at > own)),
        (
            "11 where the named body has a typing",
            told.is_some() && new == 1,
        ),
    ])
}

/// By what the record promises, or does not.
fn of_promise(step: &RecordStep, answer: u32, otherwise: bool) -> Vec<&'static str> {
    let kept = step.promised && !otherwise;
    let wrong = !step.promised && otherwise;
    let edited = step.note == "edited";
    let typed = read(Rules::PLAIN, &step.module).is_ok_and(all_typed);
    reached(&[
        ("0 after an edit, kept", edited && kept && answer == 0),
        ("11 after an edit, kept", edited && kept && answer == 11),
        (
            "constants changed, kept",
            step.note == "constants changed" && kept,
        ),
        (
            "profiles changed, kept",
            step.note == "profiles changed" && kept,
        ),
        (
            "a wrong record, 0 instead of 11",
            wrong && answer == 0 && !typed,
        ),
        (
            "a wrong record, 11 instead of 0",
            wrong && answer == 11 && typed,
        ),
    ])
}

//! What the small program prints.

use crate::check::{check, Checked, RECORD};
use crate::heap::{LentHeap, CELL, ENTRY as BLOCK};
use crate::reader::{ENTRY, LONGEST, MAX_LABELS};
use crate::rules::Rules;
use crate::run::{run, Call, LentStack, Ran};
use crate::words::payload;
use std::fmt::Write;

/// "reads a module from standard input (at most one byte past the longest module possible)"
pub const MOST_READ: usize = LONGEST + 1;

/// "checks it, runs its entry with allowance 1,000,000 and 4,096 slots, and prints outcome,
/// steps and height on one line, then each slot's type and payload in unsigned decimal,
/// deepest first, a line each ... A refused module prints only the refusal number."
pub fn small(rules: Rules, input: &[u8]) -> String {
    let file = &input[..input.len().min(MOST_READ)];
    let mut room = vec![0; RECORD * MAX_LABELS as usize];
    match check(rules, file, &mut room) {
        // the entry was made for no profile, so that none needs to be named
        Checked::Accepted => ran(rules, file, (ENTRY, 0), &[], &[]),
        Checked::Refused(number) => format!("{number}\n"),
        Checked::NoTyping { .. } => "11\n".to_string(),
    }
}

/// "(the program lends 1,024)"; nothing of it is printed.
const LENT_CELLS: usize = 1024;

/// What is printed of a run of an accepted module: of a function, for a profile.
pub fn ran(
    rules: Rules,
    file: &[u8],
    (function, profile): (u32, u32),
    arg_types: &[u8],
    arg_payloads: &[u8],
) -> String {
    let (mut payloads, mut types) = (vec![0; 8 * 4096], vec![0; 4096]);
    let (mut cells, mut blocks) = (vec![0; CELL * LENT_CELLS], vec![0; BLOCK * LENT_CELLS]);
    let call = Call {
        function,
        arg_types,
        arg_payloads,
        profile,
        allowance: 1_000_000,
    };
    let stack = LentStack {
        payloads: &mut payloads,
        types: &mut types,
    };
    let heap = LentHeap {
        cells: &mut cells,
        blocks: &mut blocks,
    };
    match run(rules, file, call, stack, heap) {
        Ran::Refused(number) => format!("{number}\n"),
        Ran::Ended {
            outcome,
            steps,
            height,
        } => {
            let mut text = format!("{outcome} {steps} {height}\n");
            for (n, ty) in types[..height].iter().enumerate() {
                let _ = writeln!(text, "{ty} {}", payload(&payloads, 8 * n));
            }
            text
        }
    }
}

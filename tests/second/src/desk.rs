//! The desk's commands: a formula line written as a module, the run of a function, the
//! conversion of a module, the checks that keep a record beside a module, and what stack it needs.

use crate::check::{check, Checked, RECORD};
use crate::conversion::converted;
use crate::formula::{module, place};
use crate::need;
use crate::opcode::Edition;
use crate::reader::{ENTRY, MAX_FUNCTIONS, MAX_LABELS};
use crate::recording::{check_body, check_recording, length};
use crate::rules::Rules;
use crate::show::{ran, MOST_READ};
use crate::types::INT;

/// What a command leaves.
#[derive(Clone, Debug, PartialEq, Eq)]
pub enum Left {
    /// Status 0, and this on standard output.
    Printed(Vec<u8>),
    /// Status 1, and this line on standard error.
    Refused(String),
    /// Status 2, and some line on standard error.
    Usage,
    /// Status 3, and some line on standard error: a file is not there.
    Missing,
}

/// What a check that keeps a record leaves; the record is kept with 0 and with 11.
pub struct Kept {
    pub left: Left,
    pub record: Option<Vec<u8>>,
}

/// `formula LINE`: the module; or the number and, for 41, the place.
pub fn formula(rules: Rules, line: &[u8]) -> Left {
    match module(rules, line) {
        Ok(file) => Left::Printed(file),
        Err(41) => Left::Refused(format!("41 {}\n", place::place(line))),
        Err(number) => Left::Refused(format!("{number}\n")),
    }
}

/// `run [--profile N] FILE FUNCTION [INT...]`: "checks it, runs" the function on ints for the
/// profile, 0 where none is given, with the small program's allowance and slots, and prints as it
/// does.
pub fn run(rules: Rules, input: &[u8], profile: u32, function: u32, ints: &[u32]) -> String {
    let file = &input[..input.len().min(MOST_READ)];
    let mut room = vec![0; RECORD * MAX_LABELS as usize];
    match check(rules, file, &mut room) {
        Checked::Accepted => {
            let types = vec![INT; ints.len()];
            let payloads: Vec<u8> = ints
                .iter()
                .flat_map(|&int| u64::from(int).to_le_bytes())
                .collect();
            ran(rules, file, (function, profile), &types, &payloads)
        }
        Checked::Refused(number) => format!("{number}\n"),
        Checked::NoTyping { .. } => "11\n".to_string(),
    }
}

/// `convert 4`, `convert 3`: the module on standard input in the other edition; or the number.
pub fn convert(rules: Rules, to: Edition, input: &[u8]) -> Left {
    match converted(rules, to, &input[..input.len().min(MOST_READ)]) {
        Ok(file) => Left::Printed(file),
        Err(number) => Left::Refused(format!("{number}\n")),
    }
}

/// `check --record RECORD FILE`: the full check, in enough room.
pub fn check_whole(rules: Rules, input: &[u8]) -> Kept {
    let file = &input[..input.len().min(MOST_READ)];
    let mut room = vec![0; RECORD * MAX_LABELS as usize];
    let mut record = vec![0; length(MAX_FUNCTIONS)];
    let (mut body, mut written) = (0, 0);
    let number = check_recording(rules, file, &mut room, &mut record, &mut body, &mut written);
    let count = u32::from_le_bytes([record[0], record[1], record[2], record[3]]);
    record.truncate(length(count.saturating_sub(1)));
    kept(number, body, record)
}

/// `check --body N --record RECORD FILE`.
pub fn check_one(rules: Rules, input: &[u8], body: u32, record: &[u8]) -> Kept {
    let file = &input[..input.len().min(MOST_READ)];
    let mut record = record.to_vec();
    let mut first = 0;
    let number = check_body(rules, file, body, &mut record, &mut first);
    kept(number, first, record)
}

/// `need FILE`: a line for each body, slots and frames, in enough room and report.
pub fn need(rules: Rules, input: &[u8]) -> Left {
    let file = &input[..input.len().min(MOST_READ)];
    let mut room = vec![0; RECORD * MAX_LABELS as usize];
    let mut report = vec![0; need::length(MAX_FUNCTIONS)];
    let (mut body, mut written) = (0, 0);
    match need::need(rules, file, &mut room, &mut report, &mut body, &mut written) {
        0 => Left::Printed(lines(&report[..written as usize]).into_bytes()),
        number => refused(number, body),
    }
}

/// A line for the entry and each function: its name or number, slots, frames.
fn lines(report: &[u8]) -> String {
    let bodies = (report.len() / need::PAIR) as u32;
    let line = |n: u32| {
        let name = n
            .checked_sub(1)
            .map_or("entry".to_string(), |n| n.to_string());
        let need = need::reported(report, n.wrapping_sub(1));
        format!("{name} {} {}\n", need.slots, need.frames)
    };
    (0..bodies).map(line).collect()
}

/// A refusal's number; with 11 and 47 the body too.
fn refused(number: u32, body: u32) -> Left {
    match number {
        11 | 47 => Left::Refused(format!("{number} {body}\n")),
        _ => Left::Refused(format!("{number}\n")),
    }
}

fn kept(number: u32, body: u32, record: Vec<u8>) -> Kept {
    let left = match number {
        0 => Left::Printed(b"0\n".to_vec()),
        _ => refused(number, body),
    };
    let record = matches!(number, 0 | 11).then_some(record);
    Kept { left, record }
}

/// A body by its number, or `entry`.
pub fn body(word: &str) -> Option<u32> {
    match word {
        "entry" => Some(ENTRY),
        _ => decimal(word),
    }
}

/// The edition that `convert` is asked for.
pub fn target(word: &str) -> Option<Edition> {
    match word {
        "4" => Some(Edition::Four),
        "3" => Some(Edition::Three),
        _ => None,
    }
}

/// A number in decimal, at most 4294967295.
pub fn decimal(word: &str) -> Option<u32> {
    let digits = !word.is_empty() && word.bytes().all(|byte| byte.is_ascii_digit());
    digits.then(|| word.parse().ok()).flatten()
}

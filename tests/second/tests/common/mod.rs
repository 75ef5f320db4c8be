//! Short ways to check and run assembled modules.
#![allow(dead_code)]

use second::asm;
use second::check::{check, Checked};
use second::heap::LentHeap;
use second::reader::ENTRY;
use second::rules::Rules;
use second::run::{run, Call, LentStack, Ran};
use second::words::payload;

pub const INT: u8 = 3;
pub const LONG: u8 = 4;
pub const DOUBLE: u8 = 6;
pub const POINTER: u8 = 7;
pub const NAN: u64 = 0x7FF8_0000_0000_0000;

/// Outcome, steps and the slots below the height.
pub type End = (u32, u64, Vec<(u8, u64)>);

/// Runs a function; a refusal is the error.
pub fn run_file(
    file: &[u8],
    function: u32,
    args: &[(u8, u64)],
    allowance: u64,
    slots: usize,
) -> Result<End, u32> {
    let arg_types: Vec<u8> = args.iter().map(|a| a.0).collect();
    let arg_payloads: Vec<u8> = args.iter().flat_map(|a| a.1.to_le_bytes()).collect();
    let (mut payloads, mut types) = (vec![0xEE; 8 * slots], vec![0xEE; slots]);
    let call = Call {
        function,
        arg_types: &arg_types,
        arg_payloads: &arg_payloads,
        profile: 0,
        allowance,
    };
    let stack = LentStack {
        payloads: &mut payloads,
        types: &mut types,
    };
    let heap = LentHeap {
        cells: &mut [0xEE; 8 * 20],
        blocks: &mut [0xEE; 24 * 20],
    };
    match run(Rules::PLAIN, file, call, stack, heap) {
        Ran::Refused(number) => Err(number),
        Ran::Ended {
            outcome,
            steps,
            height,
        } => {
            let mut rest = payloads[8 * height..].iter().chain(&types[height..]);
            assert!(rest.all(|&byte| byte == 0), "slots above the height");
            let slot = |n: usize| (types[n], payload(&payloads, 8 * n));
            Ok((outcome, steps, (0..height).map(slot).collect()))
        }
    }
}

/// Runs the entry with enough of everything.
pub fn entry(text: &str) -> End {
    run_file(&asm::file(text), ENTRY, &[], 10_000, 100).expect("a run")
}

/// The outcome and steps of the entry.
pub fn outcome(text: &str) -> (u32, u64) {
    let (outcome, steps, _) = entry(text);
    (outcome, steps)
}

/// The top slot after an entry that finishes.
pub fn top(text: &str) -> (u8, u64) {
    let (outcome, _, stack) = entry(text);
    assert_eq!(outcome, 0, "{text}");
    *stack.last().expect("a value")
}

/// The answer of a check with enough room.
pub fn checked(text: &str) -> u32 {
    answer(&asm::file(text))
}

pub fn answer(file: &[u8]) -> u32 {
    let mut room = vec![0xEE; 64 * 300];
    match check(Rules::PLAIN, file, &mut room) {
        Checked::Accepted => 0,
        Checked::Refused(number) => number,
        Checked::NoTyping { .. } => 11,
    }
}

/// The body named with 11.
pub fn bad_body(text: &str) -> u32 {
    let mut room = vec![0xEE; 64 * 300];
    match check(Rules::PLAIN, &asm::file(text), &mut room) {
        Checked::NoTyping { body, .. } => body,
        other => panic!("{other:?}"),
    }
}

/// The label records of an accepted module.
pub fn records(text: &str) -> Vec<Vec<u8>> {
    let program = asm::program(text);
    let mut room = vec![0xEE; 64 * program.labels.len() + 5];
    let answer = check(Rules::PLAIN, &program.file(), &mut room);
    assert_eq!(answer, Checked::Accepted);
    let (used, rest) = room.split_at(64 * program.labels.len());
    assert_eq!(rest, [0xEE; 5], "the rest of the room is unchanged");
    used.chunks(64).map(<[u8]>::to_vec).collect()
}

/// A label record with these lists.
pub fn record(locals: &[u8], operands: &[u8]) -> Vec<u8> {
    let mut bytes = vec![0; 64];
    bytes[0] = 1;
    bytes[1] = locals.len() as u8;
    bytes[2] = operands.len() as u8;
    bytes[16..16 + locals.len()].copy_from_slice(locals);
    bytes[32..32 + operands.len()].copy_from_slice(operands);
    bytes
}

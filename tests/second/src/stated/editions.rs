//! Edition 1: each of its 37 opcode numbers in bytes, what it leaves, and its own refusals.

use super::{record, refused, Stated, REST};
use crate::hex;
use crate::reader::ENTRY;

/// Constants 0 to 2: an int 7, a long 5, a double 1.5.
const CONSTANTS: &str = "03000000 07000000 00000000 04000000 05000000 00000000
    06000000 00000000 0000F83F";

/// Binds a local of each type: push 0, store 0, push 1, store 1, push 2, store 2.
const BOUND: &str = "0100000000 0400000000 0101000000 0401000000 0102000000 0402000000";

fn bytes(text: &str) -> Vec<u8> {
    hex::decode(text).expect("hex digits")
}

/// A file of edition 1: the constants, one function of one parameter that returns an int, label 0
/// of the entry, and code of which so many bytes are the entry's.
pub fn file(entry: &str, label: usize, parameter: u8, function: &str) -> Vec<u8> {
    let (entry, function) = (bytes(entry), bytes(function));
    let length = entry.len() + function.len();
    let mut file = Vec::new();
    // sections at 48, 84, 104, 112
    for word in [
        1,
        112 + length,
        3,
        48,
        1,
        84,
        1,
        104,
        length,
        112,
        entry.len(),
        0,
    ] {
        file.extend((word as u32).to_le_bytes());
    }
    file.extend(bytes(CONSTANTS));
    for word in [entry.len(), function.len()] {
        file.extend((word as u32).to_le_bytes());
    }
    file.extend([1, 3, parameter, 0, 0, 0, 0, 0, 0, 0, 0, 0]);
    file.extend(ENTRY.to_le_bytes());
    file.extend((label as u32).to_le_bytes());
    file.extend(entry);
    file.extend(function);
    file
}

/// `load 0`, `ret`.
const FUNCTION: &str = "0300000000 22";

/// Opcode numbers with code that ends in them, and the operand types that it leaves.
pub const LEAVES: [(u8, &str, &[u8]); 56] = [
    (0x01, "0100000000", &[3]),
    (0x01, "0101000000", &[4]),
    (0x01, "0102000000", &[6]),
    (0x02, "0100000000 0101000000 02", &[3]),
    (0x03, "0300000000", &[3]),
    (0x03, "0302000000", &[6]),
    (0x04, "0100000000 0400000000", &[]),
    (0x05, "0100000000 0100000000 05", &[3]),
    (0x05, "0101000000 0101000000 05", &[4]),
    (0x05, "0102000000 0102000000 05", &[6]),
    (0x06, "0102000000 0102000000 06", &[6]),
    (0x07, "0101000000 0101000000 07", &[4]),
    (0x08, "0102000000 0102000000 08", &[6]),
    (0x09, "0100000000 0100000000 09", &[3]),
    (0x0A, "0102000000 0102000000 0A", &[6]),
    (0x0B, "0100000000 0100000000 0B", &[3]),
    (0x0C, "0101000000 0101000000 0C", &[4]),
    (0x0D, "0102000000 0D", &[6]),
    (0x0D, "0100000000 0D", &[3]),
    (0x0E, "0100000000 0E", &[3]),
    (0x0E, "0101000000 0E", &[4]),
    (0x0E, "0102000000 0E", &[6]),
    (0x0E, "0101000000 0100000000 0E", &[4, 3]),
    (0x0F, "0100000000 0F", &[3]),
    (0x0F, "0101000000 0F", &[4]),
    (0x0F, "0102000000 0F", &[6]),
    (0x10, "0100000000 0100000000 10", &[3]),
    (0x11, "0101000000 0101000000 11", &[4]),
    (0x12, "0100000000 0100000000 12", &[3]),
    (0x13, "0101000000 13", &[4]),
    (0x14, "0100000000 0100000000 14", &[3]),
    (0x15, "0101000000 0101000000 15", &[4]),
    (0x16, "0100000000 0100000000 16", &[3]),
    (0x17, "0101000000 0101000000 17", &[4]),
    (0x18, "0102000000 0102000000 18", &[3]),
    (0x18, "0101000000 0101000000 18", &[3]),
    (0x19, "0102000000 0102000000 19", &[3]),
    (0x19, "0100000000 0100000000 19", &[3]),
    (0x1A, "0101000000 1A00000000", &[4]),
    (0x1B, "0101000000 0100000000 1B00000000", &[4]),
    (0x1C, "0101000000 0100000000 1C00000000", &[4]),
    (0x1D, "0101000000 0100000000 1D00000000", &[4]),
    (0x1E, "0101000000 0100000000 1E00000000", &[4]),
    (0x1F, "0101000000 0100000000 1F00000000", &[4]),
    (0x20, "0101000000 0100000000 2000000000", &[4]),
    (0x21, "0101000000 0100000000 2100000000", &[4, 3]),
    // what is after `ret` is dead: it is judged in the function below
    (0x23, "0102000000 23", &[3]),
    (0x23, "0101000000 23", &[3]),
    (0x23, "0100000000 23", &[3]),
    (0x24, "0102000000 24", &[4]),
    (0x24, "0100000000 24", &[4]),
    (0x24, "0101000000 24", &[4]),
    (0x25, "0100000000 25", &[6]),
    (0x25, "0101000000 25", &[6]),
    (0x25, "0102000000 25", &[6]),
    (0x05, "0100000000 0100000000 0100000000 05", &[3, 3]),
];

/// Code of the entry without typing: number, and what it would raise.
const UNTYPED: [(u8, &str); 31] = [
    (0x01, "0103000000"),
    (0x02, "02"),
    (0x03, "0303000000"),
    (0x04, "0400000000"),
    (0x04, "0101000000 0400000000"),
    (0x04, "0100000000 0404000000"),
    (0x05, "0100000000 05"),
    (0x06, "0100000000 0101000000 06"),
    (0x0B, "0102000000 0102000000 0B"),
    (0x0C, "0102000000 0102000000 0C"),
    (0x0D, "0D"),
    // a bound local on top is no operand
    (0x0E, "0E"),
    (0x0F, "0F"),
    (0x10, "0102000000 0102000000 10"),
    (0x11, "0102000000 0102000000 11"),
    (0x12, "0102000000 0102000000 12"),
    (0x13, "0102000000 13"),
    (0x14, "0102000000 0102000000 14"),
    (0x15, "0102000000 0102000000 15"),
    (0x16, "0102000000 0102000000 16"),
    (0x17, "0102000000 0102000000 17"),
    (0x18, "0102000000 0100000000 18"),
    (0x19, "0101000000 0100000000 19"),
    (0x1A, "1A01000000"),
    (0x1B, "0101000000 1B00000000"),
    (0x1C, "1C00000000"),
    (0x20, "0102000000 2000000000"),
    (0x21, "0101000000 2100000000"),
    (0x21, "2101000000"),
    (0x22, "22"),
    (0x23, "23"),
];

pub fn cases() -> Vec<Stated> {
    let mut cases = leaves();
    for (number, code) in UNTYPED {
        let name = format!("edition 1, {number:02X}: {code}");
        let entry = format!("{BOUND} {code} 0100000000");
        let label = bytes(&entry).len() - 5;
        let mut stated = Stated::new(&name, file(&entry, label, 3, FUNCTION), 64 + REST);
        stated.after[..64].fill(0);
        stated.answer = 11;
        stated.body = ENTRY;
        cases.push(stated);
    }
    cases.extend(refusals());
    cases
}

/// Label 0 is on a `push` after the code.
fn leaves() -> Vec<Stated> {
    let leaves = LEAVES.iter().map(|&(number, code, left)| {
        let name = format!("edition 1, {number:02X}: {code}");
        let entry = format!("{BOUND} {code} 0100000000");
        let label = bytes(&entry).len() - 5;
        let mut stated = Stated::new(&name, file(&entry, label, 3, FUNCTION), 64 + REST);
        stated.after[..64].copy_from_slice(&record(Some((&[3, 4, 6], left))));
        stated
    });
    leaves.collect()
}

/// 2, 7 and 8 as edition 1 has them; each beside a file that is just right.
fn refusals() -> Vec<Stated> {
    let plain = "0100000000";
    let room = 64 + REST;
    let good = || {
        let mut stated = Stated::new("edition 1", file(plain, 0, 3, FUNCTION), room);
        stated.after[..64].copy_from_slice(&record(Some((&[], &[]))));
        stated
    };
    let mut cases = vec![good()];
    for edition in [0, 2, 5, 6, 255, 257, 0x0001_0000, 0x0100_0001, 0xFFFF_FFFF] {
        let mut file = file(plain, 0, 3, FUNCTION);
        file[..4].copy_from_slice(&u32::to_le_bytes(edition));
        cases.push(refused(&format!("edition {edition}"), file, room, 2));
    }
    // "No pointer types in signatures (7)."
    for parameter in [0x83, 0x84, 0x86, 7, 0x80, 0] {
        let name = format!("edition 1, parameter {parameter:02X}");
        let file = file(plain, 0, parameter, "0100000000 22");
        cases.push(refused(&name, file, room, 7));
    }
    for parameter in [3, 4, 6] {
        let mut stated = good();
        stated.name = format!("edition 1, parameter {parameter:02X}");
        stated.file = file(plain, 0, parameter, "0100000000 22");
        cases.push(stated);
    }
    // "01 to 25 (hex)": each other byte is 8, in code that is never reached too
    for byte in (0x26..=0xFFu8).chain([0]) {
        let name = format!("edition 1, opcode {byte:02X}");
        let entry = format!("1A00000000 {byte:02X}");
        cases.push(refused(&name, file(&entry, 0, 3, FUNCTION), room, 8));
    }
    for byte in 0x01..=0x25u8 {
        // an operand is part of it, or it crosses the body's end
        let operand = matches!(byte, 0x01 | 0x03 | 0x04 | 0x1A..=0x21);
        let name = format!("edition 1, opcode {byte:02X} at the end");
        let entry = format!("1A00000000 {byte:02X}");
        let mut stated = good();
        stated.name = name;
        stated.file = file(&entry, 0, 3, FUNCTION);
        if operand {
            stated.after = stated.before.clone();
            stated.answer = 8;
        }
        cases.push(stated);
    }
    // `ret` has no operand, as in edition 3
    let mut ret = file(plain, 0, 3, "0300000000 2200000000");
    ret[88] = 10;
    cases.push(refused("edition 1, ret with an operand", ret, room, 8));
    let mut label = file("0100000000 0100000000", 1, 3, FUNCTION);
    cases.push(refused(
        "edition 1, label in an instruction",
        label.clone(),
        room,
        9,
    ));
    label[108] = 10;
    cases.push(refused(
        "edition 1, label on the entry's end",
        label,
        room,
        9,
    ));
    // 7 before 8
    let both = file("26", 0, 0x83, FUNCTION);
    cases.push(refused(
        "edition 1, a pointer parameter and 26",
        both,
        room,
        7,
    ));
    cases
}

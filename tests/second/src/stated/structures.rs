//! Edition 4: its four opcodes and what others do with its types, in bytes, with what they leave;
//! and its refusals.

use super::{record, refused, Stated, REST};
use crate::hex;
use crate::reader::ENTRY;

/// Constants 0 to 2: an int 7, a long 5, a double 1.5.
const CONSTANTS: &str = "03000000 07000000 00000000 04000000 05000000 00000000
    06000000 00000000 0000F83F";

/// Structure 10 has an int and a double, structure 11 a long.
const STRUCTURES: &str = "02 0306000000000000 000000 01 0400000000000000 000000";

/// Binds an int, a long, a double, a pointer to structure 10, null, a pointer to local 0.
const BOUND: &str = "0100000000 0400000000 0101000000 0401000000 0102000000 0402000000
    310A000000 0403000000 30 0404000000 0500000000 0405000000";

/// The locals' types then.
const LOCALS: [u8; 6] = [3, 4, 6, 0x8A, 0x80, 0x83];

/// `load 0`, `ret`.
const FUNCTION: &str = "0300000000 28";

fn bytes(text: &str) -> Vec<u8> {
    hex::decode(text).expect("hex digits")
}

/// A file of edition 4: the constants, one function of these types, label 0 of the entry, code,
/// and the structures.
pub fn file(entry: &str, label: usize, (parameter, returns): (u8, u8), function: &str) -> Vec<u8> {
    let (entry, function) = (bytes(entry), bytes(function));
    let length = entry.len() + function.len();
    let mut file = Vec::new();
    // sections at 56, 92, 116, 124, and after the code
    for word in [
        4,
        124 + length + 24,
        3,
        56,
        1,
        92,
        1,
        116,
        length,
        124,
        entry.len(),
        0,
        2,
        124 + length,
    ] {
        file.extend((word as u32).to_le_bytes());
    }
    file.extend(bytes(CONSTANTS));
    for word in [entry.len(), function.len()] {
        file.extend((word as u32).to_le_bytes());
    }
    file.extend([1, returns, parameter, 0, 0, 0, 0, 0, 0, 0, 0, 0]);
    // its profile, at 112
    file.extend([0; 4]);
    file.extend(ENTRY.to_le_bytes());
    file.extend((label as u32).to_le_bytes());
    file.extend(entry);
    file.extend(function);
    file.extend(bytes(STRUCTURES));
    file
}

/// Opcode numbers with code that ends in them, and the operand types that it leaves.
pub const LEAVES: [(u8, &str, &[u8]); 58] = [
    (0x30, "30", &[0x80]),
    (0x30, "30 30", &[0x80, 0x80]),
    (0x31, "3103000000", &[0x83]),
    (0x31, "3104000000", &[0x84]),
    (0x31, "3106000000", &[0x86]),
    (0x31, "310A000000", &[0x8A]),
    (0x31, "310B000000", &[0x8B]),
    // "those three take any pointers"
    (0x32, "30 32", &[]),
    (0x32, "3103000000 32", &[]),
    (0x32, "3106000000 32", &[]),
    (0x32, "310A000000 32", &[]),
    (0x32, "310B000000 32", &[]),
    (0x32, "0500000000 32", &[]),
    (0x32, "0502000000 32", &[]),
    (0x32, "310A000000 0600000000 32", &[]),
    (0x32, "0100000000 30 32", &[3]),
    (0x06, "310A000000 0600000000", &[0x83]),
    (0x06, "310A000000 0601000000", &[0x86]),
    (0x06, "310B000000 0600000000", &[0x84]),
    (0x06, "0303000000 0601000000", &[0x86]),
    (0x06, "0101000000 310B000000 0600000000", &[4, 0x84]),
    (0x07, "3103000000 07", &[3]),
    (0x07, "3104000000 07", &[4]),
    (0x07, "3106000000 07", &[6]),
    (0x07, "310A000000 0600000000 07", &[3]),
    (0x07, "310A000000 0601000000 07", &[6]),
    (0x07, "310B000000 0600000000 07", &[4]),
    (0x07, "0305000000 07", &[3]),
    (0x08, "3103000000 0100000000 08", &[]),
    (0x08, "3104000000 0101000000 08", &[]),
    (0x08, "310A000000 0601000000 0102000000 08", &[]),
    (0x14, "3103000000 14", &[]),
    (0x14, "310B000000 0600000000 14", &[]),
    (0x15, "310A000000 0601000000 15", &[]),
    // moves of null
    (0x02, "30 02", &[]),
    (0x03, "0304000000", &[0x80]),
    (0x04, "30 0404000000", &[]),
    (0x09, "30 09", &[0x80, 0x80]),
    (0x0A, "30 30 0A", &[0x80, 0x80]),
    // and of pointers to structures
    (0x02, "310A000000 02", &[]),
    (0x03, "0303000000", &[0x8A]),
    (0x04, "310A000000 0403000000", &[]),
    (0x09, "310B000000 09", &[0x8B, 0x8B]),
    (0x0A, "310A000000 0303000000 0A", &[0x8A, 0x8A]),
    // any two pointers are compared
    (0x1E, "30 30 1E", &[3]),
    (0x1E, "30 310A000000 1E", &[3]),
    (0x1E, "310A000000 310B000000 1E", &[3]),
    (0x1E, "0305000000 0303000000 1E", &[3]),
    (0x1E, "0500000000 0501000000 1E", &[3]),
    (0x1E, "0500000000 30 1E", &[3]),
    (0x1F, "310A000000 30 1F", &[3]),
    (0x1F, "3103000000 3106000000 1F", &[3]),
    (0x1F, "0500000000 310B000000 1F", &[3]),
    (0x1F, "310A000000 310A000000 1F", &[3]),
    // a structure's pointer goes to the function and comes back
    (0x27, "0303000000 2700000000", &[0x8A]),
    (0x27, "310A000000 2700000000", &[0x8A]),
    (0x27, "0100000000 310A000000 2700000000", &[3, 0x8A]),
    (0x27, "310A000000 2700000000 2700000000", &[0x8A]),
];

/// Code of the entry without typing, by the opcode that has none and what it would raise.
const UNTYPED: [(u8, u32, &str); 69] = [
    (0x31, 37, "3100000000"),
    (0x31, 37, "3105000000"),
    (0x31, 37, "3107000000"),
    (0x31, 37, "3108000000"),
    (0x31, 37, "3109000000"),
    (0x31, 37, "310C000000"),
    (0x31, 37, "311A000000"),
    (0x31, 37, "3180000000"),
    (0x31, 37, "3183000000"),
    (0x31, 37, "318A000000"),
    (0x31, 37, "3103010000"),
    (0x31, 37, "310A000001"),
    (0x32, 21, "32"),
    (0x32, 31, "0100000000 32"),
    (0x32, 31, "0102000000 32"),
    (0x06, 21, "0600000000"),
    (0x06, 31, "0100000000 0600000000"),
    (0x06, 36, "30 0600000000"),
    (0x06, 39, "3103000000 0600000000"),
    (0x06, 39, "0500000000 0600000000"),
    (0x06, 39, "310A000000 0600000000 0600000000"),
    (0x06, 38, "310A000000 0602000000"),
    (0x06, 38, "310B000000 0601000000"),
    (0x06, 38, "310A000000 0608000000"),
    (0x06, 38, "310A000000 0600010000"),
    (0x06, 38, "310A000000 06FFFFFFFF"),
    (0x07, 36, "30 07"),
    (0x07, 50, "310A000000 07"),
    (0x07, 50, "310B000000 07"),
    (0x07, 31, "0100000000 07"),
    (0x08, 36, "30 0100000000 08"),
    (0x08, 50, "310A000000 0100000000 08"),
    (0x08, 50, "310B000000 0101000000 08"),
    (0x08, 50, "310A000000 310A000000 08"),
    (0x08, 22, "3103000000 0101000000 08"),
    (0x08, 22, "3103000000 30 08"),
    (0x08, 22, "3103000000 3103000000 08"),
    (0x08, 22, "310A000000 0600000000 0102000000 08"),
    (0x14, 36, "30 14"),
    (0x14, 50, "310A000000 14"),
    (0x15, 36, "30 15"),
    (0x15, 50, "310B000000 15"),
    // null is the type of no other pointer
    (0x04, 22, "30 0403000000"),
    (0x04, 22, "30 0405000000"),
    (0x04, 22, "310A000000 0404000000"),
    (0x04, 22, "310B000000 0403000000"),
    (0x04, 22, "310A000000 0405000000"),
    (0x0A, 22, "30 310A000000 0A"),
    (0x0A, 22, "310A000000 30 0A"),
    (0x0A, 22, "3103000000 30 0A"),
    (0x0A, 22, "310A000000 310B000000 0A"),
    (0x0A, 22, "3103000000 310A000000 0A"),
    (0x27, 22, "30 2700000000"),
    (0x27, 22, "310B000000 2700000000"),
    (0x27, 22, "3103000000 2700000000"),
    (0x27, 22, "0100000000 2700000000"),
    (0x1E, 22, "30 0100000000 1E"),
    (0x1E, 22, "0101000000 310A000000 1E"),
    (0x1F, 22, "310A000000 0102000000 1F"),
    (0x1F, 21, "30 1F"),
    (0x05, 32, "0503000000"),
    (0x05, 32, "0504000000"),
    (0x13, 32, "30 13"),
    (0x0B, 32, "30 30 0B"),
    (0x0B, 32, "310A000000 0100000000 0B"),
    (0x2B, 32, "30 2B"),
    (0x2E, 32, "310A000000 2E"),
    (0x21, 22, "30 2100000000"),
    (0x21, 22, "310A000000 2100000000"),
];

/// A pointer to structure 10 in and out.
const STRUCTURE: (u8, u8) = (0x8A, 0x8A);

pub fn cases() -> Vec<Stated> {
    let mut cases = Vec::new();
    for (number, code, left) in LEAVES {
        let mut stated = entry(&format!("edition 4, {number:02X}: {code}"), code);
        stated.after[..64].copy_from_slice(&record(Some((&LOCALS, left))));
        cases.push(stated);
    }
    for (number, raised, code) in UNTYPED {
        let name = format!("edition 4, {number:02X} would raise {raised}: {code}");
        cases.push(untyped(entry(&name, code), ENTRY));
    }
    cases.extend(bindings());
    cases.extend(joins());
    cases.extend(functions());
    cases.extend(short_files());
    cases.extend(patched());
    cases.extend(signatures());
    cases.extend(opcodes());
    cases.extend(profiles());
    cases
}

/// Label 0 is on a `push` after the code; what a check writes is to be filled in.
fn entry(name: &str, code: &str) -> Stated {
    let entry = format!("{BOUND} {code} 0100000000");
    let label = bytes(&entry).len() - 5;
    Stated::new(name, file(&entry, label, STRUCTURE, FUNCTION), 64 + REST)
}

fn untyped(mut stated: Stated, body: u32) -> Stated {
    stated.after[..64].fill(0);
    stated.answer = 11;
    stated.body = body;
    stated
}

/// Bound pointers are locals.
fn bindings() -> Vec<Stated> {
    let mut cases = Vec::new();
    for (code, local) in [("30", 0x80), ("310B000000", 0x8B), ("3106000000", 0x86)] {
        let mut stated = entry(
            &format!("edition 4, binding {local:02X}"),
            &format!("0100000000 {code} 0406000000"),
        );
        let locals = [&LOCALS[..], &[local]].concat();
        stated.after[..64].copy_from_slice(&record(Some((&locals, &[]))));
        cases.push(stated);
    }
    cases
}

/// Two ways must leave the same pointer types: one jumps to label 0 with its pointer, the other has
/// its own there.
fn joins() -> Vec<Stated> {
    let mut cases = Vec::new();
    for (one, other, same) in [
        ("30 30 02", "30", true),
        ("310A000000", "310A000000", true),
        ("310A000000", "30", false),
        ("310A000000", "310B000000", false),
        ("3103000000", "30", false),
    ] {
        let start = format!("{one} 0100000000 2100000000 02 {other}");
        let name = format!("edition 4, a join of {one} and {other}");
        let mut stated = Stated::new(
            &name,
            file(
                &format!("{start} 0100000000"),
                bytes(&start).len(),
                STRUCTURE,
                FUNCTION,
            ),
            64 + REST,
        );
        if same {
            let ty = if one.starts_with("30") { 0x80 } else { 0x8A };
            stated.after[..64].copy_from_slice(&record(Some((&[], &[ty]))));
        } else {
            stated = untyped(stated, ENTRY);
        }
        cases.push(stated);
    }
    cases
}

/// What a function of these types may return.
fn functions() -> Vec<Stated> {
    let mut cases = Vec::new();
    for (types, code, typed) in [
        ((0x8A, 0x8A), "0300000000 28", true),
        ((3, 0x8A), "310A000000 28", true),
        ((0x8A, 0x8B), "310B000000 28", true),
        ((0x83, 0x8A), "310A000000 28", true),
        ((0x8A, 3), "0300000000 0600000000 07 28", true),
        ((0x8B, 0), "0300000000 32 28", true),
        ((0x8A, 0), "0300000000 0601000000 0102000000 08 28", true),
        // null, another structure, a field, a number
        ((0x8A, 0x8A), "30 28", false),
        ((0x8A, 0x8A), "310B000000 28", false),
        ((0x8A, 0x8A), "0300000000 0600000000 28", false),
        ((0x8A, 0x8A), "0100000000 28", false),
        ((0x8A, 0x8A), "28", false),
        ((0x8A, 3), "0300000000 28", false),
        ((0x8A, 3), "30 28", false),
        ((0x8B, 3), "0300000000 0600000000 07 28", false),
    ] {
        let name = format!("edition 4, a function of {types:02X?}: {code}");
        let module = file("0100000000", 0, types, code);
        let mut stated = Stated::new(&name, module, 64 + REST);
        if typed {
            stated.after[..64].copy_from_slice(&record(Some((&[], &[]))));
        } else {
            stated = untyped(stated, 0);
        }
        cases.push(stated);
    }
    cases
}

/// "Edition 4 has a 56-byte header (...; shorter is 1)"; an edition that is none is 2.
fn short_files() -> Vec<Stated> {
    let good = file("0100000000", 0, STRUCTURE, FUNCTION);
    let mut cases = Vec::new();
    for len in [0, 3, 47, 48, 52, 55] {
        let name = format!("edition 4, {len} bytes");
        cases.push(refused(&name, good[..len].to_vec(), 64, 1));
    }
    cases.push(refused("edition 4, 56 bytes", good[..56].to_vec(), 64, 3));
    for (edition, number) in [(1, 3), (3, 3), (2, 2), (5, 2)] {
        for len in [48, 55] {
            let mut cut = good[..len].to_vec();
            cut[0] = edition;
            let name = format!("edition {edition}, {len} bytes");
            cases.push(refused(&name, cut, 64, number));
        }
    }
    // nothing but a header
    let mut empty = Vec::new();
    for word in [4, 56, 0, 56, 0, 56, 0, 56, 0, 56, 0, 0, 0, 56u32] {
        empty.extend(word.to_le_bytes());
    }
    cases.push(Stated::new("edition 4, a header", empty.clone(), REST));
    for (at, byte, number) in [(52, 0, 5), (52, 48, 5), (12, 48, 5), (44, 1, 4), (48, 1, 5)] {
        let mut file = empty.clone();
        file[at] = byte;
        let name = format!("edition 4, a header with {byte} at {at}");
        cases.push(refused(&name, file, 64, number));
    }
    cases
}

/// Number, what is wrong, and bytes that replace others. Structures begin at 135.
const PATCHES: [(u32, &str, usize, &[u8]); 33] = [
    (2, "edition 260", 1, &[1]),
    (3, "total length", 4, &[160]),
    (4, "17 structures", 48, &[17]),
    (4, "2^24 structures and two", 51, &[1]),
    (4, "word 44", 44, &[1]),
    (5, "one structure", 48, &[1]),
    (5, "three structures", 48, &[3]),
    (5, "offset of structures", 52, &[134]),
    (5, "offset of structures, upper byte", 55, &[1]),
    (5, "offset of constants", 12, &[48]),
    (5, "offset of code", 36, &[125]),
    (6, "constant of type 10", 56, &[10]),
    (6, "constant of type 8A", 56, &[0x8A]),
    (6, "no fields", 135, &[0]),
    (6, "nine fields", 135, &[9]),
    (6, "255 fields", 147, &[255]),
    (6, "three fields, two types", 135, &[3]),
    (6, "one field, two types", 135, &[1]),
    (6, "field of type 0", 136, &[0]),
    (6, "field of type 5", 137, &[5]),
    (6, "field of type 7", 136, &[7]),
    (6, "field of type 10", 148, &[10]),
    (6, "field of type 83", 148, &[0x83]),
    (6, "field of type 8B", 136, &[0x8B]),
    (6, "unused field byte", 138, &[3]),
    (6, "last unused field byte", 143, &[6]),
    (6, "first zero", 144, &[1]),
    (6, "second zero", 145, &[3]),
    (6, "last zero of the last structure", 158, &[1]),
    (6, "a structure and a function", 147, &[0]),
    (7, "byte 18 of the function", 110, &[1]),
    (8, "opcode 35", 124, &[0x35]),
    (9, "label on the entry's end", 120, &[5]),
];

fn patched() -> Vec<Stated> {
    let good = file("0100000000", 0, STRUCTURE, FUNCTION);
    let patched = PATCHES.iter().map(|&(number, name, at, with)| {
        let mut file = good.clone();
        file[at..at + with.len()].copy_from_slice(with);
        if name == "a structure and a function" {
            // 6 comes before 7, though the structure stands last
            file[110] = 1;
        }
        refused(&format!("edition 4, {name}"), file, 64 + REST, number)
    });
    patched.collect()
}

/// "an undeclared one in a signature 7"; 80 and C0 are no types of a signature, 83 none to return.
fn signatures() -> Vec<Stated> {
    let mut cases = Vec::new();
    for ty in 0..=255u8 {
        // "C3, C4, C6 and CA to D9 (hex) for managed pointers, which functions may take and return"
        let managed = matches!(ty, 0xC3 | 0xC4 | 0xC6 | 0xCA | 0xCB);
        let parameter = matches!(ty, 3 | 4 | 6 | 0x83 | 0x84 | 0x86 | 0x8A | 0x8B) || managed;
        let returned = matches!(ty, 0 | 3 | 4 | 6 | 0x8A | 0x8B) || managed;
        for (types, good) in [((ty, 0), parameter), ((3, ty), returned)] {
            let name = format!("edition 4, a function of {types:02X?}");
            // it never returns
            let module = file("0100000000", 0, types, "2700000000 28");
            let mut stated = Stated::new(&name, module, 64 + REST);
            if good {
                // `call` without arguments
                stated = untyped(stated, 0);
            } else {
                stated.answer = 7;
            }
            cases.push(stated);
        }
    }
    // no type of edition 3
    for ty in [0x8A, 0x80, 0xC0, 0xC3, 0xC6, 0xCA] {
        for at in [9, 10] {
            let mut file = crate::asm::file("entry: function void (int): ret");
            file[48 + at] = ty;
            let name = format!("edition 3, {ty:02X} in a signature");
            cases.push(refused(&name, file, 64, 7));
        }
    }
    cases
}

/// Each opcode byte last in the entry, in code that is never reached.
fn opcodes() -> Vec<Stated> {
    let mut cases = Vec::new();
    for byte in 0..=255u8 {
        let known = matches!(byte, 0x01..=0x28 | 0x2B | 0x2C | 0x2E | 0x30..=0x34);
        let operand = matches!(byte, 0x01 | 0x03..=0x06 | 0x20..=0x27 | 0x31 | 0x34);
        let name = format!("edition 4, opcode {byte:02X} at the end");
        let code = format!("2000000000 {byte:02X}");
        let mut stated = Stated::new(&name, file(&code, 0, STRUCTURE, FUNCTION), 64 + REST);
        if known && !operand {
            stated.after[..64].copy_from_slice(&record(Some((&[], &[]))));
        } else {
            stated.answer = 8;
        }
        cases.push(stated);
        if operand {
            let name = format!("edition 4, opcode {byte:02X} with its operand");
            let code = format!("2000000000 {byte:02X}FFFFFFFF");
            let module = file(&code, 0, STRUCTURE, FUNCTION);
            let mut stated = Stated::new(&name, module, 64 + REST);
            stated.after[..64].copy_from_slice(&record(Some((&[], &[]))));
            cases.push(stated);
        }
    }
    cases
}

/// "the profile it was made for, 0 for any": a check takes any, and does not look at it.
fn profiles() -> Vec<Stated> {
    let mut cases = Vec::new();
    for at in 112..116 {
        for byte in [1, 5, 0x80, 0xFF] {
            let name = format!("edition 4, profile byte {byte:02X} at {at}");
            let mut file = file("0100000000", 0, STRUCTURE, FUNCTION);
            file[at] = byte;
            let mut stated = Stated::new(&name, file.clone(), 64 + REST);
            stated.after[..64].copy_from_slice(&record(Some((&[], &[]))));
            cases.push(stated);
            // the two zero bytes before it are still looked at
            file[111] = 1;
            cases.push(refused(&format!("{name}, and at 111"), file, 64, 7));
        }
    }
    // a record of 20 bytes, with the offsets that this gives
    let mut short = file("0100000000", 0, STRUCTURE, FUNCTION);
    short.drain(112..116);
    for at in [4, 28, 36, 52] {
        short[at] -= 4;
    }
    cases.push(refused("edition 4, a record of 20 bytes", short, 64, 5));
    cases
}

//! Managed pointers, document 02's A9: `gcnull`, `gcnew` and what other opcodes do with their types,
//! in bytes, with what they leave; and what has no typing.

use super::structures::file;
use super::{accepted, record, refused, untyped_entry, Record, Stated, REST};
use crate::asm;
use crate::hex;
use crate::reader::ENTRY;

/// Binds an int, a managed pointer to structure 10, gcnull, a pointer to structure 10, a managed
/// pointer to an int, a pointer to local 0.
const BOUND: &str = "0100000000 0400000000 340A000000 0401000000 33 0402000000
    310A000000 0403000000 3403000000 0404000000 0500000000 0405000000";

/// The locals' types then.
const LOCALS: [u8; 6] = [3, 0xCA, 0xC0, 0x8A, 0xC3, 0x83];

/// A managed pointer to structure 10 in and out: `load 0`, `ret`.
const STRUCTURE: (u8, u8) = (0xCA, 0xCA);
const FUNCTION: &str = "0300000000 28";

fn bytes(text: &str) -> Vec<u8> {
    hex::decode(text).expect("hex digits")
}

/// Opcode numbers with code that ends in them, and the operand types that it leaves. Structure 10
/// has an int and a double, structure 11 a long.
const LEAVES: [(u8, &str, &[u8]); 56] = [
    (0x33, "33", &[0xC0]),
    (0x33, "30 33", &[0x80, 0xC0]),
    (0x34, "3403000000", &[0xC3]),
    (0x34, "3404000000", &[0xC4]),
    (0x34, "3406000000", &[0xC6]),
    (0x34, "340A000000", &[0xCA]),
    (0x34, "340B000000", &[0xCB]),
    // "`flea` keeps type 8."
    (0x06, "340A000000 0600000000", &[0xC3]),
    (0x06, "340A000000 0601000000", &[0xC6]),
    (0x06, "340B000000 0600000000", &[0xC4]),
    (0x06, "0301000000 0601000000", &[0xC6]),
    (0x06, "310A000000 0601000000", &[0x86]),
    (0x07, "3403000000 07", &[3]),
    (0x07, "3404000000 07", &[4]),
    (0x07, "3406000000 07", &[6]),
    (0x07, "340A000000 0601000000 07", &[6]),
    (0x07, "340B000000 0600000000 07", &[4]),
    (0x07, "0304000000 07", &[3]),
    (0x08, "3403000000 0100000000 08", &[]),
    (0x08, "3404000000 0101000000 08", &[]),
    (0x08, "340A000000 0601000000 0102000000 08", &[]),
    (0x08, "0304000000 0300000000 08", &[]),
    (0x14, "3403000000 14", &[]),
    (0x14, "340B000000 0600000000 14", &[]),
    (0x15, "340A000000 0601000000 15", &[]),
    (0x15, "0304000000 15", &[]),
    // moves of gcnull: "used as 80 is"
    (0x02, "33 02", &[]),
    (0x03, "0302000000", &[0xC0]),
    (0x04, "33 0402000000", &[]),
    (0x09, "33 09", &[0xC0, 0xC0]),
    (0x0A, "33 33 0A", &[0xC0, 0xC0]),
    // and of managed pointers; a field's is of the type of a number's block
    (0x02, "340A000000 02", &[]),
    (0x03, "0301000000", &[0xCA]),
    (0x04, "340A000000 0401000000", &[]),
    (0x04, "3403000000 0404000000", &[]),
    (0x04, "340A000000 0600000000 0404000000", &[]),
    (0x09, "340B000000 09", &[0xCB, 0xCB]),
    (0x0A, "340A000000 0301000000 0A", &[0xCA, 0xCA]),
    (0x0A, "3403000000 340A000000 0600000000 0A", &[0xC3, 0xC3]),
    // any two managed pointers are compared
    (0x1E, "33 33 1E", &[3]),
    (0x1E, "33 340A000000 1E", &[3]),
    (0x1E, "340A000000 340B000000 1E", &[3]),
    (0x1E, "0304000000 0301000000 1E", &[3]),
    (0x1E, "3403000000 3406000000 1E", &[3]),
    (0x1F, "340A000000 33 1F", &[3]),
    (0x1F, "0302000000 0304000000 1F", &[3]),
    (0x1F, "340A000000 0600000000 0301000000 1F", &[3]),
    (0x1F, "340A000000 340A000000 1F", &[3]),
    // what is not managed is deleted beside them
    (0x32, "33 30 32", &[0xC0]),
    (0x32, "340A000000 0303000000 32", &[0xCA]),
    (0x32, "3403000000 3103000000 32", &[0xC3]),
    // a managed pointer goes to the function and comes back
    (0x27, "0301000000 2700000000", &[0xCA]),
    (0x27, "340A000000 2700000000", &[0xCA]),
    (0x27, "0100000000 340A000000 2700000000", &[3, 0xCA]),
    (0x27, "340A000000 2700000000 2700000000", &[0xCA]),
    (0x27, "340A000000 2700000000 0600000000 07", &[3]),
];

/// Code of the entry without typing, by the opcode that has none and what it would raise.
const UNTYPED: [(u8, u32, &str); 88] = [
    (0x34, 37, "3400000000"),
    (0x34, 37, "3405000000"),
    (0x34, 37, "3407000000"),
    (0x34, 37, "3408000000"),
    (0x34, 37, "3409000000"),
    (0x34, 37, "340C000000"),
    (0x34, 37, "341A000000"),
    (0x34, 37, "3443000000"),
    (0x34, 37, "344A000000"),
    (0x34, 37, "3480000000"),
    (0x34, 37, "348A000000"),
    (0x34, 37, "34C3000000"),
    (0x34, 37, "34CA000000"),
    (0x34, 37, "3403010000"),
    (0x34, 37, "340A000001"),
    // "`delete` of type 8 is 31. A typing passes neither that"
    (0x32, 31, "33 32"),
    (0x32, 31, "0302000000 32"),
    (0x32, 31, "340A000000 32"),
    (0x32, 31, "3403000000 32"),
    (0x32, 31, "0304000000 32"),
    (0x32, 31, "340A000000 0600000000 32"),
    (0x32, 31, "310A000000 33 32"),
    // "nor a comparison across types 7 and 8"
    (0x1E, 22, "30 33 1E"),
    (0x1E, 22, "33 30 1E"),
    (0x1E, 22, "310A000000 340A000000 1E"),
    (0x1E, 22, "3403000000 3103000000 1E"),
    (0x1E, 22, "0500000000 33 1E"),
    (0x1E, 22, "0305000000 0304000000 1E"),
    (0x1E, 22, "33 0100000000 1E"),
    (0x1F, 22, "30 33 1F"),
    (0x1F, 22, "340A000000 310A000000 1F"),
    (0x1F, 22, "340A000000 30 1F"),
    (0x1F, 22, "33 0500000000 1F"),
    (0x1F, 22, "0303000000 0301000000 1F"),
    (0x1F, 22, "0101000000 340A000000 1F"),
    (0x1F, 21, "33 1F"),
    // gcnull leads nowhere
    (0x06, 36, "33 0600000000"),
    (0x06, 36, "0302000000 0600000000"),
    (0x06, 39, "3403000000 0600000000"),
    (0x06, 39, "0304000000 0600000000"),
    (0x06, 39, "340A000000 0600000000 0600000000"),
    (0x06, 38, "340A000000 0602000000"),
    (0x06, 38, "340B000000 0601000000"),
    (0x06, 38, "340A000000 06FFFFFFFF"),
    (0x07, 36, "33 07"),
    (0x07, 50, "340A000000 07"),
    (0x07, 50, "0301000000 07"),
    (0x08, 36, "33 0100000000 08"),
    (0x08, 50, "340A000000 0100000000 08"),
    (0x08, 50, "340A000000 340A000000 08"),
    (0x08, 22, "3403000000 0101000000 08"),
    (0x08, 22, "3403000000 33 08"),
    (0x08, 22, "3403000000 3403000000 08"),
    (0x08, 22, "340A000000 0600000000 0102000000 08"),
    (0x08, 22, "0305000000 33 08"),
    (0x14, 36, "33 14"),
    (0x14, 50, "340A000000 14"),
    (0x15, 36, "33 15"),
    (0x15, 50, "340B000000 15"),
    // gcnull is the type of no other pointer, and a managed one of none that is not
    (0x04, 22, "33 0401000000"),
    (0x04, 22, "33 0404000000"),
    (0x04, 22, "33 0403000000"),
    (0x04, 22, "30 0402000000"),
    (0x04, 22, "340A000000 0402000000"),
    (0x04, 22, "340B000000 0401000000"),
    (0x04, 22, "340A000000 0403000000"),
    (0x04, 22, "310A000000 0401000000"),
    (0x04, 22, "3103000000 0404000000"),
    (0x04, 22, "3403000000 0405000000"),
    (0x0A, 22, "33 340A000000 0A"),
    (0x0A, 22, "30 33 0A"),
    (0x0A, 22, "310A000000 340A000000 0A"),
    (0x0A, 22, "3403000000 3103000000 0A"),
    (0x0A, 22, "340A000000 340B000000 0A"),
    (0x27, 22, "33 2700000000"),
    (0x27, 22, "340B000000 2700000000"),
    (0x27, 22, "310A000000 2700000000"),
    (0x27, 22, "30 2700000000"),
    (0x27, 22, "3403000000 2700000000"),
    (0x05, 32, "0501000000"),
    (0x05, 32, "0502000000"),
    (0x05, 32, "0504000000"),
    (0x0B, 32, "33 33 0B"),
    (0x0B, 32, "340A000000 0100000000 0B"),
    (0x13, 32, "33 13"),
    (0x19, 32, "3403000000 19"),
    (0x2E, 32, "3406000000 2E"),
    (0x21, 22, "340A000000 2100000000"),
];

pub fn cases() -> Vec<Stated> {
    let mut cases = Vec::new();
    for (number, code, left) in LEAVES {
        let name = format!("managed, {number:02X}: {code}");
        cases.push(typed(entry(&name, code), Some((&LOCALS, left))));
    }
    for (number, raised, code) in UNTYPED {
        let name = format!("managed, {number:02X} would raise {raised}: {code}");
        cases.push(untyped(entry(&name, code), ENTRY));
    }
    for (code, local) in [
        ("33", 0xC0),
        ("340B000000", 0xCB),
        ("340A000000 0601000000", 0xC6),
    ] {
        let stated = entry(
            &format!("managed, binding {local:02X}"),
            &format!("340A000000 {code} 0406000000"),
        );
        let locals = [&LOCALS[..], &[local]].concat();
        cases.push(typed(stated, Some((&locals, &[]))));
    }
    cases.extend(joins());
    cases.extend(functions());
    cases.extend(parameters());
    cases.extend(other_editions());
    cases
}

/// Label 0 is on a `push` after the code; what a check writes is to be filled in.
fn entry(name: &str, code: &str) -> Stated {
    let entry = format!("{BOUND} {code} 0100000000");
    let label = bytes(&entry).len() - 5;
    Stated::new(name, file(&entry, label, STRUCTURE, FUNCTION), 64 + REST)
}

fn typed(mut stated: Stated, shown: Record<'_>) -> Stated {
    stated.after[..64].copy_from_slice(&record(shown));
    stated
}

fn untyped(mut stated: Stated, body: u32) -> Stated {
    stated.after[..64].fill(0);
    stated.answer = 11;
    stated.body = body;
    stated
}

/// Two ways must leave the same pointer types: one jumps to label 0 with its pointer, the other has
/// its own there.
fn joins() -> Vec<Stated> {
    let mut cases = Vec::new();
    for (one, other, same) in [
        ("33", "33", Some(0xC0)),
        ("340A000000", "340A000000", Some(0xCA)),
        // a block of an int, and an int's field
        ("3403000000", "340A000000 0600000000", Some(0xC3)),
        ("340A000000", "33", None),
        ("340A000000", "340B000000", None),
        ("340A000000", "310A000000", None),
        ("3103000000", "3403000000", None),
        ("30", "33", None),
    ] {
        let start = format!("{one} 0100000000 2100000000 02 {other}");
        let name = format!("managed, a join of {one} and {other}");
        let code = format!("{start} 0100000000");
        let module = file(&code, bytes(&start).len(), STRUCTURE, FUNCTION);
        let stated = Stated::new(&name, module, 64 + REST);
        cases.push(match same {
            Some(ty) => typed(stated, Some((&[], &[ty]))),
            None => untyped(stated, ENTRY),
        });
    }
    cases
}

/// "managed pointers, which functions may take and return"
fn functions() -> Vec<Stated> {
    let mut cases = Vec::new();
    for (types, code, good) in [
        ((0xCA, 0xCA), "0300000000 28", true),
        ((0xC3, 0xC3), "0300000000 28", true),
        ((3, 0xC3), "3403000000 28", true),
        ((3, 0xC6), "340A000000 0601000000 28", true),
        ((0xCA, 0xC3), "0300000000 0600000000 28", true),
        ((0xCB, 0xC4), "0300000000 0600000000 28", true),
        ((0xCA, 3), "0300000000 0600000000 07 28", true),
        ((0xC4, 4), "0300000000 07 28", true),
        ((0xC3, 0), "0300000000 14 28", true),
        ((0x83, 0xCA), "340A000000 28", true),
        ((0xCA, 0x8A), "310A000000 28", true),
        // gcnull, another structure, the other kind, a field, a number
        ((0xCA, 0xCA), "33 28", false),
        ((0xC3, 0xC3), "33 28", false),
        ((0xCA, 0xCA), "340B000000 28", false),
        ((0xCA, 0xCA), "310A000000 28", false),
        ((0xCA, 0x8A), "0300000000 28", false),
        ((0x8A, 0xCA), "0300000000 28", false),
        ((0xCA, 0xCA), "0300000000 0600000000 28", false),
        ((0xC3, 3), "0300000000 28", false),
        ((0xC3, 0xC4), "0300000000 28", false),
        ((0x83, 0xC3), "0300000000 28", false),
        ((0xCA, 0), "0300000000 32 28", false),
        ((0xCA, 0xCA), "28", false),
    ] {
        let name = format!("managed, a function of {types:02X?}: {code}");
        let stated = Stated::new(&name, file("0100000000", 0, types, code), 64 + REST);
        cases.push(if good {
            typed(stated, Some((&[], &[])))
        } else {
            untyped(stated, 0)
        });
    }
    cases
}

/// A function's label shows the bytes of its signature; of 16 structures the last is D9.
fn parameters() -> Vec<Stated> {
    let sixteen = "structure int; ".repeat(16);
    let last = format!(
        "edition 4; {sixteen} entry: gcnew 25; call 0; store 0; @1; load 0
        function gc*25 (gc*25): @0; load 0; ret"
    );
    let past = format!("edition 4; {sixteen} entry: gcnew 26");
    let mixed = "edition 4; structure int; entry:
        function void (gc*10, gc*int, gc*long, gc*double, *10, *int, int): @0; ret";
    vec![
        accepted(
            "managed, seven parameters",
            mixed,
            &[Some((&[0xCA, 0xC3, 0xC4, 0xC6, 0x8A, 0x83, 3], &[]))],
        ),
        accepted(
            "managed, 16 structures",
            &last,
            &[Some((&[0xD9], &[])), Some((&[0xD9], &[]))],
        ),
        untyped_entry("managed, a 17th structure", &past),
    ]
}

/// Editions 1 and 3 have neither the opcodes nor the types.
fn other_editions() -> Vec<Stated> {
    let mut cases = Vec::new();
    for edition in ["edition 1;", ""] {
        for byte in [0x33, 0x34] {
            let mut file = asm::file(&format!("{edition} entry: neg; neg; neg; neg; neg"));
            file[48] = byte;
            let name = format!("opcode {byte:02X} ({edition})");
            cases.push(refused(&name, file, 64, 8));
        }
        for ty in [0xC0, 0xC3, 0xC4, 0xC6, 0xCA] {
            for at in [9, 10] {
                let mut file = asm::file(&format!("{edition} entry: function int (int): ret"));
                file[48 + at] = ty;
                let name = format!("{ty:02X} in a signature, byte {at} ({edition})");
                cases.push(refused(&name, file, 64, 7));
            }
        }
    }
    cases
}

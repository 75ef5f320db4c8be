//! Refusals 1 to 9: "change no lent memory and return only the number".

use super::{refused, Stated};
use crate::asm;

/// Two constants, two functions, two labels: sections at 48, 72, 112, 128; 17 bytes of code.
const TEXT: &str =
    "int 7; long 5; entry: @0; push 0; push 1; function int (int, *long): @1; load 0; ret
     function void (): ret";

/// Bytes of the lent room.
const ROOM: usize = 200;

/// Number, what is wrong, and the bytes that replace others at an offset.
const PATCHES: [(u32, &str, usize, &[u8]); 41] = [
    (2, "edition 2", 0, &[2]),
    (2, "edition with an upper byte", 3, &[1]),
    (3, "total length one more", 4, &[146]),
    (3, "total length with an upper byte", 7, &[1]),
    (4, "1,025 constants", 8, &[1, 4]),
    (4, "129 functions", 16, &[129]),
    (4, "257 labels", 24, &[1, 1]),
    (4, "16,385 bytes of code", 32, &[1, 64]),
    (4, "word 44", 44, &[1]),
    (4, "word 44, upper byte", 47, &[1]),
    (5, "offset of constants", 12, &[49]),
    (5, "offset of functions", 20, &[73]),
    (5, "offset of labels", 28, &[113]),
    (5, "offset of code", 36, &[129]),
    (5, "sections' sum", 32, &[16]),
    (5, "entry longer than the code", 40, &[18]),
    (5, "entry far longer than the code", 43, &[255]),
    (6, "constant of type 5", 48, &[5]),
    (6, "constant of type 7", 60, &[7]),
    (6, "type word with an upper byte", 49, &[1]),
    (6, "int with an upper byte", 59, &[1]),
    (7, "function start", 72, &[9]),
    (7, "function of no length", 76, &[0]),
    (7, "nine parameters", 80, &[9]),
    (7, "return type a pointer", 81, &[0x83]),
    (7, "parameter of type 7", 82, &[7]),
    (7, "unused parameter byte", 84, &[3]),
    (7, "byte 18 of a function", 90, &[1]),
    (7, "byte 19 of the last function", 111, &[1]),
    (7, "bodies that don't fill the code", 40, &[5]),
    (8, "unknown opcode 06", 128, &[6]),
    (8, "unknown opcode 2F in the last function", 144, &[0x2F]),
    (8, "instruction that crosses its body's end", 143, &[1]),
    (8, "instruction that crosses the code's end", 144, &[1]),
    (9, "label of function 2", 112, &[2, 0, 0, 0]),
    (9, "label of FFFFFFFE", 112, &[0xFE]),
    (9, "label inside an instruction", 116, &[1]),
    (9, "label on its body's end", 116, &[10]),
    (9, "label in another body", 124, &[0]),
    (9, "label past the code", 124, &[17]),
    (9, "label far past the code", 127, &[1]),
];

/// A byte put at an offset.
type Change = (usize, u8);

/// Two faults: "The first in number order is given."
const ORDERS: [(u32, &str, [Change; 2]); 5] = [
    (4, "word 44 and an offset", [(44, 1), (12, 0)]),
    (6, "a constant and a function", [(48, 5), (90, 1)]),
    (7, "an opcode and the last function", [(128, 6), (111, 1)]),
    (
        7,
        "an opcode of function 0 and the last function",
        [(138, 6), (111, 1)],
    ),
    (8, "a label and the last opcode", [(116, 1), (144, 6)]),
];

pub fn cases() -> Vec<Stated> {
    let good = asm::file(TEXT);
    let cut = |name, len: usize, number| refused(name, good[..len].to_vec(), ROOM, number);
    let mut cases = vec![
        cut("no bytes", 0, 1),
        cut("47 bytes", 47, 1),
        cut("48 bytes of more", 48, 3),
        cut("a byte missing", 144, 3),
    ];
    for at in [12, 20, 28, 36] {
        let mut file = asm::file("entry:");
        file[at] = 0;
        cases.push(refused("offset of an empty section", file, ROOM, 5));
    }
    for (number, name, at, bytes) in PATCHES {
        let mut file = good.clone();
        file[at..at + bytes.len()].copy_from_slice(bytes);
        cases.push(refused(name, file, ROOM, number));
    }
    for (number, name, changes) in ORDERS {
        let mut file = good.clone();
        for (at, byte) in changes {
            file[at] = byte;
        }
        cases.push(refused(name, file, ROOM, number));
    }
    cases
}

//! Conversions with their answers stated: module, direction, the output's length, and what
//! document 02's A7 says of number, length and the whole output afterwards.

use super::writes::{base, bytes, counts, joined};
use crate::asm;
use crate::compare::conversion_difference;
use crate::gen::conversions::memory;
use crate::gen::tables::Owned;
use crate::opcode::Edition;
use crate::samples::W1;
use crate::subject::Subject;

/// One conversion and what it must give.
pub struct StatedConversion {
    pub name: String,
    pub to: Edition,
    pub file: Vec<u8>,
    /// The output's length.
    pub out: usize,
    /// The module that is written with 0, or the refusal.
    pub answer: Result<Vec<u8>, u32>,
}

impl StatedConversion {
    /// What a subject gives instead, in words; nothing if it is as stated.
    pub fn difference(&self, subject: &mut dyn Subject) -> Option<String> {
        let before: Vec<u8> = (0..self.out).map(|n| 0x80 | (7 * n) as u8).collect();
        let mut memory = memory(&self.file, &before, 1);
        let mut wanted = memory.clone();
        let number = match &self.answer {
            Ok(module) => {
                wanted.out.slice_mut()[..module.len()].copy_from_slice(module);
                wanted.written = module.len() as u64;
                0
            }
            Err(number) => *number,
        };
        let answer = subject.convert(self.to, &mut memory);
        if answer == number && memory == wanted {
            return None;
        }
        Some(format!(
            "{}: answers {number} and {answer}{}",
            self.name,
            conversion_difference(&wanted, &memory)
        ))
    }
}

/// Every stated conversion.
pub fn all() -> Vec<StatedConversion> {
    let mut all = converted();
    all.extend(other_editions());
    all.extend(short_files());
    all.extend(patched_up());
    all.extend(patched_down());
    all.extend(profiles());
    all.extend(structures());
    all.extend(opcodes());
    all.extend(operands());
    all.extend(managed());
    all
}

const UP: Edition = Edition::Four;
const DOWN: Edition = Edition::Three;

fn stated(
    name: &str,
    to: Edition,
    file: &[u8],
    out: usize,
    answer: Result<Vec<u8>, u32>,
) -> StatedConversion {
    StatedConversion {
        name: format!("{name}, to edition {}", to.word()),
        to,
        file: file.to_vec(),
        out,
        answer,
    }
}

/// A refusal, with output enough and with none: 16 comes last.
fn refused(number: u32, name: &str, to: Edition, file: &[u8]) -> [StatedConversion; 2] {
    let none = format!("{name}, no output");
    [
        stated(name, to, file, 1_000, Err(number)),
        stated(&none, to, file, 0, Err(number)),
    ]
}

/// A module of edition 3 and of edition 4, which become each other.
fn both(name: &str, three: &[u8], four: &[u8]) -> Vec<StatedConversion> {
    let mut all = Vec::new();
    for (to, file, made) in [(UP, three, four), (DOWN, four, three)] {
        let length = made.len();
        for out in [length, length + 1, length + 600] {
            let name = format!("{name} to {out} bytes");
            all.push(stated(&name, to, file, out, Ok(made.to_vec())));
        }
        for out in [0, 1, 47, 48, length - 1] {
            if out < length {
                let name = format!("{name} to {out} bytes");
                all.push(stated(&name, to, file, out, Err(16)));
            }
        }
    }
    all
}

/// The base of the stated writes, of edition 3: sections at 48, 72, 112, 128; 145 bytes.
fn base_3() -> Vec<u8> {
    let header = "03000000 91000000 02000000 30000000 02000000 48000000
        02000000 70000000 11000000 80000000 0A000000 00000000";
    joined(header, &base())
}

/// The same of edition 4: sections at 56, 80, 128, 144; 161 bytes. Profiles at 100 and 124.
fn base_4() -> Vec<u8> {
    let header = "04000000 A1000000 02000000 38000000 02000000 50000000 02000000 80000000
        11000000 90000000 0A000000 00000000 00000000 A1000000";
    let tables = Owned {
        functions: bytes(
            "0A000000 06000000 02 03 0384000000000000 0000 00000000
             10000000 01000000 00 00 0000000000000000 0000 00000000",
        ),
        ..base()
    };
    joined(header, &tables)
}

/// "Convert edition 3 to 4 with profile 0 and back": constants, labels, code and entry length are
/// copied as they are.
fn converted() -> Vec<StatedConversion> {
    let w1 = bytes(W1);
    let mut w1_4 = bytes(
        "04000000 5B000000 02000000 38000000 00000000 50000000 00000000 50000000
         0B000000 50000000 0B000000 00000000 00000000 5B000000",
    );
    w1_4.extend(&w1[48..]);
    let empty = bytes(
        "03000000 30000000 00000000 30000000 00000000 30000000
         00000000 30000000 00000000 30000000 00000000 00000000",
    );
    let empty_4 = bytes(
        "04000000 38000000 00000000 38000000 00000000 38000000 00000000 38000000
         00000000 38000000 00000000 00000000 00000000 38000000",
    );
    // `add` on nothing has no typing, which a conversion doesn't ask for
    let untyped = bytes(
        "03000000 31000000 00000000 30000000 00000000 30000000
         00000000 30000000 01000000 30000000 01000000 00000000 0B",
    );
    let untyped_4 = bytes(
        "04000000 39000000 00000000 38000000 00000000 38000000 00000000 38000000
         01000000 38000000 01000000 00000000 00000000 39000000 0B",
    );
    let mut all = both("W1", &w1, &w1_4);
    all.extend(both("nothing at all", &empty, &empty_4));
    all.extend(both("no typing", &untyped, &untyped_4));
    all.extend(both("two of each", &base_3(), &base_4()));
    let (longest, longest_4) = longest();
    all.extend(both("all counts at their limits", &longest, &longest_4));
    all
}

/// 33,328 bytes of edition 3, and the same in 33,848 of edition 4.
fn longest() -> (Vec<u8>, Vec<u8>) {
    let full = counts(1024, 128, 256, 16_384);
    let header = "03000000 30820000 00040000 30000000 80000000 30300000
        00010000 303A0000 00400000 30420000 803F0000 00000000";
    let header_4 = "04000000 38840000 00040000 38000000 80000000 38300000 00010000 383C0000
        00400000 38440000 803F0000 00000000 00000000 38840000";
    let three = joined(header, &full);
    let mut records = Vec::new();
    for start in 16_256..16_384u32 {
        records.extend(start.to_le_bytes());
        records.extend(bytes("01000000 00 00 0000000000000000 0000 00000000"));
    }
    let four = Owned {
        functions: records,
        ..full
    };
    (three, joined(header_4, &four))
}

/// "(another edition is 2)": before all that is wrong with the module, but for 1.
fn other_editions() -> Vec<StatedConversion> {
    let mut all = Vec::new();
    let (three, four) = (base_3(), base_4());
    all.extend(refused(2, "edition 4", UP, &four));
    all.extend(refused(2, "edition 3", DOWN, &three));
    let one = asm::file("edition 1; int 7; entry: push 0; function int (int): load 0; ret");
    let profile = asm::file("edition 4; entry: function void () profile 5: ret");
    all.extend(refused(2, "edition 4 with a profile", UP, &profile));
    for (to, file) in [(UP, &three), (DOWN, &four)] {
        all.extend(refused(2, "edition 1", to, &one));
        for word in [[0, 0], [1, 0], [2, 0], [5, 0], [3, 1], [4, 1]] {
            let mut file = file.clone();
            file[..2].copy_from_slice(&word);
            all.extend(refused(2, &format!("edition bytes {word:?}"), to, &file));
            // and the length is wrong, and word 44
            file[4] = 0;
            file[44] = 1;
            let name = format!("edition bytes {word:?}, and more");
            all.extend(refused(2, &name, to, &file));
        }
    }
    for (to, file) in [(UP, &four), (DOWN, &three)] {
        for at in [4, 44, 12, 40] {
            let mut file = file.clone();
            file[at] ^= 0x40;
            let name = format!("another edition, byte {at} changed");
            all.extend(refused(2, &name, to, &file));
        }
    }
    all
}

/// Under 48 bytes is 1; of edition 4 under 56 too, which holds before 2.
fn short_files() -> Vec<StatedConversion> {
    let mut all = Vec::new();
    for to in [UP, DOWN] {
        for file in [base_3(), base_4()] {
            for length in [0, 1, 4, 47] {
                let name = format!("{length} bytes of edition {}", file[0]);
                all.extend(refused(1, &name, to, &file[..length]));
            }
        }
        for length in [48, 49, 55] {
            let name = format!("{length} bytes of edition 4");
            all.extend(refused(1, &name, to, &base_4()[..length]));
        }
    }
    for length in [48, 55, 56, 144] {
        let name = format!("{length} bytes of edition 3");
        all.extend(refused(3, &name, UP, &base_3()[..length]));
        all.extend(refused(2, &name, DOWN, &base_3()[..length]));
    }
    for length in [56, 57, 160] {
        let name = format!("{length} bytes of edition 4");
        all.extend(refused(3, &name, DOWN, &base_4()[..length]));
        all.extend(refused(2, &name, UP, &base_4()[..length]));
    }
    all
}

/// Number, what is wrong, the place in the file of edition 3 and in that of edition 4, and the
/// byte there.
const PATCHES: [(u32, &str, usize, usize, u8); 15] = [
    (3, "total length", 4, 4, 1),
    (4, "word 44", 44, 44, 1),
    (4, "1,026 constants", 9, 9, 4),
    (5, "offset of functions", 20, 20, 73),
    (5, "entry longer than the code", 40, 40, 18),
    (6, "constant of type 5", 48, 56, 5),
    (6, "int with an upper byte", 56, 64, 1),
    (7, "start of function 0", 72, 80, 9),
    (7, "two zero bytes", 91, 99, 1),
    (7, "return type 83", 81, 89, 0x83),
    (7, "parameter of type 80", 82, 90, 0x80),
    (7, "parameter of type 8A", 82, 90, 0x8A),
    (8, "opcode 2F", 128, 144, 0x2F),
    (8, "opcode 35", 144, 160, 0x35),
    (9, "label inside an instruction", 116, 132, 1),
];

fn patched_up() -> Vec<StatedConversion> {
    let mut all = Vec::new();
    let mut patch = |number, name: &str, at: usize, byte| {
        let mut file = base_3();
        file[at] = byte;
        all.extend(refused(number, name, UP, &file));
    };
    for (number, name, at, _, byte) in PATCHES {
        patch(number, name, at, byte);
    }
    for byte in [0x06, 0x30, 0x31, 0x32, 0x33, 0x34] {
        patch(8, &format!("opcode {byte:02X} of edition 4"), 144, byte);
    }
    all
}

/// "18 ... after reading": the reader's numbers come first, whatever edition 3 lacks.
fn patched_down() -> Vec<StatedConversion> {
    let mut all = Vec::new();
    for (number, name, _, at, byte) in PATCHES {
        for profile in [0, 1] {
            let mut file = base_4();
            file[at] = byte;
            file[124] = profile;
            let name = format!("{name}, profile {profile}");
            all.extend(refused(number, &name, DOWN, &file));
        }
    }
    // structures at 161
    let with = |record: &str, changes: &[(usize, u8)]| {
        let mut file = base_4();
        file.extend(bytes(record));
        file[4] = file.len() as u8;
        file[48] = 1;
        for &(at, byte) in changes {
            file[at] = byte;
        }
        file
    };
    let good = "02 0306000000000000 000000";
    for (number, name, file) in [
        (4, "17 structures", with(good, &[(48, 17)])),
        (5, "offset of structures", with(good, &[(52, 160)])),
        (6, "no fields", with("00 0000000000000000 000000", &[])),
        (7, "structure 11 of one", with(good, &[(90, 0x8B)])),
        (9, "a structure, a bad label", with(good, &[(132, 1)])),
        (8, "a structure, opcode 35", with(good, &[(160, 0x35)])),
        (18, "a structure", with(good, &[])),
        (18, "a structure in a signature", with(good, &[(90, 0x8A)])),
        (18, "a structure returned", with(good, &[(89, 0x8A)])),
    ] {
        all.extend(refused(number, name, DOWN, &file));
    }
    all
}

/// "18 down with a nonzero profile": any byte of it, of any function.
fn profiles() -> Vec<StatedConversion> {
    let mut all = Vec::new();
    for at in [100, 101, 102, 103, 124, 125, 126, 127] {
        for byte in [1, 0x80, 0xFF] {
            let mut file = base_4();
            file[at] = byte;
            let name = format!("profile byte {byte:02X} at {at}");
            all.extend(refused(18, &name, DOWN, &file));
            // 18 before 16, also one byte short
            all.push(stated(&name, DOWN, &file, 144, Err(18)));
        }
    }
    all
}

/// "a structure", used or not; with everything else of edition 3.
fn structures() -> Vec<StatedConversion> {
    let mut all = Vec::new();
    for text in [
        "edition 4; structure int; entry:",
        "edition 4; structure double, double; int 7; entry: push 0",
        "edition 4; structure int; entry: function void (*10): ret",
        "edition 4; structure int; entry: function *10 (): @0; jmp 0",
        "edition 4; structure int; entry: new 10; delete",
    ] {
        all.extend(refused(18, text, DOWN, &asm::file(text)));
    }
    all
}

/// "or opcode that edition 3 lacks": each opcode byte, in the entry, after a `ret`, and after a
/// `jmp` of a last function; those of both editions go both ways.
fn opcodes() -> Vec<StatedConversion> {
    let mut all = Vec::new();
    for byte in 0..=255u8 {
        let three = matches!(byte, 0x01..=0x05 | 0x07..=0x28 | 0x2B | 0x2C | 0x2E);
        let four = three || matches!(byte, 0x06 | 0x30..=0x34);
        let operand = matches!(byte, 0x01 | 0x03..=0x06 | 0x20..=0x27 | 0x31 | 0x34);
        let mut code = vec![byte];
        code.extend(vec![0; if operand { 4 } else { 0 }]);
        let name = format!("opcode {byte:02X}");
        for (place, entry, function) in [
            ("in the entry", &code[..], &[0x28][..]),
            (
                "after ret in the entry",
                &[&[0x28], &code[..]].concat(),
                &[0x28],
            ),
            ("after ret", &[], &[&[0x28], &code[..]].concat()),
        ] {
            let name = format!("{name} {place}");
            let (old, new) = (short(3, entry, function), short(4, entry, function));
            match (three, four) {
                (true, _) => all.extend(both(&name, &old, &new)),
                (_, true) => all.extend(refused(18, &name, DOWN, &new)),
                _ => all.extend(refused(8, &name, DOWN, &new)),
            }
            if !three {
                all.extend(refused(8, &name, UP, &old));
            }
        }
    }
    all
}

/// A module of one function without parameters.
fn short(edition: u32, entry: &[u8], function: &[u8]) -> Vec<u8> {
    let (header, record) = if edition == 4 { (56, 24) } else { (48, 20) };
    let code = entry.len() + function.len();
    let code_at = header + record;
    let mut words = vec![edition, (code_at + code) as u32, 0, header as u32, 1];
    words.extend([header, 0].map(|n| n as u32));
    words.extend([code_at, code, code_at, entry.len(), 0].map(|n| n as u32));
    if edition == 4 {
        words.extend([0, (code_at + code) as u32]);
    }
    words.extend([entry.len(), function.len(), 0, 0, 0].map(|n| n as u32));
    if edition == 4 {
        words.push(0);
    }
    let mut file: Vec<u8> = words.into_iter().flat_map(u32::to_le_bytes).collect();
    file.extend(entry);
    file.extend(function);
    file
}

/// Bytes of operands are no opcodes, though they look like those that edition 3 lacks.
fn operands() -> Vec<StatedConversion> {
    let mut all = Vec::new();
    for text in [
        "entry: push 6; pop; push 48; pop; push 49; pop; push 50; pop; push 51; pop; push 52; pop",
        "entry: push 825241648",
        "int 48; entry: push 0; store 0; lea 0; tload; call 50; function void (): jmp 12544; ret",
    ] {
        let (three, four) = (asm::file(text), asm::file(&format!("edition 4; {text}")));
        all.extend(both(text, &three, &four));
    }
    // payloads, owners and places neither
    let text =
        "int 825241606; long 48; entry: @0; push 0; push 1; function int (int): @1; load 0; ret";
    let (three, four) = (asm::file(text), asm::file(&format!("edition 4; {text}")));
    all.extend(both(text, &three, &four));
    all
}

/// Managed pointers are types that edition 3 lacks, of numbers too; "after reading".
fn managed() -> Vec<StatedConversion> {
    let mut all = Vec::new();
    for text in [
        "edition 4; entry: function void (gc*int): ret",
        "edition 4; entry: function void (int, int, gc*double): ret",
        "edition 4; entry: function gc*long (): @0; jmp 0",
        "edition 4; entry: function void (): ret; function gc*int (gc*int): load 0; ret",
        "edition 4; structure int; entry: function void (gc*10): ret",
        "edition 4; entry: gcnull",
        "edition 4; entry: gcnew 3; pop",
        "edition 4; entry: function void (): ret; gcnull",
    ] {
        all.extend(refused(18, text, DOWN, &asm::file(text)));
    }
    all.extend(managed_bytes());
    all
}

fn managed_bytes() -> Vec<StatedConversion> {
    let mut all = Vec::new();
    // the byte of function 0's first parameter, of its return type, of function 1's return type
    for (number, ty) in [
        (18, 0xC3),
        (18, 0xC4),
        (18, 0xC6),
        (7, 0xC0),
        (7, 0xC5),
        (7, 0xCA),
        (7, 0x43),
    ] {
        for at in [90, 89, 113] {
            let mut file = base_4();
            file[at] = ty;
            let name = format!("{ty:02X} at {at}");
            all.extend(refused(number, &name, DOWN, &file));
            // 7 before 8 and 9, these before 18
            for (other, place, byte) in [(8, 144, 0x2F), (9, 132, 1)] {
                let mut file = file.clone();
                file[place] = byte;
                let name = format!("{name}, and byte {place}");
                let number = if number == 7 { 7 } else { other };
                all.extend(refused(number, &name, DOWN, &file));
            }
        }
    }
    for ty in [0xC0, 0xC3, 0xC4, 0xC6, 0xCA] {
        for at in [82, 81, 101] {
            let mut file = base_3();
            file[at] = ty;
            all.extend(refused(7, &format!("{ty:02X} at {at}"), UP, &file));
        }
    }
    all
}

//! Writes with their answers stated: tables, the output's length, and what document 02's A1
//! says of number, length and the whole output afterwards.

use super::tables;
use crate::compare::write_difference;
use crate::gen::tables::Owned;
use crate::hex;
use crate::samples::W1;
use crate::subject::Subject;

/// One write and what it must give.
pub struct StatedWrite {
    pub name: String,
    pub tables: Owned,
    /// The output's length.
    pub out: usize,
    /// The module that is written with 0, or the refusal.
    pub answer: Result<Vec<u8>, u32>,
}

impl StatedWrite {
    /// What a subject gives instead, in words; nothing if it is as stated.
    pub fn difference(&self, subject: &mut dyn Subject) -> Option<String> {
        let before: Vec<u8> = (0..self.out).map(|n| 0x80 | (7 * n) as u8).collect();
        let mut memory = self.tables.memory(&before, 1);
        let mut wanted = memory.clone();
        let number = match &self.answer {
            Ok(module) => {
                wanted.out.slice_mut()[..module.len()].copy_from_slice(module);
                wanted.written = module.len() as u64;
                0
            }
            Err(number) => *number,
        };
        let answer = subject.write(&mut memory);
        if answer == number && memory == wanted {
            return None;
        }
        Some(format!(
            "{}: answers {number} and {answer}{}",
            self.name,
            write_difference(&wanted, &memory)
        ))
    }
}

/// Every stated write.
pub fn all() -> Vec<StatedWrite> {
    let mut all = written();
    all.extend(limits());
    all.extend(parts());
    all.extend(patched());
    all.extend(first_number());
    all.extend(outputs());
    all.extend(editions());
    all.extend(tables::cases());
    all
}

pub(super) fn bytes(text: &str) -> Vec<u8> {
    hex::decode(text).expect("hex digits")
}

/// W1's tables, from its bytes in the paper.
fn w1() -> Owned {
    Owned {
        constants: bytes("03000000 07000000 00000000 03000000 05000000 00000000"),
        code: bytes("0100000000 0101000000 0B"),
        entry_length: 11,
        ..Owned::default()
    }
}

/// Two constants, two functions and two labels: an int 7, a long 5; the entry of two `push`, a
/// function of an int and a pointer to long that returns its first, one that only returns.
pub(super) fn base() -> Owned {
    Owned {
        edition: 3,
        constants: bytes("03000000 07000000 00000000 04000000 05000000 00000000"),
        functions: bytes(
            "0A000000 06000000 02 03 0384000000000000 0000
             10000000 01000000 00 00 0000000000000000 0000",
        ),
        labels: bytes("FFFFFFFF 05000000 00000000 0A000000"),
        code: bytes("0100000000 0101000000 0300000000 28 28"),
        entry_length: 10,
        ..Owned::default()
    }
}

/// The header of the base's module: sections at 48, 72, 112, 128; 145 bytes.
const BASE_HEADER: &str = "03000000 91000000 02000000 30000000 02000000 48000000
    02000000 70000000 11000000 80000000 0A000000 00000000";

pub(super) fn joined(header: &str, tables: &Owned) -> Vec<u8> {
    let sections = [
        &tables.constants,
        &tables.functions,
        &tables.labels,
        &tables.code,
        &tables.structures,
    ];
    let mut file = bytes(header);
    file.extend(sections.into_iter().flatten());
    file
}

pub(super) fn stated(
    name: &str,
    tables: Owned,
    out: usize,
    answer: Result<Vec<u8>, u32>,
) -> StatedWrite {
    StatedWrite {
        name: name.to_string(),
        tables,
        out,
        answer,
    }
}

/// A refusal, though the output is long enough.
pub(super) fn refused(number: u32, name: &str, tables: Owned) -> StatedWrite {
    stated(name, tables, 40_000, Err(number))
}

fn written() -> Vec<StatedWrite> {
    let empty = "03000000 30000000 00000000 30000000 00000000 30000000
        00000000 30000000 00000000 30000000 00000000 00000000";
    // `add` on nothing has no typing, which a writer doesn't ask for
    let untyped = Owned {
        code: vec![0x0B],
        entry_length: 1,
        ..Owned::default()
    };
    let untyped_header = "03000000 31000000 00000000 30000000 00000000 30000000
        00000000 30000000 01000000 30000000 01000000 00000000";
    let untyped_file = joined(untyped_header, &untyped);
    // two labels at one place, a function of eight parameters
    let mut other = base();
    other.labels = bytes("FFFFFFFF 05000000 FFFFFFFF 05000000");
    other.functions[8..18].copy_from_slice(&bytes("08 06 0304068384860306"));
    let other_file = joined(BASE_HEADER, &other);
    vec![
        stated("W1", w1(), 83, Ok(bytes(W1))),
        stated("nothing at all", Owned::default(), 48, Ok(bytes(empty))),
        stated("two of each", base(), 145, Ok(joined(BASE_HEADER, &base()))),
        stated("no typing", untyped, 49, Ok(untyped_file)),
        stated("two labels at one place", other, 145, Ok(other_file)),
    ]
}

/// This many constants, functions and labels, and bytes of code; a function is one `ret`, the
/// entry `neg` to the code's end.
pub(super) fn counts(constants: usize, functions: usize, labels: usize, code: usize) -> Owned {
    let entry = code - functions;
    let mut tables = Owned {
        constants: bytes("04000000 FFFFFFFF FFFFFFFF").repeat(constants),
        labels: bytes("FFFFFFFF 00000000").repeat(labels),
        code: vec![0x13; entry],
        entry_length: entry as u32,
        ..Owned::default()
    };
    tables.code.resize(code, 0x28);
    for start in entry..code {
        tables.functions.extend((start as u32).to_le_bytes());
        tables
            .functions
            .extend(bytes("01000000 00 00 0000000000000000 0000"));
    }
    tables
}

/// Counts and code length at their limits, and one over them.
fn limits() -> Vec<StatedWrite> {
    let full = counts(1024, 128, 256, 16_384);
    let header = "03000000 30820000 00040000 30000000 80000000 30300000
        00010000 303A0000 00400000 30420000 803F0000 00000000";
    let file = joined(header, &full);
    let mut all = vec![stated("all counts at their limits", full, 33_328, Ok(file))];
    for (name, tables) in [
        ("1,025 constants", counts(1025, 1, 1, 9)),
        ("129 functions", counts(1, 129, 1, 200)),
        ("257 labels", counts(1, 1, 257, 9)),
        ("16,385 bytes of code", counts(1, 1, 1, 16_385)),
        ("one over each", counts(1025, 129, 257, 16_385)),
    ] {
        all.push(refused(4, name, tables));
    }
    all
}

/// Part of a record at a table's end, with full tables and with short ones.
fn parts() -> Vec<StatedWrite> {
    let mut all = Vec::new();
    let mut add = |number, name: &str, mut tables: Owned, table: usize, more: usize| {
        table_of(&mut tables, table).extend(vec![0; more]);
        all.push(refused(number, &format!("{name} and {more} bytes"), tables));
    };
    for (table, name, record) in [(0, "constants", 12), (1, "functions", 20), (2, "labels", 8)] {
        for more in [1, record / 2, record - 1] {
            add(5, &format!("two {name}"), base(), table, more);
            add(5, &format!("no {name}"), Owned::default(), table, more);
        }
    }
    add(5, "1,024 constants", counts(1024, 0, 0, 1), 0, 5);
    add(4, "1,025 constants", counts(1025, 0, 0, 1), 0, 5);
    add(5, "128 functions", counts(0, 128, 0, 128), 1, 5);
    add(4, "129 functions", counts(0, 129, 0, 129), 1, 5);
    add(5, "256 labels", counts(0, 0, 256, 1), 2, 5);
    add(4, "257 labels", counts(0, 0, 257, 1), 2, 5);
    all
}

fn table_of(tables: &mut Owned, n: usize) -> &mut Vec<u8> {
    match n {
        0 => &mut tables.constants,
        1 => &mut tables.functions,
        2 => &mut tables.labels,
        _ => &mut tables.code,
    }
}

/// Number, what is wrong, and bytes that replace others in a table of the base.
const PATCHES: [(u32, &str, usize, usize, &[u8]); 36] = [
    (6, "constant of type 0", 0, 0, &[0]),
    (6, "constant of type 5", 0, 0, &[5]),
    (6, "constant of type 7", 0, 12, &[7]),
    (6, "type word with an upper byte", 0, 3, &[1]),
    (6, "int with an upper byte", 0, 8, &[1]),
    (6, "int with the uppermost byte", 0, 11, &[1]),
    (7, "start before the entry's end", 1, 0, &[9]),
    (7, "start after the entry's end", 1, 0, &[11]),
    (7, "second start", 1, 20, &[15]),
    (7, "start with an upper byte", 1, 3, &[1]),
    (7, "function of no length", 1, 24, &[0]),
    (7, "function too short", 1, 4, &[5]),
    (7, "function too long", 1, 24, &[2]),
    (7, "length of 2^32 - 1", 1, 24, &[255, 255, 255, 255]),
    (7, "nine parameters", 1, 8, &[9]),
    (7, "one parameter, two types", 1, 8, &[1]),
    (7, "three parameters, two types", 1, 8, &[3]),
    (7, "return type 5", 1, 9, &[5]),
    (7, "return type a pointer", 1, 9, &[0x83]),
    (7, "parameter of type 7", 1, 10, &[7]),
    (7, "parameter of type 85", 1, 11, &[0x85]),
    (7, "unused parameter byte", 1, 17, &[3]),
    (7, "byte 18 of a function", 1, 18, &[1]),
    (7, "byte 19 of the last function", 1, 39, &[1]),
    (8, "opcode 00", 3, 0, &[0]),
    (8, "opcode 06", 3, 0, &[6]),
    (8, "opcode 2F in the last function", 3, 16, &[0x2F]),
    (8, "instruction that crosses its body's end", 3, 15, &[1]),
    (8, "instruction that crosses the code's end", 3, 16, &[1]),
    (9, "label of function 2", 2, 0, &[2, 0, 0, 0]),
    (9, "label of FFFFFFFE", 2, 0, &[0xFE]),
    (9, "label inside an instruction", 2, 4, &[1]),
    (9, "label on its body's end", 2, 4, &[10]),
    (9, "label in another body", 2, 12, &[5]),
    (9, "label past the code", 2, 12, &[17]),
    (9, "label far past the code", 2, 15, &[1]),
];

fn patch(tables: &mut Owned, table: usize, at: usize, with: &[u8]) {
    table_of(tables, table)[at..at + with.len()].copy_from_slice(with);
}

fn patched() -> Vec<StatedWrite> {
    let patched = PATCHES.iter().map(|&(number, name, table, at, with)| {
        let mut tables = base();
        patch(&mut tables, table, at, with);
        refused(number, name, tables)
    });
    let entries = [
        (5, "entry one byte longer than the code", 18),
        (5, "entry of 2^32 - 1", 0xFFFF_FFFF),
        (7, "entry as long as the code, functions after it", 17),
        (7, "entry shorter than to function 0", 5),
        (7, "no entry before function 0", 0),
    ];
    let entries = entries.into_iter().map(|(number, name, length)| {
        let mut tables = base();
        tables.entry_length = length;
        refused(number, name, tables)
    });
    let mut short = w1();
    short.entry_length = 10;
    let unfilled = refused(7, "no functions, entry shorter than the code", short);
    patched.chain(entries).chain([unfilled]).collect()
}

/// Two things wrong: the smaller number, whichever table comes first.
fn first_number() -> Vec<StatedWrite> {
    let mut all = Vec::new();
    let mut add = |number, name: &str, change: &dyn Fn(&mut Owned)| {
        let mut tables = base();
        change(&mut tables);
        all.push(refused(number, name, tables));
    };
    add(4, "part of a constant, 257 labels", &|t| {
        t.constants.push(0);
        t.labels = counts(0, 0, 257, 1).labels;
    });
    add(4, "entry too long, 16,385 bytes of code", &|t| {
        t.code.resize(16_385, 0x13);
        t.entry_length = 16_386;
    });
    add(5, "part of a label, a bad constant", &|t| {
        t.constants[0] = 5;
        t.labels.push(0);
    });
    add(5, "entry too long, a bad constant", &|t| {
        t.constants[0] = 5;
        t.entry_length = 18;
    });
    add(6, "a bad function, a bad constant", &|t| {
        t.functions[0] = 9;
        t.constants[12] = 5;
    });
    add(7, "a bad opcode in the entry, a bad last function", &|t| {
        t.code[0] = 0;
        t.functions[39] = 1;
    });
    add(7, "a bad opcode in function 0, a bad last function", &|t| {
        t.code[10] = 0;
        t.functions[39] = 1;
    });
    add(8, "a bad label, a bad opcode in the last body", &|t| {
        t.labels[4] = 1;
        t.code[16] = 0;
    });
    all
}

/// "then 16, output too short": last, and by the module's length.
fn outputs() -> Vec<StatedWrite> {
    let mut all = Vec::new();
    for out in [0, 1, 47, 48, 82] {
        all.push(stated(&format!("W1 to {out} bytes"), w1(), out, Err(16)));
    }
    for out in [84, 100, 40_000] {
        let name = format!("W1 to {out} bytes");
        all.push(stated(&name, w1(), out, Ok(bytes(W1))));
    }
    all.push(stated("nothing to 47 bytes", Owned::default(), 47, Err(16)));
    let full = counts(1024, 128, 256, 16_384);
    all.push(stated("the longest, one byte short", full, 33_327, Err(16)));
    let mut long = w1();
    long.constants.push(0);
    all.push(stated("5 and no output", long, 0, Err(5)));
    let over = counts(1025, 0, 0, 1);
    all.push(stated("4 and no output", over, 0, Err(4)));
    for (number, name, table, at, with) in PATCHES {
        let mut tables = base();
        patch(&mut tables, table, at, with);
        let name = format!("{name}, output one byte short");
        all.push(stated(&name, tables, 144, Err(number)));
    }
    all
}

/// The tables for another edition.
pub(super) fn with(mut tables: Owned, edition: u32) -> Owned {
    tables.edition = edition;
    tables
}

/// The base for edition 1: the same code in its numbers, and a long in the pointer's place.
fn old() -> Owned {
    let mut tables = base();
    tables.edition = 1;
    tables.functions[11] = 4;
    tables.code = bytes("0100000000 0101000000 0300000000 22 22");
    tables
}

/// "A1, told which, writes either"; "2, now A1's too".
fn editions() -> Vec<StatedWrite> {
    let header = BASE_HEADER.replacen("03000000", "01000000", 1);
    let empty = "01000000 30000000 00000000 30000000 00000000 30000000
        00000000 30000000 00000000 30000000 00000000 00000000";
    let mut all = vec![
        stated("edition 1", old(), 145, Ok(joined(&header, &old()))),
        stated("edition 1 to more", old(), 150, Ok(joined(&header, &old()))),
        stated("edition 1, one byte short", old(), 144, Err(16)),
        stated(
            "edition 1, nothing at all",
            with(Owned::default(), 1),
            48,
            Ok(bytes(empty)),
        ),
        refused(8, "edition 3, code of edition 1", with(old(), 3)),
        refused(7, "edition 1, a pointer parameter", with(base(), 1)),
    ];
    for edition in [
        0,
        2,
        5,
        257,
        259,
        260,
        0x0001_0000,
        0x0100_0003,
        0xFFFF_FFFF,
    ] {
        all.push(refused(
            2,
            &format!("edition {edition}"),
            with(base(), edition),
        ));
        all.push(stated(
            &format!("edition {edition}, no output"),
            with(base(), edition),
            0,
            Err(2),
        ));
    }
    // 2 is the first
    all.push(refused(
        2,
        "edition 2, 1,025 constants",
        with(counts(1025, 0, 0, 1), 2),
    ));
    let mut part = with(base(), 5);
    part.labels.push(0);
    all.push(refused(2, "edition 5, part of a label", part));
    // each opcode byte, as the entry: those of both editions, of one, of none
    for byte in 0..=255u8 {
        for edition in [1, 3] {
            let tables = Owned {
                edition,
                code: vec![byte],
                entry_length: 1,
                ..Owned::default()
            };
            let short = match edition {
                1 => matches!(byte, 0x02 | 0x05..=0x19 | 0x22..=0x25),
                _ => matches!(byte, 0x02 | 0x07..=0x1F | 0x28 | 0x2B | 0x2C | 0x2E),
            };
            let name = format!("opcode {byte:02X} in edition {edition}");
            if short {
                let header = format!(
                    "0{edition}000000 31000000 00000000 30000000 00000000 30000000
                     00000000 30000000 01000000 30000000 01000000 00000000"
                );
                let file = joined(&header, &tables);
                all.push(stated(&name, tables, 60, Ok(file)));
            } else {
                all.push(refused(8, &name, tables));
            }
        }
    }
    all
}

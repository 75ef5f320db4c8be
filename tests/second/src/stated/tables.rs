//! Writes of edition 4 with their answers stated, and of structures for the other editions.

use super::writes::{base, bytes, counts, joined, refused, stated, with, StatedWrite};
use crate::gen::tables::Owned;

/// Two of each: structure 10 of an int and a double, structure 11 of a long; a function of an int
/// and a pointer to structure 10 that returns one to structure 11, made for profile 5.
fn two() -> Owned {
    Owned {
        edition: 4,
        functions: bytes(
            "0A000000 06000000 02 8B 038A000000000000 0000 05000000
             10000000 01000000 00 00 0000000000000000 0000 00000000",
        ),
        structures: bytes("02 0306000000000000 000000 01 0400000000000000 000000"),
        ..base()
    }
}

/// Sections at 56, 80, 128, 144 and 161; 185 bytes.
const HEADER: &str = "04000000 B9000000 02000000 38000000 02000000 50000000 02000000 80000000
    11000000 90000000 0A000000 00000000 02000000 A1000000";

/// Tables of edition 3 for edition 4: each function record has one more word, 0.
fn long(tables: Owned) -> Owned {
    let records = tables.functions.chunks(20);
    Owned {
        edition: 4,
        functions: records
            .flat_map(|record| [record, &[0; 4]].concat())
            .collect(),
        ..tables
    }
}

/// A structure of eight doubles.
const EIGHT: &str = "08 0606060606060606 000000";

pub fn cases() -> Vec<StatedWrite> {
    let mut all = written();
    all.extend(limits());
    all.extend(foreign());
    all.extend(patched());
    all.extend(first_number());
    all.extend(for_other_editions());
    all.extend(opcodes());
    all.extend(records());
    all.extend(managed());
    all
}

/// "managed pointers, which functions may take and return"
fn managed() -> Vec<StatedWrite> {
    let mut all = Vec::new();
    for ty in [0xC3, 0xC4, 0xC6, 0xCA, 0xCB] {
        for at in [9, 10, 11] {
            let mut tables = two();
            tables.functions[at] = ty;
            let name = format!("edition 4, {ty:02X} in a signature, at {at}");
            let file = joined(HEADER, &tables);
            all.push(stated(&name, tables.clone(), 185, Ok(file)));
            let mut three = base();
            three.functions[at] = ty;
            all.push(refused(7, &format!("{name}, for edition 3"), three));
        }
    }
    all
}

fn written() -> Vec<StatedWrite> {
    let file = joined(HEADER, &two());
    let empty = "04000000 38000000 00000000 38000000 00000000 38000000 00000000 38000000
        00000000 38000000 00000000 00000000 00000000 38000000";
    let nothing = || with(Owned::default(), 4);
    // no structure: its offset is the code's end
    let none = long(base());
    let none_header = "04000000 A1000000 02000000 38000000 02000000 50000000 02000000 80000000
        11000000 90000000 0A000000 00000000 00000000 A1000000";
    let none_file = joined(none_header, &none);
    let mut all = vec![
        stated("edition 4, two of each", two(), 185, Ok(file.clone())),
        stated("edition 4 to more", two(), 200, Ok(file.clone())),
        stated("edition 4 to 40,000", two(), 40_000, Ok(file)),
        stated("edition 4, nothing", nothing(), 56, Ok(bytes(empty))),
        stated("edition 4, nothing to 60", nothing(), 60, Ok(bytes(empty))),
        stated("edition 4, no structures", none, 161, Ok(none_file)),
    ];
    for out in [0, 1, 48, 55, 56, 161, 173, 184] {
        let name = format!("edition 4 to {out} bytes");
        all.push(stated(&name, two(), out, Err(16)));
    }
    for out in [0, 48, 55] {
        let name = format!("edition 4, nothing to {out} bytes");
        all.push(stated(&name, nothing(), out, Err(16)));
    }
    all
}

/// "structure count, at most 16"; "(part of a record at a table's end is 5)"
fn limits() -> Vec<StatedWrite> {
    let structures = |count: usize, more: usize| {
        let mut tables = long(counts(1, 1, 1, 9));
        tables.structures = bytes(EIGHT).repeat(count);
        tables.structures.extend(vec![0; more]);
        tables
    };
    let mut full = long(counts(1024, 128, 256, 16_384));
    full.structures = bytes(EIGHT).repeat(16);
    let header = "04000000 F8840000 00040000 38000000 80000000 38300000 00010000 383C0000
        00400000 38440000 803F0000 00000000 10000000 38840000";
    let file = joined(header, &full);
    let mut all = vec![
        stated(
            "edition 4, all at their limits",
            full.clone(),
            34_040,
            Ok(file),
        ),
        stated(
            "edition 4, the longest, a byte short",
            full,
            34_039,
            Err(16),
        ),
        refused(4, "17 structures", structures(17, 0)),
        refused(4, "17 structures and 5 bytes", structures(17, 5)),
        refused(4, "1,000 structures", structures(1000, 0)),
        refused(5, "16 structures and 5 bytes", structures(16, 5)),
    ];
    for more in [1, 6, 11] {
        let name = format!("two structures and {more} bytes");
        all.push(refused(5, &name, structures(2, more)));
        let name = format!("no structure and {more} bytes");
        all.push(refused(5, &name, structures(0, more)));
    }
    all
}

/// "a structure for another edition is 4"; an edition that is none is 2.
fn foreign() -> Vec<StatedWrite> {
    let mut all = Vec::new();
    for edition in [1, 3, 2, 0, 5, 260] {
        let none = ![1, 3].contains(&edition);
        let plain = with(Owned::default(), edition);
        for (length, number) in [(12, 4), (24, 4), (1, 5), (11, 5), (13, 4), (204, 4)] {
            let mut tables = plain.clone();
            tables.structures = bytes(EIGHT).repeat(17);
            tables.structures.truncate(length);
            let number = if none { 2 } else { number };
            let name = format!("edition {edition}, {length} bytes of structures");
            all.push(refused(number, &name, tables.clone()));
            let name = format!("{name}, no output");
            all.push(stated(&name, tables, 0, Err(number)));
        }
    }
    all
}

/// Number, what is wrong, table (4: structures), place, bytes.
const PATCHES: [(u32, &str, usize, usize, &[u8]); 34] = [
    (6, "constant of type 10", 0, 0, &[10]),
    (6, "no fields", 4, 0, &[0]),
    (6, "nine fields", 4, 12, &[9]),
    (6, "three fields, two types", 4, 0, &[3]),
    (6, "one field, two types", 4, 0, &[1]),
    (6, "field of type 0", 4, 1, &[0]),
    (6, "field of type 7", 4, 2, &[7]),
    (6, "field of type 10", 4, 13, &[10]),
    (6, "field of type 83", 4, 13, &[0x83]),
    (6, "unused field byte", 4, 8, &[3]),
    (6, "first zero", 4, 9, &[1]),
    (6, "last zero", 4, 23, &[1]),
    (7, "parameter 80", 1, 10, &[0x80]),
    (7, "parameter 8C", 1, 11, &[0x8C]),
    (7, "parameter 99", 1, 11, &[0x99]),
    (7, "parameter 9A", 1, 11, &[0x9A]),
    (7, "parameter 10", 1, 11, &[10]),
    (7, "return type 80", 1, 9, &[0x80]),
    (7, "return type 83", 1, 9, &[0x83]),
    (7, "return type 8C", 1, 9, &[0x8C]),
    (7, "return type 10", 1, 9, &[10]),
    (7, "unused parameter byte", 1, 12, &[0x8A]),
    (7, "parameter C0", 1, 10, &[0xC0]),
    (7, "parameter C5", 1, 10, &[0xC5]),
    (7, "parameter CC", 1, 11, &[0xCC]),
    (7, "parameter D9", 1, 11, &[0xD9]),
    (7, "parameter DA", 1, 11, &[0xDA]),
    (7, "parameter 43", 1, 10, &[0x43]),
    (7, "return type C0", 1, 9, &[0xC0]),
    (7, "return type CC", 1, 9, &[0xCC]),
    (7, "return type 4A", 1, 9, &[0x4A]),
    (7, "unused parameter byte, managed", 1, 12, &[0xC3]),
    (8, "opcode 35", 3, 0, &[0x35]),
    (9, "label inside an instruction", 2, 4, &[1]),
];

fn patch(tables: &mut Owned, table: usize, at: usize, with: &[u8]) {
    let table = match table {
        0 => &mut tables.constants,
        1 => &mut tables.functions,
        2 => &mut tables.labels,
        3 => &mut tables.code,
        _ => &mut tables.structures,
    };
    table[at..at + with.len()].copy_from_slice(with);
}

fn patched() -> Vec<StatedWrite> {
    let mut all = Vec::new();
    for (number, name, table, at, with) in PATCHES {
        let mut tables = two();
        patch(&mut tables, table, at, with);
        let name = format!("edition 4, {name}");
        all.push(refused(number, &name, tables.clone()));
        let short = format!("{name}, a byte short");
        all.push(stated(&short, tables, 184, Err(number)));
    }
    all
}

/// Two things wrong: the smaller number, though structures come last.
fn first_number() -> Vec<StatedWrite> {
    let mut all = Vec::new();
    let mut add = |number, name: &str, change: &dyn Fn(&mut Owned)| {
        let mut tables = two();
        change(&mut tables);
        all.push(refused(number, &format!("edition 4, {name}"), tables));
    };
    add(4, "17 structures, part of a label", &|t| {
        t.structures = bytes(EIGHT).repeat(17);
        t.labels.push(0);
    });
    add(5, "part of a structure, a bad constant", &|t| {
        t.structures.push(0);
        t.constants[0] = 5;
    });
    add(5, "entry too long, a bad structure", &|t| {
        t.entry_length = 18;
        t.structures[0] = 0;
    });
    add(6, "a bad structure, a bad function", &|t| {
        t.structures[23] = 1;
        t.functions[0] = 9;
    });
    add(6, "a bad structure that a function takes", &|t| {
        t.structures[0] = 0;
    });
    add(7, "a structure that is not there, a bad opcode", &|t| {
        t.structures.truncate(12);
        t.code[0] = 0;
    });
    all
}

/// The same tables for other editions.
fn for_other_editions() -> Vec<StatedWrite> {
    let mut longer = with(two(), 3);
    longer.structures.clear();
    let mut without = longer.clone();
    without.functions.drain(44..48);
    without.functions.drain(20..24);
    let mut wrong = with(two(), 5);
    wrong.structures = bytes(EIGHT).repeat(17);
    wrong.labels.push(0);
    vec![
        refused(
            4,
            "edition 3, structures and pointers to them",
            with(two(), 3),
        ),
        refused(7, "edition 3, pointers to structures alone", without),
        refused(5, "edition 3, records of 24 bytes", longer),
        refused(2, "edition 5, all wrong", wrong),
    ]
}

/// Each opcode byte as the entry.
fn opcodes() -> Vec<StatedWrite> {
    let mut all = Vec::new();
    for byte in 0..=255u8 {
        let tables = Owned {
            edition: 4,
            code: vec![byte],
            entry_length: 1,
            ..Owned::default()
        };
        let short = matches!(
            byte,
            0x02 | 0x07..=0x1F | 0x28 | 0x2B | 0x2C | 0x2E | 0x30 | 0x32 | 0x33
        );
        let name = format!("opcode {byte:02X} in edition 4");
        if short {
            let header = "04000000 39000000 00000000 38000000 00000000 38000000 00000000 38000000
                01000000 38000000 01000000 00000000 00000000 39000000";
            let file = joined(header, &tables);
            all.push(stated(&name, tables, 60, Ok(file)));
        } else {
            all.push(refused(8, &name, tables));
        }
    }
    all
}

/// "one more word at its end": a record of edition 4 has 24 bytes, and any word in the last four.
fn records() -> Vec<StatedWrite> {
    let mut all = Vec::new();
    for profile in ["01000000", "00010000", "00000080", "FFFFFFFF"] {
        for at in [20, 44] {
            let mut tables = two();
            tables.functions[at..at + 4].copy_from_slice(&bytes(profile));
            let name = format!("edition 4, profile {profile} at {at}");
            let file = joined(HEADER, &tables);
            all.push(stated(&name, tables.clone(), 185, Ok(file)));
            // the zero before it is still looked at
            tables.functions[at - 1] = 1;
            all.push(refused(7, &format!("{name}, no zero before"), tables));
        }
    }
    for length in [1, 4, 12, 20, 23] {
        let mut tables = with(Owned::default(), 4);
        tables.functions = vec![0; length];
        let name = format!("edition 4, {length} bytes of a function");
        all.push(refused(5, &name, tables));
        let mut tables = two();
        tables.functions.truncate(24 + length);
        let name = format!("edition 4, a function and {length} bytes");
        all.push(refused(5, &name, tables));
    }
    // six records of 20 bytes are five of 24, of which the second is bad
    let six = with(counts(0, 6, 0, 6), 4);
    all.push(refused(7, "edition 4, six records of 20 bytes", six));
    let one = with(counts(0, 1, 0, 1), 4);
    all.push(refused(5, "edition 4, a record of 20 bytes", one));
    for (functions, number) in [(128, 5), (129, 4)] {
        let mut tables = long(counts(0, functions, 0, functions));
        tables.functions.extend([0; 20]);
        let name = format!("edition 4, {functions} functions and 20 bytes");
        all.push(refused(number, &name, tables));
    }
    all.push(refused(
        4,
        "edition 4, 129 functions",
        long(counts(0, 129, 0, 129)),
    ));
    all
}

//! "For a new module and a named body, check that body, set its byte alone, and answer 11 with the
//! first body whose byte is 0, else 0". "Refusals, after the reader's: 12 no such body; 45 a count,
//! offset or length other than this module's record has, or a byte over 1."

use super::{bytes, readable, unreadable, StatedBody, BAD, EDITIONS, GOOD};
use crate::asm;
use crate::gen::records::FIRST_BEFORE;
use crate::reader::ENTRY;

pub fn cases() -> Vec<StatedBody> {
    let mut all = Vec::new();
    for edition in EDITIONS {
        all.extend(good_bodies(edition));
        all.extend(bad_bodies(edition));
        all.extend(only_the_entry(edition));
        all.extend(many(edition));
        all.extend(no_such_body(edition));
        all.extend(bad_records(edition));
        all.extend(reader_first(edition));
    }
    all
}

/// 0: all bytes are 1 afterwards.
pub fn typed(text: &str, body: u32, before: &str, after: &str) -> StatedBody {
    StatedBody {
        name: format!("body {body:08X} of {text}, record {before}"),
        file: asm::file(text),
        body,
        before: bytes(before),
        after: bytes(after),
        answer: 0,
        first: FIRST_BEFORE,
    }
}

/// 11 with this body.
pub fn untyped(text: &str, body: u32, before: &str, after: &str, first: u32) -> StatedBody {
    StatedBody {
        answer: 11,
        first,
        ..typed(text, body, before, after)
    }
}

/// Nothing is changed, and only the number is given.
pub fn refused(text: &str, body: u32, record: &str, number: u32) -> StatedBody {
    StatedBody {
        answer: number,
        ..typed(text, body, record, record)
    }
}

/// The entry and three functions with a typing, and a label in each of two.
fn all_good(edition: &str) -> String {
    format!("{edition} int 7; entry: @0; push 0; {GOOD} function int (): @1; push 0; ret; {GOOD}")
}

/// The words of a record of four bodies.
const FOUR: &str = "04000000 08000000";

/// Named bodies that have a typing, with the bytes before and after.
const SEEN: [(u32, &str, &str); 8] = [
    (ENTRY, "01 010101", "01 010101"),
    (0, "01 010101", "01 010101"),
    (1, "01 010101", "01 010101"),
    (2, "01 010101", "01 010101"),
    (ENTRY, "00 010101", "01 010101"),
    (0, "01 000101", "01 010101"),
    (1, "01 010001", "01 010101"),
    (2, "01 010100", "01 010101"),
];

/// The same, and "the first body whose byte is 0", which is believed of all others.
const TOLD: [(u32, &str, &str, u32); 11] = [
    (ENTRY, "00 000101", "01 000101", 0),
    (ENTRY, "01 010100", "01 010100", 2),
    (ENTRY, "00 000000", "01 000000", 0),
    (0, "00 000101", "00 010101", ENTRY),
    (0, "01 010001", "01 010001", 1),
    (0, "01 000000", "01 010000", 1),
    (1, "01 000000", "01 000100", 0),
    (1, "01 010000", "01 010100", 2),
    (2, "00 000000", "00 000001", ENTRY),
    (2, "01 010000", "01 010001", 1),
    (2, "01 000100", "01 000101", 0),
];

/// Bodies that have a typing, whatever their byte was.
fn good_bodies(edition: &str) -> Vec<StatedBody> {
    let text = &all_good(edition);
    let four = |bytes: &str| format!("{FOUR} {bytes}");
    let seen = SEEN.map(|(body, before, after)| typed(text, body, &four(before), &four(after)));
    let told = TOLD.map(|(body, before, after, first)| {
        untyped(text, body, &four(before), &four(after), first)
    });
    seen.into_iter().chain(told).collect()
}

/// Bodies that have none, and bodies that are not named.
fn bad_bodies(edition: &str) -> Vec<StatedBody> {
    let of = |entry: &str, functions: [&str; 3]| {
        format!("{edition} entry: {entry} {}", functions.join(" "))
    };
    let first = of("pop;", [GOOD, GOOD, GOOD]);
    let middle = of("", [GOOD, BAD, GOOD]);
    let last = of("", [GOOD, GOOD, BAD]);
    let all = of("pop;", [BAD, BAD, BAD]);
    let four = |bytes: &str| format!("{FOUR} {bytes}");
    let bad =
        |text, body, before, after, first| untyped(text, body, &four(before), &four(after), first);
    let good = |text, body, before, after| typed(text, body, &four(before), &four(after));
    vec![
        bad(&first, ENTRY, "01 010101", "00 010101", ENTRY),
        bad(&first, ENTRY, "00 010101", "00 010101", ENTRY),
        bad(&first, 1, "00 010101", "00 010101", ENTRY),
        bad(&middle, 1, "01 010101", "01 010001", 1),
        bad(&middle, 1, "01 010001", "01 010001", 1),
        // another body is told than the named one, which has no typing either
        bad(&middle, 1, "00 010101", "00 010001", ENTRY),
        bad(&middle, 1, "01 000101", "01 000001", 0),
        // it comes before another one
        bad(&middle, 1, "01 010100", "01 010000", 1),
        bad(&last, 2, "01 010101", "01 010100", 2),
        bad(&last, 2, "01 010001", "01 010000", 1),
        // a wrong record is believed, and stays
        good(&first, 0, "01 010101", "01 010101"),
        good(&middle, ENTRY, "01 010101", "01 010101"),
        good(&middle, 2, "01 010100", "01 010101"),
        good(&last, 1, "01 010001", "01 010101"),
        bad(&all, 0, "01 010101", "01 000101", 0),
        bad(&all, 2, "01 010101", "01 010100", 2),
        bad(&all, ENTRY, "01 000000", "00 000000", ENTRY),
    ]
}

fn only_the_entry(edition: &str) -> Vec<StatedBody> {
    let (one, none) = ("01000000 08000000 01", "01000000 08000000 00");
    let good = &format!("{edition} entry:");
    let bad = &format!("{edition} entry: add");
    vec![
        typed(good, ENTRY, one, one),
        typed(good, ENTRY, none, one),
        untyped(bad, ENTRY, one, none, ENTRY),
        untyped(bad, ENTRY, none, none, ENTRY),
        refused(good, 0, one, 12),
        refused(bad, 0, none, 12),
        refused(good, ENTRY, "01000000 08000000 02", 45),
        refused(bad, ENTRY, "01000000 08000000 FF", 45),
        refused(good, ENTRY, "01000000 08000000", 45),
        refused(good, ENTRY, "", 45),
        refused(good, ENTRY, "02000000 08000000 01 01", 45),
    ]
}

/// 128 functions: a count of 129.
fn many(edition: &str) -> Vec<StatedBody> {
    let good = &format!("{edition} entry: {}", GOOD.repeat(128));
    let bad = &format!("{edition} entry: {} {BAD}", GOOD.repeat(127));
    let record = |last: &str| format!("81000000 08000000 01 {} {last}", "01".repeat(127));
    vec![
        typed(good, 127, &record("00"), &record("01")),
        typed(good, 0, &record("01"), &record("01")),
        untyped(bad, 127, &record("01"), &record("00"), 127),
        untyped(bad, 126, &record("00"), &record("00"), 127),
        refused(good, 128, &record("01"), 12),
        refused(good, 127, &record("02"), 45),
        refused(good, ENTRY, &record("02"), 45),
    ]
}

/// 12 before 45.
fn no_such_body(edition: &str) -> Vec<StatedBody> {
    let text = &all_good(edition);
    let mut all = Vec::new();
    for body in [3, 4, 128, 256, 0x8000_0000, 0xFFFF_FFFE] {
        for record in [
            "04000000 08000000 01 010101",
            "04000000 08000000 01 010100",
            "03000000 08000000 01 010101",
            "04000000 08000000 01 010102",
            "04000000 08000000 01 01010101",
            "",
        ] {
            all.push(refused(text, body, record, 12));
        }
    }
    all
}

/// Bytes that are no record of a module of four bodies.
const BAD_RECORDS: [&str; 33] = [
    "00000000 08000000 01 010101",
    "03000000 08000000 01 010101",
    "05000000 08000000 01 010101",
    "04010000 08000000 01 010101",
    "04000100 08000000 01 010101",
    "04000001 08000000 01 010101",
    "00000004 08000000 01 010101",
    "04000000 00000000 01 010101",
    "04000000 07000000 01 010101",
    "04000000 09000000 01 010101",
    "04000000 08010000 01 010101",
    "04000000 08000100 01 010101",
    "04000000 08000080 01 010101",
    "08000000 04000000 01 010101",
    "04000000 08000000 01 0101",
    "03000000 08000000 01 0101",
    "04000000 08000000 01 01010101",
    "04000000 08000000 01 01010100",
    "05000000 08000000 01 01010101",
    "04000000 08000000",
    "04000000 080000",
    "04000000",
    "",
    "04000000 08000000 02 010101",
    "04000000 08000000 01 020101",
    "04000000 08000000 01 010201",
    "04000000 08000000 01 010102",
    "04000000 08000000 FF 010101",
    "04000000 08000000 01 800101",
    "04000000 08000000 01 010301",
    "04000000 08000000 01 0101FE",
    "04000000 08000000 00 000002",
    "04000000 08000000 02 000000",
];

/// 45 for each of count, offset, length and bytes, whichever body is named.
fn bad_records(edition: &str) -> Vec<StatedBody> {
    let text = &all_good(edition);
    let mut all = Vec::new();
    for record in BAD_RECORDS {
        all.extend([ENTRY, 0, 1, 2].map(|body| refused(text, body, record, 45)));
    }
    all
}

/// 1 to 9 come before 12 and 45.
fn reader_first(edition: &str) -> Vec<StatedBody> {
    let text = readable(edition);
    let file = asm::file(&text);
    let good = "04000000 08000000 01 010001";
    let mut all = Vec::new();
    for (number, file) in unreadable(edition, &file) {
        for (body, record) in [
            (1, good),
            (ENTRY, good),
            (3, good),
            (0, "04000000 08000000 01 010002"),
            (9, "04000000"),
            (ENTRY, ""),
        ] {
            let mut stated = refused(&text, body, record, number);
            stated.file.clone_from(&file);
            all.push(stated);
        }
    }
    all
}

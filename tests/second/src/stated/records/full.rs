//! "A full check lent room for it writes it with 0 and with 11 (16, just before 11, if too short)."

use super::{bytes, readable, unreadable, StatedFull, BAD, EDITIONS, GOOD};
use crate::asm;
use crate::gen::case::BODY_BEFORE;
use crate::gen::tables::WRITTEN_BEFORE;
use crate::reader::ENTRY;
use crate::stated::{record, Record, UNREACHED};

pub fn cases() -> Vec<StatedFull> {
    let mut all = Vec::new();
    for edition in EDITIONS {
        all.extend(records(edition));
        all.extend(labelled(edition));
        all.extend(lengths(edition));
        all.extend(too_short(edition));
        all.extend(reader_first(edition));
    }
    all.extend(by_edition());
    all
}

/// 0 with these label records and this record, each as long as it is lent.
fn accepted(text: &str, labels: &[Record<'_>], written: &str) -> StatedFull {
    let written = bytes(written);
    let shown: Vec<u8> = labels.iter().flat_map(|&shown| record(shown)).collect();
    StatedFull {
        name: text.to_string(),
        file: asm::file(text),
        room: shown.len(),
        shown,
        record: written.len(),
        length: written.len() as u64,
        written,
        answer: 0,
        body: BODY_BEFORE,
    }
}

/// 11 with this body: 64 bytes per label are zeroed, and the record is whole.
fn untyped(text: &str, labels: usize, body: u32, written: &str) -> StatedFull {
    StatedFull {
        shown: vec![0; 64 * labels],
        room: 64 * labels,
        answer: 11,
        body,
        length: WRITTEN_BEFORE,
        ..accepted(text, &[], written)
    }
}

impl StatedFull {
    /// With a room and a record of these lengths.
    fn lent(mut self, room: usize, record: usize) -> StatedFull {
        self.name = format!("{} (room {room}, record {record})", self.name);
        (self.room, self.record) = (room, record);
        self
    }

    /// Nothing is changed, and only the number is given.
    fn refused(mut self, number: u32) -> StatedFull {
        (self.shown, self.written) = (Vec::new(), Vec::new());
        (self.answer, self.body, self.length) = (number, BODY_BEFORE, WRITTEN_BEFORE);
        self
    }
}

/// The code of modules whose bodies all have a typing, and their records.
const TYPED: [(&str, &str); 4] = [
    ("", "01000000 08000000 01"),
    ("push 0", "01000000 08000000 01"),
    ("GOOD", "02000000 08000000 01 01"),
    ("GOOD GOOD GOOD", "04000000 08000000 01 010101"),
];

/// Others, with the first body without a typing: those behind it are judged too.
const UNTYPED: [(&str, u32, &str); 12] = [
    ("pop", ENTRY, "01000000 08000000 00"),
    ("pop; GOOD GOOD", ENTRY, "03000000 08000000 00 0101"),
    ("pop; GOOD BAD", ENTRY, "03000000 08000000 00 0100"),
    ("pop; BAD GOOD", ENTRY, "03000000 08000000 00 0001"),
    ("pop; BAD BAD", ENTRY, "03000000 08000000 00 0000"),
    ("push 0; BAD GOOD BAD", 0, "04000000 08000000 01 000100"),
    ("GOOD BAD GOOD", 1, "04000000 08000000 01 010001"),
    ("GOOD GOOD BAD", 2, "04000000 08000000 01 010100"),
    // a caller is judged by signatures alone
    ("call 0; BAD", 0, "02000000 08000000 01 00"),
    ("call 1; GOOD", ENTRY, "02000000 08000000 00 01"),
    // "A function's end is not given."
    (
        "GOOD function int (): push 0",
        1,
        "03000000 08000000 01 0100",
    ),
    ("function int (): ret; GOOD", 0, "03000000 08000000 01 0001"),
];

/// "4-byte body count and offset (8), then one byte a body, entry first, 1 if it has a typing, else
/// 0".
fn records(edition: &str) -> Vec<StatedFull> {
    let of = |code: &str| {
        let code = code.replace("GOOD", GOOD).replace("BAD", BAD);
        format!("{edition} int 7; entry: {code}")
    };
    let typed = TYPED.map(|(code, record)| accepted(&of(code), &[], record));
    let bad = UNTYPED.map(|(code, body, record)| untyped(&of(code), 0, body, record));
    let mut all: Vec<_> = typed.into_iter().chain(bad).collect();
    let many = |last: &str| of(&format!("{} {last}", GOOD.repeat(127)));
    let record = |last: &str| format!("81000000 08000000 {} {last}", "01".repeat(128));
    all.push(accepted(&many("GOOD"), &[], &record("01")));
    all.push(untyped(&many("BAD"), 0, 127, &record("00")));
    all
}

/// "the room is as the check leaves it"
fn labelled(edition: &str) -> Vec<StatedFull> {
    let good = format!(
        "{edition} int 7; entry: @0; push 0; @1; push 0; function int (int): @2; load 0; ret; @3; pop"
    );
    let bad = format!("{good}; function void (): @4; add; ret");
    let shown = [
        Some((&[][..], &[][..])),
        Some((&[][..], &[3][..])),
        Some((&[3][..], &[][..])),
        UNREACHED,
    ];
    let two = "02000000 08000000 01 01";
    let three = "03000000 08000000 01 0100";
    vec![
        accepted(&good, &shown, two),
        accepted(&good, &shown, two).lent(4 * 64 + 70, 10),
        accepted(&good, &shown, two).lent(4 * 64 + 1, 50),
        untyped(&bad, 5, 1, three),
        untyped(&bad, 5, 1, three).lent(5 * 64 + 9, 12),
    ]
}

/// A longer record is fine, "the rest unchanged".
fn lengths(edition: &str) -> Vec<StatedFull> {
    let good = format!("{edition} entry: {GOOD} {GOOD}");
    let bad = format!("{edition} entry: {BAD} {GOOD}");
    let mut all = Vec::new();
    for record in [11, 12, 13, 20, 300] {
        all.push(accepted(&good, &[], "03000000 08000000 01 0101").lent(0, record));
        all.push(untyped(&bad, 0, 0, "03000000 08000000 01 0001").lent(0, record));
    }
    all
}

/// 16 after 10, before 11 and before 0; "room and record unchanged".
fn too_short(edition: &str) -> Vec<StatedFull> {
    let good = format!("{edition} int 7; entry: @0; push 0; {GOOD} {GOOD}");
    let bad = format!("{edition} int 7; entry: @0; push 0; {GOOD} {BAD}");
    let shown = [Some((&[][..], &[][..]))];
    let both = [
        accepted(&good, &shown, "03000000 08000000 01 0101"),
        untyped(&bad, 1, 1, "03000000 08000000 01 0100"),
    ];
    let mut all = Vec::new();
    for stated in both {
        for record in [0, 1, 7, 8, 9, 10] {
            all.push(stated.clone().lent(64, record).refused(16));
            all.push(stated.clone().lent(200, record).refused(16));
        }
        for record in [0, 8, 10, 11, 12] {
            all.push(stated.clone().lent(63, record).refused(10));
            all.push(stated.clone().lent(0, record).refused(10));
        }
        all.push(stated);
    }
    let none = accepted(&format!("{edition} entry:"), &[], "01000000 08000000 01");
    all.extend([0, 8].map(|record| none.clone().lent(0, record).refused(16)));
    all
}

/// 1 to 9 come before 10 and 16.
fn reader_first(edition: &str) -> Vec<StatedFull> {
    let text = readable(edition);
    let good = untyped(&text, 1, 1, "04000000 08000000 01 010001");
    let mut all = vec![good.clone()];
    for (number, file) in unreadable(edition, &good.file) {
        for (room, record) in [(64, 12), (0, 12), (64, 0), (0, 0), (64, 11)] {
            let mut stated = good.clone().lent(room, record).refused(number);
            stated.file = file.clone();
            all.push(stated);
        }
    }
    all
}

/// What the editions judge differently, and profiles, which they do not look at.
fn by_edition() -> Vec<StatedFull> {
    let pointers = "int 7; long 7; entry: push 0; store 0; push 1; store 1; lea 0; lea 1; cmp;";
    let both = format!("{pointers} {GOOD}");
    let five = "edition 4; int 7; entry: function void () profile 5: ret; function int () profile 0: push 0; ret
        function int () profile 4294967295: push 0";
    let heap =
        "edition 4; structure int, double; entry: new 10; delete; function *10 (): new 10; ret
        function *10 (): null; ret; function gc*10 (): gcnew 10; ret";
    let top = "int 7; entry: push 0; inc; function int (int): load 0; dec; ret";
    vec![
        // edition 3: "the same of six"; edition 4: "those three take any pointers"
        untyped(&both, 0, ENTRY, "02000000 08000000 00 01"),
        accepted(
            &format!("edition 4; {both}"),
            &[],
            "02000000 08000000 01 01",
        ),
        untyped(five, 0, 2, "04000000 08000000 01 010100"),
        untyped(heap, 0, 1, "04000000 08000000 01 010001"),
        // edition 1: "There `inc` and `dec` change the top value itself."
        accepted(&format!("edition 1; {top}"), &[], "02000000 08000000 01 01"),
        untyped(top, 0, ENTRY, "02000000 08000000 00 00"),
    ]
}

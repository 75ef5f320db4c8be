//! Single bodies: "its largest height over all paths of flow from its start, branch values ignored,
//! slots buried under locals counted".

use super::{needs, Labelled, StatedNeed, CONSTANTS, EMPTY};
use crate::stated::records::EDITIONS;
use crate::stated::{Record, UNREACHED};

/// An int local, an int operand.
const LOCAL: Record<'static> = Some((&[3], &[]));
const OPERAND: Record<'static> = Some((&[], &[3]));

pub fn cases() -> Vec<StatedNeed> {
    let mut all = Vec::new();
    for edition in EDITIONS {
        let of = |code: &str| format!("{edition} {CONSTANTS} entry: {code}");
        all.extend(STRAIGHT.map(|(code, need)| needs(&of(code), &[], &[(need, 1)])));
        all.extend(BRANCHED.map(|(code, labels, need)| needs(&of(code), labels, &[(need, 1)])));
        all.extend(JOINED.map(|(code, labels, need)| needs(&of(code), labels, &[(need, 1)])));
        all.extend(full(edition));
        all.extend(FUNCTIONS.map(|(code, labels, pairs)| needs(&of(code), labels, pairs)));
    }
    all.extend(of_pointers("", &POINTERS));
    all.extend(of_pointers("edition 4;", &POINTERS));
    all.extend(of_pointers(
        "edition 4; structure int, long, double, int;",
        &BLOCKS,
    ));
    all.extend(of_pointers("edition 1;", &[("push 0; inc; dec", 1)]));
    all
}

/// Entries without labels.
const STRAIGHT: [(&str, u32); 18] = [
    ("", 0),
    ("push 0", 1),
    ("push 0; pop", 1),
    ("push 0; push 0; push 0; add; add", 3),
    ("push 0; push 0; add; push 0; push 0; add; add", 3),
    ("push 0; pop; push 0; push 0", 2),
    ("push 3; toi; tod; neg", 1),
    // a bound slot stays
    ("push 0; store 0", 1),
    ("push 0; store 0; push 2; store 1; push 3; store 2", 3),
    ("push 0; store 0; load 0", 2),
    // what lies under it is buried
    ("push 0; push 2; push 3; store 0", 3),
    ("push 0; push 2; push 3; store 0; load 0", 4),
    (
        "push 0; push 0; store 0; push 0; push 0; store 1; push 0",
        5,
    ),
    (
        "push 0; push 0; push 0; store 0; push 0; store 1; load 1; load 0; add; pop",
        6,
    ),
    // a local that is there takes no slot
    ("push 0; store 0; push 0; store 0; push 0", 2),
    (
        "push 0; push 0; store 0; push 0; store 0; push 0; store 0",
        3,
    ),
    (
        "push 0; push 0; store 0; push 0; push 0; store 0; store 0; push 0",
        4,
    ),
    ("push 0; push 0; pop; pop; push 0; store 0", 2),
];

/// Entries with branches, and the labels' records.
const BRANCHED: [(&str, &[Record<'static>], u32); 13] = [
    // the branch's int is a slot until it is taken
    ("push 0; je 0; @0; push 0", &[EMPTY], 1),
    ("push 0; push 0; je 0; @0; pop", &[OPERAND], 2),
    // "branch values ignored": whether the int is 7 or 0
    (
        "push 0; je 0; push 0; push 0; pop; pop; @0; push 0",
        &[EMPTY],
        2,
    ),
    (
        "push 1; je 0; push 0; push 0; pop; pop; @0; push 0",
        &[EMPTY],
        2,
    ),
    (
        "push 0; jne 0; push 0; push 0; pop; pop; @0; push 0",
        &[EMPTY],
        2,
    ),
    (
        "push 0; jne 0; jmp 1; @0; push 0; push 0; pop; pop; @1; push 0",
        &[EMPTY, EMPTY],
        2,
    ),
    (
        "push 1; jne 0; jmp 1; @0; push 0; push 0; pop; pop; @1; push 0",
        &[EMPTY, EMPTY],
        2,
    ),
    // dead code
    ("jmp 0; push 0; push 0; push 0; @0; push 0", &[EMPTY], 1),
    ("push 0; jmp 0; push 0; push 0; @0; pop", &[OPERAND], 1),
    (
        "jmp 0; @1; push 0; push 0; jmp 1; @0; push 0",
        &[EMPTY, UNREACHED],
        1,
    ),
    // an end that is not reached
    ("push 0; store 0; @0; jmp 0; push 0; push 0", &[LOCAL], 1),
    // loops
    (
        "push 0; push 0; store 0; @0; load 0; push 0; add; store 0; load 0; jne 0",
        &[LOCAL],
        4,
    ),
    ("@0; push 0; push 0; push 0; pop; pop; je 0", &[EMPTY], 3),
];

/// Ways that meet with different numbers of buried slots: the greatest counts.
const JOINED: [(&str, &[Record<'static>], u32); 10] = [
    (
        "push 0; je 0; push 0; push 0; push 0; store 0; jmp 1; @0; push 0; store 0; @1; push 0",
        &[EMPTY, LOCAL],
        4,
    ),
    (
        "push 0; je 0; push 0; store 0; jmp 1; @0; push 0; push 0; push 0; store 0; @1; push 0",
        &[EMPTY, LOCAL],
        4,
    ),
    // both ways go back to an instruction before them
    (
        "push 0; jmp 2; @3; push 0; push 0; pop; pop; jmp 3; @0; push 0; store 0; jmp 3
         @1; push 0; push 0; push 0; push 0; store 0; jmp 3; @2; je 0; jmp 1",
        &[EMPTY, EMPTY, OPERAND, LOCAL],
        6,
    ),
    // the highest slot is on one way, not behind both
    (
        "push 0; je 0; push 0; push 0; push 0; store 0; jmp 1
         @0; push 0; push 0; push 0; push 0; push 0; push 0; pop; pop; pop; pop; pop; store 0; @1; push 0",
        &[EMPTY, LOCAL],
        6,
    ),
    // three ways
    (
        "push 0; je 0; push 0; je 1; push 0; store 0; jmp 2; @0; push 0; push 0; store 0; jmp 2
         @1; push 0; push 0; push 0; push 0; store 0; @2; push 0; push 0",
        &[EMPTY, EMPTY, LOCAL],
        6,
    ),
    // one after the other
    (
        "push 0; je 0; push 0; push 0; push 0; store 0; jmp 1; @0; push 0; store 0; @1
         push 0; je 2; push 0; push 0; push 0; store 1; jmp 3; @2; push 0; store 1; @3; push 0",
        &[EMPTY, LOCAL, LOCAL, Some((&[3, 3], &[]))],
        7,
    ),
    // the first way buries more before it, the second behind it
    (
        "push 0; je 0; push 0; push 0; store 0; push 0; store 1; jmp 1
         @0; push 0; store 0; push 0; push 0; push 0; store 1; @1; load 1",
        &[EMPTY, Some((&[3, 3], &[]))],
        5,
    ),
    // with operands above
    (
        "push 0; je 0; push 0; push 0; store 0; push 2; jmp 1; @0; push 0; store 0; push 2; @1; push 3",
        &[EMPTY, Some((&[3], &[4]))],
        4,
    ),
    // a loop entered with two grounds
    (
        "push 0; je 0; push 0; push 0; push 0; store 0; jmp 1; @0; push 0; store 0; @1; load 0; je 1",
        &[EMPTY, LOCAL],
        4,
    ),
    // other types are buried
    (
        "push 2; push 3; push 0; je 0; pop; push 0; store 0; jmp 1; @0; push 2; push 0; store 0; @1; load 0",
        &[Some((&[], &[4, 6])), LOCAL],
        5,
    ),
];

/// As many operands and locals as lists can have.
fn full(edition: &str) -> Vec<StatedNeed> {
    let of = |code: &str| format!("{edition} {CONSTANTS} entry: {code}");
    let pushes = "push 0;".repeat(32);
    let bind = |n: usize| format!("{pushes} store {n};");
    let locals: String = (0..16).map(bind).collect();
    vec![
        needs(&of(&pushes), &[], &[(32, 1)]),
        needs(&of(&bind(0)), &[], &[(32, 1)]),
        needs(&of(&format!("{} {pushes}", bind(0))), &[], &[(64, 1)]),
        needs(&of(&locals), &[], &[(512, 1)]),
        needs(&of(&format!("{locals} {pushes}")), &[], &[(544, 1)]),
    ]
}

/// Functions that nobody calls: parameters are part of the need.
const FUNCTIONS: [Labelled; 9] = [
    ("function void (): ret", &[], &[(0, 1), (0, 1)]),
    ("function int (): push 0; ret", &[], &[(0, 1), (1, 1)]),
    ("function void (int, long): ret", &[], &[(0, 1), (2, 1)]),
    ("function int (int): load 0; ret", &[], &[(0, 1), (2, 1)]),
    (
        "function int (int): push 0; push 0; store 1; load 1; ret",
        &[],
        &[(0, 1), (4, 1)],
    ),
    (
        "function int (int): push 0; store 0; load 0; ret; push 0; push 0",
        &[],
        &[(0, 1), (2, 1)],
    ),
    (
        "push 0; function int (int, int, int, int, int, int, int, int): load 7; load 0; add; ret
         function void (): ret",
        &[],
        &[(1, 1), (10, 1), (0, 1)],
    ),
    (
        "function void (int): push 0; je 0; push 0; push 0; store 1; jmp 1
         @0; push 0; store 1; @1; load 1; pop; ret",
        &[LOCAL, Some((&[3, 3], &[]))],
        &[(0, 1), (4, 1)],
    ),
    (
        "function void (int): @0; load 0; jne 0; ret",
        &[LOCAL],
        &[(0, 1), (2, 1)],
    ),
];

/// Editions 3 and 4.
const POINTERS: [(&str, u32); 4] = [
    ("push 0; copy; copy; swap; add", 3),
    ("push 0; store 0; lea 0; tload", 2),
    ("push 0; store 0; lea 0; copy; push 0; tstore; inc", 4),
    ("push 2; push 0; store 0; lea 0; lea 0; cmp", 4),
];

/// Edition 4: cells are no slots.
const BLOCKS: [(&str, u32); 9] = [
    ("null", 1),
    ("gcnull", 1),
    ("gcnull; gcnull; cmp", 2),
    ("new 3; delete", 1),
    ("new 10", 1),
    ("gcnew 10", 1),
    ("new 10; copy; flea 1; tload", 2),
    (
        "gcnew 3; push 0; gcnew 10; store 0; load 0; flea 3; tload; pop",
        4,
    ),
    ("gcnew 10; store 0; null; gcnew 4; store 1; gcnull", 4),
];

fn of_pointers(start: &str, table: &[(&str, u32)]) -> Vec<StatedNeed> {
    let of = |code: &str| format!("{start} {CONSTANTS} entry: {code}");
    let all = table.iter();
    all.map(|&(code, need)| needs(&of(code), &[], &[(need, 1)]))
        .collect()
}

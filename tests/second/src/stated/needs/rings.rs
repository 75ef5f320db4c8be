//! "47 with the first body from which a chain of reached calls comes back to a body on it, exactly when
//! there is one".

use super::{needs, ring, Labelled, StatedNeed, CONSTANTS, EMPTY};
use crate::reader::ENTRY;
use crate::stated::records::EDITIONS;
use crate::stated::{Record, UNREACHED};

pub fn cases() -> Vec<StatedNeed> {
    let mut all = Vec::new();
    for edition in EDITIONS {
        let of = |code: &str| {
            format!("{edition} {CONSTANTS} entry: {code}").replace("fn", "function void ():")
        };
        all.extend(RINGS.map(|(code, body)| ring(&of(code), &[], body)));
        all.extend(LABELLED.map(|(code, labels, body)| ring(&of(code), labels, body)));
        all.extend(NONE.map(|(code, pairs)| needs(&of(code), &[], pairs)));
        all.extend(LABELLED_NONE.map(|(code, labels, pairs)| needs(&of(code), labels, pairs)));
        all.extend(long(edition));
    }
    all
}

/// Code without labels, and the body that 47 gives.
const RINGS: [(&str, u32); 22] = [
    // a body that calls itself
    ("fn call 0; ret", 0),
    ("call 0; fn call 0; ret", ENTRY),
    ("fn ret; fn call 1; ret", 1),
    ("call 0; fn ret; fn call 1; ret", 1),
    ("push 0; fn ret; fn ret; fn call 2; ret; fn call 3; ret", 2),
    // two that call each other
    ("fn call 1; ret; fn call 0; ret", 0),
    ("call 1; fn call 1; ret; fn call 0; ret", ENTRY),
    ("fn ret; fn call 2; ret; fn call 1; ret", 1),
    ("fn call 2; ret; fn ret; fn call 0; ret", 0),
    // a body that only leads to a ring
    ("fn call 1; ret; fn call 1; ret", 0),
    ("fn call 2; ret; fn ret; fn call 2; ret", 0),
    ("fn ret; fn call 3; ret; fn ret; fn call 3; ret", 1),
    (
        "fn call 1; ret; fn call 2; ret; fn call 3; ret; fn call 2; ret",
        0,
    ),
    ("call 2; fn call 0; ret; fn ret; fn call 1; ret", 0),
    (
        "call 2; fn ret; fn call 0; ret; fn call 3; ret; fn call 4; ret; fn call 3; ret",
        ENTRY,
    ),
    (
        "call 1; fn call 2; ret; fn ret; fn call 3; ret; fn call 0; ret",
        0,
    ),
    // leads to two, behind calls that lead to none
    (
        "fn ret; fn call 0; call 2; call 3; ret; fn call 2; ret; fn call 3; ret",
        1,
    ),
    (
        "call 0; fn ret; fn call 0; call 0; ret; fn call 0; call 1; call 2; ret",
        2,
    ),
    // of three
    ("fn call 1; ret; fn call 2; ret; fn call 0; ret", 0),
    ("fn ret; fn call 3; ret; fn call 1; ret; fn call 2; ret", 1),
    // it does not matter what would run first
    ("fn call 1; call 0; ret; fn call 2; ret; fn ret", 0),
    (
        "push 0; pop; call 0; fn push 0; pop; call 1; ret; fn call 0; ret; fn ret",
        ENTRY,
    ),
];

/// Code with labels, their records, and the body that 47 gives: the room is as the check leaves it.
const LABELLED: [(&str, &[Record<'static>], u32); 7] = [
    // "branch values ignored"
    (
        "function int (int): load 0; je 0; load 0; push 0; sub; call 0; ret; @0; push 0; ret",
        &[Some((&[3], &[]))],
        0,
    ),
    (
        "push 1; je 0; call 0; @0; push 0; fn call 0; ret",
        &[EMPTY],
        ENTRY,
    ),
    (
        "push 0; je 0; call 0; @0; push 0; fn call 0; ret",
        &[EMPTY],
        ENTRY,
    ),
    (
        "push 0; @0; pop; fn @1; push 0; jne 1; call 0; ret; @2; ret",
        &[Some((&[], &[3])), EMPTY, UNREACHED],
        0,
    ),
    // in a loop
    ("fn @0; call 0; jmp 0", &[EMPTY], 0),
    // past a call that never returns
    (
        "call 0; call 1; fn @0; jmp 0; fn call 1; ret",
        &[EMPTY],
        ENTRY,
    ),
    ("fn call 1; call 0; ret; fn @0; jmp 0", &[EMPTY], 0),
];

/// Calls that are not reached make no ring.
const NONE: [(&str, &[(u32, u32)]); 5] = [
    ("fn ret; call 0; ret", &[(0, 1), (0, 1)]),
    ("call 0; fn ret; call 0; ret", &[(0, 2), (0, 1)]),
    (
        "fn ret; call 1; ret; fn ret; call 0; ret",
        &[(0, 1), (0, 1), (0, 1)],
    ),
    (
        "call 0; fn call 1; ret; fn push 0; ret; call 0; ret",
        &[(1, 3), (1, 2), (1, 1)],
    ),
    (
        "fn call 1; ret; fn call 2; ret; fn ret; call 0; ret",
        &[(0, 1), (0, 3), (0, 2), (0, 1)],
    ),
];

const LABELLED_NONE: [Labelled; 4] = [
    ("fn jmp 0; call 0; @0; ret", &[EMPTY], &[(0, 1), (0, 1)]),
    (
        "jmp 0; call 0; @0; push 0; fn ret",
        &[EMPTY],
        &[(1, 1), (0, 1)],
    ),
    (
        "call 0; fn @0; jmp 0; call 0; jmp 0",
        &[EMPTY],
        &[(0, 2), (0, 1)],
    ),
    (
        "call 1; fn jmp 0; @1; call 1; jmp 1; @0; ret; fn push 0; call 0; ret",
        &[EMPTY, UNREACHED],
        &[(1, 3), (0, 1), (1, 2)],
    ),
];

/// 128 functions: all in one ring, or only the last.
fn long(edition: &str) -> Vec<StatedNeed> {
    let of = |entry: &str, last: u32| {
        let next = |n: u32| format!("function void (): call {}; ret;", n + 1);
        let rest: String = (0..127).map(next).collect();
        format!("{edition} entry: {entry} {rest} function void (): call {last}; ret")
    };
    let alone = format!(
        "{edition} entry: {} function void (): call 127; ret",
        "function void (): ret;".repeat(127)
    );
    vec![
        ring(&of("", 0), &[], 0),
        ring(&of("call 64;", 0), &[], ENTRY),
        ring(&of("", 126), &[], 0),
        ring(&of("", 127), &[], 0),
        ring(&of("call 127;", 127), &[], ENTRY),
        ring(&alone, &[], 127),
    ]
}

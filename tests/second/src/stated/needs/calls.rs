//! Bodies that call others: "at a call the callee's need counts from its first argument"; frames are
//! "the most live at once on such paths, itself counted".

use super::{needs, Labelled, StatedNeed, CONSTANTS, EMPTY};
use crate::stated::records::EDITIONS;

pub fn cases() -> Vec<StatedNeed> {
    let mut all = Vec::new();
    for edition in EDITIONS {
        let of =
            |code: &str| format!("{edition} {CONSTANTS} entry: {code}").replace("fn", "function");
        all.extend(CALLS.map(|(code, pairs)| needs(&of(code), &[], pairs)));
        all.extend(LABELLED.map(|(code, labels, pairs)| needs(&of(code), labels, pairs)));
        for functions in [1, 2, 62, 63, 64, 65, 127, 128] {
            all.push(chain(edition, functions, "", 0));
            all.push(chain(edition, functions, "push 0; push 2; store 0;", 2));
        }
    }
    for edition in ["", "edition 4;"] {
        let of =
            |code: &str| format!("{edition} {CONSTANTS} entry: {code}").replace("fn", "function");
        all.extend(POINTERS.map(|(code, pairs)| needs(&of(code), &[], pairs)));
        all.extend(many_slots(edition));
    }
    let of = |code: &str| {
        let start = "edition 4; structure int, long;";
        format!("{start} {CONSTANTS} entry: {code}").replace("fn", "function")
    };
    all.extend(BLOCKS.map(|(code, pairs)| needs(&of(code), &[], pairs)));
    all
}

/// Code without labels, and need and frames of each body.
const CALLS: [(&str, &[(u32, u32)]); 24] = [
    ("call 0; fn void (): ret", &[(0, 2), (0, 1)]),
    ("push 0; call 0; fn void (int): ret", &[(1, 2), (1, 1)]),
    ("call 0; fn int (): push 0; ret", &[(1, 2), (1, 1)]),
    ("push 0; push 0; call 0; fn int (int): load 0; ret", &[(3, 2), (2, 1)]),
    ("push 0; push 0; call 0; fn int (int, int): load 0; load 1; add; ret", &[(4, 2), (4, 1)]),
    ("push 0; push 0; push 0; call 0; fn int (int, int): load 0; load 1; add; ret", &[(5, 2), (4, 1)]),
    // the arguments are gone afterwards, the value is there
    ("push 0; push 0; call 0; push 0; fn void (int, int): ret", &[(2, 2), (2, 1)]),
    ("push 0; push 0; call 0; push 0; push 0; fn int (int, int): load 0; ret", &[(3, 2), (3, 1)]),
    ("call 0; call 0; call 0; fn int (): push 0; ret", &[(3, 2), (1, 1)]),
    // over buried slots and locals
    (
        "push 0; push 0; push 0; store 0; push 0; call 0; fn void (int): load 0; pop; ret",
        &[(5, 2), (2, 1)],
    ),
    (
        "push 0; push 0; store 0; call 0; push 0; push 0; store 1; call 0; fn void (): push 0; push 0; store 0; ret",
        &[(6, 2), (2, 1)],
    ),
    (
        "push 0; store 0; push 0; push 0; call 0; fn int (int): push 0; push 0; store 1; push 0; ret",
        &[(6, 2), (4, 1)],
    ),
    // the highest of several calls
    ("push 0; push 0; call 0; pop; pop; call 0; fn void (): push 0; ret", &[(3, 2), (1, 1)]),
    ("call 0; push 0; push 0; call 0; fn void (): push 0; ret", &[(3, 2), (1, 1)]),
    (
        "push 0; call 0; call 1; fn void (): push 0; ret; fn void (): push 0; push 0; push 0; ret",
        &[(4, 2), (1, 1), (3, 1)],
    ),
    // nobody calls a function: it has its need all the same
    (
        "fn void (): call 1; ret; fn void (): push 0; push 0; ret",
        &[(0, 1), (2, 2), (2, 1)],
    ),
    (
        "push 0; fn void (int, int): call 2; ret; fn int (): push 0; ret; fn void (): ret",
        &[(1, 1), (2, 2), (1, 1), (0, 1)],
    ),
    // the callee has the smaller number
    (
        "call 1; fn void (): push 0; ret; fn void (): push 0; call 0; ret",
        &[(2, 3), (1, 1), (2, 2)],
    ),
    (
        "call 3; fn void (): push 0; ret; fn void (): push 0; call 0; ret
         fn void (): push 0; call 1; ret; fn void (): push 0; call 2; ret",
        &[(4, 5), (1, 1), (2, 2), (3, 3), (4, 4)],
    ),
    // need and frames by different paths
    (
        "call 0; call 1; fn void (): push 0; push 0; push 0; push 0; push 0; ret; fn void (): call 2; ret; fn void (): ret",
        &[(5, 3), (5, 1), (0, 2), (0, 1)],
    ),
    (
        "call 1; call 0; fn void (): push 0; push 0; push 0; push 0; push 0; ret; fn void (): call 2; ret; fn void (): ret",
        &[(5, 3), (5, 1), (0, 2), (0, 1)],
    ),
    // one callee by two ways
    (
        "call 0; call 1; fn void (): call 2; ret; fn void (): push 0; push 0; call 2; ret; fn void (): push 0; ret",
        &[(3, 3), (1, 2), (3, 2), (1, 1)],
    ),
    // calls in dead code
    (
        "call 0; fn void (): ret; push 0; call 1; ret; fn void (): push 0; push 0; push 0; ret",
        &[(0, 2), (0, 1), (3, 1)],
    ),
    (
        "push 0; push 0; push 0; push 0; push 0; push 0; push 0; push 0; call 0
         fn int (int, int, int, int, int, int, int, int): load 7; ret",
        &[(9, 2), (9, 1)],
    ),
];

/// Code with labels, their records, and need and frames of each body.
const LABELLED: [Labelled; 9] = [
    // flow goes on past a call whose callee never returns
    ("call 0; push 0; fn int (): @0; jmp 0", &[EMPTY], &[(2, 2), (0, 1)]),
    ("call 0; call 0; call 0; fn int (): @0; jmp 0", &[EMPTY], &[(3, 2), (0, 1)]),
    (
        "push 0; call 0; push 0; push 0; fn void (int): @0; push 0; pop; jmp 0",
        &[Some((&[3], &[]))],
        &[(2, 2), (2, 1)],
    ),
    (
        "call 0; call 1; fn void (): @0; jmp 0; fn void (): call 2; ret; fn void (): push 0; ret",
        &[EMPTY],
        &[(1, 3), (0, 1), (1, 2), (1, 1)],
    ),
    // a call behind ways that buried different numbers of slots
    (
        "push 0; je 0; push 0; push 0; push 0; store 0; jmp 1; @0; push 0; store 0; @1; load 0; call 0
         fn void (int): load 0; pop; ret",
        &[EMPTY, Some((&[3], &[]))],
        &[(5, 2), (2, 1)],
    ),
    (
        "push 0; je 0; push 0; store 0; jmp 1; @0; push 0; push 0; push 0; store 0; @1; load 0; call 0
         fn void (int): load 0; pop; ret",
        &[EMPTY, Some((&[3], &[]))],
        &[(5, 2), (2, 1)],
    ),
    // a call on one way alone, whatever the branch's value
    (
        "push 1; je 0; call 0; @0; push 0; fn void (): push 0; push 0; push 0; ret",
        &[EMPTY],
        &[(3, 2), (3, 1)],
    ),
    (
        "push 0; jne 0; call 0; @0; push 0; fn void (): push 0; push 0; push 0; ret",
        &[EMPTY],
        &[(3, 2), (3, 1)],
    ),
    // a call in a loop
    (
        "push 0; push 0; store 0; @0; load 0; call 0; je 0; fn int (int): load 0; ret",
        &[Some((&[3], &[]))],
        &[(4, 2), (2, 1)],
    ),
];

/// Entry and functions each leave these slots and call the next; the last calls none.
fn chain(edition: &str, functions: u32, before: &str, slots: u32) -> StatedNeed {
    let body = |n: u32| match n < functions {
        true => format!("{before} call {n};"),
        false => before.to_string(),
    };
    let rest: String = (1..=functions)
        .map(|n| format!("function void (): {} ret;", body(n)))
        .collect();
    let text = format!("{edition} {CONSTANTS} entry: {} {rest}", body(0));
    let bodies = functions + 1;
    let pairs: Vec<(u32, u32)> = (0..bodies)
        .map(|n| (slots * (bodies - n), bodies - n))
        .collect();
    needs(&text, &[], &pairs)
}

/// Frames of 64 slots, and of 65: 64 of them are 4,096 and 4,160.
fn many_slots(edition: &str) -> Vec<StatedNeed> {
    let half = |n: u32| format!("push 0; {} store {n};", "copy;".repeat(31));
    let whole = format!("{} {}", half(0), half(1));
    let more = format!("{whole} push 0;");
    let mut all = Vec::new();
    for functions in [62, 63, 64, 128] {
        all.push(chain(edition, functions, &whole, 64));
        all.push(chain(edition, functions, &more, 65));
    }
    all
}

/// Editions 3 and 4.
const POINTERS: [(&str, &[(u32, u32)]); 2] = [
    (
        "push 0; store 0; lea 0; call 0; fn void (*int): load 0; tload; pop; ret",
        &[(3, 2), (2, 1)],
    ),
    (
        "push 0; push 0; store 0; lea 0; push 0; call 0; fn void (*int, int): load 0; load 1; tstore; ret",
        &[(6, 2), (4, 1)],
    ),
];

/// Edition 4.
const BLOCKS: [(&str, &[(u32, u32)]); 4] = [
    // profiles are not looked at
    (
        "call 0; fn void () profile 5: push 0; ret",
        &[(1, 2), (1, 1)],
    ),
    (
        "gcnew 10; call 0; fn gc*10 (gc*10): load 0; ret",
        &[(2, 2), (2, 1)],
    ),
    (
        "new 10; call 0; fn *10 (*10): load 0; flea 0; push 0; tstore; load 0; ret",
        &[(3, 2), (3, 1)],
    ),
    (
        "call 0; store 0; call 0; store 1; fn gc*int (): gcnull; gcnull; gcnew 3; ret",
        &[(4, 2), (3, 1)],
    ),
];

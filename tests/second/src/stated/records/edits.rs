//! Modules that are edited one body after the other: "This answer is the full check's, given room,
//! when the record came from one, or from an update this holds for, for a module with the same
//! edition, signatures, constant types, structures and other bodies, their labels the same by number
//! and place within."

use super::bodies::{refused, typed, untyped};
use super::{StatedBody, EDITIONS, GOOD};
use crate::reader::ENTRY;

pub fn cases() -> Vec<StatedBody> {
    let mut all = Vec::new();
    for edition in EDITIONS {
        all.extend(longer_and_shorter(edition));
        all.extend(own_labels(edition));
        all.extend(more_than_a_body(edition));
    }
    all.extend(profiles());
    all.extend(structures());
    all.extend(by_edition());
    all
}

/// A body in front becomes longer or shorter: others and their labels move as they are.
fn longer_and_shorter(edition: &str) -> Vec<StatedBody> {
    let of = |entry: &str, middle: &str| {
        format!(
            "{edition} int 7; entry: @0; {entry}; function int (int): @1; {middle}
            function int (int): @2; load 0; jne 3; load 0; ret; @3; push 0; ret"
        )
    };
    let longer = "push 0; pop; load 0; ret";
    let three = |bytes: &str| format!("03000000 08000000 {bytes}");
    let good = |entry, middle, body, before, after| {
        typed(&of(entry, middle), body, &three(before), &three(after))
    };
    let bad = |entry, middle, body, before, after, first| {
        untyped(
            &of(entry, middle),
            body,
            &three(before),
            &three(after),
            first,
        )
    };
    vec![
        good("push 0", "load 0; ret", 0, "01 0101", "01 0101"),
        good("push 0", longer, 0, "01 0101", "01 0101"),
        bad("push 0", "load 0", 0, "01 0101", "01 0001", 0),
        bad("push 0; push 0", "load 0", ENTRY, "01 0001", "01 0001", 0),
        bad("add", "load 0", ENTRY, "01 0001", "00 0001", ENTRY),
        bad("add", longer, 0, "00 0001", "00 0101", ENTRY),
        good("jmp 0", longer, ENTRY, "00 0101", "01 0101"),
        // the moved body, named itself
        good("jmp 0", longer, 1, "01 0101", "01 0101"),
        good("push 0; push 0", longer, 1, "01 0100", "01 0101"),
        // labels of other bodies
        bad("jmp 1", "load 0; ret", ENTRY, "01 0101", "00 0101", ENTRY),
        bad("push 0", "jmp 3", 0, "01 0101", "01 0001", 0),
    ]
}

/// Labels of the edited body may move, come and go.
fn own_labels(edition: &str) -> Vec<StatedBody> {
    let of = |middle: &str| {
        format!(
            "{edition} int 7; entry: @0; jmp 0; function int (int): {middle}
            function int (int): @1; load 0; je 1; push 0; ret"
        )
    };
    let ones = "03000000 08000000 01 0101";
    let bad = "03000000 08000000 01 0001";
    vec![
        typed(&of("load 0; ret"), 0, bad, ones),
        typed(&of("@2; load 0; je 2; load 0; ret"), 0, bad, ones),
        untyped(&of("load 0; @2; je 2; load 0; ret"), 0, ones, bad, 0),
        untyped(&of("load 0; je 2; load 0; ret"), 0, ones, bad, 0),
        untyped(&of("load 0; je 1; load 0; ret"), 0, ones, bad, 0),
        typed(&of("jmp 2; pop; @2; load 0; ret; @3; pop"), 0, ones, ones),
    ]
}

/// What else is changed is not looked at: the record is believed. A function more or less is 45.
fn more_than_a_body(edition: &str) -> Vec<StatedBody> {
    let ones = "03000000 08000000 01 0101";
    let caller = |returns: &str, constant: &str| {
        format!(
            "{edition} {constant}; entry: call 0; push 0; add
            function {returns} (): push 0; ret; {GOOD}"
        )
    };
    let int = caller("int", "int 7");
    let other = caller("int", "int 4294967295");
    let long = caller("long", "long 7");
    let mixed = caller("long", "int 7");
    let three = format!("{edition} entry: {GOOD} {GOOD} {GOOD}");
    let one = format!("{edition} entry: {GOOD}");
    vec![
        typed(&int, 0, ones, ones),
        typed(&other, 0, ones, ones),
        typed(&long, 0, ones, ones),
        // the entry has no typing any more, which only its own check sees
        untyped(&mixed, 0, ones, "03000000 08000000 01 0001", 0),
        typed(&mixed, 1, ones, ones),
        untyped(&mixed, ENTRY, ones, "03000000 08000000 00 0101", ENTRY),
        refused(&three, 0, ones, 45),
        refused(&three, 2, ones, 45),
        refused(&one, 0, ones, 45),
        refused(&one, 1, ones, 12),
    ]
}

/// "a record stays good when a profile changes"
fn profiles() -> Vec<StatedBody> {
    let of = |first: u32, second: u32| {
        format!(
            "edition 4; int 7; entry: call 0; pop; function int () profile {first}: push 0; ret
            function void () profile {second}: add; ret"
        )
    };
    let record = "03000000 08000000 01 0100";
    let mut all = Vec::new();
    for (first, second) in [(0, 0), (5, 0), (5, 6), (u32::MAX, 256), (1, u32::MAX)] {
        for body in [ENTRY, 0, 1] {
            all.push(untyped(&of(first, second), body, record, record, 1));
        }
    }
    all
}

/// Edition 4's own types.
fn structures() -> Vec<StatedBody> {
    let of = |fields: &str, code: &str| {
        format!(
            "edition 4; structure {fields}; int 7; entry: call 0; delete
            function *10 (): {code}; function gc*10 (gc*10): load 0; ret"
        )
    };
    let ones = "03000000 08000000 01 0101";
    let bad = "03000000 08000000 01 0001";
    vec![
        typed(&of("int, long", "new 10; ret"), 0, bad, ones),
        typed(
            &of("int, long", "new 10; copy; flea 1; inc; ret"),
            0,
            ones,
            ones,
        ),
        untyped(
            &of("int", "new 10; copy; flea 1; inc; ret"),
            0,
            ones,
            bad,
            0,
        ),
        untyped(&of("int", "null; ret"), 0, ones, bad, 0),
        untyped(&of("int", "gcnew 10; ret"), 0, ones, bad, 0),
        untyped(&of("int", "new 11; ret"), 1, bad, bad, 0),
        typed(
            &of("int", "new 10; ret"),
            1,
            "03000000 08000000 01 0100",
            ones,
        ),
    ]
}

/// The rules of the module's edition; the record does not hold it.
fn by_edition() -> Vec<StatedBody> {
    let pointers =
        "int 7; long 7; entry: push 0; store 0; push 1; store 1; lea 0; lea 1; cmp; function void (): ret";
    let top = "int 7; entry: push 0; inc; function int (int): load 0; dec; ret";
    let (ones, bad) = ("02000000 08000000 01 01", "02000000 08000000 00 01");
    vec![
        untyped(pointers, ENTRY, ones, bad, ENTRY),
        typed(&format!("edition 4; {pointers}"), ENTRY, bad, ones),
        typed(pointers, 0, ones, ones),
        typed(&format!("edition 1; {top}"), ENTRY, bad, ones),
        typed(&format!("edition 1; {top}"), 0, ones, ones),
        untyped(top, ENTRY, ones, bad, ENTRY),
        untyped(top, 0, ones, "02000000 08000000 01 00", 0),
    ]
}

//! Label records: shared places, unreached labels, starts of bodies, all types, all numbers.

use super::{accepted, untyped, untyped_entry, Stated, UNREACHED};
use std::fmt::Write;

pub fn cases() -> Vec<Stated> {
    let mut cases = shared();
    cases.extend(unreached());
    cases.extend(starts());
    cases.extend(full());
    cases
}

/// "two may share a place"
fn shared() -> Vec<Stated> {
    vec![
        accepted(
            "two labels on one place",
            "int 1; entry: push 0; @0; @1; pop",
            &[Some((&[], &[3])), Some((&[], &[3]))],
        ),
        accepted(
            "two labels on one place, a third between their numbers",
            "int 1; long 2; entry: push 0; @2; @0; push 1; @1; pop; pop",
            &[Some((&[], &[3])), Some((&[], &[3, 4])), Some((&[], &[3]))],
        ),
        accepted(
            "two labels on one place, a branch to the second",
            "int 0; entry: push 0; je 1; push 0; pop; @0; @1; push 0",
            &[Some((&[], &[])), Some((&[], &[]))],
        ),
        accepted(
            "two labels on one place, a jump back to each",
            "int 0; entry: push 0; store 0; @0; @1; load 0; je 1; load 0; jne 0; jmp 1",
            &[Some((&[3], &[])), Some((&[3], &[]))],
        ),
        untyped_entry(
            "two labels on one place, reached by each with other lists",
            "int 0; long 1; entry: push 0; je 0; push 1; jmp 1; @0; @1; push 0",
        ),
        accepted(
            "two labels on one place that is not reached",
            "entry: @0; jmp 0; @2; @1; pop",
            &[Some((&[], &[])), UNREACHED, UNREACHED],
        ),
    ]
}

/// "all zero if not reached"
fn unreached() -> Vec<Stated> {
    vec![
        accepted(
            "a label after an endless loop",
            "entry: @0; jmp 0; @1; ret",
            &[Some((&[], &[])), UNREACHED],
        ),
        accepted(
            "a label that is jumped over",
            "int 1; entry: jmp 1; @0; add; @1; push 0; @2; pop",
            &[UNREACHED, Some((&[], &[])), Some((&[], &[3]))],
        ),
        accepted(
            "a loop that nothing leads to",
            "int 1; entry: jmp 1; @0; push 0; jmp 0; @1; push 0",
            &[UNREACHED, Some((&[], &[]))],
        ),
        accepted(
            "a label after ret",
            "entry: function void (int): ret; @0; ret",
            &[UNREACHED],
        ),
        accepted(
            "only unreached labels, numbered against their order",
            "entry: function void (): ret; @2; ret; @1; ret; @0; ret",
            &[UNREACHED, UNREACHED, UNREACHED],
        ),
    ]
}

/// "The start has the parameters and no operands."
fn starts() -> Vec<Stated> {
    vec![
        accepted(
            "the entry's start",
            "int 1; entry: @0; push 0",
            &[Some((&[], &[]))],
        ),
        accepted(
            "a function's start",
            "entry: function void (int, *long, double): @0; ret",
            &[Some((&[3, 0x84, 6], &[]))],
        ),
        accepted(
            "two labels on a function's start",
            "entry: function void (*double): @1; @0; ret",
            &[Some((&[0x86], &[])), Some((&[0x86], &[]))],
        ),
        accepted(
            "a function's start, jumped back to",
            "int 1; entry: function int (long): @0; push 0; jne 0; push 0; ret",
            &[Some((&[4], &[]))],
        ),
        untyped(
            "a function's start, jumped back to with an operand",
            "int 1; entry: function int (long): @0; push 0; jmp 0",
            0,
        ),
        untyped(
            "a function's start, jumped back to with a local more",
            "int 1; entry: function int (long): @0; push 0; store 1; jmp 0",
            0,
        ),
        untyped_entry(
            "the entry's start, jumped back to with a local",
            "int 1; entry: @0; push 0; store 0; jmp 0",
        ),
        accepted(
            "labels of three bodies, numbers mixed",
            "int 1
             entry: @1; push 0; @3; pop
             function void (double): @2; ret
             function void (): @0; ret",
            &[
                Some((&[], &[])),
                Some((&[], &[])),
                Some((&[6], &[])),
                Some((&[], &[3])),
            ],
        ),
    ]
}

fn full() -> Vec<Stated> {
    let mut full = String::from("int 1; entry:");
    for n in 0..16 {
        write!(full, " push 0; store {n};").expect("a string");
    }
    full += &" push 0;".repeat(32);
    full += " @0; pop";
    let mut many = String::from("int 1; entry:");
    for n in 0..256 {
        // 0, 3, 6, ... 255, 2, 5, ...: each number once
        write!(many, " @{}; push 0; store 0;", 3 * n % 256).expect("a string");
    }
    let mut records = vec![Some((&[3][..], &[][..])); 256];
    records[0] = Some((&[], &[]));
    vec![
        accepted(
            "each of the six types",
            "int 1; long 1; double 1.0
             entry: push 0; store 0; push 1; store 1; push 2; store 2; lea 0; store 3
             lea 2; lea 1; load 3; push 0; push 1; push 2; @0; pop",
            &[Some((&[3, 4, 6, 0x83], &[0x86, 0x84, 0x83, 3, 4, 6]))],
        ),
        accepted(
            "16 locals and 32 operands",
            &full,
            &[Some((&[3; 16], &[3; 32]))],
        ),
        accepted("256 labels", &many, &records),
    ]
}

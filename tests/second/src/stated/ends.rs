//! Ends of bodies, empty entries, the limit of 32 operands, dead code.

use super::{accepted, accepted_with, refused, untyped, untyped_entry, Stated, UNREACHED};
use crate::asm;
use crate::reader::ENTRY;

pub fn cases() -> Vec<Stated> {
    let mut cases = empty_entries();
    cases.extend(operands());
    cases.extend(function_ends());
    cases.extend(dead_code());
    cases
}

fn empty_entries() -> Vec<Stated> {
    let mut label_of_entry = asm::file("entry: function void (): @0; ret");
    label_of_entry[68..72].copy_from_slice(&ENTRY.to_le_bytes());
    vec![
        accepted("48 bytes", "entry:", &[]),
        accepted_with("48 bytes and no room", "entry:", 0, &[]),
        accepted("an empty entry", "entry: function void (): ret", &[]),
        accepted(
            "an empty entry, function 0's label at place 0",
            "entry: function int (int): @0; load 0; ret",
            &[Some((&[3], &[]))],
        ),
        refused(
            "an empty entry, its own label at place 0",
            label_of_entry,
            64,
            9,
        ),
        untyped(
            "an empty entry, function 0 without typing",
            "entry: function void (): @0; pop; ret",
            0,
        ),
    ]
}

/// "at most 16 and 32", at the entry's end too
fn operands() -> Vec<Stated> {
    let pushes = |n: usize| format!("int 1; entry: {}", "push 0; ".repeat(n));
    let function = |n: usize| {
        format!(
            "int 1; entry: function int (int): {} @0; ret",
            "push 0; ".repeat(n)
        )
    };
    vec![
        accepted(
            "32 operands at the entry's end",
            &format!("{} @0; push 0", pushes(31)),
            &[Some((&[], &[3; 31]))],
        ),
        untyped_entry(
            "33 operands at the entry's end",
            &format!("{} @0; push 0", pushes(32)),
        ),
        untyped_entry(
            "33 operands, one taken away again",
            &format!("{} @0; pop", pushes(33)),
        ),
        accepted(
            "32 operands in a function",
            &function(32),
            &[Some((&[3], &[3; 32]))],
        ),
        untyped("33 operands in a function", &function(33), 0),
        untyped_entry(
            "the 33rd operand by a call",
            &format!("{} call 0; function int (): @0; push 0; ret", pushes(32)),
        ),
        accepted(
            "32 operands, one exchanged by a call",
            &format!(
                "{} call 0; @1; call 0; function int (int): @0; load 0; ret",
                pushes(32)
            ),
            &[Some((&[3], &[])), Some((&[], &[3; 32]))],
        ),
        accepted(
            "32 operands, bound and forgotten at the entry's end",
            &format!("{} @0; store 0", pushes(32)),
            &[Some((&[], &[3; 32]))],
        ),
    ]
}

/// "A function's end is not given."
fn function_ends() -> Vec<Stated> {
    vec![
        untyped(
            "a function that runs into its end",
            "int 1; entry: function void (): @0; push 0; pop",
            0,
        ),
        untyped(
            "a function that branches before its end",
            "int 1; entry: function void (): @0; push 0; je 0",
            0,
        ),
        untyped(
            "a function that calls before its end",
            "entry: function void (): @0; call 0",
            0,
        ),
        untyped(
            "a function that runs into the next, which has a label there",
            "int 1; entry: function void (): push 0; pop; function void (): @0; ret",
            0,
        ),
        accepted(
            "a function that never ends",
            "entry: function int (): @0; jmp 0",
            &[Some((&[], &[]))],
        ),
        accepted(
            "the entry's end where function 0 starts with a label and other lists",
            "int 1; entry: push 0; function void (long): @0; ret",
            &[Some((&[4], &[]))],
        ),
        accepted(
            "a branch as the entry's last instruction",
            "int 1; entry: @0; push 0; je 0",
            &[Some((&[], &[]))],
        ),
        untyped_entry("ret in the entry", "int 1; entry: @0; push 0; ret"),
    ]
}

/// "Nothing is asked of places not given."
fn dead_code() -> Vec<Stated> {
    vec![
        accepted(
            "anything in dead code",
            "int 1
             entry:
             jmp 0; ret; pop; push 99; call 7; store 9; jmp 55; je 1; lea 3; tload
             @3; swap
             @0; call 0
             function int (): push 0; @1; ret; @2; add; tload; jmp 0; call 0; push 0",
            &[Some((&[], &[])), Some((&[], &[3])), UNREACHED, UNREACHED],
        ),
        accepted(
            "dead code that runs into a label with other lists",
            "int 1; long 2; entry: jmp 0; push 1; push 1; @0; push 0",
            &[Some((&[], &[]))],
        ),
        accepted(
            "dead code that jumps to a label with other lists",
            "int 1; long 2; entry: @0; push 0; jne 0; jmp 1; push 1; jmp 0; @1; push 0",
            &[Some((&[], &[])), Some((&[], &[]))],
        ),
        accepted(
            "dead code after ret, up to the function's end",
            "entry: function void (): ret; pop; neg",
            &[],
        ),
    ]
}

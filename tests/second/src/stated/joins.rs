//! Places with two ways to them: equal lists, other lists, forward and backward.

use super::{accepted, untyped_entry, Stated};

/// Two ways that meet at label 1, the second by way of label 0.
fn two_ways(first: &str, second: &str) -> String {
    format!(
        "int 0; long 5
         entry: push 0; je 0
         {first}; jmp 1
         @0; {second}
         @1; push 0"
    )
}

pub fn cases() -> Vec<Stated> {
    let mut cases = forward();
    cases.extend(backward());
    cases
}

fn forward() -> Vec<Stated> {
    let start = Some((&[][..], &[][..]));
    let equal = |name, way, met| accepted(name, &two_ways(way, way), &[start, met]);
    let other = |name, first, second| untyped_entry(name, &two_ways(first, second));
    vec![
        equal("equal operands", "push 1", Some((&[], &[4]))),
        equal("equal locals", "push 1; store 0", Some((&[4], &[]))),
        equal(
            "equal locals and operands",
            "push 1; store 0; lea 0; push 1; push 0",
            Some((&[4], &[0x84, 4, 3])),
        ),
        other("another operand type", "push 1", "push 0"),
        other("one operand more", "push 1", "push 1; push 1"),
        other("no operand", "push 1", "push 1; pop"),
        other("another order", "push 1; push 0", "push 0; push 1"),
        other(
            "another deepest type",
            "push 1; push 0; push 0",
            "push 0; push 0; push 0",
        ),
        other("another local type", "push 1; store 0", "push 0; store 0"),
        other(
            "one local more",
            "push 1; store 0",
            "push 1; store 0; push 1; store 1",
        ),
        other("an operand for a local", "push 1; store 0", "push 1"),
        other(
            "another kind of pointer",
            "push 0; store 0; push 1; store 1; lea 0",
            "push 0; store 0; push 1; store 1; lea 1",
        ),
        accepted(
            "other things buried",
            &two_ways("push 1; push 0; store 0", "push 0; push 0; push 0; store 0"),
            &[start, Some((&[3], &[]))],
        ),
        accepted(
            "one label from six branches and from the place before it",
            "int 0
             entry: push 0; je 0; push 0; jne 0; push 0; ja 0
             push 0; jae 0; push 0; jb 0; push 0; jbe 0
             @0; push 0",
            &[start],
        ),
        accepted(
            "a branch to the next instruction",
            "int 0; entry: push 0; je 0; @0; push 0",
            &[start],
        ),
        untyped_entry(
            "both ways of a branch on a constant",
            "int 0; entry: push 0; je 0; push 0; @0; push 0",
        ),
    ]
}

fn backward() -> Vec<Stated> {
    let start = Some((&[][..], &[][..]));
    let int = Some((&[][..], &[3][..]));
    vec![
        accepted(
            "a counting loop",
            "int 3; int 1; entry: push 0; store 0; @0; load 0; push 1; sub; store 0; load 0; jne 0",
            &[Some((&[3], &[]))],
        ),
        untyped_entry(
            "a loop with one operand more each time",
            "int 1; entry: @0; push 0; jmp 0",
        ),
        untyped_entry(
            "a loop with one operand less each time",
            "int 1; entry: push 0; push 0; push 0; @0; pop; push 0; je 0; push 0",
        ),
        accepted(
            "a loop that keeps a pointer",
            "int 1; long 1; entry: push 0; store 0; push 1; store 1; lea 0; @0; pop; lea 0; jmp 0",
            &[Some((&[3, 4], &[0x83]))],
        ),
        untyped_entry(
            "a loop that exchanges a pointer for another kind",
            "int 1; long 1; entry: push 0; store 0; push 1; store 1; lea 0; @0; pop; lea 1; jmp 0",
        ),
        accepted(
            "a chain of jumps back",
            "int 1
             entry: push 0; jmp 2
             @0; pop; jmp 3
             @1; neg; jmp 0
             @2; copy; pop; jmp 1
             @3; push 0",
            &[int, int, int, start],
        ),
        untyped_entry(
            "a chain of jumps back that ends wrong",
            "int 1
             entry: push 0; jmp 2
             @0; pop; pop; jmp 3
             @1; neg; jmp 0
             @2; copy; pop; jmp 1
             @3; push 0",
        ),
        untyped_entry(
            "a difference at the last of three ways",
            "int 0; long 1; entry: push 0; je 0; push 0; je 1; jmp 2
             @0; push 0; pop; jmp 2; @1; push 1; @2; push 0",
        ),
    ]
}

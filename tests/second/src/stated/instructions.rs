//! Every instruction by types: what it leaves, and what it refuses.

use super::{accepted, untyped_entry, Stated};

const LOCALS: [u8; 4] = [3, 4, 6, 0x84];

/// Code after locals of four types are bound; label 0 follows it, label 1 is function 0's.
fn text(code: &str) -> String {
    format!(
        "int 0; long 0; double 0.0
         entry: push 0; store 0; push 1; store 1; push 2; store 2; lea 1; store 3
         {code}; @0; push 0
         function void (): @1; ret"
    )
}

/// The operand types that code leaves.
const LEAVES: [(&str, &[u8]); 47] = [
    ("push 0", &[3]),
    ("push 1", &[4]),
    ("push 2", &[6]),
    ("push 0; push 1; pop", &[3]),
    ("load 2", &[6]),
    ("load 3", &[0x84]),
    ("push 0; store 0", &[]),
    ("lea 1; store 3", &[]),
    ("push 1; push 0; store 0", &[4]),
    ("lea 0", &[0x83]),
    ("lea 1", &[0x84]),
    ("lea 2", &[0x86]),
    ("lea 0; tload", &[3]),
    ("load 3; tload", &[4]),
    ("lea 2; tload", &[6]),
    ("load 3; push 1; tstore", &[]),
    ("lea 2; push 2; tstore", &[]),
    ("lea 0; inc", &[]),
    ("lea 2; dec", &[]),
    ("load 3; copy", &[0x84, 0x84]),
    ("lea 1; load 3; swap", &[0x84, 0x84]),
    ("push 0; push 0; add", &[3]),
    ("push 1; push 1; sub", &[4]),
    ("push 2; push 2; mul", &[6]),
    ("push 2; push 2; imul", &[6]),
    ("push 2; push 2; div", &[6]),
    ("push 0; push 0; idiv", &[3]),
    ("push 0; push 0; mod", &[3]),
    ("push 1; push 1; imod", &[4]),
    ("push 2; neg", &[6]),
    ("push 0; push 0; and", &[3]),
    ("push 1; push 1; or", &[4]),
    ("push 0; push 0; xor", &[3]),
    ("push 1; not", &[4]),
    ("push 1; push 1; shl", &[4]),
    ("push 0; push 0; sal", &[3]),
    ("push 1; push 1; shr", &[4]),
    ("push 0; push 0; sar", &[3]),
    ("push 2; push 2; cmp", &[3]),
    ("push 2; push 2; icmp", &[3]),
    ("lea 1; load 3; icmp", &[3]),
    ("push 2; toi", &[3]),
    ("push 2; tol", &[4]),
    ("push 0; tol", &[4]),
    ("push 1; tod", &[6]),
    ("push 0; toi; push 1; tol; push 2; tod", &[3, 4, 6]),
    ("push 1; push 0; jae 0", &[4]),
];

/// Code without typing.
const REFUSED: [&str; 56] = [
    "push 3",
    "push 4294967295",
    "pop",
    "load 4",
    "load 16",
    "store 0",
    "push 1; store 0",
    "lea 0; store 3",
    "push 0; store 5",
    "push 0; store 4294967295",
    "store 4",
    "lea 3",
    "lea 4",
    "tload",
    "push 0; tload",
    "push 1; tstore",
    "lea 0; push 1; tstore",
    "push 1; push 1; tstore",
    "load 3; load 3; tstore",
    "push 1; lea 1; tstore",
    "inc",
    "push 0; inc",
    "dec",
    "push 2; dec",
    "copy",
    "push 0; swap",
    "push 0; push 1; swap",
    "lea 0; lea 1; swap",
    "push 0; add",
    "push 0; push 1; add",
    "lea 0; lea 0; sub",
    "push 1; load 3; mul",
    "load 3; push 1; imul",
    "push 2; push 0; div",
    "push 2; push 2; mod",
    "push 2; push 2; imod",
    "push 2; push 2; and",
    "push 2; push 2; or",
    "push 2; push 2; xor",
    "push 2; push 2; shl",
    "push 2; push 2; sal",
    "push 2; push 2; shr",
    "push 2; push 2; sar",
    "push 1; push 0; shl",
    "neg",
    "lea 0; neg",
    "push 2; not",
    "lea 0; not",
    "push 0; cmp",
    "lea 0; lea 1; cmp",
    "load 3; push 1; icmp",
    "lea 0; toi",
    "load 3; tol",
    "lea 2; tod",
    "je 0",
    "push 1; jbe 0",
];

/// Branches and calls out of range, or to another body's label.
const ASTRAY: [&str; 7] = [
    "jmp 2",
    "jmp 1",
    "push 0; je 1",
    "push 0; ja 4294967295",
    "call 1",
    "call 4294967295",
    "ret",
];

pub fn cases() -> Vec<Stated> {
    let function = Some((&[][..], &[][..]));
    let leaves = LEAVES
        .iter()
        .map(|&(code, left)| accepted(code, &text(code), &[Some((&LOCALS, left)), function]));
    let refused = REFUSED.iter().chain(&ASTRAY);
    let mut cases: Vec<Stated> = leaves.collect();
    cases.extend(refused.map(|code| untyped_entry(code, &text(code))));
    cases.push(accepted(
        "a binding store forgets the operands",
        &text("push 0; push 1; push 2; store 4"),
        &[Some((&[3, 4, 6, 0x84, 6], &[])), function],
    ));
    cases.push(sixteen("store 15", true));
    cases.push(sixteen("store 15; push 0; store 16", false));
    cases.extend(out_of_range());
    cases
}

/// "The typing rule ... gain[s] this": what a run would raise 44 for has its typing, in edition 1
/// too, where it raises nothing.
fn out_of_range() -> Vec<Stated> {
    let mut cases = Vec::new();
    for edition in ["edition 1;", "", "edition 4;"] {
        for double in ["4294967296.0", "-1e300", "#7FF8000000000000"] {
            for (op, ty) in [("toi", 3), ("tol", 4)] {
                let text = format!("{edition} double {double}; entry: push 0; {op}; @0; neg");
                cases.push(accepted(&text, &text, &[Some((&[], &[ty]))]));
            }
        }
    }
    cases
}

/// Fifteen locals, an operand, then this code.
fn sixteen(code: &str, typed: bool) -> Stated {
    let bound: String = (4..15).map(|n| format!("push 0; store {n};")).collect();
    let text = text(&format!("{bound} push 0; {code}"));
    if !typed {
        return untyped_entry(code, &text);
    }
    let mut locals = LOCALS.to_vec();
    locals.resize(16, 3);
    accepted(code, &text, &[Some((&locals, &[])), Some((&[], &[]))])
}

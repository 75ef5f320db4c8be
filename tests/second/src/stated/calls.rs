//! A call's arguments and result, `ret`.

use super::{accepted, untyped, untyped_entry, Stated};

/// One number of each type, and locals of each type.
const LOCALS: &str = "int 1; long 2; double 3.0
    entry: push 0; store 0; push 1; store 1; push 2; store 2;";

pub fn cases() -> Vec<Stated> {
    let mut cases = arguments();
    cases.extend(pointers());
    cases.extend(returns());
    cases
}

/// "Parameter 0 is the deepest argument"; "the return type in place of its arguments"
fn arguments() -> Vec<Stated> {
    let function = "function double (int, long): load 0; tod; ret";
    let call = |code: &str| format!("int 1; long 2; entry: {code}; {function}");
    vec![
        accepted(
            "two arguments",
            &call("push 0; push 1; call 0; @0; pop"),
            &[Some((&[], &[6]))],
        ),
        untyped_entry(
            "two arguments in reverse",
            &call("push 1; push 0; call 0; @0; pop"),
        ),
        untyped_entry("an argument missing", &call("push 1; call 0; @0; pop")),
        untyped_entry("no arguments", &call("call 0; @0; pop")),
        accepted(
            "operands under the arguments stay",
            &call("push 1; push 1; push 0; push 1; call 0; @0; pop"),
            &[Some((&[], &[4, 4, 6]))],
        ),
        untyped_entry(
            "a local is no argument",
            "int 1; entry: push 0; store 0; call 0; function void (int): ret",
        ),
        accepted(
            "no result",
            "int 1; entry: push 0; push 0; call 0; @0; pop; function void (int): ret",
            &[Some((&[], &[3]))],
        ),
        untyped_entry(
            "no result, taken",
            "int 1; entry: push 0; call 0; pop; function void (int): ret",
        ),
        untyped_entry("no such function", &call("push 0; push 1; call 1")),
        accepted(
            "a function that calls itself",
            "entry: function int (int): load 0; call 0; @0; ret",
            &[Some((&[3], &[3]))],
        ),
    ]
}

/// "same type" meaning the same of six, "for call arguments too"
fn pointers() -> Vec<Stated> {
    let eight = "function long (int, long, double, *int, *long, *double, int, long):";
    let call = |code: &str, function: &str| format!("{LOCALS} {code}; {function} ret");
    let pointer = "function void (*long):";
    vec![
        accepted(
            "a pointer argument",
            &call("lea 1; call 0; @0; push 0", pointer),
            &[Some((&[3, 4, 6], &[]))],
        ),
        untyped_entry(
            "a pointer to another type",
            &call("lea 0; call 0; @0; push 0", pointer),
        ),
        untyped_entry(
            "a number for a pointer",
            &call("push 1; call 0; @0; push 0", pointer),
        ),
        untyped_entry(
            "a pointer for a number",
            &call("lea 1; call 0; @0; push 0", "function void (long):"),
        ),
        accepted(
            "eight arguments",
            &format!(
                "{LOCALS} push 0; push 1; push 2; lea 0; lea 1; lea 2; push 0; push 1; call 0
                 @0; pop; {eight} @1; load 7; ret"
            ),
            &[
                Some((&[3, 4, 6], &[4])),
                Some((&[3, 4, 6, 0x83, 0x84, 0x86, 3, 4], &[])),
            ],
        ),
        untyped_entry(
            "eight arguments, the deepest wrong",
            &format!(
                "{LOCALS} push 1; push 1; push 2; lea 0; lea 1; lea 2; push 0; push 1; call 0
                 @0; pop; {eight} load 7; ret"
            ),
        ),
        untyped_entry(
            "eight arguments, the topmost wrong",
            &format!(
                "{LOCALS} push 0; push 1; push 2; lea 0; lea 1; lea 2; push 0; push 0; call 0
                 @0; pop; {eight} load 7; ret"
            ),
        ),
    ]
}

/// "it needs a top operand of the return type (none for 0)"
fn returns() -> Vec<Stated> {
    let function = |code: &str| format!("int 1; long 2; entry: function long (long): {code}");
    vec![
        accepted(
            "ret with its value on top of others",
            &function("push 0; push 0; push 1; @0; ret"),
            &[Some((&[4], &[3, 3, 4]))],
        ),
        untyped("ret without a value", &function("@0; ret"), 0),
        untyped(
            "ret with a value of another type",
            &function("@0; push 0; ret"),
            0,
        ),
        untyped(
            "ret with its value under another",
            &function("@0; push 1; push 0; ret"),
            0,
        ),
        untyped(
            "ret with a bound local for its value",
            &function("@0; push 1; store 1; ret"),
            0,
        ),
        accepted(
            "ret of nothing with operands left",
            "int 1; entry: function void (): push 0; @0; ret",
            &[Some((&[], &[3]))],
        ),
    ]
}

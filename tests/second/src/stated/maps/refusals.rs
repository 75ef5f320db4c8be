//! What is refused before any row: "1 to 9 (the reader's), 12 (no such function), 13, 17 (profile
//! differs)". "Nothing is changed then but `*rows`, which is 0."

use super::{rows, unrun, StatedMap, EDITIONS, UPPER};
use crate::asm;
use crate::reader::ENTRY;

pub fn cases() -> Vec<StatedMap> {
    let mut all = Vec::new();
    for edition in EDITIONS {
        all.extend(unreadable(edition));
        all.extend(missing(edition));
        all.extend(lengths(edition));
        all.extend(no_result(edition));
        all.extend(untyped(edition));
    }
    all.extend(pointers());
    all.extend(profiles());
    all.extend(order());
    all
}

/// A function of two ints, one without a result, one without parameters and with a label.
fn three(edition: &str) -> String {
    format!(
        "{edition} int 7; entry: function int (int, int): load 0; load 1; add; ret
        function void (int): ret
        function int (): @0; push 0; ret"
    )
}

/// The reader's numbers come first, whatever else is wrong.
fn unreadable(edition: &str) -> Vec<StatedMap> {
    let text = three(edition);
    let file = asm::file(&text);
    let calls = [
        unrun(&text, &[1, 2, 3, 4], 2, 0),
        unrun(&text, &[], 0, 0),
        unrun(&text, &[1, 2, 3, 4], 2, 0).lengths(5, 3),
        unrun(&text, &[], 0, 0).of(9),
        unrun(&text, &[], 0, 0).of(ENTRY),
        unrun(&text, &[UPPER, 2], 1, 0).slots(0),
    ];
    // the constant, then three functions, the label's place, the code
    let (header, function) = if edition.ends_with("4;") {
        (56, 24)
    } else {
        (48, 20)
    };
    let label = header + 12 + 3 * function;
    let changes = [
        (2, 0, 2),
        (2, 1, 1),
        (3, 4, 0),
        (4, 44, 1),
        (5, 40, 0xF0),
        (6, header, 5),
        (7, header + 12 + 9, 0x83),
        (8, file.len() - 1, 0xFF),
        (9, label + 4, 1),
    ];
    let mut all = Vec::new();
    for call in calls {
        for (number, at, byte) in changes {
            let mut changed = call.clone();
            changed.file[at] = byte;
            changed.answer = number;
            all.push(changed.named(&format!("byte {at} is {byte}")));
        }
        for length in [0, 1, 47, file.len() - 1] {
            let mut changed = call.clone();
            changed.file.truncate(length);
            changed.answer = if length < 48 { 1 } else { 3 };
            all.push(changed.named(&format!("{length} bytes")));
        }
    }
    all
}

/// 12, before 13.
fn missing(edition: &str) -> Vec<StatedMap> {
    let text = three(edition);
    let mut all = Vec::new();
    for function in [3, 4, 128, 0x8000_0000, ENTRY - 1] {
        all.push(unrun(&text, &[], 0, 12).of(function));
        all.push(unrun(&text, &[], 2, 12).of(function));
        all.push(unrun(&text, &[1, 2], 1, 12).of(function));
        all.push(unrun(&text, &[1, 2], 1, 12).of(function).lengths(15, 9));
        all.push(unrun(&text, &[], 2, 12).of(function).for_profile(5));
    }
    let empty = format!("{edition} entry:");
    all.push(unrun(&empty, &[], 1, 12));
    all
}

/// "`out_len` is no multiple of 8; `arg_payloads_len` is not parameter count times `out_len`"
fn lengths(edition: &str) -> Vec<StatedMap> {
    let text = three(edition);
    let mut all = Vec::new();
    let two = || unrun(&text, &[1, 2, 3, 4], 2, 13);
    for out in [1, 7, 9, 15, 17, 23] {
        all.push(two().lengths(32, out));
        all.push(two().lengths(2 * out, out));
        // of whole rows alone
        all.push(two().lengths(16 * (out / 8), out));
        all.push(two().of(2).lengths(0, out));
    }
    for args in [0, 1, 8, 15, 16, 24, 31, 33, 39, 40, 48, 64] {
        all.push(two().lengths(args, 16));
    }
    for out in [0, 8, 24, 32] {
        all.push(two().lengths(32, out));
    }
    // "then `arg_payloads` must be empty"
    for args in [1, 7, 8, 16] {
        all.push(two().of(2).lengths(args, 16));
        all.push(two().of(2).lengths(args, 0));
        all.push(two().lengths(args, 0));
    }
    // and slots too few for a row
    all.push(two().lengths(31, 16).slots(0));
    all
}

/// "the function has no result (return type byte 0; the entry, FFFFFFFF, has none, so it is 13
/// always)"
fn no_result(edition: &str) -> Vec<StatedMap> {
    let text = three(edition);
    let mut all = Vec::new();
    for (args, count) in [(&[][..], 0), (&[5], 1), (&[5, 6], 2), (&[UPPER], 1)] {
        all.push(unrun(&text, args, count, 13).of(1));
        all.push(unrun(&text, args, count, 13).of(1).slots(0));
        all.push(unrun(&text, args, count, 13).of(ENTRY));
        all.push(unrun(&text, &[], count, 13).of(ENTRY));
    }
    all.push(unrun(&format!("{edition} entry:"), &[], 0, 13).of(ENTRY));
    all.push(unrun(&format!("{edition} int 7; entry: push 0"), &[], 1, 13).of(ENTRY));
    all
}

/// "The module need not be checked."
fn untyped(edition: &str) -> Vec<StatedMap> {
    let text = format!(
        "{edition} int 7; entry: pop; function int (int): load 0; je 0; pop; @0; push 0; ret"
    );
    let end = format!("{edition} int 7; entry: function int (int): push 0");
    vec![
        rows(&text, &[0, 0, 1], 3, 21, &[7, 7], &[(3, 1)]),
        rows(&end, &[4, 5], 2, 29, &[], &[(3, 4), (3, 7)]),
    ]
}

/// "some parameter is a pointer (any pointer type)"
fn pointers() -> Vec<StatedMap> {
    let mut all = Vec::new();
    for (edition, types) in [
        ("", &["*int", "*long", "*double"][..]),
        (
            "edition 4; structure int; structure double;",
            &[
                "*int",
                "*long",
                "*double",
                "*10",
                "*11",
                "gc*int",
                "gc*long",
                "gc*double",
                "gc*10",
                "gc*11",
            ],
        ),
    ] {
        for ty in types {
            let one = format!("{edition} int 7; entry: function int ({ty}): push 0; ret");
            all.push(unrun(&one, &[], 0, 13));
            all.push(unrun(&one, &[0], 1, 13));
            all.push(unrun(&one, &[0, 1], 2, 13).slots(0));
            let last = format!("{edition} int 7; entry: function int (int, {ty}): push 0; ret");
            all.push(unrun(&last, &[0, 0], 1, 13));
            all.push(unrun(&last, &[], 0, 13));
        }
    }
    let returned = "edition 4; structure int; entry: function *10 (*10): load 0; ret";
    all.push(unrun(returned, &[u64::MAX], 1, 13));
    let managed = "edition 4; structure int; entry: function gc*10 (gc*10): load 0; ret";
    all.push(unrun(managed, &[u64::MAX], 1, 13));
    all
}

/// Function 0 for profile 5, function 1 for any, function 2 without a result for 5, function 3 of a
/// pointer for 5.
const PROFILED: &str = "edition 4; int 7; entry:
    function int (int) profile 5: load 0; ret
    function int (): call 4; ret
    function void () profile 5: ret
    function int (*int) profile 5: push 0; ret
    function int () profile 6: push 0; ret";

/// 17, after 13 and before any row, also where there is none.
fn profiles() -> Vec<StatedMap> {
    let mut all = vec![
        rows(PROFILED, &[3, 4], 2, 0, &[3, 4], &[(3, 4)]).for_profile(5),
        unrun(PROFILED, &[], 0, 0).for_profile(5),
    ];
    for profile in [0, 1, 4, 6, 261, 0x8000_0005, u32::MAX] {
        let other = |args: &[u64], count| unrun(PROFILED, args, count, 17).for_profile(profile);
        all.push(other(&[3, 4], 2));
        all.push(other(&[], 0));
        // before what a row's run would say
        all.push(other(&[UPPER, 4], 2));
        all.push(other(&[3, 4], 2).slots(0));
        all.push(other(&[3, 4], 2).allowed(0));
    }
    // 0 is for any, and functions that are called are not looked at
    for profile in [0, 5, u32::MAX] {
        let any = rows(PROFILED, &[], 2, 0, &[7, 7], &[(3, 7)]);
        all.push(any.of(1).for_profile(profile));
    }
    // editions 1 and 3 have no profiles
    for edition in ["edition 1;", ""] {
        let text = format!("{edition} entry: function int (int): load 0; ret");
        all.push(rows(&text, &[3, 4], 2, 0, &[3, 4], &[(3, 4)]).for_profile(5));
    }
    all
}

/// 12, then 13, then 17.
fn order() -> Vec<StatedMap> {
    let mut all = Vec::new();
    for profile in [0, 5, 6] {
        let of =
            |args: &[u64], count, number| unrun(PROFILED, args, count, number).for_profile(profile);
        all.push(of(&[], 1, 12).of(5));
        all.push(of(&[], 1, 13));
        all.push(of(&[1, 2], 1, 13));
        all.push(of(&[1], 1, 13).lengths(8, 7));
        all.push(of(&[], 1, 13).of(2));
        all.push(of(&[], 0, 13).of(2));
        all.push(of(&[0], 1, 13).of(3));
        all.push(of(&[], 0, 13).of(3));
        all.push(of(&[], 0, 13).of(ENTRY));
    }
    all
}

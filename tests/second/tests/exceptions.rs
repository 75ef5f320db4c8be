//! Exceptions 20 to 35, 44, and 15: steps, and the stack as before the instruction.

mod common;
use common::*;
use second::asm;
use second::reader::ENTRY;

/// A number local, a pointer local, constants of each type.
const START: &str = "int 0; long 1; double 1.0; int 1; entry: push 0; store 0; lea 0; store 1;";

/// The outcome of a few instructions after the start.
fn after(code: &str) -> u32 {
    let (outcome, _, _) = entry(&format!("{START} {code}"));
    outcome
}

const ARITHMETIC: [&str; 17] = [
    "add", "sub", "mul", "imul", "div", "idiv", "mod", "imod", "and", "or", "xor", "shl", "sal",
    "shr", "sar", "cmp", "icmp",
];

#[test]
fn overflow_20() {
    let file = |code: &str| asm::file(&format!("int 1; entry: push 0; store 0; {code}"));
    for code in ["push 0", "load 0", "lea 0"] {
        let end = run_file(&file(code), ENTRY, &[], 9, 1);
        assert_eq!(end, Ok((20, 2, vec![(INT, 1)])), "{code}");
        let end = run_file(&file(code), ENTRY, &[], 9, 2).expect("a run");
        assert_eq!((end.0, end.1), (0, 3));
    }
    let copy = run_file(&file("push 0; copy"), ENTRY, &[], 9, 2).expect("a run");
    assert_eq!((copy.0, copy.1), (20, 3));
    assert_eq!(run_file(&file(""), ENTRY, &[], 9, 0), Ok((20, 0, vec![])));
}

#[test]
fn overflow_20_frames() {
    let deep = |n: u32| {
        format!(
            "int {n}; int 1; entry: push 0; call 0
             function void (int): load 0; je 0; load 0; push 1; sub; call 0; ret; @0; ret"
        )
    };
    let run = |n| run_file(&asm::file(&deep(n)), ENTRY, &[], 9999, 999).expect("a run");
    // the entry's frame and 63 more
    assert_eq!(run(62).0, 0);
    let (outcome, _, stack) = run(63);
    assert_eq!((outcome, stack.len()), (20, 64));
}

#[test]
fn empty_21() {
    for op in [
        "pop", "copy", "tload", "inc", "dec", "neg", "not", "toi", "tol", "tod",
    ] {
        assert_eq!(after(op), 21, "{op}");
    }
    for op in ARITHMETIC.iter().chain(&["swap", "tstore"]) {
        assert_eq!(after(op), 21, "{op}");
        assert_eq!(after(&format!("push 0; {op}")), 21, "{op}");
        // before 31, 32, 22
        assert_eq!(after(&format!("load 1; {op}")), 21, "{op}");
    }
    for n in [0, 1, 2] {
        assert_eq!(after(&format!("store {n}")), 21);
    }
    for op in ["je", "jne", "ja", "jae", "jb", "jbe"] {
        assert_eq!(outcome(&format!("entry: @0; {op} 0")), (21, 0), "{op}");
    }
}

#[test]
fn different_22() {
    let others = ["push 0; push 1;", "push 1; push 2;", "push 2; push 0;"];
    for pair in others {
        for op in ARITHMETIC.iter().chain(&["swap"]) {
            assert_eq!(after(&format!("{pair} {op}")), 22, "{pair} {op}");
        }
    }
    assert_eq!(after("push 1; store 0"), 22);
    assert_eq!(after("push 0; store 1"), 22);
    assert_eq!(after("lea 0; push 1; tstore"), 22);
    for pair in ["load 1; push 0;", "push 0; load 1;"] {
        for op in ["swap", "cmp", "icmp"] {
            assert_eq!(after(&format!("{pair} {op}")), 22, "{pair} {op}");
        }
    }
    for op in ["je", "jne", "ja", "jae", "jb", "jbe"] {
        for value in ["push 1", "push 2", "load 1"] {
            assert_eq!(after(&format!("{value}; @0; {op} 0")), 22, "{op}");
        }
    }
}

#[test]
fn numbers_out_of_range() {
    // before 21, 22 and a full stack
    let full = |text: &str| {
        run_file(&asm::file(text), ENTRY, &[], 9, 0)
            .expect("a run")
            .0
    };
    assert_eq!(full("int 1; entry: push 1"), 23);
    assert_eq!(full("entry: push 4294967295"), 23);
    assert_eq!(full("entry: load 0"), 25);
    assert_eq!(full("entry: lea 0"), 25);
    assert_eq!(full("entry: store 1"), 26);
    assert_eq!(full("entry: je 0"), 27);
    assert_eq!(full("entry: jmp 0"), 27);
    assert_eq!(full("entry: call 0"), 28);
    assert_eq!(full("entry: call 4294967295"), 28);
    for op in ["jmp", "je", "jne", "ja", "jae", "jb", "jbe"] {
        let other = format!("entry: {op} 0; function void (): @0; ret");
        assert_eq!(outcome(&other), (27, 0), "{op}");
    }
}

#[test]
fn invalid_index_26() {
    let mut text = "int 1; entry:".to_string();
    for n in 0..16 {
        text += &format!("push 0; store {n};");
    }
    assert_eq!(outcome(&format!("{text} push 0; store 15")), (0, 34));
    assert_eq!(outcome(&format!("{text} push 0; store 16")), (26, 33));
    assert_eq!(outcome(&format!("{text} store 16")), (26, 32));
    assert_eq!(outcome(&format!("{text} store 17")), (26, 32));
}

#[test]
fn divide_24() {
    for op in ["div", "idiv", "mod", "imod"] {
        assert_eq!(after(&format!("push 3; push 0; {op}")), 24, "{op}");
        let long = format!("long 0; entry: push 0; push 0; {op}");
        assert_eq!(entry(&long), (24, 2, vec![(LONG, 0), (LONG, 0)]), "{op}");
    }
}

#[test]
fn call_21_22_28_20() {
    let f = "function void (int, *int): ret";
    assert_eq!(after(&format!("load 0; call 0; {f}")), 21);
    assert_eq!(after(&format!("load 1; load 0; call 0; {f}")), 22);
    assert_eq!(after(&format!("load 0; load 0; call 0; {f}")), 22);
    assert_eq!(after(&format!("load 0; load 1; call 0; {f}")), 0);
    assert_eq!(after(&format!("load 0; load 1; call 1; {f}")), 28);
    // a full stack doesn't matter
    let file = asm::file("int 1; entry: push 0; call 0; function void (int): ret");
    assert_eq!(run_file(&file, ENTRY, &[], 9, 1), Ok((0, 3, vec![])));
}

#[test]
fn call_order_at_the_frame_limit() {
    let deep = |last: &str| {
        let text = format!(
            "int 62; int 1; long 1; entry: push 0; call 0
             function void (int): load 0; je 0; load 0; push 1; sub; call 0; ret; @0; {last}; ret
             function void (int): ret"
        );
        run_file(&asm::file(&text), ENTRY, &[], 9999, 999)
            .expect("a run")
            .0
    };
    assert_eq!(deep("push 1; call 1"), 20);
    assert_eq!(deep("push 2; call 1"), 22);
    assert_eq!(deep("call 1"), 21);
    assert_eq!(deep("call 2"), 28);
}

#[test]
fn ret_30_21_22_and_29() {
    assert_eq!(outcome("entry: ret"), (30, 0));
    let ret = |body: &str| {
        outcome(&format!(
            "int 1; long 1; entry: call 0; function int (): {body}"
        ))
    };
    assert_eq!(ret("ret"), (21, 1));
    assert_eq!(ret("push 1; ret"), (22, 2));
    assert_eq!(ret("push 0; ret"), (0, 3));
    assert_eq!(ret("push 0"), (29, 2));
    // a local under the operands doesn't count
    assert_eq!(ret("push 0; store 0; ret"), (21, 3));
    let parameter = "int 1; entry: push 0; call 0; function int (int): ret";
    assert_eq!(outcome(parameter), (21, 2));
}

#[test]
fn pointers_31_33_32() {
    for op in ["tload", "inc", "dec"] {
        assert_eq!(after(&format!("push 0; {op}")), 31, "{op}");
    }
    assert_eq!(after("push 0; push 0; tstore"), 31);
    assert_eq!(after("push 0; load 1; tstore"), 31);
    for op in ["inc", "dec"] {
        assert_eq!(after(&format!("lea 1; {op}")), 32, "{op}");
    }
    for op in ARITHMETIC.iter().filter(|op| !op.ends_with("cmp")) {
        for pair in ["load 1; load 1;", "load 1; push 0;", "push 2; load 1;"] {
            assert_eq!(after(&format!("{pair} {op}")), 32, "{pair} {op}");
        }
    }
    for op in ["neg", "not", "toi", "tol", "tod"] {
        assert_eq!(after(&format!("load 1; {op}")), 32, "{op}");
    }
}

/// The caller's pointer local gets the address of the callee's slot `n`.
fn stale(n: u32, then: &str) -> u32 {
    let text = format!(
        "int 0; long 1; entry: push 0; store 0; lea 0; store 1; lea 1; call 0; {then}
         function void (*int): push 0; store 1; push 0; store 2; load 0; lea {n}; tstore; ret"
    );
    entry(&text).0
}

#[test]
fn unknown_address_33() {
    // the caller's height is 2 again; the callee's slots were 2, 3, 4
    for op in ["tload", "inc", "dec"] {
        for n in 0..3 {
            assert_eq!(stale(n, &format!("load 1; {op}")), 33, "{op} {n}");
        }
        // a slot under the pointer is there again
        assert_eq!(stale(0, &format!("push 0; load 1; {op}")), 0, "{op}");
        assert_eq!(stale(1, &format!("push 0; load 1; {op}")), 33, "{op}");
    }
    // tstore: below the height left after both are taken
    assert_eq!(stale(0, "load 1; push 0; tstore"), 33);
    assert_eq!(stale(1, "load 1; push 0; tstore"), 33);
    assert_eq!(stale(0, "push 0; load 1; push 0; tstore"), 0);
    // 33 before 22
    assert_eq!(stale(0, "load 1; push 1; tstore"), 33);
    assert_eq!(stale(0, "push 0; load 1; push 1; tstore"), 22);
}

#[test]
fn invalid_for_double_34() {
    for op in [
        "mod", "imod", "and", "or", "xor", "shl", "sal", "shr", "sar",
    ] {
        assert_eq!(after(&format!("push 2; push 2; {op}")), 34, "{op}");
        // 34 before 24, 22 before 34
        let zero = format!("double 0.0; entry: push 0; push 0; {op}");
        assert_eq!(outcome(&zero), (34, 2), "{op}");
        assert_eq!(after(&format!("push 2; push 0; {op}")), 22, "{op}");
    }
    assert_eq!(after("push 2; not"), 34);
}

/// Quiet and other NaNs, of both signs.
const NANS: [u64; 6] = [
    0x7FF8_0000_0000_0000,
    0xFFF8_0000_0000_0000,
    0x7FF0_0000_0000_0001,
    0xFFF4_0000_0000_0000,
    0x7FF8_0000_DEAD_BEEF,
    0xFFFF_FFFF_FFFF_FFFF,
];

#[test]
fn unordered_35() {
    let infinity = f64::INFINITY.to_bits();
    for (nan, op) in NANS.iter().flat_map(|nan| [(nan, "cmp"), (nan, "icmp")]) {
        let constants = format!("double #{nan:016X}; double #{infinity:016X}; int 7;");
        let end = |code: &str| entry(&format!("{constants} entry: {code}; {op}"));
        // the operands stay
        let (first, second) = ((DOUBLE, *nan), (DOUBLE, infinity));
        assert_eq!(end("push 0; push 1"), (35, 2, vec![first, second]));
        assert_eq!(end("push 1; push 0"), (35, 2, vec![second, first]));
        assert_eq!(end("push 0; push 0"), (35, 2, vec![first, first]));
        assert_eq!(end("push 1; push 1").0, 0);
        // 22 before it: an int or a pointer beside a NaN
        assert_eq!(end("push 0; push 2").0, 22);
        assert_eq!(end("push 2; push 0").0, 22);
        assert_eq!(end("push 2; store 0; push 0; lea 0").0, 22);
        assert_eq!(end("push 2; store 0; lea 0; push 0").0, 22);
        assert_eq!(end("push 0").0, 21);
        // the allowance before it
        let file = asm::file(&format!("{constants} entry: push 0; push 1; {op}"));
        let run = |allowance| run_file(&file, ENTRY, &[], allowance, 2).expect("a run");
        assert_eq!((run(2).0, run(3).0), (15, 35));
        // nothing is refused that was accepted
        assert_eq!(answer(&file), 0);
    }
}

/// "A recipe divided zero by zero, compared the result, got -1 and took the \"darker\" branch."
#[test]
fn zero_by_zero_compared() {
    let recipe = |op: &str, zero: &str| {
        format!(
            "double {zero}; double 0.5; int 1; int 2
             entry: push 0; push 0; div; push 1; {op}; jb 0; push 2; jmp 1; @0; push 3; @1; neg"
        )
    };
    let half = 0.5f64.to_bits();
    for op in ["cmp", "icmp"] {
        let stopped = entry(&recipe(op, "0.0"));
        assert_eq!(stopped, (35, 4, vec![(DOUBLE, NAN), (DOUBLE, half)]));
        assert_eq!(checked(&recipe(op, "0.0")), 0);
        // one by one is brighter
        assert_eq!(top(&recipe(op, "1.0")), (INT, 0xFFFF_FFFF));
    }
}

/// Doubles that are out of range: the nearest on both sides, infinities, NaNs.
const OUTSIDE: [(&str, &str); 8] = [
    ("toi", "4294967296.0"),
    ("toi", "-2147483649.0"),
    ("toi", "-inf"),
    ("toi", "#FFF4000000000000"),
    ("tol", "18446744073709551616.0"),
    ("tol", "-9223372036854777856.0"),
    ("tol", "inf"),
    ("tol", "#7FF8000000000000"),
];

#[test]
fn out_of_range_44() {
    for ((op, double), edition) in OUTSIDE
        .iter()
        .flat_map(|&of| [(of, ""), (of, "edition 4;")])
    {
        let text = |code: &str| format!("{edition} double {double}; int 7; entry: {code}");
        let end = |code: &str| entry(&text(&format!("{code}; {op}")));
        let value = top(&text("push 0"));
        // the double stays, and what is under it
        assert_eq!(end("push 1; push 0"), (44, 2, vec![(INT, 7), value]));
        // 21 and 32 before it
        assert_eq!(end("push 0; store 0").0, 21);
        assert_eq!(end("push 0; store 0; lea 0").0, 32);
        // the allowance before it; it needs no slot
        let file = asm::file(&text(&format!("push 0; {op}")));
        let run = |allowance| run_file(&file, ENTRY, &[], allowance, 1).expect("a run");
        assert_eq!(run(1), (15, 1, vec![value]));
        assert_eq!(run(2), (44, 1, vec![value]));
        // nothing is refused that was accepted
        assert_eq!(answer(&file), 0);
        // `tod` never raises
        assert_eq!(top(&text("push 0; tod")), value);
    }
    // null is all ones, a NaN if it were a double
    let null = (POINTER, u64::MAX);
    assert_eq!(entry("edition 4; entry: null; toi"), (32, 1, vec![null]));
    // a long has no range to leave
    assert_eq!(top("long 4294967296; entry: push 0; toi"), (INT, 0));
}

/// "A highlight overflowed `toi` and came out as the top-bit pattern, a plausible red."
#[test]
fn a_highlight_overflows() {
    let recipe = |gain: &str| {
        format!(
            "double 2147483648.0; double {gain}; int 16
             entry: push 0; push 1; mul; toi; push 2; shr"
        )
    };
    let highlight = (DOUBLE, 4294967296.0f64.to_bits());
    assert_eq!(entry(&recipe("2.0")), (44, 3, vec![highlight]));
    assert_eq!(checked(&recipe("2.0")), 0);
    assert_eq!(top(&recipe("1.5")), (INT, 0xC000));
    let old = format!("edition 1; {}", recipe("2.0"));
    assert_eq!(top(&old), (INT, 0x8000));
}

#[test]
fn allowance_15() {
    let file = asm::file("int 1; entry: @0; push 0; pop; jmp 0");
    for allowance in 0..20 {
        let (outcome, steps, stack) = run_file(&file, ENTRY, &[], allowance, 9).expect("a run");
        assert_eq!((outcome, steps), (15, allowance));
        assert_eq!(stack.len(), usize::from(allowance % 3 == 1));
    }
    // the end comes first
    let empty = asm::file("entry: function void (): pop");
    assert_eq!(run_file(&empty, ENTRY, &[], 0, 0), Ok((0, 0, vec![])));
    // an exception needs its moment
    assert_eq!(run_file(&empty, 0, &[], 0, 0), Ok((15, 0, vec![])));
    assert_eq!(run_file(&empty, 0, &[], 1, 0), Ok((21, 0, vec![])));
}

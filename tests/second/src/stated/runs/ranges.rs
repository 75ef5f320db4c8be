//! `toi` and `tol` of doubles in every edition: what document 02's A8 says, with everything that
//! was lent written out.

use super::{run, Slot, StatedRun, NULL};
use crate::asm;

/// A double's bits, and the pattern that it is cut to; nothing where it is out of range.
type Row = (u64, Option<u64>);

/// "from -2^31 to 2^32-1 (`toi`)", by the cut number.
const INTS: [Row; 22] = [
    (0x8000_0000_0000_0000, Some(0)),
    (0x3FEF_FFFF_FFFF_FFFF, Some(0)),
    // -0.9, -1.5
    (0xBFEC_CCCC_CCCC_CCCD, Some(0)),
    (0xBFF8_0000_0000_0000, Some(0xFFFF_FFFF)),
    // around -2^31: -2147483648.9 is in range, -2147483649.0 is not
    (0xC1DF_FFFF_FFFF_FFFF, Some(0x8000_0001)),
    (0xC1E0_0000_0000_0000, Some(0x8000_0000)),
    (0xC1E0_0000_0000_0001, Some(0x8000_0000)),
    (0xC1E0_0000_001C_CCCD, Some(0x8000_0000)),
    (0xC1E0_0000_001F_FFFF, Some(0x8000_0000)),
    (0xC1E0_0000_0020_0000, None),
    (0xC1E0_0000_0020_0001, None),
    // 2^31
    (0x41DF_FFFF_FFFF_FFFF, Some(0x7FFF_FFFF)),
    (0x41E0_0000_0000_0000, Some(0x8000_0000)),
    // around 2^32: 4294967295.9 is in range, 4294967296.0 is not
    (0x41EF_FFFF_FFDF_FFFF, Some(0xFFFF_FFFE)),
    (0x41EF_FFFF_FFE0_0000, Some(0xFFFF_FFFF)),
    (0x41EF_FFFF_FFFC_CCCD, Some(0xFFFF_FFFF)),
    (0x41EF_FFFF_FFFF_FFFF, Some(0xFFFF_FFFF)),
    (0x41F0_0000_0000_0000, None),
    (0x41F0_0000_0000_0001, None),
    // -2^63, 2^64, 1e300
    (0xC3E0_0000_0000_0000, None),
    (0x43F0_0000_0000_0000, None),
    (0x7E37_E43C_8800_759C, None),
];

/// "or -2^63 to 2^64-1 (`tol`)"; 2^64-1 is no double.
const LONGS: [Row; 16] = [
    (0x8000_0000_0000_0000, Some(0)),
    (0xBFEC_CCCC_CCCC_CCCD, Some(0)),
    (0xBFF8_0000_0000_0000, Some(u64::MAX)),
    // -2^31 - 1 and 2^32 are in range here
    (0xC1E0_0000_0020_0000, Some(0xFFFF_FFFF_7FFF_FFFF)),
    (0x41F0_0000_0000_0000, Some(0x1_0000_0000)),
    // around -2^63
    (0xC3DF_FFFF_FFFF_FFFF, Some(0x8000_0000_0000_0400)),
    (0xC3E0_0000_0000_0000, Some(0x8000_0000_0000_0000)),
    (0xC3E0_0000_0000_0001, None),
    (0xC3F0_0000_0000_0000, None),
    // 2^63
    (0x43DF_FFFF_FFFF_FFFF, Some(0x7FFF_FFFF_FFFF_FC00)),
    (0x43E0_0000_0000_0000, Some(0x8000_0000_0000_0000)),
    // around 2^64
    (0x43EF_FFFF_FFFF_FFFF, Some(0xFFFF_FFFF_FFFF_F800)),
    (0x43F0_0000_0000_0000, None),
    (0x43F0_0000_0000_0001, None),
    (0x7E37_E43C_8800_759C, None),
    (0xFE37_E43C_8800_759C, None),
];

/// Infinities; quiet and other NaNs, of both signs.
const NOWHERE: [u64; 8] = [
    0x7FF0_0000_0000_0000,
    0xFFF0_0000_0000_0000,
    0x7FF8_0000_0000_0000,
    0xFFF8_0000_0000_0000,
    0x7FF0_0000_0000_0001,
    0xFFF4_0000_0000_0000,
    0x7FF8_0000_DEAD_BEEF,
    0xFFFF_FFFF_FFFF_FFFF,
];

const NAN: Slot = (6, 0x7FF8_0000_0000_0000);
/// 2^32.
const LARGE: Slot = (6, 0x41F0_0000_0000_0000);

/// The opcodes with the type that they give, and "the pattern with only the top bit set".
const TOI: (&str, Slot) = ("toi", (3, 0x8000_0000));
const TOL: (&str, Slot) = ("tol", (4, 0x8000_0000_0000_0000));

const OLD: &str = "edition 1;";
const NEW: [&str; 2] = ["", "edition 4;"];

pub fn cases() -> Vec<StatedRun> {
    let mut all = Vec::new();
    for edition in [OLD, NEW[0], NEW[1]] {
        all.extend(INTS.map(|row| converted(edition, TOI, row)));
        all.extend(LONGS.map(|row| converted(edition, TOL, row)));
        for op in [TOI, TOL] {
            all.extend(NOWHERE.map(|bits| converted(edition, op, (bits, None))));
        }
        all.extend(of_other_types(edition));
        all.extend(no_operand(edition));
    }
    for edition in NEW {
        all.extend(moments(edition));
        all.extend(left_as_before(edition));
    }
    all.extend(pointers());
    all
}

/// A run of this module, named after it.
fn entry(text: &str, stated: StatedRun) -> StatedRun {
    StatedRun {
        name: text.to_string(),
        file: asm::file(text),
        ..stated
    }
}

/// "`toi` and `tol` from a NaN or out of range double now raise; edition 1 keeps the pattern."
fn converted(edition: &str, (op, (ty, top_bit)): (&str, Slot), (bits, cut): Row) -> StatedRun {
    let kept = (edition == OLD).then_some(top_bit);
    let stated = match cut.or(kept) {
        Some(pattern) => run(0, 2, "", &[(ty, pattern)], &[]),
        None => run(44, 1, "", &[(6, bits)], &[]),
    };
    let text = format!("{edition} double #{bits:016X}; entry: push 0; {op}");
    entry(&text, stated)
}

/// "`toi` of a long keeps the low 32 bits"; "A conversion to its own type changes nothing.": a
/// pattern is no double, and `tod` never raises.
fn of_other_types(edition: &str) -> Vec<StatedRun> {
    let mut all = Vec::new();
    for (constant, op, left) in [
        ("long #0000000100000000", "toi", (3, 0)),
        ("long #7FF8000000000001", "toi", (3, 1)),
        ("long #FFFFFFFFFFFFFFFF", "toi", (3, 0xFFFF_FFFF)),
        ("long #7FF8000000000001", "tol", (4, 0x7FF8_0000_0000_0001)),
        ("int #00000000FFFFFFFF", "toi", (3, 0xFFFF_FFFF)),
        ("int #00000000FFFFFFFF", "tol", (4, 0xFFFF_FFFF)),
        ("double #7FF0000000000000", "tod", (6, 0x7FF0 << 48)),
        ("double #FFF0000000000001", "tod", (6, 0xFFF0 << 48 | 1)),
        ("long #FFFFFFFFFFFFFFFF", "tod", (6, 0x43F0 << 48)),
    ] {
        let text = format!("{edition} {constant}; entry: push 0; {op}");
        all.push(entry(&text, run(0, 2, "", &[left], &[])));
    }
    all
}

/// 21 before 44: a bound local on top, an argument, the caller's operand.
fn no_operand(edition: &str) -> Vec<StatedRun> {
    let mut all = Vec::new();
    for op in ["toi", "tol"] {
        let start = format!("{edition} double #7FF8000000000000; entry: push 0");
        for (code, steps) in [
            (format!("store 0; {op}"), 2),
            (format!("call 0; function void (double): {op}; ret"), 2),
            (format!("call 0; function void (): {op}; ret"), 2),
        ] {
            let stated = run(21, steps, "", &[NAN], &[]);
            all.push(entry(&format!("{start}; {code}"), stated));
        }
    }
    all
}

/// "An instruction that raises counts no step"; the allowance is before it, a full stack no matter.
fn moments(edition: &str) -> Vec<StatedRun> {
    let mut all = Vec::new();
    for op in ["toi", "tol"] {
        let text = format!("{edition} double #7FF8000000000000; entry: push 0; {op}; pop");
        let raised = run(44, 1, "", &[NAN], &[]);
        all.push(entry(&text, raised.clone()).slots(1));
        all.push(entry(&text, raised).allowed(2));
        all.push(entry(&text, run(15, 1, "", &[NAN], &[])).allowed(1));
        all.push(entry(&text, run(20, 0, "", &[], &[])).slots(0));
        let fits = format!("{edition} double 1.5; entry: push 0; {op}; pop");
        all.push(entry(&fits, run(0, 3, "", &[], &[])).slots(1));
    }
    all
}

/// "and leaves the state as before it": what lies below, in the caller too; a function by itself.
fn left_as_before(edition: &str) -> Vec<StatedRun> {
    let constants = format!("{edition} double 4294967296.0; int 7; entry:");
    let called = format!("{constants} push 1; push 0; call 0; neg");
    let function = "function int (double): push 1; load 0; toi; add; ret";
    let stack = [(3, 7), LARGE, (3, 7), LARGE];
    let text = format!("{called}; {function}");
    let mut host = entry(&text, run(44, 2, "", &[LARGE, (3, 7), LARGE], &[]));
    (host.function, host.args) = (0, vec![LARGE]);
    let mut fits = entry(&text, run(0, 5, "", &[(3, 8)], &[]));
    (fits.function, fits.args) = (0, vec![(6, 0x3FF8_0000_0000_0000)]);
    let under = format!("{constants} push 1; store 0; load 0; push 0; toi");
    vec![
        entry(&text, run(44, 5, "", &stack, &[])),
        entry(&text, run(44, 5, "", &stack, &[])).slots(4),
        entry(&text, run(20, 4, "", &stack[..3], &[])).slots(3),
        entry(&under, run(44, 4, "", &[(3, 7), (3, 7), LARGE], &[])),
        host,
        fits,
    ]
}

/// 32 before 44: null is all ones, a NaN if it were a double. Blocks stay.
fn pointers() -> Vec<StatedRun> {
    let start = "edition 4; double 4294967296.0; structure double; entry:";
    let filled = "new 10; store 0; load 0; flea 0; push 0; tstore; load 0; flea 0; tload";
    let block = (7, 65_536);
    let mut all = Vec::new();
    for op in ["toi", "tol"] {
        let null = format!("{start} null; {op}");
        all.push(entry(&null, run(32, 1, "", &[NULL], &[])));
        let local = format!("double 4294967296.0; entry: push 0; store 0; lea 0; {op}");
        all.push(entry(&local, run(32, 3, "", &[LARGE, (7, 0)], &[])));
    }
    let curve = run(44, 9, "", &[block, LARGE], &[[1, 0, 10]]).cells(&[(0, LARGE.1)]);
    all.push(entry(&format!("{start} {filled}; toi"), curve));
    let long = run(0, 10, "", &[block, (4, 1 << 32)], &[[1, 0, 10]]).cells(&[(0, LARGE.1)]);
    all.push(entry(&format!("{start} {filled}; tol"), long));
    all
}

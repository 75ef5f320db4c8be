//! W1 to W12.

mod common;
use common::*;
use second::asm;
use second::hex;
use second::reader::ENTRY;
use second::rules::Rules;
use second::samples::W1;
use second::show::small;

fn w1() -> Vec<u8> {
    hex::decode(W1).expect("hex")
}

#[test]
fn w01() {
    assert_eq!(answer(&w1()), 0);
    let run = |allowance| run_file(&w1(), ENTRY, &[], allowance, 10).expect("a run");
    assert_eq!(run(3), (0, 3, vec![(INT, 12)]));
    assert_eq!(run(2), (15, 2, vec![(INT, 7), (INT, 5)]));
    assert_eq!(small(Rules::PLAIN, &w1()), "0 3 1\n3 12\n");
    let text = "int 7; int 5; entry: push 0; push 1; add";
    assert_eq!(asm::file(text), w1());
}

#[test]
fn w02_to_w04() {
    let sum = "int 4294967295; int 1; entry: push 0; push 1; add";
    assert_eq!(top(sum), (INT, 0));
    let quotient = "long -9223372036854775808; long -1; entry: push 0; push 1; idiv";
    assert_eq!(top(quotient), (LONG, 1 << 63));
    let by_zero = entry("int 7; int 0; entry: push 0; push 1; div");
    assert_eq!(by_zero, (24, 2, vec![(INT, 7), (INT, 0)]));
}

#[test]
fn w05_and_w06() {
    let pair = "int 1; int 4294967295; entry: push 0; push 1;";
    assert_eq!(top(&format!("{pair} cmp")), (INT, 0xFFFF_FFFF));
    assert_eq!(top(&format!("{pair} icmp")), (INT, 1));
    let sar = "int 2147483648; int 40; entry: push 0; push 1; sar";
    assert_eq!(top(sar), (INT, 0xFFFF_FFFF));
    assert_eq!(top("int 8; int 32; entry: push 0; push 1; shr"), (INT, 0));
}

#[test]
fn w07_and_w08() {
    let toi = |x: &str| top(&format!("double {x}; entry: push 0; toi"));
    assert_eq!(toi("-1.5"), (INT, 0xFFFF_FFFF));
    assert_eq!(toi("-0.5"), (INT, 0));
    // "W7's third value becomes the exception."
    let third = "double 4294967296.0; entry: push 0; toi";
    let double = (DOUBLE, 4294967296.0f64.to_bits());
    assert_eq!(entry(third), (44, 1, vec![double]));
    assert_eq!(top(&format!("edition 1; {third}")), (INT, 0x8000_0000));
    let tod = top("long 9007199254740993; entry: push 0; tod");
    assert_eq!(tod, (DOUBLE, 9007199254740992.0f64.to_bits()));
}

#[test]
fn w09_to_w11() {
    assert_eq!(outcome("int 1; entry: push 0; store 0; pop"), (21, 2));
    assert_eq!(outcome("int 1; entry: push 0; store 1"), (26, 1));
    let branch = |op: &str| outcome(&format!("int 5; entry: push 0; {op} 0; push 0; @0; push 0"));
    assert_eq!(branch("jae"), (0, 3));
    assert_eq!(branch("ja"), (0, 4));
}

#[test]
fn w12() {
    let growing = "int 1; entry: @0; push 0; jmp 0";
    assert_eq!(checked(growing), 11);
    assert_eq!(bad_body(growing), ENTRY);
    assert_eq!(checked("entry: @0; jmp 0; pop"), 0);
}

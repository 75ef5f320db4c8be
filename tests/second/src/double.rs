//! Operations on doubles, on their bits: "Doubles (IEEE 754)".

use crate::opcode::Op;
use crate::rules::{Fault, Rules};

/// "any NaN result is 7FF8000000000000"
pub const NAN: u64 = 0x7FF8_0000_0000_0000;
const SIGN: u64 = 1 << 63;

/// The bits of a result.
fn result(x: f64) -> u64 {
    if x.is_nan() {
        NAN
    } else {
        x.to_bits()
    }
}

/// "`add`, `sub`, both products and quotients are one rounded operation; x/0 is no
/// exception"; "Remainders and bit operations on doubles: 34."
pub fn binary(rules: Rules, op: Op, a: u64, b: u64) -> Result<u64, u32> {
    let (x, y) = (f64::from_bits(a), f64::from_bits(b));
    match op {
        Op::Add if rules.wrong(Fault::NanPayloadInSum) && x.is_nan() => Ok(a),
        Op::Add => Ok(result(x + y)),
        Op::Sub => Ok(result(x - y)),
        Op::Mul | Op::Imul => Ok(result(x * y)),
        Op::Div | Op::Idiv => Ok(result(x / y)),
        _ => Err(34),
    }
}

/// "`neg` flips the sign; any NaN result is 7FF8000000000000"
pub fn neg(rules: Rules, a: u64) -> u64 {
    if rules.wrong(Fault::NegKeepsNan) {
        return a ^ SIGN;
    }
    result(f64::from_bits(a ^ SIGN))
}

/// `inc`, `dec`: "by 1.0 rounded once"
pub fn by_one(op: Op, a: u64) -> u64 {
    let x = f64::from_bits(a);
    result(if op == Op::Inc { x + 1.0 } else { x - 1.0 })
}

/// "A > B gives 1, equal 0, anything else -1"; "`cmp` and `icmp` now raise when either double is
/// a NaN ... 35 DOUBLE_UNORDERED"
pub fn compare(rules: Rules, op: Op, a: u64, b: u64) -> Result<i32, u32> {
    let (x, y) = (f64::from_bits(a), f64::from_bits(b));
    if raises_unordered(rules, op, a, b) {
        return Err(35);
    }
    if x > y {
        Ok(1)
    } else if x == y {
        Ok(0)
    } else {
        Ok(-1)
    }
}

/// "when either double is a NaN"
fn raises_unordered(rules: Rules, op: Op, a: u64, b: u64) -> bool {
    // the uppermost bit of the fraction tells quiet NaNs from signalling ones
    let counts = |bits: u64| bits & (1 << 51) != 0 || !rules.wrong(Fault::QuietNansOnly);
    let nan = |bits: u64| f64::from_bits(bits).is_nan() && counts(bits);
    let first = nan(a) && !rules.wrong(Fault::UnorderedSecondOnly);
    let second = nan(b) && !rules.wrong(Fault::UnorderedFirstOnly);
    let spared =
        rules.wrong(Fault::NanCompares) || rules.wrong(Fault::UnorderedCmpOnly) && op == Op::Icmp;
    (first || second) && !spared
}

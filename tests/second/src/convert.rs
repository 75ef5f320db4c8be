//! The conversions `toi`, `tol`, `tod`, on payloads.

use crate::integer;
use crate::opcode::Edition;
use crate::rules::{Fault, Rules};
use crate::types::{DOUBLE, INT, LONG};
use std::ops::Range;

const TWO_31: f64 = 2_147_483_648.0;
const TWO_32: f64 = 4_294_967_296.0;
const TWO_63: f64 = 9_223_372_036_854_775_808.0;
const TWO_64: f64 = 18_446_744_073_709_551_616.0;

/// "`toi` of a long keeps the low 32 bits.", also where "out of range double[s] now raise".
pub fn toi(rules: Rules, edition: Edition, from: u8, x: u64) -> Result<u64, u32> {
    match from {
        LONG if rules.wrong(Fault::LongOutOfRange) && x >> 32 != 0 => Err(44),
        LONG => Ok(x & 0xFFFF_FFFF),
        DOUBLE => of_double(rules, edition, 32, f64::from_bits(x)),
        // "A conversion to its own type changes nothing."
        _ => Ok(x),
    }
}

/// "`tol` of an int fills with zeros"
pub fn tol(rules: Rules, edition: Edition, from: u8, x: u64) -> Result<u64, u32> {
    match from {
        INT if rules.wrong(Fault::TolOfIntSigned) => Ok(x as u32 as i32 as i64 as u64),
        DOUBLE => of_double(rules, edition, 64, f64::from_bits(x)),
        _ => Ok(x),
    }
}

/// "`tod` of an int is exact; of a long, the upper half times 4,294,967,296 plus the lower
/// half, rounded once; both unsigned." It never raises.
pub fn tod(rules: Rules, from: u8, x: u64) -> u64 {
    match from {
        INT => (x as f64).to_bits(),
        LONG if rules.wrong(Fault::TodRoundsTwice) => (to_54_bits(x) as f64).to_bits(),
        LONG => {
            let (upper, lower) = (x >> 32, x & 0xFFFF_FFFF);
            // both halves and the product are exact; the sum is the one rounding
            (upper as f64 * TWO_32 + lower as f64).to_bits()
        }
        _ => x,
    }
}

/// "From double: cut toward zero to t; if t is from -2^31 to 2^32-1 (`toi`) or -2^63 to 2^64-1
/// (`tol`), its pattern; else, and for NaN, the pattern with only the top bit set.", of which
/// document 02's A8 leaves the last to edition 1.
fn of_double(rules: Rules, edition: Edition, width: u32, x: f64) -> Result<u64, u32> {
    let t = if width == 32 && rules.wrong(Fault::ToiRounds) {
        x.round()
    } else {
        x.trunc()
    };
    // the cut number decides
    let decides = if rules.wrong(Fault::UncutBelow) {
        x.floor()
    } else if rules.wrong(Fault::UncutAbove) {
        x.ceil()
    } else {
        t
    };
    if range(rules, width).contains(&decides) {
        return Ok(integer::wrap(width, t as i128));
    }
    if raises(rules, edition, width, x) {
        return Err(44);
    }
    Ok(1 << (width - 1))
}

/// "`toi` and `tol` from a NaN or out of range double now raise; edition 1 keeps the pattern."
fn raises(rules: Rules, edition: Edition, width: u32, x: f64) -> bool {
    let spared = rules.wrong(Fault::NanKeepsPattern) && x.is_nan()
        || rules.wrong(Fault::InfinityKeepsPattern) && x.is_infinite()
        || rules.wrong(Fault::NumberKeepsPattern) && !x.is_nan()
        || rules.wrong(Fault::ToiKeepsPattern) && width == 32
        || rules.wrong(Fault::TolKeepsPattern) && width == 64;
    let raising = match edition {
        Edition::One => rules.wrong(Fault::RaisesInOne),
        Edition::Three => !rules.wrong(Fault::PatternInThree),
        Edition::Four => !rules.wrong(Fault::PatternInFour),
    };
    raising && !spared
}

/// The whole numbers in range, up to the first that is too large.
fn range(rules: Rules, width: u32) -> Range<f64> {
    if width == 32 {
        ints(rules)
    } else {
        longs(rules)
    }
}

/// "from -2^31 to 2^32-1 (`toi`)"
fn ints(rules: Rules) -> Range<f64> {
    let mut range = -TWO_31..TWO_32;
    if rules.wrong(Fault::ToiLowestOut) {
        range.start += 1.0;
    } else if rules.wrong(Fault::ToiBelowLowest) {
        range.start -= 1.0;
    } else if rules.wrong(Fault::ToiLargestOut) {
        range.end -= 1.0;
    } else if rules.wrong(Fault::ToiPastLargest) {
        range.end += 1.0;
    } else if rules.wrong(Fault::ToiSignedRange) {
        range.end = TWO_31;
    }
    range
}

/// "or -2^63 to 2^64-1 (`tol`)". No double lies between 2^64-1 and 2^64.
fn longs(rules: Rules) -> Range<f64> {
    let mut range = -TWO_63..TWO_64;
    if rules.wrong(Fault::TolLowestOut) {
        range.start = range.start.next_up();
    } else if rules.wrong(Fault::TolBelowLowest) {
        range.start = range.start.next_down();
    } else if rules.wrong(Fault::TolLargestOut) {
        range.end = range.end.next_down();
    } else if rules.wrong(Fault::TolPastLargest) {
        range.end = range.end.next_up();
    } else if rules.wrong(Fault::TolSignedRange) {
        range.end = TWO_63;
    }
    range
}

/// Wrong on purpose: a rounding to 54 bits that a second one to 53 follows.
fn to_54_bits(x: u64) -> u128 {
    let drop = 10u32.saturating_sub(x.leading_zeros());
    let unit = 1u128 << drop;
    let (kept, rest) = (u128::from(x) / unit, u128::from(x) % unit);
    let up = 2 * rest > unit || (2 * rest == unit && kept % 2 == 1);
    (kept + u128::from(up)) * unit
}

//! Arithmetic and conversions, against the standard library's integers and exact fractions.

mod common;
use common::{DOUBLE, INT, LONG, NAN};
use second::convert::{tod, toi, tol};
use second::double;
use second::gen::constants::{payload, range_edges};
use second::gen::rng::Rng;
use second::integer::{binary, neg, not};
use second::opcode::{Edition, Op, EDITIONS};
use second::rules::Rules;

const PLAIN: Rules = Rules::PLAIN;

fn cases(ty: u8) -> impl Iterator<Item = (u64, u64)> {
    let mut rng = Rng::for_case(77, u64::from(ty));
    (0..20_000).map(move |_| (payload(&mut rng, ty), payload(&mut rng, ty)))
}

#[test]
fn ints_like_u32() {
    let of = |op, a, b| binary(PLAIN, op, 32, a, b);
    for (x, y) in cases(INT) {
        let (a, b) = (x as u32, y as u32);
        let (s, t) = (a as i32, b as i32);
        let ok = |value: u32| Ok(u64::from(value));
        assert_eq!(of(Op::Add, x, y), ok(a.wrapping_add(b)));
        assert_eq!(of(Op::Sub, x, y), ok(a.wrapping_sub(b)));
        assert_eq!(of(Op::Mul, x, y), ok(a.wrapping_mul(b)));
        assert_eq!(of(Op::Imul, x, y), ok(s.wrapping_mul(t) as u32));
        assert_eq!(of(Op::Shl, x, y), ok(a.checked_shl(b).unwrap_or(0)));
        assert_eq!(of(Op::Sal, x, y), ok(a.checked_shl(b).unwrap_or(0)));
        assert_eq!(of(Op::Shr, x, y), ok(a.checked_shr(b).unwrap_or(0)));
        assert_eq!(of(Op::Sar, x, y), ok((s >> b.min(31)) as u32));
        assert_eq!(neg(32, x), u64::from(a.wrapping_neg()));
        assert_eq!(not(32, x), u64::from(!a));
        let Some(quotient) = a.checked_div(b) else {
            for op in [Op::Div, Op::Idiv, Op::Mod, Op::Imod] {
                assert_eq!(of(op, x, y), Err(24));
            }
            continue;
        };
        assert_eq!(of(Op::Div, x, y), ok(quotient));
        assert_eq!(of(Op::Mod, x, y), ok(a % b));
        assert_eq!(of(Op::Idiv, x, y), ok(s.wrapping_div(t) as u32));
        assert_eq!(of(Op::Imod, x, y), ok(s.wrapping_rem(t) as u32));
    }
}

#[test]
fn longs_like_u64() {
    let of = |op, a, b| binary(PLAIN, op, 64, a, b);
    for (a, b) in cases(LONG) {
        let (s, t) = (a as i64, b as i64);
        let count = u32::try_from(b).unwrap_or(u32::MAX);
        assert_eq!(of(Op::Add, a, b), Ok(a.wrapping_add(b)));
        assert_eq!(of(Op::Sub, a, b), Ok(a.wrapping_sub(b)));
        assert_eq!(of(Op::Mul, a, b), Ok(a.wrapping_mul(b)));
        assert_eq!(of(Op::Imul, a, b), Ok(s.wrapping_mul(t) as u64));
        assert_eq!(of(Op::Shl, a, b), Ok(a.checked_shl(count).unwrap_or(0)));
        assert_eq!(of(Op::Sal, a, b), Ok(a.checked_shl(count).unwrap_or(0)));
        assert_eq!(of(Op::Shr, a, b), Ok(a.checked_shr(count).unwrap_or(0)));
        assert_eq!(of(Op::Sar, a, b), Ok((s >> count.min(63)) as u64));
        assert_eq!(neg(64, a), a.wrapping_neg());
        assert_eq!(not(64, a), !a);
        if b != 0 {
            assert_eq!(of(Op::Div, a, b), Ok(a / b));
            assert_eq!(of(Op::Mod, a, b), Ok(a % b));
            assert_eq!(of(Op::Idiv, a, b), Ok(s.wrapping_div(t) as u64));
            assert_eq!(of(Op::Imod, a, b), Ok(s.wrapping_rem(t) as u64));
        }
    }
}

/// A double cut toward zero, exactly, from its bits; nothing for NaN and out of 128 bits.
fn cut(bits: u64) -> Option<i128> {
    let exponent = (bits >> 52 & 0x7FF) as i32 - 1075;
    let fraction = bits & ((1 << 52) - 1);
    if exponent == 972 {
        return None;
    }
    if exponent == -1075 {
        return Some(0);
    }
    let digits = i128::from(fraction | 1 << 52);
    let size = match exponent {
        0..=60 => digits << exponent,
        -52..=-1 => digits >> -exponent,
        e if e < 0 => 0,
        _ => return None,
    };
    Some(if bits >> 63 == 1 { -size } else { size })
}

/// In range its pattern; else 44, and in edition 1 the pattern with only the top bit set.
#[test]
fn conversions_from_double_are_exact() {
    let doubles = cases(DOUBLE).map(|(bits, _)| bits);
    for bits in doubles.chain(range_edges()) {
        let t = cut(bits);
        let int = t.filter(|t| (-(1 << 31)..1 << 32).contains(t));
        let long = t.filter(|t| (-(1 << 63)..1 << 64).contains(t));
        for edition in EDITIONS {
            let else_of = |top_bit: u64| match edition {
                Edition::One => Ok(top_bit),
                _ => Err(44),
            };
            let wanted = int.map_or(else_of(1 << 31), |t| Ok(u64::from(t as u32)));
            assert_eq!(toi(PLAIN, edition, DOUBLE, bits), wanted, "{bits:016X}");
            let wanted = long.map_or(else_of(1 << 63), |t| Ok(t as u64));
            assert_eq!(tol(PLAIN, edition, DOUBLE, bits), wanted, "{bits:016X}");
        }
        assert_eq!(tod(PLAIN, DOUBLE, bits), bits);
    }
}

/// Each edge from both sides: the last double in range, and the next.
#[test]
fn edges_of_ranges() {
    for (edge, inside, outside) in [
        ("toi below", -2147483648.9999995, -2147483649.0),
        ("toi above", 4294967295.9999995, 4294967296.0),
        ("tol below", -9223372036854775808.0, -9223372036854777856.0),
        ("tol above", 18446744073709549568.0, 18446744073709551616.0),
    ] {
        let (inside, outside) = (f64::to_bits(inside), f64::to_bits(outside));
        assert_eq!(inside + 1, outside, "{edge}: neighbours");
        let convert = if edge.starts_with("toi") { toi } else { tol };
        let top_bit = if edge.starts_with("toi") {
            1 << 31
        } else {
            1 << 63
        };
        for edition in [Edition::Three, Edition::Four] {
            assert!(convert(PLAIN, edition, DOUBLE, inside).is_ok(), "{edge}");
            assert_eq!(convert(PLAIN, edition, DOUBLE, outside), Err(44), "{edge}");
        }
        let old = convert(PLAIN, Edition::One, DOUBLE, outside);
        assert_eq!(old, Ok(top_bit), "{edge}");
    }
}

#[test]
fn conversions_of_integers() {
    for (x, _) in cases(LONG) {
        // the hardware's conversion rounds once, to nearest, ties to even
        assert_eq!(tod(PLAIN, LONG, x), (x as f64).to_bits());
        let int = u64::from(x as u32);
        assert_eq!(tod(PLAIN, INT, int), f64::from(x as u32).to_bits());
        for edition in EDITIONS {
            assert_eq!(toi(PLAIN, edition, LONG, x), Ok(int));
            assert_eq!(tol(PLAIN, edition, LONG, x), Ok(x));
            assert_eq!(tol(PLAIN, edition, INT, int), Ok(int));
            assert_eq!(toi(PLAIN, edition, INT, int), Ok(int));
        }
    }
}

#[test]
fn every_nan_result_is_the_same() {
    for (a, b) in cases(DOUBLE) {
        for op in [Op::Add, Op::Sub, Op::Mul, Op::Imul, Op::Div, Op::Idiv] {
            let result = double::binary(PLAIN, op, a, b).expect("a number");
            assert!(!f64::from_bits(result).is_nan() || result == NAN);
        }
        for result in [
            double::neg(PLAIN, a),
            double::by_one(Op::Inc, a),
            double::by_one(Op::Dec, a),
        ] {
            assert!(!f64::from_bits(result).is_nan() || result == NAN);
        }
    }
}

#[test]
fn comparing_doubles() {
    for op in [Op::Cmp, Op::Icmp] {
        let bits = |a: u64, b: u64| double::compare(PLAIN, op, a, b);
        let of = |a: f64, b: f64| bits(a.to_bits(), b.to_bits());
        assert_eq!(of(2.0, 1.0), Ok(1));
        assert_eq!(of(1.0, 2.0), Ok(-1));
        assert_eq!(of(-0.0, 0.0), Ok(0));
        assert_eq!(of(f64::INFINITY, f64::MAX), Ok(1));
        assert_eq!(of(f64::NEG_INFINITY, f64::MIN), Ok(-1));
        assert_eq!(of(f64::INFINITY, f64::INFINITY), Ok(0));
        // quiet and other NaNs, of both signs
        let (infinity, one) = (0x7FF0_0000_0000_0000, 1.0f64.to_bits());
        for sign in [0, 1 << 63] {
            for fraction in [1, 1 << 50, 1 << 51, (1 << 51) + 1, (1 << 52) - 1] {
                let nan = sign | infinity | fraction;
                for other in [0, one, infinity, sign | infinity, nan, NAN] {
                    assert_eq!(bits(nan, other), Err(35));
                    assert_eq!(bits(other, nan), Err(35));
                }
            }
        }
    }
}

#[test]
fn by_one_at_the_edges() {
    let of = |op, x: f64| f64::from_bits(double::by_one(op, x.to_bits()));
    assert_eq!(of(Op::Dec, 1.0).to_bits(), 0);
    assert_eq!(of(Op::Inc, -1.0).to_bits(), 0);
    assert_eq!(of(Op::Inc, 9007199254740992.0), 9007199254740992.0);
    assert_eq!(of(Op::Inc, f64::MIN_POSITIVE), 1.0);
}

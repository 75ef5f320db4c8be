//! Operations on int and long, once over the width (32 or 64).

use crate::opcode::Op;
use crate::rules::{Fault, Rules};

/// The low `width` bits.
pub fn wrap(width: u32, x: i128) -> u64 {
    let mask = (1u128 << width) - 1;
    (x as u128 & mask) as u64
}

/// The number that a pattern of `width` bits stands for in two's complement.
pub fn signed(width: u32, x: u64) -> i128 {
    let x = i128::from(x);
    if x >> (width - 1) == 1 {
        x - (1i128 << width)
    } else {
        x
    }
}

/// A binary operation; A is the lower operand, B the top. Gives 24 for a divisor of 0.
pub fn binary(rules: Rules, op: Op, width: u32, a: u64, b: u64) -> Result<u64, u32> {
    let (ua, ub) = (i128::from(a), i128::from(b));
    let (sa, sb) = (signed(width, a), signed(width, b));
    // 003, `sub`: the top is taken from the one under it; `div`: the top divides it
    match op {
        // "Sums, differences, products and `neg` on int and long wrap at 32 or 64 bits."
        Op::Add => Ok(wrap(width, ua + ub)),
        Op::Sub => Ok(wrap(width, ua - ub)),
        Op::Mul => Ok(wrap(width, (u128::from(a) * u128::from(b)) as i128)),
        Op::Imul => Ok(wrap(width, sa * sb)),
        Op::Div | Op::Mod | Op::Idiv | Op::Imod => divide(rules, op, width, (a, b)),
        Op::And => Ok(a & b),
        Op::Or => Ok(a | b),
        Op::Xor => Ok(a ^ b),
        _ => Ok(shift(rules, op, width, a, b)),
    }
}

fn divide(rules: Rules, op: Op, width: u32, (a, b): (u64, u64)) -> Result<u64, u32> {
    if b == 0 {
        return Err(24);
    }
    let (sa, sb) = (signed(width, a), signed(width, b));
    if rules.wrong(Fault::LowestByMinusOneRaises) && sb == -1 && sa == -(1i128 << (width - 1)) {
        return Err(24);
    }
    // "Signed division cuts toward zero; the remainder has the dividend's sign; lowest by -1
    // gives lowest, remainder 0."
    match op {
        Op::Div => Ok(a / b),
        Op::Mod => Ok(a % b),
        Op::Idiv => Ok(wrap(width, sa / sb)),
        _ => Ok(wrap(width, sa % sb)),
    }
}

/// "Counts of the width or more: `shl`, `sal`, `shr` give 0, `sar` the sign in every bit."
fn shift(rules: Rules, op: Op, width: u32, a: u64, b: u64) -> u64 {
    let count = b.min(u64::from(width)) as u32;
    match op {
        Op::Shl | Op::Sal => wrap(width, i128::from(a) << count),
        Op::Shr => wrap(width, i128::from(a) >> count),
        _ if rules.wrong(Fault::SarMasksCount) => {
            wrap(width, signed(width, a) >> (b % u64::from(width)))
        }
        _ => wrap(width, signed(width, a) >> count),
    }
}

/// `neg` "wrap[s]".
pub fn neg(width: u32, a: u64) -> u64 {
    wrap(width, -i128::from(a))
}

/// `not` inverts the bits (003).
pub fn not(width: u32, a: u64) -> u64 {
    wrap(width, !i128::from(a))
}

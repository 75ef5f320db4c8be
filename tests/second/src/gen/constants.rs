//! Values at the boundaries of each type.

use super::rng::Rng;
use crate::program::Constant;
use crate::types::{DOUBLE, INT, LONG};

const INTS: [u64; 24] = [
    0,
    1,
    2,
    3,
    5,
    7,
    31,
    32,
    33,
    40,
    63,
    64,
    0x7FFF_FFFF,
    0x8000_0000,
    0x8000_0001,
    0xFFFF_FFFF,
    0xFFFF_FFFE,
    0xFFFF_FFF9,
    0x5555_5555,
    0x0001_0000,
    0x0000_FFFF,
    0x1234_5678,
    0xFFFF_0000,
    10,
];

const LONGS: [u64; 28] = [
    0,
    1,
    2,
    3,
    7,
    31,
    32,
    33,
    63,
    64,
    65,
    0xFFFF_FFFF,
    0x1_0000_0000,
    0x8000_0000,
    0xFFFF_FFFF_8000_0000,
    0x7FFF_FFFF_FFFF_FFFF,
    0x8000_0000_0000_0000,
    0x8000_0000_0000_0001,
    0xFFFF_FFFF_FFFF_FFFF,
    0xFFFF_FFFF_FFFF_FFFE,
    0x0020_0000_0000_0000,
    0x0020_0000_0000_0001,
    0x0020_0000_0000_0003,
    0x8000_0000_0000_0401,
    0x8000_0000_0000_03FF,
    0x8000_0000_0000_0BFF,
    0xFFFF_FFFF_FFFF_FBFF,
    0x0123_4567_89AB_CDEF,
];

/// NaNs with payloads and signs, signalling ones too.
const NANS: [u64; 8] = [
    0x7FF8_0000_0000_0000,
    0xFFF8_0000_0000_0000,
    0x7FF0_0000_0000_0001,
    0xFFF0_0000_0000_0001,
    0x7FF8_0000_DEAD_BEEF,
    0xFFFF_FFFF_FFFF_FFFF,
    0x7FFF_FFFF_FFFF_FFFF,
    0x7FF4_0000_0000_0000,
];

/// Zeros, subnormals, the smallest and largest numbers, infinities.
const EDGES: [u64; 14] = [
    0x0000_0000_0000_0000,
    0x8000_0000_0000_0000,
    0x0000_0000_0000_0001,
    0x8000_0000_0000_0001,
    0x000F_FFFF_FFFF_FFFF,
    0x800F_FFFF_FFFF_FFFF,
    0x0010_0000_0000_0000,
    0x8010_0000_0000_0000,
    0x7FEF_FFFF_FFFF_FFFF,
    0xFFEF_FFFF_FFFF_FFFF,
    0x7FF0_0000_0000_0000,
    0xFFF0_0000_0000_0000,
    0x3FF0_0000_0000_0001,
    0x3FEF_FFFF_FFFF_FFFF,
];

/// Where the ranges of `toi` and `tol` end, and where those of signed numbers would: on both sides
/// the nearest doubles, and for `toi` numbers that are in range once cut. Infinities.
const RANGE_EDGES: [u64; 23] = [
    // -2^31, -2147483648.9, -2^31 - 1
    0xC1DF_FFFF_FFFF_FFFF,
    0xC1E0_0000_0000_0000,
    0xC1E0_0000_001C_CCCD,
    0xC1E0_0000_001F_FFFF,
    0xC1E0_0000_0020_0000,
    0xC1E0_0000_0020_0001,
    // 2^31
    0x41DF_FFFF_FFFF_FFFF,
    0x41E0_0000_0000_0000,
    // 2^32 - 1, 4294967295.9, 2^32
    0x41EF_FFFF_FFE0_0000,
    0x41EF_FFFF_FFFC_CCCD,
    0x41EF_FFFF_FFFF_FFFF,
    0x41F0_0000_0000_0000,
    0x41F0_0000_0000_0001,
    // -2^63
    0xC3DF_FFFF_FFFF_FFFF,
    0xC3E0_0000_0000_0000,
    0xC3E0_0000_0000_0001,
    // 2^63
    0x43DF_FFFF_FFFF_FFFF,
    0x43E0_0000_0000_0000,
    // 2^64
    0x43EF_FFFF_FFFF_FFFF,
    0x43F0_0000_0000_0000,
    0x43F0_0000_0000_0001,
    0x7FF0_0000_0000_0000,
    0xFFF0_0000_0000_0000,
];

const DOUBLES: [f64; 30] = [
    1.0,
    -1.0,
    2.0,
    3.0,
    0.5,
    -0.5,
    0.9,
    -0.9,
    1.5,
    -1.5,
    2.5,
    -2.5,
    0.1,
    0.2,
    0.3,
    10.0,
    1e300,
    -1e300,
    1e-300,
    2_147_483_647.0,
    4_294_967_294.5,
    9_007_199_254_740_991.0,
    9_007_199_254_740_992.0,
    9_007_199_254_740_994.0,
    -9_007_199_254_740_992.0,
    1e19,
    -3.7,
    3.7,
    255.999,
    -65_536.25,
];

/// A payload of a number type; now and then any bits at all.
pub fn payload(rng: &mut Rng, ty: u8) -> u64 {
    match ty {
        INT if rng.percent(80) => rng.pick(&INTS),
        INT => rng.any() & 0xFFFF_FFFF,
        LONG if rng.percent(75) => rng.pick(&LONGS),
        LONG if rng.percent(50) => rng.any() >> rng.below(64),
        LONG => rng.any(),
        _ => double(rng),
    }
}

fn double(rng: &mut Rng) -> u64 {
    match rng.below(10) {
        0 => rng.pick(&NANS),
        1 | 2 => rng.pick(&EDGES),
        3..=6 => rng.pick(&DOUBLES).to_bits(),
        7 => rng.pick(&RANGE_EDGES),
        8 => {
            // a number near the integer types' ranges, with a fraction
            let exponent = 1023 + rng.range(0, 66) as u64;
            (rng.any() & 0x800F_FFFF_FFFF_FFFF) | (exponent << 52)
        }
        _ => rng.any(),
    }
}

/// The doubles that `toi` and `tol` must meet.
pub fn range_edges() -> Vec<u64> {
    [&RANGE_EDGES[..], &NANS].concat()
}

pub fn constant(rng: &mut Rng, ty: u8) -> Constant {
    let payload = payload(rng, ty);
    let ty = u32::from(ty);
    Constant { ty, payload }
}

/// A pool with at least two constants of each type.
pub fn pool(rng: &mut Rng, extra: usize) -> Vec<Constant> {
    let mut types = vec![INT, INT, LONG, LONG, DOUBLE, DOUBLE];
    for _ in 0..extra {
        types.push(rng.pick(&[INT, LONG, DOUBLE]));
    }
    rng.shuffle(&mut types);
    types.iter().map(|&ty| constant(rng, ty)).collect()
}

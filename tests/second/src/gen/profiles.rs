//! Profiles of generated functions, and those that runs name.

use super::rng::Rng;
use crate::program::Program;

/// Numbers that differ in few bits, in their low byte, or not at all in it.
const SOME: [u32; 10] = [
    1,
    2,
    5,
    256,
    257,
    0x0001_0000,
    0x0100_0001,
    0x8000_0000,
    0xFFFF_FFFE,
    0xFFFF_FFFF,
];

/// The program with profiles, where its edition has them: often 0 for all functions.
pub fn given(rng: &mut Rng, mut program: Program) -> Program {
    if !program.edition.has_profiles() || rng.percent(40) {
        return program;
    }
    for function in &mut program.functions {
        function.profile = profile(rng);
    }
    program
}

/// 0, a small number, or any.
pub fn profile(rng: &mut Rng) -> u32 {
    match rng.below(10) {
        0..=3 => 0,
        4..=8 => rng.pick(&SOME),
        _ => rng.any() as u32,
    }
}

/// The profile that a run of a function names: mostly the function's own.
pub fn named(rng: &mut Rng, own: u32) -> u32 {
    match rng.below(16) {
        0 | 1 => 0,
        2 => own ^ (1 << rng.below(32)),
        3 => own.wrapping_add(1),
        4 => own & 0xFF,
        5 => profile(rng),
        _ => own,
    }
}

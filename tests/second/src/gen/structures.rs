//! Structures of generated modules, and the types that they bring.

use super::rng::Rng;
use crate::opcode::{Edition, Op};
use crate::types::{GCNULL, MANAGED_TO, NULL, NUMBERS, POINTER_TO, SIX, STRUCTURE};

/// The field types of each structure; none but in edition 4.
pub fn declared(rng: &mut Rng, edition: Edition) -> Vec<Vec<u8>> {
    if !edition.has_heap() {
        return Vec::new();
    }
    let count = match rng.below(40) {
        0..=4 => 0,
        39 => 16,
        _ => rng.pick(&[1, 1, 1, 2, 2, 3, 4]),
    };
    (0..count).map(|_| fields(rng)).collect()
}

/// One to eight numbers.
pub fn fields(rng: &mut Rng) -> Vec<u8> {
    let count = rng.pick(&[1, 2, 2, 3, 3, 4, 5, 6, 7, 8, 8]);
    if rng.one_in(3) {
        // a curve
        return vec![rng.pick(&NUMBERS); count];
    }
    (0..count).map(|_| rng.pick(&NUMBERS)).collect()
}

/// The pointer types of this many structures.
fn pointers(structures: usize) -> impl Iterator<Item = u8> {
    (0..structures as u8).map(|n| POINTER_TO | (STRUCTURE + n))
}

/// The types that a parameter may have.
pub fn parameters(edition: Edition, structures: usize) -> Vec<u8> {
    match edition {
        Edition::One => NUMBERS.to_vec(),
        Edition::Three => SIX.to_vec(),
        Edition::Four => {
            let plain = SIX.into_iter().chain(pointers(structures));
            plain.chain(managed(structures)).collect()
        }
    }
}

/// The managed pointer types.
pub fn managed(structures: usize) -> Vec<u8> {
    let targets = blocks(structures).into_iter();
    targets.map(|ty| MANAGED_TO | ty as u8).collect()
}

/// The types that a value may have.
pub fn values(edition: Edition, structures: usize) -> Vec<u8> {
    let mut types = parameters(edition, structures);
    if edition.has_heap() {
        types.extend([NULL, GCNULL]);
    }
    types
}

/// What a function returns: nothing, a number, a pointer to a structure, or a managed pointer.
pub fn returns(rng: &mut Rng, edition: Edition, structures: usize) -> u8 {
    if edition.has_heap() && structures > 0 && rng.one_in(5) {
        return POINTER_TO | (STRUCTURE + rng.below(structures) as u8);
    }
    if edition.has_heap() && rng.one_in(5) {
        return rng.pick(&managed(structures));
    }
    rng.pick(&[0, 3, 4, 6])
}

/// The type numbers that `new` and `gcnew` take.
pub fn blocks(structures: usize) -> Vec<u32> {
    let numbered = (0..structures as u32).map(|n| u32::from(STRUCTURE) + n);
    NUMBERS.into_iter().map(u32::from).chain(numbered).collect()
}

/// An operand that is mostly in range, of an instruction that has none of its own.
pub fn operand(rng: &mut Rng, op: Op, structures: usize, small: usize) -> u32 {
    match op {
        Op::New | Op::GcNew if rng.percent(75) => rng.pick(&blocks(structures)),
        Op::New | Op::GcNew => {
            let next = u32::from(STRUCTURE) + structures as u32;
            rng.pick(&[
                0,
                5,
                7,
                8,
                9,
                10,
                next,
                26,
                0x43,
                0x4A,
                0x80,
                0x8A,
                0xC3,
                256 + 3,
                1 << 31,
            ])
        }
        Op::Flea if rng.one_in(20) => rng.pick(&[8, 9, 255, 256, 65_535, 1 << 31, u32::MAX]),
        Op::Flea => rng.below(8.min(small + 2)) as u32,
        _ => rng.below(small) as u32,
    }
}

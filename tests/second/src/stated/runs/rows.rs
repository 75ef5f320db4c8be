//! Stated runs as rows: outcome, steps, code, stack, table. Constants and structures are those of
//! `START`; where no cell is named, all are zero.

use super::{block, field, Slot, NULL, ONE_AND_A_HALF};

/// Outcome, steps, the entry's code, the stack, the table.
pub type Row = (u32, u64, &'static str, &'static [Slot], &'static [[u64; 3]]);

const INT: Slot = (3, 7);
/// A pointer to slot 0.
const SLOT: Slot = (7, 0);
const ONE: Slot = block(1);
const TWO: Slot = block(2);
const TEN: &[[u64; 3]] = &[[1, 0, 10]];
const THREE: &[[u64; 3]] = &[[1, 0, 3]];
const ELEVEN: &[[u64; 3]] = &[[1, 0, 11]];

/// "`new` takes the lowest run of free cells that fits and clears it"
pub const GIVEN: [Row; 11] = [
    (0, 0, "", &[], &[]),
    (0, 1, "null", &[NULL], &[]),
    (0, 1, "new 3", &[ONE], THREE),
    (0, 1, "new 4", &[ONE], &[[1, 0, 4]]),
    (0, 1, "new 6", &[ONE], &[[1, 0, 6]]),
    (0, 1, "new 10", &[ONE], TEN),
    (0, 1, "new 11", &[ONE], ELEVEN),
    (
        0,
        3,
        "new 10; new 11; new 3",
        &[ONE, TWO, block(3)],
        &[[1, 0, 10], [2, 3, 11], [3, 4, 3]],
    ),
    // the lowest run, not the last hole; the table goes by serial
    (
        0,
        10,
        "new 3; store 0; new 10; store 1; new 3; store 2; load 1; delete; new 11; new 11",
        &[ONE, TWO, block(3), block(4), block(5)],
        &[[1, 0, 3], [3, 4, 3], [4, 1, 11], [5, 2, 11]],
    ),
    // a hole that is too small is passed over
    (
        0,
        7,
        "new 3; store 0; new 3; store 1; load 0; delete; new 10",
        &[ONE, TWO, block(3)],
        &[[2, 1, 3], [3, 2, 10]],
    ),
    // the low hole is taken though a smaller one fits
    (
        0,
        13,
        "new 10; store 0; new 3; store 1; new 3; store 2; new 3; store 3
         load 0; delete; load 2; delete; new 3",
        &[ONE, TWO, block(3), block(4), block(5)],
        &[[2, 3, 3], [4, 5, 3], [5, 0, 3]],
    ),
];

/// "`delete` takes only what `new` gave, else 33; null does nothing."
pub const TAKEN_BACK: [Row; 13] = [
    (0, 2, "new 10; delete", &[], &[]),
    (0, 2, "null; delete", &[], &[]),
    (0, 3, "new 3; new 4; delete", &[ONE], THREE),
    // free cells are zero after a run
    (0, 5, "new 3; copy; push 0; tstore; delete", &[], &[]),
    // and a block given anew is cleared; its serial is a new one
    (
        0,
        9,
        "new 3; store 0; load 0; push 0; tstore; load 0; delete; new 3; tload",
        &[ONE, (3, 0)],
        &[[2, 0, 3]],
    ),
    // twice
    (
        33,
        5,
        "new 3; store 0; load 0; delete; load 0; delete",
        &[ONE, ONE],
        &[],
    ),
    (
        33,
        7,
        "new 3; store 0; load 0; delete; new 3; store 1; load 0; delete",
        &[ONE, TWO, ONE],
        &[[2, 0, 3]],
    ),
    // a field, a slot
    (33, 2, "new 10; flea 0; delete", &[field(1, 0)], TEN),
    (33, 2, "new 11; flea 0; delete", &[field(1, 0)], ELEVEN),
    (33, 3, "push 0; store 0; lea 0; delete", &[INT, SLOT], &[]),
    (31, 1, "push 0; delete", &[INT], &[]),
    (21, 0, "delete", &[], &[]),
    (21, 2, "new 3; store 0; delete", &[ONE], THREE),
];

/// The new numbers, and their order.
pub const RAISED: [Row; 38] = [
    (36, 1, "null; flea 99", &[NULL], &[]),
    (36, 2, "null; push 0; tstore", &[NULL, INT], &[]),
    (36, 2, "null; null; tstore", &[NULL, NULL], &[]),
    (36, 1, "null; tload", &[NULL], &[]),
    (36, 1, "null; inc", &[NULL], &[]),
    (36, 1, "null; dec", &[NULL], &[]),
    (
        33,
        5,
        "new 10; store 0; load 0; delete; load 0; flea 99",
        &[ONE, ONE],
        &[],
    ),
    (
        33,
        7,
        "new 10; store 0; load 0; delete; new 10; pop; load 0; flea 0",
        &[ONE, ONE],
        &[[2, 0, 10]],
    ),
    (
        33,
        6,
        "new 10; store 0; load 0; delete; load 0; push 0; tstore",
        &[ONE, ONE, INT],
        &[],
    ),
    (
        33,
        5,
        "new 3; store 0; load 0; delete; load 0; tload",
        &[ONE, ONE],
        &[],
    ),
    (
        33,
        5,
        "new 3; store 0; load 0; delete; load 0; inc",
        &[ONE, ONE],
        &[],
    ),
    (
        33,
        5,
        "new 10; store 0; load 0; delete; load 0; dec",
        &[ONE, ONE],
        &[],
    ),
    // a field of a block that is gone
    (
        33,
        8,
        "new 10; store 0; load 0; flea 0; store 1; load 0; delete; load 1; tload",
        &[ONE, field(1, 0), field(1, 0)],
        &[],
    ),
    (39, 1, "new 3; flea 99", &[ONE], THREE),
    (39, 1, "new 3; flea 0", &[ONE], THREE),
    (39, 2, "new 10; flea 0; flea 99", &[field(1, 0)], TEN),
    (39, 3, "push 0; store 0; lea 0; flea 0", &[INT, SLOT], &[]),
    (39, 3, "push 0; store 0; lea 0; flea 99", &[INT, SLOT], &[]),
    (39, 3, "new 10; store 0; lea 0; flea 0", &[ONE, SLOT], TEN),
    (38, 1, "new 10; flea 3", &[ONE], TEN),
    (38, 1, "new 10; flea 8", &[ONE], TEN),
    (38, 1, "new 10; flea 65536", &[ONE], TEN),
    (38, 1, "new 11; flea 1", &[ONE], ELEVEN),
    (38, 1, "new 11; flea 4294967295", &[ONE], ELEVEN),
    (31, 1, "push 0; flea 99", &[INT], &[]),
    (21, 0, "flea 99", &[], &[]),
    (50, 1, "new 10; tload", &[ONE], TEN),
    (50, 1, "new 10; inc", &[ONE], TEN),
    (50, 1, "new 11; dec", &[ONE], ELEVEN),
    // 50 before 22
    (50, 2, "new 10; push 0; tstore", &[ONE, INT], TEN),
    (50, 2, "new 10; null; tstore", &[ONE, NULL], TEN),
    (
        50,
        2,
        "new 11; push 2; tstore",
        &[ONE, (6, ONE_AND_A_HALF)],
        ELEVEN,
    ),
    (22, 2, "new 3; push 1; tstore", &[ONE, (4, 5)], THREE),
    (22, 2, "new 3; null; tstore", &[ONE, NULL], THREE),
    (22, 1, "new 3; je 0; @0; pop", &[ONE], THREE),
    (22, 2, "new 3; push 0; swap", &[ONE, INT], THREE),
    // a pointer in a slot
    (32, 3, "null; store 0; lea 0; inc", &[NULL, SLOT], &[]),
    (32, 2, "null; null; add", &[NULL, NULL], &[]),
];

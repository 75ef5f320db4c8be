//! Managed blocks: what document 02's A9 says, with everything that was lent written out.

use super::{block, field, run, Slot, StatedRun, NULL, ONE_AND_A_HALF, START};
use crate::asm;

/// Outcome, steps, the entry's code, the stack, the table.
type Row = (u32, u64, &'static str, &'static [Slot], &'static [[u64; 3]]);

/// A managed pointer to the whole block of a serial; to a field of it.
const fn managed(serial: u64) -> Slot {
    (8, block(serial).1)
}

const fn part(serial: u64, n: u64) -> Slot {
    (8, field(serial, n).1)
}

const GCNULL: Slot = (8, NULL.1);
const INT: Slot = (3, 7);
const ONE: Slot = managed(1);
const TWO: Slot = managed(2);
const THREE: Slot = managed(3);

/// Block 1, managed, of an int; of structure 10.
const INT_1: &[[u64; 3]] = &[[1, 0, 67]];
const TEN_1: &[[u64; 3]] = &[[1, 0, 74]];
/// Block 2, managed, of an int, where block 1 was.
const INT_2: &[[u64; 3]] = &[[2, 0, 67]];

/// "with 64 added to its type"; serials are counted with those of `new`.
const GIVEN: [Row; 9] = [
    (0, 1, "gcnull", &[GCNULL], &[]),
    (0, 1, "gcnew 3", &[ONE], INT_1),
    (0, 1, "gcnew 4", &[ONE], &[[1, 0, 68]]),
    (0, 1, "gcnew 6", &[ONE], &[[1, 0, 70]]),
    (0, 1, "gcnew 10", &[ONE], TEN_1),
    (0, 1, "gcnew 11", &[ONE], &[[1, 0, 75]]),
    (
        0,
        2,
        "new 3; gcnew 3",
        &[block(1), TWO],
        &[[1, 0, 3], [2, 1, 67]],
    ),
    (
        0,
        2,
        "gcnew 3; new 3",
        &[ONE, block(2)],
        &[[1, 0, 67], [2, 1, 3]],
    ),
    (
        0,
        3,
        "gcnew 10; new 11; gcnew 3",
        &[ONE, block(2), THREE],
        &[[1, 0, 74], [2, 3, 11], [3, 4, 67]],
    ),
];

/// "A managed block is listed until freed", which `gcnew` alone does, also where there is room.
const FREED: [Row; 9] = [
    (0, 2, "gcnew 3; pop", &[], INT_1),
    (0, 3, "gcnew 3; pop; gcnew 3", &[TWO], INT_2),
    (0, 4, "gcnew 3; pop; gcnew 3; pop", &[], INT_2),
    (0, 3, "gcnew 3; pop; gcnew 10", &[TWO], &[[2, 0, 74]]),
    // three at once
    (
        0,
        7,
        "gcnew 3; gcnew 4; gcnew 6; pop; pop; pop; gcnew 11",
        &[managed(4)],
        &[[4, 0, 75]],
    ),
    // `new` does not
    (
        0,
        3,
        "gcnew 3; pop; new 3",
        &[block(2)],
        &[[1, 0, 67], [2, 1, 3]],
    ),
    // `ret` does not
    (
        0,
        4,
        "call 0; function void (): gcnew 3; store 0; ret",
        &[],
        INT_1,
    ),
    (
        0,
        5,
        "call 0; gcnew 11; function void (): gcnew 3; store 0; ret",
        &[TWO],
        &[[2, 0, 75]],
    ),
    // a cell that is given again is cleared
    (
        0,
        5,
        "gcnew 3; inc; gcnew 3; copy; tload",
        &[TWO, (3, 0)],
        INT_2,
    ),
];

/// "it is dead when no type 8 slot below the height holds its serial"
const HELD: [Row; 13] = [
    // an operand, one of two
    (
        0,
        4,
        "gcnew 3; copy; pop; gcnew 3",
        &[ONE, TWO],
        &[[1, 0, 67], [2, 1, 67]],
    ),
    // the other one of two
    (
        0,
        5,
        "gcnew 3; gcnew 3; swap; pop; gcnew 3",
        &[TWO, THREE],
        &[[2, 1, 67], [3, 0, 67]],
    ),
    // a local
    (
        0,
        3,
        "gcnew 3; store 0; gcnew 11",
        &[ONE, TWO],
        &[[1, 0, 67], [2, 1, 75]],
    ),
    // a local that gets another one
    (
        0,
        5,
        "gcnew 3; store 0; gcnew 3; store 0; gcnew 3",
        &[TWO, THREE],
        &[[2, 1, 67], [3, 0, 67]],
    ),
    // a buried slot
    (
        0,
        4,
        "gcnew 3; gcnew 3; store 0; gcnew 3",
        &[ONE, TWO, THREE],
        &[[1, 0, 67], [2, 1, 67], [3, 2, 67]],
    ),
    // a field's pointer
    (
        0,
        3,
        "gcnew 10; flea 1; gcnew 3",
        &[part(1, 1), TWO],
        &[[1, 0, 74], [2, 3, 67]],
    ),
    (0, 4, "gcnew 10; flea 1; pop; gcnew 3", &[TWO], INT_2),
    // a caller's operand, with a dead block left by the call
    (
        0,
        5,
        "gcnew 3; call 0; function void (): gcnew 3; pop; ret",
        &[ONE],
        &[[1, 0, 67], [2, 1, 67]],
    ),
    // a caller's buried slot
    (
        0,
        7,
        "gcnew 3; gcnull; store 0; call 0; function void (): gcnew 3; pop; ret",
        &[ONE, GCNULL],
        &[[1, 0, 67], [2, 1, 67]],
    ),
    // an argument
    (
        0,
        6,
        "gcnew 10; call 0; function gc*10 (gc*10): gcnew 3; pop; load 0; ret",
        &[ONE],
        &[[1, 0, 74], [2, 3, 67]],
    ),
    // what comes back
    (
        0,
        4,
        "call 0; gcnew 3; function gc*10 (): gcnew 10; ret",
        &[ONE, TWO],
        &[[1, 0, 74], [2, 3, 67]],
    ),
    // a slot that another pointer is stored to
    (
        0,
        6,
        "gcnew 3; store 0; lea 0; gcnew 3; tstore; gcnew 3",
        &[TWO, THREE],
        &[[2, 1, 67], [3, 0, 67]],
    ),
    // gcnull holds nothing
    (0, 4, "gcnew 3; pop; gcnull; gcnew 3", &[GCNULL, TWO], INT_2),
];

/// "`delete` of type 8 is 31.", before any look at the block.
const DELETED: [Row; 6] = [
    (31, 1, "gcnew 3; delete", &[ONE], INT_1),
    (31, 1, "gcnull; delete", &[GCNULL], &[]),
    (31, 2, "gcnew 10; flea 0; delete", &[part(1, 0)], TEN_1),
    (21, 2, "gcnew 3; store 0; delete", &[ONE], INT_1),
    (0, 3, "gcnew 3; null; delete", &[ONE], INT_1),
    (0, 3, "gcnew 3; new 3; delete", &[ONE], INT_1),
];

/// 7 and 8 are two type numbers.
const ACROSS: [Row; 26] = [
    (22, 2, "gcnull; null; cmp", &[GCNULL, NULL], &[]),
    (22, 2, "null; gcnull; cmp", &[NULL, GCNULL], &[]),
    (22, 2, "gcnull; null; icmp", &[GCNULL, NULL], &[]),
    (
        22,
        2,
        "new 3; gcnew 3; icmp",
        &[block(1), TWO],
        &[[1, 0, 3], [2, 1, 67]],
    ),
    (22, 2, "gcnull; push 0; cmp", &[GCNULL, INT], &[]),
    (22, 2, "null; gcnull; swap", &[NULL, GCNULL], &[]),
    (
        22,
        3,
        "null; store 0; gcnull; store 0",
        &[NULL, GCNULL],
        &[],
    ),
    (
        22,
        3,
        "gcnew 3; store 0; new 3; store 0",
        &[ONE, block(2)],
        &[[1, 0, 67], [2, 1, 3]],
    ),
    // to a function and back
    (
        22,
        1,
        "null; call 0; function void (gc*10): ret",
        &[NULL],
        &[],
    ),
    (
        22,
        1,
        "gcnull; call 0; function void (*10): ret",
        &[GCNULL],
        &[],
    ),
    (0, 3, "gcnull; call 0; function void (gc*10): ret", &[], &[]),
    (
        0,
        3,
        "gcnew 10; call 0; function void (gc*int): ret",
        &[],
        TEN_1,
    ),
    (22, 2, "call 0; function gc*10 (): null; ret", &[NULL], &[]),
    (
        22,
        2,
        "call 0; function *10 (): gcnull; ret",
        &[GCNULL],
        &[],
    ),
    (
        0,
        3,
        "call 0; function gc*10 (): gcnull; ret",
        &[GCNULL],
        &[],
    ),
    (
        0,
        3,
        "call 0; function gc*int (): gcnew 10; ret",
        &[ONE],
        TEN_1,
    ),
    // 32 before 22
    (32, 2, "gcnull; push 0; add", &[GCNULL, INT], &[]),
    (32, 2, "push 0; gcnull; imod", &[INT, GCNULL], &[]),
    (32, 2, "gcnull; null; xor", &[GCNULL, NULL], &[]),
    (32, 1, "gcnull; neg", &[GCNULL], &[]),
    (32, 1, "gcnew 3; toi", &[ONE], INT_1),
    (22, 1, "gcnull; je 0; @0; null", &[GCNULL], &[]),
    // through a pointer to a slot
    (
        22,
        4,
        "null; store 0; lea 0; gcnull; tstore",
        &[NULL, (7, 0), GCNULL],
        &[],
    ),
    (
        22,
        4,
        "push 0; store 0; lea 0; gcnull; tstore",
        &[INT, (7, 0), GCNULL],
        &[],
    ),
    (
        0,
        4,
        "gcnull; store 0; lea 0; tload",
        &[GCNULL, GCNULL],
        &[],
    ),
    (32, 3, "gcnull; store 0; lea 0; inc", &[GCNULL, (7, 0)], &[]),
];

/// Managed pointers are followed as others are.
const FOLLOWED: [Row; 20] = [
    (36, 1, "gcnull; tload", &[GCNULL], &[]),
    (36, 1, "gcnull; flea 99", &[GCNULL], &[]),
    (36, 1, "gcnull; inc", &[GCNULL], &[]),
    (36, 1, "gcnull; dec", &[GCNULL], &[]),
    (36, 2, "gcnull; push 0; tstore", &[GCNULL, INT], &[]),
    (36, 2, "gcnull; null; tstore", &[GCNULL, NULL], &[]),
    (39, 1, "gcnew 3; flea 0", &[ONE], INT_1),
    (39, 2, "gcnew 10; flea 0; flea 9", &[part(1, 0)], TEN_1),
    (38, 1, "gcnew 10; flea 3", &[ONE], TEN_1),
    (38, 1, "gcnew 11; flea 1", &[ONE], &[[1, 0, 75]]),
    (50, 1, "gcnew 10; tload", &[ONE], TEN_1),
    (50, 1, "gcnew 10; dec", &[ONE], TEN_1),
    (50, 2, "gcnew 10; gcnull; tstore", &[ONE, GCNULL], TEN_1),
    (22, 2, "gcnew 3; push 1; tstore", &[ONE, (4, 5)], INT_1),
    (22, 2, "gcnew 3; gcnull; tstore", &[ONE, GCNULL], INT_1),
    (31, 2, "push 0; gcnull; tstore", &[INT, GCNULL], &[]),
    (0, 2, "gcnew 10; flea 0", &[part(1, 0)], TEN_1),
    (0, 2, "gcnew 10; flea 2", &[part(1, 2)], TEN_1),
    (0, 2, "gcnew 3; tload", &[(3, 0)], INT_1),
    (0, 3, "gcnew 11; flea 0; tload", &[(6, 0)], &[[1, 0, 75]]),
];

fn of_row(&(answer, steps, code, stack, table): &Row) -> StatedRun {
    run(answer, steps, code, stack, table)
}

pub fn cases() -> Vec<StatedRun> {
    let rows = GIVEN.iter().chain(&FREED).chain(&HELD);
    let rows = rows.chain(&DELETED).chain(&ACROSS).chain(&FOLLOWED);
    let mut all: Vec<StatedRun> = rows.map(of_row).collect();
    all.extend(compared());
    all.extend(changed());
    all.extend(numbers());
    all.extend(order());
    all.extend(short());
    all.extend(packed());
    all.extend(packed_and_freed());
    all.extend(moved());
    all.extend(host());
    all
}

/// "`cmp` and `icmp` on pointers go by payload, unsigned."
fn compared() -> Vec<StatedRun> {
    let (less, equal, greater) = ((3, 0xFFFF_FFFF), (3, 0), (3, 1));
    let mut all = Vec::new();
    for op in ["cmp", "icmp"] {
        for (code, steps, order, table) in [
            ("gcnull; gcnew 3", 3, greater, INT_1),
            ("gcnew 3; gcnull", 3, less, INT_1),
            ("gcnull; gcnull", 3, equal, &[]),
            ("gcnew 3; gcnew 3", 3, less, &[[1, 0, 67], [2, 1, 67]]),
            ("gcnew 3; copy", 3, equal, INT_1),
            ("gcnew 10; copy; flea 0", 4, less, TEN_1),
        ] {
            all.push(run(0, steps, &format!("{code}; {op}"), &[order], table));
        }
    }
    all
}

/// Cells of managed blocks hold payloads as slots do.
fn changed() -> Vec<StatedRun> {
    let three = "gcnew 10; store 0; load 0; flea 0; push 0; tstore
        load 0; flea 1; push 2; tstore; load 0; flea 2; push 1; tstore";
    let cells = [(0, 7), (1, ONE_AND_A_HALF), (2, 5)];
    vec![
        run(0, 2, "gcnew 3; dec", &[], INT_1).cells(&[(0, 0xFFFF_FFFF)]),
        run(0, 2, "gcnew 4; dec", &[], &[[1, 0, 68]]).cells(&[(0, u64::MAX)]),
        run(0, 2, "gcnew 6; inc", &[], &[[1, 0, 70]]).cells(&[(0, 0x3FF0_0000_0000_0000)]),
        run(0, 14, three, &[ONE], TEN_1).cells(&cells),
        run(
            0,
            17,
            &format!("{three}; load 0; flea 1; tload"),
            &[ONE, (6, ONE_AND_A_HALF)],
            TEN_1,
        )
        .cells(&cells),
        // a dead block keeps its payloads until it is freed; then its cells are zero
        run(
            0,
            17,
            &format!("{three}; gcnew 10; store 0; gcnull"),
            &[TWO, GCNULL],
            &[[1, 0, 74], [2, 3, 74]],
        )
        .cells(&cells),
        run(
            0,
            17,
            &format!("{three}; gcnew 10; store 0; gcnew 11"),
            &[TWO, THREE],
            &[[2, 3, 74], [3, 0, 75]],
        ),
    ]
}

/// A slot of another type holds nothing, whatever its payload.
fn numbers() -> Vec<StatedRun> {
    let mut all = Vec::new();
    for (constant, slot) in [
        ("long 65536", (4, 65_536)),
        ("long 65537", (4, 65_537)),
        ("int 65536", (3, 65_536)),
        ("double #0000000000010000", (6, 65_536)),
    ] {
        let text = format!("edition 4; {constant}; entry: gcnew 3; pop; push 0; gcnew 3");
        all.push(StatedRun {
            name: format!("{constant} is no pointer to block 1"),
            file: asm::file(&text),
            ..run(0, 4, "", &[slot, TWO], INT_2)
        });
    }
    all
}

/// 37, then 20, "leaves the state as before it": nothing is freed.
fn order() -> Vec<StatedRun> {
    let mut all = vec![
        run(20, 0, "gcnew 3", &[], &[]).slots(0),
        run(20, 0, "gcnull", &[], &[]).slots(0),
        run(20, 3, "gcnew 3; pop; push 0; gcnew 3", &[INT], INT_1).slots(1),
        run(20, 1, "gcnew 3; gcnull", &[ONE], INT_1).slots(1),
        run(37, 2, "gcnew 3; pop; gcnew 9", &[], INT_1),
        run(37, 3, "gcnew 3; pop; push 0; gcnew 9", &[INT], INT_1).slots(1),
        run(15, 2, "gcnew 3; pop; gcnew 3", &[], INT_1).allowed(2),
        run(15, 0, "gcnew 3", &[], &[]).allowed(0),
        run(0, 2, "gcnew 10; flea 2", &[part(1, 2)], TEN_1).slots(1),
    ];
    for ty in [
        0,
        1,
        2,
        5,
        7,
        8,
        9,
        12,
        26,
        67,
        74,
        128,
        131,
        138,
        192,
        195,
        202,
        259,
        266,
        u32::MAX,
    ] {
        all.push(run(37, 0, &format!("gcnew {ty}"), &[], &[]));
        all.push(run(37, 0, &format!("gcnew {ty}"), &[], &[]).slots(0));
    }
    all
}

/// Freeing is enough, or nothing is; null uses no serial.
fn short() -> Vec<StatedRun> {
    vec![
        run(0, 1, "gcnew 3", &[GCNULL], &[]).on(0),
        run(0, 1, "gcnew 10", &[GCNULL], &[]).on(2),
        run(0, 1, "gcnew 10", &[ONE], TEN_1).on(3),
        run(0, 3, "gcnew 10; pop; gcnew 10", &[TWO], &[[2, 0, 74]]).on(3),
        run(0, 2, "gcnew 10; gcnew 10", &[ONE, GCNULL], TEN_1).on(3),
        run(
            0,
            5,
            "gcnew 10; gcnew 10; pop; pop; gcnew 10",
            &[TWO],
            &[[2, 0, 74]],
        )
        .on(3),
        // what is dead is freed though null is given
        run(
            0,
            4,
            "new 11; gcnew 11; pop; gcnew 10",
            &[block(1), GCNULL],
            &[[1, 0, 11]],
        )
        .on(3),
        run(0, 2, "new 10; gcnew 3", &[block(1), GCNULL], &[[1, 0, 10]]).on(3),
        // `new` gives null while a dead block fills the heap
        run(0, 3, "gcnew 10; pop; new 3", &[NULL], TEN_1).on(3),
        // and takes the cells once they are free
        run(
            0,
            6,
            "gcnew 10; pop; gcnew 3; pop; new 10; new 11",
            &[NULL, block(3)],
            &[[2, 0, 67], [3, 1, 11]],
        )
        .on(3),
    ]
}

/// Ints 1 and 2, a long 5 as block 3, an int 7 as managed block 4 in the place of 1; 2 is deleted.
/// Cells 0 and 2 are taken, 1 is free.
const MIXED: &str = "new 3; store 0; new 3; store 1; new 4; store 2; load 2; push 1; tstore
    load 0; delete; gcnew 3; store 3; load 3; push 0; tstore; load 1; delete";

/// "then packs the rest, managed or not, toward cell 0 in serial order if no run is long enough"
fn packed() -> Vec<StatedRun> {
    let stack = |top: Slot| [block(1), block(2), block(3), managed(4), top];
    let given = |cells: usize, op: &str, top: Slot, table: &[[u64; 3]]| {
        run(0, 19, &format!("{MIXED}; {op}"), &stack(top), table).on(cells)
    };
    let there = [(2, 5), (0, 7)];
    let packed = [(0, 5), (1, 7)];
    vec![
        // three free cells apart: packed by serial, so that block 4 moves up
        given(
            5,
            "gcnew 10",
            managed(5),
            &[[3, 0, 4], [4, 1, 67], [5, 2, 74]],
        )
        .cells(&packed),
        // a run is long enough: nothing moves
        given(
            6,
            "gcnew 10",
            managed(5),
            &[[3, 2, 4], [4, 0, 67], [5, 3, 74]],
        )
        .cells(&there),
        given(
            5,
            "gcnew 11",
            managed(5),
            &[[3, 2, 4], [4, 0, 67], [5, 1, 75]],
        )
        .cells(&there),
        // two free cells: packed all the same, and null
        given(4, "gcnew 10", GCNULL, &[[3, 0, 4], [4, 1, 67]]).cells(&packed),
        given(3, "gcnew 10", GCNULL, &[[3, 0, 4], [4, 1, 67]]).cells(&packed),
        // `new` does not pack
        given(5, "new 10", NULL, &[[3, 2, 4], [4, 0, 67]]).cells(&there),
        given(4, "new 10", NULL, &[[3, 2, 4], [4, 0, 67]]).cells(&there),
    ]
}

/// Packing where dead blocks were; what is given then.
fn packed_and_freed() -> Vec<StatedRun> {
    vec![
        // a dead block before one that is not managed
        run(
            0,
            4,
            "gcnew 11; pop; new 11; gcnew 10",
            &[block(2), THREE],
            &[[2, 0, 11], [3, 1, 74]],
        )
        .on(4),
        // on a longer heap the hole stays, and is given next
        run(
            0,
            6,
            "gcnew 11; pop; new 11; gcnew 10; gcnew 11; new 11",
            &[block(2), THREE, managed(4), block(5)],
            &[[2, 1, 11], [3, 2, 74], [4, 0, 75], [5, 5, 11]],
        )
        .on(6),
        // after packing, what is given next lies behind
        run(
            0,
            7,
            "gcnew 11; pop; new 11; gcnew 10; pop; gcnew 11; new 11",
            &[block(2), managed(4), block(5)],
            &[[2, 0, 11], [4, 1, 75], [5, 2, 11]],
        )
        .on(4),
    ]
}

/// "Packing changes no payload and no value read through a pointer."
fn moved() -> Vec<StatedRun> {
    let double = "gcnew 3; gcnew 6; swap; pop; copy; push 2; tstore; gcnew 10";
    let field = "gcnew 3; gcnew 10; swap; pop; flea 1; copy; push 2; tstore; gcnew 10";
    let after = [[2, 0, 70], [3, 1, 74]];
    let fields = [[2, 0, 74], [3, 3, 74]];
    let number = (6, ONE_AND_A_HALF);
    vec![
        run(0, 8, double, &[TWO, THREE], &after)
            .cells(&[(0, ONE_AND_A_HALF)])
            .on(4),
        run(
            0,
            10,
            &format!("{double}; swap; tload"),
            &[THREE, number],
            &after,
        )
        .cells(&[(0, ONE_AND_A_HALF)])
        .on(4),
        run(0, 9, field, &[part(2, 1), THREE], &fields)
            .cells(&[(1, ONE_AND_A_HALF)])
            .on(6),
        run(0, 11, &format!("{field}; pop; tload"), &[number], &fields)
            .cells(&[(1, ONE_AND_A_HALF)])
            .on(6),
        // what is written after packing goes where the block is now
        run(
            0,
            14,
            &format!("{field}; swap; inc; flea 2; push 1; tstore"),
            &[],
            &fields,
        )
        .cells(&[(1, 0x4004_0000_0000_0000), (5, 5)])
        .on(6),
    ]
}

/// "functions may take and return": a host's run of one that takes them is 13.
fn host() -> Vec<StatedRun> {
    let mut given = run(
        0,
        2,
        "call 0; function gc*10 (): gcnew 10; ret",
        &[ONE],
        TEN_1,
    );
    given.function = 0;
    let mut all = vec![given];
    for ty in ["gc*int", "gc*long", "gc*double", "gc*10", "gc*11"] {
        for args in [
            &[][..],
            &[GCNULL],
            &[(0xC3, NULL.1)],
            &[(0xCA, NULL.1)],
            &[(0xC0, NULL.1)],
            &[(4, 5)],
        ] {
            let mut stated = run(
                13,
                0,
                &format!("function int ({ty}): push 0; ret"),
                &[],
                &[],
            );
            (stated.function, stated.left, stated.args) = (0, None, args.to_vec());
            all.push(stated);
        }
    }
    // the type byte as declared, beside a number
    let text = format!("{START} function int (int, gc*10): load 0; ret");
    let mut both = run(13, 0, "", &[], &[]);
    both.file = asm::file(&text);
    (both.function, both.left) = (0, None);
    both.args = vec![INT, (0xCA, NULL.1)];
    all.push(both);
    all
}

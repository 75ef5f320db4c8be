//! Runs on a lent heap with their answers stated: what document 02's A6 says of outcome, steps,
//! stack, cells and table, with everything that was lent written out. `profiles` has what A7 says,
//! `ranges` what A8 says, `managed` what A9 says.

mod managed;
mod profiles;
mod ranges;
mod rows;

use crate::asm;
use crate::compare::run_difference;
use crate::gen::case::{HEIGHT_BEFORE, STEPS_BEFORE};
use crate::memory::{Lent, RunMemory, Start};
use crate::reader::ENTRY;
use crate::subject::Subject;
use rows::{Row, GIVEN, RAISED, TAKEN_BACK};

/// A slot, as type and payload.
type Slot = (u8, u64);

/// One run and what it must give.
#[derive(Clone)]
pub struct StatedRun {
    pub name: String,
    pub file: Vec<u8>,
    pub function: u32,
    pub args: Vec<Slot>,
    pub profile: u32,
    pub allowance: u64,
    pub slots: usize,
    /// Bytes of heap and of table that are lent.
    pub heap: usize,
    pub blocks: usize,
    pub answer: u32,
    pub left: Option<Left>,
}

/// What a run leaves; a refusal leaves everything as it was.
#[derive(Clone)]
pub struct Left {
    pub steps: u64,
    pub stack: Vec<Slot>,
    /// Serial, first cell and type of each live block, as in the table.
    pub table: Vec<[u64; 3]>,
    /// Cells that are not zero.
    pub cells: Vec<(usize, u64)>,
    /// How many cells and entries are the run's.
    pub capacity: usize,
}

/// No byte is 0, so that each zeroed byte is seen.
pub(super) fn filled(len: usize) -> Vec<u8> {
    (0..len).map(|n| 0x80 | (7 * n) as u8).collect()
}

fn put(bytes: &mut [u8], words: impl IntoIterator<Item = u64>) {
    for (bytes, word) in bytes.chunks_exact_mut(8).zip(words) {
        bytes.copy_from_slice(&word.to_le_bytes());
    }
}

impl Left {
    /// The lent memory afterwards.
    fn write(&self, memory: &mut RunMemory) {
        let RunMemory {
            payloads, types, ..
        } = memory;
        self.write_slots(payloads.slice_mut(), types.slice_mut());
        let RunMemory { heap, blocks, .. } = memory;
        self.write_heap(heap.slice_mut(), blocks.slice_mut());
        memory.steps = self.steps;
        memory.height = self.stack.len() as u64;
    }

    /// The slots afterwards, all of which are the run's.
    pub(super) fn write_slots(&self, payloads: &mut [u8], types: &mut [u8]) {
        payloads.fill(0);
        types.fill(0);
        put(payloads, self.stack.iter().map(|slot| slot.1));
        for (byte, slot) in types.iter_mut().zip(&self.stack) {
            *byte = slot.0;
        }
    }

    /// The heap afterwards.
    pub(super) fn write_heap(&self, heap: &mut [u8], blocks: &mut [u8]) {
        let cells = &mut heap[..8 * self.capacity];
        cells.fill(0);
        for &(cell, payload) in &self.cells {
            put(&mut cells[8 * cell..], [payload]);
        }
        let table = &mut blocks[..24 * self.capacity];
        table.fill(0);
        put(table, self.table.iter().flatten().copied());
    }
}

impl StatedRun {
    fn memory(&self) -> RunMemory {
        let types: Vec<u8> = self.args.iter().map(|arg| arg.0).collect();
        let payloads: Vec<u8> = self
            .args
            .iter()
            .flat_map(|arg| arg.1.to_le_bytes())
            .collect();
        RunMemory {
            module: Lent::new(&self.file, 1),
            arg_types: Lent::new(&types, 2),
            arg_payloads: Lent::new(&payloads, 3),
            payloads: Lent::new(&filled(8 * self.slots), 4),
            types: Lent::new(&filled(self.slots), 5),
            heap: Lent::new(&filled(self.heap), 6),
            blocks: Lent::new(&filled(self.blocks), 7),
            steps: STEPS_BEFORE,
            height: HEIGHT_BEFORE,
        }
    }

    /// What a subject gives instead, in words; nothing if it is as stated.
    pub fn difference(&self, subject: &mut dyn Subject) -> Option<String> {
        let mut memory = self.memory();
        let mut wanted = memory.clone();
        if let Some(left) = &self.left {
            left.write(&mut wanted);
        }
        let start = Start {
            function: self.function,
            profile: self.profile,
            allowance: self.allowance,
        };
        let answer = subject.run(start, &mut memory);
        if answer == self.answer && memory == wanted {
            return None;
        }
        Some(format!(
            "{}: answers {} and {answer}{}",
            self.name,
            self.answer,
            run_difference(&wanted, &memory)
        ))
    }
}

/// Every stated run.
pub fn all() -> Vec<StatedRun> {
    let rows = GIVEN.iter().chain(&TAKEN_BACK).chain(&RAISED);
    let mut all: Vec<StatedRun> = rows.map(of_row).collect();
    all.extend(without_room());
    all.extend(followed());
    all.extend(type_numbers());
    all.extend(compared());
    all.extend(functions());
    all.extend(capacities());
    all.extend(other_editions());
    all.extend(profiles::cases());
    all.extend(ranges::cases());
    all.extend(managed::cases());
    all
}

/// Constants int 7, long 5, double 1.5; structure 10 of an int, a double and a long, structure 11
/// of a double.
const START: &str =
    "edition 4; int 7; long 5; double 1.5; structure int, double, long; structure double; entry:";

/// Cells and entries, where nothing else is said.
const CELLS: usize = 8;
const SLOTS: usize = 8;

const NULL: Slot = (7, u64::MAX);
const ONE_AND_A_HALF: u64 = 0x3FF8_0000_0000_0000;

/// The whole block of a serial; a field of it.
const fn block(serial: u64) -> Slot {
    (7, serial * 65_536)
}

const fn field(serial: u64, field: u64) -> Slot {
    (7, serial * 65_536 + 1 + field)
}

/// A run of the entry with this code.
fn run(answer: u32, steps: u64, code: &str, stack: &[Slot], table: &[[u64; 3]]) -> StatedRun {
    StatedRun {
        name: format!("edition 4: {code}"),
        file: asm::file(&format!("{START} {code}")),
        function: ENTRY,
        args: Vec::new(),
        profile: 0,
        allowance: 1000,
        slots: SLOTS,
        heap: 8 * CELLS,
        blocks: 24 * CELLS,
        answer,
        left: Some(Left {
            steps,
            stack: stack.to_vec(),
            table: table.to_vec(),
            cells: Vec::new(),
            capacity: CELLS,
        }),
    }
}

impl StatedRun {
    /// With this in cells.
    fn cells(mut self, cells: &[(usize, u64)]) -> StatedRun {
        if let Some(left) = &mut self.left {
            left.cells = cells.to_vec();
        }
        self
    }

    /// On a heap of this many cells.
    fn on(self, cells: usize) -> StatedRun {
        self.lent(8 * cells, 24 * cells, cells)
    }

    /// On this many bytes of heap and of table, of which so many cells and entries are used.
    fn lent(mut self, heap: usize, blocks: usize, capacity: usize) -> StatedRun {
        self.name = format!("{} ({heap} heap bytes, {blocks} block bytes)", self.name);
        (self.heap, self.blocks) = (heap, blocks);
        if let Some(left) = &mut self.left {
            left.capacity = capacity;
        }
        self
    }

    fn slots(mut self, slots: usize) -> StatedRun {
        self.name = format!("{} ({slots} slots)", self.name);
        self.slots = slots;
        self
    }

    fn allowed(mut self, allowance: u64) -> StatedRun {
        self.name = format!("{} (allowance {allowance})", self.name);
        self.allowance = allowance;
        self
    }
}

fn of_row(&(answer, steps, code, stack, table): &Row) -> StatedRun {
    run(answer, steps, code, stack, table)
}

/// "it gives null exactly when there is none"; with 20 or 15 nothing is given.
fn without_room() -> Vec<StatedRun> {
    let hole = "new 3; store 0; new 3; store 1; load 0; delete; new 10; new 3";
    let three = [[1, 0, 3]];
    vec![
        // no run is long enough, though cells are free; null uses no serial
        run(
            0,
            8,
            hole,
            &[block(1), block(2), NULL, block(3)],
            &[[2, 1, 3], [3, 0, 3]],
        )
        .on(3),
        run(0, 1, "new 10", &[block(1)], &[[1, 0, 10]]).on(3),
        run(0, 1, "new 10", &[NULL], &[]).on(2),
        run(0, 1, "new 3", &[NULL], &[]).on(0),
        run(0, 2, "new 11; new 11", &[block(1), NULL], &[[1, 0, 11]]).on(1),
        run(20, 0, "new 3", &[], &[]).slots(0),
        run(20, 0, "null", &[], &[]).slots(0),
        run(20, 1, "new 3; new 10", &[block(1)], &three).slots(1),
        run(15, 1, "new 3; new 3", &[block(1)], &three).allowed(1),
        run(15, 0, "new 3", &[], &[]).allowed(0),
    ]
}

/// Cells hold payloads as slots do.
fn followed() -> Vec<StatedRun> {
    let three = "new 10; store 0; load 0; flea 0; push 0; tstore
        load 0; flea 1; push 2; tstore; load 0; flea 2; push 1; tstore";
    let cells = [(0, 7), (1, ONE_AND_A_HALF), (2, 5)];
    vec![
        run(0, 2, "new 10; flea 0", &[field(1, 0)], &[[1, 0, 10]]),
        run(0, 2, "new 10; flea 2", &[field(1, 2)], &[[1, 0, 10]]),
        run(0, 2, "new 10; flea 2", &[field(1, 2)], &[[1, 0, 10]]).slots(1),
        run(0, 14, three, &[block(1)], &[[1, 0, 10]]).cells(&cells),
        run(
            0,
            17,
            &format!("{three}; load 0; flea 1; tload"),
            &[block(1), (6, ONE_AND_A_HALF)],
            &[[1, 0, 10]],
        )
        .cells(&cells),
        run(0, 2, "new 6; tload", &[(6, 0)], &[[1, 0, 6]]),
        run(0, 3, "new 4; push 1; tstore", &[], &[[1, 0, 4]]).cells(&[(0, 5)]),
        // an int's upper half is zero
        run(0, 2, "new 3; dec", &[], &[[1, 0, 3]]).cells(&[(0, 0xFFFF_FFFF)]),
        run(0, 2, "new 4; dec", &[], &[[1, 0, 4]]).cells(&[(0, u64::MAX)]),
        run(0, 2, "new 6; inc", &[], &[[1, 0, 6]]).cells(&[(0, 0x3FF0_0000_0000_0000)]),
        run(
            0,
            6,
            "new 3; new 10; flea 2; inc; new 3; inc",
            &[block(1)],
            &[[1, 0, 3], [2, 1, 10], [3, 4, 3]],
        )
        .cells(&[(3, 1), (4, 1)]),
        // a double keeps its bits
        StatedRun {
            file: asm::file("edition 4; double #FFF00000DEADBEEF; entry: new 6; push 0; tstore"),
            name: "edition 4: a NaN in a cell".to_string(),
            ..run(0, 3, "", &[], &[[1, 0, 6]]).cells(&[(0, 0xFFF0_0000_DEAD_BEEF)])
        },
    ]
}

/// 37 with numbers out of range: before 20.
fn type_numbers() -> Vec<StatedRun> {
    let mut all = Vec::new();
    for ty in [
        0,
        1,
        2,
        5,
        7,
        8,
        9,
        12,
        26,
        128,
        131,
        138,
        259,
        266,
        u32::MAX,
    ] {
        all.push(run(37, 0, &format!("new {ty}"), &[], &[]));
        all.push(run(37, 0, &format!("new {ty}"), &[], &[]).slots(0));
    }
    all
}

/// "`cmp` and `icmp` on pointers go by payload, unsigned."
fn compared() -> Vec<StatedRun> {
    let (less, equal, greater) = ((3, 0xFFFF_FFFF), (3, 0), (3, 1));
    let one = [[1, 0, 3]];
    let mut all = Vec::new();
    for op in ["cmp", "icmp"] {
        for (code, steps, order, table) in [
            ("null; new 3", 3, greater, &one[..]),
            ("new 3; null", 3, less, &one),
            ("null; null", 3, equal, &[]),
            ("new 3; new 3", 3, less, &[[1, 0, 3], [2, 1, 3]]),
            ("new 3; copy", 3, equal, &one),
            ("new 10; copy; flea 0", 4, less, &[[1, 0, 10]]),
        ] {
            all.push(run(0, steps, &format!("{code}; {op}"), &[order], table));
        }
        let slot = format!("push 0; store 0; lea 0; new 3; {op}");
        all.push(run(0, 5, &slot, &[(3, 7), less], &one));
        let number = format!("null; push 0; {op}");
        all.push(run(22, 2, &number, &[NULL, (3, 7)], &[]));
    }
    all
}

/// Pointers to structures go to functions and come back; blocks outlive them.
fn functions() -> Vec<StatedRun> {
    let given = "call 0; function *10 (): new 10; ret";
    let filled = "call 0; copy; call 1; flea 0; tload
        function *10 (): new 10; ret
        function void (*10): load 0; flea 0; push 0; tstore; ret";
    let ten = [[1, 0, 10]];
    // a pointer to a slot that is gone: it leads to no slot
    let stale = "push 0; store 0; lea 0; store 1; lea 1; call 0; load 1; flea 0
        function void (*int): load 0; lea 0; tstore; ret";
    let mut host = run(0, 2, given, &[block(1)], &ten);
    host.function = 0;
    let mut pointer = run(13, 0, filled, &[], &[]);
    (pointer.function, pointer.left) = (1, None);
    let mut missing = run(12, 0, given, &[], &[]);
    (missing.function, missing.left) = (1, None);
    let mut argument = pointer.clone();
    argument.args = vec![NULL];
    vec![
        run(0, 3, given, &[block(1)], &ten),
        run(0, 12, filled, &[(3, 7)], &ten).cells(&[(0, 7)]),
        run(33, 11, stale, &[(3, 7), (7, 2), (7, 2)], &[]),
        // any pointer is a pointer
        run(0, 3, "null; call 0; function void (*10): ret", &[], &[]).allowed(3),
        run(0, 3, "call 0; function *10 (): null; ret", &[NULL], &[]),
        run(
            22,
            2,
            "call 0; function *10 (): push 0; ret",
            &[(3, 7)],
            &[],
        ),
        host,
        pointer,
        argument,
        missing,
    ]
}

/// "capacity is the smaller count, at most 4,096, the rest untouched"
fn capacities() -> Vec<StatedRun> {
    let four = "new 3; new 3; new 3; new 3";
    let three = [block(1), block(2), block(3), NULL];
    let table = [[1, 0, 3], [2, 1, 3], [3, 2, 3]];
    let lent = |heap, blocks, capacity: usize| {
        let mut stack = three;
        if capacity == 2 {
            stack[2] = NULL;
        }
        run(0, 4, four, &stack, &table[..capacity.min(3)]).lent(heap, blocks, capacity)
    };
    let one = |cells: usize, entries: usize| {
        run(0, 1, "new 3", &[block(1)], &[[1, 0, 3]]).lent(
            8 * cells,
            24 * entries,
            cells.min(entries).min(4096),
        )
    };
    let mut all = vec![
        lent(24, 72, 3),
        lent(8 * 5 + 3, 72, 3),
        lent(24, 24 * 5 + 23, 3),
        lent(8 * 3 + 7, 72 + 23, 3),
        lent(24, 71, 2),
        lent(23, 72, 2),
        run(0, 1, "new 3", &[NULL], &[]).lent(7, 72, 0),
        run(0, 1, "new 3", &[NULL], &[]).lent(24, 23, 0),
        run(0, 1, "new 3", &[NULL], &[]).lent(0, 72, 0),
        run(0, 1, "new 3", &[NULL], &[]).lent(24, 0, 0),
    ];
    for (cells, entries) in [(4096, 4096), (4097, 4097), (5000, 4098), (4095, 4100)] {
        all.push(one(cells, entries));
    }
    all
}

/// "After a run ... other entries and free cells are zero.", of any edition; a refusal leaves all.
fn other_editions() -> Vec<StatedRun> {
    let mut all = Vec::new();
    for edition in ["edition 1;", "", "edition 4;"] {
        let file = asm::file(&format!(
            "{edition} int 7; entry: push 0; push 0; function int (int): load 0; ret"
        ));
        let named = |name: &str, run: StatedRun| StatedRun {
            name: format!("{name} ({edition})"),
            file: file.clone(),
            ..run
        };
        let two = [(3, 7), (3, 7)];
        all.push(named("a lent heap", run(0, 2, "", &two, &[])));
        all.push(named("no heap", run(0, 2, "", &two, &[]).on(0)));
        let parts = run(0, 2, "", &two, &[]).lent(8 * 3 + 1, 24 * 2 + 5, 2);
        all.push(named("parts of a heap", parts));
        all.push(named("overflow", run(20, 1, "", &two[..1], &[]).slots(1)));
        all.push(named("no step", run(15, 0, "", &[], &[]).allowed(0)));
        let mut misfit = named("arguments that don't fit", run(20, 0, "", &[], &[]));
        (misfit.function, misfit.args, misfit.slots) = (0, vec![(3, 1)], 0);
        all.push(misfit);
        let mut refused = named("no arguments", run(13, 0, "", &[], &[]));
        (refused.function, refused.left) = (0, None);
        all.push(refused);
        let mut unread = named("a byte missing", run(3, 0, "", &[], &[]));
        unread.file.pop();
        unread.left = None;
        all.push(unread);
    }
    all
}

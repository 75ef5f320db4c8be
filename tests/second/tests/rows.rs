//! Rows: what is stated, that each row is the run of its arguments, and what ends a call.

use second::asm;
use second::compare::compare_maps;
use second::gen::case::Case;
use second::gen::rows::{MapCase, ROWS_BEFORE};
use second::heap::LentHeap;
use second::map::{map, MapCall};
use second::memory::{MapMemory, RunMemory};
use second::reader::{read, ENTRY};
use second::rules::{Rules, ROW_FAULTS};
use second::run::LentStack;
use second::stated::maps;
use second::subject::{Second, Subject};

const PLAIN: Rules = Rules::PLAIN;
const UPPER: u64 = 1 << 32;

#[test]
fn the_second_program_gives_what_is_stated() {
    for stated in maps::all() {
        assert_eq!(stated.difference(&mut Second(PLAIN)), None);
    }
}

/// Each wrong variant is told by what is stated alone.
#[test]
fn wrong_variants_are_told() {
    let all = maps::all();
    for (fault, name, _) in ROW_FAULTS {
        let mut wrong = Second(Rules::with(fault));
        let told = all.iter().any(|s| s.difference(&mut wrong).is_some());
        assert!(told, "{name}");
    }
}

/// So are wrong runs, on generated rows.
#[test]
fn wrong_runs_are_told() {
    for name in [
        "upper-bits-admitted",
        "slots-not-cleared",
        "exception-counts-step",
    ] {
        let mut wrong = Second(Rules::named(name).expect("a wrong variant"));
        let told = (0..3000).any(|number| {
            let case = MapCase::new(5, number);
            compare_maps(&case, &mut Second(PLAIN), &mut wrong).is_some()
        });
        // a call on rows gives no steps
        assert_eq!(told, name != "exception-counts-step", "{name}");
    }
}

/// Answer, rows and outputs of a call with enough of everything; outputs that stay are `None`.
fn mapped(text: &str, function: u32, args: &[u64], count: usize) -> (u32, u64, Vec<Option<u64>>) {
    let arguments: Vec<u8> = args.iter().flat_map(|arg| arg.to_le_bytes()).collect();
    let call = MapCall {
        function,
        profile: 0,
        arg_payloads: &arguments,
        allowance: 1000,
    };
    let before = 0xEEEE_EEEE_EEEE_EEEE_u64;
    let mut out: Vec<u8> = vec![0xEE; 8 * count];
    let stack = LentStack {
        payloads: &mut [0xEE; 8 * 20],
        types: &mut [0xEE; 20],
    };
    let heap = LentHeap {
        cells: &mut [0xEE; 8 * 20],
        blocks: &mut [0xEE; 24 * 20],
    };
    let mut rows = ROWS_BEFORE;
    let file = asm::file(text);
    let answer = map(PLAIN, &file, call, &mut out, stack, heap, &mut rows);
    let values = out.chunks(8).map(|bytes| {
        let value = u64::from_le_bytes(bytes.try_into().expect("eight bytes"));
        (value != before).then_some(value)
    });
    (answer, rows, values.collect())
}

const QUOTIENT: &str = "entry: function int (int, int): load 0; load 1; div; ret";

#[test]
fn outputs_up_to_the_row_that_ends() {
    let good = [8, 2, 9, 3, 5, 5];
    let all = vec![Some(4), Some(3), Some(1)];
    assert_eq!(mapped(QUOTIENT, 0, &good, 3), (0, 3, all));
    for (row, number) in [(0, 24), (1, 24), (2, 24), (0, 13), (1, 13), (2, 13)] {
        let mut args = good;
        args[2 * row + 1] = if number == 24 { 0 } else { UPPER };
        let (answer, rows, outputs) = mapped(QUOTIENT, 0, &args, 3);
        assert_eq!((answer, rows), (number, row as u64));
        assert!(outputs[..row].iter().all(Option::is_some));
        assert!(outputs[row..].iter().all(Option::is_none));
    }
}

#[test]
fn refused_before_any_row() {
    let nothing = |number| (number, 0, vec![None, None]);
    assert_eq!(mapped(QUOTIENT, 1, &[8, 2, 9, 3], 2), nothing(12));
    assert_eq!(mapped(QUOTIENT, 0, &[8, 2, 9], 2), nothing(13));
    assert_eq!(mapped(QUOTIENT, 0, &[8, 2, 9, 3, 1, 1], 2), nothing(13));
    assert_eq!(mapped(QUOTIENT, ENTRY, &[], 2), nothing(13));
    let void = "entry: function void (int): ret";
    assert_eq!(mapped(void, 0, &[1, 2], 2), nothing(13));
    let pointer = "int 7; entry: function int (*int): push 0; ret";
    assert_eq!(mapped(pointer, 0, &[1, 2], 2), nothing(13));
    assert_eq!(mapped(void, 0, &[], 0), (13, 0, vec![]));
    assert_eq!(mapped(QUOTIENT, 0, &[], 0), (0, 0, vec![]));
}

/// Every row starts without blocks: each is given serial 1.
#[test]
fn rows_start_without_blocks() {
    let text = "edition 4; structure int; entry: function *10 (): new 10; ret";
    let (answer, rows, outputs) = mapped(text, 0, &[], 30);
    assert_eq!((answer, rows), (0, 30));
    assert!(outputs.iter().all(|&value| value == Some(65_536)));
}

/// What a row leaves is what its run leaves: rows as runs of their own, on the same slots and heap.
#[test]
fn rows_are_runs() {
    let (mut ran, mut ended) = (0, 0);
    for number in 0..4000 {
        let case = MapCase::new(9, number);
        let mut memory = case.memory();
        let answer = Second(PLAIN).map(case.start(), &mut memory);
        let Some(parameters) = parameters(&case, answer, memory.rows) else {
            continue;
        };
        let (number, left) = row_by_row(&case, &parameters);
        assert_eq!(answer, number);
        assert_same(&memory, &left);
        ran += memory.rows;
        ended += u64::from(answer != 0);
    }
    assert!(ran > 4000 && ended > 300, "{ran} rows, {ended} ends");
}

/// The types of the arguments, where some row was run or would be.
fn parameters(case: &MapCase, answer: u32, rows: u64) -> Option<Vec<u8>> {
    let module = read(PLAIN, &case.module).ok()?;
    let function = module.function(case.function)?;
    let began = answer == 0 || answer == 15 || answer >= 20 || rows > 0;
    began.then_some(function.parameters)
}

/// The number that ends the rows, and what they leave.
fn row_by_row(case: &MapCase, parameters: &[u8]) -> (u32, MapMemory) {
    let mut left = case.memory();
    left.rows = 0;
    for row in 0..case.out.len() / 8 {
        let mut run = case.row(parameters, row);
        run.payloads = left.payloads.slice().to_vec();
        run.types = left.types.slice().to_vec();
        run.heap = left.heap.slice().to_vec();
        run.blocks = left.blocks.slice().to_vec();
        let whole = Case {
            kind: case.kind,
            module: case.module.clone(),
            room: Vec::new(),
            runs: Vec::new(),
            shift: case.shift,
        };
        let mut memory = whole.run_memory(&run);
        let number = Second(PLAIN).run(run.start(), &mut memory);
        copy(&memory, &mut left);
        if number != 0 {
            return (number, left);
        }
        assert_eq!(memory.height, 1);
        left.out.slice_mut()[8 * row..8 * row + 8].copy_from_slice(&memory.payloads.slice()[..8]);
        left.rows += 1;
    }
    (0, left)
}

fn copy(from: &RunMemory, to: &mut MapMemory) {
    for (from, to) in [
        (&from.payloads, &mut to.payloads),
        (&from.types, &mut to.types),
        (&from.heap, &mut to.heap),
        (&from.blocks, &mut to.blocks),
    ] {
        to.slice_mut().copy_from_slice(from.slice());
    }
}

fn assert_same(a: &MapMemory, b: &MapMemory) {
    assert!(a == b, "{}", second::compare::map_difference(a, b));
}

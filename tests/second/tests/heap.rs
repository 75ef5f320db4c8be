//! Edition 4: the heap against its sentences, pointers that no run makes, serials at their end,
//! the longest module, and generated programs.

mod common;

use common::{answer, checked, outcome, INT, LONG, POINTER};
use second::asm;
use second::claims::{is_an_end_of_demand_3, Claims};
use second::gen::case::{well_typed, Case};
use second::gen::rng::Rng;
use second::gen::{calls, heap as generated};
use second::heap::{address, pointer, Address, Heap, Part, LAST_SERIAL, NULL};
use second::machine::{Machine, Slot, Unwatched};
use second::opcode::{Edition, Op};
use second::possible::exceptions;
use second::profile_edges::is_an_outcome;
use second::reader::{read, ENTRY, LONGEST};
use second::rules::{Fault, Rules};
use second::show::{small, MOST_READ};
use second::subject::{Second, Subject};

const PLAIN: Rules = Rules::PLAIN;

/// "A pointer's payload is its block's serial times 65,536, plus 0 for the whole block or 1 +
/// field."
#[test]
fn addresses() {
    assert_eq!(address(0), Address::Slot(0));
    assert_eq!(address(4095), Address::Slot(4095));
    assert_eq!(address(65_535), Address::Slot(65_535));
    let block = |serial, part| Address::Block { serial, part };
    assert_eq!(address(65_536), block(1, 0));
    assert_eq!(address(65_537), block(1, 1));
    assert_eq!(address(3 * 65_536 + 8), block(3, 8));
    assert_eq!(pointer(3, 8), 3 * 65_536 + 8);
    assert_eq!(address(u64::MAX), Address::Null);
    assert_eq!(address(u64::MAX - 1), block((1 << 48) - 1, 65_534));
    assert_eq!(address(pointer(LAST_SERIAL, 8)), block(LAST_SERIAL, 8));
    assert_eq!(LAST_SERIAL, 281_474_976_710_654);
}

/// "it gives null exactly when there is none or serials (to 2^48 - 2) have run out"
#[test]
fn serials_run_out() {
    let mut heap = Heap::new(PLAIN, 8);
    assert_eq!(heap.give(3, vec![INT]), pointer(1, 0));
    heap.next = LAST_SERIAL;
    assert_eq!(heap.give(4, vec![LONG]), pointer(LAST_SERIAL, 0));
    assert_eq!(heap.give(3, vec![INT]), NULL);
    heap.free(1);
    assert_eq!(heap.give(3, vec![INT]), NULL);
    assert_eq!(heap.next, LAST_SERIAL + 1);
    assert_eq!(heap.blocks.len(), 1);
}

/// Blocks in any order: each lies at the lowest run that is free, and nowhere else.
#[test]
fn lowest_run() {
    for number in 0..300 {
        let mut rng = Rng::for_case(21, number);
        let capacity = rng.below(30);
        let mut heap = Heap::new(PLAIN, capacity);
        let mut free = vec![true; capacity];
        for given in 1..60 {
            let length = rng.range(1, 8);
            let fits =
                |first: usize| (first..first + length).all(|cell| free.get(cell) == Some(&true));
            let lowest = (0..capacity).find(|&first| fits(first));
            let live: Vec<u64> = heap.blocks.iter().map(|block| block.serial).collect();
            let payload = heap.give(10, vec![INT; length]);
            match lowest {
                None => assert_eq!(payload, NULL),
                Some(first) => {
                    let block = heap.block(payload >> 16).expect("a live block");
                    assert_eq!((block.first, block.cells.len()), (first, length));
                    assert!(live.iter().all(|&serial| serial < block.serial));
                    free[first..first + length].fill(false);
                }
            }
            assert!(heap.next <= given + 1);
            if !live.is_empty() && rng.percent(60) {
                let serial = rng.pick(&live);
                let block = heap.block(serial).expect("a live block").clone();
                free[block.first..block.first + block.cells.len()].fill(true);
                heap.free(serial);
            }
        }
    }
}

/// "A heap pointer to no live block, or no field of it, is 33"
#[test]
fn parts_of_blocks() {
    let mut heap = Heap::new(PLAIN, 8);
    heap.give(3, vec![INT]);
    heap.give(10, vec![INT, LONG]);
    let number = |cell, ty| Some(Part::Number { cell, ty });
    assert_eq!(heap.part(1, 0), number(0, INT));
    assert_eq!(heap.part(1, 1), None, "a number has no field");
    assert_eq!(heap.part(2, 0), Some(Part::Structure));
    assert_eq!(heap.part(2, 1), number(1, INT));
    assert_eq!(heap.part(2, 2), number(2, LONG));
    assert_eq!(heap.part(2, 3), None);
    assert_eq!(heap.part(2, 65_535), None);
    assert_eq!(heap.part(3, 0), None);
    heap.free(2);
    assert_eq!(heap.part(2, 0), None);
    assert_eq!(heap.part(2, 1), None);
}

/// The outcome of the entry, started with these slots, which no run could start with.
fn forged(text: &str, slots: &[(u8, u64)]) -> u32 {
    let file = asm::file(text);
    let module = read(PLAIN, &file).expect("a module");
    let stack = slots.iter().map(|&(ty, payload)| Slot { ty, payload });
    let heap = Heap::new(PLAIN, 8);
    let mut machine = Machine::new(PLAIN, module, ENTRY, stack.collect(), 20, heap);
    machine.run(100, &mut Unwatched)
}

/// Blocks 1, of an int, and 2, of an int and a long; then what local 0 points to is followed.
fn follow(op: &str, wanted: &[(u64, u32)]) {
    let start = "edition 4; int 1; structure int, long; entry: new 3; pop; new 10; pop; load 0;";
    for &(payload, wanted) in wanted {
        let outcome = forged(&format!("{start} {op}"), &[(POINTER, payload)]);
        assert_eq!(outcome, wanted, "{op} of {payload}");
    }
}

#[test]
fn forged_pointers() {
    let (one, two) = (1 << 16, 2 << 16);
    let parts = [
        (u64::MAX - 1, 33),
        (one + 1, 33),
        (two + 3, 33),
        (two + 65_535, 33),
        (3 << 16, 33),
        (65_535, 33),
        (1, 33),
    ];
    for op in ["tload", "flea 1", "delete", "inc"] {
        follow(op, &parts);
    }
    follow(
        "tload",
        &[(one, 0), (two, 50), (two + 2, 0), (u64::MAX, 36)],
    );
    follow(
        "flea 1",
        &[(one, 39), (two, 0), (two + 1, 39), (0, 39), (u64::MAX, 36)],
    );
    follow(
        "delete",
        &[(one, 0), (two, 0), (two + 1, 33), (0, 33), (u64::MAX, 0)],
    );
}

/// A payload means the same in every edition.
#[test]
fn forged_pointers_in_edition_3() {
    let three = "int 1; entry: load 0; tload";
    assert_eq!(forged(three, &[(POINTER, u64::MAX)]), 36);
    assert_eq!(forged(three, &[(POINTER, 1 << 16)]), 33);
    assert_eq!(forged(three, &[(POINTER, 0)]), 0);
}

/// "36 null pointer, just before 33; 37 type number, with numbers out of range; 39 not a
/// structure, then 38 field number, after 33; 50 ... after 32"; "44 ..., last before 20"
#[test]
fn order_of_exceptions() {
    let order = [
        30, 23, 25, 26, 27, 28, 37, 21, 31, 36, 33, 39, 38, 32, 50, 22, 34, 24, 35, 44, 20,
    ];
    for op in Edition::Four.ops() {
        let places: Vec<usize> = exceptions(Edition::Four, op)
            .iter()
            .map(|number| order.iter().position(|n| n == number).expect("a number"))
            .collect();
        assert!(places.is_sorted(), "{}", op.name());
    }
}

/// 003's 0.3.0 numbers of what edition 4 adds; `flea`, `new` and `gcnew` have an operand.
#[test]
fn opcode_numbers() {
    for (byte, name, size) in [
        (0x06, "flea", 5),
        (0x30, "null", 1),
        (0x31, "new", 5),
        (0x32, "delete", 1),
        (0x33, "gcnull", 1),
        (0x34, "gcnew", 5),
    ] {
        let op = Op::from_byte(PLAIN, Edition::Four, byte).expect("an opcode");
        assert_eq!((op.name(), op.size()), (name, size));
        assert_eq!(Op::from_byte(PLAIN, Edition::Three, byte), None);
    }
    assert_eq!(Edition::Three.ops().len(), 42);
    assert_eq!(Edition::Four.ops().len(), 48);
}

/// "modules refused before stay refused": any pointers are compared in edition 4 alone.
#[test]
fn comparing_pointers_by_edition() {
    let text = "int 1; long 1; entry: push 0; store 0; push 1; store 1; lea 0; lea 1; cmp";
    assert_eq!(checked(text), 11);
    assert_eq!(checked(&format!("edition 4; {text}")), 0);
    assert_eq!(outcome(text), (0, 7));
}

/// "(at most one byte past the longest module possible)"
#[test]
fn longest_module() {
    assert_eq!((LONGEST, MOST_READ), (34_040, 34_041));
    let mut text = "edition 4;".to_string();
    for _ in 0..16 {
        text += "structure int, int, int, int, int, int, int, int;";
    }
    for n in 0..1024 {
        text += &format!("int {n};");
    }
    text += "entry:";
    for n in 0..256 {
        text += &format!("@{n};");
    }
    for _ in 0..(16_384 - 128) / 8 {
        text += "push 1023; neg; not; pop;";
    }
    for _ in 0..128 {
        text += "function void (): ret;";
    }
    let mut file = asm::file(&text);
    assert_eq!(file.len(), LONGEST);
    assert_eq!(answer(&file), 0);
    assert_eq!(small(PLAIN, &file), "0 8128 0\n");
    file.push(0);
    assert_eq!(small(PLAIN, &file), "3\n");
    file[4..8].copy_from_slice(&(MOST_READ as u32).to_le_bytes());
    assert_eq!(small(PLAIN, &file), "5\n");
    // what is past that is not read
    file.push(0);
    assert_eq!(small(PLAIN, &file), "5\n");
}

/// Generated programs of edition 4 that are made to be well-typed are accepted, use the heap, and
/// end as demand 3 says.
#[test]
fn generated_programs() {
    let mut ends = std::collections::BTreeMap::new();
    for number in 0..1500 {
        let mut rng = Rng::for_case(8, number);
        let program = if rng.percent(60) {
            generated::program(&mut rng)
        } else {
            well_typed(&mut rng, Edition::Four)
        };
        let module = program.file();
        assert_eq!(answer(&module), 0, "{number}");
        let case = Case {
            kind: "heap",
            runs: calls::runs(&mut rng, &module),
            module,
            room: Vec::new(),
            shift: 0,
        };
        for run in &case.runs {
            let mut claims = Claims::default();
            let mut memory = case.run_memory(run);
            let second = Second(PLAIN);
            let end = second.run_watched(run.start(), &mut memory, &mut claims);
            let refused = [12, 13, 17].contains(&end);
            assert!(refused || is_an_end_of_demand_3(Edition::Four, end));
            assert_eq!(claims.broken, 0, "{number}");
            *ends.entry(end).or_insert(0) += 1;
        }
    }
    for end in [0, 15, 20, 33, 36] {
        assert!(ends.get(&end).is_some_and(|&count| count > 20), "{ends:?}");
    }
}

/// The claims tell a heap that gives a serial again, and a run that changes a slot below a call.
#[test]
fn claims_are_told() {
    let broken = |rules: Rules, text: &str| {
        let file = asm::file(text);
        let module = read(PLAIN, &file).expect("a module");
        let heap = Heap::new(rules, 8);
        let mut machine = Machine::new(rules, module, ENTRY, Vec::new(), 20, heap);
        let mut claims = Claims::default();
        machine.run(100, &mut claims);
        claims.broken
    };
    let given = "edition 4; entry: new 3; delete; new 3";
    assert_eq!(broken(PLAIN, given), 0);
    assert!(broken(Rules::with(Fault::SerialReused), given) > 0);
    // the pointer's slot is named by the first call and not by the second
    let named = "edition 4; int 1; entry: push 0; store 0; lea 0; call 0
        function void (*int): load 0; inc; ret";
    assert_eq!(broken(PLAIN, named), 0);
    let unnamed = "edition 4; int 1; entry: push 0; store 0; lea 0; store 1; lea 1; call 0
        function void (*int): load 0; tload; inc; ret";
    assert!(broken(PLAIN, unnamed) > 0);
    // a heap pointer names no slot
    let heap = "edition 4; int 1; entry: push 0; store 0; new 3; call 0
        function void (*int): load 0; inc; ret";
    assert_eq!(broken(PLAIN, heap), 0);
}

/// What the heap held before doesn't matter.
#[test]
fn the_heap_before() {
    for number in 0..400 {
        let case = Case::new(9, number);
        for run in &case.runs {
            let mut memory = case.run_memory(run);
            let answer = Second(PLAIN).run(run.start(), &mut memory);
            let mut other = case.run_memory(run);
            let capacity = (run.heap.len() / 8).min(run.blocks.len() / 24).min(4096);
            other.heap.slice_mut()[..8 * capacity].fill(0x5C);
            other.blocks.slice_mut()[..24 * capacity].fill(0xC5);
            let again = Second(PLAIN).run(run.start(), &mut other);
            assert_eq!(answer, again);
            if is_an_outcome(answer) {
                assert_eq!(memory, other);
            }
        }
    }
}

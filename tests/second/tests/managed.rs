//! Managed blocks, document 02's A9: freeing and packing against a model, pointers that no run
//! makes, serials at their end, the claims, and generated programs.

mod common;

use common::{answer, checked, entry, DOUBLE, INT, LONG, POINTER};
use second::asm;
use second::claims::{is_an_end_of_demand_3, Claims};
use second::gen::case::Case;
use second::gen::rng::Rng;
use second::gen::{calls, managed as generated};
use second::heap::{pointer, Heap, Holders, LAST_SERIAL, NULL};
use second::machine::{Machine, Slot, Unwatched};
use second::opcode::Edition;
use second::reader::{read, ENTRY};
use second::rules::{Fault, Rules};
use second::show::small;
use second::subject::Second;
use second::types::{
    is_managed, is_null, is_pointer, pointee, run_time, structure, GCNULL, NULL as PLAIN_NULL,
};
use std::collections::{BTreeMap, BTreeSet};

const PLAIN: Rules = Rules::PLAIN;
const MANAGED: u8 = 8;

/// "type bytes C0 for `gcnull` ..., C3, C4, C6 and CA to D9 (hex) for managed pointers", type 8.
#[test]
fn type_bytes() {
    for ty in 0..=255u8 {
        let kind = if ty >= 0xC0 {
            MANAGED
        } else if ty >= 0x80 {
            POINTER
        } else {
            ty
        };
        assert_eq!(run_time(ty), kind, "{ty:02X}");
        assert_eq!(is_pointer(ty), ty >= 0x80, "{ty:02X}");
        assert_eq!(is_managed(ty), ty >= 0xC0, "{ty:02X}");
        let number = match ty {
            0x83 | 0xC3 => Some(INT),
            0x84 | 0xC4 => Some(LONG),
            0x86 | 0xC6 => Some(DOUBLE),
            _ => None,
        };
        assert_eq!(pointee(ty), number, "{ty:02X}");
        let declared = match ty {
            0x8A..=0x99 => Some(ty - 0x80),
            0xCA..=0xD9 => Some(ty - 0xC0),
            _ => None,
        };
        assert_eq!(structure(ty), declared, "{ty:02X}");
        assert_eq!(is_null(ty), [PLAIN_NULL, GCNULL].contains(&ty), "{ty:02X}");
    }
}

/// A block as the model has it: managed or not, and its payloads.
type Model = BTreeMap<u64, (bool, Vec<u64>)>;

/// The first cells of all blocks.
fn places(heap: &Heap) -> Vec<(u64, usize)> {
    let blocks = heap.blocks.iter();
    blocks.map(|block| (block.serial, block.first)).collect()
}

/// Is there a run of free cells of this length between these places?
fn has_run(heap: &Heap, model: &Model, places: &[(u64, usize)], length: usize) -> Option<usize> {
    let mut taken = vec![false; heap.capacity];
    for (serial, first) in places {
        taken[*first..first + model[serial].1.len()].fill(true);
    }
    let mut firsts = 0..(heap.capacity + 1).saturating_sub(length);
    firsts.find(|&first| !taken[first..first + length].contains(&true))
}

/// One `gcnew` of this many longs: what it frees, whether it packs, and what it gives.
fn gives(heap: &mut Heap, model: &mut Model, holders: &BTreeSet<u64>, length: usize) -> u64 {
    model.retain(|serial, (managed, _)| !*managed || holders.contains(serial));
    let mut wanted = places(heap);
    wanted.retain(|(serial, _)| model.contains_key(serial));
    if has_run(heap, model, &wanted, length).is_none() {
        let mut first = 0;
        for (serial, place) in &mut wanted {
            *place = first;
            first += model[serial].1.len();
        }
    }
    let lowest = has_run(heap, model, &wanted, length);
    let next = heap.next;
    let slots: Holders = holders.iter().copied().collect();
    let payload = heap.give_managed(10, vec![LONG; length], &slots);
    match lowest {
        None => assert_eq!(payload, NULL),
        Some(first) => {
            assert_eq!(payload, pointer(next, 0));
            wanted.push((next, first));
            model.insert(next, (true, vec![0; length]));
        }
    }
    assert_eq!(places(heap), wanted);
    payload >> 16
}

/// The blocks of both, with kinds and values.
fn is_as_modelled(heap: &Heap, model: &Model) {
    for block in &heap.blocks {
        let (managed, values) = &model[&block.serial];
        let cells = &heap.cells[block.range()];
        assert_eq!((block.managed, cells), (*managed, &values[..]));
    }
    assert_eq!(heap.blocks.len(), model.len());
}

/// Blocks of both kinds, given, filled, held, forgotten and taken back in any order.
#[test]
fn against_a_model() {
    let mut nulls = 0;
    for number in 0..400 {
        let mut rng = Rng::for_case(23, number);
        let mut heap = Heap::new(PLAIN, rng.range(1, 30));
        let (mut model, mut holders) = (Model::new(), BTreeSet::new());
        for _ in 0..80 {
            let length = rng.range(1, 8);
            let live: Vec<u64> = model.keys().copied().collect();
            let some = (!live.is_empty()).then(|| rng.pick(&live));
            match (rng.below(6), some) {
                (0 | 1, _) => {
                    let serial = gives(&mut heap, &mut model, &holders, length);
                    nulls += usize::from(!model.contains_key(&serial));
                    holders.insert(serial);
                }
                (2, _) => {
                    let serial = heap.give(10, vec![LONG; length]) >> 16;
                    if heap.block(serial).is_some() {
                        model.insert(serial, (false, vec![0; length]));
                    }
                }
                (3, Some(serial)) if !model[&serial].0 => {
                    heap.free(serial);
                    model.remove(&serial);
                }
                (3 | 4, Some(serial)) => {
                    holders.remove(&serial);
                }
                (_, Some(serial)) => {
                    let range = heap.block(serial).expect("a live block").range();
                    let at = rng.below(range.len());
                    heap.cells[range.start + at] = rng.any();
                    let values = heap.cells[range].to_vec();
                    model.insert(serial, (model[&serial].0, values));
                }
                _ => {}
            }
            is_as_modelled(&heap, &model);
        }
    }
    assert!(nulls > 500, "{nulls}");
}

/// "it gives null exactly when there is none or serials (to 2^48 - 2) have run out": blocks are
/// freed and packed all the same.
#[test]
fn serials_run_out() {
    let mut heap = Heap::new(PLAIN, 6);
    let none = Holders::default();
    heap.give(3, vec![INT]);
    heap.give(4, vec![LONG]);
    heap.cells[1] = 5;
    heap.next = LAST_SERIAL;
    let last = pointer(LAST_SERIAL, 0);
    assert_eq!(heap.give_managed(10, vec![INT; 2], &none), last);
    heap.free(1);
    // block 2 in cell 1, the last one in cells 2 and 3; cells 0, 4 and 5 are free
    let held: Holders = [LAST_SERIAL].into_iter().collect();
    assert_eq!(heap.give_managed(3, vec![INT; 2], &held), NULL);
    assert_eq!(places(&heap), [(2, 1), (LAST_SERIAL, 2)]);
    assert_eq!(heap.give_managed(10, vec![INT; 3], &held), NULL);
    assert_eq!(places(&heap), [(2, 0), (LAST_SERIAL, 1)]);
    assert_eq!(heap.cells[0], 5);
    assert_eq!(heap.give_managed(10, vec![INT; 3], &none), NULL);
    assert_eq!(places(&heap), [(2, 0)]);
    assert_eq!(heap.next, LAST_SERIAL + 1);
}

/// The machine after the entry, started with these slots, which no run could start with.
fn forged<'m>(file: &'m [u8], slots: &[(u8, u64)]) -> (u32, Machine<'m>) {
    let module = read(PLAIN, file).expect("a module");
    let stack = slots.iter().map(|&(ty, payload)| Slot { ty, payload });
    let heap = Heap::new(PLAIN, 8);
    let mut machine = Machine::new(PLAIN, module, ENTRY, stack.collect(), 20, heap);
    let outcome = machine.run(100, &mut Unwatched);
    (outcome, machine)
}

/// Block 1 is managed, of an int; block 2, of an int and a long, is not. Then what local 0 is.
fn follow(op: &str, wanted: &[((u8, u64), u32)]) {
    // local 1 holds block 1
    let start = "edition 4; int 1; structure int, long
        entry: gcnew 3; store 1; new 10; pop; load 0;";
    let file = asm::file(&format!("{start} {op}"));
    for &(slot, wanted) in wanted {
        assert_eq!(forged(&file, &[slot]).0, wanted, "{op} of {slot:?}");
    }
}

/// A payload means the same in types 7 and 8; `delete` looks at the type first, and takes only what
/// `new` gave.
#[test]
fn forged_pointers() {
    let (one, two, null) = (1 << 16, 2 << 16, u64::MAX);
    for ty in [POINTER, MANAGED] {
        follow(
            "tload",
            &[
                ((ty, one), 0),
                ((ty, two), 50),
                ((ty, two + 2), 0),
                ((ty, one + 1), 33),
                ((ty, 3 << 16), 33),
                ((ty, 0), 0),
                ((ty, 2), 33),
                ((ty, null), 36),
            ],
        );
        follow(
            "flea 1",
            &[
                ((ty, one), 39),
                ((ty, two), 0),
                ((ty, two + 3), 33),
                ((ty, 0), 39),
                ((ty, null), 36),
            ],
        );
    }
    follow(
        "delete",
        &[
            ((POINTER, one), 33),
            ((POINTER, two), 0),
            ((POINTER, null), 0),
            ((MANAGED, one), 31),
            ((MANAGED, two), 31),
            ((MANAGED, 5 << 16), 31),
            ((MANAGED, 0), 31),
            ((MANAGED, null), 31),
        ],
    );
}

/// What `flea` gives has the type of what it took, whatever the block.
#[test]
fn forged_fields() {
    let file = asm::file("edition 4; structure int, long; entry: new 10; pop; load 0; flea 1");
    for ty in [POINTER, MANAGED] {
        let (outcome, machine) = forged(&file, &[(ty, 1 << 16)]);
        let top = machine.stack.last().copied();
        let payload = (1 << 16) + 2;
        assert_eq!((outcome, top), (0, Some(Slot { ty, payload })));
    }
}

/// "no type 8 slot below the height holds its serial": a type 7 slot with that serial does not keep
/// a block, a type 8 slot does, with any part.
#[test]
fn forged_holders() {
    let file = asm::file("edition 4; entry: gcnew 3; pop; gcnew 3");
    let live = |slot: (u8, u64)| {
        let (outcome, machine) = forged(&file, &[slot]);
        assert_eq!(outcome, 0);
        machine.heap.block(1).is_some()
    };
    assert!(!live((POINTER, 1 << 16)));
    assert!(!live((POINTER, (1 << 16) + 1)));
    assert!(!live((LONG, 1 << 16)));
    assert!(!live((MANAGED, 2 << 16)));
    assert!(!live((MANAGED, 0)));
    assert!(!live((MANAGED, u64::MAX)));
    assert!(live((MANAGED, 1 << 16)));
    assert!(live((MANAGED, (1 << 16) + 1)));
    assert!(live((MANAGED, (1 << 16) + 65_535)));
}

/// A block of `new` is never freed by `gcnew`, held by nothing or by a type 8 slot.
#[test]
fn blocks_of_new_stay() {
    let file = asm::file("edition 4; entry: new 3; pop; gcnew 3; pop; gcnew 3");
    for slot in [(MANAGED, 1 << 16), (MANAGED, u64::MAX), (POINTER, 0)] {
        let (_, machine) = forged(&file, &[slot]);
        assert!(machine.heap.block(1).is_some());
        assert!(machine.heap.block(2).is_none());
    }
}

/// "used as 80 is, save for `delete`"
#[test]
fn gcnull_and_null() {
    for code in ["pop", "copy", "store 0; load 0", "copy; swap", "copy; cmp"] {
        assert_eq!(checked(&format!("edition 4; entry: null; {code}")), 0);
        assert_eq!(checked(&format!("edition 4; entry: gcnull; {code}")), 0);
    }
    for code in ["tload", "inc", "neg", "toi", "flea 0", "call 0"] {
        let function = "function void (*int): ret; function void (gc*int): ret";
        for null in ["null", "gcnull"] {
            let text = format!("edition 4; entry: {null}; {code}; {function}");
            assert_eq!(checked(&text), 11, "{null}; {code}");
        }
    }
    assert_eq!(checked("edition 4; entry: null; delete"), 0);
    assert_eq!(checked("edition 4; entry: gcnull; delete"), 11);
}

/// The desk forgets `delete`: a curve in each of many rounds, on cells for one and a half.
#[test]
fn forgotten_curves_never_run_out() {
    let text = |op: &str| {
        format!(
            "edition 4; int 1000; structure int, int, int, int, int, int, int, int
            entry: push 0; store 0; @0; {op} 10; flea 7; inc; lea 0; dec; load 0; jne 0; load 0"
        )
    };
    // 20 cells
    let (outcome, steps, stack) = entry(&text("gcnew"));
    assert_eq!((outcome, steps), (0, 7003));
    assert_eq!(stack, [(INT, 0), (INT, 0)]);
    assert_eq!(entry(&text("new")).0, 36);
}

/// The small program prints type 8.
#[test]
fn printed() {
    let file = asm::file("edition 4; structure int; entry: gcnull; gcnew 10; gcnew 10; flea 0");
    let null = u64::MAX;
    assert_eq!(
        small(PLAIN, &file),
        format!("0 4 3\n8 {null}\n8 65536\n8 131073\n")
    );
}

fn broken(rules: Rules, text: &str) -> u64 {
    let file = asm::file(text);
    let module = read(PLAIN, &file).expect("a module");
    let heap = Heap::new(rules, 5);
    let mut machine = Machine::new(rules, module, ENTRY, Vec::new(), 20, heap);
    let mut claims = Claims::default();
    machine.run(100, &mut claims);
    claims.broken
}

/// The claims tell a heap that frees what is held, keeps what is dead, or loses payloads, and a run
/// that ends in 33 through a managed pointer.
#[test]
fn claims_are_told() {
    let held = "edition 4; int 7; structure int, int, int
        entry: gcnew 10; flea 1; store 0; gcnew 3; pop; load 0; push 0; tstore; gcnew 3";
    assert_eq!(broken(PLAIN, held), 0);
    for fault in [
        Fault::LiveFreed,
        Fault::FieldsDontHold,
        Fault::LocalsDontHold,
        Fault::DeadKept,
    ] {
        assert!(broken(Rules::with(fault), held) > 0, "{fault:?}");
    }
    // the same where nothing is given after the block is gone
    let last = "edition 4; structure int; entry: gcnew 10; store 0; gcnew 3; load 0; flea 0";
    assert_eq!(broken(PLAIN, last), 0);
    assert!(broken(Rules::with(Fault::LocalsDontHold), last) > 1);
    let moved = "edition 4; structure int, int, int, int
        entry: gcnew 3; gcnew 3; swap; pop; copy; inc; gcnew 10";
    assert_eq!(broken(PLAIN, moved), 0);
    assert!(broken(Rules::with(Fault::CellsNotMoved), moved) > 0);
    let again = "edition 4; entry: gcnew 3; pop; gcnew 3";
    assert!(broken(Rules::with(Fault::FreedSerialReused), again) > 0);
}

/// Generated programs that are made to be well-typed are accepted, free and pack, and end as demand
/// 3 says, through a managed pointer never with 33.
#[test]
fn generated_programs() {
    let mut ends = BTreeMap::new();
    let mut listed = 0;
    for number in 0..1500 {
        let mut rng = Rng::for_case(9, number);
        let module = generated::program(&mut rng).file();
        assert_eq!(answer(&module), 0, "{number}");
        let case = Case {
            kind: "managed",
            runs: calls::runs(&mut rng, &module),
            module,
            room: Vec::new(),
            shift: 0,
        };
        for run in &case.runs {
            let mut claims = Claims::default();
            let mut memory = case.run_memory(run);
            let end = Second(PLAIN).run_watched(run.start(), &mut memory, &mut claims);
            let refused = [12, 13, 17].contains(&end);
            assert!(refused || is_an_end_of_demand_3(Edition::Four, end));
            assert_eq!(claims.broken, 0, "{number}");
            *ends.entry(end).or_insert(0) += 1;
            let ran = !refused && run.blocks.len() >= 24 && run.heap.len() >= 8;
            listed += usize::from(ran && memory.blocks.slice()[16] >= 64);
        }
    }
    for end in [0, 15, 20, 36] {
        assert!(ends.get(&end).is_some_and(|&count| count > 20), "{ends:?}");
    }
    assert!(listed > 300, "{listed}");
}

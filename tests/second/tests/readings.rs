//! Places where the paper can be read in two ways, with the reading that is taken. The most
//! contestable come first.

mod common;
use common::*;
use second::asm;
use second::check::{check, Checked};
use second::heap::LentHeap;
use second::reader::ENTRY;
use second::rules::Rules;
use second::run::{run, Call, LentStack, Ran};
use second::show::{small, MOST_READ};

#[test]
fn records_show_signature_type_bytes() {
    let text = "int 1; long 1; double 1.0
         entry: push 0; store 0; push 1; store 1; push 2; store 2; lea 0; store 3
         lea 2; lea 1; load 3; push 0; push 1; push 2; @0; pop";
    let operands = [0x86, 0x84, 0x83, 3, 4, 6];
    assert_eq!(records(text), [record(&[3, 4, 6, 0x83], &operands)]);
}

#[test]
fn operands_at_the_entry_end_are_limited() {
    let pushes = |n: usize| format!("int 1; entry: {}", "push 0; ".repeat(n));
    assert_eq!(checked(&pushes(32)), 0);
    assert_eq!(checked(&pushes(33)), 11);
    assert_eq!(checked(&format!("{} pop", pushes(33))), 11);
    // a run doesn't care
    assert_eq!(outcome(&pushes(33)), (0, 33));
}

#[test]
fn pointers_differ_in_a_typing_only() {
    let start = "int 1; long 1; entry: push 0; store 0; push 1; store 1;";
    for code in [
        "lea 0; lea 1; swap",
        "lea 0; lea 1; cmp",
        "lea 0; lea 1; icmp",
        "lea 0; store 2; lea 1; store 2",
        "lea 1; call 0",
    ] {
        let text = format!("{start} {code}; function void (*int): ret");
        assert_eq!(checked(&text), 11, "{code}");
        assert_eq!(outcome(&text).0, 0, "{code}");
    }
}

#[test]
fn arguments_for_the_entry_are_13() {
    let file = asm::file("entry:");
    assert_eq!(run_file(&file, ENTRY, &[(INT, 1)], 9, 9), Err(13));
    assert_eq!(run_file(&file, ENTRY, &[], 9, 9), Ok((0, 0, vec![])));
}

#[test]
fn pointer_in_lent_memory() {
    let text = "int 1; entry: push 0; push 0; call 0; function void (int): push 0; store 1; lea 1; lea 0; add";
    let (outcome, _, stack) = entry(text);
    assert_eq!(outcome, 32);
    let expected = [(INT, 1), (INT, 1), (INT, 1), (POINTER, 2), (POINTER, 1)];
    assert_eq!(stack, expected);
}

#[test]
fn pointers_to_pointers_at_run_time() {
    let start = "int 5; entry: push 0; store 0; lea 0; store 1;";
    let run = |code: &str| entry(&format!("{start} {code}"));
    assert_eq!(
        run("lea 1"),
        (0, 5, vec![(INT, 5), (POINTER, 0), (POINTER, 1)])
    );
    assert_eq!(run("lea 1; tload; tload").2[2], (INT, 5));
    assert_eq!(run("lea 1; lea 1; tstore").2, [(INT, 5), (POINTER, 1)]);
    assert_eq!(run("load 1; copy; swap; pop; store 1").0, 0);
    assert_eq!(run("lea 0; lea 1; cmp").2[2], (INT, 0xFFFF_FFFF));
    assert_eq!(run("lea 1; lea 0; icmp").2[2], (INT, 1));
    assert_eq!(run("lea 1; lea 1; icmp").2[2], (INT, 0));
}

#[test]
fn neg_of_a_nan() {
    for bits in [
        "7FF8000000000000",
        "FFF8000000000000",
        "7FF0000000000001",
        "FFFFFFFFFFFFFFFF",
    ] {
        assert_eq!(
            top(&format!("double #{bits}; entry: push 0; neg")),
            (DOUBLE, NAN)
        );
    }
    assert_eq!(top("double 0.0; entry: push 0; neg"), (DOUBLE, 1 << 63));
    let infinity = f64::NEG_INFINITY.to_bits();
    assert_eq!(top("double inf; entry: push 0; neg"), (DOUBLE, infinity));
}

#[test]
fn rooms_and_records() {
    let text = "int 1; entry: push 0; @0; @2; pop; jmp 3; @1; pop; @3; push 0";
    let reached = record(&[], &[3]);
    let expected = [reached.clone(), vec![0; 64], reached, record(&[], &[])];
    assert_eq!(records(text), expected);
}

#[test]
fn empty_entry() {
    assert_eq!(checked("entry:"), 0);
    assert_eq!(asm::file("entry:").len(), 48);
    assert_eq!(outcome("entry:"), (0, 0));
}

#[test]
fn binding_empties_the_operand_list() {
    let text = "int 1; long 1; entry: push 0; push 1; push 0; store 0; @0; load 0";
    assert_eq!(records(text), [record(&[3], &[])]);
    let join = "int 0; long 5; entry: push 0; je 0; push 1; push 0; store 0; jmp 1
         @0; push 0; store 0; @1; load 0";
    assert_eq!(checked(join), 0);
}

#[test]
fn lea_of_a_pointer_local_has_no_typing() {
    let start = "int 1; entry: push 0; store 0; lea 0; store 1;";
    assert_eq!(checked(&format!("{start} lea 0")), 0);
    assert_eq!(checked(&format!("{start} lea 1")), 11);
    assert_eq!(checked("entry: function void (*int): lea 0; ret"), 11);
}

#[test]
fn call_looks_at_the_signature_only() {
    assert_eq!(
        checked("int 1; entry: call 0; pop; function int (): @0; jmp 0"),
        0
    );
    assert_eq!(
        bad_body("int 1; entry: call 0; pop; function int (): pop"),
        0
    );
}

#[test]
fn division_by_constant_zero_has_a_typing() {
    assert_eq!(checked("int 0; entry: push 0; push 0; div"), 0);
    assert_eq!(checked("double 1.0; entry: push 0; push 0; mod"), 11);
    assert_eq!(checked("double 1.0; entry: push 0; not"), 11);
}

#[test]
fn ways_of_branches_and_calls() {
    assert_eq!(checked("int 0; entry: @0; push 0; je 0"), 0);
    assert_eq!(checked("int 0; entry: push 0; je 0; pop; @0; push 0"), 11);
    assert_eq!(
        checked("int 0; entry: function void (): @0; push 0; je 0"),
        11
    );
    assert_eq!(checked("entry: function void (): call 0"), 11);
    assert_eq!(checked("int 0; entry: function void (int): @0; jmp 0"), 0);
    assert_eq!(
        checked("int 0; entry: function void (int): @0; push 0; store 1; jmp 0"),
        11
    );
}

#[test]
fn ret_with_operands_left() {
    assert_eq!(checked("int 1; entry: function void (): push 0; ret"), 0);
    assert_eq!(
        checked("int 1; long 1; entry: function long (): push 0; push 1; ret"),
        0
    );
    let text = "int 1; long 2; entry: call 0; function long (): push 0; push 1; ret";
    assert_eq!(entry(text), (0, 4, vec![(LONG, 2)]));
    let none = "int 1; entry: call 0; function void (): push 0; push 0; ret";
    assert_eq!(entry(none), (0, 4, vec![]));
}

#[test]
fn arguments_that_do_not_fit() {
    let file = asm::file("entry: function int (int, int): load 0; ret");
    let args = [(INT, 1), (INT, 2)];
    // run_file looks whether the slot is zero
    assert_eq!(run_file(&file, 0, &args, 9, 1), Ok((20, 0, vec![])));
    assert_eq!(run_file(&file, 0, &args, 0, 1), Ok((20, 0, vec![])));
    assert_eq!(
        run_file(&file, 0, &args, 9, 2),
        Ok((20, 0, vec![(INT, 1), (INT, 2)]))
    );
    assert_eq!(run_file(&file, 0, &[(INT, 1)], 0, 0), Err(13));
}

/// Runs the empty entry on lent slices of these lengths; gives how many slots were zeroed.
fn capacity(payloads: usize, types: usize) -> usize {
    let (mut lent, mut lent_types) = (vec![0xEE; payloads], vec![0xEE; types]);
    let call = Call {
        function: ENTRY,
        arg_types: &[],
        arg_payloads: &[],
        profile: 0,
        allowance: 0,
    };
    let stack = LentStack {
        payloads: &mut lent,
        types: &mut lent_types,
    };
    let heap = LentHeap {
        cells: &mut [],
        blocks: &mut [],
    };
    let ran = run(Rules::PLAIN, &asm::file("entry:"), call, stack, heap);
    let (outcome, steps, height) = (0, 0, 0);
    let ended = Ran::Ended {
        outcome,
        steps,
        height,
    };
    assert_eq!(ran, ended);
    let zeros = |bytes: &[u8]| bytes.iter().take_while(|&&byte| byte == 0).count();
    assert_eq!(zeros(&lent), 8 * zeros(&lent_types));
    assert!(lent[zeros(&lent)..].iter().all(|&byte| byte == 0xEE));
    assert!(lent_types[zeros(&lent_types)..]
        .iter()
        .all(|&byte| byte == 0xEE));
    zeros(&lent_types)
}

#[test]
fn capacity_of_unequal_slices() {
    assert_eq!(capacity(0, 5), 0);
    assert_eq!(capacity(7, 5), 0);
    assert_eq!(capacity(8, 5), 1);
    assert_eq!(capacity(47, 5), 5);
    assert_eq!(capacity(39, 5), 4);
    assert_eq!(capacity(80, 3), 3);
    assert_eq!(capacity(8 * 4096, 4096), 4096);
    assert_eq!(capacity(8 * 4097, 4097), 4096);
    assert_eq!(capacity(8 * 5000 + 3, 9000), 4096);
}

#[test]
fn ends_of_runs() {
    let file = asm::file(
        "int 1; entry: push 0; function int (int): push 0; ret; function void (): push 0",
    );
    assert_eq!(
        run_file(&file, ENTRY, &[], 1, 9),
        Ok((0, 1, vec![(INT, 1)]))
    );
    assert_eq!(run_file(&file, 1, &[], 1, 9), Ok((29, 1, vec![(INT, 1)])));
    let arg = [(INT, 5)];
    assert_eq!(
        run_file(&file, 0, &arg, 1, 9),
        Ok((15, 1, vec![(INT, 5), (INT, 1)]))
    );
    assert_eq!(run_file(&file, 0, &arg, 2, 9), Ok((0, 2, vec![(INT, 1)])));
}

#[test]
fn height_counts_all_frames() {
    let text = "int 1; entry: push 0; push 0; call 0; function void (int): push 0; pop; pop";
    let (outcome, _, stack) = entry(text);
    assert_eq!((outcome, stack.len()), (21, 2));
}

#[test]
fn buried_slots_and_operands_can_be_reached() {
    // the callee writes to an operand of its caller through a stale pointer
    let text = "int 5; int 6; entry: push 0; store 0; lea 0; store 1; lea 1; call 0
         push 0; push 1; load 1; tload
         function void (*int): load 0; lea 0; tstore; ret";
    let (outcome, _, stack) = entry(text);
    assert_eq!(outcome, 0);
    assert_eq!(stack.last(), Some(&(INT, 5)));
}

#[test]
fn pointer_and_number() {
    let start = "int 5; entry: push 0; store 0;";
    assert_eq!(outcome(&format!("{start} lea 0; push 0; add")).0, 32);
    assert_eq!(outcome(&format!("{start} lea 0; push 0; cmp")).0, 22);
    assert_eq!(outcome(&format!("{start} lea 0; @0; je 0")).0, 22);
}

#[test]
fn deeper_ret_returns_as_usual() {
    let file = asm::file(
        "int 1; entry: function int (int): load 0; je 0; push 0; push 0; sub; call 0; load 0; add; ret
         @0; push 0; ret",
    );
    let end = run_file(&file, 0, &[(INT, 7)], 99, 99).expect("a run");
    assert_eq!((end.0, end.2), (0, vec![(INT, 8)]));
}

#[test]
fn unaccepted_modules_run() {
    let text = "int 1; entry: push 0; @0; push 0; pop; pop; push 0; push 0; add; ret";
    assert_eq!(checked(text), 11);
    assert_eq!(outcome(text), (30, 7));
}

#[test]
fn binding_on_a_full_stack_and_slots_seen_through_locals() {
    let file = asm::file("int 1; entry: push 0; store 0");
    assert_eq!(
        run_file(&file, ENTRY, &[], 9, 1),
        Ok((0, 2, vec![(INT, 1)]))
    );
    let text = "int 1; int 9; entry: push 0; store 0; lea 0; push 1; tstore; lea 0; inc; load 0";
    assert_eq!(top(text), (INT, 10));
}

#[test]
fn the_small_program() {
    let mut long = vec![0; MOST_READ + 10];
    long[0] = 3;
    let length = long.len() as u32;
    long[4..8].copy_from_slice(&length.to_le_bytes());
    assert_eq!(small(Rules::PLAIN, &long), "3\n");
    long[4..8].copy_from_slice(&(MOST_READ as u32).to_le_bytes());
    assert_eq!(small(Rules::PLAIN, &long), "5\n");
    long[44] = 1;
    assert_eq!(small(Rules::PLAIN, &long), "4\n");
    let shown = |text: &str| small(Rules::PLAIN, &asm::file(text));
    assert_eq!(shown("entry: pop"), "11\n");
    assert_eq!(shown("entry: @0; jmp 0"), "15 1000000 0\n");
    assert_eq!(
        shown("int 0; entry: push 0; push 0; div"),
        "24 2 2\n3 0\n3 0\n"
    );
    assert_eq!(
        shown("entry: call 0; function void (): call 0; ret"),
        "20 63 0\n"
    );
}

#[test]
fn room_is_zeroed_with_11() {
    let file = asm::file("int 1; entry: @0; push 0; function void (): @1; pop; ret");
    let mut room = vec![0xEE; 130];
    let answer = check(Rules::PLAIN, &file, &mut room);
    assert!(matches!(answer, Checked::NoTyping { body: 0, .. }));
    assert_eq!(room[..128], [0; 128]);
    assert_eq!(room[128..], [0xEE; 2]);
}

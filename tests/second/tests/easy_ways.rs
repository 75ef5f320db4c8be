//! The paper's five "Easy ways to go wrong".

mod common;
use common::*;
use second::asm;

#[test]
fn branch_value_is_removed_whether_taken_or_not() {
    for (op, taken) in [
        ("je", [0, 0, 1]),
        ("jne", [1, 1, 0]),
        ("ja", [0, 1, 0]),
        ("jae", [0, 1, 1]),
        ("jb", [1, 0, 0]),
        ("jbe", [1, 0, 1]),
    ] {
        for (value, jumps) in [-1, 1, 0].into_iter().zip(taken) {
            let text = format!("int {value}; int 9; entry: push 1; push 0; {op} 0; copy; @0; copy");
            let (_, steps, stack) = entry(&text);
            assert_eq!(steps, 5 - jumps, "{op} {value}");
            assert_eq!(stack, vec![(INT, 9); 3 - jumps as usize], "{op} {value}");
        }
    }
}

#[test]
fn binding_store_does_not_pop() {
    let (outcome, steps, stack) = entry("int 1; long 2; entry: push 0; push 1; store 0");
    assert_eq!((outcome, steps), (0, 3));
    assert_eq!(stack, [(INT, 1), (LONG, 2)]);
    // what lies under it is buried
    assert_eq!(outcome_of("push 0; push 1; store 0; pop"), 21);
    // a moving store pops
    let (_, _, stack) = entry("int 1; int 2; entry: push 0; store 0; push 1; store 0");
    assert_eq!(stack, [(INT, 2)]);
}

fn outcome_of(code: &str) -> u32 {
    outcome(&format!("int 1; long 2; entry: {code}")).0
}

#[test]
fn dead_code_is_not_typed() {
    assert_eq!(
        checked("entry: @0; jmp 0; pop; ret; push 9; call 9; jmp 9; store 9"),
        0
    );
    assert_eq!(checked("entry: function void (): ret; pop; add"), 0);
    // labels in dead code are not reached
    let records = records("entry: @0; jmp 0; @1; pop");
    assert_eq!(records, [record(&[], &[]), vec![0; 64]]);
}

#[test]
fn lists_at_a_label_are_compared() {
    let join = |a: &str, b: &str| {
        checked(&format!(
            "int 0; long 0; entry: push 0; je 0; {a}; jmp 1; @0; {b}; @1; copy"
        ))
    };
    assert_eq!(join("push 0", "push 0"), 0);
    assert_eq!(join("push 0", "push 1"), 11);
    assert_eq!(join("push 0", "push 0; push 0"), 11);
    assert_eq!(join("push 0; store 0; push 0", "push 0"), 11);
    assert_eq!(
        join("push 0; store 0; push 0", "push 0; store 0; push 0"),
        0
    );
}

#[test]
fn parameter_0_is_the_deepest_argument() {
    let text = "int 7; long 9; entry: push 0; push 1; call 0
         function long (int, long): load 0; tol; push 1; sub; load 1; add; ret";
    assert_eq!(checked(text), 0);
    assert_eq!(top(text), (LONG, 7));
    let file = asm::file("entry: function int (int, int): load 0; load 1; sub; ret");
    let end = run_file(&file, 0, &[(INT, 10), (INT, 3)], 9, 9);
    assert_eq!(end, Ok((0, 4, vec![(INT, 7)])));
}

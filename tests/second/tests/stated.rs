//! The second program gives what is stated, and the stated checks and runs alone tell wrong
//! checkers and machines.

use second::rules::{Rules, HEAP_FAULTS, MANAGED_FAULTS, RANGE_FAULTS};
use second::stated::{self, runs};
use second::subject::Second;

#[test]
fn the_second_program_gives_what_is_stated() {
    for stated in stated::all() {
        assert_eq!(stated.difference(&mut Second(Rules::PLAIN)), None);
    }
    for stated in runs::all() {
        assert_eq!(stated.difference(&mut Second(Rules::PLAIN)), None);
    }
}

/// Each wrong variant of edition 4, of managed blocks, and of what `toi` and `tol` make of doubles, is
/// told by a stated check or a stated run.
#[test]
fn wrong_heaps_and_ranges_are_told() {
    let (checks, runs) = (stated::all(), runs::all());
    let heaps = HEAP_FAULTS.iter().chain(&MANAGED_FAULTS);
    for &(fault, name, _) in heaps.chain(&RANGE_FAULTS) {
        let mut wrong = Second(Rules::with(fault));
        let told = checks.iter().any(|s| s.difference(&mut wrong).is_some())
            || runs.iter().any(|s| s.difference(&mut wrong).is_some());
        assert!(told, "{name}");
    }
}

/// The wrong variants of reader and check.
const WRONG_CHECKS: [&str; 32] = [
    "dead-code-typed",
    "first-typing-kept",
    "parameters-reversed",
    "label-on-body-end",
    "labels-before-code",
    "functions-one-by-one",
    "operand-limit-forgotten",
    "entry-end-not-judged",
    "last-bad-body",
    "room-kept-with-11",
    "unreached-record-kept",
    "buried-operands-kept",
    "any-label",
    "pointers-alike",
    "lea-of-pointer-typed",
    "function-end-given",
    "unused-parameter-bytes",
    "empty-section-offset",
    "constant-type-byte",
    "pointers-shown-as-7",
    "room-all-zeroed",
    "35-untyped",
    "44-untyped",
    "edition-1-refused",
    "edition-2-taken",
    "new-numbers-in-1",
    "26-taken",
    "old-ret-operand",
    "pointer-parameter-taken",
    "old-inc-through-pointer",
    "old-inc-pops",
    "old-inc-of-double",
];

#[test]
fn wrong_checks_are_told() {
    let all = stated::all();
    for name in WRONG_CHECKS {
        let mut wrong = Second(Rules::named(name).expect("a wrong variant"));
        let told = all
            .iter()
            .any(|stated| stated.difference(&mut wrong).is_some());
        assert!(told, "{name}");
    }
}

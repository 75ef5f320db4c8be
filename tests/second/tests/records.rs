//! Records: what is stated, the layout, both calls on a chain of edits, and what a record is believed
//! for.

use second::asm;
use second::check::check;
use second::compare::records::compare_records;
use second::gen::records::{RecordCall, RecordCase};
use second::reader::{read, ENTRY};
use second::recording::{check_body, check_recording, length};
use second::rules::{Rules, RECORD_FAULTS};
use second::stated::records;
use second::subject::{checked_number, Second, Subject};

const PLAIN: Rules = Rules::PLAIN;

#[test]
fn the_second_program_gives_what_is_stated() {
    for stated in records::full() {
        assert_eq!(stated.difference(&mut Second(PLAIN)), None);
    }
    for stated in records::bodies() {
        assert_eq!(stated.difference(&mut Second(PLAIN)), None);
    }
}

/// Each wrong variant is told by what is stated alone.
#[test]
fn wrong_variants_are_told() {
    let (full, bodies) = (records::full(), records::bodies());
    for (fault, name, _) in RECORD_FAULTS {
        let mut wrong = Second(Rules::with(fault));
        let told = full.iter().any(|s| s.difference(&mut wrong).is_some())
            || bodies.iter().any(|s| s.difference(&mut wrong).is_some());
        assert!(told, "{name}");
    }
}

/// So are wrong checks, on generated chains.
#[test]
fn wrong_checks_are_told() {
    for name in ["last-bad-body", "any-label", "room-kept-with-11"] {
        let mut wrong = Second(Rules::named(name).expect("a wrong variant"));
        let told = (0..3000).any(|number| {
            let case = RecordCase::new(5, number);
            compare_records(&case, &mut Second(PLAIN), &mut wrong).is_some()
        });
        assert!(told, "{name}");
    }
}

/// Answer, body, length and record of a full check of a module with enough of everything.
fn full(file: &[u8]) -> (u32, u32, u64, Vec<u8>) {
    let module = read(PLAIN, file).expect("a module");
    let mut room = vec![0xEE; 64 * module.labels as usize];
    let mut record = vec![0xEE; length(module.functions)];
    let (mut body, mut written) = (77, 99);
    let answer = check_recording(PLAIN, file, &mut room, &mut record, &mut body, &mut written);
    (answer, body, written, record)
}

#[test]
fn layout() {
    let good = asm::file("entry: function void (): ret");
    let record = vec![2, 0, 0, 0, 8, 0, 0, 0, 1, 1];
    assert_eq!(full(&good), (0, 77, 10, record));
    let bad = asm::file("entry: function void (): pop; function void (): ret");
    let record = vec![3, 0, 0, 0, 8, 0, 0, 0, 1, 0, 1];
    assert_eq!(full(&bad), (11, 0, 99, record));
}

/// A body is spoiled and put right again; the answers are the full check's.
#[test]
fn a_body_spoiled_and_put_right() {
    let of = |entry: &str, function: &str| {
        asm::file(&format!(
            "int 7; entry: {entry}; function int (): {function}"
        ))
    };
    let mut record = full(&of("push 0", "push 0; ret")).3;
    let mut first = 77;
    for (body, entry, function, answer, told) in [
        (0, "push 0", "push 0", 11, 0),
        (ENTRY, "add", "push 0", 11, ENTRY),
        (0, "add", "push 0; ret", 11, ENTRY),
        (ENTRY, "push 0; pop", "push 0; ret", 0, ENTRY),
    ] {
        let file = of(entry, function);
        let given = check_body(PLAIN, &file, body, &mut record, &mut first);
        assert_eq!((given, first), (answer, told));
        let (full_answer, _, _, full_record) = full(&file);
        assert_eq!((full_answer, &full_record), (answer, &record));
    }
}

/// A refusal changes nothing; a body that is not named keeps its byte.
#[test]
fn refusals_change_nothing() {
    let file = asm::file("entry: pop; function void (): ret");
    let good = [2, 0, 0, 0, 8, 0, 0, 0, 1, 0];
    for (body, at, byte, number) in [(1, 0, 2, 12), (0, 0, 3, 45), (0, 4, 9, 45), (0, 9, 2, 45)] {
        let (mut record, mut first) = (good, 77);
        record[at] = byte;
        let before = record;
        let answer = check_body(PLAIN, &file, body, &mut record, &mut first);
        assert_eq!((answer, first, record), (number, 77, before));
    }
    let (mut record, mut first) = (good, 77);
    assert_eq!(check_body(PLAIN, &file, 0, &mut record, &mut first), 0);
    assert_eq!((first, record), (77, [2, 0, 0, 0, 8, 0, 0, 0, 1, 1]));
}

/// Room, answer and body are those of the check without a record.
#[test]
fn recording_is_the_check() {
    let mut recorded = 0;
    for number in 0..3000 {
        let case = RecordCase::new(3, number);
        for step in &case.steps {
            let RecordCall::Full(room) = &step.call else {
                continue;
            };
            let mut memory = step.full_memory(room, 0);
            let answer = Second(PLAIN).check_recording(&mut memory);
            if answer == 16 {
                assert_eq!(memory, step.full_memory(room, 0));
                continue;
            }
            let (mut alone, mut body) = (room.clone(), memory.body);
            let checked = check(PLAIN, &step.module, &mut alone);
            assert_eq!(checked_number(checked, &mut body), answer);
            assert_eq!((memory.room.slice(), memory.body), (&alone[..], body));
            recorded += 1;
        }
    }
    assert!(recorded > 2000, "{recorded}");
}

/// "This answer is the full check's, given room": on chains of edits, and the record too.
#[test]
fn chains_keep_the_full_checks_answer() {
    let (mut zeros, mut elevens) = (0, 0);
    for number in 0..4000 {
        let case = RecordCase::new(9, number);
        for step in case.steps.iter().filter(|step| step.promised) {
            let RecordCall::Body(body) = step.call else {
                continue;
            };
            let mut memory = step.body_memory(1);
            let answer = Second(PLAIN).check_body(body, &mut memory);
            let otherwise = step.otherwise(answer, &memory, &mut Second(PLAIN));
            assert_eq!(otherwise, None, "case {number}: {}", step.describe());
            zeros += u64::from(answer == 0);
            elevens += u64::from(answer == 11);
        }
    }
    assert!(zeros > 1000 && elevens > 1000, "{zeros} and {elevens}");
}

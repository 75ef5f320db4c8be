//! The writer: what is stated, and that reading and writing undo each other.

use second::gen::case::Case;
use second::gen::tables::{Owned, WriteCase};
use second::hex;
use second::reader::{read, LONGEST};
use second::rules::{Rules, WRITER_FAULTS};
use second::samples::W1;
use second::stated::writes;
use second::subject::Second;
use second::writer::{write, Tables};

#[test]
fn the_second_program_gives_what_is_stated() {
    for stated in writes::all() {
        assert_eq!(stated.difference(&mut Second(Rules::PLAIN)), None);
    }
}

/// Wrong variants of the reader that a writer shows too.
const WRONG_READERS: [&str; 15] = [
    "label-on-body-end",
    "labels-before-code",
    "functions-one-by-one",
    "unused-parameter-bytes",
    "constant-type-byte",
    "edition-4-refused",
    "06-in-3",
    "structures-7",
    "structures-17",
    "no-fields-taken",
    "pointer-field-taken",
    "unused-field-bytes",
    "structure-zeros",
    "80-in-signature",
    "undeclared-taken",
];

#[test]
fn wrong_writers_are_told() {
    let all = writes::all();
    let writers = WRITER_FAULTS.iter().map(|&(_, name, _)| name);
    for name in writers.chain(WRONG_READERS) {
        let mut wrong = Second(Rules::named(name).expect("a wrong variant"));
        let told = all
            .iter()
            .any(|stated| stated.difference(&mut wrong).is_some());
        assert!(told, "{name}");
    }
}

fn written(tables: Tables<'_>) -> Result<Vec<u8>, u32> {
    let mut out = vec![0xEE; LONGEST];
    let length = write(Rules::PLAIN, tables, &mut out)?;
    assert!(out[length..].iter().all(|&byte| byte == 0xEE));
    out.truncate(length);
    Ok(out)
}

/// "writing what was read gives the same bytes"
#[test]
fn reading_then_writing() {
    let mut modules = 0;
    for number in 0..2000 {
        let file = Case::without_runs(5, number).module;
        if let Ok(module) = read(Rules::PLAIN, &file) {
            assert_eq!(written(Tables::of(module)), Ok(file.clone()));
            modules += 1;
        }
    }
    assert!(modules > 1000, "{modules}");
    let w1 = hex::decode(W1).expect("hex digits");
    let module = read(Rules::PLAIN, &w1).expect("a module");
    assert_eq!(written(Tables::of(module)), Ok(w1.clone()));
}

/// "Reading what was written gives the tables back"
#[test]
fn writing_then_reading() {
    let (mut modules, mut refused) = (0, 0);
    for number in 0..3000 {
        let tables = WriteCase::new(5, number).tables;
        match written(tables.lent()) {
            Ok(file) => {
                let module = read(Rules::PLAIN, &file).expect("a module");
                assert_eq!(Tables::of(module), tables.lent());
                assert_eq!(Owned::cut(&file), tables);
                modules += 1;
            }
            Err(number) => {
                assert!(number == 2 || (4..=9).contains(&number), "{number}");
                refused += 1;
            }
        }
    }
    assert!(modules > 500 && refused > 500, "{modules}, {refused}");
}

/// "a new refusal ... changes no lent memory and returns only its number"
#[test]
fn a_refusal_changes_nothing() {
    for number in 0..2000 {
        let case = WriteCase::new(6, number);
        let mut out = case.out.clone();
        if write(Rules::PLAIN, case.tables.lent(), &mut out).is_err() {
            assert_eq!(out, case.out);
        }
    }
}

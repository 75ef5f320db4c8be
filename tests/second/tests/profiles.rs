//! Profiles and conversions, document 02's A7: what is stated, that conversions undo each other,
//! what stays and what does not, and the desk's commands.

mod common;

use common::answer;
use second::asm;
use second::conversion::{convert, converted};
use second::desk::{self, Left};
use second::gen::case::{readable, well_typed, Case};
use second::gen::conversions::ConvertCase;
use second::gen::rng::Rng;
use second::opcode::Edition;
use second::reader::{read, LONGEST, LONG_FUNCTION};
use second::rules::{Rules, CONVERSION_FAULTS, PROFILE_FAULTS};
use second::samples::CONVERSIONS;
use second::show::{small, MOST_READ};
use second::stated::{self, conversions, runs};
use second::subject::{Second, Subject};

const PLAIN: Rules = Rules::PLAIN;
const UP: Edition = Edition::Four;
const DOWN: Edition = Edition::Three;

#[test]
fn the_second_program_gives_what_is_stated() {
    for stated in conversions::all() {
        assert_eq!(stated.difference(&mut Second(PLAIN)), None);
    }
}

/// Each wrong variant is told by what is stated alone.
#[test]
fn wrong_variants_are_told() {
    let (checks, runs) = (stated::all(), runs::all());
    for (fault, name, _) in PROFILE_FAULTS {
        let mut wrong = Second(Rules::with(fault));
        let told = runs.iter().any(|s| s.difference(&mut wrong).is_some())
            || checks.iter().any(|s| s.difference(&mut wrong).is_some());
        assert!(told, "{name}");
    }
    let all = conversions::all();
    for (fault, name, _) in CONVERSION_FAULTS {
        let mut wrong = Second(Rules::with(fault));
        let told = all.iter().any(|s| s.difference(&mut wrong).is_some());
        assert!(told, "{name}");
    }
}

/// "Each function record of edition 4 ... gets one more word at its end"
#[test]
fn the_word() {
    let text = "edition 4; entry: function void () profile 5: ret; function void (): ret
        function int (int, double) profile 4294967295: load 0; ret";
    let file = asm::file(text);
    let module = read(PLAIN, &file).expect("a module");
    let profiles: Vec<u32> = (0..3)
        .filter_map(|n| module.function(n).map(|f| f.profile))
        .collect();
    assert_eq!(profiles, [5, 0, u32::MAX]);
    let records = module.sections()[1];
    assert_eq!(records.len(), 3 * LONG_FUNCTION);
    assert_eq!(records[16..24], [0, 0, 0, 0, 5, 0, 0, 0]);
    assert_eq!(records[68..72], [0xFF; 4]);
    // check does not look at it
    assert_eq!(answer(&file), 0);
    assert_eq!((LONGEST, MOST_READ), (34_040, 34_041));
}

/// A module of edition 3 goes up, comes back, and then has the same bytes; with a profile it does
/// not come back.
#[test]
fn up_then_down() {
    let mut modules = 0;
    for number in 0..1500 {
        let file = Case::without_runs(31, number).module;
        let Ok(module) = read(PLAIN, &file) else {
            continue;
        };
        if module.edition != Edition::Three {
            continue;
        }
        let mut above = converted(PLAIN, UP, &file).expect("edition 4");
        assert_eq!(above.len(), file.len() + 8 + 4 * module.functions as usize);
        let four = read(PLAIN, &above).expect("a module");
        assert_eq!(four.structures, 0);
        assert_eq!(four.entry_length, module.entry_length);
        let ([a, _, b, c, _], [d, _, e, f, _]) = (module.sections(), four.sections());
        assert_eq!([a, b, c], [d, e, f]);
        assert_eq!(converted(PLAIN, DOWN, &above), Ok(file.clone()));
        if module.functions > 0 {
            let last = four.sections()[0].len() + 56 + LONG_FUNCTION * module.functions as usize;
            above[last - 1] = 1;
            assert_eq!(converted(PLAIN, DOWN, &above), Err(18));
        }
        modules += 1;
    }
    assert!(modules > 300, "{modules}");
}

/// The same program, written as a file of each edition by other means than the writer's.
#[test]
fn as_the_assembler_writes() {
    let mut modules = 0;
    for number in 0..1500 {
        let mut rng = Rng::for_case(36, number);
        let kind = rng.below(88);
        let mut program = readable(&mut rng, Edition::Three, kind).1;
        let three = program.file();
        program.edition = Edition::Four;
        program.structures.clear();
        let four = program.file();
        if read(PLAIN, &three).is_ok() {
            assert_eq!(converted(PLAIN, UP, &three), Ok(four.clone()));
            assert_eq!(converted(PLAIN, DOWN, &four), Ok(three));
            modules += 1;
        }
    }
    assert!(modules > 1000, "{modules}");
}

/// "down then up too, wherever down is allowed"; where it is not, something is there that edition
/// 3 lacks.
#[test]
fn down_then_up() {
    let (mut down, mut lost) = (0, 0);
    for number in 0..4000 {
        let case = ConvertCase::new(32, number);
        let Ok(module) = read(PLAIN, &case.module) else {
            continue;
        };
        if module.edition != Edition::Four {
            continue;
        }
        match converted(PLAIN, DOWN, &case.module) {
            Ok(file) => {
                assert_eq!(read(PLAIN, &file).map(|m| m.edition).ok(), Some(DOWN));
                assert_eq!(converted(PLAIN, UP, &file), Ok(case.module));
                down += 1;
            }
            Err(number) => {
                assert_eq!(number, 18);
                // a file with edition 3's numbers and this code would not be one, or would lose
                // something
                let functions = || (0..module.functions).filter_map(|n| module.function(n));
                let profile = functions().any(|f| f.profile != 0);
                let managed = functions()
                    .flat_map(|f| [f.parameters, vec![f.returns]].concat())
                    .any(|ty| ty >= 0xC3);
                let code = module.sections()[3];
                let like = code
                    .iter()
                    .any(|byte| [0x06, 0x30, 0x31, 0x32, 0x33, 0x34].contains(byte));
                assert!(profile || module.structures > 0 || managed || like);
                lost += 1;
            }
        }
    }
    assert!(down > 300 && lost > 300, "{down}, {lost}");
}

/// Generated programs of edition 3 that have a typing have one in edition 4, and do the same.
#[test]
fn typings_stay_on_the_way_up() {
    for number in 0..80 {
        let mut rng = Rng::for_case(33, number);
        let file = well_typed(&mut rng, Edition::Three).file();
        let above = converted(PLAIN, UP, &file).expect("edition 4");
        assert_eq!(answer(&above), 0, "{number}");
        assert_eq!(small(PLAIN, &file), small(PLAIN, &above));
    }
    // not on the way down: edition 4 compares any pointers
    let four = asm::file(
        "edition 4; int 1; long 1
         entry: push 0; store 0; push 1; store 1; lea 0; lea 1; cmp",
    );
    let three = converted(PLAIN, DOWN, &four).expect("edition 3");
    assert_eq!((answer(&four), answer(&three)), (0, 11));
}

/// "a new refusal ... changes no lent memory and returns only its number"; "leaves output past it
/// unchanged"
#[test]
fn outputs() {
    for number in 0..3000 {
        let case = ConvertCase::new(34, number);
        let mut out = case.out.clone();
        match convert(PLAIN, case.to, &case.module, &mut out) {
            Ok(length) => {
                assert_eq!(out[length..], case.out[length..]);
                assert_eq!(out[..length].len(), length);
            }
            Err(_) => assert_eq!(out, case.out),
        }
    }
}

/// A profile changes nothing but whether a run is made.
#[test]
fn profiles_and_runs() {
    let (mut same, mut refused) = (0, 0);
    for number in 0..1500 {
        let case = Case::new(35, number);
        for run in &case.runs {
            let mut memory = case.run_memory(run);
            let answer = Second(PLAIN).run(run.start(), &mut memory);
            let mut any = run.start();
            any.profile = any.profile.wrapping_add(1);
            let mut other = case.run_memory(run);
            let again = Second(PLAIN).run(any, &mut other);
            if answer == 17 {
                assert_eq!(memory, case.run_memory(run));
                refused += 1;
            } else if again == 17 {
                refused += 1;
            } else {
                assert_eq!((answer, memory), (again, other));
                same += 1;
            }
        }
    }
    assert!(same > 1000 && refused > 30, "{same}, {refused}");
}

/// `run [--profile N] FILE FUNCTION [INT...]`, `convert 4`, `convert 3`.
#[test]
fn desk_commands() {
    let text = "edition 4; entry: function int (int) profile 5: load 0; ret";
    let file = asm::file(text);
    assert_eq!(desk::run(PLAIN, &file, 5, 0, &[9]), "0 2 1\n3 9\n");
    assert_eq!(desk::run(PLAIN, &file, 0, 0, &[9]), "17\n");
    assert_eq!(desk::run(PLAIN, &file, 6, 0, &[9]), "17\n");
    assert_eq!(desk::run(PLAIN, &file, 6, 0, &[]), "13\n");
    assert_eq!(desk::run(PLAIN, &file, 6, 1, &[]), "12\n");
    assert_eq!(desk::run(PLAIN, &file, 6, 0xFFFF_FFFF, &[]), "0 0 0\n");
    let refused = |text: &str| Left::Refused(text.to_string());
    assert_eq!(desk::convert(PLAIN, DOWN, &file), refused("18\n"));
    assert_eq!(desk::convert(PLAIN, UP, &file), refused("2\n"));
    assert_eq!(desk::convert(PLAIN, UP, &[]), refused("1\n"));
    let three = asm::file("int 7; entry: push 0; function int (int): load 0; ret");
    let four = asm::file("edition 4; int 7; entry: push 0; function int (int): load 0; ret");
    assert_eq!(
        desk::convert(PLAIN, UP, &three),
        Left::Printed(four.clone())
    );
    assert_eq!(
        desk::convert(PLAIN, DOWN, &four),
        Left::Printed(three.clone())
    );
    // what is past the longest module is not read
    let mut long = three;
    long.resize(MOST_READ + 5, 0);
    assert_eq!(desk::convert(PLAIN, UP, &long), refused("3\n"));
    long[4..8].copy_from_slice(&(MOST_READ as u32).to_le_bytes());
    assert_eq!(desk::convert(PLAIN, UP, &long), refused("5\n"));
    assert_eq!(desk::target("4"), Some(UP));
    assert_eq!(desk::target("3"), Some(DOWN));
    for word in ["", "1", "5", "34", "04", "-3", " 4"] {
        assert_eq!(desk::target(word), None, "{word}");
    }
}

/// `NAME-3` and `NAME-4` of the samples become each other.
#[test]
fn sample_twins() {
    let file = |name: &str| {
        let sample = CONVERSIONS.iter().find(|sample| sample.name == name);
        sample.expect("a sample").file()
    };
    let mut twins = 0;
    for sample in &CONVERSIONS {
        let Some(start) = sample.name.strip_suffix("-3") else {
            continue;
        };
        let (three, four) = (sample.file(), file(&format!("{start}-4")));
        assert_eq!(converted(PLAIN, UP, &three), Ok(four.clone()), "{start}");
        assert_eq!(converted(PLAIN, DOWN, &four), Ok(three), "{start}");
        twins += 1;
    }
    assert_eq!(twins, 6);
    for (name, to, number) in [
        ("convert-18-profile", DOWN, 18),
        ("convert-18-structure", DOWN, 18),
        ("convert-18-type", DOWN, 18),
        ("convert-18-opcode", DOWN, 18),
        ("convert-18-dead", DOWN, 18),
        ("convert-2-old", UP, 2),
        ("convert-2-old", DOWN, 2),
    ] {
        assert_eq!(converted(PLAIN, to, &file(name)), Err(number), "{name}");
    }
}

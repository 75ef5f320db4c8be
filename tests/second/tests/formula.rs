//! The formula line: what is stated, every edge of its refusals, that its two readers agree, and
//! that a module does what the reading says.

mod common;

use common::{answer, run_file};
use second::compare::compare_formulas;
use second::desk::{self, Left};
use second::formula::{module, place, split, ALLOWANCE, SLOTS};
use second::gen::lines::LineCase;
use second::rules::{Rules, FORMULA_FAULTS};
use second::stated::formulas;
use second::subject::Second;

#[test]
fn the_second_program_gives_what_is_stated() {
    for stated in formulas::all() {
        assert_eq!(stated.difference(&mut Second(Rules::PLAIN)), None);
    }
}

#[test]
fn wrong_formulas_are_told() {
    let all = formulas::all();
    for (_, name, _) in FORMULA_FAULTS {
        let mut wrong = Second(Rules::named(name).expect("a wrong variant"));
        let told = all
            .iter()
            .any(|stated| stated.difference(&mut wrong).is_some());
        assert!(told, "{name}");
    }
}

fn accepted(line: &[u8]) -> Vec<u8> {
    module(Rules::PLAIN, line).expect("a module")
}

/// The value or the exception, and the steps; by the machine, with allowance and slots.
fn ran(line: &[u8], names: [u32; 3], allowance: u64, slots: usize) -> (u32, u64, Option<u64>) {
    let file = accepted(line);
    assert_eq!(answer(&file), 0, "{}", line.escape_ascii());
    let arguments = names.map(|name| (common::INT, u64::from(name)));
    let (outcome, steps, stack) = run_file(&file, 0, &arguments, allowance, slots).expect("a run");
    let value = (outcome == 0).then(|| {
        assert_eq!((stack.len(), stack[0].0), (1, common::INT));
        stack[0].1
    });
    (outcome, steps, value)
}

/// By both: the machine on the module, and the reading. Nothing where a quotient is by zero.
fn value(line: &str, names: [u32; 3]) -> Option<u32> {
    let reading = split::reading(line.as_bytes()).expect("a reading");
    let value = reading.value(names);
    let (outcome, _, by_run) = ran(line.as_bytes(), names, ALLOWANCE, SLOTS);
    assert_eq!(outcome, if value.is_some() { 0 } else { 24 }, "{line}");
    assert_eq!(by_run, value.map(u64::from), "{line}");
    value
}

#[test]
fn values() {
    let rgb = [10, 20, 30];
    for (line, wanted) in [
        ("(r*3+g)/4", 12),
        ("r", 10),
        ("g", 20),
        ("b", 30),
        ("b-g-r", 0),
        ("b-(g-r)", 20),
        ("100/r/2", 5),
        ("100/(r/2)", 20),
        ("2+3*4", 14),
        ("(2+3)*4", 20),
        ("-6/2", 2_147_483_645),
        ("-(6/2)", 4_294_967_293),
        ("-r*3", 4_294_967_266),
        ("--r", 10),
        ("---r", 4_294_967_286),
        ("r--g", 30),
        ("r- -g", 30),
        ("r-g", 4_294_967_286),
        ("4294967295+1", 0),
        ("4294967295*4294967295", 1),
        ("65536*65536", 0),
        ("00004294967295", 4_294_967_295),
        ("-0", 0),
        ("7/2", 3),
        ("4294967295/2", 2_147_483_647),
        ("2147483648/4294967295", 0),
        ("0/1", 0),
    ] {
        assert_eq!(value(line, rgb), Some(wanted), "{line}");
    }
    for line in [
        "1/0",
        "r/(g-20)",
        "1/0*0",
        "0*(1/0)",
        "0/0",
        "r+1/(b-b)-g",
        "1/(1/2)",
    ] {
        assert_eq!(value(line, rgb), None, "{line}");
    }
    assert_eq!(value("r/g", [1, 0, 0]), None);
    assert_eq!(value("r/g", [0, 1, 0]), Some(0));
}

/// "run with allowance 257 and 35 slots, or more": 257 steps are needed by some line, 35 slots
/// by some.
#[test]
fn allowance_and_slots() {
    let mut minus = vec![b'-'; 255];
    minus.push(b'r');
    assert_eq!(ran(&minus, [5, 0, 0], 257, 35), (0, 257, Some(0xFFFF_FFFB)));
    assert_eq!(ran(&minus, [5, 0, 0], 256, 35), (15, 256, None));
    let mut wide = b"r+r*(".repeat(15);
    wide.extend(b"r+g");
    wide.extend(b")".repeat(15));
    assert_eq!(ran(&wide, [1, 1, 0], 257, 35), (0, 64, Some(17)));
    assert_eq!(ran(&wide, [1, 1, 0], 257, 34).0, 20);
    assert_eq!(ran(&wide, [1, 1, 0], u64::MAX, 4096), (0, 64, Some(17)));
}

/// Generated lines: both readers give the same refusal, and an accepted line's module the
/// reading's value.
#[test]
fn generated_lines() {
    let mut answers = std::collections::BTreeMap::new();
    let (mut same, mut other) = (Second(Rules::PLAIN), Second(Rules::PLAIN));
    for number in 0..20_000 {
        let case = LineCase::new(8, number);
        let refusal = module(Rules::PLAIN, &case.line).err();
        assert_eq!(refusal, split::refusal(&case.line), "{}", case.describe());
        assert_eq!(compare_formulas(&case, &mut same, &mut other), None);
        *answers.entry(refusal.unwrap_or(0)).or_insert(0) += 1;
    }
    for number in [0, 40, 41, 42, 43] {
        assert!(answers[&number] > 300, "{answers:?}");
    }
}

/// Every line of up to six bytes of a small alphabet: both readers take the same ones, in the
/// same way, and both ways to find the place agree.
#[test]
fn all_short_lines() {
    let alphabet = b"r2-+*() ";
    let (mut taken, mut all) = (0, 0);
    let mut lines: Vec<Vec<u8>> = vec![Vec::new()];
    for length in 0..=6 {
        for line in &lines {
            let reading = split::reading(line);
            let file = module(Rules::PLAIN, line);
            assert_eq!(file.is_ok(), reading.is_some(), "{}", line.escape_ascii());
            if let Some(reading) = reading {
                let names = [7, 0, 0];
                let wanted = reading.value(names).map(u64::from);
                assert_eq!(ran(line, names, ALLOWANCE, SLOTS).2, wanted);
                taken += 1;
            } else {
                assert_eq!(file, Err(41));
                let place = place::place(line);
                assert_eq!(Some(place), stop(line), "{}", line.escape_ascii());
            }
            all += 1;
        }
        if length < 6 {
            let longer = lines
                .iter()
                .flat_map(|line| alphabet.iter().map(|&byte| [&line[..], &[byte]].concat()));
            lines = longer.collect();
        }
    }
    assert_eq!(all, (8usize.pow(7) - 1) / 7);
    assert!(taken > 3000, "{taken}");
}

/// Where a line leaves the grammar, by an automaton over its bytes with a count of open
/// brackets; nothing for a line of the grammar.
fn stop(line: &[u8]) -> Option<usize> {
    enum State {
        /// An operand is wanted.
        Wants,
        /// In a number, with its value.
        Number(u64),
        /// After an operand.
        Has,
    }
    let mut state = State::Wants;
    let mut open = 0;
    for (n, &byte) in line.iter().enumerate() {
        state = match (state, byte) {
            (State::Wants, b' ' | b'-') => State::Wants,
            (State::Wants, b'(') => {
                open += 1;
                State::Wants
            }
            (State::Wants, b'r' | b'g' | b'b') => State::Has,
            (State::Wants, b'0'..=b'9') => State::Number(u64::from(byte - b'0')),
            (State::Number(value), b'0'..=b'9') => {
                let value = 10 * value + u64::from(byte - b'0');
                if value > 4_294_967_295 {
                    return Some(n);
                }
                State::Number(value)
            }
            (State::Number(_) | State::Has, b' ') => State::Has,
            (State::Number(_) | State::Has, b'+' | b'-' | b'*' | b'/') => State::Wants,
            (State::Number(_) | State::Has, b')') if open > 0 => {
                open -= 1;
                State::Has
            }
            _ => return Some(n),
        };
    }
    let ends = !matches!(state, State::Wants) && open == 0;
    (!ends).then_some(line.len())
}

#[test]
fn places() {
    for (line, wanted) in [
        ("", 0),
        (" ", 1),
        ("r+", 2),
        ("r g", 2),
        ("2r", 1),
        ("1 2", 2),
        ("(r)(g)", 3),
        ("+r", 0),
        ("r++g", 2),
        ("()", 1),
        ("(r", 2),
        ("r)", 1),
        ("((r)", 4),
        ("(r))", 3),
        ("r\t+g", 1),
        ("r+g\n", 3),
        ("4294967296", 9),
        ("42949672950", 10),
        ("00004294967296", 13),
        ("r+9999999999", 11),
        ("(r*3+g)/", 8),
        ("(r*3+x)/4", 5),
        ("-", 1),
        ("x", 0),
    ] {
        let line = line.as_bytes();
        assert_eq!(place::place(line), wanted, "{}", line.escape_ascii());
        assert_eq!(stop(line), Some(wanted), "{}", line.escape_ascii());
    }
    let mut refused = 0;
    for number in 0..6000 {
        let line = LineCase::new(9, number).line;
        if module(Rules::PLAIN, &line) == Err(41) {
            assert_eq!(
                Some(place::place(&line)),
                stop(&line),
                "{}",
                line.escape_ascii()
            );
            refused += 1;
        } else if line.len() <= 256 {
            assert_eq!(stop(&line), None, "{}", line.escape_ascii());
        }
    }
    assert!(refused > 1000, "{refused}");
}

#[test]
fn desk_commands() {
    let rules = Rules::PLAIN;
    let refused = |text: &str| Left::Refused(text.to_string());
    assert_eq!(desk::formula(rules, b"(r*3+x)/4"), refused("41 5\n"));
    assert_eq!(desk::formula(rules, &[b' '; 257]), refused("40\n"));
    assert_eq!(
        desk::formula(rules, b"(((((((((((((((((r)))))))))))))))))"),
        refused("42\n")
    );
    let file = accepted(b"(r*3+g)/4");
    assert_eq!(
        desk::formula(rules, b"(r*3+g)/4"),
        Left::Printed(file.clone())
    );
    assert_eq!(
        desk::run(rules, &file, 0, 0, &[10, 20, 30]),
        "0 8 1\n3 12\n"
    );
    assert_eq!(desk::run(rules, &file, 0, 0, &[10, 20]), "13\n");
    assert_eq!(desk::run(rules, &file, 0, 1, &[]), "12\n");
    assert_eq!(desk::run(rules, &file, 0, 0xFFFF_FFFF, &[]), "0 0 0\n");
    assert_eq!(desk::run(rules, &file[1..], 0, 0, &[]), "2\n");
    let zero = accepted(b"r/g");
    assert_eq!(
        desk::run(rules, &zero, 0, 0, &[7, 0, 9]),
        "24 2 5\n3 7\n3 0\n3 9\n3 7\n3 0\n"
    );
    assert_eq!(desk::decimal("4294967295"), Some(0xFFFF_FFFF));
    assert_eq!(desk::decimal("007"), Some(7));
    for word in ["", "4294967296", "-1", "+1", "1x", " 1", "0x1", "1 "] {
        assert_eq!(desk::decimal(word), None, "{word}");
    }
}

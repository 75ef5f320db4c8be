//! Tests the tests: every deliberately wrong variant of the second program must be found by
//! comparing it with the plain one, on generated cases, or on generated tables for those of the
//! writer, lines for those of the formula, modules to be converted for those of conversions, rows for
//! those of rows, chains of edits for those of records, and modules that call for those of the need.
//!
//! `faults [--seed N] [--cases N] [--show]`: at most N cases for each variant.

use second::args;
use second::compare::needs::compare_needs;
use second::compare::records::compare_records;
use second::compare::{
    compare, compare_conversions, compare_formulas, compare_maps, compare_writes,
};
use second::gen::case::Case;
use second::gen::conversions::ConvertCase;
use second::gen::lines::LineCase;
use second::gen::needs::NeedCase;
use second::gen::records::RecordCase;
use second::gen::rows::MapCase;
use second::gen::tables::WriteCase;
use second::rules::{
    Fault, Rules, CONVERSION_FAULTS, FAULTS, FORMULA_FAULTS, HEAP_FAULTS, MANAGED_FAULTS,
    NEED_FAULTS, PROFILE_FAULTS, RANGE_FAULTS, RECORD_FAULTS, ROW_FAULTS, WRITER_FAULTS,
};
use second::subject::Second;

/// A wrong variant, its name, and what is wrong.
type Variant = (Fault, &'static str, &'static str);

/// After how many cases a variant was found, on what kind of case, and the difference.
type Found = Option<(u64, &'static str, String)>;

fn main() {
    args::expect(&["--seed", "--cases", "--show"]);
    let seed = args::number("--seed", 1);
    let limit = args::number("--cases", 50_000);
    println!("wrong variants, found after how many cases from seed {seed} (at most {limit}):");
    let searches = [
        missed_runs,
        missed_writers,
        missed_formulas,
        missed_conversions,
        missed_rows,
        missed_records,
        missed_needs,
    ];
    let missed: usize = searches.iter().map(|missed| missed(seed, limit)).sum();
    let written = WRITER_FAULTS.len() + FORMULA_FAULTS.len() + CONVERSION_FAULTS.len();
    let rest = ROW_FAULTS.len() + RECORD_FAULTS.len() + NEED_FAULTS.len();
    let all = run_faults().len() + written + rest;
    println!("{all} wrong variants, {missed} missed");
    if missed > 0 {
        std::process::exit(1);
    }
}

/// The wrong variants of checks and runs.
fn run_faults() -> Vec<Variant> {
    let heaps = [&HEAP_FAULTS[..], &MANAGED_FAULTS].concat();
    [&FAULTS[..], &heaps, &PROFILE_FAULTS, &RANGE_FAULTS].concat()
}

/// How many of them are not found.
fn missed_runs(seed: u64, limit: u64) -> usize {
    search(&run_faults(), limit, |number| {
        let case = Case::new(seed, number);
        move |wrong: &mut Second| {
            let difference = compare(&case, &mut Second(Rules::PLAIN), wrong);
            difference.map(|text| (number + 1, case.kind, text))
        }
    })
}

/// How many wrong variants of the writer are not found.
fn missed_writers(seed: u64, limit: u64) -> usize {
    search(&WRITER_FAULTS, limit, |number| {
        let case = WriteCase::new(seed, number);
        move |wrong: &mut Second| {
            let difference = compare_writes(&case, &mut Second(Rules::PLAIN), wrong);
            difference.map(|text| (number + 1, case.kind, text))
        }
    })
}

/// How many wrong variants of the formula are not found.
fn missed_formulas(seed: u64, limit: u64) -> usize {
    search(&FORMULA_FAULTS, limit, |number| {
        let case = LineCase::new(seed, number);
        move |wrong: &mut Second| {
            let difference = compare_formulas(&case, &mut Second(Rules::PLAIN), wrong);
            difference.map(|text| (number + 1, case.kind, text))
        }
    })
}

/// How many wrong variants of conversions are not found.
fn missed_conversions(seed: u64, limit: u64) -> usize {
    search(&CONVERSION_FAULTS, limit, |number| {
        let case = ConvertCase::new(seed, number);
        move |wrong: &mut Second| {
            let difference = compare_conversions(&case, &mut Second(Rules::PLAIN), wrong);
            difference.map(|text| (number + 1, case.kind, text))
        }
    })
}

/// How many wrong variants of rows are not found.
fn missed_rows(seed: u64, limit: u64) -> usize {
    search(&ROW_FAULTS, limit, |number| {
        let case = MapCase::new(seed, number);
        move |wrong: &mut Second| {
            let difference = compare_maps(&case, &mut Second(Rules::PLAIN), wrong);
            difference.map(|text| (number + 1, case.kind, text))
        }
    })
}

/// How many wrong variants of records are not found.
fn missed_records(seed: u64, limit: u64) -> usize {
    search(&RECORD_FAULTS, limit, |number| {
        let case = RecordCase::new(seed, number);
        move |wrong: &mut Second| {
            let difference = compare_records(&case, &mut Second(Rules::PLAIN), wrong);
            difference.map(|text| (number + 1, case.kind, text))
        }
    })
}

/// How many wrong variants of the need are not found.
fn missed_needs(seed: u64, limit: u64) -> usize {
    search(&NEED_FAULTS, limit, |number| {
        let case = NeedCase::new(seed, number);
        move |wrong: &mut Second| {
            let difference = compare_needs(&case, &mut Second(Rules::PLAIN), wrong);
            difference.map(|text| (number + 1, case.kind, text))
        }
    })
}

/// Compares each variant on cases up to the first that tells it, and prints a line for each;
/// gives how many were not found. `make` gives the comparison on the case of a number.
fn search<C: Fn(&mut Second) -> Found>(
    variants: &[Variant],
    limit: u64,
    make: impl Fn(u64) -> C,
) -> usize {
    let mut missed: Vec<usize> = (0..variants.len()).collect();
    let mut found: Vec<Found> = vec![None; variants.len()];
    for number in 0..limit {
        if missed.is_empty() {
            break;
        }
        let compare = make(number);
        missed.retain(|&n| {
            found[n] = compare(&mut Second(Rules::with(variants[n].0)));
            found[n].is_none()
        });
    }
    for ((_, name, meaning), found) in variants.iter().zip(&found) {
        match found {
            Some((cases, kind, text)) => {
                println!("  {cases:>6}  {name}: {meaning} [{kind}]");
                if args::has("--show") {
                    println!("          {text}");
                }
            }
            None => println!("  MISSED  {name}: {meaning}"),
        }
    }
    missed.len()
}

//! The check alone: what is stated of checks, and generated cases without their runs.

use crate::guard;
use crate::library::Library;
use second::args;
use second::compare::compare_checks;
use second::gen::case::Case;
use second::hex;
use second::rules::Rules;
use second::stated;
use second::subject::Second;

/// How many of the stated checks come out otherwise; the first few are printed.
pub fn not_as_stated() -> u64 {
    count("check", &stated::all(), |stated, library| {
        let difference = stated.difference(library)?;
        let module = hex::encode(&stated.file);
        Some(format!("{difference}\n  module: {module}"))
    })
}

/// How many of the stated calls come out otherwise, with empty slices lent as null or not; the
/// first few are printed.
pub fn count<S>(call: &str, all: &[S], difference: fn(&S, &mut Library) -> Option<String>) -> u64 {
    let most = args::number("--most", 5);
    let mut differences = 0;
    for (number, stated) in all.iter().enumerate() {
        guard::next(guard::STATED | number as u64);
        let difference = [false, true]
            .into_iter()
            .find_map(|null_if_empty| difference(stated, &mut Library { null_if_empty }));
        let Some(difference) = difference else {
            continue;
        };
        differences += 1;
        if differences <= most {
            println!("DIFFERENCE in stated {call} {number}, stated and library:");
            println!("  {difference}");
        }
    }
    println!("stated {call}s: {}, {differences} differences", all.len());
    differences
}

/// Compares the check of one case.
pub fn differs(case: &Case, null_if_empty: bool) -> (usize, Option<String>) {
    let mut library = Library { null_if_empty };
    let difference = compare_checks(case, &mut Second(Rules::PLAIN), &mut library);
    (1, difference)
}

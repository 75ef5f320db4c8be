//! The loop over generated cases, for all comparisons.

use crate::guard::{self, Call};
use second::args;
use std::time::{Duration, Instant};

/// A comparison on cases of one sort.
pub struct Comparison<C> {
    pub subject: &'static str,
    /// The case of a seed and a number.
    pub make: fn(u64, u64) -> C,
    /// Compares one case: how many calls that takes, and what differs, in words.
    pub compare: fn(&C, bool) -> (usize, Option<String>),
    /// The case's generator, and its bytes in words.
    pub describe: fn(&C) -> (&'static str, String),
    /// The case's edition: 1, 4, or else 3.
    pub edition: fn(&C) -> u64,
}

/// The edition that the word of these bytes says: 1, 4, or else 3.
pub fn edition_of(start: &[u8]) -> u64 {
    match start {
        [1, 0, 0, 0, ..] => 1,
        [4, 0, 0, 0, ..] => 4,
        _ => 3,
    }
}

/// Looks at the arguments, and names what crashes from here on.
pub fn start() {
    args::expect(&[
        "--checks",
        "--writes",
        "--formulas",
        "--conversions",
        "--rows",
        "--records",
        "--needs",
        "--edition",
        "--seed",
        "--cases",
        "--seconds",
        "--from",
        "--most",
    ]);
    let call = if args::has("--writes") {
        Call::Write
    } else if args::has("--formulas") {
        Call::Formula
    } else if args::has("--conversions") {
        Call::Convert
    } else if args::has("--rows") {
        Call::Map
    } else if args::has("--records") {
        Call::Record
    } else if args::has("--needs") {
        Call::Need
    } else if args::has("--checks") {
        Call::Check
    } else {
        Call::Run
    };
    guard::start(args::number("--seed", 1), call);
}

/// Compares cases until time is up or enough differences are printed, and ends the process
/// with status 1 if there is one. `--edition 1` and `--edition 4` take cases of that edition alone,
/// `--edition 3` all others. `before`: differences found before the first case.
pub fn run<C>(comparison: &Comparison<C>, before: u64) {
    let seed = args::number("--seed", 1);
    let from = args::number("--from", 0);
    let cases = args::value("--cases").map(|_| args::number("--cases", 0));
    let seconds = args::number("--seconds", 60);
    let most = args::number("--most", 5);
    let edition = args::number("--edition", 0);
    let start = Instant::now();
    let (mut number, mut calls, mut differences) = (from, 0, before);
    let mut compared = 0u64;
    loop {
        let done = match cases {
            Some(cases) => number - from >= cases,
            None => start.elapsed() >= Duration::from_secs(seconds),
        };
        if done || differences >= most {
            break;
        }
        guard::next(number);
        let case = (comparison.make)(seed, number);
        number += 1;
        if edition != 0 && edition != (comparison.edition)(&case) {
            continue;
        }
        compared += 1;
        let number = number - 1;
        // slices of length 0 are lent as null pointers in every other case
        let (made, difference) = (comparison.compare)(&case, number % 2 == 1);
        calls += made;
        if let Some(difference) = difference {
            print(comparison, seed, number, &case, &difference);
            differences += 1;
        }
    }
    let which = match edition {
        0 => String::new(),
        edition => format!(" of edition {edition}"),
    };
    println!(
        "{}: {compared} cases{which} from seed {seed}, {calls} calls, {differences} differences",
        comparison.subject,
    );
    if differences > 0 {
        std::process::exit(1);
    }
}

/// A difference with all that it takes to see it again.
fn print<C>(comparison: &Comparison<C>, seed: u64, number: u64, case: &C, difference: &str) {
    let (kind, bytes) = (comparison.describe)(case);
    println!(
        "DIFFERENCE in case {number} of seed {seed} ({kind}), second program and {}:",
        comparison.subject
    );
    println!("  {difference}");
    println!("  {bytes}");
    println!("  again: --seed {seed} --from {number} --cases 1");
}

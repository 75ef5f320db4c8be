//! Shows what generated cases reach, and fails if something possible is not reached.
//!
//! `coverage [--seed N] [--cases N] [--full]`

use second::args;
use second::conversion::TARGETS;
use second::coverage::Coverage;
use second::gen::case::Case;
use second::gen::conversions::ConvertCase;
use second::gen::lines::LineCase;
use second::gen::needs::NeedCase;
use second::gen::records::RecordCase;
use second::gen::rows::MapCase;
use second::gen::tables::WriteCase;
use second::opcode::{Edition, EDITIONS};
use second::possible::{
    answer_of, at_range_edges, conversion_answers, exceptions, executions, map_answers, need_edges,
    reasons, record_edges, row_edges, row_numbers, BODY_ANSWERS, CHECK_ANSWERS, CONVERSION_EDGES,
    FORMULA_ANSWERS, HEAP_EDGES, LINE_EDGES, MANAGED_EDGES, NEED_ANSWERS, PROFILE_EDGES,
    RECORDING_ANSWERS, ROW_PLACES, RUN_ANSWERS, WRITE_ANSWERS,
};
use std::collections::BTreeMap;

/// Conversions have fewer edges: one for so many cases is enough.
const CONVERSIONS: u64 = 6;

/// And one call on rows, which is many runs, one chain of edits, or one module's needs, for so many.
const MAPS: u64 = 4;

fn main() {
    args::expect(&["--seed", "--cases", "--full"]);
    let seed = args::number("--seed", 1);
    let cases = args::number("--cases", 60_000);
    let coverage = gathered(seed, cases);
    println!("coverage of {cases} cases from seed {seed}");
    let full = args::has("--full");
    let mut missing = kinds(&coverage) + lines(&coverage) + answers(&coverage);
    for edition in EDITIONS {
        missing += answers_of(&coverage, edition)
            + executed(&coverage, edition, full)
            + raised(&coverage, edition, full)
            + at_edges(&coverage, edition, full)
            + refused(&coverage, edition, full)
            + converted(&coverage, edition)
            + mapped(&coverage, edition)
            + recorded(&coverage, edition)
            + needed(&coverage, edition);
    }
    println!(
        "runs of accepted modules that break demand 3: {}",
        coverage.broken
    );
    println!(
        "formula lines that come out otherwise: {}",
        coverage.misread
    );
    println!("conversions that come out otherwise: {}", coverage.unlike);
    let unkept = coverage.unkept;
    println!("checks of a body that are not the full check's: {unkept}");
    let overflows = coverage.overflows;
    println!("runs on as many slots as they need that end in 20: {overflows}");
    println!("possible but not reached: {missing}");
    let wrong = coverage.broken + coverage.misread + coverage.unlike + unkept + overflows;
    if missing + wrong > 0 {
        std::process::exit(1);
    }
}

/// What all generated cases reach.
fn gathered(seed: u64, cases: u64) -> Coverage {
    let mut coverage = Coverage::default();
    for number in 0..cases {
        coverage.add(&Case::new(seed, number));
        coverage.add_write(&WriteCase::new(seed, number));
        coverage.add_line(&LineCase::new(seed, number));
    }
    for number in 0..cases / CONVERSIONS {
        coverage.add_conversion(&ConvertCase::new(seed, number));
    }
    for number in 0..cases / MAPS {
        coverage.add_map(&MapCase::new(seed, number));
        coverage.add_records(&RecordCase::new(seed, number));
        coverage.add_need(&NeedCase::new(seed, number));
    }
    coverage
}

/// Well-typed programs must all be accepted; what is not counts as missing.
fn kinds(coverage: &Coverage) -> u64 {
    let mut missing = 0;
    println!("modules by generator (accepted of all):");
    for (kind, all) in &coverage.kinds {
        let accepted = coverage.accepted.get(kind).copied().unwrap_or(0);
        println!("  {kind}: {accepted} of {all}");
        if ["typed", "expression", "heap", "managed"].contains(kind) {
            missing += all - accepted;
        }
    }
    missing
}

/// Lines made to be in the grammar and in the limits must all be accepted.
fn lines(coverage: &Coverage) -> u64 {
    let mut missing = 0;
    println!("formula lines by generator (accepted of all):");
    for (kind, all) in &coverage.lines {
        let accepted = coverage.accepted_lines.get(kind).copied().unwrap_or(0);
        println!("  {kind}: {accepted} of {all}");
        if *kind == "expression" {
            missing += all - accepted;
        }
    }
    missing
}

/// One row of numbers with their counts; gives how many are 0.
fn row(title: &str, counts: impl Iterator<Item = (String, u64)>) -> u64 {
    let mut missing = 0;
    let mut text = String::new();
    for (name, count) in counts {
        missing += u64::from(count == 0);
        let shown = if count == 0 {
            "NOT REACHED".to_string()
        } else {
            count.to_string()
        };
        text += &format!(" {name}:{shown}");
    }
    println!("{title}{text}");
    missing
}

fn answers(coverage: &Coverage) -> u64 {
    let formulas = FORMULA_ANSWERS.iter().map(|&n| {
        let count = coverage.formulas.get(&n).copied();
        (n.to_string(), count.unwrap_or(0))
    });
    let misfit = std::iter::once(("20".to_string(), coverage.misfits));
    row("answers of formulas:", formulas)
        + row("arguments that don't fit:", misfit)
        + edges("formula lines", &LINE_EDGES, &coverage.line_edges)
        + edges("heaps", &HEAP_EDGES, &coverage.heap_edges)
        + edges("managed blocks", &MANAGED_EDGES, &coverage.managed_edges)
        + edges("profiles", &PROFILE_EDGES, &coverage.profile_edges)
        + edges("conversions", &CONVERSION_EDGES, &coverage.conversion_edges)
}

/// One row of edges with their counts.
fn edges(of: &str, all: &[&'static str], counts: &BTreeMap<&'static str, u64>) -> u64 {
    let counted = all.iter().map(|&edge| {
        let count = counts.get(edge).copied();
        (edge.to_string(), count.unwrap_or(0))
    });
    row(&format!("edges of {of}:"), counted)
}

/// The answers of conversions of an edition's modules, up and down.
fn converted(coverage: &Coverage, edition: Edition) -> u64 {
    let mut missing = 0;
    for to in TARGETS {
        let numbers = conversion_answers(to, edition).into_iter();
        let counted = numbers.map(|n| {
            let count = coverage.conversions.get(&(to, edition, n)).copied();
            (n.to_string(), count.unwrap_or(0))
        });
        let (word, to) = (edition.word(), to.word());
        let title = format!("answers of conversions to {to}, edition {word}:");
        missing += row(&title, counted);
    }
    missing
}

/// The answers of both checks with records, and their edges.
fn recorded(coverage: &Coverage, edition: Edition) -> u64 {
    let word = edition.word();
    let counted = |numbers: &[u32], counts: &BTreeMap<(Edition, u32), u64>| {
        let numbers = numbers.iter().filter(|&&n| answer_of(edition, n));
        let counts = numbers.map(|&n| {
            let count = counts.get(&(edition, n)).copied();
            (n.to_string(), count.unwrap_or(0))
        });
        counts.collect::<Vec<_>>().into_iter()
    };
    let full = counted(&RECORDING_ANSWERS, &coverage.recordings);
    let bodies = counted(&BODY_ANSWERS, &coverage.bodies);
    let edges = record_edges(edition).into_iter().map(|edge| {
        let count = coverage.record_edges.get(&(edition, edge)).copied();
        (edge.to_string(), count.unwrap_or(0))
    });
    row(
        &format!("answers of checks with a record, edition {word}:"),
        full,
    ) + row(
        &format!("answers of checks of a body, edition {word}:"),
        bodies,
    ) + row(&format!("edges of records, edition {word}:"), edges)
}

/// The answers of calls for the needs, and their edges.
fn needed(coverage: &Coverage, edition: Edition) -> u64 {
    let word = edition.word();
    let numbers = NEED_ANSWERS.into_iter().filter(|&n| answer_of(edition, n));
    let answers = numbers.map(|n| {
        let count = coverage.needs.get(&(edition, n)).copied();
        (n.to_string(), count.unwrap_or(0))
    });
    let edges = need_edges(edition).into_iter().map(|edge| {
        let count = coverage.need_edges.get(&(edition, edge)).copied();
        (edge.to_string(), count.unwrap_or(0))
    });
    row(&format!("answers of needs, edition {word}:"), answers)
        + row(&format!("edges of needs, edition {word}:"), edges)
}

/// The answers of calls on rows, the places of the rows that end them, and their edges.
fn mapped(coverage: &Coverage, edition: Edition) -> u64 {
    let word = edition.word();
    let answers = map_answers(edition).into_iter().map(|n| {
        let count = coverage.maps.get(&(edition, n)).copied();
        (n.to_string(), count.unwrap_or(0))
    });
    let mut missing = row(&format!("answers of rows, edition {word}:"), answers);
    for number in row_numbers(edition) {
        let places = ROW_PLACES.into_iter().map(|place| {
            let count = coverage.row_places.get(&(edition, number, place));
            (place.to_string(), count.copied().unwrap_or(0))
        });
        missing += row(
            &format!("rows that end with {number}, edition {word}:"),
            places,
        );
    }
    let edges = row_edges(edition).into_iter().map(|edge| {
        let count = coverage.row_edges.get(&(edition, edge)).copied();
        (edge.to_string(), count.unwrap_or(0))
    });
    missing + row(&format!("edges of rows, edition {word}:"), edges)
}

fn answers_of(coverage: &Coverage, edition: Edition) -> u64 {
    let word = edition.word();
    let mut missing = 0;
    for (call, numbers, counts) in [
        ("checks", &CHECK_ANSWERS[..], &coverage.checks),
        ("runs", &RUN_ANSWERS[..], &coverage.runs),
        ("writes", &WRITE_ANSWERS[..], &coverage.writes),
    ] {
        let possible = numbers.iter().filter(|&&n| answer_of(edition, n));
        let counted = possible.map(|&n| {
            let count = counts.get(&(edition, n)).copied();
            (n.to_string(), count.unwrap_or(0))
        });
        missing += row(&format!("answers of {call}, edition {word}:"), counted);
    }
    missing
}

fn executed(coverage: &Coverage, edition: Edition, full: bool) -> u64 {
    let mut missing = 0;
    let mut pairs = 0;
    for op in edition.ops() {
        let of = |variant: u8| {
            let count = coverage.executed.get(&(edition, op, variant));
            (variant.to_string(), count.copied().unwrap_or(0))
        };
        let counts: Vec<(String, u64)> = executions(edition, op).into_iter().map(of).collect();
        pairs += counts.len();
        missing += show(&format!("  {}", op.name()), counts, full);
    }
    let word = edition.word();
    println!("executed, edition {word}: {pairs} pairs of opcode and type (or way), {missing} not reached");
    missing
}

fn raised(coverage: &Coverage, edition: Edition, full: bool) -> u64 {
    let mut missing = 0;
    let mut pairs = 0;
    for op in edition.ops() {
        let of = |number: u32| {
            let count = coverage.raised.get(&(edition, op, number));
            (number.to_string(), count.copied().unwrap_or(0))
        };
        let counts: Vec<(String, u64)> = exceptions(edition, op).into_iter().map(of).collect();
        pairs += counts.len();
        missing += show(&format!("  {} raises", op.name()), counts, full);
    }
    let word = edition.word();
    println!(
        "raised, edition {word}: {pairs} pairs of opcode and exception, {missing} not reached"
    );
    for (of, op, number) in coverage.raised.keys() {
        if *of == edition && !exceptions(edition, *op).contains(number) {
            println!("  {} raised {number}, which is not possible", op.name());
            missing += 1;
        }
    }
    missing
}

/// The doubles where the ranges of `toi` and `tol` end.
fn at_edges(coverage: &Coverage, edition: Edition, full: bool) -> u64 {
    let all = at_range_edges();
    let mut missing = 0;
    for &(op, bits) in &all {
        let count = coverage.converted.get(&(edition, op, bits)).copied();
        let counted = vec![(format!("{bits:016X}"), count.unwrap_or(0))];
        missing += show(&format!("  {} of", op.name()), counted, full);
    }
    let (word, pairs) = (edition.word(), all.len());
    println!("converted, edition {word}: {pairs} pairs of opcode and double at an edge, {missing} not reached");
    missing
}

fn refused(coverage: &Coverage, edition: Edition, full: bool) -> u64 {
    let all = reasons(edition);
    let mut missing = 0;
    for reason in &all {
        let count = coverage
            .reasons
            .get(&(edition, *reason))
            .copied()
            .unwrap_or(0);
        missing += show("  no typing:", vec![(format!("{reason:?}"), count)], full);
    }
    let word = edition.word();
    println!(
        "no typing, edition {word}: {} reasons, {missing} not reached",
        all.len()
    );
    missing
}

/// Prints a row in a full report, or where something is missing.
fn show(title: &str, counts: Vec<(String, u64)>, full: bool) -> u64 {
    if full || counts.iter().any(|(_, count)| *count == 0) {
        return row(title, counts.into_iter());
    }
    0
}

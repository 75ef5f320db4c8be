//! Compares the library behind the C interface with the second program on generated cases:
//! answers, out-parameters, all lent memory and the guard bytes around it, first on what is stated
//! of runs. With `--checks`, only checks are compared, first with what is stated of them, then on
//! generated cases; with `--writes`, writes in the same way; with `--formulas`, formula lines, and
//! the check and the runs of what they are written as; with `--conversions`, conversions between
//! editions 3 and 4, the way back, and the runs of what they give; with `--rows`, calls on rows; with
//! `--records`, full checks that write a record and checks of a body, along chains of edits; with
//! `--needs`, what stack modules need, and runs on as many slots.
//!
//! `differential [--checks | --writes | --formulas | --conversions | --rows | --records | --needs]
//! [--edition N] [--seed N] [--seconds N | --cases N] [--from N] [--most N]`

mod checks;
mod conversions;
mod formulas;
mod guard;
mod huge;
mod library;
#[cfg(not(without_needs))]
mod needs;
#[cfg(not(without_records))]
mod records;
mod rounds;
#[cfg(not(without_rows))]
mod rows;
mod runs;
mod writes;

use library::{limpetskein_check, Library};
use rounds::{edition_of, Comparison};
use second::args;
use second::compare::compare;
use second::gen::case::Case;
use second::gen::conversions::ConvertCase;
use second::gen::lines::LineCase;
#[cfg(not(without_needs))]
use second::gen::needs::NeedCase;
#[cfg(not(without_records))]
use second::gen::records::RecordCase;
#[cfg(not(without_rows))]
use second::gen::rows::MapCase;
use second::gen::tables::WriteCase;
use second::hex;
use second::rules::Rules;
use second::subject::Second;

fn main() {
    rounds::start();
    let others: [(&str, fn()); 6] = [
        ("--writes", compare_writes),
        ("--formulas", compare_formulas),
        ("--conversions", compare_conversions),
        ("--rows", compare_rows),
        ("--records", compare_records),
        ("--needs", compare_needs),
    ];
    if let Some((_, compare)) = others.iter().find(|(name, _)| args::has(name)) {
        return compare();
    }
    let check = huge::differs("check", |module, len| {
        let mut body = 0;
        // SAFETY: the module's pointer and length are those of a live buffer.
        unsafe { limpetskein_check(module, len, std::ptr::null_mut(), 0, &raw mut body) }
    });
    if args::has("--checks") {
        let before = u64::from(check) + checks::not_as_stated();
        let checks = Comparison {
            subject: "library's check",
            make: Case::without_runs,
            compare: checks::differs,
            describe,
            edition: |case: &Case| edition_of(&case.module),
        };
        rounds::run(&checks, before);
    } else {
        let run = huge::differs("run", library::run_entry);
        let before = u64::from(check) + u64::from(run) + runs::huge_differ();
        let before = before + runs::not_as_stated();
        let all = Comparison {
            subject: "library",
            make: Case::new,
            compare: differs,
            describe,
            edition: |case: &Case| edition_of(&case.module),
        };
        rounds::run(&all, before);
    }
}

fn compare_writes() {
    let before = writes::huge_differ() + writes::not_as_stated();
    let writes = Comparison {
        subject: "library's writer",
        make: WriteCase::new,
        compare: writes::differs,
        describe: |case: &WriteCase| (case.kind, case.describe()),
        edition: |case: &WriteCase| edition_of(&case.tables.edition.to_le_bytes()),
    };
    rounds::run(&writes, before);
}

fn compare_formulas() {
    let before = formulas::huge_differ() + formulas::not_as_stated();
    let formulas = Comparison {
        subject: "library's formula",
        make: LineCase::new,
        compare: formulas::differs,
        describe: |case: &LineCase| (case.kind, case.describe()),
        edition: |_| 3,
    };
    rounds::run(&formulas, before);
}

fn compare_conversions() {
    let before = conversions::huge_differ() + conversions::not_as_stated();
    let conversions = Comparison {
        subject: "library's conversion",
        make: ConvertCase::new,
        compare: conversions::differs,
        describe: |case: &ConvertCase| (case.kind, case.describe()),
        edition: |case: &ConvertCase| edition_of(&case.module),
    };
    rounds::run(&conversions, before);
}

#[cfg(not(without_rows))]
fn compare_rows() {
    let before = rows::huge_differ() + rows::not_as_stated();
    let rows = Comparison {
        subject: "library's rows",
        make: MapCase::new,
        compare: rows::differs,
        describe: |case: &MapCase| (case.kind, case.describe()),
        edition: |case: &MapCase| edition_of(&case.module),
    };
    rounds::run(&rows, before);
}

#[cfg(without_rows)]
fn compare_rows() {
    eprintln!("linked with an archive that has no call on rows");
    std::process::exit(2);
}

#[cfg(not(without_records))]
fn compare_records() {
    let before = records::huge_differ() + records::not_as_stated();
    let records = Comparison {
        subject: "library's records",
        make: RecordCase::new,
        compare: records::differs,
        describe: |case: &RecordCase| (case.kind, case.describe()),
        edition: |case: &RecordCase| edition_of(case.first()),
    };
    rounds::run(&records, before);
}

#[cfg(without_records)]
fn compare_records() {
    eprintln!("linked with an archive that has no checks with records");
    std::process::exit(2);
}

#[cfg(not(without_needs))]
fn compare_needs() {
    let before = needs::huge_differ() + needs::not_as_stated();
    let needs = Comparison {
        subject: "library's needs",
        make: NeedCase::new,
        compare: needs::differs,
        describe: |case: &NeedCase| (case.kind, case.describe()),
        edition: |case: &NeedCase| edition_of(&case.module),
    };
    rounds::run(&needs, before);
}

#[cfg(without_needs)]
fn compare_needs() {
    eprintln!("linked with an archive that tells no needs");
    std::process::exit(2);
}

fn describe(case: &Case) -> (&'static str, String) {
    (case.kind, format!("module: {}", hex::encode(&case.module)))
}

fn differs(case: &Case, null_if_empty: bool) -> (usize, Option<String>) {
    let mut library = Library { null_if_empty };
    let difference = compare(case, &mut Second(Rules::PLAIN), &mut library);
    (1 + case.runs.len(), difference)
}

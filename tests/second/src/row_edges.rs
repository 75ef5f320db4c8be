//! Which of `possible::row_edges` a call on rows reaches, and where the row is that ends it.

use crate::gen::rows::MapCase;
use crate::heap::LISTED_MANAGED;
use crate::map::EIGHT;
use crate::memory::MapMemory;
use crate::possible::ROW_PLACES;
use crate::reader::{read, Function, ENTRY};
use crate::rules::Rules;
use crate::types::{is_managed, is_number, is_pointer, INT};
use crate::words::payload;

/// The function of a case whose module can be read and has it.
fn function(case: &MapCase) -> Option<Function> {
    let module = read(Rules::PLAIN, &case.module).ok()?;
    module.function(case.function)
}

/// Which clauses of 13 hold for a function, by their names.
fn clauses(case: &MapCase, function: &Function) -> Vec<&'static str> {
    let needed = function.parameters.len() * case.out.len();
    let given = case.arg_payloads.len();
    let managed = function.parameters.iter().any(|&ty| is_managed(ty));
    let pointer = function.parameters.iter().any(|&ty| !is_number(ty)) && !managed;
    reached(&[
        ("13 by part of an output", !whole(case)),
        ("13 by fewer arguments", whole(case) && given < needed),
        ("13 by more arguments", whole(case) && given > needed),
        ("13 by a pointer", pointer),
        ("13 by a managed pointer", managed),
        ("13 by no result", function.returns == 0),
    ])
}

fn whole(case: &MapCase) -> bool {
    case.out.len().is_multiple_of(EIGHT)
}

fn reached(edges: &[(&'static str, bool)]) -> Vec<&'static str> {
    let holding = edges.iter().filter(|edge| edge.1);
    holding.map(|edge| edge.0).collect()
}

fn profile_differs(case: &MapCase, function: &Function) -> bool {
    ![0, case.profile].contains(&function.profile)
}

/// Where the row is that ended the call, if one of three or more did.
pub fn place(case: &MapCase, answer: u32, rows: u64) -> Option<&'static str> {
    let function = function(case)?;
    let began = clauses(case, &function).is_empty() && !profile_differs(case, &function);
    let count = case.out.len() / EIGHT;
    if answer == 0 || !began || count < 3 {
        return None;
    }
    Some(match rows as usize {
        0 => ROW_PLACES[0],
        row if row + 1 == count => ROW_PLACES[2],
        _ => ROW_PLACES[1],
    })
}

/// By a call, its answer and what it left.
pub fn of_map(case: &MapCase, answer: u32, memory: &MapMemory) -> Vec<&'static str> {
    let none = case.out.is_empty();
    let mut edges = vec![
        ("12 and part of an output", answer == 12 && !whole(case)),
        ("no rows, 12", answer == 12 && none),
        ("no rows, 13", answer == 13 && none),
        ("no rows, 17", answer == 17 && none),
    ];
    if case.function == ENTRY {
        let empty = whole(case) && case.arg_payloads.is_empty();
        edges.push(("13 by the entry", answer == 13 && empty));
    }
    let mut all = reached(&edges);
    if let Some(function) = function(case) {
        all.extend(of_refusals(case, &function, answer));
        all.extend(of_rows(case, &function, answer, memory));
    }
    all
}

/// Each clause of 13 alone, and the order of 13 and 17.
fn of_refusals(case: &MapCase, function: &Function, answer: u32) -> Vec<&'static str> {
    let held = clauses(case, function);
    let mut all = Vec::new();
    if let [alone] = held[..] {
        all.extend((answer == 13).then_some(alone));
    }
    let other = profile_differs(case, function);
    let first = held.is_empty() && first_upper_bits(case, function);
    all.extend(reached(&[
        (
            "13 and another profile",
            answer == 13 && other && !held.is_empty(),
        ),
        ("17 and upper bits in the first row", answer == 17 && first),
    ]));
    all
}

/// Has an int of the first row upper bits?
fn first_upper_bits(case: &MapCase, function: &Function) -> bool {
    let types = function.parameters.iter();
    let mut slots = types.zip(case.arg_payloads.chunks_exact(EIGHT));
    slots.any(|(&ty, bytes)| ty == INT && payload(bytes, 0) >> 32 != 0)
}

/// By rows that were run, or would have been.
fn of_rows(
    case: &MapCase,
    function: &Function,
    answer: u32,
    memory: &MapMemory,
) -> Vec<&'static str> {
    if !clauses(case, function).is_empty() || profile_differs(case, function) {
        return Vec::new();
    }
    let (count, rows) = (case.out.len() / EIGHT, memory.rows as usize);
    let slots = (case.payloads.len() / 8).min(case.types.len());
    let misfit = function.parameters.len() > slots;
    let refused = answer == 13;
    let managed = is_managed(function.returns);
    let pointer = is_pointer(function.returns) && !managed;
    let blocks = (case.heap.len() / 8).min(case.blocks.len() / 24);
    let table = memory.blocks.slice().chunks(24).take(blocks);
    let mut types = table.map(|entry| payload(entry, 16)).filter(|&ty| ty != 0);
    let listed = types.clone().next().is_some();
    let kept = types.any(|ty| ty >= u64::from(LISTED_MANAGED));
    let mut all = reached(&[
        ("no rows", count == 0),
        (
            "no rows, arguments that would not fit",
            count == 0 && misfit,
        ),
        ("20 by arguments that don't fit", answer == 20 && misfit),
        ("upper bits where arguments don't fit", refused && misfit),
        ("upper bits in a later row", refused && rows > 0),
        ("one row", answer == 0 && count == 1),
        ("dozens of rows", answer == 0 && count >= 24),
        ("a pointer returned", pointer && rows > 0),
        ("a pointer returned by several rows", pointer && rows > 1),
        ("a managed pointer returned", managed && rows > 0),
        ("blocks left", listed && rows > 0),
        ("managed blocks left", kept && rows > 0),
        ("no heap", blocks == 0 && rows > 0),
    ]);
    if answer == 0 && count > 1 {
        all.push(COUNTS[function.parameters.len()]);
    }
    all
}

/// Finished rows of a function with so many parameters.
const COUNTS: [&str; 9] = [
    "0 parameters",
    "1 parameter",
    "2 parameters",
    "3 parameters",
    "4 parameters",
    "5 parameters",
    "6 parameters",
    "7 parameters",
    "8 parameters",
];

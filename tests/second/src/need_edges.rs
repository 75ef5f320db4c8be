//! Which of `possible::need_edges` a call for the needs, and the runs on as many slots, reach.

use crate::gen::needs::{NeedCase, MOST_FRAMES, MOST_SLOTS};
use crate::memory::NeedMemory;
use crate::need::paths::Paths;
use crate::need::{followed, length, needs, reported, Need, PAIR};
use crate::reader::{read, Module, ENTRY};
use crate::rules::{Fault, Rules};
use crate::subject::{Second, Subject};
use std::collections::BTreeSet;

fn reached(edges: &[(&'static str, bool)]) -> Vec<&'static str> {
    let holding = edges.iter().filter(|edge| edge.1);
    holding.map(|edge| edge.0).collect()
}

/// By a call, its answer and what it left.
pub fn of_call(case: &NeedCase, answer: u32, memory: &NeedMemory) -> Vec<&'static str> {
    let Ok(module) = read(Rules::PLAIN, &case.module) else {
        let short = case.report.len() < PAIR;
        return reached(&[("the reader's refusal and no report", short)]);
    };
    let mut all = of_lengths(case, module, answer);
    let Some(paths) = followed(Rules::PLAIN, &case.module) else {
        return all;
    };
    match answer {
        47 => all.extend(of_ring(&paths, module, memory.body)),
        0 => {
            all.extend(of_flow(&case.module, &paths));
            all.extend(of_report(memory.report.slice(), module));
        }
        _ => {}
    }
    all
}

/// By room and report.
fn of_lengths(case: &NeedCase, module: Module<'_>, answer: u32) -> Vec<&'static str> {
    let (needed, lent) = (length(module.functions), case.report.len());
    let (short, labels) = (lent < needed, module.labels > 0);
    reached(&[
        ("10 and a report too short", answer == 10 && short),
        ("11 and a report too short", answer == 11 && short),
        ("47 and a report too short", answer == 47 && short),
        ("47 and a report long enough", answer == 47 && !short),
        ("47 with label records", answer == 47 && labels),
        ("16 with label records", answer == 16 && labels),
        ("16 by one byte", answer == 16 && lent + 1 == needed),
        ("16 by one body", answer == 16 && lent + PAIR == needed),
        ("16 by no report", answer == 16 && lent == 0),
        ("0 with label records", answer == 0 && labels),
        ("0, report exact", answer == 0 && lent == needed),
        ("0, report a byte longer", answer == 0 && lent == needed + 1),
        ("0 without functions", answer == 0 && module.functions == 0),
        (
            "0 with 128 functions",
            answer == 0 && module.functions == 128,
        ),
    ])
}

/// The functions that a body's reached calls name.
fn callees(paths: &Paths) -> BTreeSet<u32> {
    paths.calls.iter().map(|call| call.0).collect()
}

/// By the body that 47 gives.
fn of_ring(paths: &[Paths], module: Module<'_>, body: u32) -> Vec<&'static str> {
    let own = callees(&paths[body.wrapping_add(1) as usize]);
    let mut chain = own.clone();
    let mut work: Vec<u32> = own.iter().copied().collect();
    while let Some(n) = work.pop() {
        let next = callees(&paths[n as usize + 1]).into_iter();
        work.extend(next.filter(|&n| chain.insert(n)));
    }
    let on = chain.contains(&body);
    let called = paths.iter().any(|paths| callees(paths).contains(&body));
    reached(&[
        ("47 for the entry", body == ENTRY),
        ("47 for the first function", body == 0),
        (
            "47 for the last function",
            body.wrapping_add(1) == module.functions && body > 0,
        ),
        ("47 for a body that calls itself", own.contains(&body)),
        ("47 for a body on a longer ring", on && !own.contains(&body)),
        (
            "47 for a function that only leads to a ring",
            body != ENTRY && !on,
        ),
        (
            "47 for a function that nobody calls",
            body != ENTRY && !called,
        ),
    ])
}

/// Edges by the wrong variant that would report something else.
const TOLD_BY: [(&str, Fault); 9] = [
    ("the greatest ground makes a need", Fault::SmallestGround),
    ("buried slots make a need", Fault::BuriedUncounted),
    ("a call over buried slots makes a need", Fault::CallsByLists),
    (
        "flow past an endless callee makes a need",
        Fault::EndlessCallEnds,
    ),
    ("a dead call changes nothing", Fault::DeadCallsCount),
    ("a dead ring changes nothing", Fault::DeadRingRefused),
    (
        "a branch's value changes nothing",
        Fault::BranchValuesLooked,
    ),
    ("need and frames by different paths", Fault::FramesOfNeed),
    (
        "the height at the entry's end makes its need",
        Fault::EntryEndUncounted,
    ),
];

/// By what the paths meet, and what wrong variants would report.
fn of_flow(file: &[u8], paths: &[Paths]) -> Vec<&'static str> {
    let plain = needs(Rules::PLAIN, file);
    let told = TOLD_BY.map(|(edge, fault)| (edge, needs(Rules::with(fault), file) != plain));
    let mut all = reached(&told);
    let places = |paths: &Paths| {
        let places: BTreeSet<usize> = paths.spots.iter().map(|spot| spot.0).collect();
        places.len()
    };
    let called: BTreeSet<u32> = paths.iter().flat_map(callees).collect();
    all.extend(reached(&[
        (
            "ways that meet with different grounds",
            paths.iter().any(|paths| places(paths) < paths.spots.len()),
        ),
        (
            "a function that nobody calls",
            called.len() + 1 < paths.len(),
        ),
    ]));
    all
}

/// By the numbers that are reported.
fn of_report(report: &[u8], module: Module<'_>) -> Vec<&'static str> {
    let all: Vec<Need> = module.bodies().map(|body| reported(report, body)).collect();
    let any = |holds: fn(&Need) -> bool| all.iter().any(holds);
    reached(&[
        ("3 frames", any(|need| need.frames == 3)),
        ("64 frames", any(|need| need.frames == 64)),
        ("65 frames", any(|need| need.frames == 65)),
        ("129 frames", any(|need| need.frames == 129)),
        ("4,096 slots", any(|need| need.slots == 4096)),
        (
            "over 4,096 slots in 64 frames",
            any(|need| need.slots > 4096 && need.frames <= 64),
        ),
    ])
}

/// By the runs on as many slots as are reported, and on one less; and how many of the former end in 20.
pub fn of_runs(case: &NeedCase, report: &[u8]) -> (Vec<&'static str>, u64) {
    let mut second = Second(Rules::PLAIN);
    let (mut edges, mut overflows) = (Vec::new(), 0);
    for run in &case.runs {
        let need = reported(report, run.function);
        let slots = need.slots as usize;
        let mut answer = |slots| second.run(run.start(), &mut case.run_memory(run, slots));
        if need.frames > MOST_FRAMES {
            edges.extend(reached(&[("20 by frames over 64", answer(4096) == 20)]));
            continue;
        }
        if need.slots > MOST_SLOTS {
            edges.extend(reached(&[("20 by a need over 4,096", answer(slots) == 20)]));
            continue;
        }
        let exact = answer(slots);
        overflows += u64::from(exact == 20);
        let less = slots.checked_sub(1).map(&mut answer);
        edges.extend(of_run(run.function, run.arg_types.len(), need, exact, less));
    }
    (edges, overflows)
}

/// By one run on as many slots, and on one less.
fn of_run(
    function: u32,
    arguments: usize,
    need: Need,
    exact: u32,
    less: Option<u32>,
) -> Vec<&'static str> {
    let (entry, over) = (function == ENTRY, less == Some(20));
    let misfit = arguments == need.slots as usize;
    let called = need.frames > 1;
    reached(&[
        ("the entry finishes on its need", entry && exact == 0),
        ("a function finishes on its need", !entry && exact == 0),
        ("a run on the need is stopped", exact == 15),
        ("one slot less, the entry: 20", entry && over && !called),
        (
            "one slot less, a function: 20",
            !entry && over && !misfit && !called,
        ),
        (
            "one slot less, the entry with calls: 20",
            entry && over && called,
        ),
        (
            "one slot less, a function with calls: 20",
            !entry && over && called,
        ),
        ("one slot less, arguments alone: 20", over && misfit),
        (
            "one slot less is enough",
            less.is_some_and(|answer| answer != 20),
        ),
        ("no slots", need.slots == 0 && exact == 0),
    ])
}

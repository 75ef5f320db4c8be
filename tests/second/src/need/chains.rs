//! The calls from body to body. Bodies are numbered by index here, entry first.

use super::paths::Paths;
use super::{body_at, wrong, Need};
use crate::reader::Module;
use crate::rules::{Fault, Rules};
use std::collections::BTreeSet;

/// The index of a function.
fn index(function: u32) -> usize {
    function as usize + 1
}

/// The indexes of the bodies that a body calls at places that are reached.
pub fn callees(paths: &Paths) -> BTreeSet<usize> {
    paths
        .calls
        .iter()
        .map(|&(callee, _)| index(callee))
        .collect()
}

/// "the first body from which a chain of reached calls comes back to a body on it". A chain from a
/// body ends if all its callees' chains do; those for which this is never seen have one that does not,
/// and that must come back.
pub fn first_into_a_ring(rules: Rules, module: Module<'_>, all: &[Paths]) -> Option<u32> {
    let mut ending = BTreeSet::new();
    loop {
        let more = (0..all.len()).filter(|n| {
            let own = rules.wrong(Fault::SelfCallEnds).then_some(*n);
            let mut callees = callees(&all[*n]).into_iter();
            callees.all(|callee| ending.contains(&callee) || own == Some(callee))
        });
        let more: BTreeSet<usize> = more.collect();
        if more == ending {
            break;
        }
        ending = more;
    }
    let mut rings = (0..all.len()).filter(|n| !ending.contains(n));
    wrong::ring(rules, module, all, &ending).unwrap_or_else(|| rings.next().map(body_at))
}

/// Need and frames of each body, calls followed until nothing grows: no chain comes back.
/// "at a call the callee's need counts from its first argument"
pub fn needs(rules: Rules, all: &[Paths]) -> Vec<Need> {
    let own = |paths: &Paths| Need {
        slots: paths.highest as u32,
        frames: 1,
    };
    let mut needs: Vec<Need> = all.iter().map(own).collect();
    // in a wrong variant calls may come back: as many rounds as there are bodies are enough
    for _ in 0..all.len() {
        for (n, paths) in all.iter().enumerate() {
            needs[n] = grown(rules, paths, needs[n], &needs);
        }
    }
    wrong::needs(rules, all, needs)
}

/// A body's need and frames with those of its callees.
fn grown(rules: Rules, paths: &Paths, own: Need, needs: &[Need]) -> Need {
    let mut grown = own;
    for &(callee, under) in &paths.calls {
        let callee = needs[index(callee)];
        let under = wrong::under_call(rules).unwrap_or(under as u32);
        let slots = under + callee.slots;
        let frames = 1 + callee.frames;
        grown.frames = match rules.wrong(Fault::FramesOfNeed) {
            true if slots < grown.slots => grown.frames,
            true if slots > grown.slots => frames,
            _ => grown.frames.max(frames),
        };
        grown.slots = grown.slots.max(slots);
    }
    grown
}

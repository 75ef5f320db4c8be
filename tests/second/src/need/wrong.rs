//! What wrong variants of the need do: about refusals and what they leave, about the flow of a body,
//! about calls, and about the report.

use super::chains::callees;
use super::paths::{Paths, Spot, Walk};
use super::{body_at, length, Need, Told};
use crate::check::{typings, RECORD};
use crate::judge::Lists;
use crate::opcode::Op;
use crate::reader::{read, Instruction, Module, ENTRY};
use crate::rules::{Fault, Rules};
use crate::worklist::Typing;
use std::collections::BTreeSet;

/// A number that is given before the check's own.
pub fn before_the_check(
    rules: Rules,
    file: &[u8],
    room: usize,
    report: usize,
    body: &mut u32,
) -> Option<u32> {
    let tiny = report < length(0) && rules.wrong(Fault::NeedShortFirst);
    let Ok(module) = read(rules, file) else {
        return tiny.then_some(16);
    };
    let short = report < length(module.functions);
    let enough = room >= RECORD * module.labels as usize;
    let before_ten = rules.wrong(Fault::NeedShortBeforeRoom);
    let before_eleven = enough && rules.wrong(Fault::NeedShortBeforeTyping);
    if tiny || short && (before_ten || before_eleven) {
        return Some(16);
    }
    if !(enough && rules.wrong(Fault::RingBeforeTyping)) {
        return None;
    }
    // calls of every instruction, typed or not
    let ring = code_rings(rules, module)?;
    typings(rules, module).is_err().then_some(())?;
    *body = ring;
    Some(47)
}

/// The first body from which calls anywhere in the code come back.
fn code_rings(rules: Rules, module: Module<'_>) -> Option<u32> {
    let bodies: Vec<u32> = module.bodies().collect();
    let calls = |&body: &u32| Paths {
        calls: code_calls(rules, module, body).into_iter().collect(),
        ..Paths::default()
    };
    let all: Vec<Paths> = bodies.iter().map(calls).collect();
    let rings = (0..all.len()).filter(|&n| reached(&all, n).contains(&n));
    let rings: BTreeSet<usize> = rings.collect();
    let leads = |&n: &usize| rings.contains(&n) || !rings.is_disjoint(&reached(&all, n));
    (0..all.len()).find(leads).map(body_at)
}

/// Every `call` of a function that exists in a body's code, reached or not.
fn code_calls(rules: Rules, module: Module<'_>, body: u32) -> Vec<(u32, usize)> {
    let starts = module.starts(rules, body).0.into_iter();
    let at = starts.filter_map(|place| module.instruction(rules, place));
    let calls = at.filter(|at| at.op == Op::Call && at.operand < module.functions);
    calls.map(|at| (at.operand, 0)).collect()
}

/// The bodies that a chain of calls from this one reaches.
fn reached(all: &[Paths], from: usize) -> BTreeSet<usize> {
    let mut reached = BTreeSet::new();
    let mut work = vec![from];
    while let Some(n) = work.pop() {
        work.extend(callees(&all[n]).into_iter().filter(|&c| reached.insert(c)));
    }
    reached
}

/// Leaves the room otherwise than the check does.
pub fn room_after(rules: Rules, told: &Told, module: Module<'_>, before: &[u8], room: &mut [u8]) {
    let kept = match told {
        Told::Ring(_) => rules.wrong(Fault::RingKeepsRoom),
        Told::Short => rules.wrong(Fault::NeedShortKeepsRoom),
        Told::Needs(_) => rules.wrong(Fault::NeedKeepsRoom),
    };
    if kept {
        room[..before.len()].copy_from_slice(before);
    }
    if matches!(told, Told::Ring(_)) && rules.wrong(Fault::RingClearsRoom) {
        room[..RECORD * module.labels as usize].fill(0);
    }
}

/// Writes the report with 47.
pub fn ring_reported(rules: Rules, module: Module<'_>, report: &mut [u8]) {
    let end = length(module.functions).min(report.len());
    if rules.wrong(Fault::RingReported) {
        report[..end].fill(0);
    }
}

/// The body that 47 gives instead, or what was there before.
pub fn told_body(rules: Rules, first: u32, before: u32) -> Option<u32> {
    if rules.wrong(Fault::RingBodyByIndex) {
        return Some(first.wrapping_add(1));
    }
    rules.wrong(Fault::RingBodyUntold).then_some(before)
}

/// Writes the report as far as it goes with 16, or gives the length that it would have.
pub fn short_reported(rules: Rules, module: Module<'_>, report: &mut [u8], written: &mut u64) {
    if rules.wrong(Fault::NeedShortCut) {
        let all = super::all_paths(rules, module);
        super::write(rules, &super::chains::needs(rules, &all), report);
    }
    if rules.wrong(Fault::NeedLengthWithSixteen) {
        *written = length(module.functions) as u64;
    }
}

/// Is a report that is enough too short?
pub fn is_short(rules: Rules, module: Module<'_>, report: usize) -> bool {
    let needed = length(module.functions);
    report != needed && rules.wrong(Fault::LongerReportRefused)
        || report == needed && rules.wrong(Fault::ExactReportRefused)
}

/// The length that is given in place of the report's.
pub fn told_length(rules: Rules, report: &[u8]) -> Option<usize> {
    rules.wrong(Fault::ReportLengthLent).then_some(report.len())
}

/// Drops spots that other paths outdo.
pub fn spots_kept(rules: Rules, spots: &mut BTreeSet<Spot>) {
    if rules.wrong(Fault::SmallestGround) {
        let all = spots.clone();
        spots.retain(|&(place, ground)| all.range((place, 0)..(place, ground)).next().is_none());
    }
}

/// Is a spot not followed because its place has a ground already?
pub fn is_kept_out(rules: Rules, spots: &BTreeSet<Spot>, (place, _): Spot) -> bool {
    let known = spots.range((place, 0)..=(place, usize::MAX)).next();
    known.is_some() && rules.wrong(Fault::FirstGroundKept)
}

/// Is the height at this spot not counted?
pub fn uncounted(walk: &Walk<'_>, spot: Spot) -> bool {
    let range = walk.module.range(walk.body);
    let at_end = spot.0 == range.end && range.start != range.end;
    at_end && walk.rules.wrong(Fault::EntryEndUncounted)
        || spot.0 == range.start && walk.rules.wrong(Fault::StartUncounted)
}

/// The ground after a binding, where buried slots are not counted.
pub fn bound(rules: Rules, lists: &Lists, ground: usize) -> Option<usize> {
    if rules.wrong(Fault::BuriedUncounted) {
        return Some(lists.locals.len() + 1);
    }
    let twice = rules.wrong(Fault::BoundCountedTwice);
    twice.then_some(ground + lists.operands.len() + 1)
}

/// The places that an instruction goes next instead.
pub fn next(
    walk: &Walk<'_>,
    place: usize,
    at: Instruction,
    all: &[(u32, Typing)],
) -> Option<Vec<usize>> {
    let rules = walk.rules;
    if at.op == Op::Call {
        let ends = rules.wrong(Fault::EndlessCallEnds) && !returns(walk, at.operand, all);
        return ends.then(Vec::new);
    }
    if !at.op.is_conditional() {
        return None;
    }
    let target = walk
        .module
        .branch_place(rules, walk.body, at.operand)
        .ok()?;
    if rules.wrong(Fault::BranchesTaken) {
        return Some(vec![target]);
    }
    if rules.wrong(Fault::BranchesUntaken) {
        return Some(vec![at.next]);
    }
    let value = rules
        .wrong(Fault::BranchValuesLooked)
        .then(|| pushed(walk, place))??;
    Some(vec![if taken(at.op, value) { target } else { at.next }])
}

/// Has the callee's typing a `ret`?
fn returns(walk: &Walk<'_>, callee: u32, all: &[(u32, Typing)]) -> bool {
    let typing = all.iter().find(|(body, _)| *body == callee);
    let mut places = typing.into_iter().flat_map(|(_, typing)| typing.keys());
    places.any(|&place| {
        let at = walk.module.instruction(walk.rules, place);
        at.is_some_and(|at| at.op == Op::Ret)
    })
}

/// The constant that the instruction right before pushes.
fn pushed(walk: &Walk<'_>, place: usize) -> Option<u64> {
    let before = place.checked_sub(5)?;
    let starts = walk.module.starts(walk.rules, walk.body).0;
    starts.contains(&before).then_some(())?;
    let at = walk.module.instruction(walk.rules, before)?;
    let push = at.op == Op::Push;
    walk.module
        .constant(at.operand)
        .filter(|_| push)
        .map(|c| c.1)
}

/// Is a branch taken on this int?
fn taken(op: Op, value: u64) -> bool {
    let int = value as u32 as i32;
    match op {
        Op::Je => int == 0,
        Op::Jne => int != 0,
        Op::Ja => int == 1,
        Op::Jae => int != -1,
        Op::Jb => int == -1,
        _ => int != 1,
    }
}

/// The slots that lie under a call's first argument instead.
pub fn under(walk: &Walk<'_>, spot: Spot, arguments: usize) -> Option<usize> {
    let lists = walk.lists(spot.0);
    let listed = lists.locals.len() + lists.operands.len() - arguments;
    if walk.rules.wrong(Fault::CallsByLists) {
        return Some(listed);
    }
    if walk.rules.wrong(Fault::CallsFromGround) {
        return Some(spot.1);
    }
    let twice = walk.rules.wrong(Fault::ArgumentsCountedTwice);
    twice.then(|| walk.height(spot))
}

/// The slots under every call's first argument instead.
pub fn under_call(rules: Rules) -> Option<u32> {
    rules.wrong(Fault::CalleesFromSlotZero).then_some(0)
}

/// Calls that no path reaches.
pub fn dead_calls(walk: &Walk<'_>) -> Vec<(u32, usize)> {
    if !walk.rules.wrong(Fault::DeadCallsCount) {
        return Vec::new();
    }
    code_calls(walk.rules, walk.module, walk.body)
}

/// The body of 47, or that there is none, instead. `ending`: the bodies all of whose chains end.
pub fn ring(
    rules: Rules,
    module: Module<'_>,
    all: &[Paths],
    ending: &BTreeSet<usize>,
) -> Option<Option<u32>> {
    let bad: Vec<usize> = (0..all.len()).filter(|n| !ending.contains(n)).collect();
    let body = |n: Option<&usize>| n.map(|&n| body_at(n));
    if rules.wrong(Fault::BodyOnRingNamed) {
        return Some(body(bad.iter().find(|&&n| reached(all, n).contains(&n))));
    }
    if rules.wrong(Fault::LastIntoRingNamed) {
        return Some(body(bad.last()));
    }
    if rules.wrong(Fault::RingFromEntryOnly) {
        return Some(body(bad.first()).filter(|&n| n == ENTRY));
    }
    if rules.wrong(Fault::EntryNotInRing) {
        return Some(body(bad.iter().find(|&&n| n > 0)));
    }
    if rules.wrong(Fault::DeadRingRefused) {
        return Some(code_rings(rules, module));
    }
    if rules.wrong(Fault::ManyFramesRefused) && bad.is_empty() {
        let needs = super::chains::needs(Rules::PLAIN, all);
        let over = needs.iter().position(|need| need.frames > 64);
        return Some(over.map(body_at));
    }
    rules.wrong(Fault::RingsUnseen).then_some(None)
}

/// Need and frames of each body as they are reported.
pub fn needs(rules: Rules, all: &[Paths], mut needs: Vec<Need>) -> Vec<Need> {
    let entry = needs[0];
    let called: BTreeSet<usize> = all.iter().flat_map(callees).collect();
    for (n, need) in needs.iter_mut().enumerate() {
        if rules.wrong(Fault::EntryForAll) {
            *need = entry;
        }
        if rules.wrong(Fault::FramesWithoutItself) {
            need.frames -= 1;
        }
        if rules.wrong(Fault::UncalledNeedsNothing) && n > 0 && !called.contains(&n) {
            (need.slots, need.frames) = (0, 0);
        }
        if rules.wrong(Fault::SlotsCapped) {
            need.slots = need.slots.min(4096);
        }
        if rules.wrong(Fault::FramesCapped) {
            need.frames = need.frames.min(64);
        }
        if rules.wrong(Fault::OwnNeedOnly) {
            need.slots = all[n].highest as u32;
        }
        if rules.wrong(Fault::ArgumentsUncounted) {
            // no ground is lower than the parameters
            let grounds = all[n].spots.iter().map(|spot| spot.1 as u32);
            need.slots -= grounds.min().unwrap_or(0);
        }
        if rules.wrong(Fault::OwnCalleesOnly) {
            need.frames = need.frames.min(2);
        }
    }
    needs
}

/// The report's bytes in another order.
pub fn bytes(rules: Rules, needs: &[Need]) -> Option<Vec<u8>> {
    let little = |words: Vec<u32>| words.into_iter().flat_map(u32::to_le_bytes).collect();
    let pair = |need: &Need| [need.slots, need.frames];
    let mut rotated = needs.to_vec();
    rotated.rotate_left(1);
    if rules.wrong(Fault::ReportEntryLast) {
        return Some(little(rotated.iter().flat_map(pair).collect()));
    }
    if rules.wrong(Fault::FramesFirst) {
        let words = needs.iter().flat_map(|need| [need.frames, need.slots]);
        return Some(little(words.collect()));
    }
    if rules.wrong(Fault::ReportByColumn) {
        let slots = needs.iter().map(|need| need.slots);
        let frames = needs.iter().map(|need| need.frames);
        return Some(little(slots.chain(frames).collect()));
    }
    let words = needs.iter().flat_map(pair);
    let big = rules.wrong(Fault::ReportBigEndian);
    big.then(|| words.flat_map(u32::to_be_bytes).collect())
}

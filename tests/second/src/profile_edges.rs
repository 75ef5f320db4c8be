//! Which of `possible::PROFILE_EDGES` a run reaches, and which of `possible::CONVERSION_EDGES` a
//! conversion does.

use crate::check::{check, Checked, RECORD};
use crate::conversion::converted;
use crate::gen::case::RunCall;
use crate::gen::conversions::ConvertCase;
use crate::opcode::{Edition, Op};
use crate::profile::calls;
use crate::reader::{read, Module, ENTRY, MAX_LABELS};
use crate::rules::Rules;
use crate::types::is_managed;

const PLAIN: Rules = Rules::PLAIN;

/// By a run of edition 4 and its answer.
pub fn of_run(file: &[u8], run: &RunCall, answer: u32) -> Vec<&'static str> {
    let Ok(module) = read(PLAIN, file) else {
        return Vec::new();
    };
    if !module.edition.has_profiles() {
        return Vec::new();
    }
    let profile = |n: u32| module.function(n).map_or(0, |f| f.profile);
    let other = |n: u32| ![0, run.profile].contains(&profile(n));
    let own = profile(run.function);
    let ended = is_an_outcome(answer);
    let slots = (run.payloads.len() / 8).min(run.types.len());
    let low = own as u8 == run.profile as u8;
    let calling = calls(module, run.function).into_iter().any(other);
    let beside = run.function == ENTRY && (0..module.functions).any(other);
    let edges = [
        ("17 where 0 is named", answer == 17 && run.profile == 0),
        ("17 with equal low bytes", answer == 17 && low),
        (
            "17 where arguments don't fit",
            answer == 17 && run.arg_types.len() > slots,
        ),
        (
            "13 and another profile",
            answer == 13 && other(run.function),
        ),
        ("its own profile", ended && own != 0),
        ("any profile", ended && own == 0 && run.profile != 0),
        ("the entry beside other profiles", ended && beside),
        ("a call of another profile's function", ended && calling),
    ];
    reached(&edges)
}

/// Is this a run's outcome, and no refusal? 0, 15, and every exception; not 17.
pub fn is_an_outcome(answer: u32) -> bool {
    answer == 0 || answer == 15 || answer >= 20
}

fn reached(edges: &[(&'static str, bool)]) -> Vec<&'static str> {
    let holding = edges.iter().filter(|edge| edge.1);
    holding.map(|edge| edge.0).collect()
}

/// By a conversion and its answer.
pub fn of_conversion(case: &ConvertCase, answer: u32) -> Vec<&'static str> {
    let file = &case.module;
    let word = file.first().copied().unwrap_or(0);
    let opened = read(PLAIN, file);
    let up = case.to == Edition::Four;
    let mut edges = vec![
        (
            "up, a header of edition 4 under 56 bytes",
            up && answer == 1 && word == 4 && file.len() >= 48,
        ),
        (
            "another edition, and more is wrong",
            answer == 2 && opened.is_err_and(|number| number > 2),
        ),
    ];
    if let Ok(module) = opened {
        edges.extend(of_module(case, module, answer));
        edges.extend(of_losses(case, module, answer));
    }
    reached(&edges)
}

type Edges = Vec<(&'static str, bool)>;

fn of_module(case: &ConvertCase, module: Module<'_>, answer: u32) -> Edges {
    let needed = converted(PLAIN, case.to, &case.module).map_or(0, |file| file.len());
    let out = case.out.len();
    let mut room = vec![0; RECORD * MAX_LABELS as usize];
    let mut untyped = || {
        matches!(
            check(PLAIN, &case.module, &mut room),
            Checked::NoTyping { .. }
        )
    };
    vec![
        ("the exact length", answer == 0 && out == needed),
        ("one byte longer", answer == 0 && out == needed + 1),
        ("one byte short", answer == 16 && out + 1 == needed),
        ("no output", answer == 16 && out == 0),
        ("no functions", answer == 0 && module.functions == 0),
        ("128 functions", answer == 0 && module.functions == 128),
        ("no typing", answer == 0 && untyped()),
    ]
}

/// Which one of the clauses of 18 holds alone.
fn of_losses(case: &ConvertCase, module: Module<'_>, answer: u32) -> Edges {
    if case.to == Edition::Four || module.edition != Edition::Four {
        return Edges::new();
    }
    let functions = || (0..module.functions).filter_map(|n| module.function(n));
    let profile = functions().any(|f| f.profile != 0);
    let structure = module.structures > 0;
    let ty = functions().any(|f| f.parameters.iter().any(|&ty| is_managed(ty)))
        || functions().any(|f| is_managed(f.returns));
    let (live, dead) = foreign(module, Op::is_of_the_heap);
    let opcode = live || dead;
    let managed = foreign(module, Op::is_managed) != (false, false);
    let others = foreign(module, |op| op.is_of_the_heap() && !op.is_managed());
    let lost = answer == 18;
    let alone = |clause: bool| {
        let held = [profile, structure, ty, opcode].into_iter();
        lost && clause && held.filter(|&clause| clause).count() == 1
    };
    let code = module.sections()[3];
    let like = code
        .iter()
        .any(|byte| *byte == 0x06 || (0x30..=0x34).contains(byte));
    vec![
        ("18 by a profile", alone(profile)),
        ("18 by a structure", alone(structure)),
        ("18 by a type byte", alone(ty)),
        ("18 by an opcode", alone(opcode)),
        ("18 by an opcode after jmp or ret", alone(dead) && !live),
        (
            "18 by gcnull or gcnew",
            alone(managed) && others == (false, false),
        ),
        ("18 and no output", lost && case.out.is_empty()),
        ("an operand like an opcode", answer == 0 && like),
    ]
}

/// Has such opcodes before the first `jmp` or `ret` of a body; after it.
fn foreign(module: Module<'_>, such: fn(Op) -> bool) -> (bool, bool) {
    let (mut live, mut dead) = (false, false);
    for body in module.bodies() {
        let mut after = false;
        for place in module.starts(PLAIN, body).0 {
            let op = module.instruction(PLAIN, place).map(|at| at.op);
            let found = op.is_some_and(such);
            live |= found && !after;
            dead |= found && after;
            after |= matches!(op, Some(Op::Jmp | Op::Ret));
        }
    }
    (live, dead)
}

//! The stack that a module needs: what is stated, wrong variants, the promise about runs, and the desk's
//! lines.

use second::asm;
use second::compare::needs::compare_needs;
use second::desk::{self, Left};
use second::gen::needs::NeedCase;
use second::machine::{Machine, Watch};
use second::need::{followed, length, need, needs, reported};
use second::opcode::Op;
use second::reader::{read, ENTRY};
use second::rules::{Rules, NEED_FAULTS};
use second::samples;
use second::stated::needs as stated;
use second::subject::{Second, Subject};

const PLAIN: Rules = Rules::PLAIN;

#[test]
fn the_second_program_gives_what_is_stated() {
    for stated in stated::all() {
        assert_eq!(stated.difference(&mut Second(PLAIN)), None);
    }
}

/// Each wrong variant is told by what is stated alone.
#[test]
fn wrong_variants_are_told() {
    let all = stated::all();
    for (fault, name, _) in NEED_FAULTS {
        let mut wrong = Second(Rules::with(fault));
        let told = all.iter().any(|s| s.difference(&mut wrong).is_some());
        assert!(told, "{name}");
    }
}

/// So are wrong checks, on generated modules.
#[test]
fn wrong_checks_are_told() {
    for name in ["last-bad-body", "any-label", "room-kept-with-11"] {
        let mut wrong = Second(Rules::named(name).expect("a wrong variant"));
        let told = (0..3000).any(|number| {
            let case = NeedCase::new(5, number);
            compare_needs(&case, &mut Second(PLAIN), &mut wrong).is_some()
        });
        assert!(told, "{name}");
    }
}

/// Answer, body and report of a module with enough of everything.
fn told(text: &str) -> (u32, u32, Vec<(u32, u32)>) {
    let file = asm::file(text);
    let module = read(PLAIN, &file).expect("a module");
    let mut room = vec![0xEE; 64 * module.labels as usize];
    let mut report = vec![0xEE; length(module.functions)];
    let (mut body, mut written) = (77, 0);
    let answer = need(
        PLAIN,
        &file,
        &mut room,
        &mut report,
        &mut body,
        &mut written,
    );
    let end = (written / 8) as u32;
    let pairs = (0..end).map(|n| reported(&report, n.wrapping_sub(1)));
    (answer, body, pairs.map(|n| (n.slots, n.frames)).collect())
}

#[test]
fn a_body_is_told_with_47_alone() {
    let leads = "entry: function void (): ret; function void (): call 2; ret; function void (): call 2; ret";
    assert_eq!(told(leads), (47, 1, vec![]));
    let from_entry = "entry: call 0; function void (): call 0; ret";
    assert_eq!(told(from_entry), (47, ENTRY, vec![]));
    let none = "entry: call 0; function void (): ret; call 0; ret";
    assert_eq!(told(none), (0, 77, vec![(0, 2), (0, 1)]));
}

/// A place has each ground that some way brings there.
#[test]
fn every_ground_is_kept() {
    let file = asm::file(
        "int 7; entry: push 0; je 0; push 0; push 0; push 0; store 0; jmp 1; @0; push 0; store 0; @1; load 0",
    );
    let paths = followed(PLAIN, &file).expect("an accepted module");
    let module = read(PLAIN, &file).expect("a module");
    let (_, place) = module.label(1).expect("label 1");
    let spots = paths[0].spots.iter().filter(|spot| spot.0 == place);
    let grounds: Vec<usize> = spots.map(|spot| spot.1).collect();
    assert_eq!(grounds, [1, 3]);
    assert_eq!(paths[0].highest, 4);
}

/// The most slots and frames of a run.
#[derive(Default)]
struct Most {
    slots: usize,
    frames: usize,
}

impl Watch for Most {
    fn after(&mut self, machine: &Machine<'_>, _op: Op, _raised: Option<u32>) {
        self.slots = self.slots.max(machine.stack.len());
        self.frames = self.frames.max(machine.frames.len());
    }
}

/// No run takes more slots or frames than are told, and some take as many, on any stack.
#[test]
fn no_run_takes_more() {
    let (mut all, mut slots, mut frames) = (0, 0, 0);
    for number in 0..3000 {
        let case = NeedCase::new(9, number);
        let Some(needs) = needs(PLAIN, &case.module) else {
            continue;
        };
        for run in &case.runs {
            let need = needs[run.function.wrapping_add(1) as usize];
            let mut most = Most::default();
            let mut memory = case.run_memory(run, 4096);
            Second(PLAIN).run_watched(run.start(), &mut memory, &mut most);
            assert!(most.slots <= need.slots as usize, "case {number}");
            assert!(most.frames <= need.frames as usize, "case {number}");
            all += 1;
            slots += u64::from(most.slots == need.slots as usize);
            frames += u64::from(most.frames == need.frames as usize);
        }
    }
    assert!(all > 2000, "{all}");
    assert!(
        slots * 2 > all && frames * 2 > all,
        "{slots} and {frames} of {all}"
    );
}

/// "A run with that capacity or more, where frames are at most 64, never ends in 20"; with one slot less
/// some do.
#[test]
fn the_need_is_enough_and_one_less_often_is_not() {
    let (mut tried, mut overflows) = (0, 0);
    for number in 0..2000 {
        let case = NeedCase::new(11, number);
        let Some(needs) = needs(PLAIN, &case.module) else {
            continue;
        };
        for run in &case.runs {
            let need = needs[run.function.wrapping_add(1) as usize];
            if need.frames > 64 || need.slots == 0 || need.slots > 4096 {
                continue;
            }
            let slots = need.slots as usize;
            let on = |slots| Second(PLAIN).run(run.start(), &mut case.run_memory(run, slots));
            assert_ne!(on(slots), 20, "case {number}");
            tried += 1;
            overflows += u64::from(on(slots - 1) == 20);
        }
    }
    assert!(overflows * 3 > tried, "{overflows} of {tried}");
}

/// The desk's lines.
#[test]
fn the_desk_prints_a_line_for_each_body() {
    let of = |text: &str| desk::need(PLAIN, &asm::file(text));
    let two = "int 7; entry: push 0; call 0; function int (int): load 0; ret";
    assert_eq!(of(two), Left::Printed(b"entry 2 2\n0 2 1\n".to_vec()));
    let ring = "entry: function void (): call 0; ret";
    assert_eq!(of(ring), Left::Refused("47 0\n".to_string()));
    let untyped = "entry: pop";
    assert_eq!(of(untyped), Left::Refused("11 4294967295\n".to_string()));
    assert_eq!(desk::need(PLAIN, &[]), Left::Refused("1\n".to_string()));
}

/// All samples that are accepted either finish on their entry's need or are told 47.
#[test]
fn samples_do_not_overflow() {
    let mut rings = 0;
    for sample in samples::all() {
        let file = sample.file();
        if followed(PLAIN, &file).is_none() {
            continue;
        }
        let Some(needs) = needs(PLAIN, &file) else {
            rings += 1;
            continue;
        };
        let printed = second::show::small(PLAIN, &file);
        let fits = needs[0].frames <= 64 && needs[0].slots <= 4096;
        assert!(!(fits && printed.starts_with("20 ")), "{}", sample.name);
    }
    assert!(rings >= 2, "{rings}");
}

//! Typings of generated modules, held against the definition; label records; well-typed
//! programs; demand 3's claims on a sample of runs.

mod common;
use common::*;
use second::claims::{is_an_end_of_demand_3, Claims};
use second::gen::case::Case;
use second::judge::{Judge, Lists};
use second::reader::{read, Module, ENTRY};
use second::rules::Rules;
use second::subject::{Second, Subject};
use second::worklist::{typing, Typing};

const PLAIN: Rules = Rules::PLAIN;

/// Every sentence of "Consistent typing" for one body.
fn is_consistent(module: Module<'_>, body: u32, typing: &Typing) -> bool {
    let range = module.range(body);
    let (starts, _) = module.starts(Rules::PLAIN, body);
    let locals = module.function(body).map_or(Vec::new(), |f| f.parameters);
    let operands = Vec::new();
    let start = typing.get(&range.start) == Some(&Lists { locals, operands });
    let end = body == ENTRY || !typing.contains_key(&range.end);
    let judge = Judge {
        rules: PLAIN,
        module,
        body,
    };
    let place = |(&place, lists): (&usize, &Lists)| {
        let short = lists.locals.len() <= 16 && lists.operands.len() <= 32;
        if place == range.end {
            return short;
        }
        let at = module
            .instruction(Rules::PLAIN, place)
            .expect("an instruction");
        let follows = judge.judge(at, lists).is_ok_and(|left| {
            let mut next = left.next.iter();
            next.all(|place| typing.get(place) == Some(&left.lists))
        });
        short && starts.contains(&place) && follows
    };
    start && end && typing.iter().all(place)
}

#[test]
fn typings_that_are_found_are_consistent() {
    let mut found = 0;
    for number in 0..3000 {
        let case = Case::new(5, number);
        let Ok(module) = read(PLAIN, &case.module) else {
            continue;
        };
        for body in module.bodies() {
            if let Ok(typing) = typing(PLAIN, module, body) {
                assert!(is_consistent(module, body, &typing), "case {number}");
                found += 1;
            }
        }
    }
    assert!(found > 1000);
}

#[test]
fn demand_3_on_a_sample() {
    let second = Second(PLAIN);
    for number in 0..2000 {
        let case = Case::new(6, number);
        if Second(PLAIN).check(&mut case.check_memory()) != 0 {
            continue;
        }
        let edition = read(PLAIN, &case.module).expect("a module").edition;
        for run in &case.runs {
            let mut claims = Claims::default();
            let mut memory = case.run_memory(run);
            let answer = second.run_watched(run.start(), &mut memory, &mut claims);
            let refused = [12, 13, 17].contains(&answer);
            let end = is_an_end_of_demand_3(edition, answer);
            assert!(refused || end, "case {number}");
            assert_eq!(claims.broken, 0, "case {number}");
        }
    }
}

#[test]
fn cases_depend_on_seed_and_number_only() {
    for number in [0, 7, 1000] {
        let (a, b) = (Case::new(3, number), Case::new(3, number));
        assert_eq!(format!("{a:?}"), format!("{b:?}"));
        assert_ne!(a.module, Case::new(4, number).module);
    }
}

#[test]
fn sixteen_locals() {
    let mut text = "int 1; entry:".to_string();
    for n in 0..16 {
        text = format!("{text} push 0; store {n};");
    }
    assert_eq!(
        records(&format!("{text} @0; push 0")),
        [record(&[3; 16], &[])]
    );
    assert_eq!(checked(&format!("{text} push 0; store 16")), 11);
}

#[test]
fn records_of_loops_and_functions() {
    let text = "int 3; long 0; entry: push 1; push 0; @0; copy; pop; push 0; jne 0; @2; pop
         function long (int, *long): load 1; tload; @1; ret";
    let both = record(&[], &[LONG, INT]);
    let function = record(&[INT, 0x84], &[LONG]);
    assert_eq!(records(text), [both.clone(), function, both]);
}

#[test]
fn branches_to_the_next_instruction_and_to_the_start() {
    assert_eq!(checked("int 0; entry: push 0; je 0; @0; push 0"), 0);
    assert_eq!(checked("int 0; entry: @0; push 0; jmp 0"), 11);
    assert_eq!(checked("int 0; entry: @0; push 0; pop; jmp 0"), 0);
}

/// The check of some instructions after a local of each number type is bound.
fn with_locals(code: &str) -> u32 {
    checked(&format!(
        "int 0; long 0; double 0.0; entry: push 0; store 0; push 1; store 1; push 2; store 2
         {code}; function int (int, *long): load 0; ret"
    ))
}

#[test]
fn every_instruction_by_types() {
    for code in [
        "lea 0; tload; push 0; add",
        "lea 1; push 1; tstore",
        "lea 2; inc; lea 0; dec",
        "lea 0; lea 0; cmp; je 0; @0; push 0",
        "push 0; lea 1; call 0; neg",
        "push 2; push 2; idiv; tol; not; toi; tod",
    ] {
        assert_eq!(with_locals(code), 0, "{code}");
    }
}

#[test]
fn every_instruction_refused_by_types() {
    for code in [
        "lea 0; push 1; tstore",
        "push 0; lea 0; call 0",
        "push 1; lea 1; call 0",
        "lea 1; call 0",
        "push 1; je 0; @0; push 0",
        "lea 0; toi",
        "lea 0; lea 0; add",
        "push 0; tload",
        "push 0; inc",
        "push 0; push 1; swap",
        "push 1; store 0",
        "load 3",
        "lea 3",
        "push 0; store 4",
        "push 3",
        "call 1",
        "jmp 9",
        "ret",
    ] {
        assert_eq!(with_locals(code), 11, "{code}");
    }
}

//! Runs that name a profile: what document 02's A7 says, with everything that was lent written
//! out.

use super::{run, Slot, StatedRun};
use crate::asm;
use crate::reader::ENTRY;

/// Function 0 of an int for profile 5, function 1 for any, function 2 for 4294967295, function 3
/// of a pointer for 5, function 4 for 6 calls function 2.
const BODIES: &str = "int 7; entry: push 0; call 0
    function int (int) profile 5: load 0; ret
    function void (): ret
    function int () profile 4294967295: push 0; ret
    function void (*int) profile 5: ret
    function int () profile 6: call 2; ret";

fn text() -> String {
    format!("edition 4; {BODIES}")
}

/// A run of a function for a profile with these arguments, which finishes.
fn finishes(function: u32, profile: u32, args: &[Slot], steps: u64, stack: &[Slot]) -> StatedRun {
    StatedRun {
        name: format!("function {function:08X} for profile {profile}"),
        file: asm::file(&text()),
        function,
        profile,
        args: args.to_vec(),
        ..run(0, steps, "", stack, &[])
    }
}

/// A run that is refused: "changes no lent memory and returns only its number".
fn refused(number: u32, function: u32, profile: u32, args: &[Slot]) -> StatedRun {
    StatedRun {
        answer: number,
        left: None,
        ..finishes(function, profile, args, 0, &[])
    }
}

const INT: Slot = (3, 9);
/// Where no function is.
const NONE: u32 = 5;
const LARGEST: u32 = u32::MAX;

pub fn cases() -> Vec<StatedRun> {
    let mut all = started();
    all.extend(order());
    all.extend(readers_first());
    all.extend(other_editions());
    all
}

/// "is refused where the function it starts has another nonzero number"
fn started() -> Vec<StatedRun> {
    let mut all = vec![
        finishes(0, 5, &[INT], 2, &[INT]),
        finishes(2, LARGEST, &[], 2, &[(3, 7)]),
        // functions that are called are not looked at
        finishes(4, 6, &[], 4, &[(3, 7)]),
    ];
    for profile in [0, 1, 5, 6, 256, LARGEST] {
        // 0 for any
        all.push(finishes(1, profile, &[], 1, &[]));
        // the entry has no record
        all.push(finishes(ENTRY, profile, &[], 4, &[(3, 7)]));
    }
    for profile in [0, 1, 4, 6, 261, 0x0500_0000, 0x8000_0005, LARGEST] {
        all.push(refused(17, 0, profile, &[INT]));
    }
    for profile in [0, 1, 5, 255, 65_535, LARGEST - 1] {
        all.push(refused(17, 2, profile, &[]));
    }
    for profile in [0, 5, LARGEST] {
        all.push(refused(17, 4, profile, &[]));
    }
    // refused whatever is lent, and however long it may run
    all.push(refused(17, 0, 6, &[INT]).on(0));
    all.push(refused(17, 0, 6, &[INT]).allowed(0));
    all.push(finishes(0, 5, &[INT], 2, &[INT]).on(0));
    all
}

/// "17 profile differs, after 13": 12, 13, 17, and only then arguments that don't fit.
fn order() -> Vec<StatedRun> {
    let mut all = Vec::new();
    for profile in [0, 5, 6, LARGEST] {
        for function in [NONE, 128, LARGEST - 1] {
            all.push(refused(12, function, profile, &[]));
            all.push(refused(12, function, profile, &[INT]));
        }
        for args in [&[][..], &[(4, 9)], &[INT, INT], &[(3, 1 << 32)], &[(7, 0)]] {
            all.push(refused(13, 0, profile, args));
            all.push(refused(13, 0, profile, args).slots(0));
        }
        // a parameter is a pointer
        for args in [&[][..], &[(7, 0)], &[(0x83, 0)]] {
            all.push(refused(13, 3, profile, args));
        }
        all.push(refused(13, ENTRY, profile, &[INT]));
        all.push(refused(13, 2, profile, &[INT]));
    }
    for profile in [0, 6, 261] {
        all.push(refused(17, 0, profile, &[INT]).slots(0));
    }
    all.push(StatedRun {
        answer: 20,
        ..finishes(0, 5, &[INT], 0, &[]).slots(0)
    });
    all
}

/// "one that can't be read gets 1 to 9"; one without typing is run.
fn readers_first() -> Vec<StatedRun> {
    let mut all = Vec::new();
    let file = asm::file(&text());
    // the functions' records begin at 68
    for (number, at, byte) in [(2, 0, 5), (3, 4, 0), (4, 44, 1), (6, 56, 5), (7, 87, 1)] {
        let mut stated = refused(number, 0, 6, &[INT]);
        stated.file[at] = byte;
        all.push(stated);
    }
    for length in [47, 55, file.len() - 1] {
        let mut stated = refused(if length < 56 { 1 } else { 3 }, 0, 6, &[INT]);
        stated.file.truncate(length);
        all.push(stated);
    }
    let untyped = "edition 4; int 7; entry: pop; function int (int) profile 5: push 0; pop; ret";
    for (profile, answer) in [(5, 21), (6, 17), (0, 17)] {
        let mut stated = refused(answer, 0, profile, &[INT]);
        stated.file = asm::file(untyped);
        if answer == 21 {
            stated.left = finishes(0, 5, &[INT], 2, &[INT]).left;
        }
        all.push(stated);
    }
    all
}

/// Editions 1 and 3 have no profiles: any run is made.
fn other_editions() -> Vec<StatedRun> {
    let mut all = Vec::new();
    for edition in ["edition 1;", ""] {
        for profile in [0, 5, LARGEST] {
            let file = asm::file(&format!(
                "{edition} int 7; entry: function int (int): load 0; ret"
            ));
            all.push(StatedRun {
                file: file.clone(),
                ..finishes(0, profile, &[INT], 2, &[INT])
            });
            all.push(StatedRun {
                file,
                ..refused(12, 1, profile, &[INT])
            });
        }
    }
    all
}

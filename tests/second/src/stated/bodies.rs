//! Which body is named with 11: "the first body without typing (entry first, as FFFFFFFF, then
//! functions in order)"; and rooms of other lengths.

use super::{accepted_with, refused, untyped, untyped_entry, Stated};
use crate::asm;

const BAD: &str = "function void (): pop; ret;";
const GOOD: &str = "function void (): ret;";

pub fn cases() -> Vec<Stated> {
    let mut cases = bad_bodies();
    cases.extend(rooms());
    cases
}

fn bad_bodies() -> Vec<Stated> {
    let labelled = "int 1; entry: @0; push 0; @1; pop; function void (int): @2; ret;";
    vec![
        untyped_entry(
            "the entry and functions without typing",
            &format!("entry: @0; pop; {BAD} {GOOD} {BAD}"),
        ),
        untyped(
            "functions 1 and 3 of four without typing",
            &format!("entry: {GOOD} {BAD} {GOOD} {BAD}"),
            1,
        ),
        untyped(
            "only function 1, labels elsewhere",
            &format!("{labelled} {BAD}"),
            1,
        ),
        untyped(
            "two functions after labelled bodies",
            &format!("{labelled} {GOOD} {BAD} {BAD}"),
            2,
        ),
        untyped(
            "the last of 128 functions",
            &format!("entry: {} function void (): @0; pop; ret", GOOD.repeat(127)),
            127,
        ),
        untyped(
            "all of 128 functions",
            &format!("entry: {}", BAD.repeat(128)),
            0,
        ),
        untyped(
            "a function that is called, not its caller",
            "int 1; entry: call 0; @0; pop; function int (): pop",
            0,
        ),
        untyped(
            "a caller, not the function that is called",
            &format!("entry: {GOOD} function void (): @0; push 9; call 0; ret; {GOOD}"),
            1,
        ),
    ]
}

/// 10: "checking room under 64 bytes per label"
fn rooms() -> Vec<Stated> {
    let text = "int 1; entry: @0; push 0; @1; pop";
    let records = [Some((&[][..], &[][..])), Some((&[][..], &[3][..]))];
    let short = |name, text, room| refused(name, asm::file(text), room, 10);
    let bad = "int 1; entry: @0; pop; @1; pop";
    let mut bad_label = asm::file(text);
    bad_label[60] = 0;
    vec![
        accepted_with("room for two labels and not a byte more", text, 0, &records),
        accepted_with("room for three labels", text, 64, &records),
        accepted_with("much room", text, 3000, &records),
        accepted_with("room for no labels", "int 1; entry: push 0", 200, &[]),
        untyped_entry("no labels, 11: nothing is zeroed", "entry: pop"),
        short("one byte too few", text, 127),
        short("room for one label of two", text, 64),
        short("no room", text, 0),
        short("one byte too few, and no typing", bad, 127),
        refused("no room, and a label of no owner", bad_label, 0, 9),
    ]
}

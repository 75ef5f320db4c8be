//! Programs that run long, and recipes that a host calls for each pixel.

use second::samples::W1;
use second::{asm, hex};

pub fn modules() -> Vec<(&'static str, Vec<u8>)> {
    let texts = [
        ("loop-int", counting_loop("int")),
        ("loop-long", counting_loop("long")),
        ("recursion", RECURSION.to_string()),
        ("curve", CURVE.to_string()),
        ("pointers", POINTERS.to_string()),
        ("pointer-calls", POINTER_CALLS.to_string()),
        ("recipe-8", RECIPE_8.to_string()),
        ("recipe-40", RECIPE_40.to_string()),
        ("recipe-250", RECIPE_250.to_string()),
        ("loop-int-edition-1", in_edition(1, &counting_loop("int"))),
        ("recipe-40-edition-1", in_edition(1, RECIPE_40)),
        ("recipe-8-edition-4", in_edition(4, RECIPE_8)),
        ("recipe-40-edition-4", in_edition(4, RECIPE_40)),
        ("recipe-250-edition-4", in_edition(4, RECIPE_250)),
    ];
    let mut all = texts.map(|(name, text)| (name, asm::file(&text))).to_vec();
    all.push(("w1", hex::decode(W1).expect("hex digits")));
    all
}

/// The same program in another edition. Edition 1 has other numbers for its instructions.
pub fn in_edition(edition: u32, text: &str) -> String {
    format!("edition {edition}; {text}")
}

/// Adds and mixes the numbers below 625,000; 16 steps each.
fn counting_loop(ty: &str) -> String {
    format!(
        "{ty} 0; {ty} 3; {ty} 7; {ty} 1; {ty} 625000
         entry: push 0; store 0; push 0; store 1
         @0; load 0; load 1; push 1; mul; add; push 2; xor; store 0
         load 1; push 3; add; store 1
         load 1; push 4; cmp; jb 0
         load 0"
    )
}

/// The 28th Fibonacci number, by two calls each.
const RECURSION: &str = "int 28; int 2; int 1
    entry: push 0; call 0
    function int (int): load 0; push 1; cmp; jae 0; load 0; ret
    @0; load 0; push 2; sub; call 0; load 0; push 1; sub; call 0; add; ret";

/// A cubic by Horner's rule at 400,000 points, summed.
const CURVE: &str =
    "double 0; double 0.00025; double 0.5; double 1.25; double 3; double 1; double 400000
    entry: push 0; store 0; push 0; store 1
    @0; push 1; load 1; mul; push 2; add; load 1; mul; push 3; add; load 1; mul; push 4; add
    load 0; add; store 0
    load 1; push 5; add; store 1
    load 1; push 6; cmp; jb 0
    load 0";

/// Sums the numbers below 700,000 through pointers that are locals.
const POINTERS: &str = "int 0; int 700000
    entry: push 0; store 0; push 0; store 1; lea 0; store 2; lea 1; store 3
    @0; load 3; load 3; tload; load 2; tload; add; tstore
    load 2; inc
    lea 0; tload; push 1; cmp; jb 0
    load 1";

/// The same through pointers that are parameters, with a factor.
const POINTER_CALLS: &str = "int 0; int 3; int 500000
    entry: push 0; store 0; push 0; store 1
    @0; lea 0; lea 1; push 1; call 0
    load 1; push 2; cmp; jb 0
    load 0
    function void (*int, *int, int):
    load 0; load 0; tload; load 1; tload; load 2; mul; add; tstore; load 1; inc; ret";

/// (r * 3 + g) / 4.
const RECIPE_8: &str = "int 3; int 4
    function int (int, int, int): load 0; push 0; mul; load 1; add; push 1; div; ret";

/// A mix of three channels with rounding, an offset and two clamps.
const RECIPE_40: &str =
    "int 299; int 587; int 114; int 500; int 1000; int 40; int 100; int 16; int 0; int 255
    function int (int, int, int):
    load 0; push 0; mul; load 1; push 1; mul; add; load 2; push 2; mul; add
    push 3; add; push 4; div; store 3
    load 0; load 3; sub; push 5; imul; push 6; idiv; load 3; add; push 7; sub; store 4
    load 4; push 8; icmp; jae 0; push 8; ret
    @0; load 4; push 9; icmp; jbe 1; push 9; ret
    @1; load 4; ret";

/// A tone curve: eight rounds of Horner's rule on the channels' sum.
const RECIPE_250: &str = "double 765; double 0; int 0; double 0.5; double -0.125; double 0.25; int 8; double 255; int 255
    function int (int, int, int):
    load 0; load 1; add; load 2; add; tod; push 0; div; store 3
    push 1; store 4; push 2; store 5
    @0; load 4; load 3; mul; push 3; add; load 3; mul; push 4; add; load 3; mul; push 5; add; push 3; mul
    load 4; push 3; mul; add; store 4
    lea 5; inc; load 5; push 6; cmp; jb 0
    load 4; push 7; mul; toi; push 8; and; ret";

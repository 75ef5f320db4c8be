//! Programs of edition 4 that use the heap.

use second::asm;

/// A structure of eight numbers.
const CURVE: &str = "double, double, double, double, double, double, double, double";

/// Pairs, or rounds with `gcnew`, in a row, so that the loop around them hardly counts.
const UNROLLED: usize = 500;

pub fn modules() -> Vec<(&'static str, Vec<u8>)> {
    let texts = [
        ("pairs", pairs(400, 0, false)),
        ("pairs-100", pairs(400, 100, false)),
        ("pairs-1000", pairs(400, 1000, false)),
        ("pairs-hole", pairs(4, 1000, true)),
        ("heap-curve", curve()),
        ("gcnew", forgotten(400, 0)),
        ("gcnew-100", forgotten(40, 100)),
        ("gcnew-1000", forgotten(10, 1000)),
        ("gcnew-half-200", half(200, 200)),
        ("gcnew-half-1000", half(10, 1000)),
        ("gcnew-pack", packed(50)),
    ];
    texts.map(|(name, text)| (name, asm::file(&text))).to_vec()
}

/// Makes a curve and deletes it, 500 times in each turn, while so many ints live; with a hole,
/// cell 0 below them is free.
fn pairs(turns: usize, alive: usize, hole: bool) -> String {
    let (first, free) = if hole {
        ("new 3; store 1", "load 1; delete")
    } else {
        ("", "")
    };
    let ints = "new 3; pop; ".repeat(alive);
    let pairs = "new 10; delete; ".repeat(UNROLLED);
    format!(
        "edition 4; structure {CURVE}; int 0; int {turns}
         entry: push 0; store 0
         {first}; {ints}; {free}
         @0; {pairs}; lea 0; inc; load 0; push 1; cmp; jb 0"
    )
}

/// A cubic by Horner's rule at 40,000 points, summed. Coefficients, point, step, sum and last
/// point are the fields of a structure.
fn curve() -> String {
    let mut text = format!("edition 4; structure {CURVE}\n");
    for number in [0.00025, 0.5, 1.25, 3.0, 0.0, 1.0, 0.0, 40000.0] {
        text += &format!("double {number}\n");
    }
    text += "entry: new 10; store 0\n";
    for field in 0..8 {
        text += &format!("load 0; flea {field}; push {field}; tstore\n");
    }
    text + "@0; load 0; flea 6; load 0; flea 6; tload
        load 0; flea 0; tload; load 0; flea 4; tload; mul; load 0; flea 1; tload; add
        load 0; flea 4; tload; mul; load 0; flea 2; tload; add
        load 0; flea 4; tload; mul; load 0; flea 3; tload; add; add; tstore
        load 0; flea 4; load 0; flea 4; tload; load 0; flea 5; tload; add; tstore
        load 0; flea 4; tload; load 0; flea 7; tload; cmp; jb 0"
}

/// Makes a hundred managed ints, which stay while the frame does.
fn held() -> String {
    let quarter = |n: usize| format!("{}store {n}; ", "gcnew 3; ".repeat(25));
    (1..5).map(quarter).collect()
}

/// Makes a managed curve and forgets it, 500 times in each turn, while so many hundreds of managed
/// ints live, each hundred in a frame.
fn forgotten(turns: usize, alive: usize) -> String {
    let rounds = "gcnew 10; pop; ".repeat(UNROLLED);
    format!(
        "edition 4; structure {CURVE}; int 0; int 1; int {turns}; int {}
         entry: push 3; call 0
         function void (int): load 0; je 0; {}
         load 0; push 1; sub; call 0; ret
         @0; push 0; store 1
         @1; {rounds}; lea 1; inc; load 1; push 2; cmp; jb 1; ret",
        alive / 100,
        held()
    )
}

/// Half of so many hundreds of managed ints in each turn, which are forgotten together, while the
/// other half lives, each hundred in a frame.
fn half(turns: usize, all: usize) -> String {
    format!(
        "edition 4; int 0; int 1; int {turns}; int {}
         entry: push 3; call 0
         function void (int): load 0; je 0; {held}
         load 0; push 1; sub; call 0; ret
         @0; push 0; store 1
         @1; push 3; call 1; lea 1; inc; load 1; push 2; cmp; jb 1; ret
         function void (int): load 0; je 2; {held}
         load 0; push 1; sub; call 1; ret
         @2; ret",
        all / 200,
        held = held()
    )
}

/// In each of 100 rounds of a turn a curve of seven numbers and an int behind it; the curve is
/// forgotten, and one of eight fits only after packing. 1,015 ints fill the other cells.
fn packed(turns: usize) -> String {
    let ints = "new 3; pop; ".repeat(1015);
    let rounds = "gcnew 11; new 3; store 1; pop; gcnew 10; pop; load 1; delete; ".repeat(100);
    format!(
        "edition 4; structure {CURVE}; structure int, int, int, int, int, int, int
         int 0; int {turns}
         entry: push 0; store 0; new 3; store 1; load 1; delete
         {ints}
         @0; {rounds} lea 0; inc; load 0; push 1; cmp; jb 0"
    )
}

//! Samples of edition 4: structures, the heap, and what is refused.

use super::{text, Sample, Source};

/// One structure of an int and a double, and a function that takes a pointer to it; the module
/// that the damaged samples start from. Sections at 56, 68, 92; the structure's record at 114.
const PLAIN: &str = "edition 4; int 7; structure int, double; entry: new 10; call 0; push 0
    function void (*10): load 0; delete; ret";

const fn patched(
    name: &'static str,
    shows: &'static str,
    at: usize,
    bytes: &'static [u8],
) -> Sample {
    let source = Source::Patched(PLAIN, at, bytes);
    Sample {
        name,
        shows,
        source,
    }
}

/// Recipes of edition 4.
pub const HEAP: [Sample; 41] = [
    text(
        "heap-curve",
        "a pixel through a curve of eight numbers: 64 of 256 through 3x² - 2x³ is 40",
        "edition 4; double 3.0; double -2.0; double 0.25; double 256.0
         structure double, double, double, double, double, double, double, double
         entry:
         call 0; store 0
         load 0; push 2; call 1; push 3; mul; toi
         load 0; delete
         function *10 ():
         new 10; store 0
         load 0; flea 2; push 0; tstore
         load 0; flea 3; push 1; tstore
         load 0; ret
         function double (*10, double):
         load 0; flea 7; tload
         load 1; mul; load 0; flea 6; tload; add
         load 1; mul; load 0; flea 5; tload; add
         load 1; mul; load 0; flea 4; tload; add
         load 1; mul; load 0; flea 3; tload; add
         load 1; mul; load 0; flea 2; tload; add
         load 1; mul; load 0; flea 1; tload; add
         load 1; mul; load 0; flea 0; tload; add
         ret",
    ),
    text(
        "heap-levels",
        "a curve of a count and three levels: 200 is above two of 50, 120, 220",
        "edition 4; int 50; int 120; int 220; int 200
         structure int, int, int, int
         entry:
         new 10; store 0
         load 0; flea 1; push 0; tstore
         load 0; flea 2; push 1; tstore
         load 0; flea 3; push 2; tstore
         load 0; push 3; call 0
         load 0; flea 0; tload
         function void (*10, int):
         load 1; load 0; flea 1; tload; cmp; jb 0
         load 0; flea 0; inc
         load 1; load 0; flea 2; tload; cmp; jb 0
         load 0; flea 0; inc
         load 1; load 0; flea 3; tload; cmp; jb 0
         load 0; flea 0; inc
         @0; ret",
    ),
    text(
        "heap-holes",
        "five curves, of which two are taken back; new ones lie in the holes where they fit",
        "edition 4; structure int, int; structure double, double, double
         entry:
         new 10; store 0
         new 11; store 1
         new 10; store 2
         new 10; store 3
         new 11; store 4
         load 1; delete
         load 3; delete
         new 11; store 1
         new 10; store 3
         load 1; load 3; cmp
         load 0; load 1; cmp",
    ),
    text(
        "heap-full",
        "curves of eight numbers are given until there is none: 128 fit in 1,024 cells",
        "edition 4; int 0
         structure double, double, double, double, double, double, double, double
         entry:
         push 0; store 0
         @0
         new 10; null; cmp; je 1
         lea 0; inc
         jmp 0
         @1; load 0",
    ),
    text(
        "heap-cleared",
        "a block given anew is cleared, and its pointer is another one",
        "edition 4; long -1
         entry:
         new 4; store 0
         load 0; push 0; tstore
         load 0; delete
         new 4; store 1
         load 1; tload
         load 0; load 1; cmp",
    ),
    text(
        "heap-numbers",
        "new takes int, long and double too; inc and dec work in a cell",
        "edition 4; int 7
         entry:
         new 3; store 0; new 4; store 1; new 6; store 2
         load 0; dec; load 1; dec; load 2; inc
         load 0; tload; load 1; tload; load 2; tload",
    ),
    text(
        "heap-fields",
        "a field's pointer is its block's, plus 1 + field",
        "edition 4; structure int, long, double
         entry: new 10; store 0; load 0; flea 0; load 0; flea 1; load 0; flea 2",
    ),
    text(
        "heap-compare",
        "pointers compare by payload, unsigned: slot, block, field, null",
        "edition 4; int 1; structure int
         entry:
         push 0; store 0; new 10; store 1
         lea 0; load 1; cmp
         load 1; load 1; flea 0; icmp
         load 1; flea 0; null; icmp
         null; null; cmp",
    ),
    text(
        "heap-shared",
        "a function deletes what its caller still has a pointer to: exception 33",
        "edition 4; structure int
         entry: new 10; store 0; load 0; call 0; load 0; flea 0
         function void (*10): load 0; delete; ret",
    ),
    text(
        "heap-outlives",
        "a block outlives the function that made it",
        "edition 4; int 9; structure int
         entry: call 0; flea 0; tload
         function *10 (): new 10; store 0; load 0; flea 0; push 0; tstore; load 0; ret",
    ),
    text(
        "heap-delete-null",
        "delete of null does nothing",
        "edition 4; entry: null; delete; null",
    ),
    text(
        "heap-double-free",
        "a block deleted twice is exception 33",
        "edition 4; structure int; entry: new 10; store 0; load 0; delete; load 0; delete",
    ),
    text(
        "heap-dangling",
        "a pointer to a deleted block is exception 33, also when its cells are given again",
        "edition 4; structure int
         entry: new 10; store 0; load 0; delete; new 10; store 1; load 0; flea 0; tload",
    ),
    text(
        "heap-null-followed",
        "new gives null when the cells are full; null followed is exception 36",
        "edition 4; int 7
         structure double, double, double, double, double, double, double, double
         entry:
         @0
         new 10; flea 0; inc
         jmp 0",
    ),
    text(
        "heap-field-deleted",
        "delete takes only what new gave: a field is exception 33",
        "edition 4; structure int, int; entry: new 10; flea 1; delete",
    ),
    text(
        "heap-slot-deleted",
        "a pointer to a local is none that new gave: exception 33",
        "edition 4; int 1; entry: push 0; store 0; lea 0; delete",
    ),
    text(
        "heap-too-large",
        "a highlight that a curve lifts to 4294967296.0: toi is exception 44, the curve stays",
        "edition 4; double 4294967296.0; structure double
         entry:
         new 10; store 0
         load 0; flea 0; push 0; tstore
         load 0; flea 0; tload; toi",
    ),
    text(
        "heap-tol-nan",
        "tol of a NaN in a function: exception 44 in edition 4 too",
        "edition 4; double #7FF8000000000000
         entry: push 0; call 0
         function long (double): load 0; tol; ret",
    ),
    text(
        "heap-36",
        "null followed has no typing (a run raises 36)",
        "edition 4; entry: null; tload",
    ),
    text(
        "heap-37",
        "new of structure 11, of one, has no typing (a run raises 37)",
        "edition 4; structure int; entry: new 11",
    ),
    text(
        "heap-38",
        "field 1 of one has no typing (a run raises 38)",
        "edition 4; structure int; entry: new 10; flea 1",
    ),
    text(
        "heap-39",
        "flea of a number has no typing (a run raises 39)",
        "edition 4; structure int; entry: new 10; flea 0; flea 0",
    ),
    text(
        "heap-50",
        "a whole structure is not loaded: no typing (a run raises 50)",
        "edition 4; structure int; entry: new 10; tload",
    ),
    text(
        "heap-null-argument",
        "null is the type of no parameter: no typing, 11",
        "edition 4; structure int; entry: null; call 0; function void (*10): ret",
    ),
    text(
        "heap-null-stored",
        "null in the place of a pointer to a structure: no typing, 11",
        "edition 4; structure int; entry: new 10; store 0; null; store 0",
    ),
    text(
        "heap-null-local",
        "null in a local of its own type, moved and compared: accepted",
        "edition 4; entry: null; store 0; null; store 0; load 0; copy; swap; icmp",
    ),
    text(
        "heap-join-differs",
        "null on one way and a new block on the other: no typing, 11",
        "edition 4; int 0; structure int
         entry: push 0; je 0; null; jmp 1; @0; new 10; @1; delete",
    ),
    text(
        "heap-kinds",
        "pointers to two structures are two types: no typing, 11",
        "edition 4; structure int; structure int
         entry: new 10; call 0; function void (*11): ret",
    ),
    text(
        "heap-pointer-kinds",
        "cmp of pointers to int and to long: accepted in edition 4, as pointer-kinds is not",
        "edition 4; int 1; long 1; entry: push 0; store 0; push 1; store 1; lea 0; lea 1; cmp",
    ),
    Sample {
        name: "heap-refused-1",
        shows: "55 bytes of edition 4, whose header has 56",
        source: Source::Cut(PLAIN, 55),
    },
    patched("heap-refused-2", "edition 5", 0, &[5]),
    patched("heap-refused-4", "17 structures", 48, &[17]),
    patched(
        "heap-refused-5",
        "the structures' offset is not the code's end",
        52,
        &[109],
    ),
    patched("heap-refused-6", "a structure without fields", 114, &[0]),
    patched(
        "heap-refused-6-field",
        "a field that is a pointer",
        115,
        &[0x83],
    ),
    Sample {
        name: "heap-refused-6-first",
        shows: "a bad structure and a bad function: 6, though the structure stands last",
        source: Source::Patched(
            "edition 4; structure int; entry: function void (*11): ret",
            81,
            &[9],
        ),
    },
    patched(
        "heap-refused-7",
        "structure 11 in a signature, of one structure",
        78,
        &[0x8B],
    ),
    patched(
        "heap-refused-7-null",
        "80 in a signature: null is the type of no parameter",
        78,
        &[0x80],
    ),
    patched(
        "heap-refused-7-return",
        "83 as return type: it may point to a slot that is gone",
        77,
        &[0x83],
    ),
    patched("heap-refused-8", "opcode 35", 92, &[0x35]),
    Sample {
        name: "heap-refused-8-old",
        shows: "opcode 30 (null) in edition 3",
        source: Source::Patched("entry: ret", 48, &[0x30]),
    },
];

//! Samples of managed blocks: `gcnew`, `gcnull`, and what is refused.

use super::{text, Sample, Source};

/// A function that takes a managed pointer to a structure; the damaged samples start from it.
/// Sections at 56, 68, 92.
const PLAIN: &str = "edition 4; int 7; structure int, double; entry: gcnew 10; call 0; push 0
    function void (gc*10): load 0; flea 0; push 0; tstore; ret";

const fn patched(
    name: &'static str,
    shows: &'static str,
    at: usize,
    bytes: &'static [u8],
) -> Sample {
    let source = Source::Patched(PLAIN, at, bytes);
    Sample {
        name,
        shows,
        source,
    }
}

/// Recipes with managed blocks.
pub const MANAGED: [Sample; 30] = [
    text(
        "managed-forgotten",
        "a curve of eight numbers is forgotten in each of 100,000 rounds, and cells never run out",
        "edition 4; int 100000
         structure int, int, int, int, int, int, int, int
         entry:
         push 0; store 0
         gcnew 10; store 1
         @0
         gcnew 10; store 1
         load 1; flea 7; inc
         lea 0; dec
         load 0; jne 0
         load 1; flea 7; tload",
    ),
    text(
        "managed-remembered",
        "the same with new: 128 curves fill the cells, the next is null: exception 36",
        "edition 4; int 100000
         structure int, int, int, int, int, int, int, int
         entry:
         push 0; store 0
         new 10; store 1
         @0
         new 10; store 1
         load 1; flea 7; inc
         lea 0; dec
         load 0; jne 0
         load 1; flea 7; tload",
    ),
    text(
        "managed-packed",
        "the cells are full of numbers, each second one dead: new gives null; gcnew frees, finds no \
         run for a curve, packs and gives one; new gives one behind it",
        "edition 4; int 32; int 1
         structure double, double, double, double, double, double, double, double
         entry:
         push 0; call 0
         new 10; null; cmp
         gcnew 10; gcnull; cmp
         new 10; null; cmp
         function void (int):
         load 0; je 0
         gcnew 3; new 3; pop; gcnew 3; new 3; pop; gcnew 3; new 3; pop; gcnew 3; new 3; pop
         gcnew 3; new 3; pop; gcnew 3; new 3; pop; gcnew 3; new 3; pop; gcnew 3; new 3; pop
         gcnew 3; new 3; pop; gcnew 3; new 3; pop; gcnew 3; new 3; pop; gcnew 3; new 3; pop
         gcnew 3; new 3; pop; gcnew 3; new 3; pop; gcnew 3; new 3; pop; gcnew 3; new 3; pop
         load 0; push 1; sub; call 0
         ret
         @0; ret",
    ),
    text(
        "managed-moved",
        "a curve that packing moves keeps its values and its pointers, to it and to its fields",
        "edition 4; int 127; int 7; double 1.5; long 5
         structure double, double, double, double, double, double, double, double
         structure int, double, long
         structure int, int, int, int, int
         entry:
         push 0; call 0
         gcnew 3; store 0
         gcnew 11; store 1
         load 1; flea 0; push 1; tstore
         load 1; flea 1; push 2; tstore
         load 1; flea 2; push 3; tstore
         load 1; flea 1; store 2
         load 1; flea 0; store 0
         gcnew 12; flea 4; inc
         load 0; tload; load 2; tload; load 1; flea 2; tload; load 1
         function void (int): @0; new 10; pop; lea 0; dec; load 0; jne 0; ret",
    ),
    text(
        "managed-dead",
        "dead blocks take their cells until the next gcnew: new gives null before, and a block after",
        "edition 4; int 8; int 1
         structure double, double, double, double, double, double, double, double
         entry:
         push 0; call 0
         new 3; null; cmp
         gcnew 3
         new 3; null; cmp
         function void (int):
         load 0; je 0
         gcnew 10; gcnew 10; gcnew 10; gcnew 10; gcnew 10; gcnew 10; gcnew 10; gcnew 10
         gcnew 10; gcnew 10; gcnew 10; gcnew 10; gcnew 10; gcnew 10; gcnew 10; gcnew 10
         load 0; push 1; sub; call 0
         ret
         @0; ret",
    ),
    text(
        "managed-listed",
        "serials are counted with those of new; the table lists blocks 1 and 3 with 64 added",
        "edition 4; structure int, double; entry: gcnew 10; new 10; gcnew 6",
    ),
    text(
        "managed-curve",
        "functions give, fill and follow a curve, and nobody deletes it: 10 + 3 * 4 is 22",
        "edition 4; int 10; int 3; int 4; structure int, int
         entry: call 0; push 2; call 2
         function gc*10 (): gcnew 10; store 0; load 0; call 1; load 0; ret
         function void (gc*10):
         load 0; flea 0; push 0; tstore; load 0; flea 1; push 1; tstore; ret
         function int (gc*10, int):
         load 0; flea 0; tload; load 0; flea 1; tload; load 1; mul; add; ret",
    ),
    text(
        "managed-field",
        "a function returns a pointer to a field, which keeps the whole block: 7",
        "edition 4; int 7; structure int, double
         entry:
         call 0; store 0
         gcnew 10; pop; gcnew 10; pop
         load 0; tload; load 0
         function gc*int ():
         gcnew 10; store 0; load 0; flea 0; push 0; tstore; load 0; flea 0; ret",
    ),
    text(
        "managed-held",
        "a caller's local and operand and an argument keep their blocks while others are forgotten: \
         1 + 2 + 3 is 6",
        "edition 4; int 1; int 2; int 3
         entry:
         gcnew 3; store 0
         load 0; push 0; tstore
         gcnew 3; copy; push 1; tstore
         gcnew 3; copy; push 2; tstore
         call 0; call 1
         load 0; tload; add
         function int (gc*int): gcnew 3; pop; gcnew 3; pop; gcnew 3; pop; load 0; tload; ret
         function int (gc*int, int): load 0; tload; load 1; add; ret",
    ),
    text(
        "managed-fields",
        "flea keeps type 8; a field's pointer is its block's, plus 1 + field",
        "edition 4; structure int, long, double
         entry: gcnew 10; store 0; load 0; flea 0; load 0; flea 1; load 0; flea 2",
    ),
    text(
        "managed-compare",
        "managed pointers compare by payload, unsigned: block, field, the next block, gcnull",
        "edition 4; structure int
         entry:
         gcnew 10; store 0; gcnew 10; store 1
         load 0; load 0; flea 0; cmp
         load 0; flea 0; load 1; icmp
         load 1; gcnull; icmp
         gcnull; gcnull; cmp",
    ),
    text(
        "managed-null-local",
        "gcnull in a local of its own type, moved and compared: accepted",
        "edition 4; entry: gcnull; store 0; gcnull; store 0; load 0; copy; swap; icmp",
    ),
    text(
        "managed-null-followed",
        "gcnew gives null where slots hold all blocks; null followed is exception 36",
        "edition 4; int 8; int 1
         structure double, double, double, double, double, double, double, double
         entry: push 0; call 0
         function void (int):
         load 0; je 0
         gcnew 10; gcnew 10; gcnew 10; gcnew 10; gcnew 10; gcnew 10; gcnew 10; gcnew 10
         gcnew 10; gcnew 10; gcnew 10; gcnew 10; gcnew 10; gcnew 10; gcnew 10; gcnew 10
         load 0; push 1; sub; call 0
         ret
         @0; gcnew 3; tload; pop; ret",
    ),
    text(
        "managed-31",
        "delete of a managed pointer has no typing (a run raises 31)",
        "edition 4; structure int; entry: gcnew 10; delete",
    ),
    text(
        "managed-31-null",
        "delete of gcnull has no typing (a run raises 31); that of null has one",
        "edition 4; entry: gcnull; delete",
    ),
    text(
        "managed-31-field",
        "delete of a managed field has no typing (a run raises 31)",
        "edition 4; structure int; entry: gcnew 10; flea 0; delete",
    ),
    text(
        "managed-across",
        "null and gcnull are not compared: no typing (a run raises 22)",
        "edition 4; entry: null; gcnull; cmp",
    ),
    text(
        "managed-across-blocks",
        "blocks of new and gcnew are not compared: no typing (a run raises 22)",
        "edition 4; structure int; entry: new 10; gcnew 10; icmp",
    ),
    text(
        "managed-argument",
        "a managed pointer is no other pointer to the same structure: no typing, 11",
        "edition 4; structure int; entry: gcnew 10; call 0; function void (*10): ret",
    ),
    text(
        "managed-null-argument",
        "gcnull is the type of no parameter: no typing, 11",
        "edition 4; structure int; entry: gcnull; call 0; function void (gc*10): ret",
    ),
    text(
        "managed-null-stored",
        "gcnull in the place of a managed pointer: no typing, 11",
        "edition 4; structure int; entry: gcnew 10; store 0; gcnull; store 0",
    ),
    text(
        "managed-36",
        "gcnull followed has no typing (a run raises 36)",
        "edition 4; entry: gcnull; tload",
    ),
    text(
        "managed-37",
        "gcnew of type 8 has no typing (a run raises 37)",
        "edition 4; entry: gcnew 8",
    ),
    text(
        "managed-50",
        "a whole structure is not loaded: no typing (a run raises 50)",
        "edition 4; structure int; entry: gcnew 10; tload",
    ),
    text(
        "managed-signature",
        "managed pointers to numbers and structures in and out, as others are not returned",
        "edition 4; int 3; long 4; double 5.0; structure double
         entry:
         gcnew 3; store 0; load 0; push 0; tstore
         gcnew 4; store 1; load 1; push 1; tstore
         gcnew 10; store 2; load 2; flea 0; push 2; tstore
         load 0; call 0; tload
         load 1; call 1; tload
         load 2; call 2; tload
         function gc*int (gc*int): load 0; ret
         function gc*long (gc*long): load 0; ret
         function gc*double (gc*10): load 0; flea 0; ret",
    ),
    patched(
        "managed-refused-7",
        "structure 11 in a signature, of one structure",
        78,
        &[0xCB],
    ),
    patched(
        "managed-refused-7-null",
        "C0 in a signature: gcnull is the type of no parameter",
        78,
        &[0xC0],
    ),
    Sample {
        name: "managed-refused-7-old",
        shows: "C3 in a signature of edition 3",
        source: Source::Patched("entry: function void (int): ret", 58, &[0xC3]),
    },
    Sample {
        name: "managed-refused-8",
        shows: "gcnew without its operand",
        source: Source::Patched("edition 4; entry: neg", 56, &[0x34]),
    },
    Sample {
        name: "managed-refused-8-old",
        shows: "opcode 33 (gcnull) in edition 3",
        source: Source::Patched("entry: ret", 48, &[0x33]),
    },
];

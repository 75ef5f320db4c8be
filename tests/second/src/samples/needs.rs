//! Samples of what stack a module needs.

use super::{text, Sample, Source};

/// Entry and functions that each do this and call the next.
const fn chain(
    name: &'static str,
    shows: &'static str,
    each: &'static str,
    functions: usize,
) -> Sample {
    Sample {
        name,
        shows,
        source: Source::Chain(each, functions),
    }
}

/// 64 slots: two locals, each over 31 values.
const HALF: &str = "push 0; copy; copy; copy; copy; copy; copy; copy; copy; copy; copy; copy; copy; copy; copy; copy
     copy; copy; copy; copy; copy; copy; copy; copy; copy; copy; copy; copy; copy; copy; copy; copy; store 0
     load 0; copy; copy; copy; copy; copy; copy; copy; copy; copy; copy; copy; copy; copy; copy; copy
     copy; copy; copy; copy; copy; copy; copy; copy; copy; copy; copy; copy; copy; copy; copy; copy; store 1;";

pub const NEEDS: [Sample; 14] = [
    text(
        "need-joins",
        "two ways meet that buried two slots and none: the greatest count is the need, though the run takes the other way",
        "int 0; int 7
         entry: push 0; je 0
         push 1; push 1; push 1; store 0; jmp 1
         @0; push 1; store 0
         @1; load 0; load 0; add",
    ),
    text(
        "need-calls",
        "a call over a buried slot, a local and an operand: the callee's need counts from its first argument",
        "int 2; int 3
         entry: push 0; push 0; store 0; push 1; load 0; push 1; call 0; add
         function int (int, int): load 0; load 1; call 1; ret
         function int (int, int): load 0; load 1; mul; ret",
    ),
    text(
        "need-uncalled",
        "functions that nobody calls have their needs too, parameters counted",
        "int 7
         entry: push 0
         function void (): ret
         function int (int, int, int): load 2; ret
         function int (): push 0; push 0; push 0; call 1; ret",
    ),
    text(
        "need-two-paths",
        "one callee takes the most slots, another the most frames",
        "int 7
         entry: call 0; call 1
         function void (): push 0; push 0; push 0; push 0; push 0; ret
         function void (): call 2; ret
         function void (): ret",
    ),
    text(
        "need-endless-callee",
        "flow goes on past a call whose callee never returns: no run reaches the need",
        "int 7
         entry: call 0; push 0; push 0; push 0
         function void (): @0; jmp 0",
    ),
    text(
        "need-dead-code",
        "dead code needs nothing",
        "int 7
         entry: jmp 0; push 0; push 0; call 0; @0; push 0
         function void (): push 0; push 0; push 0; ret",
    ),
    text(
        "need-ring",
        "a function that calls itself, from the entry: no need, though the run finishes",
        "int 5; int 1; int 0
         entry: push 0; call 0
         function int (int): load 0; je 0; load 0; load 0; push 1; sub; call 0; mul; ret; @0; push 1; ret",
    ),
    text(
        "need-ring-led-to",
        "the first body from which calls come back is function 1: it only leads to functions 2 and 3",
        "int 7
         entry: call 0
         function void (): ret
         function void (): call 2; ret
         function void (): call 3; ret
         function void (): call 2; ret",
    ),
    text(
        "need-unreached-ring",
        "functions that call each other in dead code make no ring",
        "int 7
         entry: call 0
         function void (): push 0; call 1; ret
         function void (): push 0; ret; call 0; ret",
    ),
    text(
        "need-old",
        "edition 1: a call in a loop over a buried slot",
        "edition 1; int 3; int 9
         entry: push 1; push 0; store 0
         @0; load 0; call 0; store 0; load 0; jne 0
         function int (int): load 0; dec; ret",
    ),
    text(
        "need-managed",
        "edition 4: managed pointers take a slot each, their cells none",
        "edition 4; structure int, int, int, int, int, int, int, int; int 7
         entry: gcnew 10; gcnew 10; store 0; gcnull; load 0; call 0
         function gc*10 (gc*10): load 0; flea 7; push 0; tstore; load 0; ret",
    ),
    chain(
        "need-frames-64",
        "64 frames and 64 slots: it finishes",
        "push 0;",
        63,
    ),
    chain(
        "need-frames-65",
        "65 frames are told as they are; the run ends in 20",
        "push 0;",
        64,
    ),
    chain(
        "need-slots-4160",
        "65 frames of 64 slots: no capacity reaches the need",
        HALF,
        64,
    ),
];

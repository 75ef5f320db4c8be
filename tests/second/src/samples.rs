//! The samples: W1 to W12 of the paper and more modules that show a rule each.

mod heap;
mod managed;
mod needs;
mod profiles;

use crate::asm;
use crate::hex;
pub use heap::HEAP;
pub use managed::MANAGED;
pub use needs::NEEDS;
pub use profiles::{CONVERSIONS, PROFILES};

/// One sample module.
pub struct Sample {
    pub name: &'static str,
    /// What it shows, one line.
    pub shows: &'static str,
    source: Source,
}

enum Source {
    /// The whole file in hex.
    Hex(&'static str),
    /// Assembled.
    Text(&'static str),
    /// Assembled, then bytes replaced at an offset.
    Patched(&'static str, usize, &'static [u8]),
    /// Assembled, then cut to a length.
    Cut(&'static str, usize),
    /// Another sample's text, assembled in edition 1.
    Again(&'static str),
    /// Another sample's text, assembled in edition 4.
    Above(&'static str),
    /// The entry and so many functions, which each do this and call the next.
    Chain(&'static str, usize),
}

impl Sample {
    pub fn file(&self) -> Vec<u8> {
        match self.source {
            Source::Hex(digits) => hex::decode(digits).expect("hex digits"),
            Source::Text(text) => asm::file(text),
            Source::Patched(text, at, bytes) => {
                let mut file = asm::file(text);
                file[at..at + bytes.len()].copy_from_slice(bytes);
                file
            }
            Source::Cut(text, len) => {
                let mut file = asm::file(text);
                file.truncate(len);
                file
            }
            Source::Again(name) => asm::file(&format!("edition 1; {}", text_of(name))),
            Source::Above(name) => asm::file(&format!("edition 4; {}", text_of(name))),
            Source::Chain(each, functions) => {
                let calls = |n| format!("{each} call {n}; ret; function void (): ");
                let all: String = (0..functions).map(calls).collect();
                // the entry has no `ret`
                let all = all.replacen("ret;", "", 1);
                asm::file(&format!("int 7; entry: {all} {each} ret"))
            }
        }
    }
}

/// The text of the sample of this name.
fn text_of(name: &str) -> &'static str {
    let other = all().find(|sample| sample.name == name);
    match other.map(|sample| &sample.source) {
        Some(Source::Text(text)) => text,
        _ => panic!("{name} has no text"),
    }
}

const fn text(name: &'static str, shows: &'static str, text: &'static str) -> Sample {
    let source = Source::Text(text);
    Sample {
        name,
        shows,
        source,
    }
}

/// Seven and five, added; the module that the damaged samples start from.
const PLAIN: &str = "int 7; int 5; entry: push 0; push 1; add; function int (int): load 0; ret";

const fn patched(
    name: &'static str,
    shows: &'static str,
    at: usize,
    bytes: &'static [u8],
) -> Sample {
    let source = Source::Patched(PLAIN, at, bytes);
    Sample {
        name,
        shows,
        source,
    }
}

/// The paper's whole file of W1.
pub const W1: &str = "03000000 53000000 02000000 30000000 00000000 48000000 00000000 48000000 \
    0B000000 48000000 0B000000 00000000 03000000 07000000 00000000 03000000 05000000 00000000 \
    0100000000 0101000000 0B";

/// W1 to W12.
pub const W_SAMPLES: [Sample; 18] = [
    Sample {
        name: "w01",
        shows: "7 + 5 = 12, the paper's whole file",
        source: Source::Hex(W1),
    },
    text(
        "w02",
        "int 4294967295 + 1 wraps to 0",
        "int 4294967295; int 1; entry: push 0; push 1; add",
    ),
    text(
        "w03",
        "long lowest idiv -1 is lowest",
        "long -9223372036854775808; long -1; entry: push 0; push 1; idiv",
    ),
    text(
        "w04",
        "7 div 0 is exception 24 after 2 steps; the operands stay",
        "int 7; int 0; entry: push 0; push 1; div",
    ),
    text(
        "w05-cmp",
        "1 and 4294967295 compared unsigned: -1",
        "int 1; int 4294967295; entry: push 0; push 1; cmp",
    ),
    text(
        "w05-icmp",
        "1 and 4294967295 compared signed: 1",
        "int 1; int 4294967295; entry: push 0; push 1; icmp",
    ),
    text(
        "w06-sar",
        "80000000 hex sar 40 is the sign in every bit",
        "int 2147483648; int 40; entry: push 0; push 1; sar",
    ),
    text(
        "w06-shr",
        "8 shr 32 is 0",
        "int 8; int 32; entry: push 0; push 1; shr",
    ),
    text(
        "w07-below-minus-one",
        "toi of -1.5 is FFFFFFFF",
        "double -1.5; entry: push 0; toi",
    ),
    text(
        "w07-below-zero",
        "toi of -0.5 is 0",
        "double -0.5; entry: push 0; toi",
    ),
    text(
        "w07-too-large",
        "toi of 4294967296.0 is exception 44; the double stays",
        "double 4294967296.0; entry: push 0; toi",
    ),
    text(
        "w08",
        "tod of 9007199254740993 is 9007199254740992.0, shown as its bits",
        "long 9007199254740993; entry: push 0; tod",
    ),
    text(
        "w09",
        "a bound local is no operand: pop after store 0 has no typing (a run raises 21)",
        "int 1; entry: push 0; store 0; pop",
    ),
    text(
        "w10",
        "store 1 without local 0 has no typing (a run raises 26)",
        "int 1; entry: push 0; store 1",
    ),
    text(
        "w11-jae",
        "jae jumps on int 5: 3 steps",
        "int 5; int 1; int 2; entry: push 0; jae 0; push 1; pop; @0; push 2",
    ),
    text(
        "w11-ja",
        "ja doesn't jump on int 5: 5 steps",
        "int 5; int 1; int 2; entry: push 0; ja 0; push 1; pop; @0; push 2",
    ),
    text(
        "w12-growing",
        "a loop that leaves one more operand each time has no typing: 11",
        "int 1; entry: @0; push 0; jmp 0",
    ),
    text(
        "w12-dead",
        "the same loop without push; pop after it is dead code: accepted, uses up its allowance",
        "entry: @0; jmp 0; pop",
    ),
];

/// Programs that compute something.
pub const PROGRAMS: [Sample; 9] = [
    text(
        "factorial",
        "a counted loop with long locals: 20!",
        "long 1; long 20; long 0
         entry:
         push 0; store 0
         push 1; store 1
         @0
         load 0; load 1; mul; store 0
         lea 1; dec
         load 1; push 2; cmp; ja 0
         load 0",
    ),
    text(
        "fibonacci",
        "recursion: the 15th Fibonacci number",
        "int 15; int 2; int 1
         entry:
         push 0; call 0
         function int (int):
         load 0; push 1; cmp; jb 0
         load 0; push 2; sub; call 0
         load 0; push 1; sub; call 0
         add; ret
         @0
         load 0; ret",
    ),
    text(
        "gcd",
        "greatest common divisor of 462 and 1071 by remainders",
        "long 462; long 1071; long 0
         entry:
         push 0; push 1; call 0
         function long (long, long):
         @0
         load 1; push 2; cmp; je 1
         load 1
         load 0; load 1; mod; store 1
         store 0
         jmp 0
         @1
         load 0; ret",
    ),
    text(
        "collatz",
        "steps of the Collatz sequence from 27, with a join of two ways",
        "long 27; long 1; long 2; long 3; int 0
         entry:
         push 0; store 0
         push 4; store 1
         @0
         load 0; push 1; cmp; je 3
         lea 1; inc
         load 0; push 2; mod; push 1; cmp; je 1
         load 0; push 2; div; jmp 2
         @1
         load 0; push 3; mul; push 1; add
         @2
         store 0
         jmp 0
         @3
         load 1",
    ),
    text(
        "newton",
        "square root of 2.0 in five rounds on doubles",
        "double 2.0; double 1.0; double 0.5; int 5
         entry:
         push 3; store 0
         push 1; store 1
         @0
         push 0; load 1; div
         load 1; add
         push 2; mul
         store 1
         lea 0; dec
         load 0; jne 0
         load 1",
    ),
    text(
        "by-pointer",
        "a function changes its caller's locals through pointer parameters",
        "int 10; double 1.5; int 32
         entry:
         push 0; store 0
         push 1; store 1
         lea 0; lea 1; call 0
         function void (*int, *double):
         load 0; inc
         load 1; dec
         load 0; load 0; tload; push 2; add; tstore
         ret",
    ),
    text(
        "exchange",
        "two locals exchanged through pointers",
        "long 1; long -1
         entry:
         push 0; store 0
         push 1; store 1
         lea 0; lea 1; call 0
         function void (*long, *long):
         load 0; tload; store 2
         load 0; load 1; tload; tstore
         load 1; load 2; tstore
         ret",
    ),
    text(
        "parameters",
        "parameter 0 is the deepest argument: 100 - 1, then times 2",
        "int 100; int 1; int 2
         entry:
         push 0; push 1; push 2; call 0
         function int (int, int, int):
         load 0; load 1; sub; load 2; mul; ret",
    ),
    text(
        "left-under-ret",
        "operands left under the returned value are dropped with the frame",
        "int 1; int 2; int 3
         entry:
         push 0; call 0; push 0
         function int ():
         push 2; push 2; push 1; ret",
    ),
];

/// Doubles, conversions, comparisons.
pub const NUMBERS: [Sample; 24] = [
    text(
        "double-sum",
        "0.1 + 0.2 rounded once",
        "double 0.1; double 0.2; entry: push 0; push 1; add",
    ),
    text(
        "double-by-zero",
        "1.0/0.0 is infinity, 0.0/0.0 is 7FF8000000000000: no exception",
        "double 1.0; double 0.0; entry: push 0; push 1; div; push 1; push 1; idiv",
    ),
    text(
        "nan-moved",
        "a NaN that is only moved keeps its bits, also by tod; a sum gives 7FF8000000000000",
        "double #FFF00000DEADBEEF; double 1.0
         entry:
         push 0; store 0
         load 0; copy; tod
         load 0; push 1; add",
    ),
    text(
        "nan-neg",
        "neg flips the sign of -0.0; of a NaN it gives 7FF8000000000000",
        "double -0.0; double #7FF8000000000001; entry: push 0; neg; push 1; neg",
    ),
    text(
        "double-compare",
        "-0.0 equals 0.0; infinity is greater than 1e300; -infinity is less",
        "double -0.0; double 0.0; double #7FF0000000000000; double 1e300; double #FFF0000000000000
         entry:
         push 0; push 1; cmp
         push 2; push 3; cmp
         push 4; push 3; icmp",
    ),
    text(
        "nan-branch",
        "zero by zero, compared, is exception 35: no branch is taken",
        "double 0.0; int 1; int 2
         entry:
         push 0; push 0; div; push 0; cmp; jb 0
         push 1; jmp 1
         @0; push 2
         @1; neg",
    ),
    text(
        "nan-cmp-top",
        "cmp with a signalling NaN on top is exception 35; the operands stay",
        "double 1.0; double #7FF0000000000001; entry: push 0; push 1; cmp",
    ),
    text(
        "nan-icmp-under",
        "icmp with a negative NaN under the top is exception 35",
        "double #FFF8000000000000; double #FFF0000000000000; entry: push 0; push 1; icmp",
    ),
    text(
        "nan-icmp-top",
        "icmp with a NaN on top, after a comparison without",
        "double 2.5; double #7FFFFFFFFFFFFFFF; entry: push 0; push 0; icmp; push 0; push 1; icmp",
    ),
    text(
        "nan-beside-int",
        "an int beside a NaN: cmp has no typing",
        "double #7FF8000000000000; int 1; entry: push 0; push 1; cmp",
    ),
    text(
        "toi-edges",
        "4294967295.9, -2147483648.9 and their last neighbours are in range once cut",
        "double 4294967295.9; double -2147483648.9
         double #41EFFFFFFFFFFFFF; double #C1E00000001FFFFF
         entry: push 0; toi; push 1; toi; push 2; toi; push 3; toi",
    ),
    text(
        "toi-too-large",
        "a highlight of 4294967295.5 + 0.5, converted, is exception 44; the sum stays",
        "double 4294967295.5; double 0.5; entry: push 0; push 1; add; toi",
    ),
    text(
        "toi-too-small",
        "toi of -2147483649.0 is exception 44",
        "double -2147483649.0; entry: push 0; toi",
    ),
    text(
        "toi-nan",
        "toi of zero by zero is exception 44",
        "double 0.0; entry: push 0; push 0; div; toi",
    ),
    text(
        "toi-infinity",
        "toi of one by zero is exception 44",
        "double 1.0; double 0.0; entry: push 0; push 1; div; toi",
    ),
    text(
        "toi-of-long",
        "toi of a long keeps the low 32 bits: no exception",
        "long 4294967296; long -1; entry: push 0; toi; push 1; toi",
    ),
    text(
        "tol-edges",
        "tol of 2^64 - 2048, of 2^63, of -2^63, and of an int, which fills with zeros",
        "double 18446744073709549568.0; double 9223372036854775808.0
         double -9223372036854775808.0; int 4294967295
         entry: push 0; tol; push 1; tol; push 2; tol; push 3; tol",
    ),
    text(
        "tol-too-large",
        "tol of 2^64 is exception 44, after a toi that is in range",
        "double 255.5; double 18446744073709551616.0; entry: push 0; toi; push 1; tol",
    ),
    text(
        "tol-too-small",
        "tol of the next double under -2^63 is exception 44",
        "double -9223372036854777856.0; entry: push 0; tol",
    ),
    text(
        "tol-nan",
        "tol of a signalling NaN is exception 44; it keeps its bits",
        "double #FFF00000DEADBEEF; entry: push 0; tol",
    ),
    text(
        "tol-infinity",
        "tol of -infinity is exception 44",
        "double #FFF0000000000000; entry: push 0; tol",
    ),
    text(
        "tod-once",
        "tod of 9223372036854776833 rounds once, up; two roundings would go down",
        "long 9223372036854776833; long 18446744073709551615; int 4294967295
         entry: push 0; tod; push 1; tod; push 2; tod",
    ),
    text(
        "shifts",
        "counts of the width or more, on int and long",
        "int 2147483649; int 31; int 32; long -2; long 63; long 64
         entry:
         push 0; push 1; shl; push 0; push 2; sal; push 0; push 1; shr; push 0; push 1; sar
         push 3; push 4; shl; push 3; push 5; shr; push 3; push 5; sar",
    ),
    text(
        "remainders",
        "signed remainders have the dividend's sign; lowest imod -1 is 0",
        "int -7; int 2; int -2147483648; int -1
         entry:
         push 0; push 1; imod; push 0; push 1; idiv; push 0; push 1; mod
         push 2; push 3; imod; push 2; push 3; idiv",
    ),
];

/// Limits, ends of runs, typings.
pub const LIMITS: [Sample; 27] = [
    text("empty", "48 bytes are a module: nothing in it, accepted, ends at once", "entry:"),
    text(
        "operands-32",
        "32 operands at the entry's end: accepted",
        "int 1; entry: push 0; copy; copy; copy; copy; copy; copy; copy; copy; copy; copy; copy
         copy; copy; copy; copy; copy; copy; copy; copy; copy; copy; copy; copy; copy; copy; copy
         copy; copy; copy; copy; copy",
    ),
    text(
        "operands-33",
        "33 operands at the entry's end: no typing, 11",
        "int 1; entry: push 0; copy; copy; copy; copy; copy; copy; copy; copy; copy; copy; copy
         copy; copy; copy; copy; copy; copy; copy; copy; copy; copy; copy; copy; copy; copy; copy
         copy; copy; copy; copy; copy; copy",
    ),
    text(
        "frames-64",
        "the 64th frame still lives: recursion 62 deep returns",
        "int 62; int 1; entry: push 0; call 0
         function int (int): load 0; je 0; load 0; push 1; sub; call 0; ret; @0; load 0; ret",
    ),
    text(
        "frames-65",
        "a 65th frame is exception 20",
        "int 63; int 1; entry: push 0; call 0
         function int (int): load 0; je 0; load 0; push 1; sub; call 0; ret; @0; load 0; ret",
    ),
    text(
        "stack-full",
        "an accepted module that fills 4,096 slots: exception 20",
        "int 1; entry: call 0
         function void ():
         push 0; copy; copy; copy; copy; copy; copy; copy; copy; copy; copy; copy; copy; store 0
         push 0; copy; copy; copy; copy; copy; copy; copy; copy; copy; copy; copy; copy; store 1
         push 0; copy; copy; copy; copy; copy; copy; copy; copy; copy; copy; copy; copy; store 2
         push 0; copy; copy; copy; copy; copy; copy; copy; copy; copy; copy; copy; copy; store 3
         push 0; copy; copy; copy; copy; copy; copy; copy; copy; copy; copy; copy; copy; store 4
         push 0; copy; copy; copy; copy; copy; copy; copy; copy; copy; copy; copy; copy; store 5
         call 0; ret",
    ),
    text(
        "burying",
        "a binding store buries what lies under it; ways that buried different things join",
        "int 0; long 5; double 2.5
         entry:
         push 0; je 0
         push 1; push 0; store 0; jmp 1
         @0
         push 2; push 2; push 0; store 0
         @1
         load 0",
    ),
    text(
        "join-differs",
        "an int on one way and a long on the other: no typing, 11",
        "int 0; long 5; entry: push 0; je 0; push 0; jmp 1; @0; push 1; @1; pop",
    ),
    text(
        "dead-code",
        "after jmp and ret anything may stand that is cut into instructions",
        "int 1
         entry: jmp 0; ret; pop; push 99; call 7; store 9; jmp 55; @0; call 0
         function int (): push 0; ret; add; tload",
    ),
    text(
        "function-end",
        "a function that runs into its end has no typing, 11",
        "int 1; entry: call 0; function void (): push 0; pop",
    ),
    text("ret-in-entry", "ret in the entry has no typing, 11", "entry: ret"),
    text(
        "pointer-to-pointer",
        "lea of a pointer local has no typing, 11",
        "int 1; entry: push 0; store 0; lea 0; store 1; lea 1",
    ),
    text(
        "pointer-kinds",
        "pointers to int and to long are different types in a typing: 11",
        "int 1; long 1; entry: push 0; store 0; push 1; store 1; lea 0; lea 1; cmp",
    ),
    text(
        "both-ways",
        "a branch on a constant still has both ways in a typing: 11",
        "int 0; entry: push 0; je 0; pop; @0; push 0",
    ),
    text(
        "foreign-label",
        "a label of another body has no typing, 11",
        "int 1; entry: jmp 0; function void (): @0; ret",
    ),
    text(
        "never-returns",
        "a call goes past itself in a typing, also where the callee never returns",
        "int 1; entry: push 0; call 0; add; function int (): @0; jmp 0",
    ),
    text(
        "callee-loops",
        "a callee that never returns uses up the allowance; the pointer argument shows its slot",
        "int 1; entry: push 0; store 0; lea 0; call 0; function void (*int): @0; load 0; inc; jmp 0",
    ),
    text(
        "shared-place",
        "two labels on one place, the second jumped to",
        "int 0; entry: push 0; je 1; push 0; pop; @0; @1; push 0",
    ),
    text(
        "unreached-label",
        "a label that nothing leads to, on an instruction that would have no typing",
        "int 1; entry: jmp 1; @0; add; @1; push 0",
    ),
    text(
        "label-at-start",
        "a function's start is jumped back to with the parameters and no operands",
        "int 3; int 1; entry: push 0; call 0
         function int (int): @0; load 0; push 1; sub; store 0; load 0; jne 0; load 0; ret",
    ),
    text(
        "start-with-operand",
        "a function's start is jumped back to with an operand: no typing, 11",
        "int 3; entry: push 0; call 0; function int (int): @0; load 0; jmp 0",
    ),
    text(
        "empty-entry",
        "an empty entry; a label of function 0 at place 0",
        "entry: function int (int): @0; load 0; ret",
    ),
    text(
        "entry-end",
        "the entry ends where function 0 starts with a label and other lists: accepted",
        "int 1; entry: push 0; function void (long): @0; ret",
    ),
    text(
        "join-agrees",
        "a label reached twice with equal lists",
        "int 0; long 5; entry: push 0; je 0; push 1; jmp 1; @0; push 1; @1; neg",
    ),
    text(
        "backward-chain",
        "jumps back from label to label",
        "int 1; entry: push 0; jmp 2; @0; pop; jmp 3; @1; neg; jmp 0; @2; copy; pop; jmp 1
         @3; push 0",
    ),
    text(
        "arguments-reversed",
        "arguments in the wrong order have no typing, 11",
        "int 1; long 2; entry: push 1; push 0; call 0; function void (int, long): ret",
    ),
    text(
        "bad-bodies",
        "two functions without typing, after an entry with one: 11",
        "entry: call 0; function void (): pop; ret; function void (): @0; pop; jmp 0",
    ),
];

/// Files that can't be read.
pub const REFUSED: [Sample; 12] = [
    Sample {
        name: "refused-1",
        shows: "under 48 bytes",
        source: Source::Cut(PLAIN, 47),
    },
    patched("refused-2", "edition 2", 0, &[2]),
    Sample {
        name: "refused-3",
        shows: "one byte is missing at the end",
        source: Source::Cut(PLAIN, 108),
    },
    patched("refused-4", "word 44 is not zero", 44, &[1]),
    patched(
        "refused-5",
        "the offset of the empty label section is not the packed one",
        28,
        &[0],
    ),
    patched(
        "refused-6",
        "an int constant with upper bytes set",
        56,
        &[1],
    ),
    patched(
        "refused-7",
        "an unused parameter type byte that is not 0",
        72 + 11,
        &[3],
    ),
    patched("refused-8", "opcode 2F (top) is left out", 92 + 10, &[0x2F]),
    Sample {
        name: "refused-9",
        shows: "a label on its body's end",
        source: Source::Text("int 1; entry: push 0; @0"),
    },
    Sample {
        name: "refused-9-empty-entry",
        shows: "a label of the empty entry at place 0, where function 0 starts",
        source: Source::Patched("entry: function void (): @0; ret", 68, &[0xFF; 4]),
    },
    Sample {
        name: "refused-7-first",
        shows: "an unknown opcode in the entry and a bad function record: 7, the smaller number",
        source: Source::Patched(
            "int 1; entry: push 0; function void (): ret",
            60 + 18,
            &[1, 0, 0xFF],
        ),
    },
    Sample {
        name: "refused-8-crossing",
        shows: "an instruction that crosses its body's end",
        source: Source::Patched(
            "int 1; entry: push 0; pop; function void (): ret",
            60 + 20 + 5,
            &[1],
        ),
    },
];

const fn again(name: &'static str, shows: &'static str, other: &'static str) -> Sample {
    let source = Source::Again(other);
    Sample {
        name,
        shows,
        source,
    }
}

/// Recipes of edition 1. Those made of another sample's text print what that sample prints.
pub const OLD: [Sample; 33] = [
    Sample {
        name: "old-w01",
        shows: "W1 in edition 1, the whole file: add is 05",
        source: Source::Hex(
            "01000000 53000000 02000000 30000000 00000000 48000000 00000000 48000000 \
             0B000000 48000000 0B000000 00000000 03000000 07000000 00000000 03000000 05000000 \
             00000000 0100000000 0101000000 05",
        ),
    },
    again("old-w02", "the recipe of w02: sums wrap", "w02"),
    again("old-w03", "the recipe of w03: long lowest idiv -1", "w03"),
    again("old-w04", "the recipe of w04: exception 24", "w04"),
    again("old-w05-cmp", "the recipe of w05-cmp", "w05-cmp"),
    again("old-w06-sar", "the recipe of w06-sar", "w06-sar"),
    text(
        "old-w07-too-large",
        "toi of 4294967296.0 is 80000000 hex: edition 1 keeps the pattern",
        "edition 1; double 4294967296.0; entry: push 0; toi",
    ),
    again("old-w08", "the recipe of w08: tod", "w08"),
    again("old-w11-jae", "the recipe of w11-jae", "w11-jae"),
    again(
        "old-w12-growing",
        "the recipe of w12-growing: 11",
        "w12-growing",
    ),
    again(
        "old-fibonacci",
        "the recipe of fibonacci: call and ret",
        "fibonacci",
    ),
    again("old-gcd", "the recipe of gcd: a loop, remainders", "gcd"),
    again("old-shifts", "the recipe of shifts", "shifts"),
    again("old-remainders", "the recipe of remainders", "remainders"),
    text(
        "old-toi-edges",
        "4294967295.9 and -2147483648.9 are in range once cut; 1e300 and NaN give 80000000 hex",
        "edition 1; double 4294967295.9; double -2147483648.9; double 1e300
         double #7FF8000000000000
         entry: push 0; toi; push 1; toi; push 2; toi; push 3; toi",
    ),
    text(
        "old-tol-edges",
        "tol of 2^64 - 2048, of 2^64, which gives only the top bit, of -2^63, and of an int",
        "edition 1; double 18446744073709549568.0; double 18446744073709551616.0
         double -9223372036854775808.0; int 4294967295
         entry: push 0; tol; push 1; tol; push 2; tol; push 3; tol",
    ),
    text(
        "old-toi-too-small",
        "toi of -2147483649.0 and of -infinity: only the top bit",
        "edition 1; double -2147483649.0; double #FFF0000000000000
         entry: push 0; toi; push 1; toi",
    ),
    text(
        "old-tol-too-small",
        "tol of the next double under -2^63, of infinity and of a NaN: only the top bit",
        "edition 1; double -9223372036854777856.0; double #7FF0000000000000
         double #FFF00000DEADBEEF
         entry: push 0; tol; push 1; tol; push 2; tol",
    ),
    again(
        "old-double-compare",
        "the recipe of double-compare",
        "double-compare",
    ),
    again(
        "old-nan-branch",
        "the recipe of nan-branch: exception 35 in edition 1 too",
        "nan-branch",
    ),
    again(
        "old-frames-65",
        "the recipe of frames-65: exception 20",
        "frames-65",
    ),
    again(
        "old-join-differs",
        "the recipe of join-differs: 11",
        "join-differs",
    ),
    text(
        "old-inc",
        "inc and dec change the top value itself, which stays",
        "edition 1; int 4294967295; long 0; double 0.5
         entry: push 0; inc; push 1; dec; push 2; inc; push 2; dec",
    ),
    text(
        "old-inc-double",
        "inc of 2^53 rounds once; of a NaN it gives 7FF8000000000000; of -1.0 it gives 0.0",
        "edition 1; double 9007199254740992.0; double #FFF00000DEADBEEF; double -1.0
         entry: push 0; inc; push 1; dec; push 2; inc",
    ),
    text(
        "old-inc-local",
        "a bound local on top is no operand: inc after store 0 has no typing (a run raises 21)",
        "edition 1; int 1; entry: push 0; store 0; inc",
    ),
    text(
        "old-factorial",
        "a loop counted down by load, dec, store: 20!",
        "edition 1; long 1; long 20; long 0
         entry:
         push 0; store 0
         push 1; store 1
         @0
         load 0; load 1; mul; store 0
         load 1; dec; store 1
         load 1; push 2; cmp; ja 0
         load 0",
    ),
    text(
        "old-bits",
        "and, or, xor, not",
        "edition 1; int 12; int 10; long 255
         entry: push 0; push 1; and; push 0; push 1; or; push 0; push 1; xor; push 2; not",
    ),
    text(
        "old-branches",
        "all seven branches: six don't jump, and what follows them adds up to 10",
        "edition 1; int 0; int 1; int 4294967295
         entry:
         push 0; store 0
         push 1; je 0; load 0; push 1; add; store 0
         @0; push 0; jne 1; load 0; inc; inc; store 0
         @1; push 0; ja 2; load 0; inc; inc; inc; inc; store 0
         @2; push 2; jae 3; load 0; inc; store 0
         @3; push 1; jb 4; load 0; inc; store 0
         @4; push 1; jbe 5; load 0; inc; store 0
         @5; jmp 6; load 0; inc; store 0
         @6; load 0; pop",
    ),
    text(
        "old-conversions",
        "toi, tol, tod of each other",
        "edition 1; int 4294967295; long 4294967296; double -1.5
         entry: push 0; tol; push 0; tod; push 1; toi; push 1; tod; push 2; toi; push 2; tol",
    ),
    text(
        "old-refused-7",
        "a pointer parameter is no type of edition 1",
        "edition 1; entry: function void (*int): ret",
    ),
    Sample {
        name: "old-refused-8",
        shows: "opcode 26: 01 to 25 are those of edition 1",
        source: Source::Patched(
            "edition 1; double 1.5; entry: push 0; tod",
            48 + 12 + 5,
            &[0x26],
        ),
    },
    Sample {
        name: "old-refused-8-new",
        shows: "the file of old-w01 under edition 3: 05 is lea there, and crosses the entry's end",
        source: Source::Patched(
            "edition 1; int 7; int 5; entry: push 0; push 1; add",
            0,
            &[3],
        ),
    },
    Sample {
        name: "old-refused-2",
        shows: "edition 2",
        source: Source::Patched(
            "edition 1; int 7; int 5; entry: push 0; push 1; add",
            0,
            &[2],
        ),
    },
];

/// All samples.
pub fn all() -> impl Iterator<Item = &'static Sample> {
    W_SAMPLES
        .iter()
        .chain(&PROGRAMS)
        .chain(&NUMBERS)
        .chain(&LIMITS)
        .chain(&REFUSED)
        .chain(&OLD)
        .chain(&HEAP)
        .chain(&MANAGED)
        .chain(&NEEDS)
        .chain(&PROFILES)
        .chain(&CONVERSIONS)
}

/// A formula line, and the parameters of runs of its module.
pub struct LineSample {
    pub name: &'static str,
    /// What it shows, one line.
    pub shows: &'static str,
    pub line: &'static str,
    pub runs: &'static [[u32; 3]],
}

const fn line(
    name: &'static str,
    shows: &'static str,
    line: &'static str,
    runs: &'static [[u32; 3]],
) -> LineSample {
    LineSample {
        name,
        shows,
        line,
        runs,
    }
}

/// Formula lines that are written as a module.
pub const LINES: [LineSample; 15] = [
    line(
        "formula-paper",
        "the paper's line; sums wrap before the quotient is taken",
        "(r*3+g)/4",
        &[[10, 20, 30], [255, 255, 255], [4294967295, 4, 0]],
    ),
    line(
        "formula-left",
        "equal ranks group from the left",
        "r-g-b",
        &[[100, 20, 5], [5, 5, 1]],
    ),
    line(
        "formula-quotients",
        "quotients group from the left, and are unsigned",
        "r/g/b",
        &[[100, 5, 2], [4294967295, 2, 1], [1, 0, 1]],
    ),
    line(
        "formula-products",
        "products bind tighter than sums",
        "r+g*b-1",
        &[[1, 2, 3], [0, 0, 0]],
    ),
    line(
        "formula-minus",
        "unary minus binds tightest: (-r)*3",
        "-r*3",
        &[[1, 0, 0], [4294967295, 0, 0]],
    ),
    line(
        "formula-minus-quotient",
        "(-6)/2 in unsigned ints",
        "-6/2",
        &[[0, 0, 0]],
    ),
    line(
        "formula-minus-twice",
        "a difference, then a unary minus that repeats",
        "r- --g",
        &[[3, 4, 0], [0, 1, 0]],
    ),
    line(
        "formula-spaces",
        "spaces, and leading zeros",
        " ( r + 007 ) * 2 ",
        &[[1, 0, 0]],
    ),
    line(
        "formula-largest",
        "the largest number, one more wraps to 0",
        "r+4294967295",
        &[[0, 0, 0], [1, 0, 0]],
    ),
    line(
        "formula-constants",
        "a constant for each number, equal ones too",
        "1+1*1",
        &[[0, 0, 0]],
    ),
    line(
        "formula-names",
        "names are parameters 0 to 2: no constant",
        "r*g-b",
        &[[7, 6, 2]],
    ),
    line(
        "formula-by-zero",
        "a quotient by zero is exception 24, when run",
        "r/(g-b)",
        &[[9, 5, 2], [9, 5, 5]],
    ),
    line(
        "formula-16-deep",
        "brackets 16 deep",
        "((((((((((((((((r))))))))))))))))",
        &[[8, 0, 0]],
    ),
    line(
        "formula-32-operands",
        "32 operands at once: 35 slots with the parameters",
        "r+r*(r+r*(r+r*(r+r*(r+r*(r+r*(r+r*(r+r*(r+r*(r+r*(r+r*(r+r*(r+r*(r+r*(r+r*(r+g)))))))))))))))",
        &[[1, 1, 0], [2, 3, 0]],
    ),
    line(
        "formula-256-bytes",
        "256 bytes, 257 steps",
        "---------------------------------------------------------------------------------------------------------------------------------------------------------------------------------------------------------------------------------------------------------------r",
        &[[5, 0, 0]],
    ),
];

/// Formula lines that are refused.
pub const REFUSED_LINES: [LineSample; 11] = [
    line("formula-refused-40", "257 bytes", "r+r+r+r+r+r+r+r+r+r+r+r+r+r+r+r+r+r+r+r+r+r+r+r+r+r+r+r+r+r+r+r+r+r+r+r+r+r+r+r+r+r+r+r+r+r+r+r+r+r+r+r+r+r+r+r+r+r+r+r+r+r+r+r+r+r+r+r+r+r+r+r+r+r+r+r+r+r+r+r+r+r+r+r+r+r+r+r+r+r+r+r+r+r+r+r+r+r+r+r+r+r+r+r+r+r+r+r+r+r+r+r+r+r+r+r+r+r+r+r+r+r+r+r+r+r+r+r+r", &[]),
    line(
        "formula-refused-41",
        "x is no name: the first five bytes begin some line",
        "(r*3+x)/4",
        &[],
    ),
    line("formula-refused-41-early", "it ends too early", "(r+g", &[]),
    line("formula-refused-41-empty", "there is no empty line", "", &[]),
    line("formula-refused-41-large", "a number too large", "r+4294967296", &[]),
    line("formula-refused-41-space", "a space inside a number", "1 2", &[]),
    line("formula-refused-41-plus", "there is no unary plus", "r*+g", &[]),
    line("formula-refused-41-product", "a product has a sign", "2r", &[]),
    line(
        "formula-refused-41-first",
        "17 deep, and a bracket too many: 41 before 42",
        "(((((((((((((((((r))))))))))))))))))",
        &[],
    ),
    line("formula-refused-42", "brackets 17 deep", "(((((((((((((((((r)))))))))))))))))", &[]),
    line(
        "formula-refused-43",
        "33 operands at once, 15 deep",
        "r+r*(r+r*(r+r*(r+r*(r+r*(r+r*(r+r*(r+r*(r+r*(r+r*(r+r*(r+r*(r+r*(r+r*(r+r*(r+g*b)))))))))))))))",
        &[],
    ),
];

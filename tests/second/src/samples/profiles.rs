//! Samples of profiles and of conversions between editions 3 and 4.

use super::{text, Sample, Source};

/// Functions made for a profile.
pub const PROFILES: [Sample; 5] = [
    text(
        "profile-entry",
        "the entry has no profile, and calls a function made for profile 5: it finishes",
        "edition 4; int 7
         entry: push 0; call 0
         function int (int) profile 5: load 0; load 0; add; ret",
    ),
    text(
        "profile-calls",
        "a function made for profile 5 calls one made for profile 6, which is not looked at",
        "edition 4; int 3; int 4
         entry: push 1; call 1
         function int (int) profile 6: push 0; load 0; mul; ret
         function int (int) profile 5: load 0; call 0; ret
         function int (int): load 0; call 1; ret",
    ),
    text(
        "profile-numbers",
        "any number is good: 1, 256, 2147483648, 4294967295, and 0 for any",
        "edition 4
         entry:
         function int (int) profile 1: load 0; ret
         function int (int) profile 256: load 0; ret
         function int (int) profile 2147483648: load 0; ret
         function int (int) profile 4294967295: load 0; ret
         function int (int) profile 0: load 0; ret",
    ),
    Sample {
        name: "profile-refused-7",
        shows: "a bad byte before the profile, which is 5",
        source: Source::Patched(
            "edition 4; entry: function void () profile 5: ret",
            75,
            &[1],
        ),
    },
    Sample {
        name: "profile-refused-5",
        shows: "the labels' offset where records had 20 bytes",
        source: Source::Patched(
            "edition 4; entry: function void () profile 5: ret",
            28,
            &[76],
        ),
    },
];

/// The edition 4 twin of a sample.
const fn above(name: &'static str, shows: &'static str, other: &'static str) -> Sample {
    let source = Source::Above(other);
    Sample {
        name,
        shows,
        source,
    }
}

/// Modules of edition 3 before their twins of edition 4, and modules of edition 4 without one.
pub const CONVERSIONS: [Sample; 21] = [
    text(
        "convert-sum-3",
        "a loop through two functions and three labels, edition 3",
        "int 100; int 0; int 1; entry: push 0; call 0
         function int (int):
         push 1; store 1
         @0
         load 0; je 1
         load 1; load 0; add; store 1
         load 0; call 1; store 0
         jmp 0
         @1; load 1; ret
         function int (int): @2; load 0; push 2; sub; ret",
    ),
    above(
        "convert-sum-4",
        "the same in edition 4: profile 0, eight bytes more of header and four for each function",
        "convert-sum-3",
    ),
    text("convert-empty-3", "a header of 48 bytes", "entry:"),
    above("convert-empty-4", "a header of 56 bytes", "convert-empty-3"),
    text(
        "convert-pointers-3",
        "pointers in signatures, and doubles, edition 3",
        "double 1.5; double 2.0
         entry: push 0; store 0; lea 0; push 1; call 0; load 0
         function void (*double, double): load 0; load 0; tload; load 1; mul; tstore; ret",
    ),
    above(
        "convert-pointers-4",
        "the same in edition 4",
        "convert-pointers-3",
    ),
    text(
        "convert-operands-3",
        "operands that look like opcodes 06 and 30 to 34",
        "int 825241606
         entry: push 0; jmp 0; call 6; call 48; push 49; push 842019888; push 51; call 52; @0; pop",
    ),
    above(
        "convert-operands-4",
        "the same in edition 4, which goes down: bytes of operands are no opcodes",
        "convert-operands-3",
    ),
    text(
        "convert-compared-3",
        "cmp of pointers to int and to long has no typing in edition 3: 11, and is converted",
        "int 1; long 1; entry: push 0; store 0; push 1; store 1; lea 0; lea 1; cmp",
    ),
    above(
        "convert-compared-4",
        "the same in edition 4, where it is accepted",
        "convert-compared-3",
    ),
    text(
        "convert-too-large-3",
        "toi of 4294967296.0, edition 3: exception 44",
        "double 4294967296.0; entry: push 0; toi",
    ),
    above(
        "convert-too-large-4",
        "the same in edition 4",
        "convert-too-large-3",
    ),
    text(
        "convert-18-profile",
        "a function made for profile 5",
        "edition 4; int 7; entry: push 0; call 0; function int (int) profile 5: load 0; ret",
    ),
    text(
        "convert-18-structure",
        "a structure that nothing uses",
        "edition 4; int 7; structure int, double; entry: push 0",
    ),
    text(
        "convert-18-type",
        "a pointer to a structure in a signature",
        "edition 4; int 7; structure int; entry: push 0; function void (*10): ret",
    ),
    text(
        "convert-18-opcode",
        "new and delete of a number",
        "edition 4; int 7; entry: new 3; delete; push 0",
    ),
    text(
        "convert-18-managed",
        "a managed pointer to an int in a signature, with no structure at all",
        "edition 4; int 7; entry: push 0; function void (gc*int): ret",
    ),
    text(
        "convert-18-gcnew",
        "gcnew of a number",
        "edition 4; int 7; entry: gcnew 3; pop; push 0",
    ),
    text(
        "convert-18-gcnull",
        "gcnull after a ret, which nothing reaches",
        "edition 4; int 7; entry: push 0; function void (): ret; gcnull",
    ),
    text(
        "convert-18-dead",
        "null after a ret, which nothing reaches",
        "edition 4; int 7; entry: push 0; function void (): ret; null",
    ),
    text(
        "convert-2-old",
        "edition 1 is converted neither way",
        "edition 1; int 7; entry: push 0",
    ),
];

//! Refusals 1 to 13, each exactly when the table says.

mod common;
use common::*;
use second::asm;
use second::check::{check, Checked};
use second::heap::LentHeap;
use second::reader::{read, ENTRY, LONGEST};
use second::rules::Rules;
use second::run::{run, Call, LentStack, Ran};

/// Two constants, two functions, two labels: sections at 48, 72, 112, 128; 18 bytes of code.
const TEXT: &str =
    "int 7; long 5; entry: @0; push 0; push 1; function int (int, *long): @1; load 0; ret
     function void (): ret";

fn good() -> Vec<u8> {
    asm::file(TEXT)
}

/// The answer after bytes are replaced.
fn with(at: usize, bytes: &[u8]) -> u32 {
    let mut file = good();
    file[at..at + bytes.len()].copy_from_slice(bytes);
    let number = answer(&file);
    // a run answers the same for 1 to 9
    if (1..=9).contains(&number) {
        assert_eq!(run_file(&file, ENTRY, &[], 9, 9), Err(number));
    }
    number
}

#[test]
fn good_file() {
    assert_eq!(good().len(), 128 + 17);
    assert_eq!(answer(&good()), 0);
}

#[test]
fn one_to_three() {
    assert_eq!(answer(&[]), 1);
    assert_eq!(answer(&good()[..47]), 1);
    assert_eq!(answer(&[0xFF; 48]), 2);
    assert_eq!(with(0, &[2]), 2);
    assert_eq!(with(3, &[1]), 2);
    assert_eq!(answer(&good()[..144]), 3);
    assert_eq!(with(4, &[146]), 3);
    assert_eq!(with(7, &[1]), 3);
}

#[test]
fn four() {
    assert_eq!(with(8, &1025u32.to_le_bytes()), 4);
    assert_eq!(with(8, &1024u32.to_le_bytes()), 5);
    assert_eq!(with(16, &129u32.to_le_bytes()), 4);
    assert_eq!(with(16, &128u32.to_le_bytes()), 5);
    assert_eq!(with(24, &257u32.to_le_bytes()), 4);
    assert_eq!(with(24, &256u32.to_le_bytes()), 5);
    assert_eq!(with(32, &16_385u32.to_le_bytes()), 4);
    assert_eq!(with(32, &16_384u32.to_le_bytes()), 5);
    assert_eq!(with(44, &[1]), 4);
    assert_eq!(with(47, &[0x80]), 4);
    // before every offset
    assert_eq!(with(36, &[0, 0, 0, 0, 0, 0, 0, 0, 1]), 4);
}

#[test]
fn five() {
    for at in [12, 20, 28, 36] {
        assert_eq!(with(at, &[1, 1]), 5, "{at}");
    }
    assert_eq!(with(32, &[16]), 5);
    assert_eq!(with(40, &[18]), 5);
    assert_eq!(with(40, &0xFFFF_FFFFu32.to_le_bytes()), 5);
    // the offset of an empty section counts too
    let mut file = asm::file("entry:");
    file[20] = 0;
    assert_eq!(answer(&file), 5);
}

#[test]
fn six() {
    for ty in [0, 1, 2, 5, 7, 8, 0x83] {
        assert_eq!(with(48, &[ty]), 6, "{ty}");
    }
    // the type is a word
    assert_eq!(with(49, &[1]), 6);
    for at in 56..60 {
        assert_eq!(with(at, &[1]), 6);
    }
    // a long may have them
    assert_eq!(with(68, &[1]), 0);
}

#[test]
fn seven_records() {
    // start, length
    assert_eq!(with(72, &[9]), 7);
    assert_eq!(with(72, &[11]), 7);
    assert_eq!(with(76, &[0]), 7);
    assert_eq!(with(76, &[5]), 7);
    assert_eq!(with(76, &0xFFFF_FFFFu32.to_le_bytes()), 7);
    // count, return type
    assert_eq!(with(80, &[1]), 7);
    assert_eq!(with(80, &[3]), 7);
    assert_eq!(with(80, &[9, 3, 3, 3, 3, 3, 3, 3, 3, 3]), 7);
    for ty in [1, 2, 5, 7, 0x83, 0xFF] {
        assert_eq!(with(81, &[ty]), 7, "{ty}");
    }
    // parameter types, unused ones, zero bytes
    for ty in [0, 1, 5, 7, 0x80, 0x85, 0x87, 0x43] {
        assert_eq!(with(82, &[ty]), 7, "{ty}");
    }
    for at in 84..92 {
        assert_eq!(with(at, &[3]), 7, "{at}");
    }
    // eight parameters are fine
    assert_eq!(with(80, &[8, 3, 3, 4, 6, 0x83, 0x84, 0x86, 3, 3]), 0);
}

#[test]
fn seven_bodies() {
    // the last body ends before the code does, or the entry does where there are no functions
    assert_eq!(with(40, &[5]), 7);
    let mut file = asm::file("int 1; entry: push 0; push 0");
    file[40] = 5;
    assert_eq!(answer(&file), 7);
    // an entry of 0 bytes in front of function 0 that starts later
    assert_eq!(with(40, &[0]), 7);
}

#[test]
fn eight() {
    let code = 128;
    for op in [
        0, 6, 0x29, 0x2A, 0x2D, 0x2F, 0x30, 0x31, 0x32, 0x33, 0x34, 0x35, 0xFF,
    ] {
        assert_eq!(with(code, &[op]), 8, "{op}");
        // never called code counts
        assert_eq!(with(code + 16, &[op]), 8, "{op}");
    }
    // an instruction that crosses its body's end, also where the code goes on
    assert_eq!(with(code + 15, &[1]), 8);
    assert_eq!(with(code + 16, &[1]), 8);
    // operand bytes are not looked at
    assert_ne!(with(code + 1, &[0xFF]), 8);
}

#[test]
fn nine() {
    let label = 112;
    // owner
    assert_eq!(with(label, &[2, 0, 0, 0]), 9);
    assert_eq!(with(label, &[0xFE]), 9);
    // the middle of an instruction, another body's start, the body's end
    for place in [1, 4, 6, 10, 15, 16, 17, 18, 255] {
        assert_eq!(with(label + 4, &[place]), 9, "{place}");
    }
    assert_eq!(with(label + 4, &[5]), 0);
    assert_eq!(with(label + 7, &[1]), 9);
    // an empty entry has no instruction start, not even where function 0 starts
    let mut file = asm::file("entry: function void (): @0; ret");
    file[68..72].copy_from_slice(&ENTRY.to_le_bytes());
    assert_eq!(answer(&file), 9);
}

#[test]
fn number_order() {
    // 7 in the last record, 8 in the entry
    let mut file = good();
    file[92 + 19] = 1;
    file[128] = 0xFF;
    assert_eq!(answer(&file), 7);
    // 8 in the last body, 9 in the first label
    let mut file = good();
    file[112 + 4] = 1;
    file[144] = 0;
    assert_eq!(answer(&file), 8);
    // 6 and 7
    let mut file = good();
    file[110] = 1;
    file[48] = 0;
    assert_eq!(answer(&file), 6);
}

#[test]
fn ten() {
    let check_with = |room: &mut Vec<u8>| check(Rules::PLAIN, &good(), room);
    let mut room = vec![0xEE; 127];
    assert_eq!(check_with(&mut room), Checked::Refused(10));
    assert_eq!(room, [0xEE; 127]);
    assert_eq!(check_with(&mut vec![0; 128]), Checked::Accepted);
    // before 11
    let bad = asm::file("entry: @0; pop");
    assert_eq!(
        check(Rules::PLAIN, &bad, &mut [0; 63]),
        Checked::Refused(10)
    );
    // no labels, no room needed
    let none = asm::file("entry:");
    assert_eq!(check(Rules::PLAIN, &none, &mut []), Checked::Accepted);
}

#[test]
fn eleven() {
    let text = "int 1; entry: @0; push 0; function void (): @1; pop; ret; function void (): pop";
    assert_eq!(bad_body(text), 0);
    let mut room = vec![0xEE; 128 + 3];
    check(Rules::PLAIN, &asm::file(text), &mut room);
    assert!(room[..128].iter().all(|&byte| byte == 0));
    assert_eq!(room[128..], [0xEE; 3]);
    assert_eq!(bad_body("entry: pop; function void (): pop"), ENTRY);
    assert_eq!(
        bad_body("entry: function void (): ret; function void (): pop"),
        1
    );
}

#[test]
fn twelve() {
    for function in [2, 3, 128, 0xFFFF_FFFE] {
        assert_eq!(run_file(&good(), function, &[], 9, 9), Err(12));
        // before 13
        assert_eq!(
            run_file(&good(), function, &[(INT, u64::MAX)], 9, 9),
            Err(12)
        );
    }
    assert_eq!(run_file(&good(), 1, &[], 9, 9), Ok((0, 1, vec![])));
}

#[test]
fn thirteen() {
    let file =
        asm::file("entry: function int (int, double): load 0; ret; function void (*int): ret");
    let run = |args: &[(u8, u64)]| run_file(&file, 0, args, 9, 9);
    assert_eq!(
        run(&[(INT, 5), (DOUBLE, NAN + 1)]),
        Ok((0, 2, vec![(INT, 5)]))
    );
    assert_eq!(run(&[(DOUBLE, 5), (INT, 5)]), Err(13));
    assert_eq!(run(&[(INT, 5)]), Err(13));
    assert_eq!(run(&[(INT, 5), (DOUBLE, 0), (INT, 0)]), Err(13));
    assert_eq!(run(&[(INT, 1 << 32), (DOUBLE, 0)]), Err(13));
    // a pointer parameter, whatever is given
    for args in [&[(0x83, 0)][..], &[(POINTER, 0)], &[(INT, 0)], &[]] {
        assert_eq!(run_file(&file, 1, args, 9, 9), Err(13));
    }
}

#[test]
fn thirteen_lengths() {
    let file = asm::file("entry: function int (int): load 0; ret");
    let run = |function, types: &[u8], payloads: &[u8]| {
        let call = Call {
            function,
            arg_types: types,
            arg_payloads: payloads,
            profile: 0,
            allowance: 9,
        };
        let (mut lent, mut lent_types) = ([0xEE; 80], [0xEE; 10]);
        let stack = LentStack {
            payloads: &mut lent,
            types: &mut lent_types,
        };
        let (mut cells, mut blocks) = ([0xEE; 16], [0xEE; 48]);
        let heap = LentHeap {
            cells: &mut cells,
            blocks: &mut blocks,
        };
        let ran = run(Rules::PLAIN, &file, call, stack, heap);
        if matches!(ran, Ran::Refused(_)) {
            let stack = (lent, lent_types);
            assert_eq!(stack, ([0xEE; 80], [0xEE; 10]), "memory unchanged");
            assert_eq!((cells, blocks), ([0xEE; 16], [0xEE; 48]));
        }
        ran
    };
    for len in [0, 7, 9, 16] {
        assert_eq!(run(0, &[INT], &vec![0; len]), Ran::Refused(13), "{len}");
    }
    assert!(matches!(
        run(0, &[INT], &[0; 8]),
        Ran::Ended { outcome: 0, .. }
    ));
    assert_eq!(run(ENTRY, &[], &[0]), Ran::Refused(13));
    assert_eq!(run(ENTRY, &[INT], &[0; 8]), Ran::Refused(13));
    assert_eq!(run(1, &[], &[]), Ran::Refused(12));
}

#[test]
fn longest() {
    // 56 + 12 · 1,024 + 24 · 128 + 8 · 256 + 16,384 + 12 · 16, of edition 4
    assert_eq!(LONGEST, 34_040);
    let mut file = asm::file("entry:");
    file.resize(LONGEST + 1, 0);
    assert_eq!(read(Rules::PLAIN, &file).err(), Some(3));
}

//! Edition 1: each of its 37 opcode numbers on the machine, in bytes; what `inc` and `dec` do;
//! refusals at their edges; and that a recipe that all editions have does the same in all.

mod common;

use common::{answer, checked, entry, outcome, run_file, DOUBLE, INT, LONG, NAN};
use second::asm;
use second::check::check;
use second::claims::is_an_end_of_demand_3;
use second::gen::case::{edition, well_typed, Case, RunCall};
use second::gen::rng::Rng;
use second::gen::{calls, expression, flow, limits, loose, mixed, near};
use second::hex;
use second::memory::Lent;
use second::opcode::{Edition, Op, ALL, EDITIONS, OLD};
use second::program::Program;
use second::reader::{read, ENTRY};
use second::rules::Rules;
use second::samples;
use second::show::small;
use second::stated::editions::{file, LEAVES};
use second::subject::{Second, Subject};

/// 003's table of 0.1.0 numbers, by name, from 01 on.
const NAMES: [&str; 37] = [
    "push", "pop", "load", "store", "add", "sub", "mul", "imul", "div", "idiv", "mod", "imod",
    "neg", "inc", "dec", "and", "or", "xor", "not", "shl", "sal", "shr", "sar", "cmp", "icmp",
    "jmp", "je", "jne", "ja", "jae", "jb", "jbe", "call", "ret", "toi", "tol", "tod",
];

#[test]
fn thirty_seven_numbers() {
    assert_eq!(OLD.len(), 0x25);
    for (n, name) in NAMES.iter().enumerate() {
        let op = Op::from_byte(Rules::PLAIN, Edition::One, n as u8 + 1);
        assert_eq!(op.map(Op::name), Some(*name), "{:02X}", n + 1);
        let byte = op.and_then(|op| op.byte(Edition::One));
        assert_eq!(byte, Some(n as u8 + 1));
    }
    for byte in (0x26..=0xFF).chain([0]) {
        assert_eq!(
            Op::from_byte(Rules::PLAIN, Edition::One, byte),
            None,
            "{byte:02X}"
        );
    }
    let lacking = ALL.iter().filter(|(op, _)| op.byte(Edition::One).is_none());
    let lacking: Vec<&str> = lacking.map(|&(_, name)| name).collect();
    let heap = ["null", "new", "delete", "gcnull", "gcnew"];
    let pointers = ["lea", "flea", "tload", "tstore", "copy", "swap"];
    assert_eq!(lacking, [&pointers[..], &heap].concat());
    for edition in [Edition::Three, Edition::Four] {
        for op in edition.ops() {
            let byte = op.byte(edition).expect("an opcode of the edition");
            assert_eq!(Op::from_byte(Rules::PLAIN, edition, byte), Some(op));
        }
    }
    // the stated checks have every number but `ret`, which stands in their function
    for byte in (0x01..=0x25).filter(|&byte| byte != 0x22) {
        assert!(LEAVES.iter().any(|leaves| leaves.0 == byte), "{byte:02X}");
    }
}

/// Code of the entry in bytes, and what its last slot holds. Constants: int 7, long 5, double
/// 1.5.
const VALUES: [(&str, u8, u64); 43] = [
    ("0100000000", INT, 7),
    ("0101000000", LONG, 5),
    ("0100000000 0101000000 02", INT, 7),
    ("0100000000 0400000000 0300000000", INT, 7),
    (
        "0100000000 0400000000 0100000000 0D 0400000000 0300000000",
        INT,
        0xFFFF_FFF9,
    ),
    ("0100000000 0100000000 05", INT, 14),
    ("0102000000 0102000000 05", DOUBLE, 0x4008_0000_0000_0000),
    ("0100000000 0100000000 0D 06", INT, 14),
    ("0101000000 0101000000 07", LONG, 25),
    ("0101000000 0D 0101000000 08", LONG, 0xFFFF_FFFF_FFFF_FFE7),
    ("0100000000 0D 0100000000 09", INT, 0x2492_4923),
    ("0100000000 0D 0100000000 0A", INT, 0xFFFF_FFFF),
    ("0100000000 0D 0100000000 0B", INT, 4),
    ("0100000000 0D 0100000000 0E 0C", INT, 0xFFFF_FFF9),
    ("0102000000 0D", DOUBLE, 0xBFF8_0000_0000_0000),
    ("0100000000 0E", INT, 8),
    ("0101000000 0E", LONG, 6),
    ("0102000000 0E", DOUBLE, 0x4004_0000_0000_0000),
    ("0100000000 0F", INT, 6),
    ("0101000000 0F", LONG, 4),
    ("0102000000 0F", DOUBLE, 0x3FE0_0000_0000_0000),
    ("0101000000 0101000000 0E 10", LONG, 4),
    ("0101000000 0101000000 0E 11", LONG, 7),
    ("0101000000 0101000000 0E 12", LONG, 3),
    ("0100000000 13", INT, 0xFFFF_FFF8),
    ("0100000000 0100000000 14", INT, 896),
    ("0101000000 0101000000 15", LONG, 160),
    ("0100000000 0D 0100000000 16", INT, 0x01FF_FFFF),
    ("0100000000 0D 0100000000 17", INT, 0xFFFF_FFFF),
    ("0100000000 0100000000 0D 18", INT, 0xFFFF_FFFF),
    ("0100000000 0100000000 0D 19", INT, 1),
    // 1A to 20 jump to label 0, over a `neg`
    ("0101000000 1A00000000", LONG, 5),
    (
        "0101000000 0100000000 1B00000000",
        LONG,
        0xFFFF_FFFF_FFFF_FFFB,
    ),
    ("0101000000 0100000000 1C00000000", LONG, 5),
    (
        "0101000000 0100000000 1D00000000",
        LONG,
        0xFFFF_FFFF_FFFF_FFFB,
    ),
    ("0101000000 0100000000 1E00000000", LONG, 5),
    (
        "0101000000 0100000000 1F00000000",
        LONG,
        0xFFFF_FFFF_FFFF_FFFB,
    ),
    ("0101000000 0100000000 2000000000", LONG, 5),
    // 21 calls the function, which is `load 0`, `inc`, `ret` (22)
    ("0100000000 2100000000", INT, 8),
    ("0102000000 0D 23", INT, 0xFFFF_FFFF),
    ("0100000000 24", LONG, 7),
    ("0102000000 24", LONG, 1),
    ("0100000000 25", DOUBLE, 0x401C_0000_0000_0000),
];

#[test]
fn each_number_on_the_machine() {
    for (code, ty, payload) in VALUES {
        let jumps = ["1A0", "1B0", "1C0", "1D0", "1E0", "1F0", "200"];
        let branch = jumps
            .iter()
            .any(|start| code.split(' ').any(|word| word.starts_with(start)));
        // `neg` is jumped over; twice `neg` does nothing
        let entry = format!("{code} {} 0100000000 02", if branch { "0D" } else { "" });
        let label = hex::decode(&entry).expect("hex digits").len() - 6;
        let file = file(&entry, label, INT, "0300000000 0E 22");
        assert_eq!(answer(&file), 0, "{code}");
        let (outcome, _, stack) = run_file(&file, ENTRY, &[], 1000, 50).expect("a run");
        assert_eq!(outcome, 0, "{code}");
        assert_eq!(stack.last(), Some(&(ty, payload)), "{code}");
    }
    // the function by itself
    let file = file("", 0, INT, "0300000000 0E 22");
    assert_eq!(answer(&file), 9, "a label of the empty entry");
}

#[test]
fn function_of_edition_1() {
    let file = asm::file("edition 1; entry: function int (int): load 0; inc; ret");
    assert_eq!(answer(&file), 0);
    let ran = run_file(&file, 0, &[(INT, 0xFFFF_FFFF)], 3, 2).expect("a run");
    assert_eq!(ran, (0, 3, vec![(INT, 0)]));
    let ran = run_file(&file, 0, &[(INT, 1)], 2, 2).expect("a run");
    assert_eq!(ran, (15, 2, vec![(INT, 1), (INT, 2)]));
    assert_eq!(run_file(&file, 0, &[(LONG, 1)], 2, 2), Err(13));
    assert_eq!(run_file(&file, 1, &[], 2, 2), Err(12));
}

/// "There `inc` and `dec` change the top value itself": 21 only.
#[test]
fn inc_and_dec() {
    let top = |constant: &str, op: &str| {
        let text = format!("edition 1; {constant}; entry: push 0; {op}");
        assert_eq!(checked(&text), 0, "{text}");
        let (outcome, steps, stack) = entry(&text);
        assert_eq!((outcome, steps, stack.len()), (0, 2, 1), "{text}");
        stack[0]
    };
    assert_eq!(top("int 4294967295", "inc"), (INT, 0));
    assert_eq!(top("int 0", "dec"), (INT, 0xFFFF_FFFF));
    assert_eq!(top("int 2147483647", "inc"), (INT, 0x8000_0000));
    assert_eq!(top("long -1", "inc"), (LONG, 0));
    assert_eq!(top("long 4294967295", "inc"), (LONG, 0x1_0000_0000));
    assert_eq!(top("long 0", "dec"), (LONG, u64::MAX));
    assert_eq!(top("double 0.5", "inc"), (DOUBLE, 1.5f64.to_bits()));
    assert_eq!(top("double 0.5", "dec"), (DOUBLE, (-0.5f64).to_bits()));
    assert_eq!(top("double 1.0", "dec"), (DOUBLE, 0));
    assert_eq!(top("double -1.0", "inc"), (DOUBLE, 0));
    // rounded once: 2^53 + 1 is a tie, and goes to the even one
    let large = 9_007_199_254_740_992.0f64;
    assert_eq!(
        top("double 9007199254740992.0", "inc"),
        (DOUBLE, large.to_bits())
    );
    assert_eq!(
        top("double 9007199254740992.0", "dec"),
        (DOUBLE, (large - 1.0).to_bits())
    );
    assert_eq!(top("double #7FF0000000000001", "inc"), (DOUBLE, NAN));
    assert_eq!(top("double #FFF8000000000005", "dec"), (DOUBLE, NAN));
    let infinity = 0x7FF0_0000_0000_0000;
    assert_eq!(top("double #7FF0000000000000", "dec"), (DOUBLE, infinity));

    for op in ["inc", "dec"] {
        assert_eq!(outcome(&format!("edition 1; entry: {op}")), (21, 0));
        assert_eq!(checked(&format!("edition 1; entry: {op}")), 11);
        // a bound local is no operand; neither is a parameter, nor what lies below the frame
        let bound = format!("edition 1; int 1; entry: push 0; store 0; {op}");
        assert_eq!((outcome(&bound), checked(&bound)), ((21, 2), 11));
        let called =
            format!("edition 1; int 1; entry: push 0; push 0; call 0; function int (int): {op}; load 0; ret");
        assert_eq!((outcome(&called), checked(&called)), ((21, 3), 11));
        let none = format!("edition 1; int 1; entry: push 0; call 0; function void (): {op}; ret");
        assert_eq!((outcome(&none), checked(&none)), ((21, 2), 11));
        // a local is changed by load, inc, store; the value on top, not what is under it
        let local = format!("edition 1; int 5; entry: push 0; store 0; load 0; {op}");
        let changed = if op == "inc" { 6 } else { 4 };
        assert_eq!(entry(&local), (0, 4, vec![(INT, 5), (INT, changed)]));
    }
    // a full stack is no matter
    let file = asm::file("edition 1; int 5; entry: push 0; inc");
    assert_eq!(
        run_file(&file, ENTRY, &[], 9, 1),
        Ok((0, 2, vec![(INT, 6)]))
    );
    // edition 3 works through the pointer as before
    assert_eq!(checked("int 5; entry: push 0; inc"), 11);
    assert_eq!(outcome("int 5; entry: push 0; inc"), (31, 1));
    assert_eq!(checked("int 5; entry: push 0; store 0; lea 0; inc"), 0);
}

/// "A2 holds in both".
#[test]
fn unordered() {
    let nan = "double 1.0; double #7FF8000000000000";
    for edition in ["", "edition 1; "] {
        for op in ["cmp", "icmp"] {
            for order in ["push 0; push 1", "push 1; push 0"] {
                let text = format!("{edition}{nan}; entry: {order}; {op}");
                assert_eq!((outcome(&text), checked(&text)), ((35, 2), 0), "{text}");
            }
        }
    }
    let text = format!("edition 1; {nan}; int 1; entry: push 1; push 2; cmp");
    assert_eq!((outcome(&text), checked(&text)), ((22, 2), 11));
}

/// "`toi` and `tol` from a NaN or out of range double now raise; edition 1 keeps the pattern. The
/// typing rule and demand 3's ends gain this."
#[test]
fn out_of_range() {
    let ends = EDITIONS.map(|edition| is_an_end_of_demand_3(edition, 44));
    assert_eq!(ends, [false, true, true]);
    for (op, left, doubles) in [
        ("toi", (INT, 1 << 31), ["4294967296.0", "-2147483649.0"]),
        ("tol", (LONG, 1 << 63), ["1e20", "-9223372036854777856.0"]),
    ] {
        let nowhere = ["inf", "-inf", "#7FF8000000000000", "#FFF0000000000001"];
        for double in doubles.iter().chain(&nowhere) {
            let text = format!("double {double}; entry: push 0; {op}");
            let old = format!("edition 1; {text}");
            assert_eq!((entry(&old), checked(&old)), ((0, 2, vec![left]), 0));
            for edition in ["", "edition 4; "] {
                let new = format!("{edition}{text}");
                assert_eq!((outcome(&new), checked(&new)), ((44, 1), 0), "{new}");
            }
        }
    }
}

/// "2 now means none of 1, 3 and 4"; "No pointer types in signatures (7)."
#[test]
fn refusals() {
    let good = asm::file("edition 1; int 7; entry: push 0; function void (int): ret");
    assert_eq!(answer(&good), 0);
    let with = |at: usize, bytes: &[u8]| {
        let mut file = good.clone();
        file[at..at + bytes.len()].copy_from_slice(bytes);
        let number = answer(&file);
        if (1..=9).contains(&number) {
            assert_eq!(run_file(&file, ENTRY, &[], 9, 9), Err(number));
        }
        number
    };
    for word in [0u32, 2, 5, 6, 257, 0x0100_0001, 0x0001_0003, u32::MAX] {
        assert_eq!(with(0, &word.to_le_bytes()), 2, "{word}");
    }
    assert_eq!(answer(&good[..47]), 1);
    assert_eq!(answer(&good[..48]), 3);
    assert_eq!(with(44, &[1]), 4);
    assert_eq!(with(12, &[49]), 5);
    assert_eq!(with(48, &[5]), 6);
    assert_eq!(with(48, &[7]), 6);
    // the parameter: at 48 + 12 + 10
    for (ty, number) in [
        (3, 0),
        (4, 0),
        (6, 0),
        (0x83, 7),
        (0x84, 7),
        (0x86, 7),
        (7, 7),
        (0, 7),
    ] {
        assert_eq!(with(70, &[ty]), number, "{ty:02X}");
    }
    // return types as in edition 3
    for (ty, number) in [(0x83, 7), (0x86, 7), (7, 7), (5, 7)] {
        assert_eq!(with(69, &[ty]), number, "{ty:02X}");
    }
    // the function's `ret`: at 48 + 12 + 20 + 5
    assert_eq!(good[85], 0x22);
    for byte in (0x26..=0xFFu8).chain([0]) {
        assert_eq!(with(85, &[byte]), 8, "{byte:02X}");
    }
    assert_eq!(with(85, &[0x1A]), 8, "it crosses the body's end");
    // the same bytes under edition 3: 22 is `jne` there, and crosses the body's end
    assert_eq!(with(0, &[3]), 8);
}

/// Programs that have no `inc` and `dec`, which differ, and nothing that edition 1 lacks: written
/// in any edition they are checked and run alike, up to where editions 3 and 4 raise 44.
#[test]
fn the_same_in_all_editions() {
    let (mut compared, mut accepted, mut stopped) = (0, 0, 0);
    for number in 0..6000 {
        let mut rng = Rng::for_case(12, number);
        let mut program = match rng.below(8) {
            0..=2 => well_typed(&mut rng, Edition::One),
            3 => flow::program(&mut rng, Edition::One),
            4 => expression::program(&mut rng, Edition::One),
            5 => loose::program(&mut rng, Edition::One),
            6 => limits::program(&mut rng, Edition::One),
            _ => mixed::program(&mut rng, Edition::One),
        };
        if rng.one_in(4) {
            near::change(&mut rng, &mut program);
        }
        if !program.fits(Edition::One) || has_inc(&program) {
            continue;
        }
        compared += 1;
        let (typed, raised) = same(&mut rng, program);
        accepted += u64::from(typed);
        stopped += raised;
    }
    assert!(
        compared > 1500 && accepted > 600 && stopped > 50,
        "{compared}, {accepted}, {stopped}"
    );
}

fn has_inc(program: &Program) -> bool {
    let bodies = program.owners();
    let mut code = bodies.iter().flat_map(|&owner| program.body(owner));
    code.any(|instr| matches!(instr.op, Op::Inc | Op::Dec))
}

/// Is the program accepted, and how many of its runs raise 44? Else everything is the same in all
/// editions.
fn same(rng: &mut Rng, mut program: Program) -> (bool, usize) {
    let files = EDITIONS.map(|edition| {
        program.edition = edition;
        program.file()
    });
    let rooms = files.each_ref().map(|file| {
        let mut room = vec![0xEE; 64 * program.labels.len() + 3];
        let checked = check(Rules::PLAIN, file, &mut room);
        (format!("{checked:?}"), room)
    });
    assert_eq!(rooms[0], rooms[1], "{program:?}");
    assert_eq!(rooms[0], rooms[2], "{program:?}");
    let runs = calls::runs(rng, &files[0]);
    let [old, three, four] = files.map(|module| ran(module, &runs));
    assert_eq!(three, four, "{program:?}");
    for (old, new) in old.iter().zip(&three) {
        if new.0 == 44 {
            // edition 1 goes on, with the pattern
            assert!(old.0 != 44 && old.1 > new.1, "{program:?}");
        } else {
            assert_eq!(old, new, "{program:?}");
        }
    }
    let raised = three.iter().filter(|run| run.0 == 44).count();
    (rooms[0].0 == "Accepted", raised)
}

/// Answer, steps and height of each run, and what was lent to it.
fn ran(module: Vec<u8>, runs: &[RunCall]) -> Vec<(u32, u64, u64, [Lent; 4])> {
    let case = Case {
        kind: "all",
        module,
        room: Vec::new(),
        runs: runs.to_vec(),
        shift: 0,
    };
    let run = |run| {
        let mut memory = case.run_memory(run);
        let answer = Second(Rules::PLAIN).run(run.start(), &mut memory);
        let lent = [memory.payloads, memory.types, memory.heap, memory.blocks];
        (answer, memory.steps, memory.height, lent)
    };
    case.runs.iter().map(run).collect()
}

/// The samples made of another sample's text print the same.
#[test]
fn samples_in_both_editions() {
    let printed = |name: &str| {
        let sample = samples::all().find(|sample| sample.name == name);
        sample.map(|sample| (sample.file(), small(Rules::PLAIN, &sample.file())))
    };
    let mut pairs = 0;
    for sample in &samples::OLD {
        let file = sample.file();
        assert!(
            file[0] == 1 || sample.name.contains("refused"),
            "{}",
            sample.name
        );
        let other = sample.name.strip_prefix("old-").and_then(printed);
        let Some((new, text)) = other.filter(|_| sample.shows.starts_with("the recipe of")) else {
            continue;
        };
        assert_ne!(new, file);
        assert_eq!(text, small(Rules::PLAIN, &file), "{}", sample.name);
        pairs += 1;
    }
    assert!(pairs >= 16, "{pairs}");
}

/// Generated modules are of all editions.
#[test]
fn generated_editions() {
    let mut counts = [0; 3];
    let mut read_in = [0; 3];
    let place = |edition: Edition| EDITIONS.iter().position(|&e| e == edition);
    for number in 0..2000 {
        let mut rng = Rng::for_case(3, number);
        counts[place(edition(&mut rng)).unwrap_or(0)] += 1;
        if let Ok(module) = read(Rules::PLAIN, &Case::without_runs(3, number).module) {
            read_in[place(module.edition).unwrap_or(0)] += 1;
        }
    }
    assert!(
        counts.iter().chain(&read_in).all(|&count| count > 400),
        "{counts:?}, {read_in:?}"
    );
}

//! What the paper makes possible: every exception of every opcode, every type an opcode can
//! work on, every reason for a body to have no typing.

use crate::gen::constants::range_edges;
use crate::opcode::{Edition, Op};
use crate::types::{DOUBLE, INT, LONG, MANAGED, NUMBERS, POINTER, STRUCTURE};
use crate::worklist::Reason;

const SUMS: [Op; 6] = [Op::Add, Op::Sub, Op::Mul, Op::Imul, Op::Div, Op::Idiv];

/// The exceptions that an instruction can raise in a run of this edition, in the paper's order.
/// In edition 1 no pointer can arise, `inc` and `dec` work on the top, and `toi` and `tol` keep the
/// pattern. In edition 4 a pointer may be null, or lead to a structure.
pub fn exceptions(edition: Edition, op: Op) -> Vec<u32> {
    match (edition, op) {
        (Edition::One, Op::Inc | Op::Dec) => vec![21],
        (Edition::One, op) => {
            let numbers = new_exceptions(op).iter().copied();
            numbers.filter(|&n| answer_of(Edition::One, n)).collect()
        }
        (Edition::Three, op) => new_exceptions(op).to_vec(),
        (Edition::Four, op) => heap_exceptions(op).to_vec(),
    }
}

fn heap_exceptions(op: Op) -> &'static [u32] {
    match op {
        Op::Tload => &[21, 31, 36, 33, 50],
        Op::Tstore => &[21, 31, 36, 33, 50, 22],
        Op::Inc | Op::Dec => &[21, 31, 36, 33, 32, 50],
        op => new_exceptions(op),
    }
}

fn new_exceptions(op: Op) -> &'static [u32] {
    match op {
        Op::Push => &[23, 20],
        Op::Pop => &[21],
        Op::Load | Op::Lea => &[25, 20],
        Op::Store => &[26, 21, 22],
        Op::Tload => &[21, 31, 33],
        Op::Tstore => &[21, 31, 33, 22],
        Op::Copy => &[21, 20],
        Op::Swap => &[21, 22],
        Op::Cmp | Op::Icmp => &[21, 22, 35],
        Op::Add | Op::Sub | Op::Mul | Op::Imul => &[21, 32, 22],
        Op::Div | Op::Idiv => &[21, 32, 22, 24],
        Op::Mod | Op::Imod => &[21, 32, 22, 34, 24],
        Op::And | Op::Or | Op::Xor | Op::Shl | Op::Sal | Op::Shr | Op::Sar => &[21, 32, 22, 34],
        Op::Neg | Op::Tod => &[21, 32],
        Op::Toi | Op::Tol => &[21, 32, 44],
        Op::Not => &[21, 32, 34],
        Op::Inc | Op::Dec => &[21, 31, 33, 32],
        Op::Jmp => &[27],
        Op::Je | Op::Jne | Op::Ja | Op::Jae | Op::Jb | Op::Jbe => &[27, 21, 22],
        Op::Call => &[28, 21, 22, 20],
        Op::Ret => &[30, 21, 22],
        Op::Flea => &[21, 31, 36, 33, 39, 38],
        Op::Null | Op::GcNull => &[20],
        Op::New | Op::GcNew => &[37, 20],
        Op::Delete => &[21, 31, 33],
    }
}

/// The exceptions that leave a body without typing: those of a run other than 20, 24, 35 and 44,
/// other than 33 ("every pointer taken as live") and than 32 for `inc` and `dec` (no pointer
/// points to a pointer); and `lea` of a local that holds no number, shown as 32. 36 is `null`
/// where a typing doesn't take it.
pub fn typing_exceptions(edition: Edition, op: Op) -> Vec<u32> {
    let mut numbers: Vec<u32> = exceptions(edition, op);
    numbers.retain(|number| ![20, 24, 33, 35, 44].contains(number));
    match op {
        Op::Inc | Op::Dec => numbers.retain(|&number| number != 32),
        Op::Lea => numbers.push(32),
        _ => {}
    }
    numbers
}

/// All reasons for a body to have no typing.
pub fn reasons(edition: Edition) -> Vec<Reason> {
    let mut reasons = vec![Reason::Differ, Reason::TooLong, Reason::FunctionEnd];
    for op in edition.ops() {
        let numbers = typing_exceptions(edition, op);
        reasons.extend(numbers.into_iter().map(|number| Reason::Raises(op, number)));
    }
    reasons
}

/// Added to the type in a variant of `tload`, `tstore`, `inc`, `dec` through a heap pointer.
pub const IN_A_CELL: u8 = 0x40;

/// Added too where the pointer is managed, and in a variant of `flea`.
pub const BY_MANAGED: u8 = 0x20;

/// The variants in which an instruction can be executed: for most the type that it works on;
/// for a conditional branch 1 if taken and 0 if not; for `ret` the return type; for `flea` the
/// field's type; for `new`, `gcnew` and `delete` the block's type (any structure as 10), 0 for null.
pub fn executions(edition: Edition, op: Op) -> Vec<u8> {
    let types = new_executions(op).iter().copied();
    let pointers = edition.has_pointers();
    let mut all: Vec<u8> = types.filter(|&ty| pointers || ty != POINTER).collect();
    if edition.has_heap() {
        match op {
            Op::Tload | Op::Tstore | Op::Inc | Op::Dec => {
                all.extend(NUMBERS.map(|ty| IN_A_CELL | ty));
                all.extend(NUMBERS.map(|ty| IN_A_CELL | BY_MANAGED | ty));
            }
            Op::Flea => all.extend(NUMBERS.map(|ty| BY_MANAGED | ty)),
            Op::Ret => all.push(POINTER),
            _ => {}
        }
        if all.contains(&POINTER) {
            all.push(MANAGED);
        }
    }
    all
}

fn new_executions(op: Op) -> &'static [u8] {
    match op {
        Op::Push | Op::Neg | Op::Toi | Op::Tol | Op::Tod | Op::Inc | Op::Dec | Op::Flea => {
            &[INT, LONG, DOUBLE]
        }
        Op::Jmp | Op::Call | Op::Null | Op::GcNull => &[0],
        Op::New | Op::GcNew | Op::Delete => &[0, INT, LONG, DOUBLE, STRUCTURE],
        Op::Ret => &[0, INT, LONG, DOUBLE],
        op if op.is_conditional() => &[0, 1],
        op if SUMS.contains(&op) => &[INT, LONG, DOUBLE],
        Op::Pop | Op::Load | Op::Store | Op::Lea | Op::Tload | Op::Tstore | Op::Copy => {
            &[INT, LONG, DOUBLE, POINTER]
        }
        Op::Swap | Op::Cmp | Op::Icmp => &[INT, LONG, DOUBLE, POINTER],
        _ => &[INT, LONG],
    }
}

/// The doubles that `toi` and `tol` must meet in every edition, in range or not.
pub fn at_range_edges() -> Vec<(Op, u64)> {
    let of = |op: Op| range_edges().into_iter().map(move |bits| (op, bits));
    of(Op::Toi).chain(of(Op::Tol)).collect()
}

/// The answers that a check can give.
pub const CHECK_ANSWERS: [u32; 12] = [0, 1, 2, 3, 4, 5, 6, 7, 8, 9, 10, 11];

/// The answers that a write can give.
pub const WRITE_ANSWERS: [u32; 9] = [0, 2, 4, 5, 6, 7, 8, 9, 16];

/// The answers that a conversion of a module of this edition can give. (Those of words that are
/// no edition are counted as edition 3's.)
pub fn conversion_answers(to: Edition, edition: Edition) -> Vec<u32> {
    match (to, edition) {
        (Edition::Four, Edition::Three) => vec![0, 1, 2, 3, 4, 5, 6, 7, 8, 9, 16],
        (Edition::Three, Edition::Four) => vec![0, 1, 3, 4, 5, 6, 7, 8, 9, 18, 16],
        _ => vec![1, 2],
    }
}

/// What runs and their profiles must reach, by name, as in `profile_edges`.
pub const PROFILE_EDGES: [&str; 8] = [
    "17 where 0 is named",
    "17 with equal low bytes",
    "17 where arguments don't fit",
    "13 and another profile",
    "its own profile",
    "any profile",
    "the entry beside other profiles",
    "a call of another profile's function",
];

/// What conversions must reach, by name, as in `profile_edges`. A type byte that edition 3 lacks is
/// the only loss where it is a managed pointer to a number.
pub const CONVERSION_EDGES: [&str; 17] = [
    "up, a header of edition 4 under 56 bytes",
    "another edition, and more is wrong",
    "the exact length",
    "one byte longer",
    "one byte short",
    "no output",
    "no functions",
    "128 functions",
    "no typing",
    "18 by a profile",
    "18 by a structure",
    "18 by a type byte",
    "18 by an opcode",
    "18 by an opcode after jmp or ret",
    "18 by gcnull or gcnew",
    "18 and no output",
    "an operand like an opcode",
];

/// The answers that a call on rows can give: those of a run but 30, which is the entry's.
pub fn map_answers(edition: Edition) -> Vec<u32> {
    let numbers = RUN_ANSWERS.into_iter();
    numbers
        .filter(|&n| n != 30 && answer_of(edition, n))
        .collect()
}

/// Where the row that ends a call is among all rows, as in `row_edges`.
pub const ROW_PLACES: [&str; 3] = ["first", "middle", "last"];

/// The numbers that a row must end a call with at each place.
pub fn row_numbers(edition: Edition) -> Vec<u32> {
    let numbers = [13, 15, 20, 24, 33, 35, 36, 44].into_iter();
    numbers.filter(|&n| answer_of(edition, n)).collect()
}

/// What calls on rows must reach in every edition, by name, as in `row_edges`; each clause of 13
/// where no other holds.
pub const ROW_EDGES: [&str; 24] = [
    "13 by part of an output",
    "13 by fewer arguments",
    "13 by more arguments",
    "13 by no result",
    "13 by the entry",
    "12 and part of an output",
    "no rows",
    "no rows, 12",
    "no rows, 13",
    "no rows, arguments that would not fit",
    "20 by arguments that don't fit",
    "upper bits where arguments don't fit",
    "upper bits in a later row",
    "0 parameters",
    "1 parameter",
    "2 parameters",
    "3 parameters",
    "4 parameters",
    "5 parameters",
    "6 parameters",
    "7 parameters",
    "8 parameters",
    "one row",
    "dozens of rows",
];

/// What pointers add in editions 3 and 4, and what blocks and profiles add in edition 4.
pub const POINTER_ROW_EDGES: [&str; 1] = ["13 by a pointer"];
pub const HEAP_ROW_EDGES: [&str; 10] = [
    "13 by a managed pointer",
    "a managed pointer returned",
    "managed blocks left",
    "a pointer returned",
    "a pointer returned by several rows",
    "blocks left",
    "no heap",
    "13 and another profile",
    "17 and upper bits in the first row",
    "no rows, 17",
];

/// All edges of rows in an edition.
pub fn row_edges(edition: Edition) -> Vec<&'static str> {
    let mut edges = ROW_EDGES.to_vec();
    if edition.has_pointers() {
        edges.extend(POINTER_ROW_EDGES);
    }
    if edition.has_heap() {
        edges.extend(HEAP_ROW_EDGES);
    }
    edges
}

/// The answers of a full check that writes a record, and of a check of a body.
pub const RECORDING_ANSWERS: [u32; 13] = [0, 1, 2, 3, 4, 5, 6, 7, 8, 9, 10, 11, 16];
pub const BODY_ANSWERS: [u32; 13] = [0, 1, 2, 3, 4, 5, 6, 7, 8, 9, 11, 12, 45];

/// What checks with records must reach in every edition, by name, as in `record_edges`; each clause
/// of 45 where no other holds.
pub const RECORD_EDGES: [&str; 47] = [
    "10 and a record too short",
    "16 by one byte, else 0",
    "16 by one byte, else 11",
    "16 by no record",
    "0, record exact",
    "0, record longer",
    "11, record exact",
    "11, record longer",
    "11, bodies with a typing behind the first without",
    "11, another without a typing behind the first",
    "11 with label records",
    "0 with label records",
    "128 functions recorded",
    "the reader's refusal and a bad record",
    "12 and a bad record",
    "12 and a good record",
    "12 by the count of functions",
    "45 by the count",
    "45 by the count's upper bytes",
    "45 by the offset",
    "45 by the offset's upper bytes",
    "45 by a byte more",
    "45 by a byte less",
    "45 by no record",
    "45 by the entry's byte",
    "45 by the last body's byte",
    "45 by the named body's byte",
    "45 by another body's byte",
    "45 by a byte of 2",
    "45 by a byte of 255",
    "entry named",
    "first function named",
    "last function named",
    "only the entry there",
    "a byte from 0 to 1",
    "a byte from 1 to 0",
    "a byte that stays 0",
    "a byte that stays 1",
    "11 for the named body",
    "11 for a body before it",
    "11 for a body behind it",
    "11 where the named body has a typing",
    "0 after an edit, kept",
    "11 after an edit, kept",
    "constants changed, kept",
    "a wrong record, 0 instead of 11",
    "a wrong record, 11 instead of 0",
];

/// What profiles add in edition 4.
pub const PROFILE_RECORD_EDGES: [&str; 1] = ["profiles changed, kept"];

/// All edges of records in an edition.
pub fn record_edges(edition: Edition) -> Vec<&'static str> {
    let mut edges = RECORD_EDGES.to_vec();
    if edition.has_profiles() {
        edges.extend(PROFILE_RECORD_EDGES);
    }
    edges
}

pub const NEED_ANSWERS: [u32; 14] = [0, 1, 2, 3, 4, 5, 6, 7, 8, 9, 10, 11, 16, 47];

/// What calls for the needs must reach in every edition, by name, as in `need_edges`.
pub const NEED_EDGES: [&str; 47] = [
    "the reader's refusal and no report",
    "10 and a report too short",
    "11 and a report too short",
    "47 and a report too short",
    "47 and a report long enough",
    "47 with label records",
    "16 with label records",
    "16 by one byte",
    "16 by one body",
    "16 by no report",
    "0 with label records",
    "0, report exact",
    "0, report a byte longer",
    "0 without functions",
    "0 with 128 functions",
    "47 for the entry",
    "47 for the first function",
    "47 for the last function",
    "47 for a body that calls itself",
    "47 for a body on a longer ring",
    "47 for a function that only leads to a ring",
    "47 for a function that nobody calls",
    "ways that meet with different grounds",
    "the greatest ground makes a need",
    "buried slots make a need",
    "a call over buried slots makes a need",
    "flow past an endless callee makes a need",
    "a dead call changes nothing",
    "a dead ring changes nothing",
    "a branch's value changes nothing",
    "need and frames by different paths",
    "the height at the entry's end makes its need",
    "a function that nobody calls",
    "3 frames",
    "64 frames",
    "65 frames",
    "129 frames",
    "20 by frames over 64",
    "the entry finishes on its need",
    "a function finishes on its need",
    "a run on the need is stopped",
    "one slot less, the entry: 20",
    "one slot less, a function: 20",
    "one slot less, the entry with calls: 20",
    "one slot less, a function with calls: 20",
    "one slot less, arguments alone: 20",
    "one slot less is enough",
];

/// Edition 1 has no `copy`: its code is too short for so many pushes.
pub const MANY_SLOTS: [&str; 3] = [
    "4,096 slots",
    "over 4,096 slots in 64 frames",
    "20 by a need over 4,096",
];

/// All edges of needs in an edition.
pub fn need_edges(edition: Edition) -> Vec<&'static str> {
    let mut edges = NEED_EDGES.to_vec();
    if edition != Edition::One {
        edges.extend(MANY_SLOTS);
    }
    edges
}

/// Can this answer be given where this is the edition word? (Those of words that are no edition
/// are counted as edition 3's.)
pub fn answer_of(edition: Edition, number: u32) -> bool {
    let heap = [36, 37, 38, 39, 50].contains(&number);
    match edition {
        Edition::One => ![2, 17, 31, 32, 33, 44].contains(&number) && !heap,
        Edition::Three => number != 17 && !heap,
        Edition::Four => number != 2,
    }
}

/// The answers that a formula can give.
pub const FORMULA_ANSWERS: [u32; 6] = [0, 16, 40, 41, 42, 43];

/// What formula lines must reach, by name, as in `coverage::line_edges`.
pub const LINE_EDGES: [&str; 12] = [
    "256 bytes",
    "257 bytes in the grammar",
    "16 deep",
    "17 deep",
    "32 operands",
    "33 operands",
    "256 instructions",
    "4294967295",
    "too large alone",
    "42 and 43",
    "value",
    "quotient by zero",
];

/// What lent heaps and runs on them must reach, by name, as in `coverage::heap_edges`.
pub const HEAP_EDGES: [&str; 16] = [
    "no cells",
    "one cell",
    "part of a cell",
    "part of an entry",
    "fewer cells",
    "fewer entries",
    "4,096",
    "over 4,096",
    "edition 1",
    "edition 3",
    "arguments don't fit",
    "last cell given",
    "null with free cells",
    "a hole given",
    "a hole passed over",
    "table not by cell",
];

/// What runs and managed blocks must reach, by name, as in `managed_edges`.
pub const MANAGED_EDGES: [&str; 36] = [
    "no cells",
    "nothing dead",
    "one freed",
    "several freed",
    "freed though a run was long enough",
    "a run by freeing",
    "freed, and null given",
    "packed, and given",
    "packed, and null given",
    "packed, and too few cells",
    "packed, and nothing moved",
    "a managed block moved",
    "another block moved",
    "a block moved up",
    "payloads moved",
    "serials not in order of place",
    "held by an operand alone",
    "held by a local alone",
    "held by a buried slot alone",
    "held by a caller's slot alone",
    "held by a field's pointer alone",
    "held by two slots",
    "a number like a dead block's pointer",
    "new gives null beside dead blocks",
    "20 beside dead blocks",
    "37 on a full stack",
    "31 by a managed block",
    "31 by gcnull",
    "compared across",
    "stored across",
    "swapped across",
    "called across",
    "returned across",
    "managed blocks listed",
    "dead blocks listed",
    "both kinds listed",
];

/// The answers that a run can give.
pub const RUN_ANSWERS: [u32; 36] = [
    0, 1, 2, 3, 4, 5, 6, 7, 8, 9, 12, 13, 15, 17, 20, 21, 22, 23, 24, 25, 26, 27, 28, 29, 30, 31,
    32, 33, 34, 35, 36, 37, 38, 39, 44, 50,
];

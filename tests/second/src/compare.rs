//! Two subjects side by side on one case. `records` has checks with records, `needs` calls for the
//! needs.

pub mod needs;
pub mod records;

use crate::gen::case::{Case, RunCall};
use crate::gen::conversions::ConvertCase;
use crate::gen::lines::LineCase;
use crate::gen::rows::MapCase;
use crate::gen::tables::WriteCase;
use crate::hex;
use crate::memory::{
    CheckMemory, ConvertMemory, FormulaMemory, Lent, MapMemory, RunMemory, WriteMemory,
};
use crate::subject::Subject;

/// What differs, in words; nothing if the two agree on the check and on every run.
pub fn compare(case: &Case, a: &mut dyn Subject, b: &mut dyn Subject) -> Option<String> {
    compare_checks(case, a, b).or_else(|| {
        case.runs
            .iter()
            .find_map(|run| compare_runs(case, run, a, b))
    })
}

/// What differs in the check alone.
pub fn compare_checks(case: &Case, a: &mut dyn Subject, b: &mut dyn Subject) -> Option<String> {
    let mut memory_a = case.check_memory();
    let mut memory_b = memory_a.clone();
    let (answer_a, answer_b) = (a.check(&mut memory_a), b.check(&mut memory_b));
    if answer_a == answer_b && memory_a == memory_b {
        return None;
    }
    let room = case.room.len();
    Some(format!(
        "check with a room of {room} bytes: answers {answer_a} and {answer_b}{}",
        check_difference(&memory_a, &memory_b)
    ))
}

fn compare_runs(
    case: &Case,
    run: &RunCall,
    a: &mut dyn Subject,
    b: &mut dyn Subject,
) -> Option<String> {
    let mut memory_a = case.run_memory(run);
    let mut memory_b = memory_a.clone();
    let answer_a = a.run(run.start(), &mut memory_a);
    let answer_b = b.run(run.start(), &mut memory_b);
    if answer_a == answer_b && memory_a == memory_b {
        return None;
    }
    Some(format!(
        "run of {}: answers {answer_a} and {answer_b}{}",
        describe(run),
        run_difference(&memory_a, &memory_b)
    ))
}

/// What differs in a write.
pub fn compare_writes(
    case: &WriteCase,
    a: &mut dyn Subject,
    b: &mut dyn Subject,
) -> Option<String> {
    let mut memory_a = case.memory();
    let mut memory_b = memory_a.clone();
    let (answer_a, answer_b) = (a.write(&mut memory_a), b.write(&mut memory_b));
    if answer_a == answer_b && memory_a == memory_b {
        return None;
    }
    let out = case.out.len();
    Some(format!(
        "write of edition {} to {out} bytes: answers {answer_a} and {answer_b}{}",
        case.tables.edition,
        write_difference(&memory_a, &memory_b)
    ))
}

/// What differs in a formula: its answer and, where there is a module, its check and its runs.
pub fn compare_formulas(
    case: &LineCase,
    a: &mut dyn Subject,
    b: &mut dyn Subject,
) -> Option<String> {
    let mut memory_a = case.memory();
    let mut memory_b = memory_a.clone();
    let (answer_a, answer_b) = (a.formula(&mut memory_a), b.formula(&mut memory_b));
    if answer_a != answer_b || memory_a != memory_b {
        let out = case.out.len();
        return Some(format!(
            "formula to {out} bytes: answers {answer_a} and {answer_b}{}",
            formula_difference(&memory_a, &memory_b)
        ));
    }
    if answer_a != 0 {
        return None;
    }
    let made = case.made(&memory_a.out.slice()[..memory_a.written as usize]);
    compare(&made, a, b)
        .or_else(|| case.otherwise(&made, a))
        .or_else(|| case.otherwise(&made, b))
}

/// What differs in a conversion; and where it is made, what `b` does otherwise with it.
pub fn compare_conversions(
    case: &ConvertCase,
    a: &mut dyn Subject,
    b: &mut dyn Subject,
) -> Option<String> {
    let mut memory_a = case.memory();
    let mut memory_b = memory_a.clone();
    let answer_a = a.convert(case.to, &mut memory_a);
    let answer_b = b.convert(case.to, &mut memory_b);
    if answer_a != answer_b || memory_a != memory_b {
        return Some(format!(
            "conversion to edition {}, to {} bytes: answers {answer_a} and {answer_b}{}",
            case.to.word(),
            case.out.len(),
            conversion_difference(&memory_a, &memory_b)
        ));
    }
    if answer_a != 0 {
        return None;
    }
    case.otherwise(&memory_a.out.slice()[..memory_a.written as usize], b)
}

/// What differs in a call on rows.
pub fn compare_maps(case: &MapCase, a: &mut dyn Subject, b: &mut dyn Subject) -> Option<String> {
    let mut memory_a = case.memory();
    let mut memory_b = memory_a.clone();
    let answer_a = a.map(case.start(), &mut memory_a);
    let answer_b = b.map(case.start(), &mut memory_b);
    if answer_a == answer_b && memory_a == memory_b {
        return None;
    }
    Some(format!(
        "rows of {} output bytes: answers {answer_a} and {answer_b}{}",
        case.out.len(),
        map_difference(&memory_a, &memory_b)
    ))
}

/// A run's numbers and arguments, enough to repeat it by hand.
pub fn describe(run: &RunCall) -> String {
    format!(
        "function {:08X}, argument types {}, argument payloads {}, profile {}, allowance {}, \
         {} payload bytes, {} type bytes, {} heap bytes, {} block bytes",
        run.function,
        quoted(&run.arg_types),
        quoted(&run.arg_payloads),
        run.profile,
        run.allowance,
        run.payloads.len(),
        run.types.len(),
        run.heap.len(),
        run.blocks.len()
    )
}

fn quoted(bytes: &[u8]) -> String {
    format!("\"{}\"", hex::encode(bytes))
}

/// How what was lent to two checks differs, in words.
pub fn check_difference(a: &CheckMemory, b: &CheckMemory) -> String {
    let mut text = String::new();
    if a.body != b.body {
        text += &format!("; body {:08X} and {:08X}", a.body, b.body);
    }
    text += &slice_difference("module", &a.module, &b.module);
    text + &slice_difference("room", &a.room, &b.room)
}

/// How what was lent to two runs differs, in words.
pub fn run_difference(a: &RunMemory, b: &RunMemory) -> String {
    let mut text = String::new();
    if a.steps != b.steps {
        text += &format!("; steps {} and {}", a.steps, b.steps);
    }
    if a.height != b.height {
        text += &format!("; height {} and {}", a.height, b.height);
    }
    text += &slice_difference("module", &a.module, &b.module);
    text += &slice_difference("argument types", &a.arg_types, &b.arg_types);
    text += &slice_difference("argument payloads", &a.arg_payloads, &b.arg_payloads);
    text += &slice_difference("payloads", &a.payloads, &b.payloads);
    text += &slice_difference("types", &a.types, &b.types);
    text += &slice_difference("heap", &a.heap, &b.heap);
    text + &slice_difference("blocks", &a.blocks, &b.blocks)
}

/// How what was lent to two writes differs, in words.
pub fn write_difference(a: &WriteMemory, b: &WriteMemory) -> String {
    let mut text = String::new();
    if a.written != b.written {
        text += &format!("; length {} and {}", a.written, b.written);
    }
    text += &slice_difference("constants", &a.constants, &b.constants);
    text += &slice_difference("functions", &a.functions, &b.functions);
    text += &slice_difference("labels", &a.labels, &b.labels);
    text += &slice_difference("structures", &a.structures, &b.structures);
    text += &slice_difference("code", &a.code, &b.code);
    text + &slice_difference("output", &a.out, &b.out)
}

/// How what was lent to two formulas differs, in words.
pub fn formula_difference(a: &FormulaMemory, b: &FormulaMemory) -> String {
    let mut text = String::new();
    if a.written != b.written {
        text += &format!("; length {} and {}", a.written, b.written);
    }
    text += &slice_difference("line", &a.line, &b.line);
    text + &slice_difference("output", &a.out, &b.out)
}

/// How what was lent to two conversions differs, in words.
pub fn conversion_difference(a: &ConvertMemory, b: &ConvertMemory) -> String {
    let mut text = String::new();
    if a.written != b.written {
        text += &format!("; length {} and {}", a.written, b.written);
    }
    text += &slice_difference("module", &a.module, &b.module);
    text + &slice_difference("output", &a.out, &b.out)
}

/// How what was lent to two calls on rows differs, in words.
pub fn map_difference(a: &MapMemory, b: &MapMemory) -> String {
    let mut text = String::new();
    if a.rows != b.rows {
        text += &format!("; rows {} and {}", a.rows, b.rows);
    }
    text += &slice_difference("module", &a.module, &b.module);
    text += &slice_difference("argument payloads", &a.arg_payloads, &b.arg_payloads);
    text += &slice_difference("output", &a.out, &b.out);
    text += &slice_difference("payloads", &a.payloads, &b.payloads);
    text += &slice_difference("types", &a.types, &b.types);
    text += &slice_difference("heap", &a.heap, &b.heap);
    text + &slice_difference("blocks", &a.blocks, &b.blocks)
}

/// Where two lent slices or their guard bytes differ, in words.
fn slice_difference(name: &str, a: &Lent, b: &Lent) -> String {
    match a.first_difference(b) {
        None => String::new(),
        Some(at) if at < 0 || at >= a.len() as i64 => {
            format!("; guard bytes of {name} differ at {at}")
        }
        Some(at) => {
            let n = at as usize;
            let (x, y) = (a.slice()[n], b.slice()[n]);
            format!("; {name} differ at byte {n} ({x:02X} and {y:02X})")
        }
    }
}

//! Shows a generated case, generated tables, a generated formula line, a generated conversion, a
//! generated call on rows, generated checks with a record, a generated call for the needs, or a module or
//! a line that is given, and the second program's answers.
//!
//! `show [--seed N] --case N`, `--write N`, `--formula N`, `--conversion N`, `--rows N`, `--records N` or
//! `--need N`, `show --module HEX`, `show --line LINE`

use second::args;
use second::check::{check, Checked};
use second::compare::describe;
use second::formula;
use second::formula::split;
use second::gen::case::Case;
use second::gen::conversions::ConvertCase;
use second::gen::lines::LineCase;
use second::gen::needs::NeedCase;
use second::gen::records::{RecordCall, RecordCase, RecordStep};
use second::gen::rows::MapCase;
use second::gen::tables::WriteCase;
use second::hex;
use second::need::needs;
use second::reader::{read, Module};
use second::rules::Rules;
use second::show::small;
use second::subject::{Second, Subject};

fn main() {
    args::expect(&[
        "--seed",
        "--case",
        "--write",
        "--formula",
        "--conversion",
        "--rows",
        "--records",
        "--need",
        "--module",
        "--line",
    ]);
    if let Some(line) = args::value("--line") {
        return show_line(line.as_bytes(), [2, 3, 5]);
    }
    if let Some(digits) = args::value("--module") {
        let Some(file) = hex::decode(&digits) else {
            eprintln!("--module needs hex digits");
            std::process::exit(2);
        };
        show_module(&file);
        print!("small program:\n{}", small(Rules::PLAIN, &file));
        return;
    }
    let seed = args::number("--seed", 1);
    let others: [(&str, fn(u64, u64)); 6] = [
        ("--write", show_write),
        ("--formula", show_formula),
        ("--conversion", show_conversion),
        ("--rows", show_rows),
        ("--records", show_records),
        ("--need", show_need),
    ];
    for (name, show) in others {
        if args::value(name).is_some() {
            return show(seed, args::number(name, 0));
        }
    }
    show_case(seed, args::number("--case", 0));
}

fn show_case(seed: u64, number: u64) {
    let case = Case::new(seed, number);
    println!("case {number} of seed {seed} ({})", case.kind);
    println!("module: {}", hex::encode(&case.module));
    show_module(&case.module);
    let answer = Second(Rules::PLAIN).check(&mut case.check_memory());
    println!("check with a room of {} bytes: {answer}", case.room.len());
    for run in &case.runs {
        let mut memory = case.run_memory(run);
        let answer = Second(Rules::PLAIN).run(run.start(), &mut memory);
        println!("run of {}: {answer}", describe(run));
        println!("  steps {}, height {}", memory.steps, memory.height);
        println!("  types {}", hex::encode(memory.types.slice()));
        println!("  payloads {}", hex::encode(memory.payloads.slice()));
        println!("  heap {}", hex::encode(memory.heap.slice()));
        println!("  blocks {}", hex::encode(memory.blocks.slice()));
    }
}

fn show_write(seed: u64, number: u64) {
    let case = WriteCase::new(seed, number);
    println!("tables {number} of seed {seed} ({})", case.kind);
    println!("{}", case.describe());
    let mut memory = case.memory();
    let answer = Second(Rules::PLAIN).write(&mut memory);
    println!("write: {answer}, length {}", memory.written);
    println!("output {}", hex::encode(memory.out.slice()));
}

fn show_formula(seed: u64, number: u64) {
    let case = LineCase::new(seed, number);
    println!("formula {number} of seed {seed} ({})", case.kind);
    println!("{}", case.describe());
    let mut memory = case.memory();
    let answer = Second(Rules::PLAIN).formula(&mut memory);
    println!("formula: {answer}, length {}", memory.written);
    show_line(&case.line, case.names[0]);
}

fn show_conversion(seed: u64, number: u64) {
    let case = ConvertCase::new(seed, number);
    println!("conversion {number} of seed {seed} ({})", case.kind);
    println!("{}", case.describe());
    show_module(&case.module);
    let mut memory = case.memory();
    let answer = Second(Rules::PLAIN).convert(case.to, &mut memory);
    println!("conversion: {answer}, length {}", memory.written);
    println!("output {}", hex::encode(memory.out.slice()));
    for run in &case.runs {
        println!("run of {}", describe(run));
    }
}

fn show_rows(seed: u64, number: u64) {
    let case = MapCase::new(seed, number);
    println!("rows {number} of seed {seed} ({})", case.kind);
    println!("{}", case.describe());
    show_module(&case.module);
    let mut memory = case.memory();
    let answer = Second(Rules::PLAIN).map(case.start(), &mut memory);
    println!("rows: {answer}, {} finished", memory.rows);
    println!("output {}", hex::encode(memory.out.slice()));
    println!("  types {}", hex::encode(memory.types.slice()));
    println!("  payloads {}", hex::encode(memory.payloads.slice()));
    println!("  heap {}", hex::encode(memory.heap.slice()));
    println!("  blocks {}", hex::encode(memory.blocks.slice()));
}

fn show_records(seed: u64, number: u64) {
    let case = RecordCase::new(seed, number);
    println!("records {number} of seed {seed} ({})", case.kind);
    for (n, step) in case.steps.iter().enumerate() {
        println!("step {n}: {}", step.describe());
        show_module(&step.module);
        show_step(step, case.shift);
    }
}

fn show_need(seed: u64, number: u64) {
    let case = NeedCase::new(seed, number);
    println!("need {number} of seed {seed} ({})", case.kind);
    println!("{}", case.describe());
    show_module(&case.module);
    let mut memory = case.memory();
    let answer = Second(Rules::PLAIN).need(&mut memory);
    let (body, written) = (memory.body, memory.written);
    println!("need: {answer}, body {body:08X}, length {written}");
    println!("report {}", hex::encode(memory.report.slice()));
    for run in &case.runs {
        println!("run of {}", describe(run));
    }
}

fn show_step(step: &RecordStep, shift: usize) {
    let mut second = Second(Rules::PLAIN);
    match &step.call {
        RecordCall::Full(room) => {
            let mut memory = step.full_memory(room, shift);
            let answer = second.check_recording(&mut memory);
            let (body, written) = (memory.body, memory.written);
            println!("full check: {answer}, body {body:08X}, length {written}");
            println!("  record {}", hex::encode(memory.record.slice()));
        }
        RecordCall::Body(body) => {
            let mut memory = step.body_memory(shift);
            let answer = second.check_body(*body, &mut memory);
            println!("check of {body:08X}: {answer}, first {:08X}", memory.first);
            println!("  record {}", hex::encode(memory.record.slice()));
        }
    }
}

fn show_line(line: &[u8], names: [u32; 3]) {
    match split::reading(line) {
        None => println!(
            "not in the grammar from byte {}",
            formula::place::place(line)
        ),
        Some(reading) => println!(
            "depth {}, operands {}, value on {names:?}: {:?}",
            reading.depth(),
            reading.operands(),
            reading.value(names)
        ),
    }
    match formula::module(Rules::PLAIN, line) {
        Err(number) => println!("refused: {number}"),
        Ok(file) => {
            println!("module: {}", hex::encode(&file));
            show_module(&file);
        }
    }
}

fn show_module(file: &[u8]) {
    let module = match read(Rules::PLAIN, file) {
        Ok(module) => module,
        Err(number) => return println!("can't be read: {number}"),
    };
    println!("edition {}", module.edition.word());
    for n in 0..module.constants {
        if let Some((ty, payload)) = module.constant(n) {
            println!("constant {n}: type {ty}, {payload:016X}");
        }
    }
    for ty in 10..10 + module.structures {
        let fields = module.fields(ty).unwrap_or_default();
        println!("structure {ty}: {}", hex::encode(fields));
    }
    for body in module.bodies() {
        show_body(module, body);
    }
    let mut room = vec![0; 64 * module.labels as usize];
    match check(Rules::PLAIN, file, &mut room) {
        Checked::NoTyping { body, reason } => println!("no typing: body {body:08X}, {reason:?}"),
        other => println!("check: {other:?}"),
    }
    for (n, need) in needs(Rules::PLAIN, file).iter().flatten().enumerate() {
        let body = n
            .checked_sub(1)
            .map_or("entry".to_string(), |n| n.to_string());
        println!(
            "need of {body}: {} slots, {} frames",
            need.slots, need.frames
        );
    }
}

fn show_body(module: Module<'_>, body: u32) {
    match module.function(body) {
        None => println!("entry:"),
        Some(function) => println!(
            "function {body} ({}), returns {}, profile {}:",
            hex::encode(&function.parameters),
            function.returns,
            function.profile
        ),
    }
    for place in module.starts(Rules::PLAIN, body).0 {
        for n in 0..module.labels {
            if module.label(n) == Some((body, place)) {
                println!("  label {n}");
            }
        }
        if let Some(at) = module.instruction(Rules::PLAIN, place) {
            let operand = if at.op.has_operand() {
                format!(" {}", at.operand)
            } else {
                String::new()
            };
            println!("  {place:>5}  {}{operand}", at.op.name());
        }
    }
}

//! Counts what generated cases reach.

use crate::check::Checked;
use crate::claims::{is_an_end_of_demand_3, Claims};
use crate::compare::{compare_conversions, compare_formulas};
use crate::edges;
use crate::formula::split;
use crate::gen::case::{Case, RunCall};
use crate::gen::conversions::ConvertCase;
use crate::gen::lines::LineCase;
use crate::gen::needs::NeedCase;
use crate::gen::records::{RecordCall, RecordCase, RecordStep};
use crate::gen::rows::MapCase;
use crate::gen::tables::WriteCase;
use crate::heap::{address, Address, Part};
use crate::machine::{Machine, Slot, Watch};
use crate::managed_edges::{self, Before};
use crate::need_edges;
use crate::opcode::{Edition, Op};
use crate::possible::{BY_MANAGED, IN_A_CELL};
use crate::profile_edges::{self, is_an_outcome};
use crate::record_edges;
use crate::row_edges;
use crate::rules::Rules;
use crate::subject::{checked_number, Second, Subject};
use crate::types::{is_address, DOUBLE, MANAGED, STRUCTURE};
use crate::worklist::Reason;
use std::collections::BTreeMap;

type Counts<K> = BTreeMap<K, u64>;

#[derive(Default)]
pub struct Coverage {
    /// By edition: 1, 4, or else 3.
    pub checks: Counts<(Edition, u32)>,
    pub runs: Counts<(Edition, u32)>,
    pub writes: Counts<(Edition, u32)>,
    /// By the edition that was asked for, and the module's.
    pub conversions: Counts<(Edition, Edition, u32)>,
    pub maps: Counts<(Edition, u32)>,
    /// Where the row is that ended a call with this number.
    pub row_places: Counts<(Edition, u32, &'static str)>,
    pub row_edges: Counts<(Edition, &'static str)>,
    /// Full checks that write records, and checks of a body.
    pub recordings: Counts<(Edition, u32)>,
    pub bodies: Counts<(Edition, u32)>,
    pub record_edges: Counts<(Edition, &'static str)>,
    /// Checks of a body that are not what the full check gives, though A10 promises it.
    pub unkept: u64,
    pub needs: Counts<(Edition, u32)>,
    pub need_edges: Counts<(Edition, &'static str)>,
    /// Runs on as many slots as they need that end in 20, with at most 64 frames.
    pub overflows: u64,
    pub formulas: Counts<u32>,
    pub line_edges: Counts<&'static str>,
    /// Lines by generator: all, and accepted ones.
    pub lines: Counts<&'static str>,
    pub accepted_lines: Counts<&'static str>,
    /// Lines that `formula` and `split` read differently, or whose module does otherwise.
    pub misread: u64,
    /// By opcode and variant, as in `possible::executions`.
    pub executed: Counts<(Edition, Op, u8)>,
    pub raised: Counts<(Edition, Op, u32)>,
    /// By opcode and bits: doubles that `toi` and `tol` met.
    pub converted: Counts<(Edition, Op, u64)>,
    pub reasons: Counts<(Edition, Reason)>,
    pub heap_edges: Counts<&'static str>,
    pub managed_edges: Counts<&'static str>,
    pub profile_edges: Counts<&'static str>,
    pub conversion_edges: Counts<&'static str>,
    /// Conversions that don't come back, or whose module does otherwise.
    pub unlike: u64,
    /// Arguments that didn't fit (20 without an instruction).
    pub misfits: u64,
    /// Modules by generator: all, and accepted ones.
    pub kinds: Counts<&'static str>,
    pub accepted: Counts<&'static str>,
    /// Runs of accepted modules that broke demand 3.
    pub broken: u64,
    /// The variant of the current instruction, and the place after it.
    variant: u8,
    next: usize,
    /// The double that it converts.
    double: Option<u64>,
    /// The heap before it, where it is `gcnew`.
    given: Option<Before>,
    /// Exceptions in the current run.
    raises: u64,
}

/// The edition by a file's first word.
fn edition_of(file: &[u8]) -> Edition {
    match file {
        [1, 0, 0, 0, ..] => Edition::One,
        [4, 0, 0, 0, ..] => Edition::Four,
        _ => Edition::Three,
    }
}

fn count<K: Ord>(counts: &mut Counts<K>, key: K) {
    *counts.entry(key).or_insert(0) += 1;
}

impl Coverage {
    pub fn add(&mut self, case: &Case) {
        let second = Second(Rules::PLAIN);
        let mut memory = case.check_memory();
        let checked = second.checked(&mut memory);
        let edition = edition_of(&case.module);
        count(&mut self.checks, (edition, checked_number(checked, &mut 0)));
        if let Checked::NoTyping { reason, .. } = checked {
            count(&mut self.reasons, (edition, reason));
        }
        count(&mut self.kinds, case.kind);
        let accepted = matches!(checked, Checked::Accepted)
            // too little room says nothing about typings
            || matches!(checked, Checked::Refused(10)) && accepted_with_room(case);
        if accepted {
            count(&mut self.accepted, case.kind);
        }
        for run in &case.runs {
            self.add_run(case, run, accepted);
        }
    }

    pub fn add_write(&mut self, case: &WriteCase) {
        let answer = Second(Rules::PLAIN).write(&mut case.memory());
        let edition = edition_of(&case.tables.edition.to_le_bytes());
        count(&mut self.writes, (edition, answer));
    }

    pub fn add_conversion(&mut self, case: &ConvertCase) {
        let mut second = Second(Rules::PLAIN);
        let answer = second.convert(case.to, &mut case.memory());
        let edition = edition_of(&case.module);
        count(&mut self.conversions, (case.to, edition, answer));
        let otherwise = compare_conversions(case, &mut second, &mut Second(Rules::PLAIN));
        self.unlike += u64::from(otherwise.is_some());
        for edge in profile_edges::of_conversion(case, answer) {
            count(&mut self.conversion_edges, edge);
        }
    }

    pub fn add_map(&mut self, case: &MapCase) {
        let mut memory = case.memory();
        let answer = Second(Rules::PLAIN).map(case.start(), &mut memory);
        let edition = edition_of(&case.module);
        count(&mut self.maps, (edition, answer));
        if let Some(place) = row_edges::place(case, answer, memory.rows) {
            count(&mut self.row_places, (edition, answer, place));
        }
        for edge in row_edges::of_map(case, answer, &memory) {
            count(&mut self.row_edges, (edition, edge));
        }
    }

    pub fn add_need(&mut self, case: &NeedCase) {
        let edition = edition_of(&case.module);
        let mut memory = case.memory();
        let answer = Second(Rules::PLAIN).need(&mut memory);
        count(&mut self.needs, (edition, answer));
        let mut edges = need_edges::of_call(case, answer, &memory);
        if answer == 0 {
            let (more, overflows) = need_edges::of_runs(case, memory.report.slice());
            edges.extend(more);
            self.overflows += overflows;
        }
        for edge in edges {
            count(&mut self.need_edges, (edition, edge));
        }
    }

    pub fn add_records(&mut self, case: &RecordCase) {
        for step in &case.steps {
            self.add_step(step, case.shift);
        }
    }

    fn add_step(&mut self, step: &RecordStep, shift: usize) {
        let mut second = Second(Rules::PLAIN);
        let edition = edition_of(&step.module);
        let edges = match &step.call {
            RecordCall::Full(room) => {
                let mut memory = step.full_memory(room, shift);
                let answer = second.check_recording(&mut memory);
                count(&mut self.recordings, (edition, answer));
                record_edges::of_full(step, answer, &memory)
            }
            RecordCall::Body(body) => {
                let mut memory = step.body_memory(shift);
                let answer = second.check_body(*body, &mut memory);
                count(&mut self.bodies, (edition, answer));
                let otherwise = step.otherwise(answer, &memory, &mut second);
                self.unkept += u64::from(step.promised && otherwise.is_some());
                record_edges::of_body(step, *body, answer, &memory, otherwise.is_some())
            }
        };
        for edge in edges {
            count(&mut self.record_edges, (edition, edge));
        }
    }

    pub fn add_line(&mut self, case: &LineCase) {
        let mut second = Second(Rules::PLAIN);
        let answer = second.formula(&mut case.memory());
        count(&mut self.formulas, answer);
        count(&mut self.lines, case.kind);
        let refusal = split::refusal(&case.line);
        if refusal.is_none() {
            count(&mut self.accepted_lines, case.kind);
        }
        let same = match refusal {
            Some(number) => answer == number,
            None => [0, 16].contains(&answer),
        };
        let otherwise = compare_formulas(case, &mut second, &mut Second(Rules::PLAIN));
        self.misread += u64::from(!same || otherwise.is_some());
        for edge in line_edges(case) {
            count(&mut self.line_edges, edge);
        }
    }

    fn add_run(&mut self, case: &Case, run: &RunCall, accepted: bool) {
        let mut memory = case.run_memory(run);
        self.raises = 0;
        let second = Second(Rules::PLAIN);
        let answer = second.run_watched(run.start(), &mut memory, self);
        let edition = edition_of(&case.module);
        count(&mut self.runs, (edition, answer));
        let misfit = answer == 20 && self.raises == 0;
        self.misfits += u64::from(misfit);
        for edge in profile_edges::of_run(&case.module, run, answer) {
            count(&mut self.profile_edges, edge);
        }
        if is_an_outcome(answer) {
            for edge in edges::lent(edition, run, misfit) {
                count(&mut self.heap_edges, edge);
            }
            for edge in managed_edges::of_run(&memory, edges::capacity(run)) {
                count(&mut self.managed_edges, edge);
            }
        }
        if accepted {
            let mut claims = Claims::default();
            let mut memory = case.run_memory(run);
            second.run_watched(run.start(), &mut memory, &mut claims);
            // "17 profile differs, after 13, no run in demand 3's sense"
            let refused = [12, 13, 17].contains(&answer);
            let ends = is_an_end_of_demand_3(edition, answer) || refused;
            self.broken += claims.broken + u64::from(!ends);
        }
    }
}

/// Which of `possible::LINE_EDGES` a line reaches.
fn line_edges(case: &LineCase) -> Vec<&'static str> {
    let mut edges = Vec::new();
    let mut reaches = |edge, holds: bool| edges.extend(holds.then_some(edge));
    let refusal = split::refusal(&case.line);
    let Some(reading) = split::reading(&case.line) else {
        // the same line with 1 for each long row of digits: is a number all that is wrong?
        let text = String::from_utf8_lossy(&case.line);
        let rows = text.split(|c: char| !c.is_ascii_digit());
        let long = rows.filter(|row| row.len() >= 10);
        let small = long.fold(text.to_string(), |text, row| text.replacen(row, "1", 1));
        let alone = split::reading(small.as_bytes()).is_some();
        reaches("too large alone", refusal == Some(41) && alone);
        return edges;
    };
    let (depth, operands) = (reading.depth(), reading.operands());
    reaches("256 bytes", refusal.is_none() && case.line.len() == 256);
    reaches("257 bytes in the grammar", case.line.len() == 257);
    reaches("16 deep", refusal.is_none() && depth == 16);
    reaches(
        "17 deep",
        refusal == Some(42) && depth == 17 && operands <= 32,
    );
    reaches("32 operands", refusal.is_none() && operands == 32);
    reaches("33 operands", refusal == Some(43) && operands == 33);
    reaches("42 and 43", refusal == Some(42) && operands > 32);
    reaches(
        "256 instructions",
        refusal.is_none() && reading.instructions() == 256,
    );
    let text = String::from_utf8_lossy(&case.line);
    reaches(
        "4294967295",
        refusal.is_none() && text.contains("4294967295"),
    );
    for &names in case.names.iter().filter(|_| refusal.is_none()) {
        reaches("value", reading.value(names).is_some());
        reaches("quotient by zero", reading.value(names).is_none());
    }
    edges
}

fn accepted_with_room(case: &Case) -> bool {
    let mut room = vec![0; 64 * 256];
    crate::check::check(Rules::PLAIN, &case.module, &mut room) == Checked::Accepted
}

/// The type of what a pointer leads to, whether it is in a cell, and whether the pointer is managed.
fn target(machine: &Machine<'_>, pointer: Option<Slot>) -> u8 {
    let Some(pointer) = pointer.filter(|slot| is_address(slot.ty)) else {
        return 0;
    };
    let by = if pointer.ty == MANAGED { BY_MANAGED } else { 0 };
    match address(pointer.payload) {
        Address::Null => 0,
        Address::Slot(slot) => machine.stack.get(slot as usize).map_or(0, |slot| slot.ty),
        Address::Block { serial, part } => match machine.heap.part(serial, part) {
            Some(Part::Number { ty, .. }) => IN_A_CELL | by | ty,
            Some(Part::Structure) => by | STRUCTURE,
            None => 0,
        },
    }
}

/// What is known of an instruction's variant before it.
fn variant(machine: &Machine<'_>, op: Op) -> u8 {
    let top = machine.stack.last().copied();
    let through = machine.module.edition.has_pointers();
    match op {
        Op::Inc | Op::Dec | Op::Tload if through => target(machine, top),
        Op::Delete => target(machine, top) & !IN_A_CELL,
        Op::Tstore => {
            let ty = top.map_or(0, |slot| slot.ty);
            let under = machine.stack.iter().rev().nth(1).copied();
            ty | target(machine, under) & (IN_A_CELL | BY_MANAGED)
        }
        Op::Lea => {
            let at = machine.module.instruction(Rules::PLAIN, machine.place);
            let n = at.map_or(0, |at| at.operand);
            let slot = machine.frame().locals.get(n as usize);
            slot.map_or(0, |&slot| machine.stack[slot].ty)
        }
        Op::Ret => machine
            .module
            .function(machine.frame().body)
            .map_or(0, |f| crate::types::run_time(f.returns)),
        Op::Jmp | Op::Call | Op::Null | Op::GcNull => 0,
        _ => top.map_or(0, |slot| slot.ty),
    }
}

impl Watch for Coverage {
    fn before(&mut self, machine: &Machine<'_>, op: Op) {
        self.variant = variant(machine, op);
        let at = machine.module.instruction(Rules::PLAIN, machine.place);
        self.next = at.map_or(0, |at| at.next);
        let top = machine.stack.last().filter(|slot| slot.ty == DOUBLE);
        let converts = matches!(op, Op::Toi | Op::Tol);
        self.double = top.filter(|_| converts).map(|slot| slot.payload);
        let gives = at.filter(|_| op == Op::GcNew);
        self.given = gives.map(|at| Before::new(machine, at.operand));
    }

    fn after(&mut self, machine: &Machine<'_>, op: Op, raised: Option<u32>) {
        let edition = machine.module.edition;
        if let Some(bits) = self.double.filter(|_| [None, Some(44)].contains(&raised)) {
            count(&mut self.converted, (edition, op, bits));
        }
        if let Some(number) = raised {
            self.raises += 1;
            if let Some(edge) = managed_edges::raised(machine, op, number) {
                count(&mut self.managed_edges, edge);
            }
            return count(&mut self.raised, (edition, op, number));
        }
        let top = machine.stack.last().copied();
        let variant = match op {
            Op::Push | Op::Load => top.map_or(0, |slot| slot.ty),
            Op::Flea => target(machine, top) & !IN_A_CELL,
            Op::New | Op::GcNew => target(machine, top) & !(IN_A_CELL | BY_MANAGED),
            op if op.is_conditional() => u8::from(machine.place != self.next),
            _ => self.variant,
        };
        self.of_heap(machine, op);
        count(&mut self.executed, (edition, op, variant));
    }
}

impl Coverage {
    /// By what an instruction of the heap did.
    fn of_heap(&mut self, machine: &Machine<'_>, op: Op) {
        if op == Op::New {
            for edge in edges::given(machine) {
                count(&mut self.heap_edges, edge);
            }
            if let Some(edge) = managed_edges::of_new(machine) {
                count(&mut self.managed_edges, edge);
            }
        }
        if let Some(before) = self.given.take() {
            for edge in before.of_gcnew(machine) {
                count(&mut self.managed_edges, edge);
            }
        }
        if op.is_of_the_heap() {
            if let Some(edge) = edges::left(&machine.heap) {
                count(&mut self.heap_edges, edge);
            }
        }
    }
}

//! A chain: a module of several bodies, a full check, then edits, each followed by a check of a body
//! with the record that the call before left.

use super::strange::spoil;
use super::{lent_length, record_of, RecordCall, RecordStep};
use crate::gen::case::{edition, heap_program, readable, room};
use crate::gen::edits;
use crate::gen::near;
use crate::gen::profiles::given;
use crate::gen::rng::Rng;
use crate::gen::typed::{self, Size};
use crate::opcode::Op;
use crate::program::{Instr, Program, Routine};
use crate::reader::read;
use crate::recording::check_body;
use crate::rules::Rules;
use std::collections::BTreeSet;

struct Chain {
    original: Program,
    program: Program,
    record: Vec<u8>,
    /// Bodies whose bytes may be wrong, by no fault of the checks.
    stale: BTreeSet<u32>,
    steps: Vec<RecordStep>,
}

pub fn steps(rng: &mut Rng) -> (&'static str, Vec<RecordStep>) {
    let (kind, mut program) = start(rng);
    for owner in program.owners() {
        if rng.percent(15) {
            edits::spoil(rng, &mut program, owner);
        }
    }
    let file = program.file();
    let Some(record) = record_of(&file) else {
        return (kind, vec![full(rng, "unreadable", file, 12)]);
    };
    let mut chain = Chain {
        original: program.clone(),
        steps: vec![full(rng, "at first", file, record.len())],
        program,
        record,
        stale: BTreeSet::new(),
    };
    for _ in 0..rng.pick(&[1, 2, 3, 4, 6, 9]) {
        chain.next(rng);
    }
    (kind, chain.steps)
}

/// A program of some functions.
fn start(rng: &mut Rng) -> (&'static str, Program) {
    let edition = edition(rng);
    let (kind, program) = match rng.below(20) {
        0..=10 => {
            let size = Size {
                functions: rng.range(1, 6),
                statements: rng.pick(&[2, 4, 8, 15]),
            };
            ("chain", typed::program(rng, edition, size))
        }
        11..=13 => {
            let size = Size {
                functions: rng.range(1, 4),
                statements: 8,
            };
            let mut program = typed::program(rng, edition, size);
            near::change(rng, &mut program);
            ("chain from a near miss", program)
        }
        14 => {
            let mut program = Program {
                edition,
                ..Program::default()
            };
            program.functions = vec![returning(); rng.pick(&[127, 128, 128])];
            ("chain of many", program)
        }
        15..=17 if edition.has_heap() => ("chain on a heap", heap_program(rng).1),
        _ => {
            let kind = rng.below(88);
            ("chain of any", readable(rng, edition, kind).1)
        }
    };
    (kind, given(rng, program))
}

/// A function that returns at once.
fn returning() -> Routine {
    Routine {
        code: vec![Instr {
            op: Op::Ret,
            operand: 0,
        }],
        ..Routine::default()
    }
}

/// A full check with room and record that are mostly enough.
fn full(rng: &mut Rng, note: &'static str, module: Vec<u8>, needed: usize) -> RecordStep {
    let room = room(rng, &module);
    let record = lent_length(rng, needed);
    RecordStep {
        note,
        module,
        call: RecordCall::Full(room),
        record: rng.bytes(record),
        promised: false,
    }
}

impl Chain {
    fn next(&mut self, rng: &mut Rng) {
        let mut program = self.program.clone();
        let owners = program.owners();
        let owner = pick_body(rng, &owners);
        match rng.below(24) {
            0..=14 => {
                edits::edit(rng, &mut program, owner, &self.original);
                self.body("edited", program, owner);
            }
            15 => {
                // the edited body is not named
                edits::edit(rng, &mut program, owner, &self.original);
                let mut stale = self.stale.clone();
                stale.insert(owner);
                let named = pick_body(rng, &owners);
                if self.body("another body edited", program, named) {
                    stale.remove(&named);
                    self.stale = stale;
                    self.mark_last();
                }
            }
            16 => self.body_as_it_is(owner),
            17 => {
                edits::change_profiles(rng, &mut program);
                self.body("profiles changed", program, owner);
            }
            18 => {
                edits::change_constants(rng, &mut program);
                self.body("constants changed", program, owner);
            }
            19 => self.more(rng),
            20 | 21 => self.damaged(rng, owner),
            _ => self.again(rng),
        }
    }

    fn body_as_it_is(&mut self, owner: u32) {
        self.body("nothing changed", self.program.clone(), owner);
    }

    /// The check of a body; does the chain go on from here? Not where the module can't be read.
    fn body(&mut self, note: &'static str, program: Program, body: u32) -> bool {
        let module = program.file();
        let before = self.record.clone();
        let mut first = 0;
        check_body(Rules::PLAIN, &module, body, &mut self.record, &mut first);
        let readable = read(Rules::PLAIN, &module).is_ok();
        if readable {
            self.program = program;
            self.stale.remove(&body);
        }
        self.steps.push(RecordStep {
            note,
            module,
            call: RecordCall::Body(body),
            record: before,
            promised: readable && self.stale.is_empty(),
        });
        readable
    }

    /// Nothing is promised of the last step where some bodies' bytes are of another code.
    fn mark_last(&mut self) {
        if let Some(last) = self.steps.last_mut() {
            last.promised = self.stale.is_empty();
        }
    }

    /// A change of more than one body: the answer is what the record says.
    fn more(&mut self, rng: &mut Rng) {
        let mut program = self.program.clone();
        edits::change_more(rng, &mut program);
        let owner = pick_body(rng, &program.owners());
        let mut stale: BTreeSet<u32> = program.owners().into_iter().collect();
        stale.remove(&owner);
        let count = program.functions.len() == self.program.functions.len();
        if self.body("more changed", program, owner) {
            self.stale = stale;
            self.mark_last();
            if !count {
                // 45: a full check is due
                self.stale.insert(owner);
                self.mark_last();
                self.again(rng);
            }
        }
    }

    /// A full check, after which all bytes are right again.
    fn again(&mut self, rng: &mut Rng) {
        let file = self.program.file();
        let Some(record) = record_of(&file) else {
            return;
        };
        self.steps.push(full(rng, "again", file, record.len()));
        self.record = record;
        self.stale.clear();
    }

    /// A bad record, or a body that is not there; the chain goes on as before it.
    fn damaged(&mut self, rng: &mut Rng, owner: u32) {
        let mut record = self.record.clone();
        let count = self.program.functions.len() as u32;
        let mut body = owner;
        if rng.percent(40) {
            body = rng.pick(&[count, count, count + 1, 0xFFFF_FFFE, 0x8000_0000, 128]);
        }
        if body == owner || rng.one_in(2) {
            spoil(rng, owner, &mut record);
        }
        self.steps.push(RecordStep {
            note: "record damaged",
            module: self.program.file(),
            call: RecordCall::Body(body),
            record,
            promised: false,
        });
    }
}

/// The entry, the first and the last function more often than others.
fn pick_body(rng: &mut Rng, owners: &[u32]) -> u32 {
    match rng.below(8) {
        0 => owners[0],
        1 => owners[owners.len() - 1],
        2 if owners.len() > 1 => owners[1],
        _ => rng.pick(owners),
    }
}

//! Well-typed programs of several functions.

use super::body::{Body, Shared, Signature};
use super::constants::pool;
use super::rng::Rng;
use super::structures;
use crate::judge::Lists;
use crate::opcode::{Edition, Op};
use crate::program::{Instr, Mark, Program, Routine};
use crate::reader::ENTRY;
use crate::types::NUMBERS;

/// How large the program may become.
#[derive(Clone, Copy)]
pub struct Size {
    pub functions: usize,
    pub statements: usize,
}

pub fn size(rng: &mut Rng) -> Size {
    if rng.one_in(80) {
        return Size {
            functions: rng.range(10, 40),
            statements: 40,
        };
    }
    let functions = rng.pick(&[0, 0, 1, 1, 2, 3, 4, 6]);
    let statements = rng.pick(&[2, 5, 8, 12, 20, 30]);
    Size {
        functions,
        statements,
    }
}

/// A signature of a module with this many structures.
pub fn signature(rng: &mut Rng, edition: Edition, structures: usize) -> Signature {
    let count = rng.pick(&[0, 0, 1, 1, 2, 2, 3, 4, 8]);
    let parameters = (0..count)
        .map(|_| {
            if rng.percent(70) {
                rng.pick(&NUMBERS)
            } else {
                rng.pick(&structures::parameters(edition, structures))
            }
        })
        .collect();
    (parameters, structures::returns(rng, edition, structures))
}

pub fn program(rng: &mut Rng, edition: Edition, size: Size) -> Program {
    let extra = rng.range(0, 8);
    let structures = structures::declared(rng, edition);
    let shared = Shared {
        edition,
        ops: edition.ops(),
        constants: pool(rng, extra),
        signatures: (0..size.functions)
            .map(|_| signature(rng, edition, structures.len()))
            .collect(),
        structures,
    };
    let mut builder = Builder {
        program: Program {
            edition,
            constants: shared.constants.clone(),
            structures: shared.structures.clone(),
            ..Program::default()
        },
        places: Vec::new(),
    };
    for n in 0..size.functions {
        let (parameters, returns) = shared.signatures[n].clone();
        builder.program.functions.push(Routine {
            parameters,
            returns,
            code: Vec::new(),
            ..Routine::default()
        });
    }
    let limit = (200 / (size.functions + 1)).clamp(4, 14);
    for owner in builder.program.owners() {
        let statements = rng.range(0, size.statements);
        let body = body(rng, &shared, owner, statements, limit);
        builder.add(rng, owner, &body);
    }
    builder.number_labels(rng);
    builder.program
}

fn body<'a>(
    rng: &mut Rng,
    shared: &'a Shared,
    owner: u32,
    statements: usize,
    label_limit: usize,
) -> Body<'a> {
    let signature = shared.signatures.get(owner as usize);
    let mut body = Body {
        shared,
        items: Vec::new(),
        marks: Vec::new(),
        lists: Lists {
            locals: signature.map_or(Vec::new(), |s| s.0.clone()),
            operands: Vec::new(),
        },
        may_bind: true,
        label_limit,
        returns: signature.map(|s| s.1),
        later: signature.map_or(0, |_| owner as usize + 1),
    };
    body.block(rng, statements, 3);
    match body.returns {
        Some(returns) => {
            if returns != 0 {
                body.produce(rng, returns);
            }
            body.emit(Op::Ret, 0);
            body.dead_code(rng);
        }
        None => {
            // a label can't be on the entry's end
            while body.marks.contains(&body.items.len()) {
                body.simple(rng);
            }
        }
    }
    body
}

/// Puts bodies together and numbers their labels over the module.
struct Builder {
    program: Program,
    /// Labels in the order of the bodies.
    places: Vec<Mark>,
}

impl Builder {
    fn add(&mut self, rng: &mut Rng, owner: u32, body: &Body<'_>) {
        let base = self.places.len() as u32;
        let code = body.items.iter().map(|item| {
            let own = item.op.has_label() && !item.raw;
            let operand = item.operand + if own { base } else { 0 };
            Instr {
                op: item.op,
                operand,
            }
        });
        *self.program.body_mut(owner) = code.collect();
        let marks = body.marks.iter().map(|&index| Mark { owner, index });
        self.places.extend(marks);
        let length = body.items.len();
        if length > 0 && self.places.len() < 240 {
            for _ in 0..rng.pick(&[0, 0, 1, 2, 3]) {
                let index = rng.below(length);
                self.places.push(Mark { owner, index });
            }
        }
    }

    /// Gives the labels numbers in any order.
    fn number_labels(&mut self, rng: &mut Rng) {
        let mut order: Vec<usize> = (0..self.places.len()).collect();
        rng.shuffle(&mut order);
        let mut labels = vec![
            Mark {
                owner: ENTRY,
                index: 0
            };
            order.len()
        ];
        for (old, &new) in order.iter().enumerate() {
            labels[new] = self.places[old];
        }
        self.program.labels = labels;
        for owner in self.program.owners() {
            for instr in self.program.body_mut(owner) {
                if instr.op.has_label() {
                    if let Some(&new) = order.get(instr.operand as usize) {
                        instr.operand = new as u32;
                    }
                }
            }
        }
    }
}

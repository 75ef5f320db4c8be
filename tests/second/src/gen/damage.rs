//! Damaged files: fields of the header and of records, opcode bytes, length, single bits.

use super::rng::Rng;
use crate::opcode::Edition;
use crate::program::{Mark, Program};
use crate::reader::{function_size, header, CONSTANT, LABEL, STRUCTURE_RECORD};
use crate::words::word;

/// Bytes that are no opcode of edition 3, of edition 4, and of edition 1.
const UNKNOWN: [u8; 14] = [
    0x00, 0x06, 0x29, 0x2A, 0x2D, 0x2F, 0x30, 0x31, 0x32, 0x33, 0x34, 0x35, 0x80, 0xFF,
];
const HEAP_UNKNOWN: [u8; 8] = [0x00, 0x29, 0x2A, 0x2D, 0x2F, 0x35, 0x36, 0xFF];
const OLD_UNKNOWN: [u8; 10] = [0x00, 0x26, 0x26, 0x26, 0x27, 0x28, 0x2B, 0x2E, 0x80, 0xFF];

struct Damage<'a> {
    program: &'a Program,
    file: Vec<u8>,
}

/// The program's file with one to three faults.
pub fn file(rng: &mut Rng, program: &Program) -> Vec<u8> {
    let mut damage = Damage {
        program,
        file: program.file(),
    };
    for _ in 0..rng.pick(&[1, 1, 1, 2, 2, 3]) {
        let kind = rng.below(20);
        damage.once(rng, kind);
    }
    damage.file
}

/// The same, with faults in records, code and entry length alone: lengths and offsets stay.
pub fn records(rng: &mut Rng, program: &Program) -> Vec<u8> {
    let mut damage = Damage {
        program,
        file: program.file(),
    };
    for _ in 0..rng.pick(&[1, 1, 1, 2, 2, 3]) {
        let kind = rng.range(7, 19);
        damage.once(rng, kind);
    }
    damage.file
}

impl Damage<'_> {
    /// One of twenty kinds of faults; from 7 on they are in records, code and entry length.
    fn once(&mut self, rng: &mut Rng, kind: usize) {
        match kind {
            0 if rng.one_in(4) => self.edition(rng),
            0..=2 => self.header(rng),
            3 => self.bit(rng, header(self.program.edition)),
            4 => {
                let len = self.file.len();
                self.bit(rng, len);
            }
            5 => self.cut(rng),
            6 => self.lengthen(rng),
            7 | 8 => self.constant(rng),
            9..=12 => self.function(rng),
            13 | 14 if !self.program.structures.is_empty() => self.structure(rng),
            13..=15 => self.label(rng),
            16 => self.entry_length(rng),
            _ => self.opcode(rng),
        }
    }

    fn put_byte(&mut self, at: usize, byte: u8) {
        if let Some(place) = self.file.get_mut(at) {
            *place = byte;
        }
    }

    fn put_word(&mut self, at: usize, word: u32) {
        for (n, byte) in word.to_le_bytes().into_iter().enumerate() {
            self.put_byte(at + n, byte);
        }
    }

    fn change_word(&mut self, rng: &mut Rng, at: usize) {
        if at + 4 > self.file.len() {
            return;
        }
        let old = word(&self.file, at);
        let new = match rng.below(8) {
            0 | 1 => old.wrapping_add(1),
            2 | 3 => old.wrapping_sub(1),
            4 => 0,
            5 => rng.below(40) as u32,
            6 => old ^ (1 << rng.below(32)),
            _ => rng.pick(&[
                0xFFFF_FFFF,
                0x8000_0000,
                1025,
                129,
                257,
                16_385,
                17,
                0xFFFF_FFF0,
            ]),
        };
        self.put_word(at, new);
    }

    fn header(&mut self, rng: &mut Rng) {
        let mut offsets = vec![12, 20, 28, 36];
        if self.program.edition.has_heap() {
            offsets.extend([48, 52]);
        }
        let none = self.program.edition.has_heap() && self.program.structures.is_empty();
        let at = if none && rng.percent(50) {
            52
        } else if rng.percent(30) {
            rng.pick(&offsets)
        } else {
            4 * rng.below(header(self.program.edition) / 4)
        };
        self.change_word(rng, at);
    }

    /// The other edition, or none.
    fn edition(&mut self, rng: &mut Rng) {
        let word = rng.pick(&[0, 1, 1, 2, 2, 3, 3, 4, 4, 5, 0x0100_0001, 0x0000_0301]);
        self.put_word(0, word);
    }

    fn entry_length(&mut self, rng: &mut Rng) {
        self.change_word(rng, 40);
    }

    fn bit(&mut self, rng: &mut Rng, below: usize) {
        let at = rng.below(below.min(self.file.len()));
        if let Some(byte) = self.file.get_mut(at) {
            *byte ^= 1 << rng.below(8);
        }
    }

    fn cut(&mut self, rng: &mut Rng) {
        let len = match rng.below(3) {
            0 => rng.below(header(self.program.edition) + 1),
            1 => self.file.len().saturating_sub(rng.range(1, 4)),
            _ => rng.below(self.file.len() + 1),
        };
        self.file.truncate(len);
        self.fix_length(rng);
    }

    fn lengthen(&mut self, rng: &mut Rng) {
        let count = rng.range(1, 6);
        let bytes = rng.bytes(count);
        self.file.extend(bytes);
        self.fix_length(rng);
    }

    /// Half the time the length word follows the length.
    fn fix_length(&mut self, rng: &mut Rng) {
        if rng.percent(50) {
            let len = self.file.len() as u32;
            self.put_word(4, len);
        }
    }

    fn constant(&mut self, rng: &mut Rng) {
        let count = self.program.constants.len();
        let at = header(self.program.edition) + CONSTANT * rng.below(count);
        match rng.below(4) {
            0 => {
                let ty = rng.pick(&[0, 1, 2, 5, 7, 8, 0x83, 0x86]);
                self.put_byte(at, ty);
            }
            1 => {
                let byte = at + rng.range(1, 3);
                self.put_byte(byte, 1);
            }
            _ => {
                let byte = at + 4 + rng.range(4, 7);
                self.put_byte(byte, 1);
            }
        }
    }

    fn function(&mut self, rng: &mut Rng) {
        let count = self.program.functions.len();
        let functions_at = header(self.program.edition) + CONSTANT * self.program.constants.len();
        let size = function_size(self.program.edition);
        let at = functions_at + size * rng.below(count);
        match rng.below(9) {
            0 => self.change_word(rng, at),
            1 => self.change_word(rng, at + 4),
            2 => {
                let count = rng.pick(&[0, 1, 7, 8, 9, 255]);
                self.put_byte(at + 8, count);
            }
            3 => {
                let ty = rng.pick(&[
                    0, 1, 3, 5, 7, 8, 0x43, 0x4A, 0x80, 0x83, 0x86, 0x8A, 0x8B, 0x99, 0x9A, 0xC0,
                    0xC3, 0xC4, 0xC5, 0xCA, 0xCB, 0xD9, 0xDA,
                ]);
                self.put_byte(at + 9, ty);
            }
            4..=6 => {
                let byte = at + rng.range(10, 17);
                let ty = rng.pick(&[
                    0, 3, 4, 5, 6, 7, 8, 10, 0x43, 0x80, 0x80, 0x83, 0x87, 0x89, 0x8A, 0x8B, 0x8E,
                    0x99, 0x9A, 0xC0, 0xC0, 0xC3, 0xC6, 0xC7, 0xC9, 0xCA, 0xCB, 0xCE, 0xD9, 0xDA,
                    0xFF,
                ]);
                self.put_byte(byte, ty);
            }
            // any profile is good; the other editions have the next record there
            7 => self.change_word(rng, at + 20),
            _ => {
                let byte = at + rng.range(18, 19);
                self.put_byte(byte, 1);
            }
        }
    }

    /// A bad field count, field type, unused byte or zero.
    fn structure(&mut self, rng: &mut Rng) {
        let count = self.program.structures.len();
        let n = rng.below(count);
        let code: usize = self
            .program
            .owners()
            .into_iter()
            .map(|o| self.body_size(o))
            .sum();
        let at = self.code_at() + code + STRUCTURE_RECORD * n;
        let fields = self.program.structures[n].len();
        match rng.below(6) {
            0 | 1 => {
                let more = (fields + 1) as u8;
                let count = rng.pick(&[0, 0, more, (fields - 1) as u8, 9, 255]);
                self.put_byte(at, count);
            }
            2 | 3 => {
                let field = at + rng.range(1, fields);
                let ty = rng.pick(&[0, 1, 5, 7, 8, 10, 0x80, 0x83, 0x84, 0x86, 0xC3]);
                self.put_byte(field, ty);
            }
            4 if fields < 8 => {
                let unused = at + rng.range(fields + 1, 8);
                let ty = rng.pick(&[3, 4, 6, 1]);
                self.put_byte(unused, ty);
            }
            _ => {
                let zero = at + rng.range(9, 11);
                self.put_byte(zero, 1);
            }
        }
    }

    /// Bytes of a body's code.
    fn body_size(&self, owner: u32) -> usize {
        let code = self.program.body(owner);
        code.iter().map(|instr| instr.op.size()).sum()
    }

    fn label(&mut self, rng: &mut Rng) {
        let count = self.program.labels.len();
        let n = rng.below(count);
        let at = self.code_at() - LABEL * (count - n);
        match rng.below(5) {
            0 => {
                let functions = self.program.functions.len() as u32;
                let owner = rng.pick(&[functions, functions + 1, 0, 0xFFFF_FFFE, 0xFFFF_FFFF]);
                self.put_word(at, owner);
            }
            1 if count > 0 => {
                let owner = self.program.labels[n].owner;
                let index = self.program.body(owner).len();
                let end = self.program.place(Mark { owner, index }) as u32;
                self.put_word(at + 4, end);
            }
            _ => self.change_word(rng, at + 4),
        }
    }

    fn code_at(&self) -> usize {
        header(self.program.edition)
            + CONSTANT * self.program.constants.len()
            + function_size(self.program.edition) * self.program.functions.len()
            + LABEL * self.program.labels.len()
    }

    /// An unknown byte, or another opcode, at an instruction start.
    fn opcode(&mut self, rng: &mut Rng) {
        let owners = self.program.owners();
        let owner = rng.pick(&owners);
        let length = self.program.body(owner).len();
        let index = if rng.percent(30) {
            length.saturating_sub(1)
        } else {
            rng.below(length)
        };
        let place = self.program.place(Mark { owner, index });
        let (unknown, others): (&[u8], &[u8]) = match self.program.edition {
            Edition::One => (&OLD_UNKNOWN, &[0x01, 0x1A, 0x21, 0x22, 0x23, 0x25]),
            Edition::Three => (&UNKNOWN, &[0x01, 0x20, 0x27, 0x28, 0x2B]),
            Edition::Four => (
                &HEAP_UNKNOWN,
                &[0x01, 0x06, 0x28, 0x30, 0x31, 0x32, 0x33, 0x34],
            ),
        };
        let from = if rng.percent(60) { unknown } else { others };
        let byte = rng.pick(from);
        let at = self.code_at() + place;
        self.put_byte(at, byte);
    }
}

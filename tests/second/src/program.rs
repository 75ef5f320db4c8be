//! A module in parts that can be changed and written as a file.

use crate::opcode::{Edition, Op};
use crate::reader::{function_size, header, CONSTANT, ENTRY, LABEL, STRUCTURE_RECORD};
use crate::types::{is_managed, is_number, structure};

#[derive(Clone, Copy, Debug, PartialEq, Eq)]
pub struct Constant {
    pub ty: u32,
    pub payload: u64,
}

/// An opcode byte with its operand, which is written where the opcode has one.
#[derive(Clone, Copy, Debug, PartialEq, Eq)]
pub struct Instr {
    pub op: Op,
    pub operand: u32,
}

#[derive(Clone, Debug, Default, PartialEq, Eq)]
pub struct Routine {
    pub parameters: Vec<u8>,
    pub returns: u8,
    /// Written in edition 4.
    pub profile: u32,
    pub code: Vec<Instr>,
}

/// A label on the instruction of this index in its owner's body (the body's end, if the index
/// is the number of instructions).
#[derive(Clone, Copy, Debug, PartialEq, Eq)]
pub struct Mark {
    pub owner: u32,
    pub index: usize,
}

#[derive(Clone, Debug, Default, PartialEq, Eq)]
pub struct Program {
    pub edition: Edition,
    pub constants: Vec<Constant>,
    pub entry: Vec<Instr>,
    pub functions: Vec<Routine>,
    pub labels: Vec<Mark>,
    /// The field types of each structure; written in edition 4.
    pub structures: Vec<Vec<u8>>,
}

fn size(code: &[Instr]) -> usize {
    code.iter().map(|instr| instr.op.size()).sum()
}

fn put(bytes: &mut Vec<u8>, word: usize) {
    bytes.extend((word as u32).to_le_bytes());
}

impl Program {
    /// The code of the entry or of a function.
    pub fn body(&self, owner: u32) -> &[Instr] {
        match self.functions.get(owner as usize) {
            Some(routine) => &routine.code,
            None => &self.entry,
        }
    }

    pub fn body_mut(&mut self, owner: u32) -> &mut Vec<Instr> {
        match self.functions.get_mut(owner as usize) {
            Some(routine) => &mut routine.code,
            None => &mut self.entry,
        }
    }

    pub fn owners(&self) -> Vec<u32> {
        let functions = 0..self.functions.len() as u32;
        std::iter::once(ENTRY).chain(functions).collect()
    }

    /// Where a body starts in the code.
    pub fn start(&self, owner: u32) -> usize {
        if owner == ENTRY {
            return 0;
        }
        let before = self.functions.iter().take(owner as usize);
        size(&self.entry) + before.map(|f| size(&f.code)).sum::<usize>()
    }

    /// The place of a label.
    pub fn place(&self, mark: Mark) -> usize {
        let code = self.body(mark.owner);
        self.start(mark.owner) + size(&code[..mark.index.min(code.len())])
    }

    /// Has the edition all opcodes and types of the program?
    pub fn fits(&self, edition: Edition) -> bool {
        let bodies = self.owners();
        let mut code = bodies.iter().flat_map(|&owner| self.body(owner));
        let signature = |f: &Routine| [&f.parameters[..], &[f.returns]].concat();
        let mut types = self.functions.iter().flat_map(signature);
        let known = |ty: u8| match edition {
            Edition::One => ty == 0 || is_number(ty),
            Edition::Three => structure(ty).is_none() && !is_managed(ty),
            Edition::Four => true,
        };
        code.all(|instr| instr.op.byte(edition).is_some())
            && types.all(known)
            && (edition.has_heap() || self.structures.is_empty())
            && (edition.has_profiles() || self.functions.iter().all(|f| f.profile == 0))
    }

    /// The module file.
    pub fn file(&self) -> Vec<u8> {
        let mut bytes = Vec::new();
        self.put_header(&mut bytes);
        for constant in &self.constants {
            put(&mut bytes, constant.ty as usize);
            bytes.extend(constant.payload.to_le_bytes());
        }
        let mut start = size(&self.entry);
        for function in &self.functions {
            put_function(&mut bytes, function, start);
            if self.edition.has_profiles() {
                put(&mut bytes, function.profile as usize);
            }
            start += size(&function.code);
        }
        for &mark in &self.labels {
            put(&mut bytes, mark.owner as usize);
            put(&mut bytes, self.place(mark));
        }
        put_code(&mut bytes, self.edition, &self.entry);
        for function in &self.functions {
            put_code(&mut bytes, self.edition, &function.code);
        }
        if self.edition.has_heap() {
            for fields in &self.structures {
                put_structure(&mut bytes, fields);
            }
        }
        bytes
    }

    fn put_header(&self, bytes: &mut Vec<u8>) {
        let code: usize =
            size(&self.entry) + self.functions.iter().map(|f| size(&f.code)).sum::<usize>();
        let constants_at = header(self.edition);
        let functions_at = constants_at + CONSTANT * self.constants.len();
        let labels_at = functions_at + function_size(self.edition) * self.functions.len();
        let code_at = labels_at + LABEL * self.labels.len();
        put(bytes, self.edition.word() as usize);
        let mut structures = 0;
        if self.edition.has_heap() {
            structures = self.structures.len();
        }
        put(bytes, code_at + code + STRUCTURE_RECORD * structures);
        for (count, offset) in [
            (self.constants.len(), constants_at),
            (self.functions.len(), functions_at),
            (self.labels.len(), labels_at),
            (code, code_at),
            (size(&self.entry), 0),
        ] {
            put(bytes, count);
            put(bytes, offset);
        }
        if self.edition.has_heap() {
            put(bytes, structures);
            put(bytes, code_at + code);
        }
    }
}

/// "field count 1 to 8, eight type bytes (3, 4, 6, unused 0), three zeros"
fn put_structure(bytes: &mut Vec<u8>, fields: &[u8]) {
    bytes.push(fields.len() as u8);
    let mut record = fields.to_vec();
    record.resize(STRUCTURE_RECORD - 1, 0);
    bytes.extend(record);
}

fn put_function(bytes: &mut Vec<u8>, function: &Routine, start: usize) {
    put(bytes, start);
    put(bytes, size(&function.code));
    bytes.push(function.parameters.len() as u8);
    bytes.push(function.returns);
    let mut types = function.parameters.clone();
    types.resize(8, 0);
    bytes.extend(types);
    bytes.extend([0, 0]);
}

/// An opcode that the edition lacks becomes a byte that is no opcode of it.
fn put_code(bytes: &mut Vec<u8>, edition: Edition, code: &[Instr]) {
    let none = if edition == Edition::One { 0x26 } else { 0x2F };
    for instr in code {
        bytes.push(instr.op.byte(edition).unwrap_or(none));
        if instr.op.has_operand() {
            bytes.extend(instr.operand.to_le_bytes());
        }
    }
}

//! The reader: answers 1 to 9, and the view of a module that can be read.

use crate::opcode::{Edition, Op};
use crate::rules::{Fault, Rules};
use crate::types::{is_managed, is_number, pointee, structure, GCNULL, INT, NULL, STRUCTURE};
use crate::words::{payload, word};
use std::ops::Range;

/// "FFFFFFFF names the entry".
pub const ENTRY: u32 = 0xFFFF_FFFF;
pub const HEADER: usize = 48;
pub const CONSTANT: usize = 12;
pub const FUNCTION: usize = 20;
/// "Each function record of edition 4 ... gets one more word at its end".
pub const LONG_FUNCTION: usize = 24;
pub const LABEL: usize = 8;
/// "12-byte structure records"
pub const STRUCTURE_RECORD: usize = 12;
pub const MAX_CONSTANTS: u32 = 1024;
pub const MAX_FUNCTIONS: u32 = 128;
pub const MAX_LABELS: u32 = 256;
pub const MAX_CODE: u32 = 16_384;
pub const MAX_STRUCTURES: u32 = 16;

/// "Edition 4 has a 56-byte header (words 48 and 52: structure count, at most 16, and offset".
pub const LONG_HEADER: usize = 56;

/// The bytes of an edition's header.
pub fn header(edition: Edition) -> usize {
    if edition.has_heap() {
        LONG_HEADER
    } else {
        HEADER
    }
}

/// The bytes of an edition's function record.
pub fn function_size(edition: Edition) -> usize {
    if edition.has_profiles() {
        LONG_FUNCTION
    } else {
        FUNCTION
    }
}

/// The longest module possible, which is of edition 4.
pub const LONGEST: usize = LONG_HEADER
    + STRUCTURE_RECORD * MAX_STRUCTURES as usize
    + CONSTANT * MAX_CONSTANTS as usize
    + LONG_FUNCTION * MAX_FUNCTIONS as usize
    + LABEL * MAX_LABELS as usize
    + MAX_CODE as usize;

/// "An opened module is a view of the lent file and its counts."
#[derive(Clone, Copy, Debug)]
pub struct Module<'a> {
    file: &'a [u8],
    pub edition: Edition,
    pub constants: u32,
    pub functions: u32,
    pub labels: u32,
    pub code_length: u32,
    pub entry_length: u32,
    /// 0 in editions 1 and 3.
    pub structures: u32,
}

#[derive(Clone, Debug, PartialEq, Eq)]
pub struct Function {
    pub start: u32,
    pub length: u32,
    /// Parameter types, parameter 0 first.
    pub parameters: Vec<u8>,
    pub returns: u8,
    /// "the profile it was made for, 0 for any"; 0 in editions 1 and 3.
    pub profile: u32,
}

#[derive(Clone, Copy, Debug, PartialEq, Eq)]
pub struct Instruction {
    pub op: Op,
    pub operand: u32,
    /// The place right after the instruction.
    pub next: usize,
}

/// Reads a module file. "The first in number order is given."
pub fn read(rules: Rules, file: &[u8]) -> Result<Module<'_>, u32> {
    // 1: "under 48 bytes"
    if file.len() < HEADER {
        return Err(1);
    }
    // 2: "2 now means none of 1, 3 and 4"
    let edition = Edition::from_word(rules, word(file, 0)).ok_or(2u32)?;
    // 1, edition 4: "a 56-byte header (...; shorter is 1)"
    if file.len() < header(edition) {
        return Err(if rules.wrong(Fault::ShortFourIsThree) {
            3
        } else {
            1
        });
    }
    // 3: "total length word differs from the lent length"
    if u64::from(word(file, 4)) != file.len() as u64 {
        return Err(3);
    }
    let module = Module::view(file, edition);
    module.limits(rules)?;
    module.layout(rules)?;
    module.constant_records(rules)?;
    // "a bad structure record is 6"
    module.structure_records(rules)?;
    if rules.wrong(Fault::FunctionsOneByOne) {
        module.functions_one_by_one(rules)?;
    }
    module.function_records(rules)?;
    if rules.wrong(Fault::LabelsBeforeCode) {
        module.label_records(rules)?;
    }
    module.bodies_cut(rules)?;
    module.label_records(rules)?;
    Ok(module)
}

impl<'a> Module<'a> {
    /// The file and its counts.
    fn view(file: &'a [u8], edition: Edition) -> Module<'a> {
        let structures = if edition.has_heap() {
            word(file, 48)
        } else {
            0
        };
        Module {
            file,
            edition,
            constants: word(file, 8),
            functions: word(file, 16),
            labels: word(file, 24),
            code_length: word(file, 32),
            entry_length: word(file, 40),
            structures,
        }
    }

    /// 4: "a count or the code length is over its limit, or word 44 is not zero"
    fn limits(&self, rules: Rules) -> Result<(), u32> {
        let structures = MAX_STRUCTURES + u32::from(rules.wrong(Fault::SeventeenStructures));
        let over = self.constants > MAX_CONSTANTS
            || self.functions > MAX_FUNCTIONS
            || self.labels > MAX_LABELS
            || self.code_length > MAX_CODE
            || self.structures > structures;
        refuse(over || word(self.file, 44) != 0, 4)
    }

    fn constants_at(&self) -> usize {
        header(self.edition)
    }

    fn functions_at(&self) -> usize {
        self.constants_at() + CONSTANT * self.constants as usize
    }

    fn labels_at(&self) -> usize {
        self.function_at(self.functions)
    }

    /// Where the record of function `n` begins.
    fn function_at(&self, n: u32) -> usize {
        self.functions_at() + function_size(self.edition) * n as usize
    }

    /// The record of function `n`, which must be there.
    fn record(&self, n: u32) -> &'a [u8] {
        &self.file[self.function_at(n)..self.function_at(n + 1)]
    }

    fn code_at(&self) -> usize {
        self.labels_at() + LABEL * self.labels as usize
    }

    /// "a last section of 12-byte structure records"
    fn structures_at(&self) -> usize {
        self.code_at() + self.code_length as usize
    }

    /// 5: "an offset is not the packed one, the sections' sum is not the total, or the entry
    /// is longer than the code"
    fn layout(&self, rules: Rules) -> Result<(), u32> {
        let offset = |at| word(self.file, at) as usize;
        let unlabelled = self.labels == 0 && rules.wrong(Fault::EmptySectionOffset);
        let unplaced = self.structures == 0 && rules.wrong(Fault::NoStructuresOffset);
        let last = !self.edition.has_heap() || offset(52) == self.structures_at() || unplaced;
        let packed = offset(12) == self.constants_at()
            && offset(20) == self.functions_at()
            && (offset(28) == self.labels_at() || unlabelled)
            && offset(36) == self.code_at()
            && last;
        let sum = self.structures_at() + STRUCTURE_RECORD * self.structures as usize;
        let fits = sum == self.file.len() && self.entry_length <= self.code_length;
        refuse(!(packed && fits), 5)
    }

    /// 6: "a constant of another type, or an int with upper bytes set"
    fn constant_records(&self, rules: Rules) -> Result<(), u32> {
        for n in 0..self.constants {
            let at = self.constants_at() + CONSTANT * n as usize;
            // "type word (3, 4 or 6)": all 32 bits of it
            let mut ty = word(self.file, at);
            if rules.wrong(Fault::ConstantTypeByte) {
                ty &= 0xFF;
            }
            let known = u8::try_from(ty).is_ok_and(is_number);
            let upper = word(self.file, at + 8);
            refuse(!known || (ty == u32::from(INT) && upper != 0), 6)?;
        }
        Ok(())
    }

    /// 6: "a bad structure record is 6"
    fn structure_records(&self, rules: Rules) -> Result<(), u32> {
        let number = if rules.wrong(Fault::StructuresSeven) {
            7
        } else {
            6
        };
        for n in 0..self.structures {
            let at = self.structures_at() + STRUCTURE_RECORD * n as usize;
            let record = &self.file[at..at + STRUCTURE_RECORD];
            refuse(!structure_record(rules, record), number)?;
        }
        Ok(())
    }

    /// 7: "a bad function record, or bodies that don't fill the code"
    fn function_records(&self, rules: Rules) -> Result<(), u32> {
        // "Code begins with the entry's body; function bodies follow in number order without
        // gaps and fill the section."
        let mut end = u64::from(self.entry_length);
        for n in 0..self.functions {
            end = self.function_record(rules, n, end)?;
        }
        refuse(end != u64::from(self.code_length), 7)
    }

    /// One function record whose body must start at `packed`; gives the body's end.
    fn function_record(&self, rules: Rules, n: u32, packed: u64) -> Result<u64, u32> {
        let record = self.record(n);
        let (start, length) = (word(record, 0), word(record, 4));
        // "start, length (≥ 1)"
        refuse(u64::from(start) != packed || length < 1, 7)?;
        // "parameter count (0 to 8, one byte)"
        let count = record[8] as usize;
        refuse(count > 8 || !self.can_return(rules, record[9]), 7)?;
        // "eight parameter type bytes (3, 4, 6, or 83, 84, 86 hex for pointer to one; unused
        // are 0), two zero bytes"
        let (used, unused) = record[10..18].split_at(count);
        refuse(!used.iter().all(|&ty| self.can_take(rules, ty)), 7)?;
        if !rules.wrong(Fault::UnusedParameterBytes) {
            refuse(unused.iter().any(|&byte| byte != 0), 7)?;
        }
        refuse(record[18] != 0 || record[19] != 0, 7)?;
        // any profile is good
        let profile = rules.wrong(Fault::ProfileRefused) && profile(record) != 0;
        refuse(profile, 7)?;
        Ok(packed + u64::from(length))
    }

    /// "return type (one byte: 0, 3, 4, 6)"; "Type bytes 8A to 99 (hex) mean pointer to a
    /// structure; functions may return those." Pointers to numbers stay 7, but for managed ones,
    /// "which functions may take and return".
    fn can_return(&self, rules: Rules, ty: u8) -> bool {
        if is_managed(ty) {
            let refused = pointee(ty).is_some() && rules.wrong(Fault::ManagedReturnRefused);
            return self.can_manage(rules, ty) && !refused;
        }
        let structure = self.declares(rules, ty) && !rules.wrong(Fault::StructureReturnRefused);
        let number = rules.wrong(Fault::NumberPointerReturned) && self.edition.has_heap();
        ty == 0 || is_number(ty) || structure || number && pointee(ty).is_some()
    }

    /// A parameter's type byte. Edition 1: "No pointer types in signatures (7)."
    fn can_take(&self, rules: Rules, ty: u8) -> bool {
        if is_managed(ty) {
            let refused = pointee(ty).is_some() && rules.wrong(Fault::ManagedParameterRefused);
            return self.can_manage(rules, ty) && !refused;
        }
        let pointers = self.edition.has_pointers() || rules.wrong(Fault::PointerParameterTaken);
        let null = self.edition.has_heap() && rules.wrong(Fault::NullParameterTaken);
        is_number(ty)
            || pointers && pointee(ty).is_some()
            || self.declares(rules, ty)
            || null && ty == NULL
    }

    /// "C3, C4, C6 and CA to D9 (hex) for managed pointers" of edition 4; C0 is no type of a
    /// signature, as 80 is none.
    fn can_manage(&self, rules: Rules, ty: u8) -> bool {
        let three = self.edition == Edition::Three && rules.wrong(Fault::ManagedTypesInThree);
        let null = ty == GCNULL && rules.wrong(Fault::GcnullInSignature);
        let known = pointee(ty).is_some() || self.declares(rules, ty) || null;
        (self.edition.has_heap() || three) && known
    }

    /// Is this a pointer to a declared structure? "an undeclared one in a signature 7"
    fn declares(&self, rules: Rules, ty: u8) -> bool {
        let declared = |n: u8| u32::from(n - STRUCTURE) < self.structures;
        let fault = if is_managed(ty) {
            Fault::UndeclaredManagedTaken
        } else {
            Fault::UndeclaredTaken
        };
        let all = self.edition.has_heap() && rules.wrong(fault);
        structure(ty).is_some_and(|n| declared(n) || all)
    }

    /// 8: "an unknown opcode, or an instruction crossing its body's end"
    fn bodies_cut(&self, rules: Rules) -> Result<(), u32> {
        for body in self.bodies() {
            refuse(!self.starts(rules, body).1, 8)?;
        }
        Ok(())
    }

    /// 9: "a label with no such owner, or not on an instruction start of its owner"
    fn label_records(&self, rules: Rules) -> Result<(), u32> {
        for n in 0..self.labels {
            let at = self.labels_at() + LABEL * n as usize;
            let (owner, place) = (word(self.file, at), word(self.file, at + 4) as usize);
            refuse(owner != ENTRY && owner >= self.functions, 9)?;
            let mut places = self.starts(rules, owner).0;
            if rules.wrong(Fault::LabelOnBodyEnd) {
                places.push(self.range(owner).end);
            }
            refuse(!places.contains(&place), 9)?;
        }
        Ok(())
    }

    /// Wrong on purpose: a body's instructions before the records of later functions.
    fn functions_one_by_one(&self, rules: Rules) -> Result<(), u32> {
        let mut end = u64::from(self.entry_length);
        for n in 0..self.functions {
            end = self.function_record(rules, n, end)?;
            refuse(end > u64::from(self.code_length), 7)?;
            refuse(!self.starts(rules, n).1, 8)?;
        }
        Ok(())
    }

    /// The bodies: "entry first, as FFFFFFFF, then functions in order".
    pub fn bodies(&self) -> impl Iterator<Item = u32> {
        std::iter::once(ENTRY).chain(0..self.functions)
    }

    /// The places of a body, from its start to its end. "Places count from the start of the
    /// code."
    pub fn range(&self, body: u32) -> Range<usize> {
        if body >= self.functions {
            return 0..self.entry_length as usize;
        }
        let record = self.record(body);
        let start = word(record, 0) as usize;
        start..start + word(record, 4) as usize
    }

    /// The instruction starts of a body, cut from its own start; and whether the cutting came
    /// out at the body's end.
    pub fn starts(&self, rules: Rules, body: u32) -> (Vec<usize>, bool) {
        let range = self.range(body);
        let mut starts = Vec::new();
        let mut place = range.start;
        while place < range.end {
            let Some(op) = Op::from_byte(rules, self.edition, self.code()[place]) else {
                return (starts, false);
            };
            let size = self.size(rules, op);
            if place + size > range.end {
                return (starts, false);
            }
            starts.push(place);
            place += size;
        }
        (starts, true)
    }

    /// Wrong on purpose in one variant: else the opcode's own.
    fn size(&self, rules: Rules, op: Op) -> usize {
        let old_ret = op == Op::Ret && self.edition == Edition::One;
        if old_ret && rules.wrong(Fault::OldRetOperand) {
            return 5;
        }
        op.size()
    }

    fn code(&self) -> &'a [u8] {
        &self.file[self.code_at()..self.structures_at()]
    }

    /// The sections: constants, functions, labels, code, structures.
    pub fn sections(&self) -> [&'a [u8]; 5] {
        let (functions, labels, code) = (self.functions_at(), self.labels_at(), self.code_at());
        [
            self.constants_at()..functions,
            functions..labels,
            labels..code,
            code..self.structures_at(),
            self.structures_at()..self.file.len(),
        ]
        .map(|section| &self.file[section])
    }

    /// The instruction at an instruction start.
    pub fn instruction(&self, rules: Rules, place: usize) -> Option<Instruction> {
        let op = Op::from_byte(rules, self.edition, *self.code().get(place)?)?;
        let operand = if op.has_operand() {
            word(self.code(), place + 1)
        } else {
            0
        };
        let next = place + self.size(rules, op);
        Some(Instruction { op, operand, next })
    }

    /// Type and payload of a constant, if there is one of this number.
    pub fn constant(&self, n: u32) -> Option<(u8, u64)> {
        let at = self.constants_at() + CONSTANT * n as usize;
        (n < self.constants).then(|| (self.file[at], payload(self.file, at + 4)))
    }

    /// The field types of the structure of this type number, if there is one: "numbered from
    /// 10".
    pub fn fields(&self, ty: u32) -> Option<&'a [u8]> {
        let n = ty.checked_sub(u32::from(STRUCTURE))?;
        if n >= self.structures {
            return None;
        }
        let at = self.structures_at() + STRUCTURE_RECORD * n as usize;
        let count = self.file[at] as usize;
        Some(&self.file[at + 1..at + 1 + count.min(8)])
    }

    /// The function of this number, if there is one.
    pub fn function(&self, n: u32) -> Option<Function> {
        if n >= self.functions {
            return None;
        }
        let record = self.record(n);
        Some(Function {
            start: word(record, 0),
            length: word(record, 4),
            parameters: record[10..10 + record[8] as usize].to_vec(),
            returns: record[9],
            profile: profile(record),
        })
    }

    /// Owner and place of a label, if there is one of this number.
    pub fn label(&self, n: u32) -> Option<(u32, usize)> {
        let at = self.labels_at() + LABEL * n as usize;
        (n < self.labels).then(|| (word(self.file, at), word(self.file, at + 4) as usize))
    }

    /// Where a branch in `body` to label `n` goes. "A label of another body is 27."
    pub fn branch_place(&self, rules: Rules, body: u32, n: u32) -> Result<usize, u32> {
        match self.label(n) {
            Some((_, place)) if rules.wrong(Fault::AnyLabel) => Ok(place),
            Some((owner, place)) if owner == body => Ok(place),
            _ => Err(27),
        }
    }

    /// The parameter types as a call matches them: "Parameter 0 is the deepest argument".
    pub fn signature(&self, rules: Rules, n: u32) -> Option<Function> {
        let mut function = self.function(n)?;
        if rules.wrong(Fault::ParametersReversed) {
            function.parameters.reverse();
        }
        Some(function)
    }
}

/// "one more word at its end: the profile it was made for, 0 for any"
fn profile(record: &[u8]) -> u32 {
    if record.len() < LONG_FUNCTION {
        return 0;
    }
    word(record, FUNCTION)
}

/// "field count 1 to 8, eight type bytes (3, 4, 6, unused 0), three zeros"
fn structure_record(rules: Rules, record: &[u8]) -> bool {
    let count = record[0] as usize;
    if !(1..=8).contains(&count) {
        return count == 0 && rules.wrong(Fault::NoFieldsTaken);
    }
    let (used, unused) = record[1..9].split_at(count);
    let pointers = rules.wrong(Fault::PointerFieldTaken);
    let known = |&ty: &u8| is_number(ty) || pointers && pointee(ty).is_some();
    let unused = unused.iter().all(|&ty| ty == 0) || rules.wrong(Fault::UnusedFieldBytes);
    let zeros = record[9..].iter().all(|&byte| byte == 0) || rules.wrong(Fault::StructureZeros);
    used.iter().all(known) && unused && zeros
}

/// The number where there is a fault.
pub fn refuse(fault: bool, number: u32) -> Result<(), u32> {
    if fault {
        Err(number)
    } else {
        Ok(())
    }
}

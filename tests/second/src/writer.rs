//! The writer, document 02's A1, A5, A6 and A7: answers 2, 4 to 9 and 16, and the module that is
//! written, of any edition.

use crate::check::{check, Checked, RECORD};
use crate::opcode::Edition;
use crate::reader::{
    function_size, header, read, refuse, Module, CONSTANT, FUNCTION, HEADER, LABEL, MAX_CODE,
    MAX_CONSTANTS, MAX_FUNCTIONS, MAX_LABELS, MAX_STRUCTURES, STRUCTURE_RECORD,
};
use crate::rules::{Fault, Rules};
use crate::types::INT;
use crate::words::word;

/// "From constant, function and label tables, code and entry length, lent separately": the
/// tables hold the file's own records.
#[derive(Clone, Copy, Debug, PartialEq, Eq)]
pub struct Tables<'a> {
    /// "A1, told which, writes either".
    pub edition: u32,
    pub constants: &'a [u8],
    pub functions: &'a [u8],
    pub labels: &'a [u8],
    /// "A1 writes it too (a structure for another edition is 4)"
    pub structures: &'a [u8],
    pub code: &'a [u8],
    pub entry_length: u32,
}

/// Writes a module. "Here and later a writer answers 0 with the length and leaves output past
/// it unchanged; a new refusal, exceptions apart, changes no lent memory and returns only its
/// number".
pub fn write(rules: Rules, tables: Tables<'_>, out: &mut [u8]) -> Result<usize, u32> {
    if rules.wrong(Fault::OutputFirst) {
        refuse(out.len() < tables.length(rules), 16)?;
    }
    // "Refusals: the reader's 4 to 9 (part of a record at a table's end is 5); then 16, output
    // too short."
    // "2, now A1's too"; "2 now means none of 1, 3 and 4"
    let known =
        Edition::from_word(rules, tables.edition).is_some() || rules.wrong(Fault::WritesTwo);
    if !rules.wrong(Fault::EditionLast) {
        refuse(!known, 2)?;
    }
    tables.limits_and_parts(rules)?;
    let file = tables.file(rules);
    if rules.wrong(Fault::HeaderFirst) && out.len() >= HEADER {
        out[..HEADER].copy_from_slice(&file[..HEADER]);
    }
    if known {
        records_and_code(rules, &file)?;
    }
    refuse(!known, 2)?;
    refuse(too_short(rules, out.len(), file.len()), 16)?;
    let (module, rest) = out.split_at_mut(file.len());
    module.copy_from_slice(&file);
    if rules.wrong(Fault::RestCleared) {
        rest.fill(0);
    }
    if rules.wrong(Fault::LengthOfOutput) {
        return Ok(out.len());
    }
    Ok(file.len())
}

/// The reader's 6 to 9, of the file that would be written.
fn records_and_code(rules: Rules, file: &[u8]) -> Result<(), u32> {
    match read(rules, file) {
        // the header is the writer's own, and no offset of it is looked at again
        Err(5) if rules.wrong(Fault::EmptySectionUnplaced) => {}
        Err(9) if rules.wrong(Fault::LabelsUntested) => {}
        Err(2) if rules.wrong(Fault::WritesTwo) => {}
        answer => drop(answer?),
    }
    if rules.wrong(Fault::TypingAsked) {
        let mut room = vec![0; RECORD * MAX_LABELS as usize];
        let checked = check(rules, file, &mut room);
        refuse(matches!(checked, Checked::NoTyping { .. }), 11)?;
    }
    Ok(())
}

/// 16: "output too short"
fn too_short(rules: Rules, lent: usize, needed: usize) -> bool {
    lent < needed
        || rules.wrong(Fault::OutputFull) && lent == needed
        || rules.wrong(Fault::OutputLonger) && lent > needed
}

/// A table, the length of its records, and how many there may be.
type Table<'a> = (&'a [u8], usize, u32);

/// 4, of whole records: "a count or the code length is over its limit". Word 44 is the
/// writer's own.
fn over_limit(rules: Rules, (table, record, most): Table<'_>) -> bool {
    if rules.wrong(Fault::LimitByBytes) {
        return table.len() > record * most as usize;
    }
    table.len() / record > most as usize
}

/// 5: "part of a record at a table's end is 5"
fn ends_in_part(rules: Rules, (table, record, _): Table<'_>) -> bool {
    !table.len().is_multiple_of(record) && !rules.wrong(Fault::PartRecordIgnored)
}

impl<'a> Tables<'a> {
    /// The tables of a module that was read.
    pub fn of(module: Module<'a>) -> Tables<'a> {
        let [constants, functions, labels, code, structures] = module.sections();
        Tables {
            edition: module.edition.word(),
            constants,
            functions,
            labels,
            structures,
            code,
            entry_length: module.entry_length,
        }
    }

    /// Has the edition that is asked for structures?
    fn has_structures(&self) -> bool {
        self.edition == Edition::Four.word()
    }

    /// The tables in the order of the file.
    fn each(&self, rules: Rules) -> [Table<'a>; 5] {
        // "a structure for another edition is 4"
        let structures = if self.has_structures() {
            MAX_STRUCTURES + u32::from(rules.wrong(Fault::SeventeenStructures))
        } else if rules.wrong(Fault::StructureInThree) {
            u32::MAX
        } else {
            0
        };
        [
            (self.constants, CONSTANT, MAX_CONSTANTS),
            (self.functions, self.function_size(rules), MAX_FUNCTIONS),
            (self.labels, LABEL, MAX_LABELS),
            (self.code, 1, MAX_CODE),
            (self.structures, STRUCTURE_RECORD, structures),
        ]
    }

    /// Bytes of the header.
    fn header(&self, rules: Rules) -> usize {
        Edition::from_word(rules, self.edition).map_or(HEADER, header)
    }

    /// Bytes of a function record.
    fn function_size(&self, rules: Rules) -> usize {
        if rules.wrong(Fault::WritesShortRecords) {
            return FUNCTION;
        }
        Edition::from_word(rules, self.edition).map_or(FUNCTION, function_size)
    }

    /// The module's length, its header included.
    fn length(&self, rules: Rules) -> usize {
        let tables = self.each(rules);
        self.header(rules) + tables.iter().map(|table| table.0.len()).sum::<usize>()
    }

    /// 4 of any table, then 5 of any: "The first in number order is given."
    fn limits_and_parts(&self, rules: Rules) -> Result<(), u32> {
        let tables = self.each(rules);
        let part = !self.structures.is_empty() && !self.has_structures();
        refuse(part && rules.wrong(Fault::StructurePartFour), 4)?;
        if rules.wrong(Fault::TableByTable) {
            for table in tables {
                refuse(over_limit(rules, table), 4)?;
                refuse(ends_in_part(rules, table), 5)?;
            }
        }
        let parts = tables.iter().any(|&table| ends_in_part(rules, table));
        if rules.wrong(Fault::PartRecordFirst) {
            refuse(parts, 5)?;
        }
        refuse(tables.iter().any(|&table| over_limit(rules, table)), 4)?;
        // 5: "or the entry is longer than the code"; offsets and sum are the writer's own
        let longer = self.entry_length as usize > self.code.len();
        refuse(longer && rules.wrong(Fault::EntryLongerFour), 4)?;
        refuse(parts || longer, 5)
    }

    /// "A header of counts and offsets, then four sections without gaps."; in edition 4 "words 48
    /// and 52: structure count, at most 16, and offset" and "a last section".
    pub fn file(&self, rules: Rules) -> Vec<u8> {
        let mut file = vec![0; self.header(rules)];
        let put = |file: &mut Vec<u8>, at: usize, number: usize| {
            file[at..at + 4].copy_from_slice(&(number as u32).to_le_bytes());
        };
        put(&mut file, 0, self.edition as usize);
        if rules.wrong(Fault::WritesThree) {
            put(&mut file, 0, 3);
        }
        let words = [8, 16, 24, 32, 48];
        for ((table, record, _), at) in self.each(rules).into_iter().zip(words) {
            if at == 48 && !self.has_structures() {
                continue;
            }
            let count = table.len() / record;
            put(&mut file, at, count);
            let offset = file.len();
            put(&mut file, at + 4, offset);
            if count == 0 && rules.wrong(Fault::EmptySectionUnplaced) {
                put(&mut file, at + 4, 0);
            }
            file.extend(&table[..count * record]);
        }
        let length = file.len();
        put(&mut file, 4, length);
        put(&mut file, 40, self.entry_length as usize);
        self.mend(rules, &mut file);
        file
    }

    /// Wrong on purpose: records put right instead of refused.
    fn mend(&self, rules: Rules, file: &mut [u8]) {
        let (constants, functions) = (self.constants.len(), self.functions.len());
        let start = self.header(rules);
        if rules.wrong(Fault::UpperBytesCleared) {
            for record in file[start..start + constants].chunks_mut(CONSTANT) {
                if word(record, 0) == u32::from(INT) {
                    record[8..].fill(0);
                }
            }
        }
        if rules.wrong(Fault::StartsComputed) {
            let mut place = self.entry_length;
            let from = start + constants;
            let size = self.function_size(rules);
            for record in file[from..from + functions].chunks_mut(size) {
                record[..4].copy_from_slice(&place.to_le_bytes());
                place = place.wrapping_add(word(record, 4));
            }
        }
    }
}

//! Conversions between editions 3 and 4, document 02's A7: answers 1 to 9, 18 and 16, and the
//! module that is written.

use crate::check::{check, Checked, RECORD};
use crate::opcode::{Edition, Op};
use crate::reader::{read, refuse, Module, FUNCTION, LONG_FUNCTION, MAX_LABELS};
use crate::rules::{Fault, Rules};
use crate::types::{is_managed, is_number, pointee};
use crate::words::word;
use crate::writer::Tables;

/// The editions that a module can be converted to.
pub const TARGETS: [Edition; 2] = [Edition::Four, Edition::Three];

/// "Convert edition 3 to 4 with profile 0 and back": writes the module converted to edition 4
/// or 3. "a writer answers 0 with the length and leaves output past it unchanged; a new refusal,
/// exceptions apart, changes no lent memory and returns only its number".
pub fn convert(rules: Rules, to: Edition, file: &[u8], out: &mut [u8]) -> Result<usize, u32> {
    if rules.wrong(Fault::ConvertOutputFirst) {
        refuse(out.len() < file.len(), 16)?;
    }
    let module = open(rules, to, file)?;
    if rules.wrong(Fault::ConvertOutputBefore) {
        refuse(too_short(rules, out.len(), length(module, to)), 16)?;
    }
    // "18 down with a nonzero profile, a structure, or a type byte or opcode that edition 3
    // lacks, after reading; then 16"
    refuse(to == Edition::Three && !goes_down(rules, module), 18)?;
    let converted = rewritten(rules, to, module);
    if rules.wrong(Fault::ConvertHeaderFirst) && out.len() >= 8 {
        out[..8].copy_from_slice(&converted[..8]);
    }
    refuse(too_short(rules, out.len(), converted.len()), 16)?;
    let (written, rest) = out.split_at_mut(converted.len());
    written.copy_from_slice(&converted);
    if rules.wrong(Fault::ConvertRestCleared) {
        rest.fill(0);
    }
    if rules.wrong(Fault::ConvertLengthOfOutput) {
        return Ok(out.len());
    }
    Ok(converted.len())
}

/// The converted module, whatever its length.
pub fn converted(rules: Rules, to: Edition, file: &[u8]) -> Result<Vec<u8>, u32> {
    // no module is longer by more than its header's two words and a word for each function
    let mut out = vec![0; file.len() + 8 + 4 * 128];
    let length = convert(rules, to, file, &mut out)?;
    out.truncate(length);
    Ok(out)
}

/// The edition that is converted from.
fn source(to: Edition) -> Edition {
    match to {
        Edition::Four => Edition::Three,
        _ => Edition::Four,
    }
}

/// The reader's refusals, where "another edition is 2". 1 holds first in number order, of a
/// header of edition 4 under 56 bytes too.
fn open(rules: Rules, to: Edition, file: &[u8]) -> Result<Module<'_>, u32> {
    if rules.wrong(Fault::LossBeforeReading) {
        let structures = to == Edition::Three && file.len() >= 56 && word(file, 48) != 0;
        refuse(structures && word(file, 0) == 4, 18)?;
    }
    let long = file.len() >= 48;
    let another = long && word(file, 0) != source(to).word();
    refuse(another && rules.wrong(Fault::AnotherEditionFirst), 2)?;
    let module = match read(rules, file) {
        Err(number @ (1 | 2)) => return Err(number),
        answer if rules.wrong(Fault::AnotherEditionLast) => answer?,
        answer => {
            refuse(another, 2)?;
            answer?
        }
    };
    refuse(another, 2)?;
    if rules.wrong(Fault::ConvertTypingAsked) {
        let mut room = vec![0; RECORD * MAX_LABELS as usize];
        let checked = check(rules, file, &mut room);
        refuse(matches!(checked, Checked::NoTyping { .. }), 11)?;
    }
    Ok(module)
}

/// Has the module nothing that edition 3 lacks?
fn goes_down(rules: Rules, module: Module<'_>) -> bool {
    let functions = || (0..module.functions).filter_map(|n| module.function(n));
    let profiles = functions().any(|f| f.profile != 0) && !rules.wrong(Fault::ProfileDropped);
    // "a structure", used or not
    let structures = module.structures > 0 && !rules.wrong(Fault::StructuresDropped);
    let mut types = functions().flat_map(|f| [f.parameters, vec![f.returns]].concat());
    let foreign = types.any(|ty| !has_type(rules, ty));
    !profiles && !structures && !foreign && !has_foreign_opcode(rules, module)
}

/// Has edition 3 this type byte? No structure's and no managed pointer's.
fn has_type(rules: Rules, ty: u8) -> bool {
    if is_managed(ty) {
        return pointee(ty).is_some() && rules.wrong(Fault::ManagedTypesKept);
    }
    ty == 0 || is_number(ty) || pointee(ty).is_some()
}

/// "or opcode that edition 3 lacks": at every instruction start, reached or not; bytes of
/// operands are no opcodes.
fn has_foreign_opcode(rules: Rules, module: Module<'_>) -> bool {
    if rules.wrong(Fault::OpcodesKept) {
        return false;
    }
    if rules.wrong(Fault::OperandsLookedAt) {
        let code = module.sections()[3].iter();
        let mut ops = code.filter_map(|&byte| Op::from_byte(rules, Edition::Four, byte));
        return ops.any(|op| is_foreign(rules, op));
    }
    module.bodies().any(|body| {
        let starts = module.starts(rules, body).0.into_iter();
        let mut ops = starts
            .filter_map(|place| module.instruction(rules, place))
            .map(|at| at.op);
        if rules.wrong(Fault::DeadOpcodesKept) {
            let live = ops.take_while(|op| ![Op::Jmp, Op::Ret].contains(op));
            return live.into_iter().any(|op| is_foreign(rules, op));
        }
        ops.any(|op| is_foreign(rules, op))
    })
}

fn is_foreign(rules: Rules, op: Op) -> bool {
    let kept = op.is_managed() && rules.wrong(Fault::ManagedOpcodesKept);
    op.byte(Edition::Three).is_none() && !kept
}

/// 16: "output too short"
fn too_short(rules: Rules, lent: usize, needed: usize) -> bool {
    lent < needed || rules.wrong(Fault::ConvertOutputFull) && lent == needed
}

/// The length that a module without structures has in the other edition.
fn length(module: Module<'_>, to: Edition) -> usize {
    let [constants, _, labels, code, _] = module.sections();
    let functions = module.functions as usize;
    let own = match to {
        Edition::Four => 56 + LONG_FUNCTION * functions,
        _ => 48 + FUNCTION * functions,
    };
    own + constants.len() + labels.len() + code.len()
}

/// The module in the other edition: constants, labels, code and entry length as they are, each
/// function record with one more word or without it.
fn rewritten(rules: Rules, to: Edition, module: Module<'_>) -> Vec<u8> {
    let [_, functions, ..] = module.sections();
    let functions = match to {
        Edition::Four => lengthened(rules, functions),
        _ => shortened(rules, functions),
    };
    let tables = Tables {
        edition: to.word(),
        functions: &functions,
        structures: &[],
        ..Tables::of(module)
    };
    let mut file = tables.file(Rules::PLAIN);
    if rules.wrong(Fault::OffsetsKept) {
        file[20..24].copy_from_slice(&header_word(module, 20));
    }
    file
}

/// "with profile 0"
fn lengthened(rules: Rules, functions: &[u8]) -> Vec<u8> {
    let mut records = Vec::new();
    for record in functions.chunks(FUNCTION) {
        if rules.wrong(Fault::ProfileFirst) {
            records.extend([0; 4]);
        }
        records.extend(record);
        if rules.wrong(Fault::ProfileOne) {
            records.extend([1, 0, 0, 0]);
        } else if !rules.wrong(Fault::ProfileFirst) {
            records.extend([0; 4]);
        }
    }
    if rules.wrong(Fault::ProfilesLast) {
        records = functions.to_vec();
        records.resize(functions.len() / FUNCTION * LONG_FUNCTION, 0);
    }
    records
}

/// The records without their last word, which is 0.
fn shortened(rules: Rules, functions: &[u8]) -> Vec<u8> {
    let from = if rules.wrong(Fault::FirstWordDropped) {
        4
    } else {
        0
    };
    let records = functions.chunks(LONG_FUNCTION);
    records
        .flat_map(|record| record[from..from + FUNCTION].to_vec())
        .collect()
}

/// The bytes of a word of the module's own header.
fn header_word(module: Module<'_>, at: usize) -> [u8; 4] {
    let header = Tables::of(module).file(Rules::PLAIN);
    [header[at], header[at + 1], header[at + 2], header[at + 3]]
}

//! Rows: the run of one function on each row of arguments, with an output a row.
//!
//! "Row i is the run (`limpetskein_run`'s meaning ...) of `function` on the i-th row of payloads
//! under its parameters' types, for this profile, with this allowance (each row gets the whole of
//! it), on the lent slots and the lent heap." So `map` is a loop over `run`, and what a row leaves
//! is what that run leaves. `wrong` has what wrong variants do besides.

mod wrong;

use crate::heap::LentHeap;
use crate::profile;
use crate::reader::{read, refuse, Module, ENTRY};
use crate::rules::{Fault, Rules};
use crate::run::{can_come, run, Call, LentStack, Ran};
use crate::types::is_pointer;

/// Bytes of a row's output, and of each of its arguments.
pub const EIGHT: usize = 8;

/// Which function to run on every row, on what, and for how long each time.
#[derive(Clone, Copy, Debug)]
pub struct MapCall<'a> {
    pub function: u32,
    pub profile: u32,
    /// "A row of arguments has 8 bytes a parameter, parameter 0 first."
    pub arg_payloads: &'a [u8],
    pub allowance: u64,
}

/// The number that ends the call; "`*rows` is written with every answer."
pub fn map(
    rules: Rules,
    file: &[u8],
    call: MapCall<'_>,
    out: &mut [u8],
    mut stack: LentStack<'_>,
    mut heap: LentHeap<'_>,
    rows: &mut u64,
) -> u32 {
    let admitted = read(rules, file).and_then(|module| admit(rules, module, call, out.len()));
    match admitted {
        Ok(parameters) => {
            *rows = 0;
            let mut all = Rows {
                rules,
                file,
                call,
                count: count(rules, call, &parameters, out.len()),
                parameters,
            };
            let early = all.start_wrongly(&mut stack, &mut heap);
            early.unwrap_or_else(|| all.map(out, &mut stack, &mut heap, rows))
        }
        Err(_) if out.is_empty() && rules.wrong(Fault::NoRowsFirst) => {
            *rows = 0;
            0
        }
        Err(number) if rules.wrong(Fault::RowsUnwritten) => number,
        // "Nothing is changed then but `*rows`, which is 0."
        Err(number) => {
            *rows = 0;
            number
        }
    }
}

/// "Refusals before any row, in this order: 1 to 9 (the reader's), 12 (no such function), 13, 17
/// (profile differs)." Or the types of the parameters.
fn admit(
    rules: Rules,
    module: Module<'_>,
    call: MapCall<'_>,
    out_len: usize,
) -> Result<Vec<u8>, u32> {
    let part = !out_len.is_multiple_of(EIGHT) && !rules.wrong(Fault::OutputPartIgnored);
    refuse(part && rules.wrong(Fault::MapFunctionLate), 13)?;
    let Some(function) = module.signature(rules, call.function) else {
        refuse(call.function != ENTRY, 12)?;
        // "the entry, FFFFFFFF, has none, so it is 13 always"
        refuse(part || !rules.wrong(Fault::EntryMapped), 13)?;
        return Ok(Vec::new());
    };
    let other = profile::differs(rules, module, run_of(call));
    refuse(other && rules.wrong(Fault::MapProfileFirst), 17)?;
    // "`out_len` is no multiple of 8; `arg_payloads_len` is not parameter count times `out_len`"
    let parameters = function.parameters;
    let needed = parameters.len().checked_mul(out_len - out_len % EIGHT);
    let lengths = needed == Some(call.arg_payloads.len()) || rules.wrong(Fault::LengthsUncompared);
    // "some parameter is a pointer (any pointer type)"
    let numbers = parameters.iter().all(|&ty| can_come(rules, ty));
    // "the function has no result (return type byte 0 ...)"
    let pointer = is_pointer(function.returns) && rules.wrong(Fault::PointerResultRefused);
    let result = (function.returns != 0 || rules.wrong(Fault::NoResultMapped)) && !pointer;
    refuse(part || !lengths || !numbers || !result, 13)?;
    // "Upper bits in an int argument refuse at their row", the profile before any
    refuse(other && !rules.wrong(Fault::MapProfileAtRow), 17)?;
    let upper = rules.wrong(Fault::UpperBitsFirst);
    refuse(
        upper && wrong::upper_bits(&parameters, call.arg_payloads),
        13,
    )?;
    Ok(parameters)
}

/// "There are as many rows as `out` has 8 bytes."
fn count(rules: Rules, call: MapCall<'_>, parameters: &[u8], out_len: usize) -> usize {
    let rows = out_len / EIGHT;
    if rules.wrong(Fault::FirstRowOnly) {
        return rows.min(1);
    }
    match (call.arg_payloads.len() / EIGHT).checked_div(parameters.len()) {
        // fewer in this variant alone
        Some(given) if rules.wrong(Fault::LengthsUncompared) => rows.min(given),
        _ => rows,
    }
}

/// A run of this function for this profile and this long, without arguments.
fn run_of(call: MapCall<'_>) -> Call<'static> {
    Call {
        function: call.function,
        arg_types: &[],
        arg_payloads: &[],
        profile: call.profile,
        allowance: call.allowance,
    }
}

/// The rows of an admitted call.
struct Rows<'a> {
    rules: Rules,
    file: &'a [u8],
    call: MapCall<'a>,
    parameters: Vec<u8>,
    count: usize,
}

impl Rows<'_> {
    /// Runs one row after the other: the number of the first that does not finish, or 0.
    fn map(
        &mut self,
        out: &mut [u8],
        stack: &mut LentStack<'_>,
        heap: &mut LentHeap<'_>,
        rows: &mut u64,
    ) -> u32 {
        for row in 0..self.count {
            let row = self.place(row);
            let ran = self.run(row, stack, heap);
            let number = match ran {
                Ran::Ended { outcome, .. } => outcome,
                // upper bits: "that row's run is a refusal 13"
                Ran::Refused(number) => number,
            };
            if number == 0 {
                // "Where the row's run finishes with a value, that payload (8 bytes, little endian)
                // is `out[8*i .. 8*i+8]`."
                write(self.rules, row, first(stack), out);
                *rows += 1;
                self.spend(ran);
            } else if !self.rules.wrong(Fault::RowSkipped) {
                // "The first row that does not finish ends the call: its number is the answer,
                // `*rows` is the count of rows before it, and later outputs (its own too) are
                // unchanged."
                self.end_wrongly(ran, row, stack, out);
                *rows += u64::from(self.rules.wrong(Fault::FailingRowCounted));
                return number;
            }
        }
        // "All rows finished: answer 0, `*rows` all rows."
        0
    }

    /// The run of one row.
    fn run(&self, row: usize, stack: &mut LentStack<'_>, heap: &mut LentHeap<'_>) -> Ran {
        let arguments = self.arguments(row);
        let call = Call {
            arg_types: &self.parameters,
            arg_payloads: &arguments,
            ..run_of(self.call)
        };
        let rules = self.rules_of(row, &arguments, stack);
        run(rules, self.file, call, stack.again(), heap.again())
    }

    /// The row's payloads.
    fn arguments(&self, row: usize) -> Vec<u8> {
        if self.rules.wrong(Fault::RowsByColumn) {
            return self.column(row);
        }
        let length = EIGHT * self.parameters.len();
        self.call.arg_payloads[length * row..length * (row + 1)].to_vec()
    }
}

/// The payload of the lowest slot, where a function that finished leaves its value.
fn first(stack: &LentStack<'_>) -> [u8; EIGHT] {
    let slot = stack.payloads.first_chunk();
    // only a wrong variant finishes without a slot
    slot.copied().unwrap_or_default()
}

/// A row's output.
fn write(rules: Rules, row: usize, value: [u8; EIGHT], out: &mut [u8]) {
    let row = row + usize::from(rules.wrong(Fault::OutputsShifted));
    if let Some(own) = out.chunks_exact_mut(EIGHT).nth(row) {
        own.copy_from_slice(&value);
    }
}

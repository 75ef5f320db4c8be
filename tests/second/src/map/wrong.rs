//! What wrong variants of rows do besides: before the first row, around a run, at the row that ends
//! the call.

use super::{first, run_of, write, Rows, EIGHT};
use crate::heap::LentHeap;
use crate::rules::{Fault, Rules};
use crate::run::{capacity, run, Call, LentStack, Ran};
use crate::types::INT;
use crate::words::payload;

/// Has an int of any row upper bits?
pub fn upper_bits(parameters: &[u8], arg_payloads: &[u8]) -> bool {
    let types = parameters.iter().cycle();
    let mut slots = types.zip(arg_payloads.chunks_exact(EIGHT));
    slots.any(|(&ty, bytes)| ty == INT && payload(bytes, 0) >> 32 != 0)
}

impl Rows<'_> {
    /// Clears the slots where there are no rows, or tests the capacity before any row.
    pub fn start_wrongly(&self, stack: &mut LentStack<'_>, heap: &mut LentHeap<'_>) -> Option<u32> {
        let slots = capacity(self.rules, stack);
        if self.rules.wrong(Fault::NoRowsClear) && self.count == 0 {
            clear(self.rules, stack);
        }
        if !self.rules.wrong(Fault::MisfitFirst) || self.parameters.len() <= slots {
            return None;
        }
        let call = Call {
            arg_types: &self.parameters,
            arg_payloads: &vec![0; EIGHT * self.parameters.len()],
            ..run_of(self.call)
        };
        run(self.rules, self.file, call, stack.again(), heap.again());
        Some(20)
    }

    /// Which row is run as this one.
    pub fn place(&self, row: usize) -> usize {
        if self.rules.wrong(Fault::RowsBackwards) {
            return self.count - 1 - row;
        }
        row
    }

    /// The arguments of a row, where those of one parameter lie together.
    pub fn column(&self, row: usize) -> Vec<u8> {
        let own = |n: usize| EIGHT * (n * self.count + row);
        let all = (0..self.parameters.len())
            .flat_map(|n| &self.call.arg_payloads[own(n)..own(n) + EIGHT]);
        all.copied().collect()
    }

    /// The rules for the run of a row: two variants are wrong about some rows only.
    pub fn rules_of(&self, row: usize, arguments: &[u8], stack: &mut LentStack<'_>) -> Rules {
        if self.rules.wrong(Fault::LastRowUncleared) && row + 1 == self.count {
            lay(arguments, &self.parameters, stack);
            return Rules::with(Fault::SlotsNotCleared);
        }
        if self.rules.wrong(Fault::HeapKept) && row == 0 {
            // there is no row before it
            return Rules::PLAIN;
        }
        self.rules
    }

    /// Takes a row's steps from the allowance of the next.
    pub fn spend(&mut self, ran: Ran) {
        if let Ran::Ended { steps, .. } = ran {
            if self.rules.wrong(Fault::AllowanceShared) {
                self.call.allowance -= steps;
            }
        }
    }

    /// Changes slots or outputs at the row that ends the call.
    pub fn end_wrongly(&self, ran: Ran, row: usize, stack: &mut LentStack<'_>, out: &mut [u8]) {
        let refused = matches!(ran, Ran::Refused(_));
        if refused && self.rules.wrong(Fault::RefusedRowClears) {
            clear(self.rules, stack);
        }
        if !refused && self.rules.wrong(Fault::FailingOutputWritten) {
            write(self.rules, row, first(stack), out);
        }
        if self.rules.wrong(Fault::LaterOutputsCleared) {
            out[EIGHT * row..].fill(0);
        }
    }
}

/// Zeros in all slots of the capacity.
fn clear(rules: Rules, stack: &mut LentStack<'_>) {
    let slots = capacity(rules, stack);
    stack.payloads[..EIGHT * slots].fill(0);
    stack.types[..slots].fill(0);
}

/// Arguments in the lowest slots, as far as there are any.
fn lay(arguments: &[u8], types: &[u8], stack: &mut LentStack<'_>) {
    let slots = capacity(Rules::PLAIN, stack).min(types.len());
    stack.payloads[..EIGHT * slots].copy_from_slice(&arguments[..EIGHT * slots]);
    stack.types[..slots].copy_from_slice(&types[..slots]);
}

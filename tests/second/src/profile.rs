//! The profile that a function was made for, document 02's A7: answer 17.

use crate::machine::Slot;
use crate::opcode::Op;
use crate::reader::{Module, ENTRY};
use crate::rules::{Fault, Rules};
use crate::run::{capacity, Call, LentStack};

/// "A run now names the scan's profile, and is refused where the function it starts has another
/// nonzero number." The entry has no record, and functions that are called are not started.
pub fn differs(rules: Rules, module: Module<'_>, call: Call<'_>) -> bool {
    let other = |n: u32| {
        let function = module.function(n);
        function.is_some_and(|f| is_other(rules, f.profile, call.profile))
    };
    let entry = call.function == ENTRY && rules.wrong(Fault::EntryProfiled);
    let called =
        rules.wrong(Fault::CalledProfiled) && calls(module, call.function).into_iter().any(other);
    let all = rules.wrong(Fault::EveryFunctionProfiled) && (0..module.functions).any(other);
    other(call.function) || entry && other(0) || called || all
}

/// Is the function's number nonzero, and another than the scan's? That a run names profile 0
/// changes nothing: 0 means any in a record alone.
fn is_other(rules: Rules, made_for: u32, scan: u32) -> bool {
    if rules.wrong(Fault::ProfileIgnored) || scan == 0 && rules.wrong(Fault::ProfileZeroIsAny) {
        return false;
    }
    if rules.wrong(Fault::ProfileLowByte) {
        return made_for != 0 && made_for as u8 != scan as u8;
    }
    let any = made_for == 0 && !rules.wrong(Fault::AnyProfileRefused);
    !any && made_for != scan
}

/// Wrong on purpose in one variant: arguments that don't fit come before 17.
pub fn late(rules: Rules, arguments: &[Slot], stack: &LentStack<'_>) -> bool {
    rules.wrong(Fault::ProfileAfterMisfit) && arguments.len() > capacity(rules, stack)
}

/// The functions that a body's code calls.
pub fn calls(module: Module<'_>, body: u32) -> Vec<u32> {
    let starts = module.starts(Rules::PLAIN, body).0.into_iter();
    starts
        .filter_map(|place| module.instruction(Rules::PLAIN, place))
        .filter(|at| at.op == Op::Call)
        .map(|at| at.operand)
        .collect()
}

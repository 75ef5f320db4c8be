//! Document 02's A4: a formula line, and the module that it is written as.
//!
//! * `tokens` cuts the line, `yard` puts the tokens in postfix order with a stack of signs; this
//!   is what the answers are made of.
//! * `split` reads a line in another way, by the sign that is computed last, and computes its
//!   value. The tests hold the two against each other.
//! * `place` finds where a line that is not in the grammar goes wrong.

pub mod place;
pub mod split;
pub mod tokens;
pub mod yard;

use crate::opcode::Op;
use crate::program::{Constant, Instr, Program, Routine};
use crate::reader::{refuse, HEADER};
use crate::rules::{Fault, Rules};
use crate::types::INT;
use tokens::Token;
use yard::Item;

/// "Take a line of at most 256 bytes".
pub const LONGEST_LINE: usize = 256;
/// "up to 16 deep"
pub const DEEPEST: usize = 16;
/// "43 a typing would need over 32 operands"
pub const MOST_OPERANDS: usize = 32;
/// "run with allowance 257 and 35 slots, or more"
pub const ALLOWANCE: u64 = 257;
pub const SLOTS: usize = 35;

/// The bytes of the module of `r`, the shortest there is.
const SHORTEST: usize = 74;

/// Writes a line's module: "a writer answers 0 with the length and leaves output past it
/// unchanged".
pub fn formula(rules: Rules, line: &[u8], out: &mut [u8]) -> Result<usize, u32> {
    if rules.wrong(Fault::FormulaOutputFirst) {
        refuse(out.len() < SHORTEST, 16)?;
    }
    let file = module(rules, line)?;
    if rules.wrong(Fault::FormulaHeaderFirst) && out.len() >= HEADER {
        out[..HEADER].copy_from_slice(&file[..HEADER]);
    }
    // "then 16"
    let full = rules.wrong(Fault::FormulaOutputFull) && out.len() == file.len();
    refuse(out.len() < file.len() || full, 16)?;
    let (written, rest) = out.split_at_mut(file.len());
    written.copy_from_slice(&file);
    if rules.wrong(Fault::FormulaRestCleared) {
        rest.fill(0);
    }
    if rules.wrong(Fault::FormulaLengthOfOutput) {
        return Ok(out.len());
    }
    Ok(file.len())
}

/// The module of a line. "Refusals, in this order: 40 too long; 41 not in the grammar taken
/// without the depth limit, or a number too large; 42 over 16 deep; 43 a typing would need over
/// 32 operands".
pub fn module(rules: Rules, line: &[u8]) -> Result<Vec<u8>, u32> {
    if !rules.wrong(Fault::GrammarBeforeLength) {
        refuse(too_long(rules, line), 40)?;
    }
    let tokens = tokens::cut(rules, line);
    let deep = yard::depth(rules, &tokens) > DEEPEST + extra(rules, Fault::DepthSeventeen);
    if rules.wrong(Fault::DepthBeforeGrammar) {
        refuse(deep, 42)?;
    }
    let items = yard::postfix(rules, &tokens)?;
    if rules.wrong(Fault::NumberAfterDepth) {
        refuse(deep, 42)?;
    }
    refuse(tokens.contains(&Token::Number(None)), 41)?;
    if rules.wrong(Fault::QuotientByZeroRefused) {
        let by_zero = [Item::Number(0), Item::Two(b'/')];
        refuse(items.windows(2).any(|pair| pair == by_zero), 41)?;
    }
    refuse(
        rules.wrong(Fault::GrammarBeforeLength) && too_long(rules, line),
        40,
    )?;
    let needs = yard::operands(rules, &items);
    let over = needs > MOST_OPERANDS + extra(rules, Fault::OperandsThirtyThree);
    if rules.wrong(Fault::OperandsBeforeDepth) {
        refuse(over, 43)?;
    }
    refuse(deep, 42)?;
    refuse(over, 43)?;
    Ok(program(rules, &items).file())
}

fn extra(rules: Rules, fault: Fault) -> usize {
    usize::from(rules.wrong(fault))
}

/// 40: "a line of at most 256 bytes", spaces counted.
fn too_long(rules: Rules, line: &[u8]) -> bool {
    if rules.wrong(Fault::SpacesUncounted) {
        return line.iter().filter(|&&byte| byte != b' ').count() > LONGEST_LINE;
    }
    line.len() > LONGEST_LINE - extra(rules, Fault::LengthAtMost255)
}

/// "Write an edition 3 module with one function of three ints returning an int, an empty entry
/// and no labels: one constant per number in line order, code the reading in postfix (`neg`,
/// `mul`, `div`), then `ret`."
fn program(rules: Rules, items: &[Item]) -> Program {
    let mut program = Program::default();
    let mut code = Vec::new();
    for &item in items {
        let (op, operand) = match item {
            Item::Number(value) => (Op::Push, constant(rules, &mut program, value)),
            Item::Name(n) if rules.wrong(Fault::NamesReversed) => (Op::Load, 2 - n),
            Item::Name(n) => (Op::Load, n),
            Item::Minus => (Op::Neg, 0),
            Item::Two(b'+') => (Op::Add, 0),
            Item::Two(b'-') => (Op::Sub, 0),
            Item::Two(b'*') if rules.wrong(Fault::SignedProduct) => (Op::Imul, 0),
            Item::Two(b'*') => (Op::Mul, 0),
            Item::Two(_) if rules.wrong(Fault::SignedQuotient) => (Op::Idiv, 0),
            Item::Two(_) => (Op::Div, 0),
        };
        code.push(Instr { op, operand });
    }
    let (op, operand) = (Op::Ret, 0);
    code.push(Instr { op, operand });
    program.functions.push(Routine {
        parameters: vec![INT; 3],
        returns: INT,
        code,
        ..Routine::default()
    });
    program
}

/// The next constant, and its number.
fn constant(rules: Rules, program: &mut Program, value: u32) -> u32 {
    let constant = Constant {
        ty: u32::from(INT),
        payload: u64::from(value),
    };
    let known = program.constants.iter().position(|&c| c == constant);
    if let Some(n) = known.filter(|_| rules.wrong(Fault::ConstantsShared)) {
        return n as u32;
    }
    program.constants.push(constant);
    program.constants.len() as u32 - 1
}

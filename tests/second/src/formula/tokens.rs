//! A line cut into tokens.
//!
//! "unsigned decimal ints up to 4294967295, the names r, g, b for parameters 0 to 2, `+ - * /`,
//! brackets, unary minus, spaces"

use crate::rules::{Fault, Rules};

#[derive(Clone, Copy, Debug, PartialEq, Eq)]
pub enum Token {
    /// A number, or nothing where it is over 4294967295.
    Number(Option<u32>),
    /// A parameter's number.
    Name(u32),
    /// `+`, `-`, `*` or `/`.
    Sign(u8),
    Open,
    Close,
    /// A byte that no line has.
    Other,
}

/// Cuts a line. "spaces may stand anywhere but inside a number": a space ends a number.
pub fn cut(rules: Rules, line: &[u8]) -> Vec<Token> {
    let mut rest = &mend(rules, line)[..];
    let mut tokens = Vec::new();
    while let Some(&first) = rest.first() {
        let digits = rest.iter().take_while(|byte| byte.is_ascii_digit()).count();
        if digits > 0 {
            tokens.push(Token::Number(value(rules, &rest[..digits])));
        } else if first != b' ' {
            tokens.push(match first {
                b'r' => Token::Name(0),
                b'g' => Token::Name(1),
                b'b' => Token::Name(2),
                b'+' | b'-' | b'*' | b'/' => Token::Sign(first),
                b'(' => Token::Open,
                b')' => Token::Close,
                _ => Token::Other,
            });
        }
        rest = &rest[digits.max(1)..];
    }
    tokens
}

/// "up to 4294967295"; "Leading zeros are allowed".
fn value(rules: Rules, digits: &[u8]) -> Option<u32> {
    if rules.wrong(Fault::TenDigitsMost) && digits.len() > 10 {
        return None;
    }
    let mut value = Some(0u32);
    let mut wrapped = 0u32;
    for digit in digits.iter().map(|byte| u32::from(byte - b'0')) {
        value = value
            .and_then(|value| value.checked_mul(10))
            .and_then(|value| value.checked_add(digit));
        wrapped = wrapped.wrapping_mul(10).wrapping_add(digit);
    }
    if rules.wrong(Fault::NumberWraps) {
        return Some(wrapped);
    }
    value
}

/// Wrong on purpose: other bytes taken for those of the grammar.
fn mend(rules: Rules, line: &[u8]) -> Vec<u8> {
    let mut line = line.to_vec();
    if rules.wrong(Fault::TabsAreSpaces) {
        for byte in line.iter_mut().filter(|byte| byte.is_ascii_whitespace()) {
            *byte = b' ';
        }
    }
    if rules.wrong(Fault::CapitalsTaken) {
        line.make_ascii_lowercase();
    }
    if rules.wrong(Fault::SpacesInNumbers) {
        line.retain(|&byte| byte != b' ');
    }
    if rules.wrong(Fault::EmptyLineTaken) && line.iter().all(|&byte| byte == b' ') {
        line = vec![b'0'];
    }
    line
}

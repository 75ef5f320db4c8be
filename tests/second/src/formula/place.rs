//! Where a line leaves the grammar: the longest beginning that some line of the grammar has.
//!
//! It is found by trying: a beginning belongs to a line if it becomes one by what is added.

use super::tokens::{cut, Token};
use super::yard::postfix;
use crate::rules::Rules;

/// Is this a line of the grammar, of any length and depth, with no number too large?
pub fn in_grammar(line: &[u8]) -> bool {
    let tokens = cut(Rules::PLAIN, line);
    postfix(Rules::PLAIN, &tokens).is_ok() && !tokens.contains(&Token::Number(None))
}

/// Does some line of the grammar begin like this? What is missing is at most an operand and then
/// brackets.
pub fn begins_a_line(start: &[u8]) -> bool {
    ["", "r"].iter().any(|operand| {
        (0..=start.len()).any(|brackets| {
            let end = operand.bytes().chain(std::iter::repeat_n(b')', brackets));
            let line: Vec<u8> = start.iter().copied().chain(end).collect();
            in_grammar(&line)
        })
    })
}

/// The bytes from the line's start up to the place where no line of the grammar can go on like
/// this any more; all of them where the line ends too early.
pub fn place(line: &[u8]) -> usize {
    // what begins a line still does when it is cut: the longest is found by halving
    let (mut begins, mut not) = (0, line.len() + 1);
    while not - begins > 1 {
        let middle = (begins + not) / 2;
        if begins_a_line(&line[..middle]) {
            begins = middle;
        } else {
            not = middle;
        }
    }
    begins
}

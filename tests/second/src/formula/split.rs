//! A line read by the sign that is computed last, and its value.
//!
//! This is another way to read a line than `tokens` and `yard`, and takes nothing from them.

/// A reading. Brackets are kept, for the depth.
#[derive(Clone, Debug, PartialEq, Eq)]
pub enum Reading {
    Number(u32),
    /// A parameter's number.
    Name(usize),
    Bracket(Box<Reading>),
    Minus(Box<Reading>),
    Two(u8, Box<Reading>, Box<Reading>),
}

/// The reading of a line, of any length and depth; nothing if it is not in the grammar or has a
/// number too large.
pub fn reading(line: &[u8]) -> Option<Reading> {
    whole(&without_spaces(line)?)
}

/// "spaces may stand anywhere but inside a number": nothing where digits stand on both sides.
fn without_spaces(line: &[u8]) -> Option<Vec<u8>> {
    let mut text: Vec<u8> = Vec::new();
    for (n, &byte) in line.iter().enumerate() {
        let after_space = n > 0 && line[n - 1] == b' ';
        let digits = byte.is_ascii_digit() && text.last().is_some_and(u8::is_ascii_digit);
        if after_space && digits {
            return None;
        }
        if byte != b' ' {
            text.push(byte);
        }
    }
    Some(text)
}

fn whole(text: &[u8]) -> Option<Reading> {
    // "Products bind tighter than sums, equal ranks group from the left": of the signs of the
    // lowest rank the last is computed last
    for signs in [b"+-", b"*/"] {
        if let Some(at) = last(text, *signs) {
            let (left, right) = (whole(&text[..at])?, whole(&text[at + 1..])?);
            return Some(Reading::Two(text[at], Box::new(left), Box::new(right)));
        }
    }
    match text {
        // "unary minus binds tightest and may repeat"
        [b'-', rest @ ..] => Some(Reading::Minus(Box::new(whole(rest)?))),
        // "A bracketed part holds a whole line's grammar again"
        [b'(', inner @ .., b')'] => Some(Reading::Bracket(Box::new(whole(inner)?))),
        [b'r'] => Some(Reading::Name(0)),
        [b'g'] => Some(Reading::Name(1)),
        [b'b'] => Some(Reading::Name(2)),
        digits => number(digits),
    }
}

/// The last of these signs that stands outside all brackets, after an operand.
fn last(text: &[u8], signs: [u8; 2]) -> Option<usize> {
    let mut depth = 0i64;
    let mut found = None;
    for (n, &byte) in text.iter().enumerate() {
        depth += match byte {
            b'(' => 1,
            b')' => -1,
            _ => 0,
        };
        let after_operand =
            n > 0 && (text[n - 1].is_ascii_digit() || b"rgb)".contains(&text[n - 1]));
        if depth == 0 && after_operand && signs.contains(&byte) {
            found = Some(n);
        }
    }
    found
}

/// "unsigned decimal ints up to 4294967295"; "Leading zeros are allowed".
fn number(digits: &[u8]) -> Option<Reading> {
    if digits.is_empty() || !digits.iter().all(u8::is_ascii_digit) {
        return None;
    }
    let text = std::str::from_utf8(digits).ok()?.trim_start_matches('0');
    let value = match text.len() {
        0 => 0,
        1..=10 => text.parse::<u64>().ok()?,
        _ => return None,
    };
    u32::try_from(value).ok().map(Reading::Number)
}

impl Reading {
    /// "the reading's value in wrapping unsigned ints", or nothing "where a quotient is by zero".
    pub fn value(&self, names: [u32; 3]) -> Option<u32> {
        match self {
            Reading::Number(value) => Some(*value),
            Reading::Name(n) => Some(names[*n]),
            Reading::Bracket(inner) => inner.value(names),
            Reading::Minus(inner) => Some(0u32.wrapping_sub(inner.value(names)?)),
            Reading::Two(sign, left, right) => {
                let (a, b) = (left.value(names)?, right.value(names)?);
                match sign {
                    b'+' => Some(a.wrapping_add(b)),
                    b'-' => Some(a.wrapping_sub(b)),
                    b'*' => Some(a.wrapping_mul(b)),
                    _ => a.checked_div(b),
                }
            }
        }
    }

    /// The most brackets around one place.
    pub fn depth(&self) -> usize {
        match self {
            Reading::Number(_) | Reading::Name(_) => 0,
            Reading::Bracket(inner) => 1 + inner.depth(),
            Reading::Minus(inner) => inner.depth(),
            Reading::Two(_, left, right) => left.depth().max(right.depth()),
        }
    }

    /// The most operands at once: the left one waits while the right one is computed.
    pub fn operands(&self) -> usize {
        match self {
            Reading::Number(_) | Reading::Name(_) => 1,
            Reading::Bracket(inner) | Reading::Minus(inner) => inner.operands(),
            Reading::Two(_, left, right) => left.operands().max(1 + right.operands()),
        }
    }

    /// The instructions of its code, without `ret`.
    pub fn instructions(&self) -> u64 {
        match self {
            Reading::Number(_) | Reading::Name(_) => 1,
            Reading::Bracket(inner) => inner.instructions(),
            Reading::Minus(inner) => 1 + inner.instructions(),
            Reading::Two(_, left, right) => 1 + left.instructions() + right.instructions(),
        }
    }
}

/// The refusal of a line by its reading: 40 to 43, or nothing.
pub fn refusal(line: &[u8]) -> Option<u32> {
    if line.len() > super::LONGEST_LINE {
        return Some(40);
    }
    let Some(reading) = reading(line) else {
        return Some(41);
    };
    if reading.depth() > super::DEEPEST {
        return Some(42);
    }
    (reading.operands() > super::MOST_OPERANDS).then_some(43)
}

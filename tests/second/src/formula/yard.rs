//! Tokens in postfix order, by a yard where signs wait.

use super::tokens::Token;
use crate::rules::{Fault, Rules};

/// One place of the postfix order.
#[derive(Clone, Copy, Debug, PartialEq, Eq)]
pub enum Item {
    Number(u32),
    /// A parameter's number.
    Name(u32),
    Minus,
    /// `+`, `-`, `*` or `/` of the two before it.
    Two(u8),
}

/// What waits in the yard.
#[derive(Clone, Copy, Debug, PartialEq, Eq)]
enum Waiting {
    Bracket,
    Sign(Item),
}

/// "Products bind tighter than sums, equal ranks group from the left, unary minus binds
/// tightest".
fn rank(rules: Rules, sign: Item) -> u32 {
    match sign {
        Item::Two(b'+' | b'-') => 2,
        Item::Two(_) => 4,
        _ if rules.wrong(Fault::MinusBelowProducts) => 3,
        _ if rules.wrong(Fault::MinusBelowSums) => 1,
        _ => 5,
    }
}

struct Yard {
    rules: Rules,
    waiting: Vec<Waiting>,
    items: Vec<Item>,
}

impl Yard {
    /// Signs that are computed before one of this rank leave the yard, down to a bracket.
    fn leave(&mut self, rank_of_next: u32) {
        while let Some(&Waiting::Sign(sign)) = self.waiting.last() {
            let mut own = rank(self.rules, sign);
            if self.rules.wrong(Fault::GroupsRight) && sign != Item::Minus {
                own -= 1;
            }
            if own < rank_of_next {
                break;
            }
            self.waiting.pop();
            self.put(sign);
        }
    }

    fn put(&mut self, item: Item) {
        let last = self.items.last().copied();
        match (item, last) {
            (Item::Minus, Some(Item::Number(n))) if self.rules.wrong(Fault::NegativeConstants) => {
                self.items.pop();
                self.items.push(Item::Number(n.wrapping_neg()));
            }
            _ => self.items.push(item),
        }
    }
}

/// The reading in postfix, or 41: "not in the grammar taken without the depth limit". A number
/// that is too large stands as 0.
pub fn postfix(rules: Rules, tokens: &[Token]) -> Result<Vec<Item>, u32> {
    let mut yard = Yard {
        rules,
        waiting: Vec::new(),
        items: Vec::new(),
    };
    // does an operand come next, or what follows one?
    let mut operand = true;
    for (n, &token) in tokens.iter().enumerate() {
        let begins = matches!(token, Token::Number(_) | Token::Name(_) | Token::Open);
        if begins && !operand && rules.wrong(Fault::ProductUnwritten) {
            yard.leave(rank(rules, Item::Two(b'*')));
            yard.waiting.push(Waiting::Sign(Item::Two(b'*')));
            operand = true;
        }
        match (operand, token) {
            (true, Token::Number(value)) => {
                yard.items.push(Item::Number(value.unwrap_or(0)));
                operand = false;
            }
            (true, Token::Name(n)) => {
                yard.items.push(Item::Name(n));
                operand = false;
            }
            // "unary minus ... may repeat"
            (true, Token::Sign(b'-')) => {
                let again = n > 0 && yard.waiting.last() == Some(&Waiting::Sign(Item::Minus));
                if again && rules.wrong(Fault::MinusOnce) {
                    return Err(41);
                }
                yard.waiting.push(Waiting::Sign(Item::Minus));
            }
            (true, Token::Sign(b'+')) if rules.wrong(Fault::UnaryPlus) => {}
            (true, Token::Open) => yard.waiting.push(Waiting::Bracket),
            (false, Token::Sign(sign)) => {
                yard.leave(rank(rules, Item::Two(sign)));
                yard.waiting.push(Waiting::Sign(Item::Two(sign)));
                operand = true;
            }
            (false, Token::Close) => {
                yard.leave(0);
                if yard.waiting.pop() != Some(Waiting::Bracket) {
                    return Err(41);
                }
            }
            _ => return Err(41),
        }
    }
    yard.leave(0);
    if operand || !yard.waiting.is_empty() {
        return Err(41);
    }
    Ok(yard.items)
}

/// "A bracketed part holds a whole line's grammar again, up to 16 deep": the most brackets that
/// are open at once.
pub fn depth(rules: Rules, tokens: &[Token]) -> usize {
    let (mut open, mut most) = (0usize, 0);
    let mut minuses = 0;
    for &token in tokens {
        minuses = match token {
            Token::Sign(b'-') if rules.wrong(Fault::MinusDeepens) => minuses + 1,
            _ => 0,
        };
        match token {
            Token::Open => open += 1,
            Token::Close => open = open.saturating_sub(1),
            _ => {}
        }
        most = most.max(open + minuses);
    }
    most
}

/// "a typing would need over 32 operands": the most that stand at one place of the code.
pub fn operands(rules: Rules, items: &[Item]) -> usize {
    if rules.wrong(Fault::OperandsByTree) {
        return by_tree(items);
    }
    let (mut now, mut most) = (0, 0);
    for item in items {
        match item {
            Item::Number(_) | Item::Name(_) => now += 1,
            Item::Minus => {}
            Item::Two(_) => now -= 1,
        }
        most = most.max(now);
    }
    most
}

/// Wrong on purpose: the least that any order of computing needs.
fn by_tree(items: &[Item]) -> usize {
    let mut needs: Vec<usize> = Vec::new();
    for item in items {
        match item {
            Item::Number(_) | Item::Name(_) => needs.push(1),
            Item::Minus => {}
            Item::Two(_) => {
                let (right, left) = (needs.pop().unwrap_or(0), needs.pop().unwrap_or(0));
                needs.push(left.max(right).max(left.min(right) + 1));
            }
        }
    }
    needs.pop().unwrap_or(0)
}

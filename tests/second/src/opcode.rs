//! Editions and their opcodes. Edition 3: "opcodes 01 to 05, 07 to 28, 2B, 2C, 2E (hex), 42 in
//! all". Edition 1: "source document 003's 0.1.0 numbers, 01 to 25 (hex)", 37 in all. Edition 4
//! "adds `null`, `new`, `delete`, `flea`", and "Add to edition 4 `gcnull` and `gcnew`", with 003's
//! 0.3.0 numbers, 48 in all.

use crate::rules::{Fault, Rules};

/// "Edition word 1 now means source document 003's 0.1.0 numbers".
#[derive(Clone, Copy, Debug, Default, PartialEq, Eq, PartialOrd, Ord, Hash)]
pub enum Edition {
    One,
    #[default]
    Three,
    /// "Structures and a heap."
    Four,
}

pub const EDITIONS: [Edition; 3] = [Edition::One, Edition::Three, Edition::Four];

impl Edition {
    /// The edition of a word, or nothing: "none of 1, 3 and 4".
    pub fn from_word(rules: Rules, word: u32) -> Option<Edition> {
        match word {
            1 if !rules.wrong(Fault::EditionOneRefused) => Some(Edition::One),
            3 => Some(Edition::Three),
            4 if !rules.wrong(Fault::EditionFourRefused) => Some(Edition::Four),
            2 if rules.wrong(Fault::EditionTwoTaken) => Some(Edition::Three),
            _ => None,
        }
    }

    pub fn word(self) -> u32 {
        match self {
            Edition::One => 1,
            Edition::Three => 3,
            Edition::Four => 4,
        }
    }

    /// Edition 1 has "No pointer types".
    pub fn has_pointers(self) -> bool {
        self != Edition::One
    }

    /// Edition 4 has structures, `null`, `new`, `delete`, `flea`, `gcnull` and `gcnew`.
    pub fn has_heap(self) -> bool {
        self == Edition::Four
    }

    /// "Each function record of edition 4 ... gets one more word".
    pub fn has_profiles(self) -> bool {
        self == Edition::Four
    }

    /// "`toi` and `tol` from a NaN or out of range double now raise; edition 1 keeps the pattern."
    pub fn raises_out_of_range(self) -> bool {
        self != Edition::One
    }

    /// The edition's opcodes.
    pub fn ops(self) -> Vec<Op> {
        let all = ALL.iter().map(|&(op, _)| op);
        all.filter(|op| op.byte(self).is_some()).collect()
    }
}

#[derive(Clone, Copy, Debug, PartialEq, Eq, PartialOrd, Ord, Hash)]
#[repr(u8)]
pub enum Op {
    Push = 0x01,
    Pop = 0x02,
    Load = 0x03,
    Store = 0x04,
    Lea = 0x05,
    Flea = 0x06,
    Tload = 0x07,
    Tstore = 0x08,
    Copy = 0x09,
    Swap = 0x0A,
    Add = 0x0B,
    Sub = 0x0C,
    Mul = 0x0D,
    Imul = 0x0E,
    Div = 0x0F,
    Idiv = 0x10,
    Mod = 0x11,
    Imod = 0x12,
    Neg = 0x13,
    Inc = 0x14,
    Dec = 0x15,
    And = 0x16,
    Or = 0x17,
    Xor = 0x18,
    Not = 0x19,
    Shl = 0x1A,
    Sal = 0x1B,
    Shr = 0x1C,
    Sar = 0x1D,
    Cmp = 0x1E,
    Icmp = 0x1F,
    Jmp = 0x20,
    Je = 0x21,
    /// "22 hex is `jne`."
    Jne = 0x22,
    Ja = 0x23,
    Jae = 0x24,
    Jb = 0x25,
    Jbe = 0x26,
    Call = 0x27,
    Ret = 0x28,
    Toi = 0x2B,
    Tol = 0x2C,
    Tod = 0x2E,
    Null = 0x30,
    New = 0x31,
    Delete = 0x32,
    GcNull = 0x33,
    GcNew = 0x34,
}

/// Every opcode with its mnemonic.
pub const ALL: [(Op, &str); 48] = [
    (Op::Push, "push"),
    (Op::Pop, "pop"),
    (Op::Load, "load"),
    (Op::Store, "store"),
    (Op::Lea, "lea"),
    (Op::Flea, "flea"),
    (Op::Tload, "tload"),
    (Op::Tstore, "tstore"),
    (Op::Copy, "copy"),
    (Op::Swap, "swap"),
    (Op::Add, "add"),
    (Op::Sub, "sub"),
    (Op::Mul, "mul"),
    (Op::Imul, "imul"),
    (Op::Div, "div"),
    (Op::Idiv, "idiv"),
    (Op::Mod, "mod"),
    (Op::Imod, "imod"),
    (Op::Neg, "neg"),
    (Op::Inc, "inc"),
    (Op::Dec, "dec"),
    (Op::And, "and"),
    (Op::Or, "or"),
    (Op::Xor, "xor"),
    (Op::Not, "not"),
    (Op::Shl, "shl"),
    (Op::Sal, "sal"),
    (Op::Shr, "shr"),
    (Op::Sar, "sar"),
    (Op::Cmp, "cmp"),
    (Op::Icmp, "icmp"),
    (Op::Jmp, "jmp"),
    (Op::Je, "je"),
    (Op::Jne, "jne"),
    (Op::Ja, "ja"),
    (Op::Jae, "jae"),
    (Op::Jb, "jb"),
    (Op::Jbe, "jbe"),
    (Op::Call, "call"),
    (Op::Ret, "ret"),
    (Op::Toi, "toi"),
    (Op::Tol, "tol"),
    (Op::Tod, "tod"),
    (Op::Null, "null"),
    (Op::New, "new"),
    (Op::Delete, "delete"),
    (Op::GcNull, "gcnull"),
    (Op::GcNew, "gcnew"),
];

/// 003's numbers of version 0.1.0, from 01 on. It gives `top` the number 26 (hex), though that
/// is of 0.2.0: "01 to 25 (hex)".
pub const OLD: [Op; 37] = [
    Op::Push,
    Op::Pop,
    Op::Load,
    Op::Store,
    Op::Add,
    Op::Sub,
    Op::Mul,
    Op::Imul,
    Op::Div,
    Op::Idiv,
    Op::Mod,
    Op::Imod,
    Op::Neg,
    Op::Inc,
    Op::Dec,
    Op::And,
    Op::Or,
    Op::Xor,
    Op::Not,
    Op::Shl,
    Op::Sal,
    Op::Shr,
    Op::Sar,
    Op::Cmp,
    Op::Icmp,
    Op::Jmp,
    Op::Je,
    // 003's second entry `je`, as in edition 3
    Op::Jne,
    Op::Ja,
    Op::Jae,
    Op::Jb,
    Op::Jbe,
    Op::Call,
    Op::Ret,
    Op::Toi,
    Op::Tol,
    Op::Tod,
];

impl Op {
    /// The opcode of a byte, or nothing for "an unknown opcode".
    pub fn from_byte(rules: Rules, edition: Edition, byte: u8) -> Option<Op> {
        if edition == Edition::One && !rules.wrong(Fault::NewNumbersInOne) {
            return Op::from_old_byte(rules, byte);
        }
        let index = match byte {
            0x01..=0x28 => byte - 0x01,
            0x2B | 0x2C => byte - 0x2B + 40,
            0x2E => 42,
            0x30..=0x34 => byte - 0x30 + 43,
            _ => return None,
        };
        let op = ALL[index as usize].0;
        let lacking = op.is_of_the_heap() && !edition.has_heap();
        let taken = if op.is_managed() {
            rules.wrong(Fault::ManagedOpcodesInThree)
        } else {
            rules.wrong(Fault::HeapOpcodesInThree)
        };
        (!lacking || taken).then_some(op)
    }

    fn from_old_byte(rules: Rules, byte: u8) -> Option<Op> {
        match byte {
            0x26 if rules.wrong(Fault::TopTaken) => Some(Op::Tod),
            0x1C if rules.wrong(Fault::OldJneIsJe) => Some(Op::Je),
            0 => None,
            _ => OLD.get(usize::from(byte) - 1).copied(),
        }
    }

    /// The opcode's byte in an edition that has it.
    pub fn byte(self, edition: Edition) -> Option<u8> {
        match edition {
            Edition::Three => (!self.is_of_the_heap()).then_some(self as u8),
            Edition::Four => Some(self as u8),
            Edition::One => OLD.iter().position(|&op| op == self).map(|n| n as u8 + 1),
        }
    }

    /// Edition 4 "adds `null`, `new`, `delete`, `flea`", and then `gcnull` and `gcnew`.
    pub fn is_of_the_heap(self) -> bool {
        matches!(self, Op::Null | Op::New | Op::Delete | Op::Flea) || self.is_managed()
    }

    /// "Add to edition 4 `gcnull` and `gcnew`".
    pub fn is_managed(self) -> bool {
        matches!(self, Op::GcNull | Op::GcNew)
    }

    /// Does the operand name a type?
    pub fn has_type(self) -> bool {
        matches!(self, Op::New | Op::GcNew)
    }

    /// The opcode of a mnemonic.
    pub fn from_name(name: &str) -> Option<Op> {
        ALL.iter().find(|(_, n)| *n == name).map(|&(op, _)| op)
    }

    pub fn name(self) -> &'static str {
        ALL.iter()
            .find(|&&(op, _)| op == self)
            .map_or("", |&(_, n)| n)
    }

    /// 003: some instructions need a 4-byte operand. "`ret` has no operand, whatever 003's
    /// table says."
    pub fn has_operand(self) -> bool {
        let numbered = matches!(
            self,
            Op::Push | Op::Load | Op::Store | Op::Lea | Op::Flea | Op::Call
        );
        numbered || self.has_type() || self.has_label()
    }

    /// Does the operand name a label?
    pub fn has_label(self) -> bool {
        self == Op::Jmp || self.is_conditional()
    }

    pub fn is_conditional(self) -> bool {
        matches!(self, Op::Je | Op::Jne | Op::Ja | Op::Jae | Op::Jb | Op::Jbe)
    }

    /// 003: an instruction is 1 byte, with its operand 5; the same in all editions.
    pub fn size(self) -> usize {
        if self.has_operand() {
            5
        } else {
            1
        }
    }
}

//! Lent memory with guard bytes around every slice.

/// Guard bytes on each side of a lent slice.
pub const GUARD: usize = 64;

/// A lent slice inside a longer buffer. The bytes around it must not change.
#[derive(Clone, Debug, PartialEq, Eq)]
pub struct Lent {
    buffer: Vec<u8>,
    start: usize,
    len: usize,
}

impl Lent {
    /// Lends `content`, shifted by up to 7 bytes, so that no alignment can be relied on.
    pub fn new(content: &[u8], shift: usize) -> Lent {
        let start = GUARD + shift % 8;
        let mut buffer: Vec<u8> = (0..start).map(|n| 0xA5 ^ (n as u8)).collect();
        buffer.extend(content);
        buffer.extend((0..GUARD).map(|n| 0x5A ^ (n as u8)));
        let len = content.len();
        Lent { buffer, start, len }
    }

    pub fn slice(&self) -> &[u8] {
        &self.buffer[self.start..self.start + self.len]
    }

    pub fn slice_mut(&mut self) -> &mut [u8] {
        &mut self.buffer[self.start..self.start + self.len]
    }

    /// The slice's address, for a callee that may stray into the guard bytes.
    pub fn pointer(&mut self) -> *mut u8 {
        self.buffer.as_mut_ptr().wrapping_add(self.start)
    }

    pub fn len(&self) -> usize {
        self.len
    }

    pub fn is_empty(&self) -> bool {
        self.len == 0
    }

    /// The first byte that differs, counted from the start of the lent slice (guard bytes
    /// before it are negative).
    pub fn first_difference(&self, other: &Lent) -> Option<i64> {
        let pairs = self.buffer.iter().zip(&other.buffer);
        let at = pairs.clone().position(|(a, b)| a != b)?;
        Some(at as i64 - self.start as i64)
    }
}

/// Everything lent to a check, and its out-parameter.
#[derive(Clone, Debug, PartialEq, Eq)]
pub struct CheckMemory {
    pub module: Lent,
    pub room: Lent,
    pub body: u32,
}

/// A run's numbers, and those of every row's: which body it starts, for which profile and how long.
#[derive(Clone, Copy, Debug, PartialEq, Eq)]
pub struct Start {
    pub function: u32,
    pub profile: u32,
    pub allowance: u64,
}

/// Everything lent to a run, and its out-parameters.
#[derive(Clone, Debug, PartialEq, Eq)]
pub struct RunMemory {
    pub module: Lent,
    pub arg_types: Lent,
    pub arg_payloads: Lent,
    pub payloads: Lent,
    pub types: Lent,
    /// Cells, and block entries.
    pub heap: Lent,
    pub blocks: Lent,
    pub steps: u64,
    pub height: u64,
}

/// Everything lent to a write, its number, and its out-parameter.
#[derive(Clone, Debug, PartialEq, Eq)]
pub struct WriteMemory {
    pub edition: u32,
    pub constants: Lent,
    pub functions: Lent,
    pub labels: Lent,
    pub structures: Lent,
    pub code: Lent,
    pub entry_length: u32,
    pub out: Lent,
    pub written: u64,
}

/// Everything lent to a formula, and its out-parameter.
#[derive(Clone, Debug, PartialEq, Eq)]
pub struct FormulaMemory {
    pub line: Lent,
    pub out: Lent,
    pub written: u64,
}

/// Everything lent to a conversion, and its out-parameter.
#[derive(Clone, Debug, PartialEq, Eq)]
pub struct ConvertMemory {
    pub module: Lent,
    pub out: Lent,
    pub written: u64,
}

/// Everything lent to a call on rows, and its out-parameter.
#[derive(Clone, Debug, PartialEq, Eq)]
pub struct MapMemory {
    pub module: Lent,
    /// Eight bytes a parameter, row after row.
    pub arg_payloads: Lent,
    /// Eight bytes a row.
    pub out: Lent,
    pub payloads: Lent,
    pub types: Lent,
    /// Cells, and block entries.
    pub heap: Lent,
    pub blocks: Lent,
    pub rows: u64,
}

/// Everything lent to a full check that writes a record, and its out-parameters.
#[derive(Clone, Debug, PartialEq, Eq)]
pub struct RecordingMemory {
    pub module: Lent,
    pub room: Lent,
    pub record: Lent,
    pub body: u32,
    pub written: u64,
}

/// Everything lent to a check of one body, and its out-parameter.
#[derive(Clone, Debug, PartialEq, Eq)]
pub struct BodyMemory {
    pub module: Lent,
    pub record: Lent,
    pub first: u32,
}

/// Everything lent to a call for the needs, and its out-parameters.
#[derive(Clone, Debug, PartialEq, Eq)]
pub struct NeedMemory {
    pub module: Lent,
    pub room: Lent,
    pub report: Lent,
    pub body: u32,
    pub written: u64,
}

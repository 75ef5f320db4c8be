//! Calls on rows with their answers stated: what is said of answer, rows, outputs, slots and heap,
//! with everything that was lent written out. `refusals` has what no row is run for.

mod refusals;

use super::runs::{filled, Left};
use crate::asm;
use crate::compare::map_difference;
use crate::gen::rows::ROWS_BEFORE;
use crate::memory::{Lent, MapMemory, Start};
use crate::subject::Subject;

/// A slot, as type and payload.
type Slot = (u8, u64);

/// One call and what it must give.
#[derive(Clone)]
pub struct StatedMap {
    pub name: String,
    pub file: Vec<u8>,
    pub function: u32,
    pub profile: u32,
    /// All rows' arguments; the bytes that are lent of them, zeros behind them.
    pub args: Vec<u64>,
    pub args_len: usize,
    /// Bytes of output.
    pub out: usize,
    pub allowance: u64,
    /// The capacity, and the bytes of payloads and of types that are lent past it.
    pub slots: usize,
    pub past: [usize; 2],
    /// Bytes of heap and of table that are lent.
    pub heap: usize,
    pub blocks: usize,
    pub answer: u32,
    /// The outputs of the rows that finished.
    pub outputs: Vec<u64>,
    /// What the last run leaves; nothing is changed where none was made.
    pub left: Option<Left>,
}

impl StatedMap {
    fn memory(&self) -> MapMemory {
        let mut args: Vec<u8> = self.args.iter().flat_map(|arg| arg.to_le_bytes()).collect();
        args.resize(self.args_len, 0);
        MapMemory {
            module: Lent::new(&self.file, 1),
            arg_payloads: Lent::new(&args, 2),
            out: Lent::new(&filled(self.out), 3),
            payloads: Lent::new(&filled(8 * self.slots + self.past[0]), 4),
            types: Lent::new(&filled(self.slots + self.past[1]), 5),
            heap: Lent::new(&filled(self.heap), 6),
            blocks: Lent::new(&filled(self.blocks), 7),
            rows: ROWS_BEFORE,
        }
    }

    /// What a subject gives instead, in words; nothing if it is as stated.
    pub fn difference(&self, subject: &mut dyn Subject) -> Option<String> {
        let mut memory = self.memory();
        let mut wanted = memory.clone();
        // "`*rows` is written with every answer."
        wanted.rows = self.outputs.len() as u64;
        let outputs = self.outputs.iter().map(|value| value.to_le_bytes());
        for (own, value) in wanted.out.slice_mut().chunks_mut(8).zip(outputs) {
            own.copy_from_slice(&value);
        }
        if let Some(left) = &self.left {
            let MapMemory {
                payloads, types, ..
            } = &mut wanted;
            left.write_slots(
                &mut payloads.slice_mut()[..8 * self.slots],
                &mut types.slice_mut()[..self.slots],
            );
            left.write_heap(wanted.heap.slice_mut(), wanted.blocks.slice_mut());
        }
        let start = Start {
            function: self.function,
            profile: self.profile,
            allowance: self.allowance,
        };
        let answer = subject.map(start, &mut memory);
        if answer == self.answer && memory == wanted {
            return None;
        }
        Some(format!(
            "{}: answers {} and {answer}{}",
            self.name,
            self.answer,
            map_difference(&wanted, &memory)
        ))
    }

    fn named(mut self, name: &str) -> StatedMap {
        self.name = format!("{name}: {}", self.name);
        self
    }

    fn of(mut self, function: u32) -> StatedMap {
        self.name = format!("{} (function {function:08X})", self.name);
        self.function = function;
        self
    }

    fn allowed(mut self, allowance: u64) -> StatedMap {
        self.name = format!("{} (allowance {allowance})", self.name);
        self.allowance = allowance;
        self
    }

    fn for_profile(mut self, profile: u32) -> StatedMap {
        self.name = format!("{} (profile {profile})", self.name);
        self.profile = profile;
        self
    }

    fn slots(mut self, slots: usize) -> StatedMap {
        self.name = format!("{} ({slots} slots)", self.name);
        self.slots = slots;
        self
    }

    /// With payload bytes and type bytes past the capacity.
    fn past(mut self, payloads: usize, types: usize) -> StatedMap {
        self.name = format!("{} ({payloads} and {types} bytes past them)", self.name);
        self.past = [payloads, types];
        self
    }

    /// On this many bytes of heap and of table, of which so many cells and entries are used.
    fn lent(mut self, heap: usize, blocks: usize, capacity: usize) -> StatedMap {
        self.name = format!("{} ({heap} heap bytes, {blocks} block bytes)", self.name);
        (self.heap, self.blocks) = (heap, blocks);
        if let Some(left) = &mut self.left {
            left.capacity = capacity;
        }
        self
    }

    /// With these blocks and cells afterwards.
    fn with(mut self, table: &[[u64; 3]], cells: &[(usize, u64)]) -> StatedMap {
        if let Some(left) = &mut self.left {
            left.table = table.to_vec();
            left.cells = cells.to_vec();
        }
        self
    }

    /// With arguments and output of these lengths.
    fn lengths(mut self, args_len: usize, out: usize) -> StatedMap {
        self.name = format!(
            "{} ({args_len} argument bytes, {out} output bytes)",
            self.name
        );
        (self.args_len, self.out) = (args_len, out);
        self
    }
}

const CELLS: usize = 4;
const SLOTS: usize = 6;

/// A call of the module's first function on this many rows of these arguments: the number, the
/// outputs of rows that finish, and the slots that the last run leaves.
fn rows(
    text: &str,
    args: &[u64],
    count: usize,
    answer: u32,
    outputs: &[u64],
    stack: &[Slot],
) -> StatedMap {
    StatedMap {
        name: format!("{count} rows of {args:?}: {text}"),
        file: asm::file(text),
        function: 0,
        profile: 0,
        args: args.to_vec(),
        args_len: 8 * args.len(),
        out: 8 * count,
        allowance: 1000,
        slots: SLOTS,
        past: [0, 0],
        heap: 8 * CELLS,
        blocks: 24 * CELLS,
        answer,
        outputs: outputs.to_vec(),
        left: Some(Left {
            steps: 0,
            stack: stack.to_vec(),
            table: Vec::new(),
            cells: Vec::new(),
            capacity: CELLS,
        }),
    }
}

/// No run was made.
fn unrun(text: &str, args: &[u64], count: usize, answer: u32) -> StatedMap {
    StatedMap {
        left: None,
        ..rows(text, args, count, answer, &[], &[])
    }
}

const EDITIONS: [&str; 3] = ["edition 1;", "", "edition 4;"];

const ONE_AND_A_HALF: u64 = 0x3FF8_0000_0000_0000;
const NAN: u64 = 0x7FF8_0000_0000_0000;
const UPPER: u64 = 1 << 32;
const MINUS_ONE: u64 = 0xFFFF_FFFF;

/// Every stated call on rows.
pub fn all() -> Vec<StatedMap> {
    let mut all = Vec::new();
    for edition in EDITIONS {
        all.extend(finished(edition));
        all.extend(counts(edition));
        all.extend(ended(edition));
        all.extend(allowances(edition));
        all.extend(upper_bits(edition));
        all.extend(no_rows(edition));
        all.extend(capacities(edition));
    }
    all.extend(exceptions());
    all.extend(heaps());
    all.extend(pointers_returned());
    all.extend(managed());
    all.extend(refusals::cases());
    all
}

fn quotient(edition: &str) -> String {
    format!("{edition} entry: function int (int, int): load 0; load 1; div; ret")
}

/// "Where the row's run finishes with a value, that payload (8 bytes, little endian) is `out[8*i ..
/// 8*i+8]`." "All rows finished: answer 0, `*rows` all rows."
fn finished(edition: &str) -> Vec<StatedMap> {
    let difference = format!("{edition} entry: function int (int, int): load 0; load 1; sub; ret");
    let long = format!("{edition} entry: function long (long): load 0; neg; ret");
    let double = format!("{edition} entry: function double (double): load 0; ret");
    let mixed = format!(
        "{edition} entry: function long (int, double, long): load 0; tol; load 2; add; ret"
    );
    vec![
        // "parameter 0 first"
        rows(&difference, &[9, 2], 1, 0, &[7], &[(3, 7)]),
        rows(
            &difference,
            &[9, 2, 2, 9, 5, 5],
            3,
            0,
            &[7, 0xFFFF_FFF9, 0],
            &[(3, 0)],
        ),
        rows(
            &quotient(edition),
            &[8, 2, 9, 3, 0, 1],
            3,
            0,
            &[4, 3, 0],
            &[(3, 0)],
        ),
        rows(&long, &[1, 0], 2, 0, &[u64::MAX, 0], &[(4, 0)]),
        // a double only moved keeps its bits
        rows(
            &double,
            &[NAN | 5, ONE_AND_A_HALF],
            2,
            0,
            &[NAN | 5, ONE_AND_A_HALF],
            &[(6, ONE_AND_A_HALF)],
        ),
        rows(
            &mixed,
            &[1, NAN, 10, 2, 0, 1 << 40],
            2,
            0,
            &[11, (1 << 40) + 2],
            &[(4, (1 << 40) + 2)],
        ),
    ]
}

/// "A function without parameters is fine: then `arg_payloads` must be empty, and `out` alone says
/// how many rows."; up to eight parameters.
fn counts(edition: &str) -> Vec<StatedMap> {
    let none = format!("{edition} int 7; entry: function int (): push 0; ret");
    let mut all = Vec::new();
    for count in [1, 2, 3, 40] {
        all.push(rows(&none, &[], count, 0, &vec![7; count], &[(3, 7)]));
    }
    for parameters in 1..=8usize {
        let list = vec!["int"; parameters].join(", ");
        let last = parameters - 1;
        let text = format!("{edition} entry: function int ({list}): load {last}; ret");
        let args: Vec<u64> = (1..=3 * parameters as u64).collect();
        let each = parameters as u64;
        let outputs = [each, 2 * each, 3 * each];
        let stated = rows(&text, &args, 3, 0, &outputs, &[(3, 3 * each)]);
        // the arguments and one operand
        all.push(stated.slots(parameters + 1));
    }
    all
}

/// "The first row that does not finish ends the call: its number is the answer, `*rows` is the
/// count of rows before it, and later outputs (its own too) are unchanged."
fn ended(edition: &str) -> Vec<StatedMap> {
    let text = quotient(edition);
    let by_zero = [(3, 9), (3, 0), (3, 9), (3, 0)];
    let unordered =
        format!("{edition} entry: function double (double): load 0; load 0; cmp; pop; load 0; ret");
    let nan = [(6, NAN); 3];
    vec![
        rows(&text, &[9, 0, 8, 2, 6, 3], 3, 24, &[], &by_zero),
        rows(&text, &[8, 2, 9, 0, 6, 3], 3, 24, &[4], &by_zero),
        rows(&text, &[8, 2, 6, 3, 9, 0], 3, 24, &[4, 2], &by_zero),
        rows(&text, &[9, 0], 1, 24, &[], &by_zero),
        // the first of several
        rows(&text, &[8, 2, 9, 0, UPPER, 0, 7, 0], 4, 24, &[4], &by_zero),
        rows(&unordered, &[0, NAN, 0], 3, 35, &[0], &nan),
        rows(
            &unordered,
            &[ONE_AND_A_HALF, 0, NAN],
            3,
            35,
            &[ONE_AND_A_HALF, 0],
            &nan,
        ),
    ]
}

/// "with this allowance (each row gets the whole of it)"
fn allowances(edition: &str) -> Vec<StatedMap> {
    let text = quotient(edition);
    let args = [8, 2, 9, 3, 6, 6];
    // the arguments, then an operand
    let stack = [(3, 8), (3, 2), (3, 8)];
    let divided = [(3, 8), (3, 2), (3, 4)];
    // counts its parameter down: 4 steps at 0, 7 more for each
    let counts = format!(
        "{edition} int 1; entry: function int (int): @0; load 0; je 1; load 0; push 0; sub; store 0
        jmp 0; @1; load 0; ret"
    );
    let loaded = [(3, 4), (3, 4), (3, 1)];
    vec![
        rows(&text, &args, 3, 0, &[4, 3, 1], &[(3, 1)]).allowed(4),
        rows(&text, &args, 3, 15, &[], &divided).allowed(3),
        rows(&text, &args, 3, 15, &[], &stack).allowed(1),
        rows(&text, &args, 3, 15, &[], &stack[..2]).allowed(0),
        rows(&counts, &[0, 1, 2, 0], 4, 0, &[0; 4], &[(3, 0)]).allowed(18),
        rows(&counts, &[0, 1, 2, 0], 4, 15, &[0, 0], &[(3, 0); 2]).allowed(17),
        rows(&counts, &[1, 0, 0, 5], 4, 15, &[0; 3], &loaded).allowed(11),
        rows(&text, &[8, 2], 1, 0, &[4], &[(3, 4)]).allowed(u64::MAX),
    ]
}

/// "Upper bits in an int argument refuse at their row ... which ends the call with answer 13,
/// `*rows` = the rows before it. The lent slots and heap stay as the row before left them
/// (unchanged where it is row 0)."
fn upper_bits(edition: &str) -> Vec<StatedMap> {
    let text = quotient(edition);
    let long = format!("{edition} entry: function long (int, long): load 1; ret");
    vec![
        unrun(&text, &[8 | UPPER, 2, 9, 3], 2, 13),
        unrun(&text, &[8, 2 | 1 << 63, 9, 3], 2, 13),
        rows(&text, &[8, 2, 9 | UPPER, 3, 6, 3], 3, 13, &[4], &[(3, 4)]),
        rows(&text, &[8, 2, 9, 3, 6, UPPER], 3, 13, &[4, 3], &[(3, 3)]),
        rows(&text, &[8, 2, 9, 3, u64::MAX, 0], 3, 13, &[4, 3], &[(3, 3)]).slots(4),
        // an earlier row that does not finish comes first
        rows(
            &text,
            &[1, 0, 8 | UPPER, 2],
            2,
            24,
            &[],
            &[(3, 1), (3, 0), (3, 1), (3, 0)],
        ),
        // only an int has upper bits
        rows(
            &long,
            &[MINUS_ONE, u64::MAX],
            1,
            0,
            &[u64::MAX],
            &[(4, u64::MAX)],
        ),
        rows(&long, &[1, UPPER, UPPER, 1], 2, 13, &[UPPER], &[(4, UPPER)]),
    ]
}

/// "No rows at all (`out` empty): 0, `*rows` 0, nothing changed (no run was made)".
fn no_rows(edition: &str) -> Vec<StatedMap> {
    let none = format!("{edition} int 7; entry: function int (): push 0; ret");
    let mut all = Vec::new();
    for text in [quotient(edition), none] {
        all.push(unrun(&text, &[], 0, 0));
        all.push(unrun(&text, &[], 0, 0).allowed(0));
        all.push(unrun(&text, &[], 0, 0).slots(0));
        all.push(unrun(&text, &[], 0, 0).lent(0, 0, 0));
    }
    all
}

/// "Arguments that don't fit the capacity: the run is 20 with no steps and height 0, as with
/// limpetskein_run, at row 0."; "slots to the height, zeros to the capacity, the rest untouched"
fn capacities(edition: &str) -> Vec<StatedMap> {
    let text = quotient(edition);
    let none = format!("{edition} int 7; entry: function int (): push 0; ret");
    let args = [8, 2, 9, 3];
    let past = [(7, 0), (0, 3), (19, 0), (7, 3)]
        .into_iter()
        .flat_map(|(p, t)| {
            [
                rows(&text, &args, 2, 0, &[4, 3], &[(3, 3)]).past(p, t),
                rows(&text, &args, 2, 20, &[], &[]).slots(1).past(p, t),
                rows(&text, &[8, 2, UPPER, 3], 2, 13, &[4], &[(3, 4)]).past(p, t),
            ]
        });
    let mut all: Vec<StatedMap> = past.collect();
    // "at most 4,096"
    let most = rows(&text, &args, 2, 0, &[4, 3], &[(3, 3)]).slots(4096);
    all.push(most.past(17, 2));
    all.extend([
        rows(&text, &args, 2, 20, &[], &[]).slots(0),
        rows(&text, &args, 2, 20, &[], &[]).slots(1),
        rows(&text, &args, 2, 20, &[], &[(3, 8), (3, 2)]).slots(2),
        rows(&text, &args, 2, 20, &[], &[(3, 8), (3, 2), (3, 8)]).slots(3),
        rows(&text, &args, 2, 0, &[4, 3], &[(3, 3)]).slots(4),
        // upper bits in a later row, or in this one, which refuse its run
        rows(&text, &[8, 2, UPPER, 3], 2, 20, &[], &[]).slots(1),
        unrun(&text, &[UPPER, 2, 9, 3], 2, 13).slots(1),
        rows(&none, &[], 3, 20, &[], &[]).slots(0),
        rows(&none, &[], 3, 0, &[7; 3], &[(3, 7)]).slots(1),
        rows(&none, &[], 3, 0, &[7; 3], &[(3, 7)]).lent(0, 0, 0),
        rows(&none, &[], 3, 0, &[7; 3], &[(3, 7)]).lent(8 * 3 + 1, 24 * 2 + 5, 2),
    ]);
    all
}

/// What only some editions raise.
fn exceptions() -> Vec<StatedMap> {
    let text = "entry: function int (double): load 0; toi; ret";
    let four = format!("edition 4; {text}");
    let one = format!("edition 1; {text}");
    let large = 0x41F0_0000_0000_0000;
    let args = [ONE_AND_A_HALF, large, 0];
    let left = [(6, large), (6, large)];
    let null = "edition 4; entry: function int (int): load 0; je 0; null; tload; ret
        @0; load 0; ret";
    vec![
        rows(text, &args, 3, 44, &[1], &left),
        rows(&four, &args, 3, 44, &[1], &left),
        // edition 1 keeps the pattern
        rows(&one, &args, 3, 0, &[1, 1 << 31, 0], &[(3, 0)]),
        rows(null, &[0, 0, 1], 3, 36, &[0, 0], &[(3, 1), (7, u64::MAX)]),
        rows(null, &[2, 0], 2, 36, &[], &[(3, 2), (7, u64::MAX)]),
    ]
}

/// "After the call the lent slots and the lent heap hold what they hold after the last run that was
/// made ... the heap likewise, every row starting without blocks."
fn heaps() -> Vec<StatedMap> {
    // a block with the argument, which stays
    let kept = "edition 4; entry: function int (int): new 3; store 1; load 1; load 0; tstore
        load 1; tload; ret";
    // as many blocks as the argument says
    let many = "edition 4; int 1; entry: function int (int): @0; load 0; je 1; new 4; inc
        load 0; push 0; sub; store 0; jmp 0; @1; load 0; ret";
    // a block, which is taken back unless the argument is 0
    let deleted = "edition 4; int 7; entry: function int (int): load 0; je 0; new 6; delete
        load 0; ret; @0; new 6; pop; push 0; ret";
    let one = [[1, 0, 3]];
    let two = [[1, 0, 4], [2, 1, 4]];
    let four = [[1, 0, 4], [2, 1, 4], [3, 2, 4], [4, 3, 4]];
    let ones = [(0, 1), (1, 1), (2, 1), (3, 1)];
    let whole_run = [(3, 5), (7, 65_536)];
    let null = [(3, 1), (7, u64::MAX)];
    vec![
        rows(kept, &[5, 6, 7], 3, 0, &[5, 6, 7], &[(3, 7)]).with(&one, &[(0, 7)]),
        // a heap of one cell serves every row
        rows(kept, &[5, 6, 7], 3, 0, &[5, 6, 7], &[(3, 7)])
            .lent(8, 24, 1)
            .with(&one, &[(0, 7)]),
        // upper bits leave the blocks of the row before
        rows(kept, &[5, 6, UPPER], 3, 13, &[5, 6], &[(3, 6)]).with(&one, &[(0, 6)]),
        unrun(kept, &[UPPER, 6, 5], 3, 13),
        // the row that does not finish leaves its own
        rows(kept, &[5, 6, 7], 3, 15, &[], &whole_run)
            .allowed(2)
            .with(&one, &[]),
        rows(many, &[3, 2], 2, 0, &[0, 0], &[(3, 0)]).with(&two, &ones[..2]),
        rows(many, &[4, 4, 0], 3, 0, &[0, 0, 0], &[(3, 0)]),
        rows(many, &[4, 5, 0], 3, 36, &[0], &null).with(&four, &ones),
        rows(many, &[2, 3], 2, 36, &[0], &null)
            .lent(8 * 2, 24 * 3, 2)
            .with(&two, &ones[..2]),
        rows(deleted, &[0, 1], 2, 0, &[7, 1], &[(3, 1)]),
        rows(deleted, &[1, 0], 2, 0, &[1, 7], &[(3, 7)]).with(&[[1, 0, 6]], &[]),
    ]
}

/// "A function that returns a pointer to a structure (edition 4) is fine: the payload is what the
/// run left."
fn pointers_returned() -> Vec<StatedMap> {
    let given = "edition 4; structure int, long; entry: function *10 (int): new 10; ret";
    let none = "edition 4; structure int; entry: function *10 (): null; ret";
    let second = "edition 4; structure int; entry: function *10 (): new 3; pop; new 10; ret";
    let block = (7, 65_536);
    vec![
        rows(given, &[1, 2, 3], 3, 0, &[65_536; 3], &[block]).with(&[[1, 0, 10]], &[]),
        rows(given, &[1, 2], 2, 0, &[u64::MAX; 2], &[(7, u64::MAX)]).lent(8, 24, 1),
        rows(given, &[1, UPPER], 2, 13, &[65_536], &[block]).with(&[[1, 0, 10]], &[]),
        rows(none, &[], 2, 0, &[u64::MAX; 2], &[(7, u64::MAX)]),
        rows(second, &[], 2, 0, &[131_072; 2], &[(7, 131_072)]).with(&[[1, 0, 3], [2, 1, 10]], &[]),
    ]
}

/// Managed blocks in each row: what a row forgets is freed by its own `gcnew`, and a function may
/// return a managed pointer.
fn managed() -> Vec<StatedMap> {
    let given = "edition 4; structure int, long; entry: function gc*10 (int): gcnew 10; ret";
    let number = "edition 4; entry: function gc*int (): gcnew 3; ret";
    let none = "edition 4; entry: function gc*double (): gcnull; ret";
    let second = "edition 4; structure int; entry: function gc*10 (): gcnew 3; pop; gcnew 10; ret";
    let held = "edition 4; entry: function int (int): gcnew 3; store 1; gcnew 3; store 2
        load 0; ret";
    // a block in each round, forgotten in the next
    let forgets = "edition 4; int 1; entry: function int (int): @0; load 0; je 1; gcnew 4; inc
        load 0; push 0; sub; store 0; jmp 0; @1; load 0; ret";
    let block = (8, 65_536);
    let null = (8, u64::MAX);
    vec![
        rows(given, &[1, 2, 3], 3, 0, &[65_536; 3], &[block]).with(&[[1, 0, 74]], &[]),
        rows(given, &[1, 2], 2, 0, &[u64::MAX; 2], &[null]).lent(8, 24, 1),
        rows(given, &[1, UPPER], 2, 13, &[65_536], &[block]).with(&[[1, 0, 74]], &[]),
        rows(number, &[], 2, 0, &[65_536; 2], &[block]).with(&[[1, 0, 67]], &[]),
        rows(none, &[], 2, 0, &[u64::MAX; 2], &[null]),
        rows(second, &[], 2, 0, &[131_072; 2], &[(8, 131_072)]).with(&[[2, 0, 74]], &[]),
        rows(held, &[5, 6], 2, 0, &[5, 6], &[(3, 6)]).with(&[[1, 0, 67], [2, 1, 67]], &[]),
        rows(held, &[5, 6], 2, 0, &[5, 6], &[(3, 6)])
            .lent(8, 24, 1)
            .with(&[[1, 0, 67]], &[]),
        rows(forgets, &[2, 5], 2, 0, &[0, 0], &[(3, 0)]).with(&[[5, 0, 68]], &[(0, 1)]),
        rows(forgets, &[9, 5], 2, 0, &[0, 0], &[(3, 0)])
            .lent(8, 24, 1)
            .with(&[[5, 0, 68]], &[(0, 1)]),
        rows(forgets, &[5, 0], 2, 0, &[0, 0], &[(3, 0)]),
        rows(forgets, &[1, 0], 2, 36, &[], &[(3, 1), null]).lent(0, 0, 0),
    ]
}

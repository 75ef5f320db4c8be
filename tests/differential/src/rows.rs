//! Calls on rows: what is stated of them, generated ones, and slices longer than 32 bits can count.

use crate::checks::count;
use crate::huge;
use crate::library::{limpetskein_map, Library};
use second::asm;
use second::compare::compare_maps;
use second::gen::rows::{MapCase, ROWS_BEFORE};
use second::hex;
use second::rules::Rules;
use second::stated::maps;
use second::subject::Second;

/// How many of the stated calls come out otherwise; the first few are printed.
pub fn not_as_stated() -> u64 {
    count("map", &maps::all(), |stated, library| {
        let difference = stated.difference(library)?;
        let module = hex::encode(&stated.file);
        Some(format!("{difference}\n  module: {module}"))
    })
}

/// Compares one call.
pub fn differs(case: &MapCase, null_if_empty: bool) -> (usize, Option<String>) {
    let mut library = Library { null_if_empty };
    let difference = compare_maps(case, &mut Second(Rules::PLAIN), &mut library);
    (1, difference)
}

/// Pointers and lengths of what is lent to a call of the one function below.
struct Lengths {
    module: (*const u8, usize),
    arguments: (*const u8, usize),
    out: (*mut u8, usize),
    payloads: (*mut u8, usize),
    types: (*mut u8, usize),
    heap: (*mut u8, usize),
    blocks: (*mut u8, usize),
}

/// One of the slices is of 2^32 bytes and as many as serve two rows, or a run. A module of such a
/// length is 3. Arguments and outputs of such different lengths are 13, though they are alike in
/// their low 32 bits. Slots and heap are enough.
pub fn huge_differ() -> u64 {
    let module = asm::file(
        "edition 4; structure int; entry: function *10 (int): new 10; copy; flea 0; inc; ret",
    );
    let over = 1usize << 32;
    let answers = huge::lend(over + 1000, |start| {
        let (arguments, mut out) = ([0u8; 16], [0u8; 16]);
        let (mut payloads, mut types) = ([0u8; 24], [0u8; 3]);
        let (mut heap, mut blocks) = ([0u8; 8], [0u8; 24]);
        // SAFETY: the buffer is longer than the module.
        unsafe { std::ptr::copy_nonoverlapping(module.as_ptr(), start, module.len()) };
        let mut lengths = || Lengths {
            module: (module.as_ptr(), module.len()),
            arguments: (arguments.as_ptr(), 16),
            out: (out.as_mut_ptr(), 16),
            payloads: (payloads.as_mut_ptr(), 24),
            types: (types.as_mut_ptr(), 3),
            heap: (heap.as_mut_ptr(), 8),
            blocks: (blocks.as_mut_ptr(), 24),
        };
        let mut all = vec![("no slice", lengths(), (0, 2))];
        let mut longer = |name, wanted, change: &dyn Fn(&mut Lengths)| {
            let mut lengths = lengths();
            change(&mut lengths);
            all.push((name, lengths, wanted));
        };
        longer("module", (3, 0), &|l| {
            l.module = (start, over + module.len())
        });
        longer("arguments", (13, 0), &|l| l.arguments = (start, over + 16));
        longer("output", (13, 0), &|l| l.out = (start, over + 16));
        longer("payloads", (0, 2), &|l| l.payloads = (start, over));
        longer("types", (0, 2), &|l| l.types = (start, over));
        longer("heap", (0, 2), &|l| l.heap = (start, over));
        longer("blocks", (0, 2), &|l| l.blocks = (start, over));
        let called = all.into_iter().map(|(name, lengths, wanted)| {
            let answer = call(&lengths);
            (name, answer, wanted)
        });
        called.collect::<Vec<_>>()
    });
    let mut differences = 0;
    for (name, answer, wanted) in answers.into_iter().flatten() {
        if answer != wanted {
            println!("DIFFERENCE: {name} of over 2^32 bytes: rows get {answer:?}, not {wanted:?}");
            differences += 1;
        }
    }
    differences
}

/// Answer and rows.
fn call(lengths: &Lengths) -> (u32, u64) {
    let mut rows = ROWS_BEFORE;
    // SAFETY: pointers and lengths are those of separate live buffers.
    let answer = unsafe {
        limpetskein_map(
            lengths.module.0,
            lengths.module.1,
            0,
            0,
            lengths.arguments.0,
            lengths.arguments.1,
            lengths.out.0,
            lengths.out.1,
            9,
            lengths.payloads.0,
            lengths.payloads.1,
            lengths.types.0,
            lengths.types.1,
            lengths.heap.0,
            lengths.heap.1,
            lengths.blocks.0,
            lengths.blocks.1,
            &raw mut rows,
        )
    };
    (answer, rows)
}

//! Runs: what is stated of them, and heaps longer than 32 bits can count.

use crate::checks::count;
use crate::huge;
use crate::library::limpetskein_run;
use second::asm;
use second::hex;
use second::reader::ENTRY;
use second::stated::runs;

/// How many of the stated runs come out otherwise; the first few are printed.
pub fn not_as_stated() -> u64 {
    count("run", &runs::all(), |stated, library| {
        let difference = stated.difference(library)?;
        let module = hex::encode(&stated.file);
        Some(format!("{difference}\n  module: {module}"))
    })
}

/// A heap, and a table, of 2^32 bytes and one cell or entry, the other of eight: a block of three
/// cells is given.
pub fn huge_differ() -> u64 {
    let over = 1usize << 32;
    let answers = huge::lend(over + 100, |start| {
        let mut short = [0u8; 8 * 24];
        let heap = new_three((start, over + 8), (short.as_mut_ptr(), short.len()));
        let blocks = new_three((short.as_mut_ptr(), 64), (start, over + 24));
        [heap, blocks]
    });
    let mut differences = 0;
    for answer in answers.into_iter().flatten() {
        if answer != (0, 1 << 16) {
            println!("DIFFERENCE: a heap of over 2^32 bytes gets {answer:?}, not (0, 65536)");
            differences += 1;
        }
    }
    differences
}

/// Outcome, and the pointer that `new` gives.
fn new_three(heap: (*mut u8, usize), blocks: (*mut u8, usize)) -> (u32, u64) {
    let module = asm::file("edition 4; structure int, long, double; entry: new 10");
    let (mut steps, mut height) = (0, 0);
    let (mut payloads, mut types) = ([0; 8], [0; 1]);
    let none = std::ptr::null();
    // SAFETY: pointers and lengths are those of separate live buffers.
    let answer = unsafe {
        limpetskein_run(
            module.as_ptr(),
            module.len(),
            ENTRY,
            none,
            0,
            none,
            0,
            0,
            9,
            payloads.as_mut_ptr(),
            payloads.len(),
            types.as_mut_ptr(),
            types.len(),
            heap.0,
            heap.1,
            blocks.0,
            blocks.1,
            &raw mut steps,
            &raw mut height,
        )
    };
    (answer, u64::from_le_bytes(payloads))
}

//! The formula line: what is stated of lines, generated lines, and slices longer than 32 bits can
//! count.

use crate::checks::count;
use crate::huge;
use crate::library::{limpetskein_formula, Library};
use second::compare::compare_formulas;
use second::gen::lines::{LineCase, WRITTEN_BEFORE};
use second::rules::Rules;
use second::stated::formulas;
use second::subject::Second;

/// How many of the stated lines come out otherwise; the first few are printed.
pub fn not_as_stated() -> u64 {
    count("formula", &formulas::all(), |stated, library| {
        stated.difference(library)
    })
}

/// Compares one line; where it is written as a module, also the library's check of it, and its
/// runs, which give the reading's value.
pub fn differs(case: &LineCase, null_if_empty: bool) -> (usize, Option<String>) {
    let mut library = Library { null_if_empty };
    let difference = compare_formulas(case, &mut Second(Rules::PLAIN), &mut library);
    (1, difference)
}

/// A line of 2^32 bytes and one, which is 40, though its first byte alone would be a line; and
/// an output of 2^32 bytes and a few, which is long enough for the 74 of `r`.
pub fn huge_differ() -> u64 {
    let over = 1usize << 32;
    let answers = huge::lend(over + 10, |start| {
        // SAFETY: the buffer is longer than one byte.
        unsafe { *start = b'r' };
        let mut short = [0u8; 100];
        let line = formula(
            start.cast_const(),
            over + 1,
            short.as_mut_ptr(),
            short.len(),
        );
        let output = formula(b"r".as_ptr(), 1, start, over + 10);
        [(line, (40, WRITTEN_BEFORE)), (output, (0, 74))]
    });
    let mut differences = 0;
    for (answer, wanted) in answers.into_iter().flatten() {
        if answer != wanted {
            println!("DIFFERENCE: a slice of over 2^32 bytes gets {answer:?}, not {wanted:?}");
            differences += 1;
        }
    }
    differences
}

/// Answer and length.
fn formula(line: *const u8, line_len: usize, out: *mut u8, out_len: usize) -> (u32, u64) {
    let mut written = WRITTEN_BEFORE;
    // SAFETY: pointers and lengths are those of separate live buffers.
    let answer = unsafe { limpetskein_formula(line, line_len, out, out_len, &raw mut written) };
    (answer, written)
}

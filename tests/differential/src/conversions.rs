//! Conversions between editions 3 and 4: what is stated of them, generated modules, and slices
//! longer than 32 bits can count.

use crate::checks::count;
use crate::huge;
use crate::library::{conversion, Library};
use second::compare::compare_conversions;
use second::conversion::{converted, TARGETS};
use second::gen::conversions::ConvertCase;
use second::gen::tables::WRITTEN_BEFORE;
use second::hex;
use second::opcode::Edition;
use second::rules::Rules;
use second::samples::W1;
use second::stated::conversions;
use second::subject::Second;

/// How many of the stated conversions come out otherwise; the first few are printed.
pub fn not_as_stated() -> u64 {
    count("conversion", &conversions::all(), |stated, library| {
        let difference = stated.difference(library)?;
        let module = hex::encode(&stated.file);
        Some(format!("{difference}\n  module: {module}"))
    })
}

/// Compares one conversion; where it is made, also the library's way back and its runs of both
/// modules.
pub fn differs(case: &ConvertCase, null_if_empty: bool) -> (usize, Option<String>) {
    let mut library = Library { null_if_empty };
    let difference = compare_conversions(case, &mut Second(Rules::PLAIN), &mut library);
    (1, difference)
}

/// A module of 2^32 bytes and W1's, whose length word can't equal its length, is 3 from W1's own
/// edition and 2 from the other; and an output of 2^32 bytes and a few is long enough.
pub fn huge_differ() -> u64 {
    let over = 1usize << 32;
    let three = hex::decode(W1).expect("hex digits");
    let four = converted(Rules::PLAIN, Edition::Four, &three).expect("a module");
    let answers = huge::lend(over + 100, |start| {
        let mut answers = Vec::new();
        for (to, file, made) in [(TARGETS[0], &three, &four), (TARGETS[1], &four, &three)] {
            let wanted = (0, made.len() as u64);
            let input = (file.as_ptr(), file.len());
            answers.push((convert(to, input, (start, over + 10)), wanted));
            // SAFETY: the buffer is longer than the module.
            unsafe { std::ptr::copy_nonoverlapping(file.as_ptr(), start, file.len()) };
            let input = (start.cast_const(), over + file.len());
            let mut short = [0; 100];
            let output = (short.as_mut_ptr(), short.len());
            answers.push((convert(to, input, output), (3, WRITTEN_BEFORE)));
            let other = TARGETS.into_iter().find(|&edition| edition != to);
            let answer = convert(other.unwrap_or(to), input, output);
            answers.push((answer, (2, WRITTEN_BEFORE)));
        }
        answers
    });
    let mut differences = 0;
    for (answer, wanted) in answers.into_iter().flatten() {
        if answer != wanted {
            println!("DIFFERENCE: a slice of over 2^32 bytes gets {answer:?}, not {wanted:?}");
            differences += 1;
        }
    }
    differences
}

/// Answer and length.
fn convert(to: Edition, module: (*const u8, usize), out: (*mut u8, usize)) -> (u32, u64) {
    let mut written = WRITTEN_BEFORE;
    let call = conversion(to);
    // SAFETY: pointers and lengths are those of separate live buffers.
    let answer = unsafe { call(module.0, module.1, out.0, out.1, &raw mut written) };
    (answer, written)
}

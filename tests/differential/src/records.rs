//! Checks with records: what is stated of them, chains of edits, and slices longer than 32 bits can
//! count.

use crate::checks::count;
use crate::huge;
use crate::library::{limpetskein_check_body, limpetskein_check_recording, Library};
use second::asm;
use second::compare::records::compare_records;
use second::gen::records::{RecordCase, FIRST_BEFORE};
use second::gen::tables::WRITTEN_BEFORE;
use second::hex;
use second::rules::Rules;
use second::stated::records;
use second::subject::Second;

/// How many of the stated checks come out otherwise; the first few are printed.
pub fn not_as_stated() -> u64 {
    let full = count("recording check", &records::full(), |stated, library| {
        let difference = stated.difference(library)?;
        let module = hex::encode(&stated.file);
        Some(format!("{difference}\n  module: {module}"))
    });
    let bodies = count("body's check", &records::bodies(), |stated, library| {
        let difference = stated.difference(library)?;
        let module = hex::encode(&stated.file);
        Some(format!("{difference}\n  module: {module}"))
    });
    full + bodies
}

/// Compares all calls of a chain; where a check of a body must give what the full check gives, also
/// the library's own full check.
pub fn differs(case: &RecordCase, null_if_empty: bool) -> (usize, Option<String>) {
    let mut library = Library { null_if_empty };
    let difference = compare_records(case, &mut Second(Rules::PLAIN), &mut library);
    (case.steps.len(), difference)
}

/// One of the slices is of 2^32 bytes and as many as serve. A module of such a length is 3. A room or
/// a record is enough for the full check; the check of a body wants its exact length.
pub fn huge_differ() -> u64 {
    let module = asm::file("int 7; entry: @0; push 0; function void (): @1; ret");
    let over = 1usize << 32;
    let answers = huge::lend(over + 1000, |start| {
        let file = (module.as_ptr(), module.len());
        let (mut room, mut record) = ([0; 128], [0; 10]);
        // SAFETY: the buffer is longer than the module.
        unsafe { std::ptr::copy_nonoverlapping(module.as_ptr(), start, module.len()) };
        let long = (start.cast_const(), over + module.len());
        let (room, record) = ((room.as_mut_ptr(), 128), (record.as_mut_ptr(), 10));
        let mut all = vec![
            ("module", full(long, room, record), (3, WRITTEN_BEFORE)),
            ("no slice", full(file, room, record), (0, 10)),
            ("module", body(long, record), (3, 0)),
            ("no slice", body(file, record), (0, 0)),
        ];
        all.push(("room", full(file, (start, over + 1), record), (0, 10)));
        let long = (start, over + 9);
        all.push(("record", full(file, room, long), (0, 10)));
        // the low 32 bits are those of the length that this module's record has
        all.push(("record", body(file, (start, over + 10)), (45, 0)));
        all
    });
    let mut differences = 0;
    for (name, answer, wanted) in answers.into_iter().flatten() {
        if answer != wanted {
            println!(
                "DIFFERENCE: {name} of over 2^32 bytes: a check gets {answer:?}, not {wanted:?}"
            );
            differences += 1;
        }
    }
    differences
}

/// Answer and length of a full check.
fn full(
    module: (*const u8, usize),
    room: (*mut u8, usize),
    record: (*mut u8, usize),
) -> (u32, u64) {
    let (mut body, mut written) = (FIRST_BEFORE, WRITTEN_BEFORE);
    // SAFETY: pointers and lengths are those of separate live buffers.
    let answer = unsafe {
        limpetskein_check_recording(
            module.0,
            module.1,
            room.0,
            room.1,
            record.0,
            record.1,
            &raw mut body,
            &raw mut written,
        )
    };
    (answer, written)
}

/// Answer of a check of function 0, and 0 where the first body was not told.
fn body(module: (*const u8, usize), record: (*mut u8, usize)) -> (u32, u64) {
    let mut first = FIRST_BEFORE;
    // SAFETY: pointers and lengths are those of separate live buffers.
    let answer = unsafe {
        limpetskein_check_body(module.0, module.1, 0, record.0, record.1, &raw mut first)
    };
    (answer, u64::from(first != FIRST_BEFORE))
}

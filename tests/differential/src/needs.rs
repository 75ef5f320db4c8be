//! The needs: what is stated of them, generated cases, the library's own runs on as many slots, and
//! slices longer than 32 bits can count.

use crate::checks::count;
use crate::huge;
use crate::library::{limpetskein_need, Library};
use second::asm;
use second::compare::needs::compare_needs;
use second::gen::case::BODY_BEFORE;
use second::gen::needs::NeedCase;
use second::gen::tables::WRITTEN_BEFORE;
use second::hex;
use second::rules::Rules;
use second::stated::needs;
use second::subject::Second;

/// How many of the stated needs come out otherwise; the first few are printed.
pub fn not_as_stated() -> u64 {
    count("need", &needs::all(), |stated, library| {
        let difference = stated.difference(library)?;
        let module = hex::encode(&stated.file);
        Some(format!("{difference}\n  module: {module}"))
    })
}

/// Compares the needs of one case; where they are reported, the library's own runs on as many slots
/// never end in 20.
pub fn differs(case: &NeedCase, null_if_empty: bool) -> (usize, Option<String>) {
    let mut library = Library { null_if_empty };
    let difference = compare_needs(case, &mut Second(Rules::PLAIN), &mut library);
    (1 + 2 * case.runs.len(), difference)
}

/// One of the slices is of 2^32 bytes and as many as serve, or all but one of them. A module of such a
/// length is 3; a room or a report is enough.
pub fn huge_differ() -> u64 {
    let module = asm::file("int 7; entry: @0; push 0; function void (): @1; ret");
    let over = 1usize << 32;
    let answers = huge::lend(over + 1000, |start| {
        let file = (module.as_ptr(), module.len());
        let (mut room, mut report) = ([0; 128], [0; 16]);
        // SAFETY: the buffer is longer than the module.
        unsafe { std::ptr::copy_nonoverlapping(module.as_ptr(), start, module.len()) };
        let long = (start.cast_const(), over + module.len());
        let (room, report) = ((room.as_mut_ptr(), 128), (report.as_mut_ptr(), 16));
        vec![
            ("module", needs_of(long, room, report), (3, WRITTEN_BEFORE)),
            ("no slice", needs_of(file, room, report), (0, 16)),
            ("room", needs_of(file, (start, over + 1), report), (0, 16)),
            ("report", needs_of(file, room, (start, over + 15)), (0, 16)),
        ]
    });
    let mut differences = 0;
    for (name, answer, wanted) in answers.into_iter().flatten() {
        if answer != wanted {
            println!(
                "DIFFERENCE: {name} of over 2^32 bytes: a need gets {answer:?}, not {wanted:?}"
            );
            differences += 1;
        }
    }
    differences
}

/// Answer and length of a call for the needs.
fn needs_of(
    module: (*const u8, usize),
    room: (*mut u8, usize),
    report: (*mut u8, usize),
) -> (u32, u64) {
    let (mut body, mut written) = (BODY_BEFORE, WRITTEN_BEFORE);
    // SAFETY: pointers and lengths are those of separate live buffers.
    let answer = unsafe {
        limpetskein_need(
            module.0,
            module.1,
            room.0,
            room.1,
            report.0,
            report.1,
            &raw mut body,
            &raw mut written,
        )
    };
    (answer, written)
}

//! The writer: what is stated of writes, generated tables, and slices longer than 32 bits can
//! count.

use crate::checks::count;
use crate::huge;
use crate::library::{limpetskein_write, Library};
use second::check::RECORD;
use second::compare::compare_writes;
use second::gen::case::BODY_BEFORE;
use second::gen::tables::{Owned, WriteCase};
use second::hex;
use second::memory::{CheckMemory, Lent};
use second::reader::MAX_LABELS;
use second::rules::Rules;
use second::samples::W1;
use second::stated::writes;
use second::subject::{Second, Subject};

/// How many of the stated writes come out otherwise; the first few are printed.
pub fn not_as_stated() -> u64 {
    count("write", &writes::all(), |stated, library| {
        stated.difference(library)
    })
}

/// Compares one write, and what the library reads of what it wrote.
pub fn differs(case: &WriteCase, null_if_empty: bool) -> (usize, Option<String>) {
    let mut library = Library { null_if_empty };
    let difference = compare_writes(case, &mut Second(Rules::PLAIN), &mut library);
    if difference.is_some() {
        return (1, difference);
    }
    let mut memory = case.memory();
    if library.write(&mut memory) != 0 {
        return (2, None);
    }
    let module = &memory.out.slice()[..memory.written as usize];
    let answer = library.check(&mut CheckMemory {
        module: Lent::new(module, case.shift),
        room: Lent::new(&vec![0; RECORD * MAX_LABELS as usize], 0),
        body: BODY_BEFORE,
    });
    // "Reading what was written gives the tables back": whatever their typings, it can be read
    let unread = ![0, 11].contains(&answer);
    (
        3,
        unread.then(|| format!("the written module is refused with {answer}")),
    )
}

/// W1's tables with 2^32 bytes more in one of them, which is 4; and an output of 2^32 bytes and
/// a few, which is long enough.
pub fn huge_differ() -> u64 {
    let over = 1usize << 32;
    let own = [24, 0, 0, 11, 0];
    let answers = huge::lend(over + 100, |start| {
        let longer = (0..5).map(|n| {
            let mut lengths = own;
            lengths[n] += over;
            write_w1(lengths, 100, start)
        });
        let answers: Vec<(u32, u64)> = longer.collect();
        (answers, write_w1(own, over + 10, start))
    });
    let Some((longer, output)) = answers else {
        return 0;
    };
    let mut differences = 0;
    for (answer, wanted) in longer
        .into_iter()
        .map(|answer| (answer, (4, 0)))
        .chain([(output, (0, 83))])
    {
        if answer != wanted {
            println!("DIFFERENCE: a slice of over 2^32 bytes gets {answer:?}, not {wanted:?}");
            differences += 1;
        }
    }
    differences
}

/// Writes W1 with tables and output of these lengths: answer and length. A table with its own
/// length is lent as it is; what is longer is lent at `start`, and only one of all is.
fn write_w1(lengths: [usize; 5], out_len: usize, start: *mut u8) -> (u32, u64) {
    let w1 = Owned::cut(&hex::decode(W1).expect("hex digits"));
    let Owned {
        constants,
        functions,
        labels,
        structures,
        code,
        ..
    } = &w1;
    let mut lent = lengths.map(|len| (start.cast_const(), len));
    let tables = [constants, functions, labels, code, structures];
    for (lent, table) in lent.iter_mut().zip(tables) {
        if lent.1 == table.len() {
            lent.0 = table.as_ptr();
        }
    }
    let mut short = [0u8; 100];
    let out = if out_len > short.len() {
        start
    } else {
        short.as_mut_ptr()
    };
    write(&w1, lent, out, out_len)
}

/// The tables are constants, functions, labels, code, structures.
fn write(w1: &Owned, tables: [(*const u8, usize); 5], out: *mut u8, out_len: usize) -> (u32, u64) {
    let [constants, functions, labels, code, structures] = tables;
    let mut written = 0;
    // SAFETY: pointers and lengths are those of separate live buffers.
    let answer = unsafe {
        limpetskein_write(
            w1.edition,
            constants.0,
            constants.1,
            functions.0,
            functions.1,
            labels.0,
            labels.1,
            structures.0,
            structures.1,
            code.0,
            code.1,
            w1.entry_length,
            out,
            out_len,
            &raw mut written,
        )
    };
    (answer, written)
}

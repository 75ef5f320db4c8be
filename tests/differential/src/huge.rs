//! Lent lengths over 32 bits.

use second::hex;
use second::samples::W1;
use std::alloc::{alloc_zeroed, dealloc, Layout};

/// Lends this many zero bytes; left out where so much address space can't be had.
pub fn lend<T>(len: usize, call: impl FnOnce(*mut u8) -> T) -> Option<T> {
    let layout = Layout::from_size_align(len, 8).expect("a layout");
    // SAFETY: the layout's size is not 0.
    let start = unsafe { alloc_zeroed(layout) };
    if start.is_null() {
        println!("{len} bytes can't be lent here: left out");
        return None;
    }
    let answer = call(start);
    // SAFETY: allocated above with this layout.
    unsafe { dealloc(start, layout) };
    Some(answer)
}

/// A module of such a length: the length word can't equal it, so the answer is 3, though the
/// first bytes are a module whose length word equals the length's low 32 bits.
pub fn differs(name: &str, call: fn(*const u8, usize) -> u32) -> bool {
    let module = hex::decode(W1).expect("hex digits");
    let len = (1usize << 32) + module.len();
    let answer = lend(len, |start| {
        // SAFETY: the buffer is longer than the module.
        unsafe { std::ptr::copy_nonoverlapping(module.as_ptr(), start, module.len()) };
        call(start, len)
    });
    let differs = answer.is_some_and(|answer| answer != 3);
    if differs {
        println!("DIFFERENCE: a module of {len} bytes gets {answer:?} from {name}, not 3");
    }
    differs
}

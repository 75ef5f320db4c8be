//! Checks with records behind the C interface.

use crate::{fault, lent, lent_mut, misuse, rules};
use second::recording::{check_body, check_recording};

/// # Safety
/// As the C interface says: slices that don't overlap, valid out-parameters.
#[no_mangle]
#[allow(clippy::too_many_arguments)]
pub unsafe extern "C" fn limpetskein_check_recording(
    module: *const u8,
    module_len: usize,
    room: *mut u8,
    room_len: usize,
    record: *mut u8,
    record_len: usize,
    body: *mut u32,
    written: *mut u64,
) -> u32 {
    let number = check_recording(
        rules(),
        lent(module, module_len),
        lent_mut(room, room_len),
        lent_mut(record, record_len),
        &mut *body,
        &mut *written,
    );
    misuse::after_check(fault(), module.cast_mut(), room, room_len, body);
    misuse::after_recording(fault(), (record, record_len), written);
    number
}

/// # Safety
/// As the C interface says: slices that don't overlap, a valid out-parameter.
#[no_mangle]
pub unsafe extern "C" fn limpetskein_check_body(
    module: *const u8,
    module_len: usize,
    body: u32,
    record: *mut u8,
    record_len: usize,
    first: *mut u32,
) -> u32 {
    let (file, own) = (lent(module, module_len), lent_mut(record, record_len));
    let number = check_body(rules(), file, body, own, &mut *first);
    let input = (module.cast_mut(), module_len);
    misuse::after_body(fault(), input, (record, record_len), (number, first));
    number
}

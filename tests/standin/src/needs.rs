//! The needs behind the C interface.

use crate::{fault, lent, lent_mut, misuse, rules};
use second::need::need;

/// # Safety
/// As the C interface says: slices that don't overlap, valid out-parameters.
#[no_mangle]
#[allow(clippy::too_many_arguments)]
pub unsafe extern "C" fn limpetskein_need(
    module: *const u8,
    module_len: usize,
    room: *mut u8,
    room_len: usize,
    report: *mut u8,
    report_len: usize,
    body: *mut u32,
    written: *mut u64,
) -> u32 {
    let number = need(
        rules(),
        lent(module, module_len),
        lent_mut(room, room_len),
        lent_mut(report, report_len),
        &mut *body,
        &mut *written,
    );
    misuse::after_check(fault(), module.cast_mut(), room, room_len, body);
    misuse::after_need(fault(), (report, report_len), written);
    number
}

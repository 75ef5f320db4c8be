//! The second program behind the C interface: a stand-in for the library, to try the
//! differential test with. Called with `STANDIN_FAULT` set to a wrong variant's name, it is
//! that wrong variant; set to a name in `misuse`, it misuses the interface.

mod misuse;
mod needs;
mod records;

use second::check::check;
use second::conversion::convert;
use second::formula::formula;
use second::heap::LentHeap;
use second::map::{map, MapCall};
use second::opcode::Edition;
use second::rules::Rules;
use second::run::{run, Call, LentStack};
use second::subject::{checked_number, ran_number, wrote_number};
use second::writer::{write, Tables};
use std::sync::OnceLock;

/// What `STANDIN_FAULT` names at the first call.
fn fault() -> &'static str {
    static FAULT: OnceLock<String> = OnceLock::new();
    FAULT.get_or_init(|| std::env::var("STANDIN_FAULT").unwrap_or_default())
}

fn rules() -> Rules {
    static RULES: OnceLock<Rules> = OnceLock::new();
    *RULES.get_or_init(|| {
        if fault().is_empty() || misuse::NAMES.contains(&fault()) {
            return Rules::PLAIN;
        }
        Rules::named(fault()).expect("the name of a wrong variant")
    })
}

/// # Safety
/// Pointer and length are those of a slice, or the length is 0.
unsafe fn lent<'a>(pointer: *const u8, len: usize) -> &'a [u8] {
    if len == 0 {
        return &[];
    }
    std::slice::from_raw_parts(pointer, len)
}

/// # Safety
/// Pointer and length are those of a slice lent to nobody else, or the length is 0.
unsafe fn lent_mut<'a>(pointer: *mut u8, len: usize) -> &'a mut [u8] {
    if len == 0 {
        return &mut [];
    }
    std::slice::from_raw_parts_mut(pointer, len)
}

/// # Safety
/// As the C interface says: slices that don't overlap, valid out-parameters.
#[no_mangle]
pub unsafe extern "C" fn limpetskein_check(
    module: *const u8,
    module_len: usize,
    room: *mut u8,
    room_len: usize,
    body: *mut u32,
) -> u32 {
    let answer = check(rules(), lent(module, module_len), lent_mut(room, room_len));
    let number = checked_number(answer, &mut *body);
    misuse::after_check(fault(), module.cast_mut(), room, room_len, body);
    number
}

/// # Safety
/// As the C interface says: slices that don't overlap, valid out-parameters.
#[no_mangle]
#[allow(clippy::too_many_arguments)]
pub unsafe extern "C" fn limpetskein_run(
    module: *const u8,
    module_len: usize,
    function: u32,
    arg_types: *const u8,
    arg_types_len: usize,
    arg_payloads: *const u8,
    arg_payloads_len: usize,
    profile: u32,
    allowance: u64,
    payloads: *mut u8,
    payloads_len: usize,
    types: *mut u8,
    types_len: usize,
    heap: *mut u8,
    heap_len: usize,
    blocks: *mut u8,
    blocks_len: usize,
    steps: *mut u64,
    height: *mut u64,
) -> u32 {
    let call = Call {
        function,
        arg_types: lent(arg_types, arg_types_len),
        arg_payloads: lent(arg_payloads, arg_payloads_len),
        profile,
        allowance,
    };
    let stack = LentStack {
        payloads: lent_mut(payloads, payloads_len),
        types: lent_mut(types, types_len),
    };
    let lent_heap = LentHeap {
        cells: lent_mut(heap, heap_len),
        blocks: lent_mut(blocks, blocks_len),
    };
    let answer = run(rules(), lent(module, module_len), call, stack, lent_heap);
    let number = ran_number(answer, &mut *steps, &mut *height);
    misuse::after_run(fault(), steps);
    misuse::after_slots(fault(), payloads, payloads_len, types, types_len);
    misuse::after_heap(fault(), heap, heap_len, blocks, blocks_len);
    number
}

/// # Safety
/// As the C interface says: slices that don't overlap, a valid out-parameter.
#[no_mangle]
#[allow(clippy::too_many_arguments)]
pub unsafe extern "C" fn limpetskein_write(
    edition: u32,
    constants: *const u8,
    constants_len: usize,
    functions: *const u8,
    functions_len: usize,
    labels: *const u8,
    labels_len: usize,
    structures: *const u8,
    structures_len: usize,
    code: *const u8,
    code_len: usize,
    entry_length: u32,
    out: *mut u8,
    out_len: usize,
    written: *mut u64,
) -> u32 {
    let tables = Tables {
        edition,
        constants: lent(constants, constants_len),
        functions: lent(functions, functions_len),
        labels: lent(labels, labels_len),
        structures: lent(structures, structures_len),
        code: lent(code, code_len),
        entry_length,
    };
    let answer = write(rules(), tables, lent_mut(out, out_len));
    let number = wrote_number(answer, &mut *written);
    misuse::after_write(fault(), code.cast_mut(), code_len, out, out_len, written);
    number
}

/// # Safety
/// As the C interface says: slices that don't overlap, a valid out-parameter.
#[no_mangle]
pub unsafe extern "C" fn limpetskein_formula(
    line: *const u8,
    line_len: usize,
    out: *mut u8,
    out_len: usize,
    written: *mut u64,
) -> u32 {
    let answer = formula(rules(), lent(line, line_len), lent_mut(out, out_len));
    let length = answer.unwrap_or(0);
    let number = wrote_number(answer, &mut *written);
    misuse::after_formula(
        fault(),
        line.cast_mut(),
        line_len,
        out,
        out_len,
        length,
        written,
    );
    number
}

/// # Safety
/// As the C interface says: slices that don't overlap, a valid out-parameter.
#[no_mangle]
pub unsafe extern "C" fn limpetskein_to_edition_4(
    module: *const u8,
    module_len: usize,
    out: *mut u8,
    out_len: usize,
    written: *mut u64,
) -> u32 {
    to_edition(Edition::Four, module, module_len, out, out_len, written)
}

/// # Safety
/// As the C interface says: slices that don't overlap, a valid out-parameter.
#[no_mangle]
pub unsafe extern "C" fn limpetskein_to_edition_3(
    module: *const u8,
    module_len: usize,
    out: *mut u8,
    out_len: usize,
    written: *mut u64,
) -> u32 {
    to_edition(Edition::Three, module, module_len, out, out_len, written)
}

/// # Safety
/// As for the conversions.
unsafe fn to_edition(
    to: Edition,
    module: *const u8,
    module_len: usize,
    out: *mut u8,
    out_len: usize,
    written: *mut u64,
) -> u32 {
    let (file, output) = (lent(module, module_len), lent_mut(out, out_len));
    let answer = convert(rules(), to, file, output);
    let length = answer.unwrap_or(0);
    let number = wrote_number(answer, &mut *written);
    let input = (module.cast_mut(), module_len);
    misuse::after_conversion(fault(), input, (out, out_len), length, written);
    number
}

/// # Safety
/// As the C interface says: slices that don't overlap, a valid out-parameter.
#[no_mangle]
#[allow(clippy::too_many_arguments)]
pub unsafe extern "C" fn limpetskein_map(
    module: *const u8,
    module_len: usize,
    function: u32,
    profile: u32,
    arg_payloads: *const u8,
    arg_payloads_len: usize,
    out: *mut u8,
    out_len: usize,
    allowance: u64,
    payloads: *mut u8,
    payloads_len: usize,
    types: *mut u8,
    types_len: usize,
    heap: *mut u8,
    heap_len: usize,
    blocks: *mut u8,
    blocks_len: usize,
    rows: *mut u64,
) -> u32 {
    let call = MapCall {
        function,
        profile,
        arg_payloads: lent(arg_payloads, arg_payloads_len),
        allowance,
    };
    let stack = LentStack {
        payloads: lent_mut(payloads, payloads_len),
        types: lent_mut(types, types_len),
    };
    let lent_heap = LentHeap {
        cells: lent_mut(heap, heap_len),
        blocks: lent_mut(blocks, blocks_len),
    };
    let (file, output) = (lent(module, module_len), lent_mut(out, out_len));
    let number = map(rules(), file, call, output, stack, lent_heap, &mut *rows);
    let input = (module.cast_mut(), module_len);
    let arguments = (arg_payloads.cast_mut(), arg_payloads_len);
    misuse::after_map(fault(), input, arguments, (out, out_len), rows);
    misuse::after_slots(fault(), payloads, payloads_len, types, types_len);
    misuse::after_heap(fault(), heap, heap_len, blocks, blocks_len);
    number
}

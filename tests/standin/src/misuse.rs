//! Ways of misusing the C interface, which the differential test must notice: a byte written
//! past a lent slice, an out-parameter written that must stay, an input changed, a crash.

/// The names that `STANDIN_FAULT` knows besides those of the wrong variants.
pub const NAMES: [&str; 23] = [
    "misuse-past-room",
    "misuse-before-types",
    "misuse-body-written",
    "misuse-steps-written",
    "misuse-module-changed",
    "misuse-crash",
    "misuse-past-output",
    "misuse-length-written",
    "misuse-code-changed",
    "misuse-past-module",
    "misuse-line-changed",
    "misuse-past-heap",
    "misuse-before-blocks",
    "misuse-past-payloads",
    "misuse-rows-written",
    "misuse-arguments-changed",
    "misuse-past-record",
    "misuse-before-record",
    "misuse-first-written",
    "misuse-body-changes-module",
    "misuse-body-crash",
    "misuse-past-report",
    "misuse-before-report",
];

/// # Safety
/// As for the check; and there are bytes around the slices.
pub unsafe fn after_check(
    fault: &str,
    module: *mut u8,
    room: *mut u8,
    room_len: usize,
    body: *mut u32,
) {
    match fault {
        "misuse-past-room" if room_len > 0 => *room.add(room_len) = 0,
        "misuse-body-written" => *body = 0,
        "misuse-module-changed" if room_len > 0 && !module.is_null() => *module ^= 1,
        "misuse-crash" if room_len > 200 => std::process::abort(),
        _ => {}
    }
}

/// # Safety
/// As for the run; and there are bytes around the slices.
pub unsafe fn after_run(fault: &str, steps: *mut u64) {
    if fault == "misuse-steps-written" {
        *steps = 0;
    }
}

/// # Safety
/// As for the run and for rows; and there are bytes around the slices.
pub unsafe fn after_slots(
    fault: &str,
    payloads: *mut u8,
    payloads_len: usize,
    types: *mut u8,
    types_len: usize,
) {
    match fault {
        "misuse-past-payloads" if payloads_len > 0 => *payloads.add(payloads_len) = 0,
        "misuse-before-types" if types_len > 0 => *types.sub(1) = 0,
        _ => {}
    }
}

/// # Safety
/// As for the run and for rows; and there are bytes around the slices.
pub unsafe fn after_heap(
    fault: &str,
    heap: *mut u8,
    heap_len: usize,
    blocks: *mut u8,
    blocks_len: usize,
) {
    match fault {
        "misuse-past-heap" if heap_len > 0 => *heap.add(heap_len) = 0,
        "misuse-before-blocks" if blocks_len > 0 => *blocks.sub(1) = 0,
        _ => {}
    }
}

/// # Safety
/// As for the write; and there are bytes around the slices.
pub unsafe fn after_write(
    fault: &str,
    code: *mut u8,
    code_len: usize,
    out: *mut u8,
    out_len: usize,
    written: *mut u64,
) {
    match fault {
        "misuse-past-output" if out_len > 0 => *out.add(out_len) = 0,
        "misuse-length-written" => *written = out_len as u64,
        "misuse-code-changed" if code_len > 0 && out_len > 0 => *code ^= 1,
        "misuse-crash" if out_len > 200 => std::process::abort(),
        _ => {}
    }
}

/// `length`: the module's, or 0 where there is none.
///
/// # Safety
/// As for the formula; and there are bytes around the slices.
pub unsafe fn after_formula(
    fault: &str,
    line: *mut u8,
    line_len: usize,
    out: *mut u8,
    out_len: usize,
    length: usize,
    written: *mut u64,
) {
    match fault {
        "misuse-past-output" if out_len > 0 => *out.add(out_len) = 0,
        "misuse-past-module" if length > 0 && length < out_len => *out.add(length) ^= 1,
        "misuse-length-written" => *written = out_len as u64,
        "misuse-line-changed" if line_len > 1 && out_len > 0 => *line ^= 1,
        "misuse-crash" if (200..=256).contains(&line_len) => std::process::abort(),
        _ => {}
    }
}

/// `length`: the converted module's, or 0 where there is none.
///
/// # Safety
/// As for the conversions; and there are bytes around the slices.
pub unsafe fn after_conversion(
    fault: &str,
    (module, module_len): (*mut u8, usize),
    (out, out_len): (*mut u8, usize),
    length: usize,
    written: *mut u64,
) {
    match fault {
        "misuse-past-output" if out_len > 0 => *out.add(out_len) = 0,
        "misuse-past-module" if length > 0 && length < out_len => *out.add(length) ^= 1,
        "misuse-length-written" => *written = out_len as u64,
        "misuse-module-changed" if module_len > 0 && out_len > 0 => *module ^= 1,
        "misuse-crash" if out_len > 200 => std::process::abort(),
        _ => {}
    }
}

/// # Safety
/// As for rows; and there are bytes around the slices.
pub unsafe fn after_map(
    fault: &str,
    (module, module_len): (*mut u8, usize),
    (arguments, arguments_len): (*mut u8, usize),
    (out, out_len): (*mut u8, usize),
    rows: *mut u64,
) {
    match fault {
        "misuse-past-output" if out_len > 0 => *out.add(out_len) = 0,
        "misuse-rows-written" => *rows = out_len as u64,
        "misuse-arguments-changed" if arguments_len > 0 && out_len > 0 => *arguments ^= 1,
        "misuse-module-changed" if module_len > 0 && out_len > 0 => *module ^= 1,
        "misuse-crash" if out_len > 200 => std::process::abort(),
        _ => {}
    }
}

/// # Safety
/// As for the full check that writes a record; and there are bytes around the slices.
pub unsafe fn after_recording(
    fault: &str,
    (record, record_len): (*mut u8, usize),
    written: *mut u64,
) {
    match fault {
        "misuse-past-record" if record_len > 0 => *record.add(record_len) = 0,
        "misuse-before-record" if record_len > 0 => *record.sub(1) = 0,
        "misuse-length-written" => *written = record_len as u64,
        _ => {}
    }
}

/// # Safety
/// As for the check of a body; and there are bytes around the slices.
pub unsafe fn after_body(
    fault: &str,
    (module, module_len): (*mut u8, usize),
    (record, record_len): (*mut u8, usize),
    (number, first): (u32, *mut u32),
) {
    match fault {
        "misuse-past-record" if record_len > 0 => *record.add(record_len) = 0,
        "misuse-before-record" if record_len > 0 => *record.sub(1) = 0,
        "misuse-first-written" if number == 0 => *first = 0,
        "misuse-body-changes-module" if module_len > 0 && number == 11 => *module ^= 1,
        "misuse-body-crash" if record_len > 100 => std::process::abort(),
        _ => {}
    }
}

/// # Safety
/// As for the needs; and there are bytes around the slices.
pub unsafe fn after_need(fault: &str, (report, report_len): (*mut u8, usize), written: *mut u64) {
    match fault {
        "misuse-past-report" if report_len > 0 => *report.add(report_len) = 0,
        "misuse-before-report" if report_len > 0 => *report.sub(1) = 0,
        "misuse-length-written" => *written = report_len as u64,
        _ => {}
    }
}

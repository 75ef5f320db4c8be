//! Two subjects side by side on checks with records.

use super::slice_difference;
use crate::gen::records::{RecordCall, RecordCase, RecordStep};
use crate::memory::{BodyMemory, RecordingMemory};
use crate::subject::Subject;

/// What differs in a call of a case; and where a check of a body must give what the full check
/// gives, what `b` gives otherwise.
pub fn compare_records(
    case: &RecordCase,
    a: &mut dyn Subject,
    b: &mut dyn Subject,
) -> Option<String> {
    let mut steps = case.steps.iter().enumerate();
    steps.find_map(|(n, step)| {
        let difference = match &step.call {
            RecordCall::Full(room) => compare_full(step, room, case.shift, a, b),
            RecordCall::Body(body) => compare_body(step, *body, case.shift, a, b),
        };
        difference.map(|text| format!("step {n} ({}): {text}", step.note))
    })
}

fn compare_full(
    step: &RecordStep,
    room: &[u8],
    shift: usize,
    a: &mut dyn Subject,
    b: &mut dyn Subject,
) -> Option<String> {
    let mut memory_a = step.full_memory(room, shift);
    let mut memory_b = memory_a.clone();
    let answer_a = a.check_recording(&mut memory_a);
    let answer_b = b.check_recording(&mut memory_b);
    if answer_a == answer_b && memory_a == memory_b {
        return None;
    }
    Some(format!(
        "full check with a room of {} bytes and a record of {}: answers {answer_a} and {answer_b}{}",
        room.len(),
        step.record.len(),
        recording_difference(&memory_a, &memory_b)
    ))
}

fn compare_body(
    step: &RecordStep,
    body: u32,
    shift: usize,
    a: &mut dyn Subject,
    b: &mut dyn Subject,
) -> Option<String> {
    let mut memory_a = step.body_memory(shift);
    let mut memory_b = memory_a.clone();
    let answer_a = a.check_body(body, &mut memory_a);
    let answer_b = b.check_body(body, &mut memory_b);
    if answer_a != answer_b || memory_a != memory_b {
        return Some(format!(
            "check of body {body:08X}: answers {answer_a} and {answer_b}{}",
            body_difference(&memory_a, &memory_b)
        ));
    }
    if !step.promised {
        return None;
    }
    step.otherwise(answer_b, &memory_b, b)
}

/// How what was lent to two full checks differs, in words.
pub fn recording_difference(a: &RecordingMemory, b: &RecordingMemory) -> String {
    let mut text = String::new();
    if a.body != b.body {
        text += &format!("; body {:08X} and {:08X}", a.body, b.body);
    }
    if a.written != b.written {
        text += &format!("; length {} and {}", a.written, b.written);
    }
    text += &slice_difference("module", &a.module, &b.module);
    text += &slice_difference("room", &a.room, &b.room);
    text + &slice_difference("record", &a.record, &b.record)
}

/// How what was lent to two checks of a body differs, in words.
pub fn body_difference(a: &BodyMemory, b: &BodyMemory) -> String {
    let mut text = String::new();
    if a.first != b.first {
        text += &format!("; first {:08X} and {:08X}", a.first, b.first);
    }
    text += &slice_difference("module", &a.module, &b.module);
    text + &slice_difference("record", &a.record, &b.record)
}

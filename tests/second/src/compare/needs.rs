//! Two subjects side by side on calls for the needs.

use super::slice_difference;
use crate::gen::needs::NeedCase;
use crate::memory::NeedMemory;
use crate::subject::Subject;

/// What differs in a call for the needs; and where they are reported, what `b` does otherwise on as
/// many slots.
pub fn compare_needs(case: &NeedCase, a: &mut dyn Subject, b: &mut dyn Subject) -> Option<String> {
    let mut memory_a = case.memory();
    let mut memory_b = memory_a.clone();
    let (answer_a, answer_b) = (a.need(&mut memory_a), b.need(&mut memory_b));
    if answer_a != answer_b || memory_a != memory_b {
        return Some(format!(
            "need with a room of {} bytes and a report of {}: answers {answer_a} and {answer_b}{}",
            case.room.len(),
            case.report.len(),
            need_difference(&memory_a, &memory_b)
        ));
    }
    if answer_b != 0 {
        return None;
    }
    case.otherwise(memory_b.report.slice(), b)
}

/// How what was lent to two calls for the needs differs, in words.
pub fn need_difference(a: &NeedMemory, b: &NeedMemory) -> String {
    let mut text = String::new();
    if a.body != b.body {
        text += &format!("; body {:08X} and {:08X}", a.body, b.body);
    }
    if a.written != b.written {
        text += &format!("; length {} and {}", a.written, b.written);
    }
    text += &slice_difference("module", &a.module, &b.module);
    text += &slice_difference("room", &a.room, &b.room);
    text + &slice_difference("report", &a.report, &b.report)
}

//! Names the case when the library crashes or doesn't come back.

use std::sync::atomic::{AtomicU64, Ordering};
use std::sync::OnceLock;
use std::time::Duration;

static SEED: AtomicU64 = AtomicU64::new(0);
static CASE: AtomicU64 = AtomicU64::new(HUGE);
static CALL: OnceLock<Call> = OnceLock::new();

/// What the cases call first.
#[derive(Clone, Copy, Debug)]
pub enum Call {
    Check,
    Run,
    Write,
    Formula,
    Convert,
    Map,
    Record,
    Need,
}

/// Before the first case: calls on slices of over 2^32 bytes.
const HUGE: u64 = u64::MAX;

/// Set in the number of a stated call.
pub const STATED: u64 = 1 << 63;

/// Seconds after which a case counts as hanging.
const PATIENCE: u64 = 30;

extern "C" {
    fn signal(number: i32, handler: usize) -> usize;
    fn _exit(status: i32) -> !;
}

pub fn start(seed: u64, call: Call) {
    SEED.store(seed, Ordering::Relaxed);
    let _ = CALL.set(call);
    for number in [4, 6, 7, 8, 11] {
        // SAFETY: the handler only reads numbers, writes to standard output and ends.
        unsafe { signal(number, crashed as *const () as usize) };
    }
    std::thread::spawn(watch);
}

/// Says which case comes next.
pub fn next(case: u64) {
    CASE.store(case, Ordering::Relaxed);
}

extern "C" fn crashed(number: i32) {
    report(&format!("signal {number}"));
    // SAFETY: ends the process at once.
    unsafe { _exit(1) }
}

fn watch() {
    let mut last = (u64::MAX, 0);
    loop {
        std::thread::sleep(Duration::from_secs(1));
        let case = CASE.load(Ordering::Relaxed);
        last = if case == last.0 {
            (case, last.1 + 1)
        } else {
            (case, 0)
        };
        if last.1 >= PATIENCE {
            report("no answer");
            std::process::exit(1);
        }
    }
}

fn report(what: &str) {
    let (seed, case) = (SEED.load(Ordering::Relaxed), CASE.load(Ordering::Relaxed));
    let (call, cases, show) = match CALL.get() {
        Some(Call::Write) => ("write", "tables", "--write"),
        Some(Call::Formula) => ("formula", "line", "--formula"),
        Some(Call::Convert) => ("conversion", "module", "--conversion"),
        Some(Call::Map) => ("map", "rows", "--rows"),
        Some(Call::Record) => ("check with a record", "records", "--records"),
        Some(Call::Need) => ("need", "module", "--need"),
        Some(Call::Run) => ("run", "module", "--case"),
        _ => ("check", "module", "--case"),
    };
    if case == HUGE {
        println!("DIFFERENCE: {what} on a slice of over 2^32 bytes");
        return;
    }
    if case & STATED != 0 {
        println!("DIFFERENCE: {what} in stated {call} {}", case & !STATED);
        return;
    }
    println!("DIFFERENCE: {what} in case {case} of seed {seed}");
    println!("again: --seed {seed} --from {case} --cases 1");
    println!("the {cases}: show --seed {seed} {show} {case}");
}

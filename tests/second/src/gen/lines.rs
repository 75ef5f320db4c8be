//! Formula lines, in the grammar and just out of it, around every limit, and outputs around the
//! module's length.

use super::case::{Case, RunCall};
use super::rng::Rng;
use crate::formula::{self, split, ALLOWANCE, DEEPEST, LONGEST_LINE, SLOTS};
use crate::memory::{FormulaMemory, Lent};
use crate::rules::Rules;
use crate::subject::Subject;
use crate::types::INT;
use crate::words::payload;

/// One formula to be written, checked and run.
#[derive(Clone, Debug)]
pub struct LineCase {
    /// Which generator made the line.
    pub kind: &'static str,
    pub line: Vec<u8>,
    /// What the lent output holds before the call.
    pub out: Vec<u8>,
    /// The parameters of the runs, one after the other.
    pub names: Vec<[u32; 3]>,
    pub allowance: u64,
    pub slots: usize,
    pub shift: usize,
}

/// Value of the out-parameter before a formula: it stays where nothing is to be written.
pub const WRITTEN_BEFORE: u64 = 0x3F17_3F17_3F17_3F17;

impl LineCase {
    /// The case of this number; it depends on nothing but seed and number.
    pub fn new(seed: u64, number: u64) -> LineCase {
        let mut rng = Rng::for_case(seed, number);
        let (kind, line) = line(&mut rng);
        let needed = formula::module(Rules::PLAIN, &line).map_or(120, |file| file.len());
        let out = output(&mut rng, needed);
        LineCase {
            kind,
            line,
            out: rng.bytes(out),
            names: (0..3).map(|_| [(); 3].map(|()| value(&mut rng))).collect(),
            allowance: rng.pick(&[ALLOWANCE, ALLOWANCE, ALLOWANCE + 1, 1_000_000, u64::MAX]),
            slots: rng.pick(&[SLOTS, SLOTS, SLOTS + 1, 4096]),
            shift: rng.below(8),
        }
    }

    pub fn memory(&self) -> FormulaMemory {
        FormulaMemory {
            line: Lent::new(&self.line, self.shift),
            out: Lent::new(&self.out, self.shift + 3),
            written: WRITTEN_BEFORE,
        }
    }

    /// The module as a case: its check and its runs.
    pub fn made(&self, module: &[u8]) -> Case {
        let run = |names: &[u32; 3]| RunCall {
            function: 0,
            arg_types: vec![INT; 3],
            arg_payloads: names
                .iter()
                .flat_map(|&n| u64::from(n).to_le_bytes())
                .collect(),
            profile: self.shift as u32,
            allowance: self.allowance,
            payloads: vec![0xEE; 8 * self.slots],
            types: vec![0xEE; self.slots],
            heap: vec![0xEE; 8 * 3],
            blocks: vec![0xEE; 24 * 3],
            shift: self.shift,
        };
        Case {
            kind: self.kind,
            module: module.to_vec(),
            room: Vec::new(),
            runs: self.names.iter().map(run).collect(),
            shift: self.shift,
        }
    }

    /// "Every accepted line's module passes the checker; run with allowance 257 and 35 slots, or
    /// more, it gives the reading's value in wrapping unsigned ints, or 24 where a quotient is by
    /// zero." What a subject does otherwise, in words.
    pub fn otherwise(&self, made: &Case, subject: &mut dyn Subject) -> Option<String> {
        let Some(reading) = split::reading(&self.line) else {
            return Some("a module, and the line has no reading".to_string());
        };
        let checked = subject.check(&mut made.check_memory());
        if checked != 0 {
            return Some(format!("the module is refused with {checked}"));
        }
        for (names, run) in self.names.iter().zip(&made.runs) {
            let mut memory = made.run_memory(run);
            let answer = subject.run(run.start(), &mut memory);
            let (ty, value) = (memory.types.slice()[0], payload(memory.payloads.slice(), 0));
            let good = match reading.value(*names) {
                None => answer == 24,
                Some(wanted) => {
                    let steps = reading.instructions() + 1;
                    (answer, memory.steps, memory.height) == (0, steps, 1)
                        && (ty, value) == (INT, u64::from(wanted))
                }
            };
            if !good {
                return Some(format!(
                    "on {names:?} the value is {:?}, and a run gives {answer} after {} steps, {value} of type {ty}",
                    reading.value(*names),
                    memory.steps
                ));
            }
        }
        None
    }

    /// The line and the output's length, enough to repeat the call by hand.
    pub fn describe(&self) -> String {
        let line = self.line.escape_ascii();
        format!("line \"{line}\", output of {} bytes", self.out.len())
    }
}

/// A parameter: an edge, or any int.
fn value(rng: &mut Rng) -> u32 {
    let any = rng.any() as u32;
    rng.pick(&[
        0,
        0,
        1,
        2,
        3,
        7,
        255,
        256,
        0x7FFF_FFFF,
        0x8000_0000,
        0xFFFF_FFFE,
        0xFFFF_FFFF,
        any,
        any & 255,
    ])
}

/// A line, and the name of its generator.
pub fn line(rng: &mut Rng) -> (&'static str, Vec<u8>) {
    match rng.below(100) {
        0..=27 => ("expression", expression(rng)),
        28..=47 => {
            let mut line = expression(rng);
            damage(rng, &mut line);
            ("damaged", line)
        }
        48..=57 => ("length", length(rng)),
        58..=67 => ("brackets", brackets(rng)),
        68..=79 => ("operands", operands(rng)),
        80..=85 => ("large number", large(rng)),
        86..=90 => ("several", several(rng)),
        91..=95 => ("characters", characters(rng)),
        96..=97 => ("minus", minus(rng)),
        98 => ("nothing", vec![b' '; rng.pick(&[0, 1, 2, 255, 256, 257])]),
        _ => {
            let len = rng.below(20);
            ("random bytes", rng.bytes(len))
        }
    }
}

const SIGNS: &[u8] = b"+-*/";
const NAMES: &[u8] = b"rgb";
const ALPHABET: &[u8] = b"rgb0123456789+-*/() ";

/// A line of the grammar, of few bytes or many, with spaces or without.
fn expression(rng: &mut Rng) -> Vec<u8> {
    let bytes = rng.pick(&[1, 3, 7, 15, 30, 60, 120, 200, LONGEST_LINE]);
    let depth = rng.below(8);
    let mut line = part(rng, bytes, depth);
    for _ in 0..rng.pick(&[0, 0, 1, 3, 12]) {
        if line.len() < LONGEST_LINE {
            space(rng, &mut line);
        }
    }
    line
}

/// A line of at most so many bytes and brackets around each other. Lines joined by a sign are a
/// line, whatever its reading is.
fn part(rng: &mut Rng, bytes: usize, depth: usize) -> Vec<u8> {
    let mut line = Vec::new();
    match rng.below(10) {
        0..=5 if bytes >= 3 => {
            let left = rng.range(1, bytes - 2);
            line.extend(part(rng, left, depth));
            line.push(rng.pick(SIGNS));
            line.extend(part(rng, bytes - 1 - left, depth));
        }
        6 | 7 if bytes >= 3 && depth > 0 => {
            line.push(b'(');
            line.extend(part(rng, bytes - 2, depth - 1));
            line.push(b')');
        }
        8 if bytes >= 2 => {
            line.push(b'-');
            line.extend(part(rng, bytes - 1, depth));
        }
        6 | 9 => line.push(rng.pick(NAMES)),
        _ => {
            let text = number(rng);
            if text.len() <= bytes {
                line.extend(text);
            } else {
                line.push(rng.pick(b"0123rgb"));
            }
        }
    }
    line
}

/// A number in range, with leading zeros now and then.
fn number(rng: &mut Rng) -> Vec<u8> {
    let zeros = if rng.one_in(5) { rng.below(14) } else { 0 };
    let mut text = vec![b'0'; zeros];
    text.extend(value(rng).to_string().bytes());
    text
}

/// A space where it changes nothing: not between two digits.
fn space(rng: &mut Rng, line: &mut Vec<u8>) {
    let at = rng.below(line.len() + 1);
    let inside = at > 0 && at < line.len();
    if !(inside && line[at - 1].is_ascii_digit() && line[at].is_ascii_digit()) {
        line.insert(at, b' ');
    }
}

/// One to three changes, most of which leave the grammar.
fn damage(rng: &mut Rng, line: &mut Vec<u8>) {
    for _ in 0..rng.pick(&[1, 1, 1, 2, 3]) {
        let at = rng.below(line.len());
        let byte = match rng.below(12) {
            0 => rng.pick(b"\t\n\r\0RGBx.,%^[]\x1F\x21\xA0\xFF"),
            1 => rng.any() as u8,
            _ => rng.pick(ALPHABET),
        };
        match rng.below(7) {
            0 | 1 => line.insert(at, byte),
            2 if !line.is_empty() => drop(line.remove(at)),
            3 if !line.is_empty() => line[at] = byte,
            4 if at + 1 < line.len() => line.swap(at, at + 1),
            5 => line.truncate(at),
            _ => {
                let end = (at + rng.below(6)).min(line.len());
                let again = line[at..end].to_vec();
                line.splice(at..at, again);
            }
        }
    }
}

/// A line of 254 to 258 bytes, by spaces, zeros, minuses or operands.
fn length(rng: &mut Rng) -> Vec<u8> {
    let target = rng.pick(&[254, 255, 256, 256, 256, 257, 257, 258, 300]);
    let bytes = rng.pick(&[10, 60, 200, 240]);
    let mut line = part(rng, bytes, 5);
    if rng.one_in(6) {
        damage(rng, &mut line);
    }
    let way = rng.below(5);
    while line.len() < target {
        match way {
            0 => line.push(b' '),
            1 => line.insert(0, b' '),
            2 => line.insert(0, b'-'),
            3 if target - line.len() >= 2 => line.extend([rng.pick(SIGNS), rng.pick(NAMES)]),
            4 if line.first().is_some_and(u8::is_ascii_digit) => line.insert(0, b'0'),
            _ => line.insert(0, b' '),
        }
    }
    line
}

/// Brackets around each other, 14 to 18 or many more, and some beside them.
fn brackets(rng: &mut Rng) -> Vec<u8> {
    let depth = rng.pick(&[14, 15, 16, 16, 16, 17, 17, 17, 18, 40, 120]);
    let mut line = vec![rng.pick(NAMES)];
    for n in 0..depth {
        line.insert(0, b'(');
        line.push(b')');
        let before: &[u8] = rng.pick(&[b"", b"", b"-", b"2*", b"b-", b"--"]);
        let after: &[u8] = rng.pick(&[b"", b"", b"/3", b"+g", b" "]);
        if n < 18 && line.len() < 200 {
            line.splice(0..0, before.iter().copied());
            line.extend(after);
        }
    }
    if rng.one_in(4) {
        line.extend(b"+((r))*(g)");
    }
    if rng.one_in(6) {
        damage(rng, &mut line);
    }
    line
}

/// Operands that wait, 31 to 35 with what is inside, in brackets of which most are 16 deep at most.
fn operands(rng: &mut Rng) -> Vec<u8> {
    let most = rng.pick(&[31, 32, 32, 32, 33, 33, 33, 34, 35]);
    let (inner, needs, own): (&[u8], usize, usize) = rng.pick(&[
        (b"r", 1, 0),
        (b"r+g", 2, 0),
        (b"7*b-1", 2, 0),
        (b"r+r*r", 3, 0),
        (b"r-g/(b+1)", 4, 1),
    ]);
    let mut line = inner.to_vec();
    let mut waiting = most - needs;
    // brackets that are left if two operands wait at each of the others
    let levels = if rng.one_in(6) { 18 } else { DEEPEST };
    let mut spare = (2 * (levels - own)).saturating_sub(waiting);
    while waiting > 0 && line.len() < LONGEST_LINE {
        let mut take = waiting.min(2);
        if spare > 0 && rng.one_in(6) {
            take -= 1;
            spare -= 1;
        }
        let before: &[u8] = match take {
            0 => rng.pick(&[b"-", b""]),
            1 => rng.pick(&[b"r+", b"2*", b"g/", b"1-", b"b - "]),
            _ => rng.pick(&[b"r+r*", b"g-2*", b"1+2/", b"b-g/-"]),
        };
        waiting -= take;
        let mut whole = before.to_vec();
        whole.push(b'(');
        whole.extend(line);
        whole.push(b')');
        // what comes after it waits for nothing
        let after: &[u8] = rng.pick(&[b"", b"", b"", b"", b"", b"", b"*3", b"-g", b"+(r-g)"]);
        whole.extend(after);
        line = whole;
    }
    line
}

/// A number at 4294967295 or over it, in a line.
fn large(rng: &mut Rng) -> Vec<u8> {
    let text: &[u8] = rng.pick(&[
        b"4294967295",
        b"4294967296",
        b"4294967300",
        b"4300000000",
        b"5000000000",
        b"9999999999",
        b"42949672950",
        b"10000000000",
        b"4294967301",
        b"18446744073709551615",
        b"18446744073709551616",
        b"18446744073709551621",
        b"340282366920938463463374607431768211461",
    ]);
    let mut line = vec![b'0'; rng.pick(&[0, 0, 1, 5, 20, 150])];
    line.extend(text);
    if rng.percent(50) {
        line.splice(
            0..0,
            rng.pick::<&[u8]>(&[b"r+", b"-", b"(g)*", b"((b-"])
                .iter()
                .copied(),
        );
    }
    if rng.percent(50) {
        line.extend(rng.pick::<&[u8]>(&[b"+r", b" ", b"/g", b"))", b" 1"]));
    }
    line
}

/// Lines for which more than one refusal holds.
fn several(rng: &mut Rng) -> Vec<u8> {
    let mut line = match rng.below(3) {
        0 => brackets(rng),
        1 => operands(rng),
        _ => {
            // 17 and more deep, 33 and more operands
            let deep = rng.range(16, 18);
            let mut line = b"r+r*(".repeat(deep);
            line.push(b'r');
            line.extend(b")".repeat(deep));
            line
        }
    };
    for _ in 0..rng.below(3) {
        match rng.below(5) {
            0 => line.extend(b"+4294967296"),
            1 => line.extend(b"+"),
            2 => line.splice(0..0, *b"1+").for_each(drop),
            3 => line.resize(line.len().max(LONGEST_LINE + rng.below(3)), b' '),
            _ => line.insert(0, b'('),
        }
    }
    line
}

/// Any bytes that lines have.
fn characters(rng: &mut Rng) -> Vec<u8> {
    let len = rng.pick(&[1, 2, 3, 4, 5, 6, 8]);
    (0..len)
        .map(|_| rng.pick(b"rgb012+-*/()rgb+-*/ "))
        .collect()
}

/// Many minuses: 256 instructions, and `ret`.
fn minus(rng: &mut Rng) -> Vec<u8> {
    let count = rng.pick(&[2, 3, 17, 40, 128, 253, 254, 255, 255, 255, 256]);
    let mut line = vec![b'-'; count];
    line.extend(rng.pick::<&[u8]>(&[b"r", b"r", b"1", b"(g)", b"5/b", b""]));
    line
}

/// The output's length: enough, or not quite.
fn output(rng: &mut Rng, needed: usize) -> usize {
    match rng.below(20) {
        0..=7 => needed,
        8..=11 => needed - 1,
        12 | 13 => needed + 1,
        14 | 15 => needed + rng.range(2, 80),
        16 => rng.below(needed),
        17 => rng.pick(&[0, 1, 47, 48, 68, 73, 74]),
        _ => 4096,
    }
}

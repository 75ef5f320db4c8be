//! The small program, of the second program: a module on standard input, its output on
//! standard output. And the desk's commands: `small formula LINE`,
//! `small run [--profile N] FILE FUNCTION [INT...]`, `small convert 4`, `small convert 3`,
//! `small check [--body N] --record RECORD FILE`, `small need FILE`.
//!
//! `--fault NAME` first: a wrong variant.

use second::desk::{self, Left};
use second::rules::Rules;
use second::show::{small, MOST_READ};
use std::ffi::OsString;
use std::io::{Read, Write};
use std::os::unix::ffi::OsStrExt;

fn main() {
    let mut words: Vec<OsString> = std::env::args_os().skip(1).collect();
    let mut rules = Rules::PLAIN;
    if words.first().is_some_and(|word| word == "--fault") {
        let name = words.get(1).and_then(|name| name.to_str());
        rules = name
            .and_then(Rules::named)
            .expect("the name of a wrong variant");
        words.drain(..2);
    }
    let left = match words.first().and_then(|word| word.to_str()) {
        None => Left::Printed(small(rules, &input()).into_bytes()),
        Some("formula") => match &words[1..] {
            [line] => desk::formula(rules, line.as_bytes()),
            _ => Left::Usage,
        },
        Some("run") => run(rules, &words[1..]).unwrap_or(Left::Usage),
        Some("convert") => convert(rules, &words[1..]).unwrap_or(Left::Usage),
        Some("check") => check(rules, &words[1..]).unwrap_or(Left::Usage),
        Some("need") => need(rules, &words[1..]).unwrap_or(Left::Usage),
        _ => Left::Usage,
    };
    match left {
        Left::Printed(bytes) => {
            let mut output = std::io::stdout();
            output
                .write_all(&bytes)
                .expect("standard output can be written");
        }
        Left::Refused(line) => {
            eprint!("{line}");
            std::process::exit(1);
        }
        Left::Usage => {
            eprintln!(
                "usage: small [formula LINE | run [--profile N] FILE FUNCTION [INT...] | convert 4 | convert 3 | check [--body N] --record RECORD FILE | need FILE]"
            );
            std::process::exit(2);
        }
        Left::Missing => {
            eprintln!("small: no such file");
            std::process::exit(3);
        }
    }
}

/// Standard input, as much as is read of it.
fn input() -> Vec<u8> {
    let mut input = Vec::new();
    let mut limited = std::io::stdin().take(MOST_READ as u64);
    limited
        .read_to_end(&mut input)
        .expect("standard input can be read");
    input
}

fn convert(rules: Rules, words: &[OsString]) -> Option<Left> {
    let [word] = words else {
        return None;
    };
    let to = desk::target(word.to_str()?)?;
    Some(desk::convert(rules, to, &input()))
}

fn check(rules: Rules, words: &[OsString]) -> Option<Left> {
    let (body, words) = match words {
        [option, word, rest @ ..] if option == "--body" => {
            (Some(desk::body(word.to_str()?)?), rest)
        }
        _ => (None, words),
    };
    let [option, record, file] = words else {
        return None;
    };
    if option != "--record" {
        return None;
    }
    let Ok(input) = std::fs::read(file) else {
        return Some(Left::Missing);
    };
    let kept = match (body, std::fs::read(record)) {
        (None, _) => desk::check_whole(rules, &input),
        (Some(_), Err(_)) => return Some(Left::Missing),
        (Some(body), Ok(bytes)) => desk::check_one(rules, &input, body, &bytes),
    };
    if let Some(bytes) = kept.record {
        std::fs::write(record, bytes).expect("the record can be written");
    }
    Some(kept.left)
}

fn need(rules: Rules, words: &[OsString]) -> Option<Left> {
    let [file] = words else {
        return None;
    };
    let input = std::fs::read(file);
    Some(input.map_or(Left::Missing, |input| desk::need(rules, &input)))
}

fn run(rules: Rules, words: &[OsString]) -> Option<Left> {
    let (profile, words) = match words {
        [option, number, rest @ ..] if option == "--profile" => {
            (desk::decimal(number.to_str()?)?, rest)
        }
        _ => (0, words),
    };
    let [file, numbers @ ..] = words else {
        return None;
    };
    let numbers: Option<Vec<u32>> = numbers
        .iter()
        .map(|word| word.to_str().and_then(desk::decimal))
        .collect();
    let numbers = numbers?;
    let (&function, ints) = numbers.split_first()?;
    let input = std::fs::read(file).ok()?;
    let printed = desk::run(rules, &input, profile, function, ints);
    Some(Left::Printed(printed.into_bytes()))
}

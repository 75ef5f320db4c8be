//! Compares the small program's standard output with the second program's on generated
//! modules.
//!
//! `program <executable> [--seed N] [--seconds N | --cases N] [--from N] [--most N]`

use second::args;
use second::gen::case::module;
use second::gen::rng::Rng;
use second::hex;
use second::rules::Rules;
use second::show::small;
use std::io::{Read, Write};
use std::process::{Command, Stdio};
use std::time::{Duration, Instant};

fn main() {
    let Some(executable) = std::env::args().nth(1) else {
        eprintln!("usage: program <executable> [--seed N] [--seconds N | --cases N] [--from N]");
        std::process::exit(2);
    };
    args::expect(&["--seed", "--cases", "--seconds", "--from", "--most"]);
    let seed = args::number("--seed", 1);
    let from = args::number("--from", 0);
    let cases = args::value("--cases").map(|_| args::number("--cases", 0));
    let seconds = args::number("--seconds", 60);
    let most = args::number("--most", 5);
    let start = Instant::now();
    let (mut number, mut differences) = (from, 0);
    loop {
        let done = match cases {
            Some(cases) => number - from >= cases,
            None => start.elapsed() >= Duration::from_secs(seconds),
        };
        if done || differences >= most {
            break;
        }
        differences += u64::from(differs(&executable, seed, number));
        number += 1;
    }
    let cases = number - from;
    println!("program: {cases} cases from seed {seed}, {differences} differences");
    if differences > 0 {
        std::process::exit(1);
    }
}

fn differs(executable: &str, seed: u64, number: u64) -> bool {
    let (kind, file) = module(&mut Rng::for_case(seed, number));
    let expected = small(Rules::PLAIN, &file);
    let printed = output(executable, &file);
    if printed == expected.as_bytes() {
        return false;
    }
    println!("DIFFERENCE in case {number} of seed {seed} ({kind})");
    println!("  second program: {}", shortened(&expected));
    println!(
        "  small program:  {}",
        shortened(&String::from_utf8_lossy(&printed))
    );
    println!("  module: {}", hex::encode(&file));
    println!("  again: {executable} --seed {seed} --from {number} --cases 1");
    true
}

fn shortened(text: &str) -> String {
    let lines: Vec<&str> = text.lines().take(8).collect();
    format!("{:?}", lines.join(" | "))
}

/// How long the executable may take for a module.
const PATIENCE: Duration = Duration::from_secs(30);

/// What the executable prints for a module on its standard input. A program that doesn't run,
/// or doesn't end, prints nothing, which differs from everything.
fn output(executable: &str, file: &[u8]) -> Vec<u8> {
    let child = Command::new(executable)
        .stdin(Stdio::piped())
        .stdout(Stdio::piped())
        .spawn();
    let Ok(mut child) = child else {
        eprintln!("{executable} can't be run");
        return Vec::new();
    };
    if let Some(mut input) = child.stdin.take() {
        // a program that reads no more than it needs may close its end first
        let _ = input.write_all(file);
    }
    let (sender, receiver) = std::sync::mpsc::channel();
    if let Some(mut output) = child.stdout.take() {
        std::thread::spawn(move || {
            let mut printed = Vec::new();
            let _ = output.read_to_end(&mut printed);
            let _ = sender.send(printed);
        });
    }
    let printed = receiver.recv_timeout(PATIENCE).unwrap_or_else(|_| {
        println!("no answer in {} s", PATIENCE.as_secs());
        let _ = child.kill();
        Vec::new()
    });
    let _ = child.wait();
    printed
}

//! Writes the samples, or looks whether they are up to date.
//!
//! `samples write <directory>`, `samples check <directory>`

use second::desk::{self, Left};
use second::formula;
use second::opcode::Edition;
use second::reader::read;
use second::rules::Rules;
use second::samples::{
    all, LineSample, Sample, CONVERSIONS, HEAP, LIMITS, LINES, MANAGED, NEEDS, NUMBERS, OLD,
    PROFILES, PROGRAMS, REFUSED, REFUSED_LINES, W_SAMPLES,
};
use second::show::small;
use std::collections::BTreeMap;
use std::path::Path;

/// The extension of module files.
const MODULE: &str = "lsk";

fn main() {
    let args: Vec<String> = std::env::args().collect();
    let [_, order, directory] = &args[..] else {
        eprintln!("usage: samples write|check <directory>");
        std::process::exit(2);
    };
    let directory = Path::new(directory);
    let wanted = wanted();
    if order == "write" {
        for (name, content) in &wanted {
            std::fs::write(directory.join(name), content).expect("the directory can be written");
        }
        println!("{} files written", wanted.len());
        return;
    }
    let stale = stale(directory, &wanted);
    for name in &stale {
        println!("not up to date: {name}");
    }
    println!(
        "samples: {} files, {} not up to date",
        wanted.len(),
        stale.len()
    );
    if !stale.is_empty() {
        std::process::exit(1);
    }
}

/// Every file of the directory with its content.
fn wanted() -> BTreeMap<String, Vec<u8>> {
    let mut files = BTreeMap::new();
    for sample in all() {
        let file = sample.file();
        let output = small(Rules::PLAIN, &file).into_bytes();
        files.insert(format!("{}.{MODULE}", sample.name), file);
        files.insert(format!("{}.txt", sample.name), output);
    }
    for sample in &PROFILES {
        let runs = profile_runs(&sample.file());
        if !runs.is_empty() {
            files.insert(format!("{}.profiles", sample.name), runs.into_bytes());
        }
    }
    for sample in &NEEDS {
        files.insert(format!("{}.need", sample.name), needs(sample).into_bytes());
    }
    for sample in &CONVERSIONS {
        if let Left::Refused(line) = other_edition(&sample.file()) {
            files.insert(format!("{}.refused", sample.name), line.into_bytes());
        }
    }
    for sample in LINES.iter().chain(&REFUSED_LINES) {
        let mut put = |extension: &str, content: Vec<u8>| {
            files.insert(format!("{}.{extension}", sample.name), content);
        };
        put("line", format!("{}\n", sample.line).into_bytes());
        match desk::formula(Rules::PLAIN, sample.line.as_bytes()) {
            Left::Printed(file) => {
                put("txt", small(Rules::PLAIN, &file).into_bytes());
                put("runs", runs(sample, &file).into_bytes());
                put(MODULE, file);
            }
            Left::Refused(line) => put("refused", line.into_bytes()),
            Left::Usage | Left::Missing => {}
        }
    }
    files.insert("README.md".to_string(), readme().into_bytes());
    files
}

/// A line for each run of a formula's function: its parameters, and what is printed.
fn runs(sample: &LineSample, file: &[u8]) -> String {
    let run = |&[r, g, b]: &[u32; 3]| {
        let printed = desk::run(Rules::PLAIN, file, 0, 0, &[r, g, b]);
        let lines: Vec<&str> = printed.lines().collect();
        format!("{r} {g} {b}: {}\n", lines.join(", "))
    };
    sample.runs.iter().map(run).collect()
}

/// The profiles that runs of samples name.
const NAMED: [u32; 6] = [0, 1, 5, 6, 256, u32::MAX];

/// A line for each function and each of these profiles: profile, function, the argument 9, and
/// what is printed.
fn profile_runs(file: &[u8]) -> String {
    let functions = read(Rules::PLAIN, file).map_or(0, |module| module.functions);
    let mut text = String::new();
    for function in 0..functions {
        for profile in NAMED {
            let printed = desk::run(Rules::PLAIN, file, profile, function, &[9]);
            let lines: Vec<&str> = printed.lines().collect();
            text += &format!("{profile} {function} 9: {}\n", lines.join(", "));
        }
    }
    text
}

/// The module of edition 4 converted to 3, any other to 4.
fn other_edition(file: &[u8]) -> Left {
    let to = match file {
        [4, ..] => Edition::Three,
        _ => Edition::Four,
    };
    desk::convert(Rules::PLAIN, to, file)
}

/// Files that are missing, different, or not wanted.
fn stale(directory: &Path, wanted: &BTreeMap<String, Vec<u8>>) -> Vec<String> {
    let mut stale: Vec<String> = wanted
        .iter()
        .filter(|(name, content)| {
            let there = std::fs::read(directory.join(name)).ok();
            there.as_ref() != Some(content)
        })
        .map(|(name, _)| name.clone())
        .collect();
    for entry in std::fs::read_dir(directory).into_iter().flatten().flatten() {
        let name = entry.file_name().to_string_lossy().into_owned();
        if !wanted.contains_key(&name) {
            stale.push(name);
        }
    }
    stale
}

fn readme() -> String {
    let mut text = String::from(
        "# Samples\n\n\
         Small modules, each with the small program's output for it beside it (`.txt`).\n\
         Formula lines (`.line`) stand beside their modules, at the end of this list.\n\
         All files of this directory are made by `target/tests/release/samples write samples`,\n\
         which `tests/run` builds; it looks whether they are up to date. Their sources are in\n\
         `tests/second/src/samples.rs` and the files of `tests/second/src/samples`.\n\n\
         The first line of an output is outcome, steps and height; then each slot's type and\n\
         payload, deepest first. A refused module has only its refusal number.\n",
    );
    for (title, samples) in [
        ("W1 to W12", &W_SAMPLES[..]),
        ("Programs", &PROGRAMS[..]),
        ("Numbers", &NUMBERS[..]),
        ("Limits, ends, typings", &LIMITS[..]),
        ("Files that can't be read", &REFUSED[..]),
        ("Old recipes, edition 1", &OLD[..]),
        ("Structures and a heap, edition 4", &HEAP[..]),
        ("Managed blocks, edition 4", &MANAGED[..]),
    ] {
        text += &table(title, samples);
    }
    text + &needed() + &profiles() + &conversions() + &lines()
}

/// What `need` prints of a sample, on standard output or on standard error.
fn needs(sample: &Sample) -> String {
    match desk::need(Rules::PLAIN, &sample.file()) {
        Left::Printed(bytes) => String::from_utf8_lossy(&bytes).into_owned(),
        Left::Refused(line) => line,
        Left::Usage | Left::Missing => String::new(),
    }
}

/// The needs.
fn needed() -> String {
    let mut text = String::from(
        "\n## The stack that a module needs\n\n\
         `NAME.need` is what `./limpet need NAME.lsk` prints: for the entry and each function slots and\n\
         frames; or, on standard error, 47 and the first body from which calls come back.\n\n\
         | sample | first line of output | first line of need | shows |\n|--|--|--|--|\n",
    );
    for sample in &NEEDS {
        let needs = needs(sample);
        text += &format!(
            "| `{}.{MODULE}` | `{}` | `{}` | {} |\n",
            sample.name,
            first(sample),
            needs.lines().next().unwrap_or(""),
            sample.shows
        );
    }
    text
}

/// The profiles.
fn profiles() -> String {
    let rows = table("Profiles, edition 4", &PROFILES);
    let text = "\n`NAME.profiles` has for some profiles and each function what\n\
         `./limpet run --profile PROFILE NAME.lsk FUNCTION 9` prints: the two numbers and 9, then\n\
         its lines joined by commas. 17 is a function made for another profile.\n";
    rows + text
}

/// The conversions: what each module becomes.
fn conversions() -> String {
    let mut text = String::from(
        "\n## Conversions between editions 3 and 4\n\n\
         `NAME-3.lsk` and `NAME-4.lsk` become each other: `./limpet convert 4 < NAME-3.lsk` writes\n\
         the bytes of `NAME-4.lsk`, and `./limpet convert 3 < NAME-4.lsk` those of `NAME-3.lsk`.\n\
         `NAME.refused` is what the command prints on standard error: a module of edition 4 is\n\
         converted to 3, one of edition 1 to 4.\n\n\
         | sample | first line of output | becomes | shows |\n|--|--|--|--|\n",
    );
    for sample in &CONVERSIONS {
        let becomes = match other_edition(&sample.file()) {
            Left::Refused(line) => line.trim_end().to_string(),
            _ => twin(sample.name),
        };
        text += &format!(
            "| `{}.{MODULE}` | `{}` | `{becomes}` | {} |\n",
            sample.name,
            first(sample),
            sample.shows
        );
    }
    text
}

/// The file of a sample's twin.
fn twin(name: &str) -> String {
    let (start, edition) = name.rsplit_once('-').unwrap_or((name, ""));
    let other = if edition == "3" { "4" } else { "3" };
    format!("{start}-{other}.{MODULE}")
}

/// The first line of the small program's output.
fn first(sample: &Sample) -> String {
    let output = small(Rules::PLAIN, &sample.file());
    output.lines().next().unwrap_or("").to_string()
}

/// The formula lines.
fn lines() -> String {
    let mut text = String::from(
        "\n## Formula lines\n\n\
         `NAME.line` has the line and a line end, `NAME.lsk` the module that\n\
         `./limpet formula LINE` writes, `NAME.txt` what the small program prints for it (the\n\
         entry is empty), and `NAME.runs` for some r, g, b what\n\
         `./limpet run NAME.lsk 0 R G B` prints, its lines joined by commas.\n\n\
         | sample | line | first run | shows |\n|--|--|--|--|\n",
    );
    for sample in &LINES {
        let file = formula::module(Rules::PLAIN, sample.line.as_bytes()).unwrap_or_default();
        let runs = runs(sample, &file);
        let first = runs.lines().next().unwrap_or("");
        text += &format!(
            "| `{}.line` | {} | `{first}` | {} |\n",
            sample.name,
            short(sample.line),
            sample.shows
        );
    }
    text += "\n## Formula lines that are refused\n\n\
         `NAME.refused` is what `./limpet formula LINE` prints on standard error: the number and,\n\
         for 41, how many bytes some line of the grammar begins with.\n\n\
         | sample | line | refused | shows |\n|--|--|--|--|\n";
    for sample in &REFUSED_LINES {
        let Left::Refused(refusal) = desk::formula(Rules::PLAIN, sample.line.as_bytes()) else {
            continue;
        };
        text += &format!(
            "| `{}.line` | {} | `{}` | {} |\n",
            sample.name,
            short(sample.line),
            refusal.trim_end(),
            sample.shows
        );
    }
    text
}

/// A long line is shown by its beginning.
fn short(line: &str) -> String {
    match line.char_indices().nth(40) {
        Some((end, _)) => format!("`{}...`", &line[..end]),
        None if line.is_empty() => String::new(),
        None => format!("`{line}`"),
    }
}

fn table(title: &str, samples: &[Sample]) -> String {
    let mut text =
        format!("\n## {title}\n\n| sample | first line of output | shows |\n|--|--|--|\n");
    for sample in samples {
        text += &format!(
            "| `{}.{MODULE}` | `{}` | {} |\n",
            sample.name,
            first(sample),
            sample.shows
        );
    }
    text
}

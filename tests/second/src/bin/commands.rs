//! Compares the desk's commands of a program with the second program's: `formula LINE` on the
//! samples and on generated lines, `run [--profile N] FILE FUNCTION [INT...]` on the samples, on
//! the modules that come of lines, and on generated ones, `convert 4` and `convert 3` on the
//! samples and on generated modules, `check [--body N] --record RECORD FILE` on these too, with the
//! record that is kept, and `need FILE`; and what is said to bad usage.
//!
//! `commands <executable> <samples> [--seed N] [--seconds N | --cases N] [--from N] [--most N]`

use second::args;
use second::conversion::TARGETS;
use second::desk::{self, Kept, Left};
use second::formula;
use second::gen::case::Case;
use second::gen::conversions::ConvertCase;
use second::gen::lines::{line, LineCase};
use second::gen::needs::NeedCase;
use second::gen::profiles::named;
use second::gen::rng::Rng;
use second::hex;
use second::opcode::Edition;
use second::reader::{read, ENTRY, LONGEST};
use second::rules::Rules;
use second::show::MOST_READ;
use std::ffi::OsString;
use std::io::Read;
use std::os::unix::ffi::{OsStrExt, OsStringExt};
use std::path::{Path, PathBuf};
use std::process::{Command, Stdio};
use std::time::{Duration, Instant};

/// How long a command may take.
const PATIENCE: Duration = Duration::from_secs(30);

fn main() {
    let words: Vec<String> = std::env::args().collect();
    let [_, executable, samples, ..] = &words[..] else {
        eprintln!("usage: commands <executable> <samples> [--seed N] [--seconds N | --cases N] [--from N]");
        std::process::exit(2);
    };
    args::expect(&["--seed", "--cases", "--seconds", "--from", "--most"]);
    let mut desk = Desk {
        executable: executable.clone(),
        scratch: std::env::temp_dir()
            .join(format!("limpetskein-commands-{}.lsk", std::process::id())),
        calls: 0,
        differences: 0,
        most: args::number("--most", 5),
    };
    desk.usage(Path::new(samples));
    desk.long_inputs();
    let files = desk.samples(Path::new(samples));
    let cases = desk.generated();
    let _ = std::fs::remove_file(&desk.scratch);
    let _ = std::fs::remove_file(desk.record());
    println!(
        "commands: {files} samples, {cases} cases, {} calls, {} differences",
        desk.calls, desk.differences
    );
    if desk.differences > 0 {
        std::process::exit(1);
    }
}

/// The profile, where one is named, and the function.
type Start = (Option<u32>, u32);

struct Desk {
    executable: String,
    /// Where modules to be run are put.
    scratch: PathBuf,
    calls: u64,
    differences: u64,
    most: u64,
}

impl Desk {
    /// Bad usage: status 2, a line on standard error, nothing on standard output.
    fn usage(&mut self, samples: &Path) {
        let file = samples.join("parameters.lsk").into_os_string();
        let word = |text: &str| OsString::from(text);
        let run = |more: &[&str]| {
            let mut words = vec![word("run"), file.clone()];
            words.extend(more.iter().map(|text| word(text)));
            words
        };
        let profiled = |number: &str, more: &[&str]| {
            let option = [word("run"), word("--profile"), word(number), file.clone()];
            let more = more.iter().map(|text| word(text));
            option.into_iter().chain(more).collect()
        };
        for words in [
            vec![word("formula")],
            vec![word("formula"), word("r"), word("g")],
            vec![word("run")],
            vec![word("run"), word("--profile")],
            vec![word("run"), word("--profile"), word("5")],
            profiled("5", &[]),
            profiled("x", &["0", "1", "1", "2"]),
            profiled("", &["0", "1", "1", "2"]),
            profiled("-1", &["0", "1", "1", "2"]),
            profiled("4294967296", &["0", "1", "1", "2"]),
            profiled("0", &["0", "1x", "1", "2"]),
            run(&["--profile", "5", "0", "1", "1", "2"]),
            run(&["0", "1", "1", "2", "--profile", "5"]),
            vec![word("convert")],
            vec![word("convert"), word("1")],
            vec![word("convert"), word("5")],
            vec![word("convert"), word("34")],
            vec![word("convert"), word("-4")],
            vec![word("convert"), word("")],
            vec![word("convert"), word("4"), word("3")],
            vec![word("convert"), word("3"), file.clone()],
            run(&[]),
            run(&["x"]),
            run(&["4294967296"]),
            run(&["-1"]),
            run(&["0", "4294967296", "1", "2"]),
            run(&["0", "-1", "1", "2"]),
            run(&["0", "1x", "1", "2"]),
            run(&["0", "", "1", "2"]),
            run(&["0", "1", "2", "18446744073709551616"]),
        ] {
            self.compare("usage", &words, &Left::Usage);
        }
        self.check_usage(&file);
        self.need_usage(&file);
    }

    /// Bad usage of `need`, and a file that is not there.
    fn need_usage(&mut self, file: &OsString) {
        let need = OsString::from("need");
        let two = [need.clone(), file.clone(), file.clone()];
        for words in [&[need.clone()][..], &two] {
            self.compare("usage", words, &Left::Usage);
        }
        let words = [need, OsString::from("no such file")];
        self.compare("a file that is not there", &words, &Left::Missing);
    }

    /// What `need` says of a module.
    fn need(&mut self, place: &str, path: &Path, file: &[u8]) {
        let words = ["need".into(), path.into()];
        let wanted = desk::need(Rules::PLAIN, file);
        let differences = self.differences;
        self.compare(place, &words, &wanted);
        if self.differences > differences {
            println!("  module: {}", hex::encode(file));
        }
    }

    /// What it says of a sample is the text beside it, where there is one.
    fn sample_need(&mut self, path: &Path, file: &[u8]) {
        self.need("sample", path, file);
        let Ok(text) = std::fs::read_to_string(path.with_extension("need")) else {
            return;
        };
        let wanted = match text.starts_with("entry") {
            true => Left::Printed(text.into_bytes()),
            false => Left::Refused(text),
        };
        let own = desk::need(Rules::PLAIN, file);
        assert_eq!(own, wanted, "{}", path.display());
    }

    /// Bad usage of `check`, and files that are not there.
    fn check_usage(&mut self, file: &OsString) {
        let record = self.record();
        let with = |words: &[&str]| -> Vec<OsString> {
            let words = words.iter().map(|word| match *word {
                "FILE" => file.clone(),
                "RECORD" => record.clone().into(),
                _ => OsString::from(word),
            });
            std::iter::once("check".into()).chain(words).collect()
        };
        for words in [
            with(&[]),
            with(&["FILE"]),
            with(&["--record", "FILE"]),
            with(&["--body", "0", "FILE"]),
            with(&["--body", "0", "--record", "FILE"]),
            with(&["--record", "RECORD", "FILE", "FILE"]),
            with(&["--recorded", "RECORD", "FILE"]),
        ] {
            self.compare("usage", &words, &Left::Usage);
        }
        let _ = std::fs::remove_file(&record);
        for words in [
            with(&["--record", "RECORD", "no such file"]),
            with(&["--body", "0", "--record", "RECORD", "FILE"]),
        ] {
            self.compare("a file that is not there", &words, &Left::Missing);
        }
        std::fs::write(&record, [0; 9]).expect("a file for the record");
        for body in ["x", "", "-1", "4294967296", "entries"] {
            let words = with(&["--body", body, "--record", "RECORD", "FILE"]);
            self.compare("usage", &words, &Left::Usage);
        }
    }

    /// The file for records.
    fn record(&self) -> PathBuf {
        self.scratch.with_extension("rec")
    }

    /// A full check that keeps a record; then a check of the entry beside the record with its last
    /// byte turned.
    fn checks(&mut self, place: &str, path: &Path, file: &[u8]) -> Option<Vec<u8>> {
        let _ = std::fs::remove_file(self.record());
        let words = [
            "check".into(),
            "--record".into(),
            self.record().into(),
            path.into(),
        ];
        let whole = desk::check_whole(Rules::PLAIN, file);
        self.compare_kept(place, &words, &whole, None);
        let record = whole.record?;
        self.check_beside(place, path, file, ("entry", ENTRY), &turned(&record));
        Some(record)
    }

    /// Checks of the entry, of the first function and of one that is not there, each beside the
    /// record as it is, with its last byte turned, and cut short.
    fn bodies(&mut self, place: &str, path: &Path, file: &[u8], record: &[u8]) {
        let short = &record[..record.len() - 1];
        for beside in [record, &turned(record), short] {
            for body in [("entry", ENTRY), ("0", 0), ("200", 200)] {
                self.check_beside(place, path, file, body, beside);
            }
        }
    }

    fn check_beside(
        &mut self,
        place: &str,
        path: &Path,
        file: &[u8],
        body: (&str, u32),
        beside: &[u8],
    ) {
        std::fs::write(self.record(), beside).expect("a file for the record");
        let mut words: Vec<OsString> = ["check", "--body", body.0, "--record"]
            .map(Into::into)
            .into();
        words.extend([self.record().into(), path.into()]);
        let one = desk::check_one(Rules::PLAIN, file, body.1, beside);
        self.compare_kept(place, &words, &one, Some(beside));
    }

    /// What is said, and the record after it: what is kept, or what was there.
    fn compare_kept(
        &mut self,
        place: &str,
        words: &[OsString],
        kept: &Kept,
        before: Option<&[u8]>,
    ) {
        self.compare(place, words, &kept.left);
        let wanted = kept.record.as_deref().or(before);
        let found = std::fs::read(self.record()).ok();
        if found.as_deref() != wanted && self.differences < self.most {
            self.differences += 1;
            println!("DIFFERENCE at {place}: the record is {found:?}, not {wanted:?}");
        }
    }

    /// More bytes than are read: what is past one more than the longest module does not count.
    fn long_inputs(&mut self) {
        for to in TARGETS {
            for length in [LONGEST, MOST_READ, MOST_READ + 5] {
                let mut file = vec![0; MOST_READ + 5];
                file[0] = if to == Edition::Four { 3 } else { 4 };
                file[4..8].copy_from_slice(&(length as u32).to_le_bytes());
                std::fs::write(&self.scratch, &file).expect("a file for the module");
                let path = self.scratch.clone();
                self.convert("a long input", &path, &file, to);
                self.need("a long input", &path, &file);
            }
        }
    }

    /// Every line and every module of the samples.
    fn samples(&mut self, samples: &Path) -> u64 {
        let Ok(entries) = std::fs::read_dir(samples) else {
            println!("DIFFERENCE: {} can't be read", samples.display());
            self.differences += 1;
            return 0;
        };
        let mut paths: Vec<PathBuf> = entries.flatten().map(|entry| entry.path()).collect();
        paths.sort();
        let mut lines = 0;
        for path in &paths {
            if path
                .extension()
                .is_some_and(|extension| extension == "line")
            {
                let text = std::fs::read(path).expect("a sample");
                let line = text.strip_suffix(b"\n").unwrap_or(&text);
                lines += 1;
                // the module, or the refusal, is the file beside the line
                let wanted = match std::fs::read(path.with_extension("lsk")) {
                    Ok(file) => Left::Printed(file),
                    Err(_) => Left::Refused(
                        std::fs::read_to_string(path.with_extension("refused")).unwrap_or_default(),
                    ),
                };
                self.compare("sample", &formula_words(line), &wanted);
                assert_eq!(
                    desk::formula(Rules::PLAIN, line),
                    wanted,
                    "{}",
                    path.display()
                );
            }
            if path.extension().is_some_and(|extension| extension == "lsk") {
                let file = std::fs::read(path).expect("a sample");
                let calls: [(u32, &[u32]); 2] = [(0, &[100, 50, 25]), (ENTRY, &[])];
                for (function, ints) in calls {
                    self.compare_run("sample", path, &file, (None, function), ints);
                }
                self.profiles(path);
                self.convert("sample", path, &file, other(&file));
                self.checks("sample", path, &file);
                self.sample_need(path, &file);
                self.runs(path);
            }
        }
        if lines == 0 {
            println!("DIFFERENCE: {} has no lines", samples.display());
            self.differences += 1;
        }
        paths.len() as u64
    }

    /// What is printed of runs for profiles is the text beside a module of these.
    fn profiles(&mut self, path: &Path) {
        let text = std::fs::read_to_string(path.with_extension("profiles")).unwrap_or_default();
        for run in text.lines() {
            let (numbers, printed) = run.split_once(": ").expect("numbers and what is printed");
            let (profile, numbers) = numbers.split_once(' ').expect("profile and function");
            let mut words: Vec<OsString> = ["run", "--profile", profile].map(Into::into).into();
            words.push(path.into());
            words.extend(numbers.split(' ').map(OsString::from));
            let wanted = format!("{}\n", printed.replace(", ", "\n"));
            self.compare("sample", &words, &Left::Printed(wanted.into_bytes()));
        }
    }

    /// What is printed of runs is the text beside a formula's module.
    fn runs(&mut self, path: &Path) {
        let text = std::fs::read_to_string(path.with_extension("runs")).unwrap_or_default();
        for run in text.lines() {
            let (numbers, printed) = run.split_once(": ").expect("numbers and what is printed");
            let mut words = vec![OsString::from("run"), path.into(), OsString::from("0")];
            words.extend(numbers.split(' ').map(OsString::from));
            let wanted = format!("{}\n", printed.replace(", ", "\n"));
            self.compare("sample", &words, &Left::Printed(wanted.into_bytes()));
        }
    }

    /// Generated lines and their modules; every fourth time a generated module, every fourth time a
    /// conversion, and every other time a module's needs.
    fn generated(&mut self) -> u64 {
        let seed = args::number("--seed", 1);
        let from = args::number("--from", 0);
        let cases = args::value("--cases").map(|_| args::number("--cases", 0));
        let seconds = args::number("--seconds", 60);
        let start = Instant::now();
        let mut number = from;
        loop {
            let done = match cases {
                Some(cases) => number - from >= cases,
                None => start.elapsed() >= Duration::from_secs(seconds),
            };
            if done || self.differences >= self.most {
                return number - from;
            }
            let place = format!("case {number} of seed {seed} (--from {number} --cases 1)");
            self.line(&place, seed, number);
            if number.is_multiple_of(4) {
                self.module(&place, seed, number);
            }
            if number % 4 == 2 {
                let case = ConvertCase::new(seed, number);
                std::fs::write(&self.scratch, &case.module).expect("a file for the module");
                let path = self.scratch.clone();
                self.convert(&place, &path, &case.module, case.to);
            }
            if number % 2 == 1 {
                let case = NeedCase::new(seed, number);
                std::fs::write(&self.scratch, &case.module).expect("a file for the module");
                let path = self.scratch.clone();
                self.need(&place, &path, &case.module);
            }
            number += 1;
        }
    }

    fn line(&mut self, place: &str, seed: u64, number: u64) {
        let (_, line) = line(&mut Rng::for_case(seed, number));
        // an argument can't hold this byte
        if line.contains(&0) {
            return;
        }
        let wanted = desk::formula(Rules::PLAIN, &line);
        self.compare(place, &formula_words(&line), &wanted);
        if let Ok(file) = formula::module(Rules::PLAIN, &line) {
            let names = LineCase::new(seed, number).names[0];
            self.run_of(place, &file, (None, 0), &names);
        }
    }

    fn module(&mut self, place: &str, seed: u64, number: u64) {
        let case = Case::new(seed, number);
        let mut rng = Rng::for_case(seed, number ^ (1 << 40));
        let functions = read(Rules::PLAIN, &case.module).map_or(1, |module| module.functions);
        let function = match rng.below(8) {
            0 => ENTRY,
            1 => functions,
            _ => rng.below(functions as usize) as u32,
        };
        let declared = read(Rules::PLAIN, &case.module)
            .ok()
            .and_then(|module| module.function(function));
        let own = declared.as_ref().map_or(0, |function| function.profile);
        let mut count = declared.map_or(0, |function| function.parameters.len());
        if rng.one_in(10) {
            count = rng.below(10);
        }
        let ints: Vec<u32> = (0..count)
            .map(|_| rng.pick(&[0, 1, 7, 300, u32::MAX]))
            .collect();
        let profile = (!rng.one_in(4)).then(|| named(&mut rng, own));
        self.run_of(place, &case.module, (profile, function), &ints);
        let path = self.scratch.clone();
        if let Some(record) = self.checks(place, &path, &case.module) {
            self.bodies(place, &path, &case.module, &record);
        }
    }

    fn run_of(&mut self, place: &str, file: &[u8], start: Start, ints: &[u32]) {
        std::fs::write(&self.scratch, file).expect("a file for the module");
        let path = self.scratch.clone();
        self.compare_run(place, &path, file, start, ints);
    }

    fn compare_run(&mut self, place: &str, path: &Path, file: &[u8], start: Start, ints: &[u32]) {
        let (profile, function) = start;
        let mut words = vec![OsString::from("run")];
        if let Some(profile) = profile {
            words.extend(["--profile".into(), profile.to_string().into()]);
        }
        words.extend([path.into(), function.to_string().into()]);
        words.extend(ints.iter().map(|int| OsString::from(int.to_string())));
        let profile = profile.unwrap_or(0);
        let printed = desk::run(Rules::PLAIN, file, profile, function, ints);
        let wanted = Left::Printed(printed.into_bytes());
        let differences = self.differences;
        self.compare(place, &words, &wanted);
        if self.differences > differences {
            println!("  module: {}", hex::encode(file));
        }
    }

    /// The module of a path on standard input.
    fn convert(&mut self, place: &str, path: &Path, file: &[u8], to: Edition) {
        let words = ["convert".into(), to.word().to_string().into()];
        let wanted = desk::convert(Rules::PLAIN, to, file);
        let differences = self.differences;
        self.compare_on(place, Some(path), &words, &wanted);
        if self.differences > differences {
            println!("  module: {}", hex::encode(file));
        }
    }

    fn compare(&mut self, place: &str, words: &[OsString], wanted: &Left) {
        self.compare_on(place, None, words, wanted);
    }

    fn compare_on(&mut self, place: &str, input: Option<&Path>, words: &[OsString], wanted: &Left) {
        if self.differences >= self.most {
            return;
        }
        self.calls += 1;
        let (status, output, errors) = called(&self.executable, input, words);
        let same = match wanted {
            // the small program's status is not laid down: a run's must be no sign of bad usage
            Left::Printed(bytes) if words[0] == "run" => {
                output == *bytes && matches!(status, Some(0 | 1))
            }
            Left::Printed(bytes) => output == *bytes && status == Some(0) && errors.is_empty(),
            Left::Refused(line) => {
                output.is_empty() && errors == line.as_bytes() && status == Some(1)
            }
            Left::Usage | Left::Missing => {
                let line = errors.len() > 1 && errors.ends_with(b"\n");
                let number = if *wanted == Left::Usage { 2 } else { 3 };
                output.is_empty() && line && status == Some(number)
            }
        };
        if same {
            return;
        }
        self.differences += 1;
        let words: Vec<String> = words
            .iter()
            .map(|word| format!("'{}'", word.as_bytes().escape_ascii()))
            .collect();
        println!(
            "DIFFERENCE in {place}: {} {}",
            self.executable,
            words.join(" ")
        );
        println!("  second program: {}", shown(wanted));
        println!(
            "  program: status {status:?}, output {}, errors {}",
            shortened(&output),
            shortened(&errors)
        );
    }
}

/// The edition that a file is not of.
fn other(file: &[u8]) -> Edition {
    match file {
        [4, ..] => Edition::Three,
        _ => Edition::Four,
    }
}

fn formula_words(line: &[u8]) -> Vec<OsString> {
    vec![OsString::from("formula"), OsString::from_vec(line.to_vec())]
}

fn shown(left: &Left) -> String {
    match left {
        Left::Printed(bytes) => format!("output {}", shortened(bytes)),
        Left::Refused(line) => format!("status 1, errors {}", shortened(line.as_bytes())),
        Left::Usage => "status 2 and a line on standard error".to_string(),
        Left::Missing => "status 3 and a line on standard error".to_string(),
    }
}

fn shortened(bytes: &[u8]) -> String {
    let start = &bytes[..bytes.len().min(200)];
    format!("\"{}\" ({} bytes)", start.escape_ascii(), bytes.len())
}

/// Status, standard output and standard error. A program that doesn't run or doesn't end has no
/// status, which differs from everything.
fn called(
    executable: &str,
    input: Option<&Path>,
    words: &[OsString],
) -> (Option<i32>, Vec<u8>, Vec<u8>) {
    let file = |path| std::fs::File::open(path).expect("a module");
    let child = Command::new(executable)
        .args(words)
        .stdin(input.map_or_else(Stdio::null, |path| file(path).into()))
        .stdout(Stdio::piped())
        .stderr(Stdio::piped())
        .spawn();
    let Ok(mut child) = child else {
        eprintln!("{executable} can't be run");
        return (None, Vec::new(), Vec::new());
    };
    let (sender, receiver) = std::sync::mpsc::channel();
    let (output, errors) = (child.stdout.take(), child.stderr.take());
    std::thread::spawn(move || {
        let (mut printed, mut said) = (Vec::new(), Vec::new());
        if let (Some(mut output), Some(mut errors)) = (output, errors) {
            let both = std::thread::spawn(move || {
                let _ = errors.read_to_end(&mut said);
                said
            });
            let _ = output.read_to_end(&mut printed);
            let _ = sender.send((printed, both.join().unwrap_or_default()));
        }
    });
    match receiver.recv_timeout(PATIENCE) {
        Ok((printed, said)) => {
            let status = child.wait().ok().and_then(|status| status.code());
            (status, printed, said)
        }
        Err(_) => {
            println!("no answer in {} s", PATIENCE.as_secs());
            let _ = child.kill();
            let _ = child.wait();
            (None, Vec::new(), Vec::new())
        }
    }
}

/// A record with its last byte turned.
fn turned(record: &[u8]) -> Vec<u8> {
    let mut record = record.to_vec();
    if let Some(byte) = record.last_mut() {
        *byte ^= 1;
    }
    record
}

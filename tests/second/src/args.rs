//! Arguments of the small binaries: `--name value` pairs and plain words.

/// The value after `--name`.
pub fn value(name: &str) -> Option<String> {
    let mut args = std::env::args().skip(1);
    while let Some(arg) = args.next() {
        if arg == name {
            return args.next();
        }
    }
    None
}

/// The number after `--name`, in decimal, or the default.
pub fn number(name: &str, default: u64) -> u64 {
    match value(name) {
        None => default,
        Some(text) => text.parse().unwrap_or_else(|_| {
            eprintln!("{name} needs a number, not {text}");
            std::process::exit(2);
        }),
    }
}

/// Is the word there?
pub fn has(name: &str) -> bool {
    std::env::args().skip(1).any(|arg| arg == name)
}

/// Stops at an argument that the binary doesn't know.
pub fn expect(names: &[&str]) {
    for arg in std::env::args().skip(1) {
        if arg.starts_with("--") && !names.contains(&arg.as_str()) {
            eprintln!("unknown argument {arg}; known are {}", names.join(", "));
            std::process::exit(2);
        }
    }
}

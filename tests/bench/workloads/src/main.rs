//! Writes the modules that the benchmark runs, checks and opens: `workloads DIRECTORY`.

mod heap;
mod large;
mod small;

use std::path::Path;

fn main() {
    let Some(directory) = std::env::args().nth(1) else {
        eprintln!("usage: workloads DIRECTORY");
        std::process::exit(2);
    };
    let modules = [small::modules(), large::modules(), heap::modules()];
    for (name, file) in modules.into_iter().flatten() {
        let path = Path::new(&directory).join(name).with_extension("lsk");
        if let Err(error) = std::fs::write(&path, file) {
            eprintln!("{}: {error}", path.display());
            std::process::exit(1);
        }
    }
}

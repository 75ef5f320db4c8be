//! Links the archive that `LIMPETSKEIN_ARCHIVE` names, a file `lib<name>.a`. With
//! `LIMPETSKEIN_WITHOUT_ROWS` set, for an archive that has no call on rows, `--rows` is left out; with
//! `LIMPETSKEIN_WITHOUT_RECORDS`, for one that has no checks with records, `--records`; with
//! `LIMPETSKEIN_WITHOUT_NEEDS`, for one that tells no needs, `--needs`.

use std::path::PathBuf;

fn main() {
    println!("cargo:rerun-if-env-changed=LIMPETSKEIN_ARCHIVE");
    for (variable, name) in [
        ("LIMPETSKEIN_WITHOUT_ROWS", "without_rows"),
        ("LIMPETSKEIN_WITHOUT_RECORDS", "without_records"),
        ("LIMPETSKEIN_WITHOUT_NEEDS", "without_needs"),
    ] {
        println!("cargo:rerun-if-env-changed={variable}");
        println!("cargo:rustc-check-cfg=cfg({name})");
        if std::env::var_os(variable).is_some() {
            println!("cargo:rustc-cfg={name}");
        }
    }
    let Some(archive) = std::env::var_os("LIMPETSKEIN_ARCHIVE") else {
        panic!("LIMPETSKEIN_ARCHIVE must name the archive to test");
    };
    let archive = PathBuf::from(archive);
    println!("cargo:rerun-if-changed={}", archive.display());
    let directory = archive.parent().expect("the archive lies in a directory");
    let stem = archive.file_stem().and_then(|stem| stem.to_str());
    let name = stem.and_then(|stem| stem.strip_prefix("lib"));
    let name = name.expect("the archive's name is lib<name>.a");
    println!("cargo:rustc-link-search=native={}", directory.display());
    println!("cargo:rustc-link-lib=static={name}");
}

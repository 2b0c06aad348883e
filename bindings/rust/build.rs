//! Finds libkhlongrae.a: in the folder that `KHLONGRAE_LIB` names, or where tools/native-lib leaves it.
use std::env;
use std::path::{Path, PathBuf};

fn main() {
    println!("cargo::rerun-if-env-changed=KHLONGRAE_LIB");
    let folder = match env::var_os("KHLONGRAE_LIB") {
        Some(folder) => PathBuf::from(folder),
        None => Path::new(env!("CARGO_MANIFEST_DIR")).join("../../target/generic"),
    };
    let archive = folder.join("libkhlongrae.a");
    assert!(
        archive.is_file(),
        "no {}: run 'tools/native-lib khlongrae' in the repository, or name the archive's folder in KHLONGRAE_LIB",
        archive.display()
    );
    println!("cargo::rerun-if-changed={}", archive.display());
    println!("cargo::rustc-link-search=native={}", folder.display());
    println!("cargo::rustc-link-lib=static=khlongrae");
}
